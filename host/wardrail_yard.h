/* wardrail_yard.h: the yard's calls of libwardrail.a. wardrail.h says what every call answers and what a caller owes.
 *
 * THE TABLES are the caller's: a head, S seats, S rows of P / 8 bytes rounded up, high bit first, and P holder counts. Every call
 * takes all four and keeps nothing. Any content is answered: a flag of a seat is on where it is not 0, and the calls write 0 and 1.
 * Each call first refuses tables whose sizes don't fit (38).
 *
 * The place of every refusal is 0, so the word that a call answers is its number, or WARDRAIL_WAIT where more bytes are needed. */
#ifndef WARDRAIL_YARD_H
#define WARDRAIL_YARD_H

#include "wardrail.h"

#include <stdbool.h>

#ifdef __cplusplus
extern "C" {
#endif

/* The free place where no seat has it. */
#define WARDRAIL_NOBODY 0xffffffff

struct wardrail_head {
    uint32_t pieces, piece_length, last_length; /* P, and the lengths of a piece and of the last one */
    uint32_t taken, complete;                   /* seats taken, seats that hold every piece */
    uint32_t round;                             /* the number of the next round, modulo 3 */
    uint32_t free, last;                        /* the free place, a seat or WARDRAIL_NOBODY, and the seat that last had it */
};
WARDRAIL_ASSERT(sizeof(struct wardrail_head) == 32, "eight words");
WARDRAIL_ASSERT(offsetof(struct wardrail_head, last) == 28, "eight words");

struct wardrail_seat {
    uint8_t taken, fresh;                  /* fresh: no frame of its truck with an id was taken yet */
    uint8_t am_choking, am_interested;     /* our marks */
    uint8_t peer_choking, peer_interested; /* the truck's */
    uint16_t held;                         /* how many pieces */
    uint64_t bytes;                        /* of its blocks, since the last round or since it sat down */
};
WARDRAIL_ASSERT(sizeof(struct wardrail_seat) == 16, "six flags and two counts, no padding");
WARDRAIL_ASSERT(offsetof(struct wardrail_seat, bytes) == 8, "six flags and two counts, no padding");

/* What a frame that is a request is for us. */
enum wardrail_request { WARDRAIL_REQUEST_NONE = 0, WARDRAIL_REQUEST_SERVE = 1, WARDRAIL_REQUEST_DROP = 2 };

/* What a call says beside its number: one value, under the name that the call below has for it. What it does not have is 0. */
struct wardrail_told {
    union {
        uint64_t value;
        uint64_t seat, used, listed, piece, has, holders, unchoked;
    };
    uint64_t request; /* of a frame: enum wardrail_request */
    uint64_t total;   /* of a page: how many trucks of the whole yard lack a piece */
    uint64_t next;    /* of a page: the next missing seat that is not listed, or S */
};
WARDRAIL_ROW(wardrail_told, 4, next);

#define WARDRAIL_TABLES                                                                                         \
    struct wardrail_head *head, struct wardrail_seat *seats, size_t seats_count, uint8_t *rows, size_t rows_count, \
        uint16_t *holders, size_t holders_count
/* the same where seats, rows and holder counts are only looked at; the head then stays too */
#define WARDRAIL_TABLES_READ                                                                                    \
    struct wardrail_head *head, const struct wardrail_seat *seats, size_t seats_count, const uint8_t *rows,     \
        size_t rows_count, const uint16_t *holders, size_t holders_count

/* Starts a yard: sets the sizes, makes the free place nobody's and `last` S - 1, and makes the rest 0. 38. */
uint64_t wardrail_yard_start(WARDRAIL_TABLES, uint32_t pieces, uint32_t piece_length, uint32_t last_length);

/* A truck takes the lowest free seat, which becomes `seat`. 38, 35, 39. */
uint64_t wardrail_yard_sit(WARDRAIL_TABLES, struct wardrail_told *told);

/* The truck of a seat leaves, and gives the free place up. 38, 36, 39. */
uint64_t wardrail_yard_leave(WARDRAIL_TABLES, size_t seat);

/* The first frame of what came in from the truck of a seat: `used` becomes how many bytes it has. 38, 36, the frame's 20 and 21,
 * then by its id 30 to 34 and 39, which is also a piece's where `bytes` would pass 2^53. A keepalive has no id: it uses its 4
 * bytes and changes nothing. */
uint64_t wardrail_yard_feed(WARDRAIL_TABLES, size_t seat, const uint8_t *bytes, size_t bytes_count, struct wardrail_told *told);

/* Our own choke and interest: sets the mark, and writes the 5 bytes of the frame to the start of `frame`. 38, 36, 37. */
uint64_t wardrail_yard_choke(struct wardrail_head *head, struct wardrail_seat *seats, size_t seats_count, const uint8_t *rows,
                             size_t rows_count, const uint16_t *holders, size_t holders_count, size_t seat, bool on,
                             uint8_t *frame, size_t frame_count);
uint64_t wardrail_yard_interest(struct wardrail_head *head, struct wardrail_seat *seats, size_t seats_count, const uint8_t *rows,
                                size_t rows_count, const uint16_t *holders, size_t holders_count, size_t seat, bool on,
                                uint8_t *frame, size_t frame_count);

/* A round: of the interested trucks the four that sent most bytes are unchoked, and the one with the free place, which every
 * third round gives on; all others are choked. `unchoked` becomes how many are not. 38, then 39 where `round` is over 2, or
 * `last`, or `free` unless it is WARDRAIL_NOBODY, is no seat. It writes no frames: the caller sees which marks changed by a copy
 * of the seats from before, here of the yard of README, and has the frame of each mark written.
 *
 *     for (size_t i = 0; i < sizeof y.seats / sizeof *y.seats; i++)
 *         if (y.seats[i].taken && y.seats[i].am_choking != before[i].am_choking)
 *             if (!wardrail_yard_choke(YARD, i, y.seats[i].am_choking, frame, 5)) send(links[i], frame, 5, 0);
 */
uint64_t wardrail_yard_round(struct wardrail_head *head, struct wardrail_seat *seats, size_t seats_count, const uint8_t *rows,
                             size_t rows_count, const uint16_t *holders, size_t holders_count, struct wardrail_told *told);

/* The missing list from seat `first` on: as many seats as fit go to the start of `page`, `listed` becomes how many. 38, 36.
 * Pages of any sizes, of one line at least, from seat 0 on and then from each `next` until that is S, with no other call between,
 * list every missing seat once, ascending, in all as many as the `total` on each of them. Where the sizes fit none is refused; at
 * most `total` pages are read, or one; and each but the last is full. Here of the yard of README:
 *
 *     told.next = 0;
 *     do {
 *         if (wardrail_yard_missing(YARD, told.next, page, sizeof page / sizeof *page, &told)) return 1;
 *         for (size_t i = 0; i < told.listed; i++) printf("seat %d\n", (int)page[i]);
 *     } while (told.next != sizeof y.seats / sizeof *y.seats);
 */
uint64_t wardrail_yard_missing(WARDRAIL_TABLES_READ, size_t first, uint32_t *page, size_t page_count, struct wardrail_told *told);

/* The smallest number among the pieces with fewest holders becomes `piece`. 38. */
uint64_t wardrail_yard_scarcest(WARDRAIL_TABLES_READ, struct wardrail_told *told);

/* The record of a seat, free or taken, becomes `seen`. 38, 36. */
uint64_t wardrail_yard_look(WARDRAIL_TABLES_READ, size_t seat, struct wardrail_seat *seen);

/* `has` becomes 1 where a seat's row has a piece, and else 0. 38, 36, 31. */
uint64_t wardrail_yard_has(WARDRAIL_TABLES_READ, size_t seat, size_t piece, struct wardrail_told *told);

/* How many trucks hold a piece becomes `holders`. 38, 31. */
uint64_t wardrail_yard_count(WARDRAIL_TABLES_READ, size_t piece, struct wardrail_told *told);

#ifdef __cplusplus
}
#endif
#endif
