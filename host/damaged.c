/* Yard calls on damaged tables, on tables of wrong sizes and on tables of any bytes, each answered as document 01 says; a refusal leaves
 * every byte as it was. And the looks at a place, at every place of a text; and the address for a torrent by a sheet, each of the two cut,
 * changed at every place and too long. And links of any bytes into outputs of any length, read and written; and weeks' files of any bytes,
 * read whole, by their tables and by any entry, and written of any bodies and lengths. Prints how many were tried, or each that went wrong. */
#include "wardrail_yard.h"

#include <stdio.h>
#include <string.h>

enum { SEATS = 8, PIECES = 10, WIDTH = 2, ROWS = SEATS * WIDTH };
/* the most bytes that a seat counts */
static const uint64_t MOST_SENT = 1ull << 53;

struct yard {
    struct wardrail_head head;
    struct wardrail_seat seats[SEATS + 1];
    uint8_t rows[ROWS + 1];
    uint16_t holders[PIECES + 1];
    size_t seats_count, rows_count, holders_count;
};

#define TABLES(y) &(y)->head, (y)->seats, (y)->seats_count, (y)->rows, (y)->rows_count, (y)->holders, (y)->holders_count

static int tried, wrong;
static struct wardrail_told told;

static uint64_t feed(struct yard *y, size_t seat, const uint8_t *bytes, size_t count) {
    return wardrail_yard_feed(TABLES(y), seat, bytes, count, &told);
}

static uint64_t have(struct yard *y, size_t seat, uint8_t piece) {
    const uint8_t frame[9] = {0, 0, 0, 5, 4, 0, 0, 0, piece};
    return feed(y, seat, frame, sizeof frame);
}

static uint64_t bitfield(struct yard *y, size_t seat, uint8_t first, uint8_t last) {
    const uint8_t frame[7] = {0, 0, 0, 3, 5, first, last};
    return feed(y, seat, frame, sizeof frame);
}

static uint64_t sit(struct yard *y) { return wardrail_yard_sit(TABLES(y), &told); }
static uint64_t leave(struct yard *y, size_t seat) { return wardrail_yard_leave(TABLES(y), seat); }
static uint64_t next_round(struct yard *y) { return wardrail_yard_round(TABLES(y), &told); }

/* A block of one byte. */
static uint64_t piece(struct yard *y, size_t seat) {
    const uint8_t frame[14] = {0, 0, 0, 10, 7};
    return feed(y, seat, frame, sizeof frame);
}

/* A yard of ten pieces: the truck of seat 0 has all of them, that of seat 1 has said nothing. */
static struct yard sound(void) {
    struct yard y;
    memset(&y, 0, sizeof y);
    y.seats_count = SEATS;
    y.rows_count = ROWS;
    y.holders_count = PIECES;
    if (wardrail_yard_start(TABLES(&y), PIECES, 16384, 100) || sit(&y) || sit(&y) || bitfield(&y, 0, 0xff, 0xc0)) wrong++;
    return y;
}

static void says(const char *what, int right) {
    tried++;
    if (right) return;
    wrong++;
    printf("%s\n", what);
}

/* The call refuses by that number and leaves everything. */
#define REFUSES(what, y, number, call)                                                                                    \
    do {                                                                                                                  \
        struct yard before = (y);                                                                                         \
        struct wardrail_told lent = told;                                                                                 \
        says(what, (call) == (number) && !memcmp(&before, &(y), sizeof before) && !memcmp(&lent, &told, sizeof lent));    \
    } while (0)

/* Counts at their top, to be raised. */
static void tops(void) {
    struct yard y = sound();
    leave(&y, 1);
    y.head.taken = SEATS;
    REFUSES("sit, taken at its top", y, 39, sit(&y));
    y.head.taken = UINT32_MAX;
    REFUSES("sit, taken past its top", y, 39, sit(&y));
    y = sound();
    y.holders[9] = SEATS;
    REFUSES("have, holders at their top", y, 39, have(&y, 1, 9));
    REFUSES("bitfield, holders at their top", y, 39, bitfield(&y, 1, 0, 0x40));
    y.holders[9] = UINT16_MAX;
    REFUSES("bitfield, holders past their top", y, 39, bitfield(&y, 1, 0xff, 0xc0));
    says("a piece announced before raises no count", have(&y, 0, 9) == 0 && y.holders[9] == UINT16_MAX && y.seats[0].held == PIECES);
    y = sound();
    y.head.complete = SEATS;
    REFUSES("bitfield, complete at its top", y, 39, bitfield(&y, 1, 0xff, 0xc0));
    y.seats[1].held = PIECES - 1;
    REFUSES("have, complete at its top", y, 39, have(&y, 1, 3));
    y = sound();
    y.seats[1].held = PIECES;
    REFUSES("have, held at its top", y, 39, have(&y, 1, 3));
    y.seats[1].held = UINT16_MAX;
    REFUSES("bitfield, held past its top", y, 39, bitfield(&y, 1, 0x80, 0));
    says("a bitfield of nothing raises nothing", bitfield(&y, 1, 0, 0) == 0 && y.seats[1].held == UINT16_MAX && !y.seats[1].fresh);
}

/* Counts at 0, to be lowered. */
static void zeros(void) {
    struct yard y = sound();
    y.head.taken = 0;
    REFUSES("leave, taken at 0", y, 39, leave(&y, 1));
    y = sound();
    y.head.complete = 0;
    REFUSES("leave, complete at 0", y, 39, leave(&y, 0));
    y = sound();
    y.holders[9] = 0;
    REFUSES("leave, holders at 0", y, 39, leave(&y, 0));
    y.seats[0].held = 3;
    y.holders[9] = 1;
    says("held that disagrees with the row: complete stays", leave(&y, 0) == 0 && y.head.complete == 1 && y.head.taken == 1 && y.holders[9] == 0 && y.rows[0] == 0);
}

/* Spare bits are no pieces. */
static void spares(void) {
    struct yard y = sound();
    y.rows[WIDTH + 1] = 0x3f;
    says("have beside spare bits", have(&y, 1, 0) == 0 && y.seats[1].held == 1 && y.holders[0] == 2 && y.rows[WIDTH + 1] == 0x3f);
    says("leave with spare bits", leave(&y, 1) == 0 && y.holders[0] == 1 && y.holders[9] == 1 && y.rows[WIDTH + 1] == 0);
    y.rows[WIDTH] = 0xff;
    y.seats[1].held = 7;
    says("a seat that was not clear is cleared", sit(&y) == 0 && told.seat == 1 && y.rows[WIDTH] == 0 && y.seats[1].held == 0 && y.holders[0] == 1);
}

/* Bytes at their top, and what a round finds in the head and the seats. */
static void rounds(void) {
    struct yard y = sound(), was;
    y.seats[1].bytes = MOST_SENT - 1;
    says("a piece, bytes come to their top", piece(&y, 1) == 0 && y.seats[1].bytes == MOST_SENT && !y.seats[1].fresh);
    REFUSES("a piece, bytes at their top", y, 39, piece(&y, 1));
    y.seats[1].bytes = MOST_SENT + 1;
    REFUSES("a piece, bytes past their top", y, 39, piece(&y, 1));
    y.seats[1].bytes = UINT64_MAX;
    REFUSES("a piece, bytes as high as can be", y, 39, piece(&y, 1));
    says("a have asks nothing of bytes", have(&y, 1, 3) == 0 && y.seats[1].bytes == UINT64_MAX);
    says("a round takes any bytes", next_round(&y) == 0 && told.unchoked == 0 && y.seats[1].bytes == 0 && y.head.round == 1);
    y = sound(), y.head.round = 3;
    REFUSES("round number 3", y, 39, next_round(&y));
    y.head.round = UINT32_MAX;
    REFUSES("round number as high as can be", y, 39, next_round(&y));
    y = sound(), y.head.free = SEATS;
    REFUSES("a free place past the seats", y, 39, next_round(&y));
    y.head.free = WARDRAIL_NOBODY - 1;
    REFUSES("a free place before nobody", y, 39, next_round(&y));
    says("a sit asks nothing of the free place", sit(&y) == 0 && told.seat == 2 && y.head.free == WARDRAIL_NOBODY - 1);
    y = sound(), y.head.last = SEATS;
    REFUSES("a last place past the seats", y, 39, next_round(&y));
    y.head.last = WARDRAIL_NOBODY;
    REFUSES("a last place that is nobody", y, 39, next_round(&y));
    says("a leave asks nothing of the last place", leave(&y, 1) == 0 && y.head.last == WARDRAIL_NOBODY);
    /* seat 5 is free: it keeps the free place and its record, and nobody is unchoked there */
    y = sound(), y.head.round = 1, y.head.free = 5;
    y.seats[5] = (struct wardrail_seat){0, 9, 8, 7, 6, 5, 4, 3};
    was = y, was.head.round = 2;
    says("a free place that names a free seat", next_round(&y) == 0 && told.unchoked == 0 && !memcmp(&y, &was, sizeof y));
    /* flags that are neither 0 nor 1 are on; a round writes 0 and 1 */
    y = sound(), y.seats[0].taken = 200, y.seats[0].peer_interested = 7, y.seats[0].am_choking = 9, y.seats[1].am_choking = 9;
    was = y, was.head.round = 1, was.head.free = was.head.last = 0, was.seats[0].am_choking = 0, was.seats[1].am_choking = 1;
    says("a round and other flags than 0 and 1", next_round(&y) == 0 && told.unchoked == 1 && !memcmp(&y, &was, sizeof y));
}

/* Every call refuses sizes that do not fit. */
static void unfit(const char *what, struct yard y) {
    uint8_t frame[5] = {1, 2, 3, 4, 5};
    uint32_t page[2] = {7, 7};
    struct wardrail_seat seen;
    REFUSES(what, y, 38, sit(&y));
    REFUSES(what, y, 38, leave(&y, 0));
    REFUSES(what, y, 38, have(&y, 1, 3));
    REFUSES(what, y, 38, wardrail_yard_choke(TABLES(&y), 0, false, frame, 5));
    REFUSES(what, y, 38, wardrail_yard_interest(TABLES(&y), 0, true, frame, 5));
    REFUSES(what, y, 38, next_round(&y));
    REFUSES(what, y, 38, wardrail_yard_missing(TABLES(&y), 0, page, 2, &told));
    REFUSES(what, y, 38, wardrail_yard_scarcest(TABLES(&y), &told));
    REFUSES(what, y, 38, wardrail_yard_look(TABLES(&y), 0, &seen));
    REFUSES(what, y, 38, wardrail_yard_has(TABLES(&y), 0, 0, &told));
    REFUSES(what, y, 38, wardrail_yard_count(TABLES(&y), 0, &told));
    says("a refusal writes nothing", frame[0] == 1 && frame[4] == 5 && page[0] == 7);
}

static void sizes(void) {
    struct yard good = sound(), y;
    y = good, y.seats_count = SEATS + 1, unfit("a seat too many", y);
    y = good, y.seats_count = SEATS - 1, unfit("a seat too few", y);
    y = good, y.seats_count = 0, y.rows_count = 0, unfit("no seats", y);
    y = good, y.rows_count = ROWS + 1, unfit("a row byte too many", y);
    y = good, y.rows_count = ROWS - 1, unfit("a row byte too few", y);
    y = good, y.holders_count = PIECES + 1, unfit("a holder count too many", y);
    y = good, y.holders_count = PIECES - 1, unfit("a holder count too few", y);
    y = good, y.head.pieces = PIECES - 1, unfit("fewer pieces than counts", y);
    y = good, y.head.pieces = 0, unfit("no pieces", y);
    y = good, y.head.pieces = UINT32_MAX, unfit("too many pieces", y);
    y = good, y.head.piece_length = 16385, unfit("a piece length that is no power of two", y);
    y = good, y.head.piece_length = 8192, unfit("a piece length too short", y);
    y = good, y.head.last_length = 0, unfit("a last piece of nothing", y);
    y = good, y.head.last_length = 16385, unfit("a last piece too long", y);
    y = good;
    REFUSES("start, a last piece too long", y, 38, wardrail_yard_start(TABLES(&y), PIECES, 16384, 16385));
    REFUSES("start, other pieces than counts", y, 38, wardrail_yard_start(TABLES(&y), PIECES + 1, 16384, 1));
}

/* A start asks nothing of what stands in the tables: it makes zeros of everything but the sizes and the free place, and leaves what lies past them. */
static void started(struct yard y) {
    struct yard zeroed = y;
    zeroed.head = (struct wardrail_head){PIECES, 16384, 100, 0, 0, 0, WARDRAIL_NOBODY, SEATS - 1};
    memset(zeroed.seats, 0, sizeof(struct wardrail_seat) * SEATS);
    memset(zeroed.rows, 0, ROWS);
    memset(zeroed.holders, 0, sizeof(uint16_t) * PIECES);
    says("a start on anything", wardrail_yard_start(TABLES(&y), PIECES, 16384, 100) == 0 && !memcmp(&y, &zeroed, sizeof y));
}

/* ---- any bytes: document 01 once more, a flag being on where it is not 0. Each answers a call's number and makes of `y` what it leaves */

static bool holds(const struct yard *y, size_t seat, size_t piece) { return y->rows[seat * WIDTH + piece / 8] >> (7 - piece % 8) & 1; }

static uint64_t sits(struct yard *y, uint64_t *seat) {
    size_t i = 0;
    while (i < SEATS && y->seats[i].taken) i++;
    if (i == SEATS) return 35;
    if (y->head.taken >= SEATS) return 39;
    y->head.taken++;
    y->seats[i] = (struct wardrail_seat){1, 1, 1, 0, 1, 0, 0, 0};
    memset(y->rows + i * WIDTH, 0, WIDTH);
    *seat = i;
    return 0;
}

static uint64_t leaves(struct yard *y, size_t seat) {
    struct wardrail_seat *s = &y->seats[seat];
    if (!s->taken) return 36;
    if (!y->head.taken || (s->held == PIECES && !y->head.complete)) return 39;
    for (size_t p = 0; p < PIECES; p++)
        if (holds(y, seat, p) && !y->holders[p]) return 39;
    for (size_t p = 0; p < PIECES; p++) y->holders[p] = (uint16_t)(y->holders[p] - holds(y, seat, p));
    memset(y->rows + seat * WIDTH, 0, WIDTH);
    y->head.taken--;
    if (s->held == PIECES) y->head.complete--;
    if (y->head.free == seat) y->head.free = WARDRAIL_NOBODY;
    *s = (struct wardrail_seat){0, 0, 0, 0, 0, 0, 0, 0};
    return 0;
}

static uint64_t announces(struct yard *y, size_t seat, const uint8_t *said) {
    struct wardrail_seat *s = &y->seats[seat];
    unsigned more = 0;
    for (size_t p = 0; p < PIECES; p++)
        if (said[p / 8] >> (7 - p % 8) & 1 && !holds(y, seat, p)) {
            if (y->holders[p] >= SEATS) return 39;
            more++;
        }
    if (!more) return 0;
    if (s->held + more > PIECES || (s->held + more == PIECES && y->head.complete >= SEATS)) return 39;
    for (size_t p = 0; p < PIECES; p++)
        if (said[p / 8] >> (7 - p % 8) & 1 && !holds(y, seat, p)) y->holders[p]++;
    for (size_t k = 0; k < WIDTH; k++) y->rows[seat * WIDTH + k] |= said[k];
    s->held = (uint16_t)(s->held + more);
    if (s->held == PIECES) y->head.complete++;
    return 0;
}

static bool wants(const struct yard *y, size_t seat) { return y->seats[seat].taken && y->seats[seat].peer_interested; }

/* Going round the seats from the one after `last`, the free place comes to the first that is interested. */
static uint32_t next_free(const struct yard *y) {
    for (uint32_t k = 1; k <= SEATS; k++)
        if (wants(y, (y->head.last + k) % SEATS)) return (y->head.last + k) % SEATS;
    return WARDRAIL_NOBODY;
}

/* How many come before a seat: they are interested, and sent more bytes, or as many and sit lower. */
static int before(const struct yard *y, size_t seat) {
    int count = 0;
    for (size_t i = 0; i < SEATS; i++) {
        uint64_t theirs = y->seats[i].bytes, its = y->seats[seat].bytes;
        count += wants(y, i) && (theirs > its || (theirs == its && i < seat));
    }
    return count;
}

static uint64_t turns(struct yard *y, uint64_t *unchoked) {
    struct wardrail_head *h = &y->head;
    const struct yard was = *y;
    if (h->round > 2 || (h->free >= SEATS && h->free != WARDRAIL_NOBODY) || h->last >= SEATS) return 39;
    if (h->round == 0) h->free = next_free(&was);
    if (h->round == 0 && h->free != WARDRAIL_NOBODY) h->last = h->free;
    h->round = (h->round + 1) % 3;
    *unchoked = 0;
    for (size_t i = 0; i < SEATS; i++) {
        if (!was.seats[i].taken) continue;
        bool served = i == h->free || (wants(&was, i) && before(&was, i) < 4);
        y->seats[i].bytes = 0, y->seats[i].am_choking = !served;
        *unchoked += served;
    }
    return 0;
}

/* A keepalive, a mark, a have, a bitfield of the right length, a request for a byte of piece 0, a piece's block of some bytes, or a frame of an id
 * that says nothing. */
static uint64_t hears(struct yard *y, size_t seat, const uint8_t *frame, uint64_t *request) {
    struct wardrail_seat *s = &y->seats[seat];
    uint8_t id = frame[4], one[WIDTH] = {0};
    uint64_t bad = 0;
    *request = WARDRAIL_REQUEST_NONE;
    if (!s->taken) return 36;
    if (!frame[3]) return 0; /* a keepalive has no id and changes nothing */
    if (id < 2) s->peer_choking = id == 0;
    else if (id < 4) s->peer_interested = id == 2;
    else if (id == 4) {
        if (frame[8] >= PIECES) return 31;
        one[frame[8] / 8] = (uint8_t)(128 >> frame[8] % 8);
        bad = announces(y, seat, one);
    } else if (id == 5) {
        if (!s->fresh) return 30;
        if (frame[6] & 0x3f) return 33;
        bad = announces(y, seat, frame + 5);
    } else if (id == 6) *request = !s->am_choking && s->peer_interested ? WARDRAIL_REQUEST_SERVE : WARDRAIL_REQUEST_DROP;
    else if (id == 7) {
        uint64_t count = frame[3] - 9u;
        if (frame[8] >= PIECES) return 31;
        if (frame[12] + count > (frame[8] == PIECES - 1 ? y->head.last_length : y->head.piece_length)) return 34;
        if (s->bytes > MOST_SENT || s->bytes + count > MOST_SENT) return 39;
        s->bytes += count;
    }
    if (!bad) s->fresh = 0;
    return bad;
}

static uint32_t any(void) {
    static uint64_t state = 88172645463325252u;
    state ^= state << 13, state ^= state >> 7, state ^= state << 17;
    return (uint32_t)(state >> 16);
}

/* Any bytes in all tables, and past them. */
static struct yard scribbled(void) {
    struct yard y;
    uint8_t bytes[sizeof y];
    for (size_t i = 0; i < sizeof y; i++) bytes[i] = (uint8_t)any();
    memcpy(&y, bytes, sizeof y);
    y.seats_count = SEATS, y.rows_count = ROWS, y.holders_count = PIECES;
    return y;
}

/* The same with sizes that fit, so that calls look further; most flags are 0 or another small number, and most counts near their tops. */
static struct yard fitting(void) {
    struct yard y = scribbled();
    y.head.pieces = PIECES, y.head.piece_length = 16384, y.head.last_length = 100;
    for (size_t i = 0; i < SEATS; i++) {
        uint8_t flags[6];
        for (size_t k = 0; k < 6; k++) flags[k] = (uint8_t)(any() % 4 ? any() % 3 : any());
        memcpy(&y.seats[i], flags, sizeof flags);
        if (any() % 4) y.seats[i].held = (uint16_t)(any() % (PIECES + 2));
        const uint64_t bytes[] = {0, 1, 2, 16384, MOST_SENT - 1, MOST_SENT, MOST_SENT + 1, UINT64_MAX};
        if (any() % 8) y.seats[i].bytes = bytes[any() % (any() % 2 ? 4 : 8)];
    }
    if (any() % 16) y.head.round = any() % (any() % 8 ? 3 : 4);
    if (any() % 16) y.head.free = any() % 2 ? WARDRAIL_NOBODY : any() % (SEATS + any() % 8 / 7);
    if (any() % 16) y.head.last = any() % (SEATS + any() % 8 / 7);
    if (any() % 4) y.head.taken = any() % (SEATS + 2);
    if (any() % 4) y.head.complete = any() % (SEATS + 2);
    for (size_t p = 0; p < PIECES; p++)
        if (any() % 8) y.holders[p] = (uint16_t)(any() % (SEATS + 1));
    return y;
}

static void same(const char *what, const struct yard *y, const struct yard *want, bool answer) {
    says(what, answer && !memcmp(y, want, sizeof *want));
}

static void any_seating(struct yard *y) {
    struct yard want = *y;
    uint64_t seat = SEATS, wanted = sits(&want, &seat);
    told.seat = SEATS;
    same("any bytes: sit", y, &want, sit(y) == wanted && told.seat == seat);
    seat = any() % SEATS, wanted = leaves(&want, seat);
    same("any bytes: leave", y, &want, leave(y, seat) == wanted);
}

static void any_mark(struct yard *y) {
    struct yard want = *y;
    uint8_t choking[5] = {0, 0, 0, 0, 9}, wanting[5] = {0, 0, 0, 0, 9};
    size_t seat = any() % SEATS;
    bool on = any() % 2, free = !want.seats[seat].taken;
    if (!free) want.seats[seat].am_choking = on;
    same("any bytes: choke", y, &want, wardrail_yard_choke(TABLES(y), seat, on, choking, 5) == (free ? 36 : 0) && choking[4] == (free ? 9 : on ? 0 : 1));
    if (!free) want.seats[seat].am_interested = on;
    same("any bytes: interest", y, &want, wardrail_yard_interest(TABLES(y), seat, on, wanting, 5) == (free ? 36 : 0) && wanting[4] == (free ? 9 : on ? 2 : 3));
}

static void any_frame(struct yard *y) {
    struct yard want = *y;
    uint8_t frame[17] = {0, 0, 0, 1, (uint8_t)(any() % 10)};
    size_t seat = any() % SEATS, count = 5;
    uint64_t request, wanted;
    if (frame[4] == 4) frame[3] = 5, count = 9, frame[8] = (uint8_t)(any() % (PIECES + 1));
    if (frame[4] == 5) frame[3] = 3, count = 7, frame[5] = (uint8_t)any(), frame[6] = (uint8_t)(any() & (any() % 4 ? 0xc0 : 0xff));
    if (frame[4] == 6) frame[3] = 13, count = 17, frame[16] = 1;
    if (frame[4] == 7) frame[3] = (uint8_t)(10 + any() % 4), count = 4 + frame[3], frame[8] = (uint8_t)(any() % (PIECES + 1)), frame[12] = (uint8_t)(any() % 2 * 98);
    if (frame[4] == 8) frame[4] = frame[3] = 0, count = 4;
    if (frame[4] == 9) frame[4] = 20;
    wanted = hears(&want, seat, frame, &request);
    same("any bytes: feed", y, &want, feed(y, seat, frame, count) == wanted && (wanted || (told.used == count && told.request == request)));
}

static void any_round(struct yard *y) {
    struct yard want = *y;
    uint64_t unchoked = SEATS + 1, wanted = turns(&want, &unchoked);
    told.unchoked = SEATS + 1;
    same("any bytes: round", y, &want, next_round(y) == wanted && told.unchoked == unchoked);
}

static void any_look(struct yard *y) {
    struct yard want = *y;
    struct wardrail_seat seen;
    uint32_t page[SEATS];
    size_t seat = any() % SEATS, piece = any() % PIECES, lowest = 0, missing = 0;
    for (size_t p = 1; p < PIECES; p++)
        if (want.holders[p] < want.holders[lowest]) lowest = p;
    for (size_t i = 0; i < SEATS; i++) missing += want.seats[i].taken && want.seats[i].held != PIECES;
    same("any bytes: look", y, &want, wardrail_yard_look(TABLES(y), seat, &seen) == 0 && !memcmp(&seen, &want.seats[seat], sizeof seen));
    same("any bytes: has", y, &want, wardrail_yard_has(TABLES(y), seat, piece, &told) == 0 && told.has == holds(&want, seat, piece));
    same("any bytes: count", y, &want, wardrail_yard_count(TABLES(y), piece, &told) == 0 && told.holders == want.holders[piece]);
    same("any bytes: scarcest", y, &want, wardrail_yard_scarcest(TABLES(y), &told) == 0 && told.piece == lowest);
    same("any bytes: missing", y, &want, wardrail_yard_missing(TABLES(y), 0, page, SEATS, &told) == 0 && told.total == missing && told.listed == missing);
    for (size_t k = 0; k < told.listed; k++) says("any bytes: a missing seat", want.seats[page[k]].taken && want.seats[page[k]].held != PIECES);
}

/* The missing list on pages of any sizes, from seat 0 on and then from each `next` until that is the number of seats. */
static void any_pages(struct yard *y) {
    struct yard want = *y;
    uint32_t missing[SEATS], page[SEATS + 1];
    size_t total = 0, listed = 0, pages = 0;
    for (uint32_t i = 0; i < SEATS; i++)
        if (want.seats[i].taken && want.seats[i].held != PIECES) missing[total++] = i;
    for (told.next = 0; told.next != SEATS && pages <= SEATS; pages++) {
        size_t room = 1 + any() % (SEATS + 1);
        bool taken = wardrail_yard_missing(TABLES(y), told.next, page, room, &told) == 0 && told.total == total;
        bool full = told.next == SEATS || told.listed == room;
        same("any bytes: a page", y, &want, taken && full && listed + told.listed <= total && !memcmp(page, missing + listed, told.listed * sizeof *page));
        listed += told.listed;
    }
    says("any bytes: all pages", listed == total && pages >= 1 && pages <= (total ? total : 1));
}

static void any_bytes(void) {
    for (int turn = 0; turn < 3000; turn++) {
        struct yard y = scribbled();
        unfit("any bytes, the head's too", y);
        started(y);
        y = fitting();
        for (int call = 0; call < 5; call++) any_seating(&y), any_frame(&y), any_mark(&y), any_frame(&y), any_look(&y), any_pages(&y), any_round(&y);
    }
}

/* ---- looks at a place: the numbers that the header lists, 2 at an e, where no value stands, and 8 before all */

enum { LOOKS = 5 };
#define FORTY "1234567890123456789012345678901234567890" /* digits, of a number outside 64 bits */

/* a byte more than a text may have */
static uint8_t more[1048577];

static void look_at(const uint8_t *text, size_t count, size_t at, uint64_t said[LOOKS]) {
    struct wardrail_look look;
    struct wardrail_element_at element;
    struct wardrail_file_at file;
    struct wardrail_listed_at listed;
    struct wardrail_packed_at packed;
    said[0] = wardrail_look(text, count, at, &look);
    said[1] = wardrail_element_at(text, count, at, &element);
    said[2] = wardrail_file_at(text, count, at, &file);
    said[3] = wardrail_listed_at(text, count, at, &listed);
    said[4] = wardrail_packed_at(text, count, at, &packed);
}

static void looks(void) {
    static const uint8_t text[] = "ld2:ip1:a7:peer id20:AAAAAAAAAAAAAAAAAAAA4:porti1eed6:lengthi1e4:pathl1:a2:..ee"
                                  "d2:ip1:a7:peer id20:AAAAAAAAAAAAAAAAAAAA4:porti" FORTY "eed6:lengthi-" FORTY "e4:pathl1:ai" FORTY "eeee";
    enum { CUT = 1 << 1, TOKEN = CUT | 1 << 2, ENTRY_OF_MANY = TOKEN | 1 << 3 | 1 << 5 | 1 << 6 | 1 << 10 | 1 << 11 };
    static const unsigned listed[LOOKS] = {TOKEN, TOKEN | 1 << 10 | 1 << 13, ENTRY_OF_MANY | 1 << 13, ENTRY_OF_MANY | 1 << 15, CUT};
    uint64_t said[LOOKS];
    for (size_t at = 0; at <= sizeof text; at++) {
        look_at(text, sizeof text - 1, at, said);
        for (int k = 0; k < LOOKS; k++) says("a number that the header lists", said[k] == 0 || listed[k] >> wardrail_number(said[k]) & 1);
        if (at < sizeof text && text[at] == 'e')
            for (int k = 2; k < 4; k++) says("2 at an e", wardrail_number(said[k]) == 2 && wardrail_place(said[k]) == at);
        look_at(more, sizeof more, at, said);
        for (int k = 0; k < LOOKS; k++) says("8 before all", said[k] == 8);
    }
}

/* ---- addresses: which of the two texts a refusal is of, and that it writes nothing */

static const uint8_t torrent[] = "d8:announce1:u4:infod6:lengthi1e4:name1:n12:piece lengthi16384e6:pieces20:AAAAAAAAAAAAAAAAAAAAee";
static const uint8_t sheet[] = "d20:AAAAAAAAAAAAAAAAAAAA1:a20:BBBBBBBBBBBBBBBBBBBB0:20:CCCCCCCCCCCCCCCCCCCC10:0123456789e";
enum { TORRENT = sizeof torrent - 1, SHEET = sizeof sheet - 1, ANNOUNCE_AT = 13, NAME_AT = 40 };

static uint64_t address_by(const uint8_t *t, size_t t_count, const uint8_t *s, size_t s_count, struct wardrail_address *address) {
    struct wardrail_address lent = {7, {7, 7}};
    *address = lent;
    uint64_t r = wardrail_address(t, t_count, s, s_count, address);
    says("a refused address writes nothing", !r || !memcmp(address, &lent, sizeof lent));
    return r;
}

/* Of these two texts the address is refused: which is, by which number, and where. */
static void refuses(const char *what, const uint8_t *t, size_t t_count, const uint8_t *s, size_t s_count, uint64_t text, uint64_t number, uint64_t place) {
    struct wardrail_address address;
    uint64_t r = address_by(t, t_count, s, s_count, &address);
    says(what, r && wardrail_refused_text(r) == text && wardrail_number(r) == number && wardrail_place(r) == place);
}

/* The torrent with another byte, beside a bad sheet: refused as wardrail_torrent refuses it, and if it is taken then for the sheet. */
static void torrent_changed(size_t at, uint8_t byte) {
    uint8_t changed[sizeof torrent];
    struct wardrail_torrent t;
    struct wardrail_address address;
    memcpy(changed, torrent, sizeof torrent);
    changed[at] = byte;
    uint64_t of_torrent = wardrail_torrent(changed, TORRENT, &t), r = address_by(changed, TORRENT, sheet, SHEET - 1, &address);
    if (of_torrent) says("a torrent's refusal", r == of_torrent && wardrail_refused_text(r) == WARDRAIL_OF_TORRENT);
    else says("then the sheet's", wardrail_number(r) == 1 && wardrail_place(r) == SHEET - 1 && wardrail_refused_text(r) == WARDRAIL_OF_SHEET);
}

/* The sheet with another byte: refused by the check of any text, or by 10 or 15, or the address is the announce. */
static void sheet_changed(size_t at, uint8_t byte) {
    uint8_t changed[sizeof sheet];
    struct wardrail_address address;
    uint64_t values;
    memcpy(changed, sheet, sizeof sheet);
    changed[at] = byte;
    uint64_t r = address_by(torrent, TORRENT, changed, SHEET, &address), of_text = wardrail_check(changed, SHEET, &values);
    if (r) {
        bool own = of_text ? wardrail_number(r) == wardrail_number(of_text) && wardrail_place(r) == wardrail_place(of_text) : wardrail_number(r) == 10 || wardrail_number(r) == 15;
        says("a sheet's refusal", own && wardrail_refused_text(r) == WARDRAIL_OF_SHEET);
    } else says("the announce", !of_text && address.text == WARDRAIL_OF_TORRENT && address.part.from == ANNOUNCE_AT && address.part.len == 1);
}

static void addresses(void) {
    static const struct {
        const char *text;
        uint64_t number, place;
    } bad[] = {
        {"le", 10, 0},
        {"d20:AAAAAAAAAAAAAAAAAAAAlee", 10, 24},
        {"d19:AAAAAAAAAAAAAAAAAAA0:e", 15, 1},
        {"d20:AAAAAAAAAAAAAAAAAAAA0:21:AAAAAAAAAAAAAAAAAAAAA0:e", 15, 26},
    };
    static const char bytes[] = "0129:abeild-x";
    struct wardrail_address address;
    says("a sheet without the hash", address_by(torrent, TORRENT, sheet, SHEET, &address) == 0 && address.text == WARDRAIL_OF_TORRENT && address.part.from == ANNOUNCE_AT);
    for (size_t cut = 0; cut < TORRENT; cut++) refuses("a torrent that is cut, beside a bad sheet", torrent, cut, sheet, 0, WARDRAIL_OF_TORRENT, 1, cut);
    for (size_t cut = 0; cut < SHEET; cut++) refuses("a sheet that is cut", torrent, TORRENT, sheet, cut, WARDRAIL_OF_SHEET, 1, cut);
    for (size_t k = 0; k < sizeof bad / sizeof *bad; k++) {
        const uint8_t *text = (const uint8_t *)bad[k].text;
        refuses("a value that is no sheet", torrent, TORRENT, text, strlen(bad[k].text), WARDRAIL_OF_SHEET, bad[k].number, bad[k].place);
    }
    refuses("a sheet too long", torrent, TORRENT, more, sizeof more, WARDRAIL_OF_SHEET, 8, 0);
    refuses("a torrent too long", more, sizeof more, sheet, SHEET, WARDRAIL_OF_TORRENT, 8, 0);
    refuses("both too long", more, sizeof more, more, sizeof more, WARDRAIL_OF_TORRENT, 8, 0);
    refuses("a cut torrent beside a sheet too long", torrent, TORRENT - 1, more, sizeof more, WARDRAIL_OF_TORRENT, 1, TORRENT - 1);
    for (size_t k = 0; k < sizeof bytes - 1; k++) {
        for (size_t at = 0; at < TORRENT; at++) torrent_changed(at, (uint8_t)bytes[k]);
        for (size_t at = 0; at < SHEET; at++) sheet_changed(at, (uint8_t)bytes[k]);
    }
}

/* ---- links: document 02's ticket 4 once more */

enum { MOST = 512, FILL = 0xa5 };

/* What a link says: where its first fault is, or what it gives. */
struct said {
    bool bad;
    uint64_t place;
    uint8_t hash[20], name[MOST], address[MOST];
    struct wardrail_link link;
};

static int digit(uint8_t b) { return b >= '0' && b <= '9' ? b - '0' : b >= 'a' && b <= 'f' ? b - 'a' + 10 : b >= 'A' && b <= 'F' ? b - 'A' + 10 : -1; }
static bool in_name(uint8_t b) { return (b >= 'a' && b <= 'z') || (b >= 'A' && b <= 'Z') || (b >= '0' && b <= '9') || b == '.'; }
static bool in_value(uint8_t b) { return b >= 33 && b <= 126 && b != '&' && b != '#'; }

/* Passes over these very bytes, or stops at the first that is another. */
static bool passes(const char *fixed, const uint8_t *text, size_t count, size_t *at) {
    for (; *fixed; fixed++, ++*at)
        if (*at == count || text[*at] != (uint8_t)*fixed) return false;
    return true;
}

static bool passes_hash(const uint8_t *text, size_t count, size_t *at, uint8_t hash[20]) {
    if (!passes("urn:btih:", text, count, at)) return false;
    for (int k = 0; k < 40; k++, ++*at) {
        if (*at == count || digit(text[*at]) < 0) return false;
        hash[k / 2] = (uint8_t)(hash[k / 2] << 4 | digit(text[*at]));
    }
    return *at == count || text[*at] == '&';
}

static bool passes_value(const uint8_t *text, size_t count, size_t *at, uint8_t *out, uint64_t *len) {
    for (*len = 0; *at < count && text[*at] != '&'; ++*at) {
        if (!in_value(text[*at])) return false;
        out[*len] = text[*at];
        if (text[*at] == '%') {
            int two[2];
            for (int k = 0; k < 2; k++)
                if (++*at == count || (two[k] = digit(text[*at])) < 0) return false;
            out[*len] = (uint8_t)(two[0] * 16 + two[1]);
        }
        ++*len;
    }
    return true;
}

/* One pair. A fault is where it stopped. */
static bool passes_pair(const uint8_t *text, size_t count, size_t *at, struct said *s, bool *hashed) {
    static uint8_t skipped[MOST];
    uint64_t len;
    size_t first = *at;
    while (*at < count && in_name(text[*at])) ++*at;
    if (*at == first || *at == count || text[*at] != '=') return false;
    bool two = ++*at == first + 3, xt = two && !memcmp(text + first, "xt", 2), dn = two && !memcmp(text + first, "dn", 2), tr = two && !memcmp(text + first, "tr", 2);
    if ((xt && *hashed) || (dn && s->link.name.given) || (tr && s->link.address.given)) {
        *at = first;
        return false;
    }
    if (xt) return *hashed = true, passes_hash(text, count, at, s->hash);
    if (dn) return s->link.name.given = 1, passes_value(text, count, at, s->name, &s->link.name.len);
    if (tr) return s->link.address.given = 1, passes_value(text, count, at, s->address, &s->link.address.len);
    return passes_value(text, count, at, skipped, &len);
}

static struct said said_by(const uint8_t *text, size_t count) {
    struct said s = {.bad = false};
    size_t at = 0;
    bool hashed = false, more_pairs = true;
    s.bad = !passes("magnet:?", text, count, &at);
    while (!s.bad && more_pairs) {
        s.bad = !passes_pair(text, count, &at, &s, &hashed);
        more_pairs = !s.bad && at < count;
        at += more_pairs;
    }
    if (!s.bad) s.bad = !hashed;
    s.place = at;
    return s;
}

/* A link into outputs of these lengths, by the rules: every byte of what is lent is as they say. */
static void link_tried(const uint8_t *text, size_t count, size_t name_count, size_t address_count) {
    struct said want = said_by(text, count), lent, got;
    memset(&lent, FILL, sizeof lent);
    memset(&got, FILL, sizeof got);
    bool fits = want.link.name.len <= name_count && want.link.address.len <= address_count;
    uint64_t wanted = want.bad ? WARDRAIL_LINK | want.place << 8 : fits ? 0 : WARDRAIL_ROOM;
    uint64_t r = wardrail_link(text, count, got.hash, got.name, name_count, got.address, address_count, &got.link);
    if (!wanted) {
        memcpy(lent.hash, want.hash, sizeof lent.hash);
        memcpy(lent.name, want.name, want.link.name.len);
        memcpy(lent.address, want.address, want.link.address.len);
        lent.link = want.link;
    }
    says("a link", r == wanted && !memcmp(&got, &lent, sizeof lent));
}

static size_t any_room(size_t count) { return any() % 4 ? any() % (count + 2) : any() % 4 ? 0 : MOST; }

/* With rooms of any length, and with much room, so that a text that is in form is often taken. */
static void link_any(const uint8_t *text, size_t count) {
    link_tried(text, count, any_room(count), any_room(count));
    link_tried(text, count, MOST, MOST);
}

/* The bytes with one of them changed, taken out or put in at a place. */
static size_t damaged(uint8_t *text, size_t count, size_t at, uint8_t byte) {
    switch (any() % 3) {
    case 0:
        if (at < count) text[at] = byte;
        return count;
    case 1:
        if (at == count) return count;
        memmove(text + at, text + at + 1, count - at - 1);
        return count - 1;
    default:
        memmove(text + at + 1, text + at, count - at);
        text[at] = byte;
        return count + 1;
    }
}

static void links_read(void) {
    static const char link[] = "magnet:?xt=urn:btih:0123456789abcdefABCDEF99887766554433abcd&dn=week%207&tr=http%3A%2F%2Fyard%2fann&x.pe=1.2.3.4:5&dn.1=";
    static const char bytes[] = "%&=#?.:/xtdnrXTDN0789afAFgG-_~ \t\x7f\x80\xff\x01";
    static const char *const parts[] = {
        "magnet:?", "xt=urn:btih:", "0123456789abcdefABCDEF99887766554433abcd", "&", "=", "dn=", "tr=", "dn", "xt=", "DN=", "x.pe=", "%41", "%4", "%", "a", "..", "#",
    };
    enum { COUNT = sizeof link - 1 };
    uint8_t text[MOST];
    for (size_t cut = 0; cut <= COUNT; cut++) link_any((const uint8_t *)link, cut);
    for (size_t at = 0; at < COUNT; at++)
        for (size_t k = 0; k < sizeof bytes; k++) {
            memcpy(text, link, COUNT);
            text[at] = (uint8_t)bytes[k];
            link_any(text, COUNT);
        }
    for (int turn = 0; turn < 5000; turn++) {
        size_t count = COUNT;
        memcpy(text, link, COUNT);
        for (uint32_t k = any() % 4; k; k--) count = damaged(text, count, any() % (count + 1), any() % 4 ? (uint8_t)bytes[any() % sizeof bytes] : (uint8_t)any());
        link_any(text, count);
    }
    /* mostly one hash, so that the rest is looked at */
    for (int turn = 0; turn < 10000; turn++) {
        size_t count = any() % 8 ? 8 + 12 + 40 + 1 : 0;
        memcpy(text, link, count);
        if (count) text[count - 1] = '&';
        for (uint32_t k = any() % 8; k; k--) {
            const char *part = parts[any() % (sizeof parts / sizeof *parts)];
            memcpy(text + count, part, strlen(part));
            count += strlen(part);
        }
        link_any(text, count);
    }
}

/* Writes the bytes as a link has them, and answers the place past them. */
static size_t escaped(uint8_t *out, size_t at, const uint8_t *bytes, size_t count) {
    for (size_t k = 0; k < count; k++) {
        uint8_t b = bytes[k];
        if (in_name(b) || b == '-' || b == '_' || b == '~') out[at++] = b;
        else at += (size_t)sprintf((char *)out + at, "%%%02X", b);
    }
    return at;
}

/* The torrent's link, by the rules; its refusal if it has one. */
static void link_written(const uint8_t *text, size_t count, size_t out_count) {
    struct wardrail_torrent t;
    uint8_t hash[20], want[MOST], got[MOST], lent[MOST];
    size_t len = 0;
    uint64_t wanted = wardrail_torrent(text, count, &t), detail = 7, size = 7;
    memset(got, FILL, sizeof got);
    memset(lent, FILL, sizeof lent);
    if (!wanted) {
        wardrail_info_hash(text, count, hash);
        len = (size_t)sprintf((char *)want, "magnet:?xt=urn:btih:");
        for (int k = 0; k < 20; k++) len += (size_t)sprintf((char *)want + len, "%02x", hash[k]);
        len = escaped(want, len + (size_t)sprintf((char *)want + len, "&dn="), text + t.name.from, t.name.len);
        len = escaped(want, len + (size_t)sprintf((char *)want + len, "&tr="), text + t.announce.from, t.announce.len);
    }
    uint64_t s = wardrail_link_size(text, count, &size);
    says("a link's size", s == wanted && size == (wanted ? 7 : len));
    if (!wanted && out_count < len) wanted = WARDRAIL_ROOM;
    if (!wanted) memcpy(lent, want, len);
    uint64_t r = wardrail_write_link(text, count, got, out_count, &detail);
    says("a link written", r == wanted && detail == (wanted ? 7 : len) && !memcmp(got, lent, sizeof lent));
}

static void links_written(void) {
    static const char bytes[] = "0129:abeild-x";
    uint8_t changed[sizeof torrent];
    for (size_t cut = 0; cut <= TORRENT; cut++) link_written(torrent, cut, any_room(90));
    for (size_t room = 0; room < MOST; room++) link_written(torrent, TORRENT, room);
    for (size_t k = 0; k < sizeof bytes - 1; k++)
        for (size_t at = 0; at < TORRENT; at++) {
            memcpy(changed, torrent, sizeof torrent);
            changed[at] = (uint8_t)bytes[k];
            link_written(changed, TORRENT, any_room(90));
        }
    for (int byte = 0; byte < 256; byte++) {
        memcpy(changed, torrent, sizeof torrent);
        changed[ANNOUNCE_AT] = (uint8_t)byte;
        link_written(changed, TORRENT, MOST);
        changed[NAME_AT] = (uint8_t)byte;
        link_written(changed, TORRENT, MOST);
    }
}

static void links(void) {
    struct wardrail_link link = {{7, 7}, {7, 7}};
    uint8_t hash[20] = {7}, name[1] = {7}, address[1] = {7}, out[1] = {7};
    uint64_t detail = 7;
    bool long_ones = wardrail_link(more, sizeof more, hash, name, 1, address, 1, &link) == 8 && wardrail_write_link(more, sizeof more, out, 1, &detail) == 8;
    says("a text too long", long_ones && hash[0] == 7 && name[0] == 7 && address[0] == 7 && out[0] == 7 && link.name.given == 7 && detail == 7);
    links_read();
    links_written();
}

/* ---- weeks: document 02's ticket 5 once more, with torrents as wardrail_torrent has them */

enum { WEEK_BYTES = 1024, PACKAGES = 3, ENTRY = 28 };

struct week {
    uint8_t bytes[WEEK_BYTES];
    size_t count;
};

static uint64_t refusal_at(uint64_t number, uint64_t place) { return number | place << 8; }
static uint64_t four(const uint8_t *b) { return (uint64_t)b[0] << 24 | (uint64_t)b[1] << 16 | (uint64_t)b[2] << 8 | b[3]; }

static void put_four(uint8_t *out, uint64_t n) {
    for (int k = 3; k >= 0; k--, n >>= 8) out[k] = (uint8_t)n;
}

static bool among(const uint8_t *hash, const uint8_t *hashes, size_t stride, size_t count) {
    for (size_t k = 0; k < count; k++)
        if (!memcmp(hash, hashes + k * stride, 20)) return true;
    return false;
}

static uint64_t packages_in(const struct week *w, uint64_t *packages) {
    if (w->count < 4) return refusal_at(18, 0);
    *packages = four(w->bytes);
    return *packages < 1 || *packages > 256 ? refusal_at(18, 0) : 0;
}

static uint64_t table_of(const struct week *w, uint64_t *packages) {
    uint64_t r = packages_in(w, packages), body = r ? 0 : 4 + ENTRY * *packages;
    for (uint64_t i = 0, at = 4; !r && i < *packages; i++, at += ENTRY) {
        const uint8_t *entry = w->bytes + at;
        if (w->count < at + 4 || four(entry) != body) return refusal_at(18, at);
        if (w->count < at + 8 || w->count < body + four(entry + 4)) return refusal_at(18, at + 4);
        if (w->count < at + ENTRY || among(entry + 8, w->bytes + 12, ENTRY, i)) return refusal_at(18, at + 8);
        body += four(entry + 4);
    }
    return r ? r : body < w->count ? refusal_at(18, body) : 0;
}

/* A package by its own entry. */
static uint64_t package_of(const struct week *w, uint64_t i, struct wardrail_week_package_at *p) {
    uint64_t packages, r = packages_in(w, &packages), at = 4 + ENTRY * i;
    struct wardrail_torrent t;
    uint8_t hash[20];
    if (r) return r;
    if (i >= packages) return 31;
    if (w->count < at + 8) return refusal_at(18, w->count < at + 4 ? at : at + 4);
    struct wardrail_part body = {four(w->bytes + at), four(w->bytes + at + 4)};
    if (w->count < body.from + body.len) return refusal_at(18, at + 4);
    if (w->count < at + ENTRY) return refusal_at(18, at + 8);
    r = wardrail_torrent(w->bytes + body.from, body.len, &t);
    if (r) return refusal_at(wardrail_number(r), body.from + wardrail_place(r));
    wardrail_info_hash(w->bytes + body.from, body.len, hash);
    if (memcmp(hash, w->bytes + at + 8, 20)) return refusal_at(18, at + 8);
    *p = (struct wardrail_week_package_at){{at + 8, 20}, body, t.files, t.total};
    return 0;
}

static uint64_t week_of(const struct week *w, struct wardrail_week *sums) {
    struct wardrail_week_package_at p;
    struct wardrail_week all = {0, 0, 0};
    uint64_t r = table_of(w, &all.packages);
    for (uint64_t i = 0; !r && i < all.packages; i++)
        if (!(r = package_of(w, i, &p))) all.files += p.files, all.total += p.total;
    if (!r) *sums = all;
    return r;
}

/* A file by the rules, whole, by its table, and each package of it and those past the last; nothing else is written. */
static void week_tried(const struct week *w) {
    struct wardrail_week want, got;
    memset(&want, FILL, sizeof want);
    memset(&got, FILL, sizeof got);
    uint64_t wanted = week_of(w, &want), packages = 7, detail = 7, of_table = table_of(w, &packages);
    says("a week", wardrail_week(w->bytes, w->count, &got) == wanted && !memcmp(&got, &want, sizeof want));
    says("a week's table", wardrail_week_table(w->bytes, w->count, &detail) == of_table && detail == (of_table ? 7 : packages));
    for (uint64_t k = 0; k < PACKAGES + 3; k++) {
        uint64_t i = k < PACKAGES + 1 ? k : k == PACKAGES + 1 ? 255 : UINT64_MAX - any() % 3;
        struct wardrail_week_package_at wanted_at, at;
        struct wardrail_week_package package;
        memset(&wanted_at, FILL, sizeof wanted_at);
        memset(&at, FILL, sizeof at);
        memset(&package, FILL, sizeof package);
        uint64_t by_entry = package_of(w, i, &wanted_at);
        says("a package by its entry", wardrail_week_package_at(w->bytes, w->count, i, &at) == by_entry && !memcmp(&at, &wanted_at, sizeof at));
        if (wanted) memset(&wanted_at, FILL, sizeof wanted_at);
        says("a package", wardrail_week_package(w->bytes, w->count, i, &package) == (wanted ? wanted : by_entry) && !memcmp(&package, &wanted_at, sizeof package));
    }
}

/* By what bodies of these lengths are refused, and their hashes. */
static uint64_t refused_bodies(const uint8_t *bodies, size_t count, const uint64_t *lengths, size_t packages, uint8_t *hashes) {
    struct wardrail_torrent t;
    uint64_t left = count, r;
    if (packages < 1) return 18;
    for (size_t i = 0; i < packages; left -= lengths[i++])
        if (lengths[i] > left) return 18;
    if (left) return 18;
    for (size_t i = 0; i < packages; bodies += lengths[i++]) {
        if ((r = wardrail_torrent(bodies, lengths[i], &t))) return wardrail_number(r);
        wardrail_info_hash(bodies, lengths[i], hashes + 20 * i);
        if (among(hashes + 20 * i, hashes, 20, i)) return 18;
    }
    return 0;
}

/* A file written by the rules, into an output of this length. */
static void week_written(const uint8_t *bodies, size_t count, const uint64_t *lengths, size_t packages, size_t out_count) {
    static struct week lent, got;
    uint8_t hashes[20 * PACKAGES];
    uint64_t detail = 7, body = 4 + ENTRY * packages, size = body + count, wanted = refused_bodies(bodies, count, lengths, packages, hashes);
    if (!wanted && size > out_count) wanted = 37;
    memset(&lent, FILL, sizeof lent);
    memset(&got, FILL, sizeof got);
    if (!wanted) {
        put_four(lent.bytes, packages);
        memcpy(lent.bytes + body, bodies, count);
        for (size_t i = 0; i < packages; body += lengths[i++]) {
            put_four(lent.bytes + 4 + ENTRY * i, body);
            put_four(lent.bytes + 8 + ENTRY * i, lengths[i]);
            memcpy(lent.bytes + 12 + ENTRY * i, hashes + 20 * i, 20);
        }
    }
    uint64_t r = wardrail_write_week(bodies, count, lengths, packages, got.bytes, out_count, &detail);
    says("a week written", r == wanted && detail == (wanted ? 7 : size) && !memcmp(&got, &lent, sizeof got));
}

/* The torrent with the name of a number. */
static void name_torrent(uint8_t *out, uint32_t number) {
    memcpy(out, torrent, TORRENT);
    out[NAME_AT] = (uint8_t)('a' + number);
}

/* Three torrents in one file. */
static struct week sound_week(void) {
    struct week w;
    uint8_t bodies[PACKAGES * TORRENT];
    uint64_t lengths[PACKAGES], detail = 0;
    for (uint32_t k = 0; k < PACKAGES; k++) name_torrent(bodies + k * TORRENT, k), lengths[k] = TORRENT;
    memset(&w, 0, sizeof w);
    says("three torrents", wardrail_write_week(bodies, sizeof bodies, lengths, PACKAGES, w.bytes, WEEK_BYTES, &detail) == 0);
    w.count = detail;
    return w;
}

/* A table and bodies of which each part is wrong now and then. */
static struct week any_week(void) {
    struct week w = {.count = 0};
    size_t packages = 1 + any() % PACKAGES, body = 4 + ENTRY * packages;
    put_four(w.bytes, any() % 16 ? packages : any() % 5);
    for (size_t i = 0; i < packages; i++) {
        uint8_t *entry = w.bytes + 4 + ENTRY * i;
        size_t len = any() % 16 ? TORRENT : any() % TORRENT;
        name_torrent(w.bytes + body, any() % 8 ? (uint32_t)i : any() % PACKAGES);
        if (!(any() % 12)) w.bytes[body + any() % TORRENT] = (uint8_t)any();
        put_four(entry, any() % 16 ? body : body + any() % 3 - 1);
        put_four(entry + 4, any() % 16 ? len : len + any() % 3 - 1);
        if (any() % 16) wardrail_info_hash(w.bytes + body, len, entry + 8);
        body += len;
    }
    w.count = body + (any() % 8 ? 0 : any() % 3);
    return w;
}

static void weeks_read(void) {
    static const char bytes[] = "0129:abeild-x";
    const struct week sound = sound_week();
    struct week w = sound;
    for (w.count = 0; w.count <= sound.count + 2; w.count++) week_tried(&w);
    for (size_t at = 0; at < 4 + ENTRY * PACKAGES; at++)
        for (int k = 0; k < 10; k++) {
            w = sound;
            w.bytes[at] = k < 8 ? (uint8_t)(w.bytes[at] ^ 1 << k) : k == 8 ? 0 : 255;
            week_tried(&w);
        }
    for (size_t at = 4 + ENTRY * PACKAGES; at < sound.count; at++)
        for (size_t k = 0; k < sizeof bytes - 1; k++) {
            w = sound;
            w.bytes[at] = (uint8_t)bytes[k];
            week_tried(&w);
        }
    for (int turn = 0; turn < 2000; turn++) {
        w = sound;
        for (uint32_t k = any() % 4; k; k--) w.count = damaged(w.bytes, w.count, any() % (w.count + 1), any() % 4 ? (uint8_t)(any() % 128) : (uint8_t)any());
        week_tried(&w);
        w = any_week();
        week_tried(&w);
    }
}

static void weeks_written(void) {
    uint8_t bodies[PACKAGES * TORRENT];
    for (size_t room = 0; room <= WEEK_BYTES; room++) {
        uint64_t lengths[PACKAGES] = {TORRENT, TORRENT, TORRENT};
        for (uint32_t k = 0; k < PACKAGES; k++) name_torrent(bodies + k * TORRENT, k);
        week_written(bodies, sizeof bodies, lengths, PACKAGES, room);
    }
    for (int turn = 0; turn < 5000; turn++) {
        static const uint64_t far[] = {UINT64_MAX, UINT64_MAX - TORRENT + 1, 1ull << 63, 1ull << 32};
        uint64_t lengths[PACKAGES];
        size_t packages = any() % (PACKAGES + 1), count = packages * TORRENT;
        for (uint32_t k = 0; k < PACKAGES; k++) {
            name_torrent(bodies + k * TORRENT, any() % 8 ? k : any() % PACKAGES);
            lengths[k] = any() % 8 ? TORRENT : any() % 4 ? any() % (2 * TORRENT) : far[any() % 4] + any() % 3;
        }
        if (!(any() % 4)) bodies[any() % sizeof bodies] = (uint8_t)any();
        if (!(any() % 8)) count = any() % (sizeof bodies + 1);
        week_written(bodies, count, lengths, packages, any() % 4 ? WEEK_BYTES : any() % WEEK_BYTES);
    }
}

static void weeks(void) {
    struct wardrail_week week = {7, 7, 7};
    struct wardrail_week_package package = {.files = 7};
    struct wardrail_week_package_at at = {.files = 7};
    uint8_t out[1] = {7};
    uint64_t detail = 7, length = sizeof more, lengths[257] = {0};
    bool long_ones = wardrail_week(more, sizeof more, &week) == 8 && wardrail_week_table(more, sizeof more, &detail) == 8;
    long_ones = long_ones && wardrail_week_package(more, sizeof more, 0, &package) == 8 && wardrail_week_package_at(more, sizeof more, 0, &at) == 8;
    long_ones = long_ones && wardrail_write_week(more, sizeof more, &length, 1, out, 1, &detail) == 8;
    says("a file too long", long_ones && week.packages == 7 && package.files == 7 && at.files == 7 && out[0] == 7 && detail == 7);
    says("257 bodies", wardrail_write_week(torrent, 0, lengths, 257, out, 1, &detail) == 18 && wardrail_write_week(torrent, 0, lengths, 256, out, 1, &detail) == 1 && detail == 7);
    weeks_read();
    weeks_written();
}

int main(void) {
    looks();
    addresses();
    links();
    weeks();
    any_bytes();
    tops();
    zeros();
    spares();
    rounds();
    sizes();
    printf("%d calls on damaged tables, at any place, by two texts, of links and of weeks, %d wrong\n", tried, wrong);
    return wrong != 0;
}
