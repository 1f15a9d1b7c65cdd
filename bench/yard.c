/* Times the yard's calls beside the same calls in plain C, at 2,000 seats and 16,384 pieces. The plain ones check what document 01
 * asks for and keep the same tables. It prints nanoseconds for a call, and ours over theirs. */
#define _POSIX_C_SOURCE 200809L
#include "../host/wardrail_yard.h"

#include <stdio.h>
#include <stdlib.h>
#include <string.h>
#include <time.h>

enum { SEATS = 2000, PIECES = 16384, WIDTH = PIECES / 8, TURNS = 15 };
static const uint64_t MOST_SENT = 1ull << 53;

struct yard {
    struct wardrail_head head;
    struct wardrail_seat seats[SEATS];
    uint8_t rows[SEATS * WIDTH];
    uint16_t holders[PIECES];
};
static struct yard ours, theirs;
#define OURS &ours.head, ours.seats, SEATS, ours.rows, SEATS *WIDTH, ours.holders, PIECES
#define THEIRS &theirs.head, theirs.seats, SEATS, theirs.rows, SEATS *WIDTH, theirs.holders, PIECES

static uint32_t word(const uint8_t *b) { return (uint32_t)b[0] << 24 | (uint32_t)b[1] << 16 | (uint32_t)b[2] << 8 | b[3]; }

/* ---- plain C: the header's own calls, as one would write them; each is kept out of line as a library's call is */

#define OUT_OF_LINE __attribute__((noinline, noclone))

static bool fit(const struct wardrail_head *h, size_t seats, size_t rows, size_t holders) {
    return h->pieces >= 1 && h->pieces <= 16384 && seats >= 1 && seats <= 2000 && h->piece_length >= 16384 && h->piece_length <= 16777216 &&
           !(h->piece_length & (h->piece_length - 1)) && h->last_length >= 1 && h->last_length <= h->piece_length &&
           rows == seats * ((h->pieces + 7) / 8) && holders == h->pieces;
}

/* whether n new pieces, of a truck that holds so many, would bring a count of the head or the seat over its top */
static bool no_room(const struct wardrail_head *h, const struct wardrail_seat *s, size_t seats, uint32_t n) {
    uint64_t held = (uint64_t)s->held + n;
    return held > h->pieces || (held == h->pieces && h->complete >= seats);
}

static void gain(struct wardrail_head *h, struct wardrail_seat *s, uint32_t n) {
    s->held = (uint16_t)(s->held + n);
    if (s->held == h->pieces) h->complete++;
}

static int hear_have(struct wardrail_head *h, struct wardrail_seat *s, size_t seats, uint8_t *row, uint16_t *holders, uint32_t p) {
    if (p >= h->pieces) return 31;
    uint8_t bit = (uint8_t)(128 >> p % 8);
    if (row[p / 8] & bit) return 0;
    if (holders[p] >= seats || no_room(h, s, seats, 1)) return 39;
    row[p / 8] |= bit;
    holders[p]++;
    gain(h, s, 1);
    return 0;
}

static int hear_bitfield(struct wardrail_head *h, struct wardrail_seat *s, size_t seats, uint8_t *row, uint16_t *holders, const uint8_t *says, size_t count) {
    uint32_t pieces = h->pieces, new = 0;
    if (!s->fresh) return 30;
    if (count != (pieces + 7) / 8) return 32;
    if (pieces % 8 && (says[count - 1] & 255 >> pieces % 8)) return 33;
    for (uint32_t p = 0; p < pieces; p++)
        if ((says[p / 8] & ~row[p / 8]) >> (7 - p % 8) & 1) {
            if (holders[p] >= seats) return 39;
            new++;
        }
    if (!new) return 0;
    if (no_room(h, s, seats, new)) return 39;
    for (uint32_t p = 0; p < pieces; p++)
        if ((says[p / 8] & ~row[p / 8]) >> (7 - p % 8) & 1) holders[p]++;
    for (size_t k = 0; k < count; k++) row[k] |= says[k];
    gain(h, s, new);
    return 0;
}

static int hear_piece(struct wardrail_seat *s, uint32_t count) {
    if (s->bytes > MOST_SENT || count > MOST_SENT - s->bytes) return 39;
    s->bytes += count;
    return 0;
}

static int hear_block(const struct wardrail_head *h, uint32_t p, uint32_t begin, uint32_t count) {
    if (p >= h->pieces) return 31;
    uint32_t size = p + 1 == h->pieces ? h->last_length : h->piece_length;
    return count >= 1 && count <= 16384 && (uint64_t)begin + count <= size ? 0 : 34;
}

OUT_OF_LINE static uint64_t plain_feed(WARDRAIL_TABLES, size_t seat, const uint8_t *bytes, size_t bytes_count, struct wardrail_told *told) {
    if (!fit(head, seats_count, rows_count, holders_count)) return 38;
    if (seat >= seats_count || !seats[seat].taken) return 36;
    if (bytes_count < 4) return WARDRAIL_WAIT;
    uint32_t len = word(bytes);
    if (len > 16393) return 20;
    if (bytes_count < 4 + (size_t)len) return WARDRAIL_WAIT;
    struct wardrail_seat *s = &seats[seat];
    uint8_t *row = rows + seat * ((head->pieces + 7) / 8);
    const uint8_t *load = bytes + 5;
    uint64_t request = 0;
    int bad = 0;
    if (len) switch (bytes[4]) {
    case 0:
    case 1:
        if (len != 1) return 21;
        s->peer_choking = bytes[4] == 0;
        break;
    case 2:
    case 3:
        if (len != 1) return 21;
        s->peer_interested = bytes[4] == 2;
        break;
    case 4:
        if (len != 5) return 21;
        bad = hear_have(head, s, seats_count, row, holders, word(load));
        break;
    case 5:
        if (len < 2 || len > 2049) return 21;
        bad = hear_bitfield(head, s, seats_count, row, holders, load, len - 1);
        break;
    case 6:
        if (len != 13) return 21;
        bad = hear_block(head, word(load), word(load + 4), word(load + 8));
        request = !s->am_choking && s->peer_interested ? 1 : 2;
        break;
    case 7:
        if (len < 10) return 21;
        bad = hear_block(head, word(load), word(load + 4), len - 9);
        if (!bad) bad = hear_piece(s, len - 9);
        break;
    case 8:
        if (len != 13) return 21;
        bad = hear_block(head, word(load), word(load + 4), word(load + 8));
        break;
    }
    if (bad) return (uint64_t)bad;
    if (len) s->fresh = 0;
    *told = (struct wardrail_told){.value = 4 + len, .request = request};
    return 0;
}

OUT_OF_LINE static uint64_t plain_leave(WARDRAIL_TABLES, size_t seat) {
    if (!fit(head, seats_count, rows_count, holders_count)) return 38;
    if (seat >= seats_count || !seats[seat].taken) return 36;
    struct wardrail_seat *s = &seats[seat];
    uint32_t pieces = head->pieces, width = (pieces + 7) / 8;
    uint8_t *row = rows + seat * width;
    if (!head->taken || (s->held == pieces && !head->complete)) return 39;
    for (uint32_t p = 0; p < pieces; p++)
        if (row[p / 8] >> (7 - p % 8) & 1 && !holders[p]) return 39;
    for (uint32_t p = 0; p < pieces; p++)
        if (row[p / 8] >> (7 - p % 8) & 1) holders[p]--;
    memset(row, 0, width);
    head->taken--;
    if (s->held == pieces) head->complete--;
    if (head->free == seat) head->free = WARDRAIL_NOBODY;
    memset(s, 0, sizeof *s);
    return 0;
}

OUT_OF_LINE static uint64_t plain_missing(WARDRAIL_TABLES_READ, size_t first, uint32_t *page, size_t page_count, struct wardrail_told *told) {
    if (!fit(head, seats_count, rows_count, holders_count)) return 38;
    (void)rows, (void)holders;
    if (first > seats_count) return 36;
    *told = (struct wardrail_told){.next = seats_count};
    for (size_t i = 0; i < seats_count; i++) {
        if (!seats[i].taken || seats[i].held == head->pieces) continue;
        told->total++;
        if (i < first) continue;
        if (told->listed < page_count) page[told->listed++] = (uint32_t)i;
        else if (told->next == seats_count) told->next = i;
    }
    return 0;
}

/* the four that sent most, the best first, and the next seat for the free place in one pass, and the marks in another */
OUT_OF_LINE static uint64_t plain_round(WARDRAIL_TABLES, struct wardrail_told *told) {
    if (!fit(head, seats_count, rows_count, holders_count)) return 38;
    (void)rows, (void)holders;
    if (head->round > 2 || (head->free != WARDRAIL_NOBODY && head->free >= seats_count) || head->last >= seats_count) return 39;
    size_t best[4], four = 0;
    uint32_t lowest = WARDRAIL_NOBODY, next = WARDRAIL_NOBODY;
    for (size_t i = 0; i < seats_count; i++) {
        if (!seats[i].taken || !seats[i].peer_interested) continue;
        if (lowest == WARDRAIL_NOBODY) lowest = (uint32_t)i;
        if (next == WARDRAIL_NOBODY && i > head->last) next = (uint32_t)i;
        if (four == 4 && seats[best[3]].bytes >= seats[i].bytes) continue;
        size_t k = four < 4 ? four++ : 3;
        for (; k > 0 && seats[best[k - 1]].bytes < seats[i].bytes; k--) best[k] = best[k - 1];
        best[k] = i;
    }
    if (head->round == 0) {
        head->free = next != WARDRAIL_NOBODY ? next : lowest;
        if (head->free != WARDRAIL_NOBODY) head->last = head->free;
    }
    head->round = (head->round + 1) % 3;
    for (size_t i = 0; i < seats_count; i++)
        if (seats[i].taken) seats[i].bytes = 0, seats[i].am_choking = 1;
    uint64_t unchoked = four;
    for (size_t k = 0; k < four; k++) seats[best[k]].am_choking = 0;
    if (head->free != WARDRAIL_NOBODY && seats[head->free].taken && seats[head->free].am_choking) seats[head->free].am_choking = 0, unchoked++;
    *told = (struct wardrail_told){.unchoked = unchoked};
    return 0;
}

/* ---- times */

static double now(void) {
    struct timespec t;
    clock_gettime(CLOCK_MONOTONIC, &t);
    return (double)t.tv_sec * 1e9 + (double)t.tv_nsec;
}

static void must(uint64_t r, const char *what) {
    if (r) {
        fprintf(stderr, "bench: %s answered %llu\n", what, (unsigned long long)r);
        exit(1);
    }
}

static int by_size(const void *a, const void *b) { return (*(const double *)a > *(const double *)b) - (*(const double *)a < *(const double *)b); }

static void row(const char *what, double *a, double *b) {
    qsort(a, TURNS, sizeof *a, by_size);
    qsort(b, TURNS, sizeof *b, by_size);
    printf("%-36s %12.1f %12.1f %8.2f\n", what, a[TURNS / 2], b[TURNS / 2], a[TURNS / 2] / b[TURNS / 2]);
}

static void same(const char *what) {
    if (memcmp(&ours, &theirs, sizeof ours)) must(1, what);
}

/* ---- the same answers: numbers, told records and tables, for frames of every id, whole, short, too long and wrong */

static void alike(size_t seat, const uint8_t *b, size_t count, uint64_t expected) {
    struct wardrail_told a = {{7}, 7, 7, 7}, t = a;
    uint64_t x = wardrail_yard_feed(OURS, seat, b, count, &a), y = plain_feed(THEIRS, seat, b, count, &t);
    if (x != y || x != expected || memcmp(&a, &t, sizeof a)) {
        fprintf(stderr, "bench: a frame of id %u: %llu beside %llu\n", b[4], (unsigned long long)x, (unsigned long long)y);
        exit(1);
    }
    same("the tables after a frame differ, so the comparison");
}

/* a frame of length n and this id, with zeros from its fourth payload byte on but for a last byte */
static void frame(uint32_t n, uint8_t id, uint32_t number, uint8_t last, size_t seat, uint64_t expected) {
    static uint8_t b[17000];
    memset(b, 0, sizeof b);
    for (int k = 0; k < 4; k++) b[k] = (uint8_t)(n >> (24 - 8 * k)), b[5 + k] = (uint8_t)(number >> (24 - 8 * k));
    b[4] = id;
    if (n > 5) b[3 + n] = last;
    alike(seat, b, 3, WARDRAIL_WAIT);
    if (n && n <= 16393) alike(seat, b, 3 + n, WARDRAIL_WAIT);
    alike(SEATS, b, sizeof b, 36);
    alike(seat, b, sizeof b, expected);
}

/* each truck sent fewer bytes than this, as if at random, so that few or many are alike */
static void sent(uint64_t most) {
    static uint64_t state = 88172645463325252u;
    for (size_t i = 0; i < SEATS; i++) {
        state ^= state << 13, state ^= state >> 7, state ^= state << 17;
        ours.seats[i].bytes = theirs.seats[i].bytes = state % most;
    }
}

static void turn(uint64_t expected) {
    struct wardrail_told a = {{7}, 7, 7, 7}, t = a;
    uint64_t x = wardrail_yard_round(OURS, &a), y = plain_round(THEIRS, &t);
    if (x != y || x != expected || memcmp(&a, &t, sizeof a)) {
        fprintf(stderr, "bench: a round: %llu beside %llu\n", (unsigned long long)x, (unsigned long long)y);
        exit(1);
    }
    same("the tables after a round differ, so the comparison");
}

/* rounds with nobody interested, one truck, every third, and all of them; then a free place, a last one and a number that are none */
static void rounds(void) {
    for (size_t k = 0; k < 4; k++) {
        for (size_t i = 0; i < SEATS; i++) ours.seats[i].peer_interested = theirs.seats[i].peer_interested = k == 1 ? i == 1234 : k == 2 ? i % 3 == 2 : k == 3;
        for (uint64_t most = 1; most < 8; most++) sent(most), turn(0);
    }
    ours.head.round = theirs.head.round = 1, ours.head.free = theirs.head.free = SEATS, turn(39);
    ours.head.free = theirs.head.free = WARDRAIL_NOBODY, turn(0);
    ours.head.last = theirs.head.last = SEATS, turn(39);
    ours.head.last = theirs.head.last = 0, ours.head.round = theirs.head.round = 3, turn(39);
}

static void answers(void) {
    for (uint8_t id = 0; id < 4; id++) frame(1, id, 0, 0, 7, 0), frame(2, id, 0, 0, 7, 21);
    frame(0, 0, 0, 0, 7, 0);
    frame(16394, 20, 0, 0, 7, 20);
    frame(9, 20, 0, 0, 7, 0);
    frame(5, 4, 5, 0, 7, 0), frame(5, 4, 5, 0, 7, 0), frame(5, 4, PIECES, 0, 7, 31), frame(6, 4, 5, 0, 7, 21), frame(4, 4, 5, 0, 7, 21);
    frame(1 + WIDTH, 5, 77, 1, 7, 30), frame(0, 0, 0, 0, 8, 0), frame(1 + WIDTH, 5, 77, 1, 8, 0), frame(WIDTH, 5, 77, 1, 9, 32), frame(1, 5, 0, 0, 9, 21);
    for (uint8_t id = 6; id < 9; id++) {
        frame(13, id, 2, 64, 7, 0), frame(13, id, PIECES, 64, 7, 31), frame(12, id, 2, 64, 7, id == 7 ? 0 : 21);
        if (id != 7) frame(13, id, 2, 0, 7, 34);
    }
    frame(9, 7, 2, 0, 7, 21), frame(16393, 7, PIECES - 1, 0, 7, 0);
    ours.seats[7].bytes = theirs.seats[7].bytes = MOST_SENT - 1;
    frame(10, 7, 2, 0, 7, 0), frame(10, 7, 2, 0, 7, 39);
    ours.seats[7].am_choking = theirs.seats[7].am_choking = 0;
    frame(1, 2, 0, 0, 7, 0), frame(13, 6, 2, 64, 7, 0);
    ours.seats[7].held = theirs.seats[7].held = PIECES;
    frame(5, 4, 6, 0, 7, 39);
    ours.head.last_length = theirs.head.last_length = 16385;
    static const uint8_t keepalive[5];
    alike(7, keepalive, 4, 38);
}

int main(void) {
    static uint8_t have[9] = {0, 0, 0, 5, 4}, full[5 + WIDTH] = {0, 0, (1 + WIDTH) >> 8, (1 + WIDTH) & 255, 5};
    static uint8_t piece[4 + 16393] = {0, 0, 16393 >> 8, 16393 & 255, 7};
    static uint32_t page[SEATS], page2[SEATS];
    double a[TURNS], b[TURNS], c[TURNS], d[TURNS], t;
    struct wardrail_told told, told2;
    memset(full + 5, 255, WIDTH);
    must(wardrail_yard_start(OURS, PIECES, 16384, 16384), "start");
    for (int i = 0; i < SEATS; i++) must(wardrail_yard_sit(OURS, &told), "sit");
    theirs = ours;
    static struct yard fresh;
    fresh = ours;
    answers();
    ours = theirs = fresh;
    rounds();
    ours = theirs = fresh;
    printf("%-36s %12s %12s %8s\n", "2,000 seats, 16,384 pieces: ns a call", "ours", "plain C", "ratio");
    for (int k = 0; k < TURNS; k++) {
        /* a have of a new piece, at each seat by turns */
        have[7] = (uint8_t)(k * 3 >> 8), have[8] = (uint8_t)(k * 3);
        t = now();
        for (size_t i = 0; i < SEATS; i++) must(wardrail_yard_feed(OURS, i, have, 9, &told), "have");
        a[k] = (now() - t) / SEATS;
        t = now();
        for (size_t i = 0; i < SEATS; i++) must(plain_feed(THEIRS, i, have, 9, &told2), "plain have");
        b[k] = (now() - t) / SEATS;
        if (memcmp(&told, &told2, sizeof told)) must(1, "what is told of a have differs, so the comparison");
    }
    same("the tables after haves differ, so the comparison");
    row("have", a, b);
    for (int k = 0; k < TURNS; k++) {
        /* a whole block, from each seat by turns */
        t = now();
        for (size_t i = 0; i < SEATS; i++) must(wardrail_yard_feed(OURS, i, piece, sizeof piece, &told), "piece");
        a[k] = (now() - t) / SEATS;
        t = now();
        for (size_t i = 0; i < SEATS; i++) must(plain_feed(THEIRS, i, piece, sizeof piece, &told2), "plain piece");
        b[k] = (now() - t) / SEATS;
        if (memcmp(&told, &told2, sizeof told)) must(1, "what is told of a piece differs, so the comparison");
    }
    same("the tables after pieces differ, so the comparison");
    row("piece frame", a, b);
    for (int k = 0; k < TURNS; k++) {
        /* a page of every seat */
        t = now();
        for (int i = 0; i < 50; i++) must(wardrail_yard_missing(OURS, 0, page, SEATS, &told), "missing");
        a[k] = (now() - t) / 50;
        t = now();
        for (int i = 0; i < 50; i++) must(plain_missing(THEIRS, 0, page2, SEATS, &told2), "plain missing");
        b[k] = (now() - t) / 50;
        if (memcmp(&told, &told2, sizeof told) || memcmp(page, page2, sizeof page)) must(1, "the pages differ, so the comparison");
    }
    row("page of 2,000 seats", a, b);
    for (size_t i = 0; i < SEATS; i++) ours.seats[i].peer_interested = theirs.seats[i].peer_interested = 1;
    for (int k = 0; k < TURNS; k++) {
        /* every truck is interested, and has sent anew */
        double ta = 0, tb = 0;
        for (int i = 0; i < 50; i++) {
            sent(1u << 30);
            t = now();
            must(wardrail_yard_round(OURS, &told), "round");
            ta += now() - t;
            t = now();
            must(plain_round(THEIRS, &told2), "plain round");
            tb += now() - t;
            if (memcmp(&told, &told2, sizeof told)) must(1, "what is told of a round differs, so the comparison");
        }
        a[k] = ta / 50, b[k] = tb / 50;
        same("the tables after rounds differ, so the comparison");
    }
    row("round of 2,000 seats", a, b);
    for (int k = 0; k < TURNS; k++) {
        /* 50 trucks come anew, say that they have all, and leave */
        double ta = 0, tb = 0, tc = 0, td = 0;
        for (size_t i = 0; i < 50; i++) {
            must(wardrail_yard_leave(OURS, i), "leave");
            must(wardrail_yard_sit(OURS, &told), "sit");
            must(plain_leave(THEIRS, i), "plain leave");
            theirs.seats[i] = ours.seats[i];
            theirs.head = ours.head;
            t = now();
            must(wardrail_yard_feed(OURS, i, full, sizeof full, &told), "bitfield");
            ta += now() - t;
            t = now();
            must(plain_feed(THEIRS, i, full, sizeof full, &told2), "plain bitfield");
            tb += now() - t;
            if (memcmp(&told, &told2, sizeof told)) must(1, "what is told of a bitfield differs, so the comparison");
            t = now();
            must(wardrail_yard_leave(OURS, i), "leave");
            tc += now() - t;
            t = now();
            must(plain_leave(THEIRS, i), "plain leave");
            td += now() - t;
            must(wardrail_yard_sit(OURS, &told), "sit");
            theirs.seats[i] = ours.seats[i];
            theirs.head = ours.head;
        }
        a[k] = ta / 50, b[k] = tb / 50, c[k] = tc / 50, d[k] = td / 50;
    }
    same("the tables after bitfields and leaves differ, so the comparison");
    row("full bitfield", a, b);
    row("leave of a full truck", c, d);
    return 0;
}
