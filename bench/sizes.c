/* Times calls of the library at growing sizes: bencode texts by their bytes, torrents by their files and pieces, weeks' files by their
 * packages, bitfields by pieces, missing pages and rounds by seats. Prints a line for each measurement: what, size, what the size counts,
 * microseconds. bench/run builds and runs it; tools/plot.py draws it. */
#define _POSIX_C_SOURCE 200809L
#include "../host/wardrail_yard.h"

#include <stdio.h>
#include <stdlib.h>
#include <string.h>
#include <time.h>

enum { STEPS = 8, RUNS = 41, MOST_TEXT = 1 << 20, MOST_FILES = 1024, MOST_PIECES = 16384, MOST_SEATS = 2000, MOST_PACKAGES = 256, PACKAGE_PIECES = 190 };

static uint8_t text[MOST_TEXT + 1];
static size_t length;

static void put(const char *bytes) {
    length += (size_t)snprintf((char *)text + length, sizeof text - length, "%s", bytes);
}

static void must(uint64_t refused, const char *what) {
    if (!refused) return;
    fprintf(stderr, "bench: %s answered %llu\n", what, (unsigned long long)refused);
    exit(1);
}

static double now(void) {
    struct timespec t;
    clock_gettime(CLOCK_MONOTONIC, &t);
    return (double)t.tv_sec * 1e6 + (double)t.tv_nsec / 1e3;
}

static void line(const char *what, size_t size, const char *unit, double spent) { printf("%s,%zu,%s,%.3f\n", what, size, unit, spent); }

/* ---- texts and torrents: the least time of many runs */

static double least(void (*call)(void)) {
    double best = 1e18;
    for (int k = 0; k < RUNS; k++) {
        const double start = now();
        call();
        const double spent = now() - start;
        if (spent < best) best = spent;
    }
    return best;
}

static void check(void) {
    uint64_t detail;
    must(wardrail_check(text, length, &detail), "check");
}

static void torrent(void) {
    struct wardrail_torrent t;
    must(wardrail_torrent(text, length, &t), "torrent");
}

static void info_hash(void) {
    uint8_t digest[20];
    must(wardrail_info_hash(text, length, digest), "info hash");
}

/* A list of one item as often as it fits, or as 16,384 values allow. */
static void list(const char *item, size_t values, size_t bytes) {
    length = 0;
    put("l");
    for (size_t k = 0; k < (size_t)(16383 / values) && length + strlen(item) + 1 <= bytes; k++) put(item);
    put("e");
}

static void texts(void) {
    static const struct {
        const char *what, *item;
        size_t values, most;
    } kinds[] = {
        {"peers", "d2:ip9:127.0.0.17:peer id20:-AA0000-abcdefghijkl4:porti6881ee", 7, 140000},
        {"integers of 19 digits", "i-9223372036854775808e", 1, 360000},
        {"strings of 61 bytes", "61:aaaaaaaaaaaaaaaaaaaaaaaaaaaaaaaaaaaaaaaaaaaaaaaaaaaaaaaaaaaaa", 1, MOST_TEXT},
    };
    for (size_t kind = 0; kind < sizeof kinds / sizeof *kinds; kind++)
        for (size_t k = 1; k <= STEPS; k++) {
            list(kinds[kind].item, kinds[kind].values, kinds[kind].most / STEPS * k);
            line(kinds[kind].what, length, "bytes", least(check));
        }
}

/* Files of 262,144 bytes, so of 16 pieces each. */
static void files(size_t count) {
    char item[80];
    length = 0;
    put("d8:announce15:http://yard/ann4:infod5:filesl");
    for (size_t k = 0; k < count; k++) {
        snprintf(item, sizeof item, "d6:lengthi262144e4:pathl5:route12:map-%04zu.binee", k);
        put(item);
    }
    snprintf(item, sizeof item, "e4:name4:week12:piece lengthi16384e6:pieces%zu:", count * 16 * 20);
    put(item);
    memset(text + length, 'h', count * 16 * 20);
    length += count * 16 * 20;
    put("ee");
}

static void torrents(void) {
    for (size_t k = 1; k <= STEPS; k++) {
        files(MOST_FILES / STEPS * k);
        line("torrent read", MOST_FILES / STEPS * k, "files", least(torrent));
        line("info hash", MOST_FILES / STEPS * k, "files", least(info_hash));
    }
}

/* ---- weeks: the bodies of packages stand in `text` */

static uint64_t lengths[MOST_PACKAGES], file_length;
static uint8_t file[MOST_TEXT];
static size_t packages;

static void write_week(void) { must(wardrail_write_week(text, length, lengths, packages, file, sizeof file, &file_length), "week written"); }

static void week(void) {
    struct wardrail_week w;
    must(wardrail_week(file, file_length, &w), "week");
}

static void weeks(void) {
    char item[120];
    length = packages = 0;
    for (size_t k = 1; k <= STEPS; k++) {
        for (; packages < MOST_PACKAGES / STEPS * k; packages++) {
            const size_t before = length;
            snprintf(item, sizeof item, "d8:announce15:http://yard/ann4:infod6:lengthi%de4:name7:map-%03zu12:piece lengthi16384e6:pieces%d:", PACKAGE_PIECES * 16384, packages, PACKAGE_PIECES * 20);
            put(item);
            memset(text + length, 'h', PACKAGE_PIECES * 20);
            length += PACKAGE_PIECES * 20;
            put("ee");
            lengths[packages] = length - before;
        }
        line("week written", packages, "packages", least(write_week));
        line("week read", packages, "packages", least(week));
    }
}

/* ---- the yard: the sum of many calls, the least of such sums */

static struct wardrail_head head;
static struct wardrail_seat seats[MOST_SEATS];
static uint8_t rows[MOST_SEATS * (MOST_PIECES / 8)];
static uint16_t holders[MOST_PIECES];
static struct wardrail_told told;
#define TABLES(s, p) &head, seats, s, rows, (s) * ((p) / 8), holders, p

/* A truck that has every piece says so and leaves, again and again. */
static void bitfields(size_t pieces) {
    static uint8_t frame[5 + MOST_PIECES / 8];
    const size_t bytes = 1 + pieces / 8;
    double said = 1e18, left = 1e18;
    frame[2] = (uint8_t)(bytes >> 8), frame[3] = (uint8_t)bytes, frame[4] = 5;
    memset(frame + 5, 255, pieces / 8);
    must(wardrail_yard_start(TABLES(2, pieces), (uint32_t)pieces, 16384, 16384), "start");
    for (int k = 0; k < RUNS * 5; k++) {
        must(wardrail_yard_sit(TABLES(2, pieces), &told), "sit");
        const double a = now();
        must(wardrail_yard_feed(TABLES(2, pieces), 0, frame, 4 + bytes, &told), "bitfield");
        const double b = now();
        must(wardrail_yard_leave(TABLES(2, pieces), 0), "leave");
        const double c = now();
        if (b - a < said) said = b - a;
        if (c - b < left) left = c - b;
    }
    line("full bitfield", pieces, "pieces", said);
    line("leave of a full truck", pieces, "pieces", left);
}

/* A page of all seats, when every truck lacks pieces and when none does. */
static void pages(size_t count) {
    static uint32_t page[MOST_SEATS];
    static uint8_t full[6] = {0, 0, 0, 2, 5, 255};
    must(wardrail_yard_start(TABLES(count, 8), 8, 16384, 16384), "start");
    for (int loaded = 0; loaded < 2; loaded++) {
        double best = 1e18;
        for (size_t k = 0; k < count; k++) {
            if (!loaded) must(wardrail_yard_sit(TABLES(count, 8), &told), "sit");
            else must(wardrail_yard_feed(TABLES(count, 8), k, full, sizeof full, &told), "bitfield");
        }
        for (int k = 0; k < RUNS * 5; k++) {
            const double start = now();
            for (int turn = 0; turn < 10; turn++) must(wardrail_yard_missing(TABLES(count, 8), 0, page, count, &told), "page");
            const double spent = (now() - start) / 10;
            if (spent < best) best = spent;
        }
        must(told.listed != (loaded ? 0 : count), "page");
        line(loaded ? "none missing" : "all missing", count, "seats", best);
    }
}

/* A round, when every truck is interested. */
static void rounds(size_t count) {
    static const uint8_t interested[5] = {0, 0, 0, 1, 2};
    double best = 1e18;
    must(wardrail_yard_start(TABLES(count, 8), 8, 16384, 16384), "start");
    for (size_t k = 0; k < count; k++) {
        must(wardrail_yard_sit(TABLES(count, 8), &told), "sit");
        must(wardrail_yard_feed(TABLES(count, 8), k, interested, sizeof interested, &told), "interested");
    }
    for (int k = 0; k < RUNS * 5; k++) {
        const double start = now();
        for (int turn = 0; turn < 10; turn++) must(wardrail_yard_round(TABLES(count, 8), &told), "round");
        const double spent = (now() - start) / 10;
        if (spent < best) best = spent;
    }
    line("round", count, "seats", best);
}

int main(void) {
    texts();
    torrents();
    weeks();
    for (size_t k = 1; k <= STEPS; k++) bitfields(MOST_PIECES / STEPS * k);
    for (size_t k = 1; k <= STEPS; k++) pages(MOST_SEATS / STEPS * k);
    for (size_t k = 1; k <= STEPS; k++) rounds(MOST_SEATS / STEPS * k);
    return 0;
}
