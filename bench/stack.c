/* The most stack that a call of the library uses, on a stack of its own that is painted before each call: from where the caller's stack
 * pointer stood down to the last byte that lost its paint, what the C library's copies use included. bench/run builds and runs it. */
#define _XOPEN_SOURCE 700
#include "../host/wardrail.h"

#include <stdio.h>
#include <stdlib.h>
#include <string.h>
#include <ucontext.h>

enum { ROOM = 1 << 16, PIECE = 1 << 16, FILES = 32, DEEPEST = 31, MOST_TEXT = 1 << 12 };

static uint8_t text[MOST_TEXT], piece[PIECE], digest[20], file[MOST_TEXT + 32];
static size_t length, bytes;
static uint32_t number;
static uint64_t detail, body, file_length;
static struct wardrail_torrent told;
static struct wardrail_week week;

/* ---- a call on a painted stack */

static uint8_t stack[ROOM] __attribute__((aligned(16)));
static ucontext_t here, there;
static uint64_t (*called)(void);
static uint64_t answer;
static const uint8_t *top;

/* where the stack pointer of `onward` stands when it calls */
static __attribute__((noinline)) uint64_t nothing(void) {
    top = __builtin_dwarf_cfa();
    return 0;
}

static void onward(void) { answer = called(); }

static void run(uint64_t (*call)(void), uint8_t paint) {
    memset(stack, paint, ROOM);
    called = call;
    getcontext(&there);
    there.uc_stack.ss_sp = stack;
    there.uc_stack.ss_size = ROOM;
    there.uc_link = &here;
    makecontext(&there, onward, 0);
    swapcontext(&here, &there);
}

/* the bytes from `top` down to the last that is touched, in two paints, since what is written may have the colour of one */
static size_t used(uint64_t (*call)(void)) {
    size_t most = 0;
    for (int k = 0; k < 2; k++) {
        const uint8_t paint = k ? 0x5a : 0xa5;
        size_t free = 0;
        run(call, paint);
        while (free < ROOM && stack[free] == paint) free++;
        if (free == 0) {
            fprintf(stderr, "bench: the painted stack is too short\n");
            exit(1);
        }
        const size_t depth = (size_t)(top - (stack + free));
        if (depth > most) most = depth;
    }
    return most;
}

/* ---- the calls */

static uint64_t sha1(void) { return wardrail_sha1(piece, bytes, digest); }
static uint64_t info_hash(void) { return wardrail_info_hash(text, length, digest); }
static uint64_t piece_check(void) { return wardrail_piece_check(text, length, number, piece, bytes, &detail); }
static uint64_t read_torrent(void) { return wardrail_torrent(text, length, &told); }
static uint64_t write_week(void) { return wardrail_write_week(text, length, &body, 1, file, sizeof file, &file_length); }
static uint64_t read_week(void) { return wardrail_week(file, file_length, &week); }

enum { SHA1, PIECE_CHECK, INFO_HASH, TORRENT, WRITE_WEEK, WEEK, CALLS };
static const struct {
    const char *name;
    uint64_t (*call)(void);
} calls[CALLS] = {
    {"wardrail_sha1", sha1}, {"wardrail_piece_check", piece_check}, {"wardrail_info_hash", info_hash}, {"wardrail_torrent", read_torrent}, {"wardrail_write_week", write_week},
    {"wardrail_week", read_week},
};
/* of each call the most on messages and plain torrents, and on nested ones */
static size_t most[CALLS][2], asked;
static int nested;

static uint64_t ask(int k) {
    const size_t depth = used(calls[k].call);
    if (depth > most[k][nested]) most[k][nested] = depth;
    asked++;
    return answer;
}

/* the same, where a refusal would mean that the call was not measured to its end */
static void must(int k) {
    if (ask(k) == 0) return;
    fprintf(stderr, "bench: %s answered %llu\n", calls[k].name, (unsigned long long)answer);
    exit(1);
}

/* ---- what they are asked: messages around the ends of blocks, and torrents with one file and with many, their piece, whole, cut and wrong,
 * and each as a week's only package; then the same with lists below a key that nobody reads, up to the deepest that is taken, and each beginning of one that is too deep */

static void put(const char *s) {
    memcpy(text + length, s, strlen(s));
    length += strlen(s);
}

static void torrent(int files, int deep) {
    length = 0;
    put("d8:announce4:here4:infod");
    if (files > 1) put("5:filesl");
    for (int i = 0; i < files && files > 1; i++) put("d6:lengthi2048e4:pathl4:city5:roadsee");
    put(files > 1 ? "e" : "6:lengthi65536e");
    put("4:name4:maps12:piece lengthi65536e6:pieces20:");
    memcpy(text + length, digest, 20);
    length += 20;
    put("e4:zone");
    for (int i = 0; i < deep; i++) put("l");
    put("i1e");
    for (int i = 0; i < deep; i++) put("e");
    put("e");
}

static void one_torrent(int files, int deep) {
    bytes = PIECE;
    must(SHA1);
    torrent(files, deep);
    must(TORRENT);
    number = 0;
    must(PIECE_CHECK);
    if (detail != 1) {
        fprintf(stderr, "bench: the piece is not its torrent's\n");
        exit(1);
    }
    for (bytes = PIECE - 2; bytes < PIECE; bytes++) ask(PIECE_CHECK);
    piece[0] ^= 1;
    must(PIECE_CHECK);
    piece[0] ^= 1;
    number = 1;
    ask(PIECE_CHECK);
    must(INFO_HASH);
    body = length;
    must(WRITE_WEEK);
    must(WEEK);
}

static void ask_all(void) {
    for (bytes = 0; bytes < 200; bytes++) must(SHA1);
    one_torrent(1, 0);
    one_torrent(FILES, 0);
    nested = 1;
    for (int deep = 1; deep <= DEEPEST; deep++) one_torrent(1, deep), one_torrent(FILES, deep);
    for (torrent(FILES, DEEPEST + 1); length > 0; length--) ask(PIECE_CHECK), ask(INFO_HASH), ask(TORRENT);
}

int main(void) {
    for (int i = 0; i < PIECE; i++) piece[i] = (uint8_t)(i * 167 + i / 251);
    run(nothing, 0);
    ask_all();
    printf("Stack in bytes, the most of %zu calls on a painted stack\n%-20s %15s %15s\n", asked, "", "plain torrents", "nested ones");
    for (int k = 0; k < CALLS; k++) printf("%-20s %15zu %15zu\n", calls[k].name, most[k][0], most[k][1]);
    return 0;
}
