/* Answers a replay script (docs/REPLAY.md) through libwardrail.a, one line for each call. Reads standard input. */
#define _POSIX_C_SOURCE 200809L
#include "wardrail_yard.h"

#include <inttypes.h>
#include <stdio.h>
#include <stdlib.h>
#include <string.h>

enum { MOST_WORDS = 8, MOST_SEATS = 2000, LONGEST_TEXT = 1 << 20, MOST_BYTES = 1 << 26 };

/* ---- words of a line */

struct bytes {
    uint8_t *data;
    size_t count;
};

static void stop(const char *why, const char *what) {
    fprintf(stderr, "replay: %s: %.60s\n", why, what);
    exit(1);
}

/* Memory for exactly that many elements, so that a checker of memory sees each access past them. */
static void *lent(size_t count, size_t size) {
    void *p = calloc(count, size);
    if (!p) stop("no memory", "");
    return p;
}

/* Lent output, and whether it is still as it was lent, from some byte on. */
#define FILL 0xa5
static void *lent_out(size_t count, size_t size) { return memset(lent(count, size), FILL, count * size); }

static bool untouched(const void *out, size_t from, size_t bytes) {
    for (size_t i = from; i < bytes; i++)
        if (((const uint8_t *)out)[i] != FILL) return false;
    return true;
}

static uint64_t number(const char *word) {
    char *end;
    uint64_t n = strtoull(word, &end, 10);
    if (*word < '0' || *word > '9' || *end) stop("no number", word);
    return n;
}

static size_t least(uint64_t n, size_t most) { return n < most ? (size_t)n : most; }

static int digit(char c, const char *word) {
    if (c >= '0' && c <= '9') return c - '0';
    if (c < 'a' || c > 'f') stop("no hex digit", word);
    return c - 'a' + 10;
}

/* Ends a word at each such byte, and tells how many there are then. */
static size_t split(char *word, char at) {
    size_t words = 1;
    for (; (word = strchr(word, at)); words++) *word++ = 0;
    return words;
}

/* How often WORD*COUNT has its word, which is ended there: once where there is no count. */
static uint64_t times(char *word) {
    char *star = strchr(word, '*');
    if (!star) return 1;
    *star = 0;
    return number(star + 1);
}

/* The same memory with more bytes at its end, which has exactly that length again. */
static void *longer(void *old, size_t bytes, size_t more) {
    if (more > MOST_BYTES - bytes) stop("too many bytes", "");
    void *p = memcpy(lent(bytes + more, 1), old, bytes);
    free(old);
    return p;
}

/* The bytes of a word, for the caller to free: parts joined by '.', each hex, HEX*COUNT or @COUNT. */
static struct bytes unhex(char *word) {
    struct bytes b = {lent(0, 1), 0};
    for (size_t parts = strcmp(word, "-") ? split(word, '.') : 0; parts; parts--) {
        char *next = word + strlen(word) + 1;
        bool own = *word == '@';
        uint64_t count = least(own ? number(word + 1) : times(word), MOST_BYTES + 1);
        size_t unit = own ? 1 : strlen(word) / 2;
        if (!own && strlen(word) % 2) stop("half a byte", word);
        b.data = longer(b.data, b.count, unit * count);
        for (size_t i = 0; i < unit * count; i++, b.count++) {
            if (own) b.data[b.count] = (uint8_t)(b.count % 251);
            else b.data[b.count] = i < unit ? (uint8_t)(digit(word[2 * i], word) * 16 + digit(word[2 * i + 1], word)) : b.data[b.count - unit];
        }
        word = next;
    }
    return b;
}

/* The numbers of a word, for the caller to free: parted by commas, each N or N*COUNT. */
static uint64_t *numbers(char *word, size_t *count) {
    uint64_t *list = lent(0, sizeof *list);
    *count = 0;
    for (size_t items = strcmp(word, "-") ? split(word, ',') : 0; items; items--) {
        char *next = word + strlen(word) + 1;
        uint64_t often = least(times(word), MOST_BYTES), n = number(word);
        list = longer(list, *count * sizeof *list, often * sizeof *list);
        for (uint64_t i = 0; i < often; i++) list[(*count)++] = n;
        word = next;
    }
    return list;
}

/* ---- lines: a call's words, the bytes of those that are bytes, and the yard so far */

struct yard {
    struct wardrail_head head;
    struct wardrail_seat *seats;
    uint8_t *rows;
    uint16_t *holders;
    size_t seats_count, rows_count, holders_count;
};

struct line {
    char *word[MOST_WORDS];
    struct bytes bytes[MOST_WORDS];
    struct yard *yard;
    bool sum; /* of what is written, how much it is and its digest */
};

/* A text or a slice of bytes, as calls take it. */
#define LENT(b) (b).data, (b).count
#define TABLES(y) &(y)->head, (y)->seats, (y)->seats_count, (y)->rows, (y)->rows_count, (y)->holders, (y)->holders_count

/* ---- answers */

#define N "%" PRIu64

static void hex(const uint8_t *data, size_t count) {
    static const char digits[] = "0123456789abcdef";
    if (!count) putchar('-');
    for (size_t i = 0; i < count; i++) {
        putchar(digits[data[i] >> 4]);
        putchar(digits[data[i] & 15]);
    }
}

static void part(struct bytes text, struct wardrail_part p) { hex(text.data + p.from, p.len); }

/* Where a part stands, after a space. */
static void place(struct wardrail_part p) { printf(" " N ":" N, p.from, p.len); }

/* Two ways to the same answer. */
static void agree(bool same, const char *what) {
    if (!same) stop("two calls differ", what);
}

static void refused(uint64_t r) { printf("refused " N " at " N, wardrail_number(r), wardrail_place(r)); }

/* What is lent for an answer, and a refusal or a wait that must have left it so. */
#define LEND(x) memset(&(x), FILL, sizeof(x))
#define KEPT(r, x) agree(!(r) || untouched(&(x), 0, sizeof(x)), "what a refusal leaves")
#define REFUSED(r, x) \
    do {              \
        KEPT(r, x);   \
        refused(r);   \
    } while (0)

/* ---- texts */

static void bencode_call(struct line *l) {
    uint64_t count;
    LEND(count);
    uint64_t r = wardrail_check(LENT(l->bytes[1]), &count);
    if (r) REFUSED(r, count);
    else printf("taken " N, count);
}

/* What stands at each place, from 0 to the text's end or to a refusal. */
static void walk_call(struct line *l) {
    struct bytes text = l->bytes[1];
    struct wardrail_look s;
    uint64_t at = 0;
    do {
        LEND(s);
        uint64_t r = wardrail_look(LENT(text), at, &s);
        if (at) putchar(' ');
        if (r) {
            REFUSED(r, s);
            return;
        }
        putchar("?sinlde"[s.seen]);
        if (s.seen == WARDRAIL_SEEN_STRING) part(text, s.bytes);
        if (s.seen == WARDRAIL_SEEN_INTEGER) s.bytes = (struct wardrail_part){at + 1, s.next_at - at - 2};
        if (s.seen == WARDRAIL_SEEN_INTEGER || s.seen == WARDRAIL_SEEN_LONG) fwrite(text.data + s.bytes.from, 1, s.bytes.len, stdout);
        at = s.next_at;
    } while (at < text.count);
}

static void torrent_call(struct line *l) {
    struct bytes text = l->bytes[1];
    struct wardrail_torrent t;
    uint8_t hash[20], again[20];
    LEND(t);
    LEND(hash);
    uint64_t r = wardrail_torrent(LENT(text), &t);
    agree(wardrail_info_hash(LENT(text), hash) == r, "info_hash");
    KEPT(r, hash);
    if (r) {
        REFUSED(r, t);
        return;
    }
    agree(wardrail_sha1(text.data + t.info.from, t.info.len, again) == 0 && !memcmp(hash, again, 20), "info_hash");
    agree(t.pieces.len == 20 * t.piece_count && t.single == (text.data[t.content_at] == 'i'), "torrent");
    printf("taken ");
    part(text, t.announce);
    putchar(' ');
    part(text, t.name);
    printf(" " N " " N " " N " " N " ", t.piece_length, t.piece_count, t.files, t.total);
    hex(hash, 20);
}

/* File i of many by walking there, from the first on. */
static void agree_walked(struct bytes text, uint64_t at, uint64_t i, const struct wardrail_file *file) {
    struct wardrail_file_at f = {.next_at = at};
    uint64_t offset = 0;
    for (uint64_t k = 0; k <= i; k++) {
        if (k) offset += f.length;
        agree(wardrail_file_at(LENT(text), f.next_at, &f) == 0, "file_at");
    }
    agree(offset == file->offset && f.length == file->length && f.path_at == file->path_at, "file_at");
}

static void file_call(struct line *l) {
    struct bytes text = l->bytes[1];
    uint64_t i = number(l->word[2]);
    struct wardrail_file f;
    struct wardrail_torrent t;
    LEND(f);
    uint64_t r = wardrail_file(LENT(text), i, &f);
    if (r) {
        REFUSED(r, f);
        return;
    }
    wardrail_torrent(LENT(text), &t);
    printf(N " " N " ", f.offset, f.length);
    if (f.single) {
        agree(f.path_at == t.name.from, "a single file's path");
        part(text, t.name);
        return;
    }
    agree_walked(text, t.content_at + 1, i, &f);
    struct wardrail_element_at e;
    const char *between = "";
    for (uint64_t at = f.path_at; wardrail_element_at(LENT(text), at, &e) == 0 && e.found; at = e.next_at) {
        printf("%s", between);
        part(text, e.element);
        between = "/";
    }
}

/* The place past a path, walked element by element. */
static uint64_t past_path(struct bytes text, uint64_t at) {
    struct wardrail_element_at e = {.found = 1, .next_at = at};
    while (e.found) agree(wardrail_element_at(LENT(text), e.next_at, &e) == 0, "element_at");
    return e.next_at;
}

/* Where the files of many stand: their list, its end, and the ends of the first path and the last. */
static void places_of_files(struct bytes text, const struct wardrail_torrent *t) {
    struct wardrail_file_at f = {.next_at = t->content_at + 1};
    uint64_t first = 0, last = 0;
    for (uint64_t k = 0; k < t->files; k++) {
        agree(wardrail_file_at(LENT(text), f.next_at, &f) == 0, "file_at");
        last = past_path(text, f.path_at);
        if (!k) first = last;
    }
    uint64_t end = f.next_at;
    LEND(f);
    uint64_t past = wardrail_file_at(LENT(text), end, &f);
    KEPT(past, f);
    printf(" files " N " " N " " N " " N " " N, t->content_at, end, wardrail_number(past), first, last);
}

static void places_call(struct line *l) {
    struct bytes text = l->bytes[1];
    struct wardrail_torrent t;
    struct wardrail_piece_hash h;
    struct wardrail_file f;
    LEND(t);
    uint64_t r = wardrail_torrent(LENT(text), &t);
    if (r) {
        REFUSED(r, t);
        return;
    }
    printf(N ":" N, t.announce.from, t.announce.len);
    place(t.name);
    place(t.info);
    place(t.pieces);
    agree(wardrail_piece_hash(LENT(text), 0, &h) == 0, "piece_hash");
    place(h.hash);
    agree(wardrail_piece_hash(LENT(text), (uint32_t)t.piece_count - 1, &h) == 0, "piece_hash");
    place(h.hash);
    LEND(h);
    uint64_t past = wardrail_piece_hash(LENT(text), (uint32_t)t.piece_count, &h);
    KEPT(past, h);
    printf(" " N, wardrail_number(past));
    if (!t.single) places_of_files(text, &t);
    else {
        agree(wardrail_file(LENT(text), 0, &f) == 0 && f.single, "file");
        printf(" single " N, f.path_at);
    }
}

static void piece_call(struct line *l) {
    struct bytes text = l->bytes[1], bytes = l->bytes[3];
    uint32_t piece = (uint32_t)least(number(l->word[2]), UINT32_MAX);
    struct wardrail_piece_hash h;
    uint64_t detail;
    LEND(h);
    LEND(detail);
    uint64_t r = wardrail_piece_check(LENT(text), piece, LENT(bytes), &detail);
    uint64_t none = wardrail_piece_hash(LENT(text), piece, &h);
    KEPT(none, h);
    if (r) {
        agree(r == WARDRAIL_LONG || r == WARDRAIL_OUTSIDE || none == r, "piece_hash");
        REFUSED(r, detail);
        return;
    }
    uint8_t digest[20];
    wardrail_sha1(LENT(bytes), digest);
    agree(!none && h.hash.len == 20 && !memcmp(text.data + h.hash.from, digest, 20) == (detail == 1), "piece_hash");
    printf(detail ? "yes" : "no");
}

static void reply_call(struct line *l) {
    struct bytes text = l->bytes[1];
    struct wardrail_reply reply;
    LEND(reply);
    uint64_t r = wardrail_reply(LENT(text), &reply);
    if (r) REFUSED(r, reply);
    else if (reply.form == WARDRAIL_FORM_FAILURE) {
        printf("failure ");
        part(text, reply.reason);
    } else printf("taken " N " " N, reply.peers.interval, reply.peers.count);
}

static bool same_part(struct wardrail_part a, struct wardrail_part b) { return a.from == b.from && a.len == b.len; }

/* Entry i by walking there, from the first on. */
static void agree_entry(struct bytes text, uint64_t i, const struct wardrail_peer *peer) {
    struct wardrail_reply reply;
    struct wardrail_packed_at p;
    struct wardrail_listed_at e;
    wardrail_reply(LENT(text), &reply);
    p.next_at = e.next_at = reply.peers.first_at;
    bool same = reply.form == peer->form;
    for (uint64_t k = 0; same && k <= i; k++)
        same = (reply.form == WARDRAIL_FORM_COMPACT ? wardrail_packed_at(LENT(text), p.next_at, &p) : wardrail_listed_at(LENT(text), e.next_at, &e)) == 0;
    if (reply.form == WARDRAIL_FORM_COMPACT) same = same && !memcmp(p.address, peer->address, sizeof p.address) && p.port == peer->port;
    else same = same && same_part(e.named.id, peer->named.id) && same_part(e.named.ip, peer->named.ip) && e.port == peer->port;
    agree(same, "an entry's place");
}

static void peer_call(struct line *l) {
    struct bytes text = l->bytes[1];
    uint64_t i = number(l->word[2]);
    struct wardrail_peer p;
    LEND(p);
    uint64_t r = wardrail_peer(LENT(text), i, &p);
    if (r) {
        REFUSED(r, p);
        return;
    }
    agree_entry(text, i, &p);
    if (p.form == WARDRAIL_FORM_COMPACT) {
        uint8_t address[4];
        for (int k = 0; k < 4; k++) address[k] = (uint8_t)p.address[k];
        printf("none ");
        hex(address, 4);
    } else {
        part(text, p.named.id);
        putchar(' ');
        part(text, p.named.ip);
    }
    printf(" " N, p.port);
}

/* Where the entries of a reply stand: the first, and where they come to, walked one by one; of a list the first's and the last's parts. */
static void entries_call(struct line *l) {
    struct bytes text = l->bytes[1];
    struct wardrail_reply reply;
    struct wardrail_packed_at p;
    struct wardrail_listed_at first = {.port = 0}, e = {.port = 0};
    LEND(reply);
    uint64_t r = wardrail_reply(LENT(text), &reply);
    if (r) REFUSED(r, reply);
    else if (reply.form == WARDRAIL_FORM_FAILURE) {
        printf("failure");
        place(reply.reason);
    } else {
        bool compact = reply.form == WARDRAIL_FORM_COMPACT;
        uint64_t at = reply.peers.first_at;
        for (uint64_t k = 0; k < reply.peers.count; k++) {
            agree((compact ? wardrail_packed_at(LENT(text), at, &p) : wardrail_listed_at(LENT(text), at, &e)) == 0, "an entry's place");
            at = compact ? p.next_at : e.next_at;
            if (!k) first = e;
        }
        printf("%s " N " " N, compact ? "compact" : "list", reply.peers.first_at, at);
        if (compact || !reply.peers.count) return;
        place(first.named.id);
        place(first.named.ip);
        place(e.named.id);
        place(e.named.ip);
    }
}

/* Where a hash's address stands in a sheet that is taken, by walking over its rows: from 0, where none stands, if there is no such row. */
static struct wardrail_part row_of(struct bytes sheet, const uint8_t hash[20]) {
    struct wardrail_look key, address;
    struct wardrail_part found = {0, 0};
    for (uint64_t at = 1; at + 1 < sheet.count; at = address.next_at) {
        agree(wardrail_look(LENT(sheet), at, &key) == 0 && wardrail_look(LENT(sheet), key.next_at, &address) == 0, "a sheet's row");
        agree(key.seen == WARDRAIL_SEEN_STRING && key.bytes.len == 20 && address.seen == WARDRAIL_SEEN_STRING, "a sheet's row");
        if (!memcmp(sheet.data + key.bytes.from, hash, 20)) found = address.bytes;
    }
    return found;
}

/* A refusal of the torrent is wardrail_torrent's own. One of the sheet is said to be the sheet's, and is wardrail_check's if that refuses it. */
static void agree_refused(struct bytes torrent, struct bytes sheet, uint64_t r) {
    struct wardrail_torrent t;
    uint64_t count, of_torrent = wardrail_torrent(LENT(torrent), &t), of_sheet = wardrail_check(LENT(sheet), &count);
    if (of_torrent) agree(r == of_torrent && wardrail_refused_text(r) == WARDRAIL_OF_TORRENT, "a torrent's refusal");
    else if (of_sheet) agree(r == (of_sheet | 1ull << 63) && wardrail_refused_text(r) == WARDRAIL_OF_SHEET, "a sheet's refusal");
    else if (r) agree((wardrail_number(r) == WARDRAIL_KIND || wardrail_number(r) == WARDRAIL_PEER) && wardrail_refused_text(r) == WARDRAIL_OF_SHEET, "a sheet's refusal");
}

static void address_call(struct line *l) {
    struct bytes torrent = l->bytes[1], sheet = l->bytes[2];
    struct wardrail_address a;
    struct wardrail_torrent t;
    uint8_t hash[20];
    LEND(a);
    uint64_t r = wardrail_address(LENT(torrent), LENT(sheet), &a);
    agree_refused(torrent, sheet, r);
    if (r) {
        REFUSED(r, a);
        return;
    }
    agree(wardrail_torrent(LENT(torrent), &t) == 0 && wardrail_info_hash(LENT(torrent), hash) == 0, "an address");
    bool listed = a.text == WARDRAIL_OF_SHEET;
    struct wardrail_part row = row_of(sheet, hash);
    agree(listed ? row.from != 0 : a.text == WARDRAIL_OF_TORRENT && row.from == 0, "an address");
    agree(same_part(a.part, listed ? row : t.announce), "an address");
    printf(listed ? "sheet " : "torrent ");
    part(listed ? sheet : torrent, a.part);
}

/* ---- digests */

static void digest_said(uint64_t r, const uint8_t digest[20]) {
    agree(!r || untouched(digest, 0, 20), "a refused digest's output");
    if (r) refused(r);
    else hex(digest, 20);
}

static void sha1_call(struct line *l) {
    uint8_t digest[20];
    LEND(digest);
    uint64_t r = wardrail_sha1(LENT(l->bytes[1]), digest);
    digest_said(r, digest);
}

/* Each part stands in memory of its own. */
static void sha1_parts_call(struct line *l) {
    struct bytes b = l->bytes[1];
    struct wardrail_sha1_state s;
    size_t count, at = 0;
    uint64_t *lengths = numbers(l->word[2], &count);
    wardrail_sha1_start(s.words, s.tail);
    for (size_t k = 0; k <= count; k++) {
        size_t length = k < count ? least(lengths[k], b.count - at) : b.count - at;
        uint8_t *bytes = memcpy(lent(length, 1), b.data + at, length);
        wardrail_sha1_add(s.words, s.tail, bytes, length);
        free(bytes);
        at += length;
    }
    free(lengths);
    uint8_t digest[20];
    LEND(digest);
    uint64_t r = wardrail_sha1_finish(s.words, s.tail, digest);
    digest_said(r, digest);
}

/* ---- blocks; a number over 32 bits is no piece, offset or length, and neither is the greatest of 32 */

static void block_call(struct line *l) {
    char *more = strchr(l->word[6], '+');
    if (more) *more++ = 0;
    size_t count, room = 3 * least(number(l->word[6]), 2048) + (more ? least(number(more), 2) : 0);
    uint64_t *lengths = numbers(l->word[2], &count), piece_length = number(l->word[1]), detail, size;
    uint64_t *out = lent_out(room, sizeof *out);
    uint32_t at[3];
    for (int k = 0; k < 3; k++) at[k] = (uint32_t)least(number(l->word[3 + k]), UINT32_MAX);
    LEND(detail);
    LEND(size);
    uint64_t r = wardrail_block(lengths, count, piece_length, at[0], at[1], at[2], out, room, &detail);
    uint64_t p = wardrail_piece_size(lengths, count, piece_length, at[0], &size);
    /* the piece is asked for before the block */
    KEPT(p, size);
    if (p) agree(r == p, "piece_size");
    else if (!r) agree((uint64_t)at[1] + at[2] <= size, "piece_size");
    else agree(r == WARDRAIL_OUTSIDE || r == WARDRAIL_ROOM, "piece_size");
    agree(untouched(out, r ? 0 : detail * sizeof(struct wardrail_span), room * sizeof *out), "a block's output");
    const struct wardrail_span *spans = (const struct wardrail_span *)out;
    if (r) REFUSED(r, detail);
    else
        for (size_t k = 0; k < detail; k++) printf("%s" N ":" N ":" N, k ? " " : "", spans[k].file, spans[k].offset, spans[k].length);
    free(lengths);
    free(out);
}

static void byte_call(struct line *l) {
    size_t count;
    uint64_t *lengths = numbers(l->word[2], &count);
    struct wardrail_byte b;
    LEND(b);
    uint64_t r = wardrail_byte(lengths, count, number(l->word[1]), number(l->word[3]), number(l->word[4]), &b);
    if (r) REFUSED(r, b);
    else printf(N " " N, b.piece, b.offset);
    free(lengths);
}

static void size_call(struct line *l) {
    size_t count;
    uint64_t *lengths = numbers(l->word[2], &count), size;
    LEND(size);
    uint64_t r = wardrail_piece_size(lengths, count, number(l->word[1]), (uint32_t)least(number(l->word[3]), UINT32_MAX), &size);
    if (r) REFUSED(r, size);
    else printf(N, size);
    free(lengths);
}

/* ---- frames and handshakes */

/* A wait, or a refusal. */
static void unused(uint64_t r) {
    if (r == WARDRAIL_WAIT) printf("wait");
    else refused(r);
}

static void frame_call(struct line *l) {
    struct bytes b = l->bytes[1];
    struct wardrail_frame f;
    LEND(f);
    uint64_t r = wardrail_frame(LENT(b), &f);
    KEPT(r, f);
    if (r) unused(r);
    else if (f.found == WARDRAIL_FRAME_KEEPALIVE) printf("taken " N " keepalive -", f.used);
    else {
        printf("taken " N " " N " ", f.used, f.id);
        hex(b.data + 5, f.used - 5);
    }
}

/* How many of the bytes' beginnings wait, each in memory of its own; `info` is a handshake's hash, and of a frame there is none. */
static uint64_t waits(struct bytes b, const uint8_t *info) {
    uint64_t n = 0;
    for (size_t k = 0; k < b.count; k++) {
        uint8_t *cut = memcpy(lent(k, 1), b.data, k);
        struct wardrail_frame f;
        struct wardrail_handshake h;
        n += (info ? wardrail_handshake(cut, k, info, &h) : wardrail_frame(cut, k, &f)) == WARDRAIL_WAIT;
        free(cut);
    }
    return n;
}

/* What a frame of an id has: p a piece, b where it begins, l a length, c what it carries. */
static const char *fields(uint64_t id) {
    static const char *const of[] = {"", "", "", "", "p", "c", "pbl", "pbc", "pbl"};
    return id < sizeof of / sizeof *of ? of[id] : "c";
}

static void frame_cuts_call(struct line *l) {
    struct bytes b = l->bytes[1];
    struct wardrail_frame f;
    uint64_t r = wardrail_frame(LENT(b), &f);
    printf(N " ", waits(b, NULL));
    if (r) unused(r);
    else if (f.found == WARDRAIL_FRAME_KEEPALIVE) printf("taken " N " keepalive", f.used);
    else {
        printf("taken " N " " N, f.used, f.id);
        for (const char *field = fields(f.id); *field; field++) {
            if (*field == 'c') place(f.carried);
            else printf(" " N, *field == 'p' ? f.piece : *field == 'b' ? f.begin : f.length);
        }
    }
}

static void handshake_call(struct line *l) {
    struct bytes b = l->bytes[1], info = l->bytes[2];
    struct wardrail_handshake h;
    if (info.count != 20) stop("an info hash has 20 bytes", "");
    LEND(h);
    uint64_t r = wardrail_handshake(LENT(b), info.data, &h);
    KEPT(r, h);
    if (r) unused(r);
    else {
        agree(h.used == WARDRAIL_HANDSHAKE_BYTES, "a handshake's bytes");
        printf("taken ");
        part(b, h.free_bytes);
        putchar(' ');
        part(b, h.peer_id);
    }
}

static void handshake_cuts_call(struct line *l) {
    struct bytes b = l->bytes[1], info = l->bytes[2];
    struct wardrail_handshake h;
    if (info.count != 20) stop("an info hash has 20 bytes", "");
    uint64_t r = wardrail_handshake(LENT(b), info.data, &h);
    printf(N " ", waits(b, info.data));
    if (r) unused(r);
    else {
        printf("taken " N, h.used);
        place(h.free_bytes);
        place(h.peer_id);
    }
}

/* ---- writers: the last word is the room */

static struct bytes room_of(const char *word) {
    size_t room = least(number(word), LONGEST_TEXT + 1);
    return (struct bytes){lent_out(room, 1), room};
}

static void written(struct line *l, uint64_t r, uint64_t detail, struct bytes out) {
    agree(untouched(out.data, r ? 0 : detail, out.count), "a writer's output");
    if (r) refused(r);
    else if (!l->sum) hex(out.data, detail);
    else {
        uint8_t digest[20];
        agree(wardrail_sha1(out.data, detail, digest) == 0, "the digest of what was written");
        printf(N ":", detail);
        hex(digest, 20);
    }
    free(out.data);
}

static void write_torrent_call(struct line *l) {
    struct bytes announce = l->bytes[1], name = l->bytes[2], pieces = l->bytes[5], out = room_of(l->word[6]);
    uint64_t piece_length = number(l->word[3]), length = number(l->word[4]), detail, size;
    LEND(detail);
    LEND(size);
    uint64_t r = wardrail_write_torrent(LENT(announce), LENT(name), piece_length, LENT(pieces), length, LENT(out), &detail);
    uint64_t s = wardrail_torrent_size(LENT(announce), LENT(name), piece_length, LENT(pieces), length, &size);
    KEPT(r, detail);
    KEPT(s, size);
    agree(r == WARDRAIL_ROOM ? s == 0 && size > out.count : s == r && size == detail, "torrent_size");
    written(l, r, detail, out);
}

static void write_reply_call(struct line *l) {
    struct bytes out = room_of(l->word[3]);
    uint64_t detail;
    LEND(detail);
    uint64_t r = wardrail_write_reply(number(l->word[1]), LENT(l->bytes[2]), LENT(out), &detail);
    KEPT(r, detail);
    written(l, r, detail, out);
}

static void write_handshake_call(struct line *l) {
    struct bytes info = l->bytes[1], peer = l->bytes[2], out = room_of(l->word[3]);
    if (info.count != 20 || peer.count != 20) stop("a hash and a peer id have 20 bytes", "");
    uint64_t detail;
    LEND(detail);
    uint64_t r = wardrail_write_handshake(info.data, peer.data, LENT(out), &detail);
    KEPT(r, detail);
    written(l, r, detail, out);
}

static void write_frame_call(struct line *l) {
    struct bytes payload = l->bytes[2], out = room_of(l->word[3]);
    uint64_t detail, r;
    LEND(detail);
    if (!strcmp(l->word[1], "keepalive")) r = wardrail_write_keepalive(LENT(out), &detail);
    else {
        uint64_t id = number(l->word[1]);
        if (id > 255) stop("ids are 0 to 255", l->word[1]);
        r = wardrail_write_frame((uint8_t)id, LENT(payload), LENT(out), &detail);
    }
    KEPT(r, detail);
    written(l, r, detail, out);
}

/* ---- magnet links */

static bool is_given(struct wardrail_given g) { return g.given == 1 || (g.given == 0 && g.len == 0); }

/* What a link gives of a thing, after a space. */
static void given(struct wardrail_given g, struct bytes out) {
    putchar(' ');
    if (g.given) hex(out.data, g.len);
    else printf("none");
}

static void link_call(struct line *l) {
    struct bytes text = l->bytes[1], name = room_of(l->word[2]), address = room_of(l->word[3]);
    struct wardrail_link link;
    uint8_t hash[20];
    LEND(link);
    LEND(hash);
    uint64_t r = wardrail_link(LENT(text), hash, LENT(name), LENT(address), &link);
    KEPT(r, hash);
    agree(untouched(name.data, r ? 0 : link.name.len, name.count) && untouched(address.data, r ? 0 : link.address.len, address.count), "a link's outputs");
    if (r) REFUSED(r, link);
    else {
        agree(is_given(link.name) && is_given(link.address), "what a link gives");
        hex(hash, 20);
        given(link.name, name);
        given(link.address, address);
    }
    free(name.data);
    free(address.data);
}

/* A link of ours reads back, into outputs of just that length, as the torrent's hash, name and announce. */
static void agree_link(struct bytes torrent, const uint8_t *text, size_t count) {
    struct wardrail_torrent t;
    struct wardrail_link link;
    uint8_t hash[20], again[20];
    agree(wardrail_torrent(LENT(torrent), &t) == 0 && wardrail_info_hash(LENT(torrent), hash) == 0, "a link's torrent");
    struct bytes name = {lent_out(t.name.len, 1), t.name.len}, address = {lent_out(t.announce.len, 1), t.announce.len};
    agree(wardrail_link(text, count, again, LENT(name), LENT(address), &link) == 0 && !memcmp(hash, again, 20), "a link read back");
    agree(link.name.given == 1 && link.name.len == t.name.len && !memcmp(name.data, torrent.data + t.name.from, t.name.len), "a link read back");
    agree(link.address.given == 1 && link.address.len == t.announce.len && !memcmp(address.data, torrent.data + t.announce.from, t.announce.len), "a link read back");
    free(name.data);
    free(address.data);
}

static void write_link_call(struct line *l) {
    struct bytes torrent = l->bytes[1], out = room_of(l->word[2]);
    struct wardrail_torrent t;
    uint64_t detail, size;
    LEND(detail);
    LEND(size);
    uint64_t r = wardrail_write_link(LENT(torrent), LENT(out), &detail);
    uint64_t s = wardrail_link_size(LENT(torrent), &size), of_torrent = wardrail_torrent(LENT(torrent), &t);
    KEPT(r, detail);
    KEPT(s, size);
    agree(r == WARDRAIL_ROOM ? s == 0 && size > out.count : s == r && size == detail, "link_size");
    agree(of_torrent ? r == of_torrent : !r || r == WARDRAIL_LONG || r == WARDRAIL_ROOM, "a link's torrent");
    if (!r) agree_link(torrent, out.data, detail);
    written(l, r, detail, out);
}

/* ---- a week's file */

/* A file by its table and then package by package, each body read once: the same refusal, and what it comes to. */
static void agree_week(struct bytes file, uint64_t r, const struct wardrail_week *week) {
    struct wardrail_week_package_at p;
    uint64_t count, files = 0, total = 0, said = wardrail_week_table(LENT(file), &count);
    for (uint64_t k = 0; !said && k < count; k++) {
        LEND(p);
        said = wardrail_week_package_at(LENT(file), k, &p);
        KEPT(said, p);
        if (!said) files += p.files, total += p.total;
    }
    agree(said == r, "a week's refusal, package by package");
    if (r) return;
    agree(week->packages == count && week->files == files && week->total == total, "a week's sums, package by package");
    LEND(p);
    agree(wardrail_week_package_at(LENT(file), count, &p) == WARDRAIL_BEYOND && untouched(&p, 0, sizeof p), "the package past the last");
}

static void week_call(struct line *l) {
    struct bytes file = l->bytes[1];
    struct wardrail_week week;
    uint64_t detail;
    LEND(week);
    LEND(detail);
    uint64_t r = wardrail_week(LENT(file), &week), table = wardrail_week_table(LENT(file), &detail);
    KEPT(table, detail);
    agree_week(file, r, &week);
    if (r) REFUSED(r, week);
    else printf("taken " N " " N " " N, week.packages, week.files, week.total);
}

/* A package is the body that its parts say, and what wardrail_torrent says of that. */
static void agree_package(struct bytes file, const struct wardrail_week_package *p) {
    struct wardrail_torrent t;
    uint8_t hash[20];
    struct bytes body = {lent(p->body.len, 1), p->body.len};
    memcpy(body.data, file.data + p->body.from, body.count);
    agree(wardrail_torrent(LENT(body), &t) == 0 && t.files == p->files && t.total == p->total, "a package's body");
    agree(wardrail_info_hash(LENT(body), hash) == 0 && p->hash.len == 20 && !memcmp(hash, file.data + p->hash.from, 20), "a package's hash");
    free(body.data);
}

static void package_call(struct line *l) {
    struct bytes file = l->bytes[1];
    uint64_t i = number(l->word[2]);
    struct wardrail_week_package p;
    struct wardrail_week_package_at walked;
    struct wardrail_week week;
    LEND(p);
    LEND(walked);
    uint64_t r = wardrail_week_package(LENT(file), i, &p), of_week = wardrail_week(LENT(file), &week), at = wardrail_week_package_at(LENT(file), i, &walked);
    KEPT(at, walked);
    agree(of_week ? r == of_week : i < week.packages ? r == 0 : r == WARDRAIL_BEYOND, "a package's refusal");
    agree(of_week || at == r, "a package by its entry");
    if (r) {
        REFUSED(r, p);
        return;
    }
    agree(!memcmp(&walked, &p, sizeof p), "a package by its entry");
    agree_package(file, &p);
    part(file, p.hash);
    printf(" " N " " N " " N " " N, p.body.from, p.body.len, p.files, p.total);
}

/* A file of ours reads back as its bodies, each where it was lent and with its length, and its bodies are written as that file again. */
static void agree_written(struct bytes bodies, const uint64_t *lengths, size_t count, struct bytes out, uint64_t size) {
    struct wardrail_week week;
    struct wardrail_week_package_at p;
    uint64_t at = 4 + 28 * count, detail;
    agree(wardrail_week(out.data, size, &week) == 0 && week.packages == count && size == at + bodies.count, "a week read back");
    for (size_t k = 0; k < count; k++) {
        agree(wardrail_week_package_at(out.data, size, k, &p) == 0 && p.body.from == at && p.body.len == lengths[k], "a week read back");
        agree(p.hash.from == 12 + 28 * k && p.hash.len == 20, "a week read back");
        at += p.body.len;
    }
    agree(!memcmp(out.data + at - bodies.count, bodies.data, bodies.count), "a week's bodies");
    struct bytes again = {lent_out(size, 1), size};
    agree(wardrail_write_week(out.data + size - bodies.count, bodies.count, lengths, count, LENT(again), &detail) == 0 && detail == size, "a week written again");
    agree(!memcmp(again.data, out.data, size), "a week written again");
    free(again.data);
}

static void write_week_call(struct line *l) {
    struct bytes bodies = l->bytes[1], out = room_of(l->word[3]);
    size_t count;
    uint64_t *lengths = numbers(l->word[2], &count), detail;
    LEND(detail);
    uint64_t r = wardrail_write_week(LENT(bodies), lengths, count, LENT(out), &detail);
    KEPT(r, detail);
    agree(wardrail_place(r) == 0, "a writer's place");
    if (!r) agree_written(bodies, lengths, count, out, detail);
    written(l, r, detail, out);
    free(lengths);
}

/* ---- the yard */

static void end_yard(struct yard *y) {
    if (!y) return;
    free(y->seats);
    free(y->rows);
    free(y->holders);
    free(y);
}

/* A script's sizes over the limits are lent as sizes just over them: no table is larger than it need be. A refused start leaves the
 * yard as it was. */
static void start_call(struct line *l) {
    struct yard *y = lent(1, sizeof *y);
    uint64_t pieces = least(number(l->word[1]), 16385);
    uint32_t piece_length = (uint32_t)least(number(l->word[2]), UINT32_MAX), last = (uint32_t)least(number(l->word[3]), UINT32_MAX);
    y->seats_count = least(number(l->word[4]), MOST_SEATS + 1);
    y->rows_count = y->seats_count * ((pieces + 7) / 8);
    y->holders_count = pieces;
    y->seats = lent(y->seats_count, sizeof *y->seats);
    y->rows = lent(y->rows_count, 1);
    y->holders = lent(y->holders_count, sizeof *y->holders);
    uint64_t r = wardrail_yard_start(TABLES(y), (uint32_t)pieces, piece_length, last);
    if (r) {
        refused(r);
        end_yard(y);
        return;
    }
    printf("started");
    end_yard(l->yard);
    l->yard = y;
}

/* What a call says by one number, after a word if it has one. */
static void value(uint64_t r, const char *word, struct wardrail_told told) {
    if (r) refused(r);
    else printf("%s" N, word, told.value);
}

static void sit_call(struct line *l) {
    struct wardrail_told told = {0};
    uint64_t r = wardrail_yard_sit(TABLES(l->yard), &told);
    value(r, "seat ", told);
}

static void scarcest_call(struct line *l) {
    struct wardrail_told told = {0};
    uint64_t r = wardrail_yard_scarcest(TABLES(l->yard), &told);
    value(r, "piece ", told);
}

static void count_call(struct line *l) {
    struct wardrail_told told = {0};
    uint64_t r = wardrail_yard_count(TABLES(l->yard), number(l->word[1]), &told);
    value(r, "", told);
}

static void leave_call(struct line *l) {
    uint64_t r = wardrail_yard_leave(TABLES(l->yard), number(l->word[1]));
    if (r) refused(r);
    else printf("left");
}

static void feed_call(struct line *l) {
    static const char *const words[] = {"taken ", "serve ", "drop "};
    struct wardrail_told told = {0};
    uint64_t r = wardrail_yard_feed(TABLES(l->yard), number(l->word[1]), LENT(l->bytes[2]), &told);
    if (r == WARDRAIL_WAIT) printf("wait");
    else value(r, words[told.request], told);
}

/* Our own marks: which call sets it is the row's. */
static void mark(struct line *l, bool choke) {
    struct bytes frame = room_of(l->word[3]);
    uint64_t seat = number(l->word[1]), on = number(l->word[2]);
    uint64_t r = choke ? wardrail_yard_choke(TABLES(l->yard), seat, on == 1, LENT(frame)) : wardrail_yard_interest(TABLES(l->yard), seat, on == 1, LENT(frame));
    written(l, r, r ? 0 : 5, frame);
}

static void choke_call(struct line *l) { mark(l, true); }
static void interest_call(struct line *l) { mark(l, false); }

static void missing_call(struct line *l) {
    size_t room = least(number(l->word[2]), MOST_SEATS + 1);
    uint32_t *page = lent_out(room, sizeof *page);
    struct wardrail_told told = {0};
    uint64_t r = wardrail_yard_missing(TABLES(l->yard), number(l->word[1]), page, room, &told);
    agree(untouched(page, told.listed * sizeof *page, room * sizeof *page), "a page's output");
    if (r) refused(r);
    else {
        if (!told.listed) putchar('-');
        for (size_t k = 0; k < told.listed; k++) printf("%s%" PRIu32, k ? "," : "", page[k]);
        printf(" of " N " next " N, told.total, told.next);
    }
    free(page);
}

static void free_place(const struct yard *y) {
    if (y->head.free == WARDRAIL_NOBODY) printf("nobody");
    else printf("%" PRIu32, y->head.free);
}

/* How many trucks it unchokes is how many have no mark of ours after it. */
static void round_call(struct line *l) {
    struct yard *y = l->yard;
    struct wardrail_told told = {0};
    uint64_t r = wardrail_yard_round(TABLES(y), &told), unchoked = 0;
    value(r, "unchoked ", told);
    if (r) return;
    for (size_t i = 0; i < y->seats_count; i++) unchoked += y->seats[i].taken && !y->seats[i].am_choking;
    agree(unchoked == told.unchoked, "unchoked");
    printf(" free ");
    free_place(y);
}

static void head_call(struct line *l) {
    const struct wardrail_head *h = &l->yard->head;
    printf("%" PRIu32 " %" PRIu32 " %" PRIu32 " ", h->taken, h->complete, h->round);
    free_place(l->yard);
    printf(" %" PRIu32, h->last);
}

static void seat_call(struct line *l) {
    struct yard *y = l->yard;
    uint64_t i = number(l->word[1]);
    struct wardrail_seat s = {0};
    uint64_t r = wardrail_yard_look(TABLES(y), i, &s);
    /* the pieces that the row has, one by one, and the one past the last */
    struct wardrail_told told;
    uint64_t held = 0;
    for (uint64_t p = 0; !r && p < y->head.pieces; p++) {
        agree(wardrail_yard_has(TABLES(y), i, p, &told) == 0 && told.has <= 1, "has");
        held += told.has;
    }
    uint64_t past = wardrail_yard_has(TABLES(y), i, y->head.pieces, &told);
    agree(r ? past == r : past == WARDRAIL_BEYOND && held == s.held, "has");
    if (r) refused(r);
    else if (!s.taken) printf("free");
    else printf("%s %u %d %d %d %d " N, s.fresh ? "fresh" : "used", (unsigned)s.held, s.am_choking, s.am_interested, s.peer_choking, s.peer_interested, s.bytes);
}

/* ---- a script */

#define BYTES(k) (1 << (k))

/* Every call: how many words it has, which of them are bytes, whether it needs a yard, and what answers it. */
static const struct call {
    const char *name;
    int words, bytes;
    bool yard;
    void (*answer)(struct line *);
} calls[] = {
    {"bencode", 2, BYTES(1), false, bencode_call},
    {"walk", 2, BYTES(1), false, walk_call},
    {"torrent", 2, BYTES(1), false, torrent_call},
    {"file", 3, BYTES(1), false, file_call},
    {"places", 2, BYTES(1), false, places_call},
    {"piece", 4, BYTES(1) | BYTES(3), false, piece_call},
    {"reply", 2, BYTES(1), false, reply_call},
    {"peer", 3, BYTES(1), false, peer_call},
    {"entries", 2, BYTES(1), false, entries_call},
    {"address", 3, BYTES(1) | BYTES(2), false, address_call},
    {"sha1", 2, BYTES(1), false, sha1_call},
    {"sha1-parts", 3, BYTES(1), false, sha1_parts_call},
    {"block", 7, 0, false, block_call},
    {"byte", 5, 0, false, byte_call},
    {"size", 4, 0, false, size_call},
    {"frame", 2, BYTES(1), false, frame_call},
    {"frame-cuts", 2, BYTES(1), false, frame_cuts_call},
    {"handshake", 3, BYTES(1) | BYTES(2), false, handshake_call},
    {"handshake-cuts", 3, BYTES(1) | BYTES(2), false, handshake_cuts_call},
    {"write-torrent", 7, BYTES(1) | BYTES(2) | BYTES(5), false, write_torrent_call},
    {"write-reply", 4, BYTES(2), false, write_reply_call},
    {"write-handshake", 4, BYTES(1) | BYTES(2), false, write_handshake_call},
    {"write-frame", 4, BYTES(2), false, write_frame_call},
    {"link", 4, BYTES(1), false, link_call},
    {"write-link", 3, BYTES(1), false, write_link_call},
    {"week", 2, BYTES(1), false, week_call},
    {"package", 3, BYTES(1), false, package_call},
    {"write-week", 4, BYTES(1), false, write_week_call},
    {"start", 5, 0, false, start_call},
    {"sit", 1, 0, true, sit_call},
    {"leave", 2, 0, true, leave_call},
    {"feed", 3, BYTES(2), true, feed_call},
    {"choke", 4, 0, true, choke_call},
    {"interest", 4, 0, true, interest_call},
    {"round", 1, 0, true, round_call},
    {"missing", 3, 0, true, missing_call},
    {"scarcest", 1, 0, true, scarcest_call},
    {"head", 1, 0, true, head_call},
    {"count", 2, 0, true, count_call},
    {"seat", 2, 0, true, seat_call},
};

static const struct call *call_of(const char *name, int words) {
    for (size_t k = 0; k < sizeof calls / sizeof *calls; k++)
        if (!strcmp(calls[k].name, name) && calls[k].words == words) return &calls[k];
    stop("no such call", name);
    return NULL;
}

/* `sum` may stand before a call that writes. */
static void answer(struct line *l, char *text) {
    l->sum = !strncmp(text, "sum write-", 10);
    if (l->sum) text += 4;
    int words = 0;
    for (char *at = text; at; words++) {
        if (words == MOST_WORDS) stop("too many words", text);
        l->word[words] = at;
        if ((at = strchr(at, ' '))) *at++ = 0;
    }
    const struct call *c = call_of(l->word[0], words);
    for (int k = 1; k < words; k++) l->bytes[k] = c->bytes & BYTES(k) ? unhex(l->word[k]) : (struct bytes){NULL, 0};
    if (c->yard && !l->yard) printf("no yard");
    else c->answer(l);
    putchar('\n');
    for (int k = 1; k < words; k++) free(l->bytes[k].data);
}

int main(void) {
    struct line l = {.yard = NULL};
    char *text = NULL;
    size_t room = 0;
    ssize_t length;
    while ((length = getline(&text, &room, stdin)) > 0) {
        if (text[length - 1] == '\n') text[--length] = 0;
        if (length && text[0] != '#') answer(&l, text);
    }
    end_yard(l.yard);
    free(text);
    return 0;
}
