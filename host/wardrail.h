/* wardrail.h: the C interface of libwardrail.a, for C11 and C++11 on 64-bit machines.
 *
 * EVERY CALL that can refuse answers one word of 64 bits: 0 where it is taken, or else the number of the refusal by the table of
 * document 01, `wardrail_number(r)`, with its place, `wardrail_place(r)` (a byte offset, and 0 for every refusal from 20 on).
 * What else it has to say goes into its last argument, a struct or a number. It writes that, and all else that it is lent, only
 * where it answers 0: after a refusal, and after a wait, everything is as it was lent. A call keeps no state, takes no memory
 * and never fails otherwise; calls may run at once in several threads as long as none writes what another is passed.
 *
 *     struct wardrail_torrent t;
 *     uint64_t r = wardrail_torrent(text, count, &t);
 *     if (r) printf("refused %d at byte %d\n", (int)wardrail_number(r), (int)wardrail_place(r));
 *     else printf("%.*s: %d files\n", (int)t.name.len, (const char *)text + t.name.from, (int)t.files);
 *
 * A struct has the name of its call, as with stat(), so C++ too writes `struct wardrail_torrent`.
 *
 * WHAT A CALLER OWES. A slice is a pointer and a count: the pointer is not null, also where the count is 0, is aligned for
 * its type, and that many elements are there. An array has as many elements as is written. What a call writes (not const)
 * overlaps nothing else that is passed to it. Nothing is asked of the content: any bytes and any numbers are answered.
 * Numbers are 64 bits wide, but pieces, offsets inside a piece and lengths of blocks 32, as on the wire: for a larger number
 * the caller passes 2^32 - 1, which is no such piece (31) and no such offset or length (34), in the order of checks. */
#ifndef WARDRAIL_H
#define WARDRAIL_H

#include <stddef.h>
#include <stdint.h>

#ifdef __cplusplus
#define WARDRAIL_ASSERT(what, why) static_assert(what, why)
extern "C" {
#else
#define WARDRAIL_ASSERT(what, why) _Static_assert(what, why)
#endif

WARDRAIL_ASSERT(sizeof(size_t) == 8, "the library counts in 64 bits");

/* An answer is a row of numbers of 64 bits with no gap: how many there are, and which is the last. */
#define WARDRAIL_ROW(name, count, last) \
    WARDRAIL_ASSERT(sizeof(struct name) == 8 * (count) && offsetof(struct name, last) == sizeof(struct name) - sizeof(((struct name *)0)->last), #name)

/* The number of a refusal, and its place: of an offset that is passed, and that no text has, the lowest 55 bits, since the
 * highest of the 64 tells which text wardrail_address refuses. */
static inline uint64_t wardrail_number(uint64_t answer) { return answer & 255; }
static inline uint64_t wardrail_place(uint64_t answer) { return answer << 1 >> 9; }

/* Bytes of a text that was passed: the offset of the first, and how many there are. */
struct wardrail_part {
    uint64_t from, len;
};
WARDRAIL_ROW(wardrail_part, 2, len);

/* ---- Refusals: what the numbers mean */

enum wardrail_refusal {
    WARDRAIL_CUT = 1,       /* the text ends where a byte is needed */
    WARDRAIL_BYTE = 2,      /* a byte that cannot stand there */
    WARDRAIL_ORDER = 3,     /* a key not greater than the one before */
    WARDRAIL_INTEGER = 4,   /* never given: an integer may have any length */
    WARDRAIL_DEEP = 5,      /* a list or dictionary at level 33 */
    WARDRAIL_MANY = 6,      /* value number 16,385 begins */
    WARDRAIL_AFTER = 7,     /* bytes after the value */
    WARDRAIL_LONG = 8,      /* a text over 1,048,576 bytes, a piece over 16,777,216 */
    WARDRAIL_KIND = 10,     /* a key missing, a value of the wrong kind */
    WARDRAIL_RANGE = 11,    /* a number out of range, as every integer outside 64 bits is */
    WARDRAIL_PIECES = 12,   /* wrong length of pieces */
    WARDRAIL_NAME = 13,     /* a bad name or path */
    WARDRAIL_PEER = 15,     /* bad length of a peer entry, or of a key of a sheet */
    WARDRAIL_WEEK = 18,     /* a week's file whose table is wrong, or whose package has another hash */
    WARDRAIL_LINK = 19,     /* a magnet link that breaks its form, names a thing twice, stops short or has no hash */
    WARDRAIL_FRAME = 20,    /* a frame length over 16,393 */
    WARDRAIL_PAYLOAD = 21,  /* a payload length wrong for its id */
    WARDRAIL_PROTOCOL = 22, /* a handshake's first 20 bytes are wrong */
    WARDRAIL_HASH = 23,     /* a handshake for another info hash */
    WARDRAIL_LATE = 30,     /* a bitfield that is not the first frame with an id */
    WARDRAIL_BEYOND = 31,   /* a piece, file, entry or package number too large */
    WARDRAIL_BITFIELD = 32, /* bitfield length wrong */
    WARDRAIL_SPARE = 33,    /* a spare bit set */
    WARDRAIL_OUTSIDE = 34,  /* a block or file offset outside its bounds, a piece of the wrong length */
    WARDRAIL_FULL = 35,     /* every seat taken */
    WARDRAIL_SEAT = 36,     /* a seat number too large, or the seat free */
    WARDRAIL_ROOM = 37,     /* lent output too short */
    WARDRAIL_SIZES = 38,    /* yard sizes don't fit */
    WARDRAIL_DAMAGED = 39   /* a count would pass its top or fall below 0, or a round finds no seat where one must be */
};

/* ---- Bencode */

/* Whether a text is one bencoded value within the limits: 1 to 3, 5 to 8. On 0 `detail` is its count of values. */
uint64_t wardrail_check(const uint8_t *text, size_t text_count, uint64_t *detail);

/* What stands at a place of a text. */
enum wardrail_seen {
    WARDRAIL_SEEN_STRING = 1,
    WARDRAIL_SEEN_INTEGER = 2, /* its sign and digits stand between the i and the e: strtoll from the byte after the i reads it */
    WARDRAIL_SEEN_LONG = 3,    /* an integer outside 64 bits */
    WARDRAIL_SEEN_LIST = 4,
    WARDRAIL_SEEN_DICTIONARY = 5,
    WARDRAIL_SEEN_END = 6 /* the e of a list or dictionary */
};

struct wardrail_look {
    uint64_t seen; /* enum wardrail_seen */
    struct wardrail_part bytes; /* a string's, or the sign and digits of an integer outside 64 bits; of the others 0 */
    uint64_t next_at;           /* the offset past it; of a list or dictionary, of the first thing in it */
};
WARDRAIL_ROW(wardrail_look, 4, next_at);

/* What stands at an offset, to walk over a text that was checked: from 0 on by next_at, as far as the text goes. Any text and
 * offset is answered: 1, 2, 8. */
uint64_t wardrail_look(const uint8_t *text, size_t text_count, size_t at, struct wardrail_look *look);

/* ---- Torrents */

struct wardrail_torrent {
    struct wardrail_part announce, info, name, pieces;
    uint64_t piece_length, piece_count;
    uint64_t single;     /* 1 for a single file, and else 0 */
    uint64_t content_at; /* the offset of the value of length or files */
    uint64_t files;      /* how many */
    uint64_t total;      /* bytes of all files */
};
WARDRAIL_ROW(wardrail_torrent, 14, total);

/* Reads a torrent: 1 to 3, 5 to 8, 10 to 13. */
uint64_t wardrail_torrent(const uint8_t *text, size_t text_count, struct wardrail_torrent *torrent);

/* Writes the info hash, SHA-1 of the bytes of info. Refuses as wardrail_torrent does. */
uint64_t wardrail_info_hash(const uint8_t *text, size_t text_count, uint8_t digest[20]);

struct wardrail_file {
    uint64_t offset; /* in the joined content */
    uint64_t length;
    uint64_t path_at; /* where its path begins */
    uint64_t single;  /* 1 for a single file, whose path is the name at path_at, and else 0 */
};
WARDRAIL_ROW(wardrail_file, 4, single);

/* File `number` of a torrent, from 0: the torrent's refusals, then 31. */
uint64_t wardrail_file(const uint8_t *text, size_t text_count, size_t number, struct wardrail_file *file);

struct wardrail_file_at {
    uint64_t length;
    uint64_t path_at; /* where its path begins */
    uint64_t next_at; /* where the next file stands */
};
WARDRAIL_ROW(wardrail_file_at, 3, next_at);

/* The file of many at an offset, to walk all files in one pass: first content_at of wardrail_torrent and 1, then next_at of
 * the answer before, as many times as there are files. Any text and offset is answered: 1 to 3, 5, 6, 8, 10, 11, 13. */
uint64_t wardrail_file_at(const uint8_t *text, size_t text_count, size_t at, struct wardrail_file_at *file);

struct wardrail_element_at {
    uint64_t found; /* 1 for an element, 0 at the path's end */
    struct wardrail_part element;
    uint64_t next_at; /* where the next element stands; at the path's end, the offset past it */
};
WARDRAIL_ROW(wardrail_element_at, 4, next_at);

/* The element of a path at an offset: first path_at of wardrail_file, then next_at of the answer before, until none is found.
 * Any text and offset is answered: 1, 2, 8, 10 for another kind, 13 for what may not be a name. */
uint64_t wardrail_element_at(const uint8_t *text, size_t text_count, size_t at, struct wardrail_element_at *element);

struct wardrail_piece_hash {
    struct wardrail_part hash; /* 20 bytes */
};
WARDRAIL_ROW(wardrail_piece_hash, 2, hash);

/* A piece's hash, a part of the text: the torrent's refusals, then 31. */
uint64_t wardrail_piece_hash(const uint8_t *text, size_t text_count, uint32_t piece, struct wardrail_piece_hash *hash);

/* Whether these bytes are a piece, by its hash: the torrent's refusals, then 31, 8 for more than 16,777,216 bytes, 34 for another
 * length than the piece has. On 0 `detail` is 1 for yes and 0 for no. */
uint64_t wardrail_piece_check(const uint8_t *text, size_t text_count, uint32_t piece, const uint8_t *bytes, size_t bytes_count,
                              uint64_t *detail);

/* ---- Tracker replies */

/* What a reply is, and what its entries are. */
enum wardrail_form { WARDRAIL_FORM_FAILURE = 1, WARDRAIL_FORM_COMPACT = 2, WARDRAIL_FORM_LIST = 3 };

struct wardrail_peers {
    uint64_t interval; /* the seconds to wait */
    uint64_t count;    /* how many entries */
    uint64_t first_at; /* where the first stands */
};
WARDRAIL_ROW(wardrail_peers, 3, first_at);

struct wardrail_reply {
    uint64_t form; /* enum wardrail_form */
    union {
        struct wardrail_part reason; /* of a failure */
        struct wardrail_peers peers; /* of the others */
    };
};
WARDRAIL_ROW(wardrail_reply, 4, peers);

/* Reads a reply: 1 to 3, 5 to 8, 10, 11, 15. */
uint64_t wardrail_reply(const uint8_t *text, size_t text_count, struct wardrail_reply *reply);

struct wardrail_named {
    struct wardrail_part id, ip; /* the peer id, and the address as it is written */
};
WARDRAIL_ROW(wardrail_named, 4, ip);

struct wardrail_peer {
    uint64_t form; /* WARDRAIL_FORM_COMPACT or WARDRAIL_FORM_LIST */
    union {
        uint64_t address[4];         /* of a compact entry, a byte each */
        struct wardrail_named named; /* of a list's entry */
    };
    uint64_t port;
};
WARDRAIL_ROW(wardrail_peer, 6, port);

/* Entry `number` of a reply, from 0: the reply's refusals, then 31. It reads the reply anew: who wants all entries walks them
 * by the next two. */
uint64_t wardrail_peer(const uint8_t *text, size_t text_count, size_t number, struct wardrail_peer *peer);

struct wardrail_listed_at {
    struct wardrail_named named;
    uint64_t port;
    uint64_t next_at; /* where the next entry stands */
};
WARDRAIL_ROW(wardrail_listed_at, 6, next_at);

/* The entry of a list at an offset: first first_at of wardrail_reply, then next_at of the answer before, as many times as there
 * are entries. Any text and offset is answered: 1 to 3, 5, 6, 8, 10, 11, 15. */
uint64_t wardrail_listed_at(const uint8_t *text, size_t text_count, size_t at, struct wardrail_listed_at *peer);

struct wardrail_packed_at {
    uint64_t address[4]; /* a byte each */
    uint64_t port;
    uint64_t next_at; /* where the next entry stands */
};
WARDRAIL_ROW(wardrail_packed_at, 6, next_at);

/* The same for an entry of six bytes: 1, 8. */
uint64_t wardrail_packed_at(const uint8_t *text, size_t text_count, size_t at, struct wardrail_packed_at *peer);

/* ---- Sheets: a dictionary from info hashes of 20 bytes to addresses of trackers */

enum wardrail_text { WARDRAIL_OF_TORRENT = 1, WARDRAIL_OF_SHEET = 2 };

struct wardrail_address {
    uint64_t text; /* enum wardrail_text: the text that the address stands in */
    struct wardrail_part part;
};
WARDRAIL_ROW(wardrail_address, 3, part);

/* The address for a torrent: what the sheet has under the info hash, or else the torrent's announce. First the torrent's refusals,
 * 1 to 3, 5 to 8, 10 to 13, then the sheet's, 1 to 3, 5 to 8, 10, 15: all of the sheet is checked, wherever the address stands. */
uint64_t wardrail_address(const uint8_t *torrent, size_t torrent_count, const uint8_t *sheet, size_t sheet_count,
                          struct wardrail_address *address);

/* Which text a refusal of wardrail_address is of, an enum wardrail_text: wardrail_place counts from the first byte of that one. */
static inline uint64_t wardrail_refused_text(uint64_t answer) { return answer >> 63 ? WARDRAIL_OF_SHEET : WARDRAIL_OF_TORRENT; }

/* ---- Magnet links: an info hash, and a torrent's name (dn) and its tracker's address (tr) where they are given */

/* What a link says of a thing: whether it is there, and how many bytes it has. */
struct wardrail_given {
    uint64_t given; /* 1, or 0 and then len is 0 */
    uint64_t len;
};
WARDRAIL_ROW(wardrail_given, 2, len);

struct wardrail_link {
    struct wardrail_given name, address;
};
WARDRAIL_ROW(wardrail_link, 4, address);

/* Reads a link: writes the info hash, and decodes dn into `name` and tr into `address`, each from its start on; the rest of both
 * stays: 8, 19, 37. As many bytes as the text has are always room enough. */
uint64_t wardrail_link(const uint8_t *text, size_t text_count, uint8_t hash[20], uint8_t *name, size_t name_count,
                       uint8_t *address, size_t address_count, struct wardrail_link *link);

/* ---- A week's file: a table of 1 to 256 packages, for each the offset and the length of its body and its info hash, then the
 * bodies in that order, each a torrent */

struct wardrail_week {
    uint64_t packages; /* how many */
    uint64_t files;    /* of all packages together */
    uint64_t total;    /* bytes of all these files */
};
WARDRAIL_ROW(wardrail_week, 3, total);

/* Reads a week's file: 8, 18 for its table, then body by body the torrent's refusals, 1 to 3, 5 to 7 and 10 to 13, each at its place
 * in the file, and 18 at a hash that is not the body's. */
uint64_t wardrail_week(const uint8_t *file, size_t file_count, struct wardrail_week *week);

struct wardrail_week_package {
    struct wardrail_part hash, body; /* of the file */
    uint64_t files;                  /* how many */
    uint64_t total;                  /* bytes of all files */
};
WARDRAIL_ROW(wardrail_week_package, 6, total);

/* Package `number`, from 0: the file's refusals, then 31. It reads the file anew: who wants all packages walks them by the next
 * two, which read each body once. */
uint64_t wardrail_week_package(const uint8_t *file, size_t file_count, size_t number, struct wardrail_week_package *package);

/* Checks the table alone, and that the last body ends the file: 8, 18. On 0 `detail` is how many packages there are. */
uint64_t wardrail_week_table(const uint8_t *file, size_t file_count, uint64_t *detail);

struct wardrail_week_package_at {
    struct wardrail_part hash, body; /* of the file */
    uint64_t files;                  /* how many */
    uint64_t total;                  /* bytes of all files */
};
WARDRAIL_ROW(wardrail_week_package_at, 6, total);

/* Package `number` by its own entry of the table: 8, 18 at 0 for the number of packages, 31, 18 at a field of the entry that is cut
 * off or at a length that runs past the file's end, the torrent's refusals, and 18 at the hash. Any file is answered, and no other
 * entry is looked at. A file is taken by wardrail_week exactly if wardrail_week_table takes it and this call each of its packages, and
 * the first refusal of these, in the packages' order, is the file's. */
uint64_t wardrail_week_package_at(const uint8_t *file, size_t file_count, size_t number, struct wardrail_week_package_at *package);

/* ---- Where a block falls */

/* A part of a file. */
struct wardrail_span {
    uint64_t file, offset, length;
};
WARDRAIL_ROW(wardrail_span, 3, length);

/* The parts of files that `count` bytes at an offset of a piece fall into: 11, 31, 34, 37. On 0 `detail` is how many parts
 * there are, and `out` has three numbers for each, those of a wardrail_span: N of them are lent as `&spans[0].file, 3 * N`.
 * The rest of `out` stays. `lengths` are the files' lengths in the torrent's order. */
uint64_t wardrail_block(const uint64_t *lengths, size_t lengths_count, uint64_t piece_length, uint32_t piece, uint32_t offset,
                        uint32_t count, uint64_t *out, size_t out_count, uint64_t *detail);

struct wardrail_byte {
    uint64_t piece;
    uint64_t offset; /* in the piece */
};
WARDRAIL_ROW(wardrail_byte, 2, offset);

/* Where a byte of a file falls: 11, 31, 34. */
uint64_t wardrail_byte(const uint64_t *lengths, size_t lengths_count, uint64_t piece_length, size_t file, uint64_t offset,
                       struct wardrail_byte *byte);

/* How many bytes a piece has: 11, 31. On 0 `detail` is that number. */
uint64_t wardrail_piece_size(const uint64_t *lengths, size_t lengths_count, uint64_t piece_length, uint32_t piece,
                             uint64_t *detail);

/* ---- Frames and handshake, read from the start of what came in */

/* The answer of a wait, here and in wardrail_yard_feed (wardrail_yard.h): the bytes are the beginning of a frame or handshake, and
 * no more of it has come. It is no refusal: none of them was used, and the call is made again with these and more. */
enum { WARDRAIL_WAIT = 255 };

/* The longest frame, its four bytes of length too: more are never waited for. */
enum { WARDRAIL_FRAME_BYTES = 16397, WARDRAIL_HANDSHAKE_BYTES = 68 };

enum wardrail_frame_found { WARDRAIL_FRAME_KEEPALIVE = 1, WARDRAIL_FRAME_MESSAGE = 2 };

struct wardrail_frame {
    uint64_t found; /* enum wardrail_frame_found */
    uint64_t used;  /* how many bytes it has */
    uint64_t id;
    uint64_t piece, begin, length; /* what a frame does not have is 0 */
    struct wardrail_part carried;  /* its bitfield, its block, or the payload of an id above 8 */
};
WARDRAIL_ROW(wardrail_frame, 8, carried);

/* The frame that the bytes begin with, or WARDRAIL_WAIT: 20, 21. */
uint64_t wardrail_frame(const uint8_t *bytes, size_t bytes_count, struct wardrail_frame *frame);

struct wardrail_handshake {
    uint64_t used; /* how many bytes it has */
    struct wardrail_part free_bytes, peer_id;
};
WARDRAIL_ROW(wardrail_handshake, 5, peer_id);

/* The handshake that the bytes begin with, for an info hash, or WARDRAIL_WAIT: 22, 23. */
uint64_t wardrail_handshake(const uint8_t *bytes, size_t bytes_count, const uint8_t info[20], struct wardrail_handshake *handshake);

/* ---- Writers: on 0 `detail` is how many bytes were written, from the start of `out` on; the rest of `out` stays */

/* A frame of any id and payload: 20, 21, 37. Numbers in a payload are four bytes, big-endian. */
uint64_t wardrail_write_frame(uint8_t id, const uint8_t *payload, size_t payload_count, uint8_t *out, size_t out_count,
                              uint64_t *detail);

/* The four bytes of a keepalive: 37. */
uint64_t wardrail_write_keepalive(uint8_t *out, size_t out_count, uint64_t *detail);

/* The 68 bytes of a handshake, the free ones 0: 37. */
uint64_t wardrail_write_handshake(const uint8_t info[20], const uint8_t peer[20], uint8_t *out, size_t out_count,
                                  uint64_t *detail);

/* A torrent of one file: 13, 11, 12, 8, 37. `pieces` has 20 bytes for each piece. */
uint64_t wardrail_write_torrent(const uint8_t *announce, size_t announce_count, const uint8_t *name, size_t name_count,
                                uint64_t piece_length, const uint8_t *pieces, size_t pieces_count, uint64_t length,
                                uint8_t *out, size_t out_count, uint64_t *detail);

/* How many bytes that torrent has: 13, 11, 12, 8. */
uint64_t wardrail_torrent_size(const uint8_t *announce, size_t announce_count, const uint8_t *name, size_t name_count,
                               uint64_t piece_length, const uint8_t *pieces, size_t pieces_count, uint64_t length,
                               uint64_t *detail);

/* A torrent's link, with its hash, name and announce: the torrent's refusals, then 8, 37. */
uint64_t wardrail_write_link(const uint8_t *torrent, size_t torrent_count, uint8_t *out, size_t out_count, uint64_t *detail);

/* How many bytes that link has: the torrent's refusals, then 8. */
uint64_t wardrail_link_size(const uint8_t *torrent, size_t torrent_count, uint64_t *detail);

/* The week's file of torrents that stand one after the other in `bodies` and have these lengths: 18 for a number of them that is
 * not 1 to 256, or for lengths whose sum is not that of `bodies`; then body by body the torrent's refusals, and 18 for a hash that
 * one before has; then 8, 37. Each has place 0. */
uint64_t wardrail_write_week(const uint8_t *bodies, size_t bodies_count, const uint64_t *lengths, size_t lengths_count,
                             uint8_t *out, size_t out_count, uint64_t *detail);

/* A compact reply: 11, 15, 8, 37. `peers` has six bytes for each entry. */
uint64_t wardrail_write_reply(uint64_t interval, const uint8_t *peers, size_t peers_count, uint8_t *out, size_t out_count,
                              uint64_t *detail);

/* ---- SHA-1 */

/* Writes the digest of at most 16,777,216 bytes; more is 8. */
uint64_t wardrail_sha1(const uint8_t *message, size_t message_count, uint8_t digest[20]);

/* A message that comes in parts: start, add each part, finish; the digest is the whole message's, however it was cut.
 *     wardrail_sha1_start(s.words, s.tail);
 *     wardrail_sha1_add(s.words, s.tail, part, part_count);
 *     wardrail_sha1_finish(s.words, s.tail, digest);
 * The caller holds the message so far, may copy it, and need not read it. Finishing changes it not. A message over
 * 16,777,216 bytes is refused, by 8, when it is finished. */
struct wardrail_sha1_state {
    uint32_t words[6]; /* the hash value, and how many bytes there are */
    uint8_t tail[64];  /* the bytes after the last whole block */
};
WARDRAIL_ASSERT(sizeof(struct wardrail_sha1_state) == 88, "six words and 64 bytes");

void wardrail_sha1_start(uint32_t words[6], uint8_t tail[64]);
void wardrail_sha1_add(uint32_t words[6], uint8_t tail[64], const uint8_t *part, size_t part_count);
uint64_t wardrail_sha1_finish(const uint32_t words[6], const uint8_t tail[64], uint8_t digest[20]);

#ifdef __cplusplus
}
#endif
#endif
