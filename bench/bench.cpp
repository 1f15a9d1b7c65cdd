// Times the readers beside libtorrent's on one reply, one torrent, one sheet, two links and a week's file, a link and a week written beside its own, and wardrail_check
// by the byte on the texts that cost it most, wardrail_torrent on one. bench/run builds and runs it.
#include "../host/wardrail.h"

#include <libtorrent/add_torrent_params.hpp>
#include <libtorrent/bdecode.hpp>
#include <libtorrent/magnet_uri.hpp>
#include <libtorrent/torrent_info.hpp>

#include <malloc.h>

#include <algorithm>
#include <cctype>
#include <chrono>
#include <cstdint>
#include <cstdio>
#include <cstdlib>
#include <cstring>
#include <functional>
#include <set>
#include <string>
#include <vector>

namespace {

using std::string;
using std::to_string;

// The number of a refusal, or 0 for a text that is taken and its count of values.
struct Answer {
    uint64_t number, values;
};

const uint8_t *start_of(const string &text) { return reinterpret_cast<const uint8_t *>(text.data()); }

Answer check(const string &text) {
    Answer a{0, 0};
    a.number = wardrail_number(wardrail_check(start_of(text), text.size(), &a.values));
    return a;
}

bool decoded(const string &text) {
    lt::error_code fault;
    const lt::bdecode_node whole = lt::bdecode(text, fault);
    return !fault && whole.type() == lt::bdecode_node::dict_t;
}

void expect(bool held, const string &what) {
    if (held) return;
    std::fprintf(stderr, "bench: %s\n", what.c_str());
    std::exit(1);
}

// Nanoseconds for each of `times` calls.
template <class Call> double timed(int times, Call call) {
    const auto start = std::chrono::steady_clock::now();
    for (int k = 0; k < times; k++) call();
    const std::chrono::duration<double, std::nano> spent = std::chrono::steady_clock::now() - start;
    return spent.count() / times;
}

double median(std::vector<double> runs) {
    std::nth_element(runs.begin(), runs.begin() + runs.size() / 2, runs.end());
    return runs[runs.size() / 2];
}

double least(const std::vector<double> &runs) { return *std::min_element(runs.begin(), runs.end()); }

// The same numbers in every run.
struct Dice {
    uint32_t seed = 1;
    uint32_t below(uint32_t top) {
        seed = seed * 1664525 + 1013904223;
        return (seed >> 8) % top;
    }
};

string bytes(size_t count, char b = 'a') { return string(count, b); }

string written(const string &s) { return to_string(s.size()) + ":" + s; }

string integer(const string &digits) { return "i" + digits + "e"; }

// A tracker's reply that lists its peers as dictionaries.
string reply(int peers) {
    Dice dice;
    string s = "d8:interval" + integer("1800") + "5:peersl";
    for (int k = 0; k < peers; k++) {
        string ip = to_string(1 + dice.below(223)), id;
        for (int part = 0; part < 3; part++) ip += "." + to_string(dice.below(256));
        for (int b = 0; b < 20; b++) id += char(dice.below(256));
        s += "d2:ip" + written(ip) + "7:peer id" + written(id) + "4:port" + integer(to_string(1 + dice.below(65535))) + "e";
    }
    return s + "ee";
}

// A way to read a text, under the name that is printed. It answers the same number at each run.
struct Way {
    const char *name;
    std::function<uint64_t()> read;
};

// Times ways to read one text, in turn: each is first as often as any other. The last is the one to be beaten.
void race(const std::vector<Way> &ways, int rounds) {
    const size_t n = ways.size();
    std::vector<std::vector<double>> runs(n);
    std::vector<uint64_t> answers;
    for (const Way &way : ways) answers.push_back(way.read());
    bool alike = true;
    for (int k = 0; k < rounds; k++)
        for (size_t j = 0; j < n; j++) {
            const size_t i = (j + k) % n;
            runs[i].push_back(timed(1, [&] { alike &= ways[i].read() == answers[i]; }));
        }
    expect(alike, "an answer changed");
    const double m = median(runs[n - 1]), l = least(runs[n - 1]);
    std::printf("%-28s %10s %10s %14s %10s\n", "microseconds", "median", "least", "times as fast", "by least");
    for (size_t i = 0; i < n; i++)
        std::printf("%-28s %10.1f %10.1f %14.2f %10.2f\n", ways[i].name, median(runs[i]) / 1e3, least(runs[i]) / 1e3, m / median(runs[i]), l / least(runs[i]));
    std::printf("\n");
}

// A number that depends on each peer's id, address and port.
uint64_t stirred(uint64_t sum, const char *id, const char *ip, size_t length, uint64_t port) {
    return (sum * 31 + uint8_t(id[19])) * 31 + uint8_t(ip[length - 1]) + length + port;
}

uint64_t peers_by_wardrail(const string &text) {
    struct wardrail_reply reply;
    struct wardrail_listed_at peer;
    uint64_t sum = 0;
    if (wardrail_reply(start_of(text), text.size(), &reply) != 0 || reply.form != WARDRAIL_FORM_LIST) return 0;
    size_t at = reply.peers.first_at;
    for (uint64_t k = 0; k < reply.peers.count; k++) {
        if (wardrail_listed_at(start_of(text), text.size(), at, &peer) != 0) return 0;
        const wardrail_part &ip = peer.named.ip;
        sum = stirred(sum, text.data() + peer.named.id.from, text.data() + ip.from, ip.len, peer.port);
        at = peer.next_at;
    }
    return sum;
}

uint64_t peers_by_bdecode(const string &text) {
    lt::error_code fault;
    const lt::bdecode_node whole = lt::bdecode(text, fault);
    if (fault || whole.dict_find_int_value("interval", -1) < 0) return 0;
    const lt::bdecode_node peers = whole.dict_find_list("peers");
    uint64_t sum = 0;
    for (int k = 0; k < peers.list_size(); k++) {
        const lt::bdecode_node peer = peers.list_at(k);
        const lt::string_view id = peer.dict_find_string_value("peer id"), ip = peer.dict_find_string_value("ip");
        if (id.size() != 20) return 0;
        sum = stirred(sum, id.data(), ip.data(), ip.size(), uint64_t(peer.dict_find_int_value("port")));
    }
    return sum;
}

void replies() {
    const string text = reply(2000);
    const Answer a = check(text);
    expect(a.number == 0 && a.values == 14005, "the reply is not taken with 14,005 values");
    expect(decoded(text), "bdecode does not take the reply");
    const uint64_t sum = peers_by_wardrail(text);
    expect(sum != 0 && sum == peers_by_bdecode(text), "the peers are not the same");
    std::printf("A reply of 2,000 peers, %zu bytes, %u values.\n\n", text.size(), unsigned(a.values));
    race({{"wardrail_check", [&] { return check(text).number; }}, {"bdecode", [&] { return uint64_t(decoded(text)); }}}, 4000);
    std::printf("The same, every peer's id, address and port looked at.\n\n");
    race({{"wardrail_reply, _listed_at", [&] { return peers_by_wardrail(text); }}, {"bdecode", [&] { return peers_by_bdecode(text); }}}, 2000);
}

// A torrent of 1,024 files and 16,384 pieces.
string torrent() {
    Dice dice;
    string files, pieces;
    for (int k = 0; k < 1024; k++) files += "d6:lengthi262144e4:pathl5:route" + written("map-" + to_string(10000 + k).substr(1) + ".bin") + "ee";
    for (int b = 0; b < 20 * 16384; b++) pieces += char(dice.below(256));
    return "d8:announce15:http://yard/ann4:infod5:filesl" + files + "e4:name4:week12:piece lengthi16384e6:pieces" + written(pieces) + "ee";
}

uint64_t files_of(const string &text) {
    struct wardrail_torrent t;
    return wardrail_torrent(start_of(text), text.size(), &t) == 0 ? t.files : 0;
}

uint64_t first_of(const void *digest) {
    uint64_t first;
    std::memcpy(&first, digest, sizeof first);
    return first;
}

uint64_t hash_of(const string &text) {
    uint8_t digest[20];
    return wardrail_info_hash(start_of(text), text.size(), digest) == 0 ? first_of(digest) : 0;
}

uint64_t hash_by_libtorrent(const string &text) {
    lt::error_code fault;
    const lt::torrent_info t(text, fault, lt::from_span);
    return !fault && t.num_files() == 1024 && t.num_pieces() == 16384 ? first_of(t.info_hashes().v1.data()) : 0;
}

void torrents() {
    const string text = torrent();
    struct wardrail_torrent t;
    expect(wardrail_torrent(start_of(text), text.size(), &t) == 0 && t.piece_count == 16384 && t.files == 1024, "the torrent is not read");
    const string info = text.substr(t.info.from, t.info.len);
    expect(hash_of(text) != 0 && hash_of(text) == hash_by_libtorrent(text), "another info hash");
    std::printf("A torrent of 1,024 files and 16,384 pieces, %zu bytes, %u values.\n\n", text.size(), unsigned(check(text).values));
    race({{"wardrail_torrent", [&] { return files_of(text); }},
          {"wardrail_info_hash", [&] { return hash_of(text); }},
          {"wardrail_check", [&] { return check(text).number; }},
          {"wardrail_check of info", [&] { return check(info).number; }},
          {"bdecode", [&] { return uint64_t(decoded(text)); }},
          {"torrent_info, with its hash", [&] { return hash_by_libtorrent(text); }}}, 1000);
}

// A sheet of 8,191 rows of 60 bytes, which have 16,383 values: as many as there may be. The greatest key is the hash given.
string sheet_of(const string &hash) {
    Dice dice;
    std::set<string> keys{hash};
    while (keys.size() < 8191) {
        string key(1, char(dice.below(uint8_t(hash[0]))));
        while (key.size() < 20) key += char(dice.below(256));
        keys.insert(key);
    }
    string s = "d";
    int k = 0;
    for (const string &key : keys) s += written(key) + written("http://depot-" + to_string(10000 + k++).substr(1) + ".yard:80/announce");
    return s + "e";
}

// Where an address stands in a sheet, as one number.
uint64_t spot(uint64_t from, uint64_t length) { return from << 8 | length; }

uint64_t address_by_wardrail(const string &torrent, const string &sheet) {
    struct wardrail_address a;
    if (wardrail_address(start_of(torrent), torrent.size(), start_of(sheet), sheet.size(), &a) != 0 || a.text != WARDRAIL_OF_SHEET) return 0;
    return spot(a.part.from, a.part.len);
}

uint64_t address_by_bdecode(const string &hash, const string &sheet) {
    lt::error_code fault;
    const lt::bdecode_node whole = lt::bdecode(sheet, fault);
    if (fault || whole.type() != lt::bdecode_node::dict_t) return 0;
    const lt::string_view address = whole.dict_find_string_value(hash);
    return address.empty() ? 0 : spot(uint64_t(address.data() - sheet.data()), address.size());
}

// The same, where the torrent is read for its hash as well.
uint64_t address_by_libtorrent(const string &torrent, const string &sheet) {
    lt::error_code fault;
    const lt::torrent_info t(torrent, fault, lt::from_span);
    return fault ? 0 : address_by_bdecode(t.info_hashes().v1.to_string(), sheet);
}

void sheets() {
    const string torrent = "d8:announce15:http://yard/ann4:infod6:lengthi16384e4:name9:route.bin12:piece lengthi16384e6:pieces" + written(bytes(20, 'A')) + "ee";
    uint8_t digest[20];
    expect(wardrail_info_hash(start_of(torrent), torrent.size(), digest) == 0 && digest[0] != 0, "the torrent has no hash");
    const string hash(reinterpret_cast<const char *>(digest), 20), sheet = sheet_of(hash);
    const Answer a = check(sheet);
    expect(a.number == 0 && a.values == 16383 && sheet.size() == 8191 * 60 + 2, "the sheet is not taken with 16,383 values");
    const uint64_t found = address_by_wardrail(torrent, sheet);
    expect(found == spot(sheet.size() - 35, 34), "the address is not the last row's");
    expect(found == address_by_bdecode(hash, sheet) && found == address_by_libtorrent(torrent, sheet), "the addresses are not the same");
    std::printf("A sheet of 8,191 rows, %zu bytes, %u values, and a torrent whose hash is its last key.\n\n", sheet.size(), unsigned(a.values));
    race({{"wardrail_address", [&] { return address_by_wardrail(torrent, sheet); }},
          {"wardrail_check", [&] { return check(sheet).number; }},
          {"torrent_info, then bdecode", [&] { return address_by_libtorrent(torrent, sheet); }},
          {"bdecode, with the look-up", [&] { return address_by_bdecode(hash, sheet); }}}, 4000);
}

const size_t most_bytes = 1048576, most_values = 16384;

// The bytes as a link has them.
string escaped(const string &s) {
    string out;
    char three[4];
    for (const char c : s) {
        std::snprintf(three, sizeof three, "%%%02X", unsigned(uint8_t(c)));
        out += std::isalnum(uint8_t(c)) || std::strchr("-._~", c) ? string(1, c) : string(three);
    }
    return out;
}

// A number that depends on a link's hash, name and address.
uint64_t told(const void *hash, const char *name, size_t name_length, const char *address, size_t address_length) {
    return (first_of(hash) + name_length * 31 + uint8_t(name[name_length - 1])) * 31 + address_length * 31 + uint8_t(address[address_length - 1]);
}

uint64_t link_by_wardrail(const string &text, string &name, string &address) {
    struct wardrail_link link;
    uint8_t hash[20];
    uint8_t *const out = reinterpret_cast<uint8_t *>(&name[0]), *const other = reinterpret_cast<uint8_t *>(&address[0]);
    if (wardrail_link(start_of(text), text.size(), hash, out, name.size(), other, address.size(), &link) != 0 || !link.name.len || !link.address.len) return 0;
    return told(hash, name.data(), link.name.len, address.data(), link.address.len);
}

uint64_t link_by_libtorrent(const string &text) {
    lt::error_code fault;
    const lt::add_torrent_params link = lt::parse_magnet_uri(text, fault);
    if (fault || link.name.empty() || link.trackers.size() != 1) return 0;
    return told(link.info_hashes.v1.data(), link.name.data(), link.name.size(), link.trackers[0].data(), link.trackers[0].size());
}

// The same read or written so many times, since one time is too short for the clock.
template <class Call> uint64_t repeated(int times, Call call) {
    uint64_t sum = 0;
    for (int k = 0; k < times; k++) sum += call();
    return sum;
}

void link_read(const string &name, const string &address, int times, int rounds) {
    const string text = "magnet:?xt=urn:btih:0123456789abcdef0123456789abcdef01234567&dn=" + escaped(name) + "&tr=" + escaped(address);
    string out(name.size(), ' '), other(address.size(), ' ');
    expect(text.size() <= most_bytes && link_by_wardrail(text, out, other) != 0 && out == name && other == address, "the link is not read");
    expect(link_by_wardrail(text, out, other) == link_by_libtorrent(text), "the links are not the same");
    std::printf("A link of %zu bytes, read %d times.\n\n", text.size(), times);
    race({{"wardrail_link", [&] { return repeated(times, [&] { return link_by_wardrail(text, out, other); }); }},
          {"parse_magnet_uri", [&] { return repeated(times, [&] { return link_by_libtorrent(text); }); }}}, rounds);
}

uint64_t write_by_wardrail(const string &torrent, string &out) {
    uint64_t size;
    return wardrail_write_link(start_of(torrent), torrent.size(), reinterpret_cast<uint8_t *>(&out[0]), out.size(), &size) == 0 ? size : 0;
}

uint64_t write_by_libtorrent(const string &torrent, string &out) {
    lt::error_code fault;
    const lt::torrent_info t(torrent, fault, lt::from_span);
    if (!fault) out = lt::make_magnet_uri(t);
    return fault ? 0 : out.size();
}

// libtorrent escapes with small digits, and not all that we do: the two links are the same by what they say.
void link_written(const string &name, const string &address) {
    const string torrent = "d8:announce" + written(address) + "4:infod6:lengthi16384e4:name" + written(name) + "12:piece lengthi16384e6:pieces" + written(bytes(20, 'A')) + "ee";
    string ours(1000, ' '), theirs;
    const uint64_t size = write_by_wardrail(torrent, ours);
    expect(size != 0 && write_by_libtorrent(torrent, theirs) != 0, "the link is not written");
    expect(link_by_libtorrent(ours.substr(0, size)) != 0 && link_by_libtorrent(ours.substr(0, size)) == link_by_libtorrent(theirs), "the links written are not the same");
    std::printf("A written link of %u bytes, 1000 times.\n\n", unsigned(size));
    race({{"wardrail_write_link", [&] { return repeated(1000, [&] { return write_by_wardrail(torrent, ours); }); }},
          {"torrent_info, make_magnet_uri", [&] { return repeated(1000, [&] { return write_by_libtorrent(torrent, theirs); }); }}}, 200);
}

void links() {
    const string name = "Route 7, Nord (Montag).map", address = "http://tracker.depot-7.yard:6969/announce?key=0123456789abcdef";
    link_read(name, address, 1000, 400);
    link_read(bytes(100000, 'n') + bytes(100000, ' '), "http://yard/" + bytes(300000, 'u'), 1, 1000);
    link_written(name, address);
}

// 256 torrents of one file each, of 190 pieces: alone, joined as a writer takes them, and in one file.
struct Week {
    std::vector<string> bodies;
    std::vector<uint64_t> lengths;
    string joined, file;
};

string package(int number) {
    Dice dice{uint32_t(number)};
    string hashes;
    for (int b = 0; b < 190 * 20; b++) hashes += char(dice.below(256));
    const string name = "route-" + to_string(1000 + number) + ".bin";
    return "d8:announce15:http://yard/ann4:infod6:length" + integer(to_string(190 * 16384)) + "4:name" + written(name) + "12:piece lengthi16384e6:pieces" + written(hashes) + "ee";
}

uint64_t week_written(const Week &week, string &out) {
    uint64_t size;
    return wardrail_write_week(start_of(week.joined), week.joined.size(), week.lengths.data(), week.lengths.size(), reinterpret_cast<uint8_t *>(&out[0]), out.size(), &size) == 0 ? size : 0;
}

Week week_of(int packages) {
    Week week;
    for (int k = 0; k < packages; k++) {
        week.bodies.push_back(package(k));
        week.lengths.push_back(week.bodies.back().size());
        week.joined += week.bodies.back();
    }
    week.file.resize(most_bytes);
    week.file.resize(week_written(week, week.file));
    return week;
}

// The bytes of all packages' files.
uint64_t week_by_wardrail(const string &file) {
    struct wardrail_week week;
    return wardrail_week(start_of(file), file.size(), &week) == 0 ? week.total : 0;
}

uint64_t week_walked(const string &file) {
    struct wardrail_week_package_at package;
    uint64_t count = 0, sum = 0;
    if (wardrail_week_table(start_of(file), file.size(), &count) != 0) return 0;
    for (uint64_t k = 0; k < count; k++) {
        if (wardrail_week_package_at(start_of(file), file.size(), k, &package) != 0) return 0;
        sum += package.total;
    }
    return sum;
}

uint64_t bodies_by_libtorrent(const Week &week) {
    uint64_t sum = 0;
    for (const string &body : week.bodies) {
        lt::error_code fault;
        const lt::torrent_info t(body, fault, lt::from_span);
        if (fault) return 0;
        sum += uint64_t(t.total_size());
    }
    return sum;
}

uint64_t bodies_hashed(const Week &week) {
    uint8_t digest[20];
    uint64_t sum = 0;
    for (const string &body : week.bodies) sum += wardrail_sha1(start_of(body), body.size(), digest) == 0 ? first_of(digest) : 0;
    return sum;
}

string four_bytes(uint64_t n) { return {char(n >> 24), char(n >> 16), char(n >> 8), char(n)}; }

// The same file with libtorrent's hashes.
uint64_t week_by_libtorrent(const Week &week, string &out) {
    uint64_t at = 4 + 28 * week.bodies.size();
    out = four_bytes(week.bodies.size());
    for (const string &body : week.bodies) {
        lt::error_code fault;
        const lt::torrent_info t(body, fault, lt::from_span);
        if (fault) return 0;
        out += four_bytes(at) + four_bytes(body.size()) + t.info_hashes().v1.to_string();
        at += body.size();
    }
    out += week.joined;
    return out.size();
}

void weeks() {
    const Week week = week_of(256);
    string ours(most_bytes, ' '), theirs;
    const uint64_t total = 256 * uint64_t(190) * 16384;
    expect(week_by_wardrail(week.file) == total && week_walked(week.file) == total && bodies_by_libtorrent(week) == total, "the week is not read");
    expect(week_by_libtorrent(week, theirs) == week.file.size() && theirs == week.file, "the weeks written are not the same");
    std::printf("A week of 256 packages, %zu bytes.\n\n", week.file.size());
    race({{"wardrail_week", [&] { return week_by_wardrail(week.file); }},
          {"_week_table, _package_at", [&] { return week_walked(week.file); }},
          {"wardrail_sha1 of each body", [&] { return bodies_hashed(week); }},
          {"torrent_info of each body", [&] { return bodies_by_libtorrent(week); }}}, 300);
    std::printf("A written week of 256 packages, %zu bytes.\n\n", week.file.size());
    race({{"wardrail_write_week", [&] { return week_written(week, ours); }},
          {"torrent_info of each body", [&] { return week_by_libtorrent(week, theirs); }}}, 300);
}

// A list of as many of one item as fit into `size` bytes, or into the values that a text may have, of which each item has `values`.
string listed(size_t size, const string &item, size_t values = 1) {
    const size_t count = std::min((size - 2) / item.size(), (most_values - 1) / values);
    string s = "l";
    for (size_t k = 0; k < count; k++) s += item;
    return s + "e";
}

// A list of the shortest values, in no order.
string mixed(size_t size) {
    const char *const items[] = {"0:", "le", "de", "i0e"};
    Dice dice;
    string s = "l";
    for (size_t k = 1; k < most_values && s.size() + 4 <= size; k++) s += items[dice.below(4)];
    return s + "e";
}

// Ascending keys of `width` bytes, alike but for their last four, each with an empty string.
string keyed(size_t size, size_t width) {
    const size_t entry = written(bytes(width)).size() + 2;
    const size_t count = std::min((size - 2) / entry, (most_values - 1) / 2);
    string s = "d";
    for (size_t k = 0; k < count; k++) s += written(bytes(width - 4) + to_string(10000 + k).substr(1)) + "0:";
    return s + "e";
}

// Two keys, alike but for their last byte.
string twins(size_t size, char first, char second) {
    const size_t width = (size - 22) / 2;
    return "d" + written(bytes(width) + first) + "0:" + written(bytes(width) + second) + "0:e";
}

string nested(const string &open, const string &inmost, int levels) {
    string s;
    for (int k = 1; k < levels; k++) s += open;
    return s + inmost + bytes(levels - 1, 'e');
}

// A torrent with one integer under a key that nobody knows.
string signed_torrent(size_t size) {
    const string before = "d8:announce15:http://yard/ann4:infod6:lengthi16384e4:name9:route.bin12:piece lengthi16384e6:pieces" + written(bytes(20, 'A')) + "9:signature";
    return before + integer(bytes(size - before.size() - 4, '9')) + "ee";
}

Answer read_torrent(const string &text) {
    struct wardrail_torrent t;
    return {wardrail_number(wardrail_torrent(start_of(text), text.size(), &t)), 0};
}

// Texts of one kind, by their size, with the number that they are answered, by the check if nothing else is said.
struct Kind {
    const char *name;
    uint64_t number;
    string (*of)(size_t size);
    Answer (*read)(const string &text) = check;
};

const Kind kinds[] = {
    {"digits of a string's length", 1, [](size_t n) { return bytes(n, '9'); }},
    {"digits of an integer", 0, [](size_t n) { return integer(bytes(n - 2, '9')); }},
    {"digits of an integer in a list", 0, [](size_t n) { return "l" + integer(bytes(n - 4, '9')) + "e"; }},
    {"the same skipped in a torrent", 0, signed_torrent, read_torrent},
    {"two keys, the last byte greater", 0, [](size_t n) { return twins(n, 'a', 'b'); }},
    {"two keys, the last byte equal", 3, [](size_t n) { return twins(n, 'a', 'a'); }},
    {"keys with a prefix of 118 bytes", 0, [](size_t n) { return keyed(n, 122); }},
    {"keys of 4 bytes", 0, [](size_t n) { return keyed(n, 4); }},
    {"lists 32 deep", 0, [](size_t n) { return listed(n, nested("l", "le", 31), 31); }},
    {"dictionaries 32 deep", 0, [](size_t n) { return listed(n, nested("d0:", "de", 31), 61); }},
    {"empty lists", 0, [](size_t n) { return listed(n, "le"); }},
    {"empty strings", 0, [](size_t n) { return listed(n, "0:"); }},
    {"integers of 1 digit", 0, [](size_t n) { return listed(n, integer("1")); }},
    {"integers of 19 digits", 0, [](size_t n) { return listed(n, integer("-9223372036854775808")); }},
    {"a mix of the shortest values", 0, mixed},
    {"strings of 61 bytes", 0, [](size_t n) { return listed(n, written(bytes(61))); }},
    {"one string", 0, [](size_t n) { return written(bytes(n - 8)); }},
};

// Nanoseconds to read each text: the least of many runs, in turn.
std::vector<double> costs(const std::vector<string> &texts, Answer (*read)(const string &text)) {
    std::vector<std::vector<double>> runs(texts.size());
    for (int k = 0; k < 301; k++) {
        for (size_t t = 0; t < texts.size(); t++) {
            const auto call = [&] { read(texts[t]); };
            runs[t].push_back(timed(k == 0 ? 1 : std::max(1, int(1e5 / runs[t][0])), call));
        }
    }
    std::vector<double> all;
    for (const auto &r : runs) all.push_back(least(r));
    return all;
}

void by_the_byte() {
    std::printf("%-32s %-12s %8s %9s %8s %8s %8s %6s %8s\n", "", "", "bytes", "us", "ns/byte", "bytes", "ns/byte", "ratio", "cut");
    double dearest = 0, slowest = 0;
    const char *dear = "", *slow = "";
    for (const Kind &kind : kinds) {
        const string large = kind.of(most_bytes);
        const bool reached = most_bytes - large.size() < 200;
        const string small = kind.of((reached ? most_bytes : large.size()) / 16);
        const string cut = large.substr(0, large.size() - 1);
        expect(kind.read(large).number == kind.number && kind.read(small).number == kind.number, string("another answer: ") + kind.name);
        const string answer = kind.number == 0 ? string("taken") + (reached ? "" : " *") : "refused " + to_string(kind.number);
        const std::vector<double> ns = costs({large, small, cut}, kind.read);
        const double all = ns[0], x = all / large.size(), y = ns[1] / small.size();
        std::printf("%-32s %-12s %8zu %9.2f %8.4f %8zu %8.4f %6.2f", kind.name, answer.c_str(), large.size(), all / 1e3, x, small.size(), y, std::max(x, y) / std::min(x, y));
        if (kind.number == 0) {
            expect(kind.read(cut).number == 1, string("not refused without its last byte: ") + kind.name);
            std::printf(" %8.4f", ns[2] / cut.size());
        }
        std::printf("\n");
        if (dearest < std::max(x, y)) dearest = std::max(x, y), dear = kind.name;
        if (slowest < all) slowest = all, slow = kind.name;
    }
    std::printf("\nratio: the greater time by the byte over the smaller. cut: ns/byte of the larger text without its last byte, refused 1.\n");
    std::printf("*: 16,384 values end the text before 1 MiB; the smaller one is a sixteenth of it, not 64 KiB.\n");
    std::printf("Dearest by the byte: %s, %.2f ns. Dearest in all: %s, %.0f us.\n", dear, dearest, slow, slowest / 1e3);
}

} // namespace

int main() {
    // bdecode's memory is kept from run to run, so that no page is asked for again
    mallopt(M_MMAP_THRESHOLD, 1 << 30);
    mallopt(M_TRIM_THRESHOLD, 1 << 30);
    replies();
    torrents();
    sheets();
    links();
    weeks();
    by_the_byte();
}
