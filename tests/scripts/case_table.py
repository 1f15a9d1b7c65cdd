"""The cases of crates/cases, a script of every call that needs no yard: crates/cases/stdin and stdout (make.py writes them).

Texts are words: `(32*l)` is 32 times l, `%FF` is a byte by its two digits, and any other character is itself. The answers are the second
program's: `rt` holds the proved program to them, tests/compare the C host.
"""

import re
import sys
from hashlib import sha1
from itertools import groupby
from pathlib import Path

ROOT = Path(__file__).parents[2]
sys.path.insert(0, str(ROOT / "second"))

import replay  # noqa: E402
import week_texts  # noqa: E402
from notation import FORTY, HUGE, LONGEST_SHOWN, show, to_hex  # noqa: E402

ANSWERS = replay.Replay()


def bytes_of(word):
    """A word as bytes of docs/REPLAY.md, its runs as runs."""
    parts = []
    for count, run, plain in re.findall(r"\((\d+)\*([^)]*)\)|([^(]+)", word):
        if plain or count != "0":
            parts.append(hex_of(plain) if plain else f"{hex_of(run)}*{count}")
    return ".".join(parts) or "-"


def hex_of(characters):
    return re.sub(r"%([0-9A-F]{2})", lambda found: chr(int(found.group(1), 16)), characters).encode("latin-1").hex()


def word_of(data):
    return "".join(chr(byte) if 32 < byte < 127 and byte not in b"%()" else f"%{byte:02X}" for byte in data)


def answer(call):
    return ANSWERS.answer(call)


def call(name, *words):
    return "", " ".join(map(str, [name, *words]))


def calls_of(name, lines):
    """A call for each word of some lines."""
    return [(word, f"{name} {bytes_of(word)}") for word in " ".join(lines).split()]


# ---- bencode

DOCUMENT = [
    "i-3e i-0e i03e d3:cow3:moo4:spam4:eggse d4:spam4:eggs3:cow3:mooe d1:a0:1:a0:e (0*x) 4:spa 00: lee",
    "i9223372036854775807e i9223372036854775808e (32*l)(32*e) (33*l)(33*e) l(16383*0:)e l(16384*0:)e",
    "d8:intervali1800e5:peers5:abcdee",
    "d8:announce15:http://yard/ann4:infod5:filesld6:lengthi20000e4:pathl3:rte1:aeed6:lengthi0e4:pathl1:beed6:lengthi12769e4:pathl1:ceee4:name3:pkg12:piece%20lengthi16384e6:pieces60:(60*A)ee",
]

INTEGERS = [
    "i0e i10e i-10e i ie i- i-e i-0 i-01e i--1e i0 i00e i+1e i%201e i1 i1x i1-e i-9223372036854775807e",
    "i-9223372036854775808e i-9223372036854775809e i9999999999999999999e i10000000000000000000e",
    "i-10000000000000000001e i18446744073709551615e i18446744073709551616e i-18446744073709551617e i1(4999*0)e",
    "i-1(4999*0)e i(5000*9)e i9223372036854775808 i9223372036854775808x i-9223372036854775809x i1(4999*0)",
    "i1(4999*0)x i(40*1)e i-(40*1)e i(40*1) i(40*1)x i-(40*1)-e i0(40*1)e i-0(40*1)e i+(40*1)e i(20*9)e i-(20*9)e i(21*9)e i1(18*0)e i1(20*0)e",
]

STRINGS = [
    "0 0: 1 1: 1:a 4:spam 5:spam 10:0123456789 3:i1e 3:%00%0A%FF : -1:a 01:a 1x 1e:a 9223372036854775808:a",
    "18446744073709551615:a 18446744073709551616:a 18446744073709551617:a 18446744073709551616",
    "18446744073709551616x 1(4999*0): 1(4999*0):a 1(4999*0) 1(4999*0)x",
]

SHAPES = [
    "e x I1e / ; %00 %20 %FF l le l0: l0:e li1e li1e1:ae lx lle llelee ldee d de d0: d0:e d0:0: d0:0:e d1:a d1:ae",
    "d1:a1:b d1:a1:be di1e0:e dle0:e dde0:e d-1:a0:e d01:a0:e d1x0:e d1:a0:x d1:a0:i1e0:e i1e%20 i1e%0A i1e%00",
    "i1ei2e 0:0: 1:ab leli1ee dee led",
]

KEYS = [
    "d0:0:1:a0:e d1:a0:2:ab0:e d2:aa0:1:b0:e d1:B0:1:a0:e d2:100:1:90:e d1:a0:0:0:e d2:ab0:1:a0:e d1:b0:2:aa0:e",
    "d1:a0:1:B0:e d1:90:2:100:e d3:abc0:3:abd0:e d1:a0:1:b0:1:c0:e d3:abd0:3:abc0:e d1:a0:1:b0:1:a0:e d0:0:0:0:e",
    "d4:spam0:4:spam0:e d1:%7F0:1:%800:e d1:%000:1:%FF0:e d1:%FE0:1:%FF0:e d1:a0:1:%E40:e d1:%800:1:%7F0:e",
    "d1:%FF0:1:%000:e d1:%FF0:1:%FE0:e d1:%E40:1:a0:e d0:0:1:%000:2:%00%000:e d1:a0:2:a%000:e d2:%00a0:2:%00b0:e",
    "d1:%000:0:0:e d2:%00%000:1:%000:e d2:a%000:1:a0:e d2:%00b0:2:%00a0:e d1:ad1:z0:e1:b0:e d1:bd1:z0:e1:a0:e",
    "d1:zd1:b0:1:a0:ee d1:zd1:a0:ee ld1:b0:ed1:a0:ee d1:a1:z1:b1:ae",
]

# 1,048,577 bytes, to be walked
TOO_LONG = ["1048569:(1048569*s) (1048577*e) (1048577*x)"]

LIMITS = [
    "1048568:(1048568*s) 1048569:(1048569*s) 1048569:(1048568*s) i(1048574*1)e (1048576*x) (1048577*x)",
    "i-(1048573*1)e d1:ai(1048569*1)ee i(1048575*1) i(1048575*1)e",
    "i1e(1048573*x) i1e(1048574*x) (31*d0:)de(31*e) (32*d0:)de(32*e) (16*ld0:)0:(32*e) (31*l)lele(31*e)",
    "(32*d0:)0:(32*e) (32*d0:)le(32*e) (32*l)i1e(32*e) (32*l)de(32*e) (32*l)x (32*l) (33*l) (32*l)(31*e)",
    "(32*l)(33*e) l(16382*0:)i1ee l(16382*0:)lee l(16382*0:)dee l(16380*0:)d0:0:ee l(16383*0:)i1ee l(16383*0:)lee",
    "l(16383*0:)dee l(16381*0:)d0:0:ee",
]

ORDER = [
    "l(16383*0:) l(16383*0:)x l(16383*0:)i-0e l(16383*0:)4:spa l(16382*0:)d0:0:ee l(16382*0:)d1 l(16382*0:)dx",
    "l(16382*0:)di1e0:ee l(16379*0:)d1:a0:1:a0:ee l(16380*0:)d1:a0:1:a0:ee (32*l)(16351*0:)l (32*l)(16352*0:)l",
    "(32*l)(16352*0:)d (32*l)(16352*0:)x d1:b0:1 d1:b0:1: d1:b0:2:a d1:b0:1x d1:b0:01:a d1:b0:1:a d1:b0:1:ax",
    "d1:b0:1:ai-0ee i-0ex i-0ei03e li-0ei03ee lei03e l4:spa l1:ax d1:bi03e1:a0:e i9223372036854775808ex",
    "li9223372036854775808e li9223372036854775808ei-0ee d1:bi9223372036854775808e1:a0:e d1:ad1:b0:1:a0:e1:a",
    "d1:b0:1:a0:ex l(16382*0:)i(40*1)ee l(16383*0:)i(40*1)ee (32*l)i(40*1)e(32*e) i(40*1)ei(40*1)e di(40*1)e0:e",
]

# strings and integers where others stand before them: inside a list, as a key and under one
INSIDE = [
    "l9:(9*a)e l9:(8*a)e l9:(8*a) l10:(10*a)e l10:(9*a) l99:(99*a)e l99:(98*a)e l99:(98*a) l100:(100*a)e l100:(99*a)",
    "l999:(999*a)e l999:(998*a) l00:e l09:(9*a)e l010:(10*a)e l0 l0: l9 l9: l99 l99: l100 l100: l1x l1e l10e l10x l100x",
    "l9(18*0):e l9(19*0):e l1(4999*0):e l1(4999*0)x l18446744073709551617:ae",
    "li0ee li0e li0 li li00ee li01ee li0xe li-0ee li-01ee li-ee li- li-1 li1 li1x li-1x li1e li-1e li--1ee",
    "li999999999999999999ee li-999999999999999999ee li1(18*0)ee li-1(18*0)ee li1(18*0) li1(18*0)x li1(19*0)ee li1(19*0)x",
    "li9223372036854775807ee li-9223372036854775808ee li-9223372036854775809ee li-9223372036854775809x",
    "li9999999999999999999ee li18446744073709551616ee li(5000*9)ee li-(5000*9)ee l/e l;e l:e l-e",
    "li(40*1)ee li-(40*1)ei(40*1)ee li(40*1)e li(40*1)xe d1:ai(40*1)e1:bi-(40*1)ee d1:ai(40*1)ei1ee d1:bi(40*1)e1:a0:e",
    "d9:(9*a)0:e d9:(8*a) d10:(10*a)0:e d10:(9*a) d99:(99*a)0:e d99:(98*a) d100:(100*a)0:e d100:(99*a) d00:0:e",
    "d09:(9*a)0:e d010:(10*a)0:e d0 d9 d9: d10 d10: d99 d99: d1e0:e d10e0:e d1:a9:(9*a)e d1:a9:(8*a) d1:a99:(99*a)e",
    "d1:a99:(98*a) d1:a100:(100*a)e d1:ai0ee d1:ai00ee d1:ai999999999999999999ee d1:ai1(18*0)ee d1:a/e d1:a",
    "l(16383*i0e)e l(16384*i0e)e l(16383*i-1e)e l(16384*i-1e)e l(16382*0:)10:(10*a)e l(16383*0:)10:(10*a)e",
    "l(16382*0:)100:(100*a)e l(16383*0:)100:(100*a)e l(16383*0:)/ l(16380*0:)d1:ai1eee l(16381*0:)d1:ai1eee",
    "l(16382*0:)d1:ai1eee",
]


def bencode():
    texts = DOCUMENT + INTEGERS + STRINGS + SHAPES + KEYS + LIMITS + ORDER + INSIDE
    return calls_of("bencode", texts) + calls_of("walk", DOCUMENT[:1] + INTEGERS + STRINGS + SHAPES + TOO_LONG)


# ---- tracker replies

INTERVAL = "d8:intervali1e5:peersl"
LONG, BELOW = "i(40*1)e", "i-(40*1)e"
LONGER = "i(100000*1)e"
PEER = "d2:ip9:127.0.0.17:peer%20id20:-AA0000-abcdefghijkl4:porti6881ee"
REPLIES = [
    "(0*x) x i1e le 2:de de d d1:b0:1:a0:e d8:interval d8:intervali1ee",
    "d8:interval1:ae d8:intervalle5:peers0:e d8:intervalde5:peers0:e d8:intervali-1e5:peers0:e",
    "d8:intervali2147483647e5:peers0:e d8:intervali2147483648e5:peers0:e d8:intervali0e5:peers0:e",
    "d8:intervali9223372036854775807e5:peers0:e d8:intervali9223372036854775808e5:peers0:e",
    "d5:peers0:e d5:peers5:abcdee d8:intervali1e5:peersi1ee d8:intervali1e5:peersdee",
    "d5:peers0:8:intervali1ee d8:intervali1e8:intervali1e5:peers0:e",
    "d3:abci1e8:completei2e8:intervali1800e5:peers6:abcdef7:unknownd1:xlleeee",
    "d8:intervali1e5:Peers0:e d8:Intervali1e5:peers0:e d7:intervai1e5:peers0:e",
    "d8:intervali1800e5:peers5:abcdee d8:intervali1800e5:peers0:e d8:intervali1800e5:peers1:ae",
    "d8:intervali1800e5:peers6:%7F%00%00%01%1A%E1e d8:intervali1800e5:peers7:abcdefge",
    "d8:intervali1800e5:peers12:abcdefghijkle d8:intervali1800e5:peers18:(6*%FF)(6*%00)(6*%80)e",
    INTERVAL + "ee " + INTERVAL + "0:ee " + INTERVAL + "deee",
    INTERVAL + "d2:ip4:host7:peer%20id20:(20*p)4:porti6881eeee",
    INTERVAL + "d2:ip0:7:peer%20id20:(20*p)4:porti0eed2:ip1:x7:peer%20id20:(20*q)4:porti65535eeee",
    INTERVAL + "d2:ip1:a7:peer%20id20:(20*p)4:porti65536eeee",
    INTERVAL + "d2:ip1:a7:peer%20id20:(20*p)4:porti-1eeee",
    INTERVAL + "d2:ip1:a7:peer%20id20:(20*p)4:port2:80eee",
    INTERVAL + "d2:ip1:a7:peer%20id19:(19*p)4:porti1eeee",
    INTERVAL + "d2:ip1:a7:peer%20id21:(21*p)4:porti1eeee",
    INTERVAL + "d2:ipi1e7:peer%20idi1e4:porti-1eeee",
    INTERVAL + "d2:ipi1e7:peer%20id19:(19*p)4:porti-1eeee",
    INTERVAL + "d2:ipi1e7:peer%20id20:(20*p)4:porti-1eeee",
    INTERVAL + "d2:ip1:a4:porti1eeee " + INTERVAL + "d7:peer%20id20:(20*p)4:porti1eeee",
    INTERVAL + "d2:ip1:a7:peer%20id20:(20*p)eee",
    INTERVAL + "d2:ip1:a7:peer%20id20:(20*p)4:porti1eed2:ip1:a7:peer%20id20:(20*p)eee",
    INTERVAL + "d1:ale2:ip1:a3:keyd1:x0:e7:peer%20id20:(20*p)4:porti1e1:zi0eeee",
    INTERVAL + "d2:ip99:(99*a)7:peer%20id20:(20*p)4:porti7eed2:ip100:(100*a)7:peer%20id20:(20*p)4:porti10000eeee",
    INTERVAL + "d2:ip1:a7:peer%20id20:(20*p)4:porti1e1:zi0eed2:ip1:a7:peer%20id20:(20*p)4:porti1e5:ports0:eee",
    INTERVAL + "d2:ip1:a7:peer%20id20:(20*p)4:porti100000eeee " + INTERVAL + "d2:ip1:a7:peer%20id20:(20*p)4:porti01eeee",
    "d14:failure%20reason4:gonee d14:failure%20reason0:e d14:failure%20reasoni1ee d14:failure%20reasonlee",
    "d14:failure%20reason4:gone8:intervali-1e5:peers5:abcdee d14:failure%20reason4:gone5:peersli1eee",
    "d14:failure%20reasoni1e8:interval1:a5:peers5:abcdee d14:Failure%20reason4:gone8:intervali1e5:peers0:e",
    "d14:failure%20reason4:gonx d14:failure%20reason4:gone1:a0:e",
    # integers of any length: 2^64 and a bit, forty digits where a number or another kind is wanted, and skipped
    "d8:intervali18446744073709553416e5:peers0:e d8:intervali-18446744073709549816e5:peers0:e d8:interval" + LONG + "5:peers0:e d8:interval" + BELOW + "5:peers0:e",
    LONG + " d8:intervali1e5:peers" + LONG + "e d14:failure%20reason" + BELOW + "e d14:failure%20reason4:gone8:interval" + LONG + "5:peers" + LONG + "e",
    INTERVAL + LONG + "ee " + INTERVAL + "d2:ip" + LONG + "7:peer%20id20:(20*p)4:porti1eeee " + INTERVAL + "d2:ip1:a7:peer%20id" + LONG + "4:porti1eeee",
    INTERVAL + "d2:ip1:a7:peer%20id20:(20*p)4:port" + LONG + "eee " + INTERVAL + "d2:ip1:a7:peer%20id20:(20*p)4:port" + BELOW + "1:z0:eee",
    INTERVAL + "d2:ip1:a7:peer%20id20:(20*p)4:porti18446744073709558497eeee",
    "d8:complete" + LONG + "8:intervali1e5:peersld1:a" + LONG + "2:ip1:a3:key" + BELOW + "7:peer%20id20:(20*p)3:pip" + LONGER + "4:porti1e1:z" + LONG + "ee6:peers6" + BELOW + "e",
    "d8:complete" + LONGER + "8:intervali1e4:keysl" + LONG + "e5:peers6:abcdef6:peers6" + LONGER + "e",
    "d8:intervali1800e5:peersl(2000*" + PEER + ")ee",
    "d8:intervali1800e5:peersl(1999*" + PEER + ")d2:ip0:eee",
    "d8:intervali1800e5:peers12000:(2000*%0A%00%00%01%1A%E1)e d8:intervali1800e5:peers12001:(12001*x)e",
]

WRITES = [
    (1800, "", 33), (1800, "", 32), (1800, "abcdef", 39), (1800, "abcdef", 38), (0, "abcdefghijkl", 64),
    (2147483647, "abcdef", 64), (2147483648, "abcdef", 64), (2147483648, "abcde", 0), (1, "abcde", 0),
    (1, "(1048536*x)", 2000000), (1, "(1048548*x)", 2000000), (1, "(1048554*x)", 0),
]


def replies():
    """Each text; of one that is taken also where its parts stand, its first entry, its last and the one past it."""
    samples = [word_of(path.read_bytes()) for path in sorted((ROOT / "samples").glob("opentracker-*.reply"))]
    found = []
    for word, asked in calls_of("reply", REPLIES + samples):
        found.append((word, asked))
        said, *numbers = answer(asked).split()
        if said != "refused":
            text, count = asked.split()[1], int(numbers[1]) if said == "taken" else 0
            found.append(call("entries", text))
            found += [call("peer", text, number) for number in sorted({0, max(count - 1, 0), count})]
    # Of a long one the sum.
    return found + [call(*["sum"] * (room > 100), "write-reply", interval, bytes_of(word), room) for interval, word, room in WRITES]


# ---- torrents

U = "d8:announce1:u4:infod"
ONE = "6:pieces20:(20*A)ee"
REST = "12:piece%20lengthi16384e" + ONE
NAMED = "4:name1:n" + REST
PAGE = "http://yard/ann"
PAPER = "d8:announce15:" + PAGE + "4:infod5:filesld6:lengthi20000e4:pathl3:rte1:aeed6:lengthi0e4:pathl1:beed6:lengthi12769e4:pathl1:ceee4:name3:pkg12:piece%20lengthi16384e6:pieces"
TORRENTS = [
    # document 01's listing torrent, and the same with a hash too few or too many; one made by mktorrent
    (PAPER, "60:(60*A) 40:(40*A) 80:(80*A)", "ee"),
    ("", "@SAMPLE@", ""),
    # what is no torrent, before info is looked at
    ("", "(0*x) x i1e le 1:d de d8:announce0:e d4:infodee d8:announcei1e4:infodee d8:announcele4:infoi1ee", ""),
    ("", "d8:announce0:4:infolee d8:announce0:4:info0:e d8:announce0:4:infodee d8:announce0:4:infodeee (1048577*x)", ""),
    ("", "d4:infod6:lengthi1e4:name1:n12:piece%20lengthi16384e6:pieces20:(20*A)e8:announce1:ue", ""),
    # keys of info missing, of another kind, and which check comes first
    (U + "6:lengthi1e", "4:namei1e 4:namele 4:name0: 3:nam1:n 5:namee1:n", REST),
    (U + "6:lengthi1e4:name1:n", "12:piece%20lengthle 12:Piece%20lengthi16384e 12:piece%20length5:16384 13:piece%20lengthsi16384e 12:piece%20lengthde", ONE),
    (U + "6:lengthi1e4:name1:n12:piece%20lengthi16384e", "6:piecesi1e 6:piecesle 6:pieces0: 6:pieces19:(19*A) 6:pieces21:(21*A) 6:pieces40:(40*A) 5:piece20:(20*A) 6:piecesde", "ee"),
    (U, "6:length1:x4:name0:12:piece%20lengthi1e6:piecesi1e 6:length1:x4:name1:n12:piece%20lengthi1e6:piecesi1e 6:length1:x4:name1:n12:piece%20lengthi16384e6:piecesi1e", "ee"),
    (U, "6:length1:x4:name1:n12:piece%20lengthi16384e6:pieces0: 6:lengthi-1e4:name1:n12:piece%20lengthi16384e6:pieces0:", "ee"),
    # both or neither of length and files
    (U, "5:fileslee6:lengthi1e 5:filesle6:lengthi1e 5:filesld6:lengthi1e4:pathl1:aeee6:lengthi1e 5:files1:x6:length1:x 1:a0: (0*x)", NAMED),
    # keys that nobody knows, between all that are known; keys out of order
    ("d1:a0:8:announce1:u3:btni1e4:infod1:ale", "5:filesld1:a0:6:lengthi1e3:md51:x4:pathl1:ae1:zleee 6:lengthi1e", "6:md5sum1:x4:name1:n7:network0:12:piece%20lengthi16384e14:piece%20length%20xi1e6:pieces20:(20*A)7:privatei1ee4:userdee"),
    (U, "4:name1:n6:lengthi1e12:piece%20lengthi16384e6:pieces20:(20*A) 6:lengthi1e4:name1:n6:pieces20:(20*A)12:piece%20lengthi16384e 6:lengthi1e12:piece%20lengthi16384e4:name1:n6:pieces20:(20*A)", "ee"),
    # piece lengths
    (U + "6:lengthi1e4:name1:n12:piece%20length", "i0e i1e i8192e i16383e i16384e i16385e i24576e i32768e i65536e i131072e i262144e i524288e i1048576e i2097152e i4194304e i8388608e i16777216e i33554432e", ONE),
    (U + "6:lengthi1e4:name1:n12:piece%20length", "i-16384e i16777215e i9223372036854775807e i9223372036854775808e i4294983680e", ONE),
    # integers of any length: 2^64 and a bit, forty digits where a number or another kind is wanted
    (U + "6:lengthi1e4:name1:n12:piece%20length", LONG + " " + BELOW + " i18446744073709568000e i-18446744073709535232e " + LONGER, ONE),
    (U + "6:length", LONG + " " + BELOW + " i9223372036854775808e i18446744073709551621e i-18446744073709551611e", NAMED),
    (U + "5:filesld6:length", LONG + " " + BELOW + " i18446744073709551621e i1e4:pathl1:aeed6:length" + LONGER, "4:pathl1:aeee" + NAMED),
    ("", LONG + " d8:announce" + LONG + "4:infodee d8:announce0:4:info" + BELOW + "e " + U + "5:files" + LONG + NAMED + " " + U + "5:filesl" + LONG + "e" + NAMED, ""),
    (U + "6:lengthi1e4:name", LONG + " " + BELOW, REST),
    (U + "6:lengthi1e4:name1:n12:piece%20lengthi16384e6:pieces", LONG, "ee"),
    (U + "5:filesld6:lengthi1e4:path", LONG + " l" + LONG + "e l1:a" + BELOW + "e", "ee" + NAMED),
    # the same under keys that nobody knows
    ("d1:a" + LONG + "8:announce1:u3:btn" + LONGER + "4:infod1:a" + LONG, "5:filesld1:a" + LONG + "6:lengthi1e3:md5" + BELOW + "4:pathl1:ae1:z" + LONGER + "ee 6:lengthi1e", "6:md5sum" + BELOW + "4:name1:n7:network" + LONG + "12:piece%20lengthi16384e13:piece%20lengths" + LONG + "6:pieces20:(20*A)9:signature" + LONGER + "e4:user" + LONG + "e"),
    # totals of 0, of 1, up to exactly 16,384 pieces, and one byte more
    (U + "6:length", "i0e i1e i16384e i16385e i-1e i274877906944e i274877906945e 1:1 le i9223372036854775807e", NAMED),
    (U + "6:length", "i268435456e i268435457e i268435455e i268419073e i268419072e", "4:name1:n12:piece%20lengthi16384e6:pieces327680:(327680*A)ee"),
    (U + "6:length", "i274877906944e i274861129728e", "4:name1:n12:piece%20lengthi16777216e6:pieces327680:(327680*A)ee"),
    # names
    (U + "6:lengthi1e4:name", "0: 1:. 2:.. 3:... 2:.a 2:a. 1:/ 2:/a 2:a/ 3:a/b 1:%00 2:a%00 2:%00a 3:a%00b 1:%20 5:%C3%A9%FF%01%7F 1:%5C", REST),
    # paths
    (U + "5:filesld6:lengthi1e4:path", "le l0:e l1:.e l2:..e l3:...e l1:/e l3:a/be l1:%00e l2:a%00e l1:ae l1:a1:be l1:a2:..e l1:a0:e l1:a1:.1:be li1ee l1:ali1eee llee ldee l1:adee i1e 1:a de", "ee" + NAMED),
    (U + "5:filesld6:lengthi1e4:path", "l3:%C3%A9%FFe l(8*1:a)e l(9*2:bc)e l(12*1:a)e", "ee" + NAMED),
    # files
    (U + "5:files", "le de i1e 1:a l0:e li1ee llee ldee ld6:lengthi1eee ld4:pathl1:aeee ld6:lengthi-1e4:pathl1:aeee ld6:length1:x4:pathleee ld6:lengthi1e4:pathi1eee ld6:lengthi0e4:pathl1:aeee", NAMED),
    (U + "5:files", "ld6:lengthi274877906944e4:pathl1:aeee ld6:lengthi274877906945e4:pathl1:aeee ld6:lengthi1e4:pathl1:aeed6:lengthi2e4:pathleee ld6:lengthi1e4:pathl1:aeed6:lengthi2e4:pathl1:beed4:pathl1:ceee", NAMED),
    (U + "5:files", "l(1024*d6:lengthi16e4:pathl1:aee)e l(1025*d6:lengthi16e4:pathl1:aee)e l(1024*d6:lengthi274877906944e4:pathl1:aee)e l(1023*d6:lengthi0e4:pathl1:aee)d6:lengthi16384e4:pathl1:b2:cdeee", NAMED),
]

CHECKS = [
    (0, "(16384*a)"), (0, "(16383*a)b"), (0, "(16383*a)"), (0, "(16385*a)"), (0, "(0*x)"), (0, "b"), (1, "b"), (1, "a"),
    (1, "bb"), (1, "(0*x)"), (1, "(16384*a)"), (2, "b"), (4294967295, "(0*x)"), (2, "(16384*a)"),
]


def torrents():
    """Each text; of one that is taken also where its parts stand, its first file, its last and the one past it."""
    made = word_of((ROOT / "samples/mktorrent.torrent").read_bytes())
    words = [before + word + after for before, line, after in TORRENTS for word in line.replace("@SAMPLE@", made).split()]
    found = []
    for word, asked in calls_of("torrent", words):
        found.append((word, asked))
        said, *numbers = answer(asked).split()
        if said == "taken":
            text, count = asked.split()[1], int(numbers[4])
            found.append(call("places", text))
            found += [call("file", text, number) for number in sorted({0, count - 1, count})]
    return found + pieces()


def pieces():
    hashes = word_of(sha1(b"a" * 16384).digest() + sha1(b"b").digest())
    text = bytes_of(U + "6:lengthi16385e4:name1:n12:piece%20lengthi16384e6:pieces40:" + hashes + "ee")
    return [call("piece", text, number, bytes_of(piece)) for number, piece in CHECKS]


# ---- sheets: @H@ is the key of the torrent's hash, @B@ and @A@ are those just below and above it

FILE = U + "6:lengthi1e" + NAMED
# the same with integers of any length, beside its info and in it
SIGNED = "d1:a" + LONG + FILE[1:-2] + "9:signature" + LONGER + "e4:user" + BELOW + "e"
LOW, HIGH = "20:(20*%00)", "20:(20*%FF)"
SHEETS = [
    # the hash alone, first, last, between, and missing by its last byte
    (FILE, "de d@H@1:xe d@H@0:e d@H@1:x" + HIGH + "1:ye d" + LOW + "1:x@H@1:ye d" + LOW + "1:x@H@1:y" + HIGH + "1:ze d" + LOW + "1:x" + HIGH + "1:ze"),
    (FILE, "d@B@1:xe d@A@1:xe d@B@1:x@A@1:ye d@B@1:x@H@1:y@A@1:ze d" + LOW + "@H@e d@H@100:(100*a)" + HIGH + "10:(10*b)e"),
    # an empty announce, many files, and keys that nobody knows
    ("d8:announce0:" + FILE[14:], "de d" + LOW + "1:xe d@H@1:xe d@H@1:x19:(19*%FF)0:e d" + LOW + "lee"),
    (U + "5:filesld6:lengthi1e4:pathl1:aeee" + NAMED, "d@H@1:xe d@B@1:xe"),
    ("d1:a0:8:announce1:u4:infod1:ale6:lengthi1e4:name1:n12:piece%20lengthi16384e6:pieces20:(20*A)7:privatei1ee4:userdee", "d@H@1:xe d@A@1:xe"),
    # keys of other lengths, and addresses that are no strings
    (FILE, "d0:1:xe d19:(19*%00)1:xe d21:(21*%00)1:xe d19:(19*%00)1:x@H@1:ye d21:(21*%00)1:x@H@1:ye d@H@1:x19:(19*%FF)1:ye d@H@1:x21:(21*%FF)1:ye"),
    (FILE, "d@H@lee d@H@i1ee d@H@dee d" + LOW + "le@H@1:xe d@H@1:x" + HIGH + "lee d@H@1:x" + HIGH + "i1ee"),
    # integers of any length as addresses, and under keys of the torrent that nobody knows
    (FILE, "d@H@" + LONG + "e d@H@" + BELOW + "e d" + LOW + LONGER + "@H@1:xe d@H@1:x" + HIGH + LONG + "e " + LONG + " d19:(19*%00)" + LONG + "e d@H@l" + LONG + "ee"),
    (SIGNED, "d@H@1:xe d@A@1:xe d@H@" + LONG + "e"),
    # what is no dictionary, and what any text is refused for
    (FILE, "le 0: i0e (0*x) d d@H@ d@H@1:x x dxe d@H@01:xe d@H@1:x" + LOW + "1:ye d@H@1:x@H@1:ye d@H@i9223372036854775808ee dee (1048577*x)"),
    (FILE, "d@H@(31*l)(31*e)e d@H@(32*l)(32*e)e d@H@l(16381*0:)ee d@H@l(16382*0:)ee"),
    # which check comes first
    (FILE, "d19:(19*%00)1:xex d19:(19*%00)1:x d19:(19*%00)1:x@H@i-0ee d19:(19*%00)i1ee d19:(19*%00)1:x" + LOW + "i1ee d" + LOW + "i1e21:(21*%00)1:xe d" + LOW + "le@H@i1ee"),
]
# Torrents that are refused, each beside a sheet that is refused too.
NO_TORRENTS = [
    "(0*x) x d4:infode8:announce0:e li9223372036854775808ee (33*l)(33*e) l(16384*0:)e lee (1048577*x) le",
    U + "6:lengthi0e" + NAMED + " " + U + "6:lengthi1e4:name1:n12:piece%20lengthi16384e6:pieces0:ee " + U + "6:lengthi1e4:name0:" + REST,
    U + "6:length" + LONG + NAMED + " d8:announce" + LONG + FILE[14:],
]


def sheets():
    found = []
    for text, line in SHEETS:
        data = bytes.fromhex(answer(f"torrent {bytes_of(text)}").split()[-1])
        keys = {mark: "20:" + word_of(data[:-1] + bytes([data[-1] + step])) for mark, step in (("@B@", -1), ("@H@", 0), ("@A@", 1))}
        for mark, key in keys.items():
            line = line.replace(mark, key)
        found += [(word, f"address {bytes_of(text)} {bytes_of(word)}") for word in line.split()]
    return found + [(word, f"{asked} 78") for word, asked in calls_of("address", NO_TORRENTS)]


# ---- links, as they stand: ^ is a space, @X@ the hash's pair, @A@ 39 digits

HASHED = "xt=urn:btih:0123456789abcdefABCDEF99887766554433abcd"
LINKS = [
    # the pairs in any order, empty values, escapes of both cases, other names
    "magnet:?@X@ magnet:?@X@&dn=week%207&tr=http%3A%2F%2Fyard%2fann magnet:?tr=u&a=b&dn=n&@X@&a=%41 magnet:?dn=&@X@&tr= magnet:?@X@&dn=a=b?c+d",
    "magnet:?@X@&dn=%00%7f%80%fF%Ff&tr=%25%26 magnet:?DN=a&xt.1=b&@X@&..=&..=&dnx=c&x.pe=1.2.3.4:5",
    # the prefix, a name, a value, an escape and the hash cut short or with another byte
    "magnet magnet:? magnet:@X@ Magnet:?@X@ magnet:?& magnet:?@X@& magnet:?@X@&&dn=a magnet:?=a magnet:?a magnet:?a&@X@ magnet:?@X@&a-b=c",
    "magnet:?@X@&dn=a^b magnet:?@X@&dn=a# magnet:?@X@&tr=\x7f magnet:?@X@&tr=\x80 magnet:?@X@&dn=% magnet:?@X@&dn=%4 magnet:?@X@&dn=%4&tr=b magnet:?@X@&tr=%zz magnet:?@X@&a=%4g",
    "magnet:?xt= magnet:?xt=urn:btih magnet:?xt=urn:btih:0123 magnet:?xt=urn:btih:0123&dn=a magnet:?xt=urn:btmh:1220 magnet:?@X@0 magnet:?xt=urn:btih:@A@g",
    # a name once too often, and no hash
    "magnet:?@X@&@X@ magnet:?dn=a&dn=b magnet:?tr=&@X@&tr= magnet:?dn=a&dn magnet:?dn=a&dn.=b magnet:?dn=a&tr=b",
]
ROOMS = [(3, 5), (2, 5), (3, 4), (0, 0), (255, 255)]
LINKED = [
    (FILE, (68 + 2, 68 + 1, 0, 255)),
    ("d8:announce0:" + FILE[14:], (68 + 1, 68)),
    (U + "5:filesld6:lengthi1e4:pathl1:aeee" + NAMED, (200,)),
    (SIGNED, (70, 69)),
    ("d8:announce16:http://yard/ann?4:infod6:lengthi1e4:name6:a-._~z12:piece%20lengthi16384e6:pieces20:(20*A)ee", (100, 99)),
    ("d8:announce5:%00%20%7F%80%FF4:infod6:lengthi1e4:name4:%C3%A4%25%2B12:piece%20lengthi16384e6:pieces20:(20*A)ee", (95, 94)),
]
NOT_LINKED = [*NO_TORRENTS, "d8:announce400000:(400000*%FF)" + FILE[14:]]


def links():
    found = [call("link", word, 20, 20) for word in ("-", "78*1048577")]
    for word in " ".join(LINKS).replace("@X@", HASHED).replace("@A@", "a" * 39).split(" "):
        text = word.replace("^", " ").encode("latin-1")
        found.append((show(text), f"link {text.hex()} 20 20"))
    sized = f"magnet:?{HASHED}&dn=abc&tr=%41%42%43%44%45".encode()
    found += [call("link", sized.hex(), *lent) for lent in ROOMS]
    found += [(text, f"write-link {bytes_of(text)} {room}") for text, rooms in LINKED for room in rooms]
    return found + [(word, f"{asked} 0") for word, asked in calls_of("write-link", NOT_LINKED)]


# ---- weeks: the files of week_texts.py

def weeks():
    """Each file; of one that is taken also its first package, its last and the one past it."""
    found = []
    for shown, data in [*whole_weeks(), *wrong_tables(), *wrong_bodies()]:
        file = week_texts.word(data)
        found.append((shown, f"week {file}"))
        said, *numbers = answer(found[-1][1]).split()
        if said == "taken" and len(data) < 10_000:
            count = int(numbers[0])
            found += [call("package", file, number) for number in sorted({0, count - 1, count})]
    over = week_texts.week_of([week_texts.A], after=b"x")
    return found + [call("package", week_texts.word(data), 0) for data in (b"", over)] + weeks_written()


def whole_weeks():
    """One package, some, the samples, sums over 32 bits, integers of any length, 256 packages, and 1,048,576 bytes or one more."""
    a, b, large = week_texts.A, week_texts.B, week_texts.large
    sums = [large(2**32 - 1, b"a"), large(1, b"b")], [large(2**36, b"a"), large(2**36 - 1, b"b")]
    long = week_texts.signed(FORTY), week_texts.signed(HUGE)
    for packages in ([a], [b, a], week_texts.THREE, week_texts.samples(), *sums, *long, week_texts.numbered(256)):
        yield f"{len(packages)} packages", week_texts.week_of(packages)
    for size in (1_048_576, 1_048_577):
        yield f"{size} bytes", week_texts.week_of(week_texts.filled([a], size))


def wrong_tables():
    """Two packages: each field wrong, each hash twice, the file cut at each field and each body, and bytes after it."""
    two, number = [week_texts.A, week_texts.B], week_texts.number
    whole = week_texts.week_of(two)
    wrong = {0: (0, 1, 3, 256, 257, 2**32 - 1), 1: (59, 61, 2**32 - 1), 2: (0, 95, 97, 2**32 - 1), 4: (155, 157), 5: (0, 96, 98, 2**32 - 1)}
    for field, values in wrong.items():
        for value in values:
            yield f"field {field} is {value}", week_texts.week_of(two, {field: number(value)})
    for field, value in ((3, bytes(20)), (3, two[1].info_hash), (6, bytes(20)), (6, two[0].info_hash), (6, week_texts.another(two[1].info_hash, 19))):
        yield f"field {field} is {value.hex()}", week_texts.week_of(two, {field: value})
    for cut in (0, 3, 4, 7, 8, 11, 12, 31, 32, 36, 40, 59, 60, 155, 156, len(whole) - 1):
        yield f"{cut} bytes of two packages", whole[:cut]
    yield "bytes after the last body", whole + b"x"


def wrong_bodies():
    """Bodies that are equal, short, empty, or refused as torrents, in the second place."""
    a, b = week_texts.A, week_texts.B
    yield "two equal bodies", week_texts.week_of([a, a])
    yield "two bodies with one info", week_texts.week_of([a, week_texts.named(b"a", b"other")])
    for k in (0, 1):
        for body in (a.body[:-1], a.body + b"x", b""):
            yield f"body {k} of {len(body)} bytes", week_texts.week_of([a._replace(body=body), b] if k == 0 else [b, a._replace(body=body)])
    for refusal, body in week_texts.BAD_TORRENTS:
        yield f"body 1 refused by {refusal}", week_texts.week_of([a, week_texts.marked(body)[0]])
    yield "a bad body after another's hash", week_texts.week_of([a._replace(info_hash=bytes(20)), b._replace(body=b"x")])


def weeks_written():
    """Into room that just fits and is a byte too short; lengths that do not add up, bodies that are refused, and the limits."""
    a, b, three = week_texts.A, week_texts.B, week_texts.THREE
    found = []
    for packages in ([a], [b, a], three, week_texts.samples(), week_texts.signed(FORTY)):
        size = len(week_texts.week_of(packages))
        found += [write_week(packages, room) for room in (size, size - 1)]
    length = len(a.body)
    for lengths in ([], [length - 1], [length + 1], [length, 1], [0, length], [length, 0], [2**64 - 1, length + 1], [2**63, 2**63, length], [2**32 + length], [0] * 256 + [length]):
        found.append(write_week([a], 1000, lengths))
    found += [write_week([], 1000, [0] * count) for count in (0, 1, 256, 257)]
    found += [write_week(packages, 1000) for packages in ([a, a], [b, a, b], [a, a._replace(body=b"x")], [a._replace(body=b""), a, a], [a, a, b._replace(body=b"x")])]
    found += [write_week([b, week_texts.marked(body)[0]], 0) for _, body in week_texts.BAD_TORRENTS]
    for size in (1_048_576, 1_048_577):
        found += [write_week(week_texts.filled([a], size), room, brief=True) for room in (2_000_000, 0)]
    return found + [write_week(week_texts.numbered(256), 1_000_000, brief=True)]


def write_week(packages, room, lengths=None, brief=False):
    bodies = week_texts.word(week_texts.joined(packages))
    return call(*["sum"] * brief, "write-week", bodies, week_texts.listed(week_texts.lengths_of(packages) if lengths is None else lengths), room)


# ---- blocks

class Asked(list):
    """Calls about some lengths. A block's last number is the output's room in numbers, three for a part."""

    def block(self, lengths, piece_length, *cases):
        self += [call("block", piece_length, listed(lengths), *block, room_of(room)) for *block, room in cases]

    def byte(self, lengths, piece_length, *cases):
        self += [call("byte", piece_length, listed(lengths), *case) for case in cases]

    def size(self, lengths, piece_length, *pieces):
        self += [call("size", piece_length, listed(lengths), piece) for piece in pieces]


def listed(lengths):
    """Lengths as a list of docs/REPLAY.md; more than eight times the same is a run."""
    runs = [(length, len(list(run))) for length, run in groupby(lengths)]
    return ",".join(f"{length}*{count}" if count > 8 else ",".join([str(length)] * count) for length, count in runs) or "-"


def room_of(numbers):
    return f"{numbers // 3}+{numbers % 3}" if numbers % 3 else numbers // 3


def document_blocks(ask):
    three = [20000, 0, 12769]
    ask.block(three, 16384, (1, 0, 16384, 6), (2, 0, 1, 3), (2, 0, 2, 3), (3, 0, 1, 3))
    ask.byte(three, 16384, (2, 0), (1, 0))
    ask.size(three, 16384, 0, 1, 2, 3)
    ask.size(three, 32768, 0, 1)
    ask.size(three, 65536, 0)


def rules_blocks(ask):
    one, first = [32769], (0, 0, 1, 3)
    ask.block(one, 16384, (2, 0, 1, 3))
    ask.block(one, 32768, (1, 0, 1, 3))
    for k in range(16, 25):
        ask.block(one, 2**k, (0, 32768, 1, 3))
    for piece_length in (0, 1, 2, 8192, 16383, 16385, 24576, 49152):
        ask.block(one, piece_length, first)
    for piece_length in (2**24 - 1, 2**24 + 1, 2**25, 2**32, 2**32 + 16384, 2**63, 2**64 - 1):
        ask.block(one, piece_length, first)
    ask.byte(one, 24576, (0, 0))
    ask.size(one, 24576, 0)
    # totals
    for lengths in ([1], [0], [0, 0, 0]):
        ask.block(lengths, 16384, first)
    ask.block([2**28], 16384, (16383, 16383, 1, 3))
    ask.block([2**28 + 1], 16384, (16383, 16383, 1, 3))
    ask.block([2**28, 0, 1], 16384, first)
    ask.block([2**28 + 1], 32768, (8192, 0, 1, 3))
    ask.byte([0], 16384, (0, 0))
    ask.size([0], 16384, 0)
    # how many files
    ask.block([3] * 1024, 16384, (0, 3071, 1, 3))
    ask.block([3] * 1025, 16384, (0, 3071, 1, 3))
    ask.byte([3] * 1024, 16384, (1023, 2))
    ask.byte([3] * 1025, 16384, (1023, 2))
    ask.size([3] * 1024, 16384, 0)
    ask.size([3] * 1025, 16384, 0)
    ask.block([], 16384, first)
    ask.byte([], 16384, (0, 0))
    ask.size([], 16384, 0)
    # too long, and sums that 64 bits would wrap
    ask.block([2**38 + 1], 2**24, first)
    ask.block([5, 2**38 + 1], 2**24, first)
    ask.block([2**64 - 1], 16384, first)
    ask.block([2**64 - 1, 2], 16384, first)
    ask.block([2**63, 2**63], 16384, first)
    ask.block([2**63, 2**63, 5], 16384, (0, 0, 1, 9))
    ask.block([5, 2**64 - 1], 16384, (0, 0, 6, 9))
    ask.byte([2**64 - 1, 2], 16384, (1, 0))
    ask.byte([2**63, 2**63, 5], 16384, (2, 0))
    ask.size([2**64 - 1, 2], 16384, 0)
    # which refusal comes first
    ask.block([0], 16384, (9, 0, 0, 0))
    ask.block([5], 16383, (9, 0, 0, 0))
    ask.block([5], 16384, (1, 9, 0, 0), (0, 9, 0, 0), (0, 0, 5, 0))
    ask.byte([0], 16384, (7, 9))
    ask.byte([5], 16384, (1, 9), (0, 9))
    ask.size([0], 16384, 7)


def bounds_blocks(ask):
    two, top = [40000, 30000], 2**32 - 1
    ask.block(two, 32768, *((0, 0, count, 6) for count in (0, 1, 16384, 16385)))
    ask.block(two, 32768, (0, 5, 16384, 6), (0, 5, 16385, 6))
    ask.block(two, 16384, (0, 1, 16383, 6), (0, 1, 16384, 6), (0, 16383, 1, 6), (0, 16383, 2, 6), (0, 16384, 1, 6))
    ask.block(two, 32768, (1, 16384, 16384, 6), (1, 16385, 16384, 6))
    ask.block(two, 16384, (0, top, 1, 6), (0, top, 2, 6), (0, 1, top, 6), (0, top, top, 6))
    ask.block(two, 16384, (top, 0, 1, 6), (top, top, top, 6), (2**18, 0, 1, 6))
    ask.block(two, 16384, (4, 0, 4464, 6), (4, 0, 4465, 6), (4, 4463, 1, 6), (4, 4463, 2, 6), (4, 4464, 1, 6), (5, 0, 1, 6))
    ask.block(two, 16384, *((2, 0, 16384, room) for room in (0, 3, 5, 6, 7)))
    ask.block(two, 16384, (2, 0, 7232, 3), (2, 0, 7232, 2), (2, 7232, 1, 3))
    ask.byte(two, 16384, (0, 0), (0, 39999), (0, 40000), (1, 0), (1, 29999), (1, 30000), (2, 0), (2**64 - 1, 0), (1, 2**64 - 1))


def files_blocks(ask):
    ones = [1] * 1024
    ask.block(ones, 16384, (0, 0, 1024, 3072), (0, 0, 1024, 3071), (0, 0, 1025, 3072), (0, 500, 3, 9), (0, 0, 1, 3), (0, 1023, 1, 3))
    ask.byte(ones, 16384, (1023, 0), (1023, 1), (1024, 0))
    ends = [0, 0, 0, 5, 0, 0]
    ask.block(ends, 16384, (0, 0, 5, 9), (0, 0, 1, 3), (0, 4, 1, 3), (0, 5, 1, 3))
    ask.byte(ends, 16384, (0, 0), (3, 4), (5, 0), (6, 0))
    between = [0, 0, 16384, 0, 0, 16384, 0, 0]
    ask.block(between, 16384, (0, 0, 16384, 3), (1, 0, 16384, 3), (1, 0, 1, 3))
    ask.block(between, 32768, (0, 16383, 2, 6), (0, 16384, 16384, 3))
    ask.block([1, 0, 1, 0, 0, 1, 0], 16384, (0, 0, 3, 9), (0, 1, 2, 9))
    ask.byte(between, 16384, (5, 0))
    ask.byte(between, 32768, (5, 16383))
    last, first = [0] * 1023 + [1], [1] + [0] * 1023
    ask.block(last, 16384, (0, 0, 1, 3))
    ask.byte(last, 16384, (1023, 0), (1022, 0))
    ask.block(first, 16384, (0, 0, 1, 3))
    ask.byte(first, 16384, (0, 0), (1, 0))


def large_blocks(ask):
    one, piece, end = [2**38], 2**24, (16383, 2**24 - 1, 1, 3)
    ask.block(one, piece, end, (16383, 16760832, 16384, 3), (16383, 16760833, 16384, 3), (16384, 0, 1, 3))
    ask.block(one, 2**23, (0, 0, 1, 3))
    ask.byte(one, piece, (0, 2**38 - 1), (0, 2**38))
    ask.size(one, piece, 16383, 16384)
    two = [2**37 + 1, 2**37 - 1]
    ask.block(two, piece, (8191, 2**24 - 1, 1, 3), (8192, 0, 16384, 6), (8192, 0, 1, 6), (8192, 1, 1, 6), end)
    ask.byte(two, piece, (0, 2**37), (1, 0), (1, 2**37 - 2))
    ask.block([2**38, 0, 0], piece, end)
    ask.block([0, 2**38], piece, end)
    ask.block([2**38 - 1, 1], piece, end, (16383, 2**24 - 2, 2, 6))
    ask.block([2**38, 1], piece, end)
    ask.byte([2**38 - 1, 1], piece, (1, 0))
    ask.byte([2**38, 1], piece, (1, 0))


def blocks():
    ask = Asked()
    for part in (document_blocks, rules_blocks, bounds_blocks, files_blocks, large_blocks):
        part(ask)
    return ask


# ---- frames and handshakes

# How many bytes there are to read, and each id's shortest and longest length.
SPACE = 16500
LENGTHS = {
    0: (1, 1), 1: (1, 1), 2: (1, 1), 3: (1, 1), 4: (5, 5), 5: (2, 2049), 6: (13, 13), 7: (10, 16393), 8: (13, 13),
    9: (1, 16393), 20: (1, 16393), 255: (1, 16393),
}


def frame_cuts(frame_id, length):
    """A frame that names a length, has an id, and goes on with its places' own numbers."""
    return call("frame-cuts", f"{length:08x}{frame_id:02x}.@{SPACE - 5}")


def frames():
    found = []
    for frame_id, (least, most) in LENGTHS.items():
        lengths = sorted({least - 1, least, most, most + 1})
        found += [frame_cuts(frame_id, length) for length in (lengths[1:] if frame_id == 255 else lengths)]
    found += [frame_cuts(7, 4294967295), frame_cuts(4, 0x00010203)]
    short = [(0, 1), (4, 5), (5, 3), (6, 13), (7, 20), (8, 13), (9, 9), (9, 0), (255, 1), (0, 2)]
    return found + [call("frame", f"{length:08x}{frame_id:02x}.@30") for frame_id, length in short]


def framed(frame_id, payload, room, *before):
    return call(*before, "write-frame", frame_id, payload, room)


def numbers(*values):
    return "".join(f"{value:08x}" for value in values)


def writers():
    long = [framed(5, f"aa*{size}", SPACE, "sum") for size in (2048, 2049, 16392, 16393)]
    long += [framed(7, f"{numbers(3, 16384)}.aa*{size}", SPACE, "sum") for size in (16384, 16385)]
    return long + [
        *[framed("keepalive", "-", room) for room in (6, 3)],
        *[framed(frame_id, "-", 7) for frame_id in (0, 1, 2, 3, 4, 9)],
        framed(2, "-", 4),
        framed(4, numbers(4294967295), 11),
        framed(6, numbers(16909060, 5, 16384), 19),
        framed(8, numbers(1, 16909060, 4294967294), 19),
        framed(4, numbers(7), 8),
        framed(6, numbers(1, 2, 3), 16),
        framed(8, numbers(1, 2, 3), 16),
        framed(5, "8001", 18),
        framed(7, numbers(258, 772) + "616263", 18),
        framed(5, "-", 18),
        framed(7, numbers(258, 772), 18),
        framed(5, "8001", 6),
        framed(7, numbers(258, 772) + "616263", 15),
        *[framed(frame_id, payload, 10) for frame_id, payload in ((4, "00000100"), (4, "000100"), (20, "78797a"), (20, "6c6f6e676572"))],
    ]


def handshakes():
    """One as it is and with each byte changed in turn; 36 makes byte 8, an e, an A: the spelling of source document 003."""
    info, peer = "07*20", "09*20"
    whole = bytes.fromhex(answer(f"write-handshake {info} {peer} 68")) + b"\xff\xff"
    wrong = [whole[:place] + bytes([whole[place] ^ 36]) + whole[place + 1 :] for place in range(len(whole))]
    found = [call("write-handshake", info, peer, room) for room in (70, 67)]
    found += [call("handshake-cuts", data.hex(), info) for data in (whole, *wrong)]
    return found + [call("handshake", to_hex(data), info) for data in (b"", whole[:67], whole, wrong[1], wrong[28])]


# ---- what is written, and digests

def written():
    text = ["-", "6e", 16384, 1, "41*20"]
    size = len(answer(" ".join(map(str, ["write-torrent", *text, 1000])))) // 2
    return [call("write-torrent", *text, room) for room in (size, size - 1)] + [
        call("write-torrent", "-", name, length, total, pieces, 200)
        for name, length, total, pieces in (("2e", 16384, 1, "41*20"), ("6e", 16383, 1, "41*20"), ("6e", 16384, 16385, "41*20"))
    ] + [call("sum", "write-torrent", f"61*{count}", *text[1:], 2000000) for count in (1000, 1048475, 1048476)]


def digests():
    parts = [("-", "-"), ("616263", "-"), ("616263", "1,1"), ("@1000", "7*200"), ("@1000", "63,64,65,0,1"), ("61*1000000", "1000*1000")]
    return [call("sha1", data) for data in ("-", "616263", "@1000", "61*1000000")] + [call("sha1-parts", *words) for words in parts]


def calls():
    """Each call, with what the script says of it before it."""
    return bencode() + replies() + torrents() + sheets() + links() + weeks() + blocks() + frames() + writers() + handshakes() + written() + digests()


def script():
    """The lines of the script; the word of a text stands above it, if it is short."""
    yield "# Every call that needs no yard (docs/REPLAY.md); tests/scripts/case_table.py makes this file."
    for shown, asked in calls():
        if shown and len(shown) <= LONGEST_SHOWN:
            yield f"# {shown}"
        yield asked


def answers(lines):
    return [answer(line) for line in lines if not line.startswith("#")]


def write(folder):
    lines = list(script())
    (folder / "stdin").write_text("".join(f"{line}\n" for line in lines))
    (folder / "stdout").write_text("".join(f"{said}\n" for said in answers(lines)))
