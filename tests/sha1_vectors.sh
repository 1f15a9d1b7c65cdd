#!/bin/sh
# The lines that crates/sha1_vectors has to print, by sha1sum of coreutils.
#
#     sh tests/sha1_vectors.sh | diff - crates/sha1_vectors/stdout
#
# It makes each message by itself, and shares no code with that crate. Cut or not, a message has one digest.
set -eu

MOST=16777216

# bytes that count from 0 to 250 and begin again, so many of them
counting() {
    python3 -c 'import sys; sys.stdout.buffer.write(bytes(i % 251 for i in range(int(sys.argv[1]))))' "$1"
}

zeros() {
    head -c "$1" /dev/zero
}

# the digest of standard input
digest() {
    sha1sum | cut -d ' ' -f 1
}

# a line for standard input under a name
one() {
    echo "$1: $(digest)"
}

# two lines for standard input: as a whole, and in parts
both() {
    d=$(digest)
    echo "$1: $d"
    echo "$1 in parts: $d"
}

# a line for so many zeros
limited() {
    if [ "$1" -le "$MOST" ]; then
        zeros "$1" | one "$1 zeros"
    else
        echo "$1 zeros: refused 8 at 0"
    fi
}

# whether the digest of abc is these hex digits
agrees() {
    if [ "$(printf abc | digest)" = "$1" ]; then echo same; else echo other; fi
}

printf '' | both empty
printf abc | both abc
printf abcdbcdecdefdefgefghfghighijhijkijkljklmklmnlmnomnopnopq | both '448 bits'
printf abcdefghbcdefghicdefghijdefghijkefghijklfghijklmghijklmnhijklmnoijklmnopjklmnopqklmnopqrlmnopqrsmnopqrstnopqrstu | both '896 bits'
zeros 1000000 | tr '\0' a | both 'one million a'
for n in 55 56 63 64 65 119 120 127 128; do
    counting "$n" | both "$n bytes"
done
for n in 1 63 64 65 1000; do
    counting 1000000 | one "parts of $n"
done
limited 16777216
limited 16777217
d=$(printf abc | digest)
echo "$d"
agrees "$d"
agrees "${d%??}"
agrees "${d%??}00"
