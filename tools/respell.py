#!/usr/bin/env python3
"""Brings the definitions and lemmas of this repository to snake case: aWord becomes a_word, and a function's name within one keeps its spelling.

usage: tools/respell.py [--list]      at the top of the repository, once, after the kit's port.py

It turns the words of .antt files, of .edit files, and of the clauses and `ghost use` lines of .rt files. Names of the kit's libraries, what stands in
quotation marks, and what begins with a large letter, as types and modules do, stay. A word that would fall together with a parameter, a field or another
definition ends in _of. --list prints what would be renamed, and nothing is written.
"""
import collections
import os
import re
import subprocess
import sys

KIT = os.path.join(os.path.dirname(os.path.realpath(subprocess.run(["rt", "doc"], capture_output=True, text=True, check=True).stdout.strip())), "rattle")
SINGLE = set()  # functions of one word
WORD = re.compile(r"(?<![\w·'-])[A-Za-z_][\w'₀-₉-]*")


def part(p):
    """One part of a name between dashes."""
    if not re.match(r"[a-z]", p) or not re.search(r"[a-z0-9][A-Z]", p):
        return p
    return re.sub(r"(?<=[a-z0-9])([A-Z])", lambda m: "_" + m.group(1).lower(), p)


def spelled(w):
    return "-".join(part(p) for p in w.split("-"))


def files(top):
    for folder, dirs, names in os.walk(os.path.join(top, "crates")):
        dirs[:] = sorted(d for d in dirs if d != "out")
        for n in sorted(names):
            if n.endswith((".antt", ".rt", ".edit")):
                yield os.path.join(folder, n)


def spans(text, kind):
    """The parts of a file that are antt: of .antt all but strings, of .rt clauses, ghost items and the imports of them."""
    if kind == "antt":
        at = 0
        for m in re.finditer(r'"(?:[^"\\\n]|\\.)*"', text):
            yield at, m.start()
            at = m.end()
        yield at, len(text)
        return
    at = 0
    head = re.compile(r"\bghost use\b|\b(?:requires|ensures|ghost)\b[^\n{;]*\{")
    while True:
        m = head.search(text, at)
        if not m:
            return
        if m.group(0) == "ghost use":
            end = text.index(";", m.end())
        else:
            depth, end = 1, m.end()
            while depth:
                c = text[end]
                depth += (c == "{") - (c == "}")
                end += 1
        yield m.start(), end
        at = end


def kit_words():
    out = subprocess.run(["grep", "-rhoE", "--include=*.antt", r"\b[a-z][a-z0-9_]*[A-Z][A-Za-z0-9_']*", KIT], capture_output=True, text=True).stdout
    return set(out.split())


def functions(top):
    """The names of the repository's functions that have several words, and the names of parameters, fields and variables."""
    named, held = set(), set()
    for p in files(top):
        if p.endswith(".rt"):
            text = re.sub(r"//.*", "", open(p, encoding="utf-8").read())
            named.update(n for n in re.findall(r"\bfn (\w+)", text) if "_" in n)
            SINGLE.update(n for n in re.findall(r"\bfn (\w+)", text) if "_" not in n)
            held.update(re.findall(r"\b([a-z]\w*) ?:(?!:)", text) + re.findall(r"\blet (?:mut )?(\w+)", text) + re.findall(r"\bmod (\w+)", text))
    return named, held


def declared(top):
    """The words of .antt files that are no part of a path: definitions, fields and variables."""
    found = set()
    for p in files(top):
        if p.endswith(".antt"):
            found.update(re.findall(r"(?<![\w.'-])([a-z][\w'₀-₉-]*)(?![\w'-]|\.\w)", re.sub(r"--.*", "", open(p, encoding="utf-8").read())))
    return found


def by_function(w, named):
    """A name whose first parts, joined by dashes, are a function's name: fits-at-more becomes fits_at-more."""
    parts = w.split("-")
    if parts[-1] == "spec" and len(parts) > 1 and "_".join(parts[:-1]) in named | SINGLE:
        return "_".join(parts)
    for n in range(len(parts), 1, -1):
        if "_".join(parts[:n]) in named:
            return "-".join(["_".join(parts[:n])] + parts[n:])
    return w


def main():
    top = os.getcwd()
    kit = kit_words() - {"getD"}
    named, held = functions(top)
    words = collections.Counter()
    for p in files(top):
        kind = p.rsplit(".", 1)[1]
        if kind != "edit":
            text = open(p, encoding="utf-8").read()
            for a, b in spans(text, kind):
                words.update(WORD.findall(text[a:b]))
    taken = held | declared(top)
    turn, kept = {}, []
    for w in words:
        n = by_function("-".join("get_or" if p == "getD" else part(p) for p in w.split("-")), named)
        if n == w:
            continue
        if any(p in kit for p in w.split("-") if p != part(p) and p != "getD"):
            kept.append(w)
        elif n not in taken:
            turn[w] = n
        elif spelled(w) != w:
            turn[w] = n + "_of"
    said = collections.Counter(turn.values())
    for w in [w for w, n in turn.items() if spelled(w) == w and (said[n] > 1 or n in taken | set(words))]:
        del turn[w]  # a step of a proof or a lemma beside a word that mirrors the function
    said = collections.Counter(turn.values())
    for w, n in turn.items():
        if said[n] > 1 or n in taken:
            sys.exit(f"respell: {w} and another name would both be {n}")
    if "--list" in sys.argv:
        for w in sorted(turn):
            print(w, turn[w])
        print("kept, since the kit has them:", " ".join(sorted(kept)))
        return
    done = 0
    for p in files(top):
        kind = p.rsplit(".", 1)[1]
        text = open(p, encoding="utf-8").read()
        new, at = [], 0
        for a, b in (spans(text, kind) if kind != "edit" else [(0, len(text))]):
            new.append(text[at:a])
            new.append(WORD.sub(lambda m: turn.get(m.group(0), m.group(0)), text[a:b]))
            at = b
        new.append(text[at:])
        new = "".join(new)
        if new != text:
            open(p, "w", encoding="utf-8").write(new)
            done += 1
    print(f"respell: {len(turn)} names, {done} files")


main()
