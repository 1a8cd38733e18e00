#!/usr/bin/env python3
"""Brings the repository's own definitions and lemmas to today's spelling: words in snake case, types and facts in camel case.

usage: python3 tools/port/respell.py        at the top, once, right after the toolchain's port.py

A definition in camel case (clampI16) becomes clamp_i16; a lemma with dashes (room-for) becomes room_for. Where a definition and a lemma
fall together, or a lemma and a function of src/, the lemma ends in _lem; OTHER has the names that would meet something else.
Functions of src/, exported names, strings, inputs and outputs keep their names.
It rewrites crates/**/*.antt, the clauses and `ghost use` lines of crates/**/*.rt, the edits (crates/*/must-fail, tools/by-hand) and what stands between backticks in docs/*.md.
"""
import collections
import glob
import os
import re
import sys

OTHER = {
    "ownSign": "has_own_sign",
    "placeAt": "place_of_lists",
    "zeroSigns": "zero_signs_of",
    "notEight": "is_not_eight",
    "allBits": "all_bits_of",
    "isBottom": "is_bottom_band",
    "rawRoom": "raw_room_for",
    "srlRoom": "srl_room_for",
}
NAME = r"[^\s(){}.;,@\"«»:⌜⌝`]+"
DECLARED = re.compile(rf"^[ \t]*(?:(?:abbrev|pub|unfoldable) )*({NAME}) :(?=\s)", re.M)
TOKEN = re.compile(rf"{NAME}")
MADE = re.compile(r"(?<=.)-(is|bits|end|fits|test|known|own|requires|init|preserved|items|index|iterator|gone|told)$")


def read(path):
    with open(path, encoding="utf-8", newline="") as f:
        return f.read()


def write(path, text):
    with open(path, "w", encoding="utf-8", newline="") as f:
        f.write(text)


def files(*patterns):
    return sorted(p for it in patterns for p in glob.glob(it, recursive=True))


def snake(name):
    words = re.sub(r"(?<=[a-z0-9])[A-Z]", lambda m: "_" + m[0].lower(), name.replace("′", "'"))
    return words.replace("-", "_")


def declared():
    found = set()
    for path in files("crates/*/specs/**/*.antt", "crates/*/proofs/**/*.antt"):
        text = read(path)
        for m in DECLARED.finditer(text):
            rest = text[m.end() : m.end() + 40].lstrip()
            made = path.endswith("/Proof.antt") and (rest.startswith("tie.") or m[1].endswith("-spec"))
            if not made:
                found.add(m[1])
    return found


def functions():
    return {m[1] for p in files("crates/*/src/**/*.rt") for m in re.finditer(r"\bfn (\w+)", read(p))}


def renamed():
    names, fns = declared(), functions()
    turned = {n: snake(n) for n in names if n[0].islower() and snake(n) != n}
    meet = collections.Counter(turned.values())
    new = {}
    for n, s in turned.items():
        if n in OTHER:
            new[n] = OTHER[n]
        elif "-" in n and (meet[s] > 1 or s in names or s in fns):
            new[n] = s + "_lem"
        else:
            new[n] = s
    taken = collections.Counter(new.values())
    for n, s in sorted(new.items()):
        if taken[s] > 1 or s in names:
            print(f"falls together: {n} -> {s}")
            sys.exit(1)
    return new


def turner(new, dashes=True, made=False):
    def turn(m):
        word = m[0]
        if word not in new or ("-" in word and not dashes):
            return word
        if made and m.string[m.start() - 1 : m.start()] == "." and MADE.search(word):
            return word
        return new[word]

    return lambda text: TOKEN.sub(turn, text)


def main():
    if not os.path.isdir("crates"):
        sys.exit("run it at the top of the repository")
    new = renamed()
    plain, careful, code = turner(new), turner(new, made=True), turner(new, dashes=False)
    changed = 0
    for path in files("crates/*/specs/**/*.antt", "crates/*/proofs/**/*.antt", "crates/*/src/**/*.rt", "crates/*/must-fail/*.edit", "tools/by-hand/*.edits", "docs/*.md"):
        old = read(path)
        if path.endswith(".md"):
            text = re.sub(r"`[^`\n]+`", lambda m: plain(m[0]), old)
        elif path.endswith(".rt") or "/src/" in path:
            text = code(old)
        elif path.endswith("/Proof.antt"):
            text = careful(old)
        else:
            text = plain(old)
        if text != old:
            write(path, text)
            changed += 1
    print(f"{len(new)} names, {changed} files")


main()
