#!/usr/bin/env python3
"""Spells the definitions and lemmas of specs/ and proofs/ in snake case, as today's Rattle does: `readSymbol` becomes `read_symbol`, `drop-on` `drop_on`.

usage: tools/port_names.py      at the top of the repository, once, after the kit's port.py

Only names that files of specs/ and proofs/ declare change, wherever they stand: in those files, in proofs of functions, in clauses, in must-fail edits. A name of
Rattle's own, such as a goal's, stays, and so does a name in a file that imports it from a library. Where two names would fall together, the one in TWO gets another.
"""

import glob
import os
import re

NAME = re.compile(r'[^\s(){}\[\].,;"@«»|`]+')
DECLARED = re.compile(r"^( *)(?:(?:abbrev|unfoldable|pub|private|irreducible) +)*([^\s:(){}⟨⟩,.;|]+) *(?:\{[^}]*\} *)*:(?!=)")
HEAD = re.compile(r"^(?:(?:abbrev|unfoldable|pub|private|irreducible) +)*(?:record|data) +([^\s:(){}⟨⟩]+)")
USE = re.compile(r"use\s+([^\s{;]+)\.\{([^}]*)\}")

# Names that would fall together with another: a lemma beside the definition that it speaks of gets `_law`. By crate ("" is every crate).
TWO = {
    "": {
        "chars-at": "chars_at_law",
        "first-wrong": "first_wrong_law",
        "hex-char": "hex_char_law",
        "hex-value": "hex_value_law",
        "mark-at": "mark_at_law",
        "none-missing": "none_missing_law",
        "on-ascii": "on_ascii_law",
        "pad-at": "pad_at_law",
        "read-symbol": "read_symbol_law",
        "read-text": "read_text_law",
        "write-text": "write_text_law",
        "check-words": "check_words_law",
        "spareBits": "spare_bits_of",
        "None-above": "NoneAbove",
        "double-⊕": "double_xor",
    },
    # Names that port.py had put in snake case already.
    "symbol_writer": {"in_size": "in_size_law"},
    "tally": {"is_live": "is_live_law"},
    "dictionary": {"row_from": "row_from_law"},
    "optimum": {"last_one": "last_one_law", "in-ascii": "in_ascii_law", "in-c40": "in_c40_law"},
}
# Only in this file.
ONE = {"crates/ddoc/proofs/One.antt": {"write_symbol": "write_symbol_law"}}


def snake(name):
    return re.sub(r"(?<=[a-z0-9])([A-Z])", lambda m: "_" + m[1].lower(), name).replace("-", "_")


def lemma_files():
    return sorted(glob.glob("crates/*/specs/**/*.antt", recursive=True) + glob.glob("crates/*/proofs/*.antt"))


def declared():
    """The names that change, with their new spelling, and those among them that are fields or constructors."""
    names, inner = {}, set()
    for p in lemma_files():
        for line in open(p, encoding="utf-8"):
            m = DECLARED.match(line)
            found = [m[2]] if m else []
            if m and m[1]:
                inner.add(m[2])
            m = HEAD.match(line)
            found += [m[1]] if m else []
            for n in found:
                if n[0].islower() and (n != snake(n)):
                    names[n] = snake(n)
    names |= TWO[""]
    # Elsewhere these are variables.
    for n in TWO["optimum"]:
        names.pop(n, None)
    return names, inner


def imported(text, crates):
    """The names that a file takes from a library."""
    out = set()
    for path, list_ in USE.findall(text):
        steps = path.split(".")
        if not (steps[0] == "Rattle" and len(steps) > 1 and steps[1] in crates):
            out |= {x.strip().split(" as ")[0] for x in list_.split(",")}
    return out


def turn(path, names, inner, crates):
    text = open(path, encoding="utf-8").read()
    crate = path.split("/")[1]
    mine = names | TWO.get(crate, {}) | ONE.get(path, {})
    lent = imported(text, crates)
    walk = re.search(r"/proofs/.+/", path) is not None
    rust = path.endswith((".rt", ".edit"))

    def one(m):
        word = m[0]
        new = mine.get(word)
        if new is None or word in lent:
            return word
        before = text[max(0, m.start() - 8) : m.start()]
        line = text[text.rfind("\n", 0, m.start()) + 1 : m.start()]
        if re.search(r"(--|//) ", line) and "-" in word and not before.endswith("`"):
            return word
        if rust and "-" not in word and not re.search(r"[a-z0-9][A-Z]", word):
            return word
        if walk and re.search(r"\b(tie|goal|Tie)\.$", before):
            return word
        if walk and before.endswith(".") and word not in inner:
            return word
        return new

    out = NAME.sub(one, text)
    if out != text:
        open(path, "w", encoding="utf-8").write(out)
        return True
    return False


def main():
    crates = set(os.listdir("crates"))
    names, inner = declared()
    paths = glob.glob("crates/**/*.antt", recursive=True) + glob.glob("crates/*/src/*.rt") + glob.glob("crates/*/must-fail/*.edit")
    changed = sum(turn(p, names, inner, crates) for p in sorted(paths) if "/out/" not in p)
    print(f"{len(names)} names, {changed} files")


main()
