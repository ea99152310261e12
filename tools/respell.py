#!/usr/bin/env python3
"""Brings the repository's own antt names to the spelling of today's Rattle, once, after the kit's port.py.

usage: python3 tools/respell.py [--list]

A word of specs/ and proofs/ (a function, a lemma, a field or a constructor of a record or data type of antt) is in snake
case: numbersOf becomes numbers_of, getD-tab get_or-tab. Types and modules keep their capital, names of the Rust source
their spelling, and a dash goes on joining two names. It rewrites the .antt and .rt files, the must-fail edits and the
pages; in .rt files only clauses and `ghost use` lines, in pages only what stands between backquotes or behind a '#'.
--list writes nothing and prints the names.
"""
import os
import re
import sys

WORD = r"[^\W\d][\w'′₀-₉-]*"
CAMEL = re.compile(r"^[a-zα-ω][\w'′-]*$")
DECLARED = re.compile(rf"^\s*(?:pub |abbrev |unfoldable |private )*({WORD})(?:\s*\{{[^}}]*\}})?(?:\s+:\s|\s*:\s)")
# A lemma that would have its function's name gets `_lem`: the file that has it, and its name as port.py leaves it.
LEMMAS = {
    "crates/board/proofs/Demands.antt": ["in_window"],
    "crates/board/proofs/InHalves.antt": ["in_halves"],
    "crates/compare/proofs/Equal.antt": ["same_answer", "same_code", "same_entries"],
    "crates/controller/proofs/Formed.antt": ["with_entries"],
    "crates/controller/proofs/ReadBack.antt": ["entry_read"],
    "crates/mill/proofs/Fits.antt": ["fits_told"],
    "crates/timers/proofs/Halves.antt": ["half_at"],
}


def files(*ends):
    for top in ("crates", "docs", "tests", "peer", "."):
        for folder, dirs, names in os.walk(top):
            dirs[:] = sorted(d for d in dirs if d not in ("out", "target", ".git"))
            if top == ".":
                dirs[:] = []
            for n in sorted(names):
                if n.endswith(ends):
                    yield os.path.join(folder, n)


def read(p):
    with open(p, encoding="utf-8") as f:
        return f.read()


def part(p):
    p = p.replace("getD", "get_or")
    return re.sub(r"(?<=[a-z0-9])([A-Z])", lambda m: "_" + m[1].lower(), p) if p[:1].islower() else p


def snake(name):
    return "-".join(part(p) for p in name.replace("′", "'").split("-"))


def names():
    found = set()
    for p in files(".antt"):
        for line in read(p).split("\n"):
            m = DECLARED.match(line)
            if m and CAMEL.match(m[1]) and snake(m[1]) != m[1]:
                found.add(m[1])
    return {n: snake(n) for n in found}


def renamed(text, table):
    return re.sub(rf"(?<![\w'′«-]){WORD}", lambda m: table.get(m[0], m[0]), text)


# the parts of a .rt file that are antt: clauses and `ghost use` lines
def clauses(text, table):
    out, at = [], 0
    for m in re.finditer(r"(?m)^\s*ghost use [^;]*;|\b(?:requires|ensures)\b[^{;]*\{|\bghost \w+:\s*\{", text):
        if m.start() < at:
            continue
        end = m.end()
        if text[end - 1] == "{":
            depth = 1
            while depth:
                depth += {"{": 1, "}": -1}.get(text[end], 0)
                end += 1
        out += [text[at:m.start()], renamed(text[m.start():end], table)]
        at = end
    return "".join(out) + text[at:]


def page(text, table):
    text = re.sub(r"`[^`\n]+`", lambda m: renamed(m[0], table), text)
    return re.sub(rf"#({WORD})", lambda m: "#" + table.get(m[1], m[1]), text)


# the names that a file gives to what it imports
def imported(text):
    found = set(re.findall(rf"(?m)^(?:pub |ghost )?use [^\n]*? as ({WORD})", text)) | set(
        it for line in re.findall(r"(?m)^(?:pub |ghost )?use [^\n]*", text) for it in re.findall(rf" as ({WORD})", line)
    )
    return {n: snake(n) for n in found if CAMEL.match(n) and snake(n) != n}


# the lemmas of LEMMAS that a file has or imports
def lemmas(path, text):
    found = {}
    for p, names in LEMMAS.items():
        crate, module = p.split("/")[1], p.split("/")[3][:-5]
        for n in names:
            used = re.search(rf"use Rattle\.{crate}\.proofs\.{module}\.\{{[^}}]*(?<![\w-]){n}(?![\w-])", text)
            if (os.path.normpath(path) == p or used) and n + "_lem" not in text:
                found[n] = n + "_lem"
    return found


def main():
    table = names()
    if "--list" in sys.argv[1:]:
        for n in sorted(table):
            print(n, table[n])
        return
    for p in files(".antt", ".rt", ".edit", ".md"):
        text = read(p)
        if p.endswith(".antt"):
            new = renamed(renamed(text, lemmas(p, text)), table | imported(text))
        elif p.endswith(".rt"):
            new = clauses(text, table | imported(text))
        elif p.endswith(".edit"):
            new = renamed(text, table)
        else:
            new = page(text, table)
        if new != text:
            with open(p, "w", encoding="utf-8") as f:
                f.write(new)
            print(p)


main()
