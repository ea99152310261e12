#!/usr/bin/env python3
"""places.py [--list] [CRATES]: counts the places of docs/DESIGN-PASS.md's points in the sources.

CRATES is the folder of the crates (by default crates/ beside this file's folder). A line for each point, with the count
of each crate that has one; with --list also each place, as FILE:LINE and what stands there. The counts are by form alone:
a place that is found is looked at, and need not be a fault.
"""
import collections
import pathlib
import re
import sys

INTEGER = r"(?:u8|u16|u32|u64|usize)"
# a function's head up to its body, contracts between them
HEAD = re.compile(r"^( *)(?:pub(?:\([a-z]+\))? )?(?:const )?(?:extern \"C\" )?fn (\w+)(?:<[^>]*>)?\(", re.M)
WORD = re.compile(r"[A-Za-z_]\w*|0x[0-9a-fA-F_]+|\d[\d_]*|b?\"(?:[^\"\\]|\\.)*\"|b?'[^']*'|\S")
KEYWORD = set("let mut if else match return for in while loop fn pub self Self true false as struct enum impl use mod break continue ref move const".split())


def line_of(text, at):
    return text.count("\n", 0, at) + 1


def bare(text):
    """The text with comments blanked, each place kept."""
    return re.sub(r"//[^\n]*", lambda m: " " * len(m.group()), text)


def block(text, at):
    """The text from the first brace at or after a place to the one that closes it, and where it begins."""
    begin = text.index("{", at)
    depth = 0
    for i in range(begin, len(text)):
        depth += {"{": 1, "}": -1}.get(text[i], 0)
        if depth == 0:
            return text[begin : i + 1], begin
    return text[begin:], begin


def functions(text):
    """Each function: its name, where it begins, parameters, result and contracts, and body."""
    for m in HEAD.finditer(text):
        at, depth = m.end(), 1
        while depth and at < len(text):
            depth += {"(": 1, ")": -1}.get(text[at], 0)
            at += 1
        parameters = text[m.end() : at - 1]
        # the body's brace begins a line, or ends the head's line where there is no contract
        rest = text[at:]
        open_line = re.search(r"(?:^" + m.group(1) + r"\{|^[^\n]*\{[^{}\n]*$|;)", rest, re.M)
        if not open_line:
            continue
        if text[at:].lstrip().startswith(";"):
            continue
        brace = re.search(r"^" + m.group(1) + r"\{", rest, re.M)
        same = re.match(r"[^\n]*\{", rest)
        clauses = re.match(r"[^\n{]*\n\s*(requires|ensures|ghost)", rest)
        if clauses and brace:
            start = at + brace.end() - 1
        elif same:
            start = at + same.end() - 1
        else:
            continue
        body, begin = block(text, start)
        yield m.group(2), m.start(), parameters, text[at:begin], body


def shape(body):
    """A body with its names, numbers and texts blanked."""
    words = []
    for w in WORD.findall(body):
        if w in KEYWORD or not (w[0].isalnum() or w[0] in "_\"'" or w[:2] in ('b"', "b'")):
            words.append(w)
        else:
            words.append("_")
    return " ".join(words)


def option_shapes(path, text):
    for m in re.finditer(r"struct (\w+) \{([^}]*)\}", text):
        fields = re.findall(r"(\w+): ([^,\n]+),", m.group(2))
        if len(fields) > 1 and any(t.strip() == "bool" for _, t in fields):
            yield m.start(), f"struct {m.group(1)}: a bool beside a value"
        if len(fields) > 1 and any(t.strip() in ("Answer", "Refusal") or t.strip().startswith("Option<Error") for _, t in fields):
            yield m.start(), f"struct {m.group(1)}: an answer or an error beside a value"
    for m in re.finditer(r"enum (\w+) \{", text):
        body, _ = block(text, m.start())
        variants = re.findall(r"^    (\w+)(?: \{|\(|,)", body, re.M)
        if len(variants) <= 3 and any(v in ("End", "None", "Nothing", "Bad", "Stopped", "Refused", "NoRoom", "Error") for v in variants):
            yield m.start(), f"enum {m.group(1)}: {', '.join(variants)}"
    # numbers for kinds: three or more constants that count up
    run = []
    for m in list(re.finditer(r"const (\w+): " + INTEGER + r" = (\d+);", text)) + [None]:
        n = int(m.group(2)) if m else None
        if run and n == run[-1][1] + 1:
            run.append((m.group(1), n, m.start()))
            continue
        if len(run) >= 3:
            yield run[0][2], f"numbers for kinds: {run[0][0]} .. {run[-1][0]}"
        run = [(m.group(1), n, m.start())] if m else []


NONE = re.compile(r"//[^\n]*(?:\b(?:0|24) (?:if|where|for)\b|\b(?:0|24): |not at all|for never|or none|is none|past the last, none|0 where none|16 stands|says none)[^\n]*")


def none_numbers(path, raw):
    for m in NONE.finditer(raw):
        yield m.start(), m.group().strip()


def twins(sources):
    groups = collections.defaultdict(list)
    for path, text in sources:
        for name, at, _, _, body in functions(bare(text)):
            s = shape(body)
            if len(s) >= 60:
                groups[s].append((path, text, at, name))
    for same in groups.values():
        for path, text, at, name in same[1:]:
            yield path, text, at, f"fn {name} has the shape of {same[0][3]} in {same[0][0].parent.parent.name}"


def loops(path, text):
    for m in re.finditer(r"\bwhile (\w+) < [^{]*\{", text):
        body, _ = block(text, m.end() - 1)
        if re.search(r"\b" + m.group(1) + r" \+= 1;", body):
            yield m.start(), m.group().rstrip(" {")


def by_hand(path, text):
    for name, at, parameters, rest, body in functions(text):
        types = re.findall(r": ([^,]+)", parameters)
        two = len(types) == 2 and types[0] == types[1]
        if re.match(r"\s*-> bool", rest) and two and re.match(r"same|equal|eq\b", name):
            yield at, f"fn {name}: equality by hand"
        elif re.fullmatch(r"numbers?|code|coded|rank|copy|to_\w+|from_\w+", name) and re.match(r"\s*->|\s*$|\s*\n", rest):
            yield at, f"fn {name}: conversion or copying by hand"
        elif re.match(r"\s*-> (?:u16|u32|u64|\[u8; \d\])", rest) and re.search(r"\* (?:256|65536|16777216|4294967296)|/ (?:256|65536|16777216)\b", body):
            yield at, f"fn {name}: bytes of a number by hand"


def together(crate, sources):
    clauses, pairs = collections.defaultdict(list), collections.defaultdict(list)
    for path, text in sources:
        for name, at, parameters, rest, body in functions(bare(text)):
            for m in re.finditer(r"requires (?:\w+ )?\{ ([^}]*) \}", rest):
                clauses[" ".join(m.group(1).split())].append((path, text, at, name))
            ps = [" ".join(p.split()) for p in parameters.split(",") if ":" in p]
            for i, p in enumerate(ps):
                for q in ps[i + 1 : i + 2]:
                    pairs[p + ", " + q].append((path, text, at, name))
    for what, found in list(clauses.items()) + list(pairs.items()):
        if len(found) >= 3:
            path, text, at, name = found[0]
            yield path, text, at, f"{len(found)} functions: {what}"


def buffers(path, text):
    for m in re.finditer(r"= (?:\[0(?:u8)?; [^\]]+\]|room\(\));", text):
        line = text[text.rfind("\n", 0, m.start()) + 1 : m.end()].strip()
        if "let mut" in line:
            yield m.start(), line


def switches(path, text):
    for name, at, parameters, rest, body in functions(text):
        chain = collections.Counter(re.findall(r"if (\w+) == (?:\d+|(?:\w+::)?[A-Z_]{2,})\b", body))
        if chain and max(chain.values()) >= 3:
            yield at, f"fn {name}: {max(chain.values())} tests of {chain.most_common(1)[0][0]} one after another"


def main():
    arguments = [a for a in sys.argv[1:] if a != "--list"]
    full = "--list" in sys.argv[1:]
    crates = pathlib.Path(arguments[0]) if arguments else pathlib.Path(__file__).resolve().parent.parent / "crates"
    found = collections.OrderedDict((k, []) for k in (
        "1 own Option or Result, flag beside a value, numbers for kinds", "1 a number for none, by its comment", "2 twins: bodies of one shape",
        "3 loops that count an index by hand", "4 equality, conversion, copying by hand", "5 a clause or two parameters in three functions or more",
        "6 a buffer with its length beside it", "7 a switch on a number", "8 answers", "8 lines of proofs"))
    names = list(found)
    everything = []
    for crate in sorted(p for p in crates.iterdir() if (p / "src").is_dir()):
        sources = []
        for path in sorted((crate / "src").rglob("*.rt")):
            raw = path.read_text()
            text = bare(raw)
            sources.append((path, raw))
            for i, look in ((0, option_shapes), (3, loops), (4, by_hand), (6, buffers), (7, switches)):
                found[names[i]] += [(crate.name, path, line_of(text, at), what) for at, what in look(path, text)]
            found[names[1]] += [(crate.name, path, line_of(raw, at), what) for at, what in none_numbers(path, raw)]
        found[names[5]] += [(crate.name, path, line_of(text, at), what) for path, text, at, what in together(crate, sources)]
        everything += sources
        for path in sorted((crate / "proofs").rglob("*.antt")):
            text = path.read_text()
            found[names[9]] += [(crate.name, path, 0, "")] * text.count("\n")
            if path.name == "Answers.antt":
                found[names[8]] += [(crate.name, path, line_of(text, m.start()), m.group().strip()) for m in re.finditer(r"^pub \S+ : goal\.\S+", text, re.M)]
    found[names[2]] += [(path.parent.parent.name, path, line_of(text, at), what) for path, text, at, what in twins(everything)]
    for name, places in found.items():
        by = collections.Counter(crate for crate, _, _, _ in places)
        print(f"{name}: {len(places)}" + (" (" + ", ".join(f"{c} {n}" for c, n in by.items()) + ")" if by else ""))
        if full and not name.startswith("8"):
            for _, path, line, what in places:
                print(f"    {path.relative_to(crates)}:{line}: {what}")


main()
