#!/usr/bin/env python3
"""Spells the repository's own definitions, lemmas and fields in snake case, as the library spells its own.

usage: python3 tools/respell.py        at the top of the repository, once

`headTable` becomes `head_table` and `no-records` `no_records`. A dash stays behind a type's name (`Head-read`) and behind
`length` where the rest names a definition (`length-lasts`), as in the library. Names of src/ keep theirs, as do strings. In
comments and pages only what stands between backticks is respelled. It stops where two names would fall together.
"""

import collections
import glob
import os
import re
import sys

OWN = ("specs", "proofs")
# What port.py left half turned, and what would fall together with another name.
BY_HAND = {
    "getD-if-other": "get_or_if_other",
    # fields and lemmas whose name is that of a definition that they speak of
    "is-access": "is_an_access",
    "on-record": "on_its_record",
    "in-class": "in_its_class",
    "in_order": "in_its_order",
    "name-length": "name_length_is",
    "record-count": "record_count_is",
    "event-count": "event_count_is",
    "english-count": "english_count_is",
    "hebrew-count": "hebrew_count_is",
    "records-fit": "records_within",
    "left_by": "left_by_lem",
    "no_room": "no_room_lem",
    "pair_held": "pair_held_lem",
}
# Names that the toolchain makes, or that it reads.
MADE = re.compile(r"^(invariant|decreases)-|^c$")
TOKEN = re.compile(r"[^\s(){};,.⌜⌝`'\"|]+'*")
WORD = re.compile(r"^[a-zα-ω][^\s]*$")


def files(pattern):
    return sorted(f for f in glob.glob(pattern, recursive=True) if "/out/" not in f and "/target/" not in f)


def read(path):
    with open(path, encoding="utf-8") as f:
        return f.read()


def library_names(texts):
    """What the files import of modules that are not the repository's own."""
    crates = {os.path.basename(os.path.dirname(os.path.dirname(f))) for f in files("crates/*/src/*.rt")}
    names = set()
    for t in texts:
        for m in re.finditer(r"use ([\w.+·]+)\.\{([^}]*)\}", t):
            parts = m.group(1).split(".")
            if parts[0] == "Rattle" and parts[1] in crates:
                continue
            for n in re.split(r",\s*", m.group(2).strip().rstrip(",")):
                names |= {p.strip() for p in n.split(" as ")}
    return names


def snake(name):
    return re.sub(r"(?<=[a-z0-9])([A-Z])", lambda m: "_" + m.group(1).lower(), name)


def code(line):
    """The line without its comment."""
    m = re.search(r"(^|\s)--(\s|$)", line)
    return line[: m.start()] if m else line


def plan():
    antt = files("crates/*/specs/**/*.antt") + files("crates/*/proofs/**/*.antt")
    texts = {f: read(f) for f in antt}
    rust = {f: read(f) for f in files("crates/*/src/**/*.rt")}
    library = library_names(list(texts.values()) + list(rust.values()))
    seen, whole = set(), set()
    for f, t in texts.items():
        for line in t.splitlines():
            for tok in TOKEN.findall(code(line)):
                whole.add(tok)
                if f.endswith("/Proof.antt") and (tok.startswith("Need-") or "tie" == tok):
                    continue
                if ("-" in tok or re.search(r"[a-z0-9][A-Z]", tok)) and re.match(r"[A-Za-z]", tok):
                    seen.add(tok)
    made = set()
    for f, t in texts.items():
        if f.endswith("/Proof.antt"):
            made |= set(re.findall(r"tie\.([^\s(){},.]+)", t))
    defined = {t for t in whole if WORD.match(t)}
    names = {}
    camel = {snake(t) for t in seen - library - made if "-" not in t and t[0].islower()}
    rust_names = set(re.findall(r"\bfn (\w+)", "\n".join(rust.values())))
    for tok in sorted((seen | set(BY_HAND)) - library - made):
        if MADE.match(tok) or "◌" in tok:
            continue
        if tok in BY_HAND:
            names[tok] = BY_HAND[tok]
            continue
        plain = tok.replace("-", "_")
        # a lemma that would have its function's name
        if "-" in tok and tok[0].islower() and (plain in camel or plain in whole and plain not in rust_names):
            names[tok] = plain + "_lem"
            continue
        if tok[0].isupper():
            # a type, a module, or a lemma on a type: the rest of the lemma's name
            head, _, rest = tok.partition("-")
            if rest:
                names[tok] = head + "-" + snake(rest.replace("-", "_"))
            continue
        if tok.startswith("length-") and tok[len("length-"):] in defined:
            names[tok] = "length-" + snake(tok[len("length-"):].replace("-", "_"))
            continue
        names[tok] = snake(tok.replace("-", "_"))
    names = {a: b for a, b in names.items() if a != b}
    into = collections.defaultdict(set)
    for a, b in names.items():
        into[b].add(a)
        if b in whole and b not in rust_names and b not in names:
            into[b].add(b)
    together = {b: a for b, a in into.items() if len(a) > 1}
    return names, together


def turned(text, names):
    return TOKEN.sub(lambda m: names.get(m.group(0), m.group(0)), text)


def in_ticks(text, names):
    return re.sub(r"`[^`\n]*`", lambda m: turned(m.group(0), names), text)


def antt_line(line, names):
    body = code(line)
    return turned(body, names) + in_ticks(line[len(body):], names)


def rt_line(line, names):
    m = re.search(r"(^|\s)//", line)
    body = line[: m.start()] if m else line
    parts = re.split(r'("(?:[^"\\]|\\.)*")', body)
    body2 = "".join(p if i % 2 else turned(p, names) for i, p in enumerate(parts))
    return body2 + in_ticks(line[len(body):], names)


def write(path, text, before):
    if text != before:
        with open(path, "w", encoding="utf-8") as f:
            f.write(text)
        return 1
    return 0


def main():
    names, together = plan()
    if together and "--anyway" not in sys.argv:
        for b, a in sorted(together.items()):
            print(f"{b}: {', '.join(sorted(a))}")
        print(f"respell: {len(together)} names would fall together; nothing was written")
        return 1
    n = 0
    for f in files("crates/*/specs/**/*.antt") + files("crates/*/proofs/**/*.antt"):
        t = read(f)
        n += write(f, "\n".join(antt_line(l, names) for l in t.split("\n")), t)
    for f in files("crates/*/src/**/*.rt"):
        t = read(f)
        n += write(f, "\n".join(rt_line(l, names) for l in t.split("\n")), t)
    for f in files("crates/*/must-fail/*.edit"):
        t = read(f)
        n += write(f, "\n".join(turned(l, names) if re.match(r"(old|new):", l) else in_ticks(l, names) for l in t.split("\n")), t)
    for f in files("*.md") + files("docs/**/*.md"):
        if os.path.basename(f) != "PORT.md":
            t = read(f)
            n += write(f, in_ticks(t, names), t)
    print(f"respell: {len(names)} names, {n} files")
    return 0


if __name__ == "__main__":
    raise SystemExit(main())
