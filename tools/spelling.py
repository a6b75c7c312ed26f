#!/usr/bin/env python3
"""Brings the names of the repository's own definitions, fields and lemmas to the spelling of today's Rattle.

Run once at the top of a checkout, after the kit's port.py. Words of specs/ and proofs/ are in snake case; in the name of a lemma a dash
stays between two names of definitions, as in `length-held`. Types, modules, names of src/, texts and what Rattle makes of
the source (the goals and the steps of a proof) keep their names.
"""
import collections
import glob
import re
import sys

TOKEN = re.compile(r"[A-Za-z_][A-Za-z0-9_'\-]*")
STRING = re.compile(r'"(?:[^"\\]|\\.)*"')
MODIFIERS = r"(?:abbrev |unfoldable |pub |record |data )*"
SIGNATURE = re.compile(r"^(\s*)((?:abbrev |unfoldable |pub )*)([a-z][A-Za-z0-9_'\-]*)((?: \{[^}]*\})*) :(?: |$)")
# words of the library that a lemma's name may join by a dash
LIBRARY = {
    "length", "take", "drop", "map", "filter", "flat_map", "replicate", "set", "get_or", "reverse", "append", "min", "max",
    "nat_lt", "nat_le", "nat_eq", "bytes_eq", "slice_index", "slice_set", "codes", "decimal", "not",
}
# a lemma that would have the name of a definition in its reach; and one definition that would
APART = {
    "body-line": "body_line_lem",
    "body-of": "body_of_lem",
    "credential-of": "credential_of_lem",
    "cut_out": "cut_out_lem",
    "item-at": "item_at_lem",
    "large-item": "large_item_lem",
    "line-size": "line_size_lem",
    "name-length": "name_length_lem",
    "name-size": "name_size_lem",
    "second-ask": "second_ask_lem",
}
APART_IN = {("crates/house/proofs/Dispatch.antt", "body-of"): "body_to_read"}


def code_part(line):
    """A line of antt without its comment."""
    depth = 0
    for i, ch in enumerate(line):
        if ch == '"' and (i == 0 or line[i - 1] != "\\"):
            depth ^= 1
        if not depth and line.startswith("--", i) and (i == 0 or line[i - 1] in " \t"):
            return line[:i], line[i:]
    return line, ""


def snake(word):
    word = word.replace("getD", "get_or")
    return re.sub(r"(?<=[a-z0-9])([A-Z])", lambda m: "_" + m.group(1).lower(), word)


def collect():
    """The own names, with whether they are definitions, lemmas or fields, and the crates that have them."""
    kinds = collections.defaultdict(set)
    crates = collections.defaultdict(set)
    files = sorted(glob.glob("crates/*/specs/**/*.antt", recursive=True) + glob.glob("crates/*/proofs/**/*.antt", recursive=True))
    library = set()
    for f in files:
        for names in re.findall(r"^\s*use Rattle\.std\.\S*?\.\{([^}]*)\}", open(f, encoding="utf-8").read(), re.M):
            library |= {n.split(" as ")[0].strip() for n in names.split(",")}
    for f in files:
        block = None
        for line in open(f, encoding="utf-8"):
            text, _ = code_part(line.rstrip("\n"))
            if re.match(r"^\s*pub (?:record|data)\b|^\s*(?:record|data)\b", text):
                block = "data" if re.search(r"\bdata\b", text.split(":")[0]) else "record"
                continue
            m = SIGNATURE.match(text)
            if not m:
                if text and not text[0].isspace():
                    block = None
                continue
            indent, modifiers, name, _ = m.groups()
            if name in library:
                continue
            if not indent:
                block = None
            if ("/Answers.antt" in f or "/Invariants.antt" in f) and re.search(r": goal\.\S+$", text):
                continue
            crates[name].add(f.split("/")[1])
            if indent and block:
                kinds[name].add("field")
            elif "abbrev" in modifiers or "unfoldable" in modifiers:
                kinds[name].add("definition")
            else:
                kinds[name].add("lemma")
    return kinds, crates, files


def below(crate, lines={}):
    """A crate and those that it rests on."""
    if not lines:
        for line in open("crates.txt", encoding="utf-8"):
            name, _, uses = line.partition(":")
            lines[name.split()[0]] = uses.split()
    return {crate}.union(*(below(c) for c in lines.get(crate, [])))


def main():
    kinds, crates, files = collect()
    known = {c: {snake(n) for n, k in kinds.items() if "definition" in k and "-" not in n and crates[n] & below(c)} | LIBRARY for c in set().union(*crates.values())}

    def respelled(name):
        if name in APART:
            return APART[name]
        parts = [snake(p) for p in name.split("-")]
        if len(parts) > 1 and "field" not in kinds[name] and all(p in known[c] for c in crates[name] for p in parts):
            return "-".join(parts)
        return "_".join(parts)

    everywhere = new = {n: respelled(n) for n in kinds if respelled(n) != n}
    # names that fall together
    back = collections.defaultdict(set)
    for n in kinds:
        back[new.get(n, n)].add(n)
    for f in files:
        tokens = {t for line in open(f, encoding="utf-8") for t in TOKEN.findall(STRING.sub("", code_part(line)[0]))}
        for n, olds in sorted(back.items()):
            if len(olds & tokens) > 1:
                print(f"{f}: falls together: {' and '.join(sorted(olds & tokens))} as {n}", file=sys.stderr)
    camel = {n: v for n, v in new.items() if re.search(r"[A-Z]", n)}

    def respell(text, names, answers=False):
        out, last = [], 0
        spans = [(m.start(), m.end()) for m in STRING.finditer(text)]
        for m in TOKEN.finditer(text):
            name = m.group(0)
            if name not in names or any(a <= m.start() < b for a, b in spans):
                continue
            dotted = m.start() > 0 and text[m.start() - 1] == "."
            if dotted and "field" not in kinds[name]:
                continue
            # in the answers a name behind a dot may be a step of the source
            if dotted and answers and "-" in name and re.search(r"\bc(?:\.[A-Za-z0-9_\-]+)*\.$", text[: m.start()]) and name not in camel:
                continue
            if not dotted and text[m.start() - 1 : m.start()] == "«":
                continue
            out.append(text[last : m.start()] + names[name])
            last = m.end()
        return "".join(out) + text[last:]

    def rewrite(f, turn):
        before = open(f, encoding="utf-8").read()
        after = "".join(turn(line) for line in before.splitlines(keepends=True))
        if after != before:
            open(f, "w", encoding="utf-8").write(after)
            return 1
        return 0

    def antt(f):
        answers = "/Answers.antt" in f or "/Invariants.antt" in f
        new = {n: APART_IN.get((f, n), v) for n, v in everywhere.items()}

        def turn(line):
            text, comment = code_part(line)
            return respell(text, new, answers) + respell(comment, camel)

        return turn

    def rattle(line):
        clause = re.match(r"^\s*(ghost|requires|ensures)\b", line)
        return respell(line, new if clause else camel)

    changed = sum(rewrite(f, antt(f)) for f in files)
    changed += sum(rewrite(f, rattle) for f in sorted(glob.glob("crates/*/src/**/*.rt", recursive=True)))
    changed += sum(rewrite(f, lambda l: respell(l, camel) if l.startswith(("old:", "new:")) else l) for f in sorted(glob.glob("crates/*/must-fail/*.edit")))
    print(f"{len(new)} names respelled in {changed} files")
    for n, v in sorted(new.items()):
        print(f"{n} {v}")


main()
