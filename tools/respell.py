#!/usr/bin/env python3
"""Turns the names of this repository's own definitions, lemmas and their variables to snake case.

usage: python3 tools/respell.py [--dry]      at the top, once, after the kit's port.py

A name with a capital inside, or with a dash, becomes words joined by underscores. Names that come from the kit's modules, from
what the check makes, and from src/ stay. Where a lemma would fall together with a definition it gets `_lem`; OTHER has the
names that fall together in another way. In .rt files only what stands in clauses and `ghost use` lines is turned, in
must-fail/*.edit the same names.
"""
import glob
import re
import subprocess
import sys

SPLIT = re.compile(r"([\s(){}\[\];,.\"]+)")
CAMEL = re.compile(r"^[a-z][a-z0-9_]*[A-Z][A-Za-z0-9_]*'*$")
KEBAB = re.compile(r"^[a-z][A-Za-z0-9_]*(-[A-Za-z0-9_]+)+'*$")
PATH = re.compile(r"(Rattle\.[^\s{;]*)")
MADE = re.compile(r"\.(Goals|Given|Tie|Statement|Code|Met|TheLaws|TheVariants|Steps)$|\.specs\.(declared|contracts)\b|^Rattle\.std\.")
USE = re.compile(r"^\s*(?:ghost |pub )*use ([^\s{;]+?)(?:\.\{([^}]*)\})?(?: as ([^\s;]+))?;?\s*$")
# names whose plain turning falls together with another name
LEMMAS = ["head_passed", "is_digit", "read_as", "same_attempt", "same_item", "same_row", "zero_row"]
OTHER = {n: n + "_lem" for n in LEMMAS}
# names that files give to what they import, and that stand in no other place
ALIASES = {"row-use": "row_uses"} | {n: None for n in ["crashedNode", "startedNode", "writtenNode", "okStep", "refusedStep", "retriedNode", "withChange"]}


def snake(n):
    n = n.replace("getD", "get_or")
    n = n.replace("-", "_")
    n = re.sub(r"(?<=[a-z0-9])([A-Z])", lambda m: "_" + m.group(1).lower(), n)
    return n


def own(module):
    return module.startswith("Rattle.") and not MADE.search(module)


def files():
    antt = sorted(glob.glob("crates/*/specs/**/*.antt", recursive=True) + glob.glob("crates/*/proofs/**/*.antt", recursive=True))
    rt = sorted(glob.glob("crates/*/src/**/*.rt", recursive=True))
    return antt, rt


def uses(text):
    """Names that a file takes from the repository's own modules, and from others."""
    mine, others, joined = set(), set(), re.sub(r"\{[^}]*\}", lambda m: re.sub(r"\s*\n\s*", " ", m.group(0)), text)
    for line in joined.splitlines():
        m = USE.match(line)
        if not m:
            continue
        names = []
        for part in (m.group(2) or "").split(","):
            part = part.strip()
            if " as " in part:
                a, b = part.split(" as ")
                names += [a.strip()]
                mine.add(b.strip())
            elif part:
                names.append(part)
        (mine if own(m.group(1)) else others).update(names)
        if m.group(3):
            mine.add(m.group(3))
    return mine, others


def comment_at(line, mark):
    return line.find(mark) if mark == "//" else (line.find("-- ") if not line.startswith("--") else 0)


def turnable(n):
    return n in OTHER or bool(CAMEL.match(n) or KEBAB.match(n))


HEAD = re.compile(r"^\s*(?:abbrev |unfoldable )*(?:pub )?([^\s:(){}.]+) (?:[({][^=]*?[)}] )*: ")


def collect():
    """Every name to turn, with the files that have it."""
    antt, rt = files()
    names, heads = {}, {}
    for f in antt:
        text = open(f).read()
        fields(text)
        proof = f.endswith("/Proof.antt")
        mine, others = uses(text)
        for line in text.splitlines():
            c = comment_at(line, "--")
            code = line if c < 0 else line[:c]
            m = HEAD.match(code)
            if m and not proof and turnable(m.group(1)):
                heads.setdefault(m.group(1), set()).add(f)
            for n in SPLIT.split(PATH.sub("", code)):
                if turnable(n) and n not in others and (not proof or n in mine):
                    names.setdefault(n, set()).add(f)
    return names, heads


FIELDS = set()


def fields(text):
    """The names of the fields of a file's records."""
    inside = False
    for line in text.splitlines():
        if re.match(r"^(pub )?record .* where", line):
            inside = True
        elif line and not line.startswith(" ") and not line.startswith("--"):
            inside = False
        m = inside and re.match(r"^  pub ([^\s:]+) : ", line)
        if m:
            FIELDS.add(m.group(1))


def turned(table, skip, here, code):
    """The pieces of a line, turned. A field of a record keeps its plain words: only a lemma gets `_lem`."""
    out = []
    for piece in PATH.split(code):
        if PATH.fullmatch(piece):
            out.append(piece)
            continue
        parts = SPLIT.split(piece)
        for i, n in enumerate(parts):
            v = table[n] if n in table and n not in skip else n
            if i > 1 and parts[i - 1] == "." and parts[i - 2] == "Memᴰ":
                v = n
            if v.endswith("_lem") and v != n:
                before, after = "".join(parts[:i]), "".join(parts[i + 1:])
                given = re.match(r" *= ?", after) and (re.search(r"[{;] *$", before) or re.fullmatch(r" {4,}", before))
                field = n in FIELDS and (before.endswith(".") or given or (re.fullmatch(r" +pub ", before) and after.startswith(" : ")))
                if field or (n in OTHER and n not in here):
                    v = snake(n)
            out.append(v)
    return out


def turn_code(code, table, skip, here):
    return "".join(turned(table, skip, here, code))


def own_here(text, mine):
    """What `_lem` may stand for in a file: what it imports, and what stands at the line's head."""
    return mine | {m.group(1) for m in re.finditer(r"(?m)^(?:abbrev |unfoldable )*(?:pub )?([^\s:(){}.]+) (?:[({][^=\n]*?[)}] )*: ", text)}


def main():
    dry = "--dry" in sys.argv
    names, heads = collect()
    table = {n: OTHER.get(n, snake(n)) for n in names}
    table.update({n: v or snake(n) for n, v in ALIASES.items()})
    antt, rt = files()
    # a lemma with a dash beside a definition of the same words
    camel = {table[n] for n in table if CAMEL.match(n)}
    for n in table:
        if KEBAB.match(n) and table[n] in camel and n not in OTHER and n not in ALIASES:
            table[n] += "_lem"
    clashes = {}
    texts = {}
    for f in antt:
        text = open(f).read()
        proof = f.endswith("/Proof.antt")
        mine, others = uses(text)
        skip = set(others)
        here = own_here(text, mine)
        seen, out = {}, []
        for line in text.splitlines(keepends=True):
            c = comment_at(line, "--")
            code, rest = (line, "") if c < 0 else (line[:c], line[c:])
            if proof:
                t = {n: v for n, v in table.items() if n in mine}
            else:
                t = table
            code0 = PATH.sub("", code)
            for n, v in zip(SPLIT.split(code0), turned(t, skip, here, code0)):
                seen.setdefault(v, set()).add(n)
            rest = "".join(table.get(n, n) if CAMEL.match(n) else n for n in SPLIT.split(rest))
            out.append(turn_code(code, t, skip, here) + rest)
        for v, ns in seen.items():
            if len(ns) > 1:
                clashes.setdefault((v, tuple(sorted(ns))), []).append(f)
        texts[f] = "".join(out)
    for f in rt:
        text = open(f).read()
        mine, others = uses(text)
        t = {n: v for n, v in table.items() if n in mine and n not in OTHER}
        seen, out = {}, []
        for line in text.splitlines(keepends=True):
            c = comment_at(line, "//")
            code, rest = (line, "") if c < 0 else (line[:c], line[c:])
            for n in SPLIT.split(PATH.sub("", code)):
                seen.setdefault(t.get(n, n), set()).add(n)
            rest = "".join(table.get(n, n) if CAMEL.match(n) else n for n in SPLIT.split(rest))
            out.append(turn_code(code, t, others, mine) + rest)
        for v, ns in seen.items():
            if len(ns) > 1:
                clashes.setdefault((v, tuple(sorted(ns))), []).append(f)
        texts[f] = "".join(out)
    for f in sorted(glob.glob("crates/*/must-fail/*.edit")):
        text = open(f).read()
        texts[f] = "".join(table.get(n, n) if n in table and (CAMEL.match(n) or ".antt" in text) else n for n in SPLIT.split(text))
    for (v, ns), fs in sorted(clashes.items()):
        print("code" if all(f.endswith(".rt") for f in fs) else "proof", v, "<-", " ".join(ns), "|", len(fs), " ".join(sorted(set(fs)))[:160])
    print(len(table), "names;", len(clashes), "fall together")
    if not dry:
        for f, t in texts.items():
            open(f, "w").write(t)


main()
