#!/usr/bin/env python3
"""Lists the places of src/ that docs/DESIGN-PASS.md counts, a line each, and how many there are.

usage: python3 tools/places.py [POINT..]      at the top; POINT from 1 to 7, all of them without one

A place is listed whether it was kept or not; one that was kept has a line `// Kept:` beside it, and is marked `kept` here.
"""
import collections
import glob
import re
import sys

FN = re.compile(r"^( *)(?:pub(?:\([^)]*\))? )?(?:extern \"C\" )?fn (\w+)", re.M)
KEYWORDS = set("as break const continue else enum extern false fn for if impl in let loop match mod move mut pub ref return self "
               "Self static struct super trait true type unsafe use where while".split())


def sources():
    for path in sorted(glob.glob("crates/*/src/**/*.rt", recursive=True)):
        with open(path, encoding="utf-8") as f:
            yield path, f.read()


def line_of(text, at):
    return text.count("\n", 0, at) + 1


def block(text, at):
    """The text from the first brace at or after `at` to its closing one."""
    start = text.index("{", at)
    depth = 0
    for i in range(start, len(text)):
        depth += {"{": 1, "}": -1}.get(text[i], 0)
        if depth == 0:
            return text[start:i + 1]
    return text[start:]


def functions():
    """path, line, name, head (parameters and result), clauses, body."""
    for path, text in sources():
        for m in FN.finditer(text):
            end = text.find("\n" + m.group(1) + "}", m.end())
            whole = text[m.start():end + 2 + len(m.group(1))]
            if whole.rstrip().endswith("{}"):
                end = len(whole)
            open_at = re.search(r"^" + m.group(1) + r"\{|\) (?:-> [^{\n]+ )?\{$", whole, re.M)
            cut = open_at.end() - 1 if open_at else len(whole)
            head = re.split(r"^\s*(?:requires|ensures)\b", whole[:cut], maxsplit=1, flags=re.M)[0]
            yield path, line_of(text, m.start()), m.group(2), head, whole[len(head):cut], strip(whole[cut:])


def strip(text):
    return re.sub(r"//[^\n]*", "", text)


def kept(path, line):
    """Whether a line `// Kept:` stands at the file's head, or from twelve lines before the place to eleven after it."""
    with open(path, encoding="utf-8") as f:
        lines = f.read().split("\n")
    head = next((i for i, l in enumerate(lines) if not l.startswith("//")), 0)
    return any("// Kept:" in l for l in lines[:head] + lines[max(0, line - 13):line + 12])


def point_1():
    """Enums of the shape of Option or Result, flags with values beside them, numbers for kinds or for `none`."""
    for path, text in sources():
        for m in re.finditer(r"^(?:pub )?(enum|struct) (\w+)[^{;\n]*\{", text, re.M):
            inside = strip(block(text, m.start()))[1:-1]
            at = line_of(text, m.start())
            if m.group(1) == "enum":
                variants = re.findall(r"^ {4}(\w+)( ?[({])?", inside, re.M)
                plain = [v for v, w in variants if not w]
                if len(variants) <= 3 and len(plain) == 1:
                    yield path, at, f"enum {m.group(2)}: one variant without a value"
                elif any(re.search(rf"\b{v}\((?:Refusal|\w*Error)\)", inside) for v, w in variants):
                    yield path, at, f"enum {m.group(2)}: a variant for the refusal"
                elif len(variants) == 2 and re.search(r"^ {4}Inbox", inside, re.M):
                    yield path, at, f"enum {m.group(2)}: one variant without a value"
            elif re.search(r": bool\b", inside) and inside.count(":") > 1:
                for flag in re.findall(r"(\w+): bool\b", inside):
                    yield path, at, f"struct {m.group(2)}: flag {flag} beside values"
        for m in re.finditer(r"^pub const (\w+): u8 = \d+;", text, re.M):
            yield path, line_of(text, m.start()), f"const {m.group(1)}: a number for a kind"
    said = re.compile(r"\b0 (?:if there is none|where there is none|at the end|while no|where it does not)|largest number where|number of rows where none")
    for path, text in sources():
        for m in said.finditer(text):
            yield path, line_of(text, m.start()), f"a number for none: {m.group(0)}"


def tokens(body):
    out, names = [], {}
    for t in re.findall(r"\w+|[^\s\w]", body):
        if re.match(r"\d", t):
            out.append("0")
        elif re.match(r"[A-Za-z_]", t) and t not in KEYWORDS:
            out.append("x%d" % names.setdefault(t, len(names)))
        else:
            out.append(t)
    return out


def point_2():
    """Groups of functions whose bodies differ only in names, types and numbers, of 12 words and signs or more."""
    groups = collections.defaultdict(list)
    for path, line, name, head, clauses, body in functions():
        shape = tokens(body)
        if len(shape) >= 12:
            groups[" ".join(shape)].append((path, line, name))
    for members in groups.values():
        if len(members) > 1:
            for path, line, name in members:
                yield path, line, "twins: " + ", ".join(n for _, _, n in members)


def point_3():
    """Loops that are no `for`."""
    for path, text in sources():
        for m in re.finditer(r"^.*\b(while|loop)\b [^\n]*\{$", text, re.M):
            if not m.group(0).lstrip().startswith("//"):
                yield path, line_of(text, m.start()), m.group(0).strip()


def point_4():
    """Comparisons, tests of a variant, conversions and printing in functions of their own."""
    for path, line, name, head, clauses, body in functions():
        inside = " ".join(body.split())
        arms = re.findall(r"=> (true|false)\b", inside)
        if "-> bool" in head and len(arms) >= 2 and inside.startswith("{ match"):
            yield path, line, f"{name}: a test of a variant by all its arms"
        elif "-> bool" in head and re.fullmatch(r"(same|agrees|ranks_below|counters_earlier|equal\w*)", name):
            yield path, line, f"{name}: a comparison"
        elif re.fullmatch(r"\{ (\w+) as \w+ \}", inside):
            yield path, line, f"{name}: a conversion of numbers"
        elif len(re.findall(r"=> \d+", inside)) >= 3:
            yield path, line, f"{name}: a conversion to a number"
        elif re.fullmatch(r"(message_of|fields_of|is_known|filled)", name):
            yield path, line, f"{name}: a conversion"
        elif re.match(r"(put|print|say|spell|word$|digit$)", name) and path.split("/")[1] in ("answers", "script", "drill", "try_engine", "try_records"):
            yield path, line, f"{name}: printing"


def point_5():
    """A `requires` of the same text, or three parameters that go together, in three functions or more."""
    facts, groups = collections.defaultdict(list), collections.defaultdict(list)
    for path, line, name, head, clauses, body in functions():
        for fact in re.findall(r"requires (?:\w+ )?\{ ([^{}]*) \}", clauses):
            shape = re.sub(r"\b[a-z]\w*\.(now|old)", "x", fact)
            shape = re.sub(r"\d+|\(length \w+ \+ \d+\)", "k", shape)
            facts[shape].append((path, line, name))
        params = re.findall(r"(\w+): ([^,()\n]+(?:\[[^\]]*\])?)", head)
        names = sorted({f"{n}: {t.strip()}" for n, t in params})
        for i in range(len(names)):
            for j in range(i + 1, len(names)):
                for k in range(j + 1, len(names)):
                    groups[(names[i], names[j], names[k])].append((path, line, name))
    for fact, members in facts.items():
        if len(members) > 2:
            for path, line, name in members:
                yield path, line, f"{name}: requires {fact}"
    for names, members in groups.items():
        if len(members) > 2:
            yield members[0][0], members[0][1], f"{', '.join(names)} in " + ", ".join(n for _, _, n in members)


def point_6():
    """Arrays or slices with a length or place beside them, and arrays side by side."""
    for path, text in sources():
        for m in re.finditer(r"^(?:pub )?struct (\w+)[^{;\n]*\{", text, re.M):
            inside = strip(block(text, m.start()))
            arrays = re.findall(r"(\w+): \[[^\]]+\]", inside)
            if arrays and re.search(r"\b(len|count|n|at): (?:usize|u64)", inside):
                yield path, line_of(text, m.start()), f"struct {m.group(1)}: {', '.join(arrays)} with a length"
            if len(arrays) > 1:
                yield path, line_of(text, m.start()), f"struct {m.group(1)}: {', '.join(arrays)} side by side"
    for path, line, name, head, clauses, body in functions():
        if re.search(r"\w+: &(?:mut )?\[\w+\]", head) and re.search(r"\b(at|i|from|next): usize", head):
            yield path, line, f"{name}: a slice with a place beside it"


def point_7():
    """Functions that choose the step to run by a letter or a chain's kind, and rows of calls that differ in a constant."""
    for path, line, name, head, clauses, body in functions():
        calls = collections.Counter(re.findall(r"^ +(\w+)\(", body, re.M))
        if any(n >= 3 for c, n in calls.items() if c.startswith("print_")):
            yield path, line, f"{name}: a row of calls"
        elif re.search(r"match letter", body) or re.search(r"-> Step$", head.strip()) and "match letter" in body:
            yield path, line, f"{name}: a letter chooses"


POINTS = {"1": point_1, "2": point_2, "3": point_3, "4": point_4, "5": point_5, "6": point_6, "7": point_7}

if __name__ == "__main__":
    for point in sys.argv[1:] or sorted(POINTS):
        places = list(POINTS[point]())
        stay = [kept(path, line) for path, line, _ in places]
        print(f"{point}: {len(places)} places, {sum(stay)} with a reason beside them. {POINTS[point].__doc__}")
        for (path, line, what), k in zip(places, stay):
            print(f"  {'kept ' if k else ''}{path}:{line} {what}")
