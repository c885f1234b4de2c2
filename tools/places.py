#!/usr/bin/env python3
"""Lists the places in crates/*/src that may want a plainer form: python3 tools/places.py [POINT..]

Each POINT is a number, 1 to 7, as docs/DESIGN-PASS.md names them. It goes by text, so a row is a place to read and no verdict.
"""
import re
import sys
from collections import defaultdict
from pathlib import Path

CRATES = Path(__file__).resolve().parent.parent / "crates"


def sources():
    for path in sorted(CRATES.glob("*/src/**/*.rt")):
        yield path.relative_to(CRATES), path.read_text().split("\n")


def code(line):
    return line.split("//")[0]


def rows(pattern):
    """Each line of code that has the pattern."""
    seen = re.compile(pattern)
    for path, lines in sources():
        for number, line in enumerate(lines, 1):
            if seen.search(code(line)):
                yield f"{path}:{number}: {line.strip()[:110]}"


def functions():
    """Each function: where it begins, its name, its clauses, and its signature and body without them."""
    for path, lines in sources():
        at = 0
        while at < len(lines):
            head = re.match(r"\s*(?:#\[.*\] )?(?:pub(?:\(crate\))? )?(?:final )?(?:extern \"C\" )?fn (\w+)", lines[at])
            if not head:
                at += 1
                continue
            indent = len(lines[at]) - len(lines[at].lstrip())
            end = at
            while end + 1 < len(lines) and not re.match(rf"\s{{{indent}}}(\}}|\{{\}})|.*;$|.*\{{\}}$", lines[end]):
                end += 1
            text = [code(line) for line in lines[at:end + 1]]
            clauses = [line.strip() for line in text if re.match(r"\s*(requires|ensures)\b", line)]
            rest = [line for line in text if not re.match(r"\s*(requires|ensures)\b|\s+\(λ", line)]
            yield f"{path}:{at + 1}", head[1], clauses, "\n".join(rest)
            at = end + 1


def own_results():
    yield from rows(r"^(pub(\(crate\))? )?enum \w+")
    yield from rows(r"const \w+: (u8|u16|u32|usize)\b")
    yield from rows(r"^\s*(\(\(\w+, )?(return None;|return Err\(.*\);)$")
    yield from rows(r"-> bool\b.*&mut|&mut .*-> bool")
    yield from rows(r"\b(Some|Ok|Err)\((\w+)\) => (Some|Ok|Err)\(|Err\(_\) => Err|None => Err")


def twins():
    """Functions of one shape: alike but for names and numbers."""
    alike = defaultdict(list)
    for where, name, _, text in functions():
        words = re.findall(r"\w+|[^\w\s]", text)
        if len(words) >= 30:
            shape = " ".join("0" if w[0].isdigit() else "n" if re.match(r"\w", w) and w not in KEPT else w for w in words)
            alike[shape].append(f"{where} {name}")
    for found in alike.values():
        if len(found) > 1:
            yield f"{len(found)} alike: " + ", ".join(found)
    named = defaultdict(list)
    for where, name, clauses, _ in functions():
        if name not in {"new", "fmt", "from", "main"} and not name.startswith("test"):
            named[name].append(where)
    for name, found in sorted(named.items()):
        if len(found) > 1:
            yield f"{len(found)} named {name}: " + ", ".join(found)


KEPT = {"fn", "let", "for", "in", "if", "else", "match", "return", "while", "loop", "mut", "pub", "self", "Self", "impl", "as", "break"}


def clauses():
    """Facts that stand in the contracts of three or more functions, names of values aside, and parameters that travel together."""
    stand = defaultdict(set)
    together = defaultdict(set)
    for where, name, facts, text in functions():
        for fact in facts:
            body = re.sub(r"^(requires|ensures)( \w+)?", "", fact)
            stand[re.sub(r"\b\d+\b", "0", body)].add(f"{where} {name}")
        head = text.split("{")[0]
        given = re.findall(r"(\w+): ([^,()]+)", head.split("->")[0])
        for i, first in enumerate(given):
            for second in given[i + 1:]:
                together[f"{first[0]}: {first[1].strip()}, {second[0]}: {second[1].strip()}"].add(f"{where} {name}")
    for what, found in list(stand.items()) + list(together.items()):
        if len(found) > 2:
            yield f"{len(found)} have {what[:90]}: " + ", ".join(sorted(found))


POINTS = {
    1: own_results,
    2: twins,
    3: lambda: rows(r"\bfor \w+ in [^{]*\.\.|\bwhile\b|\bloop\b|\b\w+ \+= 1|\[\w+ \+ 1\]"),
    4: lambda: rows(r"fn (same|eq|cmp|equals|clone|copy|wording|text_of|of_\w+|from_\w+|to_\w+|join)\b|\.get\(\) [=!]=|\bas (u8|u16|u32|u64|usize)\b|impl .*fmt::(Display|Debug)|impl .*\bFrom<"),
    5: clauses,
    6: lambda: rows(r": \[[^;\]]+; \d+\][,;]|\bcount: usize|\b(let mut \w+ = \[)|: Vec<Option<"),
    7: lambda: rows(r"matches!\(|\bask\b|: fn\(|\bdyn \b"),
}


def main():
    asked = [int(word) for word in sys.argv[1:]] or sorted(POINTS)
    for point in asked:
        found = list(POINTS[point]())
        print(f"point {point}: {len(found)} rows")
        for row in found:
            print("  " + row)


main()
