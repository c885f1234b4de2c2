#!/usr/bin/env python3
"""Brings the names of specs/ and proofs/ to one spelling: words in snake case, facts, types and modules in camel case.

usage: python3 tools/spell_names.py [--plan] [ROOT]      (ROOT: the top of the repository; default: the current folder)

It was run once, over files that `port.py` had just turned to the kit rattle-kit-13f, and is kept to show what it did. (It then passed
over records whose parameters have parentheses of their own, `First-fault` and `Fault-after`, which were turned by hand.)
It goes by text: it collects what crates/*/specs and crates/*/proofs declare, and writes the new spelling wherever such a name stands
in an .antt file, and in the `ghost use` lines, clauses, ghost members and comments of an .rt file. Names of goals, of the library, of
src/ and of strings stay. Two names that fall together in a file get words of their own from TOGETHER.
"""
import os
import re
import sys

NAME = r"[A-Za-z][A-Za-z0-9_'\-]*"
DECLARED = re.compile(r"^(\s*)((?:(?:abbrev|unfoldable|pub|data|record)\s+)*)(" + NAME + r")((?:\s+(?:\((?:[^()]|\([^()]*\))*\)|\{[^}]*\}))*)\s*:\s+(\S.*)$")
GOAL = re.compile(r"(goal|need)\.")
LIBRARY = re.compile(r"^(?:ghost )?use (?:Rattle\.(?:std|core)|mathlib|borrow|denote|native|lib|Prim)\S*\.\{([^}]*)\}", re.M)

# what would get the name of a definition beside it: a lemma ends in _lem, else it gets a word of its own
TOGETHER = {
    "same_bytes": "same_bytes_lem",
    "same-bytes": "same_bytes_lem",
    "same-ticket": "same_ticket_lem",
    "same_row": "same_row_lem",
    "same-row": "same_row_lem",
    "same_line": "same_line_lem",
    "same-line": "same_line_lem",
    "same_lines": "same_lines_lem",
    "same-lines": "same_lines_lem",
    "begins-with": "begins_with_lem",
    "if-serves": "if_serves_lem",
    "if-written": "if_written_lem",
    "yes-for-line": "yes_for_line_lem",
    "of-lines": "of_lines_lem",
    "wish-words": "wish_words_lem",
    "end-words": "end_words_lem",
    "at-end": "at_end_lem",
    "all-met": "each_met",
    "yesBody": "yes_body_format",
    "ticketBody": "ticket_body_format",
    "House-first": "HouseOpensFirst",
}
# the same, in these files alone
HERE = {
    "crates/narrow/proofs/Can.antt": {"by_key": "by_key_lem", "by-key": "by_key_lem", "by-free": "by_free_lem", "by_tied": "by_tied_lem", "by-tied": "by_tied_lem"},
    "crates/showing/proofs/Shows.antt": {"in-range": "in_range_lem"},
    "crates/verifier/proofs/Exactly.antt": {"by_lines": "by_lines_lem"},
}


def files(root):
    for folder, dirs, names in os.walk(os.path.join(root, "crates")):
        dirs[:] = sorted(d for d in dirs if d not in ("out", ".git"))
        for f in sorted(names):
            if f.endswith((".antt", ".rt")):
                yield os.path.join(folder, f)


def snake(name):
    if name[0].isupper():
        return "".join(p[:1].upper() + p[1:] for p in name.split("-"))
    name = re.sub(r"(?<=[a-z0-9])([A-Z])", lambda m: "_" + m.group(1).lower(), name)
    return name.replace("-", "_")


def declared(root):
    """The names that specs/ and proofs/ declare, goals aside, and which of them are fields."""
    found, fields, goals = set(), set(), set()
    for p in files(root):
        if not p.endswith(".antt"):
            continue
        held = False
        for line in open(p, encoding="utf-8"):
            if line.lstrip().startswith("--"):
                continue
            if re.match(r"^(pub )?(record|data) ", line):
                held = line.startswith(("pub record", "record"))
            elif line.strip() and not line.startswith(" "):
                held = False
            m = DECLARED.match(line)
            if not m:
                continue
            if GOAL.match(m.group(5)):
                goals.add(m.group(3))
                continue
            found.add(m.group(3))
            if held and m.group(1):
                fields.add(m.group(3))
    return found - goals, fields - goals


def plan(root, names):
    """Old name, new name; a name that some file takes from the library stays."""
    taken = set()
    for p in files(root):
        for m in LIBRARY.finditer(open(p, encoding="utf-8").read()):
            taken |= {n.strip() for n in m.group(1).split(",")}
    new = {n: TOGETHER.get(n, snake(n)) for n in names}
    return {n: m for n, m in new.items() if m != n and (n not in taken or n in TOGETHER)}


def plan_for(p, root, new):
    return new | HERE.get(os.path.relpath(p, root), {})


def spelled(text, new, fields):
    aliases = set(re.findall(r"^(?:ghost )?use Rattle\S* as (\w+);?$", text, re.M)) - {"goal", "need"}

    def put(m):
        name = m.group(0)
        if name not in new:
            return name
        before = re.search(r"([\w'\-]*)\.$", text[max(0, m.start() - 80) : m.start()])
        if before and name not in fields and before.group(1) not in aliases:
            return name
        return new[name]

    return re.sub(r"(?<![\w'\-])" + NAME, put, text)


def spell_rt(text, new, fields):
    """An .rt file: ghost lines, clauses, ghost members and comments; no code and no string."""
    out, depth = [], 0
    for line in text.split("\n"):
        bare = line.strip()
        begins = re.match(r"(pub )?ghost\b|requires\b|ensures\b", bare)
        if begins or depth > 0:
            out.append(spelled(line, new, fields))
            depth = max(0, depth + line.count("{") - line.count("}"))
        elif "//" in line:
            code, comment = line.split("//", 1)
            out.append(code + spelled("//" + comment, new, fields))
        else:
            out.append(line)
    return "\n".join(out)


def clashes(root, everywhere):
    """Files in which a new name meets itself."""
    for p in files(root):
        new = plan_for(p, root, everywhere)
        here = set(re.findall(r"(?<![\w'\-])" + NAME, open(p, encoding="utf-8").read()))
        back = {}
        for n in sorted(here & set(new)):
            if new[n] in here:
                yield p, n, new[n]
            back.setdefault(new[n], []).append(n)
        for k, v in back.items():
            if len(v) > 1:
                yield p, " ".join(v), k


def main():
    words = [w for w in sys.argv[1:] if w != "--plan"]
    root = words[0] if words else "."
    names, fields = declared(root)
    new = plan(root, names)
    if "--plan" in sys.argv:
        for p, n, m in clashes(root, new):
            print(f"{p}: {n} -> {m}")
        return
    for p in files(root):
        text = open(p, encoding="utf-8").read()
        spell = spelled if p.endswith(".antt") else spell_rt
        turned = spell(text, plan_for(p, root, new), fields)
        if turned != text:
            with open(p, "w", encoding="utf-8") as f:
                f.write(turned)


if __name__ == "__main__":
    main()
