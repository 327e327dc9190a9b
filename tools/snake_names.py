#!/usr/bin/env python3
"""Brings the names that this repository defines in specs/ and proofs/ to snake case, once, behind Rattle's port.py.

usage: tools/snake_names.py            at the top of the repository, directly behind port.py

A name that begins in lower case and has a dash or a capital gets underscores: clausesOf and clause-fits become clauses_of and clause_fits. Types
and modules are in camel case already. Where two names would fall together, the one with a dash keeps its dash; port.py had joined some of these
(JOINED), and they get their dash back. Functions of src/, exported C names, strings, inputs and outputs are not touched: what is renamed in a
.rt file stands in a clause, a `ghost use` or a comment. Whole proofs of functions (Proof.antt) follow what they cite.
"""

import json
import os
import re
import sys

TOP = "crates"
TEXTS = ("README.md", "docs", "tests", "crates")
SPLIT = re.compile(r"([\s(){}\[\].,;`\"|]+)")
HEAD = re.compile(r"^(?:(?:pub|abbrev|unfoldable|axiom)\s+)*(?:data\s+|record\s+)?([^\s:(){}λ]+)\s*(?:[:({])")
INNER = re.compile(r"^\s+(?:pub\s+|abbrev\s+)*([^\s:(){}λ=;]+)\s*:\s")
WANTS = re.compile(r"[A-Za-z0-9₀-₉]-|[a-z0-9][A-Z]")

# Names of two meanings that port.py made one: in these crates the first gets its dash back.
JOINED = {
    "and_at": ("and-at", ("gates", "closure")),
    "by_and": ("by-and", ("rules",)),
    "in_three": ("in-three", ("gates", "closure")),
    "is_inverse": ("is-inverse", ("sheet",)),
    "is_true": ("is-true", ("aiger",)),
    "no_lead": ("no-lead", ("closure",)),
    "same_set": ("same-set", ("gates",)),
    "xor_count": ("xor-count", ("gates", "closure")),
}


def files(top, endings):
    if os.path.isfile(top):
        yield top
    for folder, dirs, names in os.walk(top):
        dirs[:] = sorted(d for d in dirs if d not in ("out", "target", ".git"))
        yield from (os.path.join(folder, n) for n in sorted(names) if n.endswith(endings))


def read(path):
    with open(path, encoding="utf-8") as f:
        return f.read()


def defined():
    """Each name that a file of specs/ or a file of laws defines: at the head of a line, as a field, a constructor or under `where`."""
    found = set()
    for path in files(TOP, ".antt"):
        if path.endswith("Proof.antt"):
            continue
        for line in read(path).splitlines():
            m = INNER.match(line) if line.startswith((" ", "--", "use ", "mod", "unfolding", "module")) else HEAD.match(line)
            if m:
                found.add(m.group(1))
    return found


def snake(name):
    name = re.sub(r"([a-z0-9₀-₉'])([A-Z])", lambda m: m.group(1) + "_" + m.group(2), name)
    return name.lower().replace("-", "_")


def renamings():
    names = defined()
    wanted = sorted(n for n in names if not n[0].isupper() and WANTS.search(n))
    made = {}
    for n in wanted:
        made.setdefault(snake(n), []).append(n)
    kept = names | {"first_of"}
    for n in JOINED:
        kept.discard(n)
    out = {}
    for n in wanted:
        s = snake(n)
        if "-" in n and (s in kept or any("-" not in m for m in made[s])):
            continue
        out[n] = s
    return out


def turn(text, table, proof=False):
    parts = SPLIT.split(text)
    for i in range(0, len(parts), 2):
        if parts[i] in table and not (proof and i and parts[i - 1].endswith(".") and "-" in parts[i] and "=" not in "".join(parts[i + 1 : i + 2])):
            parts[i] = table[parts[i]]
    return "".join(parts)


def code_and_comment(line, mark):
    """The line up to a comment, and the comment."""
    at = 0
    while True:
        at = line.find(mark, at)
        if at < 0:
            return line, ""
        if line[:at].count('"') % 2 == 0 and (at == 0 or mark == "//" or line[at - 1].isspace()):
            return line[:at], line[at:]
        at += len(mark)


def quoted(text, table):
    """Names between backquotes, and names in camel case anywhere."""
    text = re.sub(r"`[^`\n]*`", lambda m: turn(m.group(), table), text)
    camel = {n: s for n, s in table.items() if "-" not in n}
    return turn(text, camel)


def outside_strings(code, table):
    return "".join(turn(p, table) if i % 2 == 0 else p for i, p in enumerate(re.split(r'("(?:[^"\\]|\\.)*")', code)))


def main():
    table = renamings()
    fields = set()
    for path in files(TOP, ".antt"):
        if not path.endswith("Proof.antt"):
            fields.update(m.group(1) for m in map(INNER.match, read(path).splitlines()) if m)
    for top in TEXTS:
        for path in files(top, (".antt", ".rt", ".md", ".edit")):
            crate = path.split("/")[1] if path.startswith("crates/") else ""
            mine = dict(table)
            mine.update({n: dash for n, (dash, crates) in JOINED.items() if crate in crates and path.endswith(".antt")})
            old = read(path)
            if path.endswith(".md"):
                new = quoted(old, table)
            elif path.endswith(".edit"):
                new = outside_strings(old, {n: s for n, s in mine.items()})
            else:
                mark = "//" if path.endswith(".rt") else "--"
                lines = []
                for line in old.split("\n"):
                    code, comment = code_and_comment(line, mark)
                    lines.append(outside_strings(code, mine) + quoted(comment, mine))
                new = "\n".join(lines)
            if new != old:
                with open(path, "w", encoding="utf-8") as f:
                    f.write(new)
    if len(sys.argv) > 1:
        with open(sys.argv[1], "w", encoding="utf-8") as f:
            json.dump(table, f, ensure_ascii=False, indent=0, sort_keys=True)
    print(f"snake_names: {len(table)} names")


if __name__ == "__main__":
    main()
