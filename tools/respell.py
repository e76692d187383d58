#!/usr/bin/env python3
"""Brings this repository's own definitions, lemmas and fields to today's spelling, after port.py: words in snake case.

Run once at the top, after `python3 /opt/rattle/port/port.py`. Types keep their capitals; functions of src/, exported
names, strings, inputs and outputs are not touched. Names that would fall together are told apart: a lemma gets `_lem`.
"""
import glob
import os
import re

END = r"\s(){}\[\].,;:λ«»\"⌜⌝"
TOKEN = re.compile(rf"[^{END}]+")
DEFINED = re.compile(r"^(  +)?(?:(?:abbrev|unfoldable|pub)\s+)*([^\s({:]+)\s*:\s")

# Lemmas that have the name of a function, and locals that have that of a definition.
OWN = {"has_block": "has_block_lem", "in_reach": "in_reach_lem", "is_same": "is_same_lem",
       "by_count": "by_count_lem", "in-table": "from_table", "in-mb": "from_mb", "of-bits": "of_bits_lem"}
# The same, in one file.
IN_FILE = {"crates/table/proofs/OldLine.antt": {"sum_fits": "sum_fits_lem"}}


def snake(name):
    name = name.replace("-", "_")
    return re.sub(r"(?<=[A-Za-z0-9])([A-Z])", lambda m: "_" + m.group(1).lower(), name)


def antt_files():
    return sorted(glob.glob("crates/*/specs/*.antt") + glob.glob("crates/*/proofs/**/*.antt", recursive=True))


def own_names():
    """Each name that the crates' own files define, with whether it is a record's field."""
    names = {}
    for path in antt_files():
        if os.path.basename(path) == "Proof.antt":
            continue
        record = False
        for line in open(path, encoding="utf-8"):
            if line.lstrip().startswith("--"):
                continue
            if line[0] not in " \n":
                record = bool(re.match(r"^(?:(?:abbrev|unfoldable|pub)\s+)*record\s", line))
            m = DEFINED.match(line)
            if m:
                field = bool(m.group(1)) and record
                names[m.group(2)] = names.get(m.group(2), True) and field
    return names


def renamed():
    names = own_names()
    camel = {n: snake(n) for n in names if n[0].islower() and re.search(r"[a-z0-9][A-Z]", n) and "-" not in n}
    taken = set(camel.values()) | {n for n in names if n[0].islower() and n not in camel and "-" not in n}
    table = dict(camel)
    for name, field in names.items():
        if "-" in name and re.match(r"^[a-z][A-Za-z0-9'₀-₉-]*$", name):
            new = snake(name)
            table[name] = new + "_lem" if new in taken and not field else new
    table.update(OWN)
    return table


def turn_antt(text, table):
    out = []
    for line in text.split("\n"):
        def turned(m):
            before = line[m.start() - 1] if m.start() else ""
            after = line[m.end()] if m.end() < len(line) else ""
            name = m.group(0)
            # a lemma that has a function's name: a path and a field mean the function
            if name in ("has_block", "in_reach", "is_same", "by_count") and "." in (before, after):
                return name
            return table.get(name, name)
        out.append(TOKEN.sub(turned, line))
    return "\n".join(out)


def turn_rt(text, table):
    """Code has no name with a capital inside or a dash: clauses alone have."""
    camel = {n: m for n, m in table.items() if "-" not in n and n not in OWN}
    lines = []
    for line in text.split("\n"):
        code, mark, note = line.partition("//")
        if '"' not in code:
            code = TOKEN.sub(lambda m: camel.get(m.group(0), m.group(0)), code)
        lines.append(code + mark + note)
    return "\n".join(lines)


def main():
    table = renamed()
    for path in antt_files():
        text = open(path, encoding="utf-8").read()
        turned = turn_antt(text, {**table, **IN_FILE.get(path, {})})
        if turned != text:
            open(path, "w", encoding="utf-8").write(turned)
    for path in sorted(glob.glob("crates/*/src/*.rt")):
        text = open(path, encoding="utf-8").read()
        turned = turn_rt(text, table)
        if turned != text:
            open(path, "w", encoding="utf-8").write(turned)
    for path in sorted(glob.glob("crates/*/must-fail/*.edit")):
        text = open(path, encoding="utf-8").read()
        head, mark, rest = text.partition("file: ")
        turned = head + mark + (turn_antt(rest, table) if "file: specs/" in text else rest)
        if turned != text:
            open(path, "w", encoding="utf-8").write(turned)


if __name__ == "__main__":
    main()
