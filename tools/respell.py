#!/usr/bin/env python3
"""Spells the repository's own definitions and lemmas as today's Rattle does: words in snake case.

usage: python3 tools/respell.py       at the top of a checkout, once, after port.py

Turned are the names that the crates' specs/ and proofs/ declare, wherever they stand in crates/ (definitions, laws, proofs,
contracts, edits) and in backticks in README.md and docs/. Names of functions, types, modules, goals and of the library stay.
"""

import os
import re

TOKEN = re.compile(r"(?<![\w'₀-₉-])[A-Za-z][\w'₀-₉]*(?:-[\w'₀-₉]+)*(?![\w'₀-₉-])")
DECLARED = re.compile(r"\s*(?:pub |unfoldable |abbrev |opaque |let )*((?:[A-Za-z][\w'₀-₉-]*)(?: [a-z][\w'₀-₉-]*)*)(?: [({][^)}]*[)}])* (?::|=)(?= |$)")
BOUND = re.compile(r"let ([a-z][\w'₀-₉-]*)(?: [({][^)}]*[)}])* (?::|=) ")
USE = re.compile(r"^[ \t]*(?:pub |ghost )*use ([^\s{;]+?)\.?(?:\{([^}]*)\})?(?: as \S+)?;?$", re.M)

# Two names that would be one: the law or the field gets another name.
OTHER = {
    "cost-most": "cost_within", "start-most": "start_within", "time-most": "time_within",
    "disks-left": "disks_left_law", "short-left": "short_left_law", "draft-of": "draft_of_law", "in-range": "in_range_law",
    "lists-fit": "lists_fit_law", "new-unit": "new_unit_law", "no-disk": "no_disk_law", "plan-of": "plan_of_law",
    "plan-sheet": "plan_sheet_law", "row-most": "row_most_law", "rule-number": "rule_number_law", "sheet-bytes": "sheet_bytes_law",
    "told-by": "told_by_law",
}


def snake(name):
    if name in OTHER:
        return OTHER[name]
    return re.sub(r"(?<=[a-z0-9_])([A-Z])", lambda m: ("" if m.string[m.start() - 1] == "_" else "_") + m.group(1).lower(), name.replace("-", "_"))


def wrong(name):
    return "-" in name or (name[0].islower() and re.search("[A-Z]", name))


def files(*endings):
    for folder, dirs, names in os.walk("crates"):
        dirs[:] = sorted(d for d in dirs if d != "out")
        for name in sorted(names):
            if name.endswith(endings):
                yield os.path.join(folder, name)


def read(path):
    with open(path, encoding="utf-8") as f:
        return f.read()


def walks(path):
    return os.path.basename(path) in ("Proof.antt", "Answers.antt", "Invariants.antt") and os.path.dirname(os.path.dirname(path)).endswith("proofs")


def main():
    with open("crates.txt", encoding="utf-8") as f:
        own = {line.split(":")[0].split()[0] for line in f if line.strip() and not line.startswith("#")}
    names, library = set(), {}
    for path in files(".antt", ".rt"):
        text = read(path)
        library[path] = set()
        for m in USE.finditer(text):
            crate = re.match(r"Rattle\.(\w+)", m.group(1))
            if not (crate and crate.group(1) in own):
                for n in (m.group(2) or "").split(","):
                    library[path].add(n.split(" as ")[0].strip())
            else:
                for n in (m.group(2) or "").split(","):
                    if " as " in n and wrong(n.split(" as ")[1].strip()):
                        names.add(n.split(" as ")[1].strip())
        if path.endswith(".antt"):
            for line in text.split("\n"):
                m = DECLARED.match(line)
                if m and not walks(path):
                    names.update(m.group(1).split())
                if m and m.group(1).endswith("-spec"):
                    names.add(m.group(1))
                names.update(BOUND.findall(line))
    declared = {snake(n) for n in names}
    names = {n for n in names if wrong(n)}

    def turn(text, kept):
        return TOKEN.sub(lambda m: snake(m.group()) if m.group() in names and m.group() not in kept else m.group(), text)

    # Edits and papers still have every name as it was: port.py does not turn them.
    def turn_old(text):
        return TOKEN.sub(lambda m: snake(m.group()) if wrong(m.group()) and snake(m.group()) in declared else m.group(), text)

    for path in files(".antt", ".rt", ".edit"):
        text = read(path)
        to = turn_old(text) if path.endswith(".edit") else turn(text, library[path])
        to = re.sub(r"\+[\w-]+-spec\b", lambda m: m.group().replace("-", "_"), to)
        if to != text:
            with open(path, "w", encoding="utf-8") as f:
                f.write(to)
    papers = ["README.md"] + [os.path.join(d, f) for d, _, fs in os.walk("docs") for f in sorted(fs) if f.endswith(".md") and not f.startswith("PORT")]
    for path in papers:
        text = read(path)
        to = re.sub(r"`[^`\n]+`", lambda m: turn_old(m.group()), text)
        if to != text:
            with open(path, "w", encoding="utf-8") as f:
                f.write(to)


if __name__ == "__main__":
    main()
