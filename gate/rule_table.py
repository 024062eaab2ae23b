#!/usr/bin/env python3
"""Holds docs/ARCHITECTURE.md to the repository, and draws which crate stands on which.

    gate/rule_table.py              what is wrong with the tables and with the picture: each crate of crates.txt has its question; each crate, definition
                                    and file that a rule names is there, and each function of a walk; docs/crates.dot is what '--graph' prints, docs/denials.csv what '--denials' does
    gate/rule_table.py --graph      the picture: a box for each group of crates.txt, and an arrow from a crate to those that it stands on, without those
                                    which it reaches by another one anyway. 'dot -Tsvg docs/crates.dot' draws it.
    gate/rule_table.py --denials    a line for each denial: its number and name, the definitions that say when it is given, the files that give it, and which
                                    scripts meet it. docs/denials.csv is what it prints.
    gate/rule_table.py --selftest   tables with one wrong word each

'documents' looks too. It takes a second."""
import glob
import os
import re
import sys

TOP = os.path.dirname(os.path.dirname(os.path.realpath(__file__)))
PAGE, PICTURE, DENIALS = "docs/ARCHITECTURE.md", "docs/crates.dot", "docs/denials.csv"
# Where a denial is defined and given.
GIVING = re.compile(r"crates/(?:metadata|document_parts|layout_files|artifact_rules|layouts|delegations|trust_rules|trusted_state|judging|granting|machine)/")
WORD = re.compile(r"`([^`]+)`|([a-z][a-z_0-9]*)")


def read(path):
    with open(f"{TOP}/{path}", encoding="utf-8") as file:
        return file.read()


def groups():
    """The groups of crates.txt: what each is called, and its crates with what they stand on."""
    found = []
    for line in read("crates.txt").splitlines():
        if line.startswith("# "):
            found.append((line[2:].split(":")[0], []))
        elif ":" in line:
            name, below = line.split(":")
            found[-1][1].append((name, below.split()))
    return found


def rows_of(page, title):
    """The cells of each row of the table below a title."""
    text = page.split(f"\n## {title}\n", 1)[1].split("\n## ", 1)[0]
    lines = [line for line in text.splitlines() if line.startswith("| ")]
    return [[cell.strip() for cell in line.strip("|").split(" | ")] for line in lines[1:]]


def question_faults(page, names):
    asked = [name for row in rows_of(page, "The question that each crate answers") for name in re.findall(r"`([a-z_0-9]+)`", row[0])]
    yield from (f"{PAGE}: '{name}' has no question" for name in names if name not in asked)
    yield from (f"{PAGE}: '{name}' is no crate" for name in asked if name not in names)
    yield from (f"{PAGE}: '{name}' has two questions" for name in sorted(set(asked)) if asked.count(name) > 1)


def has(crates, part, name):
    """Whether one of the crates has the file, or a definition of this name."""
    if part == "src":
        return any(os.path.exists(f"{TOP}/crates/{crate}/src/{name}") for crate in crates)
    if name[0].isupper() and any(os.path.exists(f"{TOP}/crates/{crate}/specs/{name}.antt") for crate in crates):
        return True
    files = [path for crate in crates for path in glob.glob(f"{TOP}/crates/{crate}/specs/**/*.antt", recursive=True)]
    return any(re.search(rf"(?m)^ *(?:abbrev |record |data |pub )*{re.escape(name)} ", open(path, encoding="utf-8").read()) for path in files)


def rule_faults(page, names):
    for row in rows_of(page, "Where a rule stands"):
        rule, defined, code = (row + ["", "", ""])[:3]
        crates = [bare for cell in (defined, code) for _, bare in WORD.findall(cell) if bare in names]
        if len(row) != 3 or not crates:
            yield f"{PAGE}: '{rule}' names no crate, or has not three cells"
        named = [name for name, _ in WORD.findall(defined) if name]
        yield from (f"{PAGE}: '{rule}': no definition '{name}' in {', '.join(crates)}" for name in named if not has(crates, "specs", name))
        if defined != "none: tested" and not named:
            yield f"{PAGE}: '{rule}' names no definition"
        files = [name for name, _ in WORD.findall(code) if name]
        yield from (f"{PAGE}: '{rule}': no file '{name}' in {', '.join(crates)}" for name in files if not has(crates, "src", name))
        words = {bare for cell in (defined, code) for _, bare in WORD.findall(cell) if "_" in bare}
        yield from (f"{PAGE}: '{rule}': '{word}' is no crate" for word in sorted(words - set(names)))


def walk_faults(page):
    """Each line of a walk names a file of a crate and a function in it."""
    walks = page.split("\n## Four walks\n", 1)[1].split("\n## ", 1)[0]
    for line in (line for line in walks.splitlines() if line.startswith("- ")):
        found = re.match(r"- `([a-z_0-9]+)/([a-z_]+\.rt)` `([a-z_]+)`: ", line)
        path = found and f"crates/{found[1]}/src/{found[2]}"
        if not found or not os.path.exists(f"{TOP}/{path}") or not re.search(rf"\bfn {found[3]}\b", read(path)):
            yield f"{PAGE}: no such file, or no such function in it: {line}"


def reached(stands, name):
    """All that a crate stands on."""
    found, left = set(), list(stands[name])
    while left:
        below = left.pop()
        if below not in found:
            found.add(below)
            left += stands[below]
    return found


def graph():
    """The picture, in the language of 'dot'."""
    every = groups()
    names = {name for _, crates in every for name, _ in crates}
    stands = {name: [it for it in below if it in names] for _, crates in every for name, below in crates}
    lines = ["// Which crate stands on which: 'gate/rule_table.py --graph' prints it from crates.txt.", "digraph crates {", "    rankdir=BT;", "    node [shape=box];"]
    for number, (group, crates) in enumerate(every):
        lines += [f"    subgraph cluster_{number} {{", f'        label="{group}";', *(f"        {name};" for name, _ in crates), "    }"]
    for name, below in stands.items():
        further = {it for other in below for it in reached(stands, other)}
        lines += [f"    {name} -> {other};" for other in below if other not in further]
    return "\n".join([*lines, "}", ""])


def sources(part, kind):
    """The files of a part of all crates that say when a denial is given, or give it, with their texts."""
    for path in sorted(glob.glob(f"crates/*/{part}/**/*.{kind}", root_dir=TOP, recursive=True)):
        if GIVING.match(path) and "/steps" not in path:
            yield path.removeprefix("crates/"), read(path)


def denials():
    """A line for each denial."""
    names = re.findall(r'^    "([A-Za-z]+)",$', read("crates/cli_denial_help/src/lib.rt"), re.M)
    numbers = dict((name, int(number)) for name, number in re.findall(r"(?m)^([a-z_]+) = (\d+)$", read("crates/denials/specs/Numbers.antt")))
    definitions, code = list(sources("specs", "antt")), list(sources("src", "rt"))
    stored = read("crates/replay/stdout")
    parts = "".join(open(path, encoding="utf-8").read() for path in sorted(glob.glob(f"{TOP}/gate/end_to_end_parts/*.sh")))
    lines = ["number,denial,definitions,code,met in"]
    for at, name in enumerate(names, 1):
        plain = re.sub(r"(?<!^)([A-Z])", r"_\1", name).lower()
        if numbers.get(plain) != at:
            lines.append(f"{at},{name}: Numbers has another")
            continue
        defined = [path for path, text in definitions if re.search(rf"\bno\.{plain}\b|\b{name}\b", text)]
        given = [path for path, text in code if re.search(rf"::{name}\b", text)]
        met = [what for what, text in (("replay", stored), ("end_to_end", parts)) if re.search(rf"\bdenied {at}\b", text)]
        lines.append(",".join([str(at), name, *map(" ".join, (defined, given, met))]))
    return "\n".join([*lines, ""])


def denial_faults(table):
    for line in table.splitlines()[1:]:
        cells = line.split(",")
        if len(cells) != 5 or not all(cells[2:]):
            yield f"{DENIALS}: no definition, no code or no case: {line}"
    if not (os.path.exists(f"{TOP}/{DENIALS}") and table == read(DENIALS)):
        yield f"{DENIALS} is not what 'gate/rule_table.py --denials' prints"


def faults(page=None, picture=None, table=None):
    page = read(PAGE) if page is None else page
    names = [name for _, crates in groups() for name, _ in crates]
    yield from question_faults(page, names)
    yield from rule_faults(page, names)
    yield from walk_faults(page)
    if picture is None:
        picture = read(PICTURE) if os.path.exists(f"{TOP}/{PICTURE}") else ""
    if picture != graph():
        yield f"{PICTURE} is not what 'gate/rule_table.py --graph' prints"
    yield from denial_faults(denials() if table is None else table)


def misses():
    """What a page with one wrong word each is not refused for."""
    page, picture = read(PAGE), graph()
    wrong = {
        "a crate without its question": (page.replace("| `limits` |", "| `limit` |", 1), picture),
        "a question twice": (page.replace("| `plain_text` |", "| `limits`, `plain_text` |", 1), picture),
        "a file that is not there": (page.replace("`role_rules.rt`", "`role_rule.rt`", 1), picture),
        "a definition that is not there": (page.replace("document_parts `RoleRules`", "document_parts `RoleRule`", 1), picture),
        "a crate that is not there": (page.replace("document_parts `RoleRules`", "document_part `RoleRules`", 1), picture),
        "a function that is not there": (page.replace("`hand_over`:", "`hands_over`:", 1), picture),
        "another picture": (page, picture.replace("limits;", "", 1)),
    }
    table = denials()
    found = [f"rule_table.py lets {what} through" for what, (text, drawn) in wrong.items() if not list(faults(text, drawn, table))]
    if not list(denial_faults(table.replace("\n29,", "\n92,", 1))):
        found.append("rule_table.py lets another table of denials through")
    return found


def main():
    if sys.argv[1:] in (["--graph"], ["--denials"]):
        print(graph() if sys.argv[1] == "--graph" else denials(), end="")
        return 0
    found = misses() if sys.argv[1:] == ["--selftest"] else [*misses(), *faults()]
    print("\n".join([*found, f"rule_table: {len(found)} faults"]))
    return 1 if found else 0


if __name__ == "__main__":
    sys.exit(main())
