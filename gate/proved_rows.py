#!/usr/bin/env python3
"""Holds docs/PROVED.md and docs/DEFINITIONS.md to the sources. 'gate/documents' calls it; it needs no program and no proof.

    gate/proved_rows.py                 prints what is wrong, and how many rows and files it looked at
    gate/proved_rows.py --selftest      gives rows and lists that are wrong, each in its own way: each has to be refused, for its reason

The table 'Promise by promise' has three columns. The second names public calls that the program makes. The third names the others: after the
word 'law' or 'laws' functions that do nothing and whose contract is the statement, after 'tests' calls that only tests make, and after
'nobody' calls that nobody makes. A call is 'crate::function' or 'Type::method'; a name alone goes on with the crate or type before it in
its row.

- Each call exists, is public, and is what its column says ('sources.py' tells how that is found, and what it cannot see).
- Names in brackets are of each call before them, back to the last ';' or bracket: clauses of its contract; definitions that a clause cites,
  which begin with a capital; or 'FIELD of RECORD', where a clause cites the record and the field named is a field of it.
- What the named clauses cite, or all clauses where none is named, stands in a file that DEFINITIONS lists, or is a view of the code.
- A call that the text around the table names exists.

DEFINITIONS lists files of specs/. What a listed file imports of the repository is listed too, or is one that the page says need not be
read: 'Views', 'View' and names that end so, and 'declared', which is made of the types of the code. In a contract a name that ends with
'_view' is a view wherever it stands. 'steps' is no excuse: what a listed file rests on has to be read, whatever it is called.
"""
import functools
import os
import re
import sys
from collections import namedtuple

from sources import LAW, Sources, read

TOP = os.path.dirname(os.path.dirname(os.path.realpath(__file__)))
PROVED, DEFINITIONS = "docs/PROVED.md", "docs/DEFINITIONS.md"
HEADING = ["Promise", "Called by the program, with its clauses", "Laws, and what the program does not call"]
LISTED = ["Crate", "What is defined there", "Files, in order"]
WORDS = {"law": "law", "laws": "law", "tests": "tests", "nobody": "nobody"}
PART = re.compile(r"`([^`]*)`|([();])|(\w+)")
IMPORT = re.compile(r"(?m)^[ ]*(?:pub )?(?:ghost )?use Rattle\.(\w+)\.specs((?:\.\w+)+)(?:\.(\{[^}]*\})|(?: as (\w+))?[; ]*$)")
CALL = re.compile(r"`(\w+(?:::\w+)+)`")
FIELD = re.compile(r"(?m)^\s+pub (\S+) :")

# A call as a row names it, what is said of it ('program', 'law', 'tests' or 'nobody', or None), and what stands in brackets after it: pairs of
# a name and the record that it is of, or None.
Named = namedtuple("Named", "path kind clauses")


def cells(line):
    return [cell.strip() for cell in line.strip().strip("|").split("|")]


def table(text, heading):
    """The rows of the table with this heading, each as its cells. None where there is no such table."""
    lines = text.splitlines()
    for at, line in enumerate(lines):
        if line.startswith("|") and cells(line) == heading:
            rows = []
            for row in lines[at + 2:]:
                if not row.startswith("|"):
                    break
                rows.append(cells(row))
            return rows
    return None


def calls_in(cell, kind):
    """The calls of a cell: the names as they stand there, each with what is said of it and what stands in brackets after it."""
    found, group, inside, of, is_inside = [], [], [], False, False
    for it in PART.finditer(cell):
        code, mark, word = it.groups()
        if mark == "(":
            is_inside, inside, of = True, [], False
        elif mark:
            found += [Named(path, sort, tuple(inside)) for path, sort in group]
            group, inside, is_inside = [], [], False
        elif word and is_inside:
            of = word == "of"
        elif word:
            kind = WORDS.get(word, kind)
        elif is_inside and of:
            inside, of = [(name, record or code) for name, record in inside], False
        elif is_inside:
            inside.append((code, None))
        else:
            group.append((code, kind))
    return found + [Named(path, sort, ()) for path, sort in group]


class Specs:
    """The files of specs/: what they import, and what they define."""

    def __init__(self, crates, listed):
        self.crates, self.listed, self.given = crates, listed, {}

    def text(self, crate, module):
        path = f"crates/{crate}/specs/{module.replace('.', '/')}.antt"
        return self.given.get(path) or (read(path) if os.path.exists(path) else None)

    def place(self, crate, module, depth=0):
        """Where a module stands: a crate may hand on that of another under the name in its Lib. None where it is none of the repository."""
        if crate not in self.crates:
            return None
        if self.text(crate, module) is not None or depth > 9:
            return crate, module
        for other, path, names, alias in IMPORT.findall(self.text(crate, "Lib") or ""):
            last = alias or path.rpartition(".")[2]
            if not names and (module == last or module.startswith(last + ".")):
                return self.place(other, path[1:] + module[len(last):], depth + 1)
        return crate, module

    def imports(self, text):
        """What a text imports of the repository: the module, the names in it, and the name that it has here where it is imported whole."""
        for crate, path, names, alias in IMPORT.findall(text):
            place = self.place(crate, path[1:])
            if place:
                yield place, [re.split(r" as ", it.strip())[-1] for it in names[1:-1].split(",")] if names else [], alias or ("" if names else path.rpartition(".")[2])

    @staticmethod
    def need_not_be_read(module):
        parts = module.split(".")
        return "declared" in parts or parts[0].startswith("Declared") or re.search(r"Views?$", parts[-1]) is not None

    def is_listed(self, place):
        return place in self.listed or self.need_not_be_read(place[1])

    def fields(self, place, record):
        """The fields of a record, or None where it is none."""
        found = re.search(rf"(?m)^([ ]*)pub record {re.escape(record)}\b.*\n((?:\1 +\S.*\n)*)", (self.text(*place) or "") + "\n")
        return FIELD.findall(found[2]) if found else None


class Rows:
    """The table of PROVED, over the sources."""

    def __init__(self, sources, specs):
        self.sources, self.specs = sources, specs

    def functions(self, path):
        """The public functions that a call can be."""
        before, _, name = path.rpartition("::")
        first, _, owner = before.rpartition("::")
        if (before, "") in self.sources.modules:
            found = self.sources.item(self.sources.modules[before, ""], name, 0, True)
            return [found[1]] if found and found[0] == "fn" and found[1].public else []
        known = [it for (place, method), its in self.sources.owned.items() if place[1] == owner and method == name for it in its if it.public]
        return [it for it in known if not first or it.crate == first]

    def citing(self, function, clauses):
        """The modules that clauses of a function cite, with the names that they cite there."""
        module = self.sources.modules[function.crate, function.module]
        said = " ".join(it.text for it in clauses)
        for place, names, alias in self.specs.imports(module.whole):
            cited = [name for name in names if not name.endswith("_view") and re.search(rf"(?<![\w.]){re.escape(name)}(?![\w'])", said)]
            cited += re.findall(rf"(?<![\w.]){alias}\.([\w']+)", said) if alias else []
            if cited:
                yield place, cited

    def clause_fault(self, function, name, record):
        """What is wrong with a name in brackets after a call, or None."""
        if not record and name in {it.name for it in function.clauses}:
            return None
        places = {it: place for place, cited in self.citing(function, function.clauses) for it in cited}
        if not record:
            if re.match("[A-Z]", name):
                return None if name in places else f"no clause of it cites '{name}'"
            homes = sorted(it for it, place in places.items() if name in (self.specs.fields(place, it) or ()))
            return f"it has no clause '{name}'" + (f": '{name}' is a field of {homes[0]}" if homes else "")
        if record not in places:
            return f"no clause of it cites '{record}'"
        fields = self.specs.fields(places[record], record)
        if fields is None:
            return f"'{record}' is no record"
        return None if name in fields else f"'{name}' is no field of '{record}'"

    def kind_fault(self, function, kind):
        """What is wrong with the column or the word before a call, or None."""
        is_law = LAW.match(function.said) is not None
        if kind == "law":
            if not is_law or function.returns or "&mut" in function.takes:
                return "it is no law: a law does nothing, and its comment says so first"
            return None
        if is_law:
            return "it is a law, and stands among calls"
        if kind == "program" and function not in self.sources.by_program:
            return "the program does not call it"
        if kind != "program" and function in self.sources.by_program:
            return "the program calls it"
        if (kind == "tests") != (function in self.sources.by_tests) and kind != "program":
            return "no test calls it" if kind == "tests" else "tests call it"
        return None

    def call_faults(self, named, path):
        functions = self.functions(path)
        if not functions:
            yield "there is no such public call"
            return
        function = next((it for it in functions if not self.kind_fault(it, named.kind)), functions[0])
        fault = self.kind_fault(function, named.kind)
        if fault:
            yield fault
        if named.kind is None:
            return
        faults = [self.clause_fault(function, *it) for it in named.clauses]
        yield from filter(None, faults)
        own = [it for it in function.clauses if it.name in {name for name, _ in named.clauses}] or function.clauses
        for place, cited in self.citing(function, own):
            if not self.specs.is_listed(place):
                yield f"it cites {', '.join(sorted(set(cited)))} of {place[0]}/specs/{place[1]}, which {DEFINITIONS} does not list"

    def faults(self, rows):
        for row in rows:
            if len(row) != len(HEADING):
                yield f"a row of {len(row)} cells: {row[0]}"
                continue
            before, found = "", [*calls_in(row[1], "program"), *calls_in(row[2], None)]
            if not found:
                yield f"'{row[0]}' names no call"
            for named in found:
                path = named.path
                if "::" in path:
                    before = path.rpartition("::")[0]
                elif before:
                    path = f"{before}::{path}"
                if named.kind is None:
                    yield f"'{row[0]}': `{path}`: no word says whether it is a law, or called by tests or nobody"
                elif "::" not in path:
                    yield f"'{row[0]}': `{path}`: no crate or type stands before it"
                else:
                    yield from (f"'{row[0]}': `{path}`: {fault}" for fault in self.call_faults(named, path))


def proved_faults(text, rows):
    found = table(text, HEADING)
    if not found:
        yield f"{PROVED}: no table has the columns {' | '.join(HEADING)}"
        return
    yield from (f"{PROVED}: {fault}" for fault in rows.faults(found))
    for path in CALL.findall("\n".join(line for line in text.splitlines() if not line.startswith("|"))):
        if not rows.functions(path):
            yield f"{PROVED}: there is no public call `{path}`"


def listed_in(text):
    """The files that DEFINITIONS lists, each as its crate and its module."""
    return {(row[0].strip("`"), name.replace("/", ".")) for row in table(text, LISTED) or () for name in re.findall(r"`([^`]+)`", row[2])}


def definition_faults(specs):
    if not specs.listed:
        yield f"{DEFINITIONS}: no table has the columns {' | '.join(LISTED)}"
    for crate, module in sorted(specs.listed):
        text = specs.text(crate, module)
        if text is None:
            yield f"{DEFINITIONS}: there is no crates/{crate}/specs/{module.replace('.', '/')}.antt"
            continue
        for place in sorted({place for place, _, _ in specs.imports(text)}):
            if not specs.is_listed(place):
                yield f"{DEFINITIONS}: {crate}/specs/{module} imports {place[0]}/specs/{place[1]}, which is not listed"


@functools.cache
def all_sources():
    return Sources()


def faults():
    """All that is wrong with both pages."""
    sources, definitions = all_sources(), read(DEFINITIONS)
    specs = Specs(sources.named, listed_in(definitions))
    return [*definition_faults(specs), *proved_faults(read(PROVED), Rows(sources, specs))]


# Rows that are wrong: the second and the third cell, and what has to be said of them.
WRONG = [
    ("`canonical_json::raed`", "", "`canonical_json::raed`: there is no such public call"),
    ("`Store::aply`", "", "there is no such public call"),
    ("`store::refused`", "", "there is no such public call"),
    ("`lms::verify`, `meets`", "", "`lms::meets`: there is no such public call"),
    ("`meets`", "", "no crate or type stands before it"),
    ("`canonical_json::read` (`unchanged`)", "", "it has no clause 'unchanged'"),
    ("`canonical_json::read`, `write` (`unchanged`)", "", "`canonical_json::read`: it has no clause 'unchanged'"),
    ("`machine::target_from_counted` (`free`)", "", "it has no clause 'free': 'free' is a field of CountsFew"),
    ("`machine::target_from_counted` (`agrees` of `CountsFew`)", "", "'agrees' is no field of 'CountsFew'"),
    ("`machine::target_from_counted` (`crash` of `Applies`)", "", "no clause of it cites 'Applies'"),
    ("`http_serve::serve_list` (`count` of `Serves`)", "", "'Serves' is no record"),
    ("`canonical_json::read` (`Applies`)", "", "no clause of it cites 'Applies'"),
    ("`client::fetch_from_state`", "", "the program does not call it"),
    ("`machine::get_from`", "", "the program does not call it"),
    ("`canonical_json::one_spelling`", "", "it is a law, and stands among calls"),
    ("", "law `canonical_json::read`", "it is no law"),
    ("", "tests `canonical_json::read`", "the program calls it"),
    ("", "nobody `client::fetch_from_state`", "tests call it"),
    ("", "tests `machine::get_from`", "no test calls it"),
    ("", "`canonical_json::one_fault`", "no word says whether it is a law"),
    ("", "", "names no call"),
]

# Rows that are right.
RIGHT = [
    ("`canonical_json::read`; `write` (`unchanged`)", "laws `one_spelling`, `one_fault`"),
    ("`machine::target_from_counted` (`free` of `CountsFew`, `digest`)", "nobody `get_from`"),
    ("`Store::apply` (`crash` of `Applies`, `Applies`)", "law `store::trees_tell_state`; tests `client::fetch_from_state` (`agrees` of `FetchesFrom`)"),
]


def misses():
    """What is not refused of that which is wrong, or refused of that which is right."""
    sources, listed = all_sources(), listed_in(read(DEFINITIONS))
    rows, missed = Rows(sources, Specs(sources.named, listed)), []

    def see(what, found, says):
        if not any(says in fault for fault in found) if says else found:
            missed.append(f"{what}: {says or 'nothing'} has to be said, and not: {found}")

    for second, third, says in WRONG:
        see(f"| {second} | {third} |", [*rows.faults([["row", second, third]])], says)
    for second, third in RIGHT:
        see(f"| {second} | {third} |", [*rows.faults([["row", second, third]])], None)
    see("a call in the text", [*proved_faults(f"`lms::verfy`\n| {' | '.join(HEADING)} |\n|---|---|---|\n| x | `lms::verify` | |", rows)], "no public call `lms::verfy`")
    see("no table", [*proved_faults("| Promise | Call |\n|---|---|\n| x | `lms::verify` |", rows)], "no table has the columns")
    short = Specs(sources.named, listed - {("path_patterns", "Grammar")})
    see("a file that is not listed", [*definition_faults(short)], "imports path_patterns/specs/Grammar, which is not listed")
    see("a call over such a file", [*Rows(sources, short).faults([["row", "`TargetPath::read`", ""]])], "it cites IsTargetPath of path_patterns/specs/Grammar")
    more = Specs(sources.named, listed)
    for name in ("store.specs.steps.Doing", "canonical_json.specs.View", "machine.specs.Serving"):
        more.given["crates/limits/specs/Limits.antt"] = f"use Rattle.{name}.{{Any}}\n"
        says = "limits/specs/Limits imports store/specs/steps.Doing, which is not listed" if "steps" in name else None
        see(f"an import of {name}", [*definition_faults(more)], says)
    see("a file that is not there", [*definition_faults(Specs(sources.named, listed | {("lms", "Nothing")}))], "there is no crates/lms/specs/Nothing.antt")
    return missed


def main(words):
    os.chdir(TOP)
    if words not in ([], ["--selftest"]):
        print(__doc__, end="", file=sys.stderr)
        return 2
    found = misses() if words else faults()
    for fault in found:
        print(fault)
    if words:
        print(f"proved_rows: {len(WRONG)} wrong rows and {len(RIGHT)} right ones, and lists, {len(found)} not judged as they have to be")
    else:
        print(f"proved_rows: {len(table(read(PROVED), HEADING) or ())} rows, {len(listed_in(read(DEFINITIONS)))} files, {len(found)} faults")
    return 1 if found else 0


if __name__ == "__main__":
    sys.exit(main(sys.argv[1:]))
