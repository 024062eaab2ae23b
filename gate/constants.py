"""No number twice: a constant of one meaning stands in one crate, and the others read it there.

A limit that one crate has for itself alone may stand in a second one that shows it, where PAIRS says so: then both are the same number.

Tools and tests say their own. Else two crates that have a constant of the same name and value are a fault,
and so are two that have one of the same number over 1,000, but for those numbers of which REASONS says that they mean something else in each place.
"""
import glob
import re

CONSTANT = re.compile(r"(?m)^ *(?:pub(?:\([a-z]+\))? )?const ([A-Z_0-9]+): [^=]+ = ([^;\n]+);")
REASONS = {
    "1024": "the bytes of a reply that are kept, and the hashes of a measurement",
    "4096": "what a repository holds, the bytes of a reply that an operator sees, the requests that a measurement sends, and the roles of a tree that is shown",
    "8192": "the bytes that are read at once from a connection and from a server, and those of a request's head",
    "86400": "the longest time that a command waits, and the seconds of a day",
    "4294967295": "the last version and length, and the most connections",
}


# A constant of a crate that lends it to nobody, and the one in a crate above that tells of it.
PAIRS = [(("metadata", "MOST_ROLES"), ("show_limits", "ROLES_LIMIT"))]


def constants(sources):
    """Each constant of these texts by their crates: its name, its value and its crate."""
    for crate, text in sources:
        for name, value in CONSTANT.findall(text):
            yield name, re.sub(r"(?<=\d)_(?=\d)", "", value.strip()), crate


def repeated(sources):
    """What two crates both say."""
    names, numbers = {}, {}
    for name, value, crate in constants(sources):
        names.setdefault((name, value), set()).add(crate)
        if value.isdigit() and int(value) > 1000 and value not in REASONS:
            numbers.setdefault(value, set()).add(crate)
    for (name, value), found in sorted(names.items()):
        if len(found) > 1:
            yield f"{name} is {value} in {', '.join(sorted(found))}: one of them has it"
    for value, found in sorted(numbers.items()):
        if len(found) > 1:
            yield f"{value} is a constant of {', '.join(sorted(found))}: one of them has it, or gate/constants.py says why not"


def unequal(sources):
    """The pairs of constants that are to be the same and are not."""
    found = {(crate, name): value for name, value, crate in constants(sources)}
    for below, above in PAIRS:
        if below not in found or found[below] != found.get(above):
            yield f"{above[1]} of {above[0]} is not the {below[1]} of {below[0]}"


def misses():
    """What this would not find in sources that are made up."""
    made = [("a", "pub const MOST: usize = 1_500;\n"), ("b", "const LARGEST: u32 = 1500;\n"), ("c", "const FEW: u8 = 3;\n"), ("d", "    const FEW: u8 = 3;\n")]
    said = [*repeated(made)]
    if len(said) != 2:
        yield f"constants: of two that are repeated it finds {len(said)}: {said}"
    if [*repeated([("a", "const FEW: u8 = 3;\nconst MANY: u8 = 3;\n"), ("b", "const OTHER: u8 = 3;\n")])]:
        yield "constants: a small number under another name is no fault"
    for value, faults_of_pairs in (("128", 0), ("127", 1)):
        pair = [("metadata", "const MOST_ROLES: usize = 128;\n"), ("show_limits", f"const ROLES_LIMIT: usize = {value};\n")]
        if len([*unequal(pair)]) != faults_of_pairs:
            yield f"constants: a pair of 128 and {value} is taken otherwise"


def faults():
    with open("crates.txt", encoding="utf-8") as file:
        tests = {line.split(":")[0] for line in file.read().split("# tools and tests")[1].splitlines()}
    sources = []
    for path in sorted(glob.glob("crates/*/src/**/*.rt", recursive=True)):
        if path.split("/")[1] in tests:
            continue
        with open(path, encoding="utf-8") as file:
            sources.append((path.split("/")[1], file.read()))
    yield from repeated(sources)
    yield from unequal(sources)
