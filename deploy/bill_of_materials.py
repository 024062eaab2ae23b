#!/usr/bin/env python3
"""Prints an SPDX 2.3 list (JSON) of what the program stands on: each crate of crates.txt, and each crate of the toolchain's kit that it names.

    deploy/bill_of_materials.py                  prints the list, once it is looked over
    deploy/bill_of_materials.py --check [FILE]   looks over the list, or over a list in a file, and prints what it has
    deploy/bill_of_materials.py --selftest       tries the look over lists that are wrong

A list has one package for each crate and one for the kit, each id once, ends of relationships that are there, just the DEPENDS_ON of crates.txt, and
no package that the program has nothing to do with. Versions and licences of the kit's crates are those of deploy/kit_crates.txt. Where the kit
is there ('rt'), they are compared with its pages. What the kit's crates stand on in their turn is the kit's own, and is not listed.

The list is the same wherever it is made. Its moment is SOURCE_DATE_EPOCH, or that of the last commit. It takes a second.
"""
import copy
import datetime
import json
import os
import re
import shutil
import subprocess
import sys
import uuid
from collections import Counter

TOP = os.path.dirname(os.path.dirname(os.path.realpath(__file__)))
PROGRAM = "release"
KIT_LINE = re.compile(r"(\w+): (\S+?)(?: (\S+))?, (.+)")
UNKNOWN = "NOASSERTION"


def read(path):
    with open(f"{TOP}/{path}", encoding="utf-8") as file:
        return file.read()


def crates():
    """The libraries of each crate, as crates.txt has them."""
    lines = (line.split("#")[0].partition(":") for line in read("crates.txt").splitlines())
    return {name.strip(): libraries.split() for name, _, libraries in lines if name.strip()}


def kit_crates():
    """The kit's name, and of each of its crates the Rust crate that it was written after, its version and its licence."""
    lines = read("deploy/kit_crates.txt").splitlines()
    name = next(line for line in lines if line.startswith("# rattle-kit"))[2:]
    matches = (KIT_LINE.fullmatch(line) for line in lines if not line.startswith("#"))
    return name, {match[1]: match.groups()[1:] for match in matches}


def version():
    return re.search(r'VERSION: &str = "([^"]+)"', read("crates/cli_words/src/texts.rt"))[1]


def moment():
    seconds = os.environ.get("SOURCE_DATE_EPOCH")
    if seconds is None:
        run = subprocess.run(["git", "log", "-1", "--format=%ct"], cwd=TOP, check=False, capture_output=True, text=True)
        if run.returncode:
            sys.exit("bill_of_materials: no commit is there: set SOURCE_DATE_EPOCH")
        seconds = run.stdout
    return datetime.datetime.fromtimestamp(int(seconds), datetime.timezone.utc).strftime("%Y-%m-%dT%H:%M:%SZ")


def id_of(kind, name):
    """An id has letters, digits, '.' and '-' alone."""
    return f"SPDXRef-{kind}-{name.replace('_', '-')}"


def below(named, program):
    """The crates that a program stands on, and itself."""
    found, left = set(), [program]
    while left:
        name = left.pop()
        if name not in found:
            found.add(name)
            left += named.get(name, [])
    return found


def package(identity, name, its_version, licence, purpose, **more):
    return {
        "SPDXID": identity,
        "name": name,
        "versionInfo": its_version,
        "supplier": UNKNOWN,
        "downloadLocation": UNKNOWN,
        "filesAnalyzed": False,
        "licenseConcluded": UNKNOWN,
        "licenseDeclared": licence,
        "copyrightText": UNKNOWN,
        "primaryPackagePurpose": purpose,
        **more,
    }


def crate_package(name, its_version):
    is_program = os.path.exists(f"{TOP}/crates/{name}/src/main.rt")
    return package(id_of("crate", name), name, its_version, "NONE", "APPLICATION" if is_program else "LIBRARY")


def kit_package(kit, name, row):
    crate, its_version, licence = row
    said = f"Written after version {its_version} of the crate {crate} of Rust." if its_version else "It is no port of a crate of Rust."
    licence = UNKNOWN if licence == "-" else licence
    return package(id_of("kit", name), name, its_version or UNKNOWN, licence, "LIBRARY", comment=f"A crate of {kit}. {said}")


def relation(one, kind, other):
    return {"spdxElementId": one, "relationshipType": kind, "relatedSpdxElement": other}


def relations(named, kit, kit_named):
    ids = {name: id_of("kit", name) for name in kit_named} | {name: id_of("crate", name) for name in named}
    program = ids[PROGRAM]
    yield relation("SPDXRef-DOCUMENT", "DESCRIBES", program)
    yield relation(id_of("kit", kit), "BUILD_TOOL_OF", program)
    yield from (relation(id_of("kit", kit), "CONTAINS", ids[name]) for name in kit_named)
    yield from (relation(ids[name], "DEPENDS_ON", ids.get(on, id_of("kit", on))) for name, libraries in named.items() for on in libraries)
    yield from (relation(ids[name], "TEST_OF", program) for name in named if name not in below(named, PROGRAM))


def bill():
    """The whole list. Its namespace is made of all that it says besides."""
    named, (kit, kit_named), its_version = crates(), kit_crates(), version()
    its_kit = package(id_of("kit", kit), kit, kit.removeprefix("rattle-kit-"), UNKNOWN, "OTHER")
    packages = [crate_package(name, its_version) for name in named]
    packages += [its_kit, *(kit_package(kit, name, row) for name, row in kit_named.items())]
    said = {
        "spdxVersion": "SPDX-2.3",
        "dataLicense": "CC0-1.0",
        "SPDXID": "SPDXRef-DOCUMENT",
        "name": f"{PROGRAM}-{its_version}",
        "creationInfo": {"created": moment(), "creators": [f"Tool: bill_of_materials.py-{its_version}"]},
        "packages": packages,
        "relationships": list(relations(named, kit, kit_named)),
    }
    return {**said, "documentNamespace": uuid.uuid5(uuid.NAMESPACE_URL, json.dumps(said)).urn}


def head_faults(said):
    for member in ("spdxVersion", "dataLicense", "SPDXID", "name", "documentNamespace", "creationInfo"):
        if not said.get(member):
            yield f"the list has no {member}"
    for one in said["packages"]:
        if not one.get("name") or not one.get("downloadLocation") or not re.fullmatch(r"SPDXRef-[A-Za-z0-9.-]+", one.get("SPDXID", "")):
            yield f"a package has no name, no place or no id: {one.get('SPDXID')}"


def package_faults(said):
    """One package a crate, and one for the kit; each id once."""
    named, (kit, _) = crates(), kit_crates()
    wanted = {*named, *(on for libraries in named.values() for on in libraries), kit}
    found = Counter(one.get("name") for one in said["packages"])
    yield from (f"no package of the crate {name}" for name in sorted(wanted - found.keys()))
    yield from (f"a package of no crate: {name}" for name in sorted(found.keys() - wanted))
    yield from (f"{count} packages of the crate {name}" for name, count in found.items() if count > 1)
    yield from (f"{count} packages have the id {one}" for one, count in Counter(one.get("SPDXID") for one in said["packages"]).items() if count > 1)


def relation_faults(said):
    """Each end is there, and is led to from the document; what depends on what is what crates.txt says."""
    names = {one["SPDXID"]: one["name"] for one in said["packages"]}
    ends = [(one["spdxElementId"], one["relationshipType"], one["relatedSpdxElement"]) for one in said["relationships"]]
    yield from (f"no package has the id {end}" for one, _, other in ends for end in (one, other) if end not in names and end != "SPDXRef-DOCUMENT")
    found = Counter((names.get(one), names.get(other)) for one, kind, other in ends if kind == "DEPENDS_ON")
    wanted = Counter((name, on) for name, libraries in crates().items() for on in libraries)
    yield from (f"crates.txt does not say that {one} depends on {other}" for one, other in (found - wanted))
    yield from (f"it is not said that {one} depends on {other}" for one, other in (wanted - found))
    beside = {}
    for one, _, other in ends:
        beside.setdefault(one, []).append(other)
        beside.setdefault(other, []).append(one)
    reached = below(beside, "SPDXRef-DOCUMENT")
    yield from (f"nothing leads to {name}" for one, name in names.items() if one not in reached)


def kit_faults():
    """What deploy/kit_crates.txt says, next to the kit's own pages and to deploy/copyright. Without the kit nothing is compared with its pages."""
    kit, named = kit_crates()
    page = read("deploy/copyright")
    yield from (f"deploy/copyright does not name {name}" for name, row in named.items() if row[2] != "-" and not re.search(rf"\b{name}\b", page))
    if not shutil.which("rt"):
        return
    said = subprocess.run(["rt", "version"], check=True, capture_output=True, text=True).stdout
    if not said.startswith(f"{kit} "):
        yield f"deploy/kit_crates.txt is of {kit}, and this kit is {said.strip()}"
        return
    folder = os.path.dirname(subprocess.run(["rt", "doc"], check=True, capture_output=True, text=True).stdout.strip())
    for name, (crate, its_version, _) in named.items():
        page = f"{folder}/rattle/{name}/README.md"
        if not os.path.exists(page):
            yield f"the kit has no crate {name}"
            continue
        with open(page, encoding="utf-8") as file:
            text = file.read().replace("`", "")
        if its_version and f"{crate} {its_version}" not in text:
            yield f"the kit's page of {name} does not name {crate} {its_version}"


def faults(said):
    return [*head_faults(said), *package_faults(said), *relation_faults(said)]


def wrong_lists(said):
    """Lists that are wrong, each with what it is."""
    for what, change in {
        "an id twice": lambda it: it["packages"][1].update(SPDXID=it["packages"][0]["SPDXID"]),
        "a crate twice": lambda it: it["packages"].append({**it["packages"][0], "SPDXID": "SPDXRef-other"}),
        "a crate that is left out": lambda it: it["packages"].pop(0),
        "a package of no crate": lambda it: it["packages"].append({**it["packages"][0], "SPDXID": "SPDXRef-other", "name": "other"}),
        "an end that is not there": lambda it: it["relationships"][0].update(relatedSpdxElement="SPDXRef-other"),
        "an edge that is left out": lambda it: it["relationships"].remove(next(one for one in it["relationships"] if one["relationshipType"] == "DEPENDS_ON")),
        "an edge that crates.txt has not": lambda it: it["relationships"].append(relation(id_of("crate", "limits"), "DEPENDS_ON", id_of("kit", "clap"))),
        "an edge twice": lambda it: it["relationships"].append(next(one for one in it["relationships"] if one["relationshipType"] == "DEPENDS_ON")),
        "an id of other characters": lambda it: it["packages"][0].update(SPDXID="SPDXRef-a_b"),
        "no namespace": lambda it: it.pop("documentNamespace"),
    }.items():
        wrong = copy.deepcopy(said)
        change(wrong)
        yield what, wrong


def selftest(said):
    passed = [what for what, wrong in wrong_lists(said) if not faults(wrong)]
    for what in passed:
        print(f"bill_of_materials: a list with {what} is taken")
    print(f"bill_of_materials: {sum(1 for _ in wrong_lists(said))} wrong lists, {len(passed)} of them taken")
    return 1 if passed else 0


def main(words):
    said = bill()
    if words == ["--selftest"]:
        return selftest(said)
    if words[:1] == ["--check"] and len(words) == 2:
        with open(words[1], encoding="utf-8") as file:
            said = json.load(file)
    elif words not in ([], ["--check"]):
        print(__doc__, end="", file=sys.stderr)
        return 2
    found = [*faults(said), *kit_faults()]
    for fault in found:
        print(f"bill_of_materials: {fault}", file=sys.stderr)
    if found:
        return 1
    if words:
        print(f"bill_of_materials: {len(said['packages'])} packages, {len(said['relationships'])} relationships, no fault")
    else:
        print(json.dumps(said, indent=1))
    return 0


if __name__ == "__main__":
    sys.exit(main(sys.argv[1:]))
