#!/usr/bin/env python3
"""Holds what 'show --json' prints to docs/show.schema.json: the shapes alone.

    gate/show_schema.py FILE ..

'gate/end_to_end' calls it for the values that it has printed, and 'gate/documents' has it look over those of the example. It knows these words
of JSON Schema and no others: '$ref' into '$defs', 'anyOf', 'type', 'minimum', 'pattern', 'items', 'properties', 'required' and
'additionalProperties' (false). Titles and descriptions are for people.
"""
import copy
import json
import os
import re
import subprocess
import sys
import tempfile

TOP = os.path.dirname(os.path.dirname(os.path.realpath(__file__)))
PROGRAM = f"{TOP}/crates/release/out/release"
AT = ["--at", "1893456000"]
KINDS = {"object": dict, "array": list, "string": str, "boolean": bool, "null": type(None)}
WORDS = {"$ref", "$defs", "$schema", "anyOf", "type", "minimum", "pattern", "items", "properties", "required", "additionalProperties", "title", "description"}


def the_schema():
    with open(f"{TOP}/docs/show.schema.json", encoding="utf-8") as file:
        return json.load(file)


def is_of(value, kind):
    if kind == "integer":
        return isinstance(value, int) and not isinstance(value, bool)
    return isinstance(value, KINDS[kind])


def faults_of_members(value, schema, whole, at):
    known = schema.get("properties", {})
    yield from (f"{at} lacks '{name}'" for name in schema.get("required", []) if name not in value)
    for name, member in value.items():
        if name in known:
            yield from faults_of(member, known[name], whole, f"{at}.{name}")
        elif schema.get("additionalProperties") is False:
            yield f"{at} has '{name}'"


def faults_of(value, schema, whole, at="it"):
    """Where the value is not of the schema, which is a part of the whole one."""
    if "$ref" in schema:
        yield from faults_of(value, whole["$defs"][schema["$ref"].removeprefix("#/$defs/")], whole, at)
    elif "anyOf" in schema:
        found = [[*faults_of(value, one, whole, at)] for one in schema["anyOf"]]
        if all(found):
            yield f"{at} is none of these: {'; '.join(one[0] for one in found)}"
    else:
        kinds = schema["type"] if isinstance(schema["type"], list) else [schema["type"]]
        if not any(is_of(value, kind) for kind in kinds):
            yield f"{at} is not of the type {' or '.join(kinds)}: {value!r}"
        elif isinstance(value, dict):
            yield from faults_of_members(value, schema, whole, at)
        elif isinstance(value, list):
            for index, item in enumerate(value):
                yield from faults_of(item, schema["items"], whole, f"{at}[{index}]")
        elif isinstance(value, str) and not re.search(schema.get("pattern", ""), value):
            yield f"{at} does not match {schema['pattern']}: {value!r}"
        elif is_of(value, "integer") and value < schema.get("minimum", value):
            yield f"{at} is less than {schema['minimum']}: {value}"


def words_of(schema):
    """The words of the schema itself, and not those of members that it describes."""
    if isinstance(schema, list):
        for one in schema:
            yield from words_of(one)
    elif isinstance(schema, dict):
        yield from schema
        for word, value in schema.items():
            yield from words_of([*value.values()] if word in ("properties", "$defs") else value)


ID = "0" * 64
KEY = {"id": ID, "name": None, "new_name": False}
ROW = {
    "covers": [], "days": -3, "depth": 0, "due": True, "expires": 5, "held": True, "keys": [{"id": ID, "left": 1, "most": 32, "name": "a"}], "layouts": 0,
    "low": True, "prefixes": False, "role": "root", "targets": 0, "terminating": False, "threshold": 1, "version": 1,
}
USED = {"most": 4096, "near": False, "used": 1}
LIMITS = {"documents": [{"bytes": USED, "role": "targets"}], "roles": USED, "rows": USED, "target_files": USED}
RULE = {"by": {"role": "root", "version": 1}, "met": False, "signed": [], "threshold": 1, "unsigned": [KEY]}
RIGHT = [
    {"limits": LIMITS, "now": 0, "rows": [ROW]},
    [{"denied": {"name": "NotFound", "number": 35}, "length": None, "path": "a", "role": None, "sha256": None}],
    {
        "answer": {"at": None, "denied": None, "ready": True}, "layouts": [], "links": [], "next": [["release", "sign"]], "now": 0,
        "drafts": [{"bytes": USED, "changes": ["+ a"], "days": None, "expires": None, "held": 0, "role": "root", "rules": [RULE], "version": 1}],
    },
]


def wrong():
    """Values of which each has one wrong place."""
    changes = [
        (0, lambda it: it.pop("now")),
        (0, lambda it: it.update(more=1)),
        (0, lambda it: it["rows"][0].update(days="3")),
        (0, lambda it: it["rows"][0].update(due=1)),
        (0, lambda it: it["rows"][0].update(version=True)),
        (0, lambda it: it["rows"][0].update(expires=-1)),
        (0, lambda it: it["rows"][0]["keys"][0].update(id="0")),
        (0, lambda it: it.pop("limits")),
        (0, lambda it: it["limits"]["documents"][0].pop("role")),
        (0, lambda it: it["limits"]["rows"].update(used="1")),
        (1, lambda it: it[0].update(denied=35)),
        (1, lambda it: it[0].update(length="1")),
        (2, lambda it: it.update(next=["next: release sign"])),
        (2, lambda it: it["answer"].pop("at")),
        (2, lambda it: it["drafts"][0].pop("bytes")),
        (2, lambda it: it["drafts"][0]["rules"][0]["unsigned"].append("a")),
    ]
    for which, change in changes:
        value = copy.deepcopy(RIGHT[which])
        change(value)
        yield value


def misses():
    """What this would not find in values that are made up, and words of the schema that it does not know."""
    schema = the_schema()
    yield from (f"show_schema: it does not know '{word}'" for word in sorted({*words_of(schema)} - WORDS))
    for value in RIGHT:
        yield from (f"show_schema: a right value is wrong: {fault}" for fault in faults_of(value, schema, schema))
    yield from (f"show_schema: a wrong value is right: {value}" for value in wrong() if not [*faults_of(value, schema, schema)])


def the_program():
    if os.access(PROGRAM, os.X_OK):
        return PROGRAM
    return subprocess.run([f"{TOP}/gate/unproved"], capture_output=True, text=True, check=True, cwd=TOP).stdout.split()[-1]


def make_key_file(here):
    """The key object of a key of the example's root, as 'key' prints it."""
    with open(f"{here}/root.json", encoding="utf-8") as file:
        _, key = min(json.load(file)["signed"]["keys"].items())
    with open(f"{here}/one.key", "w", encoding="utf-8") as file:
        print(json.dumps(key, separators=(",", ":"), sort_keys=True), file=file)


def preparations():
    """The commands before anything is shown: of hello.txt, empty.txt and the chain of tool.txt all but empty.txt is put."""
    yield ["init", "--db", "r.db", "root.json"]
    yield from (["put", "--db", "r.db", name] for name in ("hello.txt", *(f"chain/{name}" for name in ("layout.json", "write.json", "pack.json", "tool.txt"))))
    yield ["publish", "--db", "r.db", *(f"{role}:chain/{role}.json" for role in ("timestamp", "snapshot", "targets"))]
    yield ["draft", "--db", "r.db", "--in", "d", "targets", "--add", "hello.txt", "--add", "new.txt=empty.txt"]
    yield ["draft", "--in", "d", "layout", "--target", "new.txt", "--owners", "one.key", "make=one.key:new.txt"]
    yield ["draft", "--in", "l", "link", "--step", "make", "--products", "hello.txt"]


SHOWN = [
    (0, ["--db", "r.db"]),
    (0, ["--db", "r.db", "tool.txt"]),
    (1, ["--db", "r.db", "none"]),
    (0, ["--db", "r.db", "--list"]),
    (0, ["--in", "d"]),
    (1, ["--in", "d", "--db", "r.db"]),
    (0, ["--in", "l"]),
]


def faults():
    """What the program prints of the example that is not of the schema."""
    schema, program = the_schema(), the_program()
    with tempfile.TemporaryDirectory() as folder:
        here = f"{folder}/example"
        subprocess.run(["cp", "-r", f"{TOP}/example", here], check=True)
        make_key_file(here)
        for words in preparations():
            ran = subprocess.run([program, words[0], *AT, *words[1:]], cwd=here, capture_output=True, text=True, check=False)
            if ran.returncode:
                yield f"show_schema: {' '.join(words)}: {ran.stderr}"
        for status, words in SHOWN:
            ran = subprocess.run([program, "show", *AT, "--json", *words], cwd=here, capture_output=True, text=True, check=False)
            if ran.returncode != status:
                yield f"show --json {' '.join(words)}: status {ran.returncode}, {ran.stderr}"
            else:
                yield from (f"show --json {' '.join(words)}: {fault}" for fault in faults_of(json.loads(ran.stdout), schema, schema))


def main(paths):
    schema, found = the_schema(), []
    for path in paths:
        with open(path, encoding="utf-8") as file:
            found += [f"{path}: {fault}" for fault in faults_of(json.load(file), schema, schema)]
    print("\n".join(found), end="\n" if found else "")
    return 1 if found else 0


if __name__ == "__main__":
    sys.exit(main(sys.argv[1:]))
