#!/usr/bin/env python3
"""Makes the files of example/: signed metadata and target files, from test seeds that anybody knows.

    gate/example.py FOLDER     writes the files into the folder, and prints the SHA-256 and the name of each, as 'sha256sum' reads them

A repository of two targets, one of them empty; three documents after it that are refused together; and two more of a target with a layout, of which
the second has a link of the wrong key. The documents and the keys are those of model/.
"""
import os
import sys

sys.path.insert(0, os.path.join(os.path.dirname(os.path.realpath(__file__)), "..", "model"))

import signed_documents as made
from test_keys import KeyOfSeed

# The first second of 2100.
EXPIRES = 4102444800

HELLO = b"Hello from a signed repository.\n"

# What the first step of the layout leaves, and what the second makes of it.
SOURCE = b"Hello from a supply chain.\n"
TOOL = b"Packed: Hello from a supply chain.\n"

# The keys by their test seeds: of the four roles and of the next root, of the layout's owner, of whoever does its two steps, and of somebody else.
ROOT, TIMESTAMP, SNAPSHOT, TARGETS, NEXT, OWNER, WRITER, PACKER, STRANGER = range(1, 10)

KEYS = {number: KeyOfSeed(f"{number:02x}" * 48, 4, 5) for number in range(1, 10)}

STEPS = [
    made.step("write", [KEYS[WRITER]], 1, [["DISALLOW", "*"]], [["CREATE", "source.txt"], ["DISALLOW", "*"]]),
    made.step(
        "pack",
        [KEYS[PACKER]],
        1,
        [["MATCH", "source.txt", "WITH", "PRODUCTS", "FROM", "write"], ["DISALLOW", "*"]],
        [["ALLOW", "source.txt"], ["CREATE", "tool.txt"], ["DISALLOW", "*"]],
    ),
]


def signed(document, *leaves):
    """The file of a document, with the signatures of these (key, leaf)."""
    text = made.canonical_json.write(document)
    return made.signed_file(document, [(KEYS[key].id, KEYS[key].sign_with(leaf, text).hex()) for key, leaf in leaves])


def said_of(version, file):
    return version, len(file), made.digest(file)


def root(version, key, *leaves):
    rules = {"root": key, "timestamp": TIMESTAMP, "snapshot": SNAPSHOT, "targets": TARGETS}
    return signed(made.root(version, EXPIRES, {role: ([KEYS[number]], 1) for role, number in rules.items()}), *leaves)


def targets(version, leaf, files, references=None):
    """Targets metadata that lists these files, some with a layout."""
    document = made.targets(version, EXPIRES, {path: (len(file), made.digest(file)) for path, file in files.items()})
    for path, reference in (references or {}).items():
        document["targets"][path]["custom"] = {"layout": reference}
    return signed(document, (TARGETS, leaf))


def sealed(version, listed):
    """Snapshot and timestamp of a version, over this targets metadata."""
    snapshot = signed(made.snapshot(version, EXPIRES, {"targets": said_of(version, listed)}), (SNAPSHOT, version - (version == 1)))
    return snapshot, signed(made.timestamp(version, EXPIRES, *said_of(version, snapshot)), (TIMESTAMP, version - (version == 1)))


def repository():
    """Leaf 0 of each key signs the document of its role."""
    listed = targets(1, 0, {"empty.txt": b"", "hello.txt": HELLO})
    snapshot, timestamp = sealed(1, listed)
    return {
        "root.json": root(1, ROOT, (ROOT, 0)),
        "timestamp.json": timestamp,
        "snapshot.json": snapshot,
        "targets.json": listed,
        "empty.txt": b"",
        "hello.txt": HELLO,
    }


def refused():
    """A root for another key, a timestamp that names version 3 of the snapshot alone, and a snapshot of version 2. Each is well signed."""
    return {
        "refused/root.json": root(2, NEXT, (ROOT, 1), (NEXT, 0)),
        "refused/timestamp.json": signed(made.timestamp(2, EXPIRES, 3), (TIMESTAMP, 1)),
        "refused/snapshot.json": signed(made.snapshot(2, EXPIRES, {"targets": (1,)}), (SNAPSHOT, 1)),
    }


def chain():
    """The next documents, of a target with a layout, and what that needs; then those after them, in which somebody else has signed the last link."""
    source, tool = made.digest(SOURCE), made.digest(TOOL)
    layout = signed(made.layout(EXPIRES, [KEYS[WRITER], KEYS[PACKER]], STEPS), (OWNER, 0))
    write = signed(made.link("write", {}, {"source.txt": source}), (WRITER, 0))
    packed = made.link("pack", {"source.txt": source}, {"source.txt": source, "tool.txt": tool})
    links = {"chain": signed(packed, (PACKER, 0)), "exchanged": signed(packed, (STRANGER, 0))}
    reference = made.layout_reference(
        [KEYS[OWNER]], 1, ["layouts/write.json", "layouts/pack.json"], "layouts/layout.json", "tool.txt", "pack"
    )
    files = {}
    for version, (folder, pack) in enumerate(links.items(), 2):
        needed = {"layouts/layout.json": layout, "layouts/pack.json": pack, "layouts/write.json": write}
        listed = targets(version, version - 1, {"empty.txt": b"", "hello.txt": HELLO, **needed, "tool.txt": TOOL}, {"tool.txt": reference})
        snapshot, timestamp = sealed(version, listed)
        documents = {"targets.json": listed, "snapshot.json": snapshot, "timestamp.json": timestamp}
        files |= {f"{folder}/{name}": file for name, file in documents.items()}
    files |= {"chain/layout.json": layout, "chain/write.json": write, "chain/pack.json": links["chain"]}
    return files | {"exchanged/pack.json": links["exchanged"], "chain/tool.txt": TOOL}


def main(folder):
    for name, file in {**repository(), **refused(), **chain()}.items():
        path = os.path.join(folder, name)
        os.makedirs(os.path.dirname(path), exist_ok=True)
        with open(path, "wb") as out:
            out.write(file)
        print(f"{made.digest(file)}  {name}")


if __name__ == "__main__":
    if len(sys.argv) != 2:
        sys.exit(__doc__)
    main(sys.argv[1])
