#!/usr/bin/env python3
"""Holds what is told before a limit of a repository is hit. 'gate/end_to_end' calls it.

    gate/near_limits.py PROGRAM

A snapshot that names 95 roles is told of by nothing but 'show', and one that names 96 of 128 by 'publish', 'show' and 'show --due'; with these
stands a document of just three quarters of 262,144 bytes, and one that has a byte less. What would take thousands of signatures is put into the
tables next to the program: documents that nobody has signed, then 3,071 of 4,096 rows and target files, and one more. A timestamp is published over
each, and last 'prune' takes them away.
"""
import json
import os
import sqlite3
import subprocess
import sys
import tempfile

TOP = os.path.dirname(os.path.dirname(os.path.realpath(__file__)))
sys.path.insert(0, f"{TOP}/model")
from signed_documents import BEGIN, delegation, delegations, digest, root, signed_file, snapshot, targets, timestamp
from test_keys import Key

NOW, EXPIRES = BEGIN + 100, BEGIN + 100 * 86400
AT = ["--at", str(NOW)]
QUARTERS = 262144 * 3 // 4
PRUNE = "'release prune' takes away what the snapshot does not list"
STAY = "a snapshot goes on naming each role that it named, so give what is new to roles that are there"
KEY = Key(b"limits", 1, 5)
checks = 0


def named(count):
    """So many names of roles, without 'targets'."""
    return [f"r{number:03}" for number in range(1, count)]


def padded(signed, size):
    """The document with a member that makes its signed file so long."""
    with_none = len(signed_file({**signed, "x": ""}, [KEY]))
    return signed_file({**signed, "x": "x" * (size - with_none)}, [KEY])


def documents():
    """The documents of a repository whose 'targets' delegate to two of the roles, by their names in the order in which they are offered."""
    every = delegations([KEY], [delegation(role, [KEY], 1, paths=[f"{role}/*"]) for role in ("r002", "r003")])
    return {
        "root": signed_file(root(1, EXPIRES, {role: ([KEY], 1) for role in ("root", "snapshot", "targets", "timestamp")}), [KEY]),
        "timestamp": signed_file(timestamp(1, EXPIRES, 1), [KEY]),
        "snapshot": snapshot_of(1),
        "targets": signed_file(targets(1, EXPIRES, {}, every), [KEY]),
    }


def snapshot_of(count):
    """A snapshot that names so many roles."""
    return signed_file(snapshot(1, EXPIRES, {role: (1,) for role in ["targets", *named(count)]}), [KEY])


def document_of(role):
    """The targets metadata of a role: one of three quarters of the most bytes, one of a byte less, and short ones."""
    sizes = {"r002": QUARTERS, "r003": QUARTERS - 1}
    return padded(targets(1, EXPIRES, {}), sizes[role]) if role in sizes else signed_file(targets(1, EXPIRES, {}), [])


def same(what, found, wanted):
    global checks
    if found != wanted:
        sys.exit(f"{what}: {found}\nand not {wanted}")
    checks += 1


class Room:
    """A folder with a database."""

    def __init__(self, program, folder):
        self.program, self.folder = program, folder
        self.db = f"{folder}/r.db"

    def run(self, *words):
        ran = subprocess.run([self.program, words[0], *AT, *words[1:]], capture_output=True, text=True, check=False)
        return ran.returncode, ran.stdout.splitlines(), ran.stderr.splitlines()

    def write(self, name, text):
        with open(f"{self.folder}/{name}", "wb") as it:
            it.write(text)
        return f"{self.folder}/{name}"

    def warned(self, *limits):
        """The warnings of these limits, each with its advice."""
        return [f"warning: {self.db}: {used} are used: {advice}" for used, advice in limits]

    def is_published(self, files, *limits):
        offered = [f"{role}:{self.write(f'{role}.json', text)}" for role, text in files.items() if role != "root"]
        wanted = (0, [f'{{"accepted":{len(offered)},"same":0}}'], self.warned(*limits))
        same("publish", self.run("publish", "--db", self.db, *offered), wanted)

    def is_begun(self, count):
        """The repository with a snapshot of one role; then, in its tables, one that names so many, with their documents."""
        files = documents()
        same("init", self.run("init", "--db", self.db, self.write("root.json", files["root"])), (0, ["begun"], []))
        self.is_published(files)
        with sqlite3.connect(self.db) as tables:
            tables.execute("UPDATE current SET bytes = ? WHERE slot = 'snapshot'", (snapshot_of(count),))
            for role in named(count):
                tables.execute("INSERT INTO shelf VALUES (?, 1, ?)", (role, document_of(role)))
        tables.close()

    def has_timestamp(self, version, *limits):
        """The next timestamp is published, and these limits are warned of."""
        self.is_published({"timestamp": signed_file(timestamp(version, EXPIRES, 1), [KEY])}, *limits)

    def lines(self):
        """The lines of 'show' after its table, and the status and the last lines of 'show --due'."""
        _, lines, _ = self.run("show", "--db", self.db)
        status, _, told = self.run("show", "--db", self.db, "--due", "0")
        return lines[lines.index(next(line for line in lines if line.startswith("rows "))):], status, told

    def limits(self):
        status, lines, told = self.run("show", "--db", self.db, "--json")
        same("show --json", (status, told), (0, []))
        self.write("shown", "\n".join(lines).encode())
        ran = subprocess.run([f"{TOP}/gate/show_schema.py", f"{self.folder}/shown"], capture_output=True, text=True, check=False)
        same("the shapes of show --json", (ran.returncode, ran.stdout), (0, ""))
        return json.loads(lines[0])["limits"]

    def put_rows(self, rows, files):
        """Puts rows of targets metadata, of versions that no snapshot lists, and target files that nothing lists."""
        with sqlite3.connect(self.db) as tables:
            for number in rows:
                text = signed_file(targets(number, EXPIRES, {}), [])
                tables.execute("INSERT INTO shelf VALUES ('r004', ?, ?)", (number, text))
            for number in files:
                text = b"%d" % number
                tables.execute("INSERT INTO blob VALUES (?, ?)", (digest(text), text))
        tables.close()


def used(count, most):
    return {"most": most, "near": count * 4 >= most * 3, "used": count}


def limits(rows, files, roles):
    long = [{"bytes": used(QUARTERS, 262144), "role": "r002"}]
    return {"documents": long, "roles": used(roles, 128), "rows": used(rows, 4096), "target_files": used(files, 4096)}


LONG = "r002 196608 of 262144 bytes !"
TOLD = "release: r002: it has 196608 of 262144 bytes"


def of_roles(program, folder):
    room = Room(program, folder)
    room.is_begun(95)
    room.has_timestamp(2)
    same("95 roles", room.lines(), (["rows 95 of 4096", "target files 0 of 4096", "roles 95 of 128", LONG], 1, [TOLD, "due"]))
    same("95 roles as JSON", room.limits(), limits(95, 0, 95))


def of_rows(program, folder):
    room = Room(program, folder)
    room.is_begun(96)
    room.has_timestamp(2, ("96 of 128 roles", STAY))
    told = ["release: roles: 96 of 128 are used", TOLD, "due"]
    same("96 roles", room.lines(), (["rows 96 of 4096", "target files 0 of 4096", "roles 96 of 128 !", LONG], 1, told))
    same("96 roles as JSON", room.limits(), limits(96, 0, 96))
    room.put_rows(range(2, 2 + 3071 - 96), range(3071))
    same("rows before three quarters", room.lines()[0][:2], ["rows 3071 of 4096", "target files 3071 of 4096"])
    room.has_timestamp(3, ("96 of 128 roles", STAY))
    room.put_rows([5000], [5000])
    lines, status, told = room.lines()
    same("rows at three quarters", lines[:2], ["rows 3072 of 4096 !", "target files 3072 of 4096 !"])
    same("due", (status, told[:2]), (1, ["release: rows: 3072 of 4096 are used", "release: target files: 3072 of 4096 are used"]))
    same("rows as JSON", room.limits(), limits(3072, 3072, 96))
    every = [("3072 of 4096 rows", PRUNE), ("3072 of 4096 target files", PRUNE), ("96 of 128 roles", STAY)]
    room.has_timestamp(4, *every)
    same("prune", room.run("prune", "--db", room.db), (0, ['{"blobs":3072,"rows":2976}'], []))
    same("after a prune", room.lines()[0][:2], ["rows 96 of 4096", "target files 0 of 4096"])


def main(program):
    for part in (of_roles, of_rows):
        with tempfile.TemporaryDirectory() as folder:
            part(program, folder)
    print(checks)


main(*sys.argv[1:])
