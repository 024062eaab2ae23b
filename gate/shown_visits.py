#!/usr/bin/env python3
"""Holds 'show PATH' to the visits of a search. 'gate/end_to_end' calls it.

    gate/shown_visits.py PROGRAM

'targets' delegates every path to 34 roles, and the last of them alone lists a file. A search makes 32 visits at most, so it does not come to
that role: the 32 roles are shown that it visits, no listing, and the denial that a request for the file gets. The third of these roles
expires first: from then on it ends each search, and is told of. Where the root has expired no search is made, and no role is shown. In the list of
targets the file stands as one that no search finds, with the same denial.
"""
import os
import subprocess
import sys
import tempfile

TOP = os.path.dirname(os.path.dirname(os.path.realpath(__file__)))
sys.path.insert(0, f"{TOP}/model")
from signed_documents import BEGIN, delegation, delegations, digest, root, signed_file, snapshot, targets, timestamp
from test_keys import Key

NOW, EXPIRES, SOONER = BEGIN + 100, BEGIN + 10_000, BEGIN + 5_000
ROLES = [f"r{number:02}" for number in range(1, 35)]
FILE = b"hello\n"


def documents():
    """The documents by their names, in the order in which they are offered."""
    key = Key(b"visits", 4, 5)
    top = {role: ([key], 1) for role in ("root", "snapshot", "targets", "timestamp")}
    every = delegations([key], [delegation(role, [key], 1, paths=["*"]) for role in ROLES])
    last = {"x.txt": (len(FILE), digest(FILE))}
    listed = {role: targets(1, SOONER if role == ROLES[2] else EXPIRES, last if role == ROLES[-1] else {}) for role in ROLES}
    signed = {
        "root": root(1, EXPIRES, top),
        "timestamp": timestamp(1, EXPIRES, 1),
        "snapshot": snapshot(1, EXPIRES, {role: (1,) for role in ["targets", *ROLES]}),
        "targets": targets(1, EXPIRES, {}, every),
        **listed,
    }
    return {role: signed_file(it, [key]) for role, it in signed.items()}


def said(program, *words):
    ran = subprocess.run([program, *words], capture_output=True, text=True)
    return ran.returncode, ran.stdout.splitlines(), ran.stderr.splitlines()


def visits_of(roles):
    return [f"  visit {role}" for role in roles]


def lines_of(program, db, moment):
    """What is shown of the target at the moment, without its first line. What denies it is the status and the last line of errors, too."""
    status, lines, errors = said(program, "show", "--at", str(moment), "--db", db, "x.txt")
    if status != 1 or not lines or f"  {errors[-1]}" != lines[-1]:
        sys.exit(f"show at {moment}: status {status}, {errors}")
    return lines[lines.index("target x.txt") + 1:] if "target x.txt" in lines else lines


def list_of(program, db, moment):
    """The list of the targets at the moment."""
    status, lines, errors = said(program, "show", "--at", str(moment), "--db", db, "--list")
    if status:
        sys.exit(f"show --list at {moment}: status {status}, {errors}")
    return lines


def main(program):
    with tempfile.TemporaryDirectory() as folder:
        db, at = f"{folder}/r.db", ["--at", str(NOW)]
        files = documents()
        for role, text in files.items():
            with open(f"{folder}/{role}.json", "wb") as it:
                it.write(text)
        begun = said(program, "init", *at, "--db", db, f"{folder}/root.json")
        offered = [f"{role}:{folder}/{role}.json" for role in files if role != "root"]
        published = said(program, "publish", *at, "--db", db, *offered)
        shown = {moment: lines_of(program, db, moment) for moment in (NOW, SOONER, EXPIRES)}
        lists = {moment: list_of(program, db, moment) for moment in shown}
    wanted = {
        NOW: [*visits_of(["targets", *ROLES[:31]]), "  denied 34 TooManyRoles"],
        SOONER: [*visits_of(["targets", *ROLES[:3]]), f"  ended by {ROLES[2]}: it has expired", "  denied 31 RoleExpired"],
        EXPIRES: ["  denied 11 RootExpired"],
    }
    for what, found, right in (
        ("init", begun, (0, ["begun"], [])),
        ("publish", published, (0, [f'{{"accepted":{len(offered)},"same":0}}'], [])),
        *[(f"show at {moment}", shown[moment], wanted[moment]) for moment in wanted],
        *[(f"show --list at {moment}", lists[moment], [f"x.txt - - -{wanted[moment][-1][1:]}"]) for moment in wanted],
    ):
        if found != right:
            sys.exit(f"{what}: {found}\nand not {right}")
    print(2 + len(lists) + sum(map(len, wanted.values())))


main(*sys.argv[1:])
