#!/usr/bin/env python3
"""Serves a repository whose roles have keys of both schemes by the built program, from its first root to a client's file.

    gate/levels.py [RELEASE]       the program, out/release where none is named

The documents are made and signed by the second implementation (`model/signed_documents.py`), with keys of `model/test_keys.py`: the root has
an LMS key, the timestamp that key's wrapping of one level, the snapshot and the targets HSS keys of several levels, and the delegated role both
schemes in one rule. A file whose lower level has another bit is denied 30, and one that is signed by a key and its wrapping alone is 3.
"""
import os
import subprocess
import sys
import tempfile

from served import AT, TOP, Server, Wrong, want, without_reasons

sys.path.insert(0, f"{TOP}/model")
import signed_documents as make  # noqa: E402
from test_keys import KEYS, LEVELS, LMS_KEYS, HssKey  # noqa: E402

LATER = make.LAST_EXPIRY
TOOL = b"signed by keys of several levels\n"
PLAIN, WRAPPED = LMS_KEYS[12], HssKey(LMS_KEYS[12])
SEVERAL, DEEP = KEYS[6], KEYS[24]
PAIR = [LMS_KEYS[3], KEYS[13]]
RULES = {"root": ([PLAIN], 1), "timestamp": ([WRAPPED], 1), "snapshot": ([SEVERAL], 1), "targets": ([DEEP], 1)}


def documents():
    """Each role's file: the name of the delegated one is 'tools'."""
    listed = {"bin/tool": (len(TOOL), make.digest(TOOL))}
    delegating = make.delegations(PAIR, [make.delegation("tools", PAIR, 2, paths=["bin/*"])])
    return {
        "root": make.signed_file(make.root(1, LATER, RULES), [PLAIN]),
        "timestamp": make.signed_file(make.timestamp(1, LATER, 1), [WRAPPED]),
        "snapshot": make.signed_file(make.snapshot(1, LATER, {"targets": (1,), "tools": (1,)}), [SEVERAL]),
        "targets": make.signed_file(make.targets(1, LATER, {}, delegating), [DEEP]),
        "tools": make.signed_file(make.targets(1, LATER, listed), PAIR),
    }


def changed(text):
    """The delegated role's file with another bit in the last digit of its HSS signature, which is its lower level's."""
    signature = PAIR[1].sign(make.canonical_json.write(make.targets(1, LATER, {"bin/tool": (len(TOOL), make.digest(TOOL))}))).hex()
    other = signature[:-1] + "%x" % (int(signature[-1], 16) ^ 1)
    return text.replace(signature.encode(), other.encode())


class Repository:
    """A database that is published to, and what the program said."""

    def __init__(self, folder, release):
        self.folder, self.release, self.db = folder, release, f"{folder}/repository.db"

    def run(self, *words):
        ended = subprocess.run([self.release, *words], capture_output=True, text=True)
        return ended.returncode, ended.stdout, without_reasons(ended.stderr)

    def file(self, name, text):
        with open(f"{self.folder}/{name}", "wb") as file:
            file.write(text)
        return f"{self.folder}/{name}"

    def publish(self, files):
        words = [f"{role}:{self.file(role, text)}" for role, text in files.items() if role != "root"]
        return self.run("publish", *AT, "--db", self.db, *words)


def is_published(repository):
    """The repository begins with the root and takes the four files together, but not where one bit of the lowest level is another."""
    files = documents()
    both = make.signed_file(make.root(1, LATER, {**RULES, "root": ([PLAIN, WRAPPED], 1)}), [PLAIN])
    found = repository.run("init", *AT, "--db", repository.db, repository.file("both", both))
    want(found == (1, "", "denied 3 WrongShape\n"), f"a key beside its wrapping: {found}")
    found = repository.run("init", *AT, "--db", repository.db, repository.file("root", files["root"]))
    want(found == (0, "begun\n", ""), f"the root: {found}")
    found = repository.publish({**files, "tools": changed(files["tools"])})
    want(found == (1, "", "denied 30 RoleThreshold at 3\n"), f"another bit: {found}")
    found = repository.publish(files)
    want(found == (0, '{"accepted":4,"same":0}\n', ""), f"the four files: {found}")
    found = repository.run("put", *AT, "--db", repository.db, repository.file("tool", TOOL))
    want(found == (0, f"{make.digest(TOOL)}\n", ""), f"the target's file: {found}")


def is_served(repository):
    """A server gives the target, and so does a client that begins with the root."""
    client, out = f"{repository.folder}/client.db", f"{repository.folder}/out"
    with Server(repository.db, release=repository.release) as server:
        reply = server.ask(b"GET /targets/bin/tool HTTP/1.1\r\n\r\n")
        want(reply.startswith(b"HTTP/1.1 200 OK\r\n") and reply.endswith(b"\r\n\r\n" + TOOL), f"the target: {reply!r}")
        place = ("--db", client, "--port", str(server.port))
        found = repository.run("init", *AT, "--db", client, f"{repository.folder}/root")
        want(found == (0, "begun\n", ""), f"a client's root: {found}")
        found = repository.run("update", *AT, *place)
        want(found == (0, "updated\n", ""), f"update: {found}")
        found = repository.run("get", *AT, *place, "--out", out, "bin/tool")
        want(found == (0, "written\n", ""), f"get: {found}")
    with open(out, "rb") as file:
        want(file.read() == TOOL, "what get writes")


def main(words):
    release = os.path.realpath(words[0]) if words else f"{TOP}/crates/release/out/release"
    with tempfile.TemporaryDirectory() as folder:
        repository = Repository(folder, release)
        try:
            is_published(repository)
            is_served(repository)
        except (Wrong, OSError) as error:
            print(f"levels: {error}")
            return 1
    print(f"levels: served by keys of 1 to {max(map(len, LEVELS.values()))} levels and LMS keys")
    return 0


if __name__ == "__main__":
    sys.exit(main(sys.argv[1:]))
