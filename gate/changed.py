#!/usr/bin/env python3
"""Changes a target's bytes in the database file behind the built server's back: it answers 503 for this target, and serves on.

    gate/changed.py [RELEASE]       the program, out/release where none is named

The repository has so many further blobs that the server no longer has the target's page when it is asked for it.
"""
import hashlib
import os
import random
import sqlite3
import subprocess
import sys
import tempfile
from pathlib import Path

from served import AT, RELEASE, TOP, Server, Wrong, put, run, want, without_reasons

sys.path.insert(0, f"{TOP}/crates/measure")
from serve_rates import repository  # noqa: E402

# A server keeps at most 8 MiB of its file in memory.
BLOBS = 48
MEBIBYTE = 1048576
GRANTED = b"HTTP/1.1 200 OK\r\n"
UNAVAILABLE = (
    b"HTTP/1.1 503 Service Unavailable\r\nContent-Type: application/json\r\nContent-Length: 20\r\nConnection: close\r\n\r\n"
    b'{"fault":"database"}'
)


def ask(name):
    return b"GET /%s HTTP/1.1\r\n\r\n" % name.encode()


def made(room, files, release):
    """A repository that lists the files, with the files and so many further blobs of 1 MiB."""
    db = f"{room}/repository.db"
    repository(Path(room), files)
    run("init", *AT, "--db", db, f"{room}/root.json", release=release)
    run("publish", *AT, "--db", db, *(f"{role}:{room}/{role}.json" for role in ("timestamp", "snapshot", "targets")), release=release)
    connection = sqlite3.connect(db)
    for data in [*files.values(), *(random.randbytes(MEBIBYTE) for _ in range(BLOBS))]:
        connection.execute("INSERT INTO blob VALUES (?, ?)", (hashlib.sha256(data).hexdigest(), data))
    connection.commit()
    connection.close()
    return db


def read_early():
    """Bytes with a low digest: an opening reads by digest, so that it reads most of the further blobs after them."""
    while True:
        data = random.randbytes(MEBIBYTE)
        if hashlib.sha256(data).hexdigest() < "2":
            return data


def change(db, data):
    """Turns one bit in the middle of the bytes in the file, which stand there in pieces of a page."""
    piece = data[MEBIBYTE // 2:][:512]
    with open(db, "r+b") as file:
        place = file.read().index(piece)
        file.seek(place)
        file.write(bytes([piece[0] ^ 1]))


def serves_on(room, release):
    files = {"large": read_early(), "small": b"small"}
    db = made(room, files, release)
    with Server(db, release=release) as server:
        change(db, files["large"])
        for _ in range(2):
            reply = server.ask(ask("targets/large"))
            want(reply == UNAVAILABLE, f"a changed target: {reply[:200]!r}")
            want(server.ask(ask("targets/small")).startswith(GRANTED), "another target after it")
        want(server.ask(ask("metadata/timestamp.json")).startswith(GRANTED), "metadata after it")
        want(server.ask(put(b"new")).endswith(b'{"stored":true}'), "an upload after it")
        want(server.errors() == b"", f"the server says {server.errors()!r}")
    ended = subprocess.run([release, "prune", *AT, "--db", db], capture_output=True)
    want((ended.returncode, without_reasons(ended.stderr)) == (3, b"fault damaged\n"), f"the changed file is opened: {ended!r}")


def main(words):
    release = os.path.realpath(words[0]) if words else RELEASE
    with tempfile.TemporaryDirectory() as room:
        try:
            serves_on(room, release)
        except (Wrong, OSError, subprocess.SubprocessError) as error:
            print(f"changed: {error}")
            return 1
    print("changed: a changed target is answered 503, and all else is served")
    return 0


if __name__ == "__main__":
    sys.exit(main(sys.argv[1:]))
