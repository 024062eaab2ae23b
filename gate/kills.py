#!/usr/bin/env python3
"""Kills the built server at random moments of uploads and batches, and looks at what is left.

    gate/kills.py [ROUNDS [RELEASE]]       100 rounds, and the program out/release, where none are named

Each round sends uploads and a batch to a server, which is killed (kill -9) within a random time, and looks at a copy of both files, the
database and its log, as SQLite reads them: they are sound, each change that was acknowledged is there, and each other one wholly or not at
all. Then the server is started again, and says the same. Every ten rounds begin a new repository. Prints what is wrong, and ends with
status 1 then.
"""
import hashlib
import os
import random
import shutil
import sqlite3
import subprocess
import sys
import tempfile
import threading

from served import AT, EXAMPLE, RELEASE, ROLES, Server, Wrong, batch, put, read, run, want

ROUNDS_OF_ONE = 10
LONGEST = 1.2  # seconds until the kill, at most


class Wanted:
    """What a repository has to have, and what it may have."""

    def __init__(self):
        self.blobs, self.may, self.is_published, self.may_be_published = {}, {}, False, False


def is_reply(reply, status, body):
    return reply.startswith(b"HTTP/1.1 %s" % status) and reply.endswith(body)


def is_whole(reply):
    """A reply that the kill did not cut."""
    head, end, body = reply.partition(b"\r\n\r\n")
    return bool(end) and b"Content-Length: %d\r\n" % len(body) in head


def upload(server, wanted):
    data = random.randbytes(random.choice((0, 10, 5000, 70000, 400000, 1048576)))
    digest = hashlib.sha256(data).hexdigest()
    wanted.may[digest] = data
    reply = server.ask(put(data))
    if is_reply(reply, b"200 OK", b'{"stored":true}') or is_reply(reply, b"200 OK", b'{"stored":false}'):
        wanted.blobs[digest] = wanted.may.pop(digest)
    else:
        want(not is_whole(reply), f"an upload is answered {reply!r}")


def publish(server, wanted):
    body = batch()
    wanted.may_be_published = True
    reply = server.ask(b"POST /batch HTTP/1.1\r\nContent-Length: %d\r\n\r\n" % len(body) + body)
    if is_reply(reply, b"200 OK", b'{"accepted":3,"same":0}') or is_reply(reply, b"200 OK", b'{"accepted":0,"same":3}'):
        wanted.is_published = True
    else:
        want(not is_whole(reply), f"a batch is answered {reply!r}")


def change_until_killed(server, wanted):
    """Sends changes until the server is gone."""
    killer = threading.Timer(random.uniform(0, LONGEST), server.kill)
    killer.start()
    try:
        while True:
            if random.random() < 0.15:
                publish(server, wanted)
            else:
                upload(server, wanted)
    except OSError:
        return
    finally:
        killer.join()


def held(db, room):
    """The blobs and the names of the metadata in a copy of both files, as SQLite reads them."""
    copy = f"{room}/copy.db"
    for part in ("", "-wal", "-shm"):
        if os.path.exists(copy + part):
            os.remove(copy + part)
        if part != "-shm" and os.path.exists(db + part):
            shutil.copy(db + part, copy + part)
    connection = sqlite3.connect(copy)
    try:
        sound = connection.execute("PRAGMA integrity_check").fetchall()
        want(sound == [("ok",)], f"integrity_check: {sound!r}")
        blobs = dict(connection.execute("SELECT digest, bytes FROM blob"))
        named = dict(connection.execute("SELECT slot, bytes FROM current UNION ALL SELECT role, bytes FROM shelf"))
        return blobs, named
    finally:
        connection.close()


def look(db, room, wanted):
    """Compares what is there with what was acknowledged; what came through besides counts from here on."""
    blobs, named = held(db, room)
    for digest, data in wanted.blobs.items():
        want(blobs.get(digest) == data, f"an acknowledged blob of {len(data)} bytes is lost")
    for digest, data in blobs.items():
        want(digest in wanted.blobs or wanted.may.get(digest) == data, f"a blob of {len(data)} bytes is there that was not sent so")
        wanted.blobs[digest] = data
    whole = {role: read(f"{EXAMPLE}/{role}.json") for role in ROLES}
    want(named in ({}, whole), f"a part of a batch is there: {sorted(named)}")
    want(named or not wanted.is_published, "an acknowledged batch is lost")
    want(not named or wanted.may_be_published, "a batch is there that was not sent")
    wanted.is_published = bool(named)
    wanted.may = {}


def look_again(server, wanted):
    """The server that was started again has what was found."""
    for data in random.sample(sorted(wanted.blobs.values()), min(3, len(wanted.blobs))):
        want(is_reply(server.ask(put(data)), b"200 OK", b'{"stored":false}'), "a blob is not there after a start")
    reply = server.ask(b"GET /metadata/timestamp.json HTTP/1.1\r\n\r\n")
    status = b"200 OK" if wanted.is_published else b"404 Not Found"
    want(is_reply(reply, status, b"}"), "the batch is not there after a start")


def rounds(count, release, room):
    db = f"{room}/repository.db"
    for number in range(count):
        if number % ROUNDS_OF_ONE == 0:
            for part in ("", "-wal"):
                if os.path.exists(db + part):
                    os.remove(db + part)
            run("init", *AT, "--db", db, f"{EXAMPLE}/root.json", release=release)
            wanted = Wanted()
        with Server(db, release=release) as server:
            look_again(server, wanted)
            change_until_killed(server, wanted)
        look(db, room, wanted)
    with Server(db, release=release) as server:
        look_again(server, wanted)


def main(words):
    count = int(words[0]) if words else 100
    release = os.path.realpath(words[1]) if words[1:] else RELEASE
    with tempfile.TemporaryDirectory() as room:
        try:
            rounds(count, release, room)
        except (Wrong, subprocess.SubprocessError, sqlite3.Error) as error:
            print(f"kills: {error}")
            return 1
    print(f"kills: {count} rounds, nothing lost")
    return 0


if __name__ == "__main__":
    sys.exit(main(sys.argv[1:]))
