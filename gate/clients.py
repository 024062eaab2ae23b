#!/usr/bin/env python3
"""Holds the built client against mirrors that do wrong: status, standard error, the rows of its database and the file that it writes.

    gate/clients.py [RELEASE]     the program, out/release where none is named

A mirror serves what 'release export' writes of the example, and does wrong with one file or with all ('model/hostile_mirror.py'). The
cases run side by side, each over a database of its own. Prints what is wrong, and ends with status 1 then.
"""
import concurrent.futures
import functools
import hashlib
import http.server
import json
import os
import pty
import re
import shutil
import socket
import sqlite3
import subprocess
import sys
import tempfile
import threading
import time

from served import AT, EXAMPLE, RELEASE, TOP, Wrong, read, repository, run, want, without_reasons

HELLO = "50fe039463ca3069a2eec35c62c75eeb4221dba0b00ec35e32bffdc5fb42abc0.hello.txt"
QUERIES = {
    "root": "SELECT version, bytes FROM root ORDER BY version",
    "root2": "SELECT version, profile, bytes FROM root2 ORDER BY version",
    "current": "SELECT slot, version, bytes FROM current ORDER BY slot",
    "shelf": "SELECT role, version, bytes FROM shelf ORDER BY role, version",
    "blob": "SELECT digest, bytes FROM blob ORDER BY digest",
    "schema": "SELECT version FROM schema",
}
BROKEN = "fault network\n"
LACKING = "warning: port {port}: no timestamp\n"
UP = ("timestamp", "snapshot")
FETCHED = (*UP, "targets")


def rows_of(parts):
    """The rows of a client that holds the first root and these files of the example."""
    slots = [(name, 1, read(f"{EXAMPLE}/{name}.json")) for name in ("snapshot", "timestamp") if name in parts]
    shelf = [("targets", 1, read(f"{EXAMPLE}/targets.json"))] if "targets" in parts else []
    hello = read(f"{EXAMPLE}/hello.txt")
    blobs = [(hashlib.sha256(hello).hexdigest(), hello)] if "hello" in parts else []
    roots = [(1, 1, read(f"{EXAMPLE}/root.json"))]
    return {"root": [], "root2": roots, "current": slots, "shelf": shelf, "blob": blobs, "schema": [(2,)]}


def rows(db):
    """The rows of a database, read from a copy of it."""
    with tempfile.TemporaryDirectory() as room:
        for part in ("", "-wal"):
            if os.path.exists(db + part):
                shutil.copy(db + part, f"{room}/copy{part}")
        with sqlite3.connect(f"{room}/copy") as copy:
            return {table: copy.execute(query).fetchall() for table, query in QUERIES.items()}


class Mirror:
    """A mirror that does wrong, in a process of its own."""
    begun = []

    def __init__(self, folder, *words):
        script = f"{TOP}/model/hostile_mirror.py"
        self.process = subprocess.Popen([sys.executable, script, folder, *words], stdout=subprocess.PIPE, text=True)
        self.port = int(self.process.stdout.readline())
        Mirror.begun.append(self.process)

    def asked(self):
        """Ends the mirror, and gives the names that it was asked for."""
        self.process.kill()
        return self.process.communicate()[0].split()


class Plain(http.server.SimpleHTTPRequestHandler):
    """Python's own server of files, which speaks HTTP/1.0."""

    def log_message(self, *_):
        pass


class Clients:
    """A folder with an exported repository, and clients of it."""

    def __init__(self, release):
        self.release = release
        self.room = tempfile.mkdtemp()
        db = repository(self.room, release)
        run("put", *AT, "--db", db, f"{EXAMPLE}/empty.txt", release=release)
        self.folder = f"{self.room}/files"
        self.long = f"{self.room}/long"
        with open(self.long, "wb") as file:
            file.write(262145 * b"x")
        run("export", *AT, "--db", db, "--to", self.folder, release=release)

    def begun(self, parts):
        """A client's database that holds these files of the example, in a folder of its own."""
        db = f"{tempfile.mkdtemp(dir=self.room)}/client.db"
        run("init", *AT, "--db", db, f"{EXAMPLE}/root.json", release=self.release)
        if parts:
            mirror = Mirror(self.folder, "honest")
            run("update", *AT, "--db", db, "--port", str(mirror.port), release=self.release)
            if "targets" in parts:
                run("get", *AT, "--db", db, "--port", str(mirror.port), "--out", f"{db}.first", "hello.txt",
                    release=self.release)
            mirror.asked()
        want(rows(db) == rows_of(parts), f"the rows of a client that holds {parts}")
        return db

    def ends(self, what, status, said, error, *words):
        """The program ends so, and says this on standard output and standard error."""
        found = subprocess.run([self.release, *words], capture_output=True, text=True, timeout=400)
        wanted = (status, said, error)
        want((found.returncode, found.stdout, without_reasons(found.stderr)) == wanted,
             f"{what}: {(found.returncode, found.stdout, found.stderr)} in place of {wanted}")


def updates(clients, wrong, before, status, error, after, asked=None):
    """A client that holds these files is brought up to date from a mirror that does so."""
    what = f"update, {' '.join(wrong)}"
    db = clients.begun(before)
    mirror = Mirror(clients.folder, *wrong)
    words = ("update", *AT, "--db", db, "--port", str(mirror.port))
    clients.ends(what, status, "" if status else "updated\n", error.format(port=mirror.port), *words)
    names = mirror.asked()
    want(asked is None or names == asked, f"{what}: asked for {names}")
    want(rows(db) == rows_of(after), f"{what}: the rows")


def gets(clients, wrong, before, status, error, after, asked=None, path="hello.txt"):
    """A client that holds these files fetches a target from a mirror that does so. A file that stood there stays where none is granted."""
    what = f"get, {' '.join(wrong)}"
    db = clients.begun(before)
    folder = tempfile.mkdtemp(dir=clients.room)
    out = f"{folder}/out"
    with open(out, "w", encoding="ascii") as file:
        file.write("old")
    mirror = Mirror(clients.folder, *wrong)
    words = ("get", *AT, "--db", db, "--port", str(mirror.port), "--out", out, path)
    clients.ends(what, status, "" if status else "written\n", error, *words)
    names = mirror.asked()
    want(asked is None or names == asked, f"{what}: asked for {names}")
    want(rows(db) == rows_of(after), f"{what}: the rows")
    want(read(out) == (b"old" if status else read(f"{EXAMPLE}/{path}")), f"{what}: the file that is written")
    want(os.listdir(folder) == ["out"], f"{what}: it leaves {os.listdir(folder)}")


ROOT, TIMESTAMP, SNAPSHOT = "metadata/2.root.json", "metadata/timestamp.json", "metadata/1.snapshot.json"
TARGETS, FILE = "metadata/1.targets.json", f"targets/{HELLO}"
UPDATES = [
    (("honest",), (), 0, "", UP, [ROOT, TIMESTAMP, SNAPSHOT]),
    (("honest",), UP, 0, "", UP, [ROOT, TIMESTAMP]),
    (("other", TIMESTAMP), (), 1, "denied 12 TimestampThreshold\n", ()),
    (("other", SNAPSHOT), (), 1, "denied 18 SnapshotHash\n", ("timestamp",)),
    (("cut", TIMESTAMP), (), 1, "denied 2 NotCanonical\n", ()),
    (("cut", SNAPSHOT), (), 1, "denied 2 NotCanonical\n", ("timestamp",)),
    (("long", TIMESTAMP), (), 1, "denied 2 NotCanonical\n", ()),
    (("endless", TIMESTAMP), (), 3, BROKEN, ()),
    (("endless", SNAPSHOT), (), 3, BROKEN, ("timestamp",)),
    (("withhold", TIMESTAMP), (), 0, LACKING, ()),
    (("forbid", TIMESTAMP), (), 0, LACKING, ()),
    (("withhold", SNAPSHOT), (), 0, "", ("timestamp",)),
    (("file", ROOT, f"{EXAMPLE}/root.json"), (), 0, "", UP, 64 * [ROOT] + [TIMESTAMP, SNAPSHOT]),
    (("file", TIMESTAMP, f"{EXAMPLE}/snapshot.json"), (), 1, "denied 4 WrongType\n", ()),
    *(((wrong, TIMESTAMP), (), 3, BROKEN, ()) for wrong in ("fail", "move", "fields", "head", "nonsense", "close", "silent")),
    (("close",), UP, 3, BROKEN, UP),
]
GETS = [
    (("honest",), UP, 0, "", (*FETCHED, "hello"), [TARGETS, FILE]),
    (("close",), (*FETCHED, "hello"), 0, "", (*FETCHED, "hello"), []),
    (("honest",), (), 1, "denied 16 NoTimestamp\n", (), []),
    (("other", TARGETS), UP, 1, "denied 28 RoleHash\n", UP, [TARGETS]),
    (("file", TARGETS, f"{EXAMPLE}/chain/targets.json"), UP, 1, "denied 27 RoleLength\n", UP, [TARGETS]),
    (("cut", TARGETS), UP, 1, "denied 2 NotCanonical\n", UP, [TARGETS]),
    (("endless", TARGETS), UP, 3, BROKEN, UP, [TARGETS]),
    (("withhold", TARGETS), UP, 1, "denied 33 RoleMissing\n", UP, [TARGETS]),
    (("close", TARGETS), UP, 3, BROKEN, UP, [TARGETS]),
    (("other", HELLO), UP, 1, "denied 39 DigestMismatch\n", FETCHED, [TARGETS, FILE]),
    (("cut", HELLO), UP, 1, "denied 39 DigestMismatch\n", FETCHED, [TARGETS, FILE]),
    (("long", HELLO), UP, 3, BROKEN, FETCHED, [TARGETS, FILE]),
    (("endless", HELLO), UP, 3, BROKEN, FETCHED, [TARGETS, FILE]),
    (("withhold", HELLO), UP, 1, "denied 37 BlobMissing\n", FETCHED, [TARGETS, FILE]),
    (("close", HELLO), UP, 3, BROKEN, FETCHED, [TARGETS, FILE]),
    (("silent", HELLO), UP, 3, BROKEN, FETCHED, [TARGETS, FILE]),
]


GARBAGE = f"{EXAMPLE}/hello.txt"
# In place of this word a file stands that has a byte more than a document may have.
LONG = "LONG"
# What a mirror does that lies about the next root or about all, and what is told of it where another one is honest.
LIARS = [
    (("file", ROOT, GARBAGE), "denied 2 NotCanonical"),
    (("file", ROOT, LONG), "longer than its limit"),
    (("endless", ROOT), None),
    (("file", ROOT, f"{EXAMPLE}/root.json"), None),
    (("other", TIMESTAMP), "denied 12 TimestampThreshold"),
    (("file", TIMESTAMP, f"{EXAMPLE}/snapshot.json"), "denied 4 WrongType"),
    (("withhold",), None),
    (("fail",), None),
    (("close",), None),
    (("drip",), None),
]
# The same of a target, or its role's document. All mirrors together come first, so one that breaks off is passed over there.
TARGET_LIARS = [
    (("other", HELLO), "denied 39 DigestMismatch"),
    (("other", TARGETS), "denied 28 RoleHash"),
    (("endless", HELLO), None),
    (("withhold",), None),
    (("drip",), None),
]


def by_mirrors(clients, wrongs):
    """Mirrors that do so, and the words that name them in this order."""
    mirrors = [Mirror(clients.folder, *(clients.long if word == LONG else word for word in wrong)) for wrong in wrongs]
    urls = [f"http://127.0.0.1:{mirror.port}" for mirror in mirrors]
    return mirrors, urls, [word for url in urls for word in ("--mirror", url)]


def warned(urls, wrongs, told):
    """The warnings of the liars among the mirrors, in their order."""
    return "".join(f"warning: {url}: {told}\n" for url, wrong in zip(urls, wrongs) if told and wrong != ("honest",))


def an_honest_mirror_updates(clients, liar, told, wrongs):
    """Beside liars, in any order, one honest mirror brings a client up to date within the time of the call, and the liars are told."""
    what = f"update by {wrongs}"
    db = clients.begun(())
    mirrors, urls, places = by_mirrors(clients, wrongs)
    began = time.monotonic()
    clients.ends(what, 0, "updated\n", warned(urls, wrongs, told), "update", *AT, "--db", db, "--within", "60", *places)
    want(time.monotonic() - began < 70, f"{what}: it took over its time")
    for mirror in mirrors:
        mirror.asked()
    want(rows(db) == rows_of(UP), f"{what}: the rows, beside {liar}")


def an_honest_mirror_serves(clients, liar, told, wrongs):
    """Beside liars, in any order, one honest mirror gives a client the target that its server grants."""
    what = f"get by {wrongs}"
    db = clients.begun(UP)
    mirrors, urls, places = by_mirrors(clients, wrongs)
    out = f"{db}.out"
    # The joined turn takes each file from the first mirror that has one: a liar that stands after the honest one is not asked.
    lies = told if wrongs[0] == liar else None
    warnings = "".join(f"warning: {url}: {lies}\n" for url, wrong in zip(urls, wrongs[:wrongs.index(("honest",))]) if lies and wrong == liar)
    clients.ends(what, 0, "written\n", warnings, "get", *AT, "--db", db, "--within", "60", *places, "--out", out, "hello.txt")
    for mirror in mirrors:
        mirror.asked()
    want(read(out) == read(f"{EXAMPLE}/hello.txt"), f"{what}: the file that is written")


def orders(liar):
    """One honest mirror among three liars, in each place."""
    return [(*place * (liar,), ("honest",), *(3 - place) * (liar,)) for place in range(4)]


def only_liars(clients):
    """Where no mirror is honest the first denial is told, and what each of them did."""
    db = clients.begun(())
    wrongs = [("close",), ("other", TIMESTAMP), ("file", ROOT, GARBAGE)]
    mirrors, urls, places = by_mirrors(clients, wrongs)
    error = f"warning: {urls[1]}: denied 12 TimestampThreshold\nwarning: {urls[2]}: denied 2 NotCanonical\ndenied 12 TimestampThreshold\n"
    clients.ends("only liars", 1, "", error, "update", *AT, "--db", db, *places)
    for mirror in mirrors:
        mirror.asked()
    want(rows(db) == rows_of(()), "only liars: the rows")


def half_mirrors(clients):
    """Of two mirrors that have a half each, both together give a target."""
    db = clients.begun(UP)
    mirrors, _, places = by_mirrors(clients, [("withhold", TARGETS), ("withhold", HELLO)])
    out = f"{db}.out"
    clients.ends("half mirrors", 0, "written\n", "", "get", *AT, "--db", db, *places, "--out", out, "hello.txt")
    for mirror in mirrors:
        mirror.asked()
    want(read(out) == read(f"{EXAMPLE}/hello.txt"), "half mirrors: the file that is written")


def turns_as_json(clients):
    """What each source did is told as canonical JSON: the liar, the one that has nothing, and the one that is honest."""
    db = clients.begun(())
    mirrors, urls, places = by_mirrors(clients, [("other", TIMESTAMP), ("withhold",), ("honest",)])
    words = [clients.release, "update", *AT, "--db", db, "--json", *places]
    found = subprocess.run(words, capture_output=True, text=True, timeout=400)
    for mirror in mirrors:
        mirror.asked()
    told = json.loads(found.stdout)
    want(json.dumps(told, sort_keys=True, separators=(",", ":")) + "\n" == found.stdout, f"as JSON: {found.stdout!r} is not canonical")
    held = {"root": 1, "snapshot": 1, "targets": 1, "timestamp": 1}
    turns = [{"denied": {"name": "TimestampThreshold", "number": 12}}, {"files": 0}, {"files": 2}]
    wanted = {"after": held, "answer": "updated", "before": {**held, "snapshot": None, "targets": None, "timestamp": None}, "changed": True,
              "first": {"expires": 4102444800, "role": "snapshot"}, "mirrors": [{**turn, "source": url} for turn, url in zip(turns, urls)],
              "now": int(AT[1]), "source": urls[2]}
    want((found.returncode, told) == (0, wanted), f"as JSON: {told} in place of {wanted}")


def an_old_mirror(clients):
    """A mirror that is behind, with documents that are live still, before and after one that has the newest."""
    room = tempfile.mkdtemp(dir=clients.room)
    newest = repository(room, clients.release)
    run("put", *AT, "--db", newest, f"{EXAMPLE}/empty.txt", release=clients.release)
    run("publish", *AT, "--db", newest, *(f"{role}:{EXAMPLE}/chain/{role}.json" for role in FETCHED), release=clients.release)
    run("export", *AT, "--db", newest, "--to", f"{room}/files", release=clients.release)
    for is_first in (True, False):
        folders = [clients.folder, f"{room}/files"] if is_first else [f"{room}/files", clients.folder]
        db = clients.begun(())
        mirrors = [Mirror(folder, "honest") for folder in folders]
        urls = [f"http://127.0.0.1:{mirror.port}" for mirror in mirrors]
        error = "" if is_first else f"warning: {urls[1]}: denied 13 TimestampRollback\n"
        places = [word for url in urls for word in ("--mirror", url)]
        clients.ends("an old mirror", 0, "updated\n", error, "update", *AT, "--db", db, *places)
        for mirror in mirrors:
            mirror.asked()
        want(rows(db)["current"] == rows(newest)["current"], "an old mirror: the rows")


def an_old_timestamp(clients):
    """A mirror that repeats an older timestamp leaves the client what it holds."""
    db = f"{tempfile.mkdtemp(dir=clients.room)}/client.db"
    run("init", *AT, "--db", db, f"{EXAMPLE}/root.json", release=clients.release)
    roles = (f"{role}:{EXAMPLE}/chain/{role}.json" for role in FETCHED)
    run("publish", *AT, "--db", db, *roles, release=clients.release)
    held = rows(db)
    mirror = Mirror(clients.folder, "honest")
    words = ("update", *AT, "--db", db, "--port", str(mirror.port))
    clients.ends("an old timestamp", 1, "", "denied 13 TimestampRollback\n", *words)
    want(mirror.asked() == [ROOT, TIMESTAMP], "an old timestamp: the names")
    want(rows(db) == held, "an old timestamp: the rows")


def a_server_of_files(clients):
    """A server of plain files that speaks HTTP/1.0 serves a client."""
    handler = functools.partial(Plain, directory=clients.folder)
    with http.server.ThreadingHTTPServer(("127.0.0.1", 0), handler) as server:
        threading.Thread(target=server.serve_forever, daemon=True).start()
        db = clients.begun(())
        place = ("--db", db, "--port", str(server.server_address[1]))
        out = f"{db}.out"
        clients.ends("plain files", 0, "updated\n", "", "update", *AT, *place)
        clients.ends("plain files", 0, "written\n", "", "get", *AT, *place, "--out", out, "hello.txt")
        server.shutdown()
    want(read(out) == read(f"{EXAMPLE}/hello.txt"), "plain files: the file that is written")


def on_a_terminal(clients):
    """A client whose standard error is a terminal tells there each name before it fetches it, and the bytes so far, and at the end what it found."""
    db = clients.begun(())
    mirror = Mirror(clients.folder, "honest")
    terminal, end = pty.openpty()
    words = ("update", *AT, "--db", db, "--port", str(mirror.port))
    found = subprocess.run([clients.release, *words], stdout=subprocess.PIPE, stderr=end, timeout=400)
    told = os.read(terminal, 4096).decode()
    os.close(end)
    os.close(terminal)
    mirror.asked()
    wanted = "".join(f"fetching {name}, {count} bytes so far\r\n" for name, count in
                     ((ROOT, 0), (TIMESTAMP, 0), (SNAPSHOT, len(read(f"{EXAMPLE}/timestamp.json")))))
    wanted += "root 1, timestamp 1, snapshot 1; before: root 1, no timestamp, no snapshot\r\nthe first expiry is at 4102444800\r\n"
    want((found.returncode, found.stdout, told) == (0, b"updated\n", wanted), f"on a terminal: {told!r}")


def a_call_has_its_deadline(clients):
    """A mirror that takes each connection and answers nothing holds an update for as long as it may take in all, less a second that has begun, and no longer."""
    db = clients.begun(())
    with socket.create_server(("127.0.0.1", 0)) as silent:
        place = ("--db", db, "--port", str(silent.getsockname()[1]))
        began = time.monotonic()
        clients.ends("a silent mirror", 3, "", BROKEN, "update", *AT, *place, "--within", "2")
        took = time.monotonic() - began
        place = ("--db", clients.begun(UP), "--port", place[-1])
        clients.ends("a silent mirror", 3, "", BROKEN, "get", *AT, *place, "--within", "1", "--out", f"{db}.out", "hello.txt")
    want(1 <= took < 20, f"a silent mirror held an update for {took} seconds")


def a_large_database(clients):
    """On a terminal it is told that a large database is opened, how large it is and in about how long."""
    db = clients.begun(())
    with sqlite3.connect(db) as connection:
        for _ in range(70):
            blob = os.urandom(1 << 20)
            connection.execute("INSERT INTO blob VALUES (?, ?)", (hashlib.sha256(blob).hexdigest(), blob))
    connection.close()
    terminal, end = pty.openpty()
    words = ("put", *AT, "--db", db, f"{EXAMPLE}/empty.txt")
    found = subprocess.run([clients.release, *words], stdout=subprocess.PIPE, stderr=end, timeout=400)
    told = os.read(terminal, 4096).decode()
    os.close(end)
    os.close(terminal)
    wanted = rf"opening {re.escape(db)}: 7[0-2] MiB, some 1 seconds\r\n"
    want(found.returncode == 0 and re.fullmatch(wanted, told), f"a large database on a terminal: {told!r}")


def a_folder_is_listed(clients):
    """On a terminal each file that a draft lists is told, and how many there are so far."""
    folder = f"{clients.room}/listed"
    os.makedirs(f"{folder}/tree")
    for name in ("one", "two"):
        with open(f"{folder}/tree/{name}", "w", encoding="ascii") as file:
            file.write(name)
    terminal, end = pty.openpty()
    words = ("draft", *AT, "--in", f"{folder}/d", "targets", "--add", f"tree={folder}/tree")
    found = subprocess.run([clients.release, *words], stdout=subprocess.PIPE, stderr=end, timeout=400)
    told = os.read(terminal, 4096).decode()
    os.close(end)
    os.close(terminal)
    want((found.returncode, told) == (0, "added tree/two, 1 so far\r\nadded tree/one, 2 so far\r\n"), f"a folder that is listed: {told!r}")


def main(words):
    clients = Clients(os.path.realpath(words[0]) if words else RELEASE)
    cases = [functools.partial(updates, clients, *case) for case in UPDATES]
    cases += [functools.partial(gets, clients, *case) for case in GETS]
    cases += [functools.partial(case, clients) for case in (an_old_timestamp, a_server_of_files, on_a_terminal, a_large_database,
                                                            a_folder_is_listed, a_call_has_its_deadline)]
    cases += [functools.partial(case, clients) for case in (only_liars, half_mirrors, turns_as_json, an_old_mirror)]
    cases += [functools.partial(an_honest_mirror_updates, clients, liar, told, order) for liar, told in LIARS for order in orders(liar)]
    cases += [functools.partial(an_honest_mirror_serves, clients, liar, told, order) for liar, told in TARGET_LIARS for order in orders(liar)]
    failed = 0
    with concurrent.futures.ThreadPoolExecutor(8) as pool:
        for done in concurrent.futures.as_completed(pool.submit(case) for case in cases):
            try:
                done.result()
            except (Wrong, OSError, subprocess.SubprocessError, sqlite3.Error) as error:
                failed += 1
                print(f"clients: {error}")
    for process in Mirror.begun:
        process.kill()
    shutil.rmtree(clients.room)
    print(f"clients: {len(cases) - failed} cases as wanted, {failed} not")
    return 1 if failed else 0


if __name__ == "__main__":
    sys.exit(main(sys.argv[1:]))
