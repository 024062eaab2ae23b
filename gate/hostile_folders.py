#!/usr/bin/env python3
"""Changes a good folder of drafts at random, as somebody else might send it, and has it shown, signed and published.

    gate/hostile_folders.py [RELEASE [ROUNDS]]       the program, out/release where none is named; 100 rounds

In each round a folder is changed one to three times: a document by its members, its bytes or its signatures, a file's kind (a pipe, a link, a
folder), its length or its name. Whatever it is then:

 - no command hangs or ends otherwise than it may (statuses 0 to 3);
 - what is signed was shown: where the folder is shown, the lines of 'show' before it are those of 'model/shown_changes.py' for the very document that was signed;
 - what is published is what the held documents list: no file that a link led to, and none of another digest, is a blob of the repository.
"""
import concurrent.futures
import json
import os
import random
import shutil
import sqlite3
import subprocess
import sys
import tempfile
from hashlib import sha256

from served import AT, RELEASE, Wrong, want

sys.dont_write_bytecode = True
sys.path.insert(0, os.path.join(os.path.dirname(os.path.dirname(os.path.realpath(__file__))), "model"))
import canonical_json
import shown_changes

ROUNDS = 100
SECRET = b"what nobody meant to send\n"
NAMES = ("root", "online", "dev")
VALUES = (None, True, 0, 7, "x", "a\nready", "\x1b[2J", [], {}, [1, {"y": "z"}], {"b": {"c": []}})


def run(at, release, *words):
    try:
        ended = subprocess.run([release, *words], cwd=at, capture_output=True, timeout=120, stdin=subprocess.DEVNULL)
    except subprocess.TimeoutExpired:
        raise Wrong(f"hangs: {' '.join(words)}") from None
    want(ended.returncode in (0, 1, 2, 3), f"ends with {ended.returncode}: {' '.join(words)}: {ended.stderr!r}")
    want(not set(ended.stdout + ended.stderr) & (set(range(0x20)) - {10} | {0x7F}), f"prints a control: {' '.join(words)}: {ended.stdout!r} {ended.stderr!r}")
    return ended


def make(at, release):
    """A repository, and a folder with the next targets metadata, a file that waits, and what is held."""
    def good(*words):
        ended = run(at, release, *words)
        want(ended.returncode == 0, f"{' '.join(words)}: {ended.stderr!r}")

    def sign(key):
        good("sign", *AT, "--key", key, "--in", "d", "--yes")

    good("key", "--new", *NAMES, "--ots", "1", "--height", "5")
    good("draft", *AT, "--in", "d", "root", "root=root.key", "targets=online.key", "snapshot=online.key", "timestamp=online.key")
    sign("root")
    good("init", *AT, "--db", "repository.db", "d/root.json")
    for name in "ab":
        with open(os.path.join(at, name), "w", encoding="utf-8") as file:
            file.write(f"file {name}\n")
    drafting = ("draft", *AT, "--db", "repository.db", "--in", "d")
    good(*drafting, "targets", "--add", "a", "--delegate", "dev=dev.key:dev/*")
    sign("online")
    good(*drafting, "seal")
    sign("online")
    good("publish", *AT, "--db", "repository.db", "--in", "d")
    good(*drafting, "targets", "--add", "b")
    good(*drafting, "root")
    with open(os.path.join(at, "secret"), "wb") as file:
        file.write(SECRET)


def places_in(value, place=()):
    yield place
    inner = value.items() if type(value) is dict else enumerate(value) if type(value) is list else ()
    for step, part in inner:
        yield from places_in(part, (*place, step))


def put_at(value, place, new):
    for step in place[:-1]:
        value = value[step]
    value[place[-1]] = new


def files_of(folder):
    return sorted(os.path.join(at, name) for at, _, names in os.walk(folder) for name in names)


class Change:
    """The changes of a folder, by chance."""

    def __init__(self, chance, folder):
        self.chance, self.folder = chance, folder

    def at_random(self):
        kinds = (self.member, self.member, self.member, self.entry, self.kind, self.kind, self.bytes, self.length, self.name, self.inner, self.swap)
        self.chance.choice(kinds)()

    def file(self, *endings):
        found = [name for name in files_of(self.folder) if os.path.isfile(name) and not os.path.islink(name) and name.endswith(endings or "")]
        return self.chance.choice(found) if found else None

    def read(self, name):
        with open(name, "rb") as file:
            return file.read()

    def write(self, name, text):
        with open(name, "wb") as file:
            file.write(text)

    def member(self):
        """A member of a document, anywhere in it, or one more."""
        name = self.file(".json")
        if name is None:
            return
        try:
            file = json.loads(self.read(name))
            signed = file["signed"]
            place = self.chance.choice([place for place in places_in(signed) if place])
            if self.chance.random() < 0.3:
                signed[self.chance.choice(("x", "names", "a b"))] = self.chance.choice(VALUES)
            else:
                put_at(signed, place, self.chance.choice(VALUES))
            if self.chance.random() < 0.5:
                file["signatures"] = []
            self.write(name, canonical_json.write(file))
        except (ValueError, KeyError, TypeError, IndexError):
            return

    def entry(self):
        name = self.file(".json")
        if name is None:
            return
        try:
            file = json.loads(self.read(name))
            root = signed_in(os.path.join(self.folder, "held/root.json")) or {}
            keyid = self.chance.choice(sorted(root["keys"]))
            entry = {"keyid": keyid, "sig": self.chance.choice(("00", "0000000700", "xyz", "00" * 1292))}
            file["signatures"] = [entry, *(it for it in file["signatures"] if it["keyid"] != keyid)]
            self.write(name, canonical_json.write(file))
        except (OSError, ValueError, KeyError, TypeError):
            return

    def kind(self):
        name = self.file()
        if name is None:
            return
        os.remove(name)
        done = self.chance.randrange(5)
        if done == 0:
            os.mkfifo(name)
        elif done == 1:
            os.symlink("../../secret" if os.path.dirname(name) != self.folder else "../secret", name)
        elif done == 2:
            os.symlink(self.chance.choice(("/dev/zero", "/etc/hostname", "nowhere", name)), name)
        elif done == 3:
            os.mkdir(name)

    def bytes(self):
        name = self.file()
        text = bytearray(self.read(name)) if name else b""
        if text:
            text[self.chance.randrange(len(text))] = self.chance.randrange(256)
            self.write(name, bytes(text))

    def length(self):
        name = self.file()
        if name:
            text = self.read(name)
            self.write(name, self.chance.choice((b"", text[: len(text) // 2], text + b"\n", (text * 400)[:400_000])))

    def name(self):
        name = self.file()
        if name:
            new = self.chance.choice((b"\xff\xfe.json", b"a\nb.json", b"\x1b[2J.json", b"x;y.json", b"dev.json", b"." + b"y" * 200))
            os.rename(os.fsencode(name), os.path.join(os.fsencode(os.path.dirname(name)), new))

    def inner(self):
        name = self.chance.choice(("held", "files", "layouts", "links", "spent"))
        inner = os.path.join(self.folder, name)
        if os.path.lexists(inner) and (os.path.islink(inner) or not os.path.isdir(inner)):
            return
        if os.path.isdir(inner):
            os.rename(inner, os.path.join(self.folder, "..", f"outer-{name}"))
        os.symlink(f"../outer-{name}", inner) if self.chance.random() < 0.7 else os.mkfifo(inner)

    def swap(self):
        one, other = self.file(), self.file()
        if one and other:
            first, second = self.read(one), self.read(other)
            self.write(one, second)
            self.write(other, first)


def signed_in(name):
    """What is signed in a file, where it is a regular one."""
    if os.path.islink(name) or not os.path.isfile(name):
        return None
    try:
        with open(name, "rb") as file:
            return json.loads(file.read(), strict=False)["signed"]
    except (OSError, ValueError, KeyError, TypeError):
        return None


def documents(folder):
    """The drafts, each with what is signed in it and what is held of it."""
    found = {}
    for name in os.listdir(folder):
        if name.endswith(".json"):
            role = name.removesuffix(".json")
            found[role] = (signed_in(os.path.join(folder, name)), signed_in(os.path.join(folder, "held", name)))
    return found


def see_signed(at, release, before):
    """What is signed was shown: 'before' is what was shown of each draft, with what the folder had then. Nothing is shown of a folder in which
    one document is ill, though another may be signed: then it is the one that stood there."""
    shown, had = before
    ended = run(at, release, "sign", *AT, "--key", "root", "--key", "online", "--in", "d", "--yes")
    for line in ended.stdout.decode().splitlines():
        role = line.split()[1]
        signed, held = had[role]
        want(documents(os.path.join(at, "d"))[role][0] == signed, f"{role} is not what was shown")
        if shown is not None:
            want(role in shown, f"{role} is signed and was not shown")
            want(shown[role] == shown_changes.lines_of(held, signed), f"{role} was not shown whole: {shown[role]}")


def show(at, release):
    ended = run(at, release, "show", *AT, "--in", "d", "--json")
    drafts = json.loads(ended.stdout)["drafts"] if ended.returncode == 0 else None
    shown = None if drafts is None else {draft["role"]: draft["changes"] for draft in drafts}
    return shown, documents(os.path.join(at, "d"))


def blobs(at):
    copy = os.path.join(at, "copy.db")
    for ending in ("", "-wal"):
        if os.path.exists(os.path.join(at, f"repository.db{ending}")):
            shutil.copyfile(os.path.join(at, f"repository.db{ending}"), copy + ending)
    connection = sqlite3.connect(copy)
    found = [bytes(row[-1]) for row in connection.execute("SELECT * FROM blob")]
    connection.close()
    return found


def see_published(at, release, allowed):
    run(at, release, "draft", *AT, "--in", "d", "seal")
    run(at, release, "sign", *AT, "--key", "online", "--in", "d", "--yes")
    run(at, release, "publish", *AT, "--db", "repository.db", "--in", "d")
    for text in blobs(at):
        want(text != SECRET, "what a link led to is published")
        want(sha256(text).hexdigest() in allowed, "a file that was not listed is published")


def listed(folder):
    """The digests that the drafts list, before anything is published."""
    found = set()
    for signed, _ in documents(folder).values():
        targets = signed.get("targets") if type(signed) is dict else None
        for listing in targets.values() if type(targets) is dict else ():
            said = listing.get("hashes") if type(listing) is dict else None
            if type(said) is dict and type(said.get("sha256")) is str:
                found.add(said["sha256"])
    return found


def one_round(release, template, number):
    chance = random.Random(f"hostile {number}")
    with tempfile.TemporaryDirectory() as at:
        at = os.path.join(at, "round")
        shutil.copytree(template, at)
        folder = os.path.join(at, "d")
        change = Change(chance, folder)
        for _ in range(chance.randint(1, 3)):
            change.at_random()
        allowed = listed(folder) | {sha256(text).hexdigest() for text in blobs(at)}
        try:
            see_signed(at, release, show(at, release))
            see_published(at, release, allowed)
        except Wrong as wrong:
            raise Wrong(f"round {number}: {wrong}") from None


def main():
    release = os.path.realpath(sys.argv[1] if len(sys.argv) > 1 else RELEASE)
    rounds = int(sys.argv[2]) if len(sys.argv) > 2 else ROUNDS
    with tempfile.TemporaryDirectory() as place:
        template = os.path.join(place, "template")
        os.mkdir(template)
        make(template, release)
        wrong = 0
        with concurrent.futures.ThreadPoolExecutor(os.cpu_count()) as pool:
            for ended in [pool.submit(one_round, release, template, number) for number in range(rounds)]:
                try:
                    ended.result()
                except Wrong as told:
                    wrong += 1
                    print(told)
        print(f"hostile_folders: {rounds} rounds, {wrong} wrong")
    sys.exit(1 if wrong else 0)


if __name__ == "__main__":
    main()
