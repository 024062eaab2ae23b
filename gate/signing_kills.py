#!/usr/bin/env python3
"""Kills 'release sign' at random moments, over one book, and looks for a leaf that was spent on two documents.

    gate/signing_kills.py [ROUNDS [RELEASE]]       200 rounds, and the program out/release, where none are named
    gate/signing_kills.py --selftest               tries what looks at signatures of two levels, without the program

Each round signs a document, a new one or one from before, with one of several seeds, and kills the program (kill -9) within about the time that
it takes. What was printed counts, also where it was cut. After each kill the book is opened by signing once more, to the end. No leaf of a key
may sign two documents, no document may get two leaves of a key, and each leaf that was printed stands in the book as SQLite reads it.

Then a key of two levels, a tree of height 5 over trees of height 5, signs links of a folder by 'sign --key', until its third tree is used up. Most
documents are signed only after the program was killed over them, once or twice, and where a tree begins eight times; some are left as the kill left
them, and come again later. Each signature that stands in the folder after a run, in whatever file, counts, also where it is cut: by I and q of each
level one message, and the same bytes each time. At the end the book keeps each of them for what it was seen on.

Prints what is wrong, and ends with status 1 then.
"""
import glob
import hashlib
import json
import os
import random
import re
import shutil
import sqlite3
import subprocess
import sys
import tempfile
import time

from served import AT, RELEASE, Wrong, want, without_reasons

KEYS = 16
LEAVES = 32
ENTRY = re.compile(rb'"keyid":"([0-9a-f]{64})","sig":"([0-9a-f]{8})')
SIGNATURE = re.compile(rb'"sig":"([0-9a-f]*)')
SIGNED = re.compile(rb'"signed":(.*)}', re.DOTALL)
TOLD = re.compile(rb"signed links/made\.json with leaf (\d+) of 1024\n")

# Of a key of two levels, each of width 1 and height 5: the length of a tree's signature (RFC 8554, sections 4.1 and 5.4), and its leaves.
PART = 12 + 32 * (265 + 1) + 32 * 5
EACH = 32
TREES = 3
SECONDS = 170


class Signer:
    """The program over one book, and which leaf of which key was seen on which document."""

    def __init__(self, release, room):
        self.release, self.room, self.book = release, room, f"{room}/book.db"
        self.documents, self.leaves, self.messages = [], {}, {}

    def seed(self, number):
        path = f"{self.room}/seed{number}"
        if not os.path.exists(path):
            with open(os.open(path, os.O_WRONLY | os.O_CREAT, 0o600), "w") as file:
                file.write(f"{number + 1:02x}" * 48 + "\n")
        return path

    def document(self):
        """A new document, or one from before."""
        if self.documents and random.random() < 0.4:
            return random.choice(self.documents)
        signed = b'{"_type":"x","n":%d}' % len(self.documents)
        self.documents.append(signed)
        return signed

    def started(self, number, signed):
        path = f"{self.room}/document.json"
        with open(path, "wb") as file:
            file.write(b'{"signatures":[],"signed":%s}' % signed)
        words = ["sign", *AT, "--book", self.book, "--seed", self.seed(number), "--ots", "4", "--height", "5", path]
        return subprocess.Popen([self.release, *words], stdout=subprocess.PIPE, stderr=subprocess.PIPE)

    def seen(self, signed, printed):
        """Compares what was printed, or its beginning, with what was printed before."""
        found = ENTRY.search(printed)
        if not found:
            return
        key, leaf = found[1].decode(), int(found[2], 16)
        want(self.leaves.setdefault((key, leaf), signed) == signed, f"leaf {leaf} of {key} signs two documents")
        want(self.messages.setdefault((key, signed), leaf) == leaf, f"a document gets the leaves {leaf} and {self.messages[key, signed]} of {key}")

    def signs(self, number, signed):
        """Signs to the end. All leaves may be spent by then."""
        program = self.started(number, signed)
        printed, told = program.communicate(timeout=60)
        if program.returncode == 1 and without_reasons(told) == b"leaves spent\n":
            return
        want(program.returncode == 0, f"sign ends with {program.returncode}: {told!r}")
        self.seen(signed, printed)

    def is_killed(self, number, signed, longest):
        program = self.started(number, signed)
        time.sleep(random.uniform(0, longest))
        program.kill()
        self.seen(signed, program.communicate(timeout=60)[0])

    def look(self):
        """The book has each leaf that was seen, as SQLite reads a copy of its files."""
        for part in ("", "-wal"):
            if os.path.exists(self.book + part):
                shutil.copy(self.book + part, f"{self.room}/copy.db{part}")
        connection = sqlite3.connect(f"{self.room}/copy.db")
        try:
            want(connection.execute("PRAGMA integrity_check").fetchall() == [("ok",)], "the book's file is not sound")
            held = {(key, leaf): message for key, leaf, message in connection.execute("SELECT key, leaf, message FROM leaf")}
        finally:
            connection.close()
        for place, signed in self.leaves.items():
            want(held.get(place) == signed, f"leaf {place[1]} of {place[0]} is not in the book")
        want(len(held) <= KEYS * LEAVES, "more leaves than there are")
        return len(held)


def rounds(count, release, room):
    signer = Signer(release, room)
    start = time.monotonic()
    signer.signs(0, signer.document())
    longest = 1.3 * (time.monotonic() - start)
    for _ in range(count):
        signer.is_killed(random.randrange(KEYS), signer.document(), longest)
        signer.signs(random.randrange(KEYS), signer.document())
    return signer.look(), len(signer.leaves)


def key_id(public):
    """The id of an LMS key of this public key, under which a book has it."""
    return hashlib.sha256(b'{"keytype":"lms","keyval":{"public":"%s"},"scheme":"lms-sha256"}' % public.hex().encode()).hexdigest()


class OneTimeKeys:
    """What each one-time key of a key of two levels was seen on: by its level, I and q, and with which public key it is one of."""

    def __init__(self, top):
        self.top, self.messages, self.whole = top, {}, {}

    def see(self, signature, signed):
        """Takes a signature in hex digits, or its beginning, over a document. Its number among all leaves, if so much of it stands there."""
        sig = bytes.fromhex(signature[:len(signature) & ~1])
        whole = self.whole.setdefault(signed, sig)
        want(whole.startswith(sig) or sig.startswith(whole), "a document has two signatures")
        self.whole[signed] = max(whole, sig, key=len)
        lower, rest = sig[4 + PART:4 + PART + 56], sig[4 + PART + 56:]
        if len(rest) < 4:
            return None
        want(sig[:4] == b"\0\0\0\1", "no signature of two levels")
        first, last = (int.from_bytes(part[:4], "big") for part in (sig[4:], rest))
        self.spends(self.top, first, lower)
        self.spends(lower, last, signed)
        return first * EACH + last

    def spends(self, public, q, message):
        place = (public[8:24], q)
        seen = self.messages.setdefault(place, (public, message))
        want(seen == (public, message), f"leaf {q} of the tree of {place[0].hex()} signs two messages")


class TwoLevels:
    """The program over a folder with one link at a time, which a key of two levels signs."""

    def __init__(self, release, room):
        self.release, self.room = release, room
        self.link = f"{room}/d/links/made.json"
        self.run("key", *AT, "--new", "k", "--ots", "1", "--height", "5", "--levels", "2")
        with open(f"{room}/k.key", encoding="ascii") as file:
            public = bytes.fromhex(json.load(file)["keyval"]["public"])
        want(public[:4] == b"\0\0\0\2", "the key has two levels")
        self.keys, self.documents, self.took = OneTimeKeys(public[4:]), [], 0.1
        with open(f"{room}/made", "wb") as file:
            file.write(b"made")
        self.run("draft", *AT, "--in", "d", "link", "--step", "made", "--products", "made")
        with open(self.link, "rb") as file:
            self.template = SIGNED.search(file.read())[1]

    def run(self, *words):
        ended = subprocess.run([self.release, *words], cwd=self.room, stdin=subprocess.DEVNULL, capture_output=True, timeout=60)
        want(ended.returncode == 0, f"{words}: status {ended.returncode}: {ended.stderr!r}")

    def document(self):
        """A new link: of a product with another digest."""
        digest = hashlib.sha256(b"%d" % len(self.documents)).hexdigest().encode()
        signed = self.template.replace(hashlib.sha256(b"made").hexdigest().encode(), digest)
        want(signed != self.template, "the link has its product's digest")
        self.documents.append(signed)
        return signed

    def started(self, signed):
        for path in self.written():
            os.remove(path)
        with open(self.link, "wb") as file:
            file.write(b'{"signatures":[],"signed":%s}' % signed)
        words = [self.release, "sign", *AT, "--key", "k", "--in", "d", "--yes"]
        return subprocess.Popen(words, cwd=self.room, stdin=subprocess.DEVNULL, stdout=subprocess.PIPE, stderr=subprocess.PIPE)

    def written(self):
        """All files in the folder, those too that were being written."""
        there = glob.glob(f"{self.room}/d/**/*", recursive=True) + glob.glob(f"{self.room}/d/**/.*", recursive=True)
        return [path for path in there if os.path.isfile(path)]

    def seen(self, signed, printed):
        """Looks at each signature that stands there after a run, and at the leaf that was told. The number of the leaf, if there is one."""
        found = None
        for path in self.written():
            with open(path, "rb") as file:
                text = file.read()
            for signature in SIGNATURE.findall(text):
                whole = SIGNED.search(text)
                want(whole is None or whole[1] == signed, "another document stands there")
                number = self.keys.see(signature.decode(), signed)
                found = number if found is None else found
        told = TOLD.search(printed)
        want(told is None or int(told[1]) == found, f"{printed!r} is told of leaf {found}")
        return found

    def signs(self, signed):
        """Signs to the end, and answers the number of the leaf."""
        began = time.monotonic()
        program = self.started(signed)
        printed, told = program.communicate(timeout=60)
        self.took = time.monotonic() - began
        want(program.returncode == 0 and TOLD.fullmatch(printed), f"sign ends with {program.returncode}: {printed!r} {told!r}")
        return self.seen(signed, printed)

    def is_killed(self, signed):
        program = self.started(signed)
        time.sleep(random.uniform(0, 1.2 * self.took))
        program.kill()
        self.seen(signed, program.communicate(timeout=60)[0])

    def goes_on(self):
        """Signs until the last leaf of the third tree is spent: how often the program was killed."""
        until, kills, leaf = time.monotonic() + SECONDS, 0, self.signs(self.document())
        while leaf < TREES * EACH - 1:
            want(time.monotonic() < until, f"{SECONDS} seconds do not do for {TREES} trees")
            signed = random.choice(self.documents) if random.random() < 0.2 else self.document()
            for _ in range(8 if leaf % EACH == EACH - 1 else random.choice((0, 1, 1, 2))):
                self.is_killed(signed)
                kills += 1
            if random.random() < 0.8:
                leaf = max(leaf, self.signs(signed))
        return kills

    def look(self):
        """The book, as SQLite reads a copy of its files, keeps each leaf for what it was seen on."""
        for part in ("", "-wal"):
            if os.path.exists(f"{self.room}/k.book{part}"):
                shutil.copy(f"{self.room}/k.book{part}", f"{self.room}/copy.book{part}")
        connection = sqlite3.connect(f"{self.room}/copy.book")
        try:
            want(connection.execute("PRAGMA integrity_check").fetchall() == [("ok",)], "the book's file is not sound")
            held = {(key, leaf): bytes(message) for key, leaf, message in connection.execute("SELECT key, leaf, message FROM leaf")}
        finally:
            connection.close()
        for (_, q), (public, message) in self.keys.messages.items():
            want(held.get((key_id(public), q)) == message, f"leaf {q} of {public.hex()} is not in the book for what it signed")
        trees = [message for (key, _), message in held.items() if key == key_id(self.keys.top)]
        want(len(trees) >= TREES and len(set(trees)) == len(trees), f"{len(trees)} trees were begun")
        want(all(len(tree) == 56 for tree in trees), "a leaf of the top tree signs no public key")
        return len(trees), len(held)


def trees(release, room):
    """What was done over a key of two levels, in words."""
    signing = TwoLevels(release, room)
    kills = signing.goes_on()
    begun, held = signing.look()
    return f"{begun} trees, {kills} kills, {held} leaves kept, {len(signing.keys.messages)} of them seen, none twice"


def is_refused(keys, signature, signed):
    try:
        keys.see(signature, signed)
    except Wrong:
        return True
    return False


def selftest():
    """Signatures that were made up: what spends a one-time key twice is found, and what does not is not."""
    tree = lambda name: b"\0\0\0\5\0\0\0\1" + name * 48
    made = lambda first, lower, last, fill=b"\0": (b"\0\0\0\1" + first.to_bytes(4, "big") + b"\0" * (PART - 4) + lower + last.to_bytes(4, "big") + fill * (PART - 4)).hex()
    keys = OneTimeKeys(tree(b"t"))
    want(keys.see(made(0, tree(b"a"), 0), b"one") == 0 and keys.see(made(0, tree(b"a"), 31), b"two") == 31, "the first tree")
    want(keys.see(made(1, tree(b"b"), 0), b"three") == 32, "the second tree")
    want(keys.see(made(1, tree(b"b"), 0)[:20000], b"three") == 32, "a signature that is cut after its leaves")
    want(keys.see(made(1, tree(b"b"), 1)[:100], b"four") is None, "a signature that is cut before its leaves")
    want(is_refused(keys, made(0, tree(b"a"), 0), b"five"), "a lower leaf that signs two documents is not found")
    want(is_refused(keys, made(1, tree(b"c"), 0), b"six"), "a leaf of the top tree that signs two trees is not found")
    want(is_refused(keys, made(0, tree(b"a"), 5), b"one"), "a document with two leaves is not found")
    want(is_refused(keys, made(0, tree(b"a"), 0, b"\1"), b"one"), "a document with two signatures is not found")
    want(is_refused(keys, made(0, tree(b"a"), 7)[2:], b"seven"), "what is no signature of two levels is not found")


def main(words):
    if words == ["--selftest"]:
        selftest()
        print("signing_kills: what is to be found is found")
        return 0
    count = int(words[0]) if words else 200
    release = os.path.realpath(words[1]) if words[1:] else RELEASE
    with tempfile.TemporaryDirectory() as room, tempfile.TemporaryDirectory() as folder:
        try:
            selftest()
            held, seen = rounds(count, release, room)
            done = trees(release, folder)
        except (Wrong, OSError, subprocess.SubprocessError, sqlite3.Error) as error:
            print(f"signing_kills: {error}")
            return 1
    print(f"signing_kills: {count} rounds, {held} leaves kept, {seen} of them seen, none twice")
    print(f"signing_kills: of two levels {done}")
    return 0


if __name__ == "__main__":
    sys.exit(main(sys.argv[1:]))
