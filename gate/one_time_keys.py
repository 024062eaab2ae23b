#!/usr/bin/env python3
"""Tries to have one one-time key sign two documents, as a tired hand would do it.

    gate/one_time_keys.py [RELEASE]       the program, out/release where none is named

A one-time key is what a seed makes at a number q: neither the width nor the height enters it (RFC 8554, appendix A). So all signatures that are
printed or written anywhere are gathered by seed and q, and no two of them may be of two documents.

 - each two of the eight widths and heights, in both orders, over one book, by another name of the book, and over another book that has to be known;
 - a key's three files that are copied away while a question stands, and Ctrl-C then;
 - a key's three files that are copied away after the program was killed at a random moment;
 - a book that was copied back, where '--anew' has taken the signature off, and an entry that is none of the key's.
"""
import concurrent.futures
import json
import os
import pty
import random
import shutil
import signal
import subprocess
import sys
import tempfile
import time

from served import AT, RELEASE, Wrong, want

PARAMETERS = [(ots, height) for height in (5, 10) for ots in (1, 2, 4, 8)]
# What an empty log has: its head, and what the kit writes after it.
EMPTY_LOG = 41
KILLS = 40


class Signatures:
    """All signatures that were seen, by the seed's name and q."""

    def __init__(self):
        self.of = {}

    def see(self, seed, text):
        """Adds those of a file, and answers the leaves."""
        file = json.loads(text)
        message = json.dumps(file["signed"], sort_keys=True)
        leaves = [int(entry["sig"][:8], 16) for entry in file["signatures"]]
        for leaf in leaves:
            want(self.of.setdefault((seed, leaf), message) == message, f"leaf {leaf} of {seed} signs two documents")
        return leaves


class Room:
    """A folder of its own, in which the program runs."""

    def __init__(self, release, at):
        self.release, self.at = release, at
        os.makedirs(at, exist_ok=True)

    def run(self, *words):
        ended = subprocess.run([self.release, *words], cwd=self.at, capture_output=True, text=True, timeout=600)
        return ended.returncode, ended.stdout, ended.stderr

    def well(self, *words):
        status, printed, told = self.run(*words)
        want(status == 0, f"{words}: status {status}: {told!r}")
        return printed

    def refused(self, line, *words):
        """The command ends with status 1 and this line, and prints nothing. What it told before the line."""
        status, printed, told = self.run(*words)
        want((status, printed, told.splitlines()[-1:]) == (1, "", [line]), f"{words}: {line!r} is wanted, not status {status}: {printed[:80]!r} {told!r}")
        return told

    def write(self, name, text):
        with open(os.open(f"{self.at}/{name}", os.O_WRONLY | os.O_CREAT | os.O_TRUNC, 0o600), "w", encoding="utf-8") as file:
            file.write(text)

    def read(self, name):
        with open(f"{self.at}/{name}", encoding="utf-8") as file:
            return file.read()

    def has(self, name):
        return os.path.lexists(f"{self.at}/{name}")

    def drafts(self, folder, expires="30d"):
        """Drafts a first root and targets metadata that the key `k` may sign both."""
        rules = [f"{role}=k.key" for role in ("root", "targets", "snapshot", "timestamp")]
        self.well("draft", *AT, "--in", folder, "--expires", expires, "root", *rules)
        self.well("draft", *AT, "--in", folder, "--expires", expires, "targets")

    def three_files(self, to):
        """The key's three files, without anything that stands beside them, in another folder."""
        stick = Room(self.release, f"{self.at}/{to}")
        for ending in ("seed", "key", "book"):
            shutil.copy(f"{self.at}/k.{ending}", f"{stick.at}/k.{ending}")
        return stick

    def signed(self, folder):
        """The files in a folder of drafts that have a signature."""
        found = []
        for name in ("root", "targets"):
            if self.has(f"{folder}/{name}.json"):
                text = self.read(f"{folder}/{name}.json")
                if json.loads(text)["signatures"]:
                    found.append(text)
        return found


def two_trees(release, at, place):
    """A second width or height of a seed, over the book that has the first."""
    room, seen = Room(release, at), Signatures()
    first = PARAMETERS[place]
    room.write("seed", f"{place + 1:02x}" * 48 + "\n")
    room.write("a.json", '{"signatures":[],"signed":{"_type":"a"}}')
    room.write("b.json", '{"signatures":[],"signed":{"_type":"b"}}')
    words = lambda book, tree, *more: ("sign", "--book", book, "--seed", "seed", "--ots", str(tree[0]), "--height", str(tree[1]), *more)
    want(seen.see("seed", room.well(*words("book.db", first, "a.json"))) == [0], "the first leaf")
    os.symlink("book.db", f"{at}/link.db")
    with open(f"{at}/book.db", "rb") as file:
        before = file.read()
    for second in PARAMETERS:
        if second == first:
            continue
        told = room.refused("refused book", *words("book.db", second, "b.json"))
        want(f"--ots {first[0]} --height {first[1]}" in told, f"what is to be done is not told: {told!r}")
        room.refused("unknown key", *words("book.db", second, "--known", "b.json"))
        room.refused("unknown key", *words("other.db", second, "--known", "b.json"))
    room.refused("refused book", *words("link.db", PARAMETERS[place - 1], "b.json"))
    with open(f"{at}/book.db", "rb") as file:
        want(file.read() == before, "a refusal changed the book")
    want(not room.has("other.db"), "a book was made that has to be known")
    want(seen.see("seed", room.well(*words("book.db", first, "b.json"))) == [1], "the first tree signs as before")


class Terminal:
    """The program on a terminal, where it asks."""

    def __init__(self, room, *words):
        self.child, self.end = pty.fork()
        if self.child == 0:
            # a shell that runs this aside ignores it
            signal.signal(signal.SIGINT, signal.SIG_DFL)
            os.chdir(room.at)
            os.execv(room.release, [room.release, *words])
        self.told = ""

    def asked(self, question):
        """Reads up to a question."""
        until = time.monotonic() + 60
        while question not in self.told:
            want(time.monotonic() < until, f"{question!r} is not asked: {self.told!r}")
            try:
                self.told += os.read(self.end, 4096).decode()
            except OSError:
                raise Wrong(f"{question!r} is not asked: {self.told!r}") from None

    def type(self, text):
        os.write(self.end, text.encode())

    def ended(self):
        _, status = os.waitpid(self.child, 0)
        os.close(self.end)
        return status


def questions(release, at):
    """Ctrl-C at each question, and the key's three files copied away while it stands."""
    for answers in (0, 1):
        room, seen = Room(release, f"{at}/{answers}"), Signatures()
        room.well("key", "--new", "k", "--ots", "4", "--height", "5")
        room.drafts("d")
        terminal = Terminal(room, "sign", *AT, "--key", "k", "--in", "d")
        terminal.asked("sign root 1? [y/N]")
        if answers:
            terminal.type("y\n")
            terminal.asked("sign targets 1? [y/N]")
        want(not room.has("k.book-wal") or os.path.getsize(f"{room.at}/k.book-wal") <= EMPTY_LOG, "while a question stands the log has leaves")
        stick = room.three_files("stick")
        terminal.type("\x03")
        want(os.WTERMSIG(terminal.ended()) == signal.SIGINT, "Ctrl-C does not end it")
        want(len(room.signed("d")) == answers, "another number of documents is signed")
        for text in room.signed("d"):
            seen.see("k", text)
        stick.drafts("e", "40d")
        stick.well("sign", *AT, "--key", "k", "--in", "e", "--yes", "--again", "root", "targets")
        for text in stick.signed("e"):
            seen.see("k", text)


def kills(release, at):
    """The program is killed at a random moment, and the key's three files are copied away without what stands beside them."""
    took = 0.05
    for number in range(KILLS):
        room, seen = Room(release, f"{at}/{number}"), Signatures()
        room.well("key", "--new", "k", "--ots", "4", "--height", "5")
        room.drafts("d")
        if not number:
            began = time.monotonic()
            room.well("sign", *AT, "--key", "k", "--in", "d", "--yes")
            took = time.monotonic() - began
        else:
            program = subprocess.Popen([release, "sign", *AT, "--key", "k", "--in", "d", "--yes"], cwd=room.at, stdout=subprocess.DEVNULL, stderr=subprocess.DEVNULL)
            time.sleep(random.uniform(0.3, 1.1) * took)
            program.kill()
            program.wait()
        for text in room.signed("d"):
            seen.see("k", text)
        stick = room.three_files("stick")
        stick.drafts("e", "40d")
        stick.well("sign", *AT, "--key", "k", "--in", "e", "--yes", "--again", "root", "targets")
        for text in stick.signed("e"):
            seen.see("k", text)
        # where nothing was copied away the book goes on, whatever was under way
        room.well("sign", *AT, "--key", "k", "--in", "d", "--yes", "--again", "root", "targets")


def copied_back(release, at):
    """A book that was copied back is found by the signature that '--anew' took off; an entry that does not verify is nobody's."""
    room, seen = Room(release, at), Signatures()
    room.well("key", "--new", "k", "--ots", "4", "--height", "5")
    room.drafts("d")
    shutil.copy(f"{at}/k.book", f"{at}/old.book")
    room.well("sign", *AT, "--key", "k", "--in", "d", "--yes", "root")
    for text in room.signed("d"):
        seen.see("k", text)
    room.well("draft", *AT, "--in", "d", "--expires", "50d", "--anew", "root")
    want(not room.signed("d") and len(os.listdir(f"{at}/d/spent")) == 1, "what '--anew' takes off is not kept")
    shutil.copy(f"{at}/k.book", f"{at}/new.book")
    shutil.copy(f"{at}/old.book", f"{at}/k.book")
    told = room.refused("refused book", "sign", *AT, "--key", "k", "--in", "d", "--yes", "root")
    want("leaf 0 of another book in spent/" in told, f"what the guard found is not told: {told!r}")
    shutil.copy(f"{at}/new.book", f"{at}/k.book")
    forged(room)
    room.well("sign", *AT, "--key", "k", "--in", "d", "--yes", "--again")
    for text in room.signed("d"):
        want(seen.see("k", text)[-1:] in ([1], [2]), "the next leaves")


def forged(room):
    """Anybody may write an entry of the key's id into a document: it does not verify, and stops nothing."""
    file = json.loads(room.read("d/targets.json"))
    keyid = next(iter(json.loads(room.read("d/root.json"))["signed"]["keys"]))
    file["signatures"] = [{"keyid": keyid, "sig": "00000007" + "ab" * 100}]
    room.write("d/targets.json", json.dumps(file, sort_keys=True, separators=(",", ":"), ensure_ascii=False))


def main(words):
    release = os.path.realpath(words[0]) if words else RELEASE
    wrong, count = [], 0
    with tempfile.TemporaryDirectory() as at, concurrent.futures.ThreadPoolExecutor(4) as pool:
        cases = {pool.submit(two_trees, release, f"{at}/trees{place}", place): f"trees {place}" for place in range(len(PARAMETERS))}
        for case in (questions, kills, copied_back):
            cases[pool.submit(case, release, f"{at}/{case.__name__}")] = case.__name__
        for done in concurrent.futures.as_completed(cases):
            count += 1
            try:
                done.result()
            except (Wrong, OSError, subprocess.SubprocessError, ValueError) as error:
                wrong.append(f"one_time_keys: {cases[done]}: {error}")
    print("\n".join(wrong + [f"one_time_keys: {count} cases, {len(wrong)} wrong"]))
    return 1 if wrong else 0


if __name__ == "__main__":
    sys.exit(main(sys.argv[1:]))
