"""The commands `key` and `sign`: seeds of all widths, files by hand and at random, over one book each time."""
import copy
import os
import re
import shutil
import sqlite3
import subprocess
import tempfile
import time

import canonical_json
import leaf_book
from command_line import fault
from denials import Denied
from documents import read_document, read_envelope
from test_keys import LMS_KEYS as KEYS, Key, KeyOfSeed

WARNED = re.compile(rb"^warning: [^\n]*: it would be denied: [^\n]*\n", re.MULTILINE)

LARGE = Key(b"a key that signs 1,024 files", 1, 10)


def write_seed(session, key, name="seed"):
    path = session.folder / f"{name} of {key.id}"
    path.write_text((key.identifier + key.seed).hex() + "\n")
    os.chmod(path, 0o600)
    return path


def words_of(session, key):
    return ["--seed", str(write_seed(session, key)), "--ots", str(key.width), "--height", str(key.height)]


def entry(keyid, digits="00"):
    return {"keyid": keyid, "sig": digits}


def file_of(entries, signed):
    return canonical_json.write({"signatures": entries, "signed": signed})


def others(count):
    return [entry(f"{number:064x}", "ab" * number) for number in range(count)]


def by_hand(key):
    """Files of every kind: good ones, ill ones, and at each limit."""
    for signed in ({"_type": "x"}, {"_type": "", "a": [1, {"b": None}]}, {"_type": "root", "version": 1}, {"_type": 1}, {"a": 1}, [], "x", None):
        yield file_of([], signed)
    for count in (1, 2, 14, 15, 16, 17):
        yield file_of(others(count), {"_type": "x", "count": count})
    for place in (0, 1, 15):
        entries = others(15)
        entries.insert(place, entry(key.id, "cd"))
        yield file_of(entries, {"_type": "older", "place": place})
    yield file_of([entry(key.id)], {"_type": "alone"})
    yield file_of([entry(key.id), entry(key.id)], {"_type": "twice"})
    yield file_of([entry(key.id.upper())], {"_type": "upper"})
    yield file_of([entry(key.id, "0")], {"_type": "odd"})
    yield file_of([entry(key.id, "00" * 74988)], {"_type": "long"})
    yield file_of([entry(key.id, "00" * 74989)], {"_type": "longer"})
    yield b'{"signatures":[],"signed":{"b":1,"_type":"x"}}'
    yield b'{"signatures":[], "signed":{"_type":"x"}}'
    yield b'{"signatures":[],"signed":{"_type":"x"},"z":1}'
    yield b'{"signed":{"_type":"x"}}'
    yield b""
    empty = len(file_of([], {"_type": ""}))
    whole = len(leaf_book.with_entry([], key, key.sign_with(0, b""), b'{"_type":""}'))
    for length in (262144 - whole, 262145 - whole, 262144 - empty, 262145 - empty):
        yield file_of([], {"_type": "t" * length})


def kept(book):
    connection = sqlite3.connect(book)
    try:
        return {(key, leaf, bytes(message)) for key, leaf, message in connection.execute("SELECT key, leaf, message FROM leaf")}
    finally:
        connection.close()


def compare_keys(session, _random):
    for key in (*KEYS, LARGE):
        session.check("key", leaf_book.key_line(key), session.run("key", *words_of(session, key)), key.id.encode())


NEW_NAMES = ("left", "right", "third", "of.two")
ENDINGS = (".seed", ".key", ".book")


def compare_new_keys(session, random, count):
    """`key --new` of several names: none is made where one file of any of them stands."""
    for number in range(count):
        folder = session.folder / f"new keys {number}"
        folder.mkdir()
        names = random.sample(NEW_NAMES, random.randint(1, 3))
        for _ in range(random.choice((0, 0, 1, 2))):
            (folder / (random.choice(NEW_NAMES) + random.choice(ENDINGS))).write_bytes(b"")
        stood = files_in(folder)
        is_refused = any(name + ending in stood for name in names for ending in ENDINGS)
        words = ["key", "--new", *(str(folder / name) for name in names), "--ots", "1", "--height", "5"]
        status, printed, told = session.run(*words)
        if is_refused:
            found = status, printed, told.decode().splitlines()[-1:], files_in(folder)
            session.check("key --new: refused", (1, b"", ["refused exists"], stood), found, " ".join(words))
        else:
            compare_made(session, folder, names, stood, (status, printed))


def files_in(folder):
    """All files with their bytes, but for the logs beside books."""
    return {place.name: place.read_bytes() for place in folder.iterdir() if not place.name.endswith(("-wal", "-shm"))}


def compare_made(session, folder, names, stood, found):
    """Each key is that of its seed, its book has it and no leaf, and seed and book are for their owner alone. What stood there stays."""
    keys = [KeyOfSeed((folder / f"{name}.seed").read_text(), 1, 5) for name in names]
    session.check("key --new: the IDs", (0, "".join(f"{key.id}\n" for key in keys).encode()), found)
    there = files_in(folder)
    made = {name + ending for name in names for ending in ENDINGS}
    session.check("key --new: what stood stays", stood, {name: there[name] for name in there if name not in made})
    for name, key in zip(names, keys):
        modes = [(folder / (name + ending)).stat().st_mode & 0o777 for ending in (".seed", ".book")]
        session.check("key --new: the public half", leaf_book.key_line(key)[1], there[f"{name}.key"])
        session.check("key --new: modes", [0o600, 0o600], modes)
        session.check("key --new: the book", ([(key.id, 1, 5)], set()), (signers_of(folder / f"{name}.book"), kept(folder / f"{name}.book")))


def signers_of(book):
    connection = sqlite3.connect(book)
    try:
        return connection.execute("SELECT key, ots, height FROM signer").fetchall()
    finally:
        connection.close()


def is_ill(text):
    """Whether the file is no metadata of the kind that it says it is."""
    try:
        kind = read_envelope(text)[1]["_type"]
    except Denied:
        return False
    try:
        return kind in ("root", "timestamp", "snapshot", "targets") and not read_document(kind, text)
    except Denied:
        return True


def apart(found):
    """The end of a command, and whether it warned of a document that would be denied."""
    status, printed, told = found
    rest, count = WARNED.subn(b"", told)
    return (status, printed, rest), count == 1


def compare_by_hand(session, _random):
    for number, key in enumerate(KEYS[:8]):
        path = session.folder / f"book {number}"
        book = leaf_book.Book(path)
        file = session.folder / "file"
        for text in by_hand(key):
            file.write_bytes(text)
            words = ["sign", "--book", str(path), *words_of(session, key), str(file)]
            if not book.leaves:
                session.check("sign: unknown", (leaf_book.sign(book, key, text, known=True), is_ill(text)), apart(session.run(*words, "--known")), text)
                session.check("sign: no book is made", book.is_made, path.exists(), text)
            wanted = leaf_book.sign(book, key, text)
            session.check("sign", (wanted, is_ill(text)), apart(session.run(*words)), text)
            if wanted[0] == 0:
                file.write_bytes(wanted[1])
                session.check("sign again", (leaf_book.sign(book, key, text, known=True), is_ill(text)), apart(session.run(*words, "--known")), text)
        session.check("sign: rows of the book", book.rows(), kept(path))


def compare_histories(session, random, count):
    """Several keys over one book, until some have no leaf left; a file that is signed by one is signed by others."""
    path = session.folder / "book of several"
    book = leaf_book.Book(path)
    file, files = session.folder / "file", [file_of([], {"_type": "first"})]
    for number in range(count):
        key = random.choice([*KEYS[:5], LARGE])
        text = random.choice(files) if random.random() < 0.4 else file_of([], {"_type": "x", "n": number})
        file.write_bytes(text)
        known = ["--known"] if random.random() < 0.3 else []
        wanted = leaf_book.sign(book, key, text, bool(known))
        session.check("sign: random", wanted, session.run("sign", *known, "--book", str(path), *words_of(session, key), str(file)), text)
        if wanted[0] == 0:
            files.append(wanted[1])
    session.check("sign: rows of the book", book.rows(), kept(path))


class Trees:
    """Keys of four seeds at several widths and heights. Two of the seeds have one identifier, and are two seeds all the same."""

    SEEDS = [(bytes([1] * 16), bytes([2] * 32)), (bytes([1] * 16), bytes([3] * 32)), (bytes([4] * 16), bytes([2] * 32)), (bytes([5] * 16), bytes([6] * 32))]
    PARAMETERS = [(1, 5), (2, 5), (4, 5), (1, 10)]
    made = {}

    @classmethod
    def any(cls, random):
        seed, parameters = random.choice(cls.SEEDS), random.choice(cls.PARAMETERS)
        if (seed, parameters) not in cls.made:
            cls.made[seed, parameters] = KeyOfSeed((seed[0] + seed[1]).hex(), *parameters)
        return cls.made[seed, parameters]


class OneTimeKeys:
    """Which message each one-time key has signed, by its seed and its leaf, whatever the width and the height."""

    def __init__(self):
        self.signed = {}

    def has_signed_one(self, key, text):
        signatures, _, signed = read_envelope(text)
        leaf = int.from_bytes(dict(signatures)[key.id][:4], "big")
        return self.signed.setdefault((key.identifier, key.seed, leaf), signed) == signed


def killed(session, book, key, text, words, random):
    """The program is killed at some moment. Its book is then the one before, the one that has the key, or the one that has the leaf, too: the one
    whose rows are found, or None where there is none."""
    process = subprocess.Popen([session.program, *words], stdout=subprocess.DEVNULL, stderr=subprocess.DEVNULL)
    time.sleep(random.uniform(0, 0.04))
    process.kill()
    process.wait()
    found = rows_apart(book.path)
    made, with_key, signed = copy.deepcopy(book), copy.deepcopy(book), copy.deepcopy(book)
    made.is_made = True
    leaf_book.sign(signed, key, text)
    if signed.leaves.keys() != book.leaves.keys():
        with_key.opened()
        with_key.registered(key)
    for outcome in (book, made, with_key, signed):
        if ((set(outcome.leaves), outcome.rows()) if outcome.is_made else None) == found:
            return outcome
    return None


def rows_apart(path):
    """The keys of a book and its leaves, as SQLite reads a copy of the files, the log among them. None where there is no book yet."""
    with tempfile.TemporaryDirectory() as room:
        for ending in ("", "-wal"):
            if os.path.exists(f"{path}{ending}"):
                shutil.copy(f"{path}{ending}", f"{room}/copy{ending}")
        try:
            return {row[0] for row in signers_of(f"{room}/copy")}, kept(f"{room}/copy")
        except sqlite3.Error:
            return None


def copied(path, to):
    if path.exists():
        shutil.copyfile(path, to)
        os.chmod(to, 0o600)
    return to


def compare_trees(session, random, count):
    """Several widths and heights of few seeds over one book, which is copied away now and then, and whose signer is killed: no one-time key
    signs two messages."""
    path, number_of = session.folder / "book of trees 0", 0
    book, keys = leaf_book.Book(path), OneTimeKeys()
    file = session.folder / "file"
    for number in range(count):
        key, text = Trees.any(random), file_of([], {"_type": "x", "n": random.randrange(count)})
        file.write_bytes(text)
        words = ["sign", "--book", str(path), *words_of(session, key), str(file)]
        if random.random() < 0.2:
            left = killed(session, book, key, text, words, random)
            session.check("sign: what a kill leaves of the book", True, left is not None, text)
            book = left or book
            continue
        wanted = leaf_book.sign(book, key, text)
        session.check("sign: trees", wanted, session.run(*words), text)
        if wanted[0] == 0:
            session.check("sign: a one-time key signs one message", True, keys.has_signed_one(key, wanted[1]), text)
        if random.random() < 0.1:
            # the book is its file alone: its log stays where it was
            number_of += 1
            path = book.path = copied(path, session.folder / f"book of trees {number_of}")
    session.check("sign: rows of the book", book.rows(), kept(path))


def compare_faults(session, _random):
    """Several faults at once: the seed, the file, the book, the document."""
    key = KEYS[0]
    seed, none = str(write_seed(session, key)), str(session.folder / "none")
    good, ill = session.folder / "good", session.folder / "ill"
    good.write_bytes(file_of([], {"_type": "x"}))
    ill.write_bytes(b"x")
    other = session.folder / "other tables"
    connection = sqlite3.connect(other)
    connection.execute("CREATE TABLE signer(key TEXT)")
    connection.close()
    lines = [(none, str(other), none, "file"), (seed, str(other), none, "file"), (seed, str(other), str(ill), "database")]
    lines += [(str(ill), str(other), str(good), "file"), (seed, str(session.folder), str(good), "database")]
    for given, book, file, word in lines:
        words = ["sign", "--book", book, "--seed", given, "--ots", str(key.width), "--height", str(key.height), file]
        session.check("sign: order of faults", fault(word), session.run(*words))
