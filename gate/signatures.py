#!/usr/bin/env python3
"""Signs documents by the built program with the first leaf and the last of each kind of key, and compares every byte with another signer's.

    gate/signatures.py [RELEASE]       the program, out/release where none is named

The other signer is gate/straight.py, the straight algorithm of RFC 8554, whose keys and signatures of these seeds are those of Bouncy
Castle (the stored run of `verdicts`). The leaves between the two are taken by rows of other messages, which sqlite3 writes into the book.
"""
import hashlib
import os
import sqlite3
import subprocess
import sys
import tempfile

import straight
from served import RELEASE, Wrong, want, without_reasons

FIRST, LAST, BEYOND = (b'{"_type":"%s"}' % word for word in (b"first", b"last", b"beyond"))


def signed_by(width, height, seed, leaf, message):
    """The file that another signer makes of a message: the one signature of the key of a seed."""
    public, signature = straight.signed(width, height, bytes([seed]) * 16, bytes([seed]) * 32, leaf, message).split()
    key = '{"keytype":"lms","keyval":{"public":"%s"},"scheme":"lms-sha256"}' % public
    keyid = hashlib.sha256(key.encode()).hexdigest()
    return b'{"signatures":[{"keyid":"%s","sig":"%s"}],"signed":%s}' % (keyid.encode(), signature.encode(), message)


def sign(room, words, message, release):
    """The exit status and what is written for a document with no signature."""
    with open(f"{room}/document", "wb") as file:
        file.write(b'{"signatures":[],"signed":%s}' % message)
    ended = subprocess.run([release, "sign", *words, f"{room}/document"], capture_output=True)
    return ended.returncode, ended.stdout, without_reasons(ended.stderr)


def take(book, leaves):
    """Rows that keep these leaves of the book's one key for other messages."""
    connection = sqlite3.connect(book)
    connection.executemany("INSERT INTO leaf SELECT key, ?, ? FROM signer", [(leaf, b"%d" % leaf) for leaf in leaves])
    connection.commit()
    connection.close()


def signs_alike(room, width, height, seed, release):
    words = ["--book", f"{room}/book {width} {height}", "--seed", f"{room}/seed", "--ots", str(width), "--height", str(height)]
    with open(f"{room}/seed", "w", encoding="ascii", opener=lambda name, flags: os.open(name, flags, 0o600)) as file:
        file.write(f"{seed:02x}" * 48 + "\n")
    last, kind = (1 << height) - 1, f"width {width}, height {height}"
    told = f"warning: {words[1]}: a new book\nwarning: {words[1]}: a new key ID\n".encode()
    want(sign(room, words, FIRST, release) == (0, signed_by(width, height, seed, 0, FIRST), told), f"{kind}: the first leaf")
    take(words[1], range(1, last))
    want(sign(room, words, LAST, release) == (0, signed_by(width, height, seed, last, LAST), b""), f"{kind}: the last leaf")
    want(sign(room, words, BEYOND, release) == (1, b"", b"leaves spent\n"), f"{kind}: one more")


def main(words):
    release = os.path.realpath(words[0]) if words else RELEASE
    with tempfile.TemporaryDirectory() as room:
        try:
            for height in (5, 10):
                for seed, width in enumerate((1, 2, 4, 8), 1):
                    signs_alike(room, width, height, seed, release)
        except (Wrong, OSError, subprocess.SubprocessError) as error:
            print(f"signatures: {error}")
            return 1
    print("signatures: sixteen signatures are those of another signer, byte for byte")
    return 0


if __name__ == "__main__":
    sys.exit(main(sys.argv[1:]))
