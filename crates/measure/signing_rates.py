#!/usr/bin/env python3
"""Times `release key` and `release sign` for each kind of key.

usage: signing_rates.py [--runs N]

For each LM-OTS width at height 5, and for W8 at height 10, it prints the milliseconds of `key`, which makes the whole tree once, those of `sign` for a
new document with a book, and the latter in hundredths of the former: what is signed makes the tree once, too, so that they are nearly the same
where the tree takes long. Each time is that of a whole process; the medians count. The program is crates/release/out/release.
"""
import argparse
import os
import subprocess
import tempfile
from pathlib import Path

from memory import median, seconds
from serve_rates import RELEASE


def sign(folder, words, number):
    """Signs a document that the book does not know."""
    document = folder / "document.json"
    document.write_text('{"signatures":[],"signed":{"_type":"x","n":%d}}' % number)
    command = [RELEASE, "sign", "--book", str(folder / "book"), *words, str(document)]
    subprocess.run(command, check=True, stdout=subprocess.DEVNULL)


def main():
    parser = argparse.ArgumentParser()
    parser.add_argument("--runs", type=int, default=5)
    runs = parser.parse_args().runs
    with tempfile.TemporaryDirectory() as name:
        folder = Path(name)
        seed = folder / "seed"
        seed.touch(mode=0o600)
        for width, height in ((1, 5), (2, 5), (4, 5), (8, 5), (8, 10)):
            seed.write_text(os.urandom(48).hex() + "\n")
            words = ["--seed", str(seed), "--ots", str(width), "--height", str(height)]
            command = [RELEASE, "key", *words]
            key = median([seconds(lambda: subprocess.run(command, check=True, stdout=subprocess.DEVNULL)) for _ in range(runs)])
            signing = median([seconds(lambda: sign(folder, words, number)) for number in range(runs)])
            print(f"w{width}, height {height}: key {1000 * key:.1f} ms, sign {1000 * signing:.1f} ms, ratio {100 * signing / key:.0f}")


if __name__ == "__main__":
    main()
