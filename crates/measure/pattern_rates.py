#!/usr/bin/env python3
"""Times how long the built program `verdicts` takes to hold a pattern against a path.

usage: pattern_rates.py [--lines N] [--runs N]

A usual pattern against a usual path, and `*a*a*a*b` and the pattern of 99 `*a` and `*b` against a path of 200 letters `a`, which they do not
cover. Each is a file of so many lines, and the time of as many lines of the same lengths whose pattern differs at its first letter is taken off. The
medians of the runs count. The program is crates/verdicts/out/verdicts, as `rt run` leaves it.
"""
import argparse
import subprocess

from memory import median, seconds
from serve_rates import HERE

VERDICTS = HERE / "verdicts/out/verdicts"
CASES = {
    "usual": ("packages/*/*.tgz", "packages/x/x-1.20.3.tgz", "yes"),
    "three": ("*a*a*a*b", "a" * 200, "no"),
    "most": ("*a" * 99 + "*b", "a" * 200, "no"),
}


def time_of(pattern, path, answer, lines, runs):
    """The seconds of so many lines, each of which has to be answered so."""
    text = f"match segmented {pattern.encode().hex()} {path.encode().hex()}\n".encode() * lines
    wanted = f"{answer}\n".encode() * lines

    def run():
        if subprocess.run([VERDICTS], input=text, stdout=subprocess.PIPE, check=True).stdout != wanted:
            raise SystemExit(f"pattern_rates.py: {pattern} is answered otherwise")

    return median([seconds(run) for _ in range(runs)])


def main():
    parser = argparse.ArgumentParser()
    parser.add_argument("--lines", type=int, default=20000)
    parser.add_argument("--runs", type=int, default=5)
    chosen = parser.parse_args()
    for name, (pattern, path, answer) in CASES.items():
        took = time_of(pattern, path, answer, chosen.lines, chosen.runs)
        other = time_of("b" * len(pattern), path, "no", chosen.lines, chosen.runs)
        each, more = (1e6 * it / chosen.lines for it in (took, took - other))
        print(f"{name}: {each:.2f} microseconds a line, {more:.2f} of them for the pattern")


if __name__ == "__main__":
    main()
