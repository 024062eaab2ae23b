#!/usr/bin/env python3
"""Times the verification of signatures beside straight C over OpenSSL.

usage: verifying_rates.py [--rounds N] [--pairs N]

For LMS of each LM-OTS width at height 5 and for HSS of two levels of W8 at height 5, a vector of the stored run of `verdicts` is verified by lines of
`verdicts` and by `straight.c`, in turn. The time of as many lines of the same length whose key is of no known type is taken off, so what is left is the
verification alone. It prints both rates and the median of their ratios, and ends with 1 where HSS is below 1.0. OpenSSL is kept from the processor's SHA
instructions, which the program does not use; where there are such, the rate with them is printed, too. It needs `cc` and OpenSSL's headers.
"""
import argparse
import os
import statistics
import subprocess
import sys
import tempfile
import time
from pathlib import Path

from pattern_rates import HERE, VERDICTS

# OpenSSL's words for a processor without SHA instructions (bit 29 of the extended features).
PLAIN = {**os.environ, "OPENSSL_ia32cap": ":~0x20000000"}
HSS_BYTES = 2644  # 4, 1,292, 56 and 1,292 bytes
TYPES = {"00000001": "lms w1", "00000002": "lms w2", "00000003": "lms w4", "00000004": "lms w8"}


def vectors():
    """For each kind a key, a signature and a message that verify."""
    lines = (HERE / "verdicts/stdin").read_text().splitlines()
    answers = (HERE / "verdicts/stdout").read_text().splitlines()
    found = {}
    for line, answer in zip(lines, answers):
        words = line.split(" ")
        if answer.split(" ")[0] != "valid" or len(words) != 4 or not words[3]:
            continue
        kind, public, signature, message = words
        if kind == "lms" and public.startswith("00000005"):
            found.setdefault(TYPES.get(public[8:16]), (kind, public, signature, message))
        elif kind == "hss" and len(signature) == 2 * HSS_BYTES:
            found.setdefault("hss of two levels, w8", (kind, public, signature, message))
    return found


def lines_in(kind, public, signature, message, rounds):
    """The seconds of so many lines of `verdicts`."""
    text = f"{kind} {public} {signature} {message}\n".encode() * rounds
    start = time.perf_counter()
    subprocess.run([VERDICTS], input=text, stdout=subprocess.PIPE, check=True)
    return time.perf_counter() - start


def straight_rate(straight, rounds, words, environment):
    """How many verifications a second `straight.c` makes."""
    done = subprocess.run([straight, str(rounds), *words], env=environment, capture_output=True, text=True, check=True)
    return float(done.stdout)


def main():
    parser = argparse.ArgumentParser()
    parser.add_argument("--rounds", type=int, default=400)
    parser.add_argument("--pairs", type=int, default=9)
    options = parser.parse_args()
    slow = False
    with tempfile.TemporaryDirectory() as folder:
        straight = Path(folder) / "straight"
        source = Path(__file__).with_name("straight.c")
        subprocess.run(["cc", "-O3", "-Wno-deprecated-declarations", source, "-lcrypto", "-o", straight], check=True)
        for name, (kind, public, signature, message) in sorted(vectors().items()):
            ours, theirs = [], []
            for _ in range(options.pairs):
                whole = lines_in(kind, public, signature, message, options.rounds)
                beside = lines_in(kind, "f" * len(public), signature, message, options.rounds)
                ours.append(options.rounds / max(whole - beside, 1e-9))
                theirs.append(straight_rate(straight, options.rounds, (public, signature, message), PLAIN))
            ratio = statistics.median(a / b for a, b in zip(ours, theirs))
            print(f"{name}: {statistics.median(ours):.0f} a second, straight C {statistics.median(theirs):.0f}, ratio {ratio:.2f}")
            if "sha_ni" in Path("/proc/cpuinfo").read_text():
                print(f"    straight C with SHA instructions: {straight_rate(straight, options.rounds, (public, signature, message), os.environ):.0f}")
            slow = slow or kind == "hss" and ratio < 1
    return int(slow)


if __name__ == "__main__":
    sys.exit(main())
