#!/usr/bin/env python3
"""Times the reading of canonical JSON beside CPython's json.loads, and that of documents.

usage: compare.py [--rounds N] [--pairs N] [--keep FILE]

Lines of `verdicts` have the text of targets metadata of 1,580 listings and some 260 KiB, and json.loads reads the same bytes in the same run, in turn. The time
of as many lines of the same length whose text is wrong from its first byte on is taken off: so what is left is the reading alone. Then `measure documents` reads these targets
metadata as a document, which takes all its parts and judges them, a snapshot of 128 roles and 256,000 bytes, and targets metadata of 1,000 listings; the memory
that it takes at most is printed, and the time in which `release canon` reads the text and writes it. The programs are those that `rt run` leaves in out/ of
their crates. The exit status is 0 where `verdicts` is at least as fast as json.loads and the memory stays within the limit, else 1.
"""
import argparse
import hashlib
import json
import os
import statistics
import subprocess
import sys
import tempfile
import time
from pathlib import Path

from memory import median, seconds
from pattern_rates import VERDICTS
from serve_rates import RELEASE
from store_rates import MEASURE

MEMORY_LIMIT = 64  # bytes per byte of the input


def digest(label):
    return hashlib.sha256(label.encode()).hexdigest()


def long_hex(label, size):
    """So many bytes that the label determines, in hex."""
    parts = (digest(f"{label} {i}") for i in range(size // 32 + 1))
    return "".join(parts)[: 2 * size]


def targets_document(signatures, signature_bytes, paths):
    """Targets metadata with so many listings."""
    targets = {}
    for i in range(paths):
        path = f"packages/group-{i % 37:02}/release-{i:05}.tar.gz"
        targets[path] = {"hashes": {"sha256": digest(path)}, "length": 7919 * i}
    document = {
        "signatures": [
            {"keyid": digest(f"key {k}"), "sig": long_hex(f"signature {k}", signature_bytes)}
            for k in range(signatures)
        ],
        "signed": {
            "_type": "targets",
            "expires": "2030-01-01T00:00:00Z",
            "spec_version": "1.0.31",
            "targets": targets,
            "version": 7,
        },
    }
    return spelled(document)


def spelled(document):
    """As canonical JSON: sorted names and no white space."""
    return json.dumps(document, sort_keys=True, separators=(",", ":")).encode()


def snapshot_document(size):
    """A snapshot of the most roles, which a further member makes so many bytes long."""
    meta = {f"r{n:03}.json": {"hashes": {"sha256": digest("abc")}, "length": n, "version": 1} for n in range(127)}
    signed = {
        "_type": "snapshot",
        "expires": "2030-01-01T00:00:00Z",
        "meta": {**meta, "targets.json": {"version": 1}},
        "spec_version": "1.0.31",
        "version": 1,
        "x": "",
    }
    signed["x"] = "a" * (size - len(spelled({"signatures": [], "signed": signed})))
    return spelled({"signatures": [], "signed": signed})


def run_verdicts(text, rounds, answer):
    """The seconds of so many lines of `verdicts`, each of which has to be answered so."""
    lines = f"json {text.hex()}\n".encode() * rounds
    start = time.perf_counter()
    printed = subprocess.run([VERDICTS], input=lines, stdout=subprocess.PIPE, check=True).stdout
    took = time.perf_counter() - start
    if printed != f"{answer}\n".encode() * rounds:
        raise SystemExit("compare.py: the text is answered otherwise")
    return took


def run_reading(text, rounds):
    """Bytes per second of reading."""
    took = run_verdicts(text, rounds, "canonical") - run_verdicts(b"}" + text[1:], rounds, "not_canonical")
    return int(len(text) * rounds / max(took, 1e-9))


def run_documents(kind, file, rounds):
    """How many documents are read per second."""
    command = [MEASURE, "documents", str(rounds), kind, file]
    done = subprocess.run(command, capture_output=True, text=True, check=True)
    return int(done.stdout.split()[3])


def run_loads(text, rounds):
    """Bytes per second of json.loads."""
    start = time.perf_counter()
    for _ in range(rounds):
        json.loads(text)
    return int(len(text) * rounds / (time.perf_counter() - start))


def peak_memory(file, rounds):
    """The most memory that the program holds, in bytes.

    It is the high-water mark of the process itself. (getrusage of a child would count what this one held when it
    started the child.) It only rises, and each round holds as much as the one before.
    """
    peak = 0
    with subprocess.Popen([MEASURE, "documents", str(rounds), "targets", file], stdout=subprocess.DEVNULL) as child:
        while child.poll() is None:
            try:
                status = Path(f"/proc/{child.pid}/status").read_text()
            except OSError:
                break
            name = Path(f"/proc/{child.pid}/comm").read_text().strip()
            for line in status.splitlines():
                if line.startswith("VmHWM:") and name == MEASURE.name:
                    peak = max(peak, int(line.split()[1]) * 1024)
            time.sleep(0.002)
    return peak


def options():
    words = argparse.ArgumentParser(description=__doc__, formatter_class=argparse.RawDescriptionHelpFormatter)
    words.add_argument("--rounds", type=int, default=50)
    words.add_argument("--pairs", type=int, default=15)
    words.add_argument("--keep", metavar="FILE", help="leave the file that is read here")
    given = words.parse_args()
    for program in (VERDICTS, MEASURE, RELEASE):
        if not os.access(program, os.X_OK):
            sys.exit(f"{program} is not built")
    return given


def read_documents(given, folder, text):
    """The reading of documents, and the canonical form, with nothing beside them."""
    documents = [("targets", text), ("snapshot", snapshot_document(256000)), ("targets", targets_document(0, 0, 1000))]
    for kind, document in documents:
        file = os.path.join(folder, "document.json")
        Path(file).write_bytes(document)
        rates = [run_documents(kind, file, given.rounds) for _ in range(given.pairs)]
        print(f"{kind} of {len(document)} bytes: {int(statistics.median(rates))} a second (median)")
    command = [RELEASE, "canon", os.path.join(folder, "document.json")]
    took = median([seconds(lambda: subprocess.run(command, stdout=subprocess.DEVNULL, check=True)) for _ in range(given.pairs)])
    print(f"canon of {len(document)} bytes: {1000 * took:.1f} ms")


def main():
    given = options()
    text = targets_document(signatures=3, signature_bytes=2508, paths=1580)
    with tempfile.TemporaryDirectory() as folder:
        file = given.keep or os.path.join(folder, "targets.json")
        Path(file).write_bytes(text)
        reads, loads = [], []
        for _ in range(given.pairs):
            reads.append(run_reading(text, given.rounds))
            loads.append(run_loads(text, given.rounds))
        peak = peak_memory(file, 4 * given.rounds)
        read_documents(given, folder, text)

    ratio = statistics.median(read / loaded for read, loaded in zip(reads, loads))
    memory = peak / len(text)
    print(f"file         {len(text)} bytes, {given.pairs} pairs of {given.rounds} rounds, CPython {sys.version.split()[0]}")
    for name, rates in [("read", reads), ("json.loads", loads)]:
        print(f"{name:<12} {int(statistics.median(rates)):>11} bytes per second (median), {max(rates):>11} (best)")
    print(f"read / loads {ratio:.2f} (median of the pairs, bar 1.00)")
    print(f"peak memory  {peak} bytes, {memory:.1f} per byte of the file (limit {MEMORY_LIMIT})")
    sys.exit(0 if ratio >= 1 and 0 < memory <= MEMORY_LIMIT else 1)


if __name__ == "__main__":
    main()
