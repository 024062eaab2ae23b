#!/usr/bin/env python3
"""Times the store of the built program beside CPython's sqlite3 on the same rows, in one run.

usage: store_rates.py [--rounds N] [--opens N] [--rows N..] [--puts N] [--batches N]

- Opening: database files with as many blobs of 64 KiB as shelf rows, 500, 1,000, 2,000 and 4,000 of each. `release put` of a blob that
  is held opens it and writes nothing; the time of the program over an empty repository is taken off. Beside it the floor: sqlite3 reads
  every row, and the time is added in which the crate `sha2` hashes as many blocks of 64 bytes as the blobs have. That rate is the line
  `sha2` of `measure lms`, whose hashes are of one block each, with what a hash takes besides.
- Puts of 1 MiB, through `release serve` over loopback, one connection each, and as one transaction each of sqlite3 in a file, with a second sync as the
  program has it, and the time added in which `sha2` hashes as many blocks: the floor.
- Batches of a timestamp, a snapshot and a targets document, each of the next version, in the same two ways; to the floor the time of the three
  verifications is added (W4 at height 5, the line `w4` of `measure lms`). Both are printed once more with a request for the root in the floor, since
  sqlite3 has no connection to take. How long a sync takes decides the rest: it is printed, too.

The programs are crates/release/out/release and crates/measure/out/measure, as `rt run` leaves them.
"""
import argparse
import hashlib
import http.client
import os
import sqlite3
import subprocess
import tempfile
import time
from pathlib import Path

from serve_rates import HERE, RELEASE, document, free_port, release, repository, signed

MEASURE = HERE / "measure/out/measure"
BLOB = 65536


def seconds(call, times):
    best = []
    for _ in range(times):
        start = time.perf_counter()
        call()
        best.append(time.perf_counter() - start)
    return sorted(best)[len(best) // 2]


def rates():
    """How many blocks of 64 bytes the crate `sha2` hashes in a second, and how many signatures of W4 at height 5 are verified."""
    lines = subprocess.run([MEASURE, "lms", "200"], check=True, capture_output=True, text=True).stdout.splitlines()
    words = {line.split()[0]: line.split() for line in lines}
    return int(words["sha2"][1]), int(words["w4"][2])


def sync(folder):
    """The seconds of a sync behind a write of one page, the median of 50."""
    file = os.open(folder / "synced", os.O_RDWR | os.O_CREAT)
    took = []
    for number in range(50):
        os.pwrite(file, bytes(4096), 4096 * number)
        start = time.perf_counter()
        os.fdatasync(file)
        took.append(time.perf_counter() - start)
    os.close(file)
    return sorted(took)[25]


def fill(db, targets, rows):
    """The rows that no command makes: a shelf document under all names but one, and the blobs but one."""
    connection = sqlite3.connect(db)
    connection.executemany("INSERT INTO shelf VALUES (?, 1, ?)", [(f"r{n}", targets) for n in range(rows - 1)])
    for n in range(rows - 1):
        blob = n.to_bytes(4, "big") + bytes([7]) * (BLOB - 4)
        connection.execute("INSERT INTO blob VALUES (?, ?)", (hashlib.sha256(blob).hexdigest(), blob))
    connection.commit()
    connection.close()


def read_all(db):
    connection = sqlite3.connect(db)
    for table in ("root", "current", "shelf", "blob"):
        connection.execute(f"SELECT * FROM {table}").fetchall()
    connection.close()


def made(folder, name, small):
    """A database with the four documents and one blob."""
    db = str(folder / name)
    release("init", "--db", db, str(folder / "root.json"))
    release("publish", "--db", db, *(f"{role}:{folder / role}.json" for role in ("timestamp", "snapshot", "targets")))
    release("put", "--db", db, str(small))
    return db


def opens(folder, rounds, times, sizes):
    small = folder / "small.bin"
    small.write_bytes(b"abc")
    empty = made(folder, "empty.db", small)
    for rows in sizes:
        db = made(folder, f"held{rows}.db", small)
        fill(db, (folder / "targets.json").read_bytes(), rows)
        found = []
        for _ in range(rounds):
            blocks, _ = rates()
            base = seconds(lambda: release("put", "--db", empty, str(small)), times)
            ours = seconds(lambda: release("put", "--db", db, str(small)), times) - base
            found.append((ours, seconds(lambda: read_all(db), times) + rows * (BLOB // 64 + 1) / blocks))
        ours, floor, ratio = middle(found)
        print(f"open {rows} rows: release {ours * 1000:.0f} ms, sqlite3 with sha2 {floor * 1000:.0f} ms, ratio {ratio:.2f}")
        Path(db).unlink()


def middle(found):
    """The medians of pairs, and that of their ratios."""
    parts = [*zip(*found), [one / other for one, other in found]]
    return [sorted(part)[len(part) // 2] for part in parts]


def request(port, method, target, body):
    connection = http.client.HTTPConnection("127.0.0.1", port)
    connection.request(method, target, body)
    reply = connection.getresponse()
    text = reply.read()
    if reply.status != 200:
        raise SystemExit(text.decode())
    connection.close()


def serve(db):
    port = free_port()
    server = subprocess.Popen([RELEASE, "serve", "--db", db, "--port", str(port)], stdout=subprocess.PIPE)
    server.stdout.readline()
    return port, server


def beside(folder, number, rows):
    """One transaction for each list of rows, in a file of sqlite3, and as many syncs as the program has for each: its log is synced behind the rows and
    behind the mark that they are whole, that of sqlite3 once."""
    mark = os.open(folder / "mark", os.O_RDWR | os.O_CREAT)
    connection = sqlite3.connect(folder / f"beside{number}.db", isolation_level=None)
    connection.execute("PRAGMA journal_mode=WAL")
    connection.execute("PRAGMA synchronous=FULL")
    connection.execute("CREATE TABLE blob (digest TEXT NOT NULL PRIMARY KEY, bytes BLOB NOT NULL)")
    start = time.perf_counter()
    for group in rows:
        connection.execute("BEGIN")
        for name, data in group:
            connection.execute("INSERT OR REPLACE INTO blob VALUES (?, ?)", (name, data))
        connection.execute("COMMIT")
        os.pwrite(mark, b"1", 0)
        os.fdatasync(mark)
    took = time.perf_counter() - start
    connection.close()
    os.close(mark)
    return took / len(rows)


def beside_floor(what, found):
    """Prints a rate beside the floor, and once more with an exchange in the floor. Each round has the seconds of a request, of an exchange and of the floor."""
    took, floor, _ = middle([(took, floor) for took, _, floor in found])
    ratio = middle([(floor, took) for took, _, floor in found])[2]
    beside = middle([(exchange + floor, took) for took, exchange, floor in found])
    print(f"{what}: release {1 / took:.0f} a second, the floor {1 / floor:.0f}, ratio {ratio:.2f}; with a request for the root in the floor {1 / beside[0]:.0f}, ratio {beside[2]:.2f}")


def timed(port, method, asked):
    """The seconds of a request on the average, and those of one for the root, which is sent as it is held."""
    start = time.perf_counter()
    for target, body in asked:
        request(port, method, target, body)
    took = (time.perf_counter() - start) / len(asked)
    start = time.perf_counter()
    for _ in asked:
        request(port, "GET", "/metadata/1.root.json", None)
    return took, (time.perf_counter() - start) / len(asked)


def puts(folder, number, times):
    """A round of puts: the seconds of one, of an exchange, and of the floor."""
    blocks, _ = rates()
    db = str(folder / f"puts{number}.db")
    release("init", "--db", db, str(folder / "root.json"))
    blobs = [n.to_bytes(4, "big") + bytes([9]) * 1048572 for n in range(times)]
    names = [hashlib.sha256(b).hexdigest() for b in blobs]
    port, server = serve(db)
    took, exchange = timed(port, "PUT", [(f"/blobs/{name}", blob) for name, blob in zip(names, blobs)])
    server.kill()
    stored = beside(folder, number, [[pair] for pair in zip(names, blobs)])
    return took, exchange, stored + (len(blobs[0]) // 64 + 1) / blocks


def batches(folder, number, times):
    """A round of batches, as of puts."""
    _, verified = rates()
    db = str(folder / f"batches{number}.db")
    release("init", "--db", db, str(folder / "root.json"))
    roles = {"timestamp": 2, "snapshot": 3, "targets": 4}
    bodies, rows = [], []
    for version in range(1, times + 1):
        files = {
            "timestamp": document("timestamp", meta={"snapshot.json": {"version": version}}),
            "snapshot": document("snapshot", meta={"targets.json": {"version": version}}),
            "targets": document("targets", targets={}),
        }
        texts = {role: signed(roles[role], {**body, "version": version}, version % 32) for role, body in files.items()}
        bodies.append(b"".join(b"%s %d\n%s" % (role.encode(), len(text), text) for role, text in texts.items()))
        rows.append(list(texts.items()))
    port, server = serve(db)
    took, exchange = timed(port, "POST", [("/batch", body) for body in bodies])
    server.kill()
    return took, exchange, beside(folder, number, rows) + 3 / verified


def main():
    parser = argparse.ArgumentParser()
    parser.add_argument("--rounds", type=int, default=7, help="of each figure, the floor beside it; the medians count")
    parser.add_argument("--opens", type=int, default=3)
    parser.add_argument("--rows", type=int, nargs="*", default=[500, 1000, 2000, 4000])
    parser.add_argument("--puts", type=int, default=100)
    parser.add_argument("--batches", type=int, default=30)
    args = parser.parse_args()
    with tempfile.TemporaryDirectory() as name:
        folder = Path(name)
        repository(folder, {"small.bin": b"abc"})
        print(f"a sync: {sync(folder) * 1000:.2f} ms")
        beside_floor("put of 1 MiB", [puts(folder, number, args.puts) for number in range(args.rounds)])
        beside_floor("batch of 3", [batches(folder, args.rounds + number, args.batches) for number in range(args.rounds)])
        opens(folder, args.rounds, args.opens, args.rows)


if __name__ == "__main__":
    main()
