#!/usr/bin/env python3
"""Measures what `release serve` keeps in memory over many blobs, how long it takes to open them, and a target of 1 MiB.

usage: memory.py [--mebibytes N..] [--blobs N..] [--runs N] [--requests N] [--spread KIB] [--bend N]

- Memory: database files with 64, 128, 256 and 512 MiB of blobs of 1 MiB, one of which is a target. What the system says of the
  server is printed after it has opened the file and after it has served the target: VmRSS, which it has now, and VmHWM, the
  most that it had. Memory is flat where each of the four numbers is the same for all files, up to so many KiB (4,096).
- Opening: the time from the start of the server to its first line, over 500, 1,000, 2,000 and 4,000 blobs of 64 KiB; the time
  over no blob besides the target is taken off. It is linear where no blob takes over 1.25 times as long in one file as in another.
- A target of 1 MiB beside its floor, one connection at a time: CPython's sqlite3 reads the blob by its digest, the crate `sha2`
  hashes as many blocks of 64 bytes, and a process that has the reply in memory reads a request and writes the reply at once.
  The rate of `sha2` is that line of `measure lms`, where that program is built, else hashlib's SHA-256 stands for it.

The databases are made by the program, and the blobs but the target by sqlite3. Nothing else should run. The programs are
crates/release/out/release and crates/measure/out/measure, as `rt run` leaves them. The exit status is 1 where memory is not flat
or the opening not linear.
"""
import argparse
import hashlib
import multiprocessing
import socket
import sqlite3
import sys
import tempfile
import time
from pathlib import Path

from serve_rates import HERE, RELEASE, release, repository
from store_rates import BLOB, MEASURE, rates

sys.path.insert(0, str(HERE.parent / "gate"))
from figure_tools import median, seconds  # noqa: E402
from served import Server, rest  # noqa: E402

MEBIBYTE = 1048576
TARGET = "target.bin"
REQUEST = f"GET /targets/{TARGET} HTTP/1.1\r\n\r\n".encode()
HEAD = b"HTTP/1.1 200 OK\r\nContent-Type: application/octet-stream\r\nContent-Length: 1048576\r\nConnection: close\r\n\r\n"


def made(folder, count, size):
    """A database with the target and so many further blobs of so many bytes."""
    db = str(folder / f"{count}-{size}.db")
    release("init", "--db", db, str(folder / "root.json"))
    release("publish", "--db", db, *(f"{role}:{folder / role}.json" for role in ("timestamp", "snapshot", "targets")))
    release("put", "--db", db, str(folder / TARGET))
    connection = sqlite3.connect(db)
    for number in range(count):
        blob = number.to_bytes(4, "big") + bytes([7]) * (size - 4)
        connection.execute("INSERT INTO blob VALUES (?, ?)", (hashlib.sha256(blob).hexdigest(), blob))
    connection.commit()
    connection.close()
    return db


def resident(server):
    """VmRSS and VmHWM of the server, in KiB."""
    text = Path(f"/proc/{server.pid()}/status").read_text()
    said = dict(line.split(":", 1) for line in text.splitlines())
    return [int(said[name].split()[0]) for name in ("VmRSS", "VmHWM")]


def serve_target(server):
    reply = server.ask(REQUEST)
    if len(reply) != len(HEAD) + MEBIBYTE or not reply.startswith(HEAD):
        raise SystemExit(f"memory.py: the target was answered {reply[:200]!r}")


def memory(folder, sizes, spread):
    """Whether the memory is the same over all sizes."""
    rows = []
    for size in sizes:
        db = made(folder, size - 1, MEBIBYTE)
        with Server(db) as server:
            opened = resident(server)
            serve_target(server)
            served = resident(server)
        rows.append(opened + served)
        said = "opened: VmRSS {} KiB, VmHWM {} KiB; target served: VmRSS {} KiB, VmHWM {} KiB".format(*rows[-1])
        print(f"{size} MiB of blobs: {said}", flush=True)
        Path(db).unlink()
    apart = max(max(column) - min(column) for column in zip(*rows))
    is_flat = apart <= spread
    print(f"memory is {'flat' if is_flat else 'NOT flat'}: at most {apart} KiB apart (bar {spread})")
    return is_flat


def opening(db, runs):
    """Seconds from the start of the server to its first line."""
    times = []
    for _ in range(runs):
        start = time.perf_counter()
        with Server(db):
            times.append(time.perf_counter() - start)
    return median(times)


def openings(folder, counts, runs, bend):
    """Whether the time of opening is so much a blob."""
    base = opening(made(folder, 0, BLOB), runs)
    print(f"opening no blob but the target: {base * 1000:.0f} ms")
    each = []
    for count in counts:
        db = made(folder, count, BLOB)
        took = opening(db, runs) - base
        each.append(took / count)
        print(f"opening {count} blobs of 64 KiB: {took * 1000:.0f} ms, {took / count * 1e6:.0f} microseconds a blob", flush=True)
        Path(db).unlink()
    ratio = max(each) / min(each)
    is_linear = ratio <= bend
    print(f"opening is {'linear' if is_linear else 'NOT linear'}: a blob takes up to {ratio:.2f} times as long (bar {bend})")
    return is_linear


def write_at_once(listener, requests, reply):
    """Answers so many connections, each by one call of the system where it takes all."""
    for _ in range(requests):
        peer, _ = listener.accept()
        with peer:
            peer.recv(8192)
            peer.sendall(reply)


def ask(port):
    with socket.create_connection(("127.0.0.1", port), timeout=60) as peer:
        peer.sendall(REQUEST)
        if len(rest(peer)) != len(HEAD) + MEBIBYTE:
            raise SystemExit("memory.py: a reply of another length")


def write_alone(data, requests):
    """Seconds of a request that is answered from memory by one write."""
    listener = socket.create_server(("127.0.0.1", 0))
    writer = multiprocessing.Process(target=write_at_once, args=(listener, requests, HEAD + data))
    writer.start()
    port = listener.getsockname()[1]
    took = median([seconds(lambda: ask(port)) for _ in range(requests)])
    writer.join()
    listener.close()
    return took


def read_alone(db, digest, requests):
    """Seconds in which sqlite3 reads the target by its digest."""
    connection = sqlite3.connect(db)
    query = "SELECT bytes FROM blob WHERE digest = ?"
    took = median([seconds(lambda: connection.execute(query, (digest,)).fetchone()) for _ in range(requests)])
    connection.close()
    return took


def hash_alone(data, requests):
    """Seconds in which `sha2` hashes the target, and who says so."""
    if MEASURE.is_file():
        return (len(data) / 64 + 1) / rates()[0], "sha2"
    return median([seconds(lambda: hashlib.sha256(data).digest()) for _ in range(requests)]), "hashlib"


def target(folder, data, requests):
    db = made(folder, 63, MEBIBYTE)
    with Server(db) as server:
        serve_target(server)
        ours = median([seconds(lambda: ask(server.port)) for _ in range(requests)])
    read = read_alone(db, hashlib.sha256(data).hexdigest(), requests)
    hashed, who = hash_alone(data, requests)
    write = write_alone(data, requests)
    floor = read + hashed + write
    parts = f"sqlite3 {read * 1e6:.0f}, {who} {hashed * 1e6:.0f}, one write {write * 1e6:.0f}"
    print(f"target of 1 MiB: release {ours * 1e6:.0f} microseconds, floor {floor * 1e6:.0f} ({parts}), ratio {ours / floor:.2f}")


def main():
    parser = argparse.ArgumentParser()
    parser.add_argument("--mebibytes", type=int, nargs="*", default=[64, 128, 256, 512])
    parser.add_argument("--blobs", type=int, nargs="*", default=[500, 1000, 2000, 4000])
    parser.add_argument("--runs", type=int, default=5)
    parser.add_argument("--requests", type=int, default=200)
    parser.add_argument("--spread", type=int, default=4096)
    parser.add_argument("--bend", type=float, default=1.25)
    args = parser.parse_args()
    if not RELEASE.is_file():
        raise SystemExit(f"memory.py: no program {RELEASE}")
    data = bytes(range(256)) * 4096
    with tempfile.TemporaryDirectory() as name:
        folder = Path(name)
        (folder / TARGET).write_bytes(data)
        repository(folder, {TARGET: data})
        is_flat = memory(folder, args.mebibytes, args.spread) if args.mebibytes else True
        is_linear = openings(folder, args.blobs, args.runs, args.bend) if args.blobs else True
        if args.requests:
            target(folder, data, args.requests)
    sys.exit(0 if is_flat and is_linear else 1)


if __name__ == "__main__":
    main()
