#!/usr/bin/env python3
"""Times requests for one target at the built server, and a search that knows nothing of its signatures, over several repositories.

usage: get_rates.py [--requests N] [--runs N]

The target is listed among 1 and among 1,000, the latter beside 4,096 blobs; behind a line of 31 delegations; behind that line among 4,096 shelf
rows; and with a layout of 16 steps of 64 artifacts and rules, whose links are by one functionary for each step, then by four. All is signed
with W4, then with W8. For each it prints the milliseconds of a request for the target, those of a request for the timestamp, which searches
nothing, and those of `release get` over the same file, which opens it, so checks what it has not checked, and fetches nothing. The medians
count. How many signatures each of these checks is what `checks` and `cold` of the program `replay` answer, in its stored run.

The program is crates/release/out/release, as `rt run` leaves it. Nothing else should run.
"""
import argparse
import sqlite3
import sys
import tempfile
from pathlib import Path

from memory import median, seconds
from repositories import PATH, chain, database, key_of, line, plain
from serve_rates import HERE, release

sys.path.insert(0, str(HERE / "release"))
from served import Server  # noqa: E402

MOST_ROWS, DELEGATIONS = 4096, 31


def request(name):
    return f"GET /{name} HTTP/1.1\r\n\r\n".encode()


def asked(server, name, requests):
    """Milliseconds of one request."""
    reply = server.ask(request(name))
    if not reply.startswith(b"HTTP/1.1 200 OK\r\n"):
        raise SystemExit(f"get_rates.py: {name} was answered {reply[:200]!r}")
    return 1000 * median([seconds(lambda: server.ask(request(name))) for _ in range(requests)])


def fill_shelf(db):
    """Rows of roles that no document names, up to the most rows."""
    connection = sqlite3.connect(db)
    (held,) = connection.execute("SELECT count(*) FROM shelf").fetchone()
    (file,) = connection.execute("SELECT bytes FROM shelf ORDER BY role LIMIT 1").fetchone()
    connection.executemany("INSERT INTO shelf VALUES (?, 1, ?)", [(f"q{number:04}", file) for number in range(MOST_ROWS - held)])
    connection.commit()
    connection.close()


def scenes(folder, width):
    """What is said of each repository, and its file, made when it is asked for."""
    key = key_of(width)
    for name, roles, files, blobs, rows in (
        ("1 listing", plain(1), {}, 0, False),
        ("1,000 listings and 4,096 blobs", plain(1000), {}, 4095, False),
        (f"{DELEGATIONS} delegations", line(key, DELEGATIONS), {}, 0, False),
        (f"{DELEGATIONS} delegations, 4,096 rows", line(key, DELEGATIONS), {}, 0, True),
        ("a layout with 16 links", *chain(key, width, 1), 0, False),
        ("a layout with 64 links", *chain(key, width, 4), 0, False),
    ):
        place = folder / f"{width} {name}"
        place.mkdir()
        db = database(place, key, roles, files.values(), blobs)
        if rows:
            fill_shelf(db)
        yield name, place, db


def main():
    parser = argparse.ArgumentParser()
    parser.add_argument("--requests", type=int, default=200)
    parser.add_argument("--runs", type=int, default=5)
    chosen = parser.parse_args()
    with tempfile.TemporaryDirectory() as folder:
        for width in (4, 8):
            for name, place, db in scenes(Path(folder), width):
                words = ["get", "--db", db, "--port", "1", "--out", str(place / "out"), PATH]
                cold = 1000 * median([seconds(lambda: release(*words)) for _ in range(chosen.runs)])
                with Server(db) as server:
                    target = asked(server, f"targets/{PATH}", chosen.requests)
                    timestamp = asked(server, "metadata/timestamp.json", chosen.requests)
                print(f"w{width}, {name}: target {target:.2f} ms, timestamp {timestamp:.2f} ms, get {cold:.0f} ms", flush=True)


if __name__ == "__main__":
    main()
