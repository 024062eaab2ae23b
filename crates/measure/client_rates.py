#!/usr/bin/env python3
"""Times the commands of a client beside curl on loopback, for a target of 1 MiB.

usage: client_rates.py [--runs N] [--held MIB..]

A server of the program has a repository with the target, signed with test seeds. Each run begins with a database that holds the first root
alone, and times `update`, then `get`, which fetches the targets metadata and the target, then `get` again, which has nothing to fetch,
then curl, which fetches the bytes of the target from the same server; and `release --version`, which does nothing. The median of each is printed in
milliseconds. Each time is that of a whole process, from its start to its end. With --held the client holds so many MiB of other files, of 1 MiB each:
each command opens its database, which reads and hashes all of them. Beside it stands the floor of an opening: sqlite3 reads every row, and
`sha2` hashes as many blocks. curl has to be there, and the program as `rt run` leaves it: crates/release/out/release; for --held
crates/measure/out/measure too.
"""
import argparse
import hashlib
import sqlite3
import subprocess
import tempfile
from pathlib import Path

from serve_rates import RELEASE, release, repository, serve_release
from store_rates import rates, read_all, seconds

TARGET = "target.bin"


def times_of(folder, port, number):
    """The milliseconds of each command, behind an `init` that is not timed."""
    db, out, other = (str(folder / f"{name}-{number}") for name in ("client", "out", "other"))
    release("init", "--db", db, str(folder / "root.json"))
    to_server = ["--db", db, "--port", str(port)]
    fetch = ["curl", "-s", "-f", "-o", other, f"http://127.0.0.1:{port}/targets/{TARGET}"]
    times = {
        "update": seconds(lambda: release("update", *to_server), 1),
        "get, from the network": seconds(lambda: release("get", *to_server, "--out", out, TARGET), 1),
        "get, nothing to fetch": seconds(lambda: release("get", *to_server, "--out", out, TARGET), 1),
        "curl": seconds(lambda: subprocess.run(fetch, check=True), 1),
        "release --version": seconds(lambda: subprocess.run([RELEASE, "--version"], check=True, stdout=subprocess.DEVNULL), 1),
    }
    if Path(out).read_bytes() != Path(other).read_bytes():
        raise SystemExit("client_rates.py: the client has other bytes than curl")
    return {name: 1000 * it for name, it in times.items()}


def held(folder, port, mebibytes, blocks):
    """Prints what `update` and `get` take where the client holds so many files of 1 MiB."""
    db, out = str(folder / f"held-{mebibytes}"), str(folder / "got")
    to_server = ["--db", db, "--port", str(port)]
    release("init", "--db", db, str(folder / "root.json"))
    release("update", *to_server)
    release("get", *to_server, "--out", out, TARGET)
    connection = sqlite3.connect(db)
    for number in range(mebibytes):
        blob = number.to_bytes(4, "big") + bytes([5]) * 1048572
        connection.execute("INSERT INTO blob VALUES (?, ?)", (hashlib.sha256(blob).hexdigest(), blob))
    connection.commit()
    connection.close()
    update = seconds(lambda: release("update", *to_server), 3)
    get = seconds(lambda: release("get", *to_server, "--out", out, TARGET), 3)
    floor = seconds(lambda: read_all(db), 3) + mebibytes * (1048576 // 64 + 1) / blocks
    print(f"{mebibytes} MiB held: update {update:.2f} s, get {get:.2f} s, the floor of an opening {floor:.2f} s, ratio {get / floor:.2f}")
    Path(db).unlink()


def main():
    parser = argparse.ArgumentParser()
    parser.add_argument("--runs", type=int, default=20)
    parser.add_argument("--held", type=int, nargs="*", default=[])
    options = parser.parse_args()
    runs = options.runs
    with tempfile.TemporaryDirectory() as name:
        folder = Path(name)
        data = bytes(range(256)) * 4096
        (folder / TARGET).write_bytes(data)
        repository(folder, {TARGET: data})
        port, server = serve_release(folder, [TARGET])
        try:
            rows = [times_of(folder, port, number) for number in range(runs)]
            if options.held:
                blocks, _ = rates()
                for mebibytes in options.held:
                    held(folder, port, mebibytes, blocks)
        finally:
            server.kill()
    for name in rows[0]:
        print(f"{name}: {sorted(row[name] for row in rows)[runs // 2]:.1f} ms")


if __name__ == "__main__":
    main()
