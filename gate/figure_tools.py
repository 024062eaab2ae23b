"""What the rows of gate/figures have in common: the programs, the tools and what to install for them, free ports, the scripts of crates/measure, the base
repository and the form of a figure."""
import ast
import functools
import hashlib
import importlib
import json
import os
import random
import shutil
import socket
import sqlite3
import subprocess
import sys
import time
import types
from pathlib import Path

TOP = Path(os.path.realpath(__file__)).parent.parent
RELEASE = Path(os.path.realpath(os.environ.get("RELEASE") or TOP / "crates/release/out/release"))
MEASURE = Path(os.environ.get("MEASURE") or TOP / "crates/measure/out/measure")
VERDICTS = Path(os.environ.get("VERDICTS") or TOP / "crates/verdicts/out/verdicts")
BUILT = {"measure": (MEASURE, "'rt run measure'"), "verdicts": (VERDICTS, "'rt run verdicts'")}
PACKAGES = {"nginx": "nginx-light", "ab": "apache2-utils", "wrk": "wrk", "curl": "curl", "cc": "gcc and libssl-dev"}
FIRST_PORT, LAST_PORT = 20000, 29999
SCRIPTS = ("serve_rates", "store_rates", "memory", "client_rates", "pattern_rates", "verifying_rates")
# OpenSSL's words for a processor without SHA instructions, which the program does not use.
PLAIN = {**os.environ, "OPENSSL_ia32cap": ":~0x20000000"}
LARGE, SMALL = "target.bin", "small.bin"
# The bar of a cost that grows: what a size may take next to the size before it.
IN_PROPORTION = "at most 1.25 in proportion"
ROLES = ("timestamp", "snapshot", "targets")


class Skipped(Exception):
    """A row cannot be run here."""


def need(*names):
    """Tells what is missing, and how it is had."""
    for name in names:
        if name in BUILT:
            program, how = BUILT[name]
            if not os.access(program, os.X_OK):
                raise Skipped(f"the program {name} is not built: {how}")
        elif not (shutil.which(name) or os.path.exists(f"/usr/sbin/{name}")):
            raise Skipped(f"{name} is not there: install {PACKAGES[name]}")


def free_port():
    """A port on which nobody listens, below those that the system gives to connections."""
    while True:
        port = random.randint(FIRST_PORT, LAST_PORT)
        with socket.socket() as trial:
            try:
                trial.bind(("127.0.0.1", port))
            except OSError:
                continue
            return port


def median(values):
    return sorted(values)[len(values) // 2]


def seconds(call):
    start = time.perf_counter()
    call()
    return time.perf_counter() - start


def release(*words, folder=None):
    """The seconds of a command, which has to end well."""
    start = time.perf_counter()
    done = subprocess.run([RELEASE, *map(str, words)], cwd=folder, stdin=subprocess.DEVNULL, capture_output=True, text=True, check=False)
    took = time.perf_counter() - start
    if done.returncode:
        raise SystemExit(f"release {words[0]} ended with {done.returncode}: {done.stderr[-300:]}")
    return took


def figure(name, what, unit, values, peer="", others=(), bar="", size=0):
    """A figure as a line for gate/figures. `values` and `others` have one of each round, side by side; with a size it is compared to the size before."""
    said = {"name": name, "what": what, "unit": unit, "bar": bar, "size": size, "peer": peer}
    said |= {"median": median(values), "smallest": min(values), "largest": max(values), "ratio": None}
    said |= {"peer_median": None, "peer_smallest": None, "peer_largest": None}
    if others:
        said |= {"peer_median": median(others), "peer_smallest": min(others), "peer_largest": max(others)}
        ratios = [one / other for one, other in zip(values, others) if other]
        said["ratio"] = median(ratios) if ratios else None
    print(json.dumps(said), flush=True)


def measured():
    """Blocks of 64 bytes that the crate `sha2` hashes a second, and signatures of W4 at height 5 that are verified."""
    lines = subprocess.run([MEASURE, "lms", "200"], check=True, capture_output=True, text=True).stdout.splitlines()
    words = {line.split()[0]: line.split() for line in lines}
    return int(words["sha2"][1]), int(words["w4"][2])


class Scene:
    """What a row is given: how often it goes round, whether it is only tried, a folder, the base repository, and the machine's unit."""

    def __init__(self, options, folder):
        self.rounds, self.small, self.unit = options.rounds, options.small, options.unit
        self.base, self.folder = Path(options.base), Path(folder)
        self.size = os.path.getsize(self.base / LARGE)

    def sizes(self, full, small):
        return small if self.small else full

    def rates(self):
        """As `measured`, or by the machine's unit where that program is not built."""
        return measured() if os.access(MEASURE, os.X_OK) else (self.unit / 64, None)

    def copy(self, name, is_begun=False):
        """A copy of the base repository, or of one that has its first root alone."""
        return shutil.copy(self.base / ("begun.db" if is_begun else "base.db"), self.folder / name)

    @functools.cached_property
    def scripts(self):
        """The scripts of crates/measure, with this program, these ports and these rates."""
        sys.path[:0] = [str(TOP / "crates/measure"), str(TOP / "model")]
        found = types.SimpleNamespace(**{name: importlib.import_module(name) for name in SCRIPTS})
        served = importlib.import_module("served")
        served.free_port = free_port
        ours = {"RELEASE": RELEASE, "MEASURE": MEASURE, "VERDICTS": VERDICTS, "free_port": free_port, "rates": self.rates}
        ours["Server"] = functools.partial(served.Server, release=str(RELEASE))
        for module in vars(found).values():
            for name, value in ours.items():
                if hasattr(module, name):
                    setattr(module, name, value)
        return found

    @functools.cached_property
    def repositories(self):
        """What makes repositories by the keys of the model, published by this program."""
        assert self.scripts
        found = importlib.import_module("repositories")
        found.release = release
        return found

    def key(self, seed, width):
        """The model's key of a seed file, at height 5."""
        assert self.repositories
        return importlib.import_module("test_keys").KeyOfSeed(seed, width, 5)

    def serve(self, db):
        """The port of a server over the file, and its process."""
        return self.scripts.store_rates.serve(str(db))


def without_its_run(name):
    """The functions of a script of crates/measure that runs as soon as it is read."""
    file = TOP / "crates/measure" / f"{name}.py"
    tree = ast.parse(file.read_text(encoding="utf-8"))
    tree.body = [it for it in tree.body if not (isinstance(it, ast.Expr) and isinstance(it.value, ast.Call))]
    found = {"__name__": name}
    exec(compile(tree, str(file), "exec"), found)  # pylint: disable=exec-used
    return types.SimpleNamespace(**found)


def insert(db, blobs):
    """Target files that no command puts."""
    connection = sqlite3.connect(db)
    rows = [(hashlib.sha256(blob).hexdigest(), blob) for blob in blobs]
    connection.executemany("INSERT OR IGNORE INTO blob VALUES (?, ?)", rows)
    connection.commit()
    connection.close()


def remove(db):
    """A database with its log, which a server that was killed leaves."""
    for tail in ("", "-wal", "-shm"):
        Path(f"{db}{tail}").unlink(missing_ok=True)


def sync(folder):
    """The seconds of a sync of the disk."""
    import store_rates
    return store_rates.sync(folder)


def make_base(folder, size):
    """The documents of a repository that lists a file of so many bytes and one of 1 KiB, signed with test seeds, and two databases."""
    sys.path[:0] = [str(TOP / "crates/measure")]
    import serve_rates
    files = {LARGE: bytes(range(256)) * (size // 256), SMALL: bytes(range(256)) * 4}
    for name, data in files.items():
        (folder / name).write_bytes(data)
    serve_rates.repository(folder, files)
    release("init", "--db", folder / "begun.db", folder / "root.json")
    shutil.copy(folder / "begun.db", folder / "base.db")
    release("publish", "--db", folder / "base.db", *(f"{role}:{folder / role}.json" for role in ROLES))
    insert(folder / "base.db", files.values())
