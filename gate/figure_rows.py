"""The rows of gate/figures that have a floor or a peer, and what stands in docs/FIGURES.md besides, by the scripts of crates/measure."""
import hashlib
import multiprocessing
import os
import re
import resource
import shutil
import socket
import sqlite3
import subprocess
import time
from pathlib import Path

import figure_tools as tools
from figure_tools import LARGE, SMALL, figure, median, release, seconds

KIBIBYTE, MEBIBYTE = 1024, 1048576


def size_of(size):
    return f"{size // MEBIBYTE} MiB" if size >= MEBIBYTE else f"{size // KIBIBYTE} KiB"


def opening(scene):
    """Opening so many target files of 64 KiB and as many shelf rows, next to sqlite3, which reads every row, and the time that `sha2` needs for the files."""
    store = scene.scripts.store_rates
    targets, empty = (scene.base / "targets.json").read_bytes(), scene.copy("empty.db")
    put = ["put", "--db", empty, scene.base / SMALL]
    for rows in scene.sizes((500, 1000, 2000, 4000), (2, 4)):
        db = scene.copy("held.db")
        store.fill(db, targets, rows)
        found = []
        for _ in range(scene.rounds):
            nothing, whole = release(*put), release("put", "--db", db, scene.base / SMALL)
            floor = seconds(lambda: store.read_all(db)) + rows * (store.BLOB // 64 + 1) / scene.rates()[0]
            found.append((1000 * (whole - nothing), 1000 * floor))
        took, floor = zip(*found)
        bar = "at most 1.4" if rows <= 1000 else tools.IN_PROPORTION
        figure(f"opening-{rows}", f"opening {rows} files of 64 KiB and as many shelf rows", "ms", took, "sqlite3 and `sha2`", floor, bar, rows)
        tools.remove(db)


def opening_files(scene):
    """Opening so many target files of 64 KiB alone: the time from a server's start to its first line, less that over none."""
    empty = scene.copy("empty.db")
    for count in scene.sizes((500, 1000, 2000, 4000), (2, 4)):
        db = scene.copy("held.db")
        tools.insert(db, filler(count, 65536))
        took = [1000 * (first_line(scene, db) - first_line(scene, empty)) for _ in range(scene.rounds)]
        figure(f"opening-files-{count}", f"opening {count} files of 64 KiB alone", "ms", took, bar=tools.IN_PROPORTION, size=count)
        tools.remove(db)


def first_line(scene, db):
    start = time.perf_counter()
    _, server = scene.serve(db)
    took = time.perf_counter() - start
    server.kill()
    server.wait()
    return took


def filler(count, size):
    """So many different files of so many bytes."""
    return (number.to_bytes(4, "big") + bytes([7]) * (size - 4) for number in range(count))


def memory(scene):
    """What a server keeps at most, as the system says it, over so many bytes of target files."""
    each = 16 * KIBIBYTE if scene.small else MEBIBYTE
    for count in scene.sizes((64, 128, 256, 512), (1, 2)):
        db = scene.copy("held.db")
        tools.insert(db, filler(count - 1, each))
        found = []
        for _ in range(scene.rounds):
            _, server = scene.serve(db)
            text = Path(f"/proc/{server.pid}/status").read_text(encoding="ascii")
            found.append(int(re.search(r"VmHWM:\s+(\d+)", text)[1]) / 1024)
            server.kill()
            server.wait()
        figure(f"memory-{count}", f"memory at most (VmHWM) over {size_of(count * each)} of target files", "MiB", found, size=count)
        tools.remove(db)


def put(scene):
    """Puts of 1 MiB through a port, next to sqlite3 with as many syncs and the time that `sha2` needs."""
    store = scene.scripts.store_rates
    shutil.copy(scene.base / "root.json", scene.folder)
    found = [store.puts(scene.folder, number, scene.sizes(40, 1)) for number in range(scene.rounds)]
    of_store(found, "put", "a put of 1 MiB", "sqlite3 with as many syncs, and `sha2`", "at least 0.6")


def batch(scene):
    """Batches of three documents through a port, next to sqlite3 with as many syncs and three verifications."""
    tools.need("measure")
    store = scene.scripts.store_rates
    shutil.copy(scene.base / "root.json", scene.folder)
    found = [store.batches(scene.folder, number, scene.sizes(30, 2)) for number in range(scene.rounds)]
    of_store(found, "batch", "a batch of three documents", "sqlite3 with as many syncs, three verifications", "at least 0.5")


def of_store(found, name, what, peer, bar):
    """The rate next to its floor, and once more with a request for the root in the floor: sqlite3 has no connection to take."""
    took = [1 / it[0] for it in found]
    figure(name, what, "a second", took, peer, [1 / it[2] for it in found], bar)
    figure(f"{name}-asked", "the same, a request for the root in the floor", "a second", took, "the same", [1 / (it[1] + it[2]) for it in found])


def publish_in(scene):
    """`publish --in` of a folder with so many files of 64 KiB, next to an opening of what is then held and the files' puts through a port, each in a connection
    of its own."""
    count, size = scene.sizes((1000, 65536), (2, 4096))
    scene.scripts.serve_rates.repository(scene.folder, {})
    files = drafted(scene, count, size)
    found = []
    for number in range(scene.rounds):
        taken, other = (scene.copy(f"{name}{number}.db", is_begun=True) for name in ("taken", "put"))
        shutil.copytree(scene.folder / "drafts", scene.folder / f"drafts{number}")
        took = release("publish", "--db", taken, "--in", scene.folder / f"drafts{number}")
        floor = put_one_by_one(scene, other, files)
        floor += release("put", "--db", taken, scene.base / SMALL)
        found.append((took, floor))
        for db in (taken, other):
            tools.remove(db)
    took, floor = zip(*found)
    figure("publish-in", f"`publish --in` of {count} files of {size_of(size)}", "s", took, "an opening, and their puts through a port", floor, "at most 1.5")


def drafted(scene, count, size):
    """A folder of drafts with so many files, signed here, and the files."""
    serving, drafts, tree = scene.scripts.serve_rates, scene.folder / "drafts", scene.folder / "tree"
    tree.mkdir()
    files = [*filler(count, size)]
    for number, file in enumerate(files):
        (tree / f"{number:04}").write_bytes(file)
    follows = ["--db", scene.copy("drafted.db", is_begun=True), "--in", drafts, "--expires", "90d"]
    release("draft", *follows, "targets", "--add", f"files={tree}")
    for name in ("targets", "snapshot", "timestamp"):
        if name == "snapshot":
            release("draft", *follows, "seal")
        sign(serving, drafts / f"{name}.json", {"timestamp": 2, "snapshot": 3, "targets": 4}[name])
    return files


def sign(serving, path, seed):
    """Signs a draft by a test seed."""
    text = serving.json.loads(path.read_text(encoding="utf-8"))
    path.write_bytes(serving.signed(seed, text["signed"]))


def put_one_by_one(scene, db, files):
    port, server = scene.serve(db)
    store = scene.scripts.store_rates
    took = seconds(lambda: [store.request(port, "PUT", f"/blobs/{hashlib.sha256(file).hexdigest()}", file) for file in files])
    server.kill()
    server.wait()
    return took


def verify(scene):
    """Verifications next to straight C over OpenSSL without SHA instructions, by the stored vectors."""
    tools.need("verdicts", "cc")
    rates, lines = scene.scripts.verifying_rates, scene.sizes(400, 10)
    straight = scene.folder / "straight"
    source = tools.TOP / "crates/measure/straight.c"
    if subprocess.run(["cc", "-O3", "-Wno-deprecated-declarations", source, "-lcrypto", "-o", straight], capture_output=True, check=False).returncode:
        raise tools.Skipped("straight.c does not compile: install gcc and libssl-dev")
    for name, (kind, public, signature, message) in sorted(rates.vectors().items()):
        found = []
        for _ in range(scene.rounds):
            whole, beside = (rates.lines_in(kind, key, signature, message, lines) for key in (public, "f" * len(public)))
            peer = rates.straight_rate(straight, lines, (public, signature, message), tools.PLAIN)
            found.append((lines / max(whole - beside, 1e-9), peer))
        bar, word = "at least 1.1" if name == "lms w4" or kind == "hss" else "", name.split()[1] if kind == "lms" else "hss"
        figure(f"verify-{word}", f"`verify`, {name} at height 5", "a second", *apart(found, "straight C over OpenSSL"), bar)
        if "sha_ni" in Path("/proc/cpuinfo").read_text(encoding="utf-8"):
            with_them = [rates.straight_rate(straight, lines, (public, signature, message), os.environ) for _ in range(scene.rounds)]
            figure(f"instructions-{word}", f"straight C with the processor's SHA instructions, {name} at height 5", "a second", with_them)


def apart(found, peer):
    ours, others = zip(*found)
    return ours, peer, others


def held(scene):
    """`update` and `get` of a client that holds so many target files of 1 MiB, next to an opening by sqlite3 and `sha2`."""
    each = 16 * KIBIBYTE if scene.small else MEBIBYTE
    port, _ = scene.serve(scene.copy("served.db"))
    asked = ["--port", port]
    for count in scene.sizes((64, 256, 1024), (1,)):
        db, out = scene.copy("client.db", is_begun=True), scene.folder / "out"
        release("update", "--db", db, *asked)
        release("get", "--db", db, *asked, "--out", out, LARGE)
        tools.insert(db, filler(count, each))
        found = []
        for _ in range(scene.rounds):
            floor = seconds(lambda: scene.scripts.store_rates.read_all(db)) + count * (each // 64 + 1) / scene.rates()[0]
            found.append((release("update", "--db", db, *asked), release("get", "--db", db, *asked, "--out", out, LARGE), floor))
        update, get, floor = zip(*found)
        for name, took in (("update", update), ("get", get)):
            figure(f"held-{name}-{count}", f"`{name}` with {size_of(count * each)} held", "s", took, "an opening by sqlite3 and `sha2`", floor, size=count)
        tools.remove(db)


def client(scene):
    """Commands of a client as whole processes, next to curl for the same bytes."""
    tools.need("curl")
    rates = scene.scripts.client_rates
    shutil.copy(scene.base / "root.json", scene.folder)
    port, _ = scene.serve(scene.copy("served.db"))
    found = [rates.times_of(scene.folder, port, number) for number in range(scene.rounds)]
    curl = [it["curl"] for it in found]
    for name, said in (("update", "update"), ("get-all", "get, from the network"), ("get-none", "get, nothing to fetch"), ("version", "release --version")):
        figure(f"client-{name}", f"{said}, a target of {size_of(scene.size)}", "ms", [it[said] for it in found], "curl", curl)


def served(scene):
    """Targets over HTTP, one connection at a time, next to nginx."""
    tools.need("nginx", "ab")
    serving = scene.scripts.serve_rates
    for name in (SMALL, LARGE):
        shutil.copy(scene.base / name, scene.folder)
    port, _ = scene.serve(scene.copy("served.db"))
    other, _ = serving.serve_nginx(scene.folder)
    for name, file, requests, bar in (("small", SMALL, scene.sizes(2000, 20), "at least 0.6"), ("large", LARGE, scene.sizes(500, 4), "at least 0.7")):
        found = [[serving.rate(it, f"/targets/{file}", requests) for it in (port, other)] for _ in range(scene.rounds)]
        what = f"a target of {size_of(os.path.getsize(scene.base / file))} over HTTP"
        figure(f"served-{name}", what, "a second", *apart(found, "nginx, which hashes nothing"), bar)


def target(scene):
    """A target of 1 MiB over HTTP next to its floor: sqlite3 reads it, `sha2` hashes it, and one call writes it from memory."""
    data, requests = (scene.base / LARGE).read_bytes(), scene.sizes(200, 2)
    db = scene.copy("served.db")
    tools.insert(db, filler(scene.sizes(63, 1), scene.size))
    other = shutil.copy(db, scene.folder / "other.db")
    port, _ = scene.serve(db)
    found = []
    for _ in range(scene.rounds):
        ours = median([ask(port, len(data)) for _ in range(requests)])
        floor = read_alone(other, data, requests) + write_alone(scene, data, requests) + (len(data) / 64 + 1) / scene.rates()[0]
        found.append((1000 * ours, 1000 * floor))
    figure("target", f"a target of {size_of(scene.size)} next to its floor", "ms", *apart(found, "sqlite3 reads it, `sha2` hashes it, one write"), "at most 1.3")


def ask(port, length):
    """The seconds of a request for the target."""
    start = time.perf_counter()
    with socket.create_connection(("127.0.0.1", port), timeout=60) as peer:
        peer.sendall(f"GET /targets/{LARGE} HTTP/1.1\r\n\r\n".encode())
        got = 0
        while piece := peer.recv(65536):
            got += len(piece)
    if got < length:
        raise SystemExit(f"a reply of {got} bytes")
    return time.perf_counter() - start


def read_alone(db, data, requests):
    connection = sqlite3.connect(db)
    digest = hashlib.sha256(data).hexdigest()
    took = median([seconds(lambda: connection.execute("SELECT bytes FROM blob WHERE digest = ?", (digest,)).fetchone()) for _ in range(requests)])
    connection.close()
    return took


def write_alone(scene, data, requests):
    """Seconds of a request that another process answers from memory by one write."""
    port = tools.free_port()
    with socket.create_server(("127.0.0.1", port)) as listener:
        writer = multiprocessing.Process(target=scene.scripts.memory.write_at_once, args=(listener, requests, data))
        writer.start()
        took = median([ask(port, len(data)) for _ in range(requests)])
        writer.join()
    return took


def signing(scene):
    """Signing a timestamp by a key of one level, and by keys of two, in processor time."""
    width, height = scene.sizes(("4", "10"), ("1", "5"))
    one = ["--ots", width, "--height", height]
    two = ["--levels", "2", "--ots", width, "--height", "5", "--lower-height", height]
    kinds = {"one": ("one level", one), "two": ("two levels", two), "two-wide": ("two levels, --lower-ots 2", [*two, "--lower-ots", "2"])}
    found = {name: [] for name in scene.sizes(kinds, ("one",))}
    release("key", "--new", scene.folder / "other", "--ots", "1", "--height", "5")
    for name in found:
        release("key", "--new", scene.folder / name, *kinds[name][1])
        sealed(scene, name)
    for number in range(scene.rounds):
        for name in found:
            found[name].append(signed(scene.folder, name, number))
    for name, took in found.items():
        times = [it[0] for it in took]
        what = f"signing a timestamp, W{width} over height {height}, {kinds[name][0]}, {took[0][1]} bytes"
        peer = ("", ()) if name == "one" else ("one level", [it[0] for it in found["one"]])
        figure(f"sign-{name}", what, "s", times, *peer, "" if name == "one" else "at most 1.1")


def sealed(scene, name):
    """A folder of drafts in which the timestamp alone is left to be signed, by the key of this name; another key has signed the rest."""
    folder, other = scene.folder / f"{name}.drafts", scene.folder / "other"
    follows, signs = ["--in", folder, "--expires", "90d"], ["sign", "--key", other, "--in", folder, "--yes", "--again"]
    roles = [f"{role}={other}.key" for role in ("root", "targets", "snapshot")]
    release("draft", *follows, "root", *roles, f"timestamp={scene.folder / name}.key")
    release(*signs)
    release("draft", *follows, "targets", "--add", f"file={scene.base / SMALL}")
    release(*signs)
    release("draft", *follows, "seal")
    release(*signs)


def signed(folder, name, number):
    """The processor time of signing it in copies of the folder and of the key, and the bytes of the file."""
    drafts, key = folder / f"{name}{number}.drafts", folder / f"{name}{number}"
    shutil.copytree(folder / f"{name}.drafts", drafts)
    for tail in (".seed", ".key", ".book"):
        shutil.copy(folder / f"{name}{tail}", f"{key}{tail}")
    before = resource.getrusage(resource.RUSAGE_CHILDREN)
    release("sign", "--key", key, "--in", drafts, "--yes")
    after = resource.getrusage(resource.RUSAGE_CHILDREN)
    return after.ru_utime - before.ru_utime + after.ru_stime - before.ru_stime, os.path.getsize(drafts / "timestamp.json")


def layout_rules(scene):
    """The artifact rules of a layout of 16 steps, next to in-toto."""
    tools.need("measure")
    python = "/usr/bin/python3"
    if subprocess.run([python, "-c", "import in_toto"], capture_output=True, check=False).returncode:
        raise tools.Skipped("in-toto is not there: install in-toto")
    words = [python, tools.TOP / "crates/measure/layout_rules.py", "--program", tools.MEASURE, "--rounds", str(scene.sizes(50, 2))]
    found = []
    for _ in range(scene.rounds):
        said = subprocess.run(words, check=False, capture_output=True, text=True).stdout
        found.append((float(re.search(r"rules (\d+)", said)[1]), float(re.search(r"in-toto ([\d.]+)", said)[1])))
    figure("layout-rules", "all rules of a layout of 16 steps", "a second", *apart(found, "in-toto"), "at least 10")
