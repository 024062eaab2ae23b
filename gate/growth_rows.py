"""The rows of gate/figures that say how a cost grows: a batch of delegated roles, commands over an index in bins, and a server under load."""
import hashlib
import http.client
import os
import re
import shutil

import figure_tools as tools
from figure_table import CONNECTIONS, OVER_TARGETS, SIZES
from figure_tools import figure, release

SEED = "11" * 48
# The most roles that one document delegates to.
MOST = 64


def batch_roles(scene):
    """A batch of a timestamp, a snapshot, targets metadata and so many delegated roles. A snapshot names 128 roles, 'targets' among them."""
    repositories = scene.repositories
    key = scene.key(SEED, 4)
    for roles in scene.sizes(SIZES["batch-roles"], (2, 4)):
        place = scene.folder / str(roles)
        place.mkdir()
        documents = repositories.write(place, key, delegated(key, roles))
        rows = [(word.partition(":")[0], open(word.partition(":")[2], "rb").read()) for word in documents]
        found = [batch_of(scene, place, number, rows) for number in range(scene.rounds)]
        peer = "sqlite3 with as many syncs" + (", and the verifications" if scene.rates()[1] else "")
        took, floor = zip(*found)
        figure(f"batch-roles-{roles}", f"a batch of {roles} delegated roles", "ms", took, peer, floor, tools.IN_PROPORTION, roles)


def delegated(key, count):
    """Roles that list one file each. The targets metadata delegate to the first 64, which are the most, and the first of these to the others."""
    import repositories
    import signed_documents as make
    names = [f"r{number:03}" for number in range(count)]
    first, others = names[:MOST], names[MOST:]

    def behind(roles, further=()):
        paths = {name: [f"{it}/*" for it in (name, *(further if name == first[0] else ()))] for name in roles}
        return make.delegations([key], [make.delegation(name, [key], 1, paths=paths[name]) for name in roles])

    roles = {name: make.targets(1, repositories.EXPIRES, repositories.listed({f"{name}/file": b"abc"})) for name in names}
    if others:
        roles[first[0]]["delegations"] = behind(others)
    return {"targets": make.targets(1, repositories.EXPIRES, {}, behind(first, others))} | roles


def batch_of(scene, place, number, rows):
    """The milliseconds of the batch through a server, and those of its floor."""
    db = place / f"{number}.db"
    if number == 0:
        release("init", "--db", place / "begun.db", place / "root.json")
    shutil.copy(place / "begun.db", db)
    port, server = scene.serve(db)
    body = b"".join(b"%s %d\n%s" % (role.encode(), len(text), text) for role, text in rows)
    took = tools.seconds(lambda: asked(port, body))
    server.kill()
    server.wait()
    verified = scene.rates()[1]
    floor = scene.scripts.store_rates.beside(place, number, [rows]) + (len(rows) / verified if verified else 0)
    return 1000 * took, 1000 * floor


def asked(port, body):
    """Sends a batch, however long it takes."""
    connection = http.client.HTTPConnection("127.0.0.1", port, timeout=900)
    connection.request("POST", "/batch", body)
    reply = connection.getresponse()
    text = reply.read()
    connection.close()
    if reply.status != 200:
        raise SystemExit(f"the batch was answered {text!r}")


def index(scene):
    """Commands over an index of so many targets in bins by the digests of their paths, each bin a role of its own: a target is added to the first bin."""
    repositories = scene.repositories
    width, bins = (1, 2) if scene.small else (4, 64)
    release("key", "--new", scene.folder / "signer", "--ots", width, "--height", "5")
    keys = [scene.key(seed, width) for seed in (SEED, (scene.folder / "signer.seed").read_text(encoding="ascii").strip())]
    for targets in scene.sizes(OVER_TARGETS, (4, 8)):
        place = scene.folder / str(targets)
        place.mkdir()
        begun(repositories, place, keys, *in_bins(keys, targets, bins))
        (place / "new").write_bytes(b"new\n")
        days = [daily(place, number, bins) for number in range(scene.rounds)]
        for name, command in COMMANDS.items():
            took, copied = ([1000 * day[it] for day in days] for it in (name, "copied"))
            what = f"{command} over {targets} targets in {bins} bins"
            figure(f"{name}-{targets}", what, "ms", took, bar=tools.IN_PROPORTION, size=targets)
            if name in ("export", "get-all"):
                figure(f"{name}-copied-{targets}", what, "ms", took, "each of its files read, hashed, written and synced", copied, "at most 2", targets)


COMMANDS = {
    "draft": "`draft targets --role`", "sign": "`sign --in`, of the bin, then of snapshot and timestamp,", "seal": "`draft seal`", "show": "`show --db`",
    "show-list": "`show --list`", "export": "`export`", "get-all": "`get --all` of an export, by a client that holds none of them,",
}


def bin_of(path, bins):
    import signed_documents as make
    return int(make.digest(path.encode())[:digits_of(bins)], 16) * bins // 16 ** digits_of(bins)


def digits_of(bins):
    """How many digits of a digest tell the bins apart: a delegation may have few prefixes."""
    return 1 if bins <= 16 else 2


def begun(repositories, place, keys, roles, files):
    """A repository that the first key has signed, and that the second may change: a book knows each leaf of its key."""
    import signed_documents as make
    documents, db = repositories.write(place, keys[0], roles), place / "repository.db"
    rules = {role: (keys, 1) for role in ("root", "timestamp", "snapshot", "targets")}
    (place / "root.json").write_bytes(make.signed_file(make.root(1, repositories.EXPIRES, rules), keys[:1]))
    release("init", "--db", db, place / "root.json")
    release("publish", "--db", db, *documents)
    tools.insert(db, files)


def in_bins(keys, count, bins):
    """The roles of such an index, and its files."""
    import repositories
    import signed_documents as make
    digits = digits_of(bins)
    each = 16 ** digits // bins
    listed, files = [{} for _ in range(bins)], []
    for number in range(count):
        path, file = f"files/t{number:04}", b"%d\n" % number if number else repositories.FILE
        listed[bin_of(path, bins)][path] = (len(file), make.digest(file))
        files.append(file)
    prefixes = [[f"{each * at + more:0{digits}x}" for more in range(each)] for at in range(bins)]
    said = [make.delegation(f"bin{at:02}", keys, 1, prefixes=prefixes[at]) for at in range(bins)]
    roles = {"targets": make.targets(1, repositories.EXPIRES, {}, make.delegations(keys, said))}
    return roles | {f"bin{at:02}": make.targets(1, repositories.EXPIRES, one) for at, one in enumerate(listed)}, files


def daily(place, number, bins):
    """The seconds of each command of a day's work, in a folder of drafts, with a book and a folder of files of its own."""
    path = next(name for name in map("files/n{}".format, range(10000)) if bin_of(name, bins) == 0)
    drafts, db = f"drafts{number}", "repository.db"
    follows = ["--db", db, "--in", drafts, "--expires", "90d"]
    signs = ["--db", db, "--in", drafts, "--key", f"signer{number}", "--yes"]
    for tail in (".seed", ".key", ".book"):
        shutil.copy(place.parent / f"signer{tail}", place / f"signer{number}{tail}")
    took = {
        "draft": release("draft", *follows, "targets", "--role", "bin00", "--add", f"{path}=new", folder=place),
        "sign": release("sign", *signs, folder=place),
        "seal": release("draft", *follows, "seal", folder=place),
    }
    took["sign"] += release("sign", *signs, folder=place)
    took |= {
        "show": release("show", "--db", db, folder=place),
        "show-list": release("show", "--db", db, "--list", folder=place),
        "export": release("export", "--db", db, "--to", f"files{number}", folder=place),
    }
    client = ["--db", f"client{number}.db"]
    release("init", *client, "root.json", folder=place)
    release("update", *client, "--from", f"files{number}", folder=place)
    took["get-all"] = release("get", *client, "--from", f"files{number}", "--to", f"got{number}", "--all", folder=place)
    took["copied"] = tools.seconds(lambda: copy_synced(place / f"got{number}", place / f"copy{number}"))
    for folder in ("files", "got", "copy"):
        shutil.rmtree(place / f"{folder}{number}")
    return took


def copy_synced(source, target):
    """Copies a folder, one file after the other: each is read, hashed, written next to its place, synced and put there."""
    for folder, _, names in os.walk(source):
        into = target / os.path.relpath(folder, source)
        into.mkdir(parents=True)
        for name in names:
            with open(os.path.join(folder, name), "rb") as file:
                data = file.read()
            hashlib.sha256(data).digest()
            with open(into / f"{name}.new", "wb") as file:
                file.write(data)
                file.flush()
                os.fsync(file.fileno())
            os.replace(into / f"{name}.new", into / name)


ASKED = {"straight": "the server, straight", "proxy": "the proxy, a name that may change", "cached": "the proxy, a consistent name, from its cache"}


def load(scene):
    """Connections that are kept busy, straight onto the server and by the documented proxy, next to nginx alone."""
    tools.need("wrk", "nginx")
    serving = scene.scripts.serve_rates
    loads = tools.without_its_run("load_rates")
    digest = hashlib.sha256((scene.base / tools.SMALL).read_bytes()).hexdigest()
    inner, _ = scene.serve(scene.copy("load.db"))
    shutil.copy(scene.base / tools.SMALL, scene.folder)
    outer, _ = loads.proxy(scene.folder, inner)
    alone, _ = serving.serve_nginx(scene.folder)
    small, names = f"/targets/{tools.SMALL}", f"/targets/{digest}.{tools.SMALL}"
    lasting = 1 if scene.small else max(1, 30 // scene.rounds)
    for name, port, path in (("straight", inner, small), ("proxy", outer, small), ("cached", outer, names)):
        for connections in scene.sizes(CONNECTIONS, (4, 64)):
            loaded(loads, name, port, path, alone, connections, lasting, scene.rounds)


def loaded(loads, name, port, path, alone, connections, lasting, rounds):
    """A figure of requests a second, and one of the slowest hundredth."""
    found, peers = [], []
    for _ in range(rounds):
        found.append(loads.load(port, path, connections, lasting))
        peers.append(loads.load(alone, f"/targets/{tools.SMALL}", connections, lasting))
    lost = sum(it[3] for it in found)
    what = f"{ASKED[name]}, {connections} connections" + (f", {lost} LOST" if lost else "")
    figure(f"load-{name}-{connections}", what, "a second", [it[0] for it in found], "nginx alone", [it[0] for it in peers], size=connections)
    slow = [[milliseconds(it[2]) for it in side] for side in (found, peers)]
    figure(f"slowest-{name}-{connections}", f"{what}, 99th percentile", "ms", slow[0], "nginx alone", slow[1], size=connections)


def milliseconds(text):
    """What wrk says of a time."""
    number, unit = re.fullmatch(r"([\d.]+)(us|ms|s|m)", text).groups()
    return float(number) * {"us": 0.001, "ms": 1, "s": 1000, "m": 60000}[unit]
