"""Repositories to be measured, whose files the keys of the model sign: one target among many, behind many delegations, or with a layout."""
import hashlib
import sqlite3
import sys

from serve_rates import HERE, release

sys.path.insert(0, str(HERE.parent / "model"))
import signed_documents as make  # noqa: E402
from test_keys import Key  # noqa: E402

EXPIRES = make.LAST_EXPIRY
PATH, FILE = "packages/p000.tgz", b"abc"
STEPS, ARTIFACTS, SINGLE = 16, 64, 61
LAYOUT = "layouts/layout.json"


def key_of(width):
    return Key(b"the key of all roles", width, 5)


def listed(files):
    return {path: (len(file), make.digest(file)) for path, file in files.items()}


def plain(listings):
    """The signed part of the one role: so many targets, all of the same file."""
    return {"targets": make.targets(1, EXPIRES, listed({f"packages/p{number:03}.tgz": FILE for number in range(listings)}))}


def line(key, delegations):
    """Roles in a line, each of which delegates all targets to the next. The last one lists the target."""
    names = ["targets", *(f"r{number:03}" for number in range(1, delegations + 1))]
    roles = {}
    for name, behind in zip(names, names[1:]):
        delegation = make.delegation(behind, [key], 1, paths=["packages/*"])
        roles[name] = make.targets(1, EXPIRES, {}, make.delegations([key], [delegation]))
    return {**roles, names[-1]: plain(1)["targets"]}


def lists_of(first, last):
    """A rule for each of the first 61 files, and one for the others."""
    single = [[*first, f"src/a{number:02}.c", *last] for number in range(SINGLE)]
    return [*single, [*first, "src/a6*", *last]]


def rules_of(number):
    """The artifact rules of a step: it takes what the one before made and nothing else, and changes every file; the last makes the target besides."""
    materials = lists_of(["MATCH"], ["WITH", "PRODUCTS", "FROM", f"s{number - 1:02}"]) if number else []
    products = lists_of(["MODIFY" if number else "CREATE"], [])
    return [*materials, ["DISALLOW", "*"]], [*products, ["CREATE", "packages/*"], ["DISALLOW", "*"]]


def artifacts(made):
    """The digests of the files as so many steps have left them."""
    return {f"src/a{number:02}.c": make.digest(b"%d" % (made * ARTIFACTS + number)) for number in range(ARTIFACTS)}


def sides_of(number):
    """What a step takes, and what it makes."""
    products = artifacts(number + 1)
    if number == STEPS - 1:
        products[PATH] = make.digest(FILE)
    return artifacts(number) if number else {}, products


def chain(key, width, functionaries):
    """The role that lists the target with its layout, and the files of the layout and its links, by their paths: each functionary's links in turn."""
    keys = [Key(b"functionary %d" % number, width, 5) for number in range(functionaries)]
    steps = [make.step(f"s{number:02}", keys, functionaries, *rules_of(number)) for number in range(STEPS)]
    files = {LAYOUT: make.signed_file(make.layout(EXPIRES, keys, steps), [key])}
    for place, signer in enumerate(keys):
        for number in range(STEPS):
            signed = make.link(f"s{number:02}", *sides_of(number))
            files[f"layouts/s{number:02}-{place}.json"] = make.signed_file(signed, [signer])
    targets = make.targets(1, EXPIRES, listed({**files, PATH: FILE}))
    reference = make.layout_reference([key], 1, [path for path in files if path != LAYOUT], LAYOUT, PATH, f"s{STEPS - 1:02}")
    targets["targets"][PATH]["custom"] = {"layout": reference}
    return {"targets": targets}, files


def write(folder, key, roles):
    """Writes the files of a repository with these roles into the folder, and answers what `publish` takes."""
    files = {role: make.signed_file(signed, [key]) for role, signed in roles.items()}
    said = {role: (1, len(file), make.digest(file)) for role, file in files.items()}
    snapshot = make.signed_file(make.snapshot(1, EXPIRES, said), [key])
    timestamp = make.signed_file(make.timestamp(1, EXPIRES, 1, len(snapshot), make.digest(snapshot)), [key])
    rules = {role: ([key], 1) for role in ("root", "timestamp", "snapshot", "targets")}
    documents = {"timestamp": timestamp, "snapshot": snapshot, **files}
    (folder / "root.json").write_bytes(make.signed_file(make.root(1, EXPIRES, rules), [key]))
    for name, file in documents.items():
        (folder / f"{name}.json").write_bytes(file)
    return [f"{name}:{folder / name}.json" for name in documents]


def database(folder, key, roles, files=(), blobs=0):
    """A database of the program that holds the repository, the target, these files, and so many further blobs."""
    db = str(folder / "repository.db")
    documents = write(folder, key, roles)
    release("init", "--db", db, str(folder / "root.json"))
    release("publish", "--db", db, *documents)
    connection = sqlite3.connect(db)
    held = [FILE, *files, *(number.to_bytes(4, "big") for number in range(blobs))]
    rows = [(hashlib.sha256(blob).hexdigest(), blob) for blob in held]
    connection.executemany("INSERT INTO blob VALUES (?, ?)", rows)
    connection.commit()
    connection.close()
    return db
