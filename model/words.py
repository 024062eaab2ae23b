"""The program's command lines: arguments of `publish`, absent files, the order of faults, faults of the line."""
import socket
import sqlite3

import repository
import signed_documents as make
from command_line import FAULT, USAGE, fault
from program import LOOPBACK, World
from scenes import LIVE, NOW, SIMPLE_RULES, granting_state, simple_root
from test_keys import KEYS


def compare_arguments(session, _random):
    """Over a state that grants, and over none."""
    world = World(session, granting_state())
    good = ("root", world.state.roots[-1].bytes)
    absent = ("timestamp", None)
    lists = [
        [good], ["x"], ["x", good], [good, "x"], [good, "Root:f"], ["root:"], [":f"], [good, ":"], ["a.b:f", absent],
        [absent, "q"], [absent], [good, absent], [("timestamp", b""), absent], ["targets:a:b"], [("a" * 32, b"")],
        ["a" * 33 + ":f"], [("zeta", world.state.timestamp.bytes)], ["root:/dev/null/x"], ["é:f"], ["-:f"], ["_a:f"],
        ["9:f"], ["root::"], [" root:f"], ["root :f"], [("root", b""), ("root", b"")], ["targets"], ["root=f"],
    ]
    for arguments in lists:
        world.publish(NOW, arguments, str(arguments)[:60])
    for blob in (None, b"", b"abc", b"x" * 1048576, b"x" * 1048577, b"x" * 3000000):
        world.command("put", NOW, blob)
    for text in (None, b"", world.state.roots[-1].bytes, b"{}"):
        world.command("init", NOW, text)
    world.prune(NOW)
    world.prune(0)
    begin_from_nothing(session, good, world.state.timestamp.bytes)


def begin_from_nothing(session, good, timestamp):
    world = World(session)
    unsigned = [make.signed_file(make.root(1, 1, SIMPLE_RULES), signers) for signers in ([], KEYS[1:2])]
    for text in (b"", b"{}", b"x" * 262145, timestamp, *unsigned):
        world.command("init", NOW, text)
    world.publish(NOW, [good])
    world.publish(NOW, ["q"])
    world.command("put", NOW, b"x" * 1048577)
    world.command("put", NOW, b"a")
    world.prune(NOW)
    world.command("init", NOW, simple_root(77, 0))
    world.command("init", NOW, b"")
    world.prune(NOW)
    world.publish(NOW, [("root", simple_root(78, LIVE))])


def compare_port(session, _random):
    """Commands that a server is asked for, beside those that are refused before it is asked."""
    world = World(session, granting_state())
    good, stamp = ("root", world.state.roots[-1].bytes), ("timestamp", world.state.timestamp.bytes)
    lists = [
        [good], [stamp], [good, stamp, good], [stamp, ("targets", b"{}")], [("root", b"x" * 262145)], [("zeta", stamp[1])],
        [("timestamp", b"")], [good] * 160, [good] * 159 + [("root", b"")],
    ]
    blobs = (b"", b"abc", b"abc", b"x" * 1048576)

    def ask():
        for arguments in lists:
            world.publish(NOW, arguments, f"through a port: {str(arguments)[:60]}")
        for blob in blobs:
            world.command("put", NOW, blob, "through a port")
        world.prune(NOW, "through a port")
        world.prune(NOW, "through a port")
        for arguments in (["x"], [good, "Root:f"], [("timestamp", None)], [good, ("timestamp", None)]):
            world.publish(NOW, arguments, f"before a port is asked: {str(arguments)[:60]}")
        for blob in (None, b"x" * 1048577):
            world.command("put", NOW, blob, "before a port is asked")

    world.through_port(NOW, len(lists) + len(blobs) + 2, ask)


def damaged_world(session):
    world = World(session, granting_state())
    connection = sqlite3.connect(world.database)
    connection.execute("UPDATE blob SET bytes = x'00'")
    connection.commit()
    connection.close()
    return world


def compare_fault_order(session, _random):
    """Arguments of publish, input files, the database, the command, standard output."""
    world = damaged_world(session)
    damaged, folder = str(world.database), str(world.folder)
    file = world.folder / "file"
    file.write_bytes(b"abc")
    file, absent, no_folder = str(file), f"{folder}/absent", f"{folder}/absent/db"
    shape = "denied 3 WrongShape at %d\n"
    cases = [
        (["put", damaged, absent], fault("file")), (["put", damaged, file], fault("damaged")),
        (["put", no_folder, file], fault("database")), (["put", no_folder, absent], fault("file")),
        (["put", folder, file], fault("database")), (["put", damaged, folder], fault("file")),
        (["prune", damaged], fault("damaged")), (["prune", no_folder], fault("database")),
        (["prune", folder], fault("database")),
        (["init", damaged, absent], fault("file")), (["init", damaged, file], fault("damaged")),
        (["init", no_folder, file], fault("database")), (["init", damaged, folder], fault("file")),
        (["publish", damaged, "x"], (1, b"", (shape % 0).encode())),
        (["publish", no_folder, f"root:{absent}", "X:y"], (1, b"", (shape % 1).encode())),
        (["publish", damaged, f"root:{absent}"], fault("file")),
        (["publish", damaged, f"root:{file}"], fault("damaged")),
        (["publish", no_folder, f"root:{file}"], fault("database")),
        (["publish", damaged, *[f"root:{absent}"] * 160], fault("file")),
    ]
    for (name, database, *words), wanted in cases:
        session.check(f"order of faults: {name} {words[:2]}", wanted, session.run(name, "--db", database, *words))
    for moment in ("0", "1", "253402300799", "007"):
        found = session.run("put", "--db", damaged, "--at", moment, file)
        session.check(f"moment {moment}", fault("damaged"), found)
    with socket.socket() as listener:
        listener.setsockopt(socket.SOL_SOCKET, socket.SO_REUSEADDR, 1)
        port = session.free_port()
        listener.bind((LOOPBACK, port))
        listener.listen()
        new = str(world.folder / "new.db")
        for database, word in ((damaged, "damaged"), (no_folder, "database"), (new, "network")):
            found = session.run("serve", "--db", database, "--port", str(port), "--count", "1")
            session.check(f"order of faults: serve, {word}", fault(word), found)


def compare_usage(session, _random):
    """Faults of the line: status 2, a text on standard error, and no database."""
    database = str(session.folder / "never.db")
    file = str(session.folder / "no file")
    base = ["--db", database]
    lines = [["put", *base, "--at", moment, file] for moment in ("-1", "253402300800", "x", "", "1.0", "0x1")]
    lines += [["put", *base], ["put", file], ["put", *base, file, file], ["put", *base, "--nope", file]]
    lines += [["put", *base, *base, file], ["put", "--at", "1", "--at", "1", *base, file], ["init", *base]]
    lines += [["publish", *base], ["publish", f"root:{file}"], ["publish", *base, *[f"root:{file}"] * 161]]
    lines += [["serve", *base], ["serve", "--port", "80"], ["serve", *base, "--port", "80", "x"]]
    lines += [["serve", *base, "--port", port] for port in ("0", "65536", "-1")]
    lines += [["serve", *base, "--port", "80", "--count", count] for count in ("0", "4294967296")]
    lines += [["serve", *base, "--port", "80", "--read-only=1"], ["put", *base, "--read-only", file]]
    lines += [["update", *base, "--port", "80", "--within", seconds] for seconds in ("0", "86401", "-1", "x")]
    lines += [["get", *base, "--port", "80", "--out", file, "--within", seconds, "a"] for seconds in ("0", "86401")]
    client = ["get", *base, "--port", "80"]
    into = [*client, "--to", str(session.folder)]
    lines += [[*client, *more] for more in (["a"], ["--out", "o"], ["--out", "o", "a", "b"], ["--out", "o", "--all"], ["--out", "o", "--list", file, "a"])]
    lines += [[*into, *more] for more in ([], ["--out", "o", "a"], ["--list", file, "a"], ["--list", file, "--all"], ["--list", file, "--list", file], ["a"] * 161)]
    lines += [[*into, "--all", *patterns] for patterns in (["a b"], [""], ["*", "a" * 201], ["*"] * 161)]
    lines += [["prune"], ["prune", "--db"], ["prune", *base, file], ["prune", *base, *base]]
    lines += [["prune", *base, "--port", "80"], *(["prune", *base, "--at", moment] for moment in ("-1", "x", ""))]
    asked = (["put", file], ["publish", f"root:{file}"], ["prune"])
    lines += [[*words, *more] for words in asked for more in (["--port", "80", "--at", "1"], [*base, "--port", "80"], ["--port", "0"], ["--at", "1"])]
    drafts = ["draft", "--in", str(session.folder / "never")]
    lines += [[*drafts, "targets", "--spread", *more] for more in (["--role", "dev"], ["--delegate", "a=b:c"], ["--bins", "a=b:4"], ["--terminating"])]
    lines += [[*drafts, "targets", "--spread", "--before", "a"], [*drafts, "targets", "--spread", "--undelegate", "a"], [*drafts, "seal", "--spread"]]
    lines += [[*drafts, "root", "--bins", "a=b:4"], [*drafts, "targets", "--spread=1"], [*drafts, "root", "--terminating"], [*drafts, "seal", "--terminating"]]
    lines += [[], ["nope"], ["canon"]]
    for words in lines:
        status, output, text = session.run(*words)
        label = f"usage: {[word for word in words[:6] if word not in (database, file)]}"
        session.check(label, (USAGE, b"", True), (status, output, bool(text)))
    session.check("usage: no database", False, (session.folder / "never.db").exists())
    session.check("usage: no folder of drafts", False, (session.folder / "never").exists())
    compare_bins(session)


def compare_bins(session):
    """How many bins there may be, before a draft is written."""
    folder = session.folder / "bins"
    for said in ("0", "1", "3", "5", "7", "12", "24", "31", "63", "65", "128", "256", "-4", "+4", "04", "4.", " 4", "4,", "x", ""):
        status, output, text = session.run("draft", "--in", str(folder), "targets", "--bins", f"a=b:{said}")
        line = b"error: '--bins' is NAME=RULE:N, N one of 2, 4, 8, 16, 32 and 64\n"
        session.check(f"usage: bins {said}", (USAGE, b"", line), (status, output, text[:len(line)]))
    session.check("usage: no draft of bins", False, (folder / "targets.json").exists())


def compare_full_output(session, _random):
    """A standard output that takes nothing: a fault, and what was done stands."""
    world = World(session, granting_state())
    file = world.folder / "input"
    file.write_bytes(b"abc")
    with open("/dev/full", "wb") as full:
        found = session.run("put", "--db", str(world.database), "--at", "1", str(file), output=full)
    session.check("full output", (FAULT, None, b"fault file\n"), found)
    before = world.state
    world.state = repository.put_blob(world.state, make.digest(b"abc"), b"abc")
    world.check_rows("full output", before)
    with open("/dev/full", "wb") as full:
        found = session.run("prune", "--db", str(world.database), "--at", "1", output=full)
    session.check("full output", (FAULT, None, b"fault file\n"), found)
    before = world.state
    world.state, _, _ = repository.prune(before)
    world.check_rows("full output", before)
