"""The limits of the state: full lists, last versions, first and last moments, long batches."""
import signed_documents as make
from documents import read_document
from http_requests import get, post, prune, put
from names import LARGEST_NUMBER
from program import World
from repository import MAXIMUM_BLOB_LENGTH, MAXIMUM_BLOBS, MAXIMUM_ROOTS, MAXIMUM_SHELF
from scenes import EXPIRED, LIVE, NOW, SIMPLE_RULES, simple_root, simple_state
from test_keys import KEYS

SIGNER, STRANGER = KEYS[0], KEYS[1]


def sign(signed, signers=(SIGNER,)):
    return make.signed_file(signed, signers)


def is_damaged(session, state, label):
    """The program refuses a database with these rows."""
    world = World(session, state)
    file = world.folder / "input"
    file.write_bytes(b"")
    found = session.run("put", "--db", str(world.database), "--at", "1", str(file))
    session.check(f"limit: {label}", (3, b"", b"fault damaged\n"), found)


def release(version, expires=LIVE, signers=(SIGNER,), targets_version=None, listed=None):
    """A timestamp, a snapshot and targets of one version; the targets of another expiry, signers or version."""
    targets = make.targets(targets_version or version, expires, {"x": (0, make.digest(b""))})
    return [
        ("timestamp", sign(make.timestamp(version, LIVE, version))),
        ("snapshot", sign(make.snapshot(version, LIVE, {"targets": (listed or version,)}))),
        ("targets", sign(targets, signers)),
    ]


def compare_roots(session, _random):
    state = simple_state(MAXIMUM_ROOTS - 1)
    last, more = simple_root(MAXIMUM_ROOTS), simple_root(MAXIMUM_ROOTS + 1)
    next_root = make.root(MAXIMUM_ROOTS + 1, LIVE, SIMPLE_RULES)
    other_rule = make.root(MAXIMUM_ROOTS + 1, LIVE, {**SIMPLE_RULES, "root": ([STRANGER], 1)})
    rotated = simple_root(MAXIMUM_ROOTS + 1, rules={**SIMPLE_RULES, "timestamp": ([STRANGER], 1)})
    offered = [more, sign(next_root, [STRANGER]), sign(other_rule), simple_root(MAXIMUM_ROOTS + 2), rotated]
    offered += [state.roots[0].bytes, state.roots[-1].bytes]
    batches = [[last, more], [more], [last], [last], *([text] for text in offered)]
    requests = [post(*(("root", text) for text in texts)) for texts in batches]
    requests += [get(f"/metadata/{version}.root.json") for version in (1, 2, 4095, 4096, 4097)]
    world = World(session, state)
    world.serve(NOW, [("roots are full", request) for request in requests])
    world.publish(NOW, [("root", last)])
    world.publish(NOW, [("root", last), ("root", more)])
    is_damaged(session, simple_state(MAXIMUM_ROOTS + 1), "too many roots")


def compare_blobs(session, _random):
    state = simple_state()
    for number in range(MAXIMUM_BLOBS - 1):
        blob = b"%d" % number
        state.blobs[make.digest(blob)] = blob
    other = make.digest(b"another")
    requests = [put(b"17"), put(b"new", other), put(b"new"), put(b"new"), put(b"more"), put(b"more", other), put(b"17")]
    requests += [put(b"4094"), put(b"")]
    world = World(session, state)
    world.serve(NOW, [("blobs are full", request) for request in requests])
    for blob in (b"more", b"new", bytes(MAXIMUM_BLOB_LENGTH + 1), bytes(MAXIMUM_BLOB_LENGTH)):
        world.command("put", NOW, blob, "blobs are full")
    requests = [prune(), put(b"more"), prune(), prune()]
    World(session, world.state).serve(NOW, [("blobs are full", request) for request in requests])
    too_many = world.state.copy()
    too_many.blobs[make.digest(b"one more")] = b"one more"
    is_damaged(session, too_many, "too many blobs")


def compare_shelf(session, _random):
    """A full shelf, and a rotation that empties it."""
    state = simple_state()
    for version in range(1, MAXIMUM_SHELF):
        role = "targets" if version % 2 else f"r{version % 7}"
        state.shelf[role, version] = read_document("targets", sign(make.targets(version, 1, {}), []))
    first, second = release(5001), release(5002)
    rules = {**SIMPLE_RULES, "timestamp": ([SIGNER, STRANGER], 1)}
    rotation = ("root", simple_root(2, rules=rules))
    batches = [first, first, second, release(5003, EXPIRED), release(5004, signers=()), release(3), release(5005)[:2]]
    batches += [release(5006, EXPIRED, ()), release(5007, listed=5008)]
    requests = [post(*offered) for offered in batches]
    requests += [get("/targets/x"), post(rotation, *second), get("/targets/x")]
    World(session, state).serve(NOW, [("the shelf is full", request) for request in requests])
    requests = [prune(), post(*first), post(*second), get("/targets/x"), prune(), get("/targets/x")]
    World(session, state).serve(NOW, [("the shelf is full", request) for request in requests])


def compare_versions(session, _random):
    """The largest version of each file."""
    world = World(session, simple_state(1, LARGEST_NUMBER - 1))
    versions = (LARGEST_NUMBER, LARGEST_NUMBER + 1, 1)
    requests = [post(("root", simple_root(version))) for version in versions]
    requests += [get(f"/metadata/{version}.root.json") for version in (LARGEST_NUMBER, 0, LARGEST_NUMBER + 1)]
    offered = release(LARGEST_NUMBER)
    requests += [post(*offered), get("/metadata/timestamp.json")]
    requests += [get(f"/metadata/{LARGEST_NUMBER}.{role}.json") for role in ("snapshot", "targets")]
    requests += [post(*([offered[0]] * 80 + [offered[2]] * count)) for count in (80, 81)]
    world.serve(NOW, [("largest version", request) for request in requests])


def compare_long_batches(session, _random):
    """A hundred roots in one batch, the most documents of a batch, and more bytes than a request can have."""
    roots = [("root", simple_root(version)) for version in range(2, 162)]
    batches = [roots[:100] + roots[101:102], roots[:100], roots[99:], roots, roots + roots[:1]]
    World(session, simple_state()).serve(NOW, [("many roots", post(*offered)) for offered in batches])
    World(session, simple_state()).serve(NOW, [("160 roots", post(*roots))])
    World(session, simple_state()).publish(NOW, roots, "160 roots")
    world = World(session, simple_state())
    held = ("root", world.state.roots[0].bytes)
    large = b'"' + b"x" * 262142 + b'"'
    world.publish(NOW, [held] * 3 + [("timestamp", large)] * 20, "over 4 MiB")
    for text in (large + b" ", large, b""):
        world.publish(NOW, [("timestamp", text)], f"{len(text)} bytes")
    world.publish(NOW, [held] * 160, "160 documents")


def compare_moments(session, _random):
    """The first and the last moments."""
    for now in (0, 1, make.LAST_EXPIRY - 1, make.LAST_EXPIRY, make.LAST_MOMENT):
        state = simple_state()
        state.roots = [read_document("root", simple_root(1, make.LAST_EXPIRY))]
        last = sign(make.timestamp(1, make.LAST_EXPIRY, 1))
        requests = [post(("timestamp", last))]
        requests += [post(("timestamp", sign(make.timestamp(2, expires, 1))), ("root", b"")) for expires in (0, 1)]
        requests.append(get("/targets/x"))
        World(session, state).serve(now, [("first and last moments", request) for request in requests])
