"""Prunes by hand: what a prune leaves, and what it answers.

Each case says a snapshot, the shelf and the blobs, and what is left of them. The model is held to the cases, and then the program,
by a request and by a command line.
"""
import http_requests
import repository
import signed_documents as make
from delegation_rows import answer
from http_requests import get, put
from program import World
from repository import State
from scenes import EXPIRED, LIVE, NOW, ZEROS, signed_document, simple_state
from test_keys import KEYS

SIGNER = KEYS[0:1]

# What is said; the snapshot's entries as `ROLE:VERSION`, or None; the shelf as `ROLE:VERSION=BLOB+BLOB`; the blobs; the
# rows that are left, and the blobs.
PRUNES = [
    ("an older version", "targets:2", "targets:1=a targets:2=b", "a b c", "targets:2", "b"),
    ("nothing to remove", "targets:2", "targets:2=b", "b", "targets:2", "b"),
    ("nothing held", "targets:1", "", "", "", ""),
    ("no snapshot", None, "targets:1=a targets:2=b", "a b c", "", ""),
    ("no snapshot, and nothing held", None, "", "", "", ""),
    ("a blob of both versions", "targets:2", "targets:1=a+b targets:2=b", "a b", "targets:2", "b"),
    ("a later version", "targets:1", "targets:1=a targets:2=b", "a b", "targets:1", "a"),
    ("the listed version is not held", "targets:3", "targets:1=a targets:2=b", "a b", "", ""),
    ("a role that is not listed", "targets:1", "targets:1=a old:1=b", "a b", "targets:1", "a"),
    ("roles that nobody delegates to", "targets:1 x:4", "targets:1=a x:3=b x:4=c y:4=d", "a b c d", "targets:1 x:4", "a c"),
    ("a blob that a role lists which is gone", "targets:1 x:2", "targets:1= x:1=a", "a", "targets:1", ""),
    ("one blob under several paths", "targets:1", "targets:1=a+a+a", "a b", "targets:1", "a"),
    ("listed, and not held", "targets:1", "targets:1=a+b", "b c", "targets:1", "b"),
    ("blobs alone", "targets:1", "targets:1=", "a b c", "targets:1", ""),
    ("rows alone", "targets:9", "targets:7= targets:8= targets:9=", "", "targets:9", ""),
    ("each version for itself", "targets:2 x:1", "targets:1=a targets:2=b x:1=c x:2=d", "a b c d", "targets:2 x:1", "b c"),
]


def place_of(word):
    role, version = word.split(":")
    return role, int(version)


def blob_of(name):
    return b"the blob " + name.encode()


def file_of(version, names, expires=LIVE, signers=SIGNER):
    blobs = [(f"{number}/{name}", blob_of(name)) for number, name in enumerate(names)]
    listings = {path: (len(blob), make.digest(blob)) for path, blob in blobs}
    return signed_document("targets", make.targets(version, expires, listings), signers)


def held_state(listed, shelf, blobs, expires=LIVE, signers=SIGNER, said=()):
    state = simple_state()
    for word in shelf.split():
        place, _, names = word.partition("=")
        role, version = place_of(place)
        state.shelf[role, version] = file_of(version, [name for name in names.split("+") if name], expires, signers)
    state.blobs = {make.digest(blob_of(name)): blob_of(name) for name in blobs.split()}
    if listed is not None:
        entries = {role: (version, *said) for role, version in map(place_of, listed.split())}
        state.snapshot = signed_document("snapshot", make.snapshot(1, expires, entries), SIGNER)
        state.timestamp = signed_document("timestamp", make.timestamp(1, expires, 1), SIGNER)
    return state


def odd_states():
    """The first case again, where nothing is served: a prune looks at no moment, signature, length or digest."""
    _, listed, shelf, blobs, rows, left = PRUNES[0]
    first = [rows, left]
    yield "all is expired", held_state(listed, shelf, blobs, expires=EXPIRED), *first
    yield "nobody signed the files", held_state(listed, shelf, blobs, signers=()), *first
    yield "another length is said", held_state(listed, shelf, blobs, said=(1,)), *first
    yield "another digest is said", held_state(listed, shelf, blobs, said=(None, ZEROS)), *first
    state = held_state(listed, shelf, blobs)
    state.timestamp = signed_document("timestamp", make.timestamp(2, LIVE, 2), SIGNER)
    yield "the timestamp names another snapshot", state, *first
    state = state.copy()
    state.timestamp = None
    yield "no timestamp", state, *first
    state = held_state(listed, shelf, blobs)
    targets = make.targets(2, LIVE, {"b": (1, make.digest(blob_of("b")))})
    state.shelf["targets", 2] = signed_document("targets", targets, SIGNER)
    yield "listed with another length", state, *first
    state = held_state(None, shelf, blobs)
    state.timestamp = signed_document("timestamp", make.timestamp(1, LIVE, 1), SIGNER)
    yield "a timestamp alone", state, "", ""


def cases():
    for label, listed, shelf, blobs, rows, left in PRUNES:
        yield label, held_state(listed, shelf, blobs), rows, left
    yield from odd_states()


def body(blobs, rows):
    return b'{"blobs":%d,"rows":%d}' % (blobs, rows)


def compare_by_hand(session, _random):
    """The model alone."""
    for label, state, rows, left in cases():
        after, blobs_gone, rows_gone = repository.prune(state)
        session.check(f"prune: {label}, rows", sorted(map(place_of, rows.split())), sorted(after.shelf))
        session.check(f"prune: {label}, blobs", sorted(map(blob_of, left.split())), sorted(after.blobs.values()))
        counts = len(state.blobs) - len(left.split()), len(state.shelf) - len(rows.split())
        session.check(f"prune: {label}, counts", counts, (blobs_gone, rows_gone))
        held = [(it.roots, it.timestamp, it.snapshot) for it in (state, after)]
        session.check(f"prune: {label}, the rest", held[0], held[1])
        session.check(f"prune: {label}, again", (0, 0), repository.prune(after)[1:])
    session.check("prune: no root", "NoRoot", answer(repository.prune, State()))
    _, state, _, _ = next(cases())
    after, blobs_gone, rows_gone = repository.prune(state)
    session.check("prune: its body", b'{"blobs":2,"rows":1}', body(blobs_gone, rows_gone))
    session.check("prune: no byte more", 20, len(body(blobs_gone, rows_gone)))
    for path in ("0/a", "0/b", "0/c", "1/b"):
        before, behind = (answer(repository.target, it, path, NOW) for it in (state, after))
        session.check(f"prune: {path}", before, behind)


def compare_prunes(session, _random):
    """The program, by a request and by a command line, each twice; and requests around it."""
    for label, state, rows, left in cases():
        gone = body(len(state.blobs) - len(left.split()), len(state.shelf) - len(rows.split()))
        prune = http_requests.prune()
        world = World(session, state)
        world.serve(NOW, [(label, prune), (label, prune)])
        world = World(session, state)
        words = ["prune", "--db", str(world.database), "--at", str(NOW)]
        world.prune(NOW, label)
        session.check(f"prune: {label}, again", (0, body(0, 0) + b"\n", b""), session.run(*words))
        world = World(session, state)
        session.check(f"prune: {label}, by hand", (0, gone + b"\n", b""), session.run(*words))
    compare_before_and_behind(session)


def compare_before_and_behind(session):
    """What is served is the same before and after a prune, and what is gone can be put again."""
    _, state, _, _ = next(cases())
    places = ["targets/0/a", "targets/0/b", "metadata/1.targets.json", "metadata/2.targets.json"]
    places += ["metadata/timestamp.json", "metadata/1.snapshot.json", "metadata/1.root.json"]
    requests = [get(f"/{place}") for place in places]
    requests += [http_requests.prune(), *requests, put(blob_of("a")), put(blob_of("b")), http_requests.prune()]
    requests += requests[:2]
    World(session, state).serve(NOW, [("around a prune", request) for request in requests])
    world = World(session)
    world.serve(NOW, [("no root", http_requests.prune())])
    world.prune(NOW, "no root")
    root = simple_state().roots[0].bytes
    world.command("init", NOW, root)
    world.command("put", NOW, b"abc")
    world.prune(NOW, "a root alone")
    world.serve(NOW, [("a root alone", http_requests.prune()), ("a root alone", put(b"abc"))])
