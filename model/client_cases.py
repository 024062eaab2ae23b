"""A client by hand, the model alone: which names are asked for, and how each call ends."""
import signed_documents as make
from client import Client, SourceFault
from client_histories import source_of
from denials import Denied
from repository import State
from scenes import LIVE, NOW, SIMPLE_RULES, signed_document, simple_root, simple_state
from test_keys import KEYS

ABC = b"abc"
PATH, BLOB = "a/b.tgz", f"targets/a/{make.digest(ABC)}.b.tgz"
ROOT, TIMESTAMP, SNAPSHOT, TARGETS = (f"metadata/{name}.json" for name in ("2.root", "timestamp", "4.snapshot", "7.targets"))
SIGNER = KEYS[:1]


def server(count=1):
    """So many roots, a timestamp, snapshot 4 and targets 7, which list a target of three bytes."""
    state = simple_state(count)
    targets = signed_document("targets", make.targets(7, LIVE, {PATH: (len(ABC), make.digest(ABC))}), SIGNER)
    state.shelf["targets", 7] = targets
    said = (7, len(targets.bytes), targets.digest)
    state.snapshot = signed_document("snapshot", make.snapshot(4, LIVE, {"targets": said}), SIGNER)
    state.timestamp = signed_document("timestamp", make.timestamp(1, LIVE, 4), SIGNER)
    state.blobs = {make.digest(ABC): ABC}
    return state


def other_targets(listed):
    return make.signed_file(make.targets(7, LIVE, listed), SIGNER)


HELD = server().shelf["targets", 7].bytes
LONGER = other_targets({PATH: (3, make.digest(ABC)), "c": (3, make.digest(ABC))})
OTHER = other_targets({PATH: (3, make.digest(b"abd"))})
GAP = simple_root(3)
UNSIGNED = make.signed_file(make.root(2, LIVE, SIMPLE_RULES), [])
UPDATED = ("update", [ROOT, TIMESTAMP, SNAPSHOT], "updated")
# What is about, the server, what a source answers in place of it, and the calls, each with its names and its end.
CALLS = [
    ("a fresh client", server(), {}, [UPDATED, (PATH, [TARGETS, BLOB], ABC), (PATH, [], ABC), ("update", [ROOT, TIMESTAMP], "updated")]),
    ("no update", server(), {}, [(PATH, [], "NoTimestamp")]),
    ("no timestamp", server(), {TIMESTAMP: None}, [("update", [ROOT, TIMESTAMP], "updated"), (PATH, [], "NoTimestamp")]),
    ("no snapshot", server(), {SNAPSHOT: None}, [UPDATED, (PATH, [], "NoSnapshot"), UPDATED]),
    ("three roots", server(3), {}, [("update", [ROOT, "metadata/3.root.json", "metadata/4.root.json", TIMESTAMP, SNAPSHOT], "updated")]),
    ("a root past a gap", server(3), {ROOT: GAP}, [("update", [ROOT], "RootVersion"), ("update", [ROOT], "RootVersion")]),
    ("a root that nobody signed", server(), {ROOT: UNSIGNED}, [("update", [ROOT], "OldThreshold")]),
    ("the trusted root again", server(), {ROOT: simple_root(1)}, [("update", [ROOT] * 64 + [TIMESTAMP, SNAPSHOT], "updated")]),
    ("more than 64 roots", server(66), {}, [
        ("update", [*(f"metadata/{version}.root.json" for version in range(2, 66)), TIMESTAMP, SNAPSHOT], "updated"),
        ("update", ["metadata/66.root.json", "metadata/67.root.json", TIMESTAMP], "updated"),
    ]),
    ("a broken source", server(), {SNAPSHOT: "broken"}, [("update", [ROOT, TIMESTAMP, SNAPSHOT], "broken")]),
    ("a long timestamp", server(), {TIMESTAMP: b"x" * 262145}, [("update", [ROOT, TIMESTAMP], "too long")]),
    ("a timestamp of the most bytes", server(), {TIMESTAMP: b"x" * 262144}, [("update", [ROOT, TIMESTAMP], "NotCanonical")]),
    ("cut targets", server(), {TARGETS: HELD[:999]}, [UPDATED, (PATH, [TARGETS], "NotCanonical"), (PATH, [TARGETS], "NotCanonical")]),
    ("targets of another length", server(), {TARGETS: LONGER}, [UPDATED, (PATH, [TARGETS], "RoleLength")]),
    ("targets of another hash", server(), {TARGETS: OTHER}, [UPDATED, (PATH, [TARGETS], "RoleHash")]),
    ("no targets", server(), {TARGETS: None}, [UPDATED, (PATH, [TARGETS], "RoleMissing")]),
    ("no blob", server(), {BLOB: None}, [UPDATED, (PATH, [TARGETS, BLOB], "BlobMissing"), (PATH, [BLOB], "BlobMissing")]),
    ("a long blob", server(), {BLOB: b"abcd"}, [UPDATED, (PATH, [TARGETS, BLOB], "too long"), (PATH, [BLOB], "too long")]),
    ("a cut blob", server(), {BLOB: b"ab"}, [UPDATED, (PATH, [TARGETS, BLOB], "DigestMismatch")]),
    ("no such target", server(), {}, [UPDATED, ("nope", [TARGETS], "NotFound"), ("nope", [], "NotFound")]),
]


def end_of(subject, line):
    """The bytes of a target, `updated`, or the name of the denial or the fault."""
    try:
        return subject.update(NOW) or "updated" if line == "update" else subject.fetch_target(line, NOW)
    except Denied as denied:
        return denied.name
    except SourceFault as fault:
        return str(fault)


def compare_by_hand(session, _random):
    for label, state, answers, calls in CALLS:
        held = State()
        held.roots = state.roots[:1]
        for line, names, end in calls:
            subject = Client(held, source_of(state, answers, NOW))
            found = end_of(subject, line)
            session.check(f"client: {label}: {line}", (names, end), ([name for name, _, _ in subject.asked], found))
            held = subject.state
    empty = Client(State(), source_of(server(), {}, NOW))
    session.check("client: an empty store", ("NoRoot", "NoRoot", []), (end_of(empty, "update"), end_of(empty, PATH), empty.asked))
