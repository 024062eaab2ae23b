"""A command and the state that it meets, where all checks hold, or where named checks fail.

Each scene takes the set of what is to be broken, and answers a state, a role and the bytes of a document for it. The
scene of a target answers a request in place of the two.
"""
import http_requests
import signed_documents as make
from documents import read_document
from repository import State
from test_keys import KEYS

NOW = make.BEGIN + 1000
LIVE, EXPIRED = NOW + 1, NOW
RULES = {
    "root": (KEYS[0:3], 2),
    "timestamp": (KEYS[3:5], 1),
    "snapshot": (KEYS[5:7], 2),
    "targets": (KEYS[8:11], 2),
}
TIMESTAMP_SIGNERS, SNAPSHOT_SIGNERS, TARGETS_SIGNERS = KEYS[3:4], KEYS[5:7], KEYS[8:10]
STRANGER = KEYS[20]
# One key for all roles, where a scene is not about signatures.
SIMPLE_RULES = {role: (KEYS[0:1], 1) for role in RULES}
ZEROS, ONES = "0" * 64, "1" * 64
BLOB = b"hello blob"
SHAPES = ["long", "not canonical", "envelope", "type", "member", "many signatures", "same signature id"]


def signed_document(kind, signed, signers):
    return read_document(kind, make.signed_file(signed, signers))


def simple_root(version, expires=NOW + 9001, rules=None, signers=None):
    """The bytes of a root with one key for all roles."""
    return make.signed_file(make.root(version, expires, rules or SIMPLE_RULES), signers or KEYS[0:1])


def simple_state(count=1, first=1):
    """So many roots of one key."""
    state = State()
    state.roots = [read_document("root", simple_root(version)) for version in range(first, first + count)]
    return state


def held_root(broken):
    expires = EXPIRED if "root expired" in broken else NOW + 5001
    required = ["dir/*.bin"] if "layout required" in broken else [] if broken & {"profile", "second profile"} else None
    return signed_document("root", make.root(3, expires, RULES, required=required), RULES["root"][0][:2])


def held_targets(version):
    """A file of the shelf that nobody signed."""
    return signed_document("targets", make.targets(version, LIVE + 9, {}), [])


def held_timestamp(expires, *snapshot):
    return signed_document("timestamp", make.timestamp(5, expires, *snapshot), TIMESTAMP_SIGNERS)


def held_snapshot(version, expires, roles):
    return signed_document("snapshot", make.snapshot(version, expires, roles), SNAPSHOT_SIGNERS)


def broken_shape(broken, signed, signers):
    """The signed file, with the faults of shape among what is to be broken."""
    further_members = {"a": 1} if "envelope" in broken else None
    tail = b"\n" if "not canonical" in broken else b""
    further_signatures = []
    if "type" in broken:
        signed["_type"] = "mirrors"
    if "member" in broken:
        signed["spec_version"] = "2.0.1"
    if "long" in broken:
        signed["zz"] = "x" * 262144
    if "many signatures" in broken:
        further_signatures += make.empty_signatures(17)
    if "same signature id" in broken:
        further_signatures += make.empty_signatures(1) * 2
    return make.signed_file(signed, signers, further_signatures, further_members, tail)


def said_of(broken, text, wrong_length):
    """The length and digest that another file says of these bytes."""
    length = len(text) if "length said" in broken else None
    digest = make.digest(text) if "digest said" in broken else None
    if "length" in broken:
        length = wrong_length
    if "digest" in broken:
        digest = ZEROS
    return length, digest


def stale(broken):
    """What the timestamp says of the snapshot of version 8."""
    version = 9 if "stale" in broken else 8
    length = 1 if "stale length" in broken else None
    digest = ONES if "stale digest" in broken else None
    return version, length, digest


def timestamp_scene(broken):
    state = State()
    if "no root" not in broken:
        state.roots = [held_root(broken)]
        state.shelf["targets", 2] = held_targets(2)
        if "incoherent" not in broken:
            state.snapshot = held_snapshot(7, EXPIRED, {"targets": (2,)})
        if "none held" not in broken:
            state.timestamp = held_timestamp(EXPIRED, 7)
    version = 5 if "equal" in broken else 4 if "lower" in broken else 6
    snapshot_version = 8 if "names another" in broken else 6 if "names lower" in broken else 7
    signers = [STRANGER] if "threshold" in broken else [*TIMESTAMP_SIGNERS, STRANGER]
    timestamp = make.timestamp(version, EXPIRED if "expired" in broken else LIVE, snapshot_version)
    return state, "timestamp", broken_shape(broken, timestamp, signers)


def snapshot_scene(broken):
    roles = {"targets": (4,), "a": (2,), "new": (1,)}
    if "rollback" in broken:
        roles["targets"] = (2,)
    if "dropped" in broken:
        del roles["a"]
    snapshot = make.snapshot(9 if "version" in broken else 8, EXPIRED if "expired" in broken else LIVE, roles)
    signers = [SNAPSHOT_SIGNERS[0], STRANGER] if "threshold" in broken else SNAPSHOT_SIGNERS
    text = broken_shape(broken, snapshot, signers)
    state = State()
    if "no root" in broken:
        return state, "snapshot", text
    state.roots = [held_root(broken)]
    for version in (2, 3, 4):
        state.shelf["targets", version] = held_targets(version)
    state.shelf["a", 2] = held_targets(2)
    if "incoherent" not in broken:
        state.shelf["new", 1] = held_targets(1)
    if "no timestamp" not in broken:
        expires = EXPIRED if "timestamp expired" in broken else LIVE
        state.timestamp = held_timestamp(expires, 8, *said_of(broken, text, len(text) + 1))
    if "none held" not in broken:
        if "same" in broken and "threshold" not in broken and not broken & set(SHAPES):
            state.snapshot = read_document("snapshot", text)
        else:
            version = 8 if "held of the same version" in broken else 7
            state.snapshot = held_snapshot(version, EXPIRED, {"targets": (3,), "a": (2,)})
    return state, "snapshot", text


def targets_scene(broken):
    role = "a" if "other role" in broken else "zeta" if "unlisted" in broken else "targets"
    version = 5 if "version" in broken else 4
    signed = make.targets(version, EXPIRED if "expired" in broken else LIVE, {"x": (0, make.digest(b""))})
    signers = [TARGETS_SIGNERS[0], STRANGER] if "threshold" in broken else TARGETS_SIGNERS
    text = broken_shape(broken, signed, signers)
    said = (4, *said_of(broken, text, len(text) - 1))
    state = State()
    if "no root" in broken:
        return state, role, text
    state.roots = [held_root(broken)]
    if "incoherent" not in broken:
        state.shelf["a", 2] = held_targets(2)
    if "no snapshot" not in broken:
        expires = EXPIRED if "snapshot expired" in broken else LIVE
        roles = {"targets": said, "a": (2,) if role == "targets" else said}
        state.snapshot = held_snapshot(8, expires, roles)
    if "no timestamp" not in broken:
        state.timestamp = held_timestamp(EXPIRED if "timestamp expired" in broken else LIVE, *stale(broken))
    if "same" in broken and not broken & set(SHAPES):
        state.shelf[role, version] = read_document("targets", text)
    if "taken" in broken:
        state.shelf[role, 4] = held_targets(4)
    return state, role, text


def root_scene(broken):
    rules = dict(RULES)
    if "new timestamp threshold" in broken:
        rules["timestamp"] = (KEYS[3:5], 2)
    if "new snapshot key" in broken:
        rules["snapshot"] = (KEYS[5:7] + KEYS[12:13], 2)
    old_signers, new_signers = KEYS[0:2], []
    if "new root keys" in broken:
        rules["root"] = (KEYS[12:15], 2)
        new_signers = KEYS[12:13] if "new threshold" in broken else KEYS[12:14]
    elif "new threshold" in broken:
        rules["root"] = (KEYS[0:3], 3)
    if "old threshold" in broken:
        old_signers = KEYS[0:1]
    state = State()
    if "no root" not in broken:
        state.roots = [held_root(broken)]
        state.shelf["targets", 2] = held_targets(2)
        state.snapshot = held_snapshot(7, EXPIRED, {"targets": (2,)})
        state.timestamp = held_timestamp(EXPIRED, 8 if "incoherent" in broken else 7)
    version = 3 if "version equal" in broken else 2 if "version lower" in broken else 5 if "version" in broken else 4
    required = ["a"] if "second profile" in broken and "profile" not in broken else None
    root = make.root(version, EXPIRED if "expired" in broken else LIVE, rules, required=required)
    if "key id" in broken:
        root["keys"][ZEROS] = make.key_object(KEYS[15].public.hex())
    if "key name" in broken:
        root["keys"]["no digits"] = make.key_object(KEYS[15].public.hex())
    text = broken_shape(broken, root, old_signers + new_signers)
    if "same" in broken and state.roots:
        text = state.roots[-1].bytes
    return state, "root", text


def target_scene(broken):
    digest = make.digest(BLOB)
    listings = {"dir/x.bin": (len(BLOB) + ("blob length" in broken), digest), "y": (0, make.digest(b""))}
    if "not found" in broken:
        del listings["dir/x.bin"]
    signers = TARGETS_SIGNERS
    if "threshold" in broken:
        signers = [TARGETS_SIGNERS[0], STRANGER]
    if "unsigned" in broken:
        signers = []
    targets = signed_document("targets", make.targets(4, EXPIRED if "expired" in broken else LIVE, listings), signers)
    state = State()
    if "no root" not in broken:
        state.roots = [held_root(broken)]
        if "missing" not in broken:
            state.shelf["targets", 4] = targets
        if "no snapshot" not in broken:
            expires = EXPIRED if "snapshot expired" in broken else LIVE
            said = (4, *said_of(broken, targets.bytes, 1))
            state.snapshot = held_snapshot(8, expires, {"targets": said, "zeta": (1,)})
        if "no timestamp" not in broken:
            state.timestamp = held_timestamp(EXPIRED if "timestamp expired" in broken else LIVE, *stale(broken))
        if "no blob" not in broken:
            state.blobs[digest] = BLOB
        state.blobs[make.digest(b"")] = b""
    path = "dir/x.bin"
    if "other digest" in broken:
        path = "dir/" + "a" * 64 + ".x.bin"
    if "its digest" in broken:
        path = f"dir/{digest}.x.bin"
    if "path" in broken:
        path = "./" + path
    return state, None, http_requests.get("/targets/" + path)


def granting_state():
    """A state that grants two targets, one of them empty."""
    state, _, _ = target_scene(set())
    return state


LIVE_SNAPSHOT = ["no root", "root expired", "no timestamp", "timestamp expired", "no snapshot", "snapshot expired"]
LIVE_SNAPSHOT += ["stale", "stale length", "stale digest"]
SAID = ["length", "digest", "length said", "digest said"]
# Each scene with all that can be broken in it.
SCENES = {
    "timestamp": (timestamp_scene, [
        "no root", "root expired", "threshold", "lower", "equal", "names lower", "expired", "none held", "incoherent",
        "names another", *SHAPES,
    ]),
    "snapshot": (snapshot_scene, [
        "no root", "root expired", "no timestamp", "timestamp expired", *SAID, "threshold", "version", "rollback",
        "dropped", "expired", "same", "held of the same version", "none held", "incoherent", *SHAPES,
    ]),
    "targets": (targets_scene, [
        *LIVE_SNAPSHOT, *SAID, "unlisted", "other role", "version", "threshold", "expired", "same", "taken",
        "incoherent", *SHAPES,
    ]),
    "root": (root_scene, [
        "no root", "root expired", "same", "version", "version lower", "version equal", "profile", "second profile", "key id", "key name",
        "old threshold", "new threshold", "new root keys", "new timestamp threshold", "new snapshot key", "expired",
        "incoherent", *SHAPES,
    ]),
    "target": (target_scene, [
        *LIVE_SNAPSHOT, *SAID, "path", "missing", "threshold", "unsigned", "expired", "not found", "layout required", "no blob",
        "blob length", "other digest", "its digest",
    ]),
}
