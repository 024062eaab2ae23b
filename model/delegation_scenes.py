"""Scenes, as in `scenes.py`, with delegated roles: `targets` delegates to a, and a to b, which lists the target."""
import http_requests
import signed_documents as make
from documents import read_document
from repository import State
from scenes import (
    BLOB, EXPIRED, LIVE, SAID, STRANGER, TARGETS_SIGNERS, held_root, held_snapshot, held_targets, held_timestamp,
    said_of,
)
from test_keys import KEYS

A_SIGNERS, B_SIGNERS = KEYS[13:14], KEYS[16:18]
PATH = "dir/x.bin"
OF_ROLE = ["unlisted", "missing", *SAID, "threshold", "expired"]


def own(broken, role):
    """What is to be broken of one role."""
    return {name.removeprefix(role + " ") for name in broken if name.startswith(role + " ")}


def expiry(broken):
    return EXPIRED if "expired" in broken else LIVE


def file_of(broken, signed, signers):
    return make.signed_file(signed, [*signers[:-1], STRANGER] if "threshold" in broken else signers)


def targets_file(broken):
    delegation = make.delegation("a", A_SIGNERS, 1, paths=["y", "dir/*"])
    signed = make.targets(2, expiry(own(broken, "targets")), {}, make.delegations(A_SIGNERS, [delegation]))
    return file_of(own(broken, "targets"), signed, TARGETS_SIGNERS)


def a_file(broken):
    """It delegates to b; where that is cut off, to itself before, and terminating."""
    covered = "y" if "not covered" in broken else PATH
    to_b = make.delegation("b", B_SIGNERS, 2, prefixes=[make.digest(covered.encode())])
    to_itself = make.delegation("a", A_SIGNERS, 1, terminating=True, paths=["dir/*"])
    roles = [to_itself, to_b] if "cut off" in broken else [to_b]
    signed = make.targets(3, expiry(own(broken, "a")), {}, make.delegations([*A_SIGNERS, *B_SIGNERS], roles))
    return file_of(own(broken, "a"), signed, A_SIGNERS)


def b_file(broken):
    digest = make.digest(BLOB)
    listings = {} if "not listed" in broken else {PATH: (len(BLOB) + ("blob length" in broken), digest)}
    signed = make.targets(5 if "version" in broken else 4, expiry(own(broken, "b")), listings)
    return file_of(own(broken, "b"), signed, B_SIGNERS)


def chain_state(broken, files):
    """The files on the shelf, and a snapshot that names them with what is said of each."""
    state = State()
    state.roots = [held_root(broken)]
    entries = {}
    for role, version, text in files:
        wrong = own(broken, role)
        if "missing" not in wrong:
            state.shelf[role, version] = read_document("targets", text)
        if "unlisted" not in wrong:
            entries[role] = (version, *said_of(wrong, text, len(text) + 1))
    state.snapshot = held_snapshot(8, LIVE, entries)
    state.timestamp = held_timestamp(LIVE, 8)
    if "no blob" not in broken:
        state.blobs[make.digest(BLOB)] = BLOB
    return state


def files_of(broken):
    return [("targets", 2, targets_file(broken)), ("a", 3, a_file(broken)), ("b", 4, b_file(broken))]


def delegated_target_scene(broken):
    """The target is asked for."""
    path = "dir/" + "a" * 64 + ".x.bin" if "other digest" in broken else PATH
    return chain_state(broken, files_of(broken)), None, http_requests.get("/targets/" + path)


def delegated_file_scene(broken):
    """The file of b is offered. Which paths are covered and what is cut off makes no difference."""
    files = files_of(broken)
    state = chain_state(broken | {"b missing"}, files)
    text = files[-1][2]
    if "same" in broken and "version" not in broken:
        state.shelf["b", 4] = read_document("targets", text)
    if "taken" in broken:
        state.shelf["b", 4] = held_targets(4)
    return state, "b", text


def of_roles(roles, names):
    return [f"{role} {name}" for role in roles for name in names]


OF_GRAPH = ["targets threshold", "targets expired", *of_roles("ab", OF_ROLE), "not covered", "cut off"]
SCENES = {
    "delegated target": (delegated_target_scene, [*OF_GRAPH, "not listed", "no blob", "blob length", "other digest"]),
    "delegated file": (delegated_file_scene, [
        *(name for name in OF_GRAPH if name != "b missing"), "version", "same", "taken",
    ]),
}
