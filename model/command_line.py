"""What the program's subcommands print: exit status, standard output, standard error, and the state that is left."""
import hashlib

import canonical_json
import loose_json
import repository
from denials import Denied
from documents import is_document, read_document
from names import is_role_name

DONE, DENIED, USAGE, FAULT = 0, 1, 2, 3


def denied_line(denied):
    place = "" if denied.index is None else f" at {denied.index}"
    return DENIED, b"", f"denied {denied.number} {denied.name}{place}\n".encode()


def fault(word):
    return FAULT, b"", f"fault {word}\n".encode()


def init(state, text, _now):
    """`text` is None where there is no such file."""
    if text is None:
        return fault("file"), state
    try:
        return (DONE, b"begun\n", b""), repository.begin(state, text)
    except Denied as denied:
        return denied_line(denied), state


def put(state, text, _now):
    if text is None:
        return fault("file"), state
    digest = hashlib.sha256(text).hexdigest()
    try:
        after = repository.put_blob(state, digest, text)
    except Denied as denied:
        return denied_line(denied), state
    return (DONE, digest.encode() + b"\n", b""), state if after is repository.SAME else after


def prune(state):
    try:
        after, blobs, rows = repository.prune(state)
    except Denied as denied:
        return denied_line(denied), state
    return (DONE, b'{"blobs":%d,"rows":%d}\n' % (blobs, rows), b""), after


def publish(state, arguments, files, now):
    """Every argument is judged before a file is read. `files` has the bytes of each file that is there."""
    offered = []
    for index, argument in enumerate(arguments):
        role, colon, _ = argument.partition(":")
        if not colon or not is_role_name(role):
            return denied_line(Denied("WrongShape", index)), state
    for argument in arguments:
        role, _, file = argument.partition(":")
        if file not in files:
            return fault("file"), state
        offered.append((role, files[file]))
    try:
        after, accepted, same = repository.batch(state, offered, now)
    except Denied as denied:
        return denied_line(denied), state
    return (DONE, b'{"accepted":%d,"same":%d}\n' % (accepted, same), b""), after


def warning_before_publish(before, arguments, files, database):
    """What `publish --db` warns of whatever becomes of the batch: its last root has other rules than the trusted one for the timestamp or the
    snapshot, and no timestamp comes after it."""
    offers = [argument.partition(":")[::2] for argument in arguments]
    if not before.timestamp or not all(is_role_name(role) and file in files for role, file in offers):
        return b""
    places = [place for place, (role, _) in enumerate(offers) if role == "root"]
    if not places or any(role == "timestamp" for role, _ in offers[places[-1] :]):
        return b""
    text = files[offers[places[-1]][1]]
    if not is_document("root", text):
        return b""
    root = read_document("root", text)
    if all(before.rule(role).same_as(root.rules[role]) for role in ("timestamp", "snapshot")):
        return b""
    why = "the root has other keys for the timestamp or the snapshot, and no timestamp comes after it: every target will be denied"
    return f"warning: {database}: {why}\n".encode()


def warnings_of_publish(before, after, arguments, files, database):
    """What `publish --db` warns of where it is done: the last timestamp of the batch is not the one that is held, since another of its version
    was; and a root with other keys came without their successors."""
    said = b""
    timestamps = [argument for argument in arguments if argument.startswith("timestamp:")]
    if timestamps and after.timestamp and files[timestamps[-1].partition(":")[2]] != after.timestamp.bytes:
        said += f"warning: {timestamps[-1]}: not taken, another timestamp of its version is held\n".encode()
    if before.timestamp and not after.timestamp:
        said += f"warning: {database}: no timestamp any more: every target is denied until timestamp, snapshot and targets metadata are published\n".encode()
    return said


def canon(text):
    try:
        value = loose_json.read(text)
    except loose_json.NotJson:
        return denied_line(Denied("NotCanonical"))
    if loose_json.has_other_number(value) or loose_json.depth(value) > canonical_json.MAXIMUM_DEPTH:
        return denied_line(Denied("NotCanonical"))
    return DONE, canonical_json.write(value), b""
