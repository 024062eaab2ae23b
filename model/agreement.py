"""Agreement: when a client is behind its server, and what a fetch from the server's state then has to end in.

A client is behind where its roots are a beginning of the server's, at most 64 fewer, its target files are the server's, and what it trusts
after the later roots is nothing else, or older than what the server trusts, whose timestamp and snapshot are live.
"""
import repository
from client import Client
from client_histories import source_of
from denials import Denied
from documents import is_live

MOST_LATER = 64
MOST_ROWS = 3968


def after_roots(state, roots):
    """The state after these roots in order, or None where one is denied."""
    for root in roots:
        try:
            state = repository.offer_root(state, root.bytes)
        except Denied:
            return None
    return state


def is_older_timestamp(new, old):
    return old.bytes == new.bytes or old.version < new.version and old.snapshot.version <= new.snapshot.version


def is_older_snapshot(timestamp, new, old):
    if old.bytes == new.bytes:
        return True
    if timestamp.snapshot.names(old):
        return False
    return all(role in new.roles and said.version <= new.roles[role].version for role, said in old.roles.items())


def is_older(state, server, now):
    """What is trusted beside roots, beside what the server trusts."""
    timestamp, snapshot = server.timestamp, server.snapshot
    if not timestamp or not snapshot or not is_live(timestamp, now) or not is_live(snapshot, now):
        return False
    if state.timestamp and not is_older_timestamp(timestamp, state.timestamp):
        return False
    if state.snapshot and not is_older_snapshot(timestamp, snapshot, state.snapshot):
        return False
    listed = {(role, said.version) for role, said in snapshot.roles.items()}
    shared = all(place in server.shelf and server.shelf[place].bytes == held.bytes for place, held in state.shelf.items() if place in listed)
    return shared and len(state.shelf) <= MOST_ROWS


def is_behind(client, server, now):
    count = len(client.roots)
    if not count or [root.bytes for root in client.roots] != [root.bytes for root in server.roots[:count]]:
        return False
    later = server.roots[count:]
    if len(later) > MOST_LATER or not set(client.blobs) <= set(server.blobs):
        return False
    state = after_roots(client, later)
    is_bare = state and not state.timestamp and not state.snapshot and not state.shelf
    return bool(state) and (is_bare or is_older(state, server, now))


def end_of(call):
    """The bytes of a target, or the denial."""
    try:
        return call()
    except Denied as denied:
        return denied


def fetched_from(server, state, path, now):
    """An update whose denial is disregarded, and a fetch, over a source that answers from the server's state: the state, and the end."""
    subject = Client(state, source_of(server, {}, now))
    end_of(lambda: subject.update(now))
    end = end_of(lambda: subject.fetch_target(path, now))
    return subject.state, end


def granted(state, path, now):
    return end_of(lambda: repository.target_at(state, path, None, now))


def disagreement(server, before, after, path, now, end):
    """What agreement forbids of an end, or None."""
    own, left = granted(server, path, now), granted(after, path, now)
    if type(end) is bytes and left != end:
        return "bytes that the state that is left does not grant"
    if not repository.is_coherent(server) or not is_behind(before, server, now):
        return None
    if type(end) is bytes:
        return None if own == end else "bytes that the server does not grant"
    if type(own) is bytes:
        return "a denial where the server grants"
    return None if type(left) is Denied else "a denial where the state that is left grants"


def is_level(state, server):
    """The same roots, timestamp and snapshot."""

    def held(one):
        return [root.bytes for root in one.roots], *(document and document.bytes for document in (one.timestamp, one.snapshot))

    return held(state) == held(server)


def denies_all(state, paths, now):
    return all(isinstance(granted(state, path, now), Denied) for path in paths)


def unbrought(server, before, after, paths, now):
    """What one honest mirror among several forbids of an update, or None: the client was behind and is, so it is level, or neither grants anything."""
    if not repository.is_coherent(server) or not is_behind(before, server, now) or not is_behind(after, server, now):
        return None
    if is_level(after, server) or denies_all(server, paths, now) and denies_all(after, paths, now):
        return None
    return "not level with the honest mirror's server"


def unserved(server, before, after, path, now, end):
    """What one honest mirror among several forbids of a fetch, or None: the client was level and is behind, so it has what the server grants."""
    if not repository.is_coherent(server) or not is_level(before, server) or not is_behind(after, server, now):
        return None
    own = granted(server, path, now)
    if type(own) is bytes:
        return None if end == own else "not what the server grants"
    return None if type(end) is not bytes else "bytes that the server does not grant"
