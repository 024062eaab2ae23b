"""The next document of the one that is held: what `draft` writes into a folder, as a function of what is held, of the draft that it goes on from, of a
description and of a moment.

A version is one more than the one that is held. What the description does not name is what the document says that the draft goes on from, but for
`version`, `expires` and two further members that decide nothing: `term`, the seconds that it is to be valid, and `names`, what its keys are called.
"""
import copy
import re

import canonical_json
import patterns
from document_parts import key_object
from signed_documents import date

DAY = 86400
LONGEST_TERM = 999_999 * DAY
FIRST_DAYS = {"root": 365, "targets": 90, "snapshot": 30, "timestamp": 7}
TOP_ROLES = ("root", "targets", "snapshot", "timestamp")
FIRST = {
    "root": {"roles": {}, "keys": {}, "names": {}, "consistent_snapshot": True},
    "targets": {"targets": {}},
    "snapshot": {"meta": {}},
    "timestamp": {"meta": {}},
}
LAST_VERSION = 4294967295
MOST_DELEGATIONS = 64
MOST_TEXTS = 64
MOST_VISITS = 32
MOST_BYTES = 262144


class Refused(Exception):
    """Why there is no draft: the word that is told."""


class Denied(Exception):
    """Why there is no draft: the line that is told."""


def last_term(signed, days):
    """The term that a document says, if an option could, and else so many days."""
    said = signed.get("term")
    return said if type(said) is int and 0 < said <= LONGEST_TERM else days * DAY


def terms(kind, given, base, now):
    """The moment at which the draft expires, and its term. `given` is days (90d), hours (12h), a moment in seconds, or None."""
    if isinstance(given, int):
        return given, max(given - now, 0)
    if given:
        seconds = int(given[:-1]) * (DAY if given.endswith("d") else 3600)
    else:
        seconds = last_term(base or {}, FIRST_DAYS[kind])
    return now + seconds, seconds


def begun_with(kind, held, begun):
    """The signed part that a draft goes on from. After the last version there is none, whatever else is asked for."""
    if held and held["version"] >= LAST_VERSION:
        raise Refused("nothing")
    base = begun or held or {"_type": kind, "spec_version": "1.0.31", **FIRST[kind]}
    return copy.deepcopy(base)


def headed(signed, kind, held, given, base, now):
    expires, term = terms(kind, given, base, now)
    version = held["version"] + 1 if held else 1
    return {**signed, "version": version, "expires": date(expires), "term": term}


def rule_said(keys, threshold):
    return {"keyids": [key.id for key in keys], "threshold": threshold}


def put_keys(table, names, keys, called):
    for key in keys:
        table[key.id] = key_object(key.public.hex())
        names[key.id] = called[key.id]


def ids_of(rules):
    return {keyid for rule in rules for keyid in rule["keyids"]}


def next_root(held, begun, rules, called, given, now):
    """`rules` has for roles their keys and thresholds; a root keeps the keys, and the names of them, that a rule of it has."""
    signed = begun_with("root", held, begun)
    roles = signed.setdefault("roles", {})
    table, names = signed.setdefault("keys", {}), signed.setdefault("names", {})
    for role, keys, threshold in rules:
        roles[role] = rule_said(keys, threshold)
        put_keys(table, names, keys, called)
    if any(role not in roles for role in TOP_ROLES):
        raise Refused("usage")
    used = ids_of(roles.values())
    signed["keys"] = {keyid: table[keyid] for keyid in table if keyid in used}
    signed["names"] = {keyid: names[keyid] for keyid in names if keyid in used}
    signed["consistent_snapshot"] = True
    return headed(signed, "root", held, given, begun or held, now)


def next_targets(held, begun, added, removed, given, now):
    """`added` has for paths their lengths and digests, `removed` paths that are listed."""
    signed = begun_with("targets", held, begun)
    listed = signed["targets"]
    for path in removed:
        if path not in listed:
            raise Refused("path")
        del listed[path]
    for path, length, sha256 in added:
        listing = listed.setdefault(path, {})
        listing["length"] = length
        listing["hashes"] = {"sha256": sha256}
    return headed(signed, "targets", held, given, begun or held, now)


def bins(name, count):
    """The roles of so many bins, each with its share of all prefixes of one digit, or of two for more than 16. A role's number is as wide as the last one's."""
    digits = 1 if count <= 16 else 2
    texts = [f"{n:0{digits}x}" for n in range(16**digits)]
    share = len(texts) // count
    return [(f"{name}-{n:0{len(f'{count - 1:x}')}x}", texts[n * share:(n + 1) * share]) for n in range(count)]


class Delegation:
    """What is said of a delegation: patterns of paths, or prefixes of their digests."""

    def __init__(self, name, keys, threshold, covers, by_prefixes=False, terminating=False, before=None):
        self.name, self.keys, self.threshold = name, keys, threshold
        self.covers, self.by_prefixes = covers, by_prefixes
        self.terminating, self.before = terminating, before

    def is_fit(self):
        test = patterns.is_prefix if self.by_prefixes else patterns.is_pattern
        is_name = re.fullmatch(r"[a-z0-9][a-z0-9_-]{0,31}", self.name) and self.name not in TOP_ROLES
        return bool(is_name) and 0 < len(self.covers) <= MOST_TEXTS and all(map(test, self.covers))

    def said(self):
        member = "path_hash_prefixes" if self.by_prefixes else "paths"
        return {"name": self.name, **rule_said(self.keys, self.threshold), member: self.covers, "terminating": self.terminating}


def delegated_further(signed, delegated, called):
    """The signed part with these delegations, one after the other: each in the place of the role's own, before another role's, or last."""
    if not delegated:
        return signed
    delegations = signed.setdefault("delegations", {"keys": {}, "roles": []})
    roles, names = delegations["roles"], signed.setdefault("names", {})
    for one in delegated:
        order = [it["name"] for it in roles]
        place = order.index(one.name) if one.name in order else len(roles)
        roles[:] = [it for it in roles if it["name"] != one.name]
        if one.before is not None:
            order = [it["name"] for it in roles]
            place = order.index(one.before) if one.before in order else len(roles)
        roles.insert(place, one.said())
        put_keys(delegations["keys"], names, one.keys, called)
    used = ids_of(roles)
    delegations["keys"] = {keyid: key for keyid, key in delegations["keys"].items() if keyid in used}
    signed["names"] = {keyid: name for keyid, name in names.items() if keyid in used}
    if len(roles) > MOST_DELEGATIONS or not all(one.is_fit() for one in delegated):
        raise Denied("denied 3 WrongShape")
    return signed


def covers(delegation, path):
    if "paths" in delegation:
        return any(patterns.matches_segmented(pattern, path) for pattern in delegation["paths"])
    return any(patterns.prefix_covers(prefix, path) for prefix in delegation["path_hash_prefixes"])


def covering(document, path):
    """The delegations that a search follows for the path, in their order: none after a terminating one."""
    found = []
    for delegation in (document or {}).get("delegations", {"roles": []})["roles"]:
        if covers(delegation, path):
            found.append(delegation)
            if delegation["terminating"]:
                break
    return found


def place_of(documents, path):
    """The role that is to list the path: from `targets` on the first one that lists it, or that delegates it to no role that is still to be visited."""
    role, visited = "targets", []
    while len(visited) < MOST_VISITS:
        visited.append(role)
        document = documents.get(role)
        further = [it["name"] for it in covering(document, path) if it["name"] not in visited]
        if path in (document or {"targets": ()})["targets"] or not further:
            return role
        role = further[0]
    raise Refused("path")


def lister_of(documents, path):
    """The first role of a search that lists the path, or None. A terminating delegation leaves nothing to be visited after it."""
    visited = []

    def search(role):
        if role in visited:
            return None, False
        if len(visited) == MOST_VISITS:
            return None, True
        visited.append(role)
        document = documents.get(role)
        if path in (document or {"targets": ()})["targets"]:
            return role, True
        for delegation in covering(document, path):
            found, is_over = search(delegation["name"])
            if is_over or delegation["terminating"]:
                return found, True
        return None, False

    return search("targets")[0]


def spread(held, begun, signed, added, removed, given, now, anew):
    """The drafts of all roles that have a change: each target that is added in the role that covers it, each that is removed out of the one that lists it."""
    documents = {**held, **begun}
    shares = {}
    for path in dict.fromkeys(removed):
        role = lister_of(documents, path)
        if role:
            shares.setdefault(role, ([], []))[1].append(path)
    for one in added:
        shares.setdefault(place_of(documents, one[0]), ([], []))[0].append(one)
    if not shares:
        raise Refused("path" if removed and not added else "nothing")
    made = {}
    for role, share in shares.items():
        if role in signed and not anew:
            raise Refused("signed")
        made[role] = next_targets(held.get(role), begun.get(role), *share, given, now)
    return made


def next_timestamp(held, begun, version, given, now):
    signed = begun_with("timestamp", held, begun)
    signed["meta"] = {"snapshot.json": {"version": version}}
    return headed(signed, "timestamp", held, given, begun or held, now)


def next_snapshot(held, begun, versions, given, now):
    signed = begun_with("snapshot", held, begun)
    for role, version in versions:
        signed["meta"][f"{role}.json"] = {"version": version}
    return headed(signed, "snapshot", held, given, begun or held, now)


def seconds_of(text):
    """The moment of a date that a document says."""
    import datetime

    found = re.fullmatch(r"(\d{4})-(\d\d)-(\d\d)T(\d\d):(\d\d):(\d\d)Z", text)
    return int((datetime.datetime(*map(int, found.groups())) - datetime.datetime(1970, 1, 1)).total_seconds())


def sealed(held_snapshot, held_timestamp, versions, given, now):
    """The snapshot, or None where the held one is not due and lists these versions, and the timestamp. A snapshot has something to list."""
    if not held_snapshot and not versions:
        raise Refused("order")
    snapshot = held_snapshot
    lists = held_snapshot and all(held_snapshot["meta"].get(f"{role}.json", {}).get("version") == version for role, version in versions)
    drafted = None
    if not lists or seconds_of(held_snapshot["expires"]) <= now + DAY:
        snapshot = drafted = next_snapshot(held_snapshot, None, versions, given, now)
    return drafted, next_timestamp(held_timestamp, None, snapshot["version"], given, now)


def file_of(signed):
    return canonical_json.write({"signatures": [], "signed": signed})


def entry_length(key):
    """The bytes of the entry of a signature by an LMS key (RFC 8554, sections 4.5 and 5.4), which stands in hex digits."""
    signature = 4 + (4 + 32 + 32 * key.elements) + 4 + 32 * key.height
    return len(canonical_json.write({"keyid": key.id, "sig": ""})) + 2 * signature


def signed_length(signed, keys, threshold):
    """The bytes of a document with the signatures that a rule wants, the shortest that its keys can make, and a comma between two."""
    lengths = sorted(entry_length(key) for key in keys)[:threshold]
    return len(file_of(signed)) + sum(lengths) + len(lengths) - 1


def room_for(signed, keys, threshold):
    """The warning of a document that is long with its signatures, if it is; one that is too long is refused."""
    length = signed_length(signed, keys, threshold)
    warning = f"warning: targets: {length} of {MOST_BYTES} bytes with the signatures that it wants: delegate a part of it: --delegate or --bins"
    return length > MOST_BYTES, [warning] if 4 * length >= 3 * MOST_BYTES else []
