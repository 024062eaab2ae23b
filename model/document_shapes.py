"""Files of the four roles, changed at every place of the signed part, the envelope and the spelling.

The signed part is changed before it is signed, so that a shape alone decides. Each file is offered to a state that
takes the unchanged one.
"""
import copy
import hashlib

import canonical_json
import http_requests
import http_server
import signed_documents as make
from changes import ABOVE, DATES, ENTRY, PATHS, ROLE_NAMES, VALUES, at, changed_bytes, places, with_member, with_value, without
from document_parts import key_id
from documents import is_document
from names import LARGEST_NUMBER
from program import World
from scenes import (
    EXPIRED, LIVE, NOW, ONES, RULES, SIMPLE_RULES, SNAPSHOT_SIGNERS, TARGETS_SIGNERS, TIMESTAMP_SIGNERS, ZEROS,
    held_snapshot, held_targets, held_timestamp, timestamp_scene,
)
from test_keys import KEYS

LISTING = {"length": 0, "hashes": {"sha256": ZEROS}}
FURTHER_MEMBERS = [("zzz", 1), ("", None), ("é", {"a": []}), ("Z", []), ('"\\', 0), ("x_y", "\x00\n")]
OTHER_NAMES = """
    zzz A signatures signed _typf delegations custom meta targets keys roles é
""".split() + [""]
SPEC_VERSIONS = [
    "1.0.0", "1.0.999", "1.0.1234", "1.0.", "1.0", "1.1.0", "1.0.31+p2", "1.0.0+p2", "1.0.999+p2", "1.0.1234+p2", "1.0.+p2", "1.0+p2", "1.1.0+p2",
    "1.0.31+p1", "1.0.31+p3", "1.0.31+", "1.0.31+p", "1.0.31+p22", "1.0.31+P2", "1.0.31 +p2", "1.0.31+p2 ", "+p2", "1.0.3a+p2", "1.0.31-p2",
]
REQUIRED = [
    None, 1, "a", {}, [], ["a"], ["a", "a"], ["*"], ["a/*/b?"], ["/a"], ["a//b"], [""], ["a" * 200], ["a" * 201], [1], ["a", None], ["a b"], [["a"]],
    ["a"] * 64, ["a"] * 65,
]
TYPES = ["root", "timestamp", "snapshot", "targets", "mirrors", "layout", "link", "", None, 1]
# The first bytes of the signed part that are spelled in another way, and how.
SPELLINGS = [
    (b'"version":', [
        b'"version" :', b'"version": ', b'"version":0', b'"version":-', b'"version":+', b'"version":1.',
    ]),
    (b'"1.0.31"', [b'"1.0.3\\u0031"', b'"1.0.31\\n"', b'"1.0.31\n"', b'"1.0.\\/31"']),
    (b',"version"', [b',"version":1,"version"', b',"zz":1,"version"', b',,"version"']),
    (b"_type", [b"\\u005ftype"]),
    (b'{"_type"', [b'{ "_type"', b'{"a":1,"_type"', b"{'Z':1,\"_type\"", b'{Z:1,"_type"', b'{"Z":"a,"_type"']),
]
# What a further member is spelled as, in front of all others.
MEMBER_SPELLINGS = [
    b'"Z":1', b'"Z":"\xc3\xa9"', b'"Z":"\xe9"', b'"Z":"\xed\xa0\x80"', b'"Z":"\xc0\x80"', b'"Z":"\xf4\x90\x80\x80"',
    b'"Z":"\xf0\x9f\x98\x80"', b'"Z":"\xc2"', b'"Z":"\x00\x1f\x7f\n"', b'"Z":"\\\\\\""', b'"Z":"\\t"', b'"Z":-0',
    b'"Z":00', b'"Z":-9223372036854775808', b'"Z":-9223372036854775809', b'"Z":9223372036854775807',
    b'"Z":9223372036854775808', b'"Z":1e1', b'"Z":[1,]', b'"Z":[,1]', b'"Z":{"b":1,"a":2}', b'"Z":{"a":1,"a":2}',
    b'"Z":{"z":1,"\xc3\xa9":2}', b'"Z":{"\xc3\xa9":1,"z":2}', b'"Z":{"\xef\xbf\xbf":1,"\xf0\x90\x80\x80":2}',
    b'"Z":{"\xf0\x90\x80\x80":1,"\xef\xbf\xbf":2}', b'"Z":{"!":1,"\\"":2,"#":3}', b'"Z":{"[":1,"\\\\":2,"]":3}',
    b'"Z":{"\\\\":1,"a":2}', b'"Z":True', b'"Z":nul', b'"Z":NaN', b'"":1', b'"":{"":{"":""}}',
]


class Cases:
    """The files of one kind, each with a label."""

    def __init__(self, kind, random):
        self.kind = kind
        self.random = random
        self.files = []
        if kind == "root":
            self.signed, self.signers = make.root(4, LIVE, RULES, [KEYS[15]]), KEYS[0:2]
        elif kind == "timestamp":
            self.signed, self.signers = make.timestamp(6, LIVE, 7, 1000, ONES), TIMESTAMP_SIGNERS
        elif kind == "snapshot":
            roles = {"targets": (4, 10, "2" * 64), "a": (2,)}
            self.signed, self.signers = make.snapshot(8, LIVE, roles), SNAPSHOT_SIGNERS
        else:
            listings = {"x": (0, make.digest(b"")), "dir/y": (5, "3" * 64)}
            self.signed, self.signers = make.targets(4, LIVE, listings), TARGETS_SIGNERS
        self.good = make.signed_file(self.signed, self.signers)
        self.envelope = canonical_json.read(self.good)[0]

    def add(self, label, text):
        self.files.append((f"{self.kind}, {label}", text))

    def sign(self, label, signed):
        self.add(label, make.signed_file(signed, self.signers))

    def spell(self, label, envelope):
        """Spelled after the signatures were made."""
        self.add(label, canonical_json.write(envelope))

    def all(self):
        self.add("unchanged", self.good)
        self.values()
        self.lists()
        self.members()
        self.profiles()
        # The method that is named like the kind.
        getattr(self, self.kind)()
        self.envelopes()
        self.signatures()
        self.types()
        self.spellings()
        self.lengths()
        self.random_bytes()
        self.two_changes()
        return self.files

    def values_for(self, place):
        """All values; for the parts of a root that are alike, few or none."""
        if self.kind != "root" or len(place) < 2:
            return VALUES
        if place[0] == "keys" and place[1] != next(iter(self.signed["keys"])):
            return []
        if place[0] == "roles" and place[1] not in ("targets", "root"):
            return self.random.sample(VALUES, 8)
        return VALUES

    def values(self):
        for place in places(self.signed):
            values = self.values_for(place) if place else []
            for value in values:
                self.sign(f"{place} as {value!r}", with_value(self.signed, place, value))
            if values:
                self.sign(f"without {place}", without(self.signed, place))
            if values and type(at(self.signed, place)) is dict:
                for name, value in FURTHER_MEMBERS:
                    self.sign(f"{place} with {name!r}", with_member(self.signed, place, name, value))

    def lists(self):
        for place in places(self.signed):
            held = at(self.signed, place)
            if type(held) is list:
                for changed in (held + held[:1], held + ["f" * 64], held + [1], held[:1], held[::-1]):
                    self.sign(f"{place} as another list", with_value(self.signed, place, changed))

    def members(self):
        for text in DATES:
            self.sign(f"expires {text!r}", {**self.signed, "expires": text})
        for name in OTHER_NAMES:
            for value in (1, {}, [], None):
                self.sign(f"member {name!r}", {**self.signed, name: value})

    def profiles(self):
        """What `spec_version` may be, and what a root may require in either profile."""
        for text in SPEC_VERSIONS:
            self.sign(f"spec_version {text!r}", {**self.signed, "spec_version": text})
        for profile in ("1.0.31", "1.0.0+p2"):
            for required in REQUIRED:
                self.sign(f"{profile} requires {required!r}", {**self.signed, "spec_version": profile, "layout_required": required})

    def meta(self, label, meta):
        self.sign(f"meta {label}", {**self.signed, "meta": meta})

    def timestamp(self):
        for name in ("targets.json", "snapshot", "Snapshot.json", "snapshot.json "):
            self.meta(f"with {name}", {**self.signed["meta"], name: ENTRY})
            self.meta(f"of {name}", {name: ENTRY})

    def snapshot(self):
        for role in ROLE_NAMES:
            for suffix in (".json", "", ".JSON", ".json "):
                self.meta(f"with {role + suffix!r}", {**self.signed["meta"], role + suffix: ENTRY})
        for count in (126, 127, 128, 129):
            roles = {f"r{number}.json": {"version": number + 1} for number in range(count)}
            self.meta(f"of {count} more", {"targets.json": ENTRY, **roles})
        self.meta("without targets", {"a.json": ENTRY})
        self.meta("of nothing", {})

    def targets(self):
        held = self.signed["targets"]
        for path in PATHS:
            self.sign(f"path {path!r}", {**self.signed, "targets": {path: LISTING}})
            self.sign(f"further path {path!r}", {**self.signed, "targets": {**held, path: LISTING}})
        layout = {"keyids": [], "keys": {}, "links": [], "path": "a", "product": "b", "step": "c", "threshold": 1}
        custom = [{}, {"a": 1}, None, [], "x", 1, {"layout": {}}, {"layout": None}, {"layou": 1}, {"Layout": 1}]
        custom += [{"x": {"layout": 1}}, {"layout": layout}]
        listings = [{**LISTING, "custom": value} for value in custom]
        listings += [{**LISTING, "length": value} for value in (LARGEST_NUMBER, ABOVE, -1, None, "0")]
        listings += [LISTING, {**LISTING, "x": 1}, {**LISTING, "layout": {}}, {**LISTING, "version": 0}]
        listings += [{"length": 0}, {"hashes": LISTING["hashes"]}, {}]
        for listing in listings:
            self.sign(f"listing {listing!r}", with_value(self.signed, ("targets", "x"), listing))
        self.sign("no listing", {**self.signed, "targets": {}})
        many = {f"p{number}/{'x' * 30}": make.listing(number, f"{number:064x}") for number in range(1500)}
        self.sign("1,500 listings", {**self.signed, "targets": many})
        for value in ({}, None, {"keys": {}, "roles": []}, []):
            delegating = {**self.signed, "delegations": value}
            self.sign("delegations", delegating)
            self.sign("delegations and version 0", {**delegating, "version": 0})
            self.sign("delegations and another type", {**delegating, "_type": "root"})

    def root(self):
        self.rules()
        self.key_counts()
        self.keys()
        swapped = copy.deepcopy(self.signed)
        keys = swapped["keys"]
        keys[KEYS[0].id], keys[KEYS[1].id] = keys[KEYS[1].id], keys[KEYS[0].id]
        self.sign("two keys exchanged", swapped)
        self.sign("two keys exchanged, threshold 0", with_value(swapped, ("roles", "targets", "threshold"), 0))
        self.sign("two keys exchanged, another type", {**swapped, "_type": "targets"})
        self.sign("two keys exchanged, another version", {**swapped, "version": 9})
        two = with_member(self.signed, ("keys",), ZEROS, make.key_object(KEYS[8].public.hex()))
        rule = {"keyids": [KEYS[8].id, ZEROS], "threshold": 2}
        self.sign("two ids of one key", with_value(two, ("roles", "targets"), rule))
        self.sign("no keys", {**self.signed, "keys": {}})
        for role in RULES:
            self.wrappings(("keys",), ("roles", role))
        for role in ("mirrors", "x", ""):
            rule = self.signed["roles"]["root"]
            self.sign(f"a further role {role!r}", with_member(self.signed, ("roles",), role, rule))

    def rules(self):
        ids = [key.id for key in KEYS]
        more = {**self.signed, "keys": {**self.signed["keys"], **make.key_table(KEYS[:24])}}
        for count in (1, 2, 15, 16, 17, 18):
            for threshold in (0, 1, 2, count - 1, count, count + 1, 16, 17):
                rule = {"keyids": ids[:count], "threshold": threshold}
                self.sign(f"threshold {threshold} of {count}", with_value(more, ("roles", "targets"), rule))

    def key_counts(self):
        for count in (255, 256, 257):
            keys = dict(self.signed["keys"])
            for number in range(count - len(keys)):
                keys[key_id(f"{number:0112x}")] = make.key_object(f"{number:0112x}")
            self.sign(f"{count} keys", {**self.signed, "keys": keys})

    def wrappings(self, table, rule, ids="keyids"):
        """A rule with a key and the HSS keys over it, with two of these or with one alone; two others of the table are misnamed or not."""
        for numbers in ((12, 26), (12, 27), (26, 27), (13, 12, 14, 26), (1, 28), (12, 13), (26, 13)):
            keys = [KEYS[number] for number in numbers]
            held = {**at(self.signed, table), **make.key_table([*keys, KEYS[15], KEYS[17]])}
            exchanged = {**held, KEYS[15].id: held[KEYS[17].id], KEYS[17].id: held[KEYS[15].id]}
            for named, label in ((held, ""), (exchanged, ", two misnamed")):
                signed = with_value(self.signed, table, named)
                for threshold in (1, len(keys)):
                    said = {**at(signed, rule), ids: [key.id for key in keys], "threshold": threshold}
                    self.sign(f"{rule}: {threshold} of keys {numbers}{label}", with_value(signed, rule, said))

    def keys(self, table=("keys",)):
        """Odd key objects of both schemes, under their own ids and under others."""
        for key, other, scheme in ((KEYS[16], KEYS[17], "hss-sha256"), (KEYS[17], KEYS[16], "lms-sha256")):
            for value in self.odd_objects(key.public.hex(), scheme):
                own = hashlib.sha256(canonical_json.write(value)).hexdigest()
                for name in (own, ZEROS, "x", "X" * 64, key.id, key.id.upper(), other.id):
                    self.sign(f"key {value!r} as {name}", with_member(self.signed, table, name, value))

    def odd_objects(self, public, other_scheme):
        key = make.key_object(public)
        yield from (key, {**key, "x": 1}, {**key, "keyval": {"public": public, "x": 1}}, {**key, "keyval": {}})
        yield from ({**key, "keyval": None}, {**key, "keytype": "LMS"}, {**key, "keytype": "ed25519"}, {**key, "keytype": "hss"})
        yield from ({**key, "scheme": scheme} for scheme in (other_scheme, "lms", "hss", key["scheme"].upper(), None, [key["scheme"]]))
        yield from ({"keytype": "lms", "keyval": key["keyval"]}, {}, None, [], "x")
        digits = (public.upper(), public[2:], public + "00", public[8:], "0" * 8 + public, "0" * len(public), "f" * len(public), "")
        yield from ({**key, "keyval": {"public": text}} for text in digits)

    def envelopes(self):
        first = ("signatures", 0)
        for place in [(), ("signed",), ("signatures",), first, (*first, "keyid"), (*first, "sig")]:
            for value in VALUES:
                self.spell(f"envelope {place} as {value!r}", with_value(self.envelope, place, value))
            if place:
                self.spell(f"envelope without {place}", without(self.envelope, place))
            if type(at(self.envelope, place)) is dict:
                for name in ("zz", ""):
                    self.spell(f"envelope {place} with {name!r}", with_member(self.envelope, place, name, 1))

    def signatures(self):
        held = self.envelope["signatures"]
        digits = held[0]["sig"]
        others = [digits[:-1], digits[:-2], digits + "0", digits + "00", digits.upper(), " " + digits]
        others += ["0" * 18648, "0" * 18650, "0" * 149974, "0" * 149976, "0" * 149977, "0" * 149978, "00" * 4647, "", "0", "00", "g0"]
        others.append(digits.replace("0", "O", 1))
        for text in others:
            self.spell(f"signature of {len(text)} digits", with_value(self.envelope, ("signatures", 0, "sig"), text))
        lists = [held * 2, held[::-1], held[:1] + [{"keyid": held[0]["keyid"], "sig": ""}]]
        for count in (0, 1, 14, 15, 16, 17, 40):
            others = make.empty_signatures(count)
            lists += [held + others, others, others + held]
        for signatures in lists:
            self.spell(f"{len(signatures)} signatures", {**self.envelope, "signatures": signatures})

    def types(self):
        for kind in [*TYPES, self.kind + " "]:
            other = with_value(self.envelope, ("signed", "_type"), kind)
            self.spell(f"type {kind!r}", other)
            self.sign(f"type {kind!r}", {**self.signed, "_type": kind})
            self.spell(f"type {kind!r}, further member", {**other, "a": 1})
            self.spell(f"type {kind!r}, version 0", with_value(other, ("signed", "version"), 0))
            self.spell(f"type {kind!r} alone", {"signatures": [], "signed": {"_type": kind}})
        self.spell("no type", without(self.envelope, ("signed", "_type")))

    def spellings(self):
        for other in (b" ", b"\n", b"\t", b"\0", b"\xef\xbb\xbf", b",", b"}", b"1", b"null"):
            self.add("bytes after", self.good + other)
            self.add("bytes in front", other + self.good)
        for text in (self.good[:-1], b"", self.good + self.good, b"[" + self.good + b"]"):
            self.add("cut, empty, doubled, in a list", text)
        spelled = canonical_json.write(self.signed)
        for held, others in SPELLINGS:
            for other in others:
                self.sign(f"spelled {other!r}", spelled.replace(held, other, 1))
        for member in MEMBER_SPELLINGS:
            self.sign(f"spelled {member!r}", b"{" + member + b"," + spelled[1:])
        for depth in (29, 30, 31, 32, 33):
            for deep in (b"[" * depth + b"]" * depth, b'{"a":' * depth + b"1" + b"}" * depth):
                self.sign(f"depth {depth}", b'{"Z":' + deep + b"," + spelled[1:])

    def lengths(self):
        """Files at the limit of length, of one and of two bytes a character."""
        rest = len(make.signed_file({**self.signed, "zz": ""}, self.signers))
        for length in (262143, 262144, 262145, 300000):
            fill = "y" * (length - rest)
            text = make.signed_file({**self.signed, "zz": fill}, self.signers)
            self.add(f"{length} bytes", text)
            self.add(f"{length} bytes without the last", text[:-1])
            self.add(f"{length} bytes and a blank", text + b" ")
            wide = "é" * (len(fill) // 2) + "y" * (len(fill) % 2)
            self.sign(f"{length} bytes of two", {**self.signed, "zz": wide})
            self.sign(f"{length} bytes of another standard", {**self.signed, "zz": wide, "spec_version": "2.0.99"})

    def random_bytes(self):
        for _ in range(250):
            text = self.good
            for _ in range(self.random.choice((1, 1, 2))):
                ends = (self.random.randrange(120), len(text) - 1 - self.random.randrange(500))
                place = self.random.randrange(len(text)) if self.random.random() < 0.3 else self.random.choice(ends)
                text = changed_bytes(self.random, text, place)
            self.add("a byte changed", text)
        spelled = canonical_json.write(self.signed)
        for _ in range(60):
            place = self.random.randrange(len(spelled))
            self.sign("a signed byte changed", changed_bytes(self.random, spelled, place))

    def two_changes(self):
        for _ in range(400):
            signed = self.signed
            for _ in range(self.random.choice((2, 2, 3))):
                place = self.random.choice([place for place in places(signed) if place] or [()])
                kind = self.random.random()
                if not place:
                    break
                if kind < 0.6:
                    signed = with_value(signed, place, self.random.choice(VALUES + DATES[:3]))
                elif kind < 0.8:
                    signed = without(signed, place)
                elif type(at(signed, place)) is dict:
                    name = self.random.choice(("q", "Q", ""))
                    signed = with_member(signed, place, name, self.random.choice(VALUES))
            self.sign("two changes", signed)


def taking_states():
    """States that take each unchanged file; the snapshot has one of its own."""
    state, _, _ = timestamp_scene(set())
    state.timestamp = held_timestamp(LIVE, 8)
    state.snapshot = held_snapshot(8, LIVE, {"targets": (4,), "a": (2,)})
    state.shelf["a", 2] = held_targets(2)
    earlier = state.copy()
    earlier.snapshot = held_snapshot(7, LIVE, {"targets": (3,)})
    return state, earlier


def compare_shapes(session, random, kind):
    files = Cases(kind, random).all()
    compare_files(session, random, kind, files)
    if kind == "root":
        compare_first_roots(session, random, files)


def compare_files(session, random, kind, files):
    """Each file, with a label, as one of this kind before a state that takes the unchanged one."""
    state, earlier = taking_states()
    if kind == "snapshot":
        state = earlier
    taken, refused = [], []
    for label, text in files:
        request = http_requests.post((kind, text))
        if http_server.response(state, request, NOW)[1] is state:
            refused.append((label, request))
        else:
            # Refused as a whole by a second document, so that the next file meets the same state.
            taken.append((label, request))
            refused.append((label, http_requests.post((kind, text), ("timestamp", b""))))
    for first in range(0, len(refused), 600):
        World(session, state).serve(NOW, refused[first:first + 600])
    for label, request in random.sample(taken, min(len(taken), 25)):
        World(session, state).serve(NOW, [(label, request), (label + ", again", request)])
    for label, text in random.sample(files, 25):
        World(session, state).publish(NOW, [(kind, text)], label)


def compare_first_roots(session, random, files):
    """The same files as first roots, and some that sign for themselves."""
    world = World(session)
    for label, text in random.sample(files, 120):
        if world.state.roots and is_document("root", text):
            world = World(session)
        world.command("init", NOW, text, label)
    for signers in ([], KEYS[0:1], KEYS[1:2]):
        text = make.signed_file(make.root(7, EXPIRED, SIMPLE_RULES), signers)
        World(session).command("init", NOW, text, f"{len(signers)} signers")
