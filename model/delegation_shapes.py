"""The member `delegations` of targets metadata: what is read and what is not.

Without the program by hand; with every part changed before the program `verdicts`, which only reads files, and before `release`.
"""
import subprocess

import canonical_json
import document_shapes
import signed_documents as make
from changes import VALUES
from denials import Denied
from document_parts import judge_ids, key_id
from documents import read_checked, read_delegations
from pattern_cases import VERDICTS
from scenes import LIVE, ZEROS
from test_keys import KEYS

A_KEY = make.key_object(KEYS[0].public.hex())
GOOD = make.delegation("a", KEYS[0:1], 1, paths=["*"])
WITHOUT_PATHS = make.delegation("a", KEYS[0:1], 1)
WRAPPED = [KEYS[12], KEYS[26]]
OVER_ONE_KEY = make.delegations(WRAPPED, [make.delegation("a", WRAPPED, 1, paths=["*"])])


def names(count):
    return [{**GOOD, "name": f"a{number}"} for number in range(count)]


def many_keys(count):
    publics = [KEYS[0].public.hex(), *(f"{number:0112x}" for number in range(1, count))]
    return {key_id(public): make.key_object(public) for public in publics}


def of_rule(count, threshold):
    """A key table with a delegation to so many of its keys."""
    keys = many_keys(20)
    return {"keys": keys, "roles": [{**GOOD, "keyids": list(keys)[:count], "threshold": threshold}]}


def with_paths(paths):
    return {**WITHOUT_PATHS, "paths": paths}


def with_prefixes(prefixes):
    return {**WITHOUT_PATHS, "path_hash_prefixes": prefixes}


# One delegation of a list, and whether it is read.
ROLES_READ = [
    (GOOD, True), (WITHOUT_PATHS, False), ({**GOOD, "path_hash_prefixes": ["0"]}, False), ([], False),
    ({**GOOD, "path_hash_prefixes": None}, False), ({**with_prefixes(["0"]), "paths": None}, False),
    *((with_paths(paths), True) for paths in (
        ["*"] * 64, ["a" * 200], ["*" * 200], ["//?*-_.AZaz09"], ["a", "a"], ["?"], [".."], ["/"],
    )),
    *((with_paths(paths), False) for paths in (
        None, [], ["*"] * 65, ["a" * 201], [""], ["a", ""], ["é"], ["[a]"], [1], [None], "a", {"a": 1}, ["a\n"],
    )),
    *((with_prefixes(prefixes), True) for prefixes in (["0"], ["0"] * 64, ["0" * 64], ["abcdef0123456789"])),
    *((with_prefixes(prefixes), False) for prefixes in (
        None, [], ["0"] * 65, ["0" * 65], [""], ["A"], ["g"], ["*"], ["0", ""], ["0\n"], [0], "0", {"0": 1},
    )),
    *(({**GOOD, "terminating": value}, type(value) is bool) for value in (True, False, 1, 0, None, "false", [])),
    *(({**GOOD, "name": name}, True) for name in ("mirrors", "targets-", "9_-", "a" * 32, "root0")),
    *(({**GOOD, "name": name}, False) for name in (
        "root", "targets", "snapshot", "timestamp", "-a", "_a", "A", "a.b", "a/b", "é", "", "a" * 33, "a\n", None, 1,
    )),
    *(({**GOOD, "keyids": ids}, False) for ids in (
        [KEYS[1].id], [], [KEYS[0].id] * 2, [KEYS[0].id, KEYS[1].id], KEYS[0].id, [None], [[]], None,
    )),
    *(({**GOOD, "threshold": threshold}, False) for threshold in (0, 2, -1, True, None, "1")),
    ({**GOOD, "further": [{}]}, True),
    *(({name: value for name, value in GOOD.items() if name != left_out}, False) for left_out in GOOD),
]

# The whole member, and what it is read as: None, or the denial.
LISTS_READ = [
    ("nothing in it", {"keys": {}, "roles": []}, None), ("further members", {"keys": {}, "roles": [], "x": 1}, None),
    ("null", None, "WrongShape"), ("a list", [], "WrongShape"), ("no keys", {"roles": []}, "WrongShape"),
    ("no roles", {"keys": {}}, "WrongShape"), ("roles by name", {"keys": {}, "roles": {}}, "WrongShape"),
    ("64 delegations", make.delegations(KEYS[0:1], names(64)), None),
    ("65 delegations", make.delegations(KEYS[0:1], names(65)), "WrongShape"),
    ("one name twice", make.delegations(KEYS[0:1], [GOOD, {**GOOD, "paths": ["b"]}]), "WrongShape"),
    ("256 keys", {"keys": many_keys(256), "roles": [GOOD]}, None),
    ("257 keys", {"keys": many_keys(257), "roles": [GOOD]}, "WrongShape"),
    ("16 of 16", of_rule(16, 16), None), ("16 of 15", of_rule(15, 16), "WrongShape"),
    ("17 of 17", of_rule(17, 17), "WrongShape"), ("1 of 17", of_rule(17, 1), "WrongShape"),
    ("another name of a key", {"keys": {ZEROS: A_KEY}, "roles": []}, "BadKeyId"),
    ("a name of no digits", {"keys": {"x": A_KEY}, "roles": []}, "BadKeyId"),
    ("another name in a rule", {"keys": {"x": A_KEY}, "roles": [{**GOOD, "keyids": ["x"]}]}, "BadKeyId"),
    ("another name, and no such role", {"keys": {"x": A_KEY}, "roles": [GOOD]}, "WrongShape"),
    ("two names of a key", {"keys": {KEYS[0].id: A_KEY, ZEROS: A_KEY}, "roles": [GOOD]}, "BadKeyId"),
    ("a key and its wrapping in a rule", OVER_ONE_KEY, "WrongShape"),
    ("the same, and a key that is misnamed", {**OVER_ONE_KEY, "keys": {**OVER_ONE_KEY["keys"], ZEROS: A_KEY}}, "WrongShape"),
    ("a key and its wrapping in two rules", {**OVER_ONE_KEY, "roles": [make.delegation(f"a{key.id[:4]}", [key], 1, paths=["*"]) for key in WRAPPED]}, None),
    ("a key with a further member", {"keys": {KEYS[0].id: {**A_KEY, "x": 1}}, "roles": [GOOD]}, "WrongShape"),
]


def read_as(value):
    """The denial of the member `delegations`, or None."""
    try:
        keys, _ = read_delegations(value)
        judge_ids(keys)
    except Denied as denied:
        return denied.name
    return None


def compare_reading(session, _random):
    for label, value, wanted in LISTS_READ:
        session.check(f"read: {label}", wanted, read_as(value))
    for said, is_read in ROLES_READ:
        wanted = None if is_read else "WrongShape"
        session.check(f"read: {said}", wanted, read_as({"keys": {KEYS[0].id: A_KEY}, "roles": [said]}))


class Cases(document_shapes.Cases):
    """Files of targets metadata with two delegations, with each part of the member changed."""

    def __init__(self, random):
        super().__init__("targets", random)
        first = make.delegation("a", KEYS[12:14], 2, paths=["x", "dir/*"])
        second = make.delegation("b", KEYS[13:14], 1, prefixes=["0", "ab"], terminating=True)
        listings = {"x": (0, make.digest(b""))}
        self.signed = make.targets(4, LIVE, listings, make.delegations(KEYS[12:14], [first, second]))
        self.good = make.signed_file(self.signed, self.signers)
        self.envelope = canonical_json.read(self.good)[0]

    def delegate(self, label, value):
        """The member alone; at times beside what another check refuses."""
        delegating = {**self.signed, "delegations": value}
        self.sign(label, delegating)
        if self.random.random() < 0.1:
            self.sign(f"{label}, and version 0", {**delegating, "version": 0})
            self.sign(f"{label}, and another type", {**delegating, "_type": "root"})
            self.sign(f"{label}, and an ill listing", {**delegating, "targets": {"x": {}}})

    def values_for(self, place):
        """Only what stands in the member, and of the parts that are alike only some."""
        if place[0] != "delegations":
            return []
        is_repeated = place[1:2] == ("keys",) and place[2:3] != (KEYS[12].id,)
        return self.random.sample(VALUES, 8) if is_repeated else VALUES

    def all(self):
        self.add("unchanged", self.good)
        self.values()
        self.lists()
        self.keys(("delegations", "keys"))
        self.wrappings(("delegations", "keys"), ("delegations", "roles", 1))
        for label, value, _ in LISTS_READ:
            self.delegate(label, value)
        for said, _ in ROLES_READ:
            self.delegate(f"delegation {said}", {"keys": make.key_table(KEYS[0:1]), "roles": [said]})
            self.delegate(f"delegation {said} and another", {"keys": make.key_table(KEYS[0:1]), "roles": [said, GOOD]})
        self.two_changes()
        return self.files


def number_of(text):
    """What `verdicts` prints of a file of targets metadata: `ok`, or the number of the check that fails first."""
    try:
        read_checked("targets", text)
    except Denied as denied:
        return str(denied.number)
    return "ok"


def compare_reader(session, random):
    """The same files beside the program `verdicts`, which only reads them."""
    files = Cases(random).all()
    lines = [f"document targets {text.hex() or '-'}" for _, text in files]
    ran = subprocess.run([VERDICTS], input="\n".join(lines).encode(), stdout=subprocess.PIPE, check=False)
    printed = ran.stdout.decode().splitlines()
    session.check("one verdict a file", len(files), len(printed))
    for (label, text), found in zip(files, printed):
        session.check(f"read by verdicts: {label}", number_of(text), found)


def compare_shapes(session, random):
    document_shapes.compare_files(session, random, "targets", Cases(random).all())
