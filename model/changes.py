"""Changes of a value at any of its places, and of bytes, and what is put there."""
import copy

from names import LARGEST_NUMBER
from scenes import ZEROS

ABOVE = LARGEST_NUMBER + 1
ENTRY = {"version": 1}
# What is put in place of every value.
VALUES = [
    None, True, False, 0, 1, -1, 2, 15, 16, 17, LARGEST_NUMBER, ABOVE, 2**63 - 1, -(2**63),
    "", "a", "0", "lms", "é", "\x00", "\n", '"', "\\", ZEROS, "0" * 63, "A" * 64, "0" * 65,
    "1.0.", "1.0.1", "1.0.12", "1.0.123", "1.0.1234", "1.0.x", "1.1.1", "1.0.1 ", "01.0.1", "1.0.-1",
    "2030-01-01T00:00:00Z", [], {}, [[]], [{}], {"a": 1}, ["a"], {"sha256": ZEROS}, {"sha256": "A" * 64},
    {"sha256": ZEROS, "sha512": "x"}, {"sha512": ZEROS}, {"version": 0}, ENTRY, {"version": LARGEST_NUMBER},
    {"version": ABOVE}, {"version": True}, {"version": "1"}, {**ENTRY, "length": 0},
    {**ENTRY, "length": LARGEST_NUMBER}, {**ENTRY, "length": ABOVE}, {**ENTRY, "length": -1},
    {**ENTRY, "length": None}, {**ENTRY, "hashes": {}}, {**ENTRY, "hashes": None},
    {**ENTRY, "hashes": {"sha256": ZEROS}}, {**ENTRY, "hashes": {"sha256": ZEROS, "x": 1}},
    {**ENTRY, "x": [1, {"y": None}]},
]
DATES = """
    1970-01-01T00:00:00Z 1969-12-31T23:59:59Z 9998-12-31T23:59:59Z 9999-01-01T00:00:00Z 2028-02-29T00:00:00Z
    2029-02-29T00:00:00Z 2100-02-29T00:00:00Z 2000-02-29T00:00:00Z 2400-02-29T12:00:00Z 2030-04-31T00:00:00Z
    2030-13-01T00:00:00Z 2030-00-01T00:00:00Z 2030-01-00T00:00:00Z 2030-01-32T00:00:00Z 2030-01-01T24:00:00Z
    2030-01-01T23:60:00Z 2030-01-01T23:59:60Z 2030-01-01T00:00:00z 2030-01-01t00:00:00Z 2030-01-01T00:00:00+00:00
    2030-01-01T00:00:00.0Z 2030-1-01T00:00:00Z +030-01-01T00:00:00Z -030-01-01T00:00:00Z 02030-01-01T00:00:00Z
    2030-01-01T00:00:00ZZ 2030-06-31T00:00:00Z 2030-09-30T23:59:59Z 2030-12-31T23:59:59Z 2030-01-01T00:00Z
    ٢030-01-01T00:00:00Z 0000-01-01T00:00:00Z 2030-02-28T23:59:59Z 1972-06-30T23:59:60Z 2030/01/01T00:00:00Z
    2030-01-01T00-00-00Z 2030-01-01T00:00:00 20300101T000000Z
""".split()
DATES += [
    "2030-01-01 00:00:00Z", " 2030-01-01T00:00:00Z", "2030-01-01T00:00:00Z\n", "2030-01-01T1 :00:00Z",
    "2030-01- 1T00:00:00Z",
]
ROLE_NAMES = [
    "targets", "a", "a" * 32, "a" * 33, "", "A", "_a", "-a", "a_", "9", "a.b", "a b", "é", "root", "timestamp",
    "snapshot", "targets.json", "mirrors", "a\x00", "rootx", "roo", "b.jso", ".json", "a.json.json",
]
PATHS = [
    "a", "a/b", "/a", "a/", "a//b", ".", "..", "a/.", "a/..", "./a", "../a", "...", "a/...", "a..b", ".a", "a.", "-",
    "_", "a b", "é", "a" * 200, "a" * 201, "a/" * 99 + "ab", "a/" * 100 + "b", "a?", "a*", "a\\b", 'a"b', "A-Z.z_9",
    ZEROS + ".a", "", "a:b", "~a", "a\n",
]
CHANGED_TO = b'"\\{}[]:,0123456789abcdef -\n\x00\xff\xc3'
INSERTED = b'"\\{}[]:,0129af -\n'


def places(value, place=()):
    """All places of a value, each as the names and indexes that lead to it."""
    yield place
    if type(value) is dict:
        for name in value:
            yield from places(value[name], place + (name,))
    elif type(value) is list:
        for index in range(len(value)):
            yield from places(value[index], place + (index,))


def at(value, place):
    for step in place:
        value = value[step]
    return value


def with_value(value, place, put):
    if not place:
        return put
    changed = copy.deepcopy(value)
    at(changed, place[:-1])[place[-1]] = put
    return changed


def without(value, place):
    changed = copy.deepcopy(value)
    del at(changed, place[:-1])[place[-1]]
    return changed


def with_member(value, place, name, put):
    return with_value(value, place, {**at(value, place), name: put})


def changed_bytes(random, text, place):
    changed = bytearray(text)
    kind = random.random()
    if kind < 0.4:
        changed[place] = random.choice(CHANGED_TO)
    elif kind < 0.6:
        del changed[place]
    elif kind < 0.8:
        changed[place:place] = bytes([random.choice(INSERTED)])
    else:
        changed[place] = random.randrange(256)
    return bytes(changed)
