"""What signed files have in common: signatures, digests, keys with their ids, rules, and what one file says of another."""
import hashlib
import re

import canonical_json
from denials import deny_unless
from names import LARGEST_NUMBER, is_hex, is_whole

MAXIMUM_SIGNATURES = 16
# One of eight levels: u32, eight of the longest LMS signatures, and seven public keys between them.
MAXIMUM_SIGNATURE_LENGTH = 4 + 8 * 9324 + 7 * 56
MAXIMUM_KEYS = 256
MAXIMUM_RULE_KEYS = 16
# The digits of a public key, which tell its scheme.
DIGITS_OF_SCHEME = {"lms-sha256": 112, "hss-sha256": 120}


class Rule:
    """Who may sign for a role: so many of these keys."""

    def __init__(self, keyids, threshold, keys):
        self.keyids = keyids
        self.threshold = threshold
        self.keys = keys

    def public_keys(self):
        return {keyid: self.keys[keyid] for keyid in self.keyids}

    def same_as(self, other):
        """One threshold, one set of ids, and each id names the same key."""
        return self.threshold == other.threshold and self.public_keys() == other.public_keys()


class Entry:
    """What a file says of another: its version, and its length and digest where they are given."""

    def __init__(self, version, length, digest):
        self.version = version
        self.length = length
        self.digest = digest

    def has_length(self, document):
        return self.length in (None, len(document.bytes))

    def has_digest(self, document):
        return self.digest in (None, document.digest)

    def names(self, document):
        return self.version == document.version and self.has_length(document) and self.has_digest(document)


def shape(condition):
    deny_unless(condition, "WrongShape")


def key_object(public):
    """A key as a file has it."""
    scheme = "hss-sha256" if len(public) == DIGITS_OF_SCHEME["hss-sha256"] else "lms-sha256"
    return {"keytype": "lms", "keyval": {"public": public}, "scheme": scheme}


def key_id(public):
    """TUF 1.0, section 4.2: the SHA-256 of the key object's canonical form."""
    return hashlib.sha256(canonical_json.write(key_object(public))).hexdigest()


def top_key(public):
    """The LMS public key by which a key is counted: that of the top level, which stands after the number of levels."""
    return public[-DIGITS_OF_SCHEME["lms-sha256"]:]


def read_signatures(value):
    shape(type(value) is list and len(value) <= MAXIMUM_SIGNATURES)
    signatures = []
    for entry in value:
        shape(type(entry) is dict and set(entry) == {"keyid", "sig"})
        shape(is_hex(entry["keyid"], 64) and type(entry["sig"]) is str)
        shape(re.fullmatch("(?:[0-9a-f]{2}){0,%d}" % MAXIMUM_SIGNATURE_LENGTH, entry["sig"]) is not None)
        signatures.append((entry["keyid"], bytes.fromhex(entry["sig"])))
    shape(len({keyid for keyid, _ in signatures}) == len(signatures))
    return signatures


def read_digest(value):
    shape(type(value) is dict and set(value) == {"sha256"} and is_hex(value["sha256"], 64))
    return value["sha256"]


def read_entry(value):
    shape(type(value) is dict and is_whole(value.get("version"), 1, LARGEST_NUMBER))
    length = digest = None
    if "length" in value:
        length = value["length"]
        shape(is_whole(length, 0, LARGEST_NUMBER))
    if "hashes" in value:
        digest = read_digest(value["hashes"])
    return Entry(value["version"], length, digest)


def read_key(value):
    shape(type(value) is dict and set(value) == {"keytype", "keyval", "scheme"})
    shape(value["keytype"] == "lms" and type(value["scheme"]) is str and value["scheme"] in DIGITS_OF_SCHEME)
    shape(type(value["keyval"]) is dict and set(value["keyval"]) == {"public"})
    public = value["keyval"]["public"]
    shape(is_hex(public, DIGITS_OF_SCHEME[value["scheme"]]))
    return public


def read_keys(value):
    """A key table. Whether its names are the ids of its keys is judged after all members of a file."""
    shape(type(value) is dict and len(value) <= MAXIMUM_KEYS)
    return {keyid: read_key(key) for keyid, key in value.items()}


def judge_ids(keys):
    deny_unless(all(keyid == key_id(public) for keyid, public in keys.items()), "BadKeyId")


def read_rule(value, keys, ids="keyids"):
    shape(type(value) is dict)
    keyids = value.get(ids)
    threshold = value.get("threshold")
    shape(type(keyids) is list and 1 <= len(keyids) <= MAXIMUM_RULE_KEYS)
    shape(all(type(keyid) is str for keyid in keyids) and len(set(keyids)) == len(keyids))
    shape(all(keyid in keys for keyid in keyids))
    shape(len({top_key(keys[keyid]) for keyid in keyids}) == len(keyids))
    shape(is_whole(threshold, 1, len(keyids)))
    return Rule(keyids, threshold, keys)
