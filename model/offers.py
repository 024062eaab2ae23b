"""Files that random histories offer.

They mostly fit, so that histories go on, and are wrong in one way or another often enough for every denial.
"""
from random import Random

import signed_documents as make
from names import LARGEST_NUMBER
from program import World
from test_keys import KEY_OF_ID, KEYS

ROLES = ("root", "timestamp", "snapshot", "targets")
PATHS = ["a", "b/c.txt", "d/e/f", "x.tgz", "0" * 64 + ".y", "A_-."]
BLOBS = [b"", b"abc", b"hello", bytes(range(256)), b"z" * 3000, b"b0", b"b1", b"b2", b"b3"]
OTHER_VALUES = (None, 0, "x", [], {}, True, -1, LARGEST_NUMBER + 1, "1.0.9")
LONG = "p" * 262144


def changed_byte(text, place):
    return text[:place] + bytes([text[place] ^ 1]) + text[place + 1:]


def wrong_signature(random, key):
    """A signature entry that does not verify, or not under its id."""
    other = random.choice(KEYS)
    return random.choice([
        (key.id, lambda signed: key.sign(signed + b" ").hex()),
        (key.id, lambda signed: key.sign(signed).hex()[:-2]),
        (key.id, lambda signed: key.sign(signed).hex() + "00"),
        (key.id, ""),
        (key.id, lambda signed: other.sign(signed).hex()),
        (other.id, lambda signed: key.sign(signed).hex()),
        ("0" * 64, lambda signed: key.sign(signed).hex()),
        (key.id, lambda signed: (2**key.height).to_bytes(4, "big").hex() + key.sign(signed).hex()[8:]),
        (key.id, lambda signed: changed_byte(key.sign(signed), 500).hex()),
    ])


class Offers:
    """Files of the four roles for a state at a moment."""

    new_world = World

    def __init__(self, session, seed):
        self.random = Random(seed)
        self.now = make.BEGIN
        self.world = self.new_world(session)
        self.keys = self.random.sample(KEYS, self.random.choice((8, 12, 16)))

    def chance(self, share):
        return self.random.random() < share

    def any_moment(self):
        return make.BEGIN + 1000 * self.random.randrange(-1, 12) + self.random.choice((0, 0, 0, -1, 1))

    def expiry(self):
        """Mostly far ahead, often at the edge of the moment, at times anywhere."""
        kind = self.random.random()
        if kind < 0.55:
            return self.now + self.random.choice((3000, 10000, 100000))
        if kind < 0.8:
            return self.now + self.random.choice((0, 1, 1, -1, 1, 1000, 999, 1001))
        if kind < 0.97:
            return self.any_moment()
        return self.random.choice((0, make.LAST_EXPIRY, 2**31, 2**32))

    def new_rule(self):
        count = self.random.choice((1, 1, 1, 2, 2, 3, 3, 4))
        return self.random.sample(self.keys, count), self.random.randint(1, min(3, count))

    def held_rule(self, state, role):
        """The keys and the threshold of the last root."""
        if not state.roots:
            return self.new_rule()
        rule = state.rule(role)
        return [KEY_OF_ID[keyid] for keyid in rule.keyids], rule.threshold

    def signers(self, rule):
        """Mostly as many as are needed, at times more, fewer, or a stranger."""
        keys, threshold = rule
        kind = self.random.random()
        if kind < 0.6:
            count = threshold
        elif kind < 0.82:
            count = min(len(keys), threshold + 1)
        elif kind < 0.9:
            count = threshold - 1
        else:
            count = len(keys)
        signers = self.random.sample(keys, count)
        stranger = self.random.choice(KEYS)
        if self.chance(0.15) and stranger not in signers:
            signers.append(stranger)
        self.random.shuffle(signers)
        return signers

    def finish(self, signed, signers):
        """Signs, at times with a further member, a member of another type, a wrong signature or envelope."""
        random = self.random
        signed = dict(signed)
        if self.chance(0.15):
            signed[random.choice(("x", "_z", "zz", "ü"))] = random.choice((1, None, 't"\\\n', [{}], {"a": [1, 2]}))
        if self.chance(0.03):
            signed[random.choice(list(signed))] = random.choice(OTHER_VALUES)
        further_signatures, further_members, tail = [], None, b""
        kind = random.random()
        if kind < 0.01:
            further_members = {"a": 1}
        elif kind < 0.02:
            tail = b"\n"
        elif kind < 0.03:
            further_signatures = make.empty_signatures(17)
        elif kind < 0.04 and signers:
            further_signatures = [{"keyid": signers[0].id, "sig": ""}]
        elif kind < 0.045:
            signed["pad"] = LONG
        signers = [wrong_signature(random, key) if self.chance(0.06) else key for key in signers]
        return make.signed_file(signed, signers, further_signatures, further_members, tail)

    def next_rule(self, state, role):
        """Mostly the rule that is held, in the same or another order; at times a changed or a new one."""
        keys, threshold = self.held_rule(state, role)
        kind = self.random.random()
        if kind < 0.72:
            return keys[::self.random.choice((1, 1, -1))], threshold
        if kind < 0.82:
            return keys, self.random.randint(1, min(3, len(keys)))
        others = [key for key in self.keys if key not in keys]
        if kind < 0.9 and others:
            return (keys + self.random.sample(others, 1))[-4:], threshold
        return self.new_rule()

    def make_root(self, state=None):
        state = state or self.world.state
        random = self.random
        last = state.roots[-1] if state.roots else None
        if last is None or self.chance(0.1):
            rules = {role: self.new_rule() for role in ROLES}
        else:
            rules = {role: self.next_rule(state, role) for role in ROLES}
        version = last.version if last else random.choice((0, 0, 0, 4, LARGEST_NUMBER - 2))
        version = max(version + random.choice((1,) * 14 + (0, 2, -1)), random.choice((0, 1, 1, 1)))
        expires = self.now + random.choice((9000, 30000, 100000)) if self.chance(0.8) else self.expiry()
        root = make.root(version, expires, rules, random.sample(KEYS, random.choice((0, 0, 1, 3))), self.required(last))
        signers = self.signers(self.held_rule(state, "root")) if last else []
        signers += [key for key in self.signers(rules["root"]) if key not in signers]
        if self.chance(0.02):
            root["keys"]["0" * 64] = make.key_object(KEYS[0].public.hex())
        if self.chance(0.02):
            root["keys"][KEYS[1].id] = make.key_object(KEYS[0].public.hex())
        return self.finish(root, signers)

    def required(self, last):
        """Mostly a root of the profile before; at times profile 2, whose root requires layouts of some paths, and at times a lower one."""
        of_second = self.chance(0.9) if last and last.profile == 2 else self.chance(0.08)
        if not of_second:
            return None
        if last and last.profile == 2 and self.chance(0.5):
            return last.required
        return self.random.choice(([], [], ["b/*"], ["*"], ["A*", "d/*/f"], ["x.tgz", "q"]))

    def make_listings(self):
        """Files that are there, at times with another length or digest."""
        random = self.random
        listings = {}
        for path in random.sample(PATHS, random.randint(0, 4)):
            blob = random.choice(BLOBS)
            length, digest = len(blob), make.digest(blob)
            kind = random.random()
            if kind < 0.08:
                length = max(0, length + random.choice((1, -1)))
            elif kind < 0.12:
                digest = f"{random.getrandbits(256):064x}"
            listings[path] = (length, digest)
        return listings

    def make_targets(self, state):
        random = self.random
        held = [version for role, version in state.shelf if role == "targets"]
        version = max(1, max(held, default=0) + random.choice((1, 1, 1, 1, 0, 2, 3)))
        listings = self.make_listings()
        targets = make.targets(version, self.expiry(), listings)
        if listings and self.chance(0.1):
            targets["targets"][random.choice(list(listings))]["custom"] = random.choice(({}, {"a": 1}, {"layouts": []}))
        if listings and self.chance(0.02):
            targets["targets"][random.choice(list(listings))]["custom"] = random.choice((None, {"layout": {}}, 1))
        if self.chance(0.01):
            targets["delegations"] = {"keys": {}, "roles": []}
        return self.finish(targets, self.signers(self.held_rule(state, "targets")))

    def entry_of(self, text, version):
        """What another file says of these bytes, mostly as it is."""
        random = self.random
        length = len(text) if self.chance(0.4) else None
        digest = make.digest(text) if self.chance(0.4) else None
        kind = random.random()
        if kind < 0.04:
            length = len(text) + random.choice((1, -1))
        elif kind < 0.08:
            digest = f"{random.getrandbits(256):064x}"
        elif kind < 0.12:
            version = max(1, version + random.choice((1, -1)))
        return version, length, digest

    def make_snapshot(self, state, targets, targets_version):
        random = self.random
        roles = {"targets": self.entry_of(targets, targets_version)}
        if state.snapshot and self.chance(0.3):
            for role, entry in state.snapshot.roles.items():
                if role != "targets" and self.chance(0.9):
                    roles[role] = (max(1, entry.version + random.choice((0, 0, 1, -1))),)
        if self.chance(0.05):
            roles[random.choice(("a", "b", "c"))] = (random.randint(1, 3),)
        version = (state.snapshot.version if state.snapshot else 0) + random.choice((1, 1, 1, 1, 1, 2, 0))
        if state.timestamp and self.chance(0.2):
            version = state.timestamp.snapshot.version
        snapshot = make.snapshot(max(1, version), self.expiry(), roles)
        return self.finish(snapshot, self.signers(self.held_rule(state, "snapshot")))

    def make_timestamp(self, state, snapshot, snapshot_version):
        version = (state.timestamp.version if state.timestamp else 0) + self.random.choice((1,) * 10 + (0, -1, 2, 5))
        timestamp = make.timestamp(max(1, version), self.expiry(), *self.entry_of(snapshot, snapshot_version))
        return self.finish(timestamp, self.signers(self.held_rule(state, "timestamp")))
