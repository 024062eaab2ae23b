"""Delegations before the program: the graphs by hand as signed files, and random histories of delegated roles.

They run where files with delegations are read, `DELEGATIONS_ARE_READ` in `documents.py`.
"""
import itertools

import delegations
import http_requests
import signed_documents as make
from delegation_rows import PATH, SEARCHES, VOUCHERS, graph_state, keys_of, parts_of, random_graph, read_whole
from documents import is_document, read_document
from histories import History, version_of
from offers import BLOBS, PATHS
from program import World
from repository import State
from scenes import LIVE, NOW
from test_keys import KEY_OF_ID, KEYS

ROLES = ["a", "b", "c", "d", "e", "f"]
ALL_PATHS = ["*", "*/*", "*/*/*"]
PATTERNS = [*ALL_PATHS, "b/*", "d/e/?", "*.tgz", "?", "A_-*", "a/", "*.*"]
ILL_DELEGATIONS = [None, {}, {"keys": {}}, {"keys": {"x": make.key_object(KEYS[0].public.hex())}, "roles": []}]


def offered_twice(role, text):
    """Alone, and with a document after it that is refused, so that nothing is kept."""
    return [http_requests.post((role, text), ("timestamp", b"")), http_requests.post((role, text))]


def new_file(role, letters, version=2):
    return role, make.signed_file(make.targets(version, LIVE, {}), keys_of(letters))


def compare_rows(session, _random):
    """Each graph by hand: a target is asked for, or a new file is offered."""
    for label, graph, said, _, _ in SEARCHES:
        state = graph_state(graph, said, read_whole)
        World(session, state).serve(NOW, [(label, http_requests.get(f"/targets/{PATH}"))])
    for label, graph, said, role, letters, _ in VOUCHERS:
        state = graph_state(graph, said, read_whole, due=role)
        requests = [(label, request) for request in offered_twice(*new_file(role, letters))]
        World(session, state).serve(NOW, requests)


def with_listing(random, graph, said):
    """Mostly one role lists the path, whether it is visited or not."""
    said = parts_of(said)
    lists = random.choice([*parts_of(graph), ""])
    return "; ".join(f"{role}: {said.get(role, '')}{' lists' * (role == lists)}" for role in parts_of(graph))


def compare_graphs(session, random, count):
    """Small random graphs, with a path that one role lists, and for each role new files of the version that is named.

    Who vouches is judged before it is looked whether the shelf has a file of this version.
    """
    for _ in range(count):
        graph, said = random_graph(random)
        said = with_listing(random, graph, said)
        due = random.choice("abcdef")
        state = graph_state(graph, said, read_whole, due=due)
        requests = [http_requests.get(f"/targets/{PATH}")]
        for role, letters in itertools.product(["targets", *"abcdef"], ("A", "B")):
            requests += offered_twice(*new_file(role, letters, 2 if role == due else 1))[:1]
        World(session, state).serve(NOW, [(f"graph {graph} | {said}", request) for request in requests])


class DelegationHistory(History):
    """A random history with up to seven roles. Files are mostly signed for some edge that leads to their role."""

    def __init__(self, session, seed):
        super().__init__(session, seed)
        self.usual_rules = {role: self.new_rule() for role in ROLES}

    def expiry(self):
        """Far ahead more often than for one file alone, since each file of a search has to be live."""
        return super().expiry() if self.chance(0.12) else self.now + self.random.choice((10000, 100000))

    def signers(self, rule):
        keys, threshold = rule
        return super().signers(rule) if self.chance(0.1) else self.random.sample(keys, threshold)

    def finish(self, signed, signers):
        return super().finish(signed, signers) if self.chance(0.1) else make.signed_file(signed, signers)

    def entry_of(self, text, version):
        return super().entry_of(text, version) if self.chance(0.15) else (version,)

    def make_listings(self):
        return super().make_listings() if self.chance(0.4) else {}

    def covering(self):
        """Of one delegation."""
        random = self.random
        kind = random.random()
        if kind < 0.5:
            return {"paths": random.sample(ALL_PATHS, 3)}
        if kind < 0.7:
            return {"paths": random.sample(PATTERNS + PATHS, random.choice((1, 1, 2, 3)))}
        if kind < 0.8:
            digits = make.digest(random.choice(PATHS).encode())
            return {"prefixes": [digits[:random.choice((1, 2, 5, 63, 64))]]}
        return {"prefixes": random.sample("0123456789abcdef", 11)}

    def delegating(self, role):
        """The member `delegations` of a new file, which at times is ill, or None."""
        random = self.random
        kind = random.random()
        if kind < 0.02:
            return random.choice(ILL_DELEGATIONS)
        if kind < 0.2 and role != "targets":
            return None
        keys, roles = [], []
        counts = (1, 2, 2, 3, 3, 4) if role == "targets" else (0, 1, 1, 2, 2, 3)
        for name in random.sample(ROLES, random.choice(counts)):
            rule_keys, threshold = self.usual_rules[name] if self.chance(0.85) else self.new_rule()
            keys += rule_keys
            terminating = self.chance(0.2)
            roles.append(make.delegation(name, rule_keys, threshold, terminating=terminating, **self.covering()))
        if roles and self.chance(0.01):
            roles.append(random.choice(roles))
        return make.delegations([*keys, *random.sample(KEYS, random.choice((0, 0, 0, 2)))], roles)

    def make_role(self, role, version, rule):
        targets = make.targets(version, self.expiry(), self.make_listings(), self.delegating(role))
        return self.finish(targets, self.signers(rule))

    def next_version(self, state, role):
        held = [version for other, version in state.shelf if other == role]
        return max(1, max(held, default=0) + self.random.choice((1,) * 12 + (0, 2, 3)))

    def changed_files(self, state, share):
        """New files for such a share of the roles that are reached, each signed for an edge that is then there."""
        files = {}
        rules = {"targets": [self.held_rule(state, "targets")]}
        waiting = ["targets"]
        for role in waiting:
            held = delegations.named_document(state, role) if state.snapshot else None
            if self.chance(share) or (held is None and self.chance(0.9)):
                files[role] = self.make_role(role, self.next_version(state, role), self.random.choice(rules[role]))
                held = read_document("targets", files[role]) if is_document("targets", files[role]) else None
            for edge in held.delegations if held else []:
                rule = [KEY_OF_ID[keyid] for keyid in edge.rule.keyids], edge.rule.threshold
                rules.setdefault(edge.role, []).append(rule)
                if edge.role not in waiting:
                    waiting.append(edge.role)
        return files

    def begin(self):
        """At times from the first root on; else with a shelf from elsewhere: files are missing, or good by no edge."""
        if self.chance(0.3):
            super().begin()
            return
        state = State()
        first = b""
        while not is_document("root", first):  # a rule may have a key and its wrapping
            rules = {role: self.new_rule() for role in ("root", "timestamp", "snapshot", "targets")}
            first = make.signed_file(make.root(1, self.now + 100000, rules), rules["root"][0])
        state.roots = [read_document("root", first)]
        state.blobs = {make.digest(blob): blob for blob in BLOBS if self.chance(0.9)}
        entries = {"targets": (1,)}
        for role, text in self.changed_files(state, 0.9).items():
            version = version_of("targets", text)
            if is_document("targets", text) and self.chance(0.9):
                state.shelf[role, version] = read_document("targets", text)
            if role == "targets" or self.chance(0.95):
                entries[role] = self.entry_of(text, version) if self.chance(0.8) else super().entry_of(text, version)
        snapshot = make.signed_file(make.snapshot(1, self.expiry(), entries), rules["snapshot"][0])
        timestamp = make.signed_file(make.timestamp(1, self.expiry(), 1), rules["timestamp"][0])
        state.snapshot = read_document("snapshot", snapshot)
        state.timestamp = read_document("timestamp", timestamp)
        self.world = self.new_world(self.world.session, state)

    def whole_release(self):
        """A timestamp, a snapshot and the new files, mostly in the order in which one vouches for the next."""
        random = self.random
        state = self.world.state
        offered = []
        if state.roots and self.chance(0.08):
            offered.append(("root", self.make_root()))
            state = self.after_root(state, offered[0][1])
        files = self.changed_files(state, 0.35)
        held = state.snapshot.roles if state.snapshot else {}
        entries = {role: (entry.version, entry.length, entry.digest) for role, entry in held.items()}
        entries.update((role, self.entry_of(text, version_of("targets", text))) for role, text in files.items())
        if self.chance(0.03):
            entries.pop(random.choice(list(entries or "a")), None)
        version = (state.snapshot.version if state.snapshot else 0) + 1
        signed = make.snapshot(version, self.expiry(), {"targets": (1,), **entries})
        snapshot = self.finish(signed, self.signers(self.held_rule(state, "snapshot")))
        timestamp = self.make_timestamp(state, snapshot, version_of("snapshot", snapshot))
        offered += [("timestamp", timestamp), ("snapshot", snapshot)]
        later = list(files.items())
        if self.chance(0.1):
            random.shuffle(later)
        if later and self.chance(0.05):
            later.pop(random.randrange(len(later)))
        return self.remembered(offered + later)

    def one_file(self):
        """A file for a role at the version that the snapshot names: held, missing, or another than the held one."""
        state = self.world.state
        role = self.random.choice([*state.snapshot.roles, *ROLES])
        entry = state.snapshot.roles.get(role)
        edges = delegations.whole_graph(state)
        into_role = [edge.rule for other in state.snapshot.roles for _, edge in edges.edges(other) if edge.role == role]
        rules = [([KEY_OF_ID[keyid] for keyid in rule.keyids], rule.threshold) for rule in into_role]
        rule = self.random.choice(rules or [self.held_rule(state, "targets")])
        held = delegations.named_document(state, role)
        if held and self.chance(0.2):
            return [(role, held.bytes)]
        return [(role, self.make_role(role, entry.version if entry else 1, rule))]

    def documents(self):
        if self.world.state.snapshot and self.chance(0.35):
            return self.one_file()
        return super().documents()

    def request(self):
        if self.chance(0.4):
            return http_requests.get("/targets/" + self.random.choice(PATHS))
        return super().request()


def compare_histories(session, random, count):
    for _ in range(count):
        DelegationHistory(session, random.getrandbits(64)).run()
