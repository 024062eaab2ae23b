"""Random histories in which targets refer to layouts, whose links are of several steps."""
import http_requests
import signed_documents as make
from delegation_histories import DelegationHistory
from offers import BLOBS, PATHS
from program import World
from scenes import LIVE, NOW, signed_document, simple_state
from supply_chains import Chain
from test_keys import KEYS


class LayoutHistory(DelegationHistory):
    """Some roles list a target with its layout and links, which are then uploaded."""

    def __init__(self, session, seed):
        super().__init__(session, seed)
        # The layouts and links that were listed, and the paths of the targets that refer to them.
        self.parts = []
        self.referring = []

    def refer(self, role, listed):
        """Mostly one target of a role refers to a layout."""
        path, blob = self.random.choice(PATHS), self.random.choice(BLOBS[:4])
        chain = Chain(self.random, self.keys, blob, self.now)
        said, reference, files = chain.listed(role)
        listed[path] = {**make.listing(len(blob), make.digest(blob)), "custom": {"layout": reference}}
        for other, listing in said.items():
            listed.setdefault(other, listing)
        self.parts = [*self.parts, blob, *files][-60:]
        self.referring = [*self.referring, path][-6:]

    def make_role(self, role, version, rule):
        targets = make.targets(version, self.expiry(), self.make_listings(), self.delegating(role))
        if self.chance(0.6):
            self.refer(role, targets["targets"])
        return self.finish(targets, self.signers(rule))

    def missing_parts(self):
        return [part for part in self.parts if make.digest(part) not in self.world.state.blobs]

    def request(self):
        kind = self.random.random()
        missing = self.missing_parts()
        if missing and kind < 0.35:
            return http_requests.put(self.random.choice(missing))
        if self.referring and kind < 0.65:
            return http_requests.get("/targets/" + self.random.choice(self.referring))
        return super().request()


def compare_histories(session, random, count):
    for _ in range(count):
        LayoutHistory(session, random.getrandbits(64)).run()


def chain_state(random):
    """A server whose targets list a chain of steps with its product, all of it held; and the path of the product."""
    blob = random.choice(BLOBS[:4])
    chain = Chain(random, random.sample(KEYS[:26], random.choice((3, 5, 8))), blob, NOW)  # of distinct top keys
    said, reference, files = chain.listed("targets")
    path = random.choice(PATHS)
    listed = {**said, path: {**make.listing(len(blob), make.digest(blob)), "custom": {"layout": reference}}}
    state = simple_state()
    targets = make.targets(1, LIVE, {})
    targets["targets"] = listed
    state.shelf["targets", 1] = signed_document("targets", targets, KEYS[:1])
    state.snapshot = signed_document("snapshot", make.snapshot(1, LIVE, {"targets": (1,)}), KEYS[:1])
    state.timestamp = signed_document("timestamp", make.timestamp(1, LIVE, 1), KEYS[:1])
    state.blobs = {make.digest(part): part for part in [blob, *files]}
    return state, path, chain


def compare_chains(session, random, count):
    """A target with a random chain of steps, and the same target by another digest."""
    for _ in range(count):
        state, path, chain = chain_state(random)
        label = f"chain with faults {sorted(chain.faults)}"
        folder, slash, last = path.rpartition("/")
        paths = [path, f"{folder}{slash}{make.digest(b'another')}.{last}"]
        World(session, state).serve(NOW, [(label, http_requests.get(f"/targets/{one}")) for one in paths])
