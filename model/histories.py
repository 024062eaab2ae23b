"""Random histories: requests and command lines at several moments, from an empty database on."""
import http_requests
import http_server
import repository
import signed_documents as make
from denials import Denied
from documents import is_document, read_document
from offers import BLOBS, PATHS, ROLES, Offers
from test_keys import KEYS

GROUPS, REQUESTS = 7, 25


class History(Offers):
    def __init__(self, session, seed):
        super().__init__(session, seed)
        # What was offered before, by role.
        self.past = {}

    def after_root(self, state, text):
        """The state after a root, where it is taken."""
        try:
            after = repository.offer(state, "root", text, self.now)
        except Denied:
            return state
        return state if after is repository.SAME else after

    def whole_release(self):
        """A timestamp, a snapshot and targets that fit, at times after a root; at times in disorder."""
        random = self.random
        state = self.world.state
        offered = []
        if state.roots and self.chance(0.12):
            offered.append(("root", self.make_root()))
            state = self.after_root(state, offered[0][1])
        held = None
        if state.snapshot and self.chance(0.25):
            held = state.shelf.get(("targets", state.snapshot.roles["targets"].version))
        targets = held.bytes if held else self.make_targets(state)
        snapshot = self.make_snapshot(state, targets, version_of("targets", targets))
        timestamp = self.make_timestamp(state, snapshot, version_of("snapshot", snapshot))
        offered += [("timestamp", timestamp), ("snapshot", snapshot), ("targets", targets)]
        kind = random.random()
        if kind < 0.06:
            random.shuffle(offered)
        elif kind < 0.11:
            offered.pop(random.randrange(len(offered)))
        elif kind < 0.14:
            offered.insert(random.randrange(len(offered) + 1), random.choice(offered))
        elif kind < 0.17:
            offered += offered
        elif kind < 0.19:
            offered.append((random.choice(("a", *ROLES)), random.choice(offered)[1]))
        return self.remembered(offered)

    def remembered(self, offered):
        for role, text in offered:
            self.past[role] = [*self.past.get(role, []), text][-30:]
        return offered

    def roots(self):
        """A new root, at times with the next one after it."""
        first = self.make_root()
        offered = [("root", first)]
        after = self.after_root(self.world.state, first)
        if after is not self.world.state and self.chance(0.2):
            offered.append(("root", self.make_root(after)))
        return self.remembered(offered)

    def past_documents(self):
        offered = []
        for _ in range(self.random.choice((1, 1, 2, 3))):
            role = self.random.choice(list(self.past))
            text = self.random.choice(self.past[role])
            if self.chance(0.08):
                role = self.random.choice(("root", "targets", "zeta", "snapshot"))
            offered.append((role, text))
        return offered

    def changed_document(self):
        role = self.random.choice(list(self.past))
        text = bytearray(self.random.choice(self.past[role]))
        place = self.random.randrange(len(text))
        text[place] = self.random.choice((text[place] ^ 1, 32, 48))
        return [(role, bytes(text))]

    def held_documents(self):
        state = self.world.state
        held = [("root", root) for root in state.roots[-1:]]
        held += [("timestamp", state.timestamp), ("snapshot", state.snapshot)]
        held += [(role, targets) for (role, _), targets in list(state.shelf.items())[-2:]]
        return [(role, document.bytes) for role, document in held if document] or [("timestamp", b"")]

    def documents(self):
        """What is offered together."""
        state = self.world.state
        kind = self.random.random()
        if not state.roots and kind < 0.5:
            return self.held_documents()
        if kind < 0.62:
            return self.whole_release()
        if kind < 0.7:
            return self.roots()
        if kind < 0.8 and state.snapshot:
            return [("timestamp", self.make_timestamp(state, state.snapshot.bytes, state.snapshot.version))]
        if kind < 0.9 and self.past:
            return self.past_documents()
        if kind < 0.94 and self.past:
            return self.changed_document()
        return self.held_documents()

    def target_path(self):
        path = self.random.choice([*PATHS, "nope", "../a", ""]) if self.chance(0.9) else self.random.choice(PATHS) + "/"
        if self.chance(0.3):
            folder, slash, last = path.rpartition("/")
            path = f"{folder}{slash}{make.digest(self.random.choice(BLOBS))}.{last}"
        return path

    def metadata_name(self):
        state = self.world.state
        versions = [1, 2, 3, *(root.version for root in state.roots[-3:]), *(version for _, version in state.shelf)]
        if state.snapshot:
            versions.append(state.snapshot.version)
        version = self.random.choice(versions)
        names = ("timestamp.json", "%d.root.json", "%d.snapshot.json", "%d.targets.json", "%d.a.json", "0%d.root.json")
        name = self.random.choice(names)
        return name % version if "%" in name else name

    def request(self):
        random = self.random
        kind = random.random()
        if kind < 0.45:
            request = http_requests.post(*self.documents())
        elif kind < 0.6:
            blob = random.choice(BLOBS) if self.chance(0.9) else random.randbytes(random.randint(0, 50))
            request = http_requests.put(blob, None if self.chance(0.9) else make.digest(random.choice(BLOBS)))
        elif kind < 0.615:
            request = http_requests.prune()
        elif kind < 0.8:
            request = http_requests.get("/targets/" + self.target_path())
        else:
            request = http_requests.get("/metadata/" + self.metadata_name())
        if self.chance(0.2):
            return http_requests.dressed(random, request)
        return http_requests.mutated(random, request) if self.chance(0.03) else request

    def begin(self):
        for _ in range(4):
            if self.chance(0.25):
                self.world.command("put", self.now, b"abc")
            if self.chance(0.2):
                self.world.serve(self.now, [("history", self.request()) for _ in range(4)])
            self.world.command("init", self.now, self.make_root())
            if self.world.state.roots:
                return
        rules = {role: ([key], 1) for role, key in zip(ROLES, KEYS)}
        self.world.command("init", self.now, make.signed_file(make.root(1, self.now + 5000, rules), KEYS[0:1]))

    def go_on(self):
        """To a later moment, to the very second of some expiry, or to any moment."""
        state = self.world.state
        kind = self.random.random()
        if kind < 0.6:
            self.now += self.random.choice((0, 1, 10, 500, 1000, 1000, 3000))
        elif kind < 0.8:
            held = [*state.roots[-1:], state.timestamp, state.snapshot, *list(state.shelf.values())[-3:]]
            expiries = [document.expires for document in held if document]
            moment = self.random.choice(expiries) + self.random.choice((-1, 0))
            self.now = min(max(0, moment), make.LAST_MOMENT)
        elif kind < 0.9:
            self.now = self.any_moment()
        if self.now > make.BEGIN + 60000:
            self.now = make.BEGIN + self.random.randrange(9000)

    def requests(self):
        """Requests look at the model's state, so it goes on while they are made, and is then put back."""
        before = self.world.state
        requests = []
        for _ in range(REQUESTS):
            request = self.request()
            requests.append(("history", request))
            _, self.world.state = http_server.response(self.world.state, request, self.now)
        self.world.state = before
        return requests

    def go_by_command_line(self):
        """At times a publish, a put, an init or a prune between two servers."""
        as_wanted = True
        if self.chance(0.5):
            offered = [(role, text if self.chance(0.99) else None) for role, text in self.documents()]
            as_wanted &= self.world.publish(self.now, offered)
        if self.chance(0.2):
            as_wanted &= self.world.command("put", self.now, self.random.choice(BLOBS))
        if self.chance(0.05):
            as_wanted &= self.world.command("init", self.now, self.make_root())
        if self.chance(0.1):
            as_wanted &= self.world.prune(self.now)
        return as_wanted

    def run(self):
        """Ends where an answer or a table differs: from there on all would."""
        self.begin()
        for _ in range(GROUPS):
            self.go_on()
            if not self.world.serve(self.now, self.requests()) or not self.go_by_command_line():
                return


def version_of(kind, text):
    return read_document(kind, text).version if is_document(kind, text) else 1


def compare_histories(session, random, count):
    for _ in range(count):
        History(session, random.getrandbits(64)).run()
