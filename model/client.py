"""A client: what it asks a source for, what it keeps of the answers, and how its calls end (TUF 1.0, section 5).

A source is a function from a name to bytes, or to None where it has no such file; it may raise a `SourceFault`.
"""
import repository
from denials import Denied
from documents import MAXIMUM_LENGTH
from names import LARGEST_NUMBER

MOST_NEW_ROOTS = 64
MOST_NAMES = 194


class SourceFault(Exception):
    """An answer over its limit (`too long`), none that can be read (`broken`), or no memory for it (`refused`)."""


def consistent_name(path, digest):
    """The path with the digest before its last segment (section 6.2)."""
    folder, slash, last = path.rpartition("/")
    return f"{folder}{slash}{digest}.{last}"


class Client:
    def __init__(self, state, source):
        self.state = state
        self.source = source
        # Each name that was asked for, with its limit and the answer: bytes, None, or the word of a fault.
        self.asked = []

    def fetch(self, name, limit):
        try:
            answer = self.source(name)
        except SourceFault as fault:
            self.asked.append((name, limit, str(fault)))
            raise
        self.asked.append((name, limit, answer))
        if answer is not None and len(answer) > limit:
            raise SourceFault("too long")
        return answer

    def keep(self, after):
        if after is not repository.SAME:
            self.state = after

    def take(self, name, role, now):
        """Fetches and offers a file of metadata: whether there was one."""
        text = self.fetch("metadata/" + name, MAXIMUM_LENGTH)
        if text is None:
            return False
        self.keep(repository.offer(self.state, role, text, now))
        return True

    def take_blob(self, path, digest, length, now):
        limit = min(length, repository.MAXIMUM_BLOB_LENGTH)
        text = self.fetch("targets/" + consistent_name(path, digest), limit)
        if text is None:
            return False
        self.keep(repository.put_blob(self.state, digest, text))
        return True

    def take_roots(self, now):
        """Section 5.3: one after another, so many at most in one update."""
        for _ in range(MOST_NEW_ROOTS):
            if not self.state.roots:
                raise Denied("NoRoot")
            version = self.state.roots[-1].version
            if version == LARGEST_NUMBER or not self.take(f"{version + 1}.root.json", "root", now):
                return

    def update(self, now):
        """Sections 5.3 to 5.5. A source without a timestamp, or without the snapshot, ends it."""
        self.take_roots(now)
        if not self.take("timestamp.json", "timestamp", now):
            return
        named = self.state.timestamp.snapshot
        if not (self.state.snapshot and named.names(self.state.snapshot)):
            self.take(f"{named.version}.snapshot.json", "snapshot", now)

    def take_missing(self, denied, now):
        """Fetches what a denial says is missing: whether the source had it."""
        if denied.name == "RoleMissing":
            role, version = denied.missing
            return self.take(f"{version}.{role}.json", role, now)
        return self.take_blob(*denied.missing, now)

    def fetch_target(self, path, now):
        """Sections 5.6 and 5.7: asks the client's own state, and for each file that is missing, once, the source."""
        fetched = []
        while True:
            try:
                return repository.target_at(self.state, path, None, now)
            except Denied as denied:
                if not denied.missing or denied.missing in fetched or len(fetched) == MOST_NAMES:
                    raise
                if not self.take_missing(denied, now):
                    raise
                fetched.append(denied.missing)


def worse(fault, more):
    """Of two faults the first denial, or where there is none, the first that says more than that there is no answer."""
    if isinstance(fault, Denied):
        return fault
    return more if isinstance(more, Denied) or str(fault) == "broken" else fault


class Several:
    """A client over several sources, each asked in its turn into one state. Want of memory ends all of them."""

    # What they were asked for is not kept.
    asked = ()

    def __init__(self, state, sources):
        self.client = Client(state, None)
        self.sources = sources

    @property
    def state(self):
        return self.client.state

    def by_each(self, call, is_last):
        """The end of the calls: the bytes of the first that has them, or None where one ended well, or the fault that is told."""
        is_well, fault = False, SourceFault("broken")
        for source in self.sources:
            self.client.source = source
            try:
                end = call()
            except (Denied, SourceFault) as refused:
                if str(refused) == "refused":
                    raise
                fault = worse(fault, refused)
                continue
            if is_last:
                return end
            is_well = True
        if not is_well:
            raise fault
        return None

    def update(self, now):
        return self.by_each(lambda: self.client.update(now), False)

    def fetch_target(self, path, now):
        return self.by_each(lambda: self.client.fetch_target(path, now), True)
