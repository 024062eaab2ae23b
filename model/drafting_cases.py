"""The command `draft` over folders: roots, targets metadata and seals, one draft after the other, beside the model."""
import json
import os
import shutil

import canonical_json
import drafting
from signed_documents import BEGIN, date, digest, root, signature_entry
from test_keys import LMS_KEYS as KEYS

PATHS = ("a", "b.txt", "dir/c", "dir/deep/d", "e-1_2", "f.tar.gz")
TERMS = (None, None, "90d", "12h", "1d", "0d", BEGIN + 123456789)


def name_of(key):
    return f"key{KEYS.index(key)}"


CALLED = {key.id: name_of(key) for key in KEYS}


class Folder:
    """A folder of drafts that is empty but for what is held."""

    def __init__(self, session):
        self.session = session
        self.path = session.folder / "drafts"
        shutil.rmtree(self.path, ignore_errors=True)
        os.makedirs(self.path / "held")
        self.held = {}
        self.begun = {}
        self.signed = set()
        for key in KEYS:
            (session.folder / f"{name_of(key)}.key").write_bytes(canonical_json.write(drafting.key_object(key.public.hex())) + b"\n")

    def hold(self, kind, signed):
        self.held[kind] = signed
        (self.path / "held" / f"{kind}.json").write_bytes(drafting.file_of(signed))

    def draft(self, label, kinds, wanted, words, now):
        """Runs `draft`, and compares its end and the documents that it leaves. `wanted` has the documents, or the word of what refuses."""
        stood = {kind: self.read(kind) for kind in kinds}
        ended = self.session.run("draft", "--at", str(now), "--in", str(self.path), *words)
        found = {kind: self.read(kind) for kind in kinds}
        if isinstance(wanted, str):
            said = ended[2].decode().splitlines()[-1:]
            end = (2, said) if wanted == "usage" else (1, [wanted if wanted.startswith("denied") else f"refused {wanted}"])
            return self.session.check(f"{label}: refused", (*end, stood), (ended[0], said, found), " ".join(words))
        self.signed -= set(kinds)
        files = {kind: drafting.file_of(wanted[kind]) if wanted.get(kind) else None for kind in kinds}
        self.begun.update({kind: wanted[kind] for kind in kinds if wanted.get(kind)})
        return self.session.check(f"{label}: drafts", (0, files), (ended[0], found), " ".join(words))

    def draft_some(self, label, kinds, wanted, words, now):
        """The same where `wanted` has the documents that are drafted, and the others stay as they are."""
        if isinstance(wanted, str):
            return self.draft(label, kinds, wanted, words, now)
        stood = {kind: self.read(kind) for kind in kinds}
        ended = self.session.run("draft", "--at", str(now), "--in", str(self.path), *words)
        found = {kind: self.read(kind) for kind in kinds}
        self.signed -= set(wanted)
        self.begun.update(wanted)
        files = {**stood, **{kind: drafting.file_of(signed) for kind, signed in wanted.items()}}
        return self.session.check(f"{label}: drafts", (0, files), (ended[0], found), " ".join(words))

    def begin(self, kind, signed):
        self.begun[kind] = signed
        (self.path / f"{kind}.json").write_bytes(drafting.file_of(signed))

    def read(self, kind):
        place = self.path / f"{kind}.json"
        return place.read_bytes() if place.exists() else None

    def sign(self, kind, key):
        """The draft has a signature, as of another machine."""
        signed = self.begun[kind]
        entries = [signature_entry(key, canonical_json.write(signed))]
        (self.path / f"{kind}.json").write_bytes(canonical_json.write({"signatures": entries, "signed": signed}))
        self.signed.add(kind)

    def signed_between(self, random, kind, wanted, words):
        """At times the draft is signed before it is drafted again: then that is refused, but for `--anew`."""
        if kind in self.begun and kind not in self.signed and random.random() < 0.3:
            self.sign(kind, random.choice(KEYS[:6]))
        if kind not in self.signed:
            return wanted, words
        if isinstance(wanted, str) or random.random() < 0.5:
            return wanted, ["--anew", *words]
        return "signed", words

    def publish(self, kind):
        """What was drafted is held."""
        self.signed.discard(kind)
        self.hold(kind, self.begun.pop(kind))
        os.remove(self.path / f"{kind}.json")


def term_words(given):
    if given is None:
        return []
    return ["--expires", date(given) if isinstance(given, int) else given]


def random_rules(random, roles):
    for role in roles:
        keys = random.sample(KEYS[:6], random.randint(1, 3))
        yield role, keys, random.randint(1, len(keys))


def rule_words(folder, rules):
    for role, keys, threshold in rules:
        listed = ",".join(f"{folder}/{name_of(key)}.key" for key in keys)
        yield f"{role}={threshold}@{listed}"


def answered(make):
    try:
        return make()
    except (drafting.Refused, drafting.Denied) as refused:
        return str(refused)


def compare_roots(session, random, count):
    """Roots one after the other: rules by role, renewals, and drafts that are gone on from."""
    for _ in range(count):
        folder = Folder(session)
        for step in range(random.randint(1, 6)):
            now = BEGIN + step * 1000
            held, begun = folder.held.get("root"), folder.begun.get("root")
            roles = drafting.TOP_ROLES if not (held or begun) and random.random() < 0.8 else random.sample(drafting.TOP_ROLES, random.randint(0, 4))
            rules, given = list(random_rules(random, roles)), random.choice(TERMS)
            wanted = answered(lambda: {"root": drafting.next_root(held, begun, rules, CALLED, given, now)})
            words = ["root", *rule_words(session.folder, rules), *term_words(given)]
            folder.draft("root", ["root"], *folder.signed_between(random, "root", wanted, words), now)
            if folder.begun.get("root") and random.random() < 0.5:
                folder.publish("root")


def compare_targets(session, random, count):
    """Targets metadata one after the other: files that are added, changed and taken away, of `targets` and of another role."""
    for _ in range(count):
        folder = Folder(session)
        role = random.choice(("targets", "targets", "dev"))
        for step in range(random.randint(1, 6)):
            now = BEGIN + step * 1000
            held, begun = folder.held.get(role), folder.begun.get(role)
            if step == 0 and random.random() < 0.3:
                further = {"_type": "targets", "spec_version": "1.0.0", "version": random.choice((1, 7, 4294967294, 4294967295)), "expires": date(now + 9)}
                folder.hold(role, {**further, "targets": {"a": {"length": 0, "hashes": {"sha256": digest(b"")}, "custom": {"x": [1, None]}}}, "z": "kept"})
                held = folder.held[role]
            listed = list((begun or held or {"targets": {}})["targets"])
            removed = random.sample(listed, random.randint(0, len(listed))) if random.random() < 0.5 else []
            if random.random() < 0.1:
                removed = removed + ["none"]
            added = [file_said(session, random, path) for path in random.sample(PATHS, random.randint(0, 3))]
            given = random.choice(TERMS)
            wanted = answered(lambda: {role: drafting.next_targets(held, begun, [it[:3] for it in added], removed, given, now)})
            words = ["targets", *([] if role == "targets" else ["--role", role]), *term_words(given)]
            words += [word for path, _, _, place in added for word in ("--add", f"{path}={place}")]
            words += [word for path in removed for word in ("--remove", path)]
            folder.draft("targets", [role], *folder.signed_between(random, role, wanted, words), now)
            if folder.begun.get(role) and random.random() < 0.5:
                folder.publish(role)


COVERS = (["dir/*"], ["*"], ["*/*", "e-?_2"], ["dir/deep/d"], ["none"], ["00", "0f"], ["x"] * 65, ["/"], ["a#b"], ["é"])
PREFIXES = (["0", "1", "2"], ["00"], ["a", "b", "c", "d", "e", "f"], ["3", "45", "678"], ["0F"], [""], ["7" * 64], ["7" * 65], ["0", "#1"], ["app/*"])


def random_delegations(random, session):
    """Delegations to roles by patterns, by prefixes and in bins, as they are said and as words."""
    said, words = [], []
    terminating = random.random() < 0.3
    before = random.choice((None, None, "dev", "bin-0", "nobody", "one"))
    ill = random.random() < 0.2
    for name in random.sample(("dev", "one", "two", "bin-0", "a" * 32, *(("Bad", "b" * 33, "targets") if ill else ())), random.randint(0, 3)):
        keys = random.sample(KEYS[:6], random.randint(1, 2))
        by_prefixes = random.random() < 0.5
        covers = random.choice(PREFIXES[:4] if by_prefixes else COVERS[:6])
        if ill:
            covers = random.choice(PREFIXES if by_prefixes else COVERS)
        said.append(drafting.Delegation(name, keys, 1, covers, by_prefixes, terminating, before))
        words += ["--delegate", f"{next(rule_words(session.folder, [(name, keys, 1)]))}:{'#' if by_prefixes else ''}{','.join(covers)}"]
    for name in random.sample(("bin", "dev", *(("a" * 30, "_") if ill else ())), random.choice((0, 0, 1, 1, 2))):
        keys = random.sample(KEYS[:6], random.randint(1, 2))
        count = random.choice((2, 2, 4, 4, 8, 16, 32, 64))
        said += [drafting.Delegation(role, keys, 1, prefixes, True, terminating, before) for role, prefixes in drafting.bins(name, count)]
        words += ["--bins", f"{next(rule_words(session.folder, [(name, keys, 1)]))}:{count}"]
    words += ["--terminating"] if terminating else []
    words += ["--before", before] if before else []
    return said, words


def compare_delegations(session, random, count):
    """Delegations of `targets` and of another role, one call after the other: by patterns, by prefixes of digests and in bins."""
    for _ in range(count):
        folder = Folder(session)
        role = random.choice(("targets", "dev"))
        for step in range(random.randint(1, 4)):
            now = BEGIN + step * 1000
            held, begun = folder.held.get(role), folder.begun.get(role)
            delegated, words = random_delegations(random, session)
            wanted = answered(lambda: {role: drafting.delegated_further(drafting.next_targets(held, begun, [], [], None, now), delegated, CALLED)})
            words = ["targets", *([] if role == "targets" else ["--role", role]), *words]
            folder.draft("delegations", [role], *folder.signed_between(random, role, wanted, words), now)
            if folder.begun.get(role) and random.random() < 0.5:
                folder.publish(role)


ROLES = ("targets", "dev", "one", "two", "bin-0", "bin-1", "bin-2", "bin-3")


def random_index(random, folder, now):
    """Targets metadata, of which some are held and some are drafts, that delegate to one another: in circles, to what is not there, and in bins."""
    for role in ROLES:
        if role != "targets" and random.random() < 0.4:
            continue
        keys = KEYS[:1]
        delegated = [
            drafting.Delegation(name, keys, 1, *random.choice(SCOPES), random.random() < 0.2)
            for name in random.sample(ROLES[1:], random.randint(0, 3))
        ]
        if random.random() < (0.6 if role == "targets" else 0.1):
            delegated += [drafting.Delegation(name, keys, 1, prefixes, True, random.random() < 0.2) for name, prefixes in drafting.bins("bin", 4)]
        listed = [(path, 1, digest(b"x")) for path in PATHS if random.random() < 0.15]
        signed = drafting.delegated_further(drafting.next_targets(None, None, listed, [], None, now), delegated, CALLED)
        if random.random() < 0.6:
            folder.hold(role, signed)
        else:
            folder.begin(role, signed)


SCOPES = [(covers, False) for covers in COVERS[:5]] + [(prefixes, True) for prefixes in PREFIXES[:4]]


def compare_spreads(session, random, count):
    """Targets that go into the role that covers them, over an index at random: which roles are drafted, and what each then has."""
    for _ in range(count):
        folder = Folder(session)
        random_index(random, folder, BEGIN)
        for step in range(random.randint(1, 4)):
            now = BEGIN + 1 + step * 1000
            for role in list(folder.begun):
                if role not in folder.signed and random.random() < 0.1:
                    folder.sign(role, KEYS[0])
            added = [file_said(session, random, path) for path in random.sample(PATHS, random.randint(0, 4))]
            removed = random.sample((*PATHS, "none", "../x"), random.choice((0, 0, 1, 3)))
            removed += removed[:1] if random.random() < 0.2 else []
            given, anew = random.choice(TERMS), random.random() < 0.4
            wanted = answered(
                lambda: drafting.spread(folder.held, folder.begun, folder.signed, [it[:3] for it in added], removed, given, now, anew)
            )
            words = [*(["--anew"] if anew else []), "targets", "--spread", *term_words(given)]
            words += [word for path, _, _, place in added for word in ("--add", f"{path}={place}")]
            words += [word for path in removed for word in ("--remove", path)]
            if not folder.draft_some("spread", ROLES, wanted, words, now):
                break
            for role in list(folder.begun):
                if random.random() < 0.3:
                    folder.publish(role)


def compare_long(session, random, count):
    """Targets metadata that are near their limit with the signatures of a rule of several keys, at it, and one byte over it."""
    for _ in range(count):
        folder = Folder(session)
        keys = random.sample(KEYS[:8], random.randint(1, 4))
        threshold = random.randint(1, len(keys))
        folder.hold("root", root(1, BEGIN + 10**7, {role: (keys, threshold) for role in drafting.TOP_ROLES}))
        held = {"_type": "targets", "spec_version": "1.0.0", "version": 1, "expires": date(BEGIN), "targets": {}, "z": ""}
        most = random.choice((196607, 196608, 200000, drafting.MOST_BYTES - 1, drafting.MOST_BYTES, drafting.MOST_BYTES + 1))
        held["z"] = "z" * (most - drafting.signed_length(drafting.next_targets(held, None, [], [], None, BEGIN), keys, threshold))
        folder.hold("targets", held)
        wanted = drafting.next_targets(held, None, [], [], None, BEGIN)
        is_refused, told = drafting.room_for(wanted, keys, threshold)
        status, _, found = session.run("draft", "--at", str(BEGIN), "--in", str(folder.path), "targets")
        end = (1, None, [*told, "refused long"]) if is_refused else (0, drafting.file_of(wanted), told)
        session.check(f"long drafts: {most} bytes", end, (status, folder.read("targets"), found.decode().splitlines()), f"{threshold} of {len(keys)} keys")


def file_said(session, random, path):
    text = random.choice((b"", b"x", b"some text\n", bytes(range(256)) * random.randint(1, 4)))
    place = session.folder / f"file {len(text)}"
    place.write_bytes(text)
    return path, len(text), digest(text), place


def compare_seals(session, random, count):
    """Seals over what is held: the timestamp, and the snapshot where it is due. Where none is held, nothing is listed."""
    for _ in range(count):
        folder = Folder(session)
        now = BEGIN
        if random.random() < 0.8:
            expires = date(now + random.choice((0, 1, 86399, 86400, 86401, 10**6)))
            meta = {"targets.json": {"version": random.randint(1, 9)}, "dev.json": {"version": 2}}
            said = {"_type": "snapshot", "spec_version": "1.0.31", "version": random.randint(1, 99), "expires": expires}
            folder.hold("snapshot", {**said, "meta": meta, "more": {}})
        if random.random() < 0.8:
            meta = {"snapshot.json": {"version": 1, "length": 5}}
            said = {"_type": "timestamp", "spec_version": "1.0.31", "version": random.randint(1, 99), "expires": date(now)}
            folder.hold("timestamp", {**said, "meta": meta, "term": random.choice((5, 86400, 0, 2**40))})
        given = random.choice(TERMS)
        kinds = ["snapshot", "timestamp"]
        wanted = answered(lambda: dict(zip(kinds, drafting.sealed(*map(folder.held.get, kinds), [], given, now))))
        folder.draft("seal", kinds, wanted, ["seal", *term_words(given)], now)
