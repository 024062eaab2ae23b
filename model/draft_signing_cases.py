"""The command `sign --key` over small folders of drafts with flaws, one or two at a time, beside the model."""
import json
import os
import shutil
import sqlite3

import canonical_json
import chain_drafting
import draft_signing
import signed_documents as make
from document_parts import key_object
from leaf_book import Book
from signed_documents import BEGIN, date, digest
from signing_cases import kept
from test_keys import Key

NAMES = ("root-a", "root-b", "targets", "dev", "snapshot", "timestamp", "owner", "builder", "other")
KEYS = {name: Key(b"signer of drafts: " + name.encode(), 1, 5) for name in NAMES}
LATER = BEGIN + 10**6
RULES = {"root": ("root-a", "root-b"), "targets": ("targets",), "snapshot": ("snapshot",), "timestamp": ("timestamp",), "dev": ("dev",)}
OLD, NEW = b"a file that is held", b"a file that waits"


def keys_of(role):
    return [KEYS[name] for name in RULES[role]]


class Case:
    """A folder of drafts with the books of all keys, as the model has them; `write` puts them where the program finds them."""

    def __init__(self, random, places):
        self.random = random
        self.books = {name: Book(places / f"{name}.book") for name in NAMES}
        self.absent = set()
        for name, book in self.books.items():
            book.is_made, book.leaves = True, {KEYS[name].id: {}}
        self.versions = {role: random.randint(1, 3) for role in RULES}
        self.drafted = [role for role in RULES if random.random() < 0.6] or ["targets"]
        self.files = {}
        self.hold()
        if random.random() < 0.5:
            self.put_chain()
        for role in self.drafted:
            self.put(f"{role}.json", self.said(role, 1), RULES[role] if random.random() < 0.5 else ())
        for text in (NEW, *(text for name, text in self.files.items() if name.startswith("layouts/"))):
            self.files[f"files/{digest(text)}"] = text
        if random.random() < 0.2:
            self.put("links/pack.json", make.link("pack", {}, {"c": digest(OLD)}), random.choice(((), (), ("builder",))))

    def hold(self):
        for role in RULES:
            self.put(f"held/{role}.json", self.said(role, 0), RULES[role])

    def put_chain(self):
        """The layout of a target, signed or not, and the link of its one step."""
        layout = make.layout(LATER, [KEYS["builder"]], [make.step("build", [KEYS["builder"]], 1)])
        self.put("layouts/c.layout.json", layout, self.random.choice(((), ("owner",))))
        name = chain_drafting.link_path("c", "build", KEYS["builder"].id)
        self.put(f"layouts/{name}", make.link("build", {}, {"c": digest(NEW)}), ("builder",))

    def put(self, name, signed, signers=()):
        said = canonical_json.write(signed)
        entries = [make.signature_entry((KEYS[it].id, self.signature(it, said)), said) for it in signers]
        self.files[name] = canonical_json.write({"signatures": entries, "signed": signed})

    def signature(self, name, said):
        return self.signature_by(name, said).hex()

    def signature_by(self, name, said):
        return KEYS[name].sign_with(self.books[name].reserve(KEYS[name], said), said)

    def said(self, role, step):
        """The signed part of a role's document: what is held, or what is drafted after it."""
        version, step_of = self.versions[role] + step, {it: int(bool(step) and it in self.drafted) for it in RULES}
        if role == "root":
            return make.root(version, LATER, {it: (keys_of(it), len(RULES[it])) for it in ("root", "targets", "snapshot", "timestamp")})
        if role == "timestamp":
            return make.timestamp(version, LATER, self.versions["snapshot"] + step_of["snapshot"])
        if role == "snapshot":
            return make.snapshot(version, LATER, {it: (self.versions[it] + step_of[it],) for it in ("targets", "dev")})
        return self.said_of_targets(role, version, step)

    def said_of_targets(self, role, version, step):
        listed = {("a" if role == "targets" else "dev/a"): OLD}
        if step:
            listed["b" if role == "targets" else "dev/b"] = NEW
        delegating = make.delegations(keys_of("dev"), [make.delegation("dev", keys_of("dev"), 1, paths=["dev/*"])])
        signed = make.targets(version, LATER, said_of_files(listed), delegating if role == "targets" else None)
        if step and role == "targets":
            self.list_chain(signed["targets"])
        return signed

    def list_chain(self, listed):
        chain = {name.removeprefix("layouts/"): text for name, text in self.files.items() if name.startswith("layouts/")}
        if chain:
            links = [path for path in chain if not path.endswith(".layout.json")]
            listed.update(make.targets(1, LATER, said_of_files({"c": NEW, **chain}))["targets"])
            listed["c"]["custom"] = {"layout": make.layout_reference([KEYS["owner"]], 1, links, "c.layout.json", "c", "build")}

    def drafts(self):
        return [name for name in self.files if not name.startswith(("files/", "held/", "layouts/c.build"))]

    def edit(self, name, change):
        """A draft is changed by hand, and has no signatures then."""
        signed = json.loads(self.files[name])["signed"]
        change(signed)
        self.files[name] = canonical_json.write({"signatures": [], "signed": signed})

    def write(self, folder, template):
        shutil.rmtree(folder, ignore_errors=True)
        for name, text in self.files.items():
            place = folder / "d" / name
            os.makedirs(place.parent, exist_ok=True)
            place.write_bytes(text)
        for name in NAMES:
            write_key(folder, name)
            if name not in self.absent:
                write_book(self.books[name], KEYS[name], template)


def said_of_files(files):
    return {path: (len(text), digest(text)) for path, text in files.items()}


def write_key(folder, name):
    key = KEYS[name]
    os.makedirs(folder, exist_ok=True)
    (folder / f"{name}.seed").write_text((key.identifier + key.seed).hex() + "\n")
    os.chmod(folder / f"{name}.seed", 0o600)
    (folder / f"{name}.key").write_bytes(canonical_json.write(key_object(key.public.hex())) + b"\n")


def write_book(book, key, template):
    """A book as `key --new` makes it, with these leaves."""
    shutil.copyfile(template, book.path)
    os.chmod(book.path, 0o600)
    connection = sqlite3.connect(book.path)
    connection.execute("DELETE FROM signer")
    for keyid, leaves in book.leaves.items():
        connection.execute("INSERT INTO signer VALUES (?, ?, ?)", (keyid, key.width, key.height))
        rows = [(keyid, leaf, message) for message, leaf in leaves.items()]
        connection.executemany("INSERT INTO leaf VALUES (?, ?, ?)", rows)
    connection.commit()
    connection.close()


def any_draft(case, *names):
    """One of the drafts, mostly the one that is aimed at, or of those that have these names; None where there is none."""
    found = [name for name in case.drafts() if not names or name in names]
    if case.aim in found and case.random.random() < 0.8:
        return case.aim
    return case.random.choice(found) if found else None


def is_ill(case):
    """1 to 5."""
    name = any_draft(case)
    changes = (
        lambda signed: signed.update(x="x" * 262144),
        lambda signed: signed.update(_type="timestamp" if signed["_type"] == "snapshot" else "snapshot"),
        lambda signed: signed.update(expires="2031-02-29T00:00:00Z", products=5),
        lambda signed: signed.update(version=0, name=""),
        lambda signed: signed.update({key: 1 for key in ("roles", "targets", "meta", "steps", "materials") if key in signed}),
        change_an_id,
    )
    case.edit(name, case.random.choice(changes))


def change_an_id(signed):
    """A key stands under an id that is not its own."""
    table = signed.get("keys") or signed.get("delegations", {}).get("keys")
    if table:
        table["0" * 64] = table.popitem()[1]


def is_spelt_otherwise(case):
    name = any_draft(case)
    case.files[name] = case.files[name].replace(b',"signed"', b', "signed"')


def has_many_signatures(case):
    """Sixteen of others: one more is too many."""
    name = any_draft(case)
    envelope = json.loads(case.files[name])
    case.files[name] = canonical_json.write({**envelope, "signatures": make.empty_signatures(16)})


def book_is_not_there(case):
    case.absent.add(case.key)
    case.books[case.key].is_made = False


def book_is_of_another(case):
    book = case.books[case.key]
    book.leaves = {KEYS["other" if case.key != "other" else "dev"].id: {}}


def book_is_older(case):
    """What was signed last is not in it."""
    leaves = case.books[case.key].leaves.get(KEYS[case.key].id)
    if leaves:
        leaves.popitem()


def book_has_another_message(case):
    leaves = case.books[case.key].leaves.get(KEYS[case.key].id)
    if leaves:
        leaf = leaves.pop(case.random.choice(list(leaves)))
        leaves[canonical_json.write({"_type": "y", "n": leaf})] = leaf


def book_has_the_version(case):
    """The key has signed another document of the kind and version of a draft."""
    name = any_draft(case)
    signed = json.loads(case.files[name])["signed"]
    if KEYS[case.key].id in case.books[case.key].leaves:
        case.books[case.key].reserve(KEYS[case.key], canonical_json.write({**signed, "z": 1}))


def book_is_full(case):
    leaves = case.books[case.key].leaves.get(KEYS[case.key].id)
    for leaf in set(range(32)) - set(leaves.values()) if leaves is not None else ():
        leaves[canonical_json.write({"_type": "y", "n": leaf})] = leaf


def follows_otherwise(case):
    """Against what is held: a version that is forgotten or left out, a snapshot that forgets a role or has an older one."""
    name = any_draft(case, "root.json", "timestamp.json", "snapshot.json", "targets.json")
    if name is None:
        return
    held = case.versions[name.removesuffix(".json")]
    changes = [lambda signed: signed.update(version=case.random.choice((max(held - 1, 1), held, held + 2)))]
    if name == "timestamp.json":
        changes.append(lambda signed: signed["meta"]["snapshot.json"].update(version=max(case.versions["snapshot"] - 1, 1)))
    if name == "snapshot.json":
        changes.append(lambda signed: signed["meta"]["dev.json"].update(version=max(case.versions["dev"] - 1, 1)))
        changes.append(lambda signed: signed["meta"].pop("dev.json"))
    case.edit(name, case.random.choice(changes))


def expires_early(case):
    name = any_draft(case, "layouts/c.layout.json", *(f"{role}.json" for role in RULES))
    if name:
        case.edit(name, lambda signed: signed.update(expires=date(BEGIN + case.random.choice((-1, 0, 1)))))


def signature_is_spoilt(case):
    """A signature of another key does not verify."""
    name = any_draft(case)
    envelope = json.loads(case.files[name])
    for entry in envelope["signatures"]:
        if entry["keyid"] != KEYS[case.key].id:
            entry["sig"] = entry["sig"][:-2] + ("00" if entry["sig"][-2:] != "00" else "01")
    case.files[name] = canonical_json.write(envelope)


def has_an_entry_of_nobody(case):
    """An entry of the key that does not verify, in any document of the folder."""
    name = case.random.choice([name for name in case.files if not name.startswith("files/")])
    envelope = json.loads(case.files[name])
    envelope["signatures"] = [it for it in envelope["signatures"] if it["keyid"] != KEYS[case.key].id][:15]
    envelope["signatures"].append({"keyid": KEYS[case.key].id, "sig": case.random.choice(("", "00000007", "00000000" + "ab" * 100))})
    case.files[name] = canonical_json.write(envelope)


def signatures_were_taken_off(case):
    """A document that the key signed once, which is kept apart: by a leaf that the book has, or has not."""
    said = canonical_json.write({"_type": "x", "n": case.random.randrange(100)})
    leaves = case.books[case.key].leaves.get(KEYS[case.key].id)
    signature = KEYS[case.key].sign_with(case.random.choice((0, 1, 30)), said) if leaves is None else case.signature_by(case.key, said)
    text = canonical_json.write({"signatures": [{"keyid": KEYS[case.key].id, "sig": signature.hex()}], "signed": json.loads(said)})
    case.files[f"spent/{digest(text)}.json"] = text
    if leaves is not None and case.random.random() < 0.5:
        leaves.pop(said)


def file_is_otherwise(case):
    """A file that waits is not there, or has other bytes, or is longer."""
    name = case.random.choice([name for name in case.files if name.startswith("files/")])
    text = case.random.choice((None, b"A file that waits", NEW + b"."))
    case.files.pop(name)
    if text is not None:
        case.files[name] = text


def chain_is_signed_since(case):
    """A layout has a signature that it had not when it was listed, or has it no more."""
    name = "layouts/c.layout.json"
    if name in case.files:
        envelope = json.loads(case.files[name])
        signers = () if envelope["signatures"] else ("owner",)
        if case.key != "owner":
            case.put(name, envelope["signed"], signers)


FLAWS = (
    is_ill, is_spelt_otherwise, has_many_signatures, book_is_not_there, book_is_of_another, book_is_older, book_has_another_message, book_has_the_version,
    book_is_full, follows_otherwise, expires_early, signature_is_spoilt, file_is_otherwise, chain_is_signed_since,
    has_an_entry_of_nobody, signatures_were_taken_off,
)


def random_case(random, places):
    """A folder with flaws, and the words that sign it: at most times one draft is aimed at, by a key that it wants."""
    case = Case(random, places)
    case.aim = random.choice([name for name in case.drafts() if not draft_signing.entries_of(case.files[name])] or case.drafts())
    case.key = random.choice(signers_of(case.aim) if random.random() < 0.9 else NAMES)
    case.keys = [case.key] if random.random() < 0.8 else random.sample([case.key, random.choice([it for it in NAMES if it != case.key])], 2)
    flaws = random.sample(FLAWS, random.choice((0, 1, 1, 1, 2)))
    for flaw in flaws:
        flaw(case)
    named = random.choice(((), (), (case.aim,), (case.aim,), (random.choice(case.drafts()), case.aim)))
    case.named = [random.choice(name_forms(name)) for name in dict.fromkeys(named)]
    case.again = random.random() < 0.1
    return case, [flaw.__name__ for flaw in flaws]


def signers_of(name):
    """Those whose signatures a draft asks for. A link may be signed by any key."""
    if "/" in name:
        return ("owner",) if name.startswith("layouts/") else ("builder", "other", "dev")
    return RULES[name.removesuffix(".json")]


def name_forms(name):
    file = name.rpartition("/")[2]
    return (file,) if "/" in name else (file, file.removesuffix(".json"))


def compare_signing(session, random, count):
    """What is signed, and what each flaw is refused for: the end, the folder's bytes and the rows of the books."""
    folder = session.folder / "signers"
    session.run("key", "--new", str(session.folder / "template"), "--ots", "1", "--height", "5")
    for _ in range(count):
        case, flaws = random_case(random, folder)
        case.write(folder, session.folder / "template.book")
        compare_case(session, folder, case, " and ".join(flaws) or "no flaw")


def compare_case(session, folder, case, flaws):
    words = [word for name in case.keys for word in ("--key", str(folder / name))]
    words += ["--in", str(folder / "d"), *case.named, "--yes", *(["--again"] if case.again else [])]
    signers = [(KEYS[name], case.books[name]) for name in case.keys]
    wanted = draft_signing.sign(case.files, signers, case.named, case.again, BEGIN)
    status, printed, told = session.run("sign", "--at", str(BEGIN), *words)
    last = told.decode().splitlines()[-1:] if status else [None]
    request = f"{flaws}: {' '.join(words)}"
    session.check(f"sign --key, {flaws}: its end", (*wanted[:2], [wanted[2]]), (status, printed.decode().splitlines(), last), request)
    there = {str(place.relative_to(folder / "d")): place.read_bytes() for place in (folder / "d").rglob("*") if place.is_file()}
    changed = sorted(name for name in case.files.keys() | there.keys() if case.files.get(name) != there.get(name))
    session.check(f"sign --key, {flaws}: the folder", [], changed, request)
    for name in NAMES:
        rows = case.books[name].rows() if name not in case.absent else None
        session.check(f"sign --key, {flaws}: rows of a book", rows, kept(folder / f"{name}.book") if (folder / f"{name}.book").exists() else None, request)
