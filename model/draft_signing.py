"""Drafts that keys of three files sign: what `sign --key` looks at before a leaf is spent, as a function of a folder of drafts, of books and of a moment.

A folder is what stands under its names: `ROLE.json`, `layouts/NAME`, `links/STEP.json`, `files/DIGEST`, `held/ROLE.json` and `spent/DIGEST.json`, each
with its bytes.
"""
import canonical_json
import chain_drafting
from denials import Denied, deny_unless
from documents import is_live, meets, read_document, read_envelope, verifies
from drafting import Refused
from leaf_book import with_entry
from signed_documents import digest

ORDER = {"root": 0, "snapshot": 4, "timestamp": 5}
OF_CHAINS = 1
OF_TARGETS = 2


class Spent(Exception):
    """All leaves of the key are spent."""


class Draft:
    """A document of the folder: its name there, its place in the order of signing, its kind, and what it is called where it is signed."""

    def __init__(self, name):
        self.name = name
        self.folder, _, self.file = name.rpartition("/")
        self.role = self.file.removesuffix(".json")
        if self.folder:
            self.order, self.told = OF_CHAINS, name
            self.kind = "layout" if self.file.endswith(".layout.json") else "link"
        else:
            # the top-level targets metadata come before those of delegated roles
            self.order, self.told = ORDER.get(self.role, OF_TARGETS + (self.role != "targets")), self.role
            self.kind = self.role if self.role in ORDER else "targets"

    def is_named(self, named):
        return self.file in named or self.role in named


def drafts_of(folder):
    """All that may be signed. The links of `layouts/` are signed elsewhere."""
    found = [Draft(name) for name in folder if not name.startswith(("files/", "held/", "spent/"))]
    return sorted((it for it in found if it.folder != "layouts" or it.kind == "layout"), key=lambda it: (it.order, place_of(it.name)))


def entries_of(text):
    """The ids of those who signed, each with its signature."""
    return {keyid: signature for keyid, signature in read_envelope(text)[0]}


def signature_of(key, text):
    """The key's signature of a file. An entry of its id that does not verify is none: anybody can write it."""
    signature = entries_of(text).get(key.id)
    return signature if signature is not None and verifies(key.public.hex(), read_envelope(text)[2], signature) else None


def document_at(folder, kind, name):
    """The document under this name, or None where there is none."""
    return read_document(kind, folder[name]) if name in folder else None


def in_use(folder, kind, role):
    """What is drafted, else what is held."""
    return document_at(folder, kind, f"{role}.json") or document_at(folder, kind, f"held/{role}.json")


def targets_roles(folder):
    """The roles of all targets metadata that are drafted or held."""
    roles = {Draft(name.removeprefix("held/")).role for name in folder if "/" not in name.removeprefix("held/")}
    return sorted(roles - set(ORDER))


def targets_in_use(folder):
    return [document for document in (in_use(folder, "targets", role) for role in targets_roles(folder)) if document]


def rules_of_root(folder, draft):
    """A root follows the rule of the one that is held and its own."""
    if draft.role == "root":
        roots = [document_at(folder, "root", name) for name in ("held/root.json", "root.json")]
        return [root.rules["root"] for root in roots if root]
    root = in_use(folder, "root", "root")
    return [root.rules[draft.role]] if root else []


def rules_of(folder, draft):
    """Whose signatures the document asks for: those of the root, of delegations, or of what refers a target to its layout."""
    if draft.kind == "layout":
        references = [it for document in targets_in_use(folder) for it in document.references.values()]
        return [it.owners for it in references if chain_drafting.file_name(it.path) == draft.file]
    if draft.role in ("root", "targets", "snapshot", "timestamp"):
        return rules_of_root(folder, draft)
    return [it.rule for document in targets_in_use(folder) for it in document.delegations if it.role == draft.role]


def has_rule(folder, draft, key):
    return draft.kind == "link" or any(key.id in rule.keyids for rule in rules_of(folder, draft))


def is_chosen(folder, draft, key, named):
    """Those that are named; else those whose rules have the key and that lack its entry. A link is signed once."""
    if draft.kind == "link":
        return (not named or draft.is_named(named)) and not entries_of(folder[draft.name])
    if named:
        return draft.is_named(named)
    return has_rule(folder, draft, key) and signature_of(key, folder[draft.name]) is None


def judge_shape(folder, draft, key):
    """Of a link with the signature that is to come."""
    text = folder[draft.name]
    if draft.kind == "link":
        signatures, _, signed = read_envelope(text)
        text = with_entry(signatures, key, b"", signed)
    return read_document(draft.kind, text)


def judge_book(folder, key, book):
    """The book has the key, and knows each signature of the key in the folder: by its leaf, for what it stands over."""
    if not book.is_made or key.id not in book.leaves:
        raise Refused("book")
    for name in sorted((it for it in folder if not it.startswith("files/")), key=place_of):
        signature = signature_of(key, folder[name])
        if signature is not None and book.leaves[key.id].get(read_envelope(folder[name])[2]) != int.from_bytes(signature[:4], "big"):
            raise Refused("book")


def place_of(name):
    """What is held comes first, then the drafts, each by their roles, then layouts, links and what was taken off by their names."""
    inner, _, file = name.rpartition("/")
    place = ("held", "", "layouts", "links", "spent").index(inner)
    return place, file.removesuffix(".json") if place < 2 else file


def judge_against_held(folder, draft, document):
    held = document_at(folder, draft.kind, f"held/{draft.role}.json")
    if held is None:
        return
    if draft.kind == "root":
        deny_unless(document.version == held.version + 1, "RootVersion")
    if draft.kind == "timestamp":
        deny_unless(document.version > held.version, "TimestampRollback")
        deny_unless(document.snapshot.version >= held.snapshot.version, "NamedSnapshotRollback")
    if draft.kind == "snapshot":
        kept = [role for role in held.roles if role in document.roles]
        deny_unless(all(document.roles[role].version >= held.roles[role].version for role in kept), "SnapshotRollback")
        deny_unless(len(kept) == len(held.roles), "RoleDropped")


def has_enough(folder, name):
    """Whether the rules of a draft are met, of which there is one: a root follows two, and a role may be delegated to it twice."""
    draft = Draft(name)
    rules = rules_of(folder, draft)
    document = document_at(folder, draft.kind, name)
    return bool(rules) and all(meets(rule, document) for rule in rules)


def judge_order(folder, draft):
    """A snapshot and a timestamp come after all else that is drafted, and the timestamp after the snapshot: a later change would cost them a leaf."""
    if draft.kind not in ("snapshot", "timestamp"):
        return
    for name in sorted((it for it in folder if "/" not in it), key=place_of):
        if Draft(name).order < draft.order and not has_enough(folder, name):
            raise Refused("order")


def is_finished(folder, target):
    """Whether the layout of a target that is on its way has its owners' signatures, and each of its steps as many links as it asks for."""
    name = f"layouts/{chain_drafting.file_name(chain_drafting.layout_path(target))}"
    layout = document_at(folder, "layout", name)
    if layout is None:
        return True
    if not all(meets(rule, layout) for rule in rules_of(folder, Draft(name))):
        return False
    return all(len(links_of(folder, target, step)) >= step.rule.threshold for step in layout.steps)


def links_of(folder, target, step):
    paths = {chain_drafting.link_path(target, step.name, keyid) for keyid in step.rule.keyids}
    return [path for path in paths if f"layouts/{chain_drafting.file_name(path)}" in folder]


def judge_layouts(folder, draft, document):
    """Targets metadata list layouts and links as they stand, so these come first."""
    if draft.kind == "targets" and not all(is_finished(folder, target) for target in document.references):
        raise Refused("order")


def held_files(folder):
    """The files that what is held lists, by their digests and lengths."""
    documents = [document_at(folder, "targets", f"held/{role}.json") for role in targets_roles(folder)]
    return {(said, length) for document in documents if document for length, said in document.listings.values()}


def judge_files(folder, draft, document):
    """Each file that is listed is held, or waits in the folder with its length and its bytes, from which it is published; layouts and links are
    listed as they stand by now, besides."""
    chains = {name.removeprefix("layouts/"): text for name, text in folder.items() if name.startswith("layouts/")}
    held = held_files(folder)
    for path, (length, said) in document.listings.items() if draft.kind == "targets" else ():
        waiting = [] if (said, length) in held else [folder.get(f"files/{said}")]
        standing = chains.get(chain_drafting.file_name(path))
        for text in waiting if standing is None else [*waiting, standing]:
            if text is None or (len(text), digest(text)) != (length, said):
                raise Refused("file")


def judge_other(key, book, document):
    """The key has signed no other document of this kind and version."""
    for message in book.leaves[key.id]:
        signed, _ = canonical_json.read(message)
        is_like = (signed.get("_type"), signed.get("version")) == (document.kind, document.version)
        if is_like and message != document.signed_bytes:
            raise Refused("other")


def judge(folder, draft, key, book, again, now):
    """The checks in their order, each of which comes before a leaf is spent."""
    document = judge_shape(folder, draft, key)
    if not has_rule(folder, draft, key):
        raise Refused("stranger")
    judge_book(folder, key, book)
    if draft.kind == "link":
        return
    if draft.kind != "layout":
        judge_against_held(folder, draft, document)
    if not is_live(document, now):
        raise Refused("past")
    judge_order(folder, draft)
    judge_layouts(folder, draft, document)
    judge_files(folder, draft, document)
    if draft.kind != "layout" and not again:
        judge_other(key, book, document)


def sign_one(folder, draft, key, book):
    """The document with the key's entry last, and what is told."""
    signatures, _, signed = read_envelope(folder[draft.name])
    with_entry(signatures, key, key.sign_with(0, b""), signed)
    leaf = book.reserve(key, signed)
    if leaf is None:
        raise Spent
    folder[draft.name] = with_entry(signatures, key, key.sign_with(leaf, signed), signed)
    return f"signed {draft.told} with leaf {leaf} of {1 << key.height}"


def sign_by(folder, key, book, named, again, now, printed):
    """Each draft is judged after the signature of the one before it: a timestamp is over the snapshot that the same key has just signed.
    Which documents of roles are to be signed is found before the first is, and of layouts and links when it is their turn; a draft in which the
    rules stand, and one that may lack the key's entry, is denied for its shape where that is ill."""
    if key.id not in book.leaves:
        raise Refused("book")
    roles = [it.name for it in drafts_of(folder) if not it.folder and is_chosen(folder, it, key, named)]
    for draft in drafts_of(folder):
        if draft.name in roles or draft.folder and is_chosen(folder, draft, key, named):
            judge(folder, draft, key, book, again, now)
            printed.append(sign_one(folder, draft, key, book))


def sign(folder, signers, named, again, now):
    """Each of the signers, a key with its book, signs in turn; one that has nothing to sign is passed over, where another one has.
    The status, the lines that are printed, and the line that tells why it ended."""
    printed = []
    try:
        if not all(book.is_made for _, book in signers):
            raise Refused("book")
        for key, book in signers:
            sign_by(folder, key, book, named, again, now, printed)
        if not printed:
            raise Refused("nothing")
    except Refused as refused:
        return 1, printed, f"refused {refused}"
    except Denied as denied:
        return 1, printed, f"denied {denied.number} {denied.name}"
    except Spent:
        return 1, printed, "leaves spent"
    return 0, printed, None
