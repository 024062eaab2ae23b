"""The signed files of the four roles (TUF 1.0, sections 4.2 to 4.6), layouts and links (in-toto 1.0, sections 4.3 and 4.4), and
thresholds."""
import hashlib
import re
from functools import lru_cache

import canonical_json
import lms
from artifact_rules import read_rule as read_artifact_rule
from denials import Denied, deny_unless
from document_parts import judge_ids, read_digest, read_entry, read_keys, read_rule, read_signatures, shape, top_key
from names import LARGEST_NUMBER, is_role_name, is_target_path, is_whole, moment_of
from patterns import is_pattern, is_prefix, matches_segmented, prefix_covers

# Beside a program that takes no `delegations`, set this to False: then a file with that member is of the wrong shape.
DELEGATIONS_ARE_READ = True
MAXIMUM_LENGTH = 262144
MAXIMUM_SNAPSHOT_ENTRIES = 128
MAXIMUM_DELEGATIONS = 64
MAXIMUM_COVERINGS = 64
MAXIMUM_LINKS = 64
MAXIMUM_STEPS = 16
MAXIMUM_ARTIFACT_RULES = 64
TOP_LEVEL_ROLES = {"root", "targets", "snapshot", "timestamp"}
REFERENCE_MEMBERS = {"keyids", "keys", "links", "path", "product", "step", "threshold"}


class Document:
    """A file that was read.

    Each has `version`, `expires`, `signatures`, `bytes`, `signed_bytes` and `digest`; a root has `keys` and `rules`, a
    timestamp `snapshot`, a snapshot `roles`, and targets metadata `listings`, `references` and `delegations`. A layout has no
    version, but `expires`, `keys` and `steps`; a link has neither, but `name`, `materials` and `products`.
    """


class LayoutReference:
    """What refers a target to a layout: the rule of its owners, the paths of its links and its own, and where the target is made."""

    def __init__(self, owners, links, path, product, step):
        self.owners = owners
        self.links = links
        self.path = path
        self.product = product
        self.step = step


class Step:
    """A step of a layout: whose links are good for it, and the artifact rules of both sides."""

    def __init__(self, name, rule, materials, products):
        self.name = name
        self.rule = rule
        self.materials = materials
        self.products = products


class Delegation:
    """What one role trusts another with: who has to sign for it, and which paths it is searched for."""

    def __init__(self, role, rule, terminating=False, patterns=(), prefixes=()):
        self.role = role
        self.rule = rule
        self.terminating = terminating
        self.patterns = patterns
        self.prefixes = prefixes

    def covers(self, path):
        return any(matches_segmented(pattern, path) for pattern in self.patterns) or any(
            prefix_covers(prefix, path) for prefix in self.prefixes
        )


def read_root(document, signed):
    """Section 4.3."""
    shape(signed.get("consistent_snapshot") is True)
    document.keys = read_keys(signed.get("keys"))
    roles = signed.get("roles")
    shape(type(roles) is dict and set(roles) == TOP_LEVEL_ROLES)
    document.rules = {role: read_rule(rule, document.keys) for role, rule in roles.items()}
    document.required = []
    if document.profile == 2 and "layout_required" in signed:
        document.required = read_texts(signed["layout_required"], is_pattern)
    judge_ids(document.keys)


def read_timestamp(document, signed):
    """Section 4.6."""
    meta = signed.get("meta")
    shape(type(meta) is dict and set(meta) == {"snapshot.json"})
    document.snapshot = read_entry(meta["snapshot.json"])


def read_snapshot(document, signed):
    """Section 4.4."""
    meta = signed.get("meta")
    shape(type(meta) is dict and 1 <= len(meta) <= MAXIMUM_SNAPSHOT_ENTRIES and "targets.json" in meta)
    document.roles = {}
    for name, entry in meta.items():
        role = name.removesuffix(".json")
        shape(name.endswith(".json") and is_role_name(role) and role not in ("root", "timestamp", "snapshot"))
        document.roles[role] = read_entry(entry)


def read_texts(value, is_of_form):
    """The patterns or the prefixes of one delegation. They may repeat."""
    shape(type(value) is list and 1 <= len(value) <= MAXIMUM_COVERINGS)
    shape(all(type(text) is str and is_of_form(text) for text in value))
    return value


def read_delegation(value, keys):
    shape(type(value) is dict)
    name = value.get("name")
    shape(type(name) is str and is_role_name(name) and name not in TOP_LEVEL_ROLES)
    rule = read_rule(value, keys)
    terminating = value.get("terminating")
    shape(type(terminating) is bool)
    shape(("paths" in value) != ("path_hash_prefixes" in value))
    if "paths" in value:
        return Delegation(name, rule, terminating, patterns=read_texts(value["paths"], is_pattern))
    return Delegation(name, rule, terminating, prefixes=read_texts(value["path_hash_prefixes"], is_prefix))


def read_delegations(value):
    """The key table, and the delegations in their order, which take their keys from it."""
    shape(type(value) is dict)
    keys = read_keys(value.get("keys"))
    roles = value.get("roles")
    shape(type(roles) is list and len(roles) <= MAXIMUM_DELEGATIONS)
    delegations = [read_delegation(role, keys) for role in roles]
    shape(len({delegation.role for delegation in delegations}) == len(delegations))
    return keys, delegations


def read_listing(value):
    shape(type(value) is dict and is_whole(value.get("length"), 0, LARGEST_NUMBER))
    return value["length"], read_digest(value.get("hashes"))


def read_path(value):
    shape(type(value) is str and is_target_path(value))
    return value


def read_reference(value):
    """What `custom` has under `layout`. It has no other members, and its links are distinct and none of them the layout."""
    shape(type(value) is dict and set(value) == REFERENCE_MEMBERS)
    owners = read_rule(value, read_keys(value["keys"]))
    shape(type(value["links"]) is list and 1 <= len(value["links"]) <= MAXIMUM_LINKS)
    links = [read_path(link) for link in value["links"]]
    path = read_path(value["path"])
    shape(len({path, *links}) == 1 + len(links))
    shape(type(value["step"]) is str and is_role_name(value["step"]))
    return LayoutReference(owners, links, path, read_path(value["product"]), value["step"])


def read_references(targets):
    """What refers targets to layouts, by their paths."""
    customs = {path: listing["custom"] for path, listing in targets.items() if "custom" in listing}
    shape(all(type(custom) is dict for custom in customs.values()))
    return {path: read_reference(custom["layout"]) for path, custom in customs.items() if "layout" in custom}


def read_targets(document, signed):
    """Section 4.5."""
    targets = signed.get("targets")
    shape(type(targets) is dict and all(map(is_target_path, targets)))
    document.listings = {path: read_listing(listing) for path, listing in targets.items()}
    document.references = read_references(targets)
    keys, document.delegations = {}, []
    if "delegations" in signed:
        shape(DELEGATIONS_ARE_READ)
        keys, document.delegations = read_delegations(signed["delegations"])
    for table in (keys, *(reference.owners.keys for reference in document.references.values())):
        judge_ids(table)


def read_artifact_rules(value):
    """Lists of words, each of which has to be a rule."""
    shape(type(value) is list and len(value) <= MAXIMUM_ARTIFACT_RULES)
    shape(all(type(words) is list and all(type(word) is str for word in words) for words in value))
    rules = [read_artifact_rule(words) for words in value]
    shape(None not in rules)
    return rules


def read_step(value, keys):
    """In-toto 1.0, section 4.3.1."""
    shape(type(value) is dict and type(value.get("name")) is str and is_role_name(value["name"]))
    rule = read_rule(value, keys, "pubkeys")
    materials = read_artifact_rules(value.get("expected_materials"))
    return Step(value["name"], rule, materials, read_artifact_rules(value.get("expected_products")))


def read_layout(document, signed):
    """In-toto 1.0, section 4.3. There are no inspections."""
    document.expires = read_expires(signed)
    shape(type(signed.get("inspect")) is list and not signed["inspect"])
    document.keys = read_keys(signed.get("keys"))
    steps = signed.get("steps")
    shape(type(steps) is list and 1 <= len(steps) <= MAXIMUM_STEPS)
    document.steps = [read_step(step, document.keys) for step in steps]
    shape(len({step.name for step in document.steps}) == len(document.steps))
    judge_ids(document.keys)


def read_artifacts(value):
    shape(type(value) is dict and all(map(is_target_path, value)))
    return {path: read_digest(hashes) for path, hashes in value.items()}


def read_link(document, signed):
    """In-toto 1.0, section 4.4. One functionary signs it."""
    shape(len(document.signatures) == 1)
    shape(type(signed.get("name")) is str and is_role_name(signed["name"]))
    document.name = signed["name"]
    document.materials = read_artifacts(signed.get("materials"))
    document.products = read_artifacts(signed.get("products"))


READERS = {"root": read_root, "timestamp": read_timestamp, "snapshot": read_snapshot, "targets": read_targets}
READERS_OF_LAYOUTS = {"layout": read_layout, "link": read_link}


def read_envelope(text):
    """The first checks in their order: length, canonical form, envelope. Gives the signatures, the signed part and its bytes."""
    deny_unless(len(text) <= MAXIMUM_LENGTH, "TooLong")
    try:
        envelope, spans = canonical_json.read(text)
    except canonical_json.NotCanonical:
        raise Denied("NotCanonical") from None
    shape(type(envelope) is dict and set(envelope) == {"signatures", "signed"})
    signed = envelope["signed"]
    signatures = read_signatures(envelope["signatures"])
    shape(type(signed) is dict and type(signed.get("_type")) is str)
    first, end = spans["signed"]
    return signatures, signed, text[first:end]


def read_expires(signed):
    moment = moment_of(signed.get("expires"))
    shape(moment is not None)
    return moment


def read_head(document, signed):
    """What the files of all roles have."""
    specification = signed.get("spec_version")
    shape(type(specification) is str)
    said = re.fullmatch(r"1\.0\.[0-9]{1,3}(\+p2)?", specification)
    shape(said is not None and (said[1] is None or document.kind == "root"))
    document.profile = 2 if said[1] else 1
    shape(is_whole(signed.get("version"), 1, LARGEST_NUMBER))
    document.version = signed["version"]
    document.expires = read_expires(signed)


def read_checked(kind, text):
    """The checks in their order: those of the envelope, type, members, key table."""
    document = Document()
    document.kind = kind
    document.signatures, signed, document.signed_bytes = read_envelope(text)
    deny_unless(signed["_type"] == kind, "WrongType")
    document.bytes = text
    document.digest = hashlib.sha256(text).hexdigest()
    if kind in READERS_OF_LAYOUTS:
        READERS_OF_LAYOUTS[kind](document, signed)
    else:
        read_head(document, signed)
        READERS[kind](document, signed)
    return document


@lru_cache(maxsize=8192)
def read_once(kind, text):
    try:
        return read_checked(kind, text)
    except Denied as denied:
        return denied.name


def read_document(kind, text):
    """The document that the bytes are, or the denial of the first check that fails."""
    read = read_once(kind, text)
    if isinstance(read, str):
        raise Denied(read)
    return read


def is_document(kind, text):
    return not isinstance(read_once(kind, text), str)


@lru_cache(maxsize=65536)
def verifies(public, signed_bytes, signature):
    """By the key's scheme."""
    key = bytes.fromhex(public)
    verify = lms.verify if len(key) == lms.PUBLIC_KEY_LENGTH else lms.verify_hss
    return verify(key, signed_bytes, signature)


def meets(rule, document):
    """Whether as many keys of the rule with distinct top keys signed as its threshold asks for."""
    keys = rule.public_keys()
    signers = set()
    for keyid, signature in document.signatures:
        public = keys.get(keyid)
        if public is not None and top_key(public) not in signers and verifies(public, document.signed_bytes, signature):
            signers.add(top_key(public))
    return len(signers) >= rule.threshold


def is_live(document, now):
    """Before the moment at which it expires."""
    return now < document.expires
