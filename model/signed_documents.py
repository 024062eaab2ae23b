"""Makes documents, and files of them that are signed with the test keys."""
import datetime
import hashlib

import canonical_json
from document_parts import key_object

# The first second of 2030. The moments of all cases count from it.
BEGIN = 1893456000
# The last expiry that a document can have, and the last moment that the program takes.
LAST_EXPIRY, LAST_MOMENT = 253370764799, 253402300799
EPOCH = datetime.datetime(1970, 1, 1)


def date(seconds):
    return (EPOCH + datetime.timedelta(seconds=seconds)).strftime("%Y-%m-%dT%H:%M:%SZ")


def digest(text):
    return hashlib.sha256(text).hexdigest()


def key_table(keys):
    return {key.id: key_object(key.public.hex()) for key in keys}


def rule(keys, threshold):
    return {"keyids": [key.id for key in keys], "threshold": threshold}


def document(kind, version, expires, members):
    common = {"_type": kind, "spec_version": "1.0.31", "version": version, "expires": date(expires)}
    return {**common, **members}


def root(version, expires, rules, further_keys=(), required=None):
    """`rules` has, for each role, its keys and its threshold. With a list `required` it has profile 2, and requires layouts of what these
    patterns match; an empty one is left out."""
    keys = [key for role_keys, _ in rules.values() for key in role_keys]
    members = {
        "consistent_snapshot": True,
        "keys": key_table([*keys, *further_keys]),
        "roles": {role: rule(*rules[role]) for role in rules},
    }
    if required:
        members["layout_required"] = required
    signed = document("root", version, expires, members)
    return signed if required is None else of_second_profile(signed)


def of_second_profile(signed):
    return {**signed, "spec_version": signed["spec_version"] + "+p2"}


def entry(version, length=None, sha256=None):
    said = {"version": version}
    if length is not None:
        said["length"] = length
    if sha256 is not None:
        said["hashes"] = {"sha256": sha256}
    return said


def timestamp(version, expires, *snapshot):
    """`snapshot` is its version, and its length and digest if they are said."""
    return document("timestamp", version, expires, {"meta": {"snapshot.json": entry(*snapshot)}})


def snapshot(version, expires, roles):
    """`roles` has, for each, its version, and its length and digest if they are said."""
    meta = {f"{role}.json": entry(*said) for role, said in roles.items()}
    return document("snapshot", version, expires, {"meta": meta})


def listing(length, sha256):
    return {"length": length, "hashes": {"sha256": sha256}}


def delegation(role, keys, threshold, paths=None, prefixes=None, terminating=False):
    """With `paths`, `prefixes`, or none or both of them."""
    said = {"name": role, "terminating": terminating, **rule(keys, threshold)}
    if paths is not None:
        said["paths"] = paths
    if prefixes is not None:
        said["path_hash_prefixes"] = prefixes
    return said


def delegations(keys, roles):
    return {"keys": key_table(keys), "roles": roles}


def targets(version, expires, listings, delegating=None):
    """`listings` has, for each path, a length and a digest."""
    members = {"targets": {path: listing(*values) for path, values in listings.items()}}
    if delegating is not None:
        members["delegations"] = delegating
    return document("targets", version, expires, members)


def layout_reference(keys, threshold, links, path, product, step):
    """What refers a target to a layout, under `layout` of its `custom`."""
    said = {"links": list(links), "path": path, "product": product, "step": step}
    return {"keys": key_table(keys), **rule(keys, threshold), **said}


def step(name, keys, threshold, materials=(), products=()):
    """A step of a layout: the keys whose links are good for it, and the rules of both sides."""
    return {
        "name": name, "pubkeys": [key.id for key in keys], "threshold": threshold,
        "expected_materials": [list(words) for words in materials], "expected_products": [list(words) for words in products],
    }


def layout(expires, keys, steps):
    return {"_type": "layout", "expires": date(expires), "inspect": [], "keys": key_table(keys), "steps": steps}


def link(name, materials, products):
    """Both have, for each path, a digest."""
    sides = {"materials": materials, "products": products}
    said = {side: {path: {"sha256": held} for path, held in sides[side].items()} for side in sides}
    return {"_type": "link", "name": name, **said}


def signature_entry(signer, signed_bytes):
    """A signer is a key, or a key id with hex digits or with a function that makes them of the signed bytes."""
    if not isinstance(signer, tuple):
        return {"keyid": signer.id, "sig": signer.sign(signed_bytes).hex()}
    keyid, digits = signer
    return {"keyid": keyid, "sig": digits(signed_bytes) if callable(digits) else digits}


def signed_file(signed, signers, further_signatures=(), further_members=None, tail=b""):
    """`signed` is a document, or bytes that spell one in another way."""
    signed_bytes = canonical_json.write(signed)
    signatures = [signature_entry(signer, signed_bytes) for signer in signers]
    envelope = {"signatures": signatures + list(further_signatures), "signed": signed_bytes}
    return canonical_json.write({**envelope, **(further_members or {})}) + tail


def empty_signatures(count):
    """Signatures of no bytes under ids of no key."""
    return [{"keyid": f"{number:064x}", "sig": ""} for number in range(count)]
