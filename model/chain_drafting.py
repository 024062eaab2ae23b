"""A target's supply chain as drafts: the layout, the links, what refers the target to them, and what `take` joins.

A layout stands in the folder of drafts as the target `TARGET.layout.json`, a link as `TARGET.STEP.ID8.json`. What refers the target to them names the
links that are there, and where none is there those that the first keys of each step would make.
"""
import copy
import re

import canonical_json
import drafting
from document_parts import MAXIMUM_SIGNATURES, key_object
from drafting import DAY, Denied, Refused
from signed_documents import date, digest

FIRST_DAYS = 365


class Step:
    """What is said of a step; `materials` and `products` are rules in the place of the usual ones, or None."""

    def __init__(self, name, keys, threshold, made, materials=None, products=None):
        self.name, self.keys, self.threshold, self.made = name, keys, threshold, made
        self.materials, self.products = materials, products


def rules_of(step, before):
    """A step may use what the step before it left, and leaves that and what it makes."""
    left = [["MATCH", "*", "WITH", "PRODUCTS", "FROM", before.name]] if before else []
    made = [[word, path] for path in step.made for word in ("CREATE", "MODIFY")]
    last = [["DISALLOW", "*"]]
    materials = left + last if step.materials is None else step.materials
    products = left + made + last if step.products is None else step.products
    return materials, products


def step_said(step, before):
    materials, products = rules_of(step, before)
    return {
        "name": step.name, "pubkeys": [key.id for key in step.keys], "threshold": step.threshold,
        "expected_materials": materials, "expected_products": products,
    }


def next_layout(begun, steps, called, given, now):
    """What is not named stays, but for the term, which is the last one's where none is given."""
    signed = copy.deepcopy(begun) if begun else {"_type": "layout"}
    keys = [key for step in steps for key in step.keys]
    seconds = drafting.last_term(signed, FIRST_DAYS)
    if isinstance(given, int):
        seconds = max(given - now, 0)
    elif given:
        seconds = int(given[:-1]) * (DAY if given.endswith("d") else 3600)
    signed["keys"] = {key.id: key_object(key.public.hex()) for key in keys}
    signed["names"] = {key.id: called[key.id] for key in keys}
    signed["steps"] = [step_said(step, before) for step, before in zip(steps, [None, *steps])]
    signed["inspect"] = []
    return {**signed, "expires": date(given if isinstance(given, int) else now + seconds), "term": seconds}


def next_link(begun, name, materials, products):
    """`materials` and `products` are lists of paths with their digests; they join those of the draft."""
    signed = copy.deepcopy(begun) if begun else {"_type": "link", "materials": {}, "products": {}}
    signed["name"] = name
    for side, said in (("materials", materials), ("products", products)):
        signed[side].update({path: {"sha256": sha256} for path, sha256 in said})
    return signed


def layout_path(target):
    return f"{target}.layout.json"


def link_path(target, step, keyid):
    return f"{target}.{step}.{keyid[:8]}.json"


def link_form(target, steps):
    """The paths of the links of these steps."""
    return re.compile(f"{re.escape(target)}\\.(?:{'|'.join(map(re.escape, steps))})\\.[0-9a-f]{{8}}\\.json")


def file_name(path):
    """Where a layout or a link stands in the folder of drafts."""
    return path.replace("/", "~")


class File:
    """A signed part with entries, each of which is an id and its digits."""

    def __init__(self, signed, entries=()):
        self.signed, self.entries = signed, list(entries)

    def bytes(self):
        return canonical_json.write({"signatures": self.entries, "signed": self.signed})

    def joined(self, other):
        """The entries of both, each id once."""
        if self.signed != other.signed:
            raise Refused("different")
        there = {entry["keyid"] for entry in self.entries}
        entries = self.entries + [entry for entry in other.entries if entry["keyid"] not in there]
        if len(entries) > MAXIMUM_SIGNATURES:
            raise Denied("denied 3 WrongShape")
        return File(self.signed, entries)


class Drafts:
    """A folder of drafts: documents by their roles, layouts by their targets, and links by their paths."""

    def __init__(self, documents):
        self.documents = documents
        self.layouts = {}
        self.links = {}

    def chain_files(self):
        """What stands in `layouts/`, by the paths that it has as targets."""
        return {**{layout_path(target): layout for target, layout in self.layouts.items()}, **self.links}

    def files(self):
        """All that stands in the folder, but for target files and what is held."""
        found = {f"{role}.json": file.bytes() for role, file in self.documents.items()}
        found.update({"layouts/" + file_name(path): file.bytes() for path, file in self.chain_files().items()})
        return found

    def listers(self, target):
        """The drafted targets metadata that list the target."""
        return [it for it in self.documents.values() if it.signed["_type"] == "targets" and target in it.signed["targets"]]

    def lister(self, target):
        found = self.listers(target)
        if not found:
            raise Refused("path")
        return found[0]

    def steps(self, target):
        return [step["name"] for step in self.layouts[target].signed["steps"]]

    def links_of(self, target):
        """A file is a link of the target if its path is that of a link of a step that the target's layout has."""
        form = link_form(target, self.steps(target))
        return {path: link for path, link in self.links.items() if form.fullmatch(path)}

    def list_all(self, anew=False):
        """Lists all layouts and links as they stand signed. What has signatures changes only where it is drafted anew, and has none then."""
        for target in self.layouts:
            for document in self.listers(target):
                before = copy.deepcopy(document.signed)
                self.list(target, document.signed["targets"])
                self.drafted_again(document, before, anew)

    def see_listable(self, anew):
        """What has signatures lists layouts and links as they stand, before anything else is looked at."""
        if not anew:
            copy.deepcopy(self).list_all()

    def drafted_again(self, document, before, anew):
        """After a listing that changes something. Targets metadata without a term get that of a first one."""
        if document.signed == before:
            return
        if document.entries and not anew:
            raise Refused("signed")
        document.entries = []
        document.signed["term"] = drafting.last_term(document.signed, drafting.FIRST_DAYS["targets"])

    def list(self, target, listed):
        """The reference names the links that are there; where there are none it stays as it was."""
        links = self.links_of(target)
        for path, file in {layout_path(target): self.layouts[target], **links}.items():
            said = file.bytes()
            listed.setdefault(path, {}).update(length=len(said), hashes={"sha256": digest(said)})
        if links:
            listed[target]["custom"]["layout"]["links"] = sorted(links)

    def first_links(self, target):
        steps = self.layouts[target].signed["steps"]
        return [link_path(target, step["name"], keyid) for step in steps for keyid in step["pubkeys"][:step["threshold"]]]

    def draft_layout(self, target, steps, owners, threshold, called, given, now, anew=False):
        """The layout, and what refers the target to it: the product is the last one of the last step."""
        document = self.lister(target)
        begun = self.layouts.get(target)
        if begun and begun.entries and not anew:
            raise Refused("signed")
        before = copy.deepcopy(document.signed)
        self.layouts[target] = File(next_layout(begun and begun.signed, steps, called, given, now))
        document.signed["targets"][target].setdefault("custom", {})["layout"] = {
            "keyids": [key.id for key in owners], "keys": {key.id: key_object(key.public.hex()) for key in owners}, "threshold": threshold,
            "path": layout_path(target), "links": self.first_links(target), "product": steps[-1].made[-1], "step": steps[-1].name,
        }
        self.list(target, document.signed["targets"])
        self.drafted_again(document, before, anew)
        self.list_all(anew)

    def draft_targets(self, role, added, given, now, anew=False):
        """Targets metadata as `draft targets` makes them, after which all layouts and links are listed."""
        begun = self.documents.get(role)
        if begun and begun.entries and not anew:
            raise Refused("signed")
        self.documents[role] = File(drafting.next_targets(None, begun and begun.signed, added, [], given, now))
        self.list_all(anew)

    def with_step(self, name):
        return [target for target in self.layouts if name in self.steps(target)]

    def take_link(self, target, link, anew=False):
        """A link of one signature comes in for the target that is given, whose layout has to have its step, or for the one whose layout has it."""
        name, keyid = link.signed["name"], link.entries[0]["keyid"]
        found = [it for it in self.with_step(name) if target in (None, it)]
        if len(found) != 1:
            raise Refused("path")
        self.links[link_path(found[0], name, keyid)] = link
        self.list_all(anew)

    def take_layout(self, name, file, anew=False):
        """The signatures of a layout join those of the one that is here under this name."""
        for target, layout in self.layouts.items():
            if file_name(layout_path(target)) == name:
                self.layouts[target] = layout.joined(file)
                return self.list_all(anew)
        raise Refused("different")

    def take_document(self, role, file, anew=False):
        """Over the signed part of a draft the signatures join; targets metadata of another role, of which there is no draft, come in."""
        if role in self.documents:
            self.documents[role] = self.documents[role].joined(file)
        elif role != "targets" and file.signed["_type"] == "targets":
            self.documents[role] = file
        else:
            raise Refused("different")
        self.list_all(anew)
