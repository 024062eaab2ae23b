#!/usr/bin/env python3
"""Gives a layout and links that the program drafted and signed to in-toto's own verifier, and to the program.

    gate/in_toto_verifier.py [RELEASE]       the program, out/release where none is named

It needs in-toto 1.3.1 and securesystemslib, which Debian 12 has as 'in-toto', in the Python that runs it. Where they are missing, or of another
version, it says 'skipped: ' and why, and ends with status 0: it installs nothing.

A layout of two steps is drafted, of which the first asks for links by two keys, and three links. What in-toto's verifier does of itself is to pass:
signatures over the bytes that it makes of the files, the expiry, the links of each step, that they agree, and all artifact rules. And it is to refuse
a byte that was changed in the layout or in a link, a layout that has expired, one link too few, two links of a step that disagree, a product that no
rule allows, and a material that the step before did not leave. The program publishes the same files, and grants the target.

What the script does itself, since in-toto cannot take it as it stands (docs/FORMATS.md, What in-toto's own verifier takes):

 - Each draft is completed before it is signed: the members that in-toto signs over are put in, and those of a layout that it leaves out, 'names' and
   'term', are taken out. That the drafts themselves are refused is tried too.
 - The type 'lms' is new to in-toto: LmsKey verifies by model/lms.py, and three lines make it known.
 - A key of a layout has no 'keyid', which in-toto wants in it: it is put in once the signature of the layout has verified. That in-toto refuses the
   key without it is tried too.
 - Links are copied to the names by which in-toto looks for them.
"""
import glob
import json
import os
import shutil
import subprocess
import sys
import tempfile

from served import RELEASE, TOP, Wrong, read, want

sys.path.insert(0, os.path.join(TOP, "model"))

import canonical_json
import lms

VERSION = "1.3.1"

try:
    import securesystemslib.formats
    import securesystemslib.keys
    from in_toto import __version__ as IN_TOTO
    from in_toto import exceptions, verifylib
    from in_toto.models.metadata import Metablock
    from securesystemslib.exceptions import FormatError, UnverifiedSignatureError
    from securesystemslib.schema import String
    from securesystemslib.signer import KEY_FOR_TYPE_AND_SCHEME, Key, Signature
except ImportError as missing:
    print(f"skipped: {missing}; in-toto {VERSION} with securesystemslib is wanted ('apt-get install in-toto' in Debian 12), in the Python that runs this")
    sys.exit(0)

KEYS = ["root", "online", "owner", "ann", "ben", "packer"]
WIDTH = ["--ots", "1", "--height", "5"]
EXPIRED = "2020-01-01T00:00:00Z"
LINK_MEMBERS = {"byproducts": {}, "command": [], "environment": {}}
STEP_MEMBERS = {"_type": "step", "expected_command": []}


class LmsKey(Key):
    """A key of LMS, whose verification is the model's."""

    @classmethod
    def from_dict(cls, keyid, key_dict):
        return cls(keyid, key_dict["keytype"], key_dict["scheme"], key_dict["keyval"])

    def to_dict(self):
        return {"keytype": self.keytype, "scheme": self.scheme, "keyval": self.keyval}

    def verify_signature(self, signature, data):
        if not lms.verify(bytes.fromhex(self.keyval["public"]), data, bytes.fromhex(signature.signature)):
            raise UnverifiedSignatureError(f"no signature by {self.keyid}")


def is_signed(key, signature, data):
    """What in-toto asks of a key and a signature, by the class of the key."""
    try:
        Key.from_dict(key["keyid"], key).verify_signature(Signature.from_dict(dict(signature)), data)
    except UnverifiedSignatureError:
        return False
    return True


def make_known():
    KEY_FOR_TYPE_AND_SCHEME["lms", "lms-sha256"] = LmsKey
    securesystemslib.formats.KEYTYPE_SCHEMA._alternatives.append(String("lms"))
    securesystemslib.keys.verify_signature = is_signed


def completed(signed):
    """A draft with just the members that in-toto signs over."""
    if signed["_type"] == "link":
        return {**LINK_MEMBERS, **signed}
    known = {name: value for name, value in signed.items() if name not in ("names", "term")}
    return {"readme": "", **known, "steps": [{**STEP_MEMBERS, **step} for step in signed["steps"]]}


def as_drafted(signed):
    return signed


class Room:
    """A folder of its own, in which the program runs."""

    def __init__(self, release, at):
        self.release, self.at = release, at

    def path(self, name):
        return os.path.join(self.at, name)

    def run(self, *words):
        ended = subprocess.run([self.release, *words], cwd=self.at, capture_output=True, timeout=600)
        want(ended.returncode == 0, f"'{' '.join(words)}' ends with {ended.returncode}: {ended.stderr.decode()}")
        return ended.stdout

    def change(self, name, change):
        """Changes the signed part of a draft, which has no signature yet."""
        part = change(json.loads(read(self.path(name)))["signed"])
        self.write(name, canonical_json.write({"signatures": [], "signed": part}))

    def write(self, name, text):
        with open(self.path(name), "wb") as file:
            file.write(text)

    def link(self, folder, key, step, materials, products, change=completed):
        """A link that was drafted in a folder of its own and signed there."""
        words = [word for option, paths in (("--materials", materials), ("--products", products)) for path in paths for word in (option, path)]
        self.run("draft", "--in", folder, "link", "--step", step, *words)
        name = f"{folder}/links/{step}.json"
        self.change(name, change)
        self.run("sign", "--key", key, "--in", folder, "--yes")
        return name

    def signed_by_owner(self, name, signed):
        """A further layout, signed by the owner."""
        self.write(f"{name}.draft", canonical_json.write({"signatures": [], "signed": signed}))
        self.write(name, self.run("sign", "--book", "owner.book", "--seed", "owner.seed", *WIDTH, f"{name}.draft"))

    def key(self, name):
        """The key of a name, as in-toto wants it: with its id in it."""
        key = json.loads(read(self.path(f"{name}.key")))
        return {**key, "keyid": self.keyid(name)}

    def keyid(self, name):
        return lms.sha256(read(self.path(f"{name}.key")).removesuffix(b"\n")).hex()


def publish(room):
    """Drafts a target with a layout, has all of it signed, and publishes it: the program grants the target."""
    room.run("key", "--new", *KEYS, *WIDTH)
    room.run("draft", "--in", "d", "root", "root=root.key", *(f"{role}=online.key" for role in ("targets", "snapshot", "timestamp")))
    room.run("sign", "--key", "root", "--in", "d", "--yes")
    room.run("init", "--db", "repository.db", "d/root.json")
    for name, text in (("tool.sh", b"echo hello\n"), ("tool.gz", b"packed: echo hello\n"), ("more", b"more\n")):
        room.write(name, text)
    room.run("draft", "--in", "d", "targets", "--add", "tool.gz")
    steps = ["build=2@ann.key,ben.key:tool.sh", "pack=packer.key:tool.gz"]
    room.run("draft", "--in", "d", "layout", "--target", "tool.gz", "--owners", "owner.key", *steps)
    shutil.copy(room.path("d/layouts/tool.gz.layout.json"), room.path("drafted"))
    room.change("d/layouts/tool.gz.layout.json", completed)
    room.run("sign", "--key", "owner", "--in", "d", "--yes")
    shutil.copy(room.path("d/layouts/tool.gz.layout.json"), room.path("layout"))
    links = [room.link(name, name, "build", [], ["tool.sh"]) for name in ("ann", "ben")]
    links.append(room.link("packer", "packer", "pack", ["tool.sh"], ["tool.gz"]))
    room.run("draft", "--in", "d", "take", *links)
    room.run("sign", "--key", "online", "--in", "d", "--yes")
    room.run("draft", "--in", "d", "seal")
    room.run("sign", "--key", "online", "--in", "d", "--yes")
    room.run("publish", "--db", "repository.db", "--in", "d")
    room.run("show", "--db", "repository.db", "tool.gz")


class Verifier:
    """in-toto's own verifier over a layout, and over a folder of links by the names by which it looks for them."""

    def __init__(self, room):
        self.room = room
        self.owners = {room.keyid("owner"): room.key("owner")}
        self.layout, self.links = room.path("layout"), room.path("links")
        os.mkdir(self.links)
        for step, name in (("build", "ann"), ("build", "ben"), ("pack", "packer")):
            self.put(step, name, f"{name}/links/{step}.json")

    def place(self, step, name):
        return os.path.join(self.links, f"{step}.{self.room.keyid(name)[:8]}.link")

    def put(self, step, name, link):
        shutil.copy(self.room.path(link), self.place(step, name))

    def verify(self, layout=None, with_ids=True):
        """What in-toto does to verify, in its order, but for sublayouts and inspections, of which there are none."""
        block = Metablock.load(layout or self.layout)
        verifylib.verify_layout_signatures(block, self.owners)
        verifylib.verify_layout_expiration(block.signed)
        if with_ids:
            for keyid, key in block.signed.keys.items():
                key["keyid"] = keyid
        links = verifylib.load_links_for_layout(block.signed, self.links)
        links = verifylib.verify_link_signature_thresholds(block.signed, links)
        verifylib.verify_all_steps_command_alignment(block.signed, links)
        verifylib.verify_threshold_constraints(block.signed, links)
        verifylib.verify_all_item_rules(block.signed.steps, verifylib.reduce_chain_links(links))

    def is_refused(self, what, by, said="", **given):
        """That this is refused, by this exception, with these words in what it says."""
        try:
            self.verify(**given)
        except by as error:
            want(said in str(error), f"{what} is refused otherwise: {error}")
            return 1
        raise Wrong(f"in-toto takes {what}")

    def is_refused_with(self, what, links, by, said=""):
        """That other links in the place of the good ones are refused."""
        before = {path: read(path) for path in glob.glob(f"{self.links}/*")}
        for (step, name), link in links.items():
            if link:
                self.put(step, name, link)
            else:
                os.remove(self.place(step, name))
        refused = self.is_refused(what, by, said)
        for path, text in before.items():
            self.room.write(path, text)
        return refused

    def same_bytes(self):
        """in-toto signs over the text of 'signed' as it stands in each file."""
        files = [self.layout, *glob.glob(f"{self.links}/*")]
        for path in files:
            theirs = Metablock.load(path).signed.signable_bytes
            want(read(path).endswith(b',"signed":' + theirs + b"}"), f"in-toto signs over other bytes than {path} has")
        return len(files)


def changed(room, name, path, old, new):
    """A copy in which one text is another one, of the same length."""
    text = read(path)
    want(text.count(old) > 0 and len(old) == len(new), f"{path} has no {old}")
    room.write(name, text.replace(old, new))
    return name


def refused_layouts(room, verifier):
    """Layouts that are refused with good links next to them."""
    signed = json.loads(read(verifier.layout))["signed"]
    room.signed_by_owner("expired", {**signed, "expires": EXPIRED})
    room.signed_by_owner("as_drafted", json.loads(read(room.path("drafted")))["signed"])
    half = {name: value for name, value in completed(signed).items() if name != "readme"}
    room.signed_by_owner("half", half)
    changed(room, "changed", verifier.layout, b'"threshold":2', b'"threshold":1')
    shutil.copy(verifier.layout, room.path("unsigned"))
    room.change("unsigned", as_drafted)
    count = verifier.is_refused("an expired layout", exceptions.LayoutExpiredError, layout=room.path("expired"))
    for name in ("changed", "unsigned", "as_drafted", "half"):
        count += verifier.is_refused(f"a layout that is {name}", exceptions.SignatureVerificationError, layout=room.path(name))
    return count + verifier.is_refused("a key without its id", FormatError, with_ids=False)


def refused_links(room, verifier):
    """Links that are refused under the good layout."""
    few, rules = exceptions.ThresholdVerificationError, exceptions.RuleVerificationError
    ann, ben, packer = ("build", "ann"), ("build", "ben"), ("pack", "packer")
    room.write("tool.sh", b"echo changed\n")
    other = room.link("other", "ben", "build", [], ["tool.sh"])
    foreign = room.link("foreign", "packer", "pack", ["tool.sh"], ["tool.gz"])
    room.write("tool.sh", b"echo hello\n")
    more = room.link("further", "packer", "pack", ["tool.sh"], ["tool.gz", "more"])
    drafted = room.link("half_link", "packer", "pack", ["tool.sh"], ["tool.gz"], as_drafted)
    byte = changed(room, "byte", verifier.place(*packer), b'"tool.gz"', b'"tool.gs"')
    cases = [
        ("a byte that was changed in a link", {packer: byte}, few, "Step 'pack' requires at least '1' links"),
        ("a link as it is drafted", {packer: drafted}, few, "Step 'pack' requires at least '1' links"),
        ("a link that is not there", {ben: None}, exceptions.LinkNotFoundError, "requires '2' link metadata file(s), found '1'"),
        ("one key's link twice", {ben: "ann/links/build.json"}, few, "Step 'build' requires at least '2' links"),
        ("a link of another key", {ann: "packer/links/pack.json"}, few, "Step 'build' requires at least '2' links"),
        ("two links that disagree", {ben: other}, few, "different artifacts"),
        ("a product that no rule allows", {packer: more}, rules, "more"),
        ("a material that the step before did not leave", {packer: foreign}, rules, "tool.sh"),
    ]
    return sum(verifier.is_refused_with(*case) for case in cases)


def main(words):
    release = os.path.realpath(words[0]) if words else RELEASE
    if IN_TOTO != VERSION:
        print(f"skipped: in-toto is {IN_TOTO}, and what is tried here is of {VERSION}")
        return 0
    make_known()
    with tempfile.TemporaryDirectory() as folder:
        room = Room(release, folder)
        try:
            publish(room)
            verifier = Verifier(room)
            files = verifier.same_bytes()
            verifier.verify()
            refused = refused_layouts(room, verifier) + refused_links(room, verifier)
            verifier.verify()
        except (Wrong, OSError, subprocess.SubprocessError) as error:
            print(f"in_toto_verifier: {error}")
            return 1
    print(f"in_toto_verifier: in-toto {IN_TOTO} takes {files} files, which are granted too, and refuses {refused} changes")
    return 0


if __name__ == "__main__":
    sys.exit(main(sys.argv[1:]))
