"""The command `draft` over folders: layouts, links, and what `take` brings in, one call after the other, beside the model."""
import copy
import json
import os
import shutil
from contextlib import contextmanager

import canonical_json
import chain_drafting
import drafting
import signed_documents as make
from chain_drafting import Denied, Drafts, File, Step
from drafting import Refused
from drafting_cases import CALLED, TERMS, name_of, random_rules, rule_words, term_words
from signed_documents import BEGIN, digest
from test_keys import LMS_KEYS as KEYS

TARGETS = ("a", "a.build", "a-build", "dir/b", "dir/b.build", "dir/deep/b")
STEPS = ("build", "test", "pack", "0-_", "layout")
MADE = ("a", "out/b.o", "c")
PATTERNS = ("out/*", "?", "*.tgz")
RULES = (
    ["ALLOW", "in/*"], ["CREATE", "a"], ["DELETE", "*"], ["MODIFY", "out/b.o"], ["REQUIRE", "a"], ["DISALLOW", "*"],
    ["MATCH", "*", "WITH", "PRODUCTS", "FROM", "build"], ["MATCH", "b", "IN", "x", "WITH", "MATERIALS", "IN", "y/z", "FROM", "pack"],
)
FILES = ("one", "two.txt", "dir/three", "dir/deep/four")
SIGNERS = KEYS[:6]


@contextmanager
def inside(folder):
    """The paths of a link are as typed, from the current folder."""
    before = os.getcwd()
    os.chdir(folder)
    try:
        yield
    finally:
        os.chdir(before)


class Folder:
    """A folder of drafts of the program, beside that of the model. `sent` has what other machines send back."""

    def __init__(self, session, documents=()):
        self.session = session
        self.path, self.sent = session.folder / "drafts", session.folder / "sent"
        for place in (self.path, self.sent):
            shutil.rmtree(place, ignore_errors=True)
        os.makedirs(self.path / "files")
        os.makedirs(self.sent)
        self.model = Drafts({})
        self.spent = {}
        for role, signed in documents:
            self.model.documents[role] = File(signed)
            (self.path / f"{role}.json").write_bytes(File(signed).bytes())
        for key in KEYS:
            (session.folder / f"{name_of(key)}.key").write_bytes(canonical_json.write(drafting.key_object(key.public.hex())) + b"\n")

    def files(self):
        """What stands in the folder, but for target files and what is held."""
        places = [place for place in sorted(self.path.rglob("*.json")) if place.parent.name != "held"]
        return {str(place.relative_to(self.path)): place.read_bytes() for place in places}

    def run(self, label, make_draft, words, now):
        """Runs `draft`, and compares its end and all files that it leaves. What is refused leaves the folder as it was."""
        before, stood = copy.deepcopy(self.model), self.all_files()
        wanted = ended_by(lambda: self.model.see_listable("--anew" in words) or make_draft(self.model))
        status, _, told = self.session.run("draft", "--at", str(now), "--in", str(self.path), *words)
        if wanted is None:
            self.spent.update(taken_off(before.files(), self.model.files()))
            return self.session.check(f"{label}: drafts", *without_same((0, {**self.model.files(), **self.spent}), (status, self.files())), " ".join(words))
        self.model = before
        is_refused = self.session.check(f"{label}: refused", (1, [wanted]), (status, told.decode().splitlines()[-1:]), " ".join(words))
        if label.startswith("take") and wanted == "refused signed":
            # What comes in stays there, though it is listed nowhere: that ends a case.
            return False
        both = without_same((wanted, stood), (wanted, self.all_files()))
        return is_refused and self.session.check(f"{label}: what a refused draft leaves", *both, " ".join(words))

    def all_files(self):
        return {str(place.relative_to(self.path)): place.read_bytes() for place in sorted(self.path.rglob("*")) if place.is_file()}

    def sign(self, random):
        """Some documents and layouts get a signature, as on another machine."""
        for file in (*self.model.documents.values(), *self.model.layouts.values()):
            if random.random() < 0.3 and not file.entries:
                file.entries = signed_by(file.signed, [random.choice(SIGNERS)]).entries
        for name, text in self.model.files().items():
            (self.path / name).write_bytes(text)

    def send(self, name, file):
        place = self.sent / name
        place.write_bytes(file.bytes())
        return str(place)


def taken_off(before, behind):
    """What had signatures and has none any more: it is kept under its digest."""
    are_gone = [text for name, text in before.items() if name in behind and signatures_in(text) and not signatures_in(behind[name])]
    return {f"spent/{digest(text)}.json": text for text in are_gone}


def signatures_in(text):
    return json.loads(text, strict=False)["signatures"]


def without_same(wanted, found):
    """Both ends, each with those of its files that the other has not."""
    (status, files), (ended, there) = wanted, found
    return (status, dict(files.items() - there.items())), (ended, dict(there.items() - files.items()))


def ended_by(make_draft):
    """The line that is told where there is no draft."""
    try:
        make_draft()
    except Refused as refused:
        return f"refused {refused}"
    except Denied as denied:
        return str(denied)
    return None


def signed_by(signed, keys):
    return File(signed, [make.signature_entry(key, canonical_json.write(signed)) for key in keys])


def random_step(random, name, keys):
    """A step by some keys, at times with rules in the place of the usual ones."""
    signers = random.sample(keys, random.randint(1, 3))
    made = [*random.sample(PATTERNS, random.randint(0, 2)), *random.sample(MADE, random.randint(1, 2))]
    step = Step(name, signers, random.randint(1, len(signers)), made)
    if random.random() < 0.25:
        step.materials = random.sample(RULES, random.randint(1, 3))
    if random.random() < 0.25:
        step.products = random.sample(RULES, random.randint(1, 3))
    return step


def step_word(folder, step):
    keys = ",".join(f"{folder}/{name_of(key)}.key" for key in step.keys)
    return f"{step.name}={step.threshold}@{keys}:{','.join(step.made)}"


def rule_file(session, steps):
    """The file of rules, and the words that name it; none where each step has the usual ones."""
    lines = [f"{step.name} {side} {' '.join(rule)}" for step in steps for side in ("materials", "products") for rule in getattr(step, side) or ()]
    if not lines:
        return []
    place = session.folder / "rules"
    place.write_text("\n".join(lines) + "\n")
    return ["--rules", str(place)]


def anew_words(random, share=0.5):
    return ["--anew"] if random.random() < share else []


def draft_layout(folder, random, target, now):
    """A layout of random steps; a target that is not listed is refused, and what has signatures without `--anew`."""
    session = folder.session
    steps = [random_step(random, name, SIGNERS) for name in random.sample(STEPS, random.randint(1, 3))]
    (_, owners, threshold), = random_rules(random, ["owners"])
    given = random.choice(TERMS)
    (rule,) = rule_words(session.folder, [("owners", owners, threshold)])
    anew = anew_words(random)
    words = [*anew, "layout", "--target", target, "--owners", rule.partition("=")[2], *rule_file(session, steps), *term_words(given)]
    words += [step_word(session.folder, step) for step in steps]
    return folder.run("layout", lambda model: model.draft_layout(target, steps, owners, threshold, CALLED, given, now, bool(anew)), words, now)


def listed_targets(random):
    """Targets metadata that list some targets, and at times those of another role."""
    places = random.sample(TARGETS, random.randint(1, 4))
    further = [path for path in places if "/" in path] if random.random() < 0.5 else []
    for role, paths in (("targets", [path for path in places if path not in further]), ("dev", further)):
        if paths:
            signed = make.targets(1, BEGIN + 10**6, {path: (len(path), digest(path.encode())) for path in paths})
            signed["targets"][paths[0]]["custom"] = {"kept": [1, None]}
            yield role, {**signed, "kept": "z", **({"term": random.choice((10**6, 10**6, 2**40))} if random.random() < 0.5 else {})}


def compare_layouts(session, random, count):
    """Layouts one after the other: several targets, each layout drafted again, at times once it is signed, with usual rules and with those of a file."""
    for _ in range(count):
        folder = Folder(session, listed_targets(random))
        for step in range(random.randint(1, 6)):
            if not draft_layout(folder, random, random.choice([*TARGETS, *listed_here(folder)]), BEGIN + step * 1000):
                break
            if random.random() < 0.3:
                folder.sign(random)


def compare_links(session, random, count):
    """Links in several calls: materials and products whose files change between them, files that are none or have no path of a target, and links that
    are signed between two calls."""
    for _ in range(count):
        folder = Folder(session)
        begun = {}
        for _ in range(random.randint(1, 5)):
            with inside(session.folder):
                if not compare_link(folder, random, begun):
                    break
            if begun and random.random() < 0.3:
                sign_link(folder, random, begun)


def sign_link(folder, random, begun):
    name = random.choice(list(begun))
    begun[name] = signed_by(begun[name].signed, [random.choice(SIGNERS)])
    (folder.path / f"links/{name}.json").write_bytes(begun[name].bytes())


def artifacts(random):
    """Files with their digests, as they are now."""
    said = []
    for path in random.sample(FILES, random.choice((0, 1, 1, 2, 3))):
        text = random.randbytes(random.randint(0, 40))
        os.makedirs(os.path.dirname(path) or ".", exist_ok=True)
        with open(path, "wb") as file:
            file.write(text)
        said.append((path, digest(text)))
    if random.random() < 0.05:
        said.append(("./one" if os.path.exists("one") else "/dev/null", None))
    return said


def compare_link(folder, random, begun):
    """A path that is none of a target is denied. A file that is both a material and a product is read once the words are, so as it is then."""
    name, anew = random.choice(STEPS[:2]), anew_words(random)
    sides = artifacts(random), artifacts(random)
    words = [*anew, "link", "--step", name]
    words += [word for option, side in zip(("--materials", "--products"), sides) for path, _ in side for word in (option, path)]
    said = {path: digest(read(path)) for side in sides for path, _ in side}
    materials, products = ([(path, said[path]) for path, _ in side] for side in sides)
    wanted = ended_by(lambda: draft_link(folder, begun, name, materials, products, bool(anew)))
    status, _, told = folder.session.run("draft", "--in", str(folder.path), *words)
    if wanted is not None:
        folder.session.check("link: refused", (1, [wanted]), (status, told.decode().splitlines()[-1:]), " ".join(words))
    files = {**{f"links/{step}.json": link.bytes() for step, link in begun.items()}, **folder.spent}
    return folder.session.check("link: drafts", (0 if wanted is None else 1, files), (status, folder.files()), " ".join(words))


def draft_link(folder, begun, name, materials, products, anew):
    """A signature that is taken off is kept, whatever becomes of the draft."""
    old = begun.get(name)
    if old and old.entries and not anew:
        raise Refused("signed")
    if old and old.entries:
        folder.spent[f"spent/{digest(old.bytes())}.json"] = old.bytes()
    if any(path.startswith(("/", "./")) for path, _ in materials + products):
        raise Denied("denied 3 WrongShape")
    begun[name] = File(chain_drafting.next_link(old and old.signed, name, materials, products))


def read(path):
    with open(path, "rb") as file:
        return file.read()


def take_document(folder, random, now):
    """A document that was signed elsewhere: all that is drafted, or that of another role; at times over another signed part."""
    role = random.choice(("root", "targets", "targets", "dev", "snapshot", "timestamp", "other"))
    draft = folder.model.documents.get(role)
    signed = copy.deepcopy(draft.signed) if draft else further_document(random, role)
    if random.random() < 0.15:
        signed["z"] = "changed"
    file = signed_by(signed, random.sample(SIGNERS, random.randint(0, 3)))
    if random.random() < 0.1:
        file.entries += make.empty_signatures(random.randint(10, 16 - len(file.entries)))
    anew = anew_words(random, 0.2)
    words = [*anew, "take", folder.send(f"{role}.json", file)]
    return folder.run("take: a document", lambda model: model.take_document(role, file, bool(anew)), words, now)


def further_document(random, role):
    if role in ("snapshot", "timestamp"):
        return make.timestamp(1, BEGIN + 9, 1) if role == "timestamp" else make.snapshot(1, BEGIN + 9, {"targets": (1,)})
    if role == "root":
        return make.root(1, BEGIN + 9, {it: (KEYS[:1], 1) for it in drafting.TOP_ROLES})
    return {**make.targets(1, BEGIN + 9, {}), "term": 9}


def take_layout(folder, random, now):
    """A layout that was signed elsewhere: of a target here, or of another one; at times over another signed part."""
    target = random.choice(TARGETS)
    layout = folder.model.layouts.get(target)
    signed = copy.deepcopy(layout.signed) if layout else make.layout(BEGIN + 9, KEYS[:1], [make.step("build", KEYS[:1], 1)])
    if random.random() < 0.1:
        signed["z"] = 0
    file = signed_by(signed, random.sample(SIGNERS, random.randint(0, 3)))
    name, anew = chain_drafting.file_name(chain_drafting.layout_path(target)), anew_words(random)
    place = folder.send(name, file)
    with inside(folder.sent):
        words = [*anew, "take", random.choice((name, place))]
        return folder.run("take: a layout", lambda model: model.take_layout(name, file, bool(anew)), words, now)


def take_link(folder, random, now):
    """A link by any key, for the target that is given or for the one whose layout has its step; at times for a target whose layout has not, or that
    has none."""
    name, anew = random.choice(STEPS), anew_words(random)
    target = random.choice((None, None, "none", *folder.model.layouts, *folder.model.with_step(name)))
    said = {path: digest(random.randbytes(3)) for path in random.sample(FILES, random.randint(0, 2))}
    file = signed_by(make.link(name, {}, said), [random.choice(SIGNERS)])
    place = folder.send("link.json", file)
    with inside(folder.sent):
        words = [*anew, "take", *(["--target", target] if target else []), random.choice(("link.json", place))]
        return folder.run("take: a link", lambda model: model.take_link(target, file, bool(anew)), words, now)


def draft_again(folder, random, now):
    """A layout that is drafted after links, some of whose steps it has no more."""
    return draft_layout(folder, random, random.choice(listed_here(folder)), now)


def draft_targets(folder, random, now):
    """Targets metadata that list one more file. What another role's metadata list of layouts changes with them, where these have no signature."""
    role, path = random.choice(("targets", "dev")), random.choice(("x", "y/z"))
    given, anew, text = random.choice(TERMS), anew_words(random), random.randbytes(3)
    place = folder.session.folder / "added"
    place.write_bytes(text)
    words = [*anew, "targets", *(["--role", role] if role != "targets" else []), "--add", f"{path}={place}", *term_words(given)]
    added = [(path, len(text), digest(text))]
    return folder.run("targets", lambda model: model.draft_targets(role, added, given, now, bool(anew)), words, now)


def compare_takes(session, random, count):
    """What other machines send back, one after the other, over drafts of several documents and layouts."""
    for _ in range(count):
        documents = [(role, further_document(random, role)) for role in ("root", "snapshot", "timestamp") if random.random() < 0.6]
        folder = Folder(session, [*documents, *listed_targets(random)])
        now = BEGIN
        is_on = all(draft_layout(folder, random, target, now) for target in listed_here(folder) if random.random() < 0.7)
        for step in range(random.randint(1, 8)):
            call = random.choice((take_document, take_layout, take_link, take_link, take_link, draft_again, draft_targets))
            is_on = is_on and call(folder, random, now + step * 1000)
            if is_on and random.random() < 0.1:
                folder.sign(random)


def listed_here(folder):
    """The targets that are listed, but for layouts and links."""
    listed = [path for document in folder.model.documents.values() for path in document.signed.get("targets", ())]
    return [path for path in listed if path in TARGETS]
