"""Layouts, links and what refers targets to them: what is read, beside the program `verdicts`; and by hand whether a layout allows a
target."""
import canonical_json
import document_shapes
import layouts
import rule_cases
import signed_documents as make
from changes import PATHS, VALUES, with_value
from delegation_shapes import many_keys
from denials import Denied
from document_parts import Rule
from documents import read_checked, read_document
from rule_cases import ONE, OTHER
from scenes import EXPIRED, LIVE, NOW, ZEROS
from test_keys import KEYS

OWNER, OTHER_OWNER, BUILDER, OTHER_BUILDER, PACKER, STRANGER = KEYS[0:6]
# No command checks these signatures.
ANY_SIGNER = [(OWNER.id, "00")]
STEP_NAMES = ["build", "a", "9_-", "a" * 32, "targets", "root", "-a", "_a", "A", "a.b", "a/b", "é", "", "a" * 33, "a\n", None, 1, []]


# Where what refers the target `x` to a layout stands.
REFERENCE = ("targets", "x", "custom", "layout")


class Cases(document_shapes.Cases):
    """Layouts, links, or targets metadata with a target that refers to a layout, with each part changed."""

    def __init__(self, kind, random):
        super().__init__("targets", random)
        self.kind, self.signers = kind, ANY_SIGNER
        if kind == "layout":
            steps = [make.step("build", KEYS[2:4], 2, [["ALLOW", "*"]], rule_cases.MATCHED), make.step("pack", KEYS[4:5], 1)]
            self.signed = make.layout(LIVE, KEYS[2:5], steps)
        elif kind == "targets":
            self.signed = make.targets(4, LIVE, {"x": (0, ONE), "y": (1, OTHER)})
            reference = make.layout_reference(KEYS[2:4], 2, ["links/a", "links/b"], "layout", "dist/x", "pack")
            self.signed["targets"]["x"]["custom"] = {"layout": reference}
        else:
            self.signed = make.link("build", {"src/a": ONE}, {"a": OTHER, "b": ONE})
        self.good = make.signed_file(self.signed, self.signers)
        self.envelope = canonical_json.read(self.good)[0]

    def values_for(self, place):
        """Of the keys, which are alike, one is changed throughout."""
        if place[:1] == ("keys",) and place[1:] and place[1] != BUILDER.id:
            return []
        return VALUES

    def put(self, place, value):
        self.sign(f"{place} as {value!r}", with_value(self.signed, place, value))

    def rule_lists(self):
        for words, _ in rule_cases.BY_HAND:
            for place in (("steps", 0, "expected_products"), ("steps", 1, "expected_materials")):
                self.put(place, [words])
                self.put(place, [["ALLOW", "*"], words, ["ALLOW", "*"]])
        for count in (0, 1, 63, 64, 65):
            self.put(("steps", 1, "expected_products"), [["ALLOW", "*"]] * count)
            self.put(("steps", 0, "expected_materials"), [["DISALLOW", "a"]] * count)

    def layout(self):
        step = self.signed["steps"][1]
        for count in (0, 1, 2, 15, 16, 17):
            self.put(("steps",), [{**step, "name": f"s{number}"} for number in range(count)])
        for name in STEP_NAMES:
            self.put(("steps", 1, "name"), name)
        for inspect in ([], [{}], [[]], {}, None, [1]):
            self.put(("inspect",), inspect)
        more = {**self.signed, "keys": {**self.signed["keys"], **many_keys(20)}}
        ids = list(many_keys(20))
        for count in (0, 1, 2, 15, 16, 17):
            for threshold in (0, 1, count, count + 1, 16, 17):
                self.sign(f"threshold {threshold} of {count}", with_value(more, ("steps", 1), {**step, "pubkeys": ids[:count], "threshold": threshold}))
        for count in (255, 256, 257):
            self.sign(f"{count} keys", {**self.signed, "keys": {**many_keys(count - 3), **self.signed["keys"]}})
        self.put(("steps", 1), {**step, "keyids": step["pubkeys"]})
        self.put(("steps", 1), {name if name != "pubkeys" else "keyids": value for name, value in step.items()})
        self.rule_lists()
        self.keys()
        self.wrappings(("keys",), ("steps", 1), "pubkeys")

    def refer(self, member, value):
        self.put((*REFERENCE, member), value)

    def targets(self):
        for path in PATHS:
            for member in ("path", "product"):
                self.refer(member, path)
            self.refer("links", [path])
            self.refer("links", ["links/a", path, "links/b"])
        for links in ([], ["layout"], ["a", "layout"], ["a", "a"], ["a", "b", "a"], ["b", "a"], ["dist/x"], ["x"]):
            self.refer("links", links)
        for count in (1, 63, 64, 65):
            links = [f"l{number}" for number in range(count)]
            for last in ("l", "l0", "layout", "A b"):
                self.refer("links", links)
                self.refer("links", [*links[1:], last])
        for name in STEP_NAMES:
            self.refer("step", name)
        reference = self.signed["targets"]["x"]["custom"]["layout"]
        table = many_keys(20)
        for count in (0, 1, 2, 15, 16, 17):
            for threshold in (0, 1, count, count + 1, 16, 17):
                self.put(REFERENCE, {**reference, "keys": table, "keyids": list(table)[:count], "threshold": threshold})
        for count in (255, 256, 257):
            self.refer("keys", {**many_keys(count - 2), **reference["keys"]})
        self.wrappings((*REFERENCE, "keys"), REFERENCE)
        misnamed = {**reference, "keys": {**reference["keys"], ZEROS: reference["keys"][BUILDER.id]}}
        delegating = {**self.signed, "delegations": {"keys": {ZEROS: reference["keys"][BUILDER.id]}, "roles": []}}
        for further in (reference, misnamed, {**misnamed, "links": []}, {**misnamed, "x": 1}, {}):
            for signed in (self.signed, delegating, {**delegating, "version": 0}):
                listed = with_value(signed, ("targets", "y", "custom"), {"layout": further, "a": 1})
                self.sign("two references", listed)
                self.sign("two references, the first misnamed", with_value(listed, REFERENCE, misnamed))

    def link(self):
        for name in STEP_NAMES:
            self.put(("name",), name)
        for path in PATHS:
            for side in ("materials", "products"):
                self.put((side,), {path: {"sha256": ONE}})
                self.put((side, path), {"sha256": ONE})
        for hashes in ({"sha256": ONE, "sha512": "x"}, {"sha512": ONE}, {}, ONE, {"sha256": "A" * 64}, {"sha256": ONE[1:]}, None):
            self.put(("products", "a"), hashes)
        self.put(("materials",), {f"p{number}": {"sha256": ZEROS} for number in range(2500)})


def number_of(kind, text):
    try:
        read_checked(kind, text)
    except Denied as denied:
        return str(denied.number)
    return "ok"


def compare_reader(session, random, kind):
    """What `verdicts` prints of each file: `ok`, or the number of the check that fails first."""
    files = Cases(kind, random).all()
    printed, _ = rule_cases.run([f"document {kind} {text.hex() or '-'}" for _, text in files])
    session.check("one verdict a file", len(files), len(printed))
    for (label, text), found in zip(files, printed):
        session.check(f"read by verdicts: {label}", number_of(kind, text), found)


def layout_of(steps, expires=LIVE, signers=(OWNER,)):
    return read_document("layout", make.signed_file(make.layout(expires, KEYS[2:5], steps), signers))


def link_of(name, materials, products, signer):
    return read_document("link", make.signed_file(make.link(name, materials, products), [signer]))


SOURCE, BUILT = {"src/a": ONE}, {"a": OTHER}
BUILD = make.step("build", [BUILDER, OTHER_BUILDER], 2, [["ALLOW", "src/*"], ["DISALLOW", "*"]], [["CREATE", "a"], ["DISALLOW", "*"]])
PACK = make.step("pack", [PACKER], 1, [["MATCH", "*", "WITH", "PRODUCTS", "FROM", "build"], ["DISALLOW", "*"]], [["REQUIRE", "a.tgz"]])
STEPS = [BUILD, PACK]
LINKS = [("build", SOURCE, BUILT, BUILDER), ("build", SOURCE, BUILT, OTHER_BUILDER), ("pack", BUILT, {"a.tgz": ONE}, PACKER)]
OWNERS = ([OWNER, OTHER_OWNER], 1)
PRODUCT = ("pack", "a.tgz", ONE)


def judged(label, wanted, steps=STEPS, links=LINKS, expires=LIVE, signers=(OWNER,), owners=OWNERS, product=PRODUCT):
    return label, wanted, steps, links, expires, signers, owners, product


# What is wanted: None where the target is allowed, or the denial.
JUDGED = [
    judged("all good", None),
    judged("a stranger's link besides", None, links=[*LINKS, ("build", BUILT, SOURCE, STRANGER)]),
    judged("a link of no step besides", None, links=[*LINKS, ("sign", BUILT, SOURCE, BUILDER)]),
    judged("a link by a key of another step", None, links=[*LINKS, ("pack", SOURCE, SOURCE, BUILDER)]),
    judged("one functionary's two links, and another's", None, links=[LINKS[0], *LINKS]),
    judged("no owner", "LayoutThreshold", signers=(STRANGER,)),
    judged("nobody", "LayoutThreshold", signers=()),
    judged("one of two owners", "LayoutThreshold", owners=(OWNERS[0], 2)),
    judged("both owners", None, owners=(OWNERS[0], 2), signers=(OWNER, OTHER_OWNER)),
    judged("no owner, and expired", "LayoutThreshold", signers=(), expires=EXPIRED),
    judged("expired", "LayoutExpired", expires=EXPIRED),
    judged("expired, and no links", "LayoutExpired", expires=EXPIRED, links=[]),
    judged("no links", "StepThreshold", links=[]),
    judged("one link of two", "StepThreshold", links=LINKS[1:]),
    judged("two links of one functionary", "StepThreshold", links=[LINKS[0], LINKS[0], LINKS[2]]),
    judged("two links of one functionary that differ", "StepThreshold", links=[LINKS[0], ("build", SOURCE, SOURCE, BUILDER), LINKS[2]]),
    judged("a stranger's link alone", "StepThreshold", links=[*LINKS[:2], ("pack", BUILT, {"a.tgz": ONE}, STRANGER)]),
    judged("the last step's links are missing, and the first's differ", "StepThreshold", links=[LINKS[0], ("build", SOURCE, SOURCE, OTHER_BUILDER)]),
    judged("differing products", "LinksDisagree", links=[LINKS[0], ("build", SOURCE, {"a": ONE}, OTHER_BUILDER), LINKS[2]]),
    judged("differing materials", "LinksDisagree", links=[LINKS[0], ("build", {}, BUILT, OTHER_BUILDER), LINKS[2]]),
    judged("a third link that differs", "LinksDisagree", links=[*LINKS, ("build", {}, BUILT, BUILDER)]),
    judged("a forbidden material", "Disallowed", links=[*(("build", {"b": ONE}, BUILT, key) for key in KEYS[2:4]), LINKS[2]]),
    judged("a forbidden product", "Disallowed", links=[*(("build", SOURCE, {**BUILT, "b": ONE}, key) for key in KEYS[2:4]), LINKS[2]]),
    judged("a material of another digest", "Disallowed", links=[*LINKS[:2], ("pack", {"a": ONE}, {"a.tgz": ONE}, PACKER)]),
    judged("a required product", "Required", links=[*LINKS[:2], ("pack", BUILT, {}, PACKER)]),
    judged("materials before products", "Disallowed", links=[*LINKS[:2], ("pack", SOURCE, {}, PACKER)]),
    judged("products before the next step", "Required", [make.step("build", [BUILDER], 1, [], [["REQUIRE", "x"]]), PACK], [LINKS[0], ("pack", SOURCE, {}, PACKER)]),
    judged("another digest", "ProductMismatch", product=("pack", "a.tgz", OTHER)),
    judged("no such product", "ProductMismatch", product=("pack", "a", OTHER)),
    judged("a product of another step", None, product=("build", "a", OTHER)),
    judged("no such step", "ProductMismatch", product=("ship", "a.tgz", ONE)),
]


def compare_by_hand(session, _random):
    for label, wanted, steps, links, expires, signers, (keys, threshold), (step, product, digest) in JUDGED:
        owners = Rule([key.id for key in keys], threshold, {key.id: key.public.hex() for key in keys})
        held = [link_of(*link) for link in links]
        found = layouts.verdict(layout_of(steps, expires, signers), owners, held, step, product, digest, NOW)
        session.check(f"layout: {label}", wanted, found)
