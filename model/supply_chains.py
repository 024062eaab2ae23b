"""Random supply chains: a layout, its links, and what refers a target to them. Mostly they hold, or have a fault or two."""
import signed_documents as make

STEPS = ("build", "test", "pack")
FAULTS = (
    "owner", "expired", "fewer links", "stranger", "same functionary", "disagreeing", "further product", "further material", "other digest",
    "required", "no product", "no step", "other product", "two signatures", "no link", "no layout", "unlisted link", "unlisted layout",
    "nested link", "nested layout", "long link", "another's product",
)
SOURCE = make.digest(b"source")


class Chain:
    """Some steps one after another, each of which takes what the one before made.

    The paths of what a step makes begin with the step's name, and those of what it takes with `in`.
    """

    def __init__(self, random, keys, blob, now):
        self.random, self.keys, self.blob, self.now = random, keys, blob, now
        self.steps = random.sample(STEPS, random.choice((1, 1, 2, 2, 3)))
        self.faults = set(random.sample(FAULTS, random.choice((0, 0, 0, 1, 1, 2, 3))))
        self.owners = random.sample(keys, random.choice((1, 2)))
        self.files = random.sample(("a", "b/c", "d.o", "e"), random.choice((1, 2, 3)))
        self.product = f"{self.steps[-1]}/{self.files[0]}"
        self.rules = {step: self.functionaries() for step in self.steps}

    def functionaries(self):
        count = self.random.choice((1, 1, 2, 3))
        return self.random.sample(self.keys, count), self.random.randint(1, min(2, count))

    def made_digest(self, step, file):
        if step == self.steps[-1] and file == self.files[0]:
            return make.digest(self.blob)
        return make.digest(f"{step} {file}".encode())

    def materials(self, step):
        place = self.steps.index(step)
        if place == 0:
            return {f"in/{file}": SOURCE for file in self.files}
        return {f"in/{file}": self.made_digest(self.steps[place - 1], file) for file in self.files}

    def products(self, step):
        return {f"{step}/{file}": self.made_digest(step, file) for file in self.files}

    def material_rules(self, step):
        place = self.steps.index(step)
        if place == 0:
            return self.random.choice(([["ALLOW", "in/*"], ["DISALLOW", "*"]], [], [["DELETE", "*"], ["DISALLOW", "in*"]]))
        before = self.steps[place - 1]
        matched = ["MATCH", self.random.choice(("*", "*", "?*", "a")), "IN", "in", "WITH", "PRODUCTS", "IN", before, "FROM", before]
        return [matched, *self.random.choice(([["DISALLOW", "*"]], [["ALLOW", "in/b*"], ["DISALLOW", "*"]], [["ALLOW", "*"]]))]

    def product_rules(self, step):
        required = [["REQUIRE", f"{step}/{self.files[0]}"]] if self.random.random() < 0.5 else []
        if "required" in self.faults:
            required = [["REQUIRE", f"{step}/none"]]
        taken = self.random.choice((["CREATE", f"{step}/*"], ["CREATE", "*"], ["ALLOW", f"{step}*"], ["MODIFY", "*"]))
        last = self.random.choice(([["DISALLOW", "*"]], [["DISALLOW", "in*"]], []))
        return [*required, taken, *last]

    def layout(self):
        keys = {key.id: key for signers, _ in self.rules.values() for key in signers}
        steps = [make.step(step, *self.rules[step], self.material_rules(step), self.product_rules(step)) for step in self.steps]
        signers = [] if "owner" in self.faults else self.owners
        expires = self.now if "expired" in self.faults else self.now + self.random.choice((1, 10000))
        return make.signed_file(make.layout(expires, list(keys.values()), steps), signers)

    def changed(self, step, number, materials, products):
        """What a link says, with the faults that are in the chain."""
        if "further product" in self.faults:
            products[f"{step}/z"] = SOURCE
        if "further material" in self.faults:
            materials["z"] = SOURCE
        if "other digest" in self.faults and step != self.steps[0]:
            materials[min(materials)] = SOURCE
        if "disagreeing" in self.faults and number == 1:
            products["y"] = SOURCE
        if "no product" in self.faults:
            products.pop(self.product, None)
        return materials, products

    def links(self):
        """Each with the step's functionaries that are needed, at times more."""
        links = []
        for step in self.steps:
            signers, threshold = self.rules[step]
            count = self.random.choice((threshold, len(signers)))
            for number in range(count - ("fewer links" in self.faults)):
                signer = signers[0] if "same functionary" in self.faults else signers[number]
                if "stranger" in self.faults and number == 0:
                    signer = self.random.choice(self.keys)
                said = self.changed(step, number, self.materials(step), self.products(step))
                signed = make.link(step, *said)
                links.append(make.signed_file(signed, [signer] if "two signatures" not in self.faults else self.keys[:2]))
        return links or [make.signed_file(make.link("none", {}, {}), self.keys[:1])]

    def reference(self, paths):
        step = "none" if "no step" in self.faults else self.steps[-1]
        product = "in/a" if "other product" in self.faults else self.product
        if "another's product" in self.faults:
            step = self.steps[0]
        threshold = self.random.randint(1, len(self.owners))
        return make.layout_reference(self.owners, threshold, paths, "chain/layout", product, step)

    def listed(self, role):
        """What is said of the layout and of its links, what refers the target to them, and all their files."""
        files = {f"chain/{role}{number}": link for number, link in enumerate(self.links())}
        paths = self.random.sample(list(files), len(files))
        if "no link" in self.faults:
            files[paths[-1]] = b"no link"
        files["chain/layout"] = b"no layout" if "no layout" in self.faults else self.layout()
        said = {path: make.listing(len(file), make.digest(file)) for path, file in files.items()}
        if "long link" in self.faults:
            said[paths[0]]["length"] += 1
        reference = self.reference(paths)
        for fault, path in (("nested link", paths[-1]), ("nested layout", "chain/layout")):
            if fault in self.faults:
                said[path]["custom"] = {"layout": {**reference, "path": "a", "links": ["b"]}}
        for fault, path in (("unlisted link", paths[-1]), ("unlisted layout", "chain/layout")):
            if fault in self.faults:
                del said[path]
        return said, reference, list(files.values())
