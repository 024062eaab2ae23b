"""Artifact rules: by hand, and at random beside the program `verdicts`."""
import subprocess
from types import SimpleNamespace

import artifact_rules
import canonical_json
from names import is_hex, is_role_name, is_target_path
from pattern_cases import VERDICTS

ONE, OTHER = "1" * 64, "2" * 64
STEPS = ("s", "t", "build")
PATHS = ("a", "b", "a/b", "a/src/f", "b/src/f", "src/f", "a/a", "b/a", "A.tgz", "a.b", "a-b", "f", "x" * 198 + "/a", "x" * 200)
FOLDERS = ("a", "b", "a/src", "src", "b/src", "x" * 198, "y")
PATTERNS = ("*", "a", "a*", "*/f", "src/*", "?", "a/?", "*.tgz", "b*", "??b", "f", "*a", "x*")
ILL_WORDS = ("", "/a", "a/", "é", "a b", "..", "a" * 201, "IN", "materials", "A")
# A list of words, and whether it is a rule.
BY_HAND = [
    *(([keyword, "a/*"], True) for keyword in artifact_rules.WITH_PATTERN), (["REQUIRE", "a/b"], True), (["REQUIRE", "a/*"], False),
    ([], False), (["CREATE"], False), (["CREATE", "a", "b"], False), (["create", "a"], False), (["ALLOW", ""], False),
    (["ALLOW", "*" * 200], True), (["ALLOW", "*" * 201], False), (["REQUIRE", "a" * 200], True), (["REQUIRE", "a/"], False),
    (["MATCH", "*", "WITH", "MATERIALS", "FROM", "s"], True), (["MATCH", "*", "WITH", "materials", "FROM", "s"], False),
    (["MATCH", "*", "IN", "a", "WITH", "PRODUCTS", "FROM", "s"], True), (["MATCH", "*", "IN", "a/", "WITH", "PRODUCTS", "FROM", "s"], False),
    (["MATCH", "*", "WITH", "PRODUCTS", "IN", "b", "FROM", "s"], True), (["MATCH", "*", "WITH", "PRODUCTS", "FROM", "s", "IN", "b"], False),
    (["MATCH", "*", "IN", "IN", "WITH", "PRODUCTS", "IN", "IN", "FROM", "s"], True), (["MATCH", "*", "WITH", "PRODUCTS", "FROM", "S"], False),
    (["MATCH", "*", "IN", "WITH", "WITH", "PRODUCTS", "FROM", "s"], True), (["MATCH", "*", "IN", "WITH", "PRODUCTS", "FROM", "s"], False),
    (["MATCH", "*", "IN", "*", "WITH", "PRODUCTS", "FROM", "s"], False), (["MATCH", "*", "WITH", "PRODUCTS", "FROM"], False),
    (["MATCH", "*"], False), (["MATCH"], False), (["ALLOW", "é"], False), (["REQUIRE", "."], False),
]
PRODUCTS = {"p": ONE, "q": ONE}
THERE = {"materials": {"a/src/f": ONE}, "products": {}}
MATCHED = [["MATCH", "src/*", "IN", "a", "WITH", "PRODUCTS", "IN", "b", "FROM", "t"], ["DISALLOW", "*"]]
# Rules, side, links, and what is printed; the rules are about step s.
JUDGED_BY_HAND = [
    ([["CREATE", "p"], ["REQUIRE", "p"], ["DISALLOW", "*"]], "products", {"s": {"materials": {}, "products": PRODUCTS}}, "required 1 p"),
    ([["REQUIRE", "p"], ["CREATE", "p"], ["DISALLOW", "*"]], "products", {"s": {"materials": {}, "products": PRODUCTS}}, "disallowed 2 q"),
    ([], "products", {"s": {"materials": {}, "products": PRODUCTS}}, "holds"),
    (MATCHED, "materials", {"s": THERE, "t": {"materials": {}, "products": {"b/src/f": ONE}}}, "holds"),
    (MATCHED, "materials", {"s": THERE, "t": {"materials": {}, "products": {"b/src/f": OTHER}}}, "disallowed 1 a/src/f"),
    (MATCHED, "materials", {"s": THERE}, "disallowed 1 a/src/f"),
    ([["MATCH", "*", "IN", "a", "WITH", "PRODUCTS", "IN", "b", "FROM", "t"], ["MATCH"]], "materials", {"s": THERE}, "no_rule 1"),
]


def value_of(rules, side, links, step):
    said = {
        name: {key: {path: {"sha256": digest} for path, digest in link[key].items()} for key in ("materials", "products")}
        for name, link in links.items()
    }
    return {"links": said, "rules": rules, "side": side, "step": step}


def wanted(rules, side, links, step):
    """What the program prints of a case."""
    read = [artifact_rules.read_rule(words) for words in rules]
    if None in read:
        return f"no_rule {read.index(None)}"
    held = {name: SimpleNamespace(**link) for name, link in links.items()}
    fault = artifact_rules.fault(read, side, held[step], held)
    return "holds" if fault is None else " ".join(map(str, fault))


def random_artifacts(random):
    return {path: random.choice((ONE, ONE, OTHER)) for path in random.sample(PATHS, random.randint(0, 8))}


def random_rule(random):
    """Most are rules, and some nearly."""
    keyword = random.choice(("CREATE", "DELETE", "MODIFY", "ALLOW", "DISALLOW", "DISALLOW", "REQUIRE", "MATCH", "MATCH", "MATCH"))
    if keyword == "REQUIRE":
        words = [keyword, random.choice(PATHS)]
    elif keyword != "MATCH":
        words = [keyword, random.choice(PATTERNS)]
    else:
        named = {
            "pattern": random.choice(PATTERNS), "folder": random.choice(FOLDERS), "other folder": random.choice(FOLDERS),
            "side": random.choice(("MATERIALS", "PRODUCTS")), "step": random.choice((*STEPS, "absent")),
        }
        words = [named.get(place, place) for place in random.choice(artifact_rules.MATCH_FORMS)]
    if random.random() < 0.02:
        kind = random.randrange(3)
        if kind == 0:
            words[random.randrange(len(words))] = random.choice(ILL_WORDS)
        elif kind == 1:
            del words[random.randrange(len(words))]
        else:
            words.insert(random.randint(0, len(words)), random.choice((*ILL_WORDS, "FROM", "WITH", "a")))
    return words


def random_case(random):
    """The same artifact stands in several links, so that rules take some and leave some."""
    shared = random_artifacts(random)
    links = {}
    for step in random.sample(STEPS, random.randint(1, 3)):
        links[step] = {key: {**random_artifacts(random), **random.choice(({}, shared))} for key in ("materials", "products")}
    rules = [random_rule(random) for _ in range(random.randint(0, 8))]
    return rules, random.choice(("materials", "products")), links, random.choice(sorted(links))


def run(lines):
    ran = subprocess.run([VERDICTS], input="\n".join(lines).encode(), stdout=subprocess.PIPE, stderr=subprocess.PIPE, check=False)
    return ran.stdout.decode().splitlines(), ran.returncode


def line_of(text):
    return f"rules {text.hex() or '-'}"


def compare_by_hand(session, _random):
    """The model alone, which is held to what is wanted."""
    for words, is_rule in BY_HAND:
        session.check(f"a rule: {words}", is_rule, artifact_rules.read_rule(words) is not None)
    for rules, side, links, printed in JUDGED_BY_HAND:
        session.check(f"rules: {rules}", printed, wanted(rules, side, links, "s"))


def compare_rules(session, random, count):
    """Lists of words by hand, each alone, and random cases."""
    links = {"s": {"materials": {"a": ONE}, "products": {"a/b": ONE}}}
    cases = [([words], side, links, "s") for words, _ in BY_HAND for side in ("materials", "products")]
    cases += [(rules, side, links, "s") for rules, side, links, _ in JUDGED_BY_HAND]
    cases += [random_case(random) for _ in range(count)]
    printed, _ = run([line_of(canonical_json.write(value_of(*case))) for case in cases])
    session.check("one verdict a case", len(cases), len(printed))
    for case, found in zip(cases, printed):
        session.check(f"rules {case}", wanted(*case), found)


def is_case(value):
    """Whether the program takes the value as a case."""
    if type(value) is not dict or set(value) != {"links", "rules", "side", "step"} or type(value["links"]) is not dict:
        return False
    for name, link in value["links"].items():
        if not is_role_name(name) or type(link) is not dict or set(link) != {"materials", "products"}:
            return False
        if not all(type(link[key]) is dict and all(map(is_target_path, link[key])) for key in link):
            return False
        hashes = [said for key in link for said in link[key].values()]
        if not all(type(said) is dict and set(said) == {"sha256"} and is_hex(said["sha256"], 64) for said in hashes):
            return False
    rules = value["rules"]
    if type(rules) is not list or not all(type(words) is list and all(type(word) is str for word in words) for words in rules):
        return False
    return value["side"] in ("materials", "products") and type(value["step"]) is str and value["step"] in value["links"]


def compare_shapes(session, random):
    """A case changed at every place: it is still one, or the line is not understood."""
    from changes import VALUES, changed_bytes, places, with_member, with_value, without

    links = {"s": {"materials": {"a": ONE}, "products": {}}, "t": {"materials": {}, "products": {"b": ONE}}}
    good = value_of([["ALLOW", "*"], ["REQUIRE", "a"]], "materials", links, "s")
    values = [good]
    for place in places(good):
        values += [with_value(good, place, put) for put in random.sample(VALUES, 12)]
        if place:
            values.append(without(good, place))
        parent = good
        for part in place:
            parent = parent[part]
        if type(parent) is dict:
            values += [with_member(good, place, name, put) for name in ("zzz", "", "é") for put in (1, {"materials": {}, "products": {}})]
    texts = [canonical_json.write(value) for value in values]
    texts += [changed_bytes(random, texts[0], random.randrange(len(texts[0]))) for _ in range(300)]
    for text in texts:
        try:
            value, _ = canonical_json.read(text)
            understood = is_case(value)
        except canonical_json.NotCanonical:
            understood = False
        printed, status = run([line_of(text)])
        if understood:
            case = {name: {key: {path: said["sha256"] for path, said in link[key].items()} for key in link} for name, link in value["links"].items()}
            session.check(f"a case: {text}", ([wanted(value["rules"], value["side"], case, value["step"])], 0), (printed, status))
        else:
            session.check(f"no case: {text}", ([], 2), (printed, status))
