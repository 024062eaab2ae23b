"""Artifact rules (in-toto 1.0, section 4.3.3): which lists of words are rules, what a rule takes, and whether a list holds.

A link has `name`, and `materials` and `products`, each from path to digest. Links are a dictionary from steps to links.
"""
from names import is_role_name, is_target_path
from patterns import is_pattern, matches_flat

MAXIMUM_PATH = 200
WITH_PATTERN = ("CREATE", "DELETE", "MODIFY", "ALLOW", "DISALLOW")
# The words of MATCH that stand beside what it names, without a folder, with one of the two, and with both.
MATCH_FORMS = [
    ("MATCH", "pattern", "WITH", "side", "FROM", "step"),
    ("MATCH", "pattern", "IN", "folder", "WITH", "side", "FROM", "step"),
    ("MATCH", "pattern", "WITH", "side", "IN", "other folder", "FROM", "step"),
    ("MATCH", "pattern", "IN", "folder", "WITH", "side", "IN", "other folder", "FROM", "step"),
]
# What each of these has to be.
OF_GRAMMAR = {
    "pattern": is_pattern, "folder": is_target_path, "other folder": is_target_path, "step": is_role_name,
    "side": lambda word: word in ("MATERIALS", "PRODUCTS"),
}


def match_parts(words, form):
    """What the words name by this form, or None."""
    if len(words) != len(form):
        return None
    parts = {}
    for word, place in zip(words, form):
        if place.isupper():
            if word != place:
                return None
        elif OF_GRAMMAR[place](word):
            parts[place] = word
        else:
            return None
    return parts


def read_rule(words):
    """The keyword with what belongs to it, or None."""
    if len(words) == 2 and words[0] in WITH_PATTERN and is_pattern(words[1]):
        return words[0], words[1]
    if len(words) == 2 and words[0] == "REQUIRE" and is_target_path(words[1]):
        return words[0], words[1]
    for form in MATCH_FORMS:
        parts = match_parts(words, form)
        if parts is not None:
            return "MATCH", parts
    return None


def side_of(link, side):
    return link.materials if side == "materials" else link.products


def matched_elsewhere(parts, path, digest, links):
    """Whether the link of the other step has the artifact too."""
    rest = path
    if "folder" in parts:
        if not path.startswith(parts["folder"] + "/"):
            return False
        rest = path[len(parts["folder"]) + 1:]
    if not matches_flat(parts["pattern"], rest) or parts["step"] not in links:
        return False
    counterpart = parts["other folder"] + "/" + rest if "other folder" in parts else rest
    if len(counterpart) > MAXIMUM_PATH:
        return False
    return side_of(links[parts["step"]], parts["side"].lower()).get(counterpart) == digest


def takes(rule, side, link, links, path):
    """Whether the rule takes the path, if it is left. `path` is one of the side."""
    keyword, what = rule
    before, after = link.materials, link.products
    if keyword == "CREATE":
        return matches_flat(what, path) and path in after and path not in before
    if keyword == "DELETE":
        return matches_flat(what, path) and path in before and path not in after
    if keyword == "MODIFY":
        return matches_flat(what, path) and path in before and path in after and before[path] != after[path]
    if keyword == "ALLOW":
        return matches_flat(what, path)
    if keyword == "MATCH":
        return matched_elsewhere(what, path, side_of(link, side)[path], links)
    return False


def reaching(rules, place, side, link, links):
    """The paths that no rule before this place takes."""
    return {
        path for path in side_of(link, side)
        if not any(takes(rule, side, link, links, path) for rule in rules[:place])
    }


def fault(rules, side, link, links):
    """The first rule that fails, as its fault, its place and a path; None where the list holds."""
    for place, (keyword, what) in enumerate(rules):
        if keyword == "DISALLOW":
            left = [path for path in reaching(rules, place, side, link, links) if matches_flat(what, path)]
            if left:
                return "disallowed", place, min(left, key=str.encode)
        if keyword == "REQUIRE" and what not in reaching(rules, place, side, link, links):
            return "required", place, what
    return None
