"""Patterns and prefixes: the model beside the program `verdicts`."""
import hashlib
import subprocess
import sys
from pathlib import Path

from names import is_target_path
from patterns import is_pattern, is_prefix, matches_flat, matches_segmented, prefix_covers

VERDICTS = Path(__file__).resolve().parent.parent / "crates/verdicts/out/verdicts"
BY_HAND = [
    ("*", "a"), ("*", "a/b"), ("a/*", "a/b"), ("a/*", "a"), ("a/*", "a/b/c"), ("?.tgz", "b.tgz"), ("?.tgz", ".tgz"),
    ("a//b", "a/b"), ("a/*.tgz", "a/b.tgz"), ("a/*.tgz", "a/b/c.tgz"), ("a/*.tgz", "a/b.txt"), ("*a*a*a*b", "a" * 200),
    ("*" * 200, "a" * 200), ("*" * 201, "a"), ("", "a"), ("a", ""), ("a", "a/../b"), ("a", "/a"), ("a b", "a"), ("é", "a"),
    ("*a" * 99 + "*b", "a" * 200), ("?" * 200, "a" * 200), ("?" * 199, "a" * 200), ("**/**", "a/b"), ("a", "b*"),
]
TESTS = {"segmented": (is_pattern, matches_segmented), "flat": (is_pattern, matches_flat), "prefix": (is_prefix, prefix_covers)}


def wanted(kind, pattern, path):
    of_grammar, covers = TESTS[kind]
    if not of_grammar(pattern) or not is_target_path(path):
        return "ill"
    return "yes" if covers(pattern, path) else "no"


def changed(random, path):
    """A pattern that the path may be covered by."""
    parts = []
    for letter in path:
        parts.append(random.choice((letter, letter, letter, letter, "*", "?", "", "*" + letter, letter + "*", "/", "b")))
    return "".join(parts)


def random_case(random):
    path = "/".join("".join(random.choice("ab.") for _ in range(random.randint(1, 5))) for _ in range(random.randint(1, 4)))
    kind = random.choice(("segmented", "segmented", "flat", "flat", "prefix"))
    if kind == "prefix":
        digits = hashlib.sha256(path.encode()).hexdigest()
        first = digits[:random.choice((1, 2, 3, 32, 63, 64, 64))]
        return kind, random.choice((first, first, first[:-1] + random.choice("0f"), first.upper(), first + "0", "")), path
    return kind, changed(random, path), path


def compare_patterns(session, random, count):
    """Cases by hand of both kinds of patterns, and random ones of all."""
    sys.setrecursionlimit(10000)
    cases = [(kind, *case) for kind in ("segmented", "flat") for case in BY_HAND]
    cases += [random_case(random) for _ in range(count)]
    lines = [f"match {kind} {pattern.encode().hex() or '-'} {path.encode().hex() or '-'}" for kind, pattern, path in cases]
    ran = subprocess.run([VERDICTS], input="\n".join(lines).encode(), stdout=subprocess.PIPE, check=False)
    printed = ran.stdout.decode().splitlines()
    session.check("one verdict a case", len(cases), len(printed))
    for case, found in zip(cases, printed):
        session.check(f"pattern {case}", wanted(*case), found)
