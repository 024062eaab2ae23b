"""Delegations by hand: which roles are visited for a path, how the search ends, and who vouches for a new file.

No program runs here. The cases say what is wanted, and both forms of `delegations.py` are held to it; on small random
graphs they are compared with each other. `delegation_histories.py` puts the same graphs before the program.
"""
import re

import delegations
import repository
import signed_documents as make
from denials import NUMBERS, Denied
from documents import read_checked, read_delegations, read_document
from names import asked
from patterns import matches_flat
from scenes import EXPIRED, LIVE, NOW, ZEROS, signed_document, simple_state
from test_keys import KEYS

PATH = "a/b.tgz"
BLOB, OTHER_BLOB = b"hello blob", b"abc"
ABC = "ba7816bf8f01cfea414140de5dae2223b00361a396177a9cb410ff61f20015ad"
COVERING = [{"paths": ["doc/*", "a/*.tgz"]}, {"prefixes": [make.digest(PATH.encode())[:length] for length in (64, 1)]}]
NOT_COVERING = [{"paths": ["*", "a/*.txt"]}, {"prefixes": [ABC, ABC[:2]]}]
# A delegation: a role; `!` where it terminates, `-` where it does not cover the path; after `=` its keys, all of which
# have to sign, or as many as stand after `/`. Without `=` it is key A.
DELEGATION = re.compile(r"([a-z0-9]+)(!?)(-?)(?:=([A-Z]+)(?:/([0-9]+))?)?")


def line(count, last=""):
    """So many roles, each delegating to the next."""
    roles = ["targets", *(f"r{number}" for number in range(2, count + 1))]
    further = [f"{roles[-1]}: {last}"] if last else []
    return "; ".join([f"{role}: {after}" for role, after in zip(roles, roles[1:])] + further)


def star(count, role="targets"):
    return f"{role}: " + " ".join(f"r{number}" for number in range(2, count + 1))


def numbered(count):
    return " ".join(["targets", *(f"r{number}" for number in range(2, count + 1))])


# What is wanted, the graph, what is said of files (who signed, where it is not key A; what is wrong; who lists the
# path), all visits that there are if nothing ends them, and how the search ends.
SEARCHES = [
    ("targets alone", "targets: ", "targets: lists", "targets", "targets"),
    ("nobody", "targets: ", "", "targets", "NotFound"),
    ("one delegation", "targets: a", "a: lists", "targets a", "a"),
    ("the path is not covered", "targets: a-", "a: lists", "targets", "NotFound"),
    ("below a role that lists", "targets: a", "targets: lists; a: lists", "targets a", "targets"),
    ("the first delegation", "targets: a b", "a: lists; b: lists", "targets a b", "a"),
    ("the subtree before the next delegation", "targets: a b; a: c", "b: lists; c: lists", "targets a c b", "c"),
    ("the subtree of a subtree", "targets: a b; a: c d; c: e", "b: lists; e: lists", "targets a c e d b", "e"),
    ("judged by the keys of the first edge", "targets: a b=B; a: c; c: b=C", "b: lists C", "targets a c b", "b"),
    ("not by keys of a later edge", "targets: a b=B; a: c; c: b=C", "b: lists B", "targets a c b", "RoleThreshold"),
    ("one level above by other keys", "targets: a b; a: b=B", "b: lists", "targets a b", "RoleThreshold"),
    ("below by other keys", "targets: b a; a: b=B", "b: lists", "targets b a", "b"),
    ("visited in a subtree that was left", "targets: a c; a: b=B; c: b d", "b: B; d: lists", "targets a b c d", "d"),
    ("judged in a subtree that was left", "targets: a c; a: b; c: b=B", "b: lists B", "targets a b c", "RoleThreshold"),
    ("visited before, and terminating", "targets: a a2! b; a: a2", "b: lists", "targets a a2", "NotFound"),
    ("terminating, inside another", "targets: a d; a: b! c", "d: lists", "targets a b", "NotFound"),
    ("itself, and terminating", "targets: a c; a: a! b", "c: lists", "targets a", "NotFound"),
    ("itself", "targets: a c; a: a b", "c: lists", "targets a b c", "c"),
    ("an earlier one, and terminating", "targets: a c; a: b; b: a! d", "c: lists; d: lists", "targets a b", "NotFound"),
    ("an earlier one", "targets: a c; a: b; b: a d", "c: lists", "targets a b d c", "c"),
    ("a circle", "targets: a; a: b; b: c; c: a", "", "targets a b c", "NotFound"),
    ("below a terminating delegation", "targets: a! d; a: b c; b: e", "c: lists; d: lists", "targets a b e c", "c"),
    ("terminating, and not covering", "targets: a!- b", "b: lists", "targets b", "b"),
    ("terminating, and the last", "targets: a b!", "b: lists", "targets a b", "b"),
    ("cut off at all levels", "targets: a f; a: b e; b: c! d", "e: lists; f: lists", "targets a b c", "NotFound"),
    ("cut off after a cut", "targets: a! b; b: c! d", "b: lists; d: lists", "targets a", "NotFound"),
    ("its first chain is not cut, a later one is", "targets: a b; b: c! a", "a: lists", "targets a b c", "a"),
    ("its first chain is cut", "targets: b! a; b: c", "a: lists", "targets b c", "NotFound"),
    ("a longer chain is the first", "targets: a d=B; a: b; b: c; c: d", "d: lists", "targets a b c d", "d"),
    ("two of two keys", "targets: a=AB; a: b=BC", "a: AB; b: lists BC", "targets a b", "b"),
    ("one of two keys", "targets: a=AB; a: b=BC", "a: AB; b: lists B", "targets a b", "RoleThreshold"),
    ("one of two keys is enough", "targets: a=AB/1", "a: lists B", "targets a", "a"),
    ("two signatures of each", "targets: a=AB; a: b=AB", "targets: AB; a: AB; b: lists AB", "targets a b", "b"),
    ("targets is not signed", "targets: a", "targets: lists B; a: lists", "targets a", "RoleThreshold"),
    ("targets is not there", "targets: a", "targets: missing; a: lists", "targets", "RoleMissing"),
    ("not named", "targets: a b", "a: unlisted; b: lists", "targets a b", "RoleUnlisted"),
    ("not there", "targets: a b", "a: missing; b: lists", "targets a b", "RoleMissing"),
    ("of another length", "targets: a b; a: c", "a: length lists; b: lists", "targets a b", "RoleLength"),
    ("of another digest", "targets: a b; a: c", "a: hash lists; b: lists", "targets a b", "RoleHash"),
    ("of another length and digest", "targets: a", "a: hash length expired B", "targets a", "RoleLength"),
    ("of another digest and signer", "targets: a", "a: hash expired B", "targets a", "RoleHash"),
    ("expired, and of another signer", "targets: a", "a: expired lists B", "targets a", "RoleThreshold"),
    ("expired", "targets: a b; a: c", "a: expired lists; b: lists", "targets a c b", "RoleExpired"),
    ("bad after a listing", "targets: a b", "a: lists; b: missing", "targets a b", "a"),
    ("bad, and cut off", "targets: a! b", "b: missing", "targets a", "NotFound"),
    ("bad, and not covering", "targets: a- b", "a: missing; b: lists", "targets b", "b"),
    ("a line of 32", line(32), "r32: lists", numbered(32), "r32"),
    ("a line of 32, and nobody", line(32), "", numbered(32), "NotFound"),
    ("a line of 33", line(33), "r33: lists", numbered(33), "TooManyRoles"),
    ("a line of 33, the last not there", line(33), "r33: missing", numbered(33), "TooManyRoles"),
    ("a line of 33, the last not named", line(33), "r33: unlisted", numbered(33), "TooManyRoles"),
    ("a line of 33, the last but one not there", line(33), "r32: missing", numbered(32), "RoleMissing"),
    ("a line of 32 that leads back", line(32, "r2 r9 r32"), "", numbered(32), "NotFound"),
    ("a line of 32 that leads back and on", line(32, "r2! r33"), "r33: lists", numbered(32), "NotFound"),
    ("a star of 32", star(32), "r32: lists", numbered(32), "r32"),
    ("a star of 33", star(33), "r33: lists", numbered(33), "TooManyRoles"),
    ("a star of 65", star(65), "", numbered(65), "TooManyRoles"),
    ("two lists of delegations", star(20) + "; " + star(33, "r20"), "r32: lists", numbered(33), "r32"),
]

# What is wanted, the graph, what is said of files, the role and who signed its new file, and whether it is vouched for.
VOUCHERS = [
    ("the root's key", "targets: ", "", "targets", "A", True),
    ("not the root's key", "targets: ", "", "targets", "B", False),
    ("the root, for targets that are not there", "targets: ", "targets: missing", "targets", "A", True),
    ("by nobody", "targets: a", "", "b", "A", False),
    ("by targets", "targets: a=B", "", "a", "B", True),
    ("by targets with another key", "targets: a=B", "", "a", "A", False),
    ("by targets that are not signed", "targets: a", "targets: B", "a", "A", False),
    ("by targets that are expired", "targets: a", "targets: expired", "a", "A", False),
    ("a role that is not there yet", "targets: a", "a: missing", "a", "A", True),
    ("a role whose file is bad", "targets: a", "a: expired B", "a", "A", True),
    ("over a role", "targets: a=B; a: b=C", "a: B", "b", "C", True),
    ("over a role that is not there", "targets: a; a: b", "a: missing", "b", "A", False),
    ("over a role that is not named", "targets: a; a: b", "a: unlisted", "b", "A", False),
    ("over a role of another length", "targets: a; a: b", "a: length", "b", "A", False),
    ("over a role of another digest", "targets: a; a: b", "a: hash", "b", "A", False),
    ("over a role that is expired", "targets: a; a: b", "a: expired", "b", "A", False),
    ("over a role of another signer", "targets: a; a: b", "a: B", "b", "A", False),
    ("whatever paths are covered", "targets: a-; a: b-", "", "b", "A", True),
    ("after a terminating delegation", "targets: a! b; b: c! d", "", "d", "A", True),
    ("over terminating delegations", "targets: a!; a: b!; b: c!-", "", "c", "A", True),
    ("by the second of two", "targets: a b; a: c=B; b: c=C", "", "c", "C", True),
    ("by keys of two rules", "targets: a b; a: c=BC; b: c=CD", "", "c", "BD", False),
    ("over a role that is good by its second edge alone", "targets: a=B b; b: a=C; a: c", "a: C", "c", "A", True),
    ("over a role that is good by its last edge alone", "targets: a=B b c; b: a=C; c: a; a: d", "", "d", "A", True),
    ("over a role that is good by no edge", "targets: a=B b; b: a=C; a: c", "", "c", "A", False),
    ("itself", "targets: a; a: a=B", "", "a", "B", False),
    ("itself over another", "targets: a; a: b; b: a=B", "", "a", "B", False),
    ("over a circle", "targets: a; a: b; b: a c", "", "c", "A", True),
    ("over a circle that targets do not reach", "targets: d; a: b; b: a c", "", "c", "A", False),
    ("over a line of 40", line(40), "", "r40", "A", True),
    ("over a line of 40 with one that is expired", line(40), "r20: expired", "r40", "A", False),
    ("itself over a line of 40", line(40, "r3=B"), "", "r3", "B", False),
]

# A pattern or a prefix, a path, and whether it is covered.
COVERED = [
    ("paths", "a/*.tgz", "a/b.tgz", True), ("paths", "a/*.tgz", "a/b/c.tgz", False),
    ("paths", "a/*.tgz", "a/b.txt", False), ("paths", "a/*", "a/b", True), ("paths", "a/*", "a", False),
    ("paths", "a/*", "a/b/c", False), ("paths", "a*", "a", True), ("paths", "?.tgz", "b.tgz", True),
    ("paths", "?.tgz", ".tgz", False), ("paths", "a//b", "a/b", False), ("paths", "a?b", "a/b", False),
    ("path_hash_prefixes", "ba78", "abc", True), ("path_hash_prefixes", "ba79", "abc", False),
    ("path_hash_prefixes", ABC, "abc", True), ("path_hash_prefixes", "b", "abc", True),
    ("path_hash_prefixes", ABC, "abd", False),
]


def keys_of(letters):
    return [KEYS["ABCD".index(letter)] for letter in letters]


def delegations_of(text):
    """A list of delegations from its words. Patterns and prefixes take turns."""
    roles = []
    for number, word in enumerate(text.split()):
        role, terminating, not_covering, letters, threshold = DELEGATION.fullmatch(word).groups()
        keys = keys_of(letters or "A")
        covering = (NOT_COVERING if not_covering else COVERING)[number % 2]
        said = make.delegation(role, keys, int(threshold or len(keys)), terminating=terminating == "!", **covering)
        roles.append(said)
    return make.delegations(KEYS[0:4], roles)


def parts_of(text):
    """`role: words` between semicolons."""
    parts = [part.partition(":") for part in text.split(";") if part]
    return {role.strip(): words for role, _, words in parts}


def signers_of(words):
    letters = [word for word in words if word.isupper()]
    return keys_of(letters[0] if letters else "A")


def read_beside(signed, signers):
    """A file without its delegations, and these put beside it, so that they need not be read from a file."""
    rest = {name: value for name, value in signed.items() if name != "delegations"}
    document = read_checked("targets", make.signed_file(rest, signers))
    _, document.delegations = read_delegations(signed["delegations"])
    return document


def read_whole(signed, signers):
    return read_document("targets", make.signed_file(signed, signers))


def graph_state(graph, said="", read=read_beside, signers=KEYS[0:1], due=None):
    """A state whose shelf has these files; its snapshot and timestamp are signed by `signers`.

    For the role that is `due` the snapshot names the next version.
    """
    graph, said = parts_of(graph), parts_of(said)
    state = simple_state()
    state.blobs[make.digest(BLOB)] = BLOB
    state.blobs[make.digest(OTHER_BLOB)] = OTHER_BLOB
    entries = {}
    named = [DELEGATION.fullmatch(word)[1] for text in graph.values() for word in text.split()]
    for role in dict.fromkeys(["targets", *graph, *named]):
        words = said.get(role, "").split()
        listings = {PATH: (len(BLOB), make.digest(BLOB))} if "lists" in words else {}
        expires = EXPIRED if "expired" in words else LIVE
        targets = make.targets(1, expires, listings, delegations_of(graph.get(role, "")))
        document = read(targets, signers_of(words))
        if "missing" not in words:
            state.shelf[role, 1] = document
        if "unlisted" not in words:
            length = len(document.bytes) + 1 if "length" in words else None
            entries[role] = (1, length, ZEROS if "hash" in words else None)
    if due:
        entries[due] = (2,)
    state.snapshot = signed_document("snapshot", make.snapshot(1, LIVE, entries), signers)
    state.timestamp = signed_document("timestamp", make.timestamp(1, LIVE, 1), signers)
    return state


def answer(function, *arguments):
    try:
        return function(*arguments)
    except Denied as denied:
        return denied.name


def role_found(state, path):
    return delegations.search(state, path, NOW)[0]


def roles_visited(form, state):
    return [edge.role for edge in form(delegations.graph_for(state, PATH))]


def vouched_by_both(state, role, document):
    graph = delegations.whole_graph(state)
    forms = (delegations.is_vouched_by_chain, delegations.is_vouched_by_reach)
    return [form(state, graph, role, document, NOW) for form in forms]


def compare_searches(session, _random):
    for label, graph, said, visited, wanted in SEARCHES:
        state = graph_state(graph, said)
        for form in (delegations.visits_of_chains, delegations.visits_of_walk):
            session.check(f"search: {label}, {form.__name__}", visited.split(), roles_visited(form, state))
        session.check(f"search: {label}", wanted, answer(role_found, state, PATH))
        granted = wanted if wanted in NUMBERS else BLOB
        session.check(f"target: {label}", granted, answer(repository.target, state, PATH, NOW))


def random_graph(random):
    """Up to six roles, and what is said of their files, in the words of the cases above. In half, all is good."""
    names = random.sample("abcdef", random.choice((1, 2, 3, 4, 4, 5, 5)))
    is_good = random.random() < 0.5
    parts, said = [], []
    most = random.choice((1, 2, 3))
    for role in ["targets", *names]:
        words = []
        for name in random.sample(names, min(len(names), random.choice((0, 1, 2, most, most, 5)))):
            marks = random.choice(("", "", "", "!")) + random.choice(("", "", "", "", "-"))
            words.append(name + marks + ("" if is_good else random.choice(("", "", "=B", "=B", "=AB/1", "=AB"))))
        parts.append(f"{role}: " + " ".join(words))
        wrong = random.choice(("",) * 40 + ("expired", "missing", "unlisted", "length", "hash"))
        if role != "targets" and not is_good:
            said.append(f"{role}: {wrong} {random.choice(('A', 'AB', 'AB', 'AB', 'B'))}")
    return "; ".join(parts), "; ".join(said)


def new_file(letters):
    return read_checked("targets", make.signed_file(make.targets(2, LIVE, {}), keys_of(letters)))


def compare_vouchers(session, _random):
    for label, graph, said, role, letters, wanted in VOUCHERS:
        state, document = graph_state(graph, said), new_file(letters)
        session.check(f"vouched: {label}", wanted, delegations.is_vouched(state, role, document, NOW))
        if role != "targets":
            session.check(f"vouched: {label}, both forms", [wanted] * 2, vouched_by_both(state, role, document))


def compare_covered(session, _random):
    """What is covered, and what a name of a consistent snapshot asks for."""
    for member, text, path, wanted in COVERED:
        said = {**make.delegation("a", KEYS[0:1], 1), member: ["zz" if member == "paths" else "0", text]}
        _, [delegation] = read_delegations(make.delegations(KEYS[0:1], [said]))
        session.check(f"covered: {member} {text} and {path}", wanted, delegation.covers(path))
    session.check("covered: * over slashes, in artifact rules alone", True, matches_flat("*", "a/b/c"))
    session.check("asked: a consistent name", (PATH, ABC), asked(f"a/{ABC}.b.tgz"))
    state = graph_state("targets: a", "a: lists")
    for name, wanted in (
        (PATH, BLOB), (f"a/{make.digest(BLOB)}.b.tgz", BLOB), (f"a/{ABC}.b.tgz", "DigestMismatch"),
        ("a/../b", "BadPath"), ("b.tgz", "NotFound"),
    ):
        session.check(f"asked: {name}", wanted, answer(repository.target, state, name, NOW))


def compare_forms(session, random, count):
    """Both forms on small random graphs."""
    for _ in range(count):
        graph, said = random_graph(random)
        state = graph_state(graph, said, signers=())
        label = f"both forms: {graph} | {said}"
        edges_of_chains, edges_of_walk = (
            [(edge.role, edge.rule.keyids, edge.rule.threshold) for edge in form(delegations.graph_for(state, PATH))]
            for form in (delegations.visits_of_chains, delegations.visits_of_walk)
        )
        session.check(f"{label}, visits", edges_of_chains, edges_of_walk)
        for role in random.sample("abcdef", 2):
            by_chain, by_reach = vouched_by_both(state, role, new_file(random.choice(("A", "B", "AB", "C"))))
            session.check(f"{label}, {role} vouched for", by_chain, by_reach)
