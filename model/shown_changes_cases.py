"""What `show --in` says of a draft that was changed by hand at random places, beside the model."""
import copy
import json
import os
import shutil

import canonical_json
import shown_changes
import signed_documents as make
from signed_documents import BEGIN
from test_keys import Key

NAMES = ("root-a", "root-b", "targets", "dev", "new")
KEYS = {name: Key(b"shown: " + name.encode(), 1, 5) for name in NAMES}
LATER = BEGIN + 10**6
TEXTS = ("", "x", "a\nb", "\x1b[2J", "\u202ex", "\\", '"', "0" * 64, "2031-01-01T00:00:00Z", "a b", "\u00e9")
VALUES = (None, True, 0, 7, [], {}, [1, {"y": "z"}], {"b": {"c": []}, "a\n": 1})


def names_of(*names):
    return {KEYS[name].id: name for name in names}


def documents():
    """A root, targets metadata, a snapshot and a timestamp, each with its role."""
    rules = {role: ([KEYS["root-a"], KEYS["root-b"]] if role == "root" else [KEYS["targets"]], 1) for role in ("root", "targets", "snapshot", "timestamp")}
    root = make.root(2, LATER, rules)
    root["names"] = names_of("root-a", "root-b", "targets")
    listed = {path: (len(path), make.digest(path.encode())) for path in ("a", "b/c", "d")}
    roles = [make.delegation(name, [KEYS["dev"]], 1, paths=[f"{name}/*"]) for name in ("dev", "other")]
    targets = make.targets(3, LATER, listed, make.delegations([KEYS["dev"]], roles))
    targets["names"] = names_of("dev")
    return {"root": root, "targets": targets, "snapshot": make.snapshot(2, LATER, {"targets": (3,), "dev": (1,)}), "timestamp": make.timestamp(4, LATER, 2)}


def places_in(value, place=()):
    yield place
    inner = value.items() if type(value) is dict else enumerate(value) if type(value) is list else ()
    for step, part in inner:
        yield from places_in(part, (*place, step))


def change(random, signed):
    """A change that leaves the document one of its kind: of what is free in it, or of what its kind has a meaning for."""
    kinds = [lambda: signed.__setitem__(random.choice(("x", "y z", "names-of", "\u00e9")), copy.deepcopy(random.choice((*VALUES, *TEXTS))))]
    kinds.append(lambda: signed.update(version=signed["version"] + random.randint(0, 2), expires=random.choice((signed["expires"], "2199-01-01T00:00:00Z"))))
    kinds.append(lambda: name_a_key(random, signed))
    if signed["_type"] == "root":
        kinds += [lambda: change_a_rule(random, signed["roles"][random.choice(sorted(signed["roles"]))], signed)] * 3
    if signed["_type"] == "targets":
        kinds += [lambda: change_a_listing(random, signed["targets"]), lambda: change_delegations(random, signed["delegations"])] * 3
    if "meta" in signed:
        kinds += [lambda: random.choice(list(signed["meta"].values())).__setitem__("version", random.randint(1, 9))] * 2
    random.choice(kinds)()


def name_a_key(random, signed):
    names = dict(signed.get("names", {}))
    names[KEYS[random.choice(NAMES)].id] = random.choice(("alice", "a\nready", "\x1b[31m", "carol"))
    signed["names"] = names


def change_a_rule(random, rule, signed):
    keyid = KEYS["new"].id
    done = random.randrange(3)
    if done == 0:
        signed["keys"][keyid] = make.key_object(KEYS["new"].public.hex())
        rule["keyids"] = [*(it for it in rule["keyids"] if it != keyid), keyid]
    elif done == 1:
        rule["keyids"] = rule["keyids"][::-1]
    else:
        rule["threshold"] = random.randint(1, len(rule["keyids"]))


def change_a_listing(random, targets):
    path = random.choice(sorted(targets) or ["e"])
    done = random.randrange(5)
    if done == 0:
        targets.pop(path, None)
    elif done == 1:
        targets["new/e"] = {"hashes": {"sha256": "0" * 64}, "length": 5}
    elif done == 2 and path in targets:
        targets[path]["length"] += 1
    elif done == 3 and path in targets:
        targets[path]["hashes"]["sha256"] = targets[path]["hashes"]["sha256"][:8] + "%056x" % random.getrandbits(224)
    elif path in targets:
        targets[path]["custom"] = {"note": copy.deepcopy(random.choice(VALUES))}


def change_delegations(random, delegations):
    roles = delegations["roles"]
    done = random.randrange(4)
    if done == 0:
        roles.reverse()
    elif done == 1 and roles:
        roles.pop(random.randrange(len(roles)))
    elif roles:
        item = random.choice(roles)
        if done == 2:
            item["terminating"] = not item["terminating"]
        else:
            item["paths"] = [random.choice(("*", "dev/*/*")), *item["paths"]][: random.randint(1, 3)]


def write(folder, role, held, draft):
    shutil.rmtree(folder, ignore_errors=True)
    os.makedirs(folder / "d/held")
    for place, signed in ((f"held/{role}.json", held), (f"{role}.json", draft)):
        if signed is not None:
            (folder / "d" / place).write_bytes(canonical_json.write({"signatures": [], "signed": signed}))


def shown(session, folder):
    """The lines of changes that the program shows of the one draft, and those that it has as JSON."""
    status, out, _ = session.run("show", "--at", str(BEGIN), "--in", str(folder / "d"), "--json")
    if status != 0:
        return f"status {status}"
    return json.loads(out)["drafts"][0]["changes"]


def compare(session, random, count):
    for _ in range(count):
        role, draft = random.choice(sorted(documents().items()))
        held = copy.deepcopy(draft) if random.random() < 0.9 else None
        for _ in range(random.randint(0, 4)):
            change(random, draft)
        folder = session.folder / "shown"
        write(folder, role, held, draft)
        wanted = shown_changes.lines_of(held, draft)
        session.check("what a draft changes", wanted, shown(session, folder), draft)
