"""What a draft changes, as `show --in` and the question of `sign` say it: a line or more for each change of the signed part."""
import json

import canonical_json
from plain_text import plain

SHORT = 8


def differences(before, after, place=()):
    """Each place at which two values differ, with what stands there on either side, a list of one or of none. Objects are compared by their
    members, in the order of their names, and lists by their items."""
    if type(before) is type(after) is dict:
        sides = [(name, before.get(name, NONE), after.get(name, NONE)) for name in sorted({*before, *after}, key=str.encode)]
    elif type(before) is type(after) is list:
        longest = max(len(before), len(after))
        sides = [(index, *(it[index] if index < len(it) else NONE for it in (before, after))) for index in range(longest)]
    else:
        is_same = type(before) is type(after) and before == after
        return [] if is_same else [(place, before, after)]
    return [it for step, one, other in sides for it in differences(one, other, (*place, step))]


class Nothing:
    """What stands where nothing stands."""


NONE = Nothing()


def is_digest(text):
    return type(text) is str and len(text) == 64 and set(text) <= set("0123456789abcdef")


def digests_in(value):
    """All digests and ids that are texts or names of members."""
    if type(value) is dict:
        return {it for name in value if is_digest(name) for it in (name,)}.union(*(digests_in(part) for part in value.values()))
    if type(value) is list:
        return set().union(*(digests_in(part) for part in value))
    return {value} if is_digest(value) else set()


def digits_of(held, draft):
    """How many digits of a digest or an id stand: the first ones, or all where two that are compared begin alike."""
    found = digests_in(held) | digests_in(draft)
    return SHORT if len({it[:SHORT] for it in found}) == len(found) else 64


def spelled(value, short):
    if is_digest(value) and short == SHORT:
        return f'"{value[:SHORT]}.."'
    return plain(canonical_json.write(value).decode())


def label(head, place, short):
    text = head
    between = " " if head else ""
    for step in place:
        if type(step) is int:
            text += f"[{step}]"
        elif is_digest(step) and short == SHORT:
            text += f"{between}{step[:SHORT]}.."
        else:
            is_word = step.isascii() and step.replace("-", "a").replace("_", "a").isalnum()
            text += between + (plain(step) if is_word else f'"{plain(step)}"')
        between = "."
    return text


def at(value, place):
    for step in place:
        if type(value) is dict and type(step) is str and step in value:
            value = value[step]
        elif type(value) is list and type(step) is int and step < len(value):
            value = value[step]
        else:
            return NONE
    return value


class Lines:
    """The lines, with the names that the held document and the draft have for keys."""

    def __init__(self, held, draft):
        self.held, self.draft, self.lines, self.short = held, draft, [], digits_of(held, draft)

    def key(self, keyid):
        if not is_digest(keyid):
            return plain(keyid)
        for document, mark in ((self.held, ""), (self.draft, " (named by the draft)")):
            name = (document or {}).get("names", {})
            name = name.get(keyid) if type(name) is dict else None
            if type(name) is str and "\\" not in name and '"' not in name:
                return f"{plain(name)} {keyid[:self.short]}{mark}"
        return keyid[:self.short]

    def put(self, line):
        self.lines.append(line)

    def parts(self, mark, head, place, value):
        """Each scalar in a value that stands on one side alone."""
        inner = value.items() if type(value) is dict else enumerate(value) if type(value) is list else ()
        for step, part in sorted(inner, key=lambda it: it[0].encode() if type(it[0]) is str else it[0]):
            self.parts(mark, head, (*place, step), part)
        if value in ({}, []) or type(value) not in (dict, list):
            self.put(f"{mark} {label(head, place, self.short)}: {spelled(value, self.short)}")

    def others(self, mark, head, value, said):
        for name in sorted(set(value) - set(said), key=str.encode):
            self.parts(mark, head, (name,), value[name])

    def change(self, head, place, before, after):
        if NONE not in (before, after):
            self.put(f"~ {label(head, place, self.short)}: {spelled(before, self.short)}, now {spelled(after, self.short)}")
        elif head:
            self.parts("+" if before is NONE else "-", head, place, after if before is NONE else before)
        else:
            self.side("+" if before is NONE else "-", place, after if before is NONE else before)

    def side(self, mark, place, value):
        """A part of the document that stands on one side alone."""
        group = group_of(place)
        if group == "listing":
            head = plain(place[1])
            self.put(f"{mark} {head}: {listing(value, self.short)}")
            self.others(mark, head, value, ("hashes", "length"))
        elif group == "named":
            head = plain(place[1].removesuffix(".json"))
            self.put(f"{mark} {head} {spelled(value['version'], self.short)}")
            self.others(mark, head, value, ("version",))
        elif group == "rule":
            self.rule_side(mark, place[1], value, ("keyids", "threshold"))
        elif group == "key":
            self.put(f"{mark} key {self.key(place[-1])}")
        elif group == "delegations":
            for item in value:
                self.rule_side(mark, f"delegation to {item['name']}", item, ("keyids", "name", "threshold"))
        elif type(value) is dict and value:
            for name in sorted(value, key=str.encode):
                self.side(mark, (*place, name), value[name])
        else:
            self.parts(mark, "", place, value)

    def rule_side(self, mark, head, rule, said):
        self.put(f"{mark} {head}: {rule_words(rule)}")
        for keyid in rule["keyids"]:
            self.put(f"{mark} {head} key {self.key(keyid)}")
        self.others(mark, head, rule, said)

    def rule(self, head, before, after):
        found = differences(before, after)
        if any(place[0] in ("keyids", "threshold") for place, *_ in found):
            self.put(f"~ {head}: {rule_words(before)}, now {rule_words(after)}")
            one, other = before["keyids"], after["keyids"]
            for mark, these, those in (("-", one, other), ("+", other, one)):
                for keyid in (it for it in these if it not in those):
                    self.put(f"{mark} {head} key {self.key(keyid)}")
            if set(one) == set(other) and one != other:
                self.put(f"~ {head}: its keys stand in another order")
        for place, one, other in found:
            if place[0] not in ("keyids", "threshold"):
                self.change(head, place, one, other)

    def group(self, place, before, after):
        """What both sides have and is told as a whole."""
        group = group_of(place)
        if group == "rule":
            self.rule(place[1], before, after)
        elif group == "listing":
            found = differences(before, after)
            if any(step[0] in ("hashes", "length") for step, *_ in found):
                self.put(f"~ {place[1]}: {listing(before, self.short)}, now {listing(after, self.short)}")
            for step, one, other in found:
                if step[0] not in ("hashes", "length"):
                    self.change(place[1], step, one, other)
        elif group == "named":
            head = place[1].removesuffix(".json")
            for step, one, other in differences(before, after):
                if step == ("version",) and NONE not in (one, other):
                    self.put(f"~ {head} {one}, now {other}")
                else:
                    self.change(head, step, one, other)
        elif group == "delegations":
            self.delegations(before, after)

    def delegations(self, before, after):
        old = {it["name"]: it for it in before}
        new = {it["name"]: it for it in after}
        for name, item in new.items():
            if name in old:
                self.rule(f"delegation to {name}", old[name], item)
            else:
                self.side("+", ("delegations", "roles"), [item])
        for name, item in old.items():
            if name not in new:
                self.side("-", ("delegations", "roles"), [item])
        if [name for name in old if name in new] != [name for name in new if name in old]:
            self.put(f"~ delegations are asked in another order: {' '.join(new)}")


def group_of(place):
    names = ("targets", "listing"), ("meta", "named"), ("roles", "rule"), ("keys", "key")
    if len(place) == 2 and all(type(step) is str for step in place):
        return "delegations" if place == ("delegations", "roles") else dict(names).get(place[0])
    return "key" if len(place) == 3 and place[:2] == ("delegations", "keys") and type(place[2]) is str else None


def listing(value, short):
    if set(value.get("hashes", {})) == {"sha256"} and type(value.get("length")) is int:
        return f"{value['length']} bytes, {value['hashes']['sha256'][:short]}"
    return plain(canonical_json.write(value).decode())


def rule_words(rule):
    return f"{rule['threshold']} of {len(rule['keyids'])} keys"


def lines_of(held, draft):
    """The lines of what a draft changes: `held` is None where nothing is held, so that all is new."""
    lines = Lines(held, draft)
    before = held or {}
    told = set()
    for place, one, other in differences(before, draft):
        group = place[:2] if len(place) >= 2 and group_of(place[:2]) in ("listing", "named", "rule", "delegations") else None
        if group is None:
            lines.change("", place, one, other)
        elif NONE in (at(before, group), at(draft, group)):
            lines.change("", place, one, other)
        elif group not in told:
            told.add(group)
            lines.group(group, at(before, group), at(draft, group))
    return lines.lines
