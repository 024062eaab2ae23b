"""LMS and HSS: the test keys beside `gate/straight.py`, and odd signatures and keys before the program."""
import importlib.util
from pathlib import Path

import canonical_json
import document_parts
import lms
import signed_documents as make
from documents import read_document
from http_requests import post
from program import World
from repository import State
from scenes import LIVE, NOW, SIMPLE_RULES, signed_document
from test_keys import KEYS, HssKeyOfSeed

# Of one, two and three levels.
HSS_KEYS = (KEYS[4], KEYS[1], KEYS[6])
STRAIGHT = Path(__file__).resolve().parent.parent / "gate/straight.py"
VECTORS = Path(__file__).resolve().parent.parent / "crates/verdicts"


def straight():
    specification = importlib.util.spec_from_file_location("straight", STRAIGHT)
    module = importlib.util.module_from_spec(specification)
    specification.loader.exec_module(module)
    return module


def compare_keys(session, random):
    """One key of each width, and the one of height 10: its signature and two verdicts by both."""
    other = straight()
    for key in (KEYS[5], KEYS[3], KEYS[0], KEYS[7], KEYS[11]):
        label = f"key of width {key.width} and height {key.height}"
        message = random.randbytes(20)
        leaf = random.randrange(1 << key.height)
        signature = key.sign_with(leaf, message)
        made = other.signed(key.width, key.height, key.identifier, key.seed, leaf, message)
        session.check(f"{label}: made", made, f"{key.public.hex()} {signature.hex()}")
        session.check(f"{label}: id", other.key_id(key.public), key.id)
        for text in (message, message + b"x"):
            verdict = other.verdict(key.public, signature, text).split(" ")[0]
            session.check(f"{label}: verdict", verdict == "valid", lms.verify(key.public, text, signature))
    for key in HSS_KEYS:
        label = f"key of {len(key.levels)} levels"
        session.check(f"{label}: id", other.key_id(key.public), key.id)
        message = random.randbytes(20)
        for case, public, signature in [*odd_levels(random, key, message), *odd_tops(key, message)]:
            verdict = other.hierarchical(public, signature, message)
            session.check(f"{label}: {case}", verdict == "valid", lms.verify_hss(public, message, signature))


def made_by(keys, seed, kinds, number, message):
    """What `hss_made` of `verdicts` prints. One key makes all signatures of its seed."""
    if (seed, kinds) not in keys:
        keys[seed, kinds] = HssKeyOfSeed(seed, *kinds)
    key = keys[seed, kinds]
    signature = key.sign_with(number, message)
    if signature is None:
        return "leaf_range"
    return f"{key.public.hex()} {len(signature)} {lms.sha256(signature).hex()}"


def compare_made(session, random):
    """Keys of two levels from a seed: the vectors of another implementation, and one more beside `straight.py`. What is made verifies."""
    keys = {}
    cases = (VECTORS / "stdin").read_text().splitlines()
    for case, line in zip(cases, (VECTORS / "stdout").read_text().splitlines(), strict=True):
        if case.startswith("hss_made "):
            top_width, top_height, width, height, identifier, seed, number, message = case.split(" ")[1:]
            kinds = (int(top_width), int(top_height)), (int(width), int(height))
            message = b"" if message == "-" else bytes.fromhex(message)
            session.check(case[:60], line, made_by(keys, identifier + seed, kinds, int(number), message))
    for key in keys.values():
        message = random.randbytes(20)
        signature = key.sign_with(random.randrange(key.top.messages()), message)
        session.check("what is made verifies", True, lms.verify_hss(key.public, message, signature))
        session.check("of another message", False, lms.verify_hss(key.public, message + b"x", signature))
    seed, number, message = random.randbytes(48), random.randrange(1024), random.randbytes(20)
    kinds = (2, 5), (1, 5)
    wanted = straight().made(*kinds, seed[:16], seed[16:], number, message)
    session.check("a seed at random", wanted, made_by({}, seed.hex(), kinds, number, message))
    three = HssKeyOfSeed(seed.hex(), (1, 5), (2, 5), (1, 5))
    signature = three.sign_with(random.randrange(32 ** 3), message)
    session.check("of three levels", True, lms.verify_hss(three.public, message, signature))


def replaced(text, first, part):
    return text[:first] + part + text[first + len(part):]


def further_chains(key, message, signature):
    """One step further along each of the last chains, which carry the checksum."""
    leaf = lms.number_at(signature, 0)
    randomizer = signature[8:40]
    message_hash = lms.sha256(key.identifier, signature[:4], lms.MESSAGE, randomizer, message)
    digits = lms.digits(message_hash, key.one_time_type)
    for element in range(key.elements - 5, key.elements):
        first = 40 + 32 * element
        digit = digits[element]
        if digit < (1 << key.width) - 1:
            step = lms.chain(key.identifier, leaf, element, digit, digit + 1, signature[first:first + 32])
            yield replaced(signature, first, step)


def odd_signatures(random, key, message):
    """Signatures of a message with each part changed, cut, or from another leaf. Some are good."""
    good = key.sign(message)
    leaves = 1 << key.height
    for leaf in (0, 1, leaves - 2, leaves - 1):
        yield f"leaf {leaf}", key.sign_with(leaf, message)
    for leaf in (1, leaves, leaves + 1, 2**31, 2**32 - 1):
        yield f"said to be of leaf {leaf}", replaced(key.sign_with(0, message), 0, lms.u32(leaf))
    for code in (0, 1, 2, 3, 4, 5, 255):
        yield f"one-time type {code}", replaced(good, 4, lms.u32(code))
    path = 40 + 32 * key.elements
    for code in (0, 4, 5, 6, 7, 9, 10):
        yield f"tree type {code}", replaced(good, path, lms.u32(code))
    edges = [0, 4, 7, 8, 39, 40, 71, 72, path - 65, path - 64, path - 33, path - 32, path - 1, path, path + 3, path + 4]
    edges += [len(good) - 32, len(good) - 1]
    for place in edges + [random.randrange(len(good)) for _ in range(25)]:
        yield f"bit of byte {place}", replaced(good, place, bytes([good[place] ^ 1 << random.randrange(8)]))
    lengths = [b"", good[:-1], good + b"\0", good[:-32], good + good[-32:], bytes(len(good)), bytes(9324), bytes(74988)]
    for signature in [*lengths, good * 2 if len(good) * 2 <= 74988 else good[:5]]:
        yield f"{len(signature)} bytes", signature
    yield "two elements exchanged", replaced(good, 40, good[72:104] + good[40:72])
    for signature in further_chains(key, message, good):
        yield "one step further", signature
    for other in (message + b"x", b" " + message):
        yield "another message", key.sign(other)


def ends_of_levels(key):
    """Where the levels of a signature end: after the signature, and after the key that it signs."""
    end = 4
    for level in key.levels:
        end += lms.signature_length(level.public)
        yield end
        end += lms.PUBLIC_KEY_LENGTH


def signed_down(levels, message):
    """The levels of a signature."""
    parts = [signer.sign(below.public) + below.public for signer, below in zip(levels, levels[1:])]
    return b"".join(parts) + levels[-1].sign(message)


def odd_levels(random, key, message):
    """Signatures under an HSS key with each level changed, cut, left out or signed by another key. Some are good."""
    good, levels, other = key.sign(message), key.levels, KEYS[19]
    signed_keys = len(levels) - 1
    yield "good", key.public, good
    for word in (0, 1, 2, 7, 8, 9, signed_keys + 1, signed_keys + 2**31, 2**32 - 1):
        yield f"said to have {word} signed keys", key.public, lms.u32(word) + good[4:]
    ends = list(ends_of_levels(key))
    for place in (0, 3, 4, 7, 8, len(good) - 1, *ends[:-1], *(end + 55 for end in ends[:-1]), *(end + 56 for end in ends[:-1])):
        yield f"bit of byte {place}", key.public, replaced(good, place, bytes([good[place] ^ 1 << random.randrange(8)]))
    for first, end in zip([4, *(end + 56 for end in ends)], ends):
        for _ in range(3):
            place = random.randrange(first, end)
            yield f"bit of byte {place} of a level", key.public, replaced(good, place, bytes([good[place] ^ 1 << random.randrange(8)]))
    for cut in (0, 3, 4, 5, *ends[:-1], *(end + 56 for end in ends[:-1]), len(good) - 32, len(good) - 1):
        yield f"the first {cut} bytes", key.public, good[:cut]
    for more in (b"\0", good[-32:], good[4:], other.public):
        yield f"{len(more)} bytes more", key.public, good + more
    yield "without its first word", key.public, good[4:]
    for place in range(len(levels)):
        exchanged = [*levels[:place], other, *levels[place + 1:]]
        yield f"another key at level {place}", key.public, lms.u32(signed_keys) + signed_down(exchanged, message)
        by_others = signed_down(levels[:place + 1], message) + other.public + other.sign(message)
        yield f"a further key after level {place}", key.public, lms.u32(signed_keys) + by_others
    if signed_keys:
        left_out = signed_down([levels[0], *levels[2:]], message)
        yield "a level left out", key.public, lms.u32(signed_keys) + left_out
        yield "a level left out and not counted", key.public, lms.u32(signed_keys - 1) + left_out
        yield "the last level alone", key.public, lms.u32(0) + levels[-1].sign(message)
    yield "a level more", key.public, lms.u32(signed_keys + 1) + signed_down([*levels, other], message)
    yield "another message", key.public, key.sign(message + b"x")


def odd_tops(key, message):
    """Keys with other numbers of levels, over the same top key, and of types that there are not."""
    good, top = key.sign(message), key.levels[0]
    for levels in (0, 1, 2, 3, 8, 9, 2**31, 2**32 - 1):
        public = lms.u32(levels) + top.public
        yield f"a key of {levels} levels", public, good
        yield f"a key of {levels} levels, as many said", public, lms.u32((levels - 1) % 2**32) + good[4:]
    for count in (8, 9, 10):
        signature = lms.u32(count - 1) + signed_down([top, *[KEYS[19]] * (count - 1)], message)
        yield f"{count} levels", lms.u32(count) + top.public, signature
    for tree_type, one_time_type in ((5, 0), (5, 5), (4, 3), (10, 3), (6, 3), (5, 4)):
        odd = lms.u32(tree_type) + lms.u32(one_time_type)
        yield f"top of types {tree_type} and {one_time_type}", key.public[:4] + odd + key.public[12:], good
        below = odd + KEYS[19].public[8:]
        signature = lms.u32(1) + top.sign(below) + below + KEYS[19].sign(message)
        yield f"below of types {tree_type} and {one_time_type}", lms.u32(2) + top.public, signature


def one_key_state(key_objects, timestamp_id, signers):
    """A root whose timestamp rule names one key."""
    root = make.root(1, LIVE, SIMPLE_RULES)
    root["keys"].update(key_objects)
    root["roles"]["timestamp"] = {"keyids": [timestamp_id], "threshold": 1}
    state = State()
    state.roots = [signed_document("root", root, signers)]
    return state


def compare_odd_signatures(session, random):
    """Each as the one signature of a timestamp, with a root after it that is refused, so that nothing is kept."""
    timestamp = make.timestamp(5, LIVE, 1)
    message = canonical_json.write(timestamp)
    for key in (KEYS[5], KEYS[3], KEYS[0], KEYS[7], KEYS[11]):
        state = one_key_state(make.key_table([key]), key.id, KEYS[0:1])
        requests = []
        for label, signature in odd_signatures(random, key, message):
            text = make.signed_file(timestamp, [(key.id, signature.hex())])
            label = f"width {key.width}, height {key.height}, {label}"
            requests.append((label, post(("timestamp", text), ("root", b""))))
        World(session, state).serve(NOW, requests)


def compare_odd_levels(session, random):
    """The same of HSS keys, and of keys with another number of levels."""
    timestamp = make.timestamp(5, LIVE, 1)
    message = canonical_json.write(timestamp)
    for key in HSS_KEYS:
        requests = {}
        for label, public, signature in [*odd_levels(random, key, message), *odd_tops(key, message)]:
            text = make.signed_file(timestamp, [(document_parts.key_id(public.hex()), signature.hex())])
            requests.setdefault(public, []).append((f"{len(key.levels)} levels, {label}", post(("timestamp", text), ("root", b""))))
        for public, of_key in requests.items():
            keyid = document_parts.key_id(public.hex())
            state = one_key_state({keyid: make.key_object(public.hex())}, keyid, KEYS[0:1])
            World(session, state).serve(NOW, of_key)


def compare_wrappings(session, _random):
    """An LMS key beside the HSS keys over it: one rule with two of them is none, and each alone is one. Two that are shaped count as two."""
    plain, one, two = KEYS[12], KEYS[26], KEYS[27]
    for keys in ((plain, one), (plain, two), (one, two), (plain, KEYS[13]), (one, KEYS[13]), (KEYS[1], KEYS[28])):
        for threshold in (1, 2):
            rules = {**SIMPLE_RULES, "timestamp": (keys, threshold)}
            world = World(session, State())
            label = f"{threshold} of {' and '.join(key.id[:8] for key in keys)}"
            world.command("init", NOW, make.signed_file(make.root(1, LIVE, rules), KEYS[0:1]))
            for signers in ((), keys[:1], keys[1:], keys, keys[::-1]):
                timestamp = make.signed_file(make.timestamp(1, LIVE, 1), signers)
                world.serve(NOW, [(label, post(("timestamp", timestamp), ("root", b"")))])
    rules = {**SIMPLE_RULES, "timestamp": ([plain], 1), "snapshot": ([one], 1), "targets": ([two], 1)}
    world = World(session, State())
    world.command("init", NOW, make.signed_file(make.root(1, LIVE, rules), KEYS[0:1]))
    for signers in ([one], [two], [plain]):
        world.serve(NOW, [("wrappings of one key in three roles", post(("timestamp", make.signed_file(make.timestamp(1, LIVE, 1), signers))))])
    for signers in ([plain], [two], [one]):
        snapshot = make.signed_file(make.snapshot(1, LIVE, {"targets": (1,)}), signers)
        world.serve(NOW, [("wrappings of one key in three roles", post(("snapshot", snapshot)))])


def compare_odd_keys(session, _random):
    """Keys of types that there are not, or of other types than the signature's."""
    key = KEYS[0]
    timestamp = make.timestamp(5, LIVE, 1)
    good = key.sign(canonical_json.write(timestamp))
    for tree_type, one_time_type in ((5, 0), (5, 5), (4, 3), (10, 3), (0, 0), (6, 3), (5, 4), (9, 4), (7, 1)):
        public = lms.u32(tree_type) + lms.u32(one_time_type) + key.public[8:]
        keyid = document_parts.key_id(public.hex())
        state = one_key_state({keyid: make.key_object(public.hex())}, keyid, KEYS[0:1])
        requests = []
        for signature in (good, replaced(good, 4, lms.u32(one_time_type)), b""):
            text = make.signed_file(timestamp, [(keyid, signature.hex())])
            requests.append((f"key of types {tree_type} and {one_time_type}", post(("timestamp", text), ("root", b""))))
        World(session, state).serve(NOW, requests)


def compare_sixteen_keys(session, _random):
    """The largest rule, with as many signatures as a file may have."""
    keys = [key for key in KEYS if key is not KEYS[7]][:16]
    for threshold in (15, 16):
        rules = {**SIMPLE_RULES, "timestamp": (keys, threshold)}
        state = State()
        state.roots = [read_document("root", make.signed_file(make.root(1, LIVE, rules), KEYS[0:1]))]
        world = World(session, state)
        for count in (14, 15, 16):
            timestamp = ("timestamp", make.signed_file(make.timestamp(count, LIVE, 1), keys[:count]))
            label = f"{count} of {threshold} signatures"
            world.serve(NOW, [(label, post(timestamp)), (label, post(timestamp, ("snapshot", b"")))])
