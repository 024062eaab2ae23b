#!/usr/bin/env python3
"""What the standards say of most lines of the stored run, written apart from the crates.

    straight.py    reads `stdin` and `stdout` of crates/verdicts, and compares each line of the one but `json`, `document` and `rules` with
                   the line of the other. LMS (RFC 8554): the verdict and the hashes by section 5.4.2, that of the hierarchical
                   scheme by section 6.3, the id as SHA-256 of the key's canonical object, the key and the signature by
                   sections 4 and 5 and appendix A, and those of two levels by section 6, each tree below by a seed from its leaf. Dates: Python's calendar. Names: TUF 1.0, section 6.2. Patterns and
                   prefixes: TUF 1.0, section 4.5

It prints how many lines agree, and each that does not.
"""
import datetime
import hashlib
import pathlib
import re
import sys

# w: the number of the type, p, ls
OTS = {1: (1, 265, 7), 2: (2, 133, 6), 4: (3, 67, 4), 8: (4, 34, 0)}
OTS_OF_CODE = {code: w for w, (code, _, _) in OTS.items()}
HEIGHT_OF_CODE = {5: 5, 6: 10, 7: 15, 8: 20, 9: 25}
CODE_OF_HEIGHT = {height: code for code, height in HEIGHT_OF_CODE.items()}
hashes = 0


def digest(*parts):
    global hashes
    hashes += 1
    return hashlib.sha256(b"".join(parts)).digest()


def u16(number):
    return number.to_bytes(2, "big")


def u32(number):
    return number.to_bytes(4, "big")


def coefficients(w, message_hash):
    """The digits of the hash and of its checksum (sections 3.1.3 and 4.4)."""
    _, count, shift = OTS[w]
    per_byte = [[byte >> (8 - w - k * w) & (1 << w) - 1 for k in range(8 // w)] for byte in message_hash]
    digits = [digit for byte in per_byte for digit in byte]
    checksum = u16(sum((1 << w) - 1 - digit for digit in digits) << shift)
    digits += [byte >> (8 - w - k * w) & (1 << w) - 1 for byte in checksum for k in range(8 // w)]
    return digits[:count]


def chain(identifier, q, i, first, last, start):
    text = start
    for j in range(first, last):
        text = digest(identifier, u32(q), u16(i), bytes([j]), text)
    return text


def verdict(public, signature, message):
    """Algorithms 4b and 6a, with the number of hashes."""
    global hashes
    hashes = 0
    if len(public) != 56:
        return "invalid 0"
    height = HEIGHT_OF_CODE.get(int.from_bytes(public[:4], "big"))
    w = OTS_OF_CODE.get(int.from_bytes(public[4:8], "big"))
    if height is None or w is None:
        return "invalid 0"
    _, count, _ = OTS[w]
    identifier, root = public[8:24], public[24:]
    if len(signature) != 12 + 32 * (count + 1) + 32 * height:
        return "invalid 0"
    q = int.from_bytes(signature[:4], "big")
    tail = signature[40 + 32 * count:]
    if signature[4:8] != public[4:8] or tail[:4] != public[:4] or q >= 1 << height:
        return "invalid 0"
    randomizer = signature[8:40]
    elements = [signature[40 + 32 * i:72 + 32 * i] for i in range(count)]
    path = [tail[4 + 32 * i:36 + 32 * i] for i in range(height)]
    message_hash = digest(identifier, u32(q), b"\x81\x81", randomizer, message)
    digits = coefficients(w, message_hash)
    ends = [chain(identifier, q, i, digits[i], (1 << w) - 1, elements[i]) for i in range(count)]
    key = digest(identifier, u32(q), b"\x80\x80", *ends)
    node = (1 << height) + q
    here = digest(identifier, u32(node), b"\x82\x82", key)
    for sibling in path:
        pair = (sibling, here) if node % 2 else (here, sibling)
        node //= 2
        here = digest(identifier, u32(node), b"\x83\x83", *pair)
    return f"{'valid' if here == root else 'invalid'} {hashes}"


def down(signed_keys, public, message, rest):
    """So many signed keys, each after the signature of the key before it, and then a signature of the message."""
    if signed_keys == 0:
        return verdict(public, rest, message).startswith("valid")
    w = OTS_OF_CODE.get(int.from_bytes(public[4:8], "big"))
    height = HEIGHT_OF_CODE.get(int.from_bytes(public[:4], "big"))
    if height is None or w is None:
        return False
    end = 12 + 32 * (OTS[w][1] + 1) + 32 * height
    signature, key, later = rest[:end], rest[end:end + 56], rest[end + 56:]
    return verdict(public, signature, key).startswith("valid") and down(signed_keys - 1, key, message, later)


def hierarchical(public, signature, message):
    """Section 6.3: the key is u32 L and the top key, the signature u32 (L - 1) and the levels."""
    levels = int.from_bytes(public[:4], "big")
    if len(public) != 60 or not 1 <= levels <= 8 or signature[:4] != u32(levels - 1):
        return "invalid"
    return "valid" if down(levels - 1, public[4:], message, signature[4:]) else "invalid"


def key_id(public):
    """TUF 1.0, section 4.2: the SHA-256 of the canonical form of the key object."""
    head = '{"keytype":"lms","keyval":{"public":"'
    scheme = "lms-sha256" if len(public) == 56 else "hss-sha256"
    return digest(f'{head}{public.hex()}"}},"scheme":"{scheme}"}}'.encode()).hex()


def signed(w, height, identifier, secret, q, message):
    """The public key and the signature of leaf q, or that there is no such leaf."""
    code, count, _ = OTS[w]
    leaves = 1 << height
    if q >= leaves:
        return "leaf_range"

    def derived(leaf, i):
        return digest(identifier, u32(leaf), u16(i), b"\xff", secret)

    def leaf_hash(leaf):
        ends = [chain(identifier, leaf, i, 0, (1 << w) - 1, derived(leaf, i)) for i in range(count)]
        return digest(identifier, u32(leaves + leaf), b"\x82\x82", digest(identifier, u32(leaf), b"\x80\x80", *ends))

    tree = {leaves + leaf: leaf_hash(leaf) for leaf in range(leaves)}
    for node in range(leaves - 1, 0, -1):
        tree[node] = digest(identifier, u32(node), b"\x83\x83", tree[2 * node], tree[2 * node + 1])
    types = u32(CODE_OF_HEIGHT[height]) + u32(code)
    randomizer = derived(q, 0xFFFD)
    digits = coefficients(w, digest(identifier, u32(q), b"\x81\x81", randomizer, message))
    elements = [chain(identifier, q, i, 0, digits[i], derived(q, i)) for i in range(count)]
    path = [tree[(leaves + q >> i) ^ 1] for i in range(height)]
    signature = [u32(q), u32(code), randomizer, *elements, u32(CODE_OF_HEIGHT[height]), *path]
    return f"{(types + identifier + tree[1]).hex()} {b''.join(signature).hex()}"


def of_two_levels(top, bottom, identifier, secret, number, message):
    """The public key of two levels and its signature, or None where there is no such leaf. Each tree is a width and a height. The seed of the
    tree below a leaf comes from the leaf as its private elements do (appendix A), by two numbers that no chain has."""
    q, leaf = divmod(number, 1 << bottom[1])
    if q >= 1 << top[1]:
        return None
    below, name = (digest(identifier, u32(q), u16(i), b"\xff", secret) for i in (0xFFFE, 0xFFFF))
    key, last = signed(*bottom, name[:16], below, leaf, message).split(" ")
    public, first = signed(*top, identifier, secret, q, bytes.fromhex(key)).split(" ")
    return u32(2) + bytes.fromhex(public), u32(1) + bytes.fromhex(first + key + last)


def made(*words):
    """The public key, the length of the signature and its SHA-256."""
    both = of_two_levels(*words)
    if both is None:
        return "leaf_range"
    public, signature = both
    return f"{public.hex()} {len(signature)} {hashlib.sha256(signature).hexdigest()}"


def seconds(text):
    """RFC 3339 in the one form of TUF 1.0, section 4.2.1, of the years 1970 to 9998."""
    parts = re.fullmatch(rb"(\d{4})-(\d\d)-(\d\d)T(\d\d):(\d\d):(\d\d)Z", text)
    if parts is None or not 1970 <= int(parts[1]) <= 9998:
        return "ill"
    try:
        moment = datetime.datetime(*map(int, parts.groups()))
    except ValueError:
        return "ill"
    return str((moment - datetime.datetime(1970, 1, 1)) // datetime.timedelta(seconds=1))


def asked(text):
    """The path and the digest that a name of a consistent snapshot asks for."""
    folder, slash, last = text.rpartition(b"/")
    parts = re.fullmatch(rb"([0-9a-f]{64})\.(.+)", last, re.DOTALL)
    path, digits = (folder + slash + parts[2], parts[1].decode()) if parts else (text, "-")
    return f"{path.hex() or '-'} {digits}"


def is_path(text):
    """1 to 200 bytes, of segments that are not empty, `.` or `..`."""
    if re.fullmatch(rb"[A-Za-z0-9._/-]{1,200}", text) is None:
        return False
    return not any(segment in (b"", b".", b"..") for segment in text.split(b"/"))


def takes(pattern, text, free):
    """Whether the pattern takes the whole text, by the places in the text that each of its bytes can end at."""
    ends = {0}
    for wanted in pattern:
        if wanted == ord("*"):
            for place, byte in enumerate(text):
                if place in ends and free(byte):
                    ends.add(place + 1)
        elif wanted == ord("?"):
            ends = {place + 1 for place in ends if place < len(text) and free(text[place])}
        else:
            ends = {place + 1 for place in ends if place < len(text) and text[place] == wanted}
    return len(text) in ends


def covers(kind, pattern, path):
    """Whether the pattern, or the prefix of a digest, covers the path."""
    grammar = rb"[0-9a-f]{1,64}" if kind == "prefix" else rb"[A-Za-z0-9._/*?-]{1,200}"
    if re.fullmatch(grammar, pattern) is None or not is_path(path):
        return "ill"
    if kind == "prefix":
        covered = hashlib.sha256(path).hexdigest().startswith(pattern.decode())
    elif kind == "flat":
        covered = takes(pattern, path, lambda byte: True)
    else:
        covered = takes(pattern, path, lambda byte: byte != ord("/"))
    return "yes" if covered else "no"


def bytes_of(word):
    return b"" if word == "-" else bytes.fromhex(word)


def expected(line):
    kind, *words = line.split(" ")
    if kind == "lms":
        return verdict(*map(bytes_of, words))
    if kind == "hss":
        return hierarchical(*map(bytes_of, words))
    if kind == "key":
        return key_id(*map(bytes_of, words))
    if kind == "sign":
        w, height, identifier, secret, q, message = words
        return signed(int(w), int(height), bytes_of(identifier), bytes_of(secret), int(q), bytes_of(message))
    if kind == "hss_made":
        top_width, top_height, width, height, identifier, secret, number, message = words
        trees = (int(top_width), int(top_height)), (int(width), int(height))
        return made(*trees, bytes_of(identifier), bytes_of(secret), int(number), bytes_of(message))
    if kind == "calendar":
        return seconds(*map(bytes_of, words))
    if kind == "asked":
        return asked(*map(bytes_of, words))
    if kind == "match":
        return covers(words[0], *map(bytes_of, words[1:]))
    return None


def main():
    here = pathlib.Path(__file__).resolve().parent.parent / "crates/verdicts"
    agree = 0
    differ = 0
    cases = (here / "stdin").read_text().splitlines()
    printed = (here / "stdout").read_text().splitlines()
    for number, (case, line) in enumerate(zip(cases, printed, strict=True), 1):
        want = expected(case)
        if want is None:
            continue
        if want == line:
            agree += 1
        else:
            differ += 1
            print(f"line {number}: {case[:40]}..: `{line[:80]}`, and here `{want[:80]}`")
    print(f"{agree} lines agree, {differ} differ")
    sys.exit(1 if differ else 0)


if __name__ == "__main__":
    main()
