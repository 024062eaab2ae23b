"""Verification of LMS and HSS signatures with SHA-256 (RFC 8554, sections 4 to 6)."""
import hashlib
from functools import lru_cache

# The type of a one-time signature: its width w, its elements p and the left shift ls of its checksum (table 1).
ONE_TIME_TYPES = {1: (1, 265, 7), 2: (2, 133, 6), 3: (4, 67, 4), 4: (8, 34, 0)}
TREE_HEIGHTS = {5: 5, 6: 10, 7: 15, 8: 20, 9: 25}
PUBLIC_KEY_LENGTH = 56
HSS_PUBLIC_KEY_LENGTH = 60
MOST_LEVELS = 8
# D_PBLC, D_MESG, D_LEAF and D_INTR (section 7.1).
END_OF_CHAINS, MESSAGE, LEAF, INNER_NODE = b"\x80\x80", b"\x81\x81", b"\x82\x82", b"\x83\x83"


def sha256(*parts):
    return hashlib.sha256(b"".join(parts)).digest()


def u16(number):
    return number.to_bytes(2, "big")


def u32(number):
    return number.to_bytes(4, "big")


def number_at(text, first):
    return int.from_bytes(text[first:first + 4], "big")


def coefficients(text, width, count):
    """coef (section 3.1.3), for the first `count` digits."""
    per_byte = 8 // width
    return [text[i // per_byte] >> 8 - width * (i % per_byte + 1) & (1 << width) - 1 for i in range(count)]


def digits(message_hash, one_time_type):
    """The digits of a hash and of its checksum (section 4.4)."""
    width, elements, shift = ONE_TIME_TYPES[one_time_type]
    checksum = sum((1 << width) - 1 - digit for digit in coefficients(message_hash, width, 256 // width))
    return coefficients(message_hash + u16(checksum << shift), width, elements)


def chain(identifier, leaf, element, first, last, start):
    """The steps `first` up to `last` of one chain of a one-time key."""
    head = identifier + u32(leaf) + u16(element)
    text = start
    for step in range(first, last):
        text = hashlib.sha256(head + bytes([step]) + text).digest()
    return text


def signature_length(public):
    """How many bytes the signatures of a key have; None where there are no such types."""
    height, one_time_type = TREE_HEIGHTS.get(number_at(public, 0)), ONE_TIME_TYPES.get(number_at(public, 4))
    return None if height is None or one_time_type is None else 44 + 32 * (one_time_type[1] + height)


def verify(public, message, signature):
    """Algorithms 6 and 6a with 4b. No bytes may be left over."""
    if len(public) != PUBLIC_KEY_LENGTH or len(signature) != signature_length(public):
        return False
    height = TREE_HEIGHTS[number_at(public, 0)]
    one_time_type = number_at(public, 4)
    width, elements, _ = ONE_TIME_TYPES[one_time_type]
    identifier, root = public[8:24], public[24:]
    path_first = 44 + 32 * elements
    leaf = number_at(signature, 0)
    same_types = signature[4:8] == public[4:8] and signature[path_first - 4:path_first] == public[:4]
    if not same_types or leaf >= 1 << height:
        return False
    randomizer = signature[8:40]
    message_digits = digits(sha256(identifier, u32(leaf), MESSAGE, randomizer, message), one_time_type)
    ends = []
    for i, digit in enumerate(message_digits):
        element = signature[40 + 32 * i:72 + 32 * i]
        ends.append(chain(identifier, leaf, i, digit, (1 << width) - 1, element))
    node = (1 << height) + leaf
    here = sha256(identifier, u32(node), LEAF, sha256(identifier, u32(leaf), END_OF_CHAINS, *ends))
    for level in range(height):
        sibling = signature[path_first + 32 * level:path_first + 32 * level + 32]
        pair = (sibling, here) if node % 2 else (here, sibling)
        node //= 2
        here = sha256(identifier, u32(node), INNER_NODE, *pair)
    return here == root


# The keys below the top one are few, and each is signed once.
verify_key = lru_cache(maxsize=8192)(verify)


def verify_hss(public, message, signature):
    """Section 6.3: the key is the number of levels and the key of the top one; the signature is the number of the signed keys, each of these
    after the signature of the level above, and the signature of the message. No bytes may be left over."""
    if len(public) != HSS_PUBLIC_KEY_LENGTH or not 1 <= number_at(public, 0) <= MOST_LEVELS:
        return False
    signed_keys = number_at(public, 0) - 1
    if signature[:4] != u32(signed_keys):
        return False
    signer, rest = public[4:], signature[4:]
    for _ in range(signed_keys):
        length = signature_length(signer)
        if length is None:
            return False
        by_signer, key, rest = rest[:length], rest[length:length + PUBLIC_KEY_LENGTH], rest[length + PUBLIC_KEY_LENGTH:]
        if len(key) != PUBLIC_KEY_LENGTH or not verify_key(signer, key, by_signer):
            return False
        signer = key
    return verify(signer, message, rest)
