"""The book of leaves, and what `sign` and `key` print. A leaf of a key signs one message only (RFC 8554, section 9)."""
import canonical_json
from command_line import DENIED, DONE, denied_line
from denials import Denied
from document_parts import MAXIMUM_SIGNATURES
from documents import MAXIMUM_LENGTH, read_envelope


class Book:
    """The leaf that each message has, for each key. It is made by the first command that opens it, and told then."""

    def __init__(self, path):
        self.path, self.is_made, self.leaves = path, False, {}
        # of each seed, the width and height of each tree that is registered, by the key's id
        self.trees = {}

    def opened(self):
        """What is told where the book is made."""
        told = b"" if self.is_made else self.told("a new book")
        self.is_made = True
        return told

    def other_tree(self, key):
        """The width and height of another tree that the seed has in the book: its one-time keys are the same, whatever these are (RFC 8554, A)."""
        trees = self.trees.get((key.identifier, key.seed), {})
        return next((trees[it] for it in sorted(trees, key=trees.get) if it != key.id), None)

    def refused(self, key):
        """What is told of a key that may not sign for another tree of its seed, or None."""
        other = self.other_tree(key)
        if other is None:
            return None
        words = "--ots %d --height %d" % other
        if key.id in self.leaves:
            return self.told(f"two trees of this seed stand here, this one and that of {words}, and have the same one-time keys: replace both keys by a new root")
        return self.told(f"the seed signs here with {words}, and at another width or height it has the same one-time keys: sign with {words}, "
                         "or by a key with a seed of its own")

    def registered(self, key):
        """What is told where the key is put into the book."""
        told = b"" if key.id in self.leaves else self.told("a new key ID")
        self.leaves.setdefault(key.id, {})
        self.trees.setdefault((key.identifier, key.seed), {})[key.id] = (key.width, key.height)
        return told

    def told(self, fact):
        return f"warning: {self.path}: {fact}\n".encode()

    def reserve(self, key, message):
        """The leaf that the message has, else the least that no message has, and None where each has one."""
        leaves = self.leaves[key.id]
        if message not in leaves:
            free = set(range(1 << key.height)) - set(leaves.values())
            if not free:
                return None
            leaves[message] = min(free)
        return leaves[message]

    def rows(self):
        """Key, leaf and message of each leaf that is kept."""
        return {(key, leaf, message) for key, leaves in self.leaves.items() for message, leaf in leaves.items()}


def key_line(key):
    public = {"keytype": "lms", "keyval": {"public": key.public.hex()}, "scheme": "lms-sha256"}
    return DONE, canonical_json.write(public) + b"\n", b""


def with_entry(signatures, key, signature, signed):
    """The key's entry stands last, and an older one of it is taken out."""
    entries = [{"keyid": keyid, "sig": bytes_.hex()} for keyid, bytes_ in signatures if keyid != key.id]
    entries.append({"keyid": key.id, "sig": signature.hex()})
    if len(entries) > MAXIMUM_SIGNATURES:
        raise Denied("WrongShape")
    text = canonical_json.write({"signatures": entries, "signed": signed})
    if len(text) > MAXIMUM_LENGTH:
        raise Denied("TooLong")
    return text


UNKNOWN = DENIED, b"", b"unknown key\n"


def sign(book, key, text, known=False):
    """What is denied of the file, or of the result, is denied before a leaf is reserved. Where the book and the key have to be known, none
    is made and no key is put into it."""
    if known and not (book.is_made and key.id in book.leaves):
        return UNKNOWN
    told = book.opened()
    try:
        signatures, _, signed = read_envelope(text)
        with_entry(signatures, key, key.sign_with(0, b""), signed)
    except Denied as denied:
        status, printed, line = denied_line(denied)
        return status, printed, told + line
    refused = book.refused(key)
    if refused is not None:
        return DENIED, b"", told + refused + b"refused book\n"
    told += book.registered(key)
    leaf = book.reserve(key, signed)
    if leaf is None:
        return DENIED, b"", told + b"leaves spent\n"
    return DONE, with_entry(signatures, key, key.sign_with(leaf, signed), signed), told
