"""LMS and HSS keys from fixed seeds (RFC 8554, sections 5 and 6, and appendix A).

They are for tests alone: a leaf signs again when all have signed. `gate/straight.py` makes the whole tree
for each signature. Here a key keeps its tree, since thousands of files are signed. The first group of `compare`
compares the two.
"""
import hashlib

import document_parts
import lms
from lms import sha256, u16, u32

ONE_TIME_TYPE_OF_WIDTH = {1: 1, 2: 2, 4: 3, 8: 4}
TREE_TYPE_OF_HEIGHT = {5: 5, 10: 6}
SECRET = b"\xff"
RANDOMIZER = 0xFFFD


class Key:
    def __init__(self, name, width, height):
        self.begin(sha256(b"identifier of ", name)[:16], sha256(b"seed of ", name), width, height)

    def begin(self, identifier, seed, width, height):
        self.width = width
        self.height = height
        self.identifier = identifier
        self.seed = seed
        self.one_time_type = ONE_TIME_TYPE_OF_WIDTH[width]
        self.tree_type = TREE_TYPE_OF_HEIGHT[height]
        self.elements = lms.ONE_TIME_TYPES[self.one_time_type][1]
        self.tree = self.make_tree()
        self.public = u32(self.tree_type) + u32(self.one_time_type) + self.identifier + self.tree[1]
        self.id = document_parts.key_id(self.public.hex())
        self.next_leaf = 0
        self.signatures = {}

    def private_element(self, leaf, element):
        """Appendix A."""
        return sha256(self.identifier, u32(leaf), u16(element), SECRET, self.seed)

    def leaf_hash(self, leaf):
        last = (1 << self.width) - 1
        ends = []
        for element in range(self.elements):
            ends.append(lms.chain(self.identifier, leaf, element, 0, last, self.private_element(leaf, element)))
        key = sha256(self.identifier, u32(leaf), lms.END_OF_CHAINS, *ends)
        return sha256(self.identifier, u32((1 << self.height) + leaf), lms.LEAF, key)

    def make_tree(self):
        """All nodes by their number, the root as 1."""
        leaves = 1 << self.height
        tree = [None] * leaves + [self.leaf_hash(leaf) for leaf in range(leaves)]
        for node in range(leaves - 1, 0, -1):
            tree[node] = sha256(self.identifier, u32(node), lms.INNER_NODE, tree[2 * node], tree[2 * node + 1])
        return tree

    def sign_with(self, leaf, message):
        randomizer = self.private_element(leaf, RANDOMIZER)
        message_hash = sha256(self.identifier, u32(leaf), lms.MESSAGE, randomizer, message)
        parts = [u32(leaf), u32(self.one_time_type), randomizer]
        for element, digit in enumerate(lms.digits(message_hash, self.one_time_type)):
            start = self.private_element(leaf, element)
            parts.append(lms.chain(self.identifier, leaf, element, 0, digit, start))
        parts.append(u32(self.tree_type))
        node = (1 << self.height) + leaf
        parts.extend(self.tree[(node >> level) ^ 1] for level in range(self.height))
        return b"".join(parts)

    def sign(self, message):
        """One message has one signature; each new one takes the next leaf."""
        name = hashlib.sha256(message).digest()
        if name not in self.signatures:
            self.signatures[name] = self.sign_with(self.next_leaf, message)
            self.next_leaf = (self.next_leaf + 1) % (1 << self.height)
        return self.signatures[name]


class KeyOfSeed(Key):
    """The key of what a seed file says: 16 bytes and 32 in hex digits."""

    def __init__(self, text, width, height):
        said = bytes.fromhex(text)
        self.begin(said[:16], said[16:], width, height)


def width_of(number):
    """Most keys have W4; one has W8, one W1, and some W2."""
    if number == 7:
        return 8
    if number == 5:
        return 1
    return 2 if number % 4 == 3 else 4


class HssKey:
    """A key of several levels, the top one first (section 6): each but the last signs the key of the next one."""

    def __init__(self, *levels):
        self.levels = levels
        self.height = levels[0].height
        self.public = u32(len(levels)) + levels[0].public
        self.id = document_parts.key_id(self.public.hex())

    def sign(self, message):
        parts = [u32(len(self.levels) - 1)]
        for signer, below in zip(self.levels, self.levels[1:]):
            parts += [signer.sign(below.public), below.public]
        return b"".join(parts) + self.levels[-1].sign(message)


# The numbers by which a leaf makes the seed and the identifier of the tree below it: no chain has them, nor the randomizer.
SEED_BELOW, IDENTIFIER_BELOW = 0xFFFE, 0xFFFF


class Tree(Key):
    """A tree of a key that has further trees below its leaves."""

    def __init__(self, identifier, seed, kinds):
        self.below_kinds = kinds[1:]
        self.below = {}
        self.begin(identifier, seed, *kinds[0])

    def tree_below(self, leaf):
        if leaf not in self.below:
            identifier, seed = self.private_element(leaf, IDENTIFIER_BELOW)[:16], self.private_element(leaf, SEED_BELOW)
            self.below[leaf] = Tree(identifier, seed, self.below_kinds)
        return self.below[leaf]

    def messages(self):
        """How many messages are signed by the lowest leaves below."""
        count = 1 << self.height
        for _, height in self.below_kinds:
            count <<= height
        return count

    def signed_down(self, number, message):
        """Section 6.2: each leaf signs the key of the tree below it, and the lowest one the message."""
        if not self.below_kinds:
            return self.sign_with(number, message)
        leaf, rest = divmod(number, self.messages() >> self.height)
        below = self.tree_below(leaf)
        return self.sign_with(leaf, below.public) + below.public + below.signed_down(rest, message)


class HssKeyOfSeed:
    """A key of several levels, all of whose trees come from one seed: 16 bytes and 32 in hex digits, and a width and a height for each level."""

    def __init__(self, text, *kinds):
        said = bytes.fromhex(text)
        self.top = Tree(said[:16], said[16:], kinds)
        self.signed_keys = len(kinds) - 1
        self.public = u32(len(kinds)) + self.top.public

    def sign_with(self, number, message):
        """None where there is no such lowest leaf."""
        if number >= self.top.messages():
            return None
        return u32(self.signed_keys) + self.top.signed_down(number, message)


LMS_KEYS = [Key(b"test key %d" % number, width_of(number), 10 if number == 11 else 5) for number in range(26)]
# The keys of these places are HSS keys, and the last ones are so over keys that are there for themselves too.
LEVELS = {1: (1, 21), 4: (4,), 6: (6, 2, 22), 9: (9, 11), 13: (13, 23), 17: (17,), 24: (24, 2, 22, 8, 10, 12, 14, 16)}
KEYS = [HssKey(*(LMS_KEYS[level] for level in LEVELS[number])) if number in LEVELS else LMS_KEYS[number] for number in range(26)]
KEYS += [HssKey(LMS_KEYS[12]), HssKey(LMS_KEYS[12], LMS_KEYS[19]), HssKey(LMS_KEYS[1])]
KEY_OF_ID = {key.id: key for key in KEYS}
