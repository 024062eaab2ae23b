"""OLPC canonical JSON: a reader that refuses every other spelling, and a writer (TUF 1.0, section 4.2)."""
import re

MAXIMUM_DEPTH = 32
SMALLEST, LARGEST = -(2**63), 2**63 - 1
PLAIN = re.compile(rb'[^"\\]*')
INTEGER = re.compile(rb"0|-?[1-9][0-9]{0,18}")
WORDS = {b"null": None, b"true": True, b"false": False}


class NotCanonical(Exception):
    """Bytes that are no canonical text."""


def require(condition):
    if not condition:
        raise NotCanonical


class Reader:
    """Reads one text from its beginning. `spans` says where the values of the outermost object's members stand."""

    def __init__(self, text):
        self.text = text
        self.at = 0
        self.spans = {}

    def peek(self):
        return self.text[self.at:self.at + 1]

    def take(self, byte):
        require(self.peek() == byte)
        self.at += 1

    def string(self):
        """Only the quotation mark and the backslash are escaped; every other byte stands for itself."""
        self.take(b'"')
        parts = []
        while True:
            plain = PLAIN.match(self.text, self.at)[0]
            parts.append(plain)
            self.at += len(plain)
            if self.peek() == b'"':
                self.at += 1
                break
            self.take(b"\\")
            require(self.peek() in (b'"', b"\\"))
            parts.append(self.peek())
            self.at += 1
        try:
            return b"".join(parts).decode("utf-8")
        except UnicodeDecodeError:
            raise NotCanonical from None

    def integer(self):
        """64-bit and signed, with no leading zero and no negative zero. More digits stand after it as a fault."""
        digits = INTEGER.match(self.text, self.at)
        require(digits is not None)
        number = int(digits[0])
        require(SMALLEST <= number <= LARGEST)
        self.at = digits.end()
        return number

    def another(self, end):
        """After a value inside a list or an object: a comma, or the end."""
        require(self.peek() in (b",", end))
        self.at += 1
        return self.text[self.at - 1:self.at] == b","

    def list(self, depth):
        self.take(b"[")
        values = []
        if self.peek() == b"]":
            self.at += 1
            return values
        values.append(self.value(depth + 1))
        while self.another(b"]"):
            values.append(self.value(depth + 1))
        return values

    def member(self, members, depth):
        """The names rise strictly in the order of their UTF-8 bytes."""
        name = self.string()
        if members:
            require(next(reversed(members)).encode() < name.encode())
        self.take(b":")
        first = self.at
        members[name] = self.value(depth + 1)
        if depth == 0:
            self.spans[name] = (first, self.at)

    def object(self, depth):
        self.take(b"{")
        members = {}
        if self.peek() == b"}":
            self.at += 1
            return members
        self.member(members, depth)
        while self.another(b"}"):
            self.member(members, depth)
        return members

    def value(self, depth):
        start = self.peek()
        if start == b'"':
            return self.string()
        for word, meaning in WORDS.items():
            if self.text.startswith(word, self.at):
                self.at += len(word)
                return meaning
        if start in (b"[", b"{"):
            require(depth < MAXIMUM_DEPTH)
            return self.list(depth) if start == b"[" else self.object(depth)
        return self.integer()


def read(text):
    """The value, and where the members of the outermost object stand. Raises NotCanonical."""
    reader = Reader(text)
    value = reader.value(0)
    require(reader.at == len(text))
    return value, reader.spans


def write(value):
    """The one spelling. Bytes in a value stand for themselves, so that tests can spell a part in another way."""
    if value is None:
        return b"null"
    if value is True:
        return b"true"
    if value is False:
        return b"false"
    if type(value) is int:
        return str(value).encode()
    if type(value) is str:
        return b'"' + value.encode().replace(b"\\", b"\\\\").replace(b'"', b'\\"') + b'"'
    if type(value) is list:
        return b"[" + b",".join(map(write, value)) + b"]"
    if type(value) is dict:
        names = sorted(value, key=str.encode)
        return b"{" + b",".join(write(name) + b":" + write(value[name]) for name in names) + b"}"
    if type(value) is bytes:
        return value
    raise TypeError(value)
