"""Any JSON text (RFC 8259) as serde_json reads it, for the command `canon`.

Python's own reader takes other texts too.
"""
import re

import canonical_json

MAXIMUM_DEPTH = 127
SPACE = re.compile("[ \t\n\r]*")
NUMBER = re.compile(r"-?(?:0|[1-9][0-9]*)(\.[0-9]+)?([eE][+-]?[0-9]+)?")
PLAIN = re.compile(r'[^"\\\x00-\x1f]*')
HEX = re.compile("[0-9a-fA-F]{4}")
ESCAPES = {"b": "\b", "f": "\f", "n": "\n", "r": "\r", "t": "\t", '"': '"', "\\": "\\", "/": "/"}
WORDS = {"null": None, "true": True, "false": False}
# Stands for every number that is no 64-bit signed integer.
OTHER_NUMBER = 0.5


class NotJson(Exception):
    """Bytes that are no JSON text."""


def require(condition):
    if not condition:
        raise NotJson


class Reader:
    def __init__(self, text):
        self.text = text
        self.at = 0

    def peek(self):
        return self.text[self.at:self.at + 1]

    def skip_space(self):
        self.at = SPACE.match(self.text, self.at).end()

    def take(self, character):
        require(self.peek() == character)
        self.at += 1

    def unit(self):
        """Four hex digits."""
        digits = HEX.match(self.text, self.at)
        require(digits is not None)
        self.at = digits.end()
        return int(digits[0], 16)

    def escape(self):
        character = self.peek()
        require(character)
        self.at += 1
        if character in ESCAPES:
            return ESCAPES[character]
        require(character == "u")
        first = self.unit()
        require(not 0xDC00 <= first <= 0xDFFF)
        if not 0xD800 <= first <= 0xDBFF:
            return chr(first)
        self.take("\\")
        self.take("u")
        second = self.unit()
        require(0xDC00 <= second <= 0xDFFF)
        return chr(0x10000 + (first - 0xD800 << 10) + second - 0xDC00)

    def string(self):
        self.take('"')
        parts = []
        while True:
            plain = PLAIN.match(self.text, self.at)[0]
            parts.append(plain)
            self.at += len(plain)
            if self.peek() == '"':
                self.at += 1
                return "".join(parts)
            self.take("\\")
            parts.append(self.escape())

    def number(self):
        digits = NUMBER.match(self.text, self.at)
        require(digits is not None)
        self.at = digits.end()
        require(abs(float(digits[0])) != float("inf"))
        if digits[1] or digits[2] or digits[0] == "-0":
            return OTHER_NUMBER
        whole = int(digits[0])
        return whole if canonical_json.SMALLEST <= whole <= canonical_json.LARGEST else OTHER_NUMBER

    def another(self, end):
        self.skip_space()
        require(self.peek() in (",", end) and self.peek())
        self.at += 1
        return self.text[self.at - 1] == ","

    def list(self, depth):
        self.take("[")
        values = []
        self.skip_space()
        if self.peek() == "]":
            self.at += 1
            return values
        values.append(self.value(depth + 1))
        while self.another("]"):
            values.append(self.value(depth + 1))
        return values

    def member(self, members, depth):
        """Of two members of one name the later one stands."""
        self.skip_space()
        name = self.string()
        self.skip_space()
        self.take(":")
        members[name] = self.value(depth + 1)

    def object(self, depth):
        self.take("{")
        members = {}
        self.skip_space()
        if self.peek() == "}":
            self.at += 1
            return members
        self.member(members, depth)
        while self.another("}"):
            self.member(members, depth)
        return members

    def value(self, depth):
        self.skip_space()
        for word, meaning in WORDS.items():
            if self.text.startswith(word, self.at):
                self.at += len(word)
                return meaning
        start = self.peek()
        if start == '"':
            return self.string()
        if start and start in "[{":
            require(depth < MAXIMUM_DEPTH)
            return self.list(depth) if start == "[" else self.object(depth)
        return self.number()


def read(text):
    """The value of a JSON text. Raises NotJson."""
    try:
        reader = Reader(text.decode("utf-8"))
    except UnicodeDecodeError:
        raise NotJson from None
    value = reader.value(0)
    reader.skip_space()
    require(reader.at == len(reader.text))
    return value


def has_other_number(value):
    if type(value) is list:
        return any(map(has_other_number, value))
    if type(value) is dict:
        return any(map(has_other_number, value.values()))
    return value is OTHER_NUMBER


def depth(value):
    if type(value) is list:
        return 1 + max(map(depth, value), default=0)
    if type(value) is dict:
        return 1 + max(map(depth, value.values()), default=0)
    return 0
