"""How a text that comes from outside is told on a line that an operator reads, and which names are a word of a shell's line."""
import re

CONTROLS = {*range(0x20), 0x7F, *range(0x80, 0xA0)}
DIRECTIONS = {0x61C, 0x200E, 0x200F, *range(0x202A, 0x202F), *range(0x2066, 0x206A)}
ENDS = {0x2028, 0x2029}
OF_NO_WIDTH = {0xAD, 0x200B, 0x200C, 0x200D, 0x2060, 0xFEFF}


def spelling(character):
    code = ord(character)
    if code in CONTROLS:
        return f"\\x{code:02x}"
    if code in DIRECTIONS | ENDS | OF_NO_WIDTH:
        return f"\\u{{{code:x}}}"
    return "\\\\" if character == "\\" else character


def plain(text):
    """Each character that is not plain as its number, each backslash as two, and all others as they stand."""
    return "".join(map(spelling, text))


def is_plain_name(text):
    return re.fullmatch(r"(?!-)[A-Za-z0-9._-]{1,64}", text) is not None
