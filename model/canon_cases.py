"""The command `canon`: JSON texts by hand and at random."""
import command_line

BY_HAND = [
    b"", b" ", b"{}", b"[]", b'""', b"0", b"-0", b'{"a":1.5,"a":2}', b'{"a":2,"a":1.5}', b'{"a":[[],-0],"a":1}',
    b"\xef\xbb\xbf{}", b"{}{}", b"{} x", b'"\xff"', b'"\\ud800"', b'"\\ud800\\u0041"', b'"\\udc00"',
    b'"\\uD83D\\uDE00"', b'"\\u000a"', b'"\n"', b'"\x7f"', b"[1,]", b'{"a":1,}', b'{"b":1,"a":2,"B":3,"":4}',
    b"{'a':1}", b"{a:1}", b"tru", b"nul", b"True", b"// x\n1", b"/**/1", b"[1 2]", b"1e400", b"-1e400", b"1" * 400,
    b"[1e400]", b'{"a":1e400,"a":1}', b"92233720368547758070", b"-92233720368547758080", b" 1\n", b'\t"a" ', b"\x0b1",
    b"\xa01", "\u20281".encode(), b"1\0", b'"\\u00"', b'"\\x41"', b'"\\\'"', b'"\\u 041"',
    b'{"z":1,"\xc3\xa9":2,"\xef\xbf\xbf":3,"\xf0\x90\x80\x80":4}',
    b'{"\xf0\x90\x80\x80":4,"\xef\xbf\xbf":3,"\xc3\xa9":2,"z":1}', b'{"\\u0061":1,"a":2}', b'{"a":2,"\\u0061":1}',
]
LETTERS = ["a", "b", "Z", "0", "é", "😀", "\x7f", "\u2028", "\uffff", "~"]
LETTERS += [r"\"", r"\\", r"\/", r"\b", r"\f", r"\n", r"\r", r"\t"]
LETTERS += [r"\u0041", r"\u00e9", r"\ud83d\ude00", r"\u0000", r"\u001F"]
WHOLE = ["0", "1", "-1", "12", "-120", "9223372036854775807", "-9223372036854775808", "42"]
OTHER_NUMBERS = """
    -0 1.0 1e2 0.0 9223372036854775808 -9223372036854775809 18446744073709551615 18446744073709551616 1E400 -1e-400
    01 +1 1. .5 0x1 1e NaN Infinity - 00 1_0
""".split()
CHANGES = [b"", b",", b'"', b"\\", b"}", b"]", b":", b" ", b"\x01", b"\xff", b"0", b"-"]


def deep():
    for depth in (31, 32, 33, 34, 126, 127, 128, 129, 200):
        lists = b"[" * depth + b"]" * depth
        yield lists
        yield b"[" * depth + b"1" + b"]" * depth
        yield b'{"a":' * depth + b"1" + b"}" * depth
        yield b'{"a":' + lists + b',"a":1}'
        yield b'{"a":' + lists + b',"b":1}'


def random_string(random):
    return '"' + "".join(random.choice(LETTERS) for _ in range(random.choice((0, 1, 1, 2, 3)))) + '"'


def random_text(random, depth=0):
    """A JSON text with blanks, or nearly one."""
    blanks = [random.choice(("", "", "", " ", "\n", "\t ", "\r\n")) for _ in range(3)]
    kind = random.random()
    if kind < 0.35 and depth < 6:
        members = []
        for _ in range(random.randint(0, 4)):
            members.append(blanks[1] + random_string(random) + blanks[2] + ":" + random_text(random, depth + 1))
        text = "{" + blanks[1] + ",".join(members) + blanks[2] + "}"
    elif kind < 0.5 and depth < 6:
        text = "[" + ",".join(random_text(random, depth + 1) for _ in range(random.randint(0, 4))) + "]"
    elif kind < 0.65:
        text = random.choice(WHOLE)
    elif kind < 0.67:
        text = random.choice(OTHER_NUMBERS)
    elif kind < 0.85:
        text = random_string(random)
    else:
        text = random.choice(("null", "true", "false"))
    return blanks[0] + text + blanks[1]


def changed(random, text):
    place = random.randrange(len(text))
    return text[:place] + random.choice(CHANGES) + text[place + random.choice((0, 1, 1)):]


def compare_canon(session, random, count):
    texts = [*BY_HAND, *deep()]
    for _ in range(count):
        text = random_text(random).encode()
        texts.append(changed(random, text) if random.random() < 0.25 else text)
    file = session.folder / "text.json"
    for text in texts:
        file.write_bytes(text)
        session.check("canon", command_line.canon(text), session.run("canon", str(file)), text)
    found = session.run("canon", str(session.folder / "absent.json"))
    session.check("canon of no file", command_line.fault("file"), found)
