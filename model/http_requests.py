"""Makes the bytes of requests, and changes them at random."""
from signed_documents import digest


def with_body(line, body, length=None):
    length = len(body) if length is None else length
    return line + b" HTTP/1.1\r\nHost: x\r\nContent-Length: %d\r\n\r\n" % length + body


def frames(offered):
    return b"".join(b"%s %d\n" % (role.encode(), len(text)) + text for role, text in offered)


def post_frames(body):
    return with_body(b"POST /batch", body)


def post(*offered):
    """A batch of documents, each a role's name and bytes."""
    return post_frames(frames(offered))


def get(path):
    return f"GET {path} HTTP/1.1\r\nHost: x\r\n\r\n".encode()


def put(blob, name=None, length=None):
    """A blob under its digest, or under another name; said to be of its length, or of another."""
    return with_body(b"PUT /blobs/" + (digest(blob) if name is None else name).encode(), blob, length)


def prune():
    return with_body(b"POST /prune", b"")


CHANGED_TO = b'\r\n\t :/.0129aAzZ\x00\x7f\x80\xff%?{}"<>'
INSERTED = (
    b"\r\n", b"\n", b" ", b"\t", b":", b"0", b"\r", b"Content-Length: 0\r\n", b"/", b"\r\nX: y", b"a", b"\x80",
)


def mutated(random, request):
    """A few bytes changed, inserted, deleted or repeated, mostly in the head."""
    text = bytearray(request)
    head = request.find(b"\r\n\r\n") + 4
    for _ in range(random.choice((1, 1, 1, 2, 2, 3, 5))):
        if not text:
            break
        limit = min(len(text), head + 30) if random.random() < 0.85 else len(text)
        at = random.randrange(max(1, limit))
        kind = random.random()
        if kind < 0.25:
            text[at] = random.choice(CHANGED_TO)
        elif kind < 0.4:
            text[at] = random.randrange(256)
        elif kind < 0.55:
            del text[at]
        elif kind < 0.75:
            text[at:at] = random.choice(INSERTED)
        elif kind < 0.85:
            del text[at:at + random.randrange(1, 12)]
        elif kind < 0.92:
            other = random.randrange(max(1, limit))
            text[at:at] = text[min(at, other):max(at, other)][:200]
        else:
            del text[at:]
    return bytes(text)


FURTHER_FIELDS = (b"Accept: */*", b"X:", b"Y: \xe9\xff", b"Expect: 100-continue", b"Connection: keep-alive")


def dressed_field(random, field):
    """Other letters of the name, other blanks, zeros in front of a length."""
    name, _, value = field.partition(b":")
    value = value.strip()
    if name == b"Content-Length" and len(value) < 10 and random.random() < 0.3:
        value = b"0" * random.randrange(0, 11 - len(value)) + value
    if random.random() < 0.3:
        name = bytes(random.choice((byte, byte ^ 32)) if chr(byte).isalpha() else byte for byte in name)
    return name + b":" + random.choice((b"", b" ", b"\t", b" \t ")) + value + random.choice((b"", b" ", b"\t\t"))


def dressed(random, request):
    """The same request with other line ends, fields and blanks."""
    head, _, body = request.partition(b"\r\n\r\n")
    line, *fields = head.split(b"\r\n")
    if random.random() < 0.3:
        line = line.replace(b"HTTP/1.1", b"HTTP/1.0")
    fields = [dressed_field(random, field) for field in fields]
    fields += [random.choice(FURTHER_FIELDS) for _ in range(random.choice((0, 0, 1, 3, 29)))]
    random.shuffle(fields)
    text = random.choice((b"", b"", b"\r\n", b"\n\r\n"))
    for part in (line, *fields, b""):
        text += part + (b"\n" if random.random() < 0.3 else b"\r\n")
    return text + body + (b"extra" if random.random() < 0.2 else b"")
