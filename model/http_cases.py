"""Requests at the edges of HTTP: heads, routes, lengths, bodies, frames and names.

They are made by hand, with several faults at once, and by changing good ones at random.
"""
import http_requests
from http_requests import get, post, post_frames, prune, put
from names import asked
from program import World
from repository import State
from scenes import BLOB, NOW, ZEROS, granting_state
from signed_documents import digest

EMPTY_DIGEST = digest(b"")
ABC = digest(b"abc")
PLAIN = "GET /targets/y HTTP/1.1\r\n\r\n"
METHODS = """
    GET POST PUT HEAD OPTIONS get Get DELETE G X!#$%&'*+-.^_`|~9 PATCH G\xc9T POSTX GETX
""".split() + ["", "GE T"]
PLACES = f"""
    /batch /blobs/{ZEROS} /blobs/x /metadata/timestamp.json /metadata/x /targets/y /targets/a?b /prune /prune/ /prune?x /PRUNE //prune /nope / * batch
    http://h/targets/y /batch/ /blobs/ /blobs /blobs/a/b /metadata/ /metadata /metadata/a/b /targets/ /targets
    /targets// //targets/y /Targets/y /targets/a/ /targets/a/../y /targets/%79 /batch?x /batch# /BATCH
    /metadata/timestamp.json? /targets/y/ /targets/./y /targets/{{y}} /{{a}} /blobs/{{digest}} /targets/* /targets/"<>
    /metadata/<x>
""".split()
VERSIONS = [
    "HTTP/1.0", "HTTP/1.1", "HTTP/1.2", "HTTP/2.0", "HTTP/1.", "http/1.1", "HTTP/1.1 ", "HTTP/1.11", " HTTP/1.1", "",
    "HTTP/0.9", "HTTP/1.1\t",
]
IN_FRONT = [
    "\r\n", "\n", "\r\n\r\n\n", "\r", " ", "\t", "\n \n", "\r\r\n", "\n\r\n" * 5, "\x00", "\r\n" * 4000, "\n" * 8000,
    "\r\n" * 4096, "\n" * 8192, "\xef\xbb\xbf",
]
LENGTHS = [
    "0", "00", "000", "0000000000", "00000000000", "0000000001", "1", "4", "5", "+1", "-1", "-0", "1 ", "\t1\t",
    " \t 1 \t ", "1,1", "1, 1", "0x1", "1.0", "", "  ", "9999999999", "10000000000", "99999999999", "4294967295",
    "4294967296", "4294967297", "18446744073709551616", "4194304", "4194305", "1048576", "1048577", "0001048577",
    "\u00b2", "1\x0b", "1;", "1 2",
]
TARGET_NAMES = f"""
    y x dir/x.bin dir/{digest(BLOB)}.x.bin {EMPTY_DIGEST}.y {EMPTY_DIGEST.upper()}.y {EMPTY_DIGEST}. {EMPTY_DIGEST}
    .{EMPTY_DIGEST}.y {EMPTY_DIGEST}.{EMPTY_DIGEST}.y {ZEROS}.{EMPTY_DIGEST}.y {ZEROS}..y {ZEROS}.. {ZEROS}... {ZEROS}./
    {ZEROS}.y/z dir/{ZEROS}.x.bin {ZEROS}.dir/x.bin dir/{digest(BLOB)}.y dir dir/ dir/x.bin/ b/{ZEROS}.? b/{ZEROS}.*
    {ZEROS[1:]}.y 0{ZEROS}.y a..b ... a/..b a/.b a/b. - _ . .. a/./b a/../b a//b ~ a+b a%20b Y /y y? y# a/{ZEROS}..
    a/{ZEROS}...
""".split() + ["a" * 200, "a" * 201, "a" * 136 + "/" + ZEROS + "."]
TARGET_NAMES += [f"{ZEROS}." + "a" * count for count in (135, 136, 200, 201)]
METADATA_NAMES = """
    timestamp.json 1.root.json 2.root.json 3.root.json 4.root.json 03.root.json 0.root.json root.json 8.snapshot.json
    7.snapshot.json 9.snapshot.json snapshot.json 08.snapshot.json 4.targets.json 3.targets.json 04.targets.json
    targets.json 4.zeta.json 1.zeta.json 5.timestamp.json .json 4..json 4.targets 4.targets.json.json 4.targets.jsonx
    +4.targets.json -4.targets.json 4294967299.root.json 4294967300.targets.json 18446744073709551619.root.json
    3.Root.json 3.root.JSON 3root.json 3..root.json .3.root.json 3.root.json? 3%2eroot.json ٣.root.json
    99999999999999999999999999999999999.root.json 3.0.root.json 10.root.json
""".split() + ["timestamp.json ", "3." + "a" * 5000 + ".json"]
FRAME = b"timestamp 0\n"
FRAMES = [
    b"", b"\n", b"timestamp 0", FRAME, FRAME * 2, FRAME * 159, FRAME * 160, FRAME * 161, FRAME * 160 + b"z",
    FRAME + b"\n", b"timestamp 00\n", b"timestamp 01\n\0", b"timestamp 1\n", b"timestamp 1\nx", b"timestamp 1\nxy",
    b"timestamp  0\n", b"timestamp 0 \n", b"timestamp 0\r\n", b" timestamp 0\n", b"timestamp\t0\n", b"Timestamp 0\n",
    b"a.b 0\n", b"_a 0\n", b"-a 0\n", b"9 0\n", b"a_-9 0\n", b"a" * 32 + b" 0\n", b"a" * 33 + b" 0\n", b" 0\n",
    b"timestamp 9999999\n", b"timestamp 10000000\n", b"timestamp 0000000\n", b"timestamp 0000001\nx",
    b"timestamp -1\n", b"timestamp +1\nx", b"timestamp \n", b"timestamp 1e0\nx", b"timestamp 0\n\ntimestamp 0\n",
    b"\xc3\xa9 0\n", b"timestamp 0\nroot 5\nabcde", b"root 5\nabcdetimestamp 1\nx y", b"root 2\n{}", b"targets 2\n{}",
    b"mirrors 4\nnull", b"root 0\n\xff", b"\xef\xbb\xbfroot 0\n", b"snapshot 12\n" + FRAME, b"snapshot 13\n" + FRAME,
    b"snapshot 11\n" + FRAME, b"timestamp 262145\n" + b"x" * 262145, b"timestamp 262144\n" + b"x" * 262144,
    b"timestamp 262145\n" + b"x" * 262144, b"timestamp 1000000\n" + b'"' * 1000000,
]
# Where a byte of any value is put into a request.
BYTE_PLACES = [
    "GET /targets/y%s HTTP/1.1\r\n\r\n", "GET /no%spe HTTP/1.1\r\n\r\n", "GET /metadata/a%sb HTTP/1.1\r\n\r\n",
    "GE%sT /targets/y HTTP/1.1\r\n\r\n", "%sGET /targets/y HTTP/1.1\r\n\r\n",
    "GET /targets/y HTTP/1.1\r\na%sb: x\r\n\r\n", "GET /targets/y HTTP/1.1\r\n%sb: x\r\n\r\n",
    "GET /targets/y HTTP/1.1\r\nb%s: x\r\n\r\n", "GET /targets/y HTTP/1.1\r\nab: x%sy\r\n\r\n",
    "GET /targets/y HTTP/1.1\r\nab: x%s\r\n\r\n", "GET /targets/y HTTP/1.1\r\nab:%s\r\n\r\n",
    "POST /batch HTTP/1.1\r\nContent-Length:%s0\r\n\r\n", "POST /batch HTTP/1.1\r\nContent-Length:0%s\r\n\r\n",
    "GET /targets/y HTTP/1.1%s\n\r\n", "GET /targets/\xc3%s HTTP/1.1\r\n\r\n",
]
# Requests that are filled up to a length of their head.
FILLED = [
    ("blank lines", "%sGET /targets/y HTTP/1.1\r\n\r\n", "\n"),
    ("value", "GET /targets/y HTTP/1.1\r\nX: %s\r\n\r\n", "a"),
    ("target", "GET /targets/%s HTTP/1.1\r\n\r\n", "a"), ("route", "GET /nope%s HTTP/1.1\r\n\r\n", "a"),
    ("method", "%s /targets/y HTTP/1.1\r\n\r\n", "A"), ("name", "GET /targets/y HTTP/1.1\r\n%s: a\r\n\r\n", "n"),
    ("blanks in front", "POST /batch HTTP/1.1\nContent-Length:%s0\n\n", " "),
    ("blanks after", "POST /batch HTTP/1.1\nContent-Length:0%s\n\n", "\t"),
]
CODINGS = ["chunked", "identity", "", "gzip, chunked"]
CODING_NAMES = """
    Transfer-Encoding transfer-encoding TRANSFER-ENCODING Transfer-Encodin XTransfer-Encoding
""".split()
OTHER_LENGTH_NAMES = [
    "Content-Length ", "Content-Length\t", " Content-Length", "Content Length", "Content_Length", "Content-Lengt",
    "Content-LengthX", "CONTENT\xadLENGTH",
]


class Requests:
    """Requests, each with a label."""

    def __init__(self):
        self.all = []

    def add(self, label, request):
        self.all.append((label, request if isinstance(request, bytes) else request.encode("latin1")))


def request_lines(requests):
    for method in METHODS:
        for place in PLACES:
            requests.add("route", f"{method} {place} HTTP/1.1\r\n\r\n")
            if method in ("PUT", "POST", "GET"):
                requests.add("route", f"{method} {place} HTTP/1.1\r\nContent-Length: 0\r\n\r\n")
    for version in VERSIONS:
        for end in ("\r\n\r\n", "\n\n", "\r\r", "\r\r\n\r\r\n", "\n\r\n\r", "\n\r\n", "\r\n\n"):
            requests.add("version", f"GET /targets/y {version}{end}")
    for line in ("GET /targets/y", "GET  /targets/y HTTP/1.1", "GET\t/targets/y HTTP/1.1"):
        requests.add("version", f"{line}\r\n\r\n")
    for text in IN_FRONT:
        requests.add("in front", text + PLAIN)


def head_limits(requests):
    for length in (8190, 8191, 8192, 8193, 8194, 9000, 16384, 20000):
        for label, text, fill in FILLED:
            request = text % (fill * (length - len(text % "")))
            requests.add(f"head of {length} by its {label}", request)
            requests.add(f"head of {length} by its {label}, and more", request + "zzzz")
    for count in (0, 1, 30, 31, 32, 33, 34, 64, 100):
        fields = [f"f{number}: v\r\n" for number in range(count)]
        requests.add("fields", f"GET /targets/y HTTP/1.1\r\n{''.join(fields)}\r\n")
        requests.add("fields", f"POST /batch HTTP/1.1\r\n{''.join(fields[1:])}Content-Length: 0\r\n\r\n")
        for place in ("/targets/y", "/nope"):
            requests.add("fields", f"GET {place} HTTP/1.1\n" + "a:\n" * count + "\n")
    for line in ("a: b\r\n c", "a:\r\n b", "abc", ": b"):
        requests.add("fields", f"GET /targets/y HTTP/1.1\r\n{line}\r\n\r\n")


def single_bytes(requests):
    for byte in range(256):
        for text in BYTE_PLACES:
            requests.add(f"byte {byte}", text % chr(byte))


def lengths(requests):
    lines = ["POST /batch", f"PUT /blobs/{ABC}", "GET /targets/y", "GET /metadata/timestamp.json", "GET /metadata/nope"]
    lines += ["GET /targets/..", "PUT /blobs/zz", "GET /batch", "POST /prune"]
    for value in LENGTHS:
        names = ["Content-Length"]
        if value in ("0", "1", "4"):
            names += ["content-length", "CONTENT-LENGTH", "cOnTeNt-lEnGtH"]
        for line in lines:
            for name in names:
                requests.add("length", f"{line} HTTP/1.1\r\n{name}: {value}\r\n\r\nabc")
        both = f"Content-Length: {value}\r\ncontent-length: {value}"
        requests.add("length", f"POST /batch HTTP/1.1\r\n{both}\r\n\r\nabc")
        both = f"Content-Length: 0\r\nX: y\r\ncontent-length: {value}"
        requests.add("length", f"GET /targets/y HTTP/1.1\r\n{both}\r\n\r\nabc")
    for name in OTHER_LENGTH_NAMES:
        requests.add("length", f"POST /batch HTTP/1.1\r\n{name}: 0\r\n\r\n")
    for coding in CODINGS:
        for name in CODING_NAMES:
            for length in ("", "Content-Length: 0\r\n", "Content-Length: 9999999999\r\n", "Content-Length: x\r\n"):
                for line in ("POST /batch", "GET /targets/y", "GET /batch", "PUT /blobs/x", "GET /nope"):
                    requests.add("coding", f"{line} HTTP/1.1\r\n{name}: {coding}\r\n{length}\r\n0\r\n\r\n")
                    requests.add("coding", f"{line} HTTP/1.1\r\n{length}{name}: {coding}\r\n\r\n0\r\n\r\n")


def bodies(requests):
    whole = f"PUT /blobs/{ABC} HTTP/1.1\r\nContent-Length: 3\r\n\r\nabc".encode()
    for length in range(len(whole)):
        requests.add("cut", whole[:length])
    for length in range(3):
        requests.add("cut", b"PUT /blobs/zz HTTP/1.1\r\nContent-Length: 3\r\n\r\n" + b"abc"[:length])
    for more in (b"", b"extra", b"\r\n", PLAIN.encode(), b"\0" * 5000):
        requests.add("more after", whole + more)
        requests.add("more after", PLAIN.encode() + more)
        requests.add("more after", prune() + more)
    names = [ABC.upper(), ZEROS[1:], ZEROS + "0", "g" * 64, ZEROS, ABC, "%30" + "0" * 61, ABC + "?", "-" * 64, "   "]
    for name in names:
        for blob in (b"abc", b"", b"abd"):
            requests.add("digest", put(blob, name))
            requests.add("digest", put(blob, name, len(blob) + 1))
            requests.add("digest", put(blob, name, max(0, len(blob) - 1)))
    for text in (b"", b"\r\n", b"\n\n\n\n"):
        requests.add("nothing", text)


def frames(requests):
    for body in FRAMES:
        requests.add("frames", post_frames(body))
        requests.add("frames and more", post_frames(body) + FRAME)


def large_bodies(requests):
    document = b"timestamp 262144\n" + b"x" * 262144
    rest = 4194304 - len(document) * 15 - len(b"root 261876\n")
    full = document * 15 + b"root %d\n" % rest + b"y" * rest
    for body in (document * 15, document * 16, full, full + b"z", b"x" * 4194304):
        requests.add("large batch", post_frames(body))
    requests.add("large batch cut", post_frames(full)[:-1])
    blob = b"z" * 1048576
    whole = put(blob)
    for request in (whole, whole, put(blob + b"z"), put(blob, ZEROS), whole[:-1], whole + b"q", put(b""), put(b"")):
        requests.add("large or empty blob", request)


def names(requests):
    for name in TARGET_NAMES:
        requests.add(f"target of {asked(name)[0][:60]}", get("/targets/" + name))
    for name in METADATA_NAMES:
        requests.add(f"metadata {name[:60]}", get("/metadata/" + name))


def fault_pairs(requests):
    """Two and more checks of a request that fail at once."""
    fields = ["", "a: b\r\n" * 33, "a b\r\n"]
    places = ["/nope", "/batch", "/blobs/zz", f"/blobs/{ABC}", f"/blobs/{ZEROS}", "/blobs/\x80", "/metadata/nope"]
    places += ["/prune", "/metadata/timestamp.json", "/targets/..", "/targets/y", "/targets/none", "/targets/\x7f"]
    length_fields = ["", "Content-Length: x\r\n", "Content-Length: 3\r\n" * 2]
    length_fields.append("Transfer-Encoding: chunked\r\nContent-Length: 3\r\n")
    length_fields += [f"Content-Length: {length}\r\n" for length in (3, 0, 12, 4194305, 1048577, 1048576)]
    for field in fields:
        for method in ("GET", "PUT", "POST", "FOO"):
            for place in places:
                for length in length_fields:
                    for body in ("", "abc", "abd", "timestamp 0\n"):
                        requests.add("faults at once", f"{method} {place} HTTP/1.1\r\n{length}{field}\r\n{body}")


def world_state():
    state = granting_state()
    state.blobs[ABC] = b"abc"
    return state


def in_groups(session, state, requests, size=500, piece=262144, read_only=False):
    for first in range(0, len(requests), size):
        World(session, state).serve(NOW, requests[first:first + size], piece, read_only)


def compare_by_hand(session, _random):
    requests = Requests()
    for part in (request_lines, head_limits, single_bytes, lengths, bodies, frames, large_bodies, names, fault_pairs):
        part(requests)
    in_groups(session, world_state(), requests.all)


def compare_before_first_root(session, _random):
    """Where nothing is held yet."""
    requests = Requests()
    for part in (request_lines, bodies, frames, large_bodies, names):
        part(requests)
    in_groups(session, State(), requests.all)


def compare_reading(session, _random):
    """A server that only reads."""
    requests = Requests()
    for part in (request_lines, bodies, frames, large_bodies, names, fault_pairs):
        part(requests)
    in_groups(session, world_state(), requests.all, read_only=True)


def compare_in_pieces(session, _random):
    """The same bytes, seven a call."""
    requests = Requests()
    bodies(requests)
    frames(requests)
    short = [(label, request) for label, request in requests.all if len(request) < 2000]
    in_groups(session, world_state(), short, piece=7)


def compare_changed(session, random, count):
    """Good requests in other dress, and with bytes changed."""
    state = world_state()
    held = [("root", state.roots[-1].bytes), ("timestamp", state.timestamp.bytes)]
    good = [put(b"abc"), put(b"new"), post(*held), post(("timestamp", b"abc"), ("root", b"{}"))]
    good += [get(place) for place in ("/targets/y", "/targets/dir/x.bin", "/metadata/3.root.json")]
    good += [get(f"/targets/{EMPTY_DIGEST}.y"), prune()]
    requests = []
    for _ in range(count):
        request = random.choice(good)
        if random.random() < 0.65:
            requests.append(("changed", http_requests.mutated(random, request)))
        else:
            requests.append(("in other dress", http_requests.dressed(random, request)))
    in_groups(session, state, requests, 400)
