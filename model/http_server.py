"""What a server answers to the bytes of one connection (HTTP/1.1), and the state that is left."""
import re

import repository
from denials import Denied
from names import is_hex

MAXIMUM_HEAD = 8192
MAXIMUM_FIELDS = 32
MAXIMUM_BATCH = 4194304
MAXIMUM_DOCUMENTS = 160
TOKEN = rb"([!#$%&'*+.^_`|~0-9A-Za-z-]+)"
REQUEST_LINE = re.compile(rb"(?:\r?\n)*" + TOKEN + rb" ([\x21-\x7e]+) HTTP/1\.[01]\r?\n")
FIELD = re.compile(TOKEN + rb":([\t\x20-\x7e\x80-\xff]*)\r?\n")
LINE_END = re.compile(rb"\r?\n")
FRAME = re.compile(rb"([a-z0-9][a-z0-9_-]{0,31}) (0|[1-9][0-9]{0,6})\n")
REASONS = {
    200: "OK",
    400: "Bad Request",
    403: "Forbidden",
    404: "Not Found",
    405: "Method Not Allowed",
    413: "Content Too Large",
    503: "Service Unavailable",
}
MISSING = ("RoleMissing", "NotFound", "BlobMissing")
WRITING = ("batch", "blobs", "prune")


class Fault(Exception):
    """A request that asks nothing, with the word of its reply."""

    def __init__(self, status, word, allow=None):
        super().__init__(word)
        self.reply = reply(status, b'{"fault":"%s"}' % word.encode(), allow=allow)


def reply(status, body, content_type="application/json", allow=None):
    lines = [f"HTTP/1.1 {status} {REASONS[status]}", f"Content-Type: {content_type}", f"Content-Length: {len(body)}"]
    if allow:
        lines.append(f"Allow: {allow}")
    lines += ["Connection: close", "", ""]
    return "\r\n".join(lines).encode() + body


def denial_reply(denied):
    index = "" if denied.index is None else f'"index":{denied.index},'
    body = f'{{"denial":{denied.number},{index}"rule":"{denied.name}"}}'
    return reply(404 if denied.name in MISSING else 403, body.encode())


def read_head(request):
    """The method, the target, the fields, and where the body begins."""
    line = REQUEST_LINE.match(request)
    if line is None:
        raise Fault(400, "head")
    at = line.end()
    fields = []
    while not (end := LINE_END.match(request, at)):
        field = FIELD.match(request, at)
        if field is None or len(fields) == MAXIMUM_FIELDS:
            raise Fault(400, "head")
        fields.append((field[1].lower(), field[2].strip(b" \t")))
        at = field.end()
    if end.end() > MAXIMUM_HEAD:
        raise Fault(400, "head")
    return line[1].decode(), line[2].decode(), fields, end.end()


def find_route(target):
    """The command, its method, the largest length of its body, and its argument."""
    if target == "/batch":
        return "batch", "POST", MAXIMUM_BATCH, ""
    if target == "/prune":
        return "prune", "POST", 0, ""
    for place, method, limit, many in (
        ("blobs", "PUT", repository.MAXIMUM_BLOB_LENGTH, False),
        ("metadata", "GET", 0, False),
        ("targets", "GET", 0, True),
    ):
        argument = target.removeprefix(f"/{place}/")
        if argument not in ("", target) and (many or "/" not in argument):
            return place, method, limit, argument
    raise Fault(404, "route")


def read_length(method, fields):
    """Exactly one length, which a GET may leave out, and no other coding."""
    lengths = [value for name, value in fields if name == b"content-length"]
    if any(name == b"transfer-encoding" for name, _ in fields) or len(lengths) > 1:
        raise Fault(400, "length")
    if not lengths and method == "GET":
        return 0
    if not lengths or not re.fullmatch(rb"[0-9]{1,10}", lengths[0]):
        raise Fault(400, "length")
    return int(lengths[0])


def read_frames(body):
    """The documents of a batch: each a role's name, a length and so many bytes."""
    offered = []
    at = 0
    while at < len(body):
        head = FRAME.match(body, at)
        if head is None or head.end() + int(head[2]) > len(body) or len(offered) == MAXIMUM_DOCUMENTS:
            raise Fault(400, "batch")
        at = head.end() + int(head[2])
        offered.append((head[1].decode(), body[head.end():at]))
    if not offered:
        raise Fault(400, "batch")
    return offered


def answer_command(state, command, argument, body, now):
    if command == "blobs":
        if not is_hex(argument, 64):
            raise Fault(400, "digest")
        after = repository.put_blob(state, argument, body)
        if after is repository.SAME:
            return reply(200, b'{"stored":false}'), state
        return reply(200, b'{"stored":true}'), after
    if command == "batch":
        after, accepted, same = repository.batch(state, read_frames(body), now)
        return reply(200, b'{"accepted":%d,"same":%d}' % (accepted, same)), after
    if command == "prune":
        after, blobs, rows = repository.prune(state)
        return reply(200, b'{"blobs":%d,"rows":%d}' % (blobs, rows)), after
    if command == "metadata":
        held = repository.metadata_file(state, argument)
        if held is None:
            raise Fault(404, "name")
        return reply(200, held), state
    return reply(200, repository.target(state, argument, now), "application/octet-stream"), state


def response(state, request, now, read_only=False):
    """The first fault in the order head, route, method, length, size, body, and then the command's own answer. A server that only reads
    has no route by which something may be changed."""
    try:
        method, target, fields, body_first = read_head(request)
        command, method_wanted, limit, argument = find_route(target)
        if read_only and command in WRITING:
            raise Fault(404, "route")
        if method != method_wanted:
            raise Fault(405, "method", method_wanted)
        length = read_length(method, fields)
        if length > limit:
            raise Fault(413, "size")
        body = request[body_first:body_first + length]
        if len(body) < length:
            raise Fault(400, "body")
        return answer_command(state, command, argument, body, now)
    except Fault as fault:
        return fault.reply, state
    except Denied as denied:
        return denial_reply(denied), state
