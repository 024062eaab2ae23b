#!/usr/bin/env python3
"""Cuts connections of the built server at each of their reads and writes: what is cut has no other reply, and the next peer is served.

    gate/cut.py [RELEASE]       the program, out/release where none is named

Calls of the system of its own (LD_PRELOAD) give or take so many bytes of a peer at a time. Each second connection is cut, the first of them at
its first call, the next at its second, and so on. Where a read fails, no command was made and nothing is written; where a write fails, or takes
nothing, the command stands, and what the peer got is the beginning of the reply. Besides, head and body of a reply are taken at any seams.
"""
import os
import subprocess
import sys
import tempfile

from served import HELLO, RELEASE, Copies, Server, Wrong, batch, put, want

SHIM = r"""
#define _GNU_SOURCE
#include <dlfcn.h>
#include <errno.h>
#include <stdlib.h>
#include <string.h>
#include <sys/socket.h>
#include <sys/uio.h>
#include <unistd.h>
static int peer = -1;
static long connections, calls;

#define REAL(name) ((__typeof__(&name))dlsym(RTLD_NEXT, #name))

int accept4(int fd, struct sockaddr *from, socklen_t *length, int flags) {
    peer = REAL(accept4)(fd, from, length, flags);
    if (peer >= 0) { connections++; calls = 0; }
    return peer;
}
/* whether the call on this side ("reads" or "writes") is the one that is cut, and how many bytes it may move otherwise */
static int is_cut(const char *side, size_t *room) {
    const char *sides = getenv("CUT_SIDE"), *most = getenv("CUT_ROOM");
    if (!sides || strcmp(sides, side)) return 0;
    *room = most ? (size_t)atol(most) : (size_t)connections;
    return most && connections % 2 && ++calls == (connections + 1) / 2;
}
ssize_t recv(int fd, void *into, size_t length, int flags) {
    size_t room = length;
    if (fd == peer && is_cut("reads", &room)) { errno = ECONNRESET; return -1; }
    return REAL(recv)(fd, into, room < length ? room : length, flags);
}
/* one call for all pieces, of which the system is handed what there is room for */
static ssize_t written(int fd, const struct iovec *pieces, size_t count) {
    char text[65536];
    size_t length = 0, room = sizeof text;
    if (is_cut("writes", &room)) { errno = EPIPE; return getenv("CUT_TAKES_NOTHING") ? 0 : -1; }
    if (room > sizeof text) room = sizeof text;
    for (size_t at = 0; at < count; at++) {
        size_t part = pieces[at].iov_len < room - length ? pieces[at].iov_len : room - length;
        memcpy(text + length, pieces[at].iov_base, part);
        length += part;
    }
    return REAL(send)(fd, text, length, MSG_NOSIGNAL);
}
ssize_t send(int fd, const void *from, size_t length, int flags) {
    struct iovec piece = {(void *)from, length};
    return fd == peer ? written(fd, &piece, 1) : REAL(send)(fd, from, length, flags);
}
ssize_t writev(int fd, const struct iovec *pieces, int count) {
    return fd == peer ? written(fd, pieces, count) : REAL(writev)(fd, pieces, count);
}
ssize_t sendmsg(int fd, const struct msghdr *message, int flags) {
    return fd == peer ? written(fd, message->msg_iov, message->msg_iovlen) : REAL(sendmsg)(fd, message, flags);
}
"""
ROOM = 3
HEAD = b"HTTP/1.1 200 OK\r\nContent-Type: application/json\r\nContent-Length: %d\r\nConnection: close\r\n\r\n"
STORED, HELD = (HEAD % len(body) + body for body in (b'{"stored":true}', b'{"stored":false}'))


def reads(server):
    """Each read of an upload fails once: it has no reply and stores nothing. The read after the last one cuts nothing."""
    calls = -(-len(put(b"00000")) // ROOM)
    for number in range(1, calls + 1):
        request = put(b"%05d" % number)
        want(server.ask(request) == b"", f"read {number} fails, and there is a reply")
        want(server.ask(request) == STORED, f"after read {number}, which failed")
    want(server.ask(put(b"00000")) == STORED, "all reads of a request went well")


def writes(server):
    """Each write of a reply is cut once: what was taken before is there, and the command stands. The write after the last one is not made."""
    for number in range(1, -(-len(STORED) // ROOM) + 2):
        request = put(b"%05d" % number)
        want(server.ask(request) == STORED[:(number - 1) * ROOM], f"write {number} is cut")
        want(server.ask(request) == HELD, f"after write {number}, which was cut")


def seams(server):
    """Each connection has room for one byte a call more than the one before it."""
    request = put(b"seams")
    want(server.ask(request) == STORED, "one byte a call")
    for number in range(2, len(HELD) + 3):
        want(server.ask(request) == HELD, f"{number} bytes a call")


# A request for each kind of reply, which changes nothing the second time, and how many bytes a call moves: fewer calls where there is more to move.
KINDS = {
    "a fault": (b"GET /nope HTTP/1.1\r\n\r\n", 3),
    "a method": (b"GET /batch HTTP/1.1\r\n\r\n", 3),
    "no such metadata": (b"GET /metadata/9.root.json HTTP/1.1\r\n\r\n", 3),
    "metadata": (b"GET /metadata/1.root.json HTTP/1.1\r\n\r\n", 97),
    "a target": (HELLO, 3),
    "a denied target": (b"GET /targets/none HTTP/1.1\r\n\r\n", 3),
    "a batch": (b"POST /batch HTTP/1.1\r\nContent-Length: %d\r\n\r\n" % len(batch()) + batch(), 211),
    "a denied batch": (b"POST /batch HTTP/1.1\r\nContent-Length: 12\r\n\r\ntimestamp 0\n", 3),
    "a prune": (b"POST /prune HTTP/1.1\r\nContent-Length: 0\r\n\r\n", 3),
    "a denied upload": (put(b"").replace(b"Content-Length: 0", b"Content-Length: 1") + b"x", 3),
}


def each_read(server, request, room):
    """Each read of a request fails once, and the request is made again: the reply is always the same."""
    want(server.ask(request) == b"", "the first read fails, and there is a reply")
    reply = server.ask(request)
    for number in range(2, -(-len(request) // room) + 1):
        want(server.ask(request) == b"", f"read {number} fails, and there is a reply")
        want(server.ask(request) == reply, f"after read {number}, which failed")


def each_write(server, request, room):
    """Each write of a reply is cut once, and the request is made again."""
    want(server.ask(request) == b"", "the first write is cut, and something came")
    reply = server.ask(request)
    want(reply.startswith(b"HTTP/1.1 "), f"a reply {reply!r}")
    for number in range(2, -(-len(reply) // room) + 2):
        want(server.ask(request) == reply[:(number - 1) * room], f"write {number} is cut")
        want(server.ask(request) == reply, f"after write {number}, which was cut")


def of_kind(case, kind):
    request, room = KINDS[kind]
    return lambda server: case(server, request, room), str(room)


CASES = {
    "reads that fail": (reads, {"CUT_SIDE": "reads", "CUT_ROOM": str(ROOM)}),
    "writes that fail": (writes, {"CUT_SIDE": "writes", "CUT_ROOM": str(ROOM)}),
    "writes that take nothing": (writes, {"CUT_SIDE": "writes", "CUT_ROOM": str(ROOM), "CUT_TAKES_NOTHING": "1"}),
    "seams": (seams, {"CUT_SIDE": "writes"}),
}
for kind in KINDS:
    for side, case in (("reads", each_read), ("writes", each_write)):
        made, most = of_kind(case, kind)
        CASES[f"{side} of {kind}"] = made, {"CUT_SIDE": side, "CUT_ROOM": most}


def held(name, copies, shim, release):
    case, words = CASES[name]
    try:
        with Server(copies.of(name.replace(" ", "_")), release=release, LD_PRELOAD=shim, **words) as server:
            case(server)
            want(server.process.poll() is None, "the server has ended")
            want(server.errors() == b"", f"the server says {server.errors()!r}")
    except (Wrong, OSError, subprocess.SubprocessError) as error:
        return [f"{name}: {error}"]
    return []


def main(words):
    release = os.path.realpath(words[0]) if words else RELEASE
    wrong = []
    with tempfile.TemporaryDirectory() as room, Copies(release) as copies:
        with open(f"{room}/cut.c", "w", encoding="ascii") as file:
            file.write(SHIM)
        subprocess.run(["cc", "-O1", "-shared", "-fPIC", "-o", f"{room}/cut.so", f"{room}/cut.c", "-ldl"], check=True)
        for name in CASES:
            wrong += held(name, copies, f"{room}/cut.so", release)
    for line in wrong:
        print(line)
    print(f"cut: {len(CASES)} cases, {len(wrong)} wrong")
    return 1 if wrong else 0


if __name__ == "__main__":
    sys.exit(main(sys.argv[1:]))
