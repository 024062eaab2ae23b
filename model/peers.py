"""Peers that go away, send slowly, or send on: what they get, and that the next peer is served."""
import socket
import struct

import http_server
from http_requests import get, put
from program import LOOPBACK, World, ask, end_server
from scenes import NOW, granting_state

PLAIN = get("/targets/y")
# Refused before the peer has sent all: no end of the sending side is waited for.
REFUSED_EARLY = [
    b"GET /nope HTTP/1.1\r\n\r\n", b"POST /batch HTTP/1.1\r\nContent-Length: 4194305\r\n\r\n",
    b"PUT /targets/y HTTP/1.1\r\nContent-Length: 5\r\n\r\n", b"POST /batch HTTP/1.1\r\n\r\n", b"GET /a b HTTP/1.1\r\n",
    b"A" * 8193, b"\x00", b"GET / HTTP/1.1\r\n" + b"a:\n" * 33, b"GET / HTTP/1.1\r\n: \r\n",
]


def reset(connection):
    """Closes so that the other side meets a reset."""
    connection.setsockopt(socket.SOL_SOCKET, socket.SO_LINGER, struct.pack("ii", 1, 0))
    connection.close()


def read_all(connection):
    received = b""
    try:
        while part := connection.recv(4096):
            received += part
    except OSError:
        received += b"<reset or no end>"
    return received


class Peers:
    """Peers of one server, in turn."""

    def __init__(self, session, world, count):
        self.session = session
        self.world = world
        self.left = count
        self.server, self.port = session.start_server(world.database, NOW, count)
        if self.server is None:
            raise SystemExit(f"no server: {self.port}")

    def connect(self):
        self.left -= 1
        return socket.create_connection((LOOPBACK, self.port), timeout=60)

    def wanted(self, request):
        reply, self.world.state = http_server.response(self.world.state, request, NOW)
        return reply

    def served(self, label, request, piece=262144):
        before = self.world.state
        self.left -= 1
        wanted = self.wanted(request)
        self.session.check(f"peer: {label}", wanted, ask(self.port, request, piece), request, NOW, before)

    def leaves(self, label, request, close):
        """Sends and goes away; the next one is served."""
        connection = self.connect()
        connection.sendall(request)
        close(connection)
        self.served(label, PLAIN)

    def stays(self, label, request, shut=False):
        """Sends and reads on, with its sending side open or shut."""
        wanted = self.wanted(request)
        with self.connect() as connection:
            connection.sendall(request)
            if shut:
                connection.shutdown(socket.SHUT_WR)
            self.session.check(f"peer: {label}", wanted, read_all(connection), request, NOW)


def compare_peers(session, _random):
    world = World(session, granting_state())
    before = world.state
    peers = Peers(session, world, 15 + len(REFUSED_EARLY))
    peers.served("the first", PLAIN)
    peers.leaves("after one that closed", b"", socket.socket.close)
    peers.leaves("after one that reset", b"", reset)
    peers.leaves("after one that closed inside the head", b"GET /tar", socket.socket.close)
    peers.leaves("after one that reset inside the head", b"GET /tar", reset)
    cut = put(b"cut short")[:-1]
    peers.stays("cut short", cut, shut=True)
    peers.served("nothing was kept", put(b"cut short"))
    peers.served("one byte at a time", put(b"slow"), piece=1)
    peers.stays("no end of sending", put(b"slow"))
    for request in REFUSED_EARLY:
        peers.stays(f"refused early, {request[:30]}", request)
    over = b"POST /batch HTTP/1.1\r\nContent-Length: 4194305\r\n\r\n" + b"x" * 4194305
    peers.served("too large, and sent all the same", over)
    connection = peers.connect()
    connection.sendall(put(b"abc")[:-1])
    reset(connection)
    session.check("peer: all were counted", 0, peers.left)
    session.check("peer: end of the server", (0, b"", b""), end_server(peers.server))
    world.check_rows("peers", before)
