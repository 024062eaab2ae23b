"""What the scripts of this folder have in common: a repository with the example in it, and servers over it."""
import hashlib
import os
import random
import shutil
import signal
import socket
import subprocess
import tempfile
import time

TOP = os.path.dirname(os.path.dirname(os.path.realpath(__file__)))
RELEASE = f"{TOP}/crates/release/out/release"
EXAMPLE = f"{TOP}/example"
AT = ["--at", "1893456000"]
ROLES = ("timestamp", "snapshot", "targets")
HELLO = b"GET /targets/hello.txt HTTP/1.1\r\n\r\n"
TRIES = 5


class Wrong(Exception):
    """What was found is not what is wanted."""


def want(holds, said):
    if not holds:
        raise Wrong(said)


def without_reasons(told):
    """What a program told on standard error, without the lines that say what a fault is about."""
    mark = "release: " if isinstance(told, str) else b"release: "
    return told[:0].join(line for line in told.splitlines(keepends=True) if not line.startswith(mark))


def read(path):
    with open(path, "rb") as file:
        return file.read()


def run(*words, release=RELEASE):
    """Runs the program to its end, which is to be a good one."""
    subprocess.run([release, *words], check=True, stdout=subprocess.DEVNULL)


def repository(folder, release=RELEASE):
    """Makes a repository with the example, and gives its file."""
    db = f"{folder}/repository.db"
    run("init", *AT, "--db", db, f"{EXAMPLE}/root.json", release=release)
    run("publish", *AT, "--db", db, *(f"{role}:{EXAMPLE}/{role}.json" for role in ROLES), release=release)
    run("put", *AT, "--db", db, f"{EXAMPLE}/hello.txt", release=release)
    return db


def batch():
    """The body of a batch of the example's documents."""
    parts = [(role, read(f"{EXAMPLE}/{role}.json")) for role in ROLES]
    return b"".join(b"%s %d\n%s" % (role.encode(), len(data), data) for role, data in parts)


def put(data):
    """The request that stores these bytes."""
    digest = hashlib.sha256(data).hexdigest()
    return b"PUT /blobs/%s HTTP/1.1\r\nContent-Length: %d\r\n\r\n" % (digest.encode(), len(data)) + data


class Server:
    """A server in a process of its own."""

    def __init__(self, db, *words, release=RELEASE, front=(), at=AT, **env):
        for left in reversed(range(TRIES)):
            self.port = free_port()
            self.said = tempfile.TemporaryFile()
            started = [*front, release, "serve", *at, "--db", db, "--port", str(self.port), *words]
            self.process = subprocess.Popen(started, stdout=subprocess.PIPE, stderr=self.said, env={**os.environ, **env})
            line = self.process.stdout.readline()
            if line or left == 0 or b"Address already in use" not in self.errors():
                break
            self.__exit__()  # Somebody took the port between the look and the start.
        want(line == b"listening on 127.0.0.1:%d\n" % self.port, f"serve said {line!r}: {self.errors()!r}")

    def errors(self):
        """What it wrote to standard error."""
        self.said.seek(0)
        return self.said.read()

    def pid(self):
        """The process that serves: one that was started in front of it may have made it."""
        found = self.process.pid
        with open(f"/proc/{found}/task/{found}/children", encoding="ascii") as file:
            inner = file.read().split()
        return int(inner[0]) if inner else found

    def connect(self):
        peer = socket.create_connection(("127.0.0.1", self.port), timeout=120)
        peer.setsockopt(socket.IPPROTO_TCP, socket.TCP_NODELAY, 1)
        return peer

    def ask(self, request):
        """Sends a request, and gives all that comes."""
        with self.connect() as peer:
            peer.sendall(request)
            return rest(peer)

    def kill(self):
        os.kill(self.pid(), signal.SIGKILL)
        self.process.kill()
        self.process.wait()

    def __enter__(self):
        return self

    def __exit__(self, *_):
        if self.process.poll() is None:
            self.kill()
        self.process.stdout.close()
        self.said.close()


def rest(peer):
    """All that a peer still gets: a connection that is reset ends there."""
    found = b""
    while True:
        try:
            piece = peer.recv(65536)
        except ConnectionResetError:
            return found
        if not piece:
            return found
        found += piece


def free_port():
    """A port that nobody has: it may be another's by the time a server takes it."""
    while True:
        port = random.randrange(10000, 20000)
        with socket.socket() as trial:
            try:
                trial.bind(("127.0.0.1", port))
            except OSError:
                continue
            return port


def is_granted(reply):
    return reply.startswith(b"HTTP/1.1 200 OK\r\n") and reply.endswith(read(f"{EXAMPLE}/hello.txt"))


def took(began, least, most, what):
    """The time since then is within these seconds."""
    gone = time.monotonic() - began
    want(least <= gone < most, f"{what}: {gone:.1f} seconds, not {least} to {most}")


class Copies:
    """A folder with a repository, and copies of it for each case."""

    def __init__(self, release=RELEASE):
        self.room = tempfile.mkdtemp()
        self.db = repository(self.room, release)

    def of(self, name):
        os.mkdir(f"{self.room}/{name}")
        return shutil.copy(self.db, f"{self.room}/{name}/repository.db")

    def __enter__(self):
        return self

    def __exit__(self, *_):
        shutil.rmtree(self.room)
