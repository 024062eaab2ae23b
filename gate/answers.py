#!/usr/bin/env python3
"""Holds 'publish', 'put' and 'prune' with '--port' against servers that answer anything: status, standard output, standard error, and the
request that was sent.

    gate/answers.py [RELEASE]     the program, out/release where none is named

Each case has a server of its own, which takes one request and answers these bytes. The cases run side by side. Prints what is wrong,
and ends with status 1 then.
"""
import concurrent.futures
import hashlib
import os
import socket
import struct
import subprocess
import sys
import tempfile
import threading

from served import EXAMPLE, RELEASE, ROLES, Wrong, batch, read, rest, want, without_reasons

UNKNOWN = "warning: port {port}: it is not known whether this was taken; sending it again is safe\n"
NETWORK = "fault network\n"
HELLO = read(f"{EXAMPLE}/hello.txt")
DIGEST = hashlib.sha256(HELLO).hexdigest()
PUBLISH = ("publish", *(f"{role}:{EXAMPLE}/{role}.json" for role in ROLES))
PUT = ("put", f"{EXAMPLE}/hello.txt")
PRUNE = ("prune",)
REQUESTS = {PUBLISH: ("POST", "batch", batch()), PUT: ("PUT", f"blobs/{DIGEST}", HELLO), PRUNE: ("POST", "prune", b"")}
ACCEPTED, STORED, PRUNED = '{"accepted":3,"same":0}', '{"stored":true}', '{"blobs":1,"rows":20}'


def reply(status, body, fields=""):
    """A reply of this status and body, whatever the reason."""
    head = f"HTTP/1.1 {status} Any\r\nContent-Type: application/json\r\nContent-Length: {len(body)}\r\n{fields}Connection: close\r\n\r\n"
    return (head + body).encode()


def denial(number, name, index=None):
    place = "" if index is None else f',"index":{index}'
    return f'{{"denial":{number}{place},"rule":"{name}"}}'


def fault(word):
    return f'{{"fault":"{word}"}}'


class Server:
    """Takes one request, answers these bytes, and ends the connection. None: it is silent until its peer ends."""

    def __init__(self, answer, length):
        self.answer, self.length, self.request = answer, length, b""
        self.listener = socket.create_server(("127.0.0.1", 0))
        self.port = self.listener.getsockname()[1]
        self.thread = threading.Thread(target=self.serve, daemon=True)
        self.thread.start()

    def serve(self):
        peer, _ = self.listener.accept()
        with peer, self.listener:
            while b"\r\n\r\n" not in self.request or len(self.request.partition(b"\r\n\r\n")[2]) < self.length:
                piece = peer.recv(65536)
                if not piece:
                    return
                self.request += piece
            if self.answer is None:
                rest(peer)
                return
            peer.sendall(self.answer)


def told(text, wanted):
    """What was told on standard error, without what a fault is about where that is not wanted."""
    return text if "release: " in wanted else without_reasons(text)


def ends(release, words, answer, status, said, error, *more):
    """The command with this server ends so, says this, and sent its request and nothing else."""
    method, name, body = REQUESTS[words]
    server = Server(answer, len(body))
    called = (words[0], "--port", str(server.port), *more, *words[1:])
    found = subprocess.run([release, *called], capture_output=True, text=True, timeout=400)
    what = f"{' '.join(called)}, answered {answer!r}"
    wanted = (status, said, error.format(port=server.port))
    want((found.returncode, found.stdout, told(found.stderr, error)) == wanted,
         f"{what}: {(found.returncode, found.stdout, found.stderr)} in place of {wanted}")
    server.thread.join(60)
    head = f"{method} /{name} HTTP/1.1\r\nHost: 127.0.0.1:{server.port}\r\nContent-Length: {len(body)}\r\nConnection: close\r\n\r\n"
    want(server.request == head.encode() + body, f"{what}: it sent {server.request[:200]!r}")


DONE = [
    (PUBLISH, reply(200, ACCEPTED), 0, f"{ACCEPTED}\n", ""),
    (PUBLISH, reply(200, '{"accepted":0,"same":160}'), 3, "", f"{UNKNOWN}{NETWORK}"),
    (PUBLISH, reply(200, ACCEPTED, "X: y\r\n" * 28), 0, f"{ACCEPTED}\n", ""),
    (PUBLISH, reply(200, ACCEPTED).replace(b"\r\n", b"\n"), 0, f"{ACCEPTED}\n", ""),
    (PUT, reply(200, STORED), 0, f"{DIGEST}\n", ""),
    (PUT, reply(200, '{"stored":false}'), 0, f"{DIGEST}\n", ""),
    (PRUNE, reply(200, PRUNED), 0, f"{PRUNED}\n", ""),
]
DENIED = [
    (PUBLISH, reply(403, denial(20, "SnapshotVersion", 2)), 1, "", "denied 20 SnapshotVersion at 2\n"),
    (PUBLISH, reply(403, denial(51, "Incoherent", 3)), 1, "", "denied 51 Incoherent at 3\n"),
    (PUBLISH, reply(404, denial(33, "RoleMissing")), 1, "", "denied 33 RoleMissing\n"),
    (PUBLISH, reply(403, denial(99, "Whatever", 0)), 3, "", f"{UNKNOWN}{NETWORK}"),
    (PUBLISH, reply(403, denial(20, "SnapshotVersion", 2)), 1, "", f"release: targets:{EXAMPLE}/targets.json: denied; 'release help 20' says what to do\ndenied 20 SnapshotVersion at 2\n", "-v"),
    (PUT, reply(403, denial(6, "NoRoot")), 1, "", "denied 6 NoRoot\n"),
    (PUT, reply(403, denial(40, "Full")), 1, "", f"release: {EXAMPLE}/hello.txt: denied; 'release help 40' says what to do\ndenied 40 Full\n", "-v"),
    (PRUNE, reply(403, denial(6, "NoRoot")), 1, "", "denied 6 NoRoot\n"),
]
# What is said to be no such command was not taken.
REFUSED = [
    (PUBLISH, reply(400, fault("batch")), 3, "", NETWORK),
    (PUBLISH, reply(413, fault("size")), 3, "", f"release: batch: status 413\n{NETWORK}", "-v"),
    (PUBLISH, reply(403, "<html>"), 3, "", NETWORK),
    (PUBLISH, reply(403, denial(256, "Whatever")), 3, "", NETWORK),
    (PUBLISH, reply(403, denial(20, "Snapshot Version", 2)), 3, "", NETWORK),
    (PUBLISH, reply(403, denial(20, "Snapshot\x1bVersion", 2)), 3, "", NETWORK),
    (PUBLISH, reply(403, denial(20, "SnapshotVersion", 2)[:-1]), 3, "", NETWORK),
    (PUBLISH, reply(403, f'{denial(20, "SnapshotVersion", 2)}\n'), 3, "", NETWORK),
    (PUT, reply(404, fault("route")), 3, "", NETWORK),
    (PRUNE, reply(405, fault("method"), "Allow: GET\r\n"), 3, "", NETWORK),
    (PRUNE, reply(503, fault("memory")), 3, "", "fault memory\n"),
]
# After these the change may stand.
OPEN = [
    (PUBLISH, b"", 3, "", f"{UNKNOWN}{NETWORK}"),
    (PUBLISH, b"", 3, "", f"release: batch: no answer that can be read\n{UNKNOWN}{NETWORK}", "-v"),
    (PUBLISH, reply(200, ACCEPTED)[:40], 3, "", f"{UNKNOWN}{NETWORK}"),
    (PUBLISH, reply(200, ACCEPTED)[:-1], 3, "", f"{UNKNOWN}{NETWORK}"),
    (PUBLISH, reply(200, ""), 3, "", f"{UNKNOWN}{NETWORK}"),
    (PUBLISH, reply(200, f"{ACCEPTED}\n"), 3, "", f"{UNKNOWN}{NETWORK}"),
    (PUBLISH, reply(200, '{"accepted":03,"same":0}'), 3, "", f"{UNKNOWN}{NETWORK}"),
    (PUBLISH, reply(200, '{"accepted":99999999999999999999,"same":0}'), 3, "", f"{UNKNOWN}{NETWORK}"),
    (PUBLISH, reply(200, STORED), 3, "", f"{UNKNOWN}{NETWORK}"),
    (PUBLISH, reply(200, " " * 4096), 3, "", f"{UNKNOWN}{NETWORK}"),
    (PUBLISH, reply(200, " " * 4097), 3, "", f"release: batch: longer than its limit\n{UNKNOWN}{NETWORK}", "-v"),
    (PUBLISH, reply(200, ACCEPTED, "X: y\r\n" * 30), 3, "", f"{UNKNOWN}{NETWORK}"),
    (PUBLISH, reply(200, ACCEPTED, f"X: {'y' * 8192}\r\n"), 3, "", f"{UNKNOWN}{NETWORK}"),
    (PUBLISH, b"nonsense\r\n\r\n", 3, "", f"{UNKNOWN}{NETWORK}"),
    (PUBLISH, reply(201, ACCEPTED), 3, "", f"{UNKNOWN}{NETWORK}"),
    (PUBLISH, reply(302, ""), 3, "", f"{UNKNOWN}{NETWORK}"),
    (PUBLISH, reply(503, fault("database")), 3, "", f"{UNKNOWN}fault database\n"),
    (PUBLISH, reply(502, "<html>"), 3, "", f"release: batch: status 502\n{UNKNOWN}{NETWORK}", "-v"),
    (PUBLISH, None, 3, "", f"{UNKNOWN}{NETWORK}"),
    (PUT, b"", 3, "", f"{UNKNOWN}{NETWORK}"),
    (PUT, reply(200, STORED)[:-2], 3, "", f"{UNKNOWN}{NETWORK}"),
    (PUT, reply(200, PRUNED), 3, "", f"{UNKNOWN}{NETWORK}"),
    (PRUNE, reply(200, ACCEPTED), 3, "", f"{UNKNOWN}{NETWORK}"),
    (PRUNE, b"", 3, "", f"{UNKNOWN}{NETWORK}"),
]


def nobody_listens(release):
    with socket.create_server(("127.0.0.1", 0)) as listener:
        port = listener.getsockname()[1]
    for words in REQUESTS:
        called = [release, words[0], "-v", "--port", str(port), *words[1:]]
        found = subprocess.run(called, capture_output=True, text=True, timeout=60)
        wanted = (3, "", f"release: port {port}: Connection refused (os error 111)\n{NETWORK}")
        want((found.returncode, found.stdout, found.stderr) == wanted, f"{words}: {found}")


def refused_before(release):
    """What is too long is refused before the server is asked: nobody listens."""
    with tempfile.TemporaryDirectory() as room:
        files = {}
        for name, length in (("large", 1048577), ("long", 262144)):
            files[name] = f"{room}/{name}"
            with open(files[name], "wb") as file:
                file.truncate(length)
        long = f"targets:{files['long']}"
        cases = [
            (("put", "--port", "1", files["large"]), 1, "denied 38 BlobLength\n"),
            (("put", "--port", "1", f"{room}/none"), 3, "fault file\n"),
            (("publish", "--port", "1", *[long] * 16), 3, "fault file\n"),
            (("publish", "-v", "--port", "1", *[long] * 16), 3, "release: the documents together: longer than a server takes\nfault file\n"),
            (("publish", "--port", "1", *[long] * 15), 3, NETWORK),
            (("publish", "--port", "1", f"targets:{room}/none", "Targets:a"), 1, "denied 3 WrongShape at 1\n"),
            (("publish", "--port", "1", f"targets:{room}/none"), 3, "fault file\n"),
        ]
        for words, status, error in cases:
            found = subprocess.run([release, *words], capture_output=True, text=True, timeout=60)
            want((found.returncode, found.stdout, told(found.stderr, error)) == (status, "", error), f"{words}: {found}")


def cut_while_sending(release):
    """A server that takes a beginning of the request and resets the connection. Where the system has taken the whole of it before, as it may
    of short requests, the warning stands; else nothing can have been taken, and nothing is said."""
    with tempfile.TemporaryDirectory() as room, socket.socket() as listener:
        listener.setsockopt(socket.SOL_SOCKET, socket.SO_RCVBUF, 4096)
        listener.bind(("127.0.0.1", 0))
        listener.listen()
        file = f"{room}/file"
        with open(file, "wb") as made:
            made.truncate(262144)
        port = listener.getsockname()[1]
        words = [release, "publish", "--port", str(port), *[f"targets:{file}"] * 15]
        with subprocess.Popen(words, stdout=subprocess.PIPE, stderr=subprocess.PIPE, text=True) as process:
            peer, _ = listener.accept()
            peer.recv(100)
            peer.setsockopt(socket.SOL_SOCKET, socket.SO_LINGER, struct.pack("ii", 1, 0))
            peer.close()
            said, error = process.communicate(timeout=60)
        endings = [(3, "", NETWORK), (3, "", UNKNOWN.format(port=port) + NETWORK)]
        want((process.returncode, said, without_reasons(error)) in endings, f"a reset: {(process.returncode, said, error)}")


def main():
    release = os.path.abspath(sys.argv[1]) if len(sys.argv) > 1 else RELEASE
    with concurrent.futures.ThreadPoolExecutor(4) as pool:
        jobs = [pool.submit(ends, release, *case) for case in (*OPEN, *DONE, *DENIED, *REFUSED)]
        jobs += [pool.submit(job, release) for job in (nobody_listens, refused_before, cut_while_sending)]
        wrong = 0
        for job in jobs:
            try:
                job.result()
            except Wrong as found:
                wrong += 1
                print(found)
    if wrong:
        sys.exit(1)
    print(f"answers: {len(jobs)} passed")


main()
