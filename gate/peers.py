#!/usr/bin/env python3
"""Holds the built server against peers that are slow, silent or more than it can take, and against being stopped.

    gate/peers.py [RELEASE]       the program, out/release where none is named

A connection has 10 seconds for its head, 60 in all, and 5 for what is read away after a reply. The cases run side by side, each over
a repository and a server of its own. Prints what is wrong, and ends with status 1 then.
"""
import concurrent.futures
import os
import resource
import signal
import subprocess
import sys
import time

from served import HELLO, RELEASE, Copies, Server, Wrong, is_granted, put, rest, took, want

LATE = 8  # seconds more than wanted on a machine that has much else to do


def drip(peer, byte, pause, most):
    """Sends a byte in each pause until the server has closed the connection, or for so many seconds."""
    began = time.monotonic()
    peer.settimeout(pause)
    while time.monotonic() - began < most:
        try:
            peer.sendall(byte)
            if not peer.recv(1):
                return
        except TimeoutError:
            continue
        except OSError:
            return


def next_is_served(server, began, least, what):
    """The next peer is served, so many seconds after the beginning."""
    want(is_granted(server.ask(HELLO)), f"{what}: the next peer is not served")
    took(began, least, least + LATE, what)


def slow_head(server):
    began = time.monotonic()
    with server.connect() as peer, concurrent.futures.ThreadPoolExecutor(1) as pool:
        peer.sendall(b"GET /targets/hello.txt HTTP/1.1\r\nHost: ")
        dripping = pool.submit(drip, peer, b"a", 1, 100)
        next_is_served(server, began, 9.9, "a byte a second in the head")
        dripping.result()


def slow_body(server):
    began = time.monotonic()
    with server.connect() as peer, concurrent.futures.ThreadPoolExecutor(1) as pool:
        peer.sendall(b"POST /batch HTTP/1.1\r\nContent-Length: 4000000\r\n\r\n")
        dripping = pool.submit(drip, peer, b"a", 1, 100)
        next_is_served(server, began, 59.9, "a byte a second in the body")
        dripping.result()


def silent_in_body(server):
    began = time.monotonic()
    with server.connect() as peer:
        peer.sendall(b"POST /batch HTTP/1.1\r\nContent-Length: 5\r\n\r\nabc")
        next_is_served(server, began, 59.9, "silence in the body")


def slow_behind(server):
    with server.connect() as peer, concurrent.futures.ThreadPoolExecutor(1) as pool:
        began = time.monotonic()
        peer.sendall(b"PUT /blobs/%s HTTP/1.1\r\nContent-Length: 2000000\r\n\r\n" % (b"0" * 64))
        reply = peer.recv(1000)
        want(reply.startswith(b"HTTP/1.1 413 "), f"after the reply: {reply!r}")
        dripping = pool.submit(drip, peer, b"a", 0.5, 100)
        next_is_served(server, began, 4.9, "a byte in half a second after the reply")
        dripping.result()


def three_silent(server):
    began = time.monotonic()
    peers = [server.connect() for _ in range(3)]
    time.sleep(0.2)
    next_is_served(server, began, 29.8, "three silent peers")
    for peer in peers:
        want(rest(peer) == b"", "a silent peer has a reply")
        peer.close()


# A peer that has its whole request sent, and keeps its side open, holds nobody.
def whole_requests(server):
    began = time.monotonic()
    peers = []
    for request in (HELLO, put(b"abc"), HELLO + HELLO, b"GET /nope HTTP/1.1\r\nContent-Length: 3\r\n\r\nabc"):
        peers.append(server.connect())
        peers[-1].sendall(request)
        want(rest(peers[-1]).startswith(b"HTTP/1.1 "), "a whole request has no reply")
    next_is_served(server, began, 0, "peers whose requests came whole")
    took(began, 0, 4.5, "four whole requests")
    for peer in peers:
        peer.close()


# An upload that is refused by its head has its reply, although it is sent on to its end.
def large_upload(server):
    reply = server.ask(b"PUT /blobs/%s HTTP/1.1\r\nContent-Length: 3000000\r\n\r\n" % (b"0" * 64) + bytes(3000000))
    want(reply.startswith(b"HTTP/1.1 413 "), f"a large upload: {reply[:50]!r}")


def stop_a_while(server):
    os.kill(server.pid(), signal.SIGSTOP)
    time.sleep(0.5)
    os.kill(server.pid(), signal.SIGCONT)
    time.sleep(0.2)


# The server is stopped and goes on while it waits for a connection, within a head, within a body and after a reply.
def stopped(server):
    stop_a_while(server)
    with server.connect() as peer:
        time.sleep(0.2)
        stop_a_while(server)
        peer.sendall(HELLO[:20])
        time.sleep(0.2)
        stop_a_while(server)
        peer.sendall(HELLO[20:])
        want(is_granted(rest(peer)), "stopped within a head")
    request = put(b"stopped")
    with server.connect() as peer:
        peer.sendall(request[:-3])
        time.sleep(0.2)
        stop_a_while(server)
        peer.sendall(request[-3:])
        want(rest(peer).endswith(b'{"stored":true}'), "stopped within a body")
    with server.connect() as peer:
        peer.sendall(b"PUT /blobs/%s HTTP/1.1\r\nContent-Length: 2000000\r\n\r\nabc" % (b"0" * 64))
        want(peer.recv(1000).startswith(b"HTTP/1.1 413 "), "stopped after a reply")
        stop_a_while(server)
    want(is_granted(server.ask(HELLO)), "stopped and continued: the next peer is not served")


def wait_for_accept(server):
    """Waits until the server does, which has nothing else to wait for once it says that it listens."""
    for _ in range(500):
        with open(f"/proc/{server.pid()}/stat", encoding="ascii") as file:
            if file.read().rpartition(")")[2].split()[0] == "S":
                return
        time.sleep(0.02)
    want(False, "the server does not wait for a connection")


# While the process may open no more files, the next connection waits, and is served when it may. (The system takes the descriptor before it
# waits for the peer, so the one peer after the change is served still.)
def no_descriptor(server):
    wait_for_accept(server)
    taken = {int(it) for it in os.listdir(f"/proc/{server.pid()}/fd")}
    few = next(it for it in range(len(taken) + 1) if it not in taken)
    hard = resource.prlimit(server.pid(), resource.RLIMIT_NOFILE)[1]
    resource.prlimit(server.pid(), resource.RLIMIT_NOFILE, (few, hard))
    want(is_granted(server.ask(HELLO)), "the peer after the change is not served")
    with server.connect() as peer:
        peer.sendall(HELLO)
        peer.settimeout(1.5)
        try:
            want(False, f"no descriptor is free, and it is served: {peer.recv(1)!r}")
        except TimeoutError:
            pass
        want(server.process.poll() is None, "no descriptor is free, and the server ended")
        resource.prlimit(server.pid(), resource.RLIMIT_NOFILE, (hard, hard))
        peer.settimeout(60)
        want(is_granted(rest(peer)), "a descriptor is free again, and the peer is not served")


CASES = (slow_head, slow_body, silent_in_body, slow_behind, three_silent, whole_requests, large_upload, stopped, no_descriptor)


def held(case, copies, release):
    try:
        with Server(copies.of(case.__name__), release=release) as server:
            case(server)
            want(server.process.poll() is None, f"{case.__name__}: the server has ended: {server.errors()!r}")
            want(server.errors() == b"", f"{case.__name__}: the server says {server.errors()!r}")
    except (Wrong, OSError, subprocess.SubprocessError) as error:
        return f"{case.__name__}: {error}"
    return None


def main(words):
    release = os.path.realpath(words[0]) if words else RELEASE
    with Copies(release) as copies, concurrent.futures.ThreadPoolExecutor(len(CASES)) as pool:
        wrong = [it for it in pool.map(lambda case: held(case, copies, release), CASES) if it]
    for line in wrong:
        print(line)
    print(f"peers: {len(CASES)} cases, {len(wrong)} wrong")
    return 1 if wrong else 0


if __name__ == "__main__":
    sys.exit(main(sys.argv[1:]))
