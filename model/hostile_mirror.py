#!/usr/bin/env python3
"""A mirror of a repository that does wrong, for clients to be held against.

    model/hostile_mirror.py FOLDER WRONG [NAME [FILE]]

FOLDER has the files that 'release export' writes. Listens on a free port of 127.0.0.1 and prints it, and then each name that it is asked
for. The files that have this NAME at their end (all of them where none is given) are answered WRONG, and others as they are. It goes on
until it is ended.

    honest      as they are
    other       as many bytes, of which one in the middle is another
    cut         half of the bytes, under a head that says all
    long        one byte more
    endless     bytes without end
    file        the bytes of FILE
    withhold    404, as if there was none
    forbid      403
    fail        500
    move        302, to where the file is
    fields      the file under a head of 33 fields
    head        the file under a head of over 8,192 bytes
    nonsense    bytes that are no head
    close       nothing: the connection is closed at once
    silent      nothing: the connection is left open
    drip        a byte of the reply a second
"""
import os
import socket
import sys
import time


def head(status, length, *more):
    lines = [f"HTTP/1.1 {status}", f"Content-Length: {length}", *more, "", ""]
    return "\r\n".join(lines).encode()


def asked_name(peer):
    """The name in the request, without the slash in front."""
    request = b""
    while b"\r\n\r\n" not in request:
        piece = peer.recv(4096)
        if not piece:
            return None
        request += piece
    return request.split(b" ")[1].decode()[1:]


def found(folder, name):
    try:
        with open(os.path.join(folder, name), "rb") as file:
            return file.read()
    except OSError:
        return None


def honest(data):
    if data is None:
        return head("404 Not Found", 0)
    return head("200 OK", len(data)) + data


def other(data):
    middle = len(data) // 2
    byte = b"0" if data[middle:middle + 1] != b"0" else b"1"
    return data[:middle] + byte + data[middle + 1:]


def wrong_reply(wrong, data, file):
    """The bytes of a wrong reply, all of which are sent."""
    return {
        "honest": lambda: honest(data),
        "other": lambda: honest(other(data)),
        "cut": lambda: head("200 OK", len(data)) + data[:len(data) // 2],
        "long": lambda: honest(data + b"\n"),
        "file": lambda: honest(file),
        "withhold": lambda: honest(None),
        "forbid": lambda: head("403 Forbidden", 0),
        "fail": lambda: head("500 Internal Server Error", len(data)) + data,
        "move": lambda: head("302 Found", 0, "Location: /elsewhere"),
        "fields": lambda: head("200 OK", len(data), *(f"X-{n}: 1" for n in range(32))) + data,
        "head": lambda: head("200 OK", len(data), "X: " + 8192 * "a") + data,
        "nonsense": lambda: b"nonsense\r\n\r\n" + data,
        "close": lambda: b"",
    }[wrong]()


def send_without_end(peer):
    peer.sendall(b"HTTP/1.1 200 OK\r\n\r\n")
    while True:
        peer.sendall(65536 * b"a")


def send_slowly(peer, reply):
    for byte in reply:
        peer.sendall(bytes([byte]))
        time.sleep(1)


def answer(peer, wrong, data, file):
    if wrong == "endless":
        send_without_end(peer)
    elif wrong == "silent":
        peer.recv(1)
    elif wrong == "drip":
        send_slowly(peer, honest(data))
    else:
        peer.sendall(wrong_reply(wrong, data, file))


def serve(folder, wrong, name="", file=None):
    file = file and found("", file)
    with socket.create_server(("127.0.0.1", 0)) as listener:
        print(listener.getsockname()[1], flush=True)
        while True:
            peer, _ = listener.accept()
            with peer:
                asked = asked_name(peer)
                if asked is None:
                    continue
                print(asked, flush=True)
                data = found(folder, asked)
                is_wrong = asked.endswith(name) and (data is not None or wrong == "file")
                try:
                    answer(peer, wrong if is_wrong else "honest", data, file)
                except OSError:
                    pass


if __name__ == "__main__":
    serve(*sys.argv[1:])
