#!/usr/bin/env python3
"""How the built program ends where it does not reach the end of the input, and what it says of texts too long for the stored run.

    ends.py PROGRAM    runs the program over lines that are no case, over inputs whose reading fails, over outputs whose
                       writing fails and over long lines, and compares what it writes and its exit status

It prints how many runs ended as they have to, and each that did not.
"""
import os
import resource
import signal
import socket
import struct
import subprocess
import sys
import tempfile
import time

# The texts of a case of artifact rules, and of some that are nearly one.
RULE_CASE = b'{"links":{"s":{"materials":{},"products":{}}},"rules":[],"side":"materials","step":"s"}'
DIGEST = b'{"sha256":"' + b"0" * 64 + b'"}'
NO_RULE_CASES = [
    RULE_CASE.replace(held, put)
    for held, put in [
        (b"{", b"{ "), (b'"step":"s"', b'"step":"t"'), (b',"step":"s"', b""), (b'"step":"s"', b'"step":"s","then":1'),
        (b'"step":"s"', b'"step":1'), (b'"rules":[]', b'"rules":{}'), (b'"rules":[]', b'"rules":["ALLOW","*"]'),
        (b'"rules":[]', b'"rules":[["ALLOW",1]]'), (b'"rules":[],', b""), (b'"rules":[]', b'"role":[]'),
        (b'"side":"materials"', b'"side":"Materials"'), (b'"side":"materials"', b'"side":"both"'),
        (b'"side":"materials","step":"s"', b'"step":"s","side":"materials"'), (b'{"s":', b'{"S":'),
        (b'{"s":{"materials":{},"products":{}}}', b"{}"), (b'"materials":{},', b""), (b',"products":{}', b""),
        (b'"products":{}', b'"products":{},"x":1'), (b'"products":{}', b'"products":{"a/":' + DIGEST + b"}"),
        (b'"products":{}', b'"products":{"b":' + DIGEST + b',"a":' + DIGEST + b"}"),
        (b'"products":{}', b'"products":{"a":{"sha256":"0"}}'), (b'"products":{}', b'"products":{"a":"' + b"0" * 64 + b'"}'),
        (b'"products":{}', b'"products":[]'), (b'"materials":{},"products":{}', b'"products":{},"materials":{}'),
    ]
]
SEED = b"07" * 16 + b" " + b"07" * 32
# The input, the number of the first line that is no case, and what is printed for the lines before it.
NO_CASES = [
    (b"\n", 1, b""),
    (b"json", 1, b""),
    (b"json \n", 1, b""),
    (b"json 3\n", 1, b""),
    (b"json 3g\n", 1, b""),
    (b"json 7B7D\n", 1, b""),
    (b"json 30 \n", 1, b""),
    (b"json 30 30\n", 1, b""),
    (b"json  30\n", 1, b""),
    (b" json 30\n", 1, b""),
    (b"json\t30\n", 1, b""),
    (b"json 30\r\n", 1, b""),
    (b"json --\n", 1, b""),
    (b"JSON 30\n", 1, b""),
    (b"jsons 30\n", 1, b""),
    (b"# json 30\n", 1, b""),
    (b"lms - -\n", 1, b""),
    (b"lms - - - -\n", 1, b""),
    (b"lms - - 0A\n", 1, b""),
    (b"key -\n", 1, b""),
    (b"key 00\n", 1, b""),
    (b"sign 1 5 - - 0 -\n", 1, b""),
    (b"hss_made 4 5 4 5 - - 0 -\n", 1, b""),
    (b"hss_made 4 5 " + SEED + b" 0 -\n", 1, b""),
    (b"hss_made 4 5 3 5 " + SEED + b" 0 -\n", 1, b""),
    (b"hss_made 4 15 4 5 " + SEED + b" 0 -\n", 1, b""),
    (b"hss_made 4 5 4 5 " + SEED + b" 4294967296 -\n", 1, b""),
    (b"hss_made 4 5 4 5 " + SEED + b" 0 - -\n", 1, b""),
    (b"calendar\n", 1, b""),
    (b"calendar ff\n", 1, b""),
    (b"calendar 30 30\n", 1, b""),
    (b"document 7b7d\n", 1, b""),
    (b"document links 7b7d\n", 1, b""),
    (b"document Root 7b7d\n", 1, b""),
    (b"document root 7b7\n", 1, b""),
    (b"asked\n", 1, b""),
    (b"asked c3\n", 1, b""),
    (b"asked 61 61\n", 1, b""),
    (b"match flat 61\n", 1, b""),
    (b"match Flat 61 61\n", 1, b""),
    (b"match 61 61\n", 1, b""),
    (b"match prefix c3 61\n", 1, b""),
    (b"match segmented 61 61 61\n", 1, b""),
    (b"rules\n", 1, b""),
    (b"rules -\n", 1, b""),
    (b"rules 7b7d\n", 1, b""),
    (b"rules 7b7d 7b7d\n", 1, b""),
    (b"rules 7B7D\n", 1, b""),
    (b"rule 7b7d\n", 1, b""),
    *((b"rules " + text.hex().encode() + b"\n", 1, b"") for text in NO_RULE_CASES),
    (b"rules " + RULE_CASE.hex().encode() + b"\nrules 7b7d\n", 2, b"holds\n"),
    (b"rules " + RULE_CASE.hex().encode() + b" \n", 1, b""),
    (b"json 30\n\njson 31\n", 2, b"canonical\n"),
    (b"json 30\njson -\njson x", 3, b"canonical\nnot_canonical\n"),
    (b"json 30\njson \xff\xfe\n", 2, b"canonical\n"),
]
# A text that is read in several parts, and one whose verdicts are written in several.
LONG_TEXT = b"json 5b5d\n" * 2000
LONG_PRINTED = b"canonical\n" * 2000
FILE = (3, b"fault file\n")
MEMORY = (3, b"fault memory\n")
program = os.path.abspath(sys.argv[1])
ended_well = 0
failed = 0


def hold(what, holds):
    global ended_well, failed
    if holds:
        ended_well += 1
    else:
        failed += 1
        print(f"{what}: ended otherwise")


def run(text, **how):
    """The status, what is written to standard error, and what is printed."""
    ran = subprocess.run([program], input=text, stdout=subprocess.PIPE, stderr=subprocess.PIPE, timeout=60, **how)
    return (ran.returncode, ran.stderr), ran.stdout


def run_over(source):
    """The same over an open file or a socket."""
    ran = subprocess.run([program], stdin=source, stdout=subprocess.PIPE, stderr=subprocess.PIPE, timeout=60)
    return (ran.returncode, ran.stderr), ran.stdout


def lines_that_are_no_case():
    hold("no lines", run(b"") == ((0, b""), b""))
    for text, number, printed in NO_CASES:
        said = f"line {number}: not understood\n".encode()
        hold(f"input {text}", run(text) == ((2, said), printed))


def reads_that_fail():
    """At the first read, and after whole lines and within a line."""
    source = os.open("/", os.O_RDONLY)
    hold("a folder as input", run_over(source) == (FILE, b""))
    os.close(source)
    for text, printed in [
        (b"json 5b", b""),
        (b"json 5b5d\njson 7b7d\njs", b"canonical\ncanonical\n"),
        (LONG_TEXT + b"json 7b", LONG_PRINTED),
    ]:
        with socket.create_server(("127.0.0.1", 0)) as server:
            peer = socket.create_connection(server.getsockname())
            source, _ = server.accept()
        started = subprocess.Popen([program], stdin=source, stdout=subprocess.PIPE, stderr=subprocess.PIPE)
        source.close()
        peer.sendall(text)
        time.sleep(0.5)
        # The connection is reset, and not closed.
        peer.setsockopt(socket.SOL_SOCKET, socket.SO_LINGER, struct.pack("ii", 1, 0))
        peer.close()
        out, err = started.communicate(timeout=60)
        hold(f"a read that fails after {len(text)} bytes", ((started.returncode, err), out) == (FILE, printed))


def writes_that_fail():
    """To an output that takes so many bytes, and to one that takes none."""

    def limit(most):
        signal.signal(signal.SIGXFSZ, signal.SIG_IGN)
        resource.setrlimit(resource.RLIMIT_FSIZE, (most, most))

    for text in [b"json 30\njson 31\n", b"json 30\njson 31\njson x\n"]:
        with open("/dev/full", "wb") as full:
            ran = subprocess.run([program], input=text, stdout=full, stderr=subprocess.PIPE, timeout=60)
        hold("a full output", (ran.returncode, ran.stderr) == FILE)
    for most in [0, 1, 10, 8192, 10000, 19999]:
        with tempfile.TemporaryFile() as taken:
            ran = subprocess.run([program], input=LONG_TEXT, stdout=taken, stderr=subprocess.PIPE, timeout=60,
                                 preexec_fn=lambda: limit(most))
            taken.seek(0)
            hold(f"an output of {most} bytes", ((ran.returncode, ran.stderr), taken.read()) == (FILE, LONG_PRINTED[:most]))


def memory_that_is_refused():
    def limit():
        resource.setrlimit(resource.RLIMIT_AS, (60_000_000, 60_000_000))

    text = b"json 30\njson 22" + b"61" * 40_000_000 + b"22\n"
    with tempfile.TemporaryFile() as source:
        source.write(text)
        source.seek(0)
        ran = subprocess.run([program], stdin=source, stdout=subprocess.PIPE, stderr=subprocess.PIPE, timeout=60,
                             preexec_fn=limit)
    hold("refused memory", ((ran.returncode, ran.stderr), ran.stdout) == (MEMORY, b"canonical\n"))


def texts_of_the_most_bytes():
    """A document has at most 262,144 bytes, whatever else is wrong of it."""
    item = rb'{"a":"x\"y\\z","b":-9223372036854775808,"c":[1,null,true],"d":{}},'
    text = b"[" + item * 3971 + b'"the last item makes it as long as is wanted, no more..\"]'
    hold("a text of 262,144 bytes", len(text) == 262144 and run(b"json " + text.hex().encode()) == ((0, b""), b"canonical\n"))
    front = b'{"signatures":[],"signed":{"_type":"timestamp","expires":"2030-01-01T00:00:00Z","meta":{"snapshot.json":{"version":7}}'
    front += b',"spec_version":"1.0.31","version":1,"x":"'
    for length, behind, printed in [(262144, b"", b"ok\n"), (262145, b"", b"1\n"), (262145, b"x", b"1\n"), (262143, b"x", b"2\n")]:
        text = front + b"a" * (length - len(front) - 3) + b'"}}' + behind
        hold(f"a document of {len(text)} bytes", run(b"document timestamp " + text.hex().encode()) == ((0, b""), printed))


lines_that_are_no_case()
reads_that_fail()
writes_that_fail()
memory_that_is_refused()
texts_of_the_most_bytes()
print(f"{ended_well} ends as wanted, {failed} otherwise")
sys.exit(1 if failed else 0)
