#!/usr/bin/env python3
"""Holds one server without '--at' over metadata that expires while it runs: it grants a target before, and denies it after.

    gate/clock.py [RELEASE]       the program, out/release where none is named

The example expires with the year 2099, so 'faketime' starts the server's clock some seconds before, and it runs on from there.
"""
import os
import shutil
import subprocess
import sys
import time

from served import HELLO, RELEASE, Copies, Server, Wrong, is_granted, want

SECONDS = 8


def main(words):
    release = os.path.realpath(words[0]) if words else RELEASE
    clock = f"2099-12-31 23:59:{60 - SECONDS:02}"
    front = [shutil.which("faketime"), clock]
    try:
        with Copies(release) as copies:
            began = time.monotonic()
            with Server(copies.of("clock"), release=release, front=front, at=(), TZ="UTC") as server:
                want(is_granted(server.ask(HELLO)), f"it is not granted at {clock}")
                want(time.monotonic() - began < SECONDS - 1, "the machine is too slow to ask in time")
                time.sleep(SECONDS + 1)
                reply = server.ask(HELLO)
                want(reply.endswith(b'{"denial":11,"rule":"RootExpired"}'), f"after the expiry it answers {reply!r}")
    except (Wrong, OSError, subprocess.SubprocessError) as error:
        print(f"clock: {error}")
        return 1
    print("clock: granted before the expiry, denied after it")
    return 0


if __name__ == "__main__":
    sys.exit(main(sys.argv[1:]))
