#!/usr/bin/env python3
"""Holds the built server over a file system that fills and is given room: it answers 503 meanwhile, and serves on afterwards.

    gate/full_disk.py [RELEASE]       the program, out/release where none is named

Where a file system in memory can be mounted, it is one of 3 MiB that another file fills. Everywhere it is a 'pwrite' of its own (LD_PRELOAD)
that answers ENOSPC while a file of a certain name is there.
"""
import os
import random
import subprocess
import sys
import tempfile

from served import HELLO, RELEASE, Copies, Server, Wrong, is_granted, put, want

SHIM = r"""
#define _GNU_SOURCE
#include <dlfcn.h>
#include <errno.h>
#include <stdlib.h>
#include <sys/stat.h>
#include <sys/types.h>
#include <sys/uio.h>
#include <unistd.h>
static int is_full(int fd) {
    struct stat s;
    const char *name = getenv("FULL");
    if (!name || fstat(fd, &s) || !S_ISREG(s.st_mode) || access(name, F_OK)) return 0;
    errno = ENOSPC;
    return 1;
}
#define FAILS(name, type, args, given) \
    type name args { \
        static type (*next) args; \
        if (is_full(fd)) return -1; \
        if (!next) next = (type (*) args)dlsym(RTLD_NEXT, #name); \
        return next given; \
    }
FAILS(write, ssize_t, (int fd, const void *p, size_t n), (fd, p, n))
FAILS(pwrite, ssize_t, (int fd, const void *p, size_t n, off_t at), (fd, p, n, at))
FAILS(pwrite64, ssize_t, (int fd, const void *p, size_t n, off64_t at), (fd, p, n, at))
FAILS(pwritev, ssize_t, (int fd, const struct iovec *v, int n, off_t at), (fd, v, n, at))
FAILS(writev, ssize_t, (int fd, const struct iovec *v, int n), (fd, v, n))
"""


class Mounted:
    """A file system in memory, which another file fills."""

    env = {}

    def __init__(self, room):
        self.folder = f"{room}/mounted"
        os.mkdir(self.folder)
        subprocess.run(["mount", "-t", "tmpfs", "-o", "size=3m", "none", self.folder], check=True, stderr=subprocess.DEVNULL)

    def fill(self):
        with open(f"{self.folder}/other", "wb", buffering=0) as file:
            try:
                while True:
                    file.write(bytes(4096))
            except OSError:
                return

    def give_room(self):
        os.remove(f"{self.folder}/other")

    def end(self):
        subprocess.run(["umount", self.folder], check=False)


class Preloaded:
    """Calls of the system that answer that no room is left."""

    def __init__(self, room):
        self.folder, self.flag = room, f"{room}/full"
        with open(f"{room}/full.c", "w", encoding="ascii") as file:
            file.write(SHIM)
        subprocess.run(["cc", "-O1", "-shared", "-fPIC", "-o", f"{room}/full.so", f"{room}/full.c", "-ldl"], check=True)
        self.env = {"LD_PRELOAD": f"{room}/full.so", "FULL": self.flag}

    def fill(self):
        with open(self.flag, "w", encoding="ascii"):
            pass

    def give_room(self):
        os.remove(self.flag)

    def end(self):
        pass


def fills(disk, copies, release):
    """Stores, cannot store while the disk is full, and stores again, all by one server; then a new one finds what was acknowledged."""
    db = f"{disk.folder}/repository.db"
    with open(copies.db, "rb") as source, open(db, "wb") as file:
        file.write(source.read())
    first, second = random.randbytes(300000), random.randbytes(700000)
    stored, unavailable = b'{"stored":true}', b'{"fault":"database"}'
    with Server(db, release=release, **disk.env) as server:
        want(server.ask(put(first)).endswith(stored), "there is room, and nothing is stored")
        disk.fill()
        for _ in range(3):
            reply = server.ask(put(second))
            want(reply.startswith(b"HTTP/1.1 503 ") and reply.endswith(unavailable), f"no room is left: {reply!r}")
        want(server.ask(b"GET /nope HTTP/1.1\r\n\r\n").endswith(b'{"fault":"route"}'), "another fault while no room is left")
        disk.give_room()
        reply = server.ask(HELLO)
        want(is_granted(reply), f"there is room again: {reply!r}")
        want(server.ask(put(first)).endswith(b'{"stored":false}'), "what was stored before is lost")
        reply = server.ask(put(second))
        want(reply.endswith(stored) or reply.endswith(b'{"stored":false}'), f"there is room again, and nothing is stored: {reply!r}")
        server.kill()
    with Server(db, release=release) as server:
        for data in (first, second):
            want(server.ask(put(data)).endswith(b'{"stored":false}'), "what was acknowledged is lost")


def main(words):
    release = os.path.realpath(words[0]) if words else RELEASE
    tried = []
    with tempfile.TemporaryDirectory() as room, Copies(release) as copies:
        for kind in (Mounted, Preloaded):
            try:
                disk = kind(room)
            except (OSError, subprocess.SubprocessError):
                continue
            try:
                fills(disk, copies, release)
                tried.append(kind.__name__.lower())
            except (Wrong, OSError, subprocess.SubprocessError) as error:
                print(f"full_disk, {kind.__name__.lower()}: {error}")
                return 1
            finally:
                disk.end()
    if not tried:
        print("full_disk: neither a file system nor a compiler")
        return 1
    print(f"full_disk: served on ({' and '.join(tried)})")
    return 0


if __name__ == "__main__":
    sys.exit(main(sys.argv[1:]))
