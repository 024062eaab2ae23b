"""Runs the built program beside the model, and keeps what differs."""
import os
import re
import select
import shutil
import signal
import socket
import sqlite3
import subprocess
import tempfile
import time
from pathlib import Path

import command_line
import http_server
import repository
import tables
from signed_documents import digest

LOOPBACK = "127.0.0.1"
FIRST_PORT, LAST_PORT = 21000, 29900
MOST_DIFFERENCES = 60
# A denial's name, in the body of a reply or on standard error.
DENIAL = re.compile(r'(?:"rule":"|denied [0-9]+ )([A-Za-z]+)')


class TooMany(Exception):
    """A group is given up where much differs."""


class Difference:
    def __init__(self, label, wanted, found, request, now, state):
        self.label = label
        self.wanted = wanted
        self.found = found
        self.request = request
        self.now = now
        self.state = state

    def kind(self):
        """Differences of one kind are shown by their smallest request."""
        return self.label.split(":")[0], ending(self.wanted), ending(self.found)


def ending(value):
    """What tells one answer from another: a reply without its header fields, or the text of anything else."""
    if isinstance(value, bytes) and b"\r\n\r\n" in value:
        head, _, body = value.partition(b"\r\n\r\n")
        return shortened(head.split(b"\r\n")[0] + b" .. " + body)
    return shortened(value)


def shortened(value):
    text = value.decode("latin1") if isinstance(value, bytes) else str(value)
    text = text.encode("unicode_escape").decode()
    return text if len(text) <= 400 else f"{text[:200]} .. {text[-180:]}"


def sized(request):
    return len(request) if isinstance(request, (bytes, str)) else len(str(request))


def ask(port, request, piece=262144, seconds=40):
    """Sends the bytes, ends the sending side, and returns all that comes back."""
    try:
        connection = socket.create_connection((LOOPBACK, port), timeout=20)
    except OSError:
        return b"<no connection>"
    connection.setblocking(False)
    received = bytearray()
    sent = 0
    is_shut = False
    end = time.monotonic() + seconds
    with connection:
        while time.monotonic() < end:
            if sent >= len(request) and not is_shut:
                is_shut = True
                try:
                    connection.shutdown(socket.SHUT_WR)
                except OSError:
                    pass
            writers = [] if is_shut else [connection]
            readable, writable, _ = select.select([connection], writers, [], 5)
            if writable:
                try:
                    sent += connection.send(request[sent:sent + piece])
                except (BrokenPipeError, ConnectionResetError):
                    sent = len(request)
            if readable:
                try:
                    part = connection.recv(1 << 20)
                except ConnectionResetError:
                    return bytes(received) + b"<reset>"
                if not part:
                    return bytes(received)
                received += part
    return bytes(received) + b"<no end>"


class Session:
    """One run over the program: its folder, its counts, its differences."""

    def __init__(self, program, folder, keep=None):
        self.program = str(program)
        self.folder = Path(folder)
        self.keep = keep
        self.passed = 0
        self.failed = 0
        self.differences = []
        # The names of the denials that the model answered.
        self.denials = set()
        self.port = FIRST_PORT + os.getpid() * 37 % 5000
        self.empty = None

    def check(self, label, wanted, found, request=b"", now=None, state=None):
        """One comparison. The part of the label before a colon says of what kind it is."""
        self.denials.update(DENIAL.findall(ending(wanted)))
        if wanted == found:
            self.passed += 1
            return True
        self.failed += 1
        self.differences.append(Difference(label, wanted, found, request, now, state))
        if len(self.differences) >= MOST_DIFFERENCES:
            raise TooMany
        return False

    def run(self, *words, output=subprocess.PIPE):
        """The exit status, standard output and standard error. One that does not end is ended."""
        try:
            ended = subprocess.run([self.program, *words], stdout=output, stderr=subprocess.PIPE, timeout=120)
        except subprocess.TimeoutExpired:
            return "killed", b"", b""
        return ended.returncode, ended.stdout, without_reasons(ended.stderr)

    def start_server(self, database, now, count, read_only=False):
        """The process and its port, or None and what it printed in place of its first line."""
        for _ in range(3):
            port = self.free_port()
            words = [self.program, "serve", "--db", str(database), "--port", str(port)]
            words += ["--at", str(now), "--count", str(count)] + ["--read-only"] * read_only
            server = subprocess.Popen(words, stdout=subprocess.PIPE, stderr=subprocess.PIPE)
            line = server.stdout.readline()
            if line == b"listening on %s:%d\n" % (LOOPBACK.encode(), port):
                return server, port
            text = line + without_reasons(server.stderr.read())
            end_server(server)
            if text != b"fault network\n":
                break
        return None, text

    def free_port(self):
        for _ in range(1000):
            self.port = self.port + 1 if self.port < LAST_PORT else FIRST_PORT
            with socket.socket() as listener:
                listener.setsockopt(socket.SOL_SOCKET, socket.SO_REUSEADDR, 1)
                try:
                    listener.bind((LOOPBACK, self.port))
                except OSError:
                    continue
                return self.port
        raise SystemExit("no port is free")

    def empty_database(self):
        """The bytes of the file that the program makes by itself, and the statements of its tables."""
        if self.empty is None:
            database = self.folder / "empty.db"
            nothing = self.folder / "nothing"
            nothing.write_bytes(b"")
            found = self.run("put", "--at", "5", "--db", str(database), str(nothing))
            if found != (command_line.DENIED, b"", b"denied 6 NoRoot\n"):
                raise SystemExit(f"the program does not run: {found}")
            connection = sqlite3.connect(database)
            statements = dict(connection.execute("SELECT name, sql FROM sqlite_master WHERE sql IS NOT NULL"))
            connection.close()
            self.empty = database.read_bytes(), statements
        return self.empty

    def write_database(self, file, state):
        file.write_bytes(self.empty_database()[0])
        connection = sqlite3.connect(file)
        rows = tables.rows_of(state)
        for table in ("root2", "current", "shelf", "blob"):
            insert_rows(connection, table, rows[table])
        connection.commit()
        connection.close()

    def report(self):
        """Shows each kind of difference by its smallest request, and forgets them."""
        kinds = {}
        for difference in self.differences:
            kinds.setdefault(difference.kind(), []).append(difference)
        for members in kinds.values():
            smallest = min(members, key=lambda difference: sized(difference.request))
            print(f"    differs: {smallest.label}" + (f" (and {len(members) - 1} more)" if len(members) > 1 else ""))
            if smallest.now is not None:
                print(f"        moment   {smallest.now}")
            if smallest.request:
                print(f"        request  {shortened(smallest.request)}")
            print(f"        model    {ending(smallest.wanted)}")
            print(f"        program  {ending(smallest.found)}", flush=True)
            if self.keep:
                self.write_difference(smallest)
        self.differences = []

    def write_difference(self, difference):
        """Into the folder of --keep: the request, and the database before it."""
        self.keep.mkdir(parents=True, exist_ok=True)
        number = len(list(self.keep.glob("*.txt"))) + 1
        text = f"{difference.label}\nmoment {difference.now}\nmodel {difference.wanted}\nprogram {difference.found}\n"
        (self.keep / f"{number}.txt").write_text(text)
        if isinstance(difference.request, bytes) and difference.request:
            (self.keep / f"{number}.request").write_bytes(difference.request)
        if difference.state is not None:
            self.write_database(self.keep / f"{number}.db", difference.state)


def insert_rows(connection, table, rows):
    for row in rows:
        connection.execute(f"INSERT INTO {table} VALUES ({', '.join('?' * len(row))})", row)


def read_rows(database):
    """The rows of all six tables, of one that is absent none, and what SQLite says of the file's soundness."""
    connection = sqlite3.connect(database)
    there = {name for (name,) in connection.execute("SELECT name FROM sqlite_master")}
    rows = {table: [] for table in tables.TABLES}
    for table, order in tables.TABLES.items():
        if table in there:
            rows[table] = connection.execute(f"SELECT * FROM {table} ORDER BY {order}").fetchall()
    sound = connection.execute("PRAGMA quick_check").fetchall()
    connection.close()
    return rows, sound


def digests(rows):
    """Rows with each file as the beginning of its SHA-256."""
    return [tuple(digest(value)[:16] if isinstance(value, bytes) else value for value in row) for row in rows]



def without_reasons(told):
    """What the program told on standard error, without the lines that say what a fault is about."""
    return b"".join(line for line in told.splitlines(keepends=True) if not line.startswith(b"release: "))


def end_server(server):
    """Its exit status and the rest of what it printed. One that does not end is ended."""
    try:
        status = server.wait(timeout=60)
    except subprocess.TimeoutExpired:
        server.kill()
        server.wait()
        status = "killed"
    rest = server.stdout.read(), without_reasons(server.stderr.read())
    server.stdout.close()
    server.stderr.close()
    return status, *rest


class World:
    """A database of the program beside a state of the model."""

    def __init__(self, session, state=None):
        self.session = session
        self.folder = session.folder / "world"
        shutil.rmtree(self.folder, ignore_errors=True)
        self.folder.mkdir()
        self.database = self.folder / "repository.db"
        self.state = repository.State()
        # The port of the server that is asked in place of the database, if one is.
        self.port = None
        if state is not None:
            self.state = state
            session.write_database(self.database, state)

    def check_rows(self, label, before):
        """The tables hold the rows of the model's state."""
        rows, sound = read_rows(self.database)
        for table, wanted in tables.rows_of(self.state).items():
            if rows[table] != wanted:
                both = digests(wanted), digests(rows[table])
                return self.session.check(f"rows of {table}: {label}", *both, state=before)
        return self.session.check(f"soundness: {label}", [("ok",)], sound)

    def serve(self, now, requests, piece=262144, read_only=False):
        """All requests, each a label and bytes, from one server, which may only read; then the rows. False where one differs."""
        if not requests:
            return True
        before_all = self.state
        server, port = self.session.start_server(self.database, now, len(requests), read_only)
        if server is None:
            return self.session.check("start of the server", b"listening", port, now=now, state=self.state)
        as_wanted = True
        try:
            for label, request in requests:
                before = self.state
                wanted, self.state = http_server.response(before, request, now, read_only)
                found = ask(port, request, piece)
                if self.session.check(f"reply: {label}", wanted, found, request, now, before):
                    continue
                as_wanted = False
                if self.state is not before or found.startswith(b"HTTP/1.1 200 "):
                    # From here on the program and the model may hold different things.
                    server.kill()
                    return False
        except BaseException:
            server.kill()
            raise
        finally:
            ended = end_server(server)
        as_wanted &= self.session.check("end of the server", (0, b"", b""), ended, now=now)
        return self.check_rows(requests[0][0], before_all) and as_wanted

    def compare_command(self, label, now, words, wanted, after, request):
        before = self.state
        self.state = after
        found = self.session.run(*words)
        as_wanted = self.session.check(f"command: {label}", wanted, found, request, now, before)
        # A fault of an input file, or of the arguments of publish, comes before the database is made. Rows behind a server are compared once it has ended.
        if self.port is not None or not self.database.exists():
            return as_wanted
        return self.check_rows(label, before) and as_wanted

    def place(self, now):
        """Where the repository is: a database, at this moment, or behind a port, where the moment is the server's."""
        if self.port is not None:
            return ["--port", str(self.port)]
        return ["--db", str(self.database), "--at", str(now)]

    def through_port(self, now, count, ask):
        """`ask` makes so many commands of one server; then the rows. What `publish` warns of it asks the server for, in connections of its own."""
        before = self.state
        server, port = self.session.start_server(self.database, now, 1000 * count)
        if server is None:
            return self.session.check("start of the server", b"listening", port, now=now, state=before)
        self.port = port
        try:
            ask()
        finally:
            self.port = None
            server.terminate()
            ended = end_server(server)
        self.session.check("end of the server", (-signal.SIGTERM, b"", b""), ended, now=now)
        return self.check_rows("commands through a port", before)

    def command(self, name, now, text, label=""):
        """`init` or `put`, with a file of these bytes, or with one that is not there."""
        file = self.folder / "input"
        file.unlink(missing_ok=True)
        if text is not None:
            file.write_bytes(text)
        wanted, after = {"init": command_line.init, "put": command_line.put}[name](self.state, text, now)
        words = [name, *self.place(now), str(file)]
        return self.compare_command(f"{name} {label}", now, words, wanted, after, text or b"")

    def prune(self, now, label=""):
        words = ["prune", *self.place(now)]
        return self.compare_command(f"prune {label}", now, words, *command_line.prune(self.state), b"")

    def publish(self, now, arguments, label=""):
        """Each argument is a text, or a role's name with the bytes of a file, or None where there is none."""
        words = []
        files = {}
        for number, argument in enumerate(arguments):
            if isinstance(argument, tuple):
                role, text = argument
                file = self.folder / f"document{number}"
                file.unlink(missing_ok=True)
                if text is not None:
                    file.write_bytes(text)
                    files[str(file)] = text
                argument = f"{role}:{file}"
            words.append(argument)
        wanted, after = command_line.publish(self.state, words, files, now)
        if not self.port:
            said = command_line.warning_before_publish(self.state, words, files, self.database) + wanted[2]
            if wanted[0] == command_line.DONE:
                said += command_line.warnings_of_publish(self.state, after, words, files, self.database)
            wanted = (*wanted[:2], said)
        head = ["publish", *self.place(now), "--"]
        return self.compare_command(f"publish {label}", now, head + words, wanted, after, str(arguments))


def temporary_folder():
    return tempfile.TemporaryDirectory(prefix="model-compare-")
