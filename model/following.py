"""Random histories of clients that keep following their server, beside the programs.

What a client fetches from the state itself (`agree` of `replay`) ends as the model's client does, and so do `release update` and `release get`
against `release serve`. Where the client is behind, it gets just what the server grants.
"""
import agreement
import command_line
import signed_documents as make
from client_histories import Beside, source_of
from client import Client
from denials import Denied
from documents import is_live
from histories import GROUPS
from layout_histories import LayoutHistory
from offers import PATHS
from program import World, read_rows
from replay import Script, denial_text
from repository import State
import tables

# Histories of processes beside those of one script each.
OVER_LOOPBACK = 4


def told(script, end):
    return script.file(end) if type(end) is bytes else denial_text(end)


class Following(LayoutHistory):
    """One script: the server goes on in the model alone, and clients fetch from its state."""

    new_world = Beside

    def __init__(self, session, seed):
        super().__init__(session, seed)
        self.script = Script()
        self.clients = []

    def path(self):
        return self.random.choice([*PATHS, *self.referring * 3, "chain/layout", "nope"])

    def new_client(self, server):
        """The first root alone, or all that the server holds now, with or without target files."""
        state = State()
        state.roots = server.roots[:1]
        if self.chance(0.4):
            state = server.copy()
            state.blobs = {} if self.chance(0.5) else state.blobs
        return state

    def follow(self, number):
        """A client that was there before, or a new one, fetches a target."""
        server, before, path = self.world.state, self.clients[number], self.path()
        after, end = agreement.fetched_from(server, before, path, self.now)
        wrong = agreement.disagreement(server, before, after, path, self.now, end)
        self.world.session.check("agreement: the model itself", None, wrong, path, self.now, server)
        self.script.say(f"now {make.date(self.now)}")
        self.script.put(server)
        self.script.put(before, "client ")
        both = f"{told(self.script, end)} | {told(self.script, agreement.granted(server, path, self.now))}"
        self.script.say(f"agree {path}", "agree: both ends", both)
        self.script.say("client rows", "agree: rows", self.script.rows(after))
        self.clients[number] = after

    def run(self):
        self.begin()
        for _ in range(GROUPS):
            self.go_on()
            self.world.serve(self.now, self.requests())
            self.clients = [*self.clients[-3:], self.new_client(self.world.state)]
            for _ in range(4):
                self.follow(self.random.randrange(len(self.clients)))
        self.script.compare(self.world.session)


class Programs(LayoutHistory):
    """The programs: a server that goes on by requests, and one client that follows it over loopback."""

    def __init__(self, session, seed):
        super().__init__(session, seed)
        self.folder = session.folder / "follower"
        self.folder.mkdir(exist_ok=True)
        self.database = self.folder / "client.db"
        self.database.unlink(missing_ok=True)
        self.client = State()

    def over_loopback(self, words, call, done):
        """A command of the client, with as many connections as it makes: its status, output and errors, and its rows."""
        subject = Client(self.client, source_of(self.world.state, {}, self.now))
        end = agreement.end_of(lambda: call(subject))
        server, port = self.world.session.start_server(self.world.database, self.now, max(1, len(subject.asked)))
        if server is None:
            return self.world.session.check("following: a server", b"listening", port)
        wanted = command_line.denied_line(end) if type(end) is Denied else (command_line.DONE, done, self.warnings(words, subject, port))
        found = self.world.session.run(*words, "--db", str(self.database), "--port", str(port), "--at", str(self.now))
        server.kill()
        server.communicate()
        as_wanted = self.world.session.check(f"following: {words[0]}", wanted, found, b"", self.now, self.world.state)
        self.client = subject.state
        rows = tables.rows_of(self.client)
        return self.world.session.check("following: rows", rows, {table: read_rows(self.database)[0][table] for table in rows}) and as_wanted

    def warnings(self, words, subject, port):
        """What an update warns of: a timestamp that has expired, and a repository that has none."""
        told = ""
        if words == ["update"] and subject.state.timestamp and not is_live(subject.state.timestamp, self.now):
            told += f"warning: {self.database}: the timestamp has expired\n"
        if words == ["update"] and ("metadata/timestamp.json", None) in [(name, answer) for name, _, answer in subject.asked]:
            told += f"warning: port {port}: no timestamp\n"
        return told.encode()

    def follow(self):
        """An update and some targets, each beside what the server's own reply is."""
        if not self.over_loopback(["update"], lambda subject: subject.update(self.now), b"updated\n"):
            return False
        for _ in range(2):
            path, out = self.random.choice([*PATHS, *self.referring * 3]), self.folder / "out"
            out.unlink(missing_ok=True)
            before, server = self.client, self.world.state
            words = ["get", "--out", str(out), path]
            if not self.over_loopback(words, lambda subject: subject.fetch_target(path, self.now), b"written\n"):
                return False
            end = out.read_bytes() if out.exists() else agreement.granted(self.client, path, self.now)
            wrong = agreement.disagreement(server, before, self.client, path, self.now, end)
            self.world.session.check("following: agreement", None, wrong, path, self.now, server)
        return True

    def run(self):
        self.begin()
        self.client.roots = self.world.state.roots[:1]
        self.world.session.write_database(self.database, self.client)
        for _ in range(GROUPS):
            self.go_on()
            if not self.world.serve(self.now, self.requests()) or not self.follow():
                return


def compare_histories(session, random, count):
    for _ in range(count):
        Following(session, random.getrandbits(64)).run()
    for _ in range(max(1, count // OVER_LOOPBACK)):
        Programs(session, random.getrandbits(64)).run()
