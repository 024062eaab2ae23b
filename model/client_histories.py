"""Random histories of a client: what it asks for, what it holds after each call, and how the call ends, beside the program `replay`.

The server goes on as in other histories, in the model alone. Each call has a source that answers what the server would, or what it
would have answered earlier, but for some names, of which it answers something else.
"""
import command_line
import http_server
import signed_documents as make
from client import Client, SourceFault, consistent_name
from denials import Denied
from histories import GROUPS
from layout_histories import LayoutHistory, chain_state
from offers import LONG, PATHS, changed_byte
from replay import Script
from repository import State
from scenes import NOW

WORDS = ("broken", "refused")
# The servers of one history of chains.
CHAINS = 12


class Beside:
    """A state that requests and command lines change, without a program."""

    def __init__(self, session, state=None):
        self.session = session
        self.state = state or State()

    def serve(self, now, requests):
        for _, request in requests:
            _, self.state = http_server.response(self.state, request, now)

    def command(self, name, now, text):
        _, self.state = {"init": command_line.init, "put": command_line.put}[name](self.state, text, now)


def served(state, name, now):
    """The body of the server's reply where its status is 200."""
    reply, _ = http_server.response(state, f"GET /{name} HTTP/1.1\r\n\r\n".encode(), now)
    head, _, body = reply.partition(b"\r\n\r\n")
    return body if head.startswith(b"HTTP/1.1 200 ") else None


def source_of(server, answers, now):
    """A source that answers these names, or any by `*`, by itself: bytes, None, or the word of a fault."""

    def source(name):
        for known in (name, "*"):
            if known in answers:
                if type(answers[known]) is str:
                    raise SourceFault(answers[known])
                return answers[known]
        return served(server, name, now)

    return source


def documents_of(state):
    held = [*state.roots, state.timestamp, state.snapshot, *state.shelf.values()]
    return [document.bytes for document in held if document]


class ClientHistory(LayoutHistory):
    new_world = Beside
    # How often a source is honest.
    honest = 0.4

    def __init__(self, session, seed):
        super().__init__(session, seed)
        self.script = Script()
        self.servers = []
        self.client = State()
        # The states that the two databases hold.
        self.served = self.held = None

    def new_client(self):
        """An anchor, some first roots, what a server was, with or without its target files; or nothing."""
        state = State()
        known = self.random.choice([*self.servers[-4:], self.world.state])
        kind = self.random.random()
        if kind < 0.65:
            count = 1 if self.chance(0.6) else self.random.randint(0, len(known.roots))
            state.roots = known.roots[:count]
        elif kind < 0.97:
            state = known.copy()
            if self.chance(0.6):
                state.blobs = {}
            if self.chance(0.4):
                state.shelf = {place: held for place, held in state.shelf.items() if self.chance(0.6)}
        return state

    def other_answer(self, server, answer):
        """In place of what the server answers."""
        random = self.random
        kind = random.random()
        if kind < 0.2:
            return None
        if kind < 0.35:
            return random.choice(WORDS)
        if answer and kind < 0.55:
            return random.choice((
                answer[:random.randrange(len(answer))], answer + b" ", changed_byte(answer, random.randrange(len(answer))), answer[:-1],
            ))
        if kind < 0.62:
            return LONG.encode() + b"x" * random.choice((0, 1))
        pool = documents_of(server) + documents_of(self.client) + list(server.blobs.values())
        pool += [text for texts in self.past.values() for text in texts[-6:]]
        return random.choice(pool or [b""])

    def other_answers(self, server, call):
        """For some of the names that are asked for where the source is honest."""
        trial = Client(self.client, source_of(server, {}, self.now))
        try:
            call(trial)
        except Denied:
            pass
        if self.chance(self.honest) or not trial.asked:
            return {}
        answers = {}
        for name, _, answer in self.random.sample(trial.asked, min(len(trial.asked), self.random.choice((1, 1, 1, 2, 3)))):
            answers[name] = self.other_answer(server, answer)
        if self.chance(0.04):
            answers["*"] = self.random.choice((None, *WORDS))
        return answers

    def told(self, answer):
        if type(answer) is bytes:
            return self.script.file(answer)
        return answer or "none"

    def call_once(self, line, call):
        server = self.world.state if self.chance(0.85) else self.random.choice(self.servers)
        answers = self.other_answers(server, call)
        self.script.say(f"now {make.date(self.now)}")
        if self.served is not server:
            self.script.put(server)
        if self.held is not self.client:
            self.script.put(self.client, "client ")
        told = {name: self.told(answer) for name, answer in answers.items()}
        for name, answer in told.items():
            self.script.say(f"source {name} = {answer}")
        subject = Client(self.client, source_of(server, answers, self.now))
        self.script.run(subject, line.split()[0], line, lambda: call(subject))
        self.served, self.held, self.client = server, subject.state, subject.state
        for name in told:
            self.script.say(f"source {name} = served")

    def update(self):
        self.call_once("update", lambda subject: subject.update(self.now))

    def path(self):
        return self.random.choice([*PATHS, *self.referring * 3, "chain/layout", "nope"])

    def fetch(self):
        path = self.path()
        self.call_once(f"fetch {path}", lambda subject: subject.fetch_target(path, self.now))

    def calls(self):
        """Mostly an update and then some targets, at times for another client."""
        if self.chance(0.4):
            self.client = self.new_client()
        if self.chance(0.9):
            self.update()
        for _ in range(self.random.choice((0, 1, 2, 3))):
            self.fetch()

    def run(self):
        self.begin()
        for _ in range(GROUPS):
            self.go_on()
            self.world.serve(self.now, self.requests())
            self.servers.append(self.world.state)
            for _ in range(3):
                self.calls()
        self.script.compare(self.world.session)


class ChainHistory(ClientHistory):
    """A client of servers that each list a random chain of steps."""

    honest = 0.7

    def path(self):
        return self.referring[0] if self.chance(0.9) else super().path()

    def other_answers(self, server, call):
        """Mostly the target itself is given, which an honest server keeps back where the layout does not hold."""
        answers = super().other_answers(server, call)
        if self.chance(0.7):
            answers.setdefault("targets/" + consistent_name(self.referring[0], make.digest(self.product)), self.product)
        return answers

    def run(self):
        self.now = NOW
        for _ in range(CHAINS):
            state, path, chain = chain_state(self.random)
            self.world.state, self.product = state, chain.blob
            self.servers.append(state)
            self.referring = [path]
            self.client = State()
            self.client.roots = state.roots
            for _ in range(2):
                self.update()
                self.fetch()
            self.fetch()
        self.script.compare(self.world.session)


def compare_chains(session, random, count):
    """So many histories, each with some chains."""
    for _ in range(count):
        ChainHistory(session, random.getrandbits(64)).run()


def compare_histories(session, random, count):
    for _ in range(count):
        ClientHistory(session, random.getrandbits(64)).run()
