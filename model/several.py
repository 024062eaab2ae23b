"""Random histories of a client of several mirrors, of which one is honest mostly and the others answer anything, beside the program `replay`.

Whatever the others answer, the client has what the honest one alone would bring, unless something that it took puts it ahead. That is
held against the model itself, and the model's ends and rows against those of the program.
"""
import agreement
import signed_documents as make
from client import Several
from client_histories import ClientHistory, source_of
from offers import PATHS

# How often none of the mirrors is honest.
NO_HONEST = 0.1


class MirrorHistory(ClientHistory):
    """As of one source, with a list of them for each call."""

    honest = 0

    def liar(self, server, call):
        """What a mirror answers that is not honest: something else for some names, or one answer for all; and no root but the next ones again."""
        answers = self.other_answers(server, call)
        roots = [root.bytes for root in server.roots]
        if self.chance(0.3) and len(self.client.roots) and roots:
            answers[f"metadata/{len(self.client.roots) + 1}.root.json"] = self.random.choice(roots)
        if self.chance(0.3):
            answers["metadata/timestamp.json"] = self.other_answer(server, server.timestamp and server.timestamp.bytes)
        return answers

    def call_once(self, line, call):
        server = self.world.state
        count = self.random.choice((1, 2, 2, 3, 3, 4))
        place = count if self.chance(NO_HONEST) else self.random.randrange(count)
        mirrors = [{} if at == place else self.liar(server, call) for at in range(count)]
        self.script.say(f"now {make.date(self.now)}")
        self.script.put(server)
        self.script.put(self.client, "client ")
        told = [(at, name, self.told(answer)) for at, answers in enumerate(mirrors) for name, answer in answers.items()]
        for at, name, answer in told:
            self.script.say(f"mirror {at} {name} = {answer}")
        before = self.client
        subject = Several(before, [source_of(server, answers, self.now) for answers in mirrors])
        word, _, path = line.partition(" ")
        words = " ".join([word, "each", str(count), path]).strip()
        end = self.script.run(subject, f"{word} by each", words, lambda: call(subject))
        self.client = subject.state
        for at, name, _ in told:
            self.script.say(f"mirror {at} {name} = served")
        if place == count or str(end) == "refused":
            return
        if word == "update":
            wrong = agreement.unbrought(server, before, self.client, [*PATHS, *self.referring, "nope"], self.now)
        else:
            wrong = agreement.unserved(server, before, self.client, path, self.now, end)
        self.world.session.check("one honest mirror: the model itself", None, wrong, line, self.now, mirrors)


def compare_histories(session, random, count):
    for _ in range(count):
        MirrorHistory(session, random.getrandbits(64)).run()
