"""Scripts of the program `replay`, with what is wanted of them: a server and a client over states of the model."""
import os
import subprocess
from pathlib import Path

import client
import tables
from denials import Denied

REPLAY = Path(os.environ.get("REPLAY") or Path(__file__).resolve().parent.parent / "crates/replay/out/replay")
FORGET = "; ".join(f"DELETE FROM {table}" for table in ("root2", "current", "shelf", "blob"))


def is_plain(text):
    """Whether a line can hold the bytes as they stand."""
    return text.isascii() and b"\n" not in text and b"\r" not in text


def due(state):
    """What `due` prints of a state."""
    if not state.roots:
        return "no root"
    text = f"root {state.roots[-1].version}"
    if state.timestamp and not (state.snapshot and state.timestamp.snapshot.names(state.snapshot)):
        text += f" snapshot {state.timestamp.snapshot.version} is due"
    return text


def denial_text(denied):
    return " ".join(["denied", str(denied.number), denied.name, *map(str, denied.missing)])


class Script:
    """Lines for `replay`, and the wanted replies of those that are answered, each with what it is about."""

    def __init__(self):
        self.lines = []
        self.wanted = []
        self.names = {}

    def say(self, line, label=None, reply=None):
        self.lines.append(line)
        if reply is not None:
            self.wanted.append((label, reply))

    def name(self, text):
        """The name of a file with these bytes."""
        if text not in self.names:
            self.names[text] = f"F{len(self.names)}"
            form = b"text " + text if is_plain(text) else b"hex " + text.hex().encode()
            self.lines.append(f"file {self.names[text]} = {form.decode()}")
        return self.names[text]

    def file(self, text):
        return f"file {self.name(text)}"

    def put(self, state, whose=""):
        """Makes a database hold the rows of a state."""
        statements = [FORGET]
        for table, rows in tables.rows_of(state).items():
            for row in rows if table != "schema" else ():
                values = (f"{{{self.name(value)}}}" if type(value) is bytes else repr(value) for value in row)
                statements.append(f"INSERT INTO {table} VALUES ({', '.join(values)})")
        self.say(f"{whose}sql {'; '.join(statements)}", "set up", "done")
        self.say(f"{whose}reopen", "set up", "opened")

    def rows(self, state):
        """What `rows` prints of a state: of a file without bytes nothing."""
        lines = []
        for table, rows in tables.rows_of(state).items():
            for row in rows:
                values = [self.file(value) if type(value) is bytes else str(value) for value in row if value != b""]
                lines.append(" ".join(["", "", table, *values]))
        return "\n".join(["rows", *sorted(lines)])

    def asked(self, name, limit, answer):
        told = self.file(answer) if type(answer) is bytes else answer or "none"
        return f"  {name} {limit} {told}\n"

    def run(self, subject, label, line, call):
        """A call of a client: the names asked for and the end, then the rows, then what is due. Gives the bytes, None or the refusal that it ended in."""
        try:
            found = call()
            end = "updated" if found is None else self.file(found)
        except Denied as denied:
            found, end = denied, denial_text(denied)
        except client.SourceFault as fault:
            found, end = fault, f"fault {fault}"
        asked = "".join(self.asked(*one) for one in subject.asked)
        self.say(line, f"{label}: names and end", asked + end)
        self.say("client rows", f"{label}: rows", self.rows(subject.state))
        self.say("client due", f"{label}: due", due(subject.state))
        return found

    def compare(self, session):
        """Runs the lines, and compares reply by reply up to the first that differs."""
        text = "\n".join(["case a server and a client", *self.lines, ""]).encode()
        ran = subprocess.run([REPLAY], input=text, stdout=subprocess.PIPE, stderr=subprocess.PIPE, check=False)
        session.check("replay: its end", (0, b""), (ran.returncode, ran.stderr))
        lines = ran.stdout.decode().splitlines()[1:]
        for label, wanted in self.wanted:
            found = taken(lines, wanted)
            if not session.check(f"replay {label}", wanted, found, text):
                return


def taken(lines, wanted):
    """The next reply: `rows` with the indented lines after it, or a line with those before it."""
    count = 0
    if not wanted.startswith("rows"):
        while count < len(lines) and lines[count].startswith("  "):
            count += 1
    count += 1
    if wanted.startswith("rows"):
        while count < len(lines) and lines[count].startswith("  "):
            count += 1
    reply = "\n".join(lines[:count])
    del lines[:count]
    return reply
