"""The calm run: a thousand requests over all routes, with ample memory, of which none may be answered by 503.

It is the case 'a thousand requests' of crates/replay/stdin, with the files and steps that it names, and what crates/replay/stdout has for it. Where a request is
answered by 503 for want of memory, replay makes it once more, and tells on standard error alone how often it did. So nothing may be said there.
"""
import os
import re

TOP = os.path.dirname(os.path.dirname(os.path.realpath(__file__)))
CASE = "case a thousand requests"


def lines_of(name):
    with open(f"{TOP}/crates/replay/{name}", encoding="utf-8") as file:
        return file.read().split("\n")


def block(lines, first, is_last):
    """The lines from this one on, up to the last of its block."""
    begin = lines.index(first)
    end = next(at for at in range(begin + 1, len(lines)) if is_last(lines[at]))
    return lines[begin:end]


def is_named(name, line):
    """Whether a line names the file or the steps: as NAME, @NAME, ROLE:NAME, {NAME}, {#NAME} or {@NAME}."""
    return re.search(rf"[ @:{{#]{re.escape(name)}(?![\w/.=:])", line)


def script():
    """The script of the case: the files and steps that it names, in their order, and its own lines."""
    lines = lines_of("stdin")
    case = block(lines, CASE, lambda line: not line)
    blocks, at = [], 0
    while at < lines.index(CASE):
        one = [lines[at]]
        if lines[at].startswith("steps "):
            one = [*block(lines, lines[at], lambda line: line == "end"), "end"]
        if one[0].startswith(("file ", "steps ")):
            blocks.append(one)
        at += len(one)
    found = [case[1:]]
    for one in reversed(blocks):
        if any(is_named(one[0].split()[1], line) for other in found for line in other):
            found.insert(0, one)
    return "".join(f"{line}\n" for one in [*found[:-1], case] for line in one)


def wanted():
    """What replay prints of it."""
    return "".join(f"{line}\n" for line in block(lines_of("stdout"), CASE, lambda line: line.startswith("case ")))


def fault_of(status, printed, said):
    """What is wrong with a run, or None where it was calm."""
    if status:
        return f"it ended with status {status}: {said[-300:]}"
    if printed != wanted():
        return "it printed something else" + (", and 503 is in it" if " 503 " in printed else "")
    if said:
        return f"it said: {said[-300:].strip()}"
    return None
