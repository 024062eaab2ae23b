"""Which processes a run has started."""


def fields_of(process):
    """Gives the fields of a process's state after its name: its state, its parent and so on. The name, in brackets, may hold spaces."""
    with open(f"/proc/{process}/stat") as file:
        return file.read().rpartition(")")[2].split()


def is_below(process, run):
    """Says whether the run started the process, or what started it did, and so on."""
    while process not in ("0", "1"):
        if process == run:
            return True
        process = fields_of(process)[1]
    return False
