"""How many jobs 'rt ci' is given: as many as there are processors, where there is memory for them.

Left to itself 'rt ci' plans the memory of each proof with room to spare, holds a proof back until that much is free, and gives the large ones
several processors. With RT_JOBS set it holds nothing back, and each proof has one processor. The largest proofs, those of the tests of
'io_tests', of 'release' and of 'replay', take 5 to 7 GB each and may meet; what stands on sqlite takes up to 4, the others 2 GB or less at a time.
"""
import os

LARGE = 12
EACH = 2


def processors():
    return len(os.sched_getaffinity(0))


def free_gigabytes():
    with open("/proc/meminfo", encoding="ascii") as file:
        for line in file:
            if line.startswith("MemAvailable:"):
                return int(line.split()[1]) / 1e6
    return 0.0


def environment():
    """Gives this process's environment, with RT_JOBS set where it is not and where the memory is there."""
    found = dict(os.environ)
    if "RT_JOBS" not in found and free_gigabytes() >= LARGE + EACH * processors():
        found["RT_JOBS"] = str(processors())
    return found

