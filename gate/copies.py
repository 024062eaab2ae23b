"""Copies of crates and of the libraries that stand built below them, in which a gate program may change files."""
import os
import re
import shutil

TOP = os.path.dirname(os.path.dirname(os.path.realpath(__file__)))


def libraries():
    """What each crate stands on, by its name, as crates.txt has it."""
    with open(f"{TOP}/crates.txt", encoding="utf-8") as file:
        return dict(line.split(":") for line in file if re.match("[a-z]", line))


def below(named, wanted):
    """Lists these crates and those that they stand on."""
    found, left = set(), list(wanted)
    while left:
        name = left.pop()
        if name in named and name not in found:
            found.add(name)
            left += named[name].split()
    return found


def is_built(name):
    return os.path.exists(f"{TOP}/crates/{name}/out/rlib/stamp")


def linked(source, place):
    """The same file where the folders have one file system, and else a copy."""
    try:
        os.link(source, place)
    except OSError:
        shutil.copy2(source, place)


def copied(room, named, names, with_libraries):
    """Copies these crates into a folder, with crates.txt and HANDLES, and where it is wanted with what stands built of them."""
    for name in names:
        shutil.copytree(f"{TOP}/crates/{name}", f"{room}/crates/{name}", symlinks=True, ignore=shutil.ignore_patterns("out"))
        if with_libraries and is_built(name):
            shutil.copytree(f"{TOP}/crates/{name}/out/rlib", f"{room}/crates/{name}/out/rlib", copy_function=linked)
    with open(f"{room}/crates.txt", "w", encoding="utf-8") as file:
        file.writelines(f"{name}:{on}" for name, on in named.items() if name in names)
    shutil.copy(f"{TOP}/HANDLES", room)
