"""Reads the sources of the crates as text: functions with the clauses of their contracts, and which of them a program calls.

A name in a body is a call of the function that it is by the imports of its file, and so is 'Type::name' of the method. Nothing here knows
the types of values, so too much is found to be called, but only so far:

- '.name()' is the method of that name of each type and trait that the crate can see. A method of a type of the crates waits until some
  function that is called names the type, since there is no value of it before.
- 'T::name()' of a parameter, or of a trait of the crates, is the method of that name of each type that has the trait.
- A function that is handed on as a value is called.
- A method of a trait from outside, as 'fmt' of 'Display', 'from' of 'From' or 'write' of 'Write', is called once something of its crate
  is: 'format', '?' and operators call it without a name.
- Whether a call is ever come to is not asked.

It cannot see what the body of a macro or the value of a constant names. Where such a thing named a function, that would be found not to be
called, and a row that is right would be refused: by that no row that is wrong gets through.
"""
import functools
import glob
import os
import re
from collections import defaultdict, namedtuple

# The line of crates.txt after which crates of tests stand, which are no part of the program.
TESTS = "# tools and tests"

PLAIN = re.compile(r"//[^\n]*|/\*.*?\*/|b?\"(?:\\.|[^\"\\])*\"|b?'(?:\\(?:x..|u\{[^}]*\}|.)|[^'\\\n])'", re.S)
ITEM = re.compile(r"\{|(?<![\w.])(fn|trait|mod)\s+(\w+)|(?<![\w.])(impl)\b|(?<![\w.])(struct|enum)\s+(\w+)")
USE = re.compile(r"(?m)^[ ]*(?:pub(?:\([^)]*\))? )?use ([^;]+);")
CLAUSE = re.compile(r"\s*\b(requires|ensures)\s*(\w+)?\s*(?=\{)")
TURBOFISH = re.compile(r"::<(?:[^<>()]|<[^<>]*>|\([^()]*\))*>")
PATH = re.compile(r"(?<![\w.:'])(?:[A-Za-z_]\w*::)*[a-z_]\w*(?![\w!]|::)")
METHOD = re.compile(r"\.\s*([a-z_]\w*)\s*\(")
TYPE = re.compile(r"\b[A-Z]\w*")
LAW = re.compile(r"(?:A|The) law\b.*\bdoes nothing")

# The owner of a method is its type, or its trait; 'trait' is the trait of an impl, or the trait itself. A clause is 'requires' or 'ensures',
# its name or '', and what it says. 'said' is the comment above, 'heading' what stands before the clauses, 'takes' the parameters.
Clause = namedtuple("Clause", "kind name text")
Function = namedtuple("Function", "crate module owner trait name public clauses body said heading takes returns")


def read(path):
    with open(path, encoding="utf-8") as file:
        return file.read()


def libraries():
    """The crates of crates.txt, each with those that its line names."""
    named = {}
    for line in read("crates.txt").splitlines():
        if re.match("[a-z]", line):
            name, _, below = line.partition(":")
            named[name.split()[0]] = below.split()
    return named


def tests():
    """The crates of tests."""
    return set(re.findall(r"(?m)^([a-z]\w*)", read("crates.txt").partition(TESTS)[2]))


def seen_from(named, crate):
    """The crate and all that it stands on."""
    found, left = set(), [crate]
    while left:
        name = left.pop()
        if name in named and name not in found:
            found.add(name)
            left += named[name]
    return found


def plain(text):
    """The text with comments, strings and characters blank, each line and column as it was."""
    return PLAIN.sub(lambda it: re.sub(r"[^\n]", " ", it[0]), text)


def closing(text, at):
    """The place of the bracket that closes the one at this place."""
    depth = 0
    for it in re.compile(r"[(\[{]|[)\]}]").finditer(text, at):
        depth += 1 if it[0] in "([{" else -1
        if depth == 0:
            return it.start()
    raise ValueError(f"a bracket that is not closed: {text[at:at + 60]}")


def heading_end(text, at):
    """Where the heading of a function or an impl ends: the first '{', ';' or clause outside of round and square brackets."""
    while True:
        it = re.compile(r"[(\[{;]|\b(?:requires|ensures)\b").search(text, at)
        if it[0] not in "([":
            return it.start()
        at = closing(text, it.start()) + 1


def last_name(text):
    """The name of a type or trait as it is written, without what it is applied to: 'sqlite::Store' of '&sqlite::Store<S>'."""
    found = re.search(r"[A-Za-z_]\w*(?:::\w+)*", re.sub(r"&|'\w+|\bmut\b|\bdyn\b", " ", text))
    return found[0] if found else ""


def generics_end(heading):
    """Where '<..>' ends, with which a heading may begin."""
    depth = 0
    for at, letter in enumerate(heading):
        depth += (letter == "<") - (letter == ">" and heading[at - 1] != "-")
        if depth == 0 and letter.strip():
            return at + 1 if letter == ">" else at
    return 0


def impl_parts(heading):
    """The trait, or None, and the type of 'impl<..> Trait for Type<..>'."""
    heading = heading[generics_end(heading):].partition(" where ")[0]
    one, is_for, other = heading.partition(" for ")
    return (last_name(one), last_name(other)) if is_for else (None, last_name(one))


def comment_above(whole, at):
    """The comment that stands above a line."""
    lines = whole[:at].splitlines()[::-1]
    found = []
    for line in lines[0 if whole[:at].endswith("\n") else 1:]:
        if not line.lstrip().startswith(("//", "#[")):
            break
        found.append(line.lstrip().lstrip("/").strip())
    return " ".join(found[::-1])


class Module:
    """One file: its functions, what it imports, its types and the modules below it."""

    def __init__(self, crate, name, path):
        self.crate, self.name = crate, name
        self.whole = read(path)
        self.text = plain(self.whole)
        self.functions, self.types, self.traits, self.modules = [], set(), set(), set()
        self.uses, self.globs = {}, []
        for it in USE.finditer(self.text):
            self.use(it[1].replace("\n", " "), "")
        self.items(0, len(self.text), None, None)

    def use(self, tree, before):
        """Takes in what one 'use' imports: each name with its path."""
        tree = tree.strip()
        inner = re.fullmatch(r"(.*?)\{(.*)\}", tree, re.S)
        if inner:
            depth, part = 0, ""
            for letter in inner[2] + ",":
                depth += (letter == "{") - (letter == "}")
                if letter == "," and depth == 0:
                    if part.strip():
                        self.use(part, before + inner[1].strip())
                    part = ""
                else:
                    part += letter
            return
        path, _, other = (before + tree).partition(" as ")
        path = path.strip()
        if path.endswith("::*"):
            self.globs.append(path[:-3])
        elif path.endswith("::self"):
            self.uses[other.strip() or path.split("::")[-2]] = path[:-6]
        else:
            self.uses[other.strip() or path.split("::")[-1]] = path

    def items(self, at, end, owner, trait):
        """Reads the items between two places: of the file, or of an impl or a trait."""
        while True:
            it = ITEM.search(self.text, at, end)
            if not it:
                return
            if it[0] == "{":
                at = closing(self.text, it.start()) + 1
            elif it[1] == "fn":
                at = self.function(it, owner, trait)
            elif it[3] == "impl":
                at = heading_end(self.text, it.end())
                close = closing(self.text, at)
                its_trait, its_type = impl_parts(self.text[it.end():at])
                self.items(at + 1, close, its_type, its_trait)
                at = close + 1
            elif it[1] == "trait":
                self.traits.add(it[2])
                at = heading_end(self.text, it.end())
                close = closing(self.text, at)
                self.items(at + 1, close, it[2], it[2])
                at = close + 1
            elif it[1] == "mod":
                self.modules.add(it[2])
                at = it.end()
            else:
                self.types.add(it[5])
                at = it.end()

    def function(self, it, owner, trait):
        """Reads a function, and says where it ends."""
        start = self.text.rfind("\n", 0, it.start()) + 1
        at = heading_end(self.text, it.end())
        heading, clauses = self.text[it.end():at], []
        while True:
            clause = CLAUSE.match(self.text, at)
            if not clause:
                break
            close = closing(self.text, clause.end())
            clauses.append(Clause(clause[1], clause[2] or "", self.whole[clause.end() + 1:close]))
            at = close + 1
        at = heading_end(self.text, at)
        end = at if self.text[at] == ";" else closing(self.text, at)
        takes = heading[generics_end(heading):]
        takes, returns = takes[:closing(takes, takes.index("(")) + 1], takes[closing(takes, takes.index("(")) + 1:]
        self.functions.append(Function(
            crate=self.crate, module=self.name, owner=owner, trait=trait, name=it[2],
            public=bool(re.match(r"\s*pub (?!\()", self.text[start:it.start()] + " ")) or bool(trait), clauses=tuple(clauses),
            body=self.text[at:end], said=comment_above(self.whole, start), heading=heading, takes=takes, returns=returns.partition("->")[2].strip()))
        return end + 1


class Sources:
    """The crates of the repository, and the names in them."""

    def __init__(self, named=None):
        self.named = named or libraries()
        self.modules = {}
        for crate in self.named:
            for path in sorted(glob.glob(f"crates/{crate}/src/**/*.rt", recursive=True)):
                name = os.path.relpath(path, f"crates/{crate}/src")[:-3].replace("/", "::")
                name = "" if name in ("lib", "main") else name
                self.modules[crate, name] = Module(crate, name, path)
        self.free, self.methods, self.owned = {}, defaultdict(list), defaultdict(list)
        for module in self.modules.values():
            for it in module.functions:
                if it.owner:
                    self.methods[it.name].append(it)
                    self.owned[self.type_of(module, it.owner), it.name].append(it)
                else:
                    self.free[it.crate, it.module, it.name] = it
        self.traits = {(module.crate, name) for module in self.modules.values() for name in module.traits}
        self.sees = {crate: seen_from(self.named, crate) for crate in self.named}

    def find(self, module, path, depth=0):
        """What a path names, seen from a module: ('fn', function), ('type', crate, name) or ('mod', crate, module); None where it is none of the crates."""
        *before, last = path.split("::")
        for at, name in enumerate(before):
            found = self.named_module(module, name, depth, at > 0)
            if not found:
                return None
            module = found
        return self.item(module, last, depth, bool(before))

    def named_module(self, module, name, depth, is_inside):
        """The module that a part of a path names, seen from a module, or inside of one."""
        if depth > 12:
            return None
        if not is_inside and name in ("crate", "self", "super"):
            return module if name == "self" else self.modules[module.crate, ""]
        below = module.crate, f"{module.name}::{name}".lstrip(":")
        if name in module.modules and below in self.modules:
            return self.modules[below]
        if module.uses.get(name, name) != name:
            found = self.find(module, module.uses[name], depth + 1)
            return self.modules[found[1:]] if found and found[0] == "mod" else None
        if not is_inside or name in module.uses:
            return self.modules.get((name, ""))
        return None

    def item(self, module, name, depth, is_inside):
        """What a name is in a module: as 'find' says it."""
        if depth > 12:
            return None
        if (module.crate, module.name, name) in self.free:
            return ("fn", self.free[module.crate, module.name, name])
        if name in module.types or name in module.traits:
            return ("type", module.crate, name)
        if module.uses.get(name, name) != name:
            found = self.find(module, module.uses[name], depth + 1)
            if found:
                return found
        for path in module.globs:
            found = self.find(module, f"{path}::{name}", depth + 1)
            if found:
                return found
        found = self.named_module(module, name, depth + 1, is_inside)
        return ("mod", found.crate, found.name) if found else None

    def type_of(self, module, name):
        """The crate and the name of a type: ('', name) where it is none of the crates."""
        found = self.find(module, name)
        return found[1:] if found and found[0] == "type" else ("", name.split("::")[-1])

    def is_foreign(self, function):
        """Whether it is a method of a trait that is no trait of the crates."""
        if not function.trait:
            return False
        return not self.type_of(self.modules[function.crate, function.module], function.trait)[0]

    def can_call(self, crate, method):
        """Whether a body of a crate may call a method of a value by its name."""
        return bool(method.trait) or "self" in method.takes and method.crate in self.sees[crate]

    def calls(self, function):
        """The functions that a body may call."""
        module = self.modules[function.crate, function.module]
        body = TURBOFISH.sub("", function.body)
        for name in set(METHOD.findall(body)):
            yield from (it for it in self.methods[name] if self.can_call(function.crate, it))
        for path in set(PATH.findall(body)):
            before, _, name = path.rpartition("::")
            if not before:
                found = self.find(module, name)
                if found and found[0] == "fn" and self.is_call(function, body, name):
                    yield found[1]
                continue
            found = self.find(module, path)
            if found and found[0] == "fn":
                yield found[1]
                continue
            owner = self.type_of(module, function.owner if before == "Self" and function.owner else before)
            yield from self.owned[owner, name]
            if self.is_any(module, before):
                yield from (it for it in self.methods[name] if it.trait)

    def is_any(self, module, before):
        """Whether a name before '::' is a trait or a parameter, of which any type may be: the method is each of its name then."""
        found = self.find(module, before)
        if found and found[0] == "type":
            return found[1:] in self.traits
        return found is None and re.fullmatch("[A-Z]", before) is not None

    @staticmethod
    def is_call(function, body, name):
        """Whether a name that is a function's is meant so: where it is called, or handed on and no other thing is called so here."""
        if re.search(rf"(?<![\w.:]){name}\s*\(", body):
            return True
        bound = rf"\b(?:let|for)\b[^=;]*\b{name}\b|\|[^|;]*\b{name}\b[^|;]*\||\b{name}\b[^;{{}}]*=>"
        if re.search(bound, body) or re.search(rf"\b{name}\s*:", function.takes):
            return False
        return re.search(rf"[(,]\s*{name}\s*[,)]", body) is not None

    def called_from(self, roots, crates):
        """All that is called where these functions are, in these crates."""
        found, left, begun, said, waiting = set(), list(roots), set(), set(), defaultdict(list)
        while left:
            function = left.pop()
            if function in found or function.crate not in crates:
                continue
            if self.is_of_crates(function) and function.owner not in said:
                waiting[function.owner].append(function)
                continue
            found.add(function)
            left += self.calls(function)
            for name in set(TYPE.findall(function.heading + function.body)) - said:
                said.add(name)
                left += waiting.pop(name, ())
            if function.crate not in begun:
                begun.add(function.crate)
                left += [it for module in self.modules.values() if module.crate == function.crate for it in module.functions if self.is_foreign(it)]
        return found

    @functools.cached_property
    def by_program(self):
        """What the program 'release' calls."""
        return self.called_from([self.free["release", "", "main"]], self.sees["release"])

    @functools.cached_property
    def by_tests(self):
        """What the crates of tests call."""
        crates = tests()
        own = [it for module in self.modules.values() if module.crate in crates for it in module.functions]
        return self.called_from(own, set(self.named))

    def is_of_crates(self, function):
        """Whether it is a method of a type of the crates, of which there is a value only where some function names the type."""
        if not function.owner or function.owner == function.trait:
            return False
        return bool(self.type_of(self.modules[function.crate, function.module], function.owner)[0])
