"""Which functions of the repository a program may call, by the names that its sources have.

A call graph by names, which may say 'reached' of too many functions and not of too few:

- `x.name(..)` may call every method of this name, of whatever type or trait it is, in the crates that the program stands on.
- `Type::name` may call the methods of this name of types and traits called `Type`, and where there are none (the type is a
  parameter, or another name of one) every method of this name.
- A plain `name`, and `module::name`, may call every free function of this name in the same crate, or in the crate that a `use` of
  the file or the path names it of. It needn't be followed by a bracket, since functions are handed on as values.
- What a type does by a trait from outside the repository, as `drop`, `from` and `next`, may be called by the language from anywhere.
- Names in comments, texts, contracts and tests call nothing.

What a macro or a `derive` writes isn't seen. Beside the symbols of a compiled tbl_main it lacks no function but such ones, and has
some thirty methods too many, which share their names with others.
"""
import functools
import os
import re
from glob import glob

from crates import TOP, below

KEYWORDS = r"requires|ensures\*?|invariant|measure|decreases"
CALLS = re.compile(r"(?P<front>(?:\w+(?:::<[^;(){}]*?>)?::)+|(?<!\.)\.)?(?P<name>\b[A-Za-z_]\w*)")


def without_blocks(text, start):
    """The text without the parts that begin as `start` says and go on to the brace that closes them."""
    kept, at = [], 0
    for found in re.finditer(start, text, re.M):
        if found.start() < at:
            continue
        kept.append(text[at:found.start()])
        at, depth = text.index("{", found.start()) + 1, 1
        while depth and at < len(text):
            depth += {"{": 1, "}": -1}.get(text[at], 0)
            at += 1
    return "".join([*kept, text[at:]])


def code_of(text):
    """What is run of a file: without tests, comments, characters, texts, and contracts."""
    text = re.split(r"^#\[cfg\(test\)\]\nmod \w+ \{", text, flags=re.M)[0]
    text = re.sub(r"//[^\n]*", "", text)
    text = re.sub(r"b?'(?:\\[^\n]|[^\\'\n])'", "0", text)
    text = re.sub(r'b?"(?:\\.|[^"\\])*"', "0", text, flags=re.S)
    text = re.sub(r"^\s*ghost use [^;]*;", "", text, flags=re.M)
    return without_blocks(text, rf"^\s*(?:{KEYWORDS})\b[^{{\n]*\{{")


class Function:
    """A function: its crate, the type or trait that it is of, its name, the trait by which it is had, and its text."""

    def __init__(self, crate, owner, name, trait, imports):
        self.crate, self.owner, self.name, self.trait, self.imports, self.lines = crate, owner, name, trait, imports, []
        self.path = "::".join(it for it in (crate, owner, name) if it)


def imports_of(code):
    """The names that a file takes from elsewhere: by its own name for each, the path and the name there."""
    found = {}
    for path, names in re.findall(r"^\s*(?:pub(?:\([\w: ]+\))? )?use ([\w:]+?)::(\w+(?: as \w+)?|\{[^;]*\}|\*);", code, re.M):
        for name, alias in re.findall(r"(\w+)(?: as (\w+))?", names):
            found[alias or name] = (path.split("::")[0], name)
    return found


def functions_in(crate, code):
    """The functions of a file, with the texts that follow each up to the next."""
    owner, trait, found, imports = None, None, [], imports_of(code)
    for line in code.splitlines():
        if head := re.match(r"(?:pub )?(?:unsafe )?(trait|impl)\b(?:<.*?>(?= ))? ?(.*)", line):
            of, _, type_of = head[2].rpartition(" for ")
            owner = re.match(r"\W*((?:\w|::)*)", type_of)[1].split("::")[-1]
            trait = re.match(r"\W*((?:\w|::)*)", of)[1].split("::")[-1] if of else owner if head[1] == "trait" else None
        elif line == "}":
            owner, trait = None, None
        if start := re.match(r"( {4})?(?:pub(?:\([\w: ]+\))? )?(?:const |final |unsafe |extern 0 )*fn (\w+)", line):
            found.append(Function(crate, owner if start[1] else None, start[2], trait if start[1] else None, imports))
            line = line[start.end():]
        if found:
            found[-1].lines.append(line)
    return found


def functions_of(crates):
    """The functions of some crates."""
    for crate in sorted(crates):
        for path in sorted(glob(f"{TOP}/crates/{crate}/src/**/*.rt", recursive=True)):
            with open(path, encoding="utf-8") as text:
                yield from functions_in(crate, code_of(text.read()))


class Calls:
    """The call graph of some functions."""

    def __init__(self, functions):
        self.functions = list(functions)
        self.crates = {it.crate for it in self.functions}
        self.traits = {it.owner for it in self.functions if it.trait == it.owner and it.owner}
        self.methods, self.free = {}, {}
        for it in self.functions:
            (self.methods if it.owner else self.free).setdefault(it.name, []).append(it)

    def outside(self):
        """The functions that types have by traits from outside the repository."""
        return [it for it in self.functions if it.trait and it.trait not in self.traits]

    def of_type(self, owner, name):
        """The methods that `owner::name` may be."""
        methods = self.methods.get(name, [])
        return [it for it in methods if owner in (it.owner, it.trait)] or methods

    def of_crate(self, crate, name):
        """The free functions of this name of a crate."""
        return [it for it in self.free.get(name, []) if it.crate == crate]

    def named(self, function, front, name):
        """The functions that a name in the text of a function may call."""
        if front == ".":
            return self.methods.get(name, [])
        last = re.sub(r"::<.*?>", "", front or "").rstrip(":").split("::")[-1]
        if last == "Self":
            return self.of_type(function.owner, name)
        if last[:1].isupper():
            return self.of_type(function.imports.get(last, (None, last))[1], name)
        if last in self.crates:
            return self.of_crate(last, name)
        crate, there = function.imports.get(name, (function.crate, name)) if not last else (function.crate, name)
        if last and last in function.imports and function.imports[last][0] in self.crates:
            crate = function.imports[last][0]
        return self.of_crate(crate if crate in self.crates else function.crate, there)

    def called_by(self, function):
        """The functions that a function may call."""
        for found in CALLS.finditer("\n".join(function.lines)):
            yield from self.named(function, found["front"], found["name"])

    def reached(self, roots):
        """The functions that may be called from these on, and these."""
        found, new = set(), list(roots) + self.outside()
        while new:
            function = new.pop()
            if function not in found:
                found.add(function)
                new += self.called_by(function)
        return found


@functools.lru_cache(maxsize=None)
def reached_from(crate, root="main"):
    """The paths (crate, type, name) of the functions that the function `root` of a crate may call, and its own."""
    calls = Calls(functions_of(below(crate) & set(os.listdir(f"{TOP}/crates"))))
    return {it.path for it in calls.reached([it for it in calls.functions if (it.crate, it.owner, it.name) == (crate, None, root)])}
