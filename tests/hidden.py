#!/usr/bin/env python3
"""Checks that no crate above openapi_node names the module that states what equality of nodes returns, or a module of openapi_node
that rests on it. So a crate learns what a node holds by an access that counts, and by nothing else.

Which modules rest on it is read from their own text: those that name it, those that name these, and so on. A name is a path such
as `Rattle.openapi_node.specs.Equal`, anywhere in a file or made of a `use` with braces. A folder above such a module must not be
imported at all, since any alias of it leads to the module (`use Rattle.openapi_node.specs as s`, then `s.Equal`).

The last line is `N passed, M failed`.
"""
import os
import re
import sys

TOP = os.path.dirname(os.path.dirname(os.path.realpath(__file__)))
CRATE = "openapi_node"
SECRET = f"{CRATE}.specs.Equal"
# What a comment is, and an import, by the end of a file's name.
COMMENTS = {"antt": re.compile(r"(?<!\S)--(?=\s).*"), "rt": re.compile(r"//.*")}
IMPORTS = {it: re.compile(rf"\b{word}\s+([^\s{{}};]+)\s*(?:\{{([^{{}}]*)\}})?") for it, word in (("antt", "use"), ("rt", r"ghost\s+use"))}


class File:
    """A source, a definition or a proof of a crate: its path, its text without comments and quotes, and what it imports."""

    def __init__(self, path):
        self.path, kind = path, path.rpartition(".")[2]
        with open(path, encoding="utf-8") as it:
            self.text = re.sub("[«»]", "", COMMENTS[kind].sub("", it.read()))
        self.imports = [*self.find_imports(IMPORTS[kind])]

    def find_imports(self, pattern):
        """Yields the path of each thing of openapi_node that the file imports."""
        for path, inner in pattern.findall(self.text):
            for leaf in inner.split(","):
                whole = f".{path}{(leaf.split() or [''])[0]}".rstrip(".")
                if f".{CRATE}." in f"{whole}.":
                    yield f"{CRATE}{whole.partition(f'.{CRATE}')[2]}"

    def name_of(self, modules):
        """Returns the first name by which the file names one of the modules, or imports a folder above one; or None."""
        for module in modules:
            if re.search(rf"(?<![\w-]){re.escape(module)}(?![\w-])", self.text):
                return module
            for path in self.imports:
                if f"{path}.".startswith(f"{module}.") or module.startswith(f"{path}."):
                    return path
        return None


def files_of(crate):
    """Returns the files of a crate."""
    found = [f"{at}/{name}" for part in ("src", "specs", "proofs") for at, _, names in os.walk(f"{TOP}/crates/{crate}/{part}") for name in names]
    return [File(it) for it in sorted(found)]


def module_of(path):
    """Returns the module that a file of openapi_node is."""
    inside = os.path.relpath(path, f"{TOP}/crates/{CRATE}").removesuffix(".antt").removesuffix("/Lib")
    return f"{CRATE}.{inside.replace('/', '.')}"


def main():
    own = [it for it in files_of(CRATE) if it.path.endswith(".antt")]
    modules, more = [], [SECRET]
    while more:
        modules += more
        more = [module for it in own if (module := module_of(it.path)) not in modules and it.name_of(modules)]
    if modules == [SECRET]:
        print(f"FAILED: no module of {CRATE} names {SECRET}\n0 passed, 1 failed")
        return 1
    passed = failed = 0
    for it in own:
        # (a file Lib.antt can name the modules beside it by their last name)
        if it.path.endswith("/Lib.antt") and re.search(r"^(?!(?:pub )?mod \w+$|\s*$)", it.text, re.M):
            failed += 1
            print(f"FAILED: {os.path.relpath(it.path, TOP)} has a line other than `mod NAME`")
    for crate in sorted(os.listdir(f"{TOP}/crates")):
        named = [(it.path, name) for it in files_of(crate) if (name := it.name_of(modules))] if crate != CRATE else []
        for path, name in named:
            print(f"FAILED: {os.path.relpath(path, TOP)} names {name}, and so what equality of nodes answers")
        passed, failed = passed + (crate != CRATE and not named), failed + len(named)
    print(f"{passed} passed, {failed} failed")
    return 1 if failed else 0


if __name__ == "__main__":
    sys.exit(main())
