#!/usr/bin/env python3
"""Makes the libraries of this repository usable in another one that holds it, as a submodule does.

usage: bin/add_to.py REPOSITORY [LIBRARY ..]

REPOSITORY is a repository above this one, with crates in `crates/` and their lines in `crates.txt`. The libraries are those named, or
openapiv3, openapi_faults and openapi_findings, with all that they use. Each gets a link `crates/NAME` and a line of `crates.txt`
there. Links and lines that this script made before are brought up to date; those of a library that is gone are removed.

It prints what it does, a line for each change, and nothing if there is nothing to do. If REPOSITORY has something else of such a
name, it changes nothing, prints what that is, and exits with 1. With wrong arguments it exits with 2.
"""
import os
import sys

import sources

LIBRARIES = ("openapiv3", "openapi_faults", "openapi_findings")


class Addition:
    """What has to change in another repository."""

    def __init__(self, top, names):
        self.top, self.lines, self.changes, self.conflicts = top, sources.crates_of(names), [], []
        self.file = f"{top}/crates.txt"
        self.text = read(self.file)
        self.there = {name_of(line): line for line in self.text if name_of(line)}

    def target_of(self, name):
        """Returns where the link of a library leads."""
        return os.path.relpath(f"{sources.TOP}/crates/{name}", f"{self.top}/crates")

    def is_ours(self, name):
        """Returns whether there is a link of this name that leads to this repository."""
        link = f"{self.top}/crates/{name}"
        return os.path.islink(link) and os.readlink(link) == self.target_of(name)

    def plan(self):
        """Finds what has to change, and what is in the way."""
        for name, line in self.lines.items():
            link, is_ours = f"{self.top}/crates/{name}", self.is_ours(name)
            if not is_ours and os.path.lexists(link):
                self.conflicts.append(f"crates/{name} is not a link to {self.target_of(name)}")
            elif not is_ours and name in self.there and self.there[name] != line:
                self.conflicts.append(f"crates.txt has another line for {name}")
            elif not is_ours:
                self.changes.append((f"link crates/{name}", lambda link=link, to=self.target_of(name): os.symlink(to, link)))
        for name in sorted({*self.there, *self.linked()} - {*self.lines}):
            if self.is_ours(name) and not os.path.isdir(f"{self.top}/crates/{name}"):
                self.changes.append((f"remove link crates/{name}", lambda name=name: os.remove(f"{self.top}/crates/{name}")))

    def linked(self):
        folder = f"{self.top}/crates"
        return os.listdir(folder) if os.path.isdir(folder) else []

    def lines_after(self):
        """Returns the lines of crates.txt afterwards."""
        gone = {it for it in self.there if self.is_ours(it) and it not in self.lines and not os.path.isdir(f"{self.top}/crates/{it}")}
        kept = [self.lines.get(name_of(it), it) for it in self.text if name_of(it) not in gone]
        return kept + [line for name, line in self.lines.items() if name not in self.there]

    def apply(self):
        """Changes the other repository, and prints each change."""
        os.makedirs(f"{self.top}/crates", exist_ok=True)
        after = self.lines_after()
        for line in [it for it in after if it not in self.text]:
            print(f"crates.txt: {line.partition(':')[0]}")
        for line in [it for it in self.text if name_of(it) and name_of(it) not in map(name_of, after)]:
            print(f"crates.txt: without {name_of(line)}")
        if after != self.text:
            with open(f"{self.file}.new", "w", encoding="utf-8") as it:
                it.writelines(f"{line}\n" for line in after)
            os.replace(f"{self.file}.new", self.file)
        for what, change in self.changes:
            print(what)
            change()


def read(file):
    """Returns the lines of a file, or none if there is no file."""
    try:
        with open(file, encoding="utf-8") as it:
            return it.read().splitlines()
    except FileNotFoundError:
        return []


def name_of(line):
    """Returns the crate that a line of crates.txt names, or an empty text."""
    head, colon, _ = line.partition("#")[0].partition(":")
    return head.strip() if colon else ""


def main():
    words = sys.argv[1:]
    if words in (["--help"], ["-h"]):
        print(__doc__)
        return 0
    if not words or words[0].startswith("-"):
        print(__doc__.split("\n\n")[1], file=sys.stderr)
        return 2
    top, names = os.path.realpath(words[0]), words[1:] or LIBRARIES
    strange = [it for it in names if it not in sources.lines_of_crates() or sources.is_program(it)]
    if strange:
        print(f"error: this repository has no library {strange[0]}", file=sys.stderr)
        return 2
    if os.path.commonpath([top, sources.TOP]) != top or top == sources.TOP:
        print(f"error: {top} is not a folder above {sources.TOP}", file=sys.stderr)
        print("help: add this repository to yours as a submodule, and run the script there", file=sys.stderr)
        return 2
    if not os.path.exists(f"{top}/.git"):
        print(f"error: {top} is not the top of a repository: it has no .git", file=sys.stderr)
        return 2
    addition = Addition(top, names)
    addition.plan()
    for it in addition.conflicts:
        print(f"error: {it}", file=sys.stderr)
    if addition.conflicts:
        return 1
    addition.apply()
    return 0


if __name__ == "__main__":
    sys.exit(main())
