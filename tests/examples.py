#!/usr/bin/env python3
"""Runs the programs as the README and docs/COMMANDS.md show them, and as their crates state, and compares output and exit status.

usage: tests/examples.py [--unproved [NAME ..]]
           (runs what `bin/prove.py` built; of these crates, or of all if none is named, what `bin/unproved.py` built)

A run in a page is a line `    $ COMMAND`. The lines below it, up to an empty one or the next run, are what a terminal shows:
standard output and standard error. What is printed with empty lines is in a block that begins with "```console", whose lines are
not indented. The exit status is 0, unless the next run of the same block is `echo $?`, which prints it. A line that begins
like a run and is in no such block is a failure, and so is a page without runs, or a program that neither page runs.

A crate of a program has files `stdin`, `args` (a word a line), `stdout` and `status` (0 by default), which `rt ci` compares too.

The last line is `N passed, M failed`.
"""
import os
import re
import subprocess
import sys
import tempfile

TOP = os.path.dirname(os.path.dirname(os.path.realpath(__file__)))
# The pages that show runs.
PAGES = ("README.md", "docs/COMMANDS.md")
BLOCK = re.compile(r"((?:^    [^\n]*\n)+)|^```console\n(.*?)^```$", re.M | re.S)
RUN = re.compile(r"^\$ (.*)\n((?:(?!\$ ).*\n)*)", re.M)
# A line that begins like a run, wherever it is.
PROMPT = re.compile(r"^[ \t>]*\$ .*$", re.M)
# What the pages call the programs; `./example NAME` runs example_NAME.
SCRIPTS = {"openapi": "openapi", "openapi_clean": "openapi_clean", "example": "example_$1"}


def programs():
    """Returns the names of the crates that are programs."""
    return sorted(it for it in os.listdir(f"{TOP}/crates") if os.path.isfile(f"{TOP}/crates/{it}/src/main.rt"))


def blocks_of(text):
    """Returns the runs of each block of a page: the command, and the output that is shown."""
    found = [RUN.findall(re.sub("^    ", "", indented, flags=re.M) + fenced) for indented, fenced in BLOCK.findall(text)]
    return [runs for runs in found if runs]


def lost_runs(text):
    """Returns the lines of a page that begin like runs, without those that are run."""
    lost = [it.strip() for it in PROMPT.findall(text)]
    for command, _ in (run for runs in blocks_of(text) for run in runs):
        lost.remove(f"$ {command}".strip())
    return lost


def file_of(crate, name, missing):
    try:
        with open(f"{TOP}/crates/{crate}/{name}") as it:
            return it.read()
    except FileNotFoundError:
        return missing


class Tests:
    def __init__(self, unproved):
        self.passed = self.failed = 0
        self.unproved = unproved

    def program_of(self, name):
        return f"{TOP}/crates/{name}/out/{name}{'.unproved' if name in self.unproved else ''}"

    def compare(self, what, came, wanted):
        if came == wanted:
            self.passed += 1
        else:
            self.failed += 1
            print(f"FAILED: {what}: exit status {came[0]}, not {wanted[0]}, and output\n{came[1]}instead of\n{wanted[1]}")

    def run_crate(self, crate):
        """Runs a program as the files of its crate state."""
        words = [self.program_of(crate), *file_of(crate, "args", "").splitlines()]
        ran = subprocess.run(words, input=file_of(crate, "stdin", ""), stdout=subprocess.PIPE, text=True)
        self.compare(f"crates/{crate}", (ran.returncode, ran.stdout), (int(file_of(crate, "status", "0")), file_of(crate, "stdout", "")))

    def run_block(self, runs, room):
        """Runs what one block of a page shows."""
        status = 0
        for (command, shown), (following, told) in zip(runs, [*runs[1:], ("", "")]):
            ran = subprocess.run(["bash", "-c", f"(exit {status}); {command}"], cwd=room, stdout=subprocess.PIPE, stderr=subprocess.STDOUT, text=True)
            status = ran.returncode
            self.compare(command, (status, ran.stdout), (int(told) if following == "echo $?" else 0, shown))

    def fail(self, why):
        self.failed += 1
        print(f"FAILED: {why}")

    def blocks(self):
        """Returns the runs of each block of the pages. A run that is expected and not found is a failure."""
        blocks = []
        for page in PAGES:
            with open(f"{TOP}/{page}") as it:
                text = it.read()
            found = blocks_of(text)
            for line in lost_runs(text):
                self.fail(f"{page} shows a run outside the blocks that are run: {line}")
            if not found:
                self.fail(f"{page} shows no run")
            blocks += found
        shown = [command for block in blocks for command, _ in block]
        for name in programs():
            call = name.replace("example_", "example ")
            if name != "openapi_cases" and not any(f"./{call} " in it for it in shown):
                self.fail(f"no page shows a run of ./{call}")
        return blocks

    def run_pages(self):
        """Runs what the pages show, in a folder with the programs and the examples as the top of the repository has them."""
        blocks = self.blocks()
        with tempfile.TemporaryDirectory(prefix="examples-") as room:
            os.symlink(f"{TOP}/examples", f"{room}/examples")
            for script, name in SCRIPTS.items():
                with open(f"{room}/{script}", "w") as it:
                    is_unproved = name in self.unproved or "$1" in name and any(it.startswith(name[:-2]) for it in self.unproved)
                    ending = ".unproved" if is_unproved else ""
                    it.write(f"#!/bin/sh\nname={name}\n{'shift' if '$1' in name else ''}\nexec {TOP}/crates/$name/out/$name{ending} \"$@\"\n")
                os.chmod(f"{room}/{script}", 0o755)
            for block in blocks:
                self.run_block(block, room)


def main():
    words = sys.argv[1:]
    if words and words[0] != "--unproved":
        sys.exit(__doc__.split("\n\n")[1])
    tests = Tests([*words[1:]] or programs() if words else [])
    lacking = [it for it in programs() if not os.access(tests.program_of(it), os.X_OK)]
    if lacking:
        print(f"FAILED: {tests.program_of(lacking[0])} is not built\n0 passed, {len(lacking)} failed")
        return 1
    tests.run_pages()
    for crate in programs():
        tests.run_crate(crate)
    print(f"{tests.passed} passed, {tests.failed} failed")
    return 1 if tests.failed or not tests.passed else 0


if __name__ == "__main__":
    sys.exit(main())
