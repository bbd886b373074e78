"""Prints each crate when it is done, from the output of `rt ci`.

For each crate that is proved, or kept from an earlier run, it prints a line with the seconds since the crate before, how many
of how many crates are done, and an estimate of what is left, by the lines of the others. On a terminal each such line
replaces the one before. For a crate that is not proved it prints all that `rt ci` did. At the end it prints what `rt ci`
reports on failures and on the whole run.
"""
import re
import sys
import time

import sources

DONE = re.compile(r"rt: (\w+) (proved|NOT PROVED|is kept: .*)$")
TESTS = re.compile(r"rt: (\w+): its tests are (proved|NOT PROVED)$")
# Lines on a crate that report no failure.
IS_WELL = re.compile(r": proved$|^statements ")
# The lines after the proofs, on `must-fail edits`, tests, programs and the whole run; and those of them that report no failure.
IS_SAID = re.compile(r"rt: |test .* \.\.\. FAILED|\d+ passed")
VERDICT = re.compile(r"\d+ passed, \d+ failed")
PASSED = re.compile(r"refused, as it must be|trying its must-fail edits|must-fail edits were tried by|waiting for it$|ran.*, and wrote what")


def crate_of(line):
    """Returns the crate that a line reports as proved or kept, or None."""
    done = DONE.match(line.rstrip())
    return done and done[2] != "NOT PROVED" and done[1] or None


def lines_of(crate):
    """Returns the number of lines of a crate, and one."""
    number = 1
    for file in sources.files_of(crate):
        with open(file, "rb") as it:
            number += it.read().count(b"\n")
    return number


class Progress:
    def __init__(self, names):
        self.sizes = {it: lines_of(it) for it in names}
        self.left = dict(self.sizes)
        self.began = self.last = time.time()
        self.proved = 0
        self.is_terminal = sys.stdout.isatty()

    def say(self, text):
        print(f"\r\033[K{text}" if self.is_terminal else text, flush=True)

    def tell(self, name, how):
        now, took = time.time(), time.time() - self.last
        size = self.left.pop(name, 0)
        is_new = how == "proved"
        self.last, self.proved = now, self.proved + is_new * size
        done, all_of = len(self.sizes) - len(self.left), len(self.sizes)
        rest = sum(self.left.values()) * (now - self.began) / self.proved if self.proved else None
        left = "" if rest is None else f", some {rest:.0f} s are left"
        line = f"{name} {'proved' if is_new else 'kept'} after {took:.0f} s ({done} of {all_of}{left})"
        if self.is_terminal:
            print(f"\r\033[K{line}", end="", flush=True)
        else:
            print(line, flush=True)


def report(lines, names):
    """Prints the progress of a run of `rt ci` that prints these lines and proves these crates. If it ends without a verdict,
    prints all that it did beside the crates."""
    progress, block, rest = Progress(names), [], []
    for line in map(str.rstrip, lines):
        done = DONE.match(line)
        tests = TESTS.match(line)
        if line.startswith("== "):
            block = [line]
        elif done and done[2] == "NOT PROVED" or tests and tests[2] == "NOT PROVED":
            progress.say("\n".join([*(it for it in block if not IS_WELL.search(it)), line]))
            block = []
        elif done:
            progress.tell(done[1], "proved" if done[2] == "proved" else "kept")
            block = []
        elif tests:
            block = []
        elif block:
            block.append(line)
        else:
            rest.append(line)
    ending = [it for it in rest if IS_SAID.match(it) and not PASSED.search(it)]
    for line in ending if any(map(VERDICT.match, ending)) else rest:
        progress.say(line)
