#!/usr/bin/env python3
"""Proves crates with `rt ci`, and builds the programs among them.

usage: bin/prove.py             proves all crates, here; out/ of every crate is made anew
       bin/prove.py NAME ..     proves these crates and those that they use, on a copy; sources may be edited meanwhile

The programs are left as crates/NAME/out/NAME, where `bin/run.sh` and the tests find them. `bin/progress.py` prints each crate
when it is done. The last line is `N passed, M failed`, and the exit status is that of `rt ci`.

`rt ci NAME ..` would do for the second, but some releases of the kit take no names, and those that do leave no program. So
the copy has no other crates, and `rt ci` without names proves all of it. A kit that keeps proofs keeps them by hashes of what
they rest on. So each counts for later runs of `rt ci` here, in other clones too. If CI is `true` in the environment, names
are refused, as by `rt ci`: some crates are not enough for a merge.

With such a kit each library that others use is first proved by a run of its own, when those that it uses are proved. Two such
runs are side by side. A run divides the processors among all that is ready, also tests that a crate has not, and so proves a
library with two of four. A run takes 3 to 20 seconds even if all is kept. So a library that was proved so is noted in a folder
for temporary files, by a hash of its sources and of those below it. It is left to the last run, which proves it if it is not
kept any more.
"""
import concurrent.futures
import os
import shutil
import subprocess
import sys
import tempfile

import progress
import sources


# How many libraries are proved side by side, by runs of their own.
SIDE_BY_SIDE = 2


def copy(crates, to, top=sources.TOP):
    """Copies crates to a folder, as a repository of their own."""
    for name in crates:
        shutil.copytree(f"{top}/crates/{name}", f"{to}/crates/{name}", symlinks=True, ignore=shutil.ignore_patterns("out"))
    shutil.copy(f"{top}/HANDLES", to)
    with open(f"{to}/crates.txt", "w", encoding="utf-8") as it:
        it.writelines(f"{line}\n" for line in crates.values())
    # (rt takes the nearest folder with a .git for the top of the repository)
    os.mkdir(f"{to}/.git")


def start(folder):
    """Starts `rt ci` in a folder."""
    return subprocess.Popen(["rt", "ci"], cwd=folder, stdout=subprocess.PIPE, stderr=subprocess.STDOUT, text=True, errors="replace")


def keeps_proofs():
    """Returns whether the kit keeps proofs for later runs. A kit that does takes names of crates, and its help lists them. If CI
    is `true` it refuses names instead."""
    elsewhere = {name: value for name, value in os.environ.items() if name != "CI"}
    ran = subprocess.run(["rt", "ci", "--help"], env=elsewhere, stdout=subprocess.PIPE, stderr=subprocess.STDOUT, text=True)
    return "names of crates" in ran.stdout


def note_of(name, top):
    """Returns the path of the file that exists if a run of its own proved a library, as its sources are."""
    return f"{tempfile.gettempdir()}/openapi-proved-{os.getuid()}/{sources.sum_of(name, is_proved=True, top=top)}"


class Proof:
    """Proves crates, and yields the lines that `rt ci` prints; then its status is that of the last run."""

    def __init__(self, folder, crates):
        self.folder, self.crates, self.status, self.done = folder, crates, 0, set()
        self.uses = {name: [it for it in line.partition(":")[2].split() if it in crates] for name, line in crates.items()}

    def chain_above(self, name):
        """Returns how many crates the longest chain has of which each uses the next, and the last one this crate."""
        return max((1 + self.chain_above(it) for it, used in self.uses.items() if name in used), default=0)

    def alone(self, name):
        """Proves a library and those that it uses, which are kept. Returns the exit status and the lines to print: those on the
        library, or all after a failure."""
        note = note_of(name, self.folder)
        if os.path.isfile(note):
            return 0, []
        with tempfile.TemporaryDirectory(prefix="prove-") as room:
            folder = f"{room}/repository"
            copy(sources.crates_of([name], self.folder), folder, self.folder)
            with start(folder) as ran:
                lines = [line.replace(folder, sources.TOP) for line in ran.stdout]
        if ran.returncode:
            return ran.returncode, lines
        os.makedirs(os.path.dirname(note), exist_ok=True)
        with open(note, "w"):
            pass
        return 0, [it for it in lines if progress.crate_of(it) == name]

    def libraries(self):
        """Proves the libraries that others use, each by a run of its own, and yields the lines to print. Of those that are ready
        it begins with the one on which the longest chain waits."""
        left = {it for used in self.uses.values() for it in used}
        running = {}
        with concurrent.futures.ThreadPoolExecutor(SIDE_BY_SIDE) as pool:
            while left or running:
                ready = [it for it in left if not {*self.uses[it]} & {*left, *running.values()}]
                ready.sort(key=lambda it: (-self.chain_above(it), it))
                for name in ready[: SIDE_BY_SIDE - len(running)]:
                    left.remove(name)
                    running[pool.submit(self.alone, name)] = name
                for run in concurrent.futures.wait(running, return_when=concurrent.futures.FIRST_COMPLETED).done:
                    name = running.pop(run)
                    self.status, lines = run.result()
                    self.done |= {name} if lines else set()
                    yield from lines
                    if self.status:
                        return

    def lines(self):
        if keeps_proofs():
            yield from self.libraries()
            if self.status:
                return
        with start(self.folder) as ran:
            yield from (line.replace(self.folder, sources.TOP) for line in ran.stdout if progress.crate_of(line) not in self.done)
        self.status = ran.returncode


def main():
    names, began = sys.argv[1:], sources.now()
    if names and os.environ.get("CI") == "true":
        sys.exit("bin/prove.py: before a merge all crates are proved, by ./check --all\n0 passed, 1 failed")
    crates = sources.crates_of(names or sources.lines_of_crates())
    strange = [it for it in names if it not in crates]
    if strange:
        sys.exit(f"bin/prove.py: crates.txt has no crate {strange[0]}\n0 passed, 1 failed")
    programs = [it for it in crates if sources.is_program(it)]
    with tempfile.TemporaryDirectory(prefix="prove-") as room:
        folder = f"{room}/repository" if names else sources.TOP
        if names:
            copy(crates, folder)
        sums = {it: sources.sum_of(it, is_proved=True, top=folder) for it in programs}
        proof = Proof(folder, crates)
        progress.report(proof.lines(), crates)
        for name in programs:
            made, program = f"{folder}/crates/{name}/out/{name}", sources.program_of(name, is_proved=True)
            if os.path.isfile(made) and sources.sum_of(name, is_proved=True, top=folder) == sums[name]:
                if names:
                    os.makedirs(os.path.dirname(program), exist_ok=True)
                    shutil.copy(made, f"{program}.new")
                    os.replace(f"{program}.new", program)
                sources.note(program, sums[name], began)
    return proof.status


if __name__ == "__main__":
    sys.exit(main())
