#!/usr/bin/env python3
"""The crates of this repository: what each uses, and whether a program was built from the sources as they are.

usage: bin/sources.py PROGRAM      (crates/NAME/out/NAME or crates/NAME/out/NAME.unproved)

Exits with 0 if the program was built from the sources as they are, and with 1 otherwise.

Beside each program that `bin/prove.py` or `bin/unproved.py` builds is a file PROGRAM.sum: a hash of what the program is
built from, and the path of the kit's `rt`. The time of that file is from before the hash was computed. So while no source
has changed since, the program is current, and `bin/run.sh` compares times alone. If a source is newer the hash decides, and
an equal hash renews the time. A program that is newer than its PROGRAM.sum was built by something else, and the hash is not
about it.
"""
import hashlib
import os
import shutil
import subprocess
import sys
import tempfile
import time

TOP = os.path.dirname(os.path.dirname(os.path.realpath(__file__)))
PARTS = ("src", "specs", "proofs")
UNPROVED = ".unproved"


def lines_of_crates(top=TOP):
    """Returns the lines of crates.txt without comments, by crate."""
    with open(f"{top}/crates.txt", encoding="utf-8") as it:
        lines = (line.partition("#")[0].strip() for line in it)
        return {line.partition(":")[0].split()[0]: line for line in lines if ":" in line}


def crates_of(names, top=TOP):
    """Returns these crates and the crates of the repository that they use, each with its line of crates.txt, in its order."""
    lines, found, left = lines_of_crates(top), set(), [*names]
    while left:
        name = left.pop()
        if name in lines and name not in found:
            found.add(name)
            left += lines[name].partition(":")[2].split()
    return {name: line for name, line in lines.items() if name in found}


def is_program(name, top=TOP):
    return os.path.isfile(f"{top}/crates/{name}/src/main.rt")


def program_of(name, is_proved, top=TOP):
    """Returns the path of the program of a crate, as built with proof or without."""
    return f"{top}/crates/{name}/out/{name}{'' if is_proved else UNPROVED}"


def files_of(name, parts=PARTS, top=TOP):
    """Returns the files of a crate in these of its folders."""
    return sorted(f"{at}/{it}" for part in parts for at, _, names in os.walk(f"{top}/crates/{name}/{part}") for it in names)


def sum_of(name, is_proved, top=TOP):
    """Returns a hash of what the program of a crate is built from: the kit, the crates with their lines of crates.txt, and
    their sources; with proof, their definitions and proofs too."""
    kit = subprocess.run(["rt", "version"], capture_output=True, text=True, check=True).stdout
    crates = crates_of([name], top)
    found = hashlib.sha256(repr((kit, sorted(crates.items()))).encode())
    for crate in sorted(crates):
        for file in files_of(crate, PARTS if is_proved else PARTS[:1], top):
            with open(file, "rb") as it:
                found.update(repr((os.path.relpath(file, top), it.read())).encode())
    return found.hexdigest()


def now():
    """Returns a time in nanoseconds. Whatever changes a file afterwards gives it a later time, though clocks of file systems
    tick slowly."""
    return time.time_ns() - 20_000_000


def note(program, sum, began):
    """Notes that a program was built from sources of that hash, which were read after that time."""
    os.utime(program, ns=(began, began))
    write_sum(program, sum, began)


def write_sum(program, sum, began):
    # (several may write it at the same moment)
    file, name = tempfile.mkstemp(prefix=f"{os.path.basename(program)}.sum.", dir=os.path.dirname(program))
    with open(file, "w") as it:
        it.write(f"{sum}\n{os.path.realpath(shutil.which('rt'))}\n")
    os.utime(name, ns=(began, began))
    os.replace(name, f"{program}.sum")


def is_current(program, top=TOP):
    """Returns whether a program was built from the sources as they are, by its hash. If so, renews the time of its PROGRAM.sum."""
    name, began, file = os.path.basename(program), now(), f"{program}.sum"
    try:
        with open(file) as it:
            sum = it.readline().strip()
        if not os.access(program, os.X_OK) or os.stat(program).st_mtime_ns > os.stat(file).st_mtime_ns:
            return False
    except FileNotFoundError:
        return False
    if sum != sum_of(name.removesuffix(UNPROVED), not name.endswith(UNPROVED), top):
        return False
    write_sum(program, sum, began)
    return True


if __name__ == "__main__":
    if len(sys.argv) != 2:
        sys.exit(__doc__.split("\n\n")[1])
    sys.exit(not is_current(sys.argv[1]))
