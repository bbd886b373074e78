#!/usr/bin/env python3
"""Checks that every file of every crate has the layout of `rt fmt`, and that each source, definition and proof is in the folder of
a crate where the prover reads it. The last line is `N passed, M failed`."""
import os
import re
import subprocess
import sys

TOP = os.path.dirname(os.path.dirname(os.path.realpath(__file__)))
READ = re.compile(r"crates/(\w+)/(?:src/.*\.rt|(?:specs|proofs)/.*\.antt)")


def files():
    """Yields the path of each source, definition and proof of the repository."""
    for at, folders, names in os.walk(TOP):
        folders[:] = sorted(it for it in folders if it not in (".git", "out"))
        yield from (os.path.relpath(f"{at}/{it}", TOP) for it in sorted(names) if it.endswith((".rt", ".antt")))


def main():
    kit = subprocess.run(["rt", "doc"], capture_output=True, text=True, check=True).stdout.split()[0]
    with open(f"{TOP}/crates.txt") as it:
        crates = {line.partition(":")[0].split()[0]: [] for line in it if ":" in line.partition("#")[0]}
    passed = failed = 0
    for path in files():
        found = READ.fullmatch(path)
        if found and found[1] in crates:
            crates[found[1]].append(path)
        else:
            failed += 1
            print(f"FAILED: no check reads {path}")
    for name, paths in crates.items():
        ran = subprocess.run([f"{os.path.dirname(kit)}/bin/rattle", "fmt", "--check", *paths], cwd=TOP, capture_output=True, text=True)
        if ran.returncode:
            failed += 1
            print(f"FAILED: {name} does not have the layout of rt fmt: {ran.stderr.strip()[:200]}")
        else:
            passed += 1
    print(f"{passed} passed, {failed} failed")
    return 1 if failed else 0


if __name__ == "__main__":
    sys.exit(main())
