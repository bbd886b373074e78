#!/usr/bin/env python3
"""Compares the tools of crates/openapi_tools with the same tools on the Rust crate, in tests/tools.

usage: tests/tools.py

Each may take at most twice the lines that it takes in Rust. Lines that are empty, comments, or imports do not count. The output
has a line for each tool, and the last line is `N passed, M failed`; the exit status is 0 only if nothing failed.
"""
import glob
import os
import re
import sys

TOP = os.path.dirname(os.path.dirname(os.path.realpath(__file__)))
IMPORT = re.compile(r"^use [^;]*;\n", re.M)
# (contracts and doc comments begin so too)
NO_CODE = re.compile(r"\s*(//.*)?$")


def lines_of(path):
    """Returns the number of lines of code of a file."""
    with open(path, encoding="utf-8") as it:
        return sum(not NO_CODE.match(line) for line in IMPORT.sub("", it.read()).splitlines())


def main():
    names = {os.path.splitext(os.path.basename(it))[0] for it in glob.glob(f"{TOP}/tests/tools/*.rs")}
    ours = {os.path.splitext(os.path.basename(it))[0] for it in glob.glob(f"{TOP}/crates/openapi_tools/src/*.rt")} - {"lib", "tests"}
    failed = 0
    for name in sorted(names | ours):
        if name not in names or name not in ours:
            print(f"FAILED: {name} is only in {'tests/tools' if name in names else 'crates/openapi_tools'}")
            failed += 1
            continue
        here, there = lines_of(f"{TOP}/crates/openapi_tools/src/{name}.rt"), lines_of(f"{TOP}/tests/tools/{name}.rs")
        print(f"{name}: {here} lines, {there} in Rust")
        if not 0 < here <= 2 * there:
            print(f"FAILED: {name} takes more than twice the lines that it takes in Rust")
            failed += 1
    if not names:
        print("FAILED: there are no tools")
        failed += 1
    print(f"{len(names | ours) - failed} passed, {failed} failed")
    return failed > 0


if __name__ == "__main__":
    sys.exit(main())
