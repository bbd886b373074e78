#!/usr/bin/env python3
"""Checks that what the README and docs/COMMANDS.md show in Rattle is what `./check` compiles and runs, word for word. Each piece of
code is in a source of the examples, or is all of crates/openapi_vectors/src/readme.rt but the lines that begin with `//!`. The
README has to show the latter. Code in a block that is not found is a failure.

The same holds for the blocks of code in doc comments of the sources: each is in crates/openapi_vectors/src/doc_examples.rt, which
may indent it further. There has to be at least one.

The last line is `N passed, M failed`.
"""
import glob
import os
import re
import sys
import textwrap

TOP = os.path.dirname(os.path.dirname(os.path.realpath(__file__)))
# The pages whose code is compared; docs/USING.md has a program of its own, which `tests/using.py` runs.
PAGES = ("README.md", "docs/COMMANDS.md")
CODE = re.compile(r"^```rust\n(.*?)^```$", re.M | re.S)
# What begins a block of code in Rattle, however it is written.
FENCE = re.compile(r"^[ \t>]*(?:`{3,}|~{3,})[ \t]*(?:rust|rs|rattle|rt)\b", re.M | re.I)
# The lines of a doc comment, and what begins or ends any block in it.
COMMENT = re.compile(r"^[ \t]*//[/!] ?(.*)$")
ANY_FENCE = re.compile(r"^[ \t]*(?:`{3,}|~{3,})", re.M)


def text_of(path):
    with open(path) as it:
        return it.read()


def comments_of(text):
    """Yields the text of each doc comment of a source."""
    lines = []
    for line in [*text.split("\n"), ""]:
        found = COMMENT.match(line)
        if found:
            lines.append(found[1])
        elif lines:
            yield "\n".join(lines) + "\n"
            lines = []


def holds(lines, code):
    """Returns whether lines that follow one another are some code, however far they are indented."""
    count = len(code.rstrip("\n").split("\n"))
    return any(textwrap.dedent("\n".join(lines[i:i + count])) + "\n" == code for i in range(len(lines) - count + 1))


def compare_comments():
    """Compares the code in doc comments. Returns how many blocks are the same, and how many failures there are."""
    tested = text_of(f"{TOP}/crates/openapi_vectors/src/doc_examples.rt").split("\n")
    passed = failed = 0
    for path in sorted(glob.glob(f"{TOP}/crates/*/src/**/*.rt", recursive=True)):
        name = os.path.relpath(path, TOP)
        for comment in comments_of(text_of(path)):
            shown = CODE.findall(comment)
            for code in shown:
                if holds(tested, code):
                    passed += 1
                else:
                    failed += 1
                    print(f"FAILED: {name} shows code that doc_examples.rt does not test:\n{code}")
            if len(ANY_FENCE.findall(comment)) != 2 * len(shown):
                failed += 1
                print(f"FAILED: {name} has a block in a doc comment that does not begin with ```rust")
    if not passed:
        failed += 1
        print("FAILED: no doc comment shows code that is tested")
    return passed, failed


def main():
    whole = re.sub(r"^//!.*\n+", "", text_of(f"{TOP}/crates/openapi_vectors/src/readme.rt"), flags=re.M)
    examples = [text_of(it) for it in glob.glob(f"{TOP}/crates/example_*/src/*.rt")]
    passed, failed = compare_comments()
    for page in PAGES:
        text = text_of(f"{TOP}/{page}")
        shown = CODE.findall(text)
        for code in shown:
            if code == whole or any(f"\n{code}\n" in it for it in examples):
                passed += 1
            else:
                failed += 1
                print(f"FAILED: {page} shows code that is in no source:\n{code}")
        lost = len(FENCE.findall(text)) - len(shown)
        if lost:
            failed += 1
            print(f"FAILED: {page} has {lost} blocks of code that are not compared")
        if page == "README.md" and whole not in shown:
            failed += 1
            print("FAILED: the README does not show crates/openapi_vectors/src/readme.rt")
    print(f"{passed} passed, {failed} failed")
    return 1 if failed else 0


if __name__ == "__main__":
    sys.exit(main())
