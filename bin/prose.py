#!/usr/bin/env python3
"""Checks the texts of a repository: doc comments, comments, pages and the subjects of commits.

usage: bin/prose.py [REPOSITORY]      (this one by default)

It refuses:
- a public function of a library or a program without a doc comment, or without `# Errors` if it returns a `Result`. A trait may
  have `# Errors` for all its methods. Functions in impls of traits are left out.
- a word of WORDS in a page, in a comment of a source, a definition or a proof, or in a comment or docstring of a script.
- a sentence of more than 40 words in a page or in a doc comment. Each cell of a table is by itself.
- a commit whose subject has more than 70 characters, since the last tag, or since FIRST if there is no tag. Merges are left
  out. A clone without these commits skips this check, and prints that it does.

Code in backticks counts as one word, and blocks of code as none. A failure is a line `FAILED: FILE:LINE: what`. The last line
is `N passed, M failed`: functions, files and commits without an offence, and offences.
"""
import glob
import os
import re
import subprocess
import sys

import api
import texts

LONGEST_SENTENCE, LONGEST_SUBJECT = 40, 70
# The commit after which the rule for subjects holds, as long as no release has a tag.
FIRST = "bc32d45c6526bddbd3373e5e73f0490b78950d27"
# The files that are checked.
FILES = {
    "source": ("crates/*/src/**/*.rt",),
    "definition": ("crates/*/specs/**/*.antt", "crates/*/proofs/**/*.antt"),
    "page": ("README.md", "CHANGELOG.md", "docs/*.md", "docs/api/*.md"),
    "script": ("check", *(f"{folder}/*.{kind}" for folder in ("bin", "tests", "bench") for kind in ("py", "sh", "c"))),
}
# The crates whose public functions only tests and examples call.
OF_TESTS = re.compile(r"openapi_(cases|vectors|test_support|tools)|example_\w+")
# What is not written here, and what is written instead.
WORDS = {
    "let(s|ting)? go of": "drop",
    "(give|gives|given|giving|gave) up": "pass by value, stop",
    "want of memory|(ran|runs?) out of memory|memory (ran|runs?) out": "allocation failure, out of memory",
    "stands?|stood|standing": "be, exist, replace, mean",
    "tells?|told|telling|says?|said|saying|asks?|asked|asking": "print, report, return, state, check",
    "looks|a look": "node access, lookup, seems",
    "trees?": "JSON value, node",
    "dear(er|est)?": "expensive",
    "at once": "immediately",
    "from then on": "afterwards",
    "as soon as": "when",
    "in turn": "one after another",
    "of a hundred": "%",
    "edits?": "mutation, change",
}
# (no part of another word, of a path or of a name of a file)
REFUSED = {re.compile(r"(?<![\w/])(" + it.replace(" ", r"\s+") + r")(?!\w|/|\.\w)", re.I): instead for it, instead in WORDS.items()}
ENDS = re.compile(r"[.!?][)\"'*_\]]*(?=\s|$)")


def refused_words(text):
    """Yields where a text has a word of WORDS, and what is wrong."""
    for pattern, instead in REFUSED.items():
        for it in pattern.finditer(text):
            yield it.start(), f"the word `{' '.join(it[0].split())}`; write one of these instead: {instead}"


def long_sentences(text):
    """Yields where a sentence of a text begins that is too long, and what is wrong."""
    begins = 0
    for ends in [*(it.end() for it in ENDS.finditer(text)), len(text)]:
        sentence = text[begins:ends].lstrip()
        many = sum(bool(re.search(r"\w", it)) for it in sentence.split())
        if many > LONGEST_SENTENCE:
            yield ends - len(sentence), f"a sentence of {many} words; at most {LONGEST_SENTENCE} are allowed"
        begins = ends


def offences(groups, *checks):
    """Yields the line and the kind of each offence that these checks find in groups of lines."""
    for number, text in (it for lines in groups for it in texts.paragraphs(lines)):
        for at, what in (it for check in checks for it in check(text)):
            yield number + text[:at].count("\n"), what


def returns_result(function):
    """Returns whether a function returns a `Result`, by its signature without what is in brackets."""
    head, before = " ".join(function.signature()).replace("->", "→").partition(" where ")[0], None
    while head != before:
        head, before = re.sub(r"\([^()]*\)|<[^<>]*>", "", head), head
    return re.search(r"→ *(\w+::)*Result\b", head)


def functions(lines):
    """Yields the public functions of a source, each with the number of its first line and the lines that document its errors."""
    ends = 0
    for item in api.items_of(lines):
        at = lines.index(item.code[0], ends) + 1
        ends = at + len(item.code) - 1
        if item.kind == "fn" and item.is_public:
            yield at, item, item.docs
        if item.kind == "trait" and item.is_public or item.kind == "impl" and " for " not in item.code[0]:
            for part in item.parts():
                at = lines.index(part.code[0], at) + 1
                if part.kind == "fn" and (part.is_public or item.kind == "trait"):
                    yield at, part, part.docs + (item.docs if item.kind == "trait" else [])


def undocumented(function, lines):
    """Returns what the doc comment of a public function lacks, or None. These lines document its errors."""
    if not function.docs:
        return f"`{function.name}` is public and has no doc comment"
    if returns_result(function) and "# Errors" not in map(str.strip, lines):
        return f"`{function.name}` returns a `Result`, and its doc comment has no `# Errors`"
    return None


def subjects(top):
    """Returns lines of the hash and the subject of each commit since the last release, or None if this clone lacks some."""
    git = lambda *words: subprocess.run(["git", "-C", top, *words], capture_output=True, text=True, errors="replace")
    try:
        if not os.path.exists(f"{top}/.git") or git("rev-parse", "--is-shallow-repository").stdout.strip() != "false":
            return None
        since = git("describe", "--tags", "--abbrev=0").stdout.strip() or FIRST
        ran = git("log", "--no-merges", "--format=%h %s", f"{since}..HEAD")
    except OSError:
        return None
    return ran.stdout.splitlines() if ran.returncode == 0 else None


class Report:
    """Prints each failure, and counts what passed and failed."""

    def __init__(self):
        self.passed = self.failed = 0

    def add(self, name, found):
        """Counts one function, file or commit with the lines and kinds of the offences in it."""
        for number, what in sorted(found):
            self.fail(f"{name}:{number}: {what}")
        self.passed += not found

    def fail(self, what):
        print(f"FAILED: {what}")
        self.failed += 1


def check_files(top, report):
    """Checks all pages, sources and scripts of a repository."""
    many = 0
    for kind, patterns in FILES.items():
        paths = sorted(it for pattern in patterns for it in glob.glob(f"{top}/{pattern}", recursive=True))
        if not paths:
            report.fail(f"{top} has no {kind} to check")
        for path in paths:
            name = os.path.relpath(path, top)
            with open(path, encoding="utf-8") as it:
                text = it.read()
            if kind == "source" and not OF_TESTS.fullmatch(name.split("/")[1]):
                found = [*functions(text.split("\n"))]
                many += len(found)
                for number, function, lines in found:
                    what = undocumented(function, lines)
                    report.add(name, [(number, what)] if what else [])
            measured, others = ([texts.numbered(text)], []) if kind == "page" else texts.comments(path, text)
            report.add(name, {*offences(measured, refused_words, long_sentences), *offences(others, refused_words)})
    if not many:
        report.fail(f"{top} has no public function to check")


def check_commits(top, report):
    lines = subjects(top)
    if lines is None:
        print("skipped: the subjects of commits, since this is no clone with all commits since the last release")
    for commit, _, subject in (line.partition(" ") for line in lines or ()):
        if len(subject) <= LONGEST_SUBJECT:
            report.passed += 1
        else:
            report.fail(f"commit {commit}: a subject of {len(subject)} characters; at most {LONGEST_SUBJECT} are allowed")


def main():
    if len(sys.argv) > 2 or sys.argv[1:] and sys.argv[1].startswith("-"):
        print(__doc__.split("\n\n")[1], file=sys.stderr)
        return 2
    top, report = os.path.realpath(sys.argv[1] if sys.argv[1:] else api.TOP), Report()
    check_files(top, report)
    check_commits(top, report)
    print(f"{report.passed} passed, {report.failed} failed")
    return 1 if report.failed else 0


if __name__ == "__main__":
    sys.exit(main())
