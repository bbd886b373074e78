#!/usr/bin/env python3
"""Checks `bin/prose.py` on small repositories in a temporary folder.

Each text has offences, which have to be refused at their lines, beside what is allowed. The last line is `N passed, M failed`.
"""
import os
import re
import subprocess
import sys
import tempfile

TOP = os.path.dirname(os.path.dirname(os.path.realpath(__file__)))
WELL = {
    "README.md": "# Well\n\nA page.\n",
    "bin/well.py": '"""Does nothing."""\n',
    "crates/well/src/lib.rt": "/// Returns one.\npub fn one() -> u8 {\n    1\n}\n",
    "crates/well/specs/Lib.antt": "pub mod Well\n",
}
FORTY = " ".join(["word"] * 40)
FUNCTIONS = """//! Functions.

/// Reads.
///
/// # Errors
///
/// Returns an error.
pub fn documented(alloc: Global) -> Result<u8> {
    read(alloc)
}

/// Reads.
pub fn errors(alloc: Global) -> Result<u8> {
    read(alloc)
}

/// Reads.
pub fn of_io<F: Fn(u8) -> u8>(
    f: F,
) -> io::Result<()>
    ensures { True }
{
    read(f)
}

/// Maps.
pub fn takes(f: impl Fn(u8) -> Result<u8>) -> Option<Result<u8, AllocError>> {
    f(1)
}

pub fn bare() {}

pub(crate) fn of_crate() {}

fn own() -> Result<u8> {
    Ok(1)
}

impl Thing {
    /// Reads.
    pub fn method(&self) -> Result<u8> {
        read(self)
    }

    pub fn bare(&self) {}

    fn own(&self) {}
}

impl Debug for Thing {
    fn fmt(&self, f: &mut Formatter<'_>) -> fmt::Result {
        Ok(())
    }
}

pub trait Reads {
    /// Reads.
    fn read(&self) -> Result<u8>;

    fn bare(&self);
}

trait Own {
    fn own(&self) -> Result<u8>;
}

/// Visits.
///
/// # Errors
///
/// Returns the error of a method.
pub trait Visits {
    /// Visits one.
    fn one(&self) -> Result<u8>;

    fn two(&self) -> Result<u8>;
}
"""
ERRORS, COMMENT, WORD, LONG = "no `# Errors`", "no doc comment", "the word `{}`", "a sentence of 41 words"
SAYS, TREE = WORD.format("says"), WORD.format("tree")
# For each file its text, and the line and the message of each offence.
TEXTS = {
    "crates/functions/src/lib.rt": (FUNCTIONS, [
        (13, "`errors`"), (13, ERRORS), (18, ERRORS), (31, COMMENT), (41, "`method`"), (41, ERRORS), (45, COMMENT), (58, ERRORS), (60, COMMENT),
        (76, COMMENT),
    ]),
    "crates/openapi_cases/src/lib.rt": (FUNCTIONS, []),
    "crates/example_one/src/inner/main.rt": (FUNCTIONS, []),
    "crates/comments/src/lib.rt": (
        "//! It says so.\n\n/// A `tree` and\n/// a tree.\n/// ```\n/// let tree = 1; // a tree\n/// ```\n/// A tree.\nstruct A;\n\n// A tree.\n"
        'const TREE: &str = "a tree";\n',
        [(1, SAYS), (4, TREE), (8, TREE), (11, TREE)],
    ),
    "crates/comments/specs/Trees.antt": (
        f"-- A `tree`.\n-- A node.\npub tree : Tree\n  -- a tree\n  tree = 1\n-- {FORTY} word\n",
        [(4, TREE)],
    ),
    f"crates/sentences/src/lib.rt": (f"/// One.\n/// {FORTY}\n/// word. Two.\nstruct A;\n\n// {FORTY} word.\nstruct B;\n", [(2, LONG)]),
    "docs/sentences.md": (
        f"# {FORTY}\n{FORTY}. {FORTY}!\n\nOne.\n{FORTY} word\n\n- {FORTY}\n- {FORTY}\n\n| {FORTY} | {FORTY} |\n|---|---|\n| one | {FORTY} word |\n\n"
        f"{FORTY[5:]} `two words`.\n\n```\n{FORTY} word\n```\n\n    {FORTY} word\n",
        [(5, LONG), (12, LONG)],
    ),
    "docs/words.md": (
        "It says `it says` so,\nand tells. A [tree](a.md), a `tree\ntree` and a\n\n    tree\n\n```text\na tree\n```\n\n| tree | `tree` |\n",
        [(1, SAYS), (2, WORD.format("tells")), (2, TREE), (11, TREE)],
    ),
    "docs/harmless.md": (
        "I understand a lookup that was edited, an outstanding essay, a streetcar, a standard and a task. See mutations/all.txt,\n"
        "tests/mutations.py and tree.rt. It looked, gives it, and uploads. Two of a hundreds.\n",
        [],
    ),
    "docs/phrases.md": (
        "It lets\ngo of it.\nIt was given up.\nFor want of memory.\nIt ran out of memory.\nIt stands.\nI ask.\nIt looks.\nA look.\n"
        "Dearer.\nAt once.\nFrom then on.\nAs soon\nas that.\nIn turn.\nOne of a hundred.\nAn edit.\nOne of two trees.\nIt was said.\n",
        [(1, WORD.format("lets go of")), (3, WORD.format("given up")), (4, WORD.format("want of memory")), (5, WORD.format("ran out of memory")),
         (6, WORD.format("stands")), (7, WORD.format("ask")), (8, WORD.format("looks")), (9, WORD.format("A look")), (10, WORD.format("Dearer")),
         (11, WORD.format("At once")), (12, WORD.format("From then on")), (13, WORD.format("As soon as")), (15, WORD.format("In turn")),
         (16, WORD.format("of a hundred")), (17, WORD.format("edit")), (18, WORD.format("trees")), (19, WORD.format("said"))],
    ),
    "docs/api/item.md": ("An item that says it.\n", [(1, SAYS)]),
    "CHANGELOG.md": ("- It says more.\n", [(1, SAYS)]),
    "check": ('#!/usr/bin/env python3\n"""Checks.\n\nIt says so.\n"""\nsaid = "it says # a tree"  # as a tree\n', [(4, SAYS), (6, TREE)]),
    "tests/script.py": ('class A:\n    """One.\n\n    A tree.\n    """\n\n    def f(self):\n        """A tree."""\n        return "a tree"\n', [(4, TREE), (8, TREE)]),
    "bench/script.sh": ("# it says # a tree\ncat says${#tree} # a tree\n# `says`\necho says\n", [(1, SAYS), (1, TREE), (2, TREE)]),
    "tests/script.c": ('/* One\n * tree. */\nchar *says = "tree"; /* says */\n', [(2, TREE), (3, SAYS)]),
}


def write(top, texts):
    for name, text in texts.items():
        os.makedirs(os.path.dirname(f"{top}/{name}"), exist_ok=True)
        with open(f"{top}/{name}", "w", encoding="utf-8") as it:
            it.write(text)


def prose(top):
    """Returns the exit status of `bin/prose.py` on a repository, and the lines that it prints."""
    ran = subprocess.run([f"{TOP}/bin/prose.py", top], stdout=subprocess.PIPE, stderr=subprocess.STDOUT, text=True)
    return ran.returncode, ran.stdout.splitlines()


def git(top, *words):
    who = ["-c", "user.name=A", "-c", "user.email=a@example.com", "-c", "init.defaultBranch=main"]
    subprocess.run(["git", *who, "-C", top, *words], check=True, capture_output=True)


def commit(top, subject):
    git(top, "commit", "--allow-empty", "-m", subject)


class Checks:
    """Counts what holds and what does not."""

    def __init__(self):
        self.passed = self.failed = 0

    def add(self, what, holds):
        self.passed, self.failed = self.passed + bool(holds), self.failed + (not holds)
        if not holds:
            print(f"FAILED: {what}")


def check_texts(room, checks):
    """Checks each text, beside two files without an offence."""
    write(room, WELL)
    status, lines = prose(room)
    checks.add(f"a repository without an offence passes: {lines}", status == 0 and lines[-1] == "5 passed, 0 failed")
    write(room, {name: text for name, (text, _) in TEXTS.items()})
    status, lines = prose(room)
    found = {name: [] for name in [*TEXTS, *WELL]}
    for it in filter(None, (re.fullmatch(r"FAILED: (.+?):(\d+): (.*)", line) for line in lines)):
        found[it[1]].append((int(it[2]), it[3]))
    for name, offences in found.items():
        wanted = TEXTS.get(name, ("", []))[1]
        for number, message in wanted:
            checks.add(f"{name}:{number} is refused for {message}: {offences}", any(number == at and message in what for at, what in offences))
        more = [it for it in offences if not any(it[0] == number and message in it[1] for number, message in wanted)]
        checks.add(f"{name} has no other offence: {more}", not more)
    many = sum(map(len, found.values()))
    checks.add(f"offences fail: {lines[-1]}", status == 1 and lines[-1].endswith(f" passed, {many} failed"))


def check_nothing(room, checks):
    """Checks that a repository in which there is nothing to check fails."""
    status, lines = prose(room)
    missing = ("source", "definition", "page", "script", "public function")
    checks.add(f"an empty folder fails: {lines}", status == 1 and lines[-1] == "0 passed, 5 failed" and all(f"has no {it} to" in str(lines) for it in missing))
    write(room, WELL | {"crates/well/src/lib.rt": "fn one() {}\n"})
    status, lines = prose(room)
    checks.add(f"no public function fails: {lines}", status == 1 and lines[-1] == "4 passed, 1 failed")


def check_commits(room, checks):
    """Checks the subjects of commits: those since the last tag, if the clone has them."""
    write(room, WELL)
    is_skipped = lambda top: (it := prose(top)) and it[0] == 0 and any(line.startswith("skipped: the subjects") for line in it[1])
    checks.add("without a repository, commits are skipped", is_skipped(room))
    git(room, "init")
    git(room, "add", ".")
    commit(room, "a" * 71)
    checks.add("without a tag and the first commit, they are skipped", is_skipped(room))
    git(room, "tag", "v1")
    git(room, "checkout", "-b", "other")
    commit(room, "b" * 70)
    git(room, "checkout", "main")
    git(room, "merge", "--no-ff", "-m", "m" * 71, "other")
    status, lines = prose(room)
    checks.add(f"those before the tag and merges are left out: {lines}", status == 0 and lines[-1] == "6 passed, 0 failed")
    commit(room, "c" * 71)
    commit(room, "d")
    status, lines = prose(room)
    checks.add(f"a long subject fails: {lines}", status == 1 and lines[-1] == "7 passed, 1 failed" and "a subject of 71 characters" in lines[0])
    git(room, "clone", "--depth", "1", f"file://{room}", f"{room}/shallow")
    checks.add("in a shallow clone, they are skipped", is_skipped(f"{room}/shallow"))


def main():
    checks = Checks()
    for part in (check_texts, check_nothing, check_commits):
        with tempfile.TemporaryDirectory(prefix="test-prose-") as room:
            part(room, checks)
    ran = subprocess.run([f"{TOP}/bin/prose.py", "--all"], capture_output=True, text=True)
    checks.add("wrong arguments print the usage", ran.returncode == 2 and ran.stderr.startswith("usage: bin/prose.py"))
    print(f"{checks.passed} passed, {checks.failed} failed")
    return 1 if checks.failed else 0


if __name__ == "__main__":
    sys.exit(main())
