#!/usr/bin/env python3
"""Checks that another repository can use the libraries of this one as `docs/USING.md` states.

It makes one in a temporary folder, with this repository as it is in `vendor/`. There it runs `bin/add_to.py` and the program of
that page, by `rt try` and as `bin/unproved.py` builds it. Of each row of the page's table of refused code it checks that
`rt check` refuses such code, and accepts what is written instead.

The last line is `N passed, M failed`.
"""
import os
import re
import shutil
import subprocess
import sys
import tempfile

TOP = os.path.dirname(os.path.dirname(os.path.realpath(__file__)))
# For each row of the table of refused code, by its first words, a program that `rt check` refuses with this word, and what is replaced
# by what to write instead.
PROGRAM = """//! Counts trees.
#![tactic(auto)]

#[derive(Drop)]
struct Tree {
    items: Vec<Tree>,
}

fn count(tree: &Tree) -> usize {
    count_all(&tree.items)
}

fn count_all(items: &Vec<Tree>) -> usize {
    let mut found: usize = 1;
    for it in items.iter() {
        found = found.wrapping_add(count(it));
    }
    found
}

fn main(rt: HostRuntime) -> std::io::Result<()> {
    println!(rt; "{}", count(&Tree { items: Vec::new(rt.alloc()) }))
}
"""
CYCLE = PROGRAM.replace("\nfn count", "\n#[cycle(count)]\nfn count")
REFUSED = {
    "two names that differ in case alone": ("reserved-name", CYCLE.replace("Tree", "Count"), ("Count", "Tree")),
    "functions that call one another without": ("unnamed-cycle", PROGRAM, ("\nfn count", "\n#[cycle(count)]\nfn count")),
}
LIBRARIES = {"openapiv3", "openapi_faults", "openapi_findings", "openapi_map", "openapi_json", "openapi_documents"}
OTHERS = {"openapi", "openapi_clean", "openapi_cases", "openapi_text", "example_linter"}


def blocks(kind):
    """Returns the blocks of a kind that the page has."""
    with open(f"{TOP}/docs/USING.md", encoding="utf-8") as it:
        return re.findall(rf"^```{kind}\n(.*?)^```$", it.read(), re.M | re.S)


def copy_to(folder):
    """Copies the files of this repository to a folder, with the file `.git` that a submodule has."""
    listed = subprocess.run(["git", "ls-files", "-z", "--cached", "--others", "--exclude-standard"], cwd=TOP, capture_output=True, check=True)
    for name in filter(None, listed.stdout.decode().split("\0")):
        if os.path.isfile(f"{TOP}/{name}"):
            os.makedirs(os.path.dirname(f"{folder}/{name}"), exist_ok=True)
            shutil.copy(f"{TOP}/{name}", f"{folder}/{name}")
    with open(f"{folder}/.git", "w") as it:
        it.write("gitdir: ../../.git/modules/vendor/openapiv3\n")


def rows():
    """Returns the first cell of each row of the table of refused code."""
    with open(f"{TOP}/docs/USING.md", encoding="utf-8") as it:
        table = it.read().partition("| Refused | Write instead |\n|---|---|\n")[2]
    return re.findall(r"^\| ([^|]*) \|", table, re.M)


def run(command, program):
    """Runs a command of `rt` on a program that uses no libraries, and returns its exit status and its output."""
    with tempfile.TemporaryDirectory(prefix="using-") as top:
        os.makedirs(f"{top}/crates/program/src")
        os.mkdir(f"{top}/.git")
        for name, text in {"crates.txt": "program:\n", "HANDLES": "Handles allowed: none.\n", "crates/program/src/main.rt": program}.items():
            with open(f"{top}/{name}", "w", encoding="utf-8") as it:
                it.write(text)
        how = {"stdin": subprocess.DEVNULL, "stdout": subprocess.PIPE, "stderr": subprocess.STDOUT, "text": True}
        ran = subprocess.run(["rt", command], cwd=f"{top}/crates/program", **how)
        return ran.returncode, ran.stdout


def refused_code(check):
    """Checks that each row of the table of refused code is true."""
    check("the table of refused code has the rows that are checked", len(rows()) == len(REFUSED))
    for row, (word, program, instead) in REFUSED.items():
        check(f"the page has the row: {row}", any(it.startswith(row) for it in rows()))
        check(f"rt try runs it: {row}", run("try", program)[0] == 0)
        status, said = run("check", program)
        check(f"rt check refuses it: {row}: {said}", status and f"error[{word}]" in said)
        check(f"rt check accepts what is written instead: {row}", run("check", program.replace(*instead))[0] == 0)


def state_of(top):
    """Returns the links of a repository with their targets, and the lines of its crates.txt."""
    links = {it.name: os.readlink(it.path) if it.is_symlink() else "" for it in os.scandir(f"{top}/crates")}
    with open(f"{top}/crates.txt", encoding="utf-8") as it:
        return links, it.read().splitlines()


def main():
    passed = failed = 0

    def check(what, holds):
        nonlocal passed, failed
        passed, failed = passed + bool(holds), failed + (not holds)
        if not holds:
            print(f"FAILED: {what}")

    def add(*words):
        return subprocess.run(["vendor/openapiv3/bin/add_to.py", *words], cwd=top, stdin=subprocess.DEVNULL, capture_output=True, text=True)

    refused_code(check)
    with tempfile.TemporaryDirectory(prefix="using-") as top:
        os.mkdir(f"{top}/.git")
        copy_to(f"{top}/vendor/openapiv3")
        with open(f"{top}/crates.txt", "w", encoding="utf-8") as it:
            it.write("# ours\n")
        ran = add(".")
        links, lines = state_of(top)
        check(f"the script ends well: {ran.stderr}", ran.returncode == 0 and not ran.stderr)
        check("it links libraries and no others", LIBRARIES <= {*links} and not OTHERS & {*links})
        check("the links are relative", all(to == f"../vendor/openapiv3/crates/{it}" for it, to in links.items()))
        check("each has its line", {it.partition(":")[0] for it in lines[1:]} == {*links} and lines[0] == "# ours")
        told = {f"link crates/{it}" for it in links} | {f"crates.txt: {it}" for it in links}
        check("it prints what it does", {*ran.stdout.splitlines()} == told)
        ran = add(".")
        check("it does nothing again", ran.returncode == 0 and not ran.stdout and not ran.stderr and state_of(top) == (links, lines))

        os.remove(f"{top}/crates/openapi_map")
        with open(f"{top}/crates.txt", "w", encoding="utf-8") as it:
            it.writelines(f"{'openapi_node: old' if line.startswith('openapi_node:') else line}\n" for line in lines)
        ran = add(".")
        check("it brings links and lines up to date", ran.stdout == "crates.txt: openapi_node\nlink crates/openapi_map\n" and state_of(top) == (links, lines))
        os.symlink("../vendor/openapiv3/crates/openapi_gone", f"{top}/crates/openapi_gone")
        with open(f"{top}/crates.txt", "a", encoding="utf-8") as it:
            it.write("openapi_gone: openapi_map\n")
        ran = add(".")
        gone = "crates.txt: without openapi_gone\nremove link crates/openapi_gone\n"
        check("it removes a library that is gone", ran.stdout == gone and state_of(top) == (links, lines))

        source, [line] = blocks("rust")[0], blocks("text")
        os.makedirs(f"{top}/crates/undescribed/src")
        with open(f"{top}/crates/undescribed/src/main.rt", "w", encoding="utf-8") as it:
            it.write(source)
        with open(f"{top}/crates.txt", "a", encoding="utf-8") as it:
            it.write(line)
        said = blocks("console")[1].partition("petstore.json\n")[2]
        with open(f"{TOP}/examples/petstore.json", "rb") as given:
            ran = subprocess.run(["rt", "try"], cwd=f"{top}/crates/undescribed", stdin=given, capture_output=True, text=True)
        check(f"the program of the page prints what the page shows: {ran.stdout}{ran.stderr}", said and ran.returncode == 0 and ran.stdout.startswith(said))
        built = subprocess.run(["vendor/openapiv3/bin/unproved.py", "--in", ".", "undescribed", "0"], cwd=top, capture_output=True, text=True)
        with open(f"{TOP}/examples/petstore.json", "rb") as given:
            ran = subprocess.run("crates/undescribed/out/undescribed.unproved", cwd=top, stdin=given, capture_output=True, text=True)
        says = "".join(blocks("console")[2].partition("petstore.json\n")[2:])
        check(f"it is built without proof: {built.stderr}", says == said and (ran.returncode, ran.stdout, ran.stderr) == (0, said, ""))

        os.remove(f"{top}/crates/openapi_map")
        os.mkdir(f"{top}/crates/openapi_map")
        before = state_of(top)
        ran = add(".")
        wanted = "error: crates/openapi_map is not a link to ../vendor/openapiv3/crates/openapi_map\n"
        check("it overwrites no folder", (ran.returncode, ran.stdout, ran.stderr) == (1, "", wanted) and state_of(top) == before)
        os.rmdir(f"{top}/crates/openapi_map")
        with open(f"{top}/crates.txt", "w", encoding="utf-8") as it:
            it.write("openapi_map: ours\n")
        before = state_of(top)
        ran = add(".")
        wanted = "error: crates.txt has another line for openapi_map\n"
        check("it overwrites no line", (ran.returncode, ran.stdout, ran.stderr) == (1, "", wanted) and state_of(top) == before)
        wrong = {
            "no folder": [],
            "a library that is none": [".", "wat"],
            "a program": [".", "openapi"],
            "a folder that is not above": ["vendor/openapiv3/crates"],
            "a folder that is no repository": ["vendor"],
        }
        for what, words in wrong.items():
            ran = add(*words)
            check(f"wrong arguments: {what}", ran.returncode == 2 and not ran.stdout and ran.stderr and state_of(top) == before)
        check("nothing is made in a folder that is no repository", os.listdir(f"{top}/vendor") == ["openapiv3"])
    print(f"{passed} passed, {failed} failed")
    return 1 if failed else 0


if __name__ == "__main__":
    sys.exit(main())
