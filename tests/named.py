#!/usr/bin/env python3
"""Lists the public functions that users call and that no test names, and fails if there are any.

Users call what the root of openapiv3 exports: its functions, and those of its types. A body that always returns an
allocation failure meets its contract too. So each of them is called once with enough memory, and its result is compared.
Whether that is so is read from the text of the tests and of the program of the cases. A function counts as named if they call
it, a method if they call one of its name on something, and a function of a type (`Type::new`) if they call that of the type.
Left out are the functions with an empty body, which are laws and compute nothing. So are the methods of traits, which are
called by the functions that need the trait.

The last line is `N passed, M failed`.
"""
import os
import re
import sys

TOP = os.path.dirname(os.path.dirname(os.path.realpath(__file__)))
# The crates of tests, and the program that answers the cases.
TESTS = re.compile(r"^openapi_(vectors|test_support|cases)$")
# What the root of openapiv3 exports: a path, and behind it a list in braces, which may hold others.
EXPORT = re.compile(r"^pub use ([^;]+);$", re.M)
# What an exported item may be, and the crates of the kit whose items the root exports.
KINDS = "struct|enum|trait|type|const|static|fn|const fn"
OF_KIT = ("indexmap",)
# An `impl` with the type that it is for; the end of an item; a public function with its indentation and its name, and the
# word `self` if it is a method. The head of a function may take several lines.
ITEM = re.compile(
    r"^impl(?:<.*?>)? (?:\w+(?:<.*?>)? for )?(?P<owner>\w+)"
    r"|^(?P<end>\})"
    r"|^(?P<indent> *)pub (?:const )?fn (?P<name>\w+)(?:<[^(]*>)?\(\s*(?:(?:&(?:'\w+ )?)?(?:mut )?(?P<method>self)\b)?",
    re.M,
)


def sources():
    """Yields each source of the repository: its crate, its name, and its text."""
    for crate in sorted(os.listdir(f"{TOP}/crates")):
        for folder, _, names in sorted(os.walk(f"{TOP}/crates/{crate}/src")):
            for name in sorted(names):
                with open(f"{folder}/{name}") as it:
                    yield crate, name, it.read()


def leaves(path):
    """Yields the parts of each path that a `use` imports, without the name that it gives it."""
    start, brace, inner = path.partition("{")
    if not brace:
        yield path.partition(" as ")[0].strip().split("::")
        return
    depth, item = 0, ""
    for sign in f"{inner.rstrip().removesuffix('}')},":
        if sign == "," and not depth:
            if item.strip():
                yield from leaves(f"{start}{item.strip()}")
            item = ""
        else:
            depth += (sign == "{") - (sign == "}")
            item += sign


def exports(text):
    """Returns the first and the last part of the path of each name that a source exports."""
    return [(parts[0], parts[-1]) for path in EXPORT.findall(text) for parts in leaves(" ".join(path.split()))]


def home_of(crate, item, texts):
    """Returns the crate that defines an item which another crate, or this one, exports; or None."""
    own = [text for of, _, text in texts if of == crate]
    if any(re.search(rf"^pub (?:{KINDS}) {item}\b", text, re.M) for text in own):
        return crate
    above = (of for text in own for of, name in exports(text) if name == item and of != crate)
    return next((home for of in above if (home := home_of(of, item, texts))), None)


def is_empty(text, indent, start):
    """Returns whether the function whose head starts there has an empty body: its braces are alone in one line."""
    ends = re.compile(rf"^{indent}(?:\{{\}}|\}})$", re.M).search(text, start)
    return ends is not None and ends[0].strip() == "{}"


def functions(text):
    """Yields each public function that computes something: the type that it belongs to or None, its name, and whether it
    is a method."""
    owner = None
    for it in ITEM.finditer(text):
        if it["owner"]:
            owner = it["owner"]
        elif it["end"]:
            owner = None
        elif not is_empty(text, it["indent"], it.start()):
            yield owner if it["indent"] else None, it["name"], bool(it["method"])


def is_named(tests, owner, name, is_method):
    """Returns whether the tests name the function."""
    if owner is None:
        return re.search(rf"(?<![.:\w]){name}(?:::<|\()", tests) is not None
    if is_method:
        return re.search(rf"\.{name}(?:::<|\()", tests) is not None
    return re.search(rf"\b{owner}(?:::<.*?>)?::{name}\b", tests) is not None


def main():
    texts = list(sources())
    tests = "\n".join(text for crate, name, text in texts if TESTS.search(crate) or name.endswith("tests.rt"))
    root = next(text for crate, name, text in texts if (crate, name) == ("openapiv3", "lib.rt"))
    exported, crates, names = exports(root), {crate for crate, _, _ in texts}, set()
    passed = failed = 0

    def fail(why):
        nonlocal failed
        failed += 1
        print(f"FAILED: {why}")

    # counted apart: the words behind which there is no `::`
    written = [it for text in re.findall(r"^pub use\b(.*?);", root, re.M | re.S) for it in re.findall(r"\w+\b(?!\s*::)", re.sub(r"\bas \w+", "", text))]
    if len(exported) != len(written) or not written:
        fail(f"the root of openapiv3 exports {len(written)} names, and {len(exported)} of them were read")
    for crate, item in exported:
        # (a path that begins with no crate begins with a module of openapiv3)
        home = home_of(crate if crate in crates else "openapiv3", item, texts)
        if home:
            names.add((home, item))
        elif crate not in OF_KIT:
            fail(f"the root of openapiv3 exports {item}, and nothing defines it")
    for crate, name, text in texts:
        for owner, function, is_method in functions(text):
            if (crate, owner or function) not in names:
                continue
            if is_named(tests, owner, function, is_method):
                passed += 1
            else:
                fail(f"no test names {f'{owner}::' if owner else ''}{function} ({crate}/src/{name})")
    print(f"{len(exported)} names at the root of openapiv3\n{passed} passed, {failed} failed")
    return 1 if failed or not passed else 0


if __name__ == "__main__":
    sys.exit(main())
