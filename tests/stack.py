#!/usr/bin/env python3
"""Checks that the built programs need less than a megabyte of stack for the deepest JSON, which has 127 levels, in each command.

usage: tests/stack.py [PROGRAM [MOST]]      (by default both programs, as `bin/prove.py` built them)

MOST is the most that it may need, in kB, 1000 by default: a build without proof is compiled otherwise, and needs more. For each
shape it finds the least stack, in steps of 16 kB, with which the program ends with status 0. The last line is
`N passed, M failed`, in which each command on a shape counts once. The line before it has the most that any of them needs.
"""
import json
import os
import resource
import subprocess
import sys

TOP = os.path.dirname(os.path.dirname(os.path.realpath(__file__)))
BUILT = [f"{TOP}/crates/{it}/out/{it}" for it in ("openapi_clean", "openapi")]
LEVELS, STEP, MOST = 127, 16, 1000


def depth(tree):
    if isinstance(tree, (dict, list)):
        return 1 + max((depth(it) for it in (tree.values() if isinstance(tree, dict) else tree)), default=0)
    return 0


def nested(wrap, inner, levels):
    """Returns as many wraps around the innermost value as the levels allow."""
    tree = inner
    while depth(wrap(tree)) <= levels:
        tree = wrap(tree)
    return tree


SCHEMAS = {
    "not": (lambda it: {"not": it}, {}),
    "properties": (lambda it: {"type": "object", "properties": {"p": it}}, {}),
    "allOf": (lambda it: {"allOf": [it]}, {}),
    "any": (lambda it: {"allOf": [it], "items": {}}, {}),
    "items": (lambda it: {"type": "array", "items": it}, {}),
    "additionalProperties": (lambda it: {"type": "object", "additionalProperties": it}, {}),
    "extension": (lambda it: {"x-a": [it]}, 0),
}
# Each of these leads from a part of a document to the next part of the same kind.
HEADERS = lambda it: {"content": {"t": {"encoding": {"e": {"headers": {"h": it}}}}}}
CALLBACKS = lambda it: {"get": {"responses": {}, "callbacks": {"c": {"u": it}}}}


def document(**more):
    return {"openapi": "3.0.3", "info": {"title": "t", "version": "1"}, "paths": {}, **more}


def shapes():
    """Yields the command, the shape's name and the JSON value."""
    for name, (wrap, inner) in SCHEMAS.items():
        yield "schema", name, nested(wrap, inner, LEVELS)
    yield "tag", "extension", {"name": "t", "x-a": nested(lambda it: [it], [], LEVELS - 1)}
    for command in ["document", "settle", "operations"]:
        for name, (wrap, inner) in SCHEMAS.items():
            yield command, name, document(components={"schemas": {"S": nested(wrap, inner, LEVELS - 3)}})
        yield command, "headers", document(components={"headers": {"h": nested(HEADERS, {"schema": {}}, LEVELS - 3)}})
        yield command, "callbacks", document(paths={"/p": nested(CALLBACKS, {}, LEVELS - 2)})


# The commands of `openapi` on the same shapes.
TOOL_WORDS = {
    "tag": ["normalize --as tag"],
    "schema": ["normalize --as schema --settle"],
    "document": ["normalize --sort", "check"],
    "settle": ["normalize --settle --compact"],
    "operations": ["operations", "references"],
}


def asked(name):
    """Yields the arguments of a program, the shape's name and the JSON value."""
    for command, shape, tree in shapes():
        for words in [command] if name.startswith("openapi_clean") else TOOL_WORDS[command]:
            yield words, shape, tree


def runs(program, words, given, stack):
    def limit():
        resource.setrlimit(resource.RLIMIT_STACK, (stack * 1024, stack * 1024))
    return subprocess.run([program, *words], input=given, capture_output=True, preexec_fn=limit).returncode == 0


def least(program, words, given):
    """Returns the least stack in kB, or None if the program does not end well with 64 MB either."""
    low, high = 0, 65536 // STEP
    if not runs(program, words, given, high * STEP):
        return None
    while high - low > 1:
        middle = (low + high) // 2
        if runs(program, words, given, middle * STEP):
            high = middle
        else:
            low = middle
    return high * STEP


def main():
    programs = [os.path.realpath(it) for it in sys.argv[1:2] or BUILT]
    passed, failed, most, allowed = 0, 0, 0, int(sys.argv[2]) if len(sys.argv) > 2 else MOST
    for program in programs:
        name = os.path.basename(program)
        if not os.access(program, os.X_OK):
            print(f"FAILED: {program} is not built\n0 passed, 1 failed")
            return 1
        for words, shape, tree in asked(name):
            needs = least(program, words.split(), json.dumps(tree).encode())
            good = needs is not None and needs <= allowed
            passed, failed, most = passed + good, failed + (not good), max(most, needs or 0)
            told = "refused, or needs more than 64 MB" if needs is None else f"{needs:6} kB"
            print(f"{name} {words:30} {shape:22} {depth(tree):3} levels  {told}{'' if good else '  FAILED'}", flush=True)
    print(f"at most {most} kB\n{passed} passed, {failed} failed")
    return failed != 0


if __name__ == "__main__":
    sys.exit(main())
