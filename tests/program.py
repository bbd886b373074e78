#!/usr/bin/env python3
"""Runs `openapi_clean` as a person does, and compares its exit status, standard output and standard error.

usage: tests/program.py [PROGRAM]      (by default `openapi_clean` as `bin/prove.py` built it)

The contracts state what is written for which bytes, which words are a command, and which status each end of a run has.
What they can't state is tested here: that `main` passes on the real arguments and streams and ends with that status, what is
printed to standard error, and what comes of streams that fail. The last line is `N passed, M failed`.
"""
import json
import os
import subprocess
import sys

TOP = os.path.dirname(os.path.dirname(os.path.realpath(__file__)))
BUILT = f"{TOP}/crates/openapi_clean/out/openapi_clean"
USAGE = b"usage: openapi_clean tag|schema|document|settle|operations\n"
TAG = b'{"name":"a","wat":1,"x-q":[]}'
CLEAN_TAG = b'{"name":"a","x-q":[]}\n'


def example(name):
    with open(f"{TOP}/examples/{name}.json", "rb") as it:
        return it.read()


def cleaned_petstore():
    """Returns the example of a whole document, normalized: no name that OpenAPI does not know, each style, members by their names."""
    tree = json.loads(example("petstore"))
    pets, parts = tree["paths"]["/pets"]["get"], tree["components"]
    del pets["paging"]
    pets["parameters"][2]["style"] = "form"
    pets["responses"]["200"]["headers"]["X-Next"]["style"] = "simple"
    tree["paths"]["/pets/{petId}"]["parameters"][0]["style"] = "simple"
    parts["headers"]["rate"]["style"] = "simple"
    parts["parameters"]["limit"]["style"] = "form"
    parts["parameters"]["trace"]["style"] = "simple"
    return json.dumps(tree, sort_keys=True, separators=(",", ":")).encode() + b"\n"


def long_document(size):
    """Returns a document of about that many bytes that is written as it is: no name is unknown, and members are by their names."""
    paths, count = {}, size // 80
    for number in range(count):
        paths[f"/items/{number:07}"] = {"get": {"responses": {"200": {"description": "An item"}}}}
    tree = {"info": {"title": "Long", "version": "1"}, "openapi": "3.0.3", "paths": paths}
    return json.dumps(tree, separators=(",", ":")).encode()


# What is tested, the arguments, the input; the status, the output, and what is printed to standard error.
ROWS = [
    ("a tag is normalized", ["tag"], TAG, 0, CLEAN_TAG, b""),
    (
        "the example of a tag",
        ["tag"],
        example("tag"),
        0,
        b'{"description":"Everything about pets","externalDocs":{"url":"https://example.com/pets","x-reviewed":true},'
        b'"name":"pets","x-order":[3,1,2]}\n',
        b"",
    ),
    (
        "the example of a schema",
        ["schema"],
        example("schema"),
        0,
        b'{"properties":{"age":{"format":"int32","minimum":0,"type":"integer"},"name":{"minLength":1,"type":"string"},'
        b'"owner":{"$ref":"#/components/schemas/Owner"}},"required":["name"],"type":"object","x-table":"pets"}\n',
        b"",
    ),
    # an empty list is a present member when the kind is chosen, and is not written
    (
        "a schema of no kind in particular",
        ["schema"],
        b'{"type":"integer","exclusiveMinimum":false,"required":[]}',
        0,
        b'{"exclusiveMinimum":false,"type":"integer"}\n',
        b"",
    ),
    (
        "a schema with an XML object",
        ["schema"],
        b'{"type":"string","xml":{"name":"n","attribute":true,"wrapped":false}}',
        0,
        b'{"type":"string","xml":{"attribute":true,"name":"n"}}\n',
        b"",
    ),
    ("the example of a document", ["document"], example("petstore"), 0, cleaned_petstore(), b""),
    ("the example of a document, settled", ["settle"], example("petstore"), 0, cleaned_petstore(), b""),
    (
        "the operations of the example",
        ["operations"],
        example("petstore"),
        0,
        b"get /pets\npost /pets\nget /pets/{petId}\ndelete /pets/{petId}\n",
        b"",
    ),
    (
        "the small document",
        ["document"],
        example("small"),
        0,
        b'{"info":{"title":"Small","version":"1"},"openapi":"3.0.3",'
        b'"paths":{"/ping":{"get":{"responses":{"204":{"description":"Alive"}}}}}}\n',
        b"",
    ),
    ("the operations of the small document", ["operations"], example("small"), 0, b"get /ping\n", b""),
    (
        "a fault in an operation",
        ["operations"],
        b'{"openapi":"3.0.3","info":{"title":"t","version":"1"},"paths":{"/a":{"get":{}}}}',
        1,
        b"",
        b"missing field `responses` at #/paths/~1a/get\n",
    ),
    ("a tag as a document", ["settle"], TAG, 1, b"", b"missing field `openapi` at #\n"),
    ("a tag with no name", ["tag"], b"{}", 1, b"", b"missing field `name` at #\n"),
    ("a fault further in", ["tag"], b'{"name":"t","externalDocs":{}}', 1, b"", b"missing field `url` at #/externalDocs\n"),
    ("a number that is not whole", ["tag"], b'{"name":"t","x-n":[1,0.5]}', 1, b"", b"number not whole at #/x-n/1\n"),
    ("a schema with a fraction", ["schema"], b'{"type":"number","multipleOf":0.5}', 1, b"", b"number not whole at #/multipleOf\n"),
    ("a schema of another kind", ["schema"], b"[]", 1, b"", b"invalid type, expected object at #\n"),
    ("no JSON", ["tag"], b'{"name":', 2, b"", b"not JSON\n"),
    ("no UTF-8", ["tag"], b'{"name":"\xff"}', 2, b"", b"not JSON\n"),
    ("nothing at all", ["schema"], b"", 2, b"", b"not JSON\n"),
    ("no argument", [], TAG, 2, b"", USAGE),
    ("one argument too many", ["tag", "tag"], TAG, 2, b"", USAGE),
    ("an empty argument too many", ["tag", ""], TAG, 2, b"", USAGE),
    ("an empty argument", [""], TAG, 2, b"", USAGE),
    ("another word", ["tags"], TAG, 2, b"", USAGE),
    ("a word in capitals", ["Tag"], TAG, 2, b"", USAGE),
    ("a word that is no UTF-8", [b"\xff"], TAG, 2, b"", USAGE),
]

def outcome(program, arguments, **streams):
    ran = subprocess.run([program, *arguments], stderr=subprocess.PIPE, timeout=300, **streams)
    return ran.returncode, ran.stdout, ran.stderr


def main():
    program = os.path.realpath([*sys.argv[1:], BUILT][0])
    if not os.access(program, os.X_OK):
        print(f"FAILED: {program} is not built\n0 passed, 1 failed")
        return 1
    passed = failed = 0

    def compare(what, came, wanted):
        nonlocal passed, failed
        if came == wanted:
            passed += 1
        else:
            failed += 1
            print(f"FAILED: {what}: status, output and error are {came}, not {wanted}")

    for what, arguments, given, *wanted in ROWS:
        compare(what, outcome(program, arguments, input=given, stdout=subprocess.PIPE), tuple(wanted))
    # a folder can be opened and not read, and no byte can be written to a full disk
    folder = os.open(TOP, os.O_RDONLY)
    compare("an input that fails", outcome(program, ["tag"], stdin=folder, stdout=subprocess.PIPE), (3, b"", b"read failed\n"))
    os.close(folder)
    with open("/dev/full", "wb") as full, open(f"{TOP}/examples/tag.json", "rb") as given:
        compare("an output that fails", outcome(program, ["tag"], stdin=given, stdout=full), (3, None, b"write failed\n"))
    # if standard error is closed, nothing can be printed, and the status is the same
    for what, arguments, given, status in (
        ("no JSON", ["tag"], b"{", 2),
        ("wrong arguments", [], b"", 2),
        ("a refusal", ["tag"], b"{}", 1),
    ):
        ran = subprocess.run([program, *arguments], input=given, stdout=subprocess.PIPE, preexec_fn=lambda: os.close(2))
        compare(f"{what}, with standard error closed", (ran.returncode, ran.stdout), (status, b""))
    folder = os.open(TOP, os.O_RDONLY)
    ran = subprocess.run([program, "tag"], stdin=folder, stdout=subprocess.PIPE, preexec_fn=lambda: os.close(2))
    compare("an input that fails, with standard error closed", (ran.returncode, ran.stdout), (3, b""))
    os.close(folder)
    # no size is too large
    given = long_document(4_000_000)
    came = outcome(program, ["document"], input=given, stdout=subprocess.PIPE)
    compare("a document of 4 MB", (came[0], came[1] == given + b"\n", came[2]), (0, True, b""))
    # the arguments are checked before anything is read
    reads, writes = os.pipe()
    compare("wrong arguments are reported before anything is read", outcome(program, ["wat"], stdin=reads, stdout=subprocess.PIPE), (2, b"", USAGE))
    os.close(reads)
    os.close(writes)
    print(f"{passed} passed, {failed} failed")
    return 1 if failed else 0


if __name__ == "__main__":
    sys.exit(main())
