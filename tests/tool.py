#!/usr/bin/env python3
"""Runs `openapi` as a person does, and compares its whole exit status, standard output and standard error.

usage: tests/tool.py [PROGRAM]      (by default crates/openapi/out/openapi, as `bin/prove.py openapi` built it)

The files are made in a temporary folder, in which the program runs. What is expected is written here from what OpenAPI 3.0.3 and
RFC 8259 state, and not taken from the program. The last line is `N passed, M failed`.
"""
import json
import os
import subprocess
import sys
import tempfile

TOP = os.path.dirname(os.path.dirname(os.path.realpath(__file__)))
BUILT = f"{TOP}/crates/openapi/out/openapi"

# A document without findings, and the beginning of others.
HEAD = '{\n  "openapi": "3.0.3",\n  "info": { "title": "t", "version": "1" },\n  "paths": {}'
GOOD = HEAD + "\n}\n"


def document(*members):
    """Returns a document with more members, of which each begins a line. The first is on line 5."""
    return HEAD + "".join(f",\n  {it}" for it in members) + "\n}\n"


def shown(severity, code, message, file, line, column, source, pointer=None, help=None, mark=None):
    """Returns a finding as the text format has it. `mark` is the column of the mark, if it isn't that of the finding."""
    number = str(line)
    gap = " " * (len(number) + 1)
    rows = [
        f"{severity}[{code}]: {message}",
        f"{gap}--> {file}:{line}:{column}",
        f"{gap} |",
        f" {number} | {source}" if source else f" {number} |",
        f"{gap} | {' ' * ((mark or column) - 1)}^",
    ]
    if pointer is not None:
        rows.append(f"{gap} = pointer: {pointer or '(root)'}")
    if help is not None:
        rows.append(f"{gap} = help: {help}")
    return "\n".join(rows) + "\n\n"


def summary(errors, warnings, files=1, notes=0):
    def count(number, word):
        return f"{number} {word}{'' if number == 1 else 's'}"

    more = f", {count(notes, 'note')}" if notes else ""
    return f"{count(errors, 'error')}, {count(warnings, 'warning')}{more} in {count(files, 'file')}\n"


def summary_of(findings):
    """Returns the summary of a file with these findings."""
    counts = [sum(it[0] == severity for it in findings) for severity in ("error", "warning", "note")]
    return summary(counts[0], counts[1], notes=counts[2])


FRACTION_HELP = "`openapi normalize` can't write it; `check` and `clean` can"

# Each row: what is tested, the text of the file, and its findings: severity, code, message, line, column, pointer, help.
# Unless a row has another one, the source line is that line of the file.
FINDINGS = [
    ("a document without findings", GOOD, []),
    (
        "members that are missing",
        "{}",
        [
            ("error", "missing-member", "missing field `openapi`", 1, 1, "", None),
            ("error", "missing-member", "missing field `info`", 1, 1, "", None),
            ("error", "missing-member", "missing field `paths`", 1, 1, "", None),
        ],
    ),
    (
        "a document that is no object",
        " []\n",
        [("error", "wrong-type", "invalid type, expected object", 1, 2, "", "found a list")],
    ),
    (
        "one of two members is required",
        document('"components": { "parameters": { "P": { "name": "p", "in": "query" } } }'),
        [
            (
                "error",
                "missing-either",
                "missing field `schema` or `content`",
                5,
                40,
                "/components/parameters/P",
                None,
            )
        ],
    ),
    (
        "each type of value instead of another",
        document(
            '"tags": [',
            '{ "name": null },',
            '{ "name": true },',
            '{ "name": 7 },',
            '{ "name": [] },',
            '{ "name": {} },',
            '{ "name": "n", "externalDocs": "u" }',
            "]",
        ).replace(",\n  {", "\n  {").replace("[,", "[").replace(",,", ",").replace(",\n  ]", "\n  ]"),
        [
            ("error", "wrong-type", "invalid type, expected text", 6, 13, "/tags/0/name", "found null"),
            ("error", "wrong-type", "invalid type, expected text", 7, 13, "/tags/1/name", "found the flag true"),
            ("error", "wrong-type", "invalid type, expected text", 8, 13, "/tags/2/name", "found the number 7"),
            ("error", "wrong-type", "invalid type, expected text", 9, 13, "/tags/3/name", "found a list"),
            ("error", "wrong-type", "invalid type, expected text", 10, 13, "/tags/4/name", "found an object"),
            (
                "error",
                "wrong-type",
                "invalid type, expected object",
                11,
                34,
                "/tags/5/externalDocs",
                'found the text "u"',
            ),
        ],
    ),
    (
        "a number out of its range",
        document('"components": { "schemas": { "S": { "type": "string", "minLength": -1 } } }'),
        [
            (
                "error",
                "value-not-allowed",
                "invalid value",
                5,
                70,
                "/components/schemas/S/minLength",
                "found the number -1; allowed: whole numbers from 0 to 18446744073709551615",
            )
        ],
    ),
    (
        "words that are not allowed",
        document(
            '"components": {',
            '"parameters": { "P": { "name": "p", "in": "pth", "schema": {} } },',
            '"headers": { "H": { "schema": {}, "style": "form" } },',
            '"securitySchemes": { "A": { "type": "apikey" }, "B": { "type": "apiKey", "name": "n", "in": "body" } }',
            "}",
        ).replace("{,\n", "{\n").replace(",,\n", ",\n").replace(",\n  }", "\n  }"),
        [
            (
                "error",
                "unknown-value",
                "unknown variant",
                6,
                45,
                "/components/parameters/P/in",
                'found the text "pth"; allowed: `query`, `header`, `path`, `cookie`',
            ),
            (
                "error",
                "unknown-value",
                "unknown variant",
                7,
                46,
                "/components/headers/H/style",
                'found the text "form"; allowed: `simple`',
            ),
            (
                "error",
                "unknown-value",
                "unknown variant",
                8,
                39,
                "/components/securitySchemes/A/type",
                'found the text "apikey"; allowed: `apiKey`, `http`, `oauth2`, `openIdConnect`',
            ),
            (
                "error",
                "unknown-value",
                "unknown variant",
                8,
                95,
                "/components/securitySchemes/B/in",
                'found the text "body"; allowed: `query`, `header`, `cookie`',
            ),
        ],
    ),
    (
        "members of unknown names",
        document(
            '"servres": [],',
            '"security_requirements": [],',
            '"components": { "schemas": { "S": { "type": "object", "requierd": [], "const": 1 } } },',
            '"x-own": 1',
        ).replace(",,\n", ",\n"),
        [
            ("warning", "unknown-member", "unknown member `servres`", 5, 3, "/servres", "did you mean `servers`?"),
            (
                "warning",
                "unknown-member",
                "unknown member `security_requirements`",
                6,
                3,
                "/security_requirements",
                "remove it, or begin its name with `x-` to make it an extension",
            ),
            (
                "warning",
                "unknown-member",
                "unknown member `requierd`",
                7,
                57,
                "/components/schemas/S/requierd",
                "did you mean `required`?",
            ),
            (
                "warning",
                "unknown-member",
                "unknown member `const`",
                7,
                73,
                "/components/schemas/S/const",
                "remove it, or begin its name with `x-` to make it an extension",
            ),
        ],
    ),
    (
        "names of paths and of responses",
        '{ "openapi": "3.0.0", "info": { "title": "t", "version": "1" }, "paths": {\n"pets": {},\n"/p": { "get": {'
        ' "responses": {\n"ok": { "description": "d" } } } } } }\n',
        [
            (
                "warning",
                "unknown-member",
                "unknown member `pets`",
                2,
                1,
                "/paths/pets",
                "the name of a path begins with `/`, and that of an extension with `x-`",
            ),
            (
                "warning",
                "unknown-member",
                "unknown member `ok`",
                4,
                1,
                "/paths/~1p/get/responses/ok",
                "the name of a response is a status code, a range such as `4XX`, or `default`",
            ),
        ],
    ),
    (
        "a member beside a reference",
        document('"components": { "schemas": { "A": {}, "B": { "$ref": "#/components/schemas/A", "title": "t" } } }'),
        [
            (
                "warning",
                "beside-ref",
                "member `title` has no effect beside `$ref`",
                5,
                82,
                "/components/schemas/B/title",
                "remove it, or move it to the value that `$ref` leads to",
            )
        ],
    ),
    (
        "the second of two members",
        document('"components": { "headers": { "H": { "schema": {}, "content": {} } } }'),
        [
            (
                "warning",
                "second-of-two",
                "member `content` has no effect",
                5,
                53,
                "/components/headers/H/content",
                "`schema` comes first and excludes it: remove one of the two",
            )
        ],
    ),
    (
        "references that lead to no value",
        document(
            '"components": { "schemas": {',
            '"a/b": {}, "c~d": {}, "é": {}, "L": { "oneOf": [{}] },',
            '"1": { "$ref": "#/components/schemas/a~1b" }, "2": { "$ref": "#/components/schemas/c~0d" },',
            '"3": { "$ref": "#/components/schemas/%C3%A9" }, "4": { "$ref": "#/components/schemas/L/oneOf/0" },',
            '"5": { "$ref": "other.json#/a" }, "6": { "$ref": "#anchor" }, "7": { "$ref": "#/components/schemas/7" },',
            '"8": { "$ref": "#/components/schemas/None" }, "9": { "$ref": "#/components/schemas/L/oneOf/1" },',
            '"10": { "$ref": "#/components/schemas/L/oneOf/00" }, "11": { "$ref": "#/components/schemas/%FF" }',
            "} }",
        ).replace("{,\n", "{\n").replace(",,\n", ",\n").replace(",\n  }", "\n  }"),
        [
            (
                "warning",
                "unresolved-reference",
                "the reference `#/components/schemas/None` leads to no value",
                10,
                18,
                "/components/schemas/8/$ref",
                None,
            ),
            (
                "warning",
                "unresolved-reference",
                "the reference `#/components/schemas/L/oneOf/1` leads to no value",
                10,
                64,
                "/components/schemas/9/$ref",
                None,
            ),
            (
                "warning",
                "unresolved-reference",
                "the reference `#/components/schemas/L/oneOf/00` leads to no value",
                11,
                19,
                "/components/schemas/10/$ref",
                None,
            ),
            (
                "warning",
                "unresolved-reference",
                "the reference `#/components/schemas/%FF` leads to no value",
                11,
                72,
                "/components/schemas/11/$ref",
                None,
            ),
        ],
    ),
    (
        "reference tokens",
        document(
            '"components": { "schemas": {',
            '"c~2d": {}, "c2d": {}, "A": { "oneOf": [{}] },',
            '"1": { "$ref": "#/components/schemas/c~02d" }, "2": { "$ref": "#/components%2Fschemas/A/oneOf/0" },',
            '"3": { "$ref": "#/components/schemas/c~2d" }, "4": { "$ref": "#/components/schemas/A/oneOf/+0" },',
            '"5": { "$ref": "#/components/schemas/A/oneOf/18446744073709551616" }, "6": { "$ref": "#/" },',
            '"7": { "$ref": "#/components/schemas/A~" }, "8": { "$ref": "#/components/schemas/A/" }',
            "} }",
        ).replace("{,\n", "{\n").replace(",,\n", ",\n").replace(",\n  }", "\n  }"),
        [
            ("warning", "unresolved-reference", f"the reference `{text}` leads to no value", line, column,
             f"/components/schemas/{name}/$ref", None)
            for name, line, column, text in (
                ("3", 8, 18, "#/components/schemas/c~2d"),
                ("4", 8, 64, "#/components/schemas/A/oneOf/+0"),
                ("5", 9, 18, "#/components/schemas/A/oneOf/18446744073709551616"),
                ("6", 9, 88, "#/"),
                ("7", 10, 18, "#/components/schemas/A~"),
                ("8", 10, 62, "#/components/schemas/A/"),
            )
        ],
    ),
    (
        "names that come again",
        '{\n"openapi": "3.0.3", "info": { "title": "a", "version": "1",\n"title": "b" },\n'
        '"paths": {}, "x-a": [{ "n": { "k": 1 } , "n": { "k": 2, "k": 3,\n"\\u006b": 4 } }],\n"paths": {}\n}\n',
        [
            ("warning", "repeated-name", f"the name `{name}` comes again in its object", line, column, pointer,
             "the earlier value has no effect: remove one of the two")
            for name, line, column, pointer in (
                ("title", 3, 1, "/info/title"),
                ("n", 4, 42, "/x-a/0/n"),
                ("k", 5, 1, "/x-a/0/n/k"),
                ("paths", 6, 1, "/paths"),
            )
        ],
    ),
    (
        "version 2.0",
        '{\n  "swagger": "2.0",\n  "info": { "title": "t", "version": "1" },\n  "paths": {}\n}\n',
        [
            ("error", "missing-member", "missing field `openapi`", 1, 1, "", None),
            (
                "warning",
                "unknown-member",
                "unknown member `swagger`",
                2,
                3,
                "/swagger",
                "remove it, or begin its name with `x-` to make it an extension",
            ),
            (
                "error",
                "version",
                "version `2.0` is not supported, expected `3.0.x`",
                2,
                14,
                "/swagger",
                "convert the document to OpenAPI 3.0",
            ),
        ],
    ),
    (
        "version 3.1",
        GOOD.replace("3.0.3", "3.1.0").replace("\n}", ',\n  "webhooks": {}\n}'),
        [
            (
                "error",
                "version",
                "version `3.1.0` is not supported, expected `3.0.x`",
                2,
                14,
                "/openapi",
                "the document is checked as one of OpenAPI 3.0",
            ),
            (
                "warning",
                "unknown-member",
                "unknown member `webhooks`",
                5,
                3,
                "/webhooks",
                "remove it, or begin its name with `x-` to make it an extension",
            ),
        ],
    ),
    (
        "a version that is none",
        GOOD.replace("3.0.3", "banana"),
        [
            (
                "error",
                "version",
                "version `banana` is not supported, expected `3.0.x`",
                2,
                14,
                "/openapi",
                "the document is checked as one of OpenAPI 3.0",
            )
        ],
    ),
    (
        "a number that is not whole, where any number may be",
        document('"x-a": 0.5', '"wat": 1'),
        [
            ("note", "fraction", "the number 0.5 is not written as a whole number", 5, 10, "/x-a", FRACTION_HELP),
            (
                "warning",
                "unknown-member",
                "unknown member `wat`",
                6,
                3,
                "/wat",
                "remove it, or begin its name with `x-` to make it an extension",
            ),
        ],
    ),
    (
        "a number that is not whole instead of a length",
        document('"components": { "schemas": { "S": { "type": "string", "minLength": 0.5 } } }'),
        [
            (
                "error",
                "not-whole",
                "the number 0.5 is not written as a whole number",
                5,
                70,
                "/components/schemas/S/minLength",
                "found the number 0.5; allowed: whole numbers from 0 to 18446744073709551615",
            )
        ],
    ),
    (
        "a number that is not whole as a limit of a schema",
        document('"components": { "schemas": { "S": { "type": "number", "minimum": 0.5, "minItems": 1e3 } } }'),
        [
            (
                "note",
                "fraction",
                "the number 0.5 is not written as a whole number",
                5,
                68,
                "/components/schemas/S/minimum",
                FRACTION_HELP,
            ),
            (
                "error",
                "not-whole",
                "the number 1e3 is not written as a whole number",
                5,
                85,
                "/components/schemas/S/minItems",
                "found the number 1e3; allowed: whole numbers from 0 to 18446744073709551615",
            ),
        ],
    ),
    (
        "a number that is not whole instead of a text",
        document('"tags": [{ "name": 0.5 }]'),
        [("error", "wrong-type", "invalid type, expected text", 5, 22, "/tags/0/name", "found the number 0.5")],
    ),
    (
        "a number that is not whole instead of an object",
        document('"externalDocs": -1.5e-7'),
        [("error", "wrong-type", "invalid type, expected object", 5, 19, "/externalDocs", "found the number -1.5e-7")],
    ),
    (
        "numbers that are whole, but can't be held",
        document('"x-a": [1e3, 18446744073709551616, -0, 18446744073709551615, -9223372036854775809]'),
        [
            ("note", "fraction", "the number 1e3 is not written as a whole number", 5, 11, "/x-a/0", FRACTION_HELP),
            (
                "note",
                "fraction",
                "the number 18446744073709551616 is out of the range of 64 bits",
                5,
                16,
                "/x-a/1",
                FRACTION_HELP,
            ),
            ("note", "fraction", "the number -0 is a negative zero", 5, 38, "/x-a/2", FRACTION_HELP),
            (
                "note",
                "fraction",
                "the number -9223372036854775809 is out of the range of 64 bits",
                5,
                64,
                "/x-a/4",
                FRACTION_HELP,
            ),
        ],
    ),
    (
        "a number that is not whole in a value that doesn't count",
        document('"x-a": [0.5]', '"x-a": 1'),
        [
            (
                "warning",
                "repeated-name",
                "the name `x-a` comes again in its object",
                6,
                3,
                "/x-a",
                "the earlier value has no effect: remove one of the two",
            )
        ],
    ),
    (
        "a number that is not whole in a value that counts",
        document('"x-a": 1', '"x-a": [0.5]'),
        [
            (
                "warning",
                "repeated-name",
                "the name `x-a` comes again in its object",
                6,
                3,
                "/x-a",
                "the earlier value has no effect: remove one of the two",
            ),
            ("note", "fraction", "the number 0.5 is not written as a whole number", 6, 11, "/x-a/0", FRACTION_HELP),
        ],
    ),
    (
        "a number that is not whole in a member that has no effect",
        document('"wat": 0.5'),
        [
            (
                "warning",
                "unknown-member",
                "unknown member `wat`",
                5,
                3,
                "/wat",
                "remove it, or begin its name with `x-` to make it an extension",
            ),
            ("note", "fraction", "the number 0.5 is not written as a whole number", 5, 10, "/wat", FRACTION_HELP),
        ],
    ),
    (
        "a number with many digits",
        document('"x-a": 0.%s' % ("1" * 60)),
        [
            (
                "note",
                "fraction",
                "the number 0.%s.. is not written as a whole number" % ("1" * 38),
                5,
                10,
                "/x-a",
                FRACTION_HELP,
            )
        ],
    ),
    (
        "characters outside ASCII before a finding",
        document('"x-é€😀": "ü", "wat": 1'),
        [
            (
                "warning",
                "unknown-member",
                "unknown member `wat`",
                5,
                17,
                "/wat",
                "remove it, or begin its name with `x-` to make it an extension",
            )
        ],
    ),
    (
        "a pointer with characters of its own",
        document('"components": { "schemas": { "a/b~c": { "tytle": 1 } } }'),
        [
            (
                "warning",
                "unknown-member",
                "unknown member `tytle`",
                5,
                43,
                "/components/schemas/a~1b~0c/tytle",
                "did you mean `title`?",
            )
        ],
    ),
    (
        "a text that is long",
        document('"security": "%s"' % ("x" * 50)),
        [
            (
                "error",
                "wrong-type",
                "invalid type, expected list",
                5,
                15,
                "/security",
                'found the text "%s.."' % ("x" * 40),
            )
        ],
    ),
]

YAML = "this looks like YAML: convert it, as by `yq -o=json . api.yaml > api.json`"

# Each row: what is tested, the bytes of the file, and its one finding: message, line, column, help, and the source line if it is
# not that line of the file.
SYNTAX = [
    ("an empty file", b"", "the file is empty", 1, 1, "a document is one JSON object"),
    ("white space alone", b" \n\t", "the file is empty", 1, 1, "a document is one JSON object"),
    ("a comma at the end of an object", b'{\n  "a": 1,\n}', "expected a name, found `}`", 3, 1, "remove the comma before it"),
    ("a comma at the end of an array", b"[1, 2, ]", "expected a value, found `]`", 1, 8, "remove the comma before it"),
    ("a comma too many", b"[1,, 2]", "expected a value, found `,`", 1, 4, None),
    ("a comma that is missing in an object", b'{"a": 1\n "b": 2}', 'expected `,` or `}`, found `"`', 2, 2, None),
    ("a comma that is missing in an array", b"[1 2]", "expected `,` or `]`, found `2`", 1, 4, None),
    ("a colon that is missing", b'{"a" 1}', "expected `:`, found `1`", 1, 6, None),
    ("a colon in an array", b'["a": 1]', "expected `,` or `]`, found `:`", 1, 5, None),
    ("a value that is missing", b'{"a": }', "expected a value, found `}`", 1, 7, None),
    ("an array closed as an object", b"[}", "expected a value or `]`, found `}`", 1, 2, None),
    ("an object closed as an array", b'{"a": 1]', "expected `,` or `}`, found `]`", 1, 8, None),
    ("an object that is not closed", b'{\n  "a": 1\n', "expected `,` or `}`, found the end of the file", 2, 9, None),
    ("an array that is not closed", b"[", "expected a value or `]`, found the end of the file", 1, 2, None),
    ("an end after a name", b'{"a":', "expected a value, found the end of the file", 1, 6, None),
    ("two values", b"{} {}", "expected the end of the file, found `{`", 1, 4, None),
    ("a word that is none", b'{"a": nul}', "expected a value, found `nul`", 1, 7, None),
    ("a word of Python", b'{"a": True}', "expected a value, found `True`", 1, 7, None),
    ("a number that begins with 0", b"[01]", "expected a value or `]`, found `01`", 1, 2, None),
    ("a number out of range", b"[1e999]", "the number is out of range", 1, 2, None),
    ("a name without quotes", b"{a: 1}", "expected a name or `}`, found `a`", 1, 2, "write names in double quotes"),
    ("single quotes", b"{'a': 1}", "expected a name or `}`, found `'`", 1, 2, "write strings in double quotes"),
    ("a comment", b"{\n  // all\n}", "expected a name or `}`, found `/`", 2, 3, "JSON has no comments: remove it"),
    ("a string that is not closed", b'["abc', "a string is not closed", 1, 2, None),
    (
        "a string over two lines",
        b'["abc\n"]',
        "a string is not closed on its line",
        1,
        2,
        'close it with `"`, or write the line break as `\\n`',
    ),
    (
        "a control character",
        b'["a\x01b"]',
        "a control character in a string",
        1,
        4,
        "write it as an escape, such as `\\t` or `\\u001f`",
        '["a\ufffdb"]',
    ),
    ("an unknown escape", b'["a\\x"]', "an unknown escape in a string", 1, 4, "write a backslash as `\\\\`"),
    ("half of a surrogate pair", b'["\\ud800"]', "half of a surrogate pair in a string", 1, 2, None),
    (
        "128 levels",
        b"[" * 128 + b"]" * 128,
        "arrays and objects are nested deeper than 127 levels",
        1,
        128,
        "look for a bracket that is not closed",
    ),
    (
        "a byte order mark",
        b"\xef\xbb\xbf" + GOOD.encode(),
        "expected a value, found a byte order mark",
        1,
        1,
        "save the file in UTF-8 without a byte order mark",
    ),
    ("bytes that are no UTF-8", b'{"a": "\xc3\xa9\xff"}', "a byte is no UTF-8", 1, 9, "save the file in UTF-8", '{"a": "é'),
    ("UTF-16", '{"a":1}'.encode("utf-16"), "a byte is no UTF-8", 1, 1, "save the file in UTF-8", ""),
    ("YAML", b"openapi: 3.0.3\ninfo:\n  title: t\n", "expected a value, found `openapi`", 1, 1, YAML),
    ("YAML with a mark", b"---\nopenapi: 3.0.3\n", "expected a value, found `---`", 1, 1, YAML),
    ("YAML with a comment", b"# The API\nopenapi: 3.0.3\n", "expected a value, found `#`", 1, 1, YAML),
    ("HTML", b"<!DOCTYPE html>", "expected a value, found `<`", 1, 1, None),
]


class Runner:
    """Runs the program in a folder, and counts the results that are as expected."""

    def __init__(self, program, folder):
        self.program, self.folder, self.passed, self.failed = program, folder, 0, 0

    def write(self, name, content):
        with open(f"{self.folder}/{name}", "wb") as it:
            it.write(content if isinstance(content, bytes) else content.encode())
        return name

    def run(self, *words, **streams):
        """Returns the status, the standard output and the standard error, as text."""
        how = {"stdout": subprocess.PIPE, "stderr": subprocess.PIPE, "cwd": self.folder, "timeout": 300, **streams}
        if "input" not in how:
            how.setdefault("stdin", subprocess.DEVNULL)
        ran = subprocess.run([self.program, *words], **how)
        return ran.returncode, *(it if it is None else it.decode() for it in (ran.stdout, ran.stderr))

    def compare(self, what, came, wanted):
        if came == wanted:
            self.passed += 1
            return
        self.failed += 1
        print(f"FAILED: {what}")
        for name, left, right in zip(("status", "standard output", "standard error"), came, wanted):
            if left != right:
                print(f"  {name} is\n{left!r}\n  not\n{right!r}")

    def check(self, what, words, status, output, error, **streams):
        self.compare(what, self.run(*words, **streams), (status, output, error))


def text_of(finding, file, content):
    severity, code, message, line, column, pointer, help = finding
    source = content.split("\n")[line - 1]
    return shown(severity, code, message, file, line, column, source, pointer, help)


def test_findings(runner):
    for what, content, findings in FINDINGS:
        file = runner.write("api.json", content)
        output = "".join(text_of(it, file, content) for it in findings)
        errors = sum(it[0] == "error" for it in findings)
        said = summary_of(findings)
        runner.check(what, ["check", file], 1 if errors else 0, output, said)
        # the same as JSON, one object a line, with these members in this order
        names = ("file", "line", "column", "pointer", "severity", "code", "message", "help")
        rows = [dict(zip(names, (file, line, column, pointer, severity, code, message, help)))
                for severity, code, message, line, column, pointer, help in findings]
        output = "".join(json.dumps(it, separators=(",", ":"), ensure_ascii=False) + "\n" for it in rows)
        runner.check(f"{what}, as JSON", ["check", "--format", "json", file], 1 if errors else 0, output, said)


def test_syntax(runner):
    for what, content, message, line, column, help, *others in SYNTAX:
        file = runner.write("api.json", content)
        source = others[0] if others else content.split(b"\n")[line - 1].decode(errors="ignore").removeprefix("\ufeff")
        if content.startswith(b"\xef\xbb\xbf"):
            source = "\ufeff" + source
        if len(source) > 140:
            # of a long line the last 80 characters before the mark are shown, and 60 from the mark on
            source = "..." + source[column - 81:column + 59] + "..."
        mark = 84 if source.startswith("...") else column
        output = shown("error", "not-json", message, file, line, column, source, help=help, mark=mark)
        runner.check(what, ["check", file], 2, output, summary(1, 0))
        row = {"file": file, "line": line, "column": column, "pointer": None, "severity": "error", "code": "not-json",
               "message": message, "help": help}
        output = json.dumps(row, separators=(",", ":"), ensure_ascii=False) + "\n"
        runner.check(f"{what}, as JSON", ["check", "--format=json", file], 2, output, summary(1, 0))


def warning(file, source='  "wat": 1', line=5, column=3, mark=None):
    return shown("warning", "unknown-member", "unknown member `wat`", file, line, column, source, "/wat",
                 "remove it, or begin its name with `x-` to make it an extension", mark)


def test_lines(runner):
    """Checks how the line of a finding is shown."""
    wat = document('"wat": 1')
    file = runner.write("crlf.json", wat.replace("\n", "\r\n"))
    runner.check("CR LF", ["check", file], 0, warning(file), summary(0, 1))
    file = runner.write("tabs.json", wat.replace('  "wat"', '\t\t"wat"'))
    runner.check("tabs", ["check", file], 0, warning(file, '        "wat": 1', mark=9), summary(0, 1))
    # a line feed below is no line feed of the file's, and an escape of a terminal is not passed on
    file = runner.write("escapes.json", document('"a\\u001b[2J\\n": 1'))
    output = shown("warning", "unknown-member", "unknown member `a\ufffd[2J\ufffd`", file, 5, 3, '  "a\\u001b[2J\\n": 1',
                   "/a\ufffd[2J\ufffd", "remove it, or begin its name with `x-` to make it an extension")
    runner.check("control characters in a name", ["check", file], 0, output, summary(0, 1))
    output = json.dumps({"file": file, "line": 5, "column": 3, "pointer": "/a\x1b[2J\n", "severity": "warning",
                         "code": "unknown-member", "message": "unknown member `a\x1b[2J\n`",
                         "help": "remove it, or begin its name with `x-` to make it an extension"},
                        separators=(",", ":")) + "\n"
    runner.check("control characters in a name, as JSON", ["check", "--format", "json", file], 0, output, summary(0, 1))
    # a long line is shown in part
    long = '{"openapi":"3.0.3","info":{"title":"%s","version":"1"},"wat":1,"paths":{},"x-a":"%s"}' % ("t" * 100, "u" * 100)
    file = runner.write("long.json", long)
    at = long.index('"wat"')
    output = warning(file, "..." + long[at - 80:at + 60] + "...", 1, at + 1, 84)
    runner.check("a long line", ["check", file], 0, output, summary(0, 1))
    # of 140 bytes a line is shown as a whole, and of one more it is not
    for size in (140, 141):
        line = '  "wat": "' + "x" * (size - 11) + '"'
        file = runner.write(f"line{size}.json", document(line.strip()))
        source = line if size == 140 else line[:62] + "..."
        runner.check(f"a line of {size} bytes", ["check", file], 0, warning(file, source), summary(0, 1))
    # ten lines and more make the margin wider
    file = runner.write("lines.json", "\n" * 95 + wat)
    runner.check("a line with three digits", ["check", file], 0, warning(file, line=100), summary(0, 1))


def test_formats(runner):
    file = runner.write("a,b:c%.json", document('"w%t": 1').replace('"t"', "7"))
    output = (f"::error file=a%2Cb%3Ac%25.json,line=3,col=22::invalid type, expected text\n"
              f"::warning file=a%2Cb%3Ac%25.json,line=5,col=3::unknown member `w%25t`\n")
    runner.check("as workflow commands", ["check", "--format", "github", file], 1, output, summary(1, 1))
    file = runner.write("half.json", document('"x-a": 0.5'))
    output = "::notice file=half.json,line=5,col=10::the number 0.5 is not written as a whole number\n"
    runner.check("a note as a workflow command", ["check", "--format", "github", file], 0, output, summary(0, 0, notes=1))
    file = runner.write("no.json", "[")
    output = "::error file=no.json,line=1,col=2::expected a value or `]`, found the end of the file\n"
    runner.check("no JSON as a workflow command", ["check", "--format", "github", file], 2, output, summary(1, 0))


def test_statuses(runner):
    good, wat = runner.write("good.json", GOOD), runner.write("wat.json", document('"wat": 1'))
    bad, no = runner.write("bad.json", "[]"), runner.write("no.json", "[")
    error = shown("error", "wrong-type", "invalid type, expected object", bad, 1, 1, "[]", "", "found a list")
    not_json = shown("error", "not-json", "expected a value or `]`, found the end of the file", no, 1, 2, "[")
    runner.check("a warning is no error", ["check", wat], 0, warning(wat), summary(0, 1))
    runner.check("a warning that is denied", ["check", "--deny-warnings", wat], 1, warning(wat), summary(0, 1))
    half = runner.write("half.json", document('"x-a": 0.5', '"x-b": 1.5'))
    notes = "".join(text_of(("note", "fraction", f"the number {number} is not written as a whole number", line, 10, pointer,
                             FRACTION_HELP), half, document('"x-a": 0.5', '"x-b": 1.5'))
                    for number, line, pointer in (("0.5", 5, "/x-a"), ("1.5", 6, "/x-b")))
    runner.check("a note is no warning", ["check", "--deny-warnings", half], 0, notes, summary(0, 0, notes=2))
    runner.check("notes and a warning", ["check", half, wat], 0, notes + warning(wat), summary(0, 1, 2, notes=2))
    runner.check("no warning that is denied", ["check", "--deny-warnings", good], 0, "", summary(0, 0))
    runner.check("several files", ["check", good, wat, bad, no], 2, warning(wat) + error + not_json, summary(2, 1, 4))
    runner.check("several files the other way round", ["check", no, bad, good], 2, not_json + error, summary(2, 0, 3))
    missing = "error: none.json: No such file or directory (os error 2)\n"
    runner.check("a missing file", ["check", "none.json"], 3, "", missing + summary(0, 0, 0))
    runner.check("a missing file among others", ["check", bad, "none.json", wat], 3, error + warning(wat),
                 missing + summary(1, 1, 2))
    os.mkdir(f"{runner.folder}/folder")
    runner.check("a folder", ["check", "folder"], 3, "", "error: folder: Is a directory (os error 21)\n" + summary(0, 0, 0))
    secret = runner.write("secret.json", GOOD)
    os.chmod(f"{runner.folder}/{secret}", 0)
    if not os.access(f"{runner.folder}/{secret}", os.R_OK):
        runner.check("an unreadable file", ["check", secret], 3, "",
                     f"error: {secret}: Permission denied (os error 13)\n" + summary(0, 0, 0))
    elif os.geteuid() == 0:
        # for root every file is readable, so another user runs the program
        os.chmod(runner.folder, 0o755)
        runner.check("an unreadable file", ["check", secret], 3, "",
                     f"error: {secret}: Permission denied (os error 13)\n" + summary(0, 0, 0), user=65534)


def test_streams(runner):
    bad = "[]"
    output = shown("error", "wrong-type", "invalid type, expected object", "<stdin>", 1, 1, bad, "", "found a list")
    file = runner.write("bad.json", bad)
    runner.check("standard input", ["check"], 1, output, summary(1, 0), input=b"[]")
    runner.check("standard input by its name", ["check", "-"], 1, output, summary(1, 0), input=b"[]")
    runner.check("standard input among files", ["check", file, "-"], 1, output.replace("<stdin>", file) + output,
                 summary(2, 0, 2), input=b"[]")
    folder = os.open(runner.folder, os.O_RDONLY)
    runner.check("a folder as standard input", ["check"], 3, "", "error: <stdin>: Is a directory (os error 21)\n" + summary(0, 0, 0),
                 stdin=folder)
    os.close(folder)
    failed = "error: <stdout>: Bad file descriptor (os error 9)\n"
    runner.check("standard output is closed", ["check", file], 3, "", failed + summary(1, 0), preexec_fn=lambda: os.close(1))
    runner.check("standard output is closed, and nothing is written", ["check", runner.write("good.json", GOOD)], 0, "",
                 summary(0, 0), preexec_fn=lambda: os.close(1))
    with open("/dev/full", "wb") as full:
        failed = "error: <stdout>: No space left on device (os error 28)\n"
        runner.check("a full disk", ["check", file, file], 3, None, failed + summary(1, 0), stdout=full)
        runner.check("a full disk below standard error", ["check", file], 1, output.replace("<stdin>", file), None, stderr=full)
    runner.check("standard error is closed", ["check", file], 1, output.replace("<stdin>", file), "", preexec_fn=lambda: os.close(2))
    runner.check("standard error is closed, and a file is missing", ["check", "none.json"], 3, "", "",
                 preexec_fn=lambda: os.close(2))
    reads, writes = os.pipe()
    os.close(reads)
    status, _, error = runner.run("check", file, stdout=writes)
    os.close(writes)
    runner.compare("nobody reads the output", (status, None, error),
                   (3, None, "error: <stdout>: Broken pipe (os error 32)\n" + summary(1, 0)))


def test_words(runner):
    runner.check("the version", ["--version"], 0, "openapi 0.1.0 (openapiv3 2.2.0)\n", "")
    for words in (["--help"], ["check", "--help"]):
        status, output, error = runner.run(*words)
        runner.compare(f"help of {words[0]}", (status, "openapi check" in output and "Example:" in output, error), (0, True, ""))
    for what, words, first in (
        ("an unknown command", ["chek"], "error: unrecognized subcommand 'chek'"),
        ("an unknown option", ["check", "--denywarnings"], "error: unexpected argument '--denywarnings' found"),
        ("an unknown format", ["check", "--format", "xml"], "error: invalid value 'xml' for '--format <FORMAT>'"),
    ):
        status, output, error = runner.run(*words)
        runner.compare(what, (status, output, error.split("\n")[0]), (2, "", first))
    status, output, error = runner.run()
    runner.compare("no words", (status, output, "Usage: openapi" in error), (2, "", True))


def refuse_each(runner, words):
    """Refuses each request for memory of a run, one after another: it reports that, or answers as it does otherwise."""
    library = f"{runner.folder}/refuse.so"
    if not os.path.exists(library):
        subprocess.run(["cc", "-shared", "-fPIC", "-O1", "-o", library, f"{TOP}/tests/refuse.c", "-ldl"], check=True)
    wanted, strange, refused = runner.run(*words), [], 0
    for number in range(1, 10_000):
        reads, writes = os.pipe()
        # (the library writes to descriptor 9 that it refused the request of this number)
        status, output, error = runner.run(*words, env={**os.environ, "REFUSE": str(number), "LD_PRELOAD": library},
                                           preexec_fn=lambda: os.dup2(writes, 9), pass_fds=(9, writes))
        os.close(writes)
        met = os.read(reads, 100)
        os.close(reads)
        if not met:
            break
        refused += 1
        is_said = status == 3 and output == "" and error.startswith("error: ") and "out of memory" in error.split("\n")[0]
        if not is_said and (status, output, error) != wanted:
            strange.append((number, status, error))
    runner.compare(f"memory is refused to {words}", (strange, refused > 50), ([], True))


def test_memory(runner):
    no_json, fraction = runner.write("no.json", '{"a": [1,'), runner.write("fraction.json", document('"x-a": 0.5'))
    for file in (f"{TOP}/examples/small.json", f"{TOP}/examples/broken.json", no_json, fraction):
        refuse_each(runner, ["check", file])


# The findings of examples/broken.json.
BROKEN = [
    ("error", "version", "version `3.1.0` is not supported, expected `3.0.x`", 2, 14, "/openapi",
     "the document is checked as one of OpenAPI 3.0"),
    ("error", "missing-member", "missing field `version`", 3, 11, "/info", None),
    ("error", "wrong-type", "invalid type, expected text", 4, 14, "/info/title", "found the number 7"),
    ("warning", "unknown-member", "unknown member `titel`", 5, 5, "/info/titel", "did you mean `title`?"),
    ("error", "unknown-value", "unknown variant", 10, 34, "/paths/~1pets~1{petId}/parameters/0/in",
     'found the text "pth"; allowed: `query`, `header`, `path`, `cookie`'),
    ("error", "missing-either", "missing field `schema` or `content`", 11, 9, "/paths/~1pets~1{petId}/parameters/1", None),
    ("warning", "second-of-two", "member `content` has no effect", 12, 74, "/paths/~1pets~1{petId}/parameters/2/content",
     "`schema` comes first and excludes it: remove one of the two"),
    ("warning", "unresolved-reference", "the reference `#/components/schemas/Pett` leads to no value", 20, 37,
     "/paths/~1pets~1{petId}/get/responses/200/content/application~1json/schema/$ref", None),
    ("warning", "beside-ref", "member `description` has no effect beside `$ref`", 20, 66,
     "/paths/~1pets~1{petId}/get/responses/200/content/application~1json/schema/description",
     "remove it, or move it to the value that `$ref` leads to"),
    ("warning", "repeated-name", "the name `Pet` comes again in its object", 31, 7, "/components/schemas/Pet",
     "the earlier value has no effect: remove one of the two"),
    ("error", "value-not-allowed", "invalid value", 31, 47, "/components/schemas/Pet/minLength",
     "found the number -1; allowed: whole numbers from 0 to 18446744073709551615"),
]


def test_examples(runner):
    for name, findings in (("broken", BROKEN), ("small", [])):
        with open(f"{TOP}/examples/{name}.json", encoding="utf-8") as it:
            content = it.read()
        file = runner.write(f"{name}.json", content)
        output = "".join(text_of(it, file, content) for it in findings)
        errors = sum(it[0] == "error" for it in findings)
        runner.check(f"examples/{name}.json", ["check", file], 1 if errors else 0, output, summary_of(findings))


def main():
    program = os.path.realpath([*sys.argv[1:], BUILT][0])
    if not os.access(program, os.X_OK):
        print(f"FAILED: {program} is not built\n0 passed, 1 failed")
        return 1
    with tempfile.TemporaryDirectory(prefix="tool-") as folder:
        runner = Runner(program, folder)
        for test in (test_findings, test_syntax, test_lines, test_formats, test_statuses, test_streams, test_words, test_memory,
                     test_examples):
            test(runner)
    print(f"{runner.passed} passed, {runner.failed} failed")
    return 1 if runner.failed else 0


if __name__ == "__main__":
    sys.exit(main())
