#!/usr/bin/env python3
"""Runs the commands of `openapi` that rewrite and list, as a person does, and compares their whole exit status, standard output
and standard error.

usage: tests/commands.py [PROGRAM]      (by default crates/openapi/out/openapi, as `bin/prove.py openapi` built it)

The files are made in a temporary folder, in which the program runs. What is expected is written here from what OpenAPI 3.0.3 and
RFC 8259 state, and not taken from the program. The last line is `N passed, M failed`.
"""
import json
import os
import resource
import signal
import stat
import sys
import tempfile

from tool import BUILT, GOOD, Runner, document, refuse_each, shown

INDENTED = GOOD.replace('{ "title": "t", "version": "1" }', '{\n    "title": "t",\n    "version": "1"\n  }')
COMPACT = '{"openapi":"3.0.3","info":{"title":"t","version":"1"},"paths":{}}\n'
# What each schema may have is printed first, its extensions with it, and then the members of its type.
SCHEMA = '{"type":"string","enum":[],"x-b":0,"x-a":{"z":1,"a":2}}'
# An empty list is a member when the kind of the schema is decided, and is not printed, so this is an integer when it is read again.
AGAIN = '{"type":"integer","exclusiveMinimum":false,"required":[]}'
TAG = '{"x-b":1,"name":"t","x-a":{"z":[],"a":[2,{}]}}'

# Each row: what is tested, the words, standard input, and standard output.
NORMALIZED = [
    ("a document", [], document(), INDENTED),
    ("a document in one line", ["--compact"], document(), COMPACT),
    ("members in the order of the specification", ["--compact"],
     '{"paths":{"/b":{},"/a":{}},"x-z":1,"info":{"version":"1","title":"t"},"x-a":2,"openapi":"3.0.3"}',
     '{"openapi":"3.0.3","info":{"title":"t","version":"1"},"paths":{"/b":{},"/a":{}},"x-z":1,"x-a":2}\n'),
    ("members by name", ["--compact", "--sort"],
     '{"paths":{"/b":{},"/a":{}},"x-z":1,"info":{"version":"1","title":"t"},"x-a":2,"openapi":"3.0.3"}',
     '{"info":{"title":"t","version":"1"},"openapi":"3.0.3","paths":{"/a":{},"/b":{}},"x-a":2,"x-z":1}\n'),
    ("a schema", ["--as", "schema", "--compact"], SCHEMA, '{"x-b":0,"x-a":{"z":1,"a":2},"type":"string"}\n'),
    ("a schema by name", ["--as=schema", "--sort"], SCHEMA,
     '{\n  "type": "string",\n  "x-a": {\n    "a": 2,\n    "z": 1\n  },\n  "x-b": 0\n}\n'),
    ("a schema once", ["--as", "schema", "--compact"], AGAIN, '{"type":"integer","exclusiveMinimum":false}\n'),
    ("a schema in stable form", ["--as", "schema", "--compact", "--settle"], AGAIN, '{"type":"integer"}\n'),
    ("a document in stable form", ["--compact", "--settle"],
     document(f'"components": {{ "schemas": {{ "S": {AGAIN} }} }}'),
     '{"openapi":"3.0.3","info":{"title":"t","version":"1"},"paths":{},"components":{"schemas":{"S":{"type":"integer"}}}}\n'),
    ("a tag", ["--as", "tag"], TAG,
     '{\n  "name": "t",\n  "x-b": 1,\n  "x-a": {\n    "z": [],\n    "a": [\n      2,\n      {}\n    ]\n  }\n}\n'),
    ("a tag in stable form", ["--as", "tag", "--compact", "--settle"], TAG, '{"name":"t","x-b":1,"x-a":{"z":[],"a":[2,{}]}}\n'),
    ("four spaces", ["--as", "tag", "--indent", "4"], '{"name":"  a \\n  b","x-a":[[]]}',
     '{\n    "name": "  a \\n  b",\n    "x-a": [\n        []\n    ]\n}\n'),
    ("one space", ["--as", "tag", "--indent=1"], '{"name":"t","x-a":[{"b":0}]}',
     '{\n "name": "t",\n "x-a": [\n  {\n   "b": 0\n  }\n ]\n}\n'),
    ("no spaces", ["--as", "tag", "--indent", "0"], '{"name":"t","x-a":[0]}', '{\n"name": "t",\n"x-a": [\n0\n]\n}\n'),
    ("three spaces by name", ["--as", "tag", "--sort", "--indent", "3"], '{"x-a":[0],"name":"t"}',
     '{\n   "name": "t",\n   "x-a": [\n      0\n   ]\n}\n'),
    ("numbers as they are, to the limits", ["--as", "tag", "--compact"],
     '{"name":"t","x-a":[-9223372036854775808,18446744073709551615,0]}',
     '{"name":"t","x-a":[-9223372036854775808,18446744073709551615,0]}\n'),
    ("characters outside ASCII", ["--as", "tag", "--compact"], '{"name":"\\u00e9€\\ud83d\\ude00\\u0001/\\/"}',
     '{"name":"é€😀\\u0001//"}\n'),
]


INFO = '"info": { "title": "t", "version": "1" }'
# Each row: what is tested, a document, the same without the members that have no effect, and how many these are.
CLEANED = [
    ("a document without such members", document('"x-a": [ 0, 1 ]'), document('"x-a": [ 0, 1 ]'), 0),
    ("the last member of an object", document('"wat": 1'), GOOD, 1),
    ("the first member of an object", '{\n  "wat": {\n    "a": []\n  },\n' + GOOD[2:], GOOD, 1),
    ("a member between others", GOOD.replace('  "info"', '  "wat": "}",\n  "info"'), GOOD, 1),
    ("members one after another", GOOD.replace('  "info"', '  "wat": 1,\n  "what": 2,\n  "info"'), GOOD, 2),
    ("members here and there", '{"a":1,"openapi":"3.0.3","b":[2],"info":{"c":{},"title":"t","d":null,"version":"1","e":""},"paths":{},"f":0}',
     '{"openapi":"3.0.3","info":{"title":"t","version":"1"},"paths":{}}', 6),
    ("the white space of each kept byte", '{ "openapi" :"3.0.3" ,\t"info":\n\n{"title":"t","version" : "1" , "wat" : 1 }\n,"paths":{ } }\n\n',
     '{ "openapi" :"3.0.3" ,\t"info":\n\n{"title":"t","version" : "1" }\n,"paths":{ } }\n\n', 1),
    ("CR LF", document('"wat": 1').replace("\n", "\r\n"), GOOD.replace("\n", "\r\n"), 1),
    ("all members of an object", document('"components": {', '"a": 1,', '"b": 2', "}").replace("{,", "{").replace(",,", ",").replace("2,\n", "2\n"),
     document('"components": {}'), 2),
    ("a member beside a reference",
     document('"components": { "schemas": { "A": {}, "B": { "$ref": "#/components/schemas/A", "title": "t" } } }'),
     document('"components": { "schemas": { "A": {}, "B": { "$ref": "#/components/schemas/A" } } }'), 1),
    ("a member before a reference",
     document('"components": { "schemas": { "B": { "title": "t", "$ref": "#/a", "x-a": 1 } } }'),
     document('"components": { "schemas": { "B": { "$ref": "#/a" } } }'), 2),
    ("the second of two members", document('"components": { "headers": { "H": { "schema": {}, "content": {}, "x-a": 0 } } }'),
     document('"components": { "headers": { "H": { "schema": {}, "x-a": 0 } } }'), 1),
    ("a name that comes again", '{ "wat": 1, "openapi": "3.0.3", "wat": 2, %s, "paths": {} }' % INFO,
     '{ "openapi": "3.0.3", %s, "paths": {} }' % INFO, 1),
    ("an earlier value of a name stays", '{ "openapi": "3.0.3", "info": { "wat": 0 }, %s, "paths": {} }' % INFO.replace(" }", ', "wat": 1 }'),
     '{ "openapi": "3.0.3", "info": { "wat": 0 }, %s, "paths": {} }' % INFO, 1),
    ("names with escapes", document('"\\u0077at": 1, "a\\/b": "\\u00e9"'), GOOD, 2),
    ("names that a pointer escapes", document('"components": { "schemas": { "a/b~c": { "tytle": 1, "title": "\\u0074" } } }'),
     document('"components": { "schemas": { "a/b~c": { "title": "\\u0074" } } }'), 1),
    ("members of the items of a list", document('"tags": [ { "name": "a", "b": 1 }, { "c": [[]], "name": "d" }, { "name": "e" } ]'),
     document('"tags": [ { "name": "a" }, { "name": "d" }, { "name": "e" } ]'), 2),
    ("numbers as they are written", document('"x-a": [ 1.50, 1E+3, -0, 1e-7, 123456789012345678901234567890 ], "wat": 0.10'),
     document('"x-a": [ 1.50, 1E+3, -0, 1e-7, 123456789012345678901234567890 ]'), 1),
    ("a document that breaks rules", '{ "openapi": 3, "wat": 1, "info": { "title": [], "c": 2 } }', '{ "openapi": 3, "info": { "title": [] } }', 2),
    ("characters outside ASCII", document('"x-é€😀": "ü", "wät": "😀"'), document('"x-é€😀": "ü"'), 1),
    ("what is clean stays", '{}', '{}', 0),
    ("what is clean stays", ' [ 1.50 , -0, 1e300 ]\r\n', ' [ 1.50 , -0, 1e300 ]\r\n', 0),
    ("what is clean stays", '\t{"info": {"title": "\\u0054" ,"version":"1"}, "x-f": 1.50}\n', '\t{"info": {"title": "\\u0054" ,"version":"1"}, "x-f": 1.50}\n', 0),
    ("members go with their commas", '{"wat":1,"paths":{}}', '{"paths":{}}', 1),
    ("members go with their commas", '{"openapi":"3.0.3","wat":1,"paths":{}}', '{"openapi":"3.0.3","paths":{}}', 1),
    ("members go with their commas", '{"paths":{},"wat":1}', '{"paths":{}}', 1),
    ("members go with their commas", '{"wat":1}', '{}', 1),
    ("members go with their commas", '{ "wat" : 1 , "b" : 2 }', '{}', 2),
    ("members go with their commas", '{ "wat" : 1 , "paths" : {} , "b" : 2 }', '{ "paths" : {} }', 2),
    ("members go with their commas", '{"a":1,"b":2,"paths":{},"c":3,"d":4,"tags":[],"e":5,"f":6}', '{"paths":{},"tags":[]}', 6),
    ("members go with their commas", '{\n  "openapi": "3.0.3",\n  "wat": {\n    "a": [1]\n  },\n  "paths": {}\n}\n', '{\n  "openapi": "3.0.3",\n  "paths": {}\n}\n', 1),
    ("members go with their commas", '{\r\n\t"paths": {},\r\n\t"wat": 1\r\n}\r\n', '{\r\n\t"paths": {}\r\n}\r\n', 1),
    ("members of inner objects go", '{"tags": [{"name": "a", "wat": 1}, {"name": "b"}, {"wat": [{}], "name": "c"}], "b": 2}', '{"tags": [{"name": "a"}, {"name": "b"}, {"name": "c"}]}', 3),
    ("members of inner objects go", '{"info":{"contact":{"a":1,"b":2},"license":{"name":"n","c":{"d":1}},"title":"t"}}', '{"info":{"contact":{},"license":{"name":"n"},"title":"t"}}', 3),
    ("members of inner objects go", '{"paths":{"/a~b/{c}":{"wat/~0":1,"summary":"s"},"~":{}}}', '{"paths":{"/a~b/{c}":{"summary":"s"}}}', 2),
    ("members of inner objects go", '{"components":{"schemas":{"A":{"description":"d","$ref":"#/a","type":1},"B":{}}}}', '{"components":{"schemas":{"A":{"$ref":"#/a"},"B":{}}}}', 2),
    ("members of inner objects go", '{"components":{"parameters":{"A":{"name":"a","in":"query","content":{"m":{}},"schema":{"wat":1}}}}}', '{"components":{"parameters":{"A":{"name":"a","in":"query","content":{"m":{}}}}}}', 1),
    ("names may come again and be escaped", '{"wat":1,"paths":{},"\\u0077at":2}', '{"paths":{}}', 1),
    ("names may come again and be escaped", '{"w\\u0061t":1,"a":2,"wat":3,"a":4,"paths":{}}', '{"paths":{}}', 2),
    ("names may come again and be escaped", '{"info":{"wat":1},"info":{"title":"t","wat":2},"paths":{"wat":3}}', '{"info":{"wat":1},"info":{"title":"t"},"paths":{}}', 2),
    ("names may come again and be escaped", '{"info":{"title":"t","wat":1},"tags":[],"\\u0069nfo":[{"wat":1}]}', '{"info":{"title":"t","wat":1},"tags":[],"\\u0069nfo":[{"wat":1}]}', 0),
    ("names may come again and be escaped", '{"":1,"\\"":2,"\\\\":3,"paths":{}}', '{"paths":{}}', 3),
    ("names may come again and be escaped", '{"é":"}","paths":{},"😀":"]\\",{"}', '{"paths":{}}', 2),
]


def left_out(number, file):
    words, them = ("1 member without effect was", "it") if number == 1 else (f"{number} members without effect were", "them")
    said = f"warning: {file}: {words} left out\n"
    return said if file == "<stdin>" else said + f"  = help: `openapi check {file}` lists {them}\n"


def refused(code, message, file, line, column, source, pointer=None, help=None, lists=True):
    said = shown("error", code, message, file, line, column, source, pointer, help)
    return said + (f"help: `openapi check {file}` prints every finding\n" if lists and file != "<stdin>" else "")


WHOLE = "only whole numbers within 64 bits are supported here; `openapi check` takes any"


def test_normalized(runner):
    for what, words, given, output in NORMALIZED:
        runner.check(what, ["normalize", *words], 0, output, "", input=given.encode())
        runner.check(f"{what}, from `-`", ["normalize", *words, "-"], 0, output, "", input=given.encode())
        file = runner.write("in.json", given)
        runner.check(f"{what}, from a file", ["normalize", file, *words], 0, output, "")
        if "--settle" in words or given != AGAIN:
            runner.check(f"{what}, once more", ["normalize", *words], 0, output, "", input=output.encode())


def test_dropped(runner):
    one, two = runner.write("one.json", document('"wat": 1')), runner.write("two.json", document('"wat": 1,', '"what": 2').replace(",,", ","))
    runner.check("a member is left out", ["normalize", "--compact", one], 0, COMPACT, left_out(1, one))
    runner.check("members are left out", ["normalize", "--compact", two, one], 0, COMPACT * 2, left_out(2, two) + left_out(1, one))
    runner.check("a member of standard input is left out", ["normalize", "--compact"], 0, COMPACT, left_out(1, "<stdin>"),
                 input=document('"wat": 1').encode())
    runner.check("a member of a tag is left out", ["normalize", "--compact", "--as", "tag"], 0, '{"name":"t"}\n', left_out(1, "<stdin>"),
                 input=b'{"wat":{"a":1,"b":2},"name":"t"}')
    tag = runner.write("tag.json", '{"name":"t","wat":1}')
    runner.check("a member of a tag in a file is left out", ["normalize", "--compact", "--as", "tag", tag], 0, '{"name":"t"}\n',
                 "warning: tag.json: 1 member without effect was left out\n")


def test_refused(runner):
    bad = runner.write("bad.json", '{\n  "openapi": "3.0.3",\n  "info": {},\n  "paths": []\n}\n')
    said = refused("missing-member", "missing field `title`", bad, 3, 11, '  "info": {},', "/info")
    runner.check("a document that breaks rules", ["normalize", bad], 1, "", said)
    given = '{\n  "name": "é", "externalDocs": {"x-a": [1]}\n}'
    said = refused("missing-member", "missing field `url`", "<stdin>", 2, 32, '  "name": "é", "externalDocs": {"x-a": [1]}', "/externalDocs")
    runner.check("a tag that breaks a rule", ["normalize", "--as", "tag"], 1, "", said, input=given.encode())
    tag = runner.write("tag.json", given)
    said = refused("missing-member", "missing field `url`", tag, 2, 32, '  "name": "é", "externalDocs": {"x-a": [1]}', "/externalDocs",
                   lists=False)
    runner.check("a tag in a file that breaks a rule", ["normalize", "--as", "tag", tag], 1, "", said)
    said = refused("wrong-type", "invalid type, expected object", "<stdin>", 1, 2, " []", "")
    runner.check("a schema that is no object", ["normalize", "--as", "schema"], 1, "", said, input=b" []")
    half = runner.write("half.json", document('"x-a": [1, 0.5]'))
    said = refused("not-whole", "number not whole", half, 5, 14, '  "x-a": [1, 0.5]', "/x-a/1", WHOLE)
    runner.check("a number that is not whole", ["normalize", half], 1, "", said)
    no = runner.write("no.json", "{\n  openapi: 1 }")
    said = shown("error", "not-json", "expected a name or `}`, found `openapi`", no, 2, 3, "  openapi: 1 }", help="write names in double quotes")
    runner.check("no JSON", ["normalize", no], 2, "", said)
    good = runner.write("good.json", GOOD)
    runner.check("of several files the highest status", ["normalize", "--compact", good, no, good], 2, COMPACT * 2, said)
    missing = "error: none.json: No such file or directory (os error 2)\n"
    runner.check("a missing file among others", ["normalize", "--compact", "none.json", good, bad], 3, COMPACT,
                 missing + refused("missing-member", "missing field `title`", bad, 3, 11, '  "info": {},', "/info"))
    for words, file, said in (
        (["--write", "-"], None, "error: `--write` needs a FILE: standard input can't be replaced\n"),
        (["--write"], None, "error: `--write` needs a FILE: standard input can't be replaced\n"),
        (["-o", "out.json", good, bad], None, "error: `-o` takes the text of one FILE\n"),
    ):
        runner.check(f"wrong words {words}", ["normalize", *words], 2, "", said)
    for words, first in (
        (["--write", "--check", good], "error: the argument '--write' cannot be used with '--check'"),
        (["--write", "-o", "out.json", good], "error: the argument '--write' cannot be used with '--output <OUTPUT>'"),
        (["--compact", "--indent", "2", good], "error: the argument '--compact' cannot be used with '--indent <N>'"),
        (["--indent", "17", good], "error: invalid value '17' for '--indent <N>'"),
        (["--indent", "two", good], "error: invalid value 'two' for '--indent <N>'"),
        (["--as", "path", good], "error: invalid value 'path' for '--as <OBJECT>'"),
        (["--settled", good], "error: unexpected argument '--settled' found"),
    ):
        status, output, error = runner.run("normalize", *words)
        runner.compare(f"wrong words {words}", (status, output, error.split("\n")[0].split(":")[:2]), (2, "", first.split(":")[:2]))


def test_cleaned(runner):
    for what, given, wanted, number in CLEANED:
        said = left_out(number, "<stdin>") if number else ""
        runner.check(what, ["clean"], 0, wanted, said, input=given.encode())
        file = runner.write("in.json", given)
        said = left_out(number, file) if number else ""
        runner.check(f"{what}, from a file", ["clean", file], 0, wanted, said)
        runner.check(f"{what}, cleaned", ["clean"], 0, wanted, "", input=wanted.encode())
        runner.check(f"{what}, in place", ["clean", "--write", file], 0, "", said)
        runner.compare(f"the file with {what}", (content(runner, file),), (wanted,))
        runner.check(f"{what}, once more", ["clean", "--check", file], 0, "", "")
        # what is left out is what `check` lists, and then it lists nothing
        runner.write("in.json", given)
        lost = ("unknown-member", "beside-ref", "second-of-two")
        for text, left in ((given, number), (wanted, 0)):
            _, output, _ = runner.run("check", "--format", "json", runner.write("in.json", text))
            found = [it for it in map(json.loads, output.splitlines()) if it["code"] in lost]
            runner.compare(f"members without effect: {what}", (len(found),), (left,))
    file = runner.write("in.json", document('"wat": 1'))
    runner.check("would be cleaned", ["clean", "--check", file], 1, "", f"error: {file} is not clean\n")
    runner.check("to a file", ["clean", "-o", "out.json", file], 0, "", left_out(1, file))
    runner.compare("the file that was written", (content(runner, "out.json"), content(runner, file)), (GOOD, document('"wat": 1')))
    said = shown("error", "not-json", "expected a value or `]`, found the end of the file", "<stdin>", 1, 2, "[")
    runner.check("no JSON", ["clean"], 2, "", said, input=b"[")
    runner.check("a missing file", ["clean", "none.json", file], 3, GOOD,
                 "error: none.json: No such file or directory (os error 2)\n" + left_out(1, file))
    runner.check("standard input in place", ["clean", "--write"], 2, "", "error: `--write` needs a FILE: standard input can't be replaced\n")
    deep = '{"openapi":"3.0.3",%s,"paths":{},"components":{"schemas":{"S":%s}}}'
    levels = lambda inner: "".join('{"properties":{"p":' for _ in range(60)) + inner + "}}" * 60
    runner.check("120 levels", ["clean"], 0, deep % (INFO, levels("{}")), left_out(1, "<stdin>"), input=(deep % (INFO, levels('{"wat":0}'))).encode())
    many = [f'"wat{it}":{it}' for it in range(100_000)]
    wide = '{"openapi":"3.0.3",%s,"paths":{%s"/p":{}}}'
    runner.check("100,000 members", ["clean"], 0, wide % (INFO, ""), left_out(100_000, "<stdin>"), input=(wide % (INFO, ",".join(many) + ",")).encode())


def content(runner, name):
    with open(f"{runner.folder}/{name}", encoding="utf-8", newline="") as it:
        return it.read()


def names(runner):
    return sorted(os.listdir(runner.folder))


def test_targets(runner):
    given = document('"wat": 1')
    file = runner.write("in.json", given)
    before = names(runner)
    runner.check("to a file", ["normalize", file, "-o", "out.json"], 0, "", left_out(1, file))
    runner.compare("the file that was written", (content(runner, "out.json"), content(runner, file)), (INDENTED, given))
    runner.check("to a file that exists", ["normalize", "--compact", "--output=out.json", file], 0, "", left_out(1, file))
    runner.compare("the file that was replaced", (content(runner, "out.json"), names(runner)), (COMPACT, sorted([*before, "out.json"])))
    runner.check("standard input to a file", ["normalize", "-o", "out.json"], 0, "", "", input=INDENTED.encode())
    runner.compare("the file that was replaced by standard input", (content(runner, "out.json"),), (INDENTED,))
    runner.check("to what is no regular file", ["normalize", file, "-o", "/dev/null"], 0, "", left_out(1, file))
    runner.compare("it is no regular file still", (stat.S_ISCHR(os.stat("/dev/null").st_mode),), (True,))
    bad = runner.write("bad.json", "[]")
    said = refused("wrong-type", "invalid type, expected object", bad, 1, 1, "[]", "")
    runner.check("a refusal writes no file", ["normalize", bad, "-o", "out.json"], 1, "", said)
    runner.compare("the file is as it was", (content(runner, "out.json"),), (INDENTED,))
    runner.check("a folder that does not exist", ["normalize", file, "-o", "none/out.json"], 3, "",
                 "error: none/out.json: No such file or directory (os error 2)\n")


def test_in_place(runner):
    file, good = runner.write("in.json", document('"wat": 1')), runner.write("good.json", INDENTED)
    os.chmod(f"{runner.folder}/{file}", 0o640)
    os.symlink(file, f"{runner.folder}/link.json")
    before, when = names(runner), os.stat(f"{runner.folder}/{good}")
    runner.check("would change", ["normalize", "--check", good, file], 1, "", f"error: {file} is not normalized\n")
    runner.check("would not change", ["normalize", "--check", good], 0, "", "")
    runner.check("standard input would change", ["normalize", "--check"], 1, "", "error: <stdin> is not normalized\n",
                 input=COMPACT.encode())
    runner.compare("nothing was written", (content(runner, file), names(runner)), (document('"wat": 1'), before))
    runner.check("in place, by a link", ["normalize", "--write", "link.json", good], 0, "", left_out(1, "link.json"))
    after = os.stat(f"{runner.folder}/{file}")
    runner.compare("the file has the text and its permissions, and the link is one",
                   (content(runner, file), after.st_mode & 0o777, os.path.islink(f"{runner.folder}/link.json"), names(runner)),
                   (INDENTED, 0o640, True, before))
    now = os.stat(f"{runner.folder}/{good}")
    runner.compare("what is normalized is not touched", (now.st_ino, now.st_mtime_ns), (when.st_ino, when.st_mtime_ns))
    runner.check("in place once more", ["normalize", "--write", file, good], 0, "", "")
    bad = runner.write("bad.json", "[]")
    said = refused("wrong-type", "invalid type, expected object", bad, 1, 1, "[]", "")
    runner.check("a refusal in place", ["normalize", "--write", "--compact", bad, good], 1, "", said)
    runner.compare("the refused file is as it was, and the other one is replaced", (content(runner, bad), content(runner, good)),
                   ("[]", COMPACT))


def test_read_only(runner):
    """Checks that a file stays as it is if nothing can be made in its folder."""
    os.mkdir(f"{runner.folder}/closed")
    file = runner.write("closed/in.json", document('"wat": 1'))
    os.chmod(f"{runner.folder}/{file}", 0o644)
    os.chmod(f"{runner.folder}/closed", 0o555)
    os.chmod(runner.folder, 0o755)
    # for root every folder is writable, so another user runs the program
    user = {"user": 65534} if os.geteuid() == 0 else {}
    runner.check("a folder that is read-only", ["normalize", "--write", file], 3, "",
                 f"error: {file}: Permission denied (os error 13)\n", **user)
    runner.compare("the file is as it was", (content(runner, file), os.listdir(f"{runner.folder}/closed")),
                   (document('"wat": 1'), ["in.json"]))
    os.chmod(f"{runner.folder}/closed", 0o755)


def test_full_disk(runner):
    """Checks that a file stays as it is without room for the whole text. A limit on the size of files replaces a full disk, which
    would need a file system of its own."""
    def limit():
        signal.signal(signal.SIGXFSZ, signal.SIG_IGN)
        resource.setrlimit(resource.RLIMIT_FSIZE, (50, 50))

    source = document('"wat": 1')
    file = runner.write("full.json", source)
    before = names(runner)
    for command in ("clean", "normalize"):
        runner.check(f"{command} in place without room for the text", [command, "--write", file], 3, "",
                     f"error: {file}: File too large (os error 27)\n", preexec_fn=limit)
        runner.compare("the file is as it was, and no other is left", (content(runner, file), names(runner)), (source, before))


def test_streams(runner):
    good = runner.write("good.json", GOOD)
    failed = "error: <stdout>: Bad file descriptor (os error 9)\n"
    for words in (["normalize", good], ["operations", f"{TOP}/examples/small.json"]):
        runner.check(f"{words[0]} with standard output closed", words, 3, "", failed, preexec_fn=lambda: os.close(1))
    with open("/dev/full", "wb") as full:
        failed = "error: <stdout>: No space left on device (os error 28)\n"
        for words in (["normalize", good], ["operations", f"{TOP}/examples/small.json"]):
            runner.check(f"{words[0]} to a full disk", words, 3, None, failed, stdout=full)
        runner.check("a full disk as the output file", ["normalize", good, "-o", "/dev/full"], 3, "",
                     "error: /dev/full: No space left on device (os error 28)\n")
    runner.check("standard error is closed", ["normalize", "--compact", runner.write("wat.json", document('"wat": 1'))], 0, COMPACT, "",
                 preexec_fn=lambda: os.close(2))
    runner.check("standard error is closed, and the file is refused", ["normalize", runner.write("bad.json", "[]")], 1, "", "",
                 preexec_fn=lambda: os.close(2))
    runner.check("a folder", ["normalize", "."], 3, "", "error: .: Is a directory (os error 21)\n")


# A document with operations and references, one member a line.
LISTED = """{
  "openapi": "3.0.3",
  "info": { "title": "t", "version": "1" },
  "paths": {
    "/b/{c}": {
      "trace": { "responses": {} },
      "get": { "operationId": "first", "responses": { "200": { "$ref": "#/components/responses/Ok" } } }
    },
    "/r": { "$ref": "other.json#/r" },
    "/a~": { "post": { "operationId": "q\\"\\u0007", "responses": {}, "parameters": [{ "$ref": "#/components/parameters/P" }] } },
    "x-none": { "get": { "$ref": "#/none" } }
  },
  "components": {
    "schemas": { "S": { "properties": { "p": { "$ref": "#/components/schemas/S" } }, "example": { "$ref": "#/none" } } }
  }
}
"""
OPERATIONS = [
    (7, 14, "/paths/~1b~1{c}/get", "get", "/b/{c}", "first"),
    (6, 16, "/paths/~1b~1{c}/trace", "trace", "/b/{c}", None),
    (10, 22, "/paths/~1a~0/post", "post", "/a~", 'q"\x07'),
]
REFERENCES = [
    (7, 62, "/paths/~1b~1{c}/get/responses/200", "#/components/responses/Ok"),
    (9, 11, "/paths/~1r", "other.json#/r"),
    (10, 84, "/paths/~1a~0/post/parameters/0", "#/components/parameters/P"),
    (14, 46, "/components/schemas/S/properties/p", "#/components/schemas/S"),
]


def rows(names, found, **more):
    return "".join(json.dumps({**more, **dict(zip(names, it))}, separators=(",", ":"), ensure_ascii=False) + "\n" for it in found)


def test_operations(runner):
    file = runner.write("in.json", LISTED)
    text = "get /b/{c}\ntrace /b/{c}\npost /a~\n"
    runner.check("operations", ["operations", file], 0, text, "")
    runner.check("operations of standard input", ["operations"], 0, text, "", input=LISTED.encode())
    runner.check("operations of two files", ["operations", file, "-"], 0, text * 2, "", input=LISTED.encode())
    members = ("line", "column", "pointer", "method", "path", "operationId")
    runner.check("operations as JSON", ["operations", "--format", "json", file], 0, rows(members, OPERATIONS, file=file), "")
    runner.check("a document without operations", ["operations", runner.write("good.json", GOOD)], 0, "", "")
    bad = runner.write("bad.json", "[]")
    said = shown("error", "wrong-type", "invalid type, expected object", bad, 1, 1, "[]", "")
    runner.check("operations of what breaks a rule", ["operations", bad], 1, "", said)
    said = shown("error", "not-json", "expected a value or `]`, found the end of the file", "<stdin>", 1, 2, "[")
    runner.check("operations of no JSON", ["operations", "-"], 2, "", said, input=b"[")
    runner.check("operations of a missing file", ["operations", "none.json", file], 3, text,
                 "error: none.json: No such file or directory (os error 2)\n")
    control = runner.write("control.json", GOOD.replace('"paths": {}', '"paths": { "/a\\u001b[2J": { "get": { "responses": {} } } }'))
    runner.check("a control character in a path", ["operations", control], 0, "get /a\ufffd[2J\n", "")


def test_references(runner):
    file = runner.write("in.json", LISTED)
    text = "".join(f"{file}:{line}:{column}: {reference}\n" for line, column, _, reference in REFERENCES)
    runner.check("references", ["references", file], 0, text, "")
    runner.check("references of standard input", ["references"], 0, text.replace(file, "<stdin>"), "", input=LISTED.encode())
    members = ("line", "column", "pointer", "reference")
    runner.check("references as JSON", ["references", "--format=json", file], 0, rows(members, REFERENCES, file=file), "")
    runner.check("a document without references", ["references", runner.write("good.json", GOOD)], 0, "", "")
    # what breaks rules elsewhere has references all the same
    broken = runner.write("broken.json", LISTED.replace('"version": "1"', '"version": 1'))
    runner.check("references of what breaks a rule", ["references", broken], 0, text.replace(file, broken), "")
    half = runner.write("half.json", LISTED.replace('"version": "1"', '"version": "1", "x-a": 0.5'))
    runner.check("references beside a fraction", ["references", half], 0, text.replace(file, half), "")
    said = shown("error", "not-json", "the file is empty", "<stdin>", 1, 1, "", help="a document is one JSON object")
    runner.check("references of no JSON", ["references"], 2, "", said, input=b"")


def test_words(runner):
    for command in ("normalize", "operations", "references"):
        status, output, error = runner.run(command, "--help")
        runner.compare(f"help of {command}", (status, f"openapi {command}" in output and "Example:" in output, error), (0, True, ""))


def test_memory(runner):
    small, broken = f"{TOP}/examples/small.json", f"{TOP}/examples/broken.json"
    for words in (["normalize", small], ["normalize", "--sort", "--settle", "--indent", "3", small], ["normalize", broken],
                  ["normalize", "-o", "out.json", small], ["operations", "--format", "json", small], ["references", broken]):
        refuse_each(runner, words)


TOP = os.path.dirname(os.path.dirname(os.path.realpath(__file__)))


def main():
    program = os.path.realpath([*sys.argv[1:], BUILT][0])
    if not os.access(program, os.X_OK):
        print(f"FAILED: {program} is not built\n0 passed, 1 failed")
        return 1
    passed = failed = 0
    for test in (test_normalized, test_cleaned, test_dropped, test_refused, test_targets, test_in_place, test_read_only, test_full_disk,
                 test_streams, test_operations, test_references, test_words, test_memory):
        with tempfile.TemporaryDirectory(prefix="commands-") as folder:
            runner = Runner(program, folder)
            test(runner)
            passed, failed = passed + runner.passed, failed + runner.failed
    print(f"{passed} passed, {failed} failed")
    return 1 if failed else 0


if __name__ == "__main__":
    sys.exit(main())
