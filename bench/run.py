#!/usr/bin/env python3
"""Times `openapi_clean` on inputs that it makes itself, and measures the peak memory of each run.

usage: bench/run.py [--sizes 1,4,16] [--runs N] [--command tag] [--only NAME] [--tool | --other PROGRAM [--straight]]
                    [--instructions] [PROGRAM]

PROGRAM is the program to measure, by default the one that `bin/prove.py openapi_clean` built. For each shape of input and each
size in megabytes it prints the bytes read in a second by the clock (the best of the runs) and the peak memory for each byte
read. Then it prints the growth: the time for each byte at the largest size over that at the smallest. It needs a C compiler.

- `--instructions` counts the instructions for each byte too, by valgrind, at the two smallest sizes.
- `--other` names a second program. It is run with the same argument on the same inputs, alternating with the first. A line has
  the time, the memory and the instructions of the first as shares of those of the second.
- `--straight` runs the second program once more, with the word `--direct` before the argument, and prints a line for each of
  its two ways.
- `--tool` measures `openapi normalize --compact` as the second program, on tags, schemas and documents. So the line compares
  output by name with output in order.
"""
import argparse
import os
import shutil
import subprocess
import sys
import tempfile
import time

TOP = os.path.dirname(os.path.dirname(os.path.abspath(__file__)))
BUILT = os.path.join(TOP, "crates", "openapi_clean", "out", "openapi_clean")
TOOL = os.path.join(TOP, "crates", "openapi", "out", "openapi")
MEGABYTE = 1_000_000


def tag(value):
    """Returns a tag with the value under an extension."""
    return '{"name":"t","x-v":' + value + "}"


def many(size, piece):
    """Returns numbered pieces, as many as have that length together."""
    pieces, length, number = [], 0, 0
    while length < size:
        text = piece(number)
        pieces.append(text)
        length += len(text) + 1
        number += 1
    return ",".join(pieces)


def wide(size):
    """Returns one object with many members."""
    return tag("{" + many(size, lambda i: f'"member-{i:07}":{i}') + "}")


def deep(size):
    """Returns objects in objects, 120 levels, over and over."""
    level = '{"name":"level","marks":[12,345,6789],"next":'
    return tag("[" + many(size, lambda i: level * 120 + str(i) + "}" * 120) + "]")


def texts(size):
    """Returns long texts, with what has to be escaped."""
    return tag("[" + many(size, lambda i: '"' + f"line {i} \\u00e9 \\n " * 400 + '"') + "]")


def objects(size):
    """Returns many small objects."""
    small = '"known":true,"text":"a few words","none":null'
    return tag("[" + many(size, lambda i: f'{{"id":{i},"name":"object {i}",{small}}}') + "]")


def numbers(size):
    """Returns long lists of numbers."""
    return tag("[" + many(size, lambda i: "[" + ",".join(str(i * 37 + j) for j in range(1000)) + "]") + "]")


def properties(size):
    """Returns a schema of an object with many members."""
    return '{"type":"object","properties":{' + many(
        size, lambda i: f'"member-{i:07}":{{"type":"integer","minimum":{i}}}') + "}}"


def nested(size):
    """Returns schemas that combine schemas, 60 levels, over and over."""
    level = '{"title":"level","allOf":['
    return '{"allOf":[' + many(size, lambda i: level * 60 + '{"type":"string"}' + "]}" * 60) + "]}"


def enumerations(size):
    """Returns a schema with a long enumeration."""
    return '{"type":"string","enum":[' + many(size, lambda i: f'"value {i}",null') + "]}"


def schemas(size):
    """Returns many small schemas of every sort, and references."""
    small = [
        '{"type":"string","format":"date","description":"a day"}',
        '{"type":"number","maximum":10,"x-unit":"m"}',
        '{"type":"array","items":{"$ref":"#/components/schemas/Item"},"uniqueItems":true}',
        '{"type":"object","required":["id"],"properties":{"id":{"type":"integer","format":"int64"}}}',
        '{"$ref":"#/components/schemas/Other"}',
        '{"minimum":1,"pattern":"^a"}',
    ]
    return '{"anyOf":[' + many(size, lambda i: small[i % len(small)]) + "]}"


def answers(number):
    """Returns the responses of an operation, as one of its members."""
    return (
        '"responses":{"200":{"description":"The item","headers":{"X-Rate":{"schema":{"type":"integer"}}},"content":'
        f'{{"application/json":{{"schema":{{"$ref":"#/components/schemas/Item{number}"}}}}}}}},'
        '"404":{"$ref":"#/components/responses/missing"},"default":{"$ref":"#/components/responses/failure"}}'
    )


def path(number):
    """Returns a path with three operations; every fourth has a callback."""
    heard = '"callbacks":{"changed":{"{$request.body#/hook}":{"post":{"responses":{"204":{"description":"Heard"}}}}}},'
    body = f'{{"required":true,"content":{{"application/json":{{"schema":{{"$ref":"#/components/schemas/Item{number}"}}}}}}}}'
    return (
        f'"/shops/{{shop}}/items{number}":{{"parameters":[{{"name":"shop","in":"path","required":true,"schema":'
        '{"type":"string","minLength":1}}],'
        f'"get":{{"tags":["items"],"summary":"Lists items","operationId":"list{number}","parameters":['
        '{"$ref":"#/components/parameters/limit"},{"name":"after","in":"query","description":"Where the page begins",'
        f'"schema":{{"type":"string","format":"date-time"}}}}],{answers(number)}}},'
        f'"post":{{"tags":["items"],"summary":"Makes an item","operationId":"make{number}","requestBody":{body},'
        f'{heard if number % 4 == 0 else ""}{answers(number)}}},'
        f'"delete":{{"deprecated":true,"operationId":"drop{number}","security":[{{"key":[]}}],"responses":'
        '{"204":{"description":"The item is gone"}}}}'
    )


def item(number):
    """Returns a schema of the components, as those of real descriptions are: an object of some ten members."""
    texts = ",".join(
        f'"{name}":{{"type":"string","description":"The {name} of the item, as people read it"}}'
        for name in ["name", "title", "colour", "origin"])
    return (
        f'"Item{number}":{{"type":"object","description":"An item of a shop","required":["id","name"],"properties":{{'
        '"id":{"type":"integer","format":"int64","readOnly":true},' + texts + ','
        '"price":{"type":"integer","minimum":0,"example":100},"kind":{"type":"string","enum":["new","used"]},'
        '"tags":{"type":"array","items":{"type":"string"},"uniqueItems":true},"made":{"type":"string","format":"date"},'
        '"owner":{"$ref":"#/components/schemas/Owner"},"parts":{"allOf":[{"$ref":"#/components/schemas/Part"},'
        '{"type":"object","additionalProperties":false}]}}}'
    )


def documents(size):
    """Returns a whole document: three fifths of it paths, two fifths schemas."""
    return (
        '{"openapi":"3.0.3","info":{"title":"Shops","version":"1"},"servers":[{"url":"https://shops.example"}],"paths":{'
        + many(size * 3 // 5, path) + '},"components":{"schemas":{' + many(size * 2 // 5, item) + '},'
        '"parameters":{"limit":{"name":"limit","in":"query","schema":{"type":"integer"}}},'
        '"responses":{"missing":{"description":"No such item"},"failure":{"description":"The call failed"}},'
        '"securitySchemes":{"key":{"type":"apiKey","in":"header","name":"X-Key"}}}}'
    )


TAGS = [wide, deep, texts, objects, numbers]
SCHEMAS = [properties, nested, enumerations, schemas]
SHAPES = {
    "tag": TAGS,
    "schema": SCHEMAS,
    "document": [documents],
    "settle": [documents],
    "operations": [documents],
}


def made(shape, megabytes, folder):
    """Returns the file of an input, and its size in bytes."""
    path = os.path.join(folder, f"{shape.__name__}-{megabytes}.json")
    if not os.path.exists(path):
        with open(path, "w") as file:
            file.write(shape(int(megabytes * MEGABYTE)))
    return path, os.path.getsize(path)


def launcher(folder):
    """Compiles the small program by which others are run."""
    program = os.path.join(folder, "launch")
    subprocess.run(["cc", "-O1", "-o", program, os.path.join(TOP, "bench", "launch.c")], check=True)
    return program


def measured(launch, words, command, path):
    """Returns the seconds by the clock and the peak bytes of one run of the program with its arguments."""
    run = subprocess.run([launch, path, *words, command], capture_output=True, text=True)
    if run.returncode != 0:
        sys.exit(f"{' '.join(words)} {command} failed on {path}: {run.stderr.strip()}")
    seconds, peak = run.stdout.split()
    return float(seconds), int(peak)


def instructions(words, command, path):
    """Returns the instructions of one run of the program with its arguments, as valgrind counts them."""
    with open(path, "rb") as source, tempfile.NamedTemporaryFile() as out:
        run = subprocess.run(
            ["valgrind", "--tool=callgrind", f"--callgrind-out-file={out.name}", *words, command],
            stdin=source, stdout=subprocess.DEVNULL, stderr=subprocess.PIPE, text=True, check=True)
    for line in run.stderr.splitlines():
        if "Collected" in line:
            return int(line.split(":")[1])
    return 0


def timed(launch, programs, arguments, shape, megabytes, folder):
    """Runs the programs, alternating, on one input. Prints a line for each and their ratios, and returns the seconds a byte of each."""
    path, size = made(shape, megabytes, folder)
    runs = {label: [] for label, _ in programs}
    for _ in range(arguments.runs):
        for label, words in programs:
            runs[label].append(measured(launch, words, arguments.command, path))
    best = {label: (min(it[0] for it in found), max(it[1] for it in found)) for label, found in runs.items()}
    for label, (seconds, peak) in best.items():
        print(f"{label:8} {shape.__name__:12} {size / MEGABYTE:6.1f} MB  {size / seconds / MEGABYTE:7.1f} MB/s"
              f"  {peak / size:6.1f} bytes of memory a byte", flush=True)
    ours, room = best["this"]
    for label, (theirs, their_room) in list(best.items())[1:]:
        print(f"of {label:8} {shape.__name__:12} {size / MEGABYTE:6.1f} MB  time {ours / theirs:.2f}"
              f"  memory {room / their_room:.2f}", flush=True)
    return {label: seconds / size for label, (seconds, _) in best.items()}


def counted(programs, arguments, shape, folder):
    """Counts the instructions for each byte at the two smallest sizes, which no other work on the machine disturbs."""
    first = {}
    for label, words in programs:
        counts = []
        for megabytes in arguments.sizes[:2]:
            path, size = made(shape, megabytes, folder)
            counts.append(instructions(words, arguments.command, path) / size)
        growth = f", growth {counts[-1] / counts[0]:.2f}" if len(counts) > 1 else ""
        print(f"{label:8} {shape.__name__:12} {counts[0]:.0f} instructions a byte{growth}", flush=True)
        first[label] = counts[0]
    for label in list(first)[1:]:
        print(f"of {label:8} {shape.__name__:12} instructions {first['this'] / first[label]:.2f}", flush=True)


def report(launch, programs, arguments, shape, folder):
    """Measures the programs on one shape of input, at each size."""
    rates = [timed(launch, programs, arguments, shape, it, folder) for it in arguments.sizes]
    if len(rates) > 1:
        for label, _ in programs:
            print(f"{label:8} {shape.__name__:12} growth {rates[-1][label] / rates[0][label]:.2f}", flush=True)
    if arguments.instructions and shutil.which("valgrind"):
        counted(programs, arguments, shape, folder)


def main():
    parser = argparse.ArgumentParser(description="times openapi_clean")
    parser.add_argument("program", nargs="?", default=BUILT)
    parser.add_argument("--tool", action="store_true")
    parser.add_argument("--other")
    parser.add_argument("--straight", action="store_true")
    parser.add_argument("--command", default="tag", choices=sorted(SHAPES))
    parser.add_argument("--sizes", default="1,4,16", type=lambda text: [float(word) for word in text.split(",")])
    parser.add_argument("--runs", default=3, type=int)
    parser.add_argument("--only")
    parser.add_argument("--instructions", action="store_true")
    arguments = parser.parse_args()
    if not os.access(arguments.program, os.X_OK):
        sys.exit(f"no program at {arguments.program}: run bin/prove.py openapi_clean, which builds it")
    programs = [("this", [arguments.program])]
    if arguments.tool:
        programs.append(("tool", [TOOL, "normalize", "--compact", "--as"]))
    if arguments.other:
        programs.append(("other", [arguments.other]))
        if arguments.straight:
            programs.append(("straight", [arguments.other, "--direct"]))
    started = time.time()
    with tempfile.TemporaryDirectory() as folder:
        launch = launcher(folder)
        for shape in SHAPES[arguments.command]:
            if arguments.only in (None, shape.__name__):
                report(launch, programs, arguments, shape, folder)
    print(f"{time.time() - started:.0f} seconds in all")


if __name__ == "__main__":
    main()
