#!/usr/bin/env python3
"""Makes random documents and schemas, and checks what `openapi_faults` finds in them, and what a visitor visits.

usage: tests/findings.py [--unproved] [--seed N] [--count N]

The maker is that of `tests/random_documents.py`, which makes values from OpenAPI's own tables. It checks of each value:
- It has no fault, since it conforms.
- With several faults planted, of which none hides another, exactly these are found.
- Without the members that are dropped the value is normalized to the same text, and none is dropped any more.
- A visitor of a document visits each object and each reference that OpenAPI's own tables have in its normalized text. It visits
  an object before the objects in it. The references are those that `references` returns.
Then it checks a fault below 120 levels, a hundred thousand faults in a list, and one under a name of a megabyte.

The program is `openapi_cases`, as `bin/prove.py openapi_cases` built it; with --unproved as `bin/unproved.py openapi_cases` did.
The last line is `N passed, M failed`.
"""
import argparse
import copy
import json
import os
import random
import subprocess
import sys

from random_documents import Maker, kinds_of, with_fault

TOP = os.path.dirname(os.path.dirname(os.path.realpath(__file__)))
PROGRAM = f"{TOP}/crates/openapi_cases/out/openapi_cases"


class OneLine(Maker):
    """Makes names and texts without line feeds, so that each finding is a line."""

    def text(self):
        return super().text().replace("\n", "N")


def ask(program, requests):
    """Returns the lines of the answer to each request: a command with a type, and a value."""
    lines = [f"{words}\t{json.dumps(value, ensure_ascii=False)}\n" for words, value in requests]
    ran = subprocess.run([program], input="".join(lines).encode(), capture_output=True, timeout=600, check=True)
    answers = [it.split("\n") for it in ran.stdout.decode().removesuffix("\n\n").split("\n\n")]
    if len(answers) != len(requests):
        sys.exit(f"{len(answers)} answers to {len(requests)} requests\n0 passed, 1 failed")
    return answers


def apart(faults, dice):
    """Returns some of the faults, none of which is in an object that another one changes."""
    chosen = []
    for it in dice.sample(faults, len(faults)):
        above = it.place[:-1]
        if len(chosen) < 6 and it.place and all(
            above != other.place[: len(above)] and other.place[:-1] != it.place[: len(other.place) - 1] for other in chosen
        ):
            chosen.append(it)
    return chosen


def without(value, answer):
    """Returns the value without the members that an answer lists as dropped. Members are removed from the last on, since one may
    be in another."""
    value = copy.deepcopy(value)
    for line in reversed([it for it in answer if it != "= none"]):
        steps = [it.replace("~1", "/").replace("~0", "~") for it in line.partition(" at #/")[2].split("/")]
        at = value
        for step in steps[:-1]:
            at = at[int(step)] if isinstance(at, list) else at.get(step, {})
        at.pop(steps[-1], None)
    return value


# What a visitor visits, by the kinds of the tables.
VISITED = {
    "Components": "components", "PathItem": "path item", "Operation": "operation", "Parameter": "parameter",
    "RequestBody": "request body", "Response": "response", "Header": "header", "MediaType": "media type", "Encoding": "encoding",
    "Callback": "callback", "Schema": "schema", "Example": "example", "Link": "link", "SecurityScheme": "security scheme",
}


def visits(kind, value, at="#"):
    """Yields a line for each object and each reference of a normalized value."""
    if kind[0] == "&" or kind == "flag-or-schema":
        kind = "Schema" if kind[0] == "f" else kind[1:]
        if isinstance(value, dict) and isinstance(value.get("$ref"), str):
            yield f"= reference {at} to {value['$ref']}"
            return
    if kind[0] in "[{" and value is not None:
        pairs = enumerate(value) if isinstance(value, list) else value.items()
        kinds = dict.fromkeys(value if isinstance(value, dict) else range(len(value)), kind[1:-1])
    elif isinstance(value, dict) and kind not in ("any", "Security"):
        if kind in VISITED:
            yield f"= {VISITED[kind]} {at}"
        pairs, kinds = value.items(), kinds_of(kind, value)
    else:
        return
    for name, inner in pairs:
        token = str(name).replace("~", "~0").replace("/", "~1")
        yield from visits(kinds.get(name, "any"), inner, f"{at}/{token}")


def above(line):
    """Returns the location in a line, with an end that no token has."""
    return line.partition("#")[2].partition(" to ")[0] + "/"


def is_top_down(lines):
    """Returns whether no object is visited after one in it."""
    seen = set()
    for line in lines:
        at = above(line)
        if at in seen:
            return False
        seen.update(at[: end + 1] for end, sign in enumerate(at) if sign == "/")
    return True


class Round:
    """A value, with faults that can be planted."""

    def __init__(self, seed, kind):
        dice = random.Random(f"{seed} {kind}")
        maker = OneLine(dice)
        self.kind, self.value = kind, maker.make(kind, ()).given
        self.planted = apart([it for it in maker.faults if not it.said.startswith("number not whole")], dice)
        self.broken = self.value
        for it in self.planted:
            self.broken = with_fault(self.broken, it)

    def requests(self):
        """Returns the first requests."""
        faults, dropped = f"faults {self.kind}", f"dropped {self.kind}"
        return [(faults, self.value), (faults, self.broken), (dropped, self.value), (f"clean {self.kind}", self.value)]

    def then(self, dropped, clean):
        """Returns the requests for the value without the members that are dropped, and for the normalized value."""
        value = without(self.value, dropped)
        asked = [(f"dropped {self.kind}", value), (f"clean {self.kind}", value)]
        normalized = json.loads(clean[0].removeprefix("= ")) if self.kind == "OpenAPI" else None
        return asked + ([("visited OpenAPI", normalized), ("references OpenAPI", normalized)] if normalized else asked)

    def is_visited(self, clean, visited, references):
        """Returns whether exactly what is in the normalized value was visited."""
        if self.kind != "OpenAPI":
            return True
        wanted = sorted(visits("OpenAPI", json.loads(clean[0].removeprefix("= "))))
        texts = [it.removeprefix("= reference ") for it in visited if it.startswith("= reference ")]
        told = [it.removeprefix("= ").rpartition(" as ")[0] for it in references if it != "= none"]
        return sorted(visited) == (wanted or ["= none"]) and sorted(texts) == sorted(told) and is_top_down(visited)


def large():
    """Yields requests for large values, each with the lines that are wanted."""
    deep = 7
    for _ in range(120):
        deep = {"not": deep}
    yield ("faults Schema", deep), ["! invalid type, expected object at #" + "/not" * 120]
    count = 100_000
    yield ("faults Schema", {"required": [*range(count)]}), [f"! invalid type, expected text at #/required/{it}" for it in range(count)]
    yield ("dropped Schema", {f"m{it:05}": it for it in range(count)}), [f"= unknown member at #/m{it:05}" for it in range(count)]
    name = "n" * 2**20
    yield ("faults Schema", {"properties": {name: 7}}), [f"! invalid type, expected object at #/properties/{name}"]
    yield ("references Schema", {"properties": {name: {"$ref": name}}}), [f"= #/properties/{name} to {name} as Schema"]


def main():
    parser = argparse.ArgumentParser()
    parser.add_argument("--unproved", action="store_true")
    parser.add_argument("--seed", type=int, default=random.randrange(10**6))
    parser.add_argument("--count", type=int, default=200)
    asked = parser.parse_args()
    program = PROGRAM + ".unproved" * asked.unproved
    if not os.access(program, os.X_OK):
        print(f"FAILED: {program} is not built\n0 passed, 1 failed")
        return 1
    print(f"seed {asked.seed}, {asked.count} rounds", flush=True)
    rounds = [Round(f"{asked.seed} {turn}", kind) for turn in range(asked.count) for kind in ("OpenAPI", "Schema")]
    first = ask(program, [it for round in rounds for it in round.requests()])
    answers = [first[at : at + 4] for at in range(0, len(first), 4)]
    last = ask(program, [it for round, (_, _, dropped, clean) in zip(rounds, answers) for it in round.then(dropped, clean)])
    passed = failed = planted = removed = visited = 0
    for at, (round, (none, faults, dropped, clean)) in enumerate(zip(rounds, answers)):
        wanted = sorted(f"! {it.said}" for it in round.planted) or ["= none"]
        planted += len(round.planted)
        removed += len(dropped) * (dropped != ["= none"])
        found = {
            "a value that conforms has no fault": none == ["= none"],
            f"these faults are found: {wanted}, not {faults}": sorted(faults) == wanted,
            f"without what is dropped, nothing is: {last[4 * at]}": last[4 * at] == ["= none"],
            "and the value is normalized to the same": last[4 * at + 1] == clean and clean[0].startswith("= "),
            "and all of it is visited": round.is_visited(clean, last[4 * at + 2], last[4 * at + 3]),
        }
        visited += len(last[4 * at + 2]) * (round.kind == "OpenAPI")
        for what, holds in found.items():
            passed, failed = passed + holds, failed + (not holds)
            if not holds and failed < 4:
                print(f"FAILED: {what}\n  of {json.dumps(round.value, ensure_ascii=False)[:2000]}")
    requests, wanted = zip(*large())
    for (words, _), answer, lines in zip(requests, ask(program, requests), wanted):
        passed, failed = passed + (answer == lines), failed + (answer != lines)
        if answer != lines:
            print(f"FAILED: {words} of a large value: {len(answer)} lines came, such as {answer[0][:200]}, and {len(lines)} were wanted")
    told = f"{planted} faults were planted, {removed} members removed, and {visited} objects and references visited"
    if not planted or not removed or not visited:
        print(f"FAILED: {told}")
        failed += 1
    print(told)
    print(f"{passed} passed, {failed} failed")
    return 1 if failed else 0


if __name__ == "__main__":
    sys.exit(main())
