#!/usr/bin/env python3
"""Makes random documents, and compares what `openapi check` finds in them with what their maker knows.

usage: tests/tool_documents.py [--seed N] [--count N] [PROGRAM]      (by default the program as `bin/prove.py openapi` built it)

The maker is that of `tests/random_documents.py`, which makes documents from OpenAPI's own tables. In each round a document has no
fault, since it conforms. Then several faults are planted, of which none hides another. Exactly these are found, each with its
message, pointer, line and column, in the order of the text. Without the members that are reported as having no effect none is
reported any more. The last line is `N passed, M failed`.
"""
import argparse
import copy
import json
import os
import random
import subprocess
import sys
import tempfile

from findings import OneLine, apart
from random_documents import point_of, with_fault

TOP = os.path.dirname(os.path.dirname(os.path.realpath(__file__)))
BUILT = f"{TOP}/crates/openapi/out/openapi"
FAULTS = {"missing-member", "missing-either", "wrong-type", "value-not-allowed", "unknown-value", "not-whole", "fraction"}
LOSSES = {"unknown-member", "beside-ref", "second-of-two"}


def findings_of(program, folder, values):
    """Returns the findings of each value, by one run of the program."""
    names = []
    for at, value in enumerate(values):
        names.append(f"{at}.json")
        with open(f"{folder}/{at}.json", "w", encoding="utf-8") as it:
            json.dump(value, it, indent=1, ensure_ascii=False)
    ran = subprocess.run([program, "check", "--format", "json", *names], cwd=folder, capture_output=True, timeout=600)
    found = {name: [] for name in names}
    for line in ran.stdout.decode().splitlines():
        finding = json.loads(line)
        found[finding["file"]].append(finding)
    return [found[name] for name in names]


def is_sorted(findings):
    points = [(it["line"], it["column"]) for it in findings]
    return points == sorted(points)


def said(finding):
    return f"{finding['line']}:{finding['column']}: {finding['message']} at #{finding['pointer']}"


def without(value, findings):
    """Returns the value without the members of findings. Members are removed from the last on, since one may be in another."""
    value = copy.deepcopy(value)
    for finding in reversed(findings):
        steps = [it.replace("~1", "/").replace("~0", "~") for it in finding["pointer"].split("/")[1:]]
        at = value
        for step in steps[:-1]:
            at = at[int(step)] if isinstance(at, list) else at.get(step, {})
        at.pop(steps[-1], None)
    return value


def reported(fault):
    """Returns what is to be reported of a planted fault. A number that is not whole is planted where any number may be."""
    return fault.said.replace("number not whole", "the number 0.5 is not written as a whole number")


def planted_document(seed):
    """Returns a document, the same with faults planted, and these faults as they are to be reported."""
    dice = random.Random(f"{seed}")
    maker = OneLine(dice)
    value = maker.make("OpenAPI", ()).given
    faults = apart(maker.faults, dice)
    broken = value
    for it in faults:
        broken = with_fault(broken, it)
    text = json.dumps(broken, indent=1, ensure_ascii=False)
    return value, broken, sorted(f"{point_of(text, it)}: {reported(it)}" for it in faults)


def main():
    parser = argparse.ArgumentParser()
    parser.add_argument("program", nargs="?", default=BUILT)
    parser.add_argument("--seed", type=int, default=random.randrange(10**6))
    parser.add_argument("--count", type=int, default=200)
    asked = parser.parse_args()
    program = os.path.realpath(asked.program)
    if not os.access(program, os.X_OK):
        print(f"FAILED: {program} is not built\n0 passed, 1 failed")
        return 1
    print(f"seed {asked.seed}, {asked.count} rounds", flush=True)
    rounds = [planted_document(f"{asked.seed} {turn}") for turn in range(asked.count)]
    with tempfile.TemporaryDirectory(prefix="tool-") as folder:
        clean = findings_of(program, folder, [value for value, _, _ in rounds])
        broken = findings_of(program, folder, [value for _, value, _ in rounds])
        losses = [[it for it in found if it["code"] in LOSSES] for found in clean]
        cut = findings_of(program, folder, [without(value, lost) for (value, _, _), lost in zip(rounds, losses)])
    passed = failed = planted = removed = 0
    for (value, _, wanted), sound, faulty, lost, rest in zip(rounds, clean, broken, losses, cut):
        planted, removed = planted + len(wanted), removed + len(lost)
        came = sorted(said(it) for it in faulty if it["code"] in FAULTS)
        left = [said(it) for it in rest if it["code"] in FAULTS | LOSSES]
        for what, holds in {
            "a document that conforms has no fault": not any(it["code"] in FAULTS for it in sound),
            f"these faults are found: {wanted}, not {came}": came == wanted,
            "the findings are in the order of the text": is_sorted(sound) and is_sorted(faulty),
            f"without what has no effect there is nothing to report: {left}": not left,
        }.items():
            passed, failed = passed + holds, failed + (not holds)
            if not holds and failed < 4:
                print(f"FAILED: {what}\n  of {json.dumps(value, ensure_ascii=False)[:2000]}")
    if not planted or not removed:
        print(f"FAILED: {planted} faults were planted, and {removed} members removed")
        failed += 1
    print(f"{planted} faults were planted, and {removed} members removed")
    print(f"{passed} passed, {failed} failed")
    return 1 if failed else 0


if __name__ == "__main__":
    sys.exit(main())
