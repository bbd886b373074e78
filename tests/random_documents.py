#!/usr/bin/env python3
"""Makes random documents from OpenAPI's own tables, and compares the programs' output with what their maker knows.

usage: tests/random_documents.py [--seed N] [--count N] [PROGRAM [TOOL]]
       (without PROGRAM: `openapi_clean` and `openapi` as `bin/prove.py` built them)

Each round makes a document that conforms, with members that OpenAPI does not know, nulls where a member may be missing,
empty lists and maps, flags that are false, names and texts of all sorts, and numbers up to the limits. The maker knows the
normalized document, the one in stable form and the operations, and compares each with the program's output. What is in stable
form has to stay as it is. Then it plants one fault, of which it knows the cause and the location, and compares the message.

The same is done with `openapi normalize`. Its output has to be the same but for the order of members. The entries of each map,
the extensions and what is in these have to be in the order of the text. A fault has to be reported at the line and the column of
its value. The tables are in `tests/openapi_fields.py`.

The first line is the seed. Of all documents that fail the smallest is shown, without the members and items that it fails
without. The maker makes it again without each, one after another, so that it knows what is wanted of the rest. The last line is
`N passed, M failed`.
"""
import argparse
import collections
import copy
import json
import os
import random
import re
import subprocess
import sys

from openapi_fields import KEYWORDS, METHODS, OF_TYPE, TABLES, TAGGED

TOP = os.path.dirname(os.path.dirname(os.path.realpath(__file__)))
BUILT = [f"{TOP}/crates/{it}/out/{it}" for it in ("openapi_clean", "openapi")]

SORTS = [*OF_TYPE, "oneOf", "allOf", "anyOf", "not", "any"]
LETTERS = ["a", "b", "Z", "0", " ", "/", "~", "{", "}", '"', "\\", ".", "-", "é", "ß", "日", "😀", "\n", "\t", "\x01", "\x7f"]
LEAST, MOST = -(2**63), 2**64 - 1
# What `openapi normalize` prints to standard error: what it left out, or a refusal.
LEFT_OUT = re.compile(r"(warning: <stdin>: [1-9]\d* members? without effect (was|were) left out\n)?")
REFUSAL = re.compile(r"error\[[a-z-]+\]: (.*)\n +--> <stdin>:(\d+:\d+)\n(?: .*\n){3} += pointer: (.*)\n")

# A JSON value as it is given, normalized, and in stable form.
Made = collections.namedtuple("Made", "given cleaned settled")
# What a round compares: the program, its command and its input, how its output is compared, and what the maker had made.
Check = collections.namedtuple("Check", "what program command given compare made")
# A fault: how it is planted in the object that was given, and the message that reports it.
Planted = collections.namedtuple("Planted", "place value said")
ABSENT = object()


def same(tree):
    return Made(tree, tree, tree)


def is_whole(value):
    return isinstance(value, int) and not isinstance(value, bool)


def sort_of(members):
    """Returns the sort of a schema whose members these are: one of SORTS."""
    present = [name for name in KEYWORDS if members.get(name) is not None]
    if len(present) == 1 and present[0] in SORTS:
        return present[0]
    of = members.get("type")
    if of not in OF_TYPE or not set(present) <= {"type", *OF_TYPE[of]}:
        return "any"
    entries = [it for it in members.get("enum") or [] if it is not None]
    fits = {
        "string": lambda: all(isinstance(it, str) for it in entries),
        "number": lambda: all(is_whole(it) for it in entries),
        "integer": lambda: all(is_whole(it) and it < 2**63 for it in [
            *entries, *(members[name] for name in ["multipleOf", "minimum", "maximum"] if members.get(name) is not None)]),
        "boolean": lambda: all(isinstance(it, bool) for it in entries),
    }
    return of if fits.get(of, lambda: True)() else "any"


def kept(name, value, sort):
    """Returns whether a present member of a schema is written."""
    if name in ("oneOf", "allOf", "anyOf") and sort == name:
        return True
    if value == [] or value == {} and name == "properties":
        return False
    return sort == "any" or not (value is False and KEYWORDS[name] == "flag")


class Maker:
    """Makes JSON values, and keeps the faults that could be planted in them. It leaves out what it makes at a dropped location, if
    that may be missing. Of a list it leaves out the items behind it too."""

    def __init__(self, dice, dropped=()):
        self.dice = dice
        self.dropped = dropped
        self.faults = []
        self.room = dice.choice([40, 150, 400])

    def likes(self, chance):
        """Returns whether a member that may be missing is to be there; the fuller the document, the less likely."""
        self.room -= 1
        return self.dice.random() < (chance if self.room > 0 else 0.02)

    def text(self):
        return "".join(self.dice.choice(LETTERS) for _ in range(self.dice.choice([0, 1, 2, 5, 9])))

    def number(self, least, most):
        near = self.dice.randint(-20, 200)
        return max(least, min(most, self.dice.choice([near, near, near, least, most, self.dice.randint(least, most)])))

    def tree(self, place, depth=2):
        """Returns any JSON value. Each number in it has to be whole."""
        self.fault(place, 0.5, "number not whole")
        pick = self.dice.randrange(8 if depth and self.room > 0 else 5)
        if pick < 5:
            return [None, self.dice.random() < 0.5, self.number(LEAST, MOST), self.text(), self.text()][pick]
        steps = range(self.dice.randrange(3)) if pick == 5 else self.names(self.dice.randrange(3))
        made = {step: self.tree((*place, step), depth - 1) for step in steps}
        kept = self.kept(made, place, pick == 5)
        return [*kept.values()] if pick == 5 else kept

    def drops(self, place):
        """Returns whether a location is dropped. If so, no fault can be planted there."""
        if place in self.dropped:
            self.faults = [it for it in self.faults if it.place[:len(place)] != place]
        return place in self.dropped

    def kept(self, made, place, is_list):
        """Returns the entries of a map or a list, without those that are dropped."""
        if not is_list:
            return {step: it for step, it in made.items() if not self.drops((*place, step))}
        end = next((step for step in made if (*place, step) in self.dropped), len(made))
        self.faults = [it for it in self.faults if it.place[:len(place)] != place or len(it.place) == len(place) or it.place[len(place)] < end]
        return {step: made[step] for step in range(end)}

    def names(self, number, first=""):
        return list(dict.fromkeys(first + self.text() for _ in range(number)))

    def fault(self, place, value, cause, at=None):
        steps = [str(it).replace("~", "~0").replace("/", "~1") for it in (place if at is None else at)]
        self.faults.append(Planted(place, value, "/".join([f"{cause} at #", *steps])))

    def wrong(self, place, word, value=5):
        self.fault(place, value, f"invalid type, expected {word}")

    def make(self, kind, place):
        """Returns a value of the kind, and keeps the faults that could be planted in it."""
        if kind[0] == "[":
            self.wrong(place, "list", {})
            return self.several(kind[1:-1], place, range(self.dice.choice([0, 1, 1, 2, 3]) if self.room > 0 else 0))
        if kind[0] == "{":
            self.wrong(place, "object", [])
            return self.several(kind[1:-1], place, self.names(self.dice.choice([0, 1, 1, 2, 3]) if self.room > 0 else 0))
        if kind[0] == "&":
            if self.dice.random() < 0.25 or self.room <= 0:
                self.wrong(place, "object")
                others = self.kept({"type": 7, "x-a": None} if self.dice.random() < 0.3 else {}, place, False)
                reference = {"$ref": self.text()}
                return Made({**reference, **others}, reference, reference)
            made = self.make(kind[1:], place)
            if self.dice.random() < 0.1 and kind != "&Callback":
                self.add(made, place, "$ref", self.dice.choice([5, None, {}, ["#/a"]]))
            return made
        if kind == "any":
            return same(self.tree(place))
        if kind == "text":
            self.wrong(place, "text")
            return same(self.text())
        if kind == "flag":
            self.wrong(place, "flag", "true")
            return same(self.dice.random() < 0.5)
        if kind == "size":
            self.wrong(place, "whole number", "1")
            self.fault(place, -1, "invalid value")
            return same(self.number(0, MOST))
        if kind == "whole":
            self.wrong(place, "whole number", "1")
            return same(self.number(LEAST, MOST))
        if kind == "flag-or-schema":
            if self.dice.random() < 0.5:
                self.wrong(place, "flag or object", "no")
                return same(self.dice.random() < 0.5)
            made = self.make("&Schema", place)
            self.faults = [it for it in self.faults if it.place != place]
            self.wrong(place, "flag or object", [])
            return made
        if kind[0].islower():
            self.wrong(place, "text")
            self.fault(place, "wat", "unknown variant")
            return same(self.dice.choice(kind.split("|")))
        self.wrong(place, "object", [])
        return self.object(kind, place)

    def several(self, kind, place, steps):
        """Returns a list or a map of a kind."""
        made = self.kept({step: self.make(kind, (*place, step)) for step in steps}, place, isinstance(steps, range))
        if isinstance(steps, range):
            return Made(*([it[way] for it in made.values()] for way in range(3)))
        return Made(*({step: it[way] for step, it in made.items()} for way in range(3)))

    def object(self, kind, place):
        if kind == "Schema":
            return self.schema(place)
        if kind == "Security":
            return self.several("[text]", place, self.names(self.dice.randrange(3)))
        made = Made({}, {}, {})
        if kind == "Paths":
            self.class_of("&PathItem", self.names(self.dice.randrange(4), "/"), made, place)
        elif kind == "Callback":
            names = [it for it in [*self.names(self.dice.randrange(3)), "$ref", "x"][:2] if not it.startswith("x-")]
            self.class_of("PathItem", names, made, place)
            self.extend(made, place, [])
            return made
        elif kind == "Responses":
            self.row("default O &Response", made, place)
            self.codes(made, place)
        elif kind in TAGGED:
            self.tagged(kind, made, place)
        else:
            self.rows(TABLES[kind], made, place)
        self.extend(made, place, ["wat", "X-a", "x", "99", "2X", "1000", "-x"])
        return made

    def extend(self, made, place, unknown):
        """Puts extensions, and members that OpenAPI does not know."""
        while self.dice.random() < 0.15:
            name = "x-" + self.text()
            if name not in made.given:
                value = same(self.tree((*place, name)))
                if not self.drops((*place, name)):
                    self.put(made, name, value)
        for name in unknown:
            if self.dice.random() < 0.03:
                self.add(made, place, name, self.tree((*place, name)))

    @staticmethod
    def put(made, name, value):
        for way in range(3):
            made[way][name] = value[way]

    def add(self, made, place, name, tree):
        """Puts a member that is not read."""
        if not self.drops((*place, name)):
            made.given[name] = tree

    def class_of(self, kind, names, made, place):
        for name in names:
            value = self.make(kind, (*place, name))
            if not self.drops((*place, name)):
                self.put(made, name, value)

    def codes(self, made, place):
        """Puts members by status codes: `2xx` is the code `2XX`, and the later one of the two in name order counts."""
        names = self.dice.sample(["100", "200", "404", "999", "2XX", "2xX", "2xx", "5Xx", "0XX"], self.dice.randrange(4))
        for name in sorted(names):
            value = self.make("&Response", (*place, name))
            if self.drops((*place, name)):
                continue
            made.given[name] = value.given
            made.cleaned[name.upper()], made.settled[name.upper()] = value.cleaned, value.settled

    def tagged(self, kind, made, place):
        name, tables = TAGGED[kind]
        word = self.dice.choice(list(tables))
        self.put(made, name, same(word))
        self.fault((*place, name), ABSENT, f"missing field `{name}`", place)
        self.fault((*place, name), "wat", "unknown variant")
        self.wrong((*place, name), "text")
        if kind == "Parameter":
            self.rows(TABLES["ParameterData"], made, place)
        self.rows(tables[word], made, place)

    def rows(self, rows, made, place):
        rows = rows.split(",")
        for row in self.dice.sample(rows, len(rows)):
            self.row(row, made, place)

    def row(self, row, made, place):
        name, mode, kind = row.split()
        if mode == "C":
            self.either(name.split("/"), kind.split("/"), made, place)
            return
        here = (*place, name)
        if mode == "R":
            self.fault(here, ABSENT, f"missing field `{name}`", place)
        elif not self.likes(0.3):
            if mode in "EFS":
                self.wrong(here, {"[": "list", "{": "object", "f": "flag"}.get(kind[0] if mode != "S" else "", "text"), None)
            elif self.dice.random() < 0.1:
                self.add(made, place, name, None)
            self.leave_out(name, mode, kind, made)
            return
        value = self.make(kind, here)
        if mode != "R" and self.drops(here):
            self.leave_out(name, mode, kind, made)
            return
        made.given[name] = value.given
        if not (mode in "EF" and not value.given or mode == "O" and value.given is None):
            made.cleaned[name], made.settled[name] = value.cleaned, value.settled

    @staticmethod
    def leave_out(name, mode, kind, made):
        if mode in "NS":
            made.cleaned[name] = made.settled[name] = None if mode == "N" else kind.split("|")[0]

    def either(self, names, kinds, made, place):
        """Puts one of two members. Members come in name order, and the later one is not read."""
        i = self.dice.randrange(2)
        other = names[1 - i]
        self.put(made, names[i], self.make(kinds[i], (*place, names[i])))
        if names[i] < other and self.dice.random() < 0.2:
            self.add(made, place, other, self.tree((*place, other)))
        else:
            self.fault((*place, names[i]), ABSENT, f"missing field `{names[0]}` or `{names[1]}`", place)

    def schema(self, place):
        made = Made({}, {}, {})
        self.rows(TABLES["SchemaData"], made, place)
        members = self.keywords(self.dice.choice(SORTS if self.room > 0 else ["string", "any"]), place)
        given = {name: it.given for name, it in members.items()}
        sort = sort_of(given)
        cleaned = {name: it.cleaned for name, it in members.items() if it.given is not None and kept(name, it.given, sort)}
        again = sort_of(cleaned)
        settled = {name: members[name].settled for name in cleaned if kept(name, cleaned[name], again)}
        for way, tree in enumerate([given, cleaned, settled]):
            made[way].update(tree)
        self.extend(made, place, ["wat", "X-a", "x", "const"])
        return made

    def keywords(self, sort, place):
        """Returns members that decide what sort a schema is, most often this one."""
        if sort in OF_TYPE:
            names = [it for it in OF_TYPE[sort] if self.likes(0.4)]
        else:
            names = [it for it in KEYWORDS if self.likes(0.12)] if sort == "any" else [sort]
        made = {}
        for name in names:
            here = (*place, name)
            if name == "type":
                made[name] = same(self.dice.choice([*OF_TYPE, "null", "String", ""]))
                self.wrong(here, "text")
            elif name == "enum" and sort in ("string", "number", "integer", "boolean"):
                self.wrong(here, "list", {})
                made[name] = same([self.entry(sort) for _ in range(self.dice.randrange(4))])
            elif sort == "integer" and KEYWORDS[name] == "whole":
                self.wrong(here, "whole number", "1")
                made[name] = same(self.number(LEAST, 2**63 - 1))
            else:
                made[name] = self.make(KEYWORDS[name], here)
        if sort in OF_TYPE:
            made["type"] = same(sort)
            self.wrong((*place, "type"), "text")
        if self.dice.random() < 0.1:
            made.setdefault(self.dice.choice(list(KEYWORDS)), same(None))
        if self.dice.random() < 0.15:
            # (an empty list is there, so the schema is one of any members; it is not written, and then it may be another)
            made.setdefault(self.dice.choice(["required", "enum", "oneOf", "allOf", "anyOf"]), same([]))
        return {name: it for name, it in made.items() if name == "type" or not self.drops((*place, name))}

    def entry(self, sort):
        values = {"string": self.text(), "boolean": self.dice.random() < 0.5, "number": self.number(LEAST, MOST),
                  "integer": self.number(LEAST, 2**63 - 1)}
        return self.dice.choice([values[sort], values[sort], values[sort], None, 2**63 if sort == "integer" else values[sort]])


def with_fault(tree, planted):
    """Returns the value with a fault planted in it."""
    if not planted.place:
        return planted.value
    tree = copy.deepcopy(tree)
    at = tree
    for step in planted.place[:-1]:
        at = at[step]
    if planted.value is ABSENT:
        at.pop(planted.place[-1], None)
    else:
        at[planted.place[-1]] = planted.value
    return tree


def operations(tree):
    lines = []
    for path in sorted(it for it in tree["paths"] if it.startswith("/")):
        item = tree["paths"][path]
        if not isinstance(item.get("$ref"), str):
            lines += [f"{method} {path}\n" for method in METHODS if item.get(method) is not None]
    return "".join(lines).encode()


def text_of(tree, dice=None):
    """Returns the value as JSON: as the program prints it, or with the members of each object in any order."""
    if dice is None:
        return json.dumps(tree, sort_keys=True, ensure_ascii=False, separators=(",", ":")).encode() + b"\n"

    def mixed(it):
        if isinstance(it, dict):
            return {name: mixed(it[name]) for name in dice.sample(list(it), len(it))}
        return [mixed(each) for each in it] if isinstance(it, list) else it
    return json.dumps(mixed(tree), ensure_ascii=dice.random() < 0.5).encode()


def kinds_of(kind, members):
    """Returns the kind of each member that is read of an object of that kind, but for extensions."""
    rows = TABLES.get(kind, "")
    if kind in ("Paths", "Callback"):
        return {name: "&PathItem" for name in members if name[:1] == "/" or kind == "Callback" and name[:2] != "x-"}
    if kind == "Responses":
        return {name: "&Response" for name in members if name[:2] != "x-"}
    if kind in TAGGED:
        tag, tables = TAGGED[kind]
        rows = tables[members[tag]] + ("," + TABLES["ParameterData"] if kind == "Parameter" else "")
    if kind == "Schema":
        rows = TABLES["SchemaData"]
    found = {} if kind != "Schema" else dict(KEYWORDS)
    for name, _, of in (row.split() for row in rows.split(",")):
        found.update(zip(name.split("/"), of.split("/")))
    return found


def disorder(kind, wanted, came):
    """Returns the first object whose members are not in the order of the text, although that order is kept; or None. Both are
    the same but for order."""
    if not isinstance(wanted, (dict, list)):
        return None
    if kind[0] == "&" or kind == "flag-or-schema":
        kind = "Schema" if kind[0] == "f" else kind[1:]
        if isinstance(wanted.get("$ref"), str):
            return None
    if kind in ("any", "Security") or kind[0] in "[{":
        inner = kind[1:-1] if kind[0] in "[{" else "any"
        if isinstance(wanted, list):
            pairs = zip(wanted, came)
        elif list(wanted) != list(came):
            return came
        else:
            pairs = ((wanted[name], came[name]) for name in wanted)
        return next((it for it in (disorder(inner, *pair) for pair in pairs) if it is not None), None)
    kinds = kinds_of(kind, wanted)
    classes = [name for name in kinds if kind in ("Paths", "Callback", "Responses") and name != "default"]
    for names in (classes, [name for name in wanted if name[:2] == "x-" and name not in kinds]):
        if [name for name in came if name in names] != [name for name in wanted if name in names]:
            return came
    found = (disorder(kinds.get(name, "any"), wanted[name], came[name]) for name in wanted)
    return next((it for it in found if it is not None), None)


def point_of(text, planted):
    """Returns the line and the column, as `LINE:COLUMN`, of the value at the location of a fault. The text has a line for each
    value, as `json.dumps` makes it with an indent of 1. So a value is found by the lines before it."""
    at, line, value = [], 0, json.loads(text)
    steps = [it.replace("~1", "/").replace("~0", "~") for it in planted.said.split(" at #", 1)[1].split("/")[1:]]
    for step in steps:
        line += 1
        for name in value if isinstance(value, dict) else range(len(value)):
            if str(name) == step:
                at, value = name, value[name]
                break
            line += len(json.dumps(value[name], indent=1).split("\n"))
    depth = len(steps)
    lead = f"{json.dumps(at, ensure_ascii=False)}: " if isinstance(at, str) and steps else ""
    return f"{line + 1}:{depth + len(lead) + 1}"


def is_exactly(*wanted):
    return lambda ran: ((ran.returncode, ran.stdout, ran.stderr), wanted)


def is_in_order(kind, wanted):
    def compare(ran):
        came, said = json.loads(ran.stdout) if ran.returncode == 0 else None, ran.stderr.decode()
        both = (ran.returncode, came, "" if LEFT_OUT.fullmatch(said) else said), (0, wanted, "")
        return both if both[0] != both[1] else (disorder(kind, wanted, came), None)
    return compare


def is_refused_at(point, said):
    """Returns whether a refusal is reported with its message, its position and its JSON Pointer."""
    message, pointer = said.split(" at #", 1)
    shown = "".join("\ufffd" if ord(it) < 32 or ord(it) == 127 else it for it in pointer.replace("\t", "    ")) or "(root)"

    def compare(ran):
        found = REFUSAL.match(ran.stderr.decode())
        return (ran.returncode, ran.stdout, found and found.groups()), (1, b"", (message, point, shown))
    return compare


def checks(seed, programs, dropped=()):
    """Yields all that a round compares."""
    clean, tool = programs
    for kind, commands in [("OpenAPI", ["document", "settle", "operations"]), ("Schema", ["schema"])]:
        dice = random.Random(f"{seed} {kind}")
        maker = Maker(dice, dropped)
        made = maker.make(kind, ())
        given = text_of(made.given, dice)
        wanted = dict(document=text_of(made.cleaned), settle=text_of(made.settled), schema=text_of(made.cleaned))
        if kind == "OpenAPI":
            wanted["operations"] = operations(made.given)
            yield Check("settled once more", clean, "settle", wanted["settle"], is_exactly(0, wanted["settle"], b""), made.given)
        for command in commands:
            yield Check("a document", clean, command, given, is_exactly(0, wanted[command], b""), made.given)
        # (a line for each value)
        lines = json.dumps(made.given, indent=1, ensure_ascii=False).encode()
        normalize = "normalize" if kind == "OpenAPI" else "normalize --as schema"
        yield Check("in order", tool, normalize, lines, is_in_order(kind, made.cleaned), made.given)
        yield Check("settled in order", tool, f"{normalize} --settle", lines, is_in_order(kind, made.settled), made.given)
        for planted in dice.sample(maker.faults, min(3, len(maker.faults))):
            broken = with_fault(made.given, planted)
            wanted = is_exactly(1, b"", planted.said.encode() + b"\n")
            yield Check("a fault", clean, dice.choice(commands), text_of(broken, dice), wanted, made.given)
            lines = json.dumps(broken, indent=1, ensure_ascii=False).encode()
            wanted = is_refused_at(point_of(lines, planted), planted.said)
            yield Check("a fault in order", tool, normalize, lines, wanted, made.given)


def difference(check):
    """Returns the result and the expected one, if they differ."""
    ran = subprocess.run([check.program, *check.command.split()], input=check.given, capture_output=True, timeout=60)
    came, wanted = check.compare(ran)
    return None if came == wanted else (came, wanted)


def places_of(tree):
    """Returns the locations of all members and items of a value, those that hold most first, and the last items of a list before
    the others."""
    found, left = [], [((), tree)]
    while left:
        place, it = left.pop(0)
        steps = [*it] if isinstance(it, dict) else range(len(it) - 1, -1, -1) if isinstance(it, list) else []
        left += [((*place, step), it[step]) for step in steps]
        found += [(*place, step) for step in steps]
    return found


def smallest(check, seed, programs):
    """Returns the check of the smallest document that fails as this one did. It leaves out each member or item, one after another,
    if the document still fails without it."""
    dropped, left = set(), places_of(check.made)
    while left:
        place = left.pop(0)
        less = (it for it in checks(seed, programs, dropped | {place}) if (it.what, it.command) == (check.what, check.command))
        found = next((it for it in less if len(it.given) < len(check.given) and difference(it)), None)
        if found:
            check, dropped = found, dropped | {place}
            left = [it for it in left if it[:len(place)] != place]
    return check


def main():
    parser = argparse.ArgumentParser()
    parser.add_argument("--seed", type=int, default=random.randrange(10**6))
    parser.add_argument("--count", type=int, default=1000)
    parser.add_argument("programs", nargs="*", metavar="PROGRAM")
    asked = parser.parse_args()
    programs = [os.path.realpath(it) for it in [*asked.programs, *BUILT[len(asked.programs):]]]
    for program in programs:
        if not os.access(program, os.X_OK):
            print(f"FAILED: {program} is not built\n0 passed, 1 failed")
            return 1
    print(f"seed {asked.seed}, {asked.count} rounds", flush=True)
    passed, failed = 0, []
    for turn in range(asked.count):
        for check in checks(f"{asked.seed} {turn}", programs):
            if difference(check):
                failed.append((check, turn))
            else:
                passed += 1
    if failed:
        check, turn = min(failed, key=lambda it: len(it[0].given))
        check = smallest(check, f"{asked.seed} {turn}", programs)
        came, wanted = difference(check)
        name = os.path.basename(check.program)
        print(f"FAILED: round {turn}, {check.what}: {name} {check.command} of\n{check.given.decode()}\n  came: {came}\n  wanted: {wanted}", flush=True)
    print(f"{passed} passed, {len(failed)} failed")
    return 1 if failed else 0


if __name__ == "__main__":
    sys.exit(main())
