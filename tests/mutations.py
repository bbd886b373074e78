#!/usr/bin/env python3
"""Tries the mutations that must be refused, and keeps the verdicts.

usage: tests/mutations.py [--jobs N] [--together N] [CRATE ..]
           tries those mutations of these crates, or of all, that have no verdict on the text as it is; as many side by side as
           there are jobs, and at most so many together in one check (12 if left out; of a large crate fewer are quicker, and
           take less memory)
       tests/mutations.py --draw N [CRATE ..]
           tries N mutations that were refused, and keeps no verdict. They are drawn by the hash of the commit, from two of these
           crates, or of the five lowest, whose proofs take minutes if none are kept
       tests/mutations.py --compare
           tries nothing: prints for each crate which of its mutations have no verdict of a refusal on the text as it is

The mutations of a crate are in mutations/CRATE.txt. A line `file:` between two empty lines names a file of the crate, and the
mutations below change it, up to the next such line. A mutation is a line with its name, and below it pairs of lines `old:` and
`new:`. Each pair replaces a text that occurs in the file once. (A line `file:` within a mutation names another file.) A line
`twin:` behind a `new:` is the harmless twin: a text that means the same as `old:`, in the shape of `new:`. A line that begins
with `#` is a comment.

The prover must refuse the crate with the mutation, at a clause. `mutations/verdicts` has a line for each mutation that was tried:
its name, a hash of what the verdict rests on, and the reason, in one of these words:
- `goal NAME`: the prover names a goal that is not proved: an `ensures`, a `requires`, a ghost field, the invariant of a loop or
  of a type, or a safety fact. A goal that a proof file answers counts if its answer has another type or proves another thing,
  and not if it names what is gone.
- `lemma NAME`: after a change of a definition, a lemma is not proved, in the same ways.
- `twin REASON`: it is refused for this reason, and the crate with its twin is proved.
- `proof`: a proof file does not check for itself, since it names what the mutation removed.
- `limit`: the prover met a limit of its own, or its search did at each goal.
- `shape`: the mutation adds a function or a loop. So what is not proved may be what the contract of that function leaves out, or
  need an invariant that the loop has not.
The last three are no refusals: the mutation is rewritten, or gets a twin. `--compare` fails for them, and for a mutation that has
no verdict on the text as it is.

Mutations are expensive, so each is tried when what its verdict rests on has changed. The second line of `mutations/verdicts` is that
of `rt version`. The verdicts hold for each release of the kit that has the same logic, which that line names too.

No body is seen by the proof of another function. So the verdict on a mutation in the body of one function rests on:
- the mutation, and the text of the function with its attributes;
- the function's own proofs, or those of its cycle, and the crate's specs that all of this names, also by way of other specs and
  of lemmas;
- what the function can see of the crate's sources: the heads of functions that it names, with their contracts; the types,
  traits, constants and macros that are named in any of this; and what is beside the functions in the traits and impls of these;
- what the files of all this import under a name, or as an operator, that is written in it.
An impl counts if all that its head has of the crate is named. If it is of no trait, one of its functions has to be named too. If
it is of a trait, the heads of its functions count, since an operator, a loop or a `?` calls one without its name. Lemmas do not
count: a lemma means what its statement states, and is proved. Any other mutation (of a definition, a constant, several
functions, ..) rests on all sources, specs and proofs of the crate. Other crates do not count.

Mutations are tried by `rt check`, in a copy of the crate with what a check of it left. Mutations of different functions are
tried together. Each of these functions has to be refused for itself, at a location in its body or in its own proof (in that of
its cycle, at a goal of its own). One that is not refused so is tried by itself, and at last from nothing. A mutation whose text
the prover can't read, or that breaks a rule of the language, is not refused. A verdict is kept when it is known, so that a run
that was ended continues where it stopped. The last line is `N passed, M failed`, and counts mutations.

Lines that are a comment count for no hash, in sources, specs and proofs. Nor do those that only state how a function is to be
inlined: they are hints to the compiler that makes a program of what is proved. No proof sees either. Nor do the ends of lines in
a source, and its lifetimes. A lifetime may change how a goal is named, and what may be borrowed. It changes no value, and so not
what a clause states. A name that a file of definitions or proofs imports counts only if the file writes it.
"""
import argparse
import fcntl
import hashlib
import itertools
import os
import queue
import re
import shutil
import subprocess
import sys
import tempfile
import threading
import time

TOP = os.path.dirname(os.path.dirname(os.path.realpath(__file__)))
VERDICTS = f"{TOP}/mutations/verdicts"
HEAD = "# The kit, and for each mutation the hash of what its verdict rests on, and the reason.\n"
# The first words of the reasons that make a mutation refused.
REFUSED = ("goal", "lemma", "twin")
# The crates that `--draw` draws from if none is named: the lowest, so that few proofs are needed if none are kept.
LOWEST = ("openapi_json", "openapi_map", "openapi_node", "openapi_tables", "openapi_values")
# A line of a source that no proof sees: a comment, or a hint on inlining.
UNSEEN = re.compile(r"\s*(?://.*|#\[(?:inline(?:\((?:never|always)\))?|cold)\])?\s*")
# Likewise of a file of definitions or proofs.
UNSEEN_IN_PROOFS = re.compile(r"\s*(?:--.*)?")
# A line of such a file that imports names from a module.
IMPORT = re.compile(r"use ([^{]+)\{(.*)\}")
# Lifetimes, alone or before other parameters, or of a reference.
LIFETIMES = re.compile(r"<'\w+(?:, '\w+)*>|(?<=<)(?:'\w+, )+|(?<=&)'\w+ ")
# The end of a line, as a character, where the same text in one line has nothing, with a comma that only such an end has before it.
NO_SPACE = re.compile(r",?\0(?=[)\]}>])|(?<=[(\[{<])\0|\0(?=\.)|(?<=\{) | (?=\})")
# A function or a loop.
SHAPE = re.compile(r"\bfn \w+|\bfor [^{;]* in |\bwhile |\bloop \{")
# How an item of a source begins, behind its attributes: what it is, and its name.
BEGINS = re.compile(
    r" *(?:pub(?:\([\w: ]+\))? |unsafe |const (?=fn)|ghost (?=use))*"
    r"(use|impl|(?:fn|struct|enum|trait|const|static|type|mod|macro_rules!)(?= (\w+)))(?!\w)"
)
# The trait and the type in the head of an impl, without its parameters.
IMPL = re.compile(r"(?:unsafe )?impl(?:<(?:[^<>]|<[^<>]*>)*>)?([^{]*?)(?:\bwhere\b|\{)")


def version():
    return subprocess.run(["rt", "version"], capture_output=True, text=True, check=True).stdout.strip()


class Mutation:
    """A mutation: its name with that of its crate, and the lines `file:`, `old:`, `new:` and `twin:` that it has."""

    def __init__(self, name, lines):
        self.name, self.lines = name, lines

    def pairs(self):
        """Yields for each text that it replaces the file, the text, and what replaces it."""
        file, old = "", ""
        for line in self.lines:
            word, _, text = line.partition(":")
            text = text.removeprefix(" ")
            if word == "file":
                file = text.strip()
            elif word == "old":
                old = text
            elif word == "new":
                yield file, old, text

    def twin(self):
        """Returns its harmless twin, or None if it has none."""
        lines = []
        for line in self.lines:
            if line.startswith("twin:"):
                lines[-1] = "new" + line.removeprefix("twin")
            else:
                lines.append(line)
        return Mutation(self.name, lines) if lines != self.lines else None

    def adds_shape(self):
        """Returns whether it adds a function or a loop."""
        shapes = lambda at: {it for pair in self.pairs() for it in SHAPE.findall(pair[at])}
        return not shapes(2) <= shapes(1)

    def applied(self, files):
        """Returns the files that it changes, as it leaves them; or None, if a text that it replaces does not occur once."""
        changed = {}
        for file, old, new in self.pairs():
            text = changed.get(file, files.get(file, ""))
            if text.count(old) != 1:
                return None
            changed[file] = text.replace(old, new)
        return changed or None


def mutations_of(crate):
    """Returns the mutations of a crate."""
    with open(f"{TOP}/mutations/{crate}.txt", encoding="utf-8") as it:
        lines = [line for line in it.read().split("\n") if not line.startswith("#")]
    found, file = [], ""
    for name, *text in ([*part] for is_part, part in itertools.groupby(lines, bool) if is_part):
        if text:
            found.append(Mutation(f"{crate}/{name}", [file, *text]))
        else:
            file = name
    return found


def crates_with_mutations():
    return [it.removesuffix(".txt") for it in sorted(os.listdir(f"{TOP}/mutations")) if it.endswith(".txt")]


def words(text):
    return {*re.findall(r"\w+", text)}


def hash_of_texts(texts):
    return hashlib.sha256(repr(sorted(texts)).encode()).hexdigest()


def as_hashed(text):
    """Returns a source, or a part of one, as one line and without lifetimes."""
    return NO_SPACE.sub("", re.sub(r"\n\s*", "\0", LIFETIMES.sub("", text))).replace("\0", " ")


def lines_of(text):
    """Returns the lines of a source that a proof may see, each with its number."""
    return [(number, line) for number, line in enumerate(text.split("\n"), 1) if not UNSEEN.fullmatch(line)]


def seen_in_proofs(text):
    """Returns what a proof may see of a file of definitions or proofs. Of the names that it imports, these are those it writes."""
    lines = [it for it in text.split("\n") if not UNSEEN_IN_PROOFS.fullmatch(it)]
    imports = [it for it in map(IMPORT.fullmatch, lines) if it]
    others = [it for it in lines if not IMPORT.fullmatch(it)]
    written = "\n".join(others)
    names = {f"{it[1]}{name}" for it in imports for name in it[2].split(", ") if is_met_in(name, written)}
    return "\n".join((*sorted(names), *others))


def is_met_in(name, text):
    """Returns whether a text may write an imported name: for an operator, whether it has all of its symbols."""
    return all(it in text for it in name.split(" as ")[-1].split("◌"))


def cut(lines, indent):
    """Cuts the lines of a file, or of what a block holds, into items: each begins at this indent and ends with a `;`, or with
    the `}` of its body at the indent."""
    items, item, is_open = [], [], False
    for number, line in lines:
        item.append((number, line))
        own = line.removeprefix(indent)
        if own.startswith("#!["):
            ended = True
        elif own.startswith("#["):
            ended = False
        elif own.startswith(" "):
            text = "".join(it for _, it in item)
            ended = not is_open and own.endswith(";") and all(text.count(it[0]) == text.count(it[1]) for it in ("()", "[]", "{}"))
        else:
            is_open = is_open or own.endswith("{")
            ended = own.endswith((";", "}"))
        if ended:
            items.append(item)
            item, is_open = [], False
    return items + [item] * bool(item)


def is_written(path, text):
    """Returns whether a text, if there is one, may write what a path of a `use` brings that is no plain word. It writes no operator
    of which it lacks a symbol."""
    operator = re.split(r"[. ]", path)[-1]
    is_word = "◌" not in operator and operator != "[]"
    return text is not None and ("{" in path or is_word or is_met_in(operator, text))


class Item:
    """A function, a definition, a macro, a block (an impl or a trait) or a `use` of a source.

    It has its kind and name, its file and the block that it is in, its text with its attributes, and its head, which is what
    others see of it. The head of a function has its contract. That of a block has all that is in it beside its functions. An
    attribute of a whole file counts as a `use`."""

    def __init__(self, file, lines, block=None):
        self.file, self.block, self.items, self.needs = file, block, [], set()
        self.text = "\n".join(it for _, it in lines)
        code = [*itertools.dropwhile(lambda it: it[1].lstrip().startswith("#["), lines)]
        begins = BEGINS.match(code[0][1]) if code else None
        self.kind, self.name = begins.groups() if begins else ("use" if self.text.startswith("#![") else None, None)
        indent = "    " if block else ""
        opened = next((number for number, line in code if re.fullmatch(rf"{indent}(?! ).*\{{", line)), None)
        self.lines = range(lines[0][0], lines[-1][0] + 1)
        self.body = range(opened + 1, lines[-1][0]) if opened else range(0)
        self.head = self.opening = "\n".join(it for number, it in code if not opened or number <= opened)
        if self.kind in ("impl", "trait"):
            inside = cut([it for it in lines if it[0] in self.body], "    ")
            self.items = [Item(file, it, self) for it in inside]
            beside = [it.text for it in self.items if it.kind != "fn"]
            self.head = "\n".join([*(it for number, it in lines if number not in self.body), *beside])
        elif self.kind != "fn":
            self.head = self.text
        self.words = words(self.head)

    def is_met(self, called, known):
        """Returns whether the proof of a function may see this item, if the function has the first names in its text, and
        these and what was met so far the second."""
        if self.kind == "impl" and " for " not in self.opening:
            # No operator, loop or `?` calls a function of such an impl, so without its name none is seen.
            return self.needs <= known and any(it.name in called for it in self.items if it.kind == "fn")
        if self.kind == "impl":
            return self.needs <= known
        if self.kind == "trait":
            return self.name in known or any(it.name in called for it in self.items if it.kind == "fn")
        if self.kind == "fn" and self.block and self.block.kind == "impl":
            return self.block.needs <= known and (" for " in self.block.opening or self.name in called)
        if self.kind == "fn":
            return self.name in called
        # What is not understood, and what is in a module of its own in a file, is seen by all.
        return self.name in known or self.kind in (None, "mod")

    def brings(self):
        """Returns what this `use` brings: for each path its name, or None if that is no plain word, as of an operator."""
        way, _, listed = re.sub(r"\s+", " ", self.text).rstrip("; ").partition("{")
        if "{" in listed:
            return {way + listed: None}
        paths = [way + it.strip() for it in listed.rstrip("} ").split(",") if it.strip()] if listed else [way]
        names = {it: re.split(r" |::|\.", it)[-1] for it in paths}
        return {it: name if re.fullmatch(r"\w*[^\W_]\w*", name) and name != "self" else None for it, name in names.items()}


class Sources:
    """The text of a crate, and the parts of it that the verdict on each of its mutations rests on."""

    def __init__(self, crate):
        self.crate, self.files, self.rests = crate, {}, {}
        self.read(f"{TOP}/crates/{crate}")
        lines = {it: lines_of(text) for it, text in self.files.items() if it.endswith(".rt")}
        self.seen = {it: seen_in_proofs(text) for it, text in self.files.items()}
        self.seen |= {file: "\n".join(it for _, it in lines[file]) for file in lines}
        found = [Item(file, it) for file in lines for it in cut(lines[file], "")]
        self.uses = [(it.file, it.brings()) for it in found if it.kind == "use"]
        # A line that only names a module does not show what is in it.
        found = [it for it in found if it.kind != "use" and not (it.kind == "mod" and it.text.endswith(";"))]
        defined = {it.name for it in found if it.kind != "fn"}
        for it in found:
            if it.kind == "impl":
                names = IMPL.match(it.opening)
                it.needs = words(names[1]) & defined if names else set()
        self.items = [inner for it in found for inner in (it, *(sub for sub in it.items if sub.kind == "fn"))]

    def read(self, folder):
        for part in ("src", "specs", "proofs"):
            for at, _, files in os.walk(f"{folder}/{part}"):
                for it in files:
                    with open(f"{at}/{it}", encoding="utf-8") as file:
                        self.files[os.path.relpath(f"{at}/{it}", folder)] = file.read()

    def function_at(self, file, line):
        """Returns the function that has this line of the file in its body, or None."""
        found = (it for it in self.items if it.kind == "fn" and it.file == file and line in it.body)
        return next(found, None)

    def met_by(self, item):
        """Returns the items that the proof of this function may see, and itself."""
        own = words(item.text)
        used = [path for _, paths in self.uses for path, name in paths.items() if "::" in path and name in own]
        # A name may be that of a variant of a type, or of what has another name.
        called = own.union(*(re.findall(r"\b[A-Z]\w*|\w+(?= as )", it) for it in used))
        known, found, more = called, set(), {item, item.block} - {None}
        while more:
            found |= more
            known = known.union(*(it.words for it in more))
            more = {it for it in self.items if it not in found and it.is_met(called, known)}
        return found

    def of_function(self, function):
        """Returns the texts that the refusal of a mutation in the body of this function rests on, each with its file."""
        found = [(it.file, it.text if it is function.item else it.head) for it in self.met_by(function.item)]
        said, texts = {}, {}
        for file, text in found:
            said.setdefault(file, set()).update(words(text))
            texts[file] = texts.get(file, "") + text
        every = set().union(*said.values())
        for file, paths in self.uses:
            for path, name in paths.items():
                if name in (every if path.startswith("pub") else said.get(file, ())) or name is None and is_written(path, texts.get(file)):
                    found.append((file, path))
        proofs = [it for it in self.seen.items() if function.is_proved_in(it[0])]
        return found + proofs + self.specs_of(text for _, text in (*found, *proofs))

    def specs_of(self, texts):
        """Returns the specs that these texts name, and those that these and the crate's lemmas name, each with its file."""
        met, more = set(), {it for text in texts for it in self.named_by(text)}
        while more:
            met |= more
            more = {it for file in more for it in self.named_by(self.seen[file])} - met
        return [(it, self.seen[it]) for it in sorted(met) if it.startswith("specs/")]

    def named_by(self, text):
        """Returns the files of specs and lemmas of the crate that a text names."""
        found = re.findall(rf"\b(?:Rattle\.{self.crate}\.|crate::)(specs|proofs)(?:\.|::)(\w+)", text)
        return {it for it in (f"{part}/{name}.antt" for part, name in found) if it in self.files}

    def hash_of(self, mutation):
        function = function_of(mutation, self)
        key = function and function.item
        if key not in self.rests:
            texts = self.of_function(function) if function else self.seen.items()
            self.rests[key] = hash_of_texts([(file, as_hashed(text) if file.endswith(".rt") else text) for file, text in texts])
        return hash_of_texts([(mutation.name, as_hashed("\n".join(mutation.lines))), ("", self.rests[key])])


def logic_of(kit):
    """Returns the logic in a line of `rt version`, apart from the release of the kit."""
    return kit[kit.find("logic ") :]


def verdicts(kit):
    """Returns the line of the kit that the verdicts name, and for each mutation its hash and the reason; or this kit and nothing,
    if that has another logic."""
    if os.path.exists(VERDICTS):
        with open(VERDICTS) as it:
            before, *lines = [line.strip() for line in it if line.strip() and not line.startswith("#")] or [""]
        if logic_of(before) == logic_of(kit):
            words = [it.split(" ", 2) for it in lines]
            return before, {it[0]: (it[1], it[2]) for it in words if len(it) == 3}
    return kit, {}


def record(kit, name, whole, reason):
    """Keeps the hash of what the verdict on a mutation rests on, and the reason. The other verdicts stay."""
    known = {it.name for crate in crates_with_mutations() for it in mutations_of(crate)}
    folder = os.open(os.path.dirname(VERDICTS), os.O_RDONLY)
    try:
        # (runs for other crates write the same file)
        fcntl.flock(folder, fcntl.LOCK_EX)
        before, found = verdicts(kit)
        found[name] = whole, reason
        lines = [f"{it} {' '.join(verdict)}\n" for it, verdict in sorted(found.items()) if it in known]
        with open(f"{VERDICTS}.new", "w") as it:
            it.write(HEAD + before + "\n" + "".join(lines))
        os.replace(f"{VERDICTS}.new", VERDICTS)
    finally:
        os.close(folder)


def is_refusal(reason):
    return reason.split(" ")[0] in REFUSED


def due_of(crate, found):
    """Returns the names of the crate's mutations. For each that has no verdict of a refusal on the text as it is, it returns why:
    another text, or a reason that is none."""
    sources, due = Sources(crate), {}
    mutations = mutations_of(crate)
    for it in mutations:
        whole, reason = found.get(it.name, ("", ""))
        if whole != sources.hash_of(it) or it.applied(sources.files) is None:
            due[it.name] = "no verdict on this text"
        elif not is_refusal(reason):
            due[it.name] = reason
    return [it.name for it in mutations], due


def compare():
    """Prints for each crate with mutations which of them were not refused on its text as it is."""
    found, many, failed = verdicts(version())[1], 0, 0
    for crate in crates_with_mutations():
        own, due = due_of(crate, found)
        many, failed = many + len(own), failed + len(due)
        if due:
            print(f"mutations of {crate}: FAILED: {len(due)} of {len(own)} are due; run tests/mutations.py {crate}")
            for why, names in itertools.groupby(sorted(due, key=due.get), due.get):
                print(f"    {why}: {' '.join(it.partition('/')[2] for it in names)}")
        else:
            print(f"mutations of {crate}: {len(own)} were refused at a clause")
    print(f"{many - failed} passed, {failed} failed")
    return 1 if failed else 0


def owner_in(head):
    """Returns what the prover calls an impl by its head: the type, and the trait if there is one; or nothing. It calls a type
    parameter `Any`."""
    found = re.match(r"impl(?:<([^>]*)>)? (?:(?:\w+::)*(\w+)(?:<.*>)? for )?(?:\w+::)*(\w+)", head)
    if not found:
        return ""
    of_any = re.search(rf"\b{found[3]}:", found[1] or "")
    return ("Any" if of_any else found[3]) + (found[2] or "")


def cycle_of(item):
    """Returns the name of the cycle that a function is in, or an empty text."""
    found = re.search(r"#\[cycle\((\w+)\)\]", item.text)
    return found[1] if found else ""


class Function:
    """A function whose body a mutation changes: its file, its impl or trait and name, its cycle, whether that has no other function,
    and the lines that it has. `others` are the other functions of the crate."""

    def __init__(self, item, others):
        self.item, self.file, self.name, self.lines = item, item.file, item.name, item.lines
        head = re.sub(r"\s+", " ", item.block.opening) if item.block else ""
        self.owner = item.block and (item.block.name or owner_in(head)) or ""
        # The prover calls an impl by the name of its trait, followed by what the trait is of.
        self.more = r"\w*" if re.match(r"impl(?:<[^>]*>)? (?:\w+::)*\w+<.*> for ", head) else ""
        self.cycle = cycle_of(item)
        self.is_alone = all(cycle_of(it) != self.cycle for it in others)
        inside = self.file.removeprefix("src/").removesuffix(".rt").replace("/", "::")
        self.module = "" if inside in ("lib", "main") else inside
        self.key = self.file, self.owner, self.name

    def is_proved_in(self, path):
        """Returns whether a file may be one of its own proofs or of its cycle's. Those of an impl are with the type, in a folder
        whose name may be longer."""
        inside = self.module.replace("::", "/") + "/" if self.module else ""
        own = rf"(.*/)?\w*{self.owner}\w*/{self.name}" if self.item.block else f"{inside}{self.name}"
        return bool(re.match(rf"proofs/({own}|(.*/)?\+({self.cycle or self.name}))/", path, re.I))

    def is_told_of(self, remark):
        """Returns whether a remark of a check reports what is not proved of this function: it names a location in its body, in its
        proof, or in that of its cycle at a goal of its own. Goals of a cycle begin with the name of their function, unless the cycle
        has no other."""
        path, line, text = remark.groups()
        if path == self.file:
            return int(line) in self.lines and text.startswith(("error", *UNPROVED))
        if not text.startswith("error"):
            return False
        proofs = "/".join(filter(None, ["proofs", *self.module.split("::")])) + "/"
        # The proofs of an impl are with its type, in whatever file the impl is. Those of a function that calls itself are in
        # the folder of a cycle.
        own = rf"proofs/(\S*/)?{self.owner}{self.more}/" if self.owner else proofs
        if self.cycle:
            is_own = self.is_alone or f"`{self.name}-" in text
            return is_own and bool(re.match(rf"{own}\+{self.cycle}/", path))
        return bool(re.match(rf"{own}\+?{self.name}/", path))


# How a remark on a source begins that names a goal which is not proved.
UNPROVED = ("it is not proved", "`search` found no proof")
# A remark of a check on a location in a file: the file, the line, and the text, with the lines below that are a part of it.
REMARK = re.compile(r"(?m)^(?:note: )?(?:\./)?(\S+?):(\d+):\d+: (.*(?:\n  .*)*)")
# The goal that a remark names: that of an answer in a proof file, or one that has no answer.
GOAL = re.compile(r"error: `([^`]+)`: |(?:it is not proved|`search` found no proof)[^\n]*\(`([^`]+)`\)")
# A remark on a proof that names what a mutation removed, or cites such a proof.
GONE = re.compile(r"has no field|is not in scope|has no `|was not admitted|is no name")


def reason_of(remark, files):
    """Returns the reason in a remark: `goal` or `lemma` with its name, `limit` or `proof`."""
    path, _, text = remark.groups()
    named = GOAL.search(text)
    if not named or GONE.search(text):
        return "proof"
    name = named[1] or named[2]
    is_goal = path.startswith("src/") or f": goal.{name}\n" in files.get(path, "")
    return "limit" if "gave up at one of its limits" in text else f"{'goal' if is_goal else 'lemma'} {name}"


def best_of(remarks, files):
    """Returns the best reason in these remarks, and the first remark that has it; or None if there is none."""
    told = [(reason_of(it, files), it) for it in remarks]
    return next((it for word in ("goal", "lemma", "limit", "proof") for it in told if it[0].startswith(word)), None)


def function_of(mutation, sources):
    """Returns the one function in whose body the mutation changes something; or None."""
    found, texts = set(), {}
    for file, old, new in mutation.pairs():
        text = texts.get(file, sources.files.get(file, ""))
        if text.count(old) != 1:
            return None
        found.add(sources.function_at(file, text[: text.index(old)].count("\n") + 1) if file.startswith("src/") else None)
        texts[file] = text.replace(old, new)
    item = found.pop() if len(found) == 1 and len(texts) == 1 else None
    return Function(item, [it for it in sources.items if it.kind == "fn" and it is not item]) if item else None


# What the prover prints if it meets a limit of its own, which it meets wherever it checks the same.
LIMIT = re.compile(r"antt ran out of (stack|the (steps|memory) that the check)|outgrew the memory limit|stopped at the step limit")


def is_place(remark):
    """Returns whether a remark reports what is not proved, wherever that is."""
    return remark[3].startswith(("it is not proved", "error" if remark[1].startswith("proofs/") else UNPROVED[0]))


def is_bad(said):
    """Returns whether a check did not reach its proofs, since it can't read a text or a rule of the language is broken."""
    return "logic=not-proved" not in said or re.search(r"(?m)^\S+:\d+:\d+: error\[[\w-]+\]", said)


def linked(one, other):
    """Makes a file another name of this one, or a copy where that can't be."""
    try:
        os.link(one, other)
    except OSError:
        shutil.copy2(one, other)


class Copy:
    """A copy of a crate in which mutations are tried: its text, with what a check of it left, or with nothing. It is in a folder of
    its own, beside the other crates as they are, with what was kept of them as libraries."""

    def __init__(self, crate, files, with_kept):
        self.files, self.room = files, tempfile.TemporaryDirectory(prefix="mutations-")
        shutil.copy(f"{TOP}/crates.txt", self.room.name)
        for it in os.listdir(f"{TOP}/crates"):
            if it != crate:
                left_out = shutil.ignore_patterns("incremental", "*.unproved")
                shutil.copytree(f"{TOP}/crates/{it}", f"{self.room.name}/crates/{it}", ignore=left_out, copy_function=linked)
        self.folder, self.kept = f"{self.room.name}/crates/{crate}", f"{TOP}/crates/{crate}/out/incremental"
        os.makedirs(f"{self.folder}/out")
        if with_kept and os.path.isdir(self.kept):
            shutil.copytree(self.kept, f"{self.folder}/out/incremental")

    def said(self, mutations):
        """Returns the status and the output of a check of the crate with these mutations; or None, if one does not fit the text."""
        texts = dict(self.files)
        for mutation in mutations:
            changed = mutation.applied(texts)
            if changed is None:
                return None
            texts |= changed
        for path, text in texts.items():
            os.makedirs(os.path.dirname(f"{self.folder}/{path}"), exist_ok=True)
            with open(f"{self.folder}/{path}", "w", encoding="utf-8") as it:
                it.write(text)
        ran = subprocess.run(["rt", "check", "--jobs", "1"], cwd=self.folder, stdin=subprocess.DEVNULL, stdout=subprocess.PIPE,
                             stderr=subprocess.STDOUT, text=True, errors="replace")
        return ran.returncode, ran.stdout

    def tried(self, group):
        """Returns for each of these mutations that the check refuses the reason, and its remark. They are of different functions,
        or there is only one. A remark may report of a function that it calls one that is not proved, but at no location of its
        own."""
        ran = self.said([mutation for _, mutation in group])
        if ran is None:
            return {}
        status, said = ran
        if status == 3 and len(group) == 1 and LIMIT.search(said):
            return {group[0][1]: ("limit", LIMIT.search(said)[0])}
        if status != 1 or is_bad(said):
            return {}
        remarks, found = [*REMARK.finditer(said)], {}
        for function, mutation in group:
            told = best_of((it for it in remarks if (function.is_told_of(it) if function else is_place(it))), self.files)
            if told:
                found[mutation] = told[0], told[1][0].partition("\n")[0][:160]
        return found

    def proves(self, mutations):
        """Returns whether the crate with these mutations is proved."""
        return (self.said(mutations) or (1, ""))[0] == 0

    def judged(self, mutation, told, is_twin_proved):
        """Returns the verdict on a mutation by this result of a check: its reason if it needs no twin, or its twin is proved."""
        twin, (reason, line) = mutation.twin(), told or (None, "")
        if reason and twin:
            is_proved = is_twin_proved or self.proves([twin])
            return (f"twin {reason}", line) if is_proved else (None, "its twin is refused too")
        return ("shape" if reason and mutation.adds_shape() else reason), line


class Trial:
    """The mutations of one crate that are to be tried, and the results of those that were: their hash and the reason."""

    def __init__(self, crate, together, line, drawn=None):
        self.crate, self.at_most, self.line, self.lock = crate, together, line, threading.Lock()
        self.sources, self.mutations, self.is_drawn = Sources(crate), drawn or mutations_of(crate), drawn is not None
        self.hashes = {it: self.sources.hash_of(it) for it in self.mutations}
        found = {} if self.is_drawn else {(name, whole): reason for name, (whole, reason) in verdicts(line)[1].items()}
        self.came = {it: found[it.name, whole] for it, whole in self.hashes.items() if (it.name, whole) in found}

    def left(self):
        """Returns the mutations that are to be tried."""
        return [it for it in self.mutations if it not in self.came]

    def failed(self):
        return [it for it in self.mutations if not is_refusal(self.came.get(it, ""))]

    def keep(self, mutation, reason, line, how):
        """Prints the result of a mutation, and keeps it if it has a reason."""
        if reason:
            with self.lock:
                self.came[mutation] = reason
                if not self.is_drawn:
                    record(self.line, mutation.name, self.hashes[mutation], reason)
        print(f"{mutation.name}: {reason or 'NOT REFUSED for itself'} ({how}): {line}", flush=True)

    def ready(self):
        """Checks the crate as it is, and so brings what is kept of it up to date; returns whether it is proved."""
        folder = f"{TOP}/crates/{self.crate}"
        ran = subprocess.run(["rt", "check"], cwd=folder, stdin=subprocess.DEVNULL, capture_output=True, text=True)
        if ran.returncode:
            print(f"{self.crate} is not proved as it is: {ran.stdout.strip()[-300:]}", flush=True)
        return not ran.returncode

    def groups(self, mutations):
        """Returns the mutations in groups, each beside its function, in each of which no two change the same function."""
        found = []
        for mutation in mutations:
            function = function_of(mutation, self.sources)
            keys = {function.key} if function else set()
            room = next((it for it in found if keys and it[0] and not keys & it[0] and len(it[1]) < self.at_most), None)
            if room is None:
                room = set(), []
                found.append(room)
            room[0].update(keys)
            room[1].append((function, mutation))
        return [it for _, it in found]

    def try_group(self, group):
        """Tries the mutations of a group together, and those that are not refused so by themselves. What is not refused even so is
        tried from nothing; so is each if the crate itself is not proved any more over what is kept. The twins of those that are
        refused are tried together too, and by themselves if that fails."""
        copy, came = Copy(self.crate, self.sources.files, True), {}
        told = copy.tried(group) if len(group) > 1 else {}
        for function, mutation in group:
            how = f"with {len(group) - 1} others" if mutation in told else "by itself"
            came[mutation] = told.get(mutation) or copy.tried([(function, mutation)]).get(mutation), how
        twins = [mutation.twin() for _, mutation in group if came[mutation][0] and mutation.twin()]
        are_proved = copy.proves(twins)
        is_sound = are_proved or copy.proves([])
        for function, mutation in group:
            said, how = came[mutation]
            if not said or not is_sound:
                whole = Copy(self.crate, self.sources.files, False)
                said, how = whole.tried([(function, mutation)]).get(mutation), "from nothing"
            self.keep(mutation, *copy.judged(mutation, said, are_proved and bool(came[mutation][0])), how)


def try_all(trials, jobs):
    """Tries the mutations of these trials that are left, and returns the status to end with."""
    os.chdir(TOP)
    todo = queue.SimpleQueue()
    for trial in trials:
        left = trial.left()
        print(f"{trial.crate}: {len(trial.mutations)} mutations, {len(left)} to be tried", flush=True)
        if left and trial.ready():
            for group in trial.groups(left):
                todo.put((trial, group))

    def work():
        while True:
            try:
                trial, group = todo.get_nowait()
            except queue.Empty:
                return
            trial.try_group(group)

    lanes = [threading.Thread(target=work) for _ in range(jobs)]
    for it in lanes:
        it.start()
    for it in lanes:
        it.join()
    failed = [(mutation.name, trial.came.get(mutation, "no verdict")) for trial in trials for mutation in trial.failed()]
    for name, reason in failed:
        print(f"FAILED: {name}: {reason}")
    print(f"{sum(len(it.mutations) for it in trials) - len(failed)} passed, {len(failed)} failed")
    return 1 if failed else 0


def drawn(many, names, found):
    """Returns for two of these crates those of so many mutations that are theirs, drawn by the hash of the commit from those that
    were refused."""
    ran = subprocess.run(["git", "rev-parse", "HEAD"], cwd=TOP, capture_output=True, text=True, check=True)
    lot = lambda name: hash_of_texts([ran.stdout.strip(), name])
    refused = {crate: [it for it in mutations_of(crate) if it.name not in due_of(crate, found)[1]] for crate in names}
    two = sorted(filter(refused.get, names), key=lot)[:2]
    chosen = sorted((it for crate in two for it in refused[crate]), key=lambda it: lot(it.name))[:many]
    for it in chosen:
        print(f"drawn: {it.name}", flush=True)
    return {crate: [it for it in chosen if it.name.startswith(f"{crate}/")] for crate in two}


def main():
    asked = argparse.ArgumentParser(description=__doc__, formatter_class=argparse.RawDescriptionHelpFormatter)
    asked.add_argument("--compare", action="store_true")
    asked.add_argument("--draw", type=int, metavar="N")
    asked.add_argument("--jobs", type=int, default=os.cpu_count())
    asked.add_argument("--together", type=int, default=12)
    asked.add_argument("crates", nargs="*", metavar="CRATE")
    given, now = asked.parse_args(), version()
    if given.compare:
        return compare()
    if given.draw:
        lots = drawn(given.draw, given.crates or LOWEST, verdicts(now)[1])
        return try_all([Trial(it, given.together, now, lot) for it, lot in lots.items() if lot], given.jobs)
    found = verdicts(now)[1]
    trials = [Trial(it, given.together, now) for it in given.crates or crates_with_mutations() if given.crates or due_of(it, found)[1]]
    return try_all(trials, given.jobs)


if __name__ == "__main__":
    sys.exit(main())
