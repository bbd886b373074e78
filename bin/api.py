#!/usr/bin/env python3
"""Writes the pages of `docs/api/` from the sources: each public item with its signature, its documentation and its contract.

usage: bin/api.py            writes the pages
       bin/api.py --check    writes nothing; fails if a page differs from the sources

The root of `openapiv3` exports its items under comments that name the sections of OpenAPI, and each section is a page. `openapi_faults`,
`openapi_findings` and `openapi_visit_mut` have a page each. The last line is `N passed, M failed`, and counts pages.
"""
import collections
import itertools
import os
import re
import sys

TOP = os.path.dirname(os.path.dirname(os.path.realpath(__file__)))
PAGES = f"{TOP}/docs/api"
# The libraries with pages: the first has one for each section of its root, the others one each.
ROOT, OTHERS = "openapiv3", ("openapi_faults", "openapi_findings", "openapi_visit_mut")
# What the root exports of the kit, which is documented there.
OF_KIT = ("indexmap",)
BEGINS = re.compile(r"(?:pub(?:\(crate\))? )?(?:const (?=fn))?(struct|enum|trait|fn|type|const|static|impl)\b(?: (\w+))?")
IMPL = re.compile(r"impl(?:<(?:[^<>]|<[^<>]*>)*>)? (?:((?:\w+::)*\w+(?:<.*>)?) for )?(&'?\w* ?)?(\w+)")
BLANKET = re.compile(r"impl<(\w+): (\w+)(?: \+ [\w' +]+)?> (\w+) for \1\b")
LITERAL = re.compile(r'"(?:[^"\\]|\\.)*"|b?\'(?:[^\'\\]|\\.)\'')
CONTRACT = re.compile(r" *(?:requires|ensures)\b")
BLOCK = re.compile(r"(^```.*?^```$)", re.M | re.S)


class Item:
    """An item of a source: its kind and name, its documentation, its attributes, and its code without either."""

    def __init__(self, docs, attributes, code):
        self.docs, self.attributes, self.code = docs, attributes, code
        found = BEGINS.match(code[0].strip())
        self.kind, self.name = found.groups() if found else (None, None)
        self.is_public = code[0].strip().startswith("pub ") and not code[0].strip().startswith("pub(")

    def parts(self):
        """Returns the items that a block holds."""
        return items_of(self.code[1:-1], indent=(len(self.code[0]) - len(self.code[0].lstrip())) + 4)

    def signature(self):
        """Returns the lines of a function before its contract and its body."""
        lines = [*itertools.takewhile(lambda it: not CONTRACT.match(it) and it.strip() not in ("{", "{}"), self.code)]
        lines[-1] = re.sub(r"\s*(?:\{(?:\})?|;)$", "", lines[-1])
        return unindented(lines)

    def contract(self):
        """Returns the lines of the contract of a function."""
        lines = itertools.dropwhile(lambda it: not CONTRACT.match(it), self.code)
        indent = len(self.code[0]) - len(self.code[0].lstrip())
        lines = [*itertools.takewhile(lambda it: it.rstrip() not in (" " * indent + "{", " " * indent + "{}"), lines)]
        if lines:
            lines[-1] = lines[-1].removesuffix(";")
        return unindented([it for it in lines if it.strip() and not it.strip().startswith("//")])


def unindented(lines):
    indent = min((len(it) - len(it.lstrip()) for it in lines), default=0)
    return [it[indent:] for it in lines]


def items_of(lines, indent=0):
    """Returns the items at an indent: each begins behind its documentation and attributes, and ends at its indent."""
    found, docs, attributes, code, open_attribute = [], [], [], [], False
    for line in lines:
        own = line[indent:] if line[:indent].strip() == "" else line
        if code:
            code.append(line)
        elif open_attribute or own.startswith(("#[", "#![")):
            attributes.append(own)
            open_attribute = "".join(attributes).count("[") != "".join(attributes).count("]")
            continue
        elif own.startswith("///"):
            docs.append(own[3:].removeprefix(" "))
            continue
        elif not own.strip() or own.startswith("//"):
            docs, attributes = [], []
            continue
        else:
            code = [line]
        if is_whole(code, own.rstrip()):
            found.append(Item(docs, attributes, code))
            docs, attributes, code = [], [], []
    return found


def is_whole(code, last):
    """Returns whether an item ends with this last line of its code. A function ends with its body, or in a trait with a `;`."""
    text = LITERAL.sub("", "\n".join(code))
    is_flat = all(text.count(it[0]) == text.count(it[1]) for it in ("()", "{}", "[]"))
    is_function = re.match(r"\s*(?:pub(?:\(crate\))? )?(?:const )?fn ", code[0])
    return is_flat and (last in ("}", "{}") or last.endswith((";", " {}")) if is_function else last.endswith((";", "}", ",")))


class Sources:
    """The public items of all libraries by crate and name, the impls by the name of the type, and which types each library has."""

    def __init__(self):
        self.items, self.impls, self.blankets, self.passed_on = {}, collections.defaultdict(list), [], {}
        self.types = set()
        for crate in sorted(os.listdir(f"{TOP}/crates")):
            for folder, _, names in sorted(os.walk(f"{TOP}/crates/{crate}/src")):
                for name in sorted(names):
                    with open(f"{folder}/{name}", encoding="utf-8") as it:
                        self.read(crate, it.read().split("\n"))

    def read(self, crate, lines):
        for it in items_of(lines):
            if it.kind == "impl":
                head = re.sub(r"\s+", " ", " ".join(itertools.takewhile(lambda line: line.strip() != "{", it.code)))
                blanket, found = BLANKET.match(head), IMPL.match(head)
                if blanket:
                    self.blankets.append(blanket.groups()[1:])
                elif found:
                    self.impls[found[3]].append((crate, found[1], it))
                continue
            if it.kind in ("struct", "enum"):
                self.types.add((crate, it.name))
            if it.name and it.is_public:
                self.items.setdefault((crate, it.name), []).append(it)
        for _, names in exported("\n".join(lines)):
            self.passed_on |= {(crate, name): of for of, name in names}

    def found(self, crate, name):
        """Returns the crate that defines an item which this one exports, and the item; or None if there is not exactly one."""
        while (crate, name) not in self.items and (crate, name) in self.passed_on:
            crate = self.passed_on[crate, name]
        items = self.items.get((crate, name), [])
        return (crate, items[0]) if len(items) == 1 else None

    def traits_of(self, crate, item, known):
        """Returns the traits of a type that a user can name: derived ones, those of impls, and those that follow from these."""
        derived = re.search(r"derive\(([^)]*)\)", " ".join(item.attributes))
        names = {it.strip() for it in derived[1].split(",") if it.strip()} if derived else set()
        # (an impl in another library is for this type where that library has none of the name)
        names |= {
            of.split("::")[-1] for where, of, _ in self.impls[item.name] if of and (where == crate or (where, item.name) not in self.types)
        }
        while more := {made for bound, made in self.blankets if bound in names} - names:
            names |= more
        return sorted(it for it in names if it.partition("<")[0] in known)


def exported(text):
    """Yields the parts of the root of a library: the comment above them, and the crate or module and names that they export."""
    for block in re.split(r"\n\n", text):
        title = " ".join(it[3:] for it in block.split("\n") if it.startswith("// "))
        uses = re.findall(r"^pub use (\w+)::(?:\{([^}]*)\}|(\w+));", block, re.M)
        names = [(crate, it.strip()) for crate, many, one in uses for it in (many or one).split(",") if it.strip()]
        if names:
            yield title, names


class Page:
    """A page: its title and summary, and the crate and name of each item."""

    def __init__(self, title, summary, names):
        self.title, self.summary, self.names = title, summary, names
        self.file = re.sub(r"[^a-z0-9]+", "-", title.partition(" (")[0].lower()).strip("-") + ".md"


def page_of_section(title, names):
    """Returns the page of a comment, such as `4.7.2 Info Object: what the API is called, and in which version.`"""
    head, _, summary = title.partition(": ")
    if not summary:
        head, _, summary = title.partition(", ")
    number, _, name = head.partition(" ") if head[0].isdigit() else ("", "", head)
    return Page(name + (f" ({number})" if number else ""), summary[:1].upper() + summary[1:], names)


def text_of(crate, file):
    with open(f"{TOP}/crates/{crate}/src/{file}", encoding="utf-8") as it:
        return it.read()


def pages():
    """Returns all pages, each with the items of its part of a root."""
    found = [page_of_section(title, names) for title, names in exported(text_of(ROOT, "lib.rt"))]
    for crate in OTHERS:
        text = text_of(crate, "lib.rt")
        docs = [it[4:] for it in text.split("\n") if it.startswith("//! ")]
        names = [(crate, name) for _, names in exported(text) for _, name in names]
        found.append(Page(crate, docs[0], names))
    return found


class Writer:
    """Writes pages. A link `[`NAME`]` of a comment becomes a link to where the item is documented."""

    def __init__(self, sources, all_pages):
        self.sources, self.where, self.missing, self.anchors = sources, {}, [], set()
        libraries = {crate for crate, _ in sources.items}
        for page in all_pages:
            # (what a root exports of a module is its own)
            own = page.title if page.title in OTHERS else ROOT
            page.names = [(crate if crate in libraries or crate in OF_KIT else own, name) for crate, name in page.names]
            for _, name in page.names:
                self.where.setdefault(name, page.file)
        found = [sources.found(*it) for page in all_pages for it in page.names]
        self.known = {*(it[1].name for it in found if it and it[1].kind == "trait"), "Clone", "Copy", "Debug", "Default", "Display", "Drop", "Eq", "Error", "Extend", "From", "FromIterator",
                      "FromStr", "IntoIterator", "Iterator", "Ord", "PartialEq", "PartialOrd", "Index", "Hash"}

    def prose(self, docs):
        """Returns a comment as Markdown, with its links, and headings three levels deeper. Blocks of code are unchanged."""
        parts = BLOCK.split("\n".join(docs))
        return "".join(it if BLOCK.fullmatch(it) else self.text(it) for it in parts)

    def text(self, part):
        """Returns a part of a comment that has no block of code as Markdown."""
        lines = [re.sub(r"^#", "####", it) for it in part.split("\n") if not re.match(r"\[[^\]]*\]: ", it)]
        return re.sub(r"\[(`[^`]+`)\](?:\(([\w:]+)\)|\[[^\]]*\])?", self.link, "\n".join(lines))

    def line(self, docs):
        return " ".join(self.prose(docs).split())

    def link(self, found):
        words = re.sub(r"\(.*", "", (found[2] or found[1].strip("`"))).split("::")
        words = [it for it in words if it not in ("crate", "std", "") and it not in {crate for crate, _ in self.sources.items}]
        if not words or words[0] not in self.where:
            return found[1]
        anchor = slug_of(*words[:2])
        return f"[{found[1]}]({self.where[words[0]]}#{anchor if anchor in self.anchors else slug_of(words[0])})"

    def function(self, item, owner=""):
        self.anchors.add(slug_of(owner, item.name))
        lines = [f"### `{owner}{item.name}`" if owner else f"## `{item.name}`", ""]
        lines += ["```rust", *item.signature(), "```", "", self.prose(item.docs), ""]
        if contract := item.contract():
            lines += ["<details><summary>Contract</summary>", "", "```text", *contract, "```", "", "</details>", ""]
        return lines

    def fields(self, item):
        """Returns the documentation of the fields or variants of a type, a line each."""
        lines = []
        for part in item.parts():
            code = re.sub(r"\s+", " ", " ".join(part.code)).strip().rstrip(",")
            if item.kind == "struct" and not code.startswith("pub "):
                continue
            name = code.removeprefix("pub ") if len(part.code) == 1 else code.removeprefix("pub ").partition(" {")[0]
            lines.append(f"- `{name}`: {self.line(part.docs)}")
            for inner in part.parts():
                lines.append(f"  - `{' '.join(inner.code).strip().rstrip(',')}`: {self.line(inner.docs)}")
        return lines

    def item(self, crate, name):
        """Returns the lines of an item."""
        found = self.sources.found(crate, name)
        if found is None:
            self.missing.append(f"{crate}::{name}")
            return []
        crate, item = found
        if item.kind == "fn":
            return self.function(item)
        lines = [f"## `{item.name}`", "", "```rust", self.declaration(item), "```", "", self.prose(item.docs), ""]
        if item.kind in ("struct", "enum") and (fields := self.fields(item)):
            lines += ["Fields:" if item.kind == "struct" else "Variants:", "", *fields, ""]
        if item.kind == "trait":
            for part in item.parts():
                if part.kind == "fn":
                    lines += self.function(part, f"{name}::")
            return lines
        for where, of, block in self.sources.impls[name]:
            for part in block.parts() if of is None and where == crate else ():
                if part.kind == "fn" and part.is_public:
                    lines += self.function(part, f"{name}::")
        if item.kind in ("struct", "enum") and (traits := self.sources.traits_of(crate, item, self.known)):
            lines += [f"Traits of `{name}`: {', '.join(f'`{it}`' for it in traits)}.", ""]
        return lines

    def declaration(self, item):
        """Returns the first line of a type."""
        head = item.code[0].strip()
        return re.sub(r"\s*[{;(].*", "", head) if item.kind in ("struct", "enum", "trait") else head

    def page(self, page):
        lines = [f"# {page.title}", "", self.prose([page.summary]), ""]
        for crate, name in page.names:
            if crate in OF_KIT:
                lines += [f"## `{name}`", "", f"The type of that name in the library `{crate}` of the kit, exported again.", ""]
            else:
                lines += self.item(crate, name)
        return re.sub(r"\n{3,}", "\n\n", "\n".join(lines)).rstrip() + "\n"


def slug_of(*words):
    """Returns the anchor of a heading that is a name in code, as GitHub makes it."""
    return re.sub(r"\W", "", "".join(words).lower())


def index_of(all_pages):
    lines = ["# The library, item by item", "",
             "These pages are made from the sources by `bin/api.py`. Each has the public items of a section of OpenAPI 3.0.3 (the number is",
             "that of the section) or of one purpose, with their contracts folded. [How to read a contract](../CONTRACTS.md).", ""]
    for page in all_pages:
        names = ", ".join(f"[`{name}`]({page.file}#{slug_of(name)})" for _, name in page.names)
        lines.append(f"- [{page.title}]({page.file}): {names}")
    return "\n".join(lines) + "\n"


def written():
    """Returns the text of each page by its file, and the exported items that no source defines."""
    all_pages = pages()
    writer = Writer(Sources(), all_pages)
    for page in all_pages:
        # (so that links know the headings of all pages)
        writer.page(page)
    writer.missing.clear()
    found = {page.file: writer.page(page) for page in all_pages}
    return found | {"README.md": index_of(all_pages)}, writer.missing


def main():
    if sys.argv[1:] not in ([], ["--check"]):
        print(__doc__.split("\n\n")[1], file=sys.stderr)
        return 2
    texts, missing = written()
    for it in missing:
        print(f"FAILED: there is not exactly one public item {it} in the sources")
    os.makedirs(PAGES, exist_ok=True)
    stale = []
    for file in sorted({*texts, *os.listdir(PAGES)}):
        try:
            with open(f"{PAGES}/{file}", encoding="utf-8") as it:
                before = it.read()
        except FileNotFoundError:
            before = None
        if before == texts.get(file):
            continue
        if sys.argv[1:]:
            stale.append(file)
            print(f"FAILED: docs/api/{file} differs from the sources; run bin/api.py")
        elif file in texts:
            with open(f"{PAGES}/{file}", "w", encoding="utf-8") as it:
                it.write(texts[file])
        else:
            os.remove(f"{PAGES}/{file}")
    failed = len(missing) + len(stale)
    print(f"{len(texts) - len(stale)} passed, {failed} failed")
    return 1 if failed else 0


if __name__ == "__main__":
    sys.exit(main())
