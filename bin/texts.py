"""Finds the texts that people read in a file: the paragraphs of a page, and the comments of a source or a script.

Lines come with their numbers. Code in backticks is replaced by one word, and blocks of code are left out.
"""
import ast
import io
import os
import re
import tokenize

CODE = re.compile(r"(?<!`)(`+)(?!`).+?(?<!`)\1(?!`)", re.S)
LINK = re.compile(r"\[([^\]]*)\]\([^)]*\)")
FENCE = re.compile(r"\s*(```|~~~)")
# What begins a paragraph without an empty line above it, what is a whole one, and where a link leads.
BEGINS, WHOLE, TARGET = re.compile(r"\s*([-*+]|\d+\.) "), re.compile(r"#+ |\s*\|"), re.compile(r"\s*\[[^\]]*\]: ")
COMMENT = {".rt": re.compile(r"\s*(//[/!]?) ?(.*)"), ".sh": re.compile(r"(?:.*?\s)??(#) ?(.*)"),
           ".antt": re.compile(r"\s*(--) ?(.*)")}


def without_code(text):
    """Returns a text with a word instead of each piece of code, and its lines as they were."""
    return LINK.sub(r"\1", CODE.sub(lambda it: "code" + "\n" * it[0].count("\n"), text))


def paragraphs(lines):
    """Yields each paragraph of numbered lines: the number of its first line, and its text without code."""
    part, last, is_fenced = [], 0, False
    for number, line in [*lines, (0, "")]:
        follows, is_fence, is_whole = number == last + 1, FENCE.match(line), WHOLE.match(line)
        is_fenced = is_fenced and follows
        is_text = line.strip() and not (is_fence or is_fenced or TARGET.match(line))
        if part and not (is_text and follows and not is_whole and not BEGINS.match(line)):
            yield part[0][0], without_code("\n".join(it for _, it in part))
            part = []
        if is_text and is_whole:
            yield from ((number, it) for it in without_code(line).split("|"))
        elif is_text and (part or not line.startswith("    ")):
            part.append((number, line))
        is_fenced, last = is_fenced ^ bool(is_fence), number


def numbered(text, first=1):
    return [*enumerate(text.split("\n"), first)]


def comments_of_script(text):
    """Yields the numbered lines of each docstring of a Python script, and those of its comments."""
    for it in ast.walk(ast.parse(text)):
        if isinstance(it, (ast.Module, ast.ClassDef, ast.FunctionDef)) and ast.get_docstring(it):
            yield [(number, line.strip()) for number, line in numbered(it.body[0].value.value, it.body[0].lineno)]
    tokens = tokenize.generate_tokens(io.StringIO(text).readline)
    yield [(it.start[0], it.string.lstrip("# ")) for it in tokens if it.type == tokenize.COMMENT]


def comments(path, text):
    """Returns the numbered lines of the comments of a file, in groups: doc comments of a source, and all others."""
    kind = os.path.splitext(path)[1]
    if kind == ".c":
        found = [numbered(it[1], text[: it.start()].count("\n") + 1) for it in re.finditer(r"/\*(.*?)\*/", text, re.S)]
        return [], [[(number, line.strip(" *")) for number, line in lines] for lines in found]
    if kind not in COMMENT:
        return [], [*comments_of_script(text)]
    found = [(number, it[1], it[2]) for number, line in numbered(text) if (it := COMMENT[kind].match(line))]
    groups = [[(number, line) for number, mark, line in found if mark == one] for one in ("///", "//!", "//", "#", "--")]
    return groups[:2], groups[2:]
