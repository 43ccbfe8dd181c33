#!/usr/bin/env python3
"""Writes docs/GALLERY.md from the functions of the crates of PAGES and the recorded output of
crates/docs_gallery. docs/check.py fails if the page isn't what this would write.
"""

import re
import sys
import textwrap

from pages import TOP, text_of

PAGES = [TOP / "crates/docs_gallery_settings", TOP / "crates/docs_gallery_printers"]
GALLERY = TOP / "docs/GALLERY.md"

# The modules of which the page has a part, in its order.
PARTS = [
    "styles",
    "alignments",
    "spaces",
    "widths",
    "cell_widths",
    "heights",
    "borders",
    "objects",
    "printers",
    "streams",
    "serialized",
    "rows",
    "texts",
    "own",
]

HEAD = """# Gallery

Each style, option and printer, with its code and its picture. The [guide](GUIDE.md) shows a whole
function to paste a snippet into. `alloc` is an allocator, in a program `rt.alloc()`. A snippet that
ends without a value changes `table`, which is `Table::nohead(alloc, rows)?` of one of the
[rows below](#the-rows).

The code is part of `crates/docs_gallery_settings` and `crates/docs_gallery_printers`, which the
gate proves, and each picture is what the program `docs_gallery` prints. `docs/gallery.py` writes
this page.
"""

# Traits that a body uses by a method alone: what the call looks like.
METHODS = {"CellText": ".text()", "ExactRecords": ".count_rows()", "IntoRecords": ".iter_rows()"}


def fail(message):
    sys.exit(f"gallery.py: {message}")


def pictures():
    """What the program prints, by the names of the functions."""
    found = {}
    name = None
    for line in text_of(TOP / "crates/docs_gallery/stdout").split("\n")[:-1]:
        if mark := re.fullmatch(r"== (\w+::\w+)", line):
            name = mark[1]
            if name in found:
                fail(f"{name} is printed twice")
            found[name] = []
        else:
            found[name].append(line)
    return found


def source(module):
    """The source of a module of the gallery."""
    found = [it for it in (crate / f"src/{module}.rt" for crate in PAGES) if it.is_file()]
    if len(found) != 1:
        fail(f"{module}.rt is in {len(found)} crates of the gallery")
    return text_of(found[0])


def dedented(lines):
    """Lines without the spaces that all of them begin with."""
    filled = [len(line) - len(line.lstrip()) for line in lines if line.strip()]
    least = min(filled, default=0)
    return [line[least:].rstrip() for line in lines]


def functions(text):
    """The functions of a module: public or not, name, doc, body, and all of the text."""
    pattern = r"((?:^/// .*\n)*)^(pub )?fn (\w+)(?:.|\n)*?\{\n((?:(?:    .*)?\n)*)\}\n"
    for found in re.finditer(pattern, text, re.MULTILINE):
        doc = " ".join(line[4:] for line in found[1].splitlines())
        body = dedented(found[4].splitlines())
        if body[-1:] == ["Ok(())"]:
            body.pop()
        whole = found[0][len(found[1]):].rstrip()
        yield bool(found[2]), found[3], doc, body, whole


def fenced(kind, lines):
    return [f"```{kind}", *lines, "```", ""]


def paragraph(text, before=""):
    """A text in lines of at most 100 columns, a link never broken, with an empty line after it."""
    words = re.sub(r"\[[^]]*\]\([^)]*\)\S*", lambda it: it[0].replace(" ", "\0"), before + text)
    after = " " * len(before)
    lines = textwrap.wrap(
        words, 100, subsequent_indent=after, break_long_words=False, break_on_hyphens=False
    )
    return [*(line.replace("\0", " ") for line in lines), ""]


def said(module):
    """The title of a part, and what its module says after it."""
    lines = source(module).splitlines()
    text = " ".join(line[4:] for line in lines if line.startswith("//! "))
    title, _, rest = text.partition(". ")
    return title.rstrip("."), rest


def imports(text):
    """The names that a source imports, each with the module that it comes from."""
    found = {}
    for use in re.findall(r"^use ((?:.|\n)*?);\n", text, re.MULTILINE):
        for path, name in expanded(use):
            found[name] = path
    return found


def expanded(use):
    """The module and the name of each import of a `use`."""
    path, _, names = re.sub(r"\s+", "", use).rpartition("::")
    if "{" in use:
        path, _, names = re.sub(r"\s+", " ", use).partition("::{")
        names = names.rstrip("} ")
    for name in filter(None, (it.strip() for it in names.split(","))):
        yield (path, name) if name != "self" else tuple(path.rsplit("::", 1))


def used(lines, found):
    """The `use` lines that lines of code need, of what their source imports, and an empty line."""
    text = "\n".join(lines)
    by_path = {}
    for name, path in found.items():
        if re.search(rf"\b{name}\b", text) or METHODS.get(name, "\0") in text:
            by_path.setdefault(path, []).append(name)
    lines = []
    for path, names in sorted(by_path.items()):
        listed = names[0] if len(names) == 1 else "{" + ", ".join(sorted(names)) + "}"
        lines.append(f"use {path}::{listed};")
    return [*lines, ""] if lines else []


def heading(name):
    """The heading of a function's picture."""
    return name.replace("_", " ").capitalize()


def ghost_uses(text):
    """The imports of a source's clauses, and an empty line."""
    lines = re.findall(r"^ghost use .*;$", text, re.MULTILINE)
    return [*lines, ""] if lines else []


def shared(text, found):
    """What the functions of a module share: types, constants and private functions."""
    types = r"(?:#\[.*\n)*(?:(?:struct|impl) [^;\n]*\{(?:.|\n)*?^}|struct \w+;)"
    lines = []
    for item in re.findall(rf"^(?:{types}|const (?:[^;]|; )*;)\n", text, re.MULTILINE):
        lines += ["", *item.rstrip().splitlines()]
    for is_public, _, _, _, whole in functions(text):
        if not is_public:
            lines += ["", *whole.splitlines()]
    if not lines:
        return []
    ghosts = ghost_uses(text) if "    ghost " in "\n".join(lines) else []
    return fenced("rust", [*ghosts, *used(lines, found), *lines[1:]])


def code_of(text, names, body, whole):
    """The code of a picture: the body of a function, or all of it if it has a contract."""
    if "\n    ensures" not in whole:
        return [*used(body, names), *body]
    lines = whole.splitlines()
    return [*ghost_uses(text), *used(lines, names), *lines]


def part(module, found):
    """A part of the page: what its module says, what its functions share, and each picture."""
    text = source(module)
    names = imports(text)
    title, rest = said(module)
    lines = [f"## {title}", "", *paragraph(rest), *shared(text, names)]
    for is_public, name, doc, body, whole in functions(text):
        if not is_public:
            continue
        picture = found.pop(f"{module}::{name}", None)
        if picture is None:
            fail(f"{module}::{name} is not printed")
        lines += [f"### {heading(name)}", "", *paragraph(doc)]
        lines += fenced("rust", code_of(text, names, body, whole))
        lines += fenced("text", picture)
    return lines


def without_uses(text):
    """A source without its comments and imports."""
    text = re.sub(r"^\s*//.*\n", "", text, flags=re.MULTILINE)
    return re.sub(r"^\s*(?:pub |ghost )*use (?:.|\n)*?;\n", "", text, flags=re.MULTILINE)


def anchor(title, seen):
    """The anchor of a heading; a heading that comes again has a number behind it."""
    name = title.lower().replace(" ", "-")
    count = seen[name] = seen.get(name, -1) + 1
    return f"{name}-{count}" if count else name


def anchors():
    """Each part: its title, anchor and source, and the heading, anchor and code of its pictures."""
    seen = {"gallery": 0, "the-rows": 0}
    for module in PARTS:
        title = said(module)[0]
        to = anchor(title, seen)
        text = source(module)
        shown = [(heading(it[1]), it[3]) for it in functions(text) if it[0]]
        yield title, to, text, [(head, anchor(head, seen), body) for head, body in shown]


def contents():
    """The table of contents: a line for each part, with a link to each of its pictures."""
    lines = []
    for title, to, _, shown in anchors():
        links = ", ".join(f"[{head.lower()}](#{at})" for head, at, _ in shown)
        lines += paragraph(f"[{title}](#{to}): {links}", "- ")[:-1]
    return [*lines, ""]


def examples():
    """The code of each picture, and then of each part, with a link to it and its name."""
    parts = list(anchors())
    for title, _, _, shown in parts:
        for head, at, body in shown:
            yield "\n".join(body), f"GALLERY.md#{at}", f"{title.lower()}, {head.lower()}"
    for title, to, text, _ in parts:
        yield without_uses(text), f"GALLERY.md#{to}", title.lower()


def page():
    found = pictures()
    lines = [*HEAD.splitlines(), "", *contents(), "## The rows", ""]
    for _, name, doc, body, _ in functions(source("given")):
        if name.startswith("of_"):
            rows = [line for line in body if not line.startswith("Table::nohead(")]
            lines += [*paragraph(doc), *fenced("rust", rows)]
    for module in PARTS:
        lines += part(module, found)
    for name in found:
        if not name.startswith("from_tabled::"):
            fail(f"{name} has no part of the page")
    return "\n".join(lines).rstrip() + "\n"


if __name__ == "__main__":
    GALLERY.write_text(page())
