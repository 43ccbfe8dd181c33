#!/usr/bin/env python3
"""Checks what can be checked of the pages and the doc comments without a proof, in seconds.

- docs/gallery.py and docs/api.py would write their pages as they are.
- Each fenced block of a page is a part of what the gate or bindings/try runs, or what that prints,
  or says that it isn't run: docs/examples.py. The README begins with such a picture, whose edges
  are straight.
- The rows of docs/GATE.md, numbers that are in several places, and what the README says that the
  library rests on: docs/claims.py.
- The calls, laws and clauses that docs/PROVED.md and docs/VIEWER.md name: docs/promises.py.
- Each link of a page leads to a file, or to a heading of one. Each file that a page names in
  backticks exists.
- No page is longer than its limit. No line of a page or a source (.rt) is wider than its limit,
  which is another one for contracts. Imports and tactics of contracts have none, nor has a line
  that begins with a string; specifications and proofs (.antt) aren't looked at.
- Each public name of crates/tabled that the Rust crate lacks is in docs/DIFFERENCES.md.
- No word of WORDS, for which there is a plainer one, is in a page, a doc comment of the library or
  a comment of its specifications.

docs/check_tests.py tests it: each of its mutations of the tree has to fail.
"""

import re
import sys

import api
import gallery
from claims import check_claims
from examples import check_blocks, check_modules, check_opening, check_spans, check_straight
from pages import TOP, anchors, files, found, lines_of, prose, report, text_of, tracked
from promises import check_promises

# The most lines of a page.
LINES = {
    "README.md": 150,
    "CONTRIBUTING.md": 60,
    "docs/PROVED.md": 150,
    "docs/DESIGN.md": 150,
    "docs/DECISIONS.md": 200,
    "docs/GATE.md": 110,
    "bench/README.md": 150,
}

# The most columns of a line of a page or a source, and of a line of a contract. Tables, links,
# fenced blocks, and what docs/api.py writes may be wider. docs/wrap.py wraps a page.
COLUMNS = 100
CONTRACT_COLUMNS = 125
WRITTEN = ("docs/API.md",)

# Words that are files: in a folder of ours, or with the ending of a page, a script or a source.
# Words that are sources, without src/ or specs/ and an ending or with them.
FILE = re.compile(
    r"(?:crates|docs|bench|bindings|include|data)/[\w./-]+|[\w./-]+\.(?:py|rt|antt|edit|md|c|h|tsv)"
)
OF_CRATE = re.compile(r"(?:tabled|tabview|test|docs|example)\w*/[\w./]+")

# What begins a clause, which goes on until its braces are closed, and lines without a limit.
CONTRACT = ("ensures", "requires", "decreases", "invariant", "ghost ")
UNLIMITED = ("ghost use ", "#[", "#![", '"')

# Words that a reader would have to parse twice, each with the one to write.
WORDS = {
    r"answers": "returns",
    r"refus(?:e|es|ed|ing|al|als)": "fails, rejects, error",
    r"takes memory|makes in memory|want of memory|growth": "allocates, allocation failure",
    r"rooms?": "buffer, content width",
    r"judge[ds]?": "checked",
    r"stored run": "recorded output",
    r"lent": "borrowed",
    r"let go": "dropped",
    r"so many": "n",
    r"keeps? texts apart": "separates cells",
    r"tells?|told": "says, known, cached",
    r"aims?|spreads?": "placement",
    r"spots?": "slot",
    r"gaps?": "separator",
    r"laid(?! out)|blank row laid": "row template",
    r"led": "with a line feed before it",
    r"series": "dense run",
    r"standing": "effective",
    r"handed": "inherited, passed",
    r"bare": "zero-width",
    r"shorten(?:s|ed|ing)?": "truncate",
    r"stands?": "is",
    r"a no is": "returning false is",
    r"but for": "except",
    r"by itself|by themselves": "alone",
    r"as (?:it|they) comes?": "at once",
    r"what is set": "the settings",
    r"beside it": "next to it",
}
WORD = re.compile(r"\b(?:" + "|".join(WORDS) + r")\b")

# The sources whose comments are checked for these words too.
SOURCES = (
    "crates/tabled*/src/**/*.rt",
    "crates/tabled*/specs/**/*.antt",
    "crates/tabview*/src/**/*.rt",
    "crates/tabview*/specs/**/*.antt",
    "crates/docs_*/src/**/*.rt",
)

# Public names that the Rust crate has too, and that no page of differences has to name.
OF_THE_CRATE = """
ANSIStr AlignmentHorizontal AlignmentVertical Cell Columns CompactConfig CompactMultilineConfig
ConstDimension ConstSize DimensionPriority DimensionValue Entity ExactRecords Formatting Height
HeightList Indent IntoRecords LayoutIterator LimitColumns LimitRows Margin Max Measurement Min
MinWidth Padding Percent PoolTableDimension Position Priority PriorityLeft PriorityMax PriorityNone
Records Rows Sides SkipRows StaticDimension SuffixLimit TableOption WidthList ZeroDimension
""".split()

PAGES = tracked("**/*.md")


def check_written():
    """The pages that scripts write are as they would be written."""
    for script, page in ((gallery, gallery.GALLERY), (api, api.PAGE)):
        try:
            written = script.page()
        except SystemExit as error:
            found.append(str(error))
        else:
            if not page.is_file() or text_of(page) != written:
                report(page, 1, f"docs/{script.__name__}.py writes another page: run it")


def check_public_names():
    """Each public name except those of `laws` is the crate's, or is in the page of differences."""
    page = TOP / "docs/DIFFERENCES.md"
    named = set(re.findall(r"\w+", text_of(page)))
    for name in api.public_names():
        if name not in named and name not in OF_THE_CRATE:
            report(page, 1, f"the public name {name} isn't in it")


def check_links(path):
    for number, line in prose(path):
        for target in re.findall(r"\]\(([^)\s]+)\)", line):
            if "://" in target:
                continue
            file, _, anchor = target.partition("#")
            to = (path.parent / file).resolve() if file else path
            if not to.exists():
                report(path, number, f"{target} leads nowhere")
            elif anchor and to.suffix == ".md" and anchor not in anchors(to):
                report(path, number, f"{target}: no such heading")


def is_source(name):
    """Whether a name such as `tabled_line/placement` or `tabled_line/specs/Row` is a source's."""
    crate, _, rest = name.partition("/")
    paths = (f"src/{rest}.rt", f"src/{rest}", f"{rest}.antt", rest)
    return any((TOP / "crates" / crate / it).exists() for it in paths)


def is_file(name):
    """Whether a file or folder is at the top, or in a folder. NAME is any name, my_.. a reader's;
    out/ has what is built."""
    if any(it in name for it in ("out/", "NAME", "my_")) or (TOP / name.rstrip("/")).exists():
        return True
    return any(it.endswith(f"/{name}") for it in files())


def check_files(path):
    """A word in backticks may be a file, or a source of a crate."""
    for number, line in prose(path):
        for word in " ".join(re.findall(r"`([^`]+)`", line)).split():
            if FILE.fullmatch(word):
                if not is_file(word):
                    report(path, number, f"{word} doesn't exist")
            elif OF_CRATE.fullmatch(word) and not is_source(word):
                report(path, number, f"{word} is no source")


def check_length(path):
    name = str(path.relative_to(TOP))
    lines = text_of(path).splitlines()
    if len(lines) > LINES.get(name, len(lines)):
        report(path, len(lines), f"longer than {LINES[name]} lines")


def limits(path):
    """The lines of a page or a source that have a limit, each with its number and limit."""
    lines = enumerate(lines_of(path), 1)
    if path.suffix == ".md":
        for number, line in prose(path):
            if not line.lstrip().startswith("|") and "](" not in line:
                yield number, line, COLUMNS
    else:
        open_braces = 0
        for number, line in lines:
            text = line.lstrip()
            in_contract = open_braces > 0 or text.startswith(CONTRACT)
            if in_contract:
                open_braces += text.count("{") - text.count("}")
            if not text.startswith(UNLIMITED):
                yield number, line, CONTRACT_COLUMNS if in_contract else COLUMNS


def check_width(path):
    for number, line, limit in limits(path):
        if len(line) > limit:
            report(path, number, f"wider than {limit} columns")


def plainer(word):
    """What to write for a word."""
    return next(to for it, to in WORDS.items() if re.fullmatch(it, word))


def comments(path):
    """The lines of a source's doc comments outside of their examples, or of a specification's."""
    marks = ("--",) if path.suffix == ".antt" else ("///", "//!")
    fenced = False
    for number, line in enumerate(lines_of(path), 1):
        text = line.lstrip()
        if not text.startswith(marks):
            fenced = False
        elif "```" in text:
            fenced = not fenced
        elif not fenced:
            yield number, text


def check_words(path):
    """Names in backticks may be made of such words."""
    for number, line in prose(path) if path.suffix == ".md" else comments(path):
        if WORD.search(line.lower()):
            for word in WORD.findall(re.sub(r"`[^`]*`|\]\([^)]*\)", "", line.lower())):
                report(path, number, f"'{word}': write {plainer(word)}")


def main():
    check_written()
    check_public_names()
    check_claims()
    check_promises()
    for path in PAGES:
        check_links(path)
        check_files(path)
        check_length(path)
    for path in [*PAGES, *tracked("crates/*/src/**/*.rt")]:
        if str(path.relative_to(TOP)) not in WRITTEN:
            check_width(path)
    for path in [*PAGES, TOP / "crates/tabled/src/lib.rt"]:
        if path not in (gallery.GALLERY, api.PAGE):
            check_blocks(path)
    check_opening(TOP / "README.md")
    check_straight(TOP / "README.md")
    check_spans(TOP / "docs/FROM_TABLED.md")
    check_modules(TOP / "crates/tabled/src/lib.rt")
    written = [it for it in PAGES if str(it.relative_to(TOP)) not in WRITTEN]
    for path in [*written, *(it for pattern in SOURCES for it in tracked(pattern))]:
        check_words(path)
    if found:
        sys.exit("\n".join(found))
    print(f"{len(PAGES)} pages are as they should be")


if __name__ == "__main__":
    main()
