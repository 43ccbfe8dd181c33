"""Checks the names of docs/PROVED.md and of the tables of docs/VIEWER.md against the sources.

- A call `Type::method`, or each of `Type::{a, b}`, is a method of the type, of a trait that it
  implements, or of the type that it is an alias of. `laws::x` is in `laws` of crates/tabled.
- A name alone is a type, a function or a trait, or a word of a contract. `Relation.field` is a
  field of the record.
- A clause, as in (clause `promised`), is one of the calls of its row or item.
- A quoted clause is that of the call: docs/examples.py compares it.
"""

import functools
import re

from claims import uses
from pages import TOP, prose, report, text_of, tracked

LAWS = TOP / "crates/tabled/src/lib.rt"

# Names of std that no source of ours has.
OF_STD = ("Stdin", "Stdout")

# What a span in backticks is that has names: `a`, `a::b`, `a::{b, c}`, `a_{b, c}`, `a.b`.
SPAN = re.compile(r"[A-Za-z_]\w*(?:::\w+)*(?:(?:::|(?<=_))\{[\w, ]*\}|\.\w+)?")

FUNCTION = r"^(?:pub(?:\(\w+\))? )?(?:const )?(?:extern \"C\" )?fn (\w+)"
DERIVED = r"#\[derive\(([^)]*)\)\]\n(?:#.*\n)*pub (?:struct|enum) (\w+)"
RECORD = r"^(?:pub )?record (\w+)((?:.*\n(?=[ \n]))*.*)"
ALIAS = r"^pub type (\w+)(?:<.*?>)? = (?:\w+::)*(\w+)"
HEAD = re.compile(
    r"impl(?:<.*?>(?= \w))?( \??(?:\w+::)*(\w+)(?:<.*>)? for)? "
    r"(?:&(?:'\w+ )?(?:mut )?)?(?:\w+::)*(\w+)"
)


class Names:
    """What the sources declare: functions, methods by type and trait, the traits of types, aliases.
    A function and a method have the names of their clauses."""

    def __init__(self):
        self.functions = {}
        self.methods = {}
        self.traits = {}
        self.aliases = {}

    def add_source(self, text):
        self.aliases |= re.findall(ALIAS, text, re.MULTILINE)
        for found in re.finditer(FUNCTION, text, re.MULTILINE):
            self.functions.setdefault(found[1], set()).update(clauses_at(text, found.start(), ""))
        for derived, name in re.findall(DERIVED, text):
            self.traits.setdefault(name, set()).update(re.findall(r"\w+", derived))
        for item in re.finditer(r"^(impl|pub trait)\b[\s\S]*?^}", text, re.MULTILINE):
            self.add_item(item[0])

    def add_item(self, text):
        """Adds the methods and ghost members of an impl or a trait."""
        head = re.sub(r"\s+", " ", text.partition("{\n")[0])
        found = re.match(r"pub trait()() (\w+)", head) or HEAD.match(head)
        if not found:
            return
        if found[2]:
            self.traits.setdefault(found[3], set()).add(found[2])
        known = self.methods.setdefault(found[3], {})
        for found in re.finditer("^    " + FUNCTION[1:], text, re.MULTILINE):
            known.setdefault(found[1], set()).update(clauses_at(text, found.start(), "    "))
        for ghost in re.findall(r"^    ghost (\w+)", text, re.MULTILINE):
            known.setdefault(ghost, set())

    def clauses(self, kind, method):
        """The names of a call's clauses, or None if the type has no such call."""
        kinds = [kind, self.aliases.get(kind, kind)]
        kinds += [trait for it in kinds for trait in self.traits.get(it, ())]
        found = [self.methods[it][method] for it in kinds if method in self.methods.get(it, ())]
        if not found and method == "clone" and "Clone" in kinds:
            return set()
        return set().union(*found) if found else None


def clauses_at(text, begin, indent):
    """The names of the clauses of a function: those before its body."""
    head = re.match(rf"[\s\S]*?(?:\{{\}}$|;$|^{indent}\{{|\{{$)", text[begin:], re.MULTILINE)
    return re.findall(r"(?:ensures\*?|requires) (\w+) \{", head[0] if head else "")


@functools.cache
def of_crates(pattern):
    """The files of these patterns of the library and the viewer."""
    return [*tracked(f"crates/tabled*/{pattern}"), *tracked(f"crates/tabview*/{pattern}")]


@functools.cache
def names():
    found = Names()
    for path in of_crates("src/**/*.rt"):
        found.add_source(text_of(path))
    return found


@functools.cache
def laws():
    """The functions of `laws` of crates/tabled."""
    text = text_of(LAWS).partition("pub mod laws {")[2].partition("\n}")[0]
    listed = re.findall(r"pub use [\w:]+::(?:\{([^}]*)\}|(\w+));", text)
    return {name.strip() for many, one in listed for name in (many or one).split(",")} - {""}


@functools.cache
def is_word(name):
    """Whether a name is a word of a source or a specification of the library or the viewer."""
    word = re.compile(rf"\b{name}\b")
    paths = (it for kind in ("src/**/*.rt", "specs/**/*.antt") for it in of_crates(kind))
    return name in OF_STD or any(name in text_of(it) and word.search(text_of(it)) for it in paths)


@functools.cache
def fields():
    """The fields of each record of a specification."""
    found = {}
    for path in of_crates("specs/**/*.antt"):
        for name, rest in re.findall(RECORD, text_of(path), re.MULTILINE):
            named = re.findall(r"^ +(?:pub )?(\w+) :", rest, re.MULTILINE)
            found.setdefault(name, set()).update(named)
    return found


def spelled(span):
    """The names that a span has: of `a::{b, c}` and `a_{b, c}` each, else its one."""
    found = re.fullmatch(r"([\w:]*?)\{(.*)\}", span)
    return [found[1] + it.strip() for it in found[2].split(",")] if found else [span]


def clauses_of(name):
    """The names of the clauses of a call, of another name none. None if no source has the name."""
    owner, _, name = name.rpartition("::")
    if owner == "laws":
        return set() if name in laws() else None
    if owner and owner not in uses():
        return names().clauses(owner, name)
    if name in names().functions:
        return names().functions[name]
    record, _, field = name.partition(".")
    if field and record in fields():
        return set() if field in fields()[record] else None
    return set() if is_word(record) and (not field or is_word(field)) else None


def items(path):
    """The rows of a page's tables, its paragraphs, and the items of its lists, with the number of
    their first line."""
    item = []
    for number, line in [*prose(path), (0, "")]:
        if item and (not line or line.lstrip().startswith(("|", "#", "- "))):
            yield item[0][0], " ".join(text for _, text in item)
            item = []
        if line:
            item.append((number, line))


def check_names(path, number, text):
    """Checks the names of a row or an item, and that a clause is one of the calls'."""
    known, wanted = set(), []
    for clause, span in re.findall(r"(clause )?`([^`]+)`", text):
        if clause:
            wanted.append(span)
        elif SPAN.fullmatch(span):
            for name in spelled(span):
                clauses = clauses_of(name)
                if clauses is None:
                    report(path, number, f"`{name}` is in no source")
                known |= clauses or set()
    for clause in wanted:
        if clause not in known:
            report(path, number, f"no call of this row has a clause `{clause}`")


def check_promises():
    """Checks both pages."""
    proved, viewer = TOP / "docs/PROVED.md", TOP / "docs/VIEWER.md"
    for number, text in items(proved):
        check_names(proved, number, text)
    part = None
    for number, text in items(viewer):
        part = text if text.startswith("## ") else part
        if part == "## What is proved":
            check_names(viewer, number, text)
