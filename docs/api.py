#!/usr/bin/env python3
"""Writes docs/API.md: each public module of crates/tabled and its items, with signatures, first
sentences and examples.

An item is found by the `pub use` lines from crates/tabled down to the file that declares it. Its
signature is what stands there without the clauses, and its sentence is the first one of its doc
comment. Methods that a type has in impls of its own are listed under it, those of a trait under the
trait. The example of a type is the first picture of the gallery, program or test that uses it; the
gate runs all of these. The script fails where an item or a method has no doc comment, or a type no
example. docs/check.py fails if the page isn't what this would write.
"""

import functools
import re
import sys

import gallery
from pages import TOP, lines_of, text_of

CRATES = TOP / "crates"
PAGE = TOP / "docs/API.md"

HEAD = """# API

Each public module of `tabled` with its items, as `docs/api.py` finds them. Signatures are without
their clauses: what a call promises is in its source, behind the link, and in words in
[what is proved](PROVED.md). Calls that return a `Result` with `TableError` or `AllocError`
allocate; the error `Memory` says that this failed. A type has a link to an example that the gate
runs.
"""

# Types that programs seldom name, each with a call that makes one.
MADE = {
    "CellHeightIncrease": "Height::increase(",
    "CellHeightLimit": "Height::limit(",
    "CellStyle": ".style_at(",
    "ColoredConfig": ".get_config_mut()",
    "CompleteDimension": ".get_dimension_mut()",
    "CutCell": "cell.text(alloc)",
    "Dimension": ".has_width(",
    "Estimate": ".estimate(",
    "ExactRecords": ".count_rows()",
    "HeightList": "Height::list(",
    "LentRows": "text_rows(",
    "LinedStyle": ".horizontals(",
    "MinWidth": "Width::increase(",
    "ModifyBy": "Modify::new(",
    "NarrowedRows": ".narrowed(",
    "PriorityLeft": "Priority::left(",
    "PriorityMax": "Priority::max(",
    "PriorityMin": "Priority::min(",
    "PriorityNone": "Priority::none(",
    "PriorityRight": "Priority::right(",
    "RecordTemplate": "ExtendedTable::from_rows(",
    "RecordsMut": "records.set(",
    "TableHeightIncrease": "Height::increase(",
    "TableHeightLimit": "Height::limit(",
    "TextLines": " lines(",
    "Truncate": "Width::truncate(",
    "Union": ".and(",
    "VecRecords": ".as_rows()",
    "WidthList": "Width::list(",
    "WordWrap": ".drop_spaces()",
    "Wrap": "Width::wrap(",
    "ZeroDimension": "CompactTable::new(",
}

# Where an item or a method has no doc comment, and the types that have no example.
lost = []
unused = []

ITEM = re.compile(r"^pub (struct|enum|trait|type|const|fn) (\w+)")
CLAUSE = re.compile(r"^(requires|ensures|ghost)\b")


def fail(message):
    sys.exit(f"api.py: {message}")


def module_at(crate, path):
    """The lines of a module's file, and the file."""
    base = CRATES / crate / "src"
    for file in (base / f"{path}.rt", base / path / "mod.rt"):
        if file.is_file():
            return lines_of(file), file
    return fail(f"crates/{crate}/src has no file for {path}")


def uses(lines):
    """The names that the lines re-export, as pairs of a path and a name."""
    text = "\n".join(lines)
    for found in re.finditer(r"\bpub use ([\w:]+?)::(?:\{([^}]*)\}|(\w+));", text):
        for name in (found[2] or found[3]).split(","):
            if name.strip():
                yield found[1].split("::"), name.strip()


def declared(crate, module, name):
    """The file and the index of the line that declares a name of a module of a crate."""
    lines, file = module_at(crate, module)
    for at, line in enumerate(lines):
        found = ITEM.match(line)
        if found and found[2] == name:
            return lines, file, at
    for path, other in uses(lines):
        if other == name:
            return found_at(crate, module, path, name)
    return fail(f"{file.relative_to(TOP)} does not declare {name}")


def found_at(crate, module, path, name):
    """Follows one `pub use` from a module of a crate."""
    if (CRATES / path[0]).is_dir():
        return declared(path[0], "/".join(path[1:]) or "lib", name)
    path = path[1:] if path[0] in ("crate", "self") else path
    inside = "" if module == "lib" else f"{module}/"
    return declared(crate, inside + "/".join(path), name)


def doc_above(lines, at):
    """The first sentence of the doc comment above a line, without the example behind it."""
    above = at - 1
    while lines[above].lstrip().startswith("#["):
        above -= 1
    doc = []
    while lines[above].lstrip().startswith("///"):
        doc.insert(0, lines[above].lstrip()[3:].strip())
        above -= 1
    words = []
    for line in doc:
        if not line or line.startswith("```") or line.startswith("- "):
            break
        words.append(line)
    text = " ".join(words)
    found = re.match(r"(.*?[.:])(?= [A-Z`]|$)", text)
    return (found[1] if found else text).rstrip(":")


def signature(lines, at):
    """What stands from a line on, up to the clauses and the body, on one line."""
    told = []
    for line in lines[at:]:
        short = line.strip()
        if CLAUSE.match(short) or short in ("{", "where") and told:
            break
        told.append(short)
        if short.endswith((" {", ";")):
            break
    text = re.sub(r"\s+", " ", " ".join(told))
    text = text.replace("( ", "(").replace(", )", ")").replace(",)", ")")
    text = re.sub(r",?\s+>", ">", re.sub(r"<\s+", "<", text))
    text = re.sub(r"^pub ", "", text).rstrip("{; ").strip()
    return re.sub(r" = .*", "", text) if text.startswith("const ") else text


@functools.cache
def methods(file):
    """The public methods that a file gives types in impls of their own: each type, and the index of
    the method's line."""
    found = []
    owner = None
    for at, line in enumerate(lines_of(file)):
        if line.startswith("impl"):
            head = " ".join(lines_of(file)[at : at + 12]).split(" {")[0]
            own = re.match(r"impl(?:<.*?>(?= \w))? (\w+)", re.sub(r"\s+", " ", head))
            owner = own[1] if own and " for " not in head else None
        elif line == "}":
            owner = None
        elif owner and re.match(r"    pub (const )?fn ", line):
            found.append((owner, at))
    return found


def trait_methods(lines, at):
    """The indexes of the methods that a trait declares from a line on."""
    for below in range(at, len(lines)):
        if lines[below] == "}":
            return
        if lines[below].startswith("    fn "):
            yield below


@functools.cache
def examples():
    """Texts that the gate runs, each with a link, its name and the names that it may show:
    pictures, programs, then tests. A program or a test shows what it imports."""
    found = [(*it, set(re.findall(r"\w+", it[0]))) for it in gallery.examples()]
    for crates in ("docs_*", "example_*", "tabview*", "tabprint", "test_*", "tabled_c"):
        for file in sorted(CRATES.glob(f"{crates}/src/**/*.rt")):
            code = re.sub(r"//.*", "", text_of(file))
            text, name = gallery.without_uses(code), f"{file.parent.parent.name}/{file.name}"
            imported = set(re.findall(r"\w+", " ".join(re.findall(r"\buse ([^;]*)", code))))
            shown = imported & set(re.findall(r"\w+", text))
            found.append((text, f"../{file.relative_to(TOP)}", name, shown))
    return found


def example_of(name):
    """A link to an example of a type, which its name or a call shows. One without is noted."""
    call = MADE.get(name)
    for text, link, title, shown in examples():
        if name in shown or call and call in text:
            return f"[{title}]({link})"
    unused.append(name)
    return ""


def sentence_at(lines, file, at):
    """The sentence of an item or a method. One that has none is noted."""
    sentence = doc_above(lines, at)
    if not sentence:
        lost.append(f"{file.relative_to(TOP)}:{at + 1}")
    return sentence


def entries(crate, module, path, name):
    """The entries of an item, with a link to its file, and of its methods, in all of its crate."""
    lines, file, at = found_at(crate, module, path, name)
    kind = ITEM.match(lines[at])[1]
    example = "" if kind in ("const", "fn") else f" Example: {example_of(name)}."
    where = file.relative_to(TOP)
    yield f"- [`{signature(lines, at)}`](../{where}): {sentence_at(lines, file, at)}{example}"
    if kind == "trait":
        places = [(lines, file, below) for below in trait_methods(lines, at)]
    else:
        top = file
        while top.parent.name != "src":
            top = top.parent
        others = sorted(it for it in top.parent.rglob("*.rt") if it != file)
        owned = [(it, owner, below) for it in [file, *others] for owner, below in methods(it)]
        places = [(lines_of(it), it, below) for it, owner, below in owned if owner == name]
    for text, it, below in places:
        yield f"  - `{signature(text, below)}`: {sentence_at(text, it, below)}"


def modules():
    """The public modules of crates/tabled, each with its sentence and what it re-exports."""
    lines = lines_of(CRATES / "tabled/src/lib.rt")
    stack = []
    found = {"tabled": ("The names that most programs use.", [])}
    for at, line in enumerate(lines):
        opens = re.match(r"( *)pub mod (\w+) \{", line)
        if opens:
            stack.append(opens[2])
            found["::".join(["tabled", *stack])] = (doc_above(lines, at), [])
        elif re.match(r" *\}$", line) and stack and len(line) == 4 * len(stack) - 3:
            stack.pop()
        elif "pub use" in line:
            end = next(it for it in range(at, len(lines)) if lines[it].endswith(";"))
            found["::".join(["tabled", *stack])][1].extend(uses(lines[at : end + 1]))
    return found


def page():
    """The whole page."""
    told = [HEAD]
    seen = {}
    for module, (sentence, items) in modules().items():
        if not items:
            continue
        told.append(f"## {module}\n\n{sentence}\n")
        for path, name in sorted(items, key=lambda it: it[1]):
            if name in seen:
                told.append(f"- `{name}`: as in `{seen[name]}`")
                continue
            seen[name] = module
            told.extend(entries("tabled", "lib", path, name))
        told.append("")
    if lost:
        fail("no doc comment at " + ", ".join(lost))
    if unused:
        fail("no example that the gate runs has " + ", ".join(unused))
    return "\n".join(told)


def public_names():
    """The public names except those of laws."""
    shown = [items for module, (_, items) in modules().items() if module != "tabled::laws"]
    return sorted({name for items in shown for _, name in items})


if __name__ == "__main__":
    PAGE.write_text(page())
