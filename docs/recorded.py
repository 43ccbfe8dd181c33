"""What the gate runs: the code of its programs and libraries of examples, and what they print.

A picture is what one function makes. Its name is in the recorded output of `docs_gallery`, and in
a `println!` of `main` in `docs_tour` and `docs_guide`. Any other program prints one picture.
"""

import dataclasses
import functools
import re

from pages import TOP, lines_of, text_of, tracked

CRATES = TOP / "crates"

# The libraries below docs_gallery.
GALLERY = ("docs_gallery_settings", "docs_gallery_printers")

FUNCTION = re.compile(r"( *)(?:pub(?:\(\w+\))? )?(?:const )?fn (\w+)")


@dataclasses.dataclass
class Picture:
    """What a program prints of one of its functions, which has a module before its name."""

    crate: str
    function: str
    lines: list


def programs():
    """The names of the programs that have a recorded output."""
    return [path.parent.name for path in tracked("crates/*/stdout")]


def arguments_of(program):
    """The recorded arguments of a program."""
    path = CRATES / program / "args"
    return lines_of(path)[:-1] if path.is_file() else []


@functools.cache
def sources():
    """The sources of the programs and of the gallery."""
    return [it for name in [*programs(), *GALLERY] for it in tracked(f"crates/{name}/src/**/*.rt")]


def sections(crate, lines):
    """The pictures of docs_gallery, each below its name."""
    for line in lines:
        if mark := re.fullmatch(r"== (\w+::\w+)", line):
            current = Picture(crate, mark[1], [])
            yield current
        else:
            current.lines.append(line)


def printed_by_main(crate, lines):
    """The pictures of a program that prints one by each `println!`, most with an empty line behind
    it. One without is a line, unless it is the last."""
    main = text_of(CRATES / crate / "src/main.rt")
    calls = re.findall(r'println!\(rt; "\{[^"}]*\}(\\n)?", (\w+::\w+)\(.*\)\?;', main)
    parts = [part.split("\n") for part in "\n".join(lines).split("\n\n")]
    for at, (is_apart, function) in enumerate(calls, 1):
        if not parts:
            return
        if is_apart or at == len(calls):
            yield Picture(crate, function, parts.pop(0))
        else:
            yield Picture(crate, function, [parts[0].pop(0)])


@functools.cache
def pictures():
    """What the programs print."""
    found = []
    for crate in programs():
        lines = lines_of(CRATES / crate / "stdout")[:-1]
        if crate == "docs_gallery":
            found += sections(crate, lines)
        elif crate in ("docs_guide", "docs_tour"):
            found += printed_by_main(crate, lines)
        else:
            found.append(Picture(crate, "main::main", lines))
    return found


def drawers(picture):
    """The sources and functions that make a picture: one function, and what it calls in its source.
    All of a program make what it prints as a whole."""
    module, _, function = picture.function.partition("::")
    if function == "main":
        paths = tracked(f"crates/{picture.crate}/src/**/*.rt")
        return {(it, name) for it in paths for name in owners(it)}
    crates = GALLERY if picture.crate == "docs_gallery" else [picture.crate]
    paths = (CRATES / crate / f"src/{module}.rt" for crate in crates)
    return {(it, name) for it in paths if it.is_file() for name in reached(it, function)}


@functools.cache
def owners(path):
    """For each line of a source the function that it is in, or None."""
    found = []
    name, end = None, None
    for line in lines_of(path):
        if name is None and (begin := FUNCTION.match(line)):
            name, end = begin[2], begin[1] + "}"
        found.append(name)
        if line == end or name is not None and line.endswith(("{}", ";")) and FUNCTION.match(line):
            name = None
    return found


@functools.cache
def called(path):
    """For each function of a source the names that it calls."""
    found = {}
    for name, line in zip(owners(path), lines_of(path)):
        if name is not None:
            found.setdefault(name, set()).update(re.findall(r"(?<![\w:.])(\w+)\(", line))
    return found


def reached(path, name):
    """The functions of a source that one of them calls, itself, and what these call."""
    calls = called(path)
    known, left = set(), [name]
    while left:
        one = left.pop()
        if one in calls and one not in known:
            known.add(one)
            left += calls[one]
    return known


def dedented(lines):
    """Lines without the spaces that all of them begin with."""
    least = min((len(it) - len(it.lstrip()) for it in lines if it.strip()), default=0)
    return [line[least:].rstrip() for line in lines]


def windows(lines, path):
    """The first lines of a source from which on lines stand in it, all as far to the right."""
    wanted = [line.strip() for line in lines]
    text = stripped(path)
    for begin in range(len(text) - len(wanted) + 1) if wanted else ():
        if text[begin] == wanted[0] and text[begin:begin + len(wanted)] == wanted:
            if dedented(lines_of(path)[begin:begin + len(wanted)]) == dedented(lines):
                yield begin


@functools.cache
def stripped(path):
    return [line.strip() for line in lines_of(path)]
