"""Reads pages and sources: their texts, and a page's prose, fenced blocks and headings.

What a check finds wrong is passed to `report`.
"""

import dataclasses
import functools
import pathlib
import re
import subprocess
import unicodedata

TOP = pathlib.Path(__file__).resolve().parent.parent

# What is wrong, a line each.
found = []


def report(path, number, what):
    """Notes what is wrong at a line of a file."""
    found.append(f"{path.relative_to(TOP)}:{number}: {what}")


@functools.cache
def text_of(path):
    return path.read_text()


@functools.cache
def lines_of(path):
    return text_of(path).split("\n")


@functools.cache
def files():
    """The names of the files that git tracks, or would."""
    command = ["git", "-C", TOP, "ls-files", "-z", "--cached", "--others", "--exclude-standard"]
    listed = subprocess.run(command, capture_output=True, text=True, check=True)
    return sorted(it for it in set(listed.stdout.split("\0")) if it and (TOP / it).is_file())


def tracked(pattern):
    """The tracked files whose whole name fits a pattern, in which * is any part of a name."""
    wanted = re.compile(re.escape(pattern).replace(r"\*\*/", "(?:.*/)?").replace(r"\*", "[^/]*"))
    return [TOP / it for it in files() if wanted.fullmatch(it)]


@functools.cache
def prose(path):
    """The lines of a page outside of fenced blocks, with their numbers."""
    lines = []
    fenced = False
    for number, line in enumerate(lines_of(path), 1):
        if line.startswith("```"):
            fenced = not fenced
        elif not fenced:
            lines.append((number, line))
    return lines


@functools.cache
def joined(path):
    """The prose of a page in one line, in which each space is one."""
    return re.sub(r"\s+", " ", " ".join(line for _, line in prose(path)))


@functools.cache
def anchors(path):
    """The anchors of a page's headings. One that comes again has a number behind it."""
    counts = {}
    for _, line in prose(path):
        if line.startswith("#"):
            name = re.sub(r"[^\w\- ]", "", line.lstrip("# ").lower()).replace(" ", "-")
            count = counts[name] = counts.get(name, -1) + 1
            if count:
                counts[f"{name}-{count}"] = 0
    return counts


@dataclasses.dataclass
class Block:
    """A fenced block of a page or of doc comments."""

    path: pathlib.Path
    number: int
    kind: str
    # The number of the heading that it is under.
    section: int
    # The prose from the block or heading above to this block, from this block to the one below, and
    # all of the page above.
    above: str
    below: str
    before: str
    lines: list

    def text(self):
        return "\n".join(self.lines)

    def report(self, what):
        report(self.path, self.number, what)


def doc_lines(path):
    """The lines of a page, or the texts of a source's doc comments, with their numbers."""
    for number, line in enumerate(lines_of(path), 1):
        if path.suffix == ".md":
            yield number, line
        elif line.lstrip().startswith(("///", "//!")):
            yield number, line.lstrip()[3:].removeprefix(" ")


@functools.cache
def blocks(path):
    """The fenced blocks of a page, or of doc comments. Only three backticks end one."""
    found = []
    opened, above, before, section = None, "", "", 0
    for number, line in doc_lines(path):
        text = line.strip()
        if opened is not None:
            if text == "```":
                found.append(opened)
                opened, above = None, ""
            else:
                opened.lines.append(line)
        elif text.startswith(("```", "~~~")):
            opened = Block(path, number, text[3:], section, above, "", before, [])
        elif line.startswith("#"):
            section, above = section + 1, ""
        elif not (text.startswith("<!--") and text.endswith("-->")):
            above, before = f"{above} {line}", f"{before} {line}"
            if found and found[-1].section == section:
                found[-1].below += f" {line}"
    if opened is not None:
        opened.report("this block has no end")
    return found


def columns(line):
    """The columns of a line: two for a wide character, none for a mark."""
    count = 0
    for char in line:
        if unicodedata.category(char) not in ("Mn", "Me", "Cf"):
            count += 2 if unicodedata.east_asian_width(char) in "WF" else 1
    return count
