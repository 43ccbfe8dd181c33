"""Checks the fenced blocks of pages and of the doc comments of crates/tabled.

- Rust is a part of what the gate runs, or of bindings/rust. It isn't empty, and imports nothing
  that no program imports.
- A picture (text) is all that a function prints of the example above it, in the same section.
  Without one it is all that a program prints, and a command above it, after `$`, is the recorded
  one; or it is a clause of the call that is named above it, or the usage of a program.
- C, Python and TOML are parts of what bindings/try runs. A command (sh) is a part of a script, its
  files are there, and its program has its options.
- Any other block says that it isn't run: the text above it does, or a sentence of the page that
  names the commands, or the other crate's code.
"""

import functools
import re
import shlex

from gallery import expanded, imports
from pages import TOP, blocks, columns, lines_of, report, text_of, tracked
from promises import is_word
from recorded import CRATES, arguments_of, drawers, owners, pictures, programs, sources, windows

# What says above a block that it isn't run, or is a drawing.
MARK = re.compile(r"\b(?:not|isn't|aren't|doesn't|don't) run\b")
DRAWN = re.compile(r"\b[Dd]rawn by hand\b")

# The kinds of blocks for which a sentence of the page does, and what it names.
OF_PAGES = {"sh": "commands", "rust,ignore": "code of the crate"}

# The sources of which a block of a kind is a part, and the scripts of commands.
PARTS = {"c": ["bindings/c/*.c"], "toml": ["bindings/**/*.toml"]}
SCRIPTS = ("bindings/build", "bindings/try", "vendor", "check")

# What an import begins with.
IMPORTS = ("use ", "ghost use ", "import ", "from ", "#include ")

# The files of the repository that a command names.
NAMED = r"(?<![\w/])(?:\.+/)*((?:crates|data|bindings)/[\w./]+|check)\b"

# The programs of commands, and where each one's options are.
OPTIONS = {
    "tabview": "crates/tabview_options/src/*.rt",
    "tabprint": "crates/tabled/src/program.rt",
}


def is_marked(block):
    """Whether a page says that a block isn't run."""
    if MARK.search(block.above):
        return True
    subject = OF_PAGES.get(block.kind, "\0")
    return any(MARK.search(it) and subject in it for it in block.before.split(". "))


def without_imports(lines):
    """An example without its first imports: a file has those of all of its examples."""
    while lines and (not lines[0].strip() or lines[0].startswith(IMPORTS)):
        lines = lines[1:]
    return lines


@functools.cache
def known_imports():
    """What the programs import, as pairs of a module and a name."""
    return {(path, name) for it in sources() for name, path in imports(text_of(it)).items()}


def unknown_imports(lines):
    """What the imports of an example name that no program imports."""
    known = {line for it in sources() for line in lines_of(it)}
    yield from (line for line in lines if line.startswith("ghost use ") and line not in known)
    for use in re.findall(r"^use ((?:.|\n)*?);$", "\n".join(lines), re.MULTILINE):
        for path, name in expanded(use):
            if (path, name) not in known_imports():
                yield f"{path}::{name}"


def shown_functions(block):
    """The sources and functions of which an example is a part, None for what is in no function."""
    code = without_imports(block.lines)
    for path in sources():
        for begin in windows(code, path):
            yield from {(path, name) for name in owners(path)[begin:begin + len(code)]}


def check_rust(block, shown):
    """Adds the functions that the block shows."""
    code = without_imports(block.lines)
    if not any(line.strip() for line in code):
        block.report("this example has no code")
    elif places := set(shown_functions(block)):
        shown |= places
        for name in unknown_imports(block.lines):
            block.report(f"no program imports {name}")
    elif not is_in_bindings(block) and not is_marked(block):
        block.report("this is not run")


def is_in_bindings(block):
    """Whether cargo runs an example: the documentation of the crate is its README."""
    name = "bindings/rust/README.md"
    page, crate = TOP / name, text_of(TOP / "bindings/rust/src/lib.rs")
    if '#![doc = include_str!("../README.md")]' not in crate:
        return False
    return block.path == page or any(True for _ in windows(block.lines, page))


def check_picture(block, shown):
    """A picture of an example is one that a function prints of those that it shows."""
    if block.lines and block.lines[0].startswith("$ "):
        return check_command(block)
    if shown is None and DRAWN.search(block.above):
        for name in re.findall(r"\b[A-Z]\w+|\w+_\w+", block.text()):
            if not is_word(name):
                block.report(f"{name} is in no source")
    elif shown is None:
        wanted = any(it.lines == block.lines for it in pictures())
        if not (wanted or is_clause(block) or is_usage(block) or is_tested(block)):
            block.report("no program prints this alone")
    elif not is_printed(block, shown):
        block.report("the example above doesn't print this")


def is_printed(block, shown):
    """Whether a picture is all that one of some functions prints."""
    return any(it.lines == block.lines and drawers(it) & shown for it in pictures())


def check_command(block):
    """A command above a picture is that of a recorded output, or it is said that it isn't run."""
    name, *arguments = shlex.split(block.lines[0][2:])
    output = CRATES / name / "stdout"
    if is_marked(block):
        if name == "tabprint":
            check_rows(block, arguments)
    elif name not in programs() or arguments != arguments_of(name):
        block.report("the gate doesn't run this")
    elif block.lines[1:] != lines_of(output)[:-1]:
        block.report(f"crates/{name}/stdout has another picture")


def check_rows(block, arguments):
    """A picture of `tabprint --wrap N .. < FILE` has straight edges and N columns, and the rows of
    the file in data/, whose cells are wrapped between words."""
    words = " ".join(arguments)
    found = re.fullmatch(r"--wrap (\d+) --words .*< ([\w.]+)", words)
    if not found or not (TOP / "data" / found[2]).is_file():
        return block.report("this isn't --wrap N --words .. < a file of data/")
    if {columns(line) for line in block.lines[1:]} != {int(found[1])}:
        block.report(f"not all lines have {found[1]} columns")
    rows, cells = [], None
    for line in block.lines[1:]:
        if line.startswith("+"):
            rows += [[" ".join(it).strip() for it in zip(*cells)]] if cells else []
            cells = []
        else:
            cells.append([it.strip() for it in line.split("|")[1:-1]])
    wanted = text_of(TOP / "data" / found[2]).splitlines()
    if rows != [line.split("\t") for line in wanted]:
        block.report(f"these aren't the rows of data/{found[2]}")


def flat(text):
    return " ".join(text.split())


def is_clause(block):
    """Whether a block is a whole clause of the call that is named last above it."""
    calls = re.findall(r"`(\w+)::(\w+)`", block.above)
    if not calls:
        return False
    kind, name = calls[-1]
    for path in tracked("crates/*/src/**/*.rt"):
        text = text_of(path)
        if f"pub struct {kind}" in text and (begin := re.search(rf"    pub fn {name}\b", text)):
            head = flat(text[begin.start():].partition("\n    {")[0])
            return re.search(r"ensures(?: \w+)? \{ " + re.escape(flat(block.text())) + r" \}", head)
    return False


def is_usage(block):
    source = text_of(CRATES / "tabled/src/program.rt")
    return len(block.lines) == 1 and f'"usage: {block.lines[0]}\\n"' in source


def is_tested(block):
    """Whether a picture of a package's page is what one of its tests wants, line by line."""
    for path in tracked("bindings/*/tests/*"):
        lines = [line.strip().strip('",') for line in lines_of(path)]
        for at in range(len(lines)):
            if lines[at:at + len(block.lines)] == block.lines:
                around = [lines[at - 1], *lines[at + len(block.lines):][:1]]
                return not any(it.startswith(tuple("╭├│╰+|-")) for it in around)
    return False


def statement(line):
    """A line of Python without what it is printed by, and without spaces."""
    line = re.sub(r"^(?:>>> )?(?:print\((.*)\)|(.*))$", r"\1\2", line.strip())
    return re.sub(r"\s", "", line).replace("fanlightnard.", "")


@functools.cache
def python_tests():
    paths = tracked("bindings/python/**/*.py")
    return "\n".join(statement(line) for it in paths for line in lines_of(it))


def check_python(block):
    """Each line that imports nothing is in a test, or is in a doc comment, which is a test too."""
    code = [it for it in block.lines if it.strip() and not re.match("import |from ", it)]
    if not code:
        block.report("this example has no code")
    elif not is_marked(block) and not all(statement(it) in python_tests() for it in code):
        block.report("no test of bindings/python has this")


def check_part(block):
    """A block is a part of a source, or says that it isn't run."""
    code = without_imports(block.lines)
    paths = [path for it in PARTS[block.kind] for path in tracked(it)]
    if not code:
        block.report("this example has no code")
    elif not is_marked(block) and not any(True for it in paths for _ in windows(code, it)):
        block.report("no source has this, and nothing above says that it isn't run")


def commands(block):
    """The commands of a block, with the number of their line."""
    for number, line in enumerate(block.lines, block.number + 1):
        for command in re.split(r"[|&]+", line.partition("#")[0]):
            if command.strip(" ()"):
                yield number, command.strip(" ()")


@functools.cache
def script_lines():
    lines = (line.strip() for name in SCRIPTS for line in lines_of(TOP / name))
    return [line for line in lines if not line.startswith("#")]


def is_in_script(command):
    """Whether a script runs a command, with more options and another folder in the place of DIR."""
    words = [re.escape(it).replace("DIR", r"\S+") for it in command.split()]
    words = [rf"(?<!\w){it}(?!\w)".replace("bindings/", r"\$here/") for it in words]
    return any(re.search(".*".join(words), line) for line in script_lines())


def check_shell(block):
    """Commands are run by a script, or it is said that they aren't. The files that they name are
    there, and the programs have their options."""
    for number, command in commands(block):
        if not is_marked(block) and not is_in_script(command):
            report(block.path, number, f"no script runs this, and nothing above says so: {command}")
        for name in re.findall(NAMED, command):
            if not (TOP / name).exists() and "my_" not in name:
                report(block.path, number, f"{name} doesn't exist")
        check_options(block.path, number, command.split())


def check_options(path, number, words):
    """A program's options are words of its source, as "width" or --width."""
    if words[0] in OPTIONS:
        known = "".join(text_of(it) for it in tracked(OPTIONS[words[0]]))
        for word in words[1:]:
            option = re.fullmatch(r"--?([a-z][a-z-]*)", word)
            if option and not re.search(rf"""["'-]{option[1]}["' |\]]""", known):
                report(path, number, f"{words[0]} has no option {word}")


def check_blocks(path):
    """Checks each block. A picture is that of the examples between it and the picture above it, in
    its section."""
    shown, last = None, None
    for block in blocks(path):
        if last is None or block.section != last.section:
            shown = None
        if not block.text().strip():
            block.report("this block is empty")
        elif block.kind == "rust":
            shown = set() if shown is None or last.kind == "text" else shown
            check_rust(block, shown)
        elif block.kind == "text":
            check_picture(block, shown)
        elif block.kind == "python":
            check_python(block)
        elif block.kind == "sh":
            check_shell(block)
        elif block.kind in PARTS:
            check_part(block)
        elif not is_marked(block):
            block.report(f"nothing checks blocks of '{block.kind}', or says that this isn't run")
        last = block


def spans(path):
    """What is in backticks in the last column of a page's tables: the line, and the text."""
    for number, line in enumerate(lines_of(path), 1):
        if line.startswith("| ") and not line.endswith("here |"):
            for span in re.findall(r"`([^`]+)`", line.strip("| ").rpartition(" | ")[2]):
                yield number, span


def check_spans(path):
    """The code of a page's tables is that of a program."""
    code = [flat(text_of(it)) for it in sources()]
    for number, span in spans(path):
        if not any(span in text for text in code):
            report(path, number, f"{span} is not run")


def check_modules(path):
    """The documentation of each public module ends with an example."""
    before = ""
    for number, line in enumerate(lines_of(path), 1):
        if (found := re.match(r" *pub mod (\w+) \{", line)) and before.strip() != "/// ```":
            report(path, number, f"the module {found[1]} has no example")
        before = line


def check_opening(path):
    """A page begins with a picture, and says below an example that it prints this."""
    first, *others = blocks(path)
    examples = [it for it in others if "prints the table at the top of the page" in it.below]
    shown = {it for example in examples for it in shown_functions(example)}
    if first.kind != "text" or not is_printed(first, shown):
        first.report("the page doesn't begin with the picture of the example that says so")


def check_straight(path):
    """The lines of each picture of a page are equally wide."""
    for block in blocks(path):
        if block.kind == "text" and len({columns(line) for line in block.lines}) != 1:
            block.report("the edges of this picture aren't straight")
