#!/usr/bin/env python3
"""Tests docs/check.py: it passes for this tree, and fails for each mutated copy, by naming what is
wrong with it. A mutation is a mistake that someone might make in a page or a source.

usage: docs/check_tests.py [WORD..]   only the mutations whose names have all of these words
"""

import concurrent.futures
import os
import pathlib
import queue
import re
import shutil
import subprocess
import sys
import tempfile

from pages import TOP, files, text_of

FIRST = text_of(TOP / "crates/docs_first/stdout")
EMPTY = "```rust\n```\n"
IMPORTS = "```rust\nuse tabled::Table;\n```\n"
COMMAND = "```sh\nrt try --fast\n```\n"
PICTURE = r"^\| Name  \| Born \|\n(?:.*\n)+?```"
UNKNOWN = "```rust\nlet table = Table::nothing(alloc)?;\n```\n"


def replaced(name, pattern, by):
    """A file in which the first match of a pattern is replaced."""
    text, count = re.subn(pattern, by, text_of(TOP / name), count=1, flags=re.MULTILINE)
    if count != 1:
        sys.exit(f"check_tests.py: {name} has no {pattern}")
    return {name: text}


def appended(name, text):
    return {name: f"{text_of(TOP / name)}\n{text}"}


# What is mutated: the files as they become (None: the file is gone), and what the check has to say.
MUTATIONS = {
    "the opening picture is misaligned": (
        lambda: replaced("README.md", r"^│ City  ", "│ City"),
        "README.md: the edges of this picture aren't straight",
    ),
    "the opening picture has another number": (
        lambda: replaced("README.md", "5774", "5775"),
        "README.md: the page doesn't begin with the picture",
    ),
    "the opening picture is that of another example": (
        lambda: replaced("README.md", r"```text\n(?:.*\n)+?```\n", f"```text\n{FIRST}```\n"),
        "README.md: the page doesn't begin with the picture",
    ),
    "the opening picture is gone": (
        lambda: replaced("README.md", r"```text\n(?:.*\n)+?```\n", ""),
        "the page doesn't begin with the picture",
    ),
    "the row of edits is gone": (
        lambda: replaced("docs/GATE.md", r"^\| tries the must-fail edits.*\n", ""),
        "docs/GATE.md: one row is 'tries the must-fail edits",
    ),
    "the row of edits has other words and another number": (
        lambda: replaced("docs/GATE.md", r"^\| tries the must-fail.*", "| tries edits | 3100 |"),
        "docs/GATE.md: one row is 'tries the must-fail edits",
    ),
    "the edit of a mistake isn't there": (
        lambda: replaced("docs/GATE.md", "`modify_changes_nothing`", "`modify_changes_all`"),
        "docs/GATE.md: tabled_table has no edit modify_changes_all",
    ),
    "a picture of the viewer has another cell": (
        lambda: replaced("docs/VIEWER.md", "│ Paris ", "│ Pamir "),
        "docs/VIEWER.md: crates/tabview/stdout has another picture",
    ),
    "a picture of tabprint has another cell": (
        lambda: replaced("docs/TABPRINT.md", "1815 ", "1816 "),
        "these aren't the rows of data/people.tsv",
    ),
    "a picture of tabprint is too wide": (
        lambda: replaced("docs/TABPRINT.md", r"\$ tabprint --wrap 60", "$ tabprint --wrap 61"),
        "not all lines have 61 columns",
    ),
    "a command of the viewer isn't the recorded one": (
        lambda: replaced("docs/VIEWER.md", r"(\$ tabview .*) -w 50", r"\1 -w 51"),
        "docs/VIEWER.md: the gate doesn't run this",
    ),
    "C isn't what is tested": (
        lambda: replaced("docs/OTHER_LANGUAGES.md", "align_len = 2", "align_len = 3"),
        "docs/OTHER_LANGUAGES.md: no source has this",
    ),
    "Python isn't what is tested": (
        lambda: replaced("docs/OTHER_LANGUAGES.md", r'style\("markdown"\)', 'look("markdown")'),
        "no test of bindings/python has this",
    ),
    "Rust of another page isn't run": (
        lambda: replaced("docs/OTHER_LANGUAGES.md", "Options::new", "Options::old"),
        "this is not run",
    ),
    "Rust isn't run, in the examples": (
        lambda: appended("docs/EXAMPLES.md", UNKNOWN),
        "docs/EXAMPLES.md: this is not run",
    ),
    "Rust isn't run, in the differences": (
        lambda: appended("docs/DIFFERENCES.md", UNKNOWN),
        "docs/DIFFERENCES.md: this is not run",
    ),
    "Rust isn't run, in the changes": (
        lambda: appended("CHANGELOG.md", UNKNOWN),
        "CHANGELOG.md: this is not run",
    ),
    "commands aren't run": (
        lambda: appended("docs/GUIDE.md", COMMAND),
        "no script runs this, and nothing above says so: rt try --fast",
    ),
    "commands aren't run, as a comment says that no reader sees": (
        lambda: appended("docs/GUIDE.md", f"<!-- These commands are not run. -->\n\n{COMMAND}"),
        "no script runs this, and nothing above says so: rt try --fast",
    ),
    "a block has another fence": (
        lambda: appended("docs/GUIDE.md", "~~~rust\nlet table = 0;\n~~~\n"),
        "this block has no end",
    ),
    "a command has an option that its program lacks": (
        lambda: replaced("docs/VIEWER.md", "--tail 10", "--tails 10"),
        "tabview has no option --tails",
    ),
    "a command names a file that isn't there": (
        lambda: replaced("README.md", "data/people.tsv", "data/peoples.tsv"),
        "data/peoples.tsv doesn't exist",
    ),
    "a block is of a kind that nothing checks": (
        lambda: replaced("docs/GUIDE.md", "```rust", "```rs"),
        "nothing checks blocks of 'rs'",
    ),
    "C isn't what is tested, in the guide": (
        lambda: appended("docs/GUIDE.md", "```c\nfanlightnard_print();\n```\n"),
        "no source has this",
    ),
    "TOML isn't what is tested, in the guide": (
        lambda: appended("docs/GUIDE.md", "```toml\nfanlightnard = 2\n```\n"),
        "no source has this",
    ),
    "an example is empty": (
        lambda: appended("README.md", EMPTY),
        "README.md: this block is empty",
    ),
    "an example has imports alone": (
        lambda: appended("docs/GUIDE.md", IMPORTS),
        "this example has no code",
    ),
    "a picture lost its last row": (
        lambda: replaced("README.md", r"\| Grace \| 1906 \|\n```", "```"),
        "the example above doesn't print this",
    ),
    "a picture is a part of another one": (
        lambda: replaced("README.md", PICTURE, "| Ada   | 1815 |\n| Grace | 1906 |\n```"),
        "the example above doesn't print this",
    ),
    "a picture is another one": (
        lambda: replaced("README.md", PICTURE, "[5, 4, 6, 2]\n```"),
        "the example above doesn't print this",
    ),
    "a script with words behind it isn't there": (
        lambda: replaced("docs/GATE.md", r"`bench/refusals\.py ", "`bench/refusal.py "),
        "bench/refusal.py doesn't exist",
    ),
    "a script without its folder isn't there": (
        lambda: {"bench/texts.py": None},
        "texts.py doesn't exist",
    ),
    "a call isn't there": (
        lambda: appended("docs/PROVED.md", "`Table::{write_to, write_at}`"),
        "`Table::write_at` is in no source",
    ),
    "a law isn't there": (
        lambda: appended("docs/PROVED.md", "`laws::texts_that_cross`"),
        "`laws::texts_that_cross` is in no source",
    ),
    "a clause isn't there": (
        lambda: appended("docs/PROVED.md", "`Table::with` (clause `printed`)"),
        "no call of this row has a clause `printed`",
    ),
    "a field of a relation isn't there": (
        lambda: replaced("docs/VIEWER.md", "`IsFitted.total`", "`IsFitted.totals`"),
        "`IsFitted.totals` is in no source",
    ),
    "a quoted clause is another one": (
        lambda: replaced("docs/PROVED.md", r"sink\.old\) result", "sink.new) result"),
        "docs/PROVED.md: no program prints this alone",
    ),
    "a quoted clause lost its end": (
        lambda: replaced("docs/PROVED.md", r"^    \(S\.sent sink\.old\) result.*\n", ""),
        "docs/PROVED.md: no program prints this alone",
    ),
    "code is 120 columns wide": (
        lambda: appended("crates/docs_tour/src/errors.rt", f"const WIDE: u8 = 0{' + 1' * 25};\n"),
        "wider than 100 columns",
    ),
    "a contract is 130 columns wide": (
        lambda: replaced("crates/tabled/src/program.rt", r"ensures usage \{", "\\g<0>" + " " * 99),
        "wider than 125 columns",
    ),
    "a share is another one than where it is measured": (
        lambda: replaced("README.md", r"takes \d+ to \d+ times", "takes 14 to 380 times"),
        "times that column takes: 14 to 380 in README.md",
    ),
    "the toolchain is another one": (
        lambda: replaced("README.md", r"logic \w+", "logic 0123456789abcdef"),
        "README.md: the toolchain is ",
    ),
    "a package has another licence": (
        lambda: replaced("bindings/rust/LICENSE", "MIT", "BSD"),
        "isn't a copy of LICENSE",
    ),
    "a crate that the library rests on is left out": (
        lambda: replaced("README.md", r" `ucd_\*`,", ""),
        "what it rests on lacks ucd_bidi",
    ),
    "the library rests on another crate": (
        lambda: replaced("README.md", "`itoa`", "`itoa`, `ryu`"),
        "nothing rests on ryu",
    ),
    "columns are of another number of lines": (
        lambda: replaced("docs/COLUMNS.md", r"all [\d,]+ lines", "all 99,211 lines"),
        "lines of pairs: 99211 in docs/COLUMNS.md",
    ),
    "a constant has another value": (
        lambda: replaced("docs/DECISIONS.md", r"128 columns in a fixed", "256 columns in a fixed"),
        "cached placements: 256 in docs/DECISIONS.md",
    ),
    "a measurement has another number of rounds": (
        lambda: replaced("bench/README.md", r"shortest of 25", "shortest of 26"),
        "bench/README.md: boxes.py doesn't have 26 rounds",
    ),
    "a page has another number of checked lines": (
        lambda: replaced("bench/README.md", r"the [\d,]+ lines of", "the 18,359 lines of"),
        "lines of extremes: 18359 in bench/README.md",
    ),
    "the list of cases is empty": (
        lambda: {"crates/test_cases/stdin": "\n"},
        "cases: ",
    ),
    "a licence isn't named": (
        lambda: replaced("README.md", "Unicode License v3", "licence of Unicode"),
        "the licence Unicode License v3",
    ),
}

# What the check can't see: `rt ci` compares the recorded output with what is printed.
UNSEEN = {
    "a picture is false in the recorded output and the page alike": lambda: (
        replaced("README.md", "5774", "5775")
        | replaced("docs/GUIDE.md", r"(Liechtenstein │     )5774", r"\g<1>5775")
        | replaced("crates/docs_tour/stdout", "5774", "5775")
    ),
}


class Copy:
    """A copy of the tree, of which files are replaced for a run."""

    def __init__(self, folder):
        self.folder = pathlib.Path(folder)
        for name in files():
            to = self.folder / name
            to.parent.mkdir(parents=True, exist_ok=True)
            try:
                os.link(TOP / name, to)
            except OSError:
                shutil.copyfile(TOP / name, to)
        subprocess.run(["git", "init", "-q", self.folder], check=True)

    def put(self, name, text):
        (self.folder / name).unlink(missing_ok=True)
        if text is not None:
            (self.folder / name).write_text(text)

    def run(self, changes, environment):
        """What the check says of the copy with these files."""
        old = {name: (self.folder / name).read_text() for name in changes}
        for name, text in changes.items():
            self.put(name, text)
        command = [sys.executable, self.folder / "docs/check.py"]
        ran = subprocess.run(command, capture_output=True, text=True, env=environment)
        for name, text in old.items():
            self.put(name, text)
        return ran.returncode, ran.stdout + ran.stderr


def environment(folder):
    """An environment in which `rt` is a script that prints the version that the README has."""
    named = re.search(r"`(logic [^`]*)` in `rt version`", text_of(TOP / "README.md"))
    script = pathlib.Path(folder) / "rt"
    script.write_text(f"#!/bin/sh\necho 'rattle-kit {named[1]}'\n")
    script.chmod(0o755)
    return os.environ | {"PATH": f"{folder}:{os.environ['PATH']}"}


def outcome(name, copies, variables):
    """What is wrong with the check's run over a mutation, or None."""
    change, wanted = MUTATIONS.get(name) or (UNSEEN.get(name, dict), None)
    copy = copies.get()
    status, said = copy.run(change(), variables)
    copies.put(copy)
    if wanted is None:
        return f"{name}: it fails\n{said}" if status else None
    if status != 1 or wanted not in re.sub(r":\d+: ", ": ", said):
        return f"{name}: it doesn't say '{wanted}', but\n{said}"
    return None


def main():
    known = ["nothing changed", *MUTATIONS, *UNSEEN]
    names = [it for it in known if all(word in it for word in sys.argv[1:])]
    jobs = min(len(names), os.cpu_count() or 1)
    with tempfile.TemporaryDirectory() as folder:
        variables = environment(folder)
        copies = queue.Queue()
        for job in range(jobs):
            copies.put(Copy(f"{folder}/{job}"))
        with concurrent.futures.ThreadPoolExecutor(jobs) as pool:
            said = pool.map(lambda name: outcome(name, copies, variables), names)
            wrong = [it for it in said if it]
    if wrong:
        sys.exit("\n".join(wrong))
    print(f"docs/check.py sees {sum(it in MUTATIONS for it in names)} mistakes")


if __name__ == "__main__":
    main()
