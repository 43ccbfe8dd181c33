"""Checks numbers and lists of pages against the files that they are of, and against each other.

- The rows of docs/GATE.md that count crates, programs, edits, tests and calls are there and right,
  and the edits of its mistakes are there.
- A number that is in two places of AGREE is the same, and is in both.
- README.md names the crates of the toolchain that the library and the viewer rest on, those of
  crates.txt and no others, the toolchain's version if `rt` is there, and the licences.
- The commands of docs/EXAMPLES.md are the recorded ones, or say that they aren't run.
- A number of rounds in bench/README.md is one of the script that is named last before it.
"""

import fnmatch
import functools
import itertools
import re
import shlex
import shutil
import subprocess

from pages import TOP, joined, lines_of, report, text_of, tracked
from recorded import arguments_of

GATE = TOP / "docs/GATE.md"
README = TOP / "README.md"
LANGUAGES = TOP / "docs/OTHER_LANGUAGES.md"
NUMBERS = "no one two three four five six seven eight nine ten eleven twelve".split()


def ways_of_pairs(text):
    """The number of ways in which the program test_cases prints pairs, as a word."""
    ways = text.partition("\nways = [\n")[2].partition("\n]")[0]
    return NUMBERS[len(ways.splitlines())]


def count_cases(text):
    """The number of cases in the input of test_cases: a table each, or an item of a list."""
    return len(re.findall(r"^\[\[\w+\]\]|^    \{ text = ", text, re.MULTILINE))


def count_characters(text):
    """The number of characters of which test_cases prints each pair."""
    characters = text.partition("\ncharacters = [\n")[2].partition("\n]")[0]
    return len(re.findall(r'^    "', characters, re.MULTILINE))


def count_calls(text):
    """The number of calls whose allocations test_cases lets fail."""
    return sum(map(int, re.findall(r": (\d+) calls did", text)))


# Numbers in several places: what each is, and where, with a pattern that has one group, or a call.
# Of a page the prose is searched, as one line.
AGREE = {
    "times that column takes": {
        "README.md": r"`column -t` takes (\d+ to \d+) times",
        "bench/README.md": r"`column -t` takes (\d+ to \d+) times",
    },
    "minutes of the library": {
        "README.md": r"the library \((\d+) minutes\)",
        "docs/OTHER_LANGUAGES.md": r"took (\d+) minutes for them",
    },
    "levels of boxes": {
        "docs/PROVED.md": r"some ([\d,]+) levels of a `PoolTable`",
        "docs/DIFFERENCES.md": r"some ([\d,]+) levels",
        "bench/README.md": r"`depths\.py`: some ([\d,]+) levels",
        "crates/tabled_pool/src/pool_table.rt": r"about ([\d,]+) such levels",
    },
    "levels around a text of no column": {
        "docs/PROVED.md": r"`PoolTable`, ([\d,]+) with a text",
        "docs/DIFFERENCES.md": r"with a text that gets no column, ([\d,]+) do",
        "bench/README.md": r"levels, and ([\d,]+) around a text",
        "crates/tabled_pool/src/pool_table.rt": r"or ([\d,]+) with a text",
    },
    "bytes of a short text": {
        "docs/DECISIONS.md": r"`Text` keeps up to (\d+) bytes",
        "docs/DIFFERENCES.md": r"short texts \((\d+) bytes\)",
        "docs/PROVED.md": r"one of more than (\d+) bytes",
        "crates/tabled_base/src/text.rt": r"SHORT_TEXT: usize = (\d+)",
    },
    "columns of a row template": {
        "docs/DECISIONS.md": r"estimated, of ([\d,]+) columns",
        "crates/tabled_line/src/row_template.rt": r"MOST_COLUMNS: usize = ([\d_]+)",
    },
    "cached placements": {
        "docs/DECISIONS.md": r"([\d,]+) columns in a fixed array",
        "bench/README.md": r"so are ([\d,]+) placements",
        "crates/tabled_grid/src/print.rt": r"FEW_PLACEMENTS: usize = ([\d_]+)",
    },
    "cursors of narrow tables": {
        "docs/DECISIONS.md": r"Up to (\d+) columns have theirs",
        "crates/tabled_grid/src/print.rt": r"FEW_CURSORS: usize = (\d+)",
    },
    "columns of a code": {
        "docs/VIEWER.md": r"words of at most (\d+) columns",
        "crates/tabview_cells/src/kinds.rt": r"CODE_COLUMNS: usize = (\d+)",
    },
    "columns of a word that is kept": {
        "docs/VIEWER.md": r"longest word, up to (\d+) columns",
        "crates/tabview_print/src/floors.rt": r"WORD_COLUMNS: usize = (\d+)",
    },
    "cases": {
        "crates/test_cases/stdout": r"^(\d+) cases hold",
        "crates/test_cases/stdin": count_cases,
    },
    "characters in pairs": {
        "docs/COLUMNS.md": r"each pair of (\d+) characters",
        "crates/test_cases/stdin": count_characters,
    },
    "ways of pairs": {
        "docs/COLUMNS.md": r"through (\w+) tables",
        "crates/test_cases/stdin": ways_of_pairs,
    },
    "lines of pairs": {
        "docs/COLUMNS.md": r"measures all ([\d,]+) lines",
        "crates/test_cases/stdin": r"lines = (\d+)",
    },
    "lines of extremes": {
        "bench/README.md": r"the ([\d,]+) lines of `crates/test_cases/data/extremes`",
        "crates/test_cases/data/extremes": lambda text: text.count("\n"),
        "crates/test_cases/stdout": r"(\d+) lines hold",
    },
    "calls whose allocations fail": {
        "docs/GATE.md": r"\| (\d+) calls \|",
        "crates/test_cases/stdout": count_calls,
    },
}


def number_in(name, pattern):
    """What a place says of a number, without what separates thousands, or None."""
    path = TOP / name
    if not path.is_file():
        return None
    text = joined(path) if path.suffix == ".md" else text_of(path)
    if callable(pattern):
        return str(pattern(text))
    found = re.search(pattern, text)
    return found and re.sub("[,_]", "", found[1])


def check_agreement():
    for what, places in AGREE.items():
        said = {name: number_in(name, pattern) for name, pattern in places.items()}
        for name, number in said.items():
            if number is None:
                report(TOP / name, 1, f"the number of {what} isn't there")
        if len(set(said.values())) > 1:
            told = ", ".join(f"{number} in {name}" for name, number in said.items())
            report(TOP / list(said)[0], 1, f"{what}: {told}")


@functools.cache
def uses():
    """The crates of crates.txt, lowest first, each with those that it uses."""
    found = {}
    for line in lines_of(TOP / "crates.txt"):
        if line and not line.startswith("#"):
            name, _, used = line.partition(":")
            found[name.split()[0]] = used.split()
    return found


def below(*crates):
    """The crates below some crates."""
    known, left = set(), list(crates)
    while left:
        for name in uses().get(left.pop(), ()):
            if name not in known:
                known.add(name)
                left.append(name)
    return known


def library():
    """The crates that `vendor` takes."""
    above = text_of(TOP / "crates.txt").partition("# The library ends here")[0]
    return re.findall(r"^(\w+):", above, re.MULTILINE)


def rows(path):
    """The rows of a page's tables: the number, the cells of the table's head, and the cells."""
    head = None
    for number, line in enumerate(lines_of(path), 1):
        cells = [it.strip() for it in line.strip("|").split("|")]
        if not line.startswith("|"):
            head = None
        elif head is None:
            head = cells
        else:
            yield number, head, cells


def check_rows():
    """Each counted row of docs/GATE.md is there once, with its number."""
    wanted = {
        "proves every crate, and its tests": len(uses()),
        "tries the must-fail edits": len(tracked("crates/*/must-fail/*.edit")),
        "runs each program": len(tracked("crates/*/stdout")),
    }
    for what, count in wanted.items():
        counts = [cells[-1] for _, _, cells in rows(GATE) if cells[0].startswith(what)]
        if counts != [str(count)]:
            report(GATE, 1, f"one row is '{what} .. | {count} |'")


def words_of(text):
    """What is in backticks."""
    return re.findall(r"`(\w+)`", text)


def check_edits():
    """The edits of the mistakes in docs/GATE.md are there: names of crates, a colon, and names."""
    for number, head, cells in rows(GATE):
        if head[0] == "the mistake":
            for crates, edits in re.findall(r"((?:`\w+`,? ?)+): ((?:`\w+`(?:, )?)+)", cells[-1]):
                for crate, edit in itertools.product(words_of(crates), words_of(edits)):
                    if not (TOP / f"crates/{crate}/must-fail/{edit}.edit").is_file():
                        report(GATE, number, f"{crate} has no edit {edit}")


def check_tested():
    """The row of tests names each crate that has tests."""
    sources = [it for it in tracked("crates/*/src/**/*.rt") if "#[test]" in text_of(it)]
    tests = {it.relative_to(TOP / "crates").parts[0] for it in sources}
    for number, line in enumerate(lines_of(GATE), 1):
        if line.startswith("| runs the tests of "):
            if set(re.findall(r"`(\w+)`", line)) != tests:
                report(GATE, number, f"tests are in {', '.join(sorted(tests))}")
            return
    report(GATE, 1, "no row says whose tests are run")


def check_sums():
    """Of allocations that failed, the columns behind the number of all of them are its parts."""
    sums = 0
    for number, head, cells in rows(GATE):
        counts = [int(it.replace(",", "")) for it in cells if re.fullmatch(r"[\d,]+", it)]
        if head[1:2] == ["allocations"] and counts:
            sums += 1
            if counts[0] != sum(counts[1:]):
                report(GATE, number, f"{counts[0]} isn't the sum of the others")
    if not sums:
        report(GATE, 1, "no row has the allocations that failed")


def check_rests_on():
    """README.md names the crates of the toolchain below the library, and below the viewer."""
    text = joined(README).partition("## What it rests on")[2].partition("##")[0]
    ours, _, others = text.partition("(`tabview` also on ")
    mine = below(*library()) - set(uses())
    viewers = below("tabview") - set(uses()) - mine
    for part, crates in ((ours, mine), (others.partition(")")[0], viewers)):
        names = re.findall(r"`([a-z][\w*]*)`", part)
        for name in crates:
            if not any(fnmatch.fnmatch(name, it) for it in names):
                report(README, 1, f"what it rests on lacks {name}")
        for name in names:
            if not fnmatch.filter(crates, name):
                report(README, 1, f"nothing rests on {name}")


def check_toolchain():
    """README.md has the logic that `rt` says. Builds of the kit that share it differ in their tools."""
    named = re.search(r"`(logic [^`]*)` in `rt version`", joined(README))
    if not named:
        report(README, 1, "the toolchain's version isn't there")
    elif shutil.which("rt"):
        ran = subprocess.run(["rt", "version"], capture_output=True, text=True)
        if ran.returncode == 0 and not ran.stdout.strip().endswith(f" {named[1]}"):
            report(README, 1, f"the toolchain is {ran.stdout.strip()}")


def check_licences():
    """README.md names the licences, and where they are."""
    part = joined(README).partition("## Licence")[2]
    for words, name in (("MIT", "LICENSE"), ("Unicode License v3", "bindings/LICENSE-UNICODE")):
        if words not in part or f"`{name}`" not in part:
            report(README, 1, f"the licence {words} in {name} isn't named")


def check_copies():
    """The packages have the licences as files of their own, word for word."""
    for package in ("python", "rust"):
        for original in (TOP / "LICENSE", TOP / "bindings/LICENSE-UNICODE"):
            copy = TOP / "bindings" / package / original.name
            if not copy.is_file() or copy.is_symlink() or text_of(copy) != text_of(original):
                report(copy, 1, f"isn't a copy of {original.name}")


def check_crates_below():
    """docs/OTHER_LANGUAGES.md counts the library's crates below the core."""
    count = len(below("tabled_c") & set(uses()))
    if f" the {count} crates below it " not in joined(LANGUAGES):
        report(LANGUAGES, 1, f"{count} crates are below the core")


def check_programs():
    """A command of docs/EXAMPLES.md is the recorded one, or its row says that it isn't run."""
    path = TOP / "docs/EXAMPLES.md"
    for number, line in enumerate(lines_of(path), 1):
        for name, command in re.findall(r"^\| `(\w+)` \|.*\| `rt try([^`]*)`", line):
            words, _, given = command.partition("<")
            is_recorded = shlex.split(words.removeprefix(" --")) == arguments_of(name)
            if not (is_recorded and given.strip() in ("", "stdin") or "not run" in line):
                report(path, number, f"the gate runs it with {shlex.join(arguments_of(name))}")


def rounds_of(script):
    """The numbers of rounds that a script of bench/ has."""
    if not script.is_file():
        return []
    return re.findall(r"\d+", " ".join(re.findall(r"ROUNDS\b[^=\n]*= ([\d, ]+)", text_of(script))))


def check_rounds():
    """Medians of n rounds, and the shortest of n, are of a script that has n rounds."""
    page = TOP / "bench/README.md"
    text = joined(page)
    for said in re.finditer(r"(?:shortest|medians) of (\d+)", text):
        name = re.findall(r"`(?:bench/)?(\w+\.py)", text[: said.start()])[-1]
        if said[1] not in rounds_of(TOP / "bench" / name):
            report(page, 1, f"{name} doesn't have {said[1]} rounds")


def check_claims():
    """Checks all of these."""
    check_agreement()
    check_rows()
    check_edits()
    check_tested()
    check_sums()
    check_rests_on()
    check_toolchain()
    check_licences()
    check_copies()
    check_crates_below()
    check_programs()
    check_rounds()
