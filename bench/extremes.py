#!/usr/bin/env python3
"""Writes what becomes of tables that are set by 0, 1 and the greatest `usize`, alone and in pairs: the
lines of `crates/test_cases/data/extremes`, which the program `test_cases` checks.

usage: extremes.py [--all | --check]

Each line has the kind of a table, what is set around its cells, its other settings, and what is wanted,
between bars. The table always has the cells a and bb, and below them ccc and an empty one. What is wanted
is worked out here, with numbers of any size, from the rules of sizes and errors, and not from what the
library returns: whether an option fails, the totals, and what a print to a writer of 1,000 bytes returns,
with the bytes that are out then. Of two options, one after the other, each eleventh pair is written, or
with --all each. With --check nothing is written, and the exit status is 1 if the file has other lines.
"""

import itertools
import pathlib
import sys

FILE = pathlib.Path(__file__).resolve().parent.parent / "crates" / "test_cases" / "data" / "extremes"

MAX = 2**64 - 1
ROOM = 1000
ROWS = [["a", "bb"], ["ccc", ""]]


class Refused(Exception):
    """A refusal, by its word."""


def word(number):
    return "greatest" if number == MAX else str(number)


def checked(number):
    """A number, unless it passes the range."""
    if number > MAX:
        raise Refused("Range")
    return number


def out(size, refusal=None):
    """What a print of so many bytes answers, or one that is refused behind them."""
    if size > ROOM:
        return f"Writer {ROOM}"
    return f"{refusal or 'Ok'} {size}"


def bytes_of(width, lines):
    """The bytes of so many lines of so many columns."""
    return lines * (width + 1) - 1 if lines else 0


def answer(call):
    """What a call answers in words."""
    try:
        return str(call())
    except Refused as refused:
        return str(refused)


# Texts of narrow characters.


def columns(text):
    return max(map(len, text.split("\n")))


def lines(text):
    return text.count("\n") + 1


def first_lines(text, count):
    return "\n".join(text.split("\n")[:count])


def wrapped(text, room):
    if room == 0:
        return ""
    pieces = []
    for line in text.split("\n"):
        pieces += [line[at : at + room] for at in range(0, len(line), room)] or [""]
    return "\n".join(pieces)


def cut(text, room):
    """What comes before the first character that finds a full line before it."""
    count = 0
    for place, character in enumerate(text):
        if count == room:
            return text[:place]
        count = 0 if character == "\n" else count + 1
    return text


def filled(text, size):
    """Fills up each line. A text can't become as long as a number of 64 bits."""
    if columns(text) < size:
        if size > 2**40:
            raise Refused("Memory")
        return "\n".join(line + " " * (size - len(line)) for line in text.split("\n"))
    return text


def heightened(text, size):
    if size > 2**40:
        raise Refused("Memory")
    return text + "\n" * max(0, size - lines(text))


# Lists that are shrunk or grown in turn.


def shrunk(values, least, by):
    room = [max(0, value - low) for value, low in zip(values, least)]
    by = min(by, sum(room))
    level = 0
    for bit in reversed(range(65)):
        if sum(min(each, level + 2**bit) for each in room) <= by:
            level += 2**bit
    more = by - sum(min(each, level) for each in room)
    new = []
    for value, each in zip(values, room):
        loss = min(each, level)
        if each > level and more:
            loss, more = loss + 1, more - 1
        new.append(value - loss)
    return new


def grown(values, by):
    places = [place for place, value in enumerate(values) if value]
    new = list(values)
    for number, place in enumerate(places):
        new[place] += by // len(places) + (number < by % len(places))
    return new


class Table:
    """A table of the cells, by the rules of tables."""

    def __init__(self):
        self.cells = [list(row) for row in ROWS]
        self.margin = (0, 0, 0, 0)
        self.padding = {(row, column): (1, 1, 0, 0) for row in (0, 1) for column in (0, 1)}
        self.widths = self.heights = None
        self.has_borders = True

    def bars(self):
        return 3 if self.has_borders else 0

    def estimated_widths(self, texts=None):
        texts = texts or self.cells
        sides = {place: sum(padding[:2]) for place, padding in self.padding.items()}
        return [max(columns(texts[row][column]) + sides[row, column] for row in (0, 1)) for column in (0, 1)]

    def estimated_heights(self):
        sides = {place: sum(padding[2:]) for place, padding in self.padding.items()}
        return [max(lines(self.cells[row][column]) + sides[row, column] for column in (0, 1)) for row in (0, 1)]

    def frame(self, first):
        return self.margin[first] + self.margin[first + 1] + self.bars()

    def total_width(self):
        widths = self.estimated_widths() if self.widths is None else self.widths
        if len(widths) < 2:
            raise Refused("ShortWidths")
        return checked(sum(widths[:2]) + self.frame(0))

    def total_height(self):
        heights = self.estimated_heights() if self.heights is None else self.heights
        if len(heights) < 2:
            raise Refused("ShortHeights")
        return checked(sum(heights[:2]) + self.frame(2))

    def check(self):
        """The refusals of a print, in their order."""
        if self.widths is not None and len(self.widths) < 2:
            raise Refused("ShortWidths")
        if self.heights is not None and len(self.heights) < 2:
            raise Refused("ShortHeights")
        for row, column in itertools.product((0, 1), (0, 1)):
            needed = columns(self.cells[row][column]) + sum(self.padding[row, column][:2])
            if self.widths is not None and needed > self.widths[column]:
                raise Refused(f"Narrow {{ row: {row}, column: {column} }}")

    def printed(self, at_least=0):
        try:
            self.check()
            width, height = self.total_width(), self.total_height()
        except Refused as refused:
            return f"{refused} 0"
        return out(bytes_of(max(width, at_least), height))

    # Options.

    def clear(self):
        self.widths = self.heights = None

    def each(self, part, change):
        """Changes the cells of a part, row by row, and clears what is stored, also where one is refused."""
        self.clear()
        for row, column in itertools.product((0, 1), (0, 1)):
            if part in ("all", f"row {row}", f"column {column}", f"cell {row} {column}"):
                self.cells[row][column] = change(self.cells[row][column])

    def narrow_cells(self, part, size, change):
        self.each(part, lambda text: change(text, size) if columns(text) > size else text)

    def estimate(self):
        """Stores the sizes that aren't stored."""
        if self.widths is None:
            self.widths = [checked(width) for width in self.estimated_widths()]
        if self.heights is None:
            self.heights = [checked(height) for height in self.estimated_heights()]

    def narrow(self, size, change, wraps):
        """Wraps or truncates the table."""
        try:
            self.estimate()
            widths = self.widths[:2]
            total = checked(sum(widths) + self.frame(0))
        except Refused:
            self.clear()
            raise
        if total > size:
            least = self.estimated_widths([["", ""], ["", ""]])
            self.widths = shrunk(widths, least, total - size)
            for column, width in enumerate(self.widths):
                self.narrow_column(column, width, least[column], change, wraps)
        if wraps or total > size:
            self.heights = None

    def narrow_column(self, column, width, least, change, wraps):
        if width < least:
            return
        for row in (0, 1):
            room = max(0, width - sum(self.padding[row, column][:2]))
            text = self.cells[row][column]
            if wraps or columns(text) > room:
                self.cells[row][column] = change(text, room)

    def widen(self, size):
        try:
            self.estimate()
            widths = self.widths[:2]
            total = checked(sum(widths) + self.frame(0))
        except Refused:
            self.clear()
            raise
        if total < size:
            self.widths = grown(widths, size - total) if any(widths) else widths

    def set_height(self, size, limits):
        heights = self.estimated_heights()
        try:
            total = checked(sum(heights) + self.frame(2))
        except Refused:
            self.clear()
            raise
        if limits and total > size:
            self.heights = shrunk(heights, [0, 0], total - size)
            for row in (0, 1):
                self.cells[row] = [first_lines(text, self.heights[row]) for text in self.cells[row]]
        if not limits and total < size:
            self.heights = grown(heights, size - total) if any(heights) else heights

    def percent(self, number, first):
        """Hundredths of the estimated total."""
        sizes = self.estimated_heights() if first else self.estimated_widths()
        try:
            return checked(checked(sum(sizes) + self.frame(first)) * number) // 100
        except Refused:
            self.clear()
            raise

    def justify(self, size):
        def justified(text):
            text = filled(text, size)
            return cut(text, size) if columns(text) > size else text

        self.each("all", justified)

    def pad(self, part, sides):
        self.clear()
        for row, column in self.padding:
            if part in ("table", "all", f"row {row}", f"column {column}", f"cell {row} {column}"):
                self.padding[row, column] = sides

    def set_margin(self, sides):
        self.clear()
        self.margin = sides

    def store(self, widths=None, heights=None):
        self.widths = widths or self.widths
        self.heights = heights or self.heights


def sides_in_turn():
    """Four sides of which one at most isn't 0, which is 1 or the greatest."""
    yield (0, 0, 0, 0)
    for place, number in itertools.product(range(4), (1, MAX)):
        yield tuple(number if side == place else 0 for side in range(4))


def options():
    """Each option of a table in words, and what it does."""
    for n in (0, 1, MAX):
        name = word(n)
        yield f"wrap table {name}", lambda t, n=n: t.narrow(n, wrapped, True)
        yield f"truncate table {name}", lambda t, n=n: t.narrow(n, cut, False)
        yield f"increase table {name}", lambda t, n=n: t.widen(n)
        yield f"heighten table {name}", lambda t, n=n: t.set_height(n, False)
        yield f"limit table {name}", lambda t, n=n: t.set_height(n, True)
        yield f"wrap_to {name}%", lambda t, n=n: t.narrow(t.percent(n, 0), wrapped, True)
        yield f"truncate_to {name}%", lambda t, n=n: t.narrow(t.percent(n, 0), cut, False)
        yield f"limit_to {name}%", lambda t, n=n: t.set_height(t.percent(n, 2), True)
        yield f"wrap all {name}", lambda t, n=n: t.narrow_cells("all", n, wrapped)
        yield f"truncate all {name}", lambda t, n=n: t.narrow_cells("all", n, cut)
        yield f"increase all {name}", lambda t, n=n: t.each("all", lambda text: filled(text, n))
        yield f"heighten all {name}", lambda t, n=n: t.each("all", lambda text: heightened(text, n))
        yield f"limit all {name}", lambda t, n=n: t.each("all", lambda text: first_lines(text, n))
        yield f"justify_to {name}", lambda t, n=n: t.justify(n)
        yield f"wrap column {name} 1", lambda t, name=name: t.narrow_cells(f"column {name}", 1, wrapped)
        yield f"truncate row {name} 1", lambda t, name=name: t.narrow_cells(f"row {name}", 1, cut)
        yield f"padding cell {name} {name} 2 1 1 1", lambda t, name=name: t.pad(f"cell {name} {name}", (2, 1, 1, 1))
        yield f"line {name} - | + |".replace("|", "!"), lambda t: None
    for first, second in itertools.product((0, 1, MAX), repeat=2):
        both = f"{word(first)} {word(second)}"
        yield f"widths {both}", lambda t, sizes=(first, second): t.store(widths=list(sizes))
        yield f"heights {both}", lambda t, sizes=(first, second): t.store(heights=list(sizes))
        yield f"list widths {both}", lambda t, sizes=(first, second): t.store(widths=list(sizes))
        yield f"list heights {both}", lambda t, sizes=(first, second): t.store(heights=list(sizes))
    for n in (0, 1, MAX):
        yield f"widths {word(n)}", lambda t, n=n: t.store(widths=[n])
        yield f"heights {word(n)}", lambda t, n=n: t.store(heights=[n])
        yield f"list widths {word(n)}", lambda t: None
    for sides in sides_in_turn():
        shown = " ".join(map(word, sides))
        yield f"margin {shown}", lambda t, sides=sides: t.set_margin(sides)
        yield f"padding table {shown}", lambda t, sides=sides: t.pad("table", sides)
    yield "padding column 0 greatest 0 0 0", lambda t: t.pad("column 0", (MAX, 0, 0, 0))
    yield "padding row 1 0 0 0 greatest", lambda t: t.pad("row 1", (0, 0, 0, MAX))


def set_by(steps):
    """A table that is set by options, and the answer to them."""
    table = Table()
    try:
        for _, change in steps:
            change(table)
    except Refused as refused:
        return table, str(refused)
    return table, "set"


def table_line(steps):
    table, said = set_by(steps)
    wanted = f"{said} {answer(table.total_width)} {answer(table.total_height)} {table.printed()}"
    return f"table |  | {'; '.join(name for name, _ in steps)} | {wanted}"


def tables(each):
    """Tables of one option, and of each of so many pairs of options."""
    every = list(options())
    for first in every:
        yield table_line([first])
    pairs = itertools.product(every, repeat=2)
    for first, second in itertools.islice(pairs, 0, None, each):
        yield table_line([first, second])


def all_sides():
    """All four sides of 0, 1 and the greatest."""
    return itertools.product((0, 1, MAX), repeat=4)


def sided_tables():
    for sides in all_sides():
        shown = " ".join(map(word, sides))
        yield table_line([(f"margin {shown}", lambda t, sides=sides: t.set_margin(sides))])
        yield table_line([(f"padding table {shown}", lambda t, sides=sides: t.pad("table", sides))])


def looks():
    """Tables that are printed with a width of their own."""
    for step in options():
        for n in (0, 1, 16, MAX):
            table, said = set_by([step])
            yield f"look | {step[0]} | {word(n)} | {said} {table.printed(n)}"


def capacities():
    """Tables of two values with a header, and room for so many rows. The greatest room can't be had."""
    for n in (0, 1, MAX):
        yield f"capacity |  | {word(n)} | {'Memory' if n == MAX else '15 7 Ok 111'}"


# Other tables: what is set around their cells comes first.


class Config:
    def __init__(self, margin=(0, 0, 0, 0), padding=(1, 1, 0, 0), has_borders=True):
        self.margin, self.padding, self.has_borders = margin, padding, has_borders

    def name(self):
        settings = [] if self.has_borders else ["empty"]
        if self.margin != (0, 0, 0, 0):
            settings.append("margin " + " ".join(map(word, self.margin)))
        if self.padding != (1, 1, 0, 0):
            settings.append("padding " + " ".join(map(word, self.padding)))
        return "; ".join(settings)

    def bars(self, count):
        return count + 1 if self.has_borders else 0

    def total(self, widths):
        """The columns of a line over a list of widths, each so many times."""
        count = sum(times for _, times in widths)
        inside = sum(width * times for width, times in widths)
        return inside + self.bars(count) + sum(self.margin[:2])


def configs():
    """Each side alone, the two of a direction together, and margins beside paddings."""
    yield Config()
    yield Config(has_borders=False)
    yield Config(padding=(0, 0, 0, 0), has_borders=False)
    for sides in all_sides():
        yield Config(margin=sides)
        yield Config(padding=sides)
    for margin, padding in itertools.product(sides_in_turn(), repeat=2):
        yield Config(margin=margin, padding=padding, has_borders=False)


def stream(config, given):
    """What a stream answers."""
    count = given.get("columns", 2 if given.get("sniff", 1000) else 0)
    rows = min(2, given.get("rows", 2))
    side = sum(config.padding[:2])
    if not rows or not count:
        return "Ok 0"
    known = min(count, 2)
    if "width" in given:
        widths = [(given["width"] + side, count)]
    else:
        sniffed = ROWS[: given.get("sniff", 1000)]
        texts = [max([len(row[column]) for row in sniffed], default=0) for column in range(known)]
        widths = [(text + side, 1) for text in texts] + [(side, count - known)]
    width = config.total(widths)
    if width > MAX:
        return "Range 0"
    height = given.get("height", 1) + sum(config.padding[2:])
    top, bottom = config.margin[2:]
    if height > MAX:
        return out(bytes_of(width, top), "Range")
    return out(bytes_of(width, top + rows * height + config.bars(rows) + bottom))


def stream_settings():
    names = ("columns", "rows", "sniff", "width", "height")
    alone = [{name: n} for name in names for n in (0, 1, MAX)]
    yield {}
    yield from alone
    for first, second in itertools.combinations(alone, 2):
        if first.keys() != second.keys():
            yield {**first, **second}


def streams():
    for config in configs():
        yield f"stream | {config.name()} |  | {stream(config, {})}"
    plain = [Config(), Config(has_borders=False), Config(padding=(0, 0, 0, 0), has_borders=False)]
    sides = [Config(padding=sides) for sides in sides_in_turn()] + [Config(margin=sides) for sides in sides_in_turn()]
    for config, given in itertools.product(plain + sides, stream_settings()):
        yield stream_line(config, given)
    # Columns of no width with vertical lines between them, and columns that take nothing in a margin.
    margins = [Config(margin=sides, padding=(0, 0, 0, 0), has_borders=False) for sides in sides_in_turn() if any(sides)]
    for config in [*plain, Config(padding=(0, 0, 0, 0)), *margins]:
        yield stream_line(config, {"columns": MAX - 2, "width": 0})


def stream_line(config, given):
    shown = "; ".join(f"{name} {word(n)}" for name, n in given.items())
    return f"stream | {config.name()} | {shown} | {stream(config, given)}"


def compact(config, count, width, skip, limit):
    """What a compact table answers."""
    rows = ROWS[skip:][:limit]
    if not rows or not count:
        return "Ok 0"
    total = config.total([(width, count)])
    if total > MAX:
        return "Range 0"
    left, right, top, bottom = config.padding
    room = max(0, width - left - right)
    frame = config.bars(count) + sum(config.margin[:2])
    sizes = []
    for row in rows:
        texts = [len(text) for text in row[:count]]
        cells = sum(max(room, text) + left + right for text in texts) + (count - len(texts)) * (room + left + right)
        sizes.append(cells + frame)
    whole = sum(config.margin[2:]) + config.bars(len(rows))
    return out(sum(sizes) + whole * total + len(rows) + whole - 1)


def compacts():
    for config in configs():
        yield compact_line(config, 2, 5, 0, MAX)
    plain = [Config(), Config(has_borders=False), Config(padding=(0, 0, 0, 0))]
    numbers = itertools.product((0, 1, 2, MAX), (0, 1, MAX), (0, 1, MAX), (0, 1, MAX))
    for config, given in itertools.product(plain, numbers):
        yield compact_line(config, *given)
    for config in plain:
        yield compact_line(config, MAX - 2, 0, 0, MAX)
    # Columns that take nothing: what stands behind them, and around the table, is written all the same.
    bare = [Config(padding=sides, has_borders=False) for sides in sides_in_turn()]
    bare += [Config(margin=sides, padding=(0, 0, 0, 0), has_borders=False) for sides in sides_in_turn() if any(sides)]
    for config, count, width in itertools.product(bare, (2, 1000, MAX), (0, 1)):
        yield compact_line(config, count, width, 0, MAX)


def compact_line(config, *given):
    return f"compact | {config.name()} | {' '.join(map(word, given))} | {compact(config, *given)}"


def boxes():
    """Boxes: a column of rows."""
    for config in configs():
        bar = config.has_borders
        side, above = sum(config.padding[:2]), sum(config.padding[2:])
        width = max(sum(len(text) + side for text in row) + bar for row in ROWS) + 2 * bar
        height = sum(1 + above for _ in ROWS) + 3 * bar
        width, height = width + sum(config.margin[:2]), height + sum(config.margin[2:])
        wanted = "Range 0" if max(width, height) > MAX else out(bytes_of(width, height))
        yield f"boxes | {config.name()} |  | {wanted}"


def records():
    """The fields a and bb with the values ccc and none: a header of 14 columns, and lines of 8 and 5."""
    for n in (0, 1, 13, 14, MAX - 1, MAX):
        yield f"records |  | {word(n)} | {'true' if n >= 14 else 'false'} Ok {14 + 1 + 8 + 1 + 5}"


def batches():
    for begin, end, batch in itertools.product((0, 1, MAX), repeat=3):
        places = []
        for count in range(3):
            if batch and min(MAX, begin + count * batch) < end:
                places.append(count * batch)
        yield f"batches |  | {word(begin)} {word(end)} {word(batch)} | {' '.join(['begins', *map(str, places)])}"


def written(each):
    """All lines, with each of so many pairs."""
    yield from tables(each)
    for kind in (sided_tables, looks, capacities, streams, compacts, boxes, records, batches):
        yield from kind()


def main():
    arguments = sys.argv[1:]
    if arguments not in ([], ["--all"], ["--check"]):
        sys.exit(__doc__)
    lines = list(written(1 if arguments == ["--all"] else 11))
    if arguments != ["--check"]:
        print(*lines, sep="\n")
    elif lines != FILE.read_text().splitlines():
        sys.exit(f"{FILE.name} has other lines")


if __name__ == "__main__":
    main()
