"""Tables of Python values: `table`, `print_table` and `Table`."""

from __future__ import annotations

import ctypes
import dataclasses
import itertools
import sys
from array import array
from typing import Any, Iterable, List, Mapping, Optional, Sequence, TextIO, Tuple, Union, cast

from . import _rows
from ._library import LIBRARY, NULL, STOPPED, WRITER, Cells, FanlightnardError, Options
from ._library import checked, columns_of, encoded, filled

STYLES = (
    "ascii",
    "modern",
    "sharp",
    "rounded",
    "modern_rounded",
    "ascii_rounded",
    "extended",
    "markdown",
    "psql",
    "re_structured_text",
    "blank",
    "empty",
)
"""The names of the styles."""

WRAPS = ("characters", "words", "truncate")
"""How a table is fitted into a width: wrapped at any character, wrapped between words, truncated."""

ORDERS = ("each", "narrowest", "widest", "left", "right")
"""Which columns shrink first: each in turn, the narrowest, the widest, from the left or right."""

ALIGNS = ("left", "right", "center")
"""Where the text of a cell is placed."""

Align = Union[None, str, Sequence[Optional[str]], Mapping[Any, str]]
"""One alignment for all columns, one for each, or some by the name or the index of a column."""


def _chosen(name: str, value: Any, good: Sequence[str]) -> int:
    if isinstance(value, str) and value in good:
        return good.index(value)
    raise FanlightnardError(f"{name} must be one of {', '.join(good)}, not {value!r}")


def _aligned(align: Align, header: Optional[List[str]], columns: int, numeric: Any) -> bytes:
    """Returns the number of each column's alignment. Numbers are right-aligned unless told."""
    chosen = [1 if column in numeric else 0 for column in range(columns)]
    if align is None:
        return bytes(chosen)
    if isinstance(align, str):
        return bytes([_chosen("align", align, ALIGNS)] * columns)
    if isinstance(align, Mapping):
        for name, value in align.items():
            chosen[_index(name, header, columns)] = _chosen("align", value, ALIGNS)
        return bytes(chosen)
    if len(align) > columns:
        raise FanlightnardError(f"align has {len(align)} values for {columns} columns")
    for column, given in enumerate(align):
        if given is not None:
            chosen[column] = _chosen("align", given, ALIGNS)
    return bytes(chosen)


def _index(name: Any, header: Optional[List[str]], columns: int) -> int:
    if header is not None and str(name) in header:
        return header.index(str(name))
    if isinstance(name, int) and not isinstance(name, bool) and 0 <= name < columns:
        return name
    good = f"; the names are {', '.join(header)}" if header else ""
    raise FanlightnardError(f"align names no column by {name!r}{good}")


def _packed(cells: List[Optional[str]]) -> Tuple[bytes, "array[int]"]:
    """Returns the bytes of all cells, and the end of each."""
    empty = [i for i, cell in enumerate(cells) if cell is None] if None in cells else []
    texts = [cell or "" for cell in cells] if empty else cast(List[str], cells)
    text = "".join(texts)
    if text.isascii():
        data, ends = text.encode(), array("L", itertools.accumulate(map(len, texts)))
    else:
        parts = [part.encode() for part in texts] if _is_text(text) else [encoded(t) for t in texts]
        data, ends = b"".join(parts), array("L", itertools.accumulate(map(len, parts)))
    for i in empty:
        ends[i] = NULL
    return data, ends


def _is_text(text: str) -> bool:
    try:
        text.encode()
    except UnicodeEncodeError:
        return False
    return True


class _Given:
    """What one call passes: the cells and the options, with what keeps their memory."""

    def __init__(self, table: "Table") -> None:
        header, cells, columns, numeric = _rows.read(table.rows, table.headers)
        if header is not None:
            cells[:0] = header
        rows = len(cells) // columns if columns else 0
        self.data, self.ends = _packed(cells)
        self.null = encoded(table.null_text)
        self.align = _aligned(table.aligned, header, columns, numeric)
        address = self.ends.buffer_info()[0]
        self.cells = Cells(self.data, len(self.data), address, len(self.ends), rows, columns)
        fit = _chosen("wrap", table.wrapped, WRAPS) + 1
        limit = 0 if table.limit is None else columns_of(table.limit, "width")
        self.options = Options(
            ctypes.sizeof(Options),
            _chosen("style", table.styled, STYLES),
            0 if table.limit is None else fit,
            _chosen("order", table.ordered, ORDERS),
            header is not None,
            limit,
            self.align,
            len(self.align),
            self.null,
            len(self.null),
        )

    def guess(self) -> int:
        """Returns a number of bytes that most tables don't pass."""
        return 2 * len(self.data) + 16 * len(self.ends) + 4096


@dataclasses.dataclass(frozen=True, repr=False)
class Table:
    """A table whose options are set one after another. Each call returns a new table.

    >>> print(Table([{"City": "Vaduz", "People": 5774}]).style("markdown").align({"City": "center"}))
    | City  | People |
    |-------|--------|
    | Vaduz |   5774 |

    `rows` are sequences, mappings or dataclasses. The keys or field names of the last two are the
    headers unless `headers` says otherwise. Values become texts by `str`, and None the text of
    `null`. Short rows are filled up with it. Columns of numbers are right-aligned.
    """

    rows: Iterable[Any]
    headers: Optional[Sequence[Any]] = None
    styled: str = "rounded"
    limit: Optional[int] = None
    wrapped: str = "words"
    ordered: str = "widest"
    aligned: Align = None
    null_text: str = ""

    def __post_init__(self) -> None:
        if not isinstance(self.rows, (list, tuple)):
            object.__setattr__(self, "rows", list(self.rows))

    def style(self, name: str) -> "Table":
        """Sets the borders, to one of `STYLES`."""
        _chosen("style", name, STYLES)
        return dataclasses.replace(self, styled=name)

    def width(self, n: Optional[int]) -> "Table":
        """Fits a wider table into `n` columns. None leaves it as wide as its cells are.

        Borders and padding may need more than `n` columns. Then each cell is left without a column.
        """
        if n is not None:
            columns_of(n, "width")
        return dataclasses.replace(self, limit=n)

    def wrap(self, how: str) -> "Table":
        """Sets how the table is fitted into its width, to one of `WRAPS`."""
        _chosen("wrap", how, WRAPS)
        return dataclasses.replace(self, wrapped=how)

    def order(self, which: str) -> "Table":
        """Sets which columns shrink first, to one of `ORDERS`."""
        _chosen("order", which, ORDERS)
        return dataclasses.replace(self, ordered=which)

    def align(self, align: Align) -> "Table":
        """Sets the alignment of all columns, of each, or of some by their names or indices."""
        return dataclasses.replace(self, aligned=align)

    def null(self, text: str) -> "Table":
        """Sets the text of None."""
        return dataclasses.replace(self, null_text=text)

    def __str__(self) -> str:
        given = _Given(self)
        cells, options = ctypes.byref(given.cells), ctypes.byref(given.options)
        return filled(LIBRARY.fanlightnard_format, given.guess(), cells, options)

    def print(self, file: Optional[TextIO] = None) -> None:
        """Writes the table to a file in blocks, and then a line feed."""
        out = sys.stdout if file is None else file
        given = _Given(self)
        raised: List[BaseException] = []

        def write(context: Any, block: int, length: int) -> int:
            try:
                out.write(ctypes.string_at(block, length).decode())
            except BaseException as error:
                raised.append(error)
                return 1
            return 0

        cells, options = ctypes.byref(given.cells), ctypes.byref(given.options)
        result = LIBRARY.fanlightnard_write(cells, options, WRITER(write), None)
        if result == STOPPED and raised:
            raise raised[0]
        checked(result)
        out.write("\n")


def table(
    rows: Iterable[Any],
    headers: Optional[Sequence[Any]] = None,
    style: str = "rounded",
    width: Optional[int] = None,
    wrap: str = "words",
    align: Align = None,
    null: str = "",
    order: str = "widest",
) -> str:
    """Returns the table of some rows.

    - `rows`: sequences, mappings or dataclasses. Values become texts by `str`.
    - `headers`: the texts of the header. By default the keys or field names of the rows; sequences
      have none.
    - `style`: one of `STYLES`.
    - `width`: the columns to fit a wider table into.
    - `wrap`: how to fit it, one of `WRAPS`.
    - `align`: one of `ALIGNS`, or one for each column, or a mapping from names or indices of
      columns. By default columns of numbers are right-aligned and others left.
    - `null`: the text of None.
    - `order`: which columns shrink first, one of `ORDERS`.

    Raises `FanlightnardError` if an option or a row is wrong.
    """
    return str(Table(rows, headers, style, width, wrap, order, align, null))


def print_table(
    rows: Iterable[Any],
    headers: Optional[Sequence[Any]] = None,
    file: Optional[TextIO] = None,
    style: str = "rounded",
    width: Optional[int] = None,
    wrap: str = "words",
    align: Align = None,
    null: str = "",
    order: str = "widest",
) -> None:
    """Writes the table of some rows to a file, standard output by default, and then a line feed.

    The arguments are those of `table`. The table is written in blocks of at most 64 KiB. An error of
    the file is raised as it is.
    """
    Table(rows, headers, style, width, wrap, order, align, null).print(file)
