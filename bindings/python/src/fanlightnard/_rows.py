"""Rows of Python values, as texts."""

from __future__ import annotations

import dataclasses
import decimal
import fractions
from typing import Any, Iterable, List, Mapping, Optional, Sequence, Set, Tuple

from ._library import FanlightnardError

NUMBERS = (int, float, decimal.Decimal, fractions.Fraction)


def _is_record(row: object) -> bool:
    return dataclasses.is_dataclass(row) and not isinstance(row, type)


def _names(rows: Sequence[Any]) -> Optional[List[Any]]:
    """Returns the keys or field names of the rows, in order of appearance; None without any."""
    names: dict[Any, None] = {}
    named = False
    for row in rows:
        if isinstance(row, Mapping):
            names.update(dict.fromkeys(row))
            named = True
        elif _is_record(row):
            names.update(dict.fromkeys(field.name for field in dataclasses.fields(row)))
            named = True
        elif named:
            raise FanlightnardError("some rows have names for their values, and others have not")
    return list(names) if named else None


def _values(row: Any, names: Optional[List[Any]]) -> Sequence[Any]:
    if names is not None:
        if isinstance(row, Mapping):
            return [row.get(name) for name in names]
        if _is_record(row):
            return [getattr(row, str(name), None) for name in names]
        raise FanlightnardError("some rows have names for their values, and others have not")
    if isinstance(row, (str, bytes)):
        raise FanlightnardError(f"a row must be a sequence of values, not the text {row[:40]!r}")
    try:
        return row if isinstance(row, (list, tuple)) else list(row)
    except TypeError:
        raise FanlightnardError(
            f"a row must be a sequence, a mapping or a dataclass, not {type(row).__name__}"
        ) from None


def read(
    rows: Iterable[Any], headers: Optional[Sequence[Any]]
) -> Tuple[Optional[List[str]], List[Optional[str]], int, Set[int]]:
    """Returns the header, the texts of all cells, the number of columns, and which hold numbers.

    A cell without a value has None for its text.
    """
    given = rows if isinstance(rows, (list, tuple)) else list(rows)
    names = _names(given)
    values = [_values(row, names) for row in given]
    if headers is None:
        headers = names
    columns = max(map(len, values), default=0)
    if headers is not None:
        columns = max(columns, len(headers))
    header = None if not headers else [str(name) for name in headers]
    if header is not None:
        header += [""] * (columns - len(header))
    return header, _texts(values, columns), columns, _numeric(values, columns)


def _texts(values: List[Sequence[Any]], columns: int) -> List[Optional[str]]:
    texts: List[Optional[str]] = []
    for row in values:
        texts += [value if type(value) is str or value is None else str(value) for value in row]
        if len(row) < columns:
            texts += [None] * (columns - len(row))
    return texts


def _numeric(values: List[Sequence[Any]], columns: int) -> Set[int]:
    """Returns the columns that hold numbers, and nothing else but None."""
    numeric = set()
    for column in range(columns):
        some = False
        for row in values:
            value = row[column] if column < len(row) else None
            if value is None:
                continue
            if isinstance(value, bool) or not isinstance(value, NUMBERS):
                break
            some = True
        else:
            if some:
                numeric.add(column)
    return numeric
