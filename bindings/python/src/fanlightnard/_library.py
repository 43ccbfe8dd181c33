"""The shared object, through ctypes: its declarations, its errors, and the calls on one text."""

from __future__ import annotations

import ctypes
import os
import pathlib
from typing import Any, Callable

SIZE, SIGNED, TEXT = ctypes.c_size_t, ctypes.c_ssize_t, ctypes.c_char_p
WRITER = ctypes.CFUNCTYPE(ctypes.c_int, ctypes.c_void_p, ctypes.c_void_p, SIZE)

# The greatest number of columns that is passed on.
MOST = 2**63 - 1

# In the place of an end: the cell has no value.
NULL = 2**64 - 1

# The error of a writer that stopped.
STOPPED = -11


class FanlightnardError(ValueError):
    """A table or a text can't be made: an option or a value is wrong, or memory ran out."""


class Cells(ctypes.Structure):
    """`fanlightnard_cells` of the header."""

    _fields_ = [
        ("text", TEXT),
        ("text_len", SIZE),
        ("ends", ctypes.c_void_p),
        ("ends_len", SIZE),
        ("rows", SIZE),
        ("columns", SIZE),
    ]


class Options(ctypes.Structure):
    """`fanlightnard_options` of the header."""

    _fields_ = [
        ("size", SIZE),
        ("style", ctypes.c_uint32),
        ("fit", ctypes.c_uint32),
        ("order", ctypes.c_uint32),
        ("header", ctypes.c_uint32),
        ("width", SIZE),
        ("align", TEXT),
        ("align_len", SIZE),
        ("null", TEXT),
        ("null_len", SIZE),
    ]


def _load() -> ctypes.CDLL:
    held = pathlib.Path(__file__).with_name("libfanlightnard.so")
    path = os.environ.get("FANLIGHTNARD_LIBRARY") or str(held)
    try:
        library = ctypes.CDLL(path)
    except OSError as error:
        raise ImportError(
            f"fanlightnard can't load its shared object: {error}. Install the wheel, or set"
            " FANLIGHTNARD_LIBRARY to the path of libfanlightnard.so."
        ) from error
    cells, options = ctypes.POINTER(Cells), ctypes.POINTER(Options)
    for name, result, arguments in (
        ("format", SIGNED, [cells, options, TEXT, SIZE]),
        ("write", ctypes.c_int, [cells, options, WRITER, ctypes.c_void_p]),
        ("measure", SIGNED, [TEXT, SIZE]),
        ("truncate", SIGNED, [TEXT, SIZE, SIZE, TEXT, SIZE]),
        ("wrap", SIGNED, [TEXT, SIZE, SIZE, ctypes.c_int, TEXT, SIZE]),
        ("error_text", TEXT, [SIGNED]),
        ("version", TEXT, []),
    ):
        call = getattr(library, f"fanlightnard_{name}")
        call.restype, call.argtypes = result, arguments
    return library


LIBRARY = _load()

__version__: str = LIBRARY.fanlightnard_version().decode()


def checked(result: int) -> int:
    """Returns a result that isn't an error."""
    if result < 0:
        raise FanlightnardError(LIBRARY.fanlightnard_error_text(result).decode())
    return result


def filled(call: Callable[..., int], guess: int, *arguments: Any) -> str:
    """Returns the text that a call puts into a buffer. One of `guess` bytes is tried first."""
    buffer = ctypes.create_string_buffer(guess)
    needed = checked(call(*arguments, buffer, guess))
    if needed > guess:
        buffer = ctypes.create_string_buffer(needed)
        needed = checked(call(*arguments, buffer, needed))
    return ctypes.string_at(buffer, needed).decode()


def encoded(text: str) -> bytes:
    """Returns the UTF-8 of a text."""
    if not isinstance(text, str):
        raise FanlightnardError(f"a text must be a str, not {text!r}")
    try:
        return text.encode()
    except UnicodeEncodeError as error:
        raise FanlightnardError(f"the text {text[:40]!r} has a lone surrogate") from error


def columns_of(number: int, name: str) -> int:
    """Returns a number of columns that isn't negative."""
    if isinstance(number, bool) or not isinstance(number, int):
        raise FanlightnardError(f"{name} must be a whole number of columns, not {number!r}")
    if number < 0:
        raise FanlightnardError(f"{name} must be at least 0 columns, not {number}")
    return min(number, MOST)


def width(text: str) -> int:
    """Returns the number of columns that a text takes in a terminal: those of its widest line."""
    data = encoded(text)
    return checked(LIBRARY.fanlightnard_measure(data, len(data)))


def wrap(text: str, n: int, words: bool = True) -> str:
    """Returns a text in lines of at most `n` columns, broken between words where possible.

    Without `words` it is broken at any character. No other breaking has fewer lines.
    """
    data = encoded(text)
    guess = 2 * len(data) + 1
    return filled(
        LIBRARY.fanlightnard_wrap, guess, data, len(data), columns_of(n, "n"), bool(words)
    )


def truncate(text: str, n: int) -> str:
    """Returns the longest beginning of a text that takes at most `n` columns.

    U+FFFD fills a column that half of a wide character would take.
    """
    data = encoded(text)
    guess = len(data) + 4
    return filled(LIBRARY.fanlightnard_truncate, guess, data, len(data), columns_of(n, "n"))
