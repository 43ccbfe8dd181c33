"""Text tables whose edges line up whatever the cells contain.

>>> import fanlightnard
>>> print(fanlightnard.table([["Beijing", 21893095], ["Vaduz", 5774]], headers=["City", "People"]))
╭─────────┬──────────╮
│ City    │   People │
├─────────┼──────────┤
│ Beijing │ 21893095 │
│ Vaduz   │     5774 │
╰─────────┴──────────╯

- `table` returns a table as a text, and `print_table` writes it to a file.
- `Table` is a table whose options are set one after another.
- `width`, `wrap` and `truncate` measure and fit one text.
- `FanlightnardError` is the base of all errors of this package, and a `ValueError`.
"""

from ._library import FanlightnardError, __version__, truncate, width, wrap
from ._table import ALIGNS, ORDERS, STYLES, WRAPS, Table, print_table, table

__all__ = [
    "ALIGNS",
    "ORDERS",
    "STYLES",
    "WRAPS",
    "FanlightnardError",
    "Table",
    "__version__",
    "print_table",
    "table",
    "truncate",
    "width",
    "wrap",
]
