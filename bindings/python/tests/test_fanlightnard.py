"""Tests the package. Expected tables are worked out by hand."""

from __future__ import annotations

import dataclasses
import doctest
import io
import unittest
from decimal import Decimal
from typing import Any, List, Tuple

import fanlightnard
from fanlightnard import FanlightnardError, Table, print_table, table


@dataclasses.dataclass
class City:
    name: str
    people: int


def picture(*lines: str) -> str:
    return "\n".join(lines)


class Tables(unittest.TestCase):
    def test_numbers_are_right_aligned(self) -> None:
        self.assertEqual(
            table([["北京", 21893095], ["Vaduz", 5774]], headers=["City", "People"]),
            picture(
                "╭───────┬──────────╮",
                "│ City  │   People │",
                "├───────┼──────────┤",
                "│ 北京  │ 21893095 │",
                "│ Vaduz │     5774 │",
                "╰───────┴──────────╯",
            ),
        )

    def test_rows_without_a_header(self) -> None:
        self.assertEqual(
            table([("a", 1.5), ("b", Decimal("10.25"))], style="sharp"),
            picture("┌───┬───────┐", "│ a │   1.5 │", "│ b │ 10.25 │", "└───┴───────┘"),
        )

    def test_mappings_and_dataclasses_have_names(self) -> None:
        wanted = picture(
            "| name  | people |",
            "|-------|--------|",
            "| Vaduz |   5774 |",
        )
        self.assertEqual(table([City("Vaduz", 5774)], style="markdown"), wanted)
        self.assertEqual(table([{"name": "Vaduz", "people": 5774}], style="markdown"), wanted)

    def test_missing_keys_are_null(self) -> None:
        self.assertEqual(
            table([{"a": 1}, {"b": None}], style="markdown", null="-"),
            picture("| a | b |", "|---|---|", "| 1 | - |", "| - | - |"),
        )

    def test_null_is_no_text(self) -> None:
        rows = [["", None], [None, "北京"], [None, None]]
        self.assertEqual(table(rows, style="psql"), picture("  |      ", "  | 北京 ", "  |      "))
        self.assertEqual(
            table(rows, style="psql", null="無"),
            picture("    | 無   ", " 無 | 北京 ", " 無 | 無   "),
        )
        self.assertEqual(table([[None]], headers=["a"], style="psql"), picture(" a ", "---", "   "))

    def test_headers_replace_names(self) -> None:
        self.assertEqual(
            table([{"a": "x"}], headers=["A"], style="psql"), picture(" A ", "---", " x ")
        )
        self.assertEqual(table([{"a": "x"}], headers=[], style="psql"), " x ")

    def test_short_rows_are_filled(self) -> None:
        self.assertEqual(
            table([["a"], ["b", "c"]], style="ascii", null="?"),
            picture("+---+---+", "| a | ? |", "+---+---+", "| b | c |", "+---+---+"),
        )

    def test_rows_of_iterators(self) -> None:
        rows = ((str(i) for i in range(2)) for _ in range(1))
        self.assertEqual(table(rows, style="psql"), " 0 | 1 ")

    def test_cells_hold_any_text(self) -> None:
        self.assertEqual(
            table([["two\nlines"]], style="ascii"),
            picture("+-------+", "| two   |", "| lines |", "+-------+"),
        )

    def test_nothing(self) -> None:
        self.assertEqual(table([]), "")
        self.assertEqual(table([[], []]), "")
        self.assertEqual(
            table([], headers=["A"]), picture("╭───╮", "│ A │", "╰───╯")
        )

    def test_width(self) -> None:
        rows = [["Name", "Note"], ["Ada", "first program"]]
        self.assertEqual(
            table(rows, style="sharp", width=18),
            picture(
                "┌──────┬─────────┐",
                "│ Name │ Note    │",
                "│ Ada  │ first   │",
                "│      │ program │",
                "└──────┴─────────┘",
            ),
        )
        self.assertEqual(
            table(rows, style="psql", width=16, wrap="truncate"),
            picture(" Name | Note    ", " Ada  | first p "),
        )

    def test_align(self) -> None:
        rows = [["abc", "abc", "abc"], ["a", "b", "c"]]
        wanted = picture(" abc | abc | abc ", "   a | b   |  c  ")
        self.assertEqual(table(rows, style="psql", align=["right", None, "center"]), wanted)
        self.assertEqual(table(rows, style="psql", align={0: "right", 2: "center"}), wanted)
        self.assertEqual(
            table(rows[1:], headers=rows[0], style="psql", align="right").splitlines()[2],
            "   a |   b |   c ",
        )
        named = table([["a", 1]], headers=["abc", "n"], style="psql", align={"abc": "right", "n": "left"})
        self.assertEqual(named, picture(" abc | n ", "-----+---", "   a | 1 "))

    def test_numbers(self) -> None:
        self.assertEqual(table([[True], ["xy"]], style="psql"), picture(" True ", " xy   "))
        self.assertEqual(table([[1], [None], [22]], style="psql"), picture("  1 ", "    ", " 22 "))

    def test_chain(self) -> None:
        base = Table([{"City": "Vaduz", "People": 5774}]).style("psql")
        self.assertEqual(
            str(base.align({"People": "left"}).width(99).wrap("truncate").order("left").null("-")),
            picture(" City  | People ", "-------+--------", " Vaduz | 5774   "),
        )
        self.assertEqual(
            str(base), picture(" City  | People ", "-------+--------", " Vaduz |   5774 ")
        )

    def test_print_table(self) -> None:
        rows = [[i, "北京" * 20] for i in range(2000)]
        out = Blocks()
        print_table(rows, file=out, style="ascii")
        self.assertEqual(out.getvalue(), table(rows, style="ascii") + "\n")
        self.assertGreater(out.writes, 2)

    def test_a_file_that_fails(self) -> None:
        with self.assertRaisesRegex(OSError, "full"):
            print_table([["a"]], file=Full())


class Blocks(io.StringIO):
    writes = 0

    def write(self, text: str) -> int:
        self.writes += 1
        return super().write(text)


class Full(io.StringIO):
    def write(self, text: str) -> int:
        raise OSError("full")


class Errors(unittest.TestCase):
    def test_bad_options_list_the_good_ones(self) -> None:
        cases: List[Tuple[str, Any]] = [
            ("style must be one of ascii, modern", {"style": "fancy"}),
            ("wrap must be one of characters, words, truncate", {"wrap": "no", "width": 4}),
            ("order must be one of each, narrowest", {"order": None}),
            ("align must be one of left, right, center, not 'up'", {"align": "up"}),
            ("align must be one of left", {"align": {0: "up"}}),
            ("align names no column by 7", {"align": {7: "left"}}),
            ("the names are A", {"align": {"B": "left"}, "headers": ["A"]}),
            ("align has 2 values for 1 columns", {"align": ["left", "left"]}),
            ("width must be at least 0 columns, not -5", {"width": -5}),
            ("width must be a whole number", {"width": 4.5}),
            ("width must be a whole number", {"width": True}),
            ("a text must be a str, not 5", {"null": 5}),
            ("lone surrogate", {"null": "\ud800"}),
        ]
        for message, options in cases:
            with self.subTest(options=options), self.assertRaisesRegex(FanlightnardError, message):
                table([["a"]], **options)

    def test_an_error_is_a_value_error(self) -> None:
        self.assertTrue(issubclass(FanlightnardError, ValueError))

    def test_bad_rows(self) -> None:
        cases: List[List[Any]] = [["text"], [5], [{"a": 1}, [2]], [[1], {"a": 1}]]
        for rows in cases:
            with self.subTest(rows=rows), self.assertRaises(FanlightnardError):
                table(rows)

    def test_a_lone_surrogate(self) -> None:
        with self.assertRaisesRegex(FanlightnardError, "lone surrogate"):
            table([["\ud800"]])
        with self.assertRaisesRegex(FanlightnardError, "lone surrogate"):
            fanlightnard.width("\ud800")

    def test_negative_widths(self) -> None:
        with self.assertRaisesRegex(FanlightnardError, "n must be at least 0"):
            fanlightnard.wrap("a", -1)
        with self.assertRaisesRegex(FanlightnardError, "n must be at least 0"):
            fanlightnard.truncate("a", -1)


class Texts(unittest.TestCase):
    def test_width(self) -> None:
        self.assertEqual(fanlightnard.width("北京\nabc"), 4)
        self.assertEqual(fanlightnard.width(""), 0)
        self.assertEqual(fanlightnard.width("👨‍👩‍👧"), 2)

    def test_wrap(self) -> None:
        self.assertEqual(fanlightnard.wrap("one two", 4), "one \ntwo")
        self.assertEqual(fanlightnard.wrap("abcdef", 4, words=False), "abcd\nef")

    def test_truncate(self) -> None:
        self.assertEqual(fanlightnard.truncate("北京x", 3), "北\ufffd")
        self.assertEqual(fanlightnard.truncate("abc", 2**70), "abc")


def load_tests(loader: Any, tests: Any, pattern: Any) -> Any:
    tests.addTests(doctest.DocTestSuite(fanlightnard))
    tests.addTests(doctest.DocTestSuite("fanlightnard._table"))
    return tests


if __name__ == "__main__":
    unittest.main()
