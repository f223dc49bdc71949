"""The bill check (request 2026-09 of document 02) as a host in Python calls it: a day of the real market, the ends of
the types, what is no line or record, and the lines on bills of README.md, run on a bill in a file."""

import ctypes
import os
import tempfile
import unittest
from array import array
from ctypes import c_int32, c_uint8
from decimal import Decimal, Inexact, InvalidOperation
from pathlib import Path

import bill
import guxhamole
from guxhamole import Book, Judgement, Line, Refusal, Settings
from held_bill import recorded
from interval import Interval
from test_bill import BILL, DAY, FIRST, ONE, OVER, SECOND
from test_synthetic import Running


class RealMarket(unittest.TestCase):
    """A day of the real market, 288 intervals of a test load; from its 20th interval or so on a region is capped."""

    def test_day(self):
        settings = Settings(threshold=200_000, cap=9_000, floor=-900)
        book, seed, found = Book.open(settings), 2_026, []
        for number in range(288):
            seed, each = book.synthetic(seed, number, 0)
            found.append(Interval(*each))
        records, schedule, ledger = recorded(settings, *found), [0] * 5_280, Running(settings)
        tables = [ledger.enter(*each, schedule)[1] for each in found]
        second, before = (c_int32 * len(book._ring))(), (bytes(book._book), bytes(book._ring))
        for region in range(5):
            prices = [table[11 * region] for table in tables]
            self.assertGreater(sum(price != each.prices[11 * region] for price, each in zip(prices, found)), 50)
            lines = [Line(number, 7 * number, price, bill.amount(7 * number, price))
                     for number, price in enumerate(prices)]
            self.assertEqual(book.check_bill(records, schedule, region, lines), Judgement(True, None))
            lines[200 + region] = lines[200 + region]._replace(amount=lines[200 + region].amount + 1)
            self.assertEqual(book.check_bill(records, schedule, region, lines), Judgement(False, 200 + region))
            book._bill(second, records, schedule, region, lines[:-1])
            self.assertEqual(list(second), bill.worked(book._book, list(book._ring), found))
        self.assertEqual((bytes(book._book), bytes(book._ring)), before)


class Types(unittest.TestCase):
    def setUp(self):
        self.book = Book.open(ONE)
        self.before = bytes(self.book._book), bytes(self.book._ring)

    def tearDown(self):
        self.assertEqual((bytes(self.book._book), bytes(self.book._ring)), self.before)

    def test_answers(self):
        self.assertEqual(self.book.check_bill(DAY, [0, 0], 0, BILL), Judgement(True, None))
        judgement = self.book.check_bill(DAY, [0, 0], 0, [])
        self.assertEqual((judgement.right, judgement.line), (False, 0))
        self.assertIsInstance(judgement.right, bool)
        with self.assertRaises(Refusal) as caught:
            self.book.check_bill(DAY, [0, 0], 0, [FIRST, OVER])
        self.assertEqual((caught.exception.number, caught.exception.place), (46, 1))
        self.assertEqual(str(caught.exception), f"refused 46 at 1: {guxhamole.MEANINGS[46]}")

    def test_places_of_other_refusals(self):
        """None, but of 15 to 17 and 46."""
        for records, schedule, region in ((DAY, [0], 0), (DAY, [0, 0], 1), (DAY[1:], [0, 0], 0), (DAY * 2, [0, 0], 0)):
            with self.assertRaises(Refusal) as caught:
                self.book.check_bill(records, schedule, region, BILL)
            self.assertIsNone(caught.exception.place)

    def test_lines(self):
        """Any sequence of four numbers each."""
        for lines in (tuple(BILL), [tuple(line) for line in BILL], [list(line) for line in BILL], iter(BILL),
                      [array("q", line) for line in BILL]):
            self.assertEqual(self.book.check_bill(DAY, (0, 0), 0, lines), (True, None))

    def test_records(self):
        for records in (bytearray(DAY), array("B", DAY), memoryview(DAY).cast("I"), (c_uint8 * 64)(*DAY)):
            self.assertEqual(self.book.check_bill(records, [0, 0], 0, BILL), (True, None))
        for records in ("", list(DAY), None, 64):
            self.assertRaises(TypeError, self.book.check_bill, records, [0, 0], 0, BILL)

    def test_numbers_out_of_their_types(self):
        ends = (("number", -1), ("number", 2**32), ("energy", -1), ("energy", 2**32), ("price", 2**31),
                ("price", -2**31 - 1), ("amount", 2**63), ("amount", -2**63 - 1))
        for name, value in ends:
            for place in range(2):
                lines = list(BILL)
                lines[place] = lines[place]._replace(**{name: value})
                self.assertRaises(OverflowError, self.book.check_bill, DAY, [0, 0], 0, lines)
        for schedule, region in (([0, 2**31], 0), ([-2**31 - 1, 0], 0), ([0, 0], -1), ([0, 0], 2**32)):
            self.assertRaises(OverflowError, self.book.check_bill, DAY, schedule, region, BILL)

    def test_ends_of_the_types(self):
        for line in (Line(0, 0, -2**31, -2**63), Line(2**32 - 1, 1_000_000_000, 2**31 - 1, 2**63 - 1)):
            self.assertEqual(self.book.check_bill(DAY, [-2**31, 2**31 - 1], 0, [line, SECOND]), (False, 0))
            self.assertEqual(self.book.check_bill(DAY, [-2**31, 2**31 - 1], 0, [*BILL, line]), (False, 2))

    def test_what_is_no_line(self):
        """A Decimal or a float is no whole number, and never cut to one."""
        wrong_lines = ([FIRST[:3]], [(*FIRST, 0)], [None], [5], ["0333"], 5, None)
        for value in (300.0, Decimal(300), Decimal("300.5"), "300", None):
            wrong_lines += tuple([FIRST._replace(**{name: value})] for name in Line._fields)
        for lines in wrong_lines:
            self.assertRaises(TypeError, self.book.check_bill, DAY, [0, 0], 0, lines)
        for region in (0.0, "0", None):
            self.assertRaises(TypeError, self.book.check_bill, DAY, [0, 0], region, BILL)
        self.assertRaises(TypeError, self.book.check_bill, DAY, [0.0, 0.0], 0, BILL)

    def test_layout(self):
        self.assertEqual(ctypes.sizeof(guxhamole._Billed), 32)
        offsets = [getattr(guxhamole._Billed, name).offset for name in ("number", "place", "right", "line")]
        self.assertEqual(offsets, [0, 8, 16, 24])


class Page(unittest.TestCase):
    """The lines on bills in README.md, run on a bill in a file."""

    def code(self):
        page = Path(__file__).with_name("README.md").read_text(encoding="utf-8").splitlines()
        start = page.index("    import csv")
        end = next(place for place in range(start, len(page)) if page[place] and not page[place].startswith("    "))
        return "\n".join(line[4:] for line in page[start:end])

    def said(self, text, records=DAY):
        """What is printed, and the names that the lines make."""
        printed, here = [], os.getcwd()
        names = {"Line": Line, "book": Book.open(ONE), "records": records, "schedule": [0, 0], "print": printed.append}
        with tempfile.TemporaryDirectory() as folder:
            Path(folder, "bill.csv").write_text("interval,kwh,price,amount\n" + text, encoding="ascii")
            os.chdir(folder)
            try:
                exec(self.code(), names)
            finally:
                os.chdir(here)
        return printed, names

    def test_bills(self):
        first, right = "0,3,1000,3\n", "0,3,1000.00,3.00\n1,1,600.00,0.60\n"
        self.assertEqual(self.said(right)[0], ["the bill is right"])
        self.assertEqual(self.said(right)[1]["lines"], BILL)
        self.assertEqual(self.said(first)[0], ["line 1 is missing"])
        self.assertEqual(self.said(right.replace("0.60", "0.61"))[0], [f"line 1 is wrong: {Line(1, 1, 60_000, 61)}"])
        self.assertEqual(self.said(right + "2,0,0,0\n")[0], [f"line 2 is wrong: {Line(2, 0, 0, 0)}"])

    def test_cents(self):
        cents = self.said("")[1]["cents"]
        exact = {"0": 0, "-5.00": -500, "1e3": 100_000, "0.01": 1, "-0.01": -1, "19.99": 1_999, "1.10": 110,
                 "92233720368547758.07": 2**63 - 1, "-92233720368547758.08": -2**63}
        self.assertEqual({text: cents(text) for text in exact}, exact)
        for text, error in (("0.005", Inexact), ("1.000000000000000000000000000001", Inexact), ("", InvalidOperation),
                            ("1,000.00", InvalidOperation), ("nan", ValueError), ("inf", OverflowError)):
            self.assertRaises(error, cents, text)


if __name__ == "__main__":
    unittest.main()
