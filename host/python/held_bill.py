"""The library's bill check (request 2026-09 of document 02) with all that is lent to it, held to bill.py's; and the
intervals, records and lines of a bill. For tests."""

import ctypes
import unittest
from ctypes import c_int32, c_int64, c_uint8, c_uint32

import bill
import guxhamole
import interval
from bill import Lines, Resumed
from guxhamole import Refusal
from interval import Interval

FILL = 7  # what stands in the second ring and around it
MARGIN = 3  # places before and behind the second ring that are not lent
KINDS = (c_uint32, c_uint32, c_int32, c_int64)


def of(number, *prices, **other):
    """An interval with nothing marked and nothing flowing, but for what is given."""
    regions = len(prices)
    rest = {"marks": [0] * regions, "flows": [0] * regions, "factors": [10_000] * regions, **other}
    return Interval(number, rest.pop("day_kind", 0), list(prices), **rest)


def recorded(settings, *intervals):
    """Their records, end to end."""
    return b"".join(b"".join(interval.records(settings, each)) for each in intervals)


def columns(lines):
    """The four slices of a bill's lines."""
    return Lines(*([line[field] for line in lines] for field in range(4)))


def zeros(settings):
    """A schedule of which nothing is looked at but its length."""
    return [0] * (settings.regions * (settings.services + 1) * 2 * settings.halves)


def library_bill(book, ring, work, records, schedule, region, lines):
    """The raw function's four numbers, all around the second ring, and whether everything else stays. What is read only
    stands there three times, so that a call that strays finds some."""
    record, second = bytes(book), (c_int32 * (len(work) + 2 * MARGIN))(*[FILL] * MARGIN, *work, *[FILL] * MARGIN)
    given = [(c_int32, ring), (c_uint8, records), (c_int32, schedule), *zip(KINDS, lines)]
    threes = [guxhamole._numbers([*numbers] * 3, kind) for kind, numbers in given]
    parts = [(kind * len(numbers)).from_buffer(three, len(numbers) * ctypes.sizeof(kind))
             for (kind, numbers), three in zip(given, threes)]
    before, lent = [bytes(three) for three in threes], guxhamole._lent
    rings = lent(parts[0], (c_int32 * len(work)).from_buffer(second, MARGIN * 4))
    answer = guxhamole._face().guxhamole_bill(book, *rings, *lent(*parts[1:3]), region, *lent(*parts[3:]))
    stays = bytes(book) == record and [bytes(three) for three in threes] == before
    return [answer.number, answer.place, answer.right, answer.line, list(second), stays]


def due_bill(book, ring, work, records, schedule, region, lines, ledger=None):
    """The same by bill.py: the ledger of the calls before, or one that begins with the record and ring."""
    def play():
        return bill.played(book, ledger.history() if ledger else Resumed(book, ring), records, schedule)

    answer = bill.billed(book, ring, work, schedule, region, lines, play)
    return [*answer[:4], [FILL] * MARGIN + answer.work + [FILL] * MARGIN, True]


def method_bill(book, *lent):
    """What `check_bill` says, as the raw function's four numbers; a place that is None is 0 there."""
    try:
        right, line = book.check_bill(*lent)
    except Refusal as refusal:
        return refusal.number, refusal.place or 0, 0, 0
    return 0, 0, int(right), line or 0


class Compared(unittest.TestCase):
    def on_raw(self, book, ring, work, records, schedule, region, lines, answer, after, ledger=None):
        """The raw function and bill.py on four slices, whatever their lengths are."""
        lent = book, list(ring), work, records, schedule, region, lines
        due = [*answer, [FILL] * MARGIN + after + [FILL] * MARGIN, True]
        self.assertEqual(library_bill(*lent), due)
        self.assertEqual(due_bill(*lent), due)
        if ledger is not None:
            self.assertEqual(due_bill(*lent, ledger), due)

    def on_all(self, book, records, schedule, region, lines, answer, after, ledger=None):
        """The method too; the book and its ring stay, and the second ring is as it should be."""
        before = bytes(book._book), bytes(book._ring)
        lent, second = (records, schedule, region, lines), (c_int32 * len(book._ring))(*[FILL] * len(book._ring))
        self.assertEqual(method_bill(book, *lent), answer)
        try:
            book._bill(second, *lent)
        except Refusal as refusal:
            self.assertEqual(refusal.number, answer[0])
        self.assertEqual(list(second), after)
        self.assertEqual((bytes(book._book), bytes(book._ring)), before)
        self.on_raw(book._book, book._ring, [FILL] * len(second), records, schedule, region, columns(lines), answer,
                    after, ledger)
