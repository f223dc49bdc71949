"""What holds of reader and rewriter together (request 2026-08 of document 02), each answer held to interval.py's: all
orders of an interval, every cut and every byte changed of both orders, and that one entry has one form."""

import random
import unittest
from itertools import permutations, product

import interval
from guxhamole import Book
from held import Held, any_interval, shaped
from link import NO_LINK, link_of
from test_intervals import B2, FIRST, HEAD, LINK, SECOND, I, U, of_region


class Orders(unittest.TestCase):
    """Every order of an interval's region records is rewritten to the bytes that the writer makes of its entry."""

    def setUp(self):
        self.dice = random.Random(8)
        self.held = Held(self)

    def given(self, regions, services, ends=NO_LINK):
        """A book, the records of an interval of any numbers, and what the writer makes of it."""
        book = shaped(regions, services, ends)
        entry = any_interval(self.dice, regions, services, link_of(book))
        form = book.write_interval(*entry)
        self.assertEqual(form, b"".join(interval.records(book._book, entry)))
        return book, list(interval.records(book._book, entry)), form

    def ordered(self, book, head, rows, form, more, behind=b""):
        """Rows in some order: the one form, which alone is read as it stands. Behind them is the link's record."""
        records = head + b"".join(rows) + behind
        numbers = self.held.both(book._book, records, more=more)
        self.assertEqual(numbers, (0 if records == form else 45, 0))
        self.assertEqual(book.rewrite_interval(records), (form, len(form)))
        self.held.met["orders"] += 1

    def test_all_orders(self):
        for regions, services in [*product(range(1, 6), (0, 1, 10)), (6, 0), (6, 2)]:
            book, (head, *rows), form = self.given(regions, services)
            for order in permutations(rows):
                self.ordered(book, head, order, form, self.dice.choice((0, 0, 7)))
        self.held.show("all orders", {"orders": 1_899, "read 0": 17, "read 45": 1_882})

    def test_all_orders_with_the_link(self):
        """The link's record stays behind the last region; anywhere before, it is 41 where a region is due."""
        for regions, services, ends in [*product((2, 3, 4), (0, 1, 10), ((0, 1), (1, 0))), (5, 1, (4, 0))]:
            book, (head, *rows, behind), form = self.given(regions, services, ends)
            for order in permutations(rows):
                self.ordered(book, head, order, form, self.dice.choice((0, 0, 7)), behind)
                for place in range(regions):
                    records = head + b"".join((*order[:place], behind, *order[place:]))
                    _, rewritten = self.held.both(book._book, records)
                    self.assertEqual(rewritten, 41)
        self.held.show("all orders with the link", {"orders": 312, "read 0": 19, "read 41": 60, "45, rewritten 0": 293,
                                                    "45, rewritten 41": 800})

    def test_random_orders(self):
        for regions, services in product((6, 7, 8), range(11)):
            book, (head, *rows), form = self.given(regions, services)
            for _ in range(12):
                self.ordered(book, head, self.dice.sample(rows, regions), form, self.dice.choice((0, 0, 7)))
            self.ordered(book, head, rows, form, 0)
            self.ordered(book, head, rows[::-1], form, 0)
            for place in range(regions - 1):  # two neighbours exchanged, and one that comes first or last
                self.ordered(book, head, [*rows[:place], rows[place + 1], rows[place], *rows[place + 2:]], form, 0)
                self.ordered(book, head, [*rows[place + 1:], *rows[:place + 1]], form, 0)
        self.held.show("random orders", {"orders": 800, "read 45": 750})

    def test_regions_that_are_not_the_next(self):
        """Any region at any place, the others as they have to be: from R up, given before, out of turn."""
        for regions in range(1, 9):
            book, (head, *rows), _ = self.given(regions, regions % 3)
            for place, region in product(range(regions), (*range(regions + 2), 127, 128, 255)):
                for behind in (rows[place + 1:], []):
                    records = head + b"".join((*rows[:place], of_region(region, rows[place]), *behind))
                    read, rewritten = self.held.both(book._book, records)
                    if region != place:
                        later = region in range(place + 1, regions)  # then 42, or what is missing, is told there
                        self.assertEqual((read, rewritten), (45, (42 if behind else 40) if later else 42))
                    else:
                        self.assertEqual(read, 0 if len(behind) == regions - place - 1 else 40)
        self.held.show("any region", {"45, rewritten 42": 500, "45, rewritten 40": 50, "read 40": 20})


class Damaged(unittest.TestCase):
    """Both orders of a small interval, cut and changed everywhere, with whole intervals behind and before; and the same
    of a book with the additional link, whose record is behind."""

    def setUp(self):
        self.raw = Book.open(B2)._book
        self.linked = shaped(2, 0, (1, 0))._book
        self.held = Held(self)

    def test_every_cut(self):
        for records in (I, U, I + U, U + I, HEAD + FIRST + FIRST, HEAD + SECOND + SECOND):
            for end in range(len(records) + 1):
                for at in (0, 52):
                    self.held.both(self.raw, records[:end], at)
        for records in (I + LINK, U + LINK, I + LINK + U + LINK, I + LINK + LINK):
            for end in range(len(records) + 1):
                for at in (0, 66):
                    self.held.both(self.linked, records[:end], at)
        self.held.show("every cut", {"read 40": 700, "rewrite 0": 180})

    def test_every_byte(self):
        """To every value where it tells the record, and to many where it tells the entry alone."""
        telling = {*range(6), 11, *range(12, 19), *range(32, 39)}
        for records, place in product((I, U), range(52)):
            for value in range(256) if place in telling else {0, 255, *range(place % 5, 256, 5)}:
                changed = records[:place] + bytes([value]) + records[place + 1:]
                numbers = self.held.both(self.raw, changed)
                if place not in telling:
                    self.assertEqual(numbers, (0 if records == I else 45, 0))
        self.held.show("every byte", {"read 0": 1_600, "read 40": 5_000, "read 41": 3_000, "45, rewritten 0": 1_600,
                                      "45, rewritten 40": 1_000, "45, rewritten 41": 500, "45, rewritten 42": 1_000})

    def test_every_byte_of_the_link(self):
        """Likewise of the link's record, in both orders of the regions before it."""
        for before, place in product((I, U), range(14)):
            for value in range(256) if place < 6 else {0, 255, *range(place % 5, 256, 5)}:
                numbers = self.held.both(self.linked, before + LINK[:place] + bytes([value]) + LINK[place + 1:])
                if place >= 6:
                    self.assertEqual(numbers, (0 if before == I else 45, 0))
        self.held.show("every byte of the link", {"read 0": 400, "read 40": 1_000, "read 41": 500,
                                                  "45, rewritten 0": 400, "45, rewritten 40": 1_000,
                                                  "45, rewritten 41": 500})

    def test_every_front(self):
        """Lengths and kinds at each record of both orders, with enough behind."""
        lengths = (0, 5, 6, 11, 12, 13, 19, 20, 21, 24, 40, 52, 255, 256 + 12, 2**16 + 20, 2**24 + 12, 2**31, 2**32 - 1)
        for records, place, size, kind in product((I, U), (0, 12, 32), lengths, (0, 1, 15, 16, 17, 18, 99, 4096, 273)):
            changed = records[:place] + interval.FRONT.pack(size, kind) + records[place + 6:] + bytes(300)
            self.held.both(self.raw, changed)
            self.held.both(self.raw, I + changed, 52)
        for records, place, size, kind in product((I + LINK, U + LINK), (0, 12, 32, 52), (*lengths, 14, 15),
                                                  (0, 16, 17, 18, 19, 274)):
            changed = records[:place] + interval.FRONT.pack(size, kind) + records[place + 6:] + bytes(300)
            self.held.both(self.linked, changed)
        self.held.show("every front", {"read 40": 1_000, "read 41": 800, "45, rewritten 41": 150,
                                       "45, rewritten 40": 200})


class OneForm(unittest.TestCase):
    """ "From then on one entry has one form" """

    def test_small_records(self):
        """All that few heads and few rows, of regions 0 to 2, can be made of: what is read to one entry is one string
        of bytes, and what the earlier form read to it is rewritten to that string."""
        book, held, forms = Book.open(B2), Held(self), {}
        heads = [interval.record(1, 16, number, kind, 2) for number in (0, 256) for kind in (0, 1)]
        rows = [interval.record(1, 17, region, mark, flow, 10_000, price)
                for region in range(3) for mark in (0, 1) for flow in (-1, 1) for price in (0, 1)]
        for parts in product(heads, rows, rows):
            records = b"".join(parts)
            numbers = held.both(book._book, records)
            self.assertEqual(held.both(book._book, U + records, 52), numbers)
            if numbers[1] == 0:
                entry, _ = interval.read_earlier(book._book, records, 0)
                form = book.rewrite_interval(records).records
                self.assertEqual(forms.setdefault(str(entry), form), form)
        self.assertEqual((len(forms), len(set(forms.values()))), (256, 256))
        held.show("small records", {"read 0": 512, "45, rewritten 0": 512, "45, rewritten 42": 3_500,
                                    "two of one entry": 256})


if __name__ == "__main__":
    unittest.main()
