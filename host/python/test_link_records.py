"""Records, test loads and bills of books with the additional link (request 2026-10 of document 02): worked cases of
`kit`, as those of test_links.py are."""

import unittest

from linked import changed
from test_links import Worked

# An interval of two regions that are not linked but by the additional link, number 0, prices 100,000 and 90,000.
HEAD = bytes.fromhex("0c000000 1000 00000000 00 02")
FIRST = bytes.fromhex("14000000 1100 00 00 05000000 00000000 a0860100")
SECOND = bytes.fromhex("14000000 1100 01 00 06000000 01000000 905f0100")
LINK = bytes.fromhex("0e000000 1200 ffffffff f82a0000")
WHOLE = HEAD + FIRST + SECOND + LINK
ENTRY = 0, 0, [100_000, 90_000], [0, 0], [5, 6, -1], [0, 1, 11_000]
WITHOUT = 0, 0, [100_000, 90_000], [0, 0], [5, 6], [0, 1]
UNKNOWN = bytes.fromhex("06000000 6300")
# What a reader and a rewriter answer to these bytes where a book has the link, the entry or a refusal.
WITH = (
    ("upward", WHOLE, 0, 0),
    ("what follows is not looked at", WHOLE + b"\xff", 0, 0),
    ("downward", HEAD + SECOND + FIRST + LINK, 45, 0),
    ("none", HEAD + FIRST + SECOND, 40, 40),
    ("none, downward", HEAD + SECOND + FIRST, 45, 40),
    ("cut short", WHOLE[:-1], 40, 40),
    ("five bytes of it", WHOLE[:-9], 40, 40),
    ("shorter", HEAD + FIRST + SECOND + b"\x0d" + LINK[1:], 40, 40),
    ("longer", HEAD + FIRST + SECOND + b"\x0f" + LINK[1:] + b"\0", 40, 40),
    ("a head there", HEAD + FIRST + SECOND + WHOLE, 41, 41),
    ("a region there", HEAD + FIRST + SECOND + SECOND, 41, 41),
    ("a region of another length there", HEAD + FIRST + SECOND + b"\x0e" + SECOND[1:], 40, 40),
    ("an unknown kind there", HEAD + FIRST + SECOND + UNKNOWN + LINK, 41, 41),
    ("a kind is two bytes", changed(WHOLE, 57, 1), 41, 41),
    ("as a head", LINK + WHOLE, 41, 41),
    ("before the regions", HEAD + LINK + FIRST + SECOND, 41, 41),
    ("between the regions", HEAD + FIRST + LINK + SECOND, 41, 41),
    ("between the regions, downward", HEAD + SECOND + LINK + FIRST, 45, 41),
    ("as a region, of another length", HEAD + b"\x14" + LINK[1:] + FIRST + SECOND, 40, 40),
    ("as a head, of another length", b"\x0c" + LINK[1:] + WHOLE, 40, 40),
)
# And where it has none; 18 is a known kind there too.
NONE = (
    ("upward", WHOLE, 0, 0),
    ("nothing behind", HEAD + FIRST + SECOND, 0, 0),
    ("what follows is not looked at", HEAD + FIRST + SECOND + LINK[:3], 0, 0),
    ("as a head", LINK + WHOLE, 41, 41),
    ("as a head, of another length", b"\x0c" + LINK[1:] + WHOLE, 40, 40),
    ("as a region", HEAD + LINK + FIRST + SECOND, 41, 41),
    ("as a region, of a region's length", HEAD + b"\x14" + LINK[1:] + FIRST + SECOND, 40, 40),
    ("as the second region", HEAD + FIRST + LINK + SECOND, 41, 41),
    ("as the second region, cut short", HEAD + FIRST + LINK[:-1], 40, 40),
)


class OfTwo(Worked):
    def book(self, ends):
        """The record of two regions without parents."""
        opening = self.opening(ends, (255, 255))
        return self.kit.record.load(self.kit.image.image_of(self.kit.ledger.Ledger(opening), 2), 2)[0]


class Records(OfTwo):
    """ "In the records they are a kind 18 .. after the last region, read and written exactly when the book has the
    link (a kind 18 met elsewhere is 41)." """

    def on_both(self, book, given, at, entry, size, numbers):
        """Reader and rewriter at a place. What is taken is `size` bytes long and has this entry and form."""
        interval, form = self.kit.interval, (HEAD + FIRST + SECOND + LINK)[:size]
        exact = interval.length(book)
        for number, call, answer in (
            (numbers[0], lambda: interval.read(book, interval.lengths(book), given, at), (entry, at + size)),
            (numbers[1], lambda: interval.rewrite(book, given, at, exact), (form, at + size)),
        ):
            if number:
                self.refused(number, call)
            else:
                self.assertEqual(call(), answer)

    def test_reads(self):
        for ends, cases, entry, size in (((1, 0), WITH, ENTRY, 66), ((0, 1), WITH, ENTRY, 66),
                                         ((255, 255), NONE, WITHOUT, 52)):
            book = self.book(ends)
            for name, records, *numbers in cases:
                with self.subTest(name, ends=ends):
                    self.on_both(book, records, 0, entry, size, numbers)
                    self.on_both(book, WHOLE + records, 66, entry, size, numbers)

    def test_what_is_behind_is_the_next_interval(self):
        """Without the link an interval ends with the last region, and a kind 18 behind it is the next one's head."""
        book = self.book((255, 255))
        self.on_both(book, WHOLE, 52, WITHOUT, 52, (41, 41))
        self.on_both(book, WHOLE[:52] + b"\x0c" + LINK[1:], 52, WITHOUT, 52, (40, 40))

    def test_writes(self):
        interval = self.kit.interval
        for ends, entry, whole in (((0, 1), ENTRY, WHOLE), ((255, 255), WITHOUT, WHOLE[:52])):
            book, given = self.book(ends), interval.Interval(*entry)
            for room in (len(whole), 99):
                self.assertEqual(interval.write(book, given, room), whole)
            self.refused(23, interval.write, book, given, len(whole) - 1)
            self.assertEqual(interval.length(book), len(whole))
            self.refused(23, interval.rewrite, book, b"", 0, len(whole) - 1)

    def test_lengths(self):
        interval, other = self.kit.interval, {(0, 1): WITHOUT, (255, 255): ENTRY}
        for ends, entry in other.items():
            book = self.book(ends)
            self.refused(11, interval.write, book, interval.Interval(*entry), 0)
            lengths = [2, 2, len(entry[4]), len(entry[5])]
            self.refused(11, interval.read, book, lengths, b"", 0)
            self.refused(11, self.kit.synthetic.drawn, book, lengths, 0, 0, 0)
            self.assertNotEqual(interval.lengths(book), lengths)

    def test_ends_of_the_types(self):
        book, interval = self.book((1, 0)), self.kit.interval
        wild = interval.Interval(2**32 - 1, 255, [-2**31, 2**31 - 1], [9, 255], [0, 0, -2**31], [0, 0, 2**32 - 1])
        written = interval.write(book, wild, 66)
        self.assertEqual(written[52:].hex(), "0e0000001200" + "00000080" + "ffffffff")
        self.assertEqual(interval.read(book, [2, 2, 3, 3], written, 0), (wild, 66))


class Loads(OfTwo):
    """ "A test load draws one more pair for it." """

    def test_one_more_pair(self):
        prices, lengths = [13_470, 16_256], {(255, 255): [2, 2, 2, 2], (0, 1): [2, 2, 3, 3], (1, 0): [2, 2, 3, 3]}
        flows, factors = [682, 158, -485], [11_769, 10_750, 11_945]
        for ends, last in (((255, 255), 2_670_642_822), ((0, 1), 2_748_932_008), ((1, 0), 2_748_932_008)):
            places = lengths[ends][3]
            entry = 7, 1, prices, [0, 0], flows[:places], factors[:places]
            self.assertEqual(self.kit.synthetic.drawn(self.book(ends), lengths[ends], 0, 7, 1), (last, entry))

    def test_eight_regions(self):
        row = tuple(range(-1, 7))
        opening = self.opening((7, 0), row, services=10)
        book, _ = self.kit.record.load(self.kit.image.image_of(self.kit.ledger.Ledger(opening), 2), 88)
        last, drawn = self.kit.synthetic.drawn(book, [88, 8, 9, 9], 2_026, 0, 0)
        self.assertEqual((len(drawn.flows), len(drawn.factors), len(drawn.marks)), (9, 9, 8))
        draws = self.kit.synthetic.Draws(2_026)
        every = [draws.draw() for _ in range(88 + 18)]
        self.assertEqual((draws.s, drawn.flows[8], drawn.factors[8]),
                         (last, every[-2] % 2_001 - 1_000, 10_000 + every[-1] % 2_000))


class Bills(Worked):
    """The bill check enters intervals of a book with the link likewise."""

    def day(self, factor):
        """The records of two intervals of case 1: the first at entry 0's prices, the second around the ring."""
        interval = self.kit.interval
        first = interval.Interval(0, 0, [100_000, 0, 0], [0] * 3, [0] * 4, [10_000] * 4)
        given = first, interval.Interval(1, 0, [100_000, 90_000, 85_000], [0] * 3, [1] * 4, [11_000] * 3 + [factor])
        return b"".join(b"".join(interval.records(self.opening((0, 2)), each)) for each in given)

    def check(self, records, region, *prices):
        """The answer's number, place, right and line, and the second ring, on lines with these prices: by a ledger that
        begins with the book's record and ring, and by one that begins with its image."""
        bill, image = self.kit.bill, self.kit.image.image_of(self.kit.ledger.Ledger(self.opening((0, 2))), 2)
        book, ring = self.kit.record.load(image, 3)
        lines = bill.Lines([*range(len(prices))], [1_000] * len(prices), prices, prices)
        answers = [bill.billed(book, ring, [7] * 3, [0] * 6, region, lines,
                               lambda: bill.played(book, ledger, records, [0] * 6))
                   for ledger in (bill.Resumed(book, ring), self.kit.image.begun(image))]
        self.assertEqual(answers[0], answers[1])
        return answers[0]

    def test_prices_round_the_ring(self):
        records = self.day(11_000)
        self.assertEqual(len(records), 2 * (12 + 3 * 20 + 14))
        for region, prices in enumerate(((100_000, 60_000), (0, 54_545), (0, 49_587))):
            self.assertEqual(self.check(records, region, *prices), (0, 0, 1, 0, [100_000, 90_000, 85_000]))
        self.assertEqual(self.check(records, 2, 0, 49_586)[:4], (0, 0, 0, 1))
        self.assertEqual(self.check(records, 0, 100_000, 45_079)[:4], (0, 0, 0, 1))

    def test_refused(self):
        """17 at the link's place; records that end before the link's, or have another there."""
        accepted, records = [100_000, 0, 0], self.day(11_000)
        self.assertEqual(self.check(self.day(9_999), 0), (17, 3, 0, 0, accepted))
        for given, number in ((records[:-14], 40), (records[:-1], 40), (records[:-14] + records[86:], 41)):
            self.assertEqual(self.check(given, 0), (number, 0, 0, 0, accepted))
        self.assertEqual(self.check(records[:72] + records[86:], 0), (41, 0, 0, 0, [0, 0, 0]))


if __name__ == "__main__":
    unittest.main()
