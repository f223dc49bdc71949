"""The bill check (request 2026-09 of document 02): its worked cases on the library and on bill.py, with all that is
lent and what stands around it, and every refusal in its order; test_bill_lines.py has what a host in Python lends."""

import unittest
from ctypes import c_int32
from dataclasses import replace

import bill
import guxhamole
from bill import Lines
from book import LARGEST_SUM
from guxhamole import Book, Line, Settings
from held_bill import FILL, Compared, columns, method_bill, of, recorded, zeros
from interval import Interval
from starts import by_opening
from test_intervals import B2

PRICE = 10_000_000
YES = (0, 0, 1, 0)
ONE = Settings(1, 0, 1, 1, 0, [255] * 8, 90_000, 60_000, -60_000)
CHAIN = Settings(3, 0, 1, 1, 0, [255, 0, 1, *[255] * 5], 90_000, 60_000, -60_000)


def wrong(line):
    return 0, 0, 0, line


def refused(number, place=0):
    return number, place, 0, 0


DAY = recorded(ONE, of(0, 100_000), of(1, 70_000))
BILL = [Line(0, 3, 100_000, 300), Line(1, 1, 60_000, 60)]
FIRST, SECOND = BILL
WHATEVER = Line(4_000_000_000, 0, 0, 0)  # any third line
OVER = Line(9, 2**32 - 1, 60_000, 60)
TWO = (of(0, 1, 1), of(1, 1, 1, marks=[0, 2]))
HALVES = recorded(ONE, of(0, -500), of(1, 500))
MARKED = recorded(ONE, of(0, 5, marks=[1]), of(1, 5, marks=[1], day_kind=1))
RING = replace(CHAIN, from_=0, to=2)
AROUND = [of(number, 100_000, 90_000, 85_000, flows=[number] * 4, factors=[11_000] * 4) for number in range(2)]
GUIDE = [of(number, 100_000, 90_000, 85_000, flows=[0, number, number], factors=[0, 11_000, 10_800])
         for number in range(2)]

# Of the book of one region: name, records, lines, answer, and the second ring after it.
CASES = (
    ("as it is", DAY, BILL, YES, 70_000),
    ("the entry price for the published one", DAY, [FIRST, Line(1, 1, 70_000, 70)], wrong(1), 70_000),
    ("another number", DAY, [FIRST._replace(number=1), SECOND], wrong(0), 70_000),
    ("a cent more", DAY, [FIRST, SECOND._replace(amount=61)], wrong(1), 70_000),
    ("two wrong lines", DAY, [FIRST._replace(amount=301), SECOND._replace(amount=61)], wrong(0), 70_000),
    ("the first line alone", DAY, [FIRST], wrong(1), 70_000),
    ("the second line alone", DAY, [SECOND], wrong(0), 70_000),
    ("no line", DAY, [], wrong(0), 70_000),
    ("a third line", DAY, [*BILL, WHATEVER], wrong(2), 70_000),
    ("the second line twice", DAY, [*BILL, SECOND], wrong(2), 70_000),
    ("exchanged", DAY, [SECOND, FIRST], wrong(0), 70_000),
    ("wrong, and one too many", DAY, [FIRST, SECOND._replace(price=60_001), SECOND], wrong(1), 70_000),
    ("nothing at all", b"", [], YES, 0),
    ("a line of no interval", b"", [FIRST], wrong(0), 0),
    ("no kilowatt-hours", DAY, [Line(0, 0, 100_000, 0), Line(1, 0, 60_000, 0)], YES, 70_000),
    ("none, and another price", DAY, [Line(0, 0, 100_000, 0), Line(1, 0, 70_000, 0)], wrong(1), 70_000),
    ("wrong, then too many", DAY, [FIRST._replace(number=9), SECOND._replace(energy=1_000_000_001)], refused(46, 1),
     70_000),
    ("a surplus line with too many", DAY, [*BILL, OVER], refused(46, 2), 70_000),
    ("too many in a line of no interval", b"", [OVER], refused(46), 0),
    ("too many, twice", DAY, [FIRST, OVER, OVER], refused(46, 1), 70_000),
    ("as many as may be", DAY, [FIRST, Line(1, 1_000_000_000, 60_000, 60_000_000_000)], YES, 70_000),
    ("that but for 32 bits", DAY, [FIRST, Line(1, 1_000_000_000, 60_000, 60_000_000_000 % 2**32)], wrong(1), 70_000),
    ("five bytes more, wrong and too many", DAY + bytes(5), [FIRST._replace(number=9), OVER], refused(40), 70_000),
    ("one byte more", DAY + b"\0", BILL, refused(40), 70_000),
    ("a region's record more", DAY + DAY[12:32], BILL, refused(41), 70_000),
    ("the day twice", DAY * 2, BILL * 2, refused(13), 70_000),
    ("the second interval alone", DAY[32:], [SECOND], refused(13), 0),
    ("day kind 2", DAY[:42] + b"\2" + DAY[43:], BILL, refused(14), 100_000),
    ("a price too high", recorded(ONE, of(0, 5), of(1, PRICE + 1)), [], refused(16), 5),
    ("a wrong entry before a broken record", recorded(ONE, of(0, PRICE + 1), of(1, 1))[:-1], [OVER], refused(16), 0),
    ("half cents", HALVES, [Line(0, 1, -500, -1), Line(1, 3, 500, 2)], YES, 500),
    ("half a cent towards zero", HALVES, [Line(0, 1, -500, 0), Line(1, 3, 500, 2)], wrong(0), 500),
    ("half a cent towards the even", HALVES, [Line(0, 5, -500, -2), Line(1, 3, 500, 2)], wrong(0), 500),
    ("half a cent lost", HALVES, [Line(0, 1, -500, -1), Line(1, 3, 500, 1)], wrong(1), 500),
)


def rounded():
    """The rows of prices that a bill may be about, at whose amounts ways to round differ; and the amounts."""
    for energy, price in ((1, 499), (1, 500), (1, 501), (1, 1_499), (1, 1_500), (1, 2_500), (3, 333), (7, 3_500)):
        for sign in (1, -1):
            yield energy, sign * price, sign * ((energy * price + 500) // 1_000)
    yield 1_000_000_000, PRICE, 10_000_000_000_000
    yield 999_999_999, -PRICE, -9_999_999_990_000
    yield 999_999_999, 9_999_999, 9_999_998_990_000
    yield 123_456_789, 8_765_432, 1_082_152_088_918


class Cases(Compared):
    """The request's sentences, one by one."""

    def test_cases(self):
        for name, records, lines, answer, after in CASES:
            with self.subTest(name):
                book, ledger = by_opening(ONE)
                self.on_all(book, records, [0, 0], 0, lines, answer, [after], ledger)

    def test_marked(self):
        """A marked region is billed by the schedule, held within the limits; its window stays."""
        book, ledger = by_opening(ONE)
        lines = [Line(0, 1_000, 60_000, 60_000), Line(1, 1_000, -60_000, -60_000)]
        self.on_all(book, MARKED, [70_000, -70_000], 0, lines, YES, [0], ledger)
        self.on_all(book, MARKED, [70_000, -59_999], 0, lines, wrong(1), [0], ledger)
        self.on_all(book, MARKED, [-70_000, 70_000], 0, lines, wrong(0), [0], ledger)

    def test_two_regions(self):
        """A place is one within its own entry, whichever interval it is of."""
        book, ledger = by_opening(B2)
        records = recorded(B2, *TWO)
        self.on_all(book, records, [0] * 4, 0, BILL, refused(15, 1), [1, 1], ledger)
        bad = TWO[1]._replace(marks=[0, 0])
        later = ((bad._replace(prices=[1, -PRICE - 1]), refused(16, 1)),
                 (bad._replace(factors=[0, 20_001]), refused(17, 1)),
                 (bad._replace(marks=[1, 0], prices=[2**31 - 1, PRICE + 1]), refused(16, 1)))
        for second, answer in later:
            self.on_all(book, recorded(B2, TWO[0], second), [0] * 4, 1, [], answer, [1, 1], ledger)
        self.on_all(book, recorded(B2, TWO[0]), [0] * 4, 1, [FIRST, OVER], refused(46, 1), [1, 1], ledger)
        factor = recorded(B2, of(0, 1, 1, factors=[0, 9_999]))
        self.on_all(book, factor, [0] * 4, 0, [], refused(17, 1), [0, 0], ledger)
        first = recorded(B2, TWO[0])
        self.on_all(book, first[:12] + first[32:] + first[12:32], [0] * 4, 0, [], refused(45), [0, 0], ledger)

    def test_services(self):
        """The price of market 0 is billed; the place of a service's is region × M + market."""
        settings = Settings(2, 2, 1, 1, 0, [255] * 8, 90_000, 60_000, -60_000)
        book, ledger = by_opening(settings)
        good = Interval(0, 0, [1_000, 2_000, 3_000, 4_000, 5_000, 6_000], [0, 0], [0, 0], [0, 0])
        for region, energy in ((0, 1_000), (1, 4_000)):
            for price in good.prices:
                answer = YES if price == energy else wrong(0)
                self.on_all(book, recorded(settings, good), [0] * 12, region, [Line(0, 1_000, price, price)], answer,
                            good.prices, ledger)
        for place in range(6):
            prices = [1] * 6
            prices[place] = -1 if place % 3 else PRICE + 1
            records = recorded(settings, good, good._replace(number=1, prices=prices))
            self.on_all(book, records, [0] * 12, 1, [], refused(16, place), good.prices, ledger)

    def test_each_region(self):
        """ "the guide's 545.45 and 505.05", each on the bill of its own region. """
        book, ledger = by_opening(CHAIN)
        after = [100_000, 90_000, 85_000]
        published = (100_000, 60_000), (90_000, 54_545), (85_000, 50_505)
        for region, prices in enumerate(published):
            lines = [Line(number, 1_000, price, price) for number, price in enumerate(prices)]
            for billed, others in enumerate(published):
                answer = YES if billed == region else wrong(0)
                self.on_all(book, recorded(CHAIN, *GUIDE), [0] * 6, billed, lines, answer, after, ledger)

    def test_each_region_of_a_ring(self):
        """Of a book with the additional link (request 2026-10): a limit goes once round, on the bill of each region."""
        book, ledger = by_opening(RING)
        after = [100_000, 90_000, 85_000]
        for region, (entered, price) in enumerate(((100_000, 60_000), (90_000, 54_545), (85_000, 49_587))):
            lines = [Line(0, 1_000, entered, entered), Line(1, 1_000, price, price)]
            self.on_all(book, recorded(RING, *AROUND), [0] * 6, region, lines, YES, after, ledger)
            for other in (price + 1, price - 1, 45_079, 49_586):
                changed = [lines[0], Line(1, 1_000, other, other)]
                self.on_all(book, recorded(RING, *AROUND), [0] * 6, region, changed, wrong(1), after, ledger)

    def test_refused_of_a_ring(self):
        """17 at place R; a link's record missing, cut short, of another length, or where another one is due."""
        book, ledger = by_opening(RING)
        first, records = [100_000, 90_000, 85_000], recorded(RING, *AROUND)
        for factors, place in (([0, 11_000, 11_000, 9_999], 3), ([0, 11_000, 20_001, 9_999], 2), ([0] * 4, 1)):
            bad = recorded(RING, AROUND[0], AROUND[1]._replace(factors=factors))
            self.on_all(book, bad, [0] * 6, 0, [], refused(17, place), first, ledger)
        size = len(records) // 2
        for given, number in ((records[:-14], 40), (records[:-1], 40), (records[:-14] + b"\x0f" + records[-13:], 40),
                              (records[:-14] + records[-34:-14], 41), (records + records[-14:], 41)):
            self.on_all(book, given, [0] * 6, 0, [], refused(number), first, ledger)
        without = records[:size - 14] + records[size:]
        self.on_all(book, without, [0] * 6, 0, [], refused(41), [0] * 3, ledger)
        self.on_all(book, recorded(CHAIN, *GUIDE), [0] * 6, 0, [], refused(41), [0] * 3, ledger)
        chain, ledger = by_opening(CHAIN)
        self.on_all(chain, records, [0] * 6, 0, [], refused(41), first, ledger)

    def test_amounts(self):
        """One interval at each price, and beside the amount a cent more and less."""
        for energy, price, amount in rounded():
            for off in (0, 1, -1):
                with self.subTest(energy=energy, price=price, off=off):
                    book, ledger = by_opening(ONE)
                    lines = [Line(0, energy, price, amount + off)]
                    answer = YES if off == 0 else wrong(0)
                    self.on_all(book, recorded(ONE, of(0, price)), [0, 0], 0, lines, answer, [price], ledger)

    def test_every_field(self):
        """Of every line of a longer bill, each field off by one, at its ends, or by what a narrower type would lose."""
        prices = [100_000, 70_000, -70_000, 5, -5, 90_000, 1_500]
        records = recorded(ONE, *(of(number, price) for number, price in enumerate(prices)))
        book, ledger = by_opening(ONE)
        day = bill.played(book._book, ledger.history(), records, [0, 0])
        right = [Line(number, 300 + number, table[0], bill.amount(300 + number, table[0]))
                 for number, table in enumerate(day.tables)]
        self.on_all(book, records, [0, 0], 0, right, YES, [1_500], ledger)
        for place, line in enumerate(right):
            changed = [line._replace(number=value) for value in (line.number + 1, line.number ^ 2**31)]
            changed += [line._replace(price=line.price + off) for off in (1, -1, 2**30, -2 * line.price)]
            changed += [line._replace(amount=line.amount + off) for off in (1, -1, 2**32, -2**32, 10)]
            changed += [line._replace(amount=value) for value in (-2**63, 2**63 - 1)]
            changed += [line._replace(energy=line.energy + 1_000), line._replace(energy=line.energy - 200)]
            for other in changed:
                lines = right[:place] + [other] + right[place + 1:]
                answer = YES if (line.price, line.amount) == (0, other.amount) else wrong(place)
                self.on_all(book, records, [0, 0], 0, lines, answer, [1_500])

    def test_every_length_of_a_bill(self):
        """From no line to one too many."""
        prices = [100_000, 70_000, -70_000, 5]
        records = recorded(ONE, *(of(number, price) for number, price in enumerate(prices)))
        lines = [Line(0, 10, 100_000, 1_000), Line(1, 10, 60_000, 600), Line(2, 10, -60_000, -600), Line(3, 10, 5, 0),
                 Line(4, 10, 5, 0), Line(5, 10, 5, 0)]
        book, ledger = by_opening(ONE)
        for count in range(7):
            answer = YES if count == 4 else wrong(min(count, 4))
            self.on_all(book, records, [0, 0], 0, lines[:count], answer, [5], ledger)
            self.on_all(book, records[:32 * count], [0, 0], 0, lines[:4], YES if count >= 4 else wrong(count),
                        [[0, *prices][min(count, 4)]], ledger)

    def test_goes_on(self):
        """A bill, however often, is no entry: the day is entered after it, and then the next one is checked."""
        book, ledger = by_opening(ONE)
        for day in range(3):
            found = [of(2 * day, 100_000), of(2 * day + 1, 70_000)]
            records = recorded(ONE, *found)
            history = ledger.history()
            prices = [history.enter(*each, [0, 0])[1][0] for each in found]
            lines = [Line(each.number, 1_000, price, price) for each, price in zip(found, prices)]
            for _ in range(2):
                self.on_all(book, records, [0, 0], 0, lines, YES, [70_000], ledger)
                self.assertEqual(book.check_bill(records, [0, 0], 0, lines[:1]), (False, 1))
            for each in book.intervals(records):
                self.assertEqual(book.enter(*each, [0, 0]), ledger.enter(*each, [0, 0]))
            self.on_all(book, records, [0, 0], 0, lines, refused(13), [70_000], ledger)
        self.assertEqual(prices, [60_000, 60_000])


class Refusals(Compared):
    def forged(self):
        """A book whose sum is at its bound, and in whose ring stands the least number."""
        book = Book.open(ONE)
        book.enter(*of(0, 5), [0, 0])
        book._book.sums[0], book._ring[0] = LARGEST_SUM, -2**31
        return book

    def test_midway(self):
        """10 where an accepted entry handed back a sum beyond its bound and more follows, whatever it is; else none."""
        high, low = recorded(ONE, of(1, PRICE)), recorded(ONE, of(1, -PRICE))
        line = Line(1, 0, PRICE, 0)
        for behind in (recorded(ONE, of(2, 0)), b"\0", recorded(ONE, of(9, 0, marks=[9]))):
            self.on_all(self.forged(), high + behind, [0, 0], 0, [line, OVER], refused(10), [PRICE])
        self.on_all(self.forged(), high, [0, 0], 0, [line], YES, [PRICE])
        self.on_all(self.forged(), high, [0, 0], 0, [], wrong(0), [PRICE])
        self.on_all(self.forged(), high, [0, 0], 0, [line, OVER], refused(46, 1), [PRICE])
        book = self.forged()
        book._book.sums[0], book._ring[0] = -LARGEST_SUM, 2**31 - 1
        self.on_all(book, low + b"\0", [0, 0], 0, [], refused(10), [-PRICE])
        self.on_all(book, low, [0, 0], 0, [Line(1, 0, -PRICE, 0)], YES, [-PRICE])

    def test_changed_rings(self):
        """A ring that others changed is copied as it is, and sums move by what is read there; a marked one stays."""
        book = self.forged()
        book._book.sums[0] = -2**31
        self.on_all(book, recorded(ONE, of(1, 90_000), of(2, 90_000)), [0, 0], 0,
                    [Line(1, 1_000, 90_000, 90_000), Line(2, 1_000, 90_000, 90_000)], YES, [90_000])
        book._book.sums[0] = -2**31 + 1
        self.on_all(book, recorded(ONE, of(1, 90_000), of(2, 90_000)), [0, 0], 0,
                    [Line(1, 1_000, 90_000, 90_000), Line(2, 1_000, 60_000, 60_000)], YES, [90_000])
        self.on_all(book, recorded(ONE, of(1, 5, marks=[1])), [0, 0], 0, [Line(1, 9, 0, 0)], YES, [-2**31])

    def test_periods_and_positions(self):
        """The record's period mark and position are the day's first; the period ends with the day."""
        book, ledger = by_opening(ONE)
        for number in range(4):
            for machine in (book, ledger):
                machine.enter(*of(number, 100_000 if number == 0 else 70_000), [0, 0])
        records = recorded(ONE, *(of(number, 70_000) for number in range(4, 7)))
        lines = [Line(4, 1, 60_000, 60), Line(5, 1, 60_000, 60), Line(6, 1, 70_000, 70)]
        self.on_all(book, records, [0, 0], 0, lines, YES, [70_000], ledger)
        self.on_all(Book.load(book.store()), records, [0, 0], 0, lines, YES, [70_000], ledger)
        book._book.marks[0] = 0
        self.on_all(book, records, [0, 0], 0, lines, wrong(0), [70_000])

    def test_before_the_day(self):
        """10, 11 and 21 on the book of one region; the second ring, whatever its length, stays."""
        raw, closed, lines = Book.open(ONE)._book, guxhamole._Book(), columns(BILL)
        unequal = lines._replace(amounts=lines.amounts[:1])
        steps = ((raw, [FILL], [0, 0], 1, DAY, lines, 21), (raw, [FILL], [0, 0], 1, DAY, unequal, 11),
                 (raw, [FILL] * 2, [0, 0], 0, DAY, lines, 11), (raw, [FILL], [0], 0, b"", columns([]), 11),
                 (closed, [FILL], [0, 0], 0, DAY, lines, 10))
        for book, work, schedule, region, records, four, number in steps:
            self.on_raw(book, [0], work, records, schedule, region, four, refused(number), work)

    def test_lengths(self):
        """11 of each slice that has a length, before 21, and before any record; and nothing is written."""
        raw = Book.open(B2)._book
        right = [[0, 0], [FILL] * 2, [0] * 4, *columns(BILL)]
        for place, numbers in enumerate(right):
            for other in ([], numbers[1:], numbers + [0], numbers * 2):
                ring, work, schedule, *lines = right[:place] + [other] + right[place + 1:]
                for region, records in ((0, DAY), (9, b""), (0, b"")):
                    self.on_raw(raw, ring, work, records, schedule, region, Lines(*lines), refused(11), work)

    def test_regions(self):
        for settings, beyond in ((ONE, 1), (B2, 2), (CHAIN, 3)):
            book, _ = by_opening(settings)
            for region in (beyond, beyond + 1, 255, 256, 2**16, 2**32 - 1):
                stays = [FILL] * len(book._ring)
                self.on_all(book, DAY, zeros(settings), region, [OVER], refused(21), stays)

    def test_closed_book(self):
        """10 before every length and region."""
        closed = guxhamole._Book()
        for ring, schedule, region in (([], [], 0), ([0], [0, 0], 0), ([0], [0, 0], 9)):
            for lines in (columns(BILL), columns([]), Lines([0], [], [], [])):
                self.on_raw(closed, ring, [FILL] * 3, DAY, schedule, region, lines, refused(10), [FILL] * 3)
        book = Book(closed, (c_int32 * 1)())
        self.assertEqual(method_bill(book, DAY, [0, 0], 0, BILL), refused(10))

    def test_full_book(self):
        """12, with one entry left and with none; it comes before the number."""
        for left, after, answer in ((1, 100_000, refused(12)), (0, 0, refused(12)), (2, 70_000, YES)):
            image = bytearray(Book.open(ONE).store())
            image[20:24] = (PRICE - left).to_bytes(4, "little")
            book = Book.load(bytes(image))
            records = recorded(ONE, of(PRICE - left, 100_000), of(PRICE - left + 1 + left % 2, 70_000))
            lines = [FIRST._replace(number=PRICE - left), SECOND._replace(number=PRICE - left + 1)]
            self.on_all(book, records, [0, 0], 0, lines, answer, [after])

    def test_order(self):
        """A bill with everything wrong, mended one thing after the other; until 21 nothing is written."""
        lent = {"work": [FILL], "schedule": [0] * 3, "region": 2, "lines": columns([*BILL, OVER])}
        lent["intervals"] = [of(7, PRICE + 1, 0, marks=[0, 2], factors=[0, 0], day_kind=2), of(1, 70_000, 0)]
        lent["records"] = lambda records: records[:12] + records[32:52] + records[12:-1]
        later = lent["intervals"][1]
        steps = (
            (11, 0, {"work": [FILL] * 2}), (11, 0, {"schedule": [0] * 4}), (21, 0, {"region": 0}),
            (45, 0, {"records": lambda records: records[:-1]}), (13, 0, {"intervals": {"number": 0}}),
            (14, 0, {"intervals": {"day_kind": 0}}), (15, 1, {"intervals": {"marks": [0, 0]}}),
            (16, 0, {"intervals": {"prices": [100_000, 0]}}), (17, 1, {"intervals": {"factors": [0, 10_000]}}),
            (40, 0, {"records": bytes}), (46, 2, {"lines": columns([*BILL, SECOND])}),
        )
        for number, place, mended in steps:
            self.wrongly(lent, refused(number, place), [0, 0] if number < 40 or number == 45 else None)
            change = mended.get("intervals")
            lent.update({"intervals": [lent["intervals"][0]._replace(**change), later]} if change else mended)
        self.wrongly(lent, wrong(2), [70_000, 0])
        self.wrongly({**lent, "lines": columns(BILL)}, YES, [70_000, 0])

    def wrongly(self, lent, answer, after):
        """The bill on B2; the second ring stays on 11 and 21, and from the second interval on holds the first's prices,
        if not both."""
        records = lent["records"](recorded(B2, *lent["intervals"]))
        if answer[0] in (11, 21):
            after = lent["work"]
        elif after is None:
            after = [100_000, 0] if answer[0] == 40 else [70_000, 0]
        self.on_raw(Book.open(B2)._book, [0, 0], lent["work"], records, lent["schedule"], lent["region"], lent["lines"],
                    answer, after)

    def test_every_cut(self):
        """A day cut anywhere is 40, but where an interval ends; what was accepted before stays in the second ring."""
        book = Book.open(ONE)
        for cut in range(len(DAY)):
            answer = {0: wrong(0), 32: wrong(1)}.get(cut, refused(40))
            self.on_all(book, DAY[:cut], [0, 0], 0, BILL, answer, [0 if cut < 32 else 100_000])

    def test_second_ring(self):
        """It is made a copy of the book's, free places too, whatever stood in it."""
        book, ledger = by_opening(Settings(2, 1, 3, 1, 0, [255] * 8, 90_000, 60_000, -60_000))
        for number in range(4):
            for machine in (book, ledger):
                machine.enter(*of(number, *range(10 * number, 10 * number + 4), marks=[0, int(number < 3)],
                                  flows=[0, 0], factors=[0, 0]), [0] * 8)
        ring = list(book._ring)
        self.assertEqual(ring, [30, 10, 20, 31, 11, 21, 32, 0, 0, 33, 0, 0])
        self.assertEqual((book._book.nexts[:2], book._book.counts[:2]), ([1, 1], [3, 1]))
        book._ring[8] = ring[8] = -9  # a place that holds no counted price
        records = recorded(book, of(4, 1, 2, 3, 4, marks=[0, 0], flows=[0, 0], factors=[0, 0]))
        after = [30, 1, 20, 31, 2, 21, 32, 3, -9, 33, 4, 0]
        for region, price in ((0, 1), (1, 3)):
            self.on_all(book, records, [0] * 8, region, [Line(4, 500, price, (price + 1) // 2)], YES, after)
        self.on_all(book, b"", [0] * 8, 1, [], YES, ring)
        self.on_all(book, b"\0", [0] * 8, 1, [], refused(40), ring)


if __name__ == "__main__":
    unittest.main()
