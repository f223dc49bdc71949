"""The question of intervals left (request 2026-02 of document 02): its worked cases on the library, on the ledger and
by entries that are made, every refusal in its order, and the ends of the types."""

import copy
import ctypes
import unittest
from ctypes import c_int32
from itertools import product

import guxhamole
from arithmetic import Refused
from book import counted, refuse_book, refuse_length, refuse_prices
from guxhamole import Book, Refusal, Settings
from ledger import Entry, Ledger, Opening
from link import ends_of, places_of
from starts import by_image, by_opening

FILL = 9_000_000  # a price that would be seen in any sum
MARGIN = 3  # places before and behind the ring that are not lent
PRICE = 10_000_000

# Window, the entries' prices (None: marked, with a price of 9,999), the price asked about, threshold, answer, and the
# sums after 1, 2, .. further intervals.
CASES = {
    "A, the first price leaves": (3, (-10_000, 5_000, 30_000), 0, 30_000, 1, (35_000, 30_000, 0)),
    "B, above now is no answer": (3, (20_000, 0, 0), 1_000, 10_000, 0, (1_000, 2_000, 3_000)),
    "C, a price below 0": (3, (-50_000, 10_000, 10_000), -100, 10_000, 1, (19_900, 9_800, -300)),
    "D, above in between": (5, (4_000,), 2_000, 10_000, 4, (6_000, 8_000, 10_000, 12_000, 10_000)),
    "E, turned round": (4, (1, 2, 10_000, 20_000, 30_000, 40_000), 35_000, 130_000, 2,
                        (125_000, 140_000, 145_000, 140_000)),
    "F, above at first alone": (3, (19_000, 500), 1_000, 20_000, 1, (20_500, 2_500, 3_000)),
    "G, with the last": (3, (10_000, 0, 0), 6_667, 20_000, 3, (6_667, 13_334, 20_001)),
    "H, a cent less": (3, (10_000, 0, 0), 6_666, 20_000, 0, (6_666, 13_332, 19_998)),
    "I, none counted": (2, (), 10_001, 10_000, 1, (10_001, 20_002)),
    "J, exceed, not reach": (1, (50_000,), 10_000, 10_000, 0, (10_000,)),
    "K, up and down": (4, (9_000, -9_000, 9_000, -9_000), 4_000, 10_000, 4, (-5_000, 8_000, 3_000, 16_000)),
    "L, a service's": (3, (4_000, 4_000), 4_000, 10_000, 1, (12_000, 12_000, 12_000)),
    "M, marked is not counted": (3, (4_000, None, 4_000), 1_500, 10_000, 0, (9_500, 7_000, 4_500)),
    "above now and on": (3, (20_000, 0, 5_000), 15_000, 10_000, 1, (20_000, 35_000, 45_000)),
    "above now, and later again": (3, (20_000, 0, 0), 4_000, 10_000, 3, (4_000, 8_000, 12_000)),
    "another next place than other regions": (3, (None, 7, 10_000, 20_000, 30_000), 1_000, 45_000, 1,
                                              (51_000, 32_000, 3_000)),
}
# Regions, services, and the market that is asked about.
SHAPES = ((1, 0, 0, 0), (1, 1, 0, 1), (3, 2, 1, 0), (3, 2, 1, 2), (3, 2, 2, 2), (8, 10, 7, 10))


def number_of(call, *arguments):
    """The refusal's number, or the answer beside a 0."""
    try:
        return 0, call(*arguments)
    except (Refusal, Refused) as refused:
        return refused.number, 0


def library_left(book, ring, *question):
    """The raw function's number and intervals, and then the record and all around the ring as they stand."""
    record, around = bytes(book), (c_int32 * (len(ring) + 2 * MARGIN))(*[FILL] * MARGIN, *ring, *[FILL] * MARGIN)
    lent = (c_int32 * len(ring)).from_buffer(around, 4 * MARGIN)
    answer = guxhamole._face().guxhamole_intervals_left(book, *guxhamole._lent(lent), *question)
    return [answer.number, answer.intervals, bytes(book) == record, list(around)]


def due_left(book, ring, *question):
    """The same from the papers' words, of any record and ring: "tested after 10, 11, 21 and store's 22", and "The book
    and ring stay". """
    return [*number_of(asked, book, list(ring), *question), True, [FILL] * MARGIN + list(ring) + [FILL] * MARGIN]


def asked(book, ring, region, market, price):
    refuse_book(book)
    refuse_length(book, ring)
    if region >= book.regions or market > book.services:
        raise Refused(21)
    refuse_prices(book, ring)
    return ledger_of(book, ring).intervals_left(region, market, price)


def ledger_of(book, ring):
    """A ledger with the record's settings, in whose history the ring's counted prices stand and no others: before its
    own first price a region is marked."""
    regions, markets, length = range(book.regions), range(book.services + 1), max(book.counts)
    shape = (book.regions, book.services, book.window, book.halves)
    ledger = Ledger(Opening(*shape, 0, list(book.parents), book.threshold, book.cap, book.floor, *ends_of(book)))
    rows = [[None] * (length - book.counts[region]) + counted(book, ring, region, market)
            for region in regions for market in markets]
    for number in range(length):
        prices = [row[number] for row in rows]
        marks = [int(prices[region * len(markets)] is None) for region in regions]
        ledger.entries.append(Entry(number, 0, prices, marks, [], [], []))
    return ledger


def enter(book, ledger, prices, marks):
    """An entry of both; the ledger does not work out what it publishes, which is not asked for here."""
    zeros = [0] * book.regions
    lent = (book.entries, 0, prices, marks, zeros, [10_000] * book.regions, [0] * (len(prices) * 2 * book.halves))
    book.enter(*lent)
    ledger.entries.append(Entry(*lent))


def played(shape, window, prices, threshold, start=by_image):
    """Book and ledger after these prices of a market; others have prices of their own. An image brings any threshold,
    so that a sum may be a cent from it."""
    regions, services, region, market = shape
    book, ledger = start(Settings(regions, services, window, 1, 0, [255] * 8, threshold))
    for number, price in enumerate(prices):
        row = [1_000 * place + number for place in range(regions * (services + 1))]
        row[region * (services + 1) + market] = 9_999 if price is None else price
        enter(book, ledger, row, [int(price is None and place == region) for place in range(regions)])
    return book, ledger


def set_both(book, ledger, threshold):
    for machine in (book, ledger):
        machine.set_threshold(threshold)


def entered(book, region, market, price):
    """The sums that a copy of the book reports after 1 to W further entries of a price."""
    further, markets, sums = copy.copy(book), book.services + 1, []
    row = [price if place == region * markets + market else 0 for place in range(book.regions * markets)]
    links = [0] * places_of(book), [10_000] * places_of(book)
    others = [0] * book.regions, *links, [0] * (len(row) * 2 * book.halves)
    for _ in range(book.window):
        further.enter(further.entries, 0, row, *others)
        sums.append(further.report(region, market).sum)
    return sums


def first_above(sums, threshold):
    """How many sums there are up to the first above the threshold; 0 where none is."""
    return next((number for number, total in enumerate(sums, 1) if total > threshold), 0)


class Cases(unittest.TestCase):
    def on_all(self, book, ledger, question, answer):
        """By the method, the raw function, the ledger, and the record and ring read once more."""
        record, ring = bytes(book._book), bytes(book._ring)
        self.assertEqual(book.intervals_left(*question), answer)
        self.assertEqual((bytes(book._book), bytes(book._ring)), (record, ring))
        self.assertEqual(ledger.intervals_left(*question), answer)
        of_library = library_left(book._book, book._ring, *question)
        self.assertEqual(of_library[:2], [0, answer])
        self.assertEqual(of_library, due_left(book._book, book._ring, *question))

    def test_cases(self):
        """Each as energy and, where no price is below 0, as a service, in the first and in later windows of a ring;
        from an image, and from an opening where that takes the threshold."""
        for name, (window, prices, price, threshold, answer, sums) in CASES.items():
            negative = min((price, *(each or 0 for each in prices))) < 0
            shapes = [shape for shape in SHAPES if shape[3] == 0 or not negative]
            starts = (by_image, by_opening) if threshold % 10_000 == 0 else (by_image,)
            for shape, start in product(shapes, starts):
                with self.subTest(name, shape=shape, start=start.__name__):
                    book, ledger = played(shape, window, prices, threshold, start)
                    question = (*shape[2:], price)
                    self.on_all(book, ledger, question, answer)
                    self.assertEqual(entered(book, *question), list(sums))
                    self.assertEqual(first_above(sums, threshold), answer)
                    self.on_all(Book.load(book.store()), ledger, question, answer)

    def test_turned_round(self):
        """E's ring, as the case has it; one loaded begins with the oldest price."""
        window, prices, _, threshold, _, _ = CASES["E, turned round"]
        book, _ = played(SHAPES[0], window, prices, threshold)
        self.assertEqual((list(book._ring), book._book.nexts[0]), ([30_000, 40_000, 10_000, 20_000], 2))
        self.assertEqual(list(Book.load(book.store())._ring), [10_000, 20_000, 30_000, 40_000])

    def test_the_real_window(self):
        """N: 2,016 prices of 5,000, and 140,145,000 after 87 more of 1,500,000."""
        book, ledger = played(SHAPES[0], 2016, [5_000] * 2016, 139_810_000, by_opening)
        question = (0, 0, 1_500_000)
        self.on_all(book, ledger, question, 87)
        self.assertEqual(entered(book, *question)[85:87], [138_650_000, 140_145_000])
        self.assertEqual(book.intervals_left(0, 0, 5_000), 0)
        for threshold, answer in ((140_140_000, 87), (140_150_000, 88)):
            set_both(book, ledger, threshold)
            self.on_all(book, ledger, question, answer)
        for threshold, answer in ((140_144_999, 87), (140_145_000, 88)):
            self.on_all(*played(SHAPES[0], 2016, [5_000] * 2016, threshold), question, answer)

    def test_sums_beyond_32_bits(self):
        """The highest price, on windows that hold none and on full ones of the lowest; and the largest sum of all."""
        cases = ((500, [], 2**32, 430), (500, [], 4_990_000_000, 500), (500, [], 5_000_000_000, 0),
                 (500, [], 100_000_000_000, 0), (500, [-PRICE] * 500, 1, 251),
                 (500, [-PRICE] * 500, 4_960_000_000, 499), (500, [-PRICE] * 500, 4_980_000_000, 500),
                 (2016, [], 20_159_999_999, 2016))
        for window, prices, threshold, answer in cases:
            with self.subTest(threshold=threshold):
                book, ledger = played(SHAPES[0], window, prices, threshold)
                self.on_all(book, ledger, (0, 0, PRICE), answer)

    def test_present_threshold(self):
        """ "the present threshold" is the one set last, whatever was in force at an entry. """
        book, ledger = played(SHAPES[0], 5, (40_000,), 100_000, by_opening)
        for threshold, answer in ((50_000, 1), (60_000, 2), (110_000, 4), (120_000, 0), (100_000, 4), (90_000, 3)):
            set_both(book, ledger, threshold)
            self.on_all(book, ledger, (0, 0, 20_000), answer)

    def test_threshold_of_an_image(self):
        """It is the present one, to the cent, over restarts and after a refused setting, until one is set."""
        for threshold, answer in ((5_999, 1), (6_000, 2), (11_999, 4), (12_000, 0), (10_000, 4), (9_999, 3)):
            book, ledger = played(SHAPES[0], 5, (4_000,), threshold)
            self.on_all(book, ledger, (0, 0, 2_000), answer)
            book = Book.load(book.store())
            for machine in (book, ledger):
                self.assertEqual(number_of(machine.set_threshold, 95_000), (44, 0))
            self.on_all(book, ledger, (0, 0, 2_000), answer)
            set_both(book, ledger, 10_000)
            self.on_all(book, ledger, (0, 0, 2_000), 4)

    def test_asked_before_an_entry(self):
        """A question, however often, is no entry; and each entry leaves one interval less."""
        book, ledger = played(SHAPES[0], 5, (4_000,), 10_000)
        for answer in (4, 3, 2, 1):
            self.on_all(book, ledger, (0, 0, 2_000), answer)
            self.on_all(book, ledger, (0, 0, 2_000), answer)
            self.assertFalse(book.report(0, 0).administered)
            enter(book, ledger, [2_000], [0])
        self.assertEqual(book.report(0, 0), (12_000, 5, True, 5))


class Refusals(unittest.TestCase):
    """On a book of two regions and two markets, W 3: region 0 has two prices counted, region 1 three, turned round."""

    def setUp(self):
        self.book, _ = played((2, 1, 0, 0), 3, (None, 5, None, 7), 8_000)
        self.raw, self.ring = self.book._book, list(self.book._ring)
        self.assertEqual((self.raw.counts[:2], self.raw.nexts[:2]), ([2, 3], [2, 1]))
        self.free = {2, 5}  # the places of region 0's windows that hold no counted price

    def refused(self, number, book, ring, *question):
        """By this number, or accepted (0); the answer beside a refusal is 0, and all that was lent stays."""
        of_library = library_left(book, ring, *question)
        self.assertEqual(of_library, due_left(book, ring, *question))
        self.assertEqual(of_library[0], number)
        return of_library[1]

    def changed(self, name, place, value):
        """The record with another number in a field, or in a place of one."""
        record = guxhamole._Book.from_buffer_copy(self.raw)
        if place is None:
            setattr(record, name, value)
        else:
            getattr(record, name)[place] = value
        return record

    def test_order(self):
        """A question with everything wrong, mended one thing after the other."""
        forged = [self.ring[0] + 1] + self.ring[1:]
        self.refused(10, guxhamole._Book(), forged[1:], 9, 9, PRICE + 1)
        self.refused(11, self.raw, forged[1:], 9, 9, PRICE + 1)
        self.refused(21, self.raw, forged, 9, 9, PRICE + 1)
        self.refused(21, self.raw, forged, 0, 9, PRICE + 1)
        self.refused(22, self.raw, forged, 0, 0, PRICE + 1)
        self.refused(43, self.raw, self.ring, 0, 0, PRICE + 1)
        self.assertEqual(self.refused(0, self.raw, self.ring, 0, 0, PRICE), 1)

    def test_closed_or_damaged_book(self):
        self.refused(10, guxhamole._Book(), [], 0, 0, 0)
        self.refused(10, guxhamole._Book(), self.ring, 0, 0, 0)
        wrong = (("regions", None, 9), ("threshold", None, 0), ("window", None, 2017), ("entries", None, 10_000_001),
                 ("counts", 1, 4), ("nexts", 0, 1), ("nexts", 1, 3), ("sums", 0, 20_160_000_001), ("sums", 2, 1),
                 ("marks", 0, 2), ("position", None, 6), ("cap", None, 0), ("parents", 0, 0), ("from_", None, 0),
                 ("to", None, 1), ("from_", None, 254))
        for field in wrong:
            with self.subTest(field):
                self.refused(10, self.changed(*field), self.ring, 0, 0, 0)

    def test_ring_of_another_length(self):
        for ring in ([], self.ring[1:], self.ring + [0], self.ring * 2):
            for question in ((9, 0, 0), (0, 0, 0), (0, 0, PRICE + 1)):
                self.refused(11, self.raw, ring, *question)

    def test_market_that_the_book_does_not_have(self):
        """Even with a bad price and a forged ring."""
        forged = [-2**31] * len(self.ring)
        for region, market in ((2, 0), (0, 2), (2, 2), (0, 10), (7, 1), (2**32 - 1, 0), (0, 2**32 - 1)):
            for ring in (self.ring, forged):
                self.refused(21, self.raw, ring, region, market, 0)
                self.refused(21, self.raw, ring, region, market, PRICE + 1)
            self.assertEqual(number_of(self.book.intervals_left, region, market, 0), (21, 0))

    def test_ring_that_others_changed(self):
        """Any counted price, whichever market is asked about; a place that holds none is not looked at."""
        before = [self.refused(0, self.raw, self.ring, region, 0, 3_000) for region in (0, 1)]
        for place in range(len(self.ring)):
            for price in (self.ring[place] + 1, self.ring[place] - 1, -2**31, 2**31 - 1):
                ring = self.ring[:place] + [price] + self.ring[place + 1:]
                free = place in self.free
                after = [self.refused(0 if free else 22, self.raw, ring, region, 0, 3_000) for region in (0, 1)]
                self.assertEqual(after, before if free else [0, 0])
                self.refused(43 if free else 22, self.raw, ring, 1, 1, PRICE + 1)

    def test_sum_that_is_not_the_total(self):
        for place in (0, 1, 11, 12):
            for change in (-1, 1, 2**32):
                record = self.changed("sums", place, self.raw.sums[place] + change)
                self.refused(22, record, self.ring, 0, 0, 3_000)
                self.refused(22, record, self.ring, 0, 0, PRICE + 1)

    def test_price_out_of_range_though_the_total_is_right(self):
        for place, price, number in ((0, PRICE + 1, 22), (0, -PRICE - 1, 22), (0, PRICE, 0), (0, -PRICE, 0),
                                     (3, PRICE + 1, 22), (3, -1, 22), (3, PRICE, 0), (3, 0, 0)):
            market = place // 3
            record = self.changed("sums", market, self.raw.sums[market] + price - self.ring[place])
            ring = self.ring[:place] + [price] + self.ring[place + 1:]
            for question in ((0, 0, 0), (0, 1, 0), (1, 1, 0)):
                self.refused(number, record, ring, *question)

    def test_price_outside_the_entry_range(self):
        energy = {-2**31: 43, -PRICE - 1: 43, -PRICE: 0, -1: 0, 0: 0, PRICE: 0, PRICE + 1: 43, 2**31 - 1: 43}
        service = {**energy, -PRICE: 43, -1: 43}
        for region in (0, 1):
            for market, prices in ((0, energy), (1, service)):
                for price, number in prices.items():
                    self.refused(number, self.raw, self.ring, region, market, price)
                    self.assertEqual(number_of(self.book.intervals_left, region, market, price)[0], number)

    def test_what_is_not_looked_at(self):
        """Period marks, position, entries taken, cap and floor, and the additional link."""
        before = self.refused(0, self.raw, self.ring, 1, 0, 3_000)
        fields = (("marks", 11, 1), ("marks", 0, 1), ("position", None, 0), ("position", None, 5), ("cap", None, 1),
                  ("floor", None, -1), ("entries", None, 3), ("entries", None, 10_000_000))
        for field in fields:
            with self.subTest(field):
                self.assertEqual(self.refused(0, self.changed(*field), self.ring, 1, 0, 3_000), before)
        for ends in ((0, 1), (1, 0)):
            linked = self.changed("from_", None, ends[0])
            linked.to = ends[1]
            self.assertEqual(self.refused(0, linked, self.ring, 1, 0, 3_000), before)

    def test_ten_million_entries(self):
        """A book that takes no more entries is asked as any other."""
        image = bytearray(self.book.store())
        image[20:24] = (10_000_000).to_bytes(4, "little")
        book = Book.load(bytes(image))
        self.assertEqual(number_of(book.enter, 10_000_000, 0, [0] * 4, [0] * 2, [0] * 2, [0] * 2, [0] * 8), (12, 0))
        self.assertEqual(book.intervals_left(0, 0, 3_000), self.book.intervals_left(0, 0, 3_000))

    def test_refusal(self):
        with self.assertRaises(Refusal) as caught:
            self.book.intervals_left(0, 1, -1)
        self.assertEqual((caught.exception.number, caught.exception.place), (43, None))
        self.assertEqual(str(caught.exception), "refused 43: a price asked about is outside its market's entry range")


class Types(unittest.TestCase):
    def setUp(self):
        self.book = Book.open(Settings())

    def test_numbers_out_of_their_types(self):
        for question in ((-1, 0, 0), (2**32, 0, 0), (0, -1, 0), (0, 2**32, 0), (0, 0, 2**31), (0, 0, -2**31 - 1)):
            self.assertRaises(OverflowError, self.book.intervals_left, *question)

    def test_what_is_no_number(self):
        for wrong in (0.0, "0", None):
            for question in ((wrong, 0, 0), (0, wrong, 0), (0, 0, wrong)):
                self.assertRaises(TypeError, self.book.intervals_left, *question)

    def test_layout(self):
        self.assertEqual(ctypes.sizeof(guxhamole._Left), 8)
        self.assertEqual((guxhamole._Left.number.offset, guxhamole._Left.intervals.offset), (0, 4))

    def test_answer(self):
        """A plain number."""
        self.assertIs(type(self.book.intervals_left(4, 10, PRICE)), int)
        self.assertEqual(self.book.intervals_left(4, 10, PRICE), 19)


if __name__ == "__main__":
    unittest.main()
