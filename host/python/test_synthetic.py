"""The test load (request 2026-07 of document 02): its worked cases on the library and on synthetic.py, both refusals
with nothing written, the ends of the types, and a week of the real market entered as it is drawn."""

import ctypes
import unittest
from itertools import product

import guxhamole
import synthetic
from arithmetic import Refused
from guxhamole import Book, Drawn, Interval, Refusal, Settings
from image import image_of
from ledger import Ledger
from starts import blank_image
from test_intervals import FILL, KINDS, MARGIN, number_of, right_lengths

# R, S, the seed; then prices, flows, factors and the last s.
CASES = {
    "three draws": (1, 0, 0, [13_470], [-753], [11_708], 3_519_870_697),
    "and on": (1, 0, 3_519_870_697, [1_769], [158], [10_750], 2_670_642_822),
    "flow and factor in turn": (2, 0, 0, [13_470, 16_256], [682, 158], [11_769, 10_750], 2_670_642_822),
    "a service": (2, 1, 0, [13_470, 256, 11_708, 1_769], [158, -485], [10_750, 11_945], 2_748_932_008),
    "s becomes 0": (1, 0, 634_785_765, [1_500_000], [463], [10_256], 1_196_435_762),
    "d is 63": (1, 0, 1_479_915_296, [1_500_000], [21], [11_127], 1_515_703_433),
    "d is 64": (1, 0, 1_461_063_653, [-1_936], [46], [11_072], 1_905_273_138),
}
# The same of a book of two regions that the additional link alone links (request 2026-10): one more pair.
LINKED = {
    "one more pair": (2, 0, 0, [13_470, 16_256], [682, 158, -485], [11_769, 10_750, 11_945], 2_748_932_008),
}
# Numbers and day kinds: handed back as they came, whether or not an entry would take them.
HEADS = ((0, 0), (1, 1), (9, 250), (10_000_000, 2), (2**32 - 1, 255))
# What a d makes at each draw of an interval of two regions and two markets.
ENERGY = {0: 1_500_000, 63: 1_500_000, 64: -1_936, 19_999: 17_999, 20_000: -2_000, 60_063: -1_937, 65_535: 3_535}
SERVICE = {0: 0, 63: 63, 64: 64, 2_999: 2_999, 3_000: 0, 63_000: 0, 65_535: 2_535}
FLOW = {0: -1_000, 63: -937, 64: -936, 1_000: 0, 2_000: 1_000, 2_001: -1_000, 65_535: 503}
FACTOR = {0: 10_000, 63: 10_063, 64: 10_064, 1_999: 11_999, 2_000: 10_000, 2_001: 10_001, 65_535: 11_535}
# The real market but for a threshold that the week's prices exceed in four regions, and limits that then bind; and what
# comes of the seed 2,026.
WEEK = Settings(threshold=15_000_000, cap=9_000, floor=-900)
WEEK_SUMS = [16_533_145, 14_564_501, 16_137_452, 19_296_551, 19_056_927]
WEEK_BEGUN = {(0, 0): 1_803, (2, 0): 1_868, (3, 0): 1_429, (4, 0): 1_430}
WEEK_LAST = 1_646_278_218


def shaped(regions, services, window=1):
    """The settings of a book in which every region but the first is linked to the one before."""
    parents = [255, *range(regions - 1), *[255] * 8][:8]
    return Settings(regions, services, window, 1, 0, parents, 10_000 * window, 60_000, -60_000)


def backwards(s, draws):
    """The seed that so many draws make this s."""
    inverse = pow(1_664_525, -1, 2**32)
    for _ in range(draws):
        s = (s - 1_013_904_223) * inverse % 2**32
    return s


def library_drawn(book, lengths, *lent):
    """The raw function's number, last s, entry and day kind; whether the record stays; all around the slices."""
    record = bytes(book)
    around = [(kind * (length + 2 * MARGIN))(*[FILL] * (length + 2 * MARGIN)) for kind, length in zip(KINDS, lengths)]
    slices = [(kind * length).from_buffer(places, MARGIN * ctypes.sizeof(kind))
              for kind, length, places in zip(KINDS, lengths, around)]
    answer = guxhamole._face().guxhamole_synthetic(book, *lent, *guxhamole._lent(*slices))
    return [answer.number, answer.seed, answer.entry, answer.day_kind, bytes(book) == record, *map(list, around)]


def due_drawn(book, lengths, *lent):
    """The same by synthetic.py; refused, the slices stay and the rest of the answer is 0."""
    margin = [FILL] * MARGIN
    try:
        last, interval = synthetic.drawn(book, lengths, *lent)
    except Refused as refused:
        return [refused.number, 0, 0, 0, True, *([FILL] * (length + 2 * MARGIN) for length in lengths)]
    return [0, last, *interval[:2], True, *(margin + numbers + margin for numbers in interval[2:])]


def compared(test, book, lengths, *lent):
    """The library's answer, if it is synthetic.py's. Lists are told apart here, since assertEqual looks for minutes how
    two long slices differ."""
    of_library = library_drawn(book, lengths, *lent)
    for place, (part, due) in enumerate(zip(of_library, due_drawn(book, lengths, *lent))):
        if part != due:
            test.fail(f"lengths {lengths}, lent {lent}: part {place} of the answer is {part}, not {due}")
    return of_library


class Running(Ledger):
    """The ledger of a list whose entries mark no region, but that sums and periods are kept from entry to entry, so
    that a week of the real market takes no time. test_random_synthetic.py holds it to the ledger that keeps none."""

    def __init__(self, opening):
        super().__init__(opening)
        self.sums = [0] * (opening.regions * self.markets)
        self.periods = [False] * len(self.sums)

    def administered(self, region, market, t):
        if t != self.taken:
            raise ValueError("of the next entry alone is it kept")
        return self.periods[region * self.markets + market]

    def enter(self, *lent):
        answer = super().enter(*lent)
        t, window = self.taken - 1, self.opening.window
        old = self.entries[t - window].prices if t >= window else [0] * len(self.sums)
        for place, price in enumerate(self.entries[t].prices):
            self.sums[place] += price - old[place]
            if self.sums[place] > self.setting(t).threshold:
                self.periods[place] = True
            elif self.position(t) == 6 * self.opening.halves - 1:
                self.periods[place] = False
        return answer

    def record(self):
        """The counts, next places, sums and marks of the book's record."""
        regions, window, sums, marks = self.opening.regions, self.opening.window, [0] * 88, [0] * 88
        for place, (total, period) in enumerate(zip(self.sums, self.periods)):
            region, market = divmod(place, self.markets)
            sums[11 * region + market], marks[11 * region + market] = total, int(period)
        unused = [0] * (8 - regions)
        return [min(self.taken, window)] * regions + unused, [self.taken % window] * regions + unused, sums, marks


def record_of(book):
    record = book._book
    return record.counts[:], record.nexts[:], record.sums[:], record.marks[:]


class Cases(unittest.TestCase):
    def on_all(self, book, lent, last, interval):
        """By the method, by synthetic.py, and by the raw function with all around the slices."""
        before, lengths = (bytes(book._book), bytes(book._ring)), right_lengths(book)
        self.assertEqual(book.synthetic(*lent), (last, interval))
        self.assertEqual((bytes(book._book), bytes(book._ring)), before)
        self.assertEqual(synthetic.drawn(book._book, lengths, *lent), (last, interval))
        self.assertEqual(compared(self, book._book, lengths, *lent)[:4], [0, last, *lent[1:]])

    def test_cases(self):
        for name, (regions, services, seed, prices, flows, factors, last) in CASES.items():
            for head in HEADS:
                with self.subTest(name, head=head):
                    book = Book.open(shaped(regions, services))
                    self.on_all(book, (seed, *head), last, Interval(*head, prices, [0] * regions, flows, factors))

    def test_with_the_link(self):
        for name, (regions, services, seed, prices, flows, factors, last) in LINKED.items():
            for head, ends in product(HEADS, ((0, 1), (1, 0))):
                with self.subTest(name, head=head, ends=ends):
                    book = Book.open(Settings(regions, services, 1, 1, 0, [255] * 8, 10_000, from_=ends[0], to=ends[1]))
                    self.on_all(book, (seed, *head), last, Interval(*head, prices, [0] * regions, flows, factors))

    def test_the_real_market(self):
        book = Book.open(Settings())
        last, interval = book.synthetic(2_026, 0, 0)
        self.assertEqual(interval.prices[:3], [-608, 2_909, 2_522])
        self.assertEqual(interval.factors, [10_066, 11_321, 10_679, 11_080, 11_468])
        self.assertEqual((last, len(interval.prices), interval.marks), (489_427_073, 55, [0] * 5))
        self.on_all(book, (2_026, 0, 0), last, interval)
        linked = Book.open(Settings(from_=4, to=0))
        further, one_more = linked.synthetic(2_026, 0, 0)
        self.assertEqual((one_more.flows[:5], one_more.factors[:5]), (interval.flows, interval.factors))
        self.assertEqual(one_more[:4], interval[:4])
        self.assertEqual(backwards(further, 2), last)
        self.on_all(linked, (2_026, 0, 0), further, one_more)

    def test_every_draw(self):
        """Every draw of an interval, each with a d that makes a difference there, or would elsewhere."""
        self.assertEqual(backwards(0, 1), CASES["s becomes 0"][2])
        book, draws = Book.open(shaped(2, 1)), [ENERGY, SERVICE, ENERGY, SERVICE, FLOW, FACTOR, FLOW, FACTOR]
        for place, made in enumerate(draws):
            for d, number in made.items():
                for low in (0, 65_535):
                    with self.subTest(place=place, d=d, low=low):
                        last, interval = book.synthetic(backwards(65_536 * d + low, place + 1), 0, 0)
                        links = [each for link in zip(interval.flows, interval.factors) for each in link]
                        self.assertEqual((interval.prices + links)[place], number)
                        self.assertEqual(backwards(last, 7 - place), 65_536 * d + low)

    def test_links_are_not_looked_at(self):
        """Flow and factor are drawn for every region, with or without a parent."""
        for parents in ([255] * 8, [255, *range(7)], [255, 255, 0, 0, 255, 4, 255, 2]):
            answer = Book.open(Settings(8, 2, 1, 1, 0, parents, 10_000)).synthetic(7, 0, 0)
            self.assertEqual(answer, Book.open(shaped(8, 2)).synthetic(7, 0, 0))

    def test_one_after_the_other(self):
        """Each of the seed that came with the one before: three draws of one region are three of the next."""
        book, seed, prices = Book.open(shaped(1, 0)), 0, []
        for number in range(100):
            seed, interval = book.synthetic(seed, number, number % 2)
            self.assertEqual(interval[:2], (number, number % 2))
            prices.append(interval.prices[0])
        draws = synthetic.Draws(0)
        self.assertEqual(prices, [(draws.price(0), draws.flow(), draws.factor())[0] for _ in range(100)])
        self.assertEqual(seed, draws.s)

    def test_records_of_what_was_drawn(self):
        book = Book.open(Settings())
        for head in HEADS:
            interval = book.synthetic(1, *head).interval
            self.assertEqual(book.read_interval(book.write_interval(*interval)).interval, interval)


class Refusals(unittest.TestCase):
    """On a book of two regions and two markets."""

    def setUp(self):
        self.book = Book.open(shaped(2, 1))
        self.raw = self.book._book

    def refused(self, number, book, lengths, *lent):
        """By this number, or accepted (0), with all that was lent as it then stands."""
        self.assertEqual(compared(self, book, lengths, *lent)[0], number)

    def test_factors_one_longer(self):
        self.refused(11, self.raw, [4, 2, 2, 3], 0, 9, 250)
        stays = [[FILL] * (length + 2 * MARGIN) for length in (4, 2, 2, 3)]
        self.assertEqual(library_drawn(self.raw, [4, 2, 2, 3], 0, 9, 250), [11, 0, 0, 0, True, *stays])

    def test_every_length(self):
        for place in range(4):
            right = right_lengths(self.raw)
            for length in {0, 1, 2, 3, 4, 5, 8, 1_000} - {right[place]}:
                with self.subTest(place=place, length=length):
                    self.refused(11, self.raw, [*right[:place], length, *right[place + 1:]], 1, 1, 1)
        self.refused(11, self.raw, [0] * 4, 1, 1, 1)
        self.refused(0, self.raw, right_lengths(self.raw), 1, 1, 1)

    def test_lengths_beyond_32_bits(self):
        """Each by 2**32 places longer than it has to be; nothing is touched, so that none of these has to be there."""
        for place in range(4):
            slices = self.book._slices()
            lent = guxhamole._lent(*slices)
            lent[2 * place + 1] += 2**32
            answer = guxhamole._face().guxhamole_synthetic(self.raw, 1, 1, 1, *lent)
            self.assertEqual([answer.number, answer.seed, answer.entry, answer.day_kind], [11, 0, 0, 0])
            self.assertEqual([any(numbers) for numbers in slices], [False] * 4)

    def test_closed_book(self):
        for lengths in ([0] * 4, [1] * 4, [4, 2, 2, 2], [4, 2, 2, 3], [9, 8, 7, 6]):
            self.refused(10, guxhamole._Book(), lengths, 634_785_765, 2**32 - 1, 255)
        closed = Book(guxhamole._Book(), guxhamole._ring(1, 0, 1))
        self.assertEqual(number_of(closed.synthetic, 0, 0, 0), 10)

    def test_damaged_book(self):
        """10 with right slices and before 11."""
        wrong = (("regions", None, 9), ("regions", None, 1), ("services", None, 11), ("threshold", None, 0),
                 ("window", None, 2017), ("halves", None, 49), ("entries", None, 10_000_001), ("position", None, 6),
                 ("cap", None, 0), ("floor", None, 0), ("parents", 0, 0), ("parents", 1, 1), ("counts", 1, 2),
                 ("counts", 7, 1), ("nexts", 0, 1), ("sums", 0, 20_160_000_001), ("sums", 2, 1), ("marks", 0, 2),
                 ("marks", 87, 1), ("from_", None, 0), ("to", None, 1), ("from_", None, 254))
        for name, place, value in wrong:
            record = guxhamole._Book.from_buffer_copy(self.raw)
            if place is None:
                setattr(record, name, value)
            else:
                getattr(record, name)[place] = value
            with self.subTest(name, place=place, value=value):
                self.refused(10, record, right_lengths(record), 0, 0, 0)
                self.refused(10, record, [4, 2, 2, 3], 0, 0, 0)

    def test_what_is_no_refusal(self):
        """An entry's number, its day kind, and a book that takes no more entries."""
        image = bytearray(blank_image(shaped(2, 1)))
        image[20:24] = (10_000_000).to_bytes(4, "little")
        for book in (self.book, Book.load(bytes(image))):
            for head in HEADS:
                self.refused(0, book._book, [4, 2, 2, 2], 0, *head)
                self.assertEqual(book.synthetic(0, *head).interval[:2], head)
        interval = book.synthetic(0, book.entries, 0).interval
        self.assertEqual(number_of(book.enter, *interval, [0] * 8), 12)

    def test_refusal(self):
        with self.assertRaises(Refusal) as caught:
            Book(guxhamole._Book(), guxhamole._ring(1, 0, 1)).synthetic(0, 0, 0)
        self.assertEqual((caught.exception.number, caught.exception.place), (10, None))


class Types(unittest.TestCase):
    def setUp(self):
        self.book = Book.open(Settings())

    def test_numbers_out_of_their_types(self):
        for lent in ((-1, 0, 0), (2**32, 0, 0), (0, -1, 0), (0, 2**32, 0), (0, 0, -1), (0, 0, 256)):
            self.assertRaises(OverflowError, self.book.synthetic, *lent)

    def test_what_is_no_number(self):
        for wrong in (0.0, "0", None):
            for lent in ((wrong, 0, 0), (0, wrong, 0), (0, 0, wrong)):
                self.assertRaises(TypeError, self.book.synthetic, *lent)

    def test_ends_of_the_types(self):
        for seed in (0, 2**31 - 1, 2**31, 2**32 - 1):
            for head in ((0, 0), (2**32 - 1, 255)):
                due = synthetic.drawn(self.book._book, right_lengths(self.book), seed, *head)
                self.assertEqual(self.book.synthetic(seed, *head), due)

    def test_layout(self):
        self.assertEqual(ctypes.sizeof(guxhamole._Drawn), 16)
        offsets = [getattr(guxhamole._Drawn, name).offset for name in ("number", "seed", "entry", "day_kind")]
        self.assertEqual(offsets, [0, 4, 8, 12])

    def test_answer(self):
        """The type that records are read to, with plain numbers."""
        answer = self.book.synthetic(seed=1, number=2, day_kind=3)
        self.assertEqual((type(answer), type(answer.interval)), (Drawn, Interval))
        numbers = [answer.seed, *answer.interval[:2], *(each for part in answer.interval[2:] for each in part)]
        self.assertEqual({type(number) for number in numbers}, {int})


class Week(unittest.TestCase):
    def enter_all(self, book, ledger):
        """2,016 intervals, each entered as it is drawn: it is taken and publishes what the ledger publishes, and sums,
        counts and period marks after it are the ledger's. The last s, how many published prices differ, and the entry
        with which each period begins."""
        seed, changed, begun, schedule = 2_026, 0, {}, [0] * 5_280
        for t in range(2016):
            lent = seed, t, t // 288 // 5
            seed, interval = book.synthetic(*lent)
            self.assertEqual((seed, interval), synthetic.drawn(book._book, right_lengths(book), *lent))
            entered = book.enter(*interval, schedule)
            self.assertEqual(entered, ledger.enter(*interval, schedule))
            self.assertEqual(record_of(book), ledger.record(), t)
            changed += entered.count
            for place in range(55):
                if ledger.periods[place]:
                    begun.setdefault(divmod(place, 11), t)
        return seed, changed, begun

    def test_the_real_market(self):
        book, ledger = Book.open(WEEK), Running(WEEK)
        seed, changed, begun = self.enter_all(book, ledger)
        self.assertEqual((seed, begun, ledger.sums[::11]), (WEEK_LAST, WEEK_BEGUN, WEEK_SUMS))
        self.assertEqual(book.store(), image_of(ledger))
        for place in range(55):
            self.assertEqual(book.report(*divmod(place, 11)), ledger.report(*divmod(place, 11)))
        for region in range(5):  # from the whole history, of which nothing is kept
            administered = Ledger.administered(ledger, region, 0, 2016)
            self.assertEqual(book.report(region, 0).administered, administered)
        self.assertGreater(changed, 500)
        print(f"week: {book.entries} intervals entered, {len(begun)} periods begun, {changed} published prices changed")


if __name__ == "__main__":
    unittest.main()
