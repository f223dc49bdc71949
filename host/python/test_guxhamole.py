"""guxhamole.py on document 01's worked cases, with every refusal, at the ends of its types, and over store and load."""

import copy
import ctypes
import pickle
import threading
import unittest
from dataclasses import replace
from pathlib import Path
from unittest import mock

import guxhamole
from guxhamole import Book, Refusal, Settings, amount_text, check, index, replay, schedule
from starts import by_image, stored

TOP = Path(__file__).resolve().parents[2]


def small(regions=1, services=0, window=1, halves=1, parents=(), threshold=90_000):
    """ "first position 0 .. limits ±60,000", and a threshold that an opening takes. """
    parents = (*parents, *[255] * 8)[:8]
    return Settings(regions, services, window, halves, 0, parents, threshold, 60_000, -60_000)


def worked(**shape):
    """A worked book of document 01, at "threshold 95,000": it begins with an image, as request 2026-06 says."""
    book, _ = by_image(small(**shape, threshold=95_000))
    return book


def entry(book, prices, /, **other):
    """An entry's arguments with nothing marked and nothing flowing, but for those given."""
    lent = {
        "number": book.entries, "day_kind": 0, "prices": prices, "marks": [0] * book.regions,
        "flows": [0] * book.regions, "factors": [10_000] * book.regions,
        "schedule": [0] * (len(prices) * 2 * book.halves),
    }
    return {**lent, **other}


def enter(book, prices, /, **other):
    return book.enter(**entry(book, prices, **other))


class Cases(unittest.TestCase):
    """ "From the guide and the bench" """

    def guide(self):
        """ "R 3, parents 255, 0, 1, S 0, W 1, H 1 .. Entry 0: 100,000, 90,000, 85,000, published as entered." """
        book = worked(regions=3, parents=(255, 0, 1))
        self.assertEqual(enter(book, [100_000, 90_000, 85_000]), (0, [100_000, 90_000, 85_000]))
        return book

    def test_limits_passed_on(self):
        factors = [0, 11_000, 10_800]
        cap = enter(self.guide(), [100_000, 90_000, 85_000], flows=[0, 1, 1], factors=factors)
        self.assertEqual(cap, (3, [60_000, 54_545, 50_505]))
        apart = enter(self.guide(), [100_000, 90_000, 85_000], flows=[0, 0, 1], factors=factors)
        self.assertEqual(apart.table, [60_000, 90_000, 85_000])
        floor = enter(self.guide(), [-70_000, -90_000, -85_000], flows=[-1, -1, -1], factors=factors)
        self.assertEqual(floor.table, [-60_000, -66_000, -71_280])

    def periods(self, fifth):
        """Whether energy is administered at entries 0 to 6: 100,000, then 50,000, entry 5 as given."""
        book = worked()
        periods = [book.report(0, 0).administered]
        for price in (100_000, 50_000, 50_000, 50_000, 50_000, fifth):
            enter(book, [price])
            periods.append(book.report(0, 0).administered)
        return periods

    def test_periods_end_with_the_day(self):
        self.assertEqual(self.periods(50_000), [False] + [True] * 5 + [False])
        self.assertEqual(self.periods(95_000), [False] + [True] * 5 + [False])
        self.assertEqual(self.periods(95_001), [False] + [True] * 6)

    def test_marked_interval_is_left_out(self):
        """ "W 2, energy 100, 200, marked, 400: sum 600, marked left it 300." """
        book = worked(window=2)
        enter(book, [100])
        enter(book, [200])
        enter(book, [2**31 - 1], marks=[1])
        self.assertEqual(book.report(0, 0), (300, 2, False, 3))
        enter(book, [400])
        self.assertEqual(book.report(0, 0), (600, 2, False, 4))

    def test_day_sheet(self):
        """ "R 1, S 1, W 3, H 1 .. after (100,000, 250) and (−5,000, 0)"; samples/worked.image is this book. """
        book = worked(services=1, window=3)
        enter(book, [100_000, 250])
        enter(book, [-5_000, 0])
        reports = [book.report(0, market) for market in (0, 1)]
        lines = [f"{report.counted},{amount_text(report.sum)},{int(report.administered)}" for report in reports]
        self.assertEqual(lines, ["2,950.00,1", "2,2.50,0"])
        sample = (TOP / "samples/worked.image").read_bytes()
        self.assertEqual((book.store_kind_1(), Book.load(sample).store()), (sample, book.store()))

    def test_index(self):
        """ "quarters 4,777 and 3,844 in total" """
        years = ([1_194, 1_194, 1_194, 1_195], [961] * 4)
        self.assertEqual(index(1_125_000, *years, 1_359_100), 1_398_100)
        self.assertEqual(index(12_500, *years, 15_100), 15_500)
        one = ([1] * 4, [1] * 4)
        self.assertEqual([index(amount, *one, last) for amount, last in ((50, 0), (49, 0), (150, 205))], [100, 0, 205])

    def test_means(self):
        """ "Means of 2.5 and −2.5 cents: 3, −3." """
        kinds = [0] * 27 + [1]
        for sign in (1, -1):
            prices = [0] * (27 * 6) + [sign * price for price in range(6)]
            rows = schedule(1, 60_000, -60_000, True, prices, kinds)
            self.assertEqual(rows, ([0] * 48, [3 * sign] + [0] * 47))

    def test_amount_text(self):
        texts = {0: "0.00", -5: "-0.05", 99: "0.99", -100: "-1.00", 1_234_567: "12345.67",
                 2**63 - 1: "92233720368547758.07", -2**63: "-92233720368547758.08"}
        self.assertEqual({cents: amount_text(cents) for cents in texts}, texts)

    def test_replay(self):
        calls = (TOP / "crates/player/stdin").read_bytes()
        self.assertEqual(replay(calls), (TOP / "crates/player/stdout").read_bytes())
        self.assertEqual(replay(b""), b"")


class Refusals(unittest.TestCase):
    def refused(self, number, place, call, /, *arguments, **named):
        with self.assertRaises(Refusal) as caught:
            call(*arguments, **named)
        refusal = caught.exception
        self.assertEqual((refusal.number, refusal.place), (number, place))
        where = "" if place is None else f" at {place}"
        self.assertEqual(str(refusal), f"refused {number}{where}: {guxhamole.MEANINGS[number]}")

    def test_opening(self):
        self.refused(20, None, Book.open, small(regions=9))
        self.refused(20, None, Book.open, small(regions=255, services=255, window=65_535))
        self.refused(20, None, Book.open, small(regions=0))
        self.refused(18, None, Book.open, small(threshold=0))
        self.refused(44, None, Book.open, small(threshold=95_000))
        self.refused(19, None, Book.open, Settings(floor=0))
        for ends in ((255, 0), (0, 255), (0, 0), (1, 0), (2, 4), (5, 0), (0, 5), (254, 255)):
            self.refused(20, None, Book.open, Settings(from_=ends[0], to=ends[1], threshold=0))

    def test_entry(self):
        """An entry with everything wrong, mended one thing after the other; nothing changes until all is right."""
        book = Book.open(small(regions=3, parents=(255, 0, 1)))
        before = book.store()
        self.every_refusal(book, before, [0, 9_999, 0], ((1, [0, 10_000, 20_000]),))

    def test_entry_with_the_link(self):
        """The same, and the additional link's factor comes last."""
        book = Book.open(replace(small(regions=3, parents=(255, 0, 1)), from_=2, to=0))
        self.refused(11, None, enter, book, [0] * 3)
        self.refused(11, None, enter, book, [0] * 3, flows=[0] * 4)
        factors = (1, [0, 10_000, 9_999, 20_001]), (2, [0, 10_000, 20_000, 9_999]), (3, [9, 10_000, 20_000, 10_000])
        self.every_refusal(book, book.store(), [0, 9_999, 0, 0], factors)

    def every_refusal(self, book, before, factors, mended_factors):
        """Of an entry in a book of three regions in a row."""
        wrong = entry(book, [0, 10_000_001, 0, 0], number=1, day_kind=2, marks=[0, 0, 2], factors=factors,
                      flows=[0] * len(factors))
        wrong["schedule"] = [0] * 6
        mended = ((11, None, "prices", [0, 10_000_001, 0]), (13, None, "number", 0), (14, None, "day_kind", 1),
                  (15, 2, "marks", [0, 0, 0]), (16, 1, "prices", [0, 0, 0]),
                  *((17, place, "factors", right) for place, right in mended_factors))
        for number, place, name, right in mended:
            self.refused(number, place, book.enter, **wrong)
            self.assertEqual(book.store(), before)
            wrong[name] = right
        self.assertEqual(book.enter(**wrong), (0, [0, 0, 0]))

    def test_every_length(self):
        book = Book.open(small(regions=2, services=1))
        for name in ("prices", "marks", "flows", "factors", "schedule"):
            right = entry(book, [0] * 4)
            for wrong in ([], right[name][1:], right[name] + [0]):
                self.refused(11, None, book.enter, **{**right, name: wrong})

    def test_ten_million_entries(self):
        image = bytearray(Book.open(small()).store())
        image[20:24] = (9_999_999).to_bytes(4, "little")
        book = Book.load(bytes(image))
        self.assertEqual(enter(book, [5]), (0, [5]))
        self.refused(12, None, enter, book, [5])
        self.assertEqual(book.report(0, 0), (5, 1, False, 10_000_000))

    def test_settings_and_report(self):
        book = Book.open(small())
        self.refused(18, None, book.set_threshold, 100_000_000_001)
        self.refused(44, None, book.set_threshold, 99_999_999_999)
        self.refused(19, None, book.set_limits, 0, -1)
        self.assertEqual((book.threshold, book.cap, book.floor), (90_000, 60_000, -60_000))
        book.set_threshold(100_000_000_000)
        book.set_limits(10_000_000, -10_000_000)
        self.assertEqual((book.threshold, book.cap, book.floor), (100_000_000_000, 10_000_000, -10_000_000))
        self.refused(21, None, book.report, 1, 0)
        self.refused(21, None, book.report, 0, 2**32 - 1)

    def test_image(self):
        """Of either kind, as the prices begin; and of kind 2 what stands before them, with 24 below 156 bytes."""
        book = Book.open(small(services=1, window=3))
        enter(book, [7, 8])
        second = ((27, None, 4, 1), (26, None, 148, 0), (26, None, 149, 0), (26, None, 150, 1), (26, None, 155, 0))
        for kind, prices, own in ((1, 148, ((26, None, 4, 2),)), (2, 156, second)):
            image = stored(book, kind)
            patches = ((24, None, 0, 0), (25, None, 4, 3), (26, None, 6, 9), (26, None, 44, 2), (26, None, 147, 1),
                       (27, None, 7, 0), (16, 0, prices + 3, 127), (16, 1, prices + 7, 128), *own)
            for number, place, at, byte in patches:
                damaged = image[:at] + bytes([byte]) + image[at + 1:]
                self.refused(number, place, Book.load, damaged)
                self.refused(number, None, check, damaged)
            for cut in (b"", image[:147], image[:-1], image + b"\0"):
                self.refused(24, None, Book.load, cut)
                self.refused(24, None, check, cut)
            self.assertIsNone(check(image))
        self.refused(24, None, check, b"\x9b" + image[1:155])

    def test_kind_1(self):
        """47 of a book with the additional link, by the method; kind 2 takes every book."""
        book = Book.open(replace(small(regions=2), from_=1, to=0))
        before = book.store()
        self.refused(47, None, book.store_kind_1)
        self.assertEqual((book.store(), before[4], before[148:].hex()), (before, 2, "01000000ffffffff"))

    def test_index_and_schedule(self):
        year = [1] * 4
        wrong = (0, year, 0), (100_000_001, year, 0), (1, [0, 1, 1, 1], 0), (1, year, 10_000_000_000_001)
        for amount, quarters, last in wrong:
            self.refused(30, None, index, amount, quarters, year, last)
        prices, kinds = [1] * 168, [0, 1] * 14
        self.refused(31, None, schedule, 2, 60_000, -60_000, True, prices, kinds)
        self.refused(32, None, schedule, 1, 60_000, -60_000, True, prices, [0] * 28)
        self.refused(19, None, schedule, 1, 0, -60_000, True, prices, kinds)
        self.refused(16, 167, schedule, 1, 60_000, -60_000, False, prices[1:] + [-1], kinds)

    def test_what_a_book_never_meets(self):
        """10 and 11 of a ring, 22, 23 and 33, which need a book, ring or buffer that a `Book` never lends."""
        face, lent, book = guxhamole._face(), guxhamole._lent, Book.open(small(window=2))
        enter(book, [5])
        short, room = (ctypes.c_int32 * 1)(), (ctypes.c_uint8 * 151)(*[9] * 151)
        image = guxhamole._numbers(book.store(), ctypes.c_uint8)
        self.assertEqual(face.guxhamole_report(guxhamole._Book(), 0, 0).number, 10)
        self.assertEqual(face.guxhamole_open(guxhamole._settings(small(window=2)), *lent(short)).number, 11)
        self.assertEqual(face.guxhamole_load(*lent(image, short)).number, 11)
        self.assertEqual(face.guxhamole_amount_text(1_000, *lent((ctypes.c_uint8 * 4)())), 0)
        for store in (face.guxhamole_store, face.guxhamole_store_kind_2):
            book._ring[0] = 5
            self.assertEqual(store(book._book, *lent(book._ring, room)).number, 23)
            book._ring[0] = 6
            self.assertEqual(store(book._book, *lent(book._ring, room)).number, 22)
        self.assertEqual(bytes(room), bytes([9] * 151))

    def test_meanings(self):
        self.assertEqual(list(guxhamole.MEANINGS), [*range(10, 28), *range(30, 34), *range(40, 48)])
        refusal = pickle.loads(pickle.dumps(Refusal(16, 3)))
        self.assertEqual(str(refusal), "refused 16 at 3: a price out of its market's range")


class Types(unittest.TestCase):
    """ "prices, flows and schedules are signed 32-bit numbers, factors and entry numbers unsigned ones" """

    def test_numbers_out_of_their_types(self):
        book = Book.open(small())
        before = book.store()
        wrong = (("number", 2**32), ("number", -1), ("day_kind", 256), ("prices", [2**40]), ("prices", [2**31]),
                 ("prices", [-2**31 - 1]), ("marks", [256]), ("marks", [-1]), ("flows", [2**31]), ("factors", [2**32]),
                 ("factors", [-1]), ("schedule", [0, 2**31]))
        for name, value in wrong:
            with self.subTest(name=name, value=value), self.assertRaises(OverflowError):
                enter(book, [0], **{name: value})
        calls = ((book.set_threshold, 2**63), (book.set_limits, 2**31, -1), (book.set_limits, 1, -2**31 - 1),
                 (book.report, 2**32, 0), (book.report, 0, -1), (amount_text, 2**63),
                 (Book.open, Settings(regions=256)), (Book.open, Settings(parents=[256] * 8)),
                 (Book.open, Settings(from_=256, to=0)), (Book.open, Settings(from_=4, to=-1)),
                 (index, -1, [1] * 4, [1] * 4, 0), (schedule, 257, 1, -1, True, [], []))
        for call, *arguments in calls:
            with self.subTest(call=call, arguments=arguments), self.assertRaises(OverflowError):
                call(*arguments)
        self.assertEqual(book.store(), before)

    def test_numbers_at_the_ends_of_their_types(self):
        book = Book.open(small())
        self.assertEqual(enter(book, [-2**31], marks=[1], flows=[-2**31], factors=[2**32 - 1], schedule=[2**31 - 1, 0]),
                         (0, [60_000]))

    def test_what_is_no_number(self):
        book = Book.open(small())
        for prices in ([1.0], ["1"], [None]):
            with self.assertRaises(TypeError):
                enter(book, prices)
        with self.assertRaises(TypeError):
            book.set_threshold(10_000.0)
        with self.assertRaises(ValueError):
            Book.open(Settings(parents=[255] * 5))
        with self.assertRaises(ValueError):
            index(1, [1] * 3, [1] * 4, 0)

    def test_sequences(self):
        """Tuples, ranges and bytes are sequences of numbers too; bytes are not taken for the bytes of prices."""
        book = Book.open(small(regions=4))
        self.assertEqual(enter(book, range(4), marks=bytes(4), flows=(0,) * 4).table, [0, 1, 2, 3])
        self.assertEqual(enter(book, bytes([1, 2, 3, 4])).table, [1, 2, 3, 4])


class Images(unittest.TestCase):
    def real_book(self):
        """The real market after 30 entries, region 3 marked at every fourth."""
        book = Book.open(Settings())
        for number in range(30):
            prices = [(number * 7_919 + place * 1_543) % 9_000 for place in range(55)]
            marks = [0, 0, 0, int(number % 4 == 0), 0]
            enter(book, prices, marks=marks, schedule=[250] * 5_280)
        return book

    def reports(self, book):
        return [book.report(region, market) for region in range(book.regions) for market in range(book.services + 1)]

    def test_round_trip(self):
        """By either kind; saved as kind 2, an image of kind 1 is eight bytes longer."""
        for kind, head in ((1, 148), (2, 156)):
            book = self.real_book()
            image = stored(book, kind)
            self.assertEqual((image[4], len(image)), (kind, head + 4 * 11 * (4 * 30 + 22)))
            loaded = Book.load(image)
            self.assertEqual((stored(loaded, kind), loaded.store()), (image, book.store()))
            self.assertEqual(self.reports(loaded), self.reports(book))
            prices = [60_001] * 55
            self.assertEqual(enter(loaded, prices, schedule=[0] * 5_280), enter(book, prices, schedule=[0] * 5_280))
            self.assertEqual(loaded.store(), book.store())

    def test_fields(self):
        book = Book.load((TOP / "samples/two-regions.image").read_bytes())
        fields = (book.regions, book.services, book.window, book.halves, book.parents, book.entries, book.position)
        self.assertEqual(fields, (2, 1, 6, 48, [255, 0] + [255] * 6, 6, 6))
        self.assertEqual((book.threshold, book.cap, book.floor), (300_000, 60_000, -60_000))
        self.assertEqual(book.report(0, 0), (312_585, 6, True, 6))
        self.assertEqual((book.from_, book.to), (255, 255))
        linked = Book.open(replace(small(regions=3, parents=(255, 0, 1)), from_=2, to=0))
        self.assertEqual((linked.from_, linked.to), (2, 0))
        self.assertEqual((Book.load(linked.store()).from_, Book.load(linked.store()).to), (2, 0))

    def test_copies_have_rings_of_their_own(self):
        book = Book.open(small(window=2))
        enter(book, [5])
        for make in (copy.copy, copy.deepcopy, lambda book: pickle.loads(pickle.dumps(book))):
            other = make(book)
            enter(other, [6])
            self.assertEqual((other.report(0, 0).sum, book.report(0, 0).sum), (11, 5))
            self.assertEqual(len(book.store()), 160)
        linked = Book.open(Settings(from_=4, to=0))
        self.assertEqual([(make(linked).from_, make(linked).to) for make in (copy.copy, copy.deepcopy)], [(4, 0)] * 2)

    def test_books_on_threads(self):
        """Books that are played at once give what one gives."""
        images = []
        threads = [threading.Thread(target=lambda: images.append(self.real_book().store())) for _ in range(4)]
        for thread in threads:
            thread.start()
        for thread in threads:
            thread.join()
        self.assertEqual(images, [self.real_book().store()] * 4)


class Library(unittest.TestCase):
    def test_abi(self):
        """As the header has them."""
        book, settings = guxhamole._Book, guxhamole._Settings
        self.assertEqual(guxhamole.abi(), 2)
        self.assertEqual((ctypes.sizeof(book), ctypes.sizeof(settings)), (864, 40))
        self.assertEqual((book.sums.offset, book.marks.offset, book.threshold.offset), (72, 776, 16))
        self.assertEqual((book.from_.offset, book.to.offset), (13, 14))
        offsets = [getattr(settings, name).offset for name in ("parents", "from_", "to", "threshold", "cap", "floor")]
        self.assertEqual(offsets, [8, 16, 17, 24, 32, 36])

    def test_another_library(self):
        """One that is not there, one with other functions, and one of another ABI; the library in use stays."""
        used = guxhamole._face()
        with self.assertRaises(OSError):
            guxhamole.use_library(TOP / "target/host/none.so")
        with self.assertRaises(ImportError):
            guxhamole.use_library("libc.so.6")
        with mock.patch.object(guxhamole, "ABI", 1), self.assertRaises(ImportError):
            guxhamole.use_library(used._name)
        self.assertIs(guxhamole._face(), used)

    def test_library_of_the_environment(self):
        elsewhere = mock.patch.dict("os.environ", GUXHAMOLE_LIBRARY=str(TOP / "target/host/none.so"))
        with mock.patch.object(guxhamole, "_library", None), elsewhere, self.assertRaisesRegex(OSError, "none.so"):
            guxhamole.abi()

    def test_example(self):
        """The lines at the module's top run."""
        lines = [line[4:] for line in guxhamole.__doc__.splitlines() if line.startswith("    ")]
        names = {"print": lambda report: self.assertEqual(report, (8_500, 1, False, 1))}
        exec("\n".join(lines), names)
        self.assertEqual((names["left"], Book.load(names["saved"]).entries), (67, 1))
        self.assertEqual(Book.load(names["earlier"]).store(), names["saved"])

    def test_page(self):
        """The lines on the additional link in README.md run."""
        page = Path(__file__).with_name("README.md").read_text(encoding="utf-8").splitlines()
        start = next(place for place, line in enumerate(page) if "from_=4, to=0" in line)
        names = {"Book": Book, "Settings": Settings, "prices": [5] * 55, "marks": [0] * 5, "flows": [1] * 5,
                 "factors": [10_000] * 5, "schedule": [0] * 5_280}
        exec("\n".join(line[4:] for line in page[start:start + 2]), names)
        self.assertEqual((names["book"].entries, names["book"].from_, names["book"].to), (1, 4, 0))


if __name__ == "__main__":
    unittest.main()
