"""Thresholds in whole hundreds (request 2026-06 of document 02): 44 of openings and settings, in its order; thresholds
that an image brings, which stay until the next setting; and the ledger that begins with an image."""

import struct
import unittest
from ctypes import c_int32
from dataclasses import replace
from itertools import product

import guxhamole
from arithmetic import Refused
from guxhamole import Book, Refusal, Settings, check, replay
from image import begun, image_of, settings_in
from ledger import Ledger, Opening
from link import ends_of
from starts import blank_image, by_image, by_opening, stored, with_threshold

FILL = 7
HIGHEST = 100_000_000_000
# Thresholds by what an opening and a setting answer: first the request's cases, then what a test of another multiple
# or of fewer bits would take otherwise.
ANSWERS = {
    18: (-10_000, -1, 0, 100_000_000_001, 100_000_010_000, -95_000, -2**63, 2**63 - 1, -2**63 + 5_808),
    44: (1, 9_999, 10_001, 95_000, 99_999_999_999, 100, 1_000, 5_000, 8_192, 11_000, 15_000, 65_536 + 10_000,
         2**32 + 10_000, 139_810_001, 99_999_995_000),
    0: (10_000, 100_000, 139_810_000, 99_999_990_000, HIGHEST, 20_000, 30_000, 4_294_970_000),
}
ROWS = [(threshold, number) for number, thresholds in ANSWERS.items() for threshold in thresholds]
IN_RANGE = ANSWERS[44] + ANSWERS[0]

# "R 1 .. S 0, W 1, H 1, first position 0, threshold 95,000, limits ±60,000", and nothing entered.
SMALL = Settings(1, 0, 1, 1, 0, [255] * 8, 95_000, 60_000, -60_000)
IMAGE = bytes.fromhex(
    "94000000 0100 01 00 0100 01 00 ffffffffffffffff 00000000 0000 0000 1873010000000000 60ea0000 a015ffff"
) + bytes(104)
# The same by kind 2 (request 2026-10).
SECOND = bytes.fromhex("9c000000 0200") + IMAGE[6:] + bytes.fromhex("ffff0000ffffffff")
IMAGES = {1: IMAGE, 2: SECOND}


def answered(call, *arguments):
    """The refusal's number, or 0."""
    try:
        call(*arguments)
    except (Refusal, Refused) as refused:
        return refused.number
    return 0


def fields(record):
    """A record's numbers; the bytes between its fields are no part of it, and an answer has any there."""
    values = [getattr(record, name) for name, _ in record._fields_]
    return [value if isinstance(value, int) else list(value) for value in values]


def library_open(settings, places):
    """The raw function's answer to an opening, and the ring as it then stands."""
    ring = (c_int32 * places)(*[FILL] * places)
    return guxhamole._face().guxhamole_open(guxhamole._settings(settings), *guxhamole._lent(ring)), list(ring)


def enter(machine, number, price):
    """The count and the table of an entry in a book of one region and one market."""
    return machine.enter(number, 0, [price], [0], [0], [10_000], [0, 0])


def replayed(first, threshold):
    """The numbers by which a replay answers an opening at one threshold and a setting of another."""
    opening = struct.pack("<IHBBHBxH8sqii", 38, 64, 1, 0, 1, 1, 0, b"\xff" * 8, first, 60_000, -60_000)
    answers = replay(opening + struct.pack("<IHq", 14, 66, threshold))
    return [number for _, _, number, _ in struct.iter_unpack("<IHII", answers)]


class Openings(unittest.TestCase):
    def opened(self, number, settings, places=1):
        """Refused by this number, the ring is as it was and the book closed; accepted (0), the ring is zeroed."""
        answer, ring = library_open(settings, places)
        self.assertEqual((answer.number, answer.place), (number, 0), settings)
        self.assertEqual(ring, [FILL if number else 0] * places)
        due = guxhamole._Book() if number else by_image(settings)[0]._book
        self.assertEqual(fields(answer.book), fields(due))

    def test_thresholds(self):
        for threshold, number in ROWS:
            with self.subTest(threshold):
                settings = replace(SMALL, threshold=threshold)
                self.opened(number, settings)
                self.assertEqual(answered(Book.open, settings), number)
                self.assertEqual(answered(Ledger.open, settings), number)

    def test_order(self):
        """ "directly after 18": 20, 11, 18, 44, 19. Everything is wrong, and mended one thing after the other. """
        wrong = replace(SMALL, first=6, threshold=0, cap=0, floor=0)
        self.opened(20, wrong, 2)
        self.opened(20, replace(wrong, threshold=95_000), 2)
        wrong = replace(wrong, first=0)
        self.opened(11, wrong, 2)
        self.opened(11, replace(wrong, threshold=95_000), 2)
        self.opened(18, wrong)
        wrong = replace(wrong, threshold=95_000)
        self.opened(44, wrong)
        wrong = replace(wrong, threshold=100_000)
        self.opened(19, wrong)
        self.opened(0, replace(wrong, cap=1, floor=-1))

    def test_pairs(self):
        """The threshold and one other thing, by all that opens."""
        pairs = ((44, {"cap": 0}), (44, {"cap": 10_000_001}), (44, {"floor": 0}), (20, {"first": 6}),
                 (20, {"regions": 0}), (20, {"parents": [0] + [255] * 7}), (20, {"from_": 0}), (20, {"to": 0}),
                 (20, {"from_": 0, "to": 0}), (20, {"from_": 0, "to": 1}))
        for number, other in pairs:
            for threshold in ANSWERS[44]:
                settings = replace(SMALL, threshold=threshold, **other)
                self.opened(number, settings)
                self.assertEqual(answered(Book.open, settings), number)
                self.assertEqual(answered(Ledger.open, settings), number)
        for call in (Book.open, Ledger.open):
            self.assertEqual(answered(call, replace(SMALL, threshold=0, cap=0)), 18)
            self.assertEqual(answered(call, replace(SMALL, threshold=100_000_010_000, floor=0)), 18)
            self.assertEqual(answered(call, replace(SMALL, threshold=100_000, cap=0)), 19)
        self.opened(11, SMALL, 0)

    def test_replay(self):
        """A refused opening leaves the closed book, which refuses the setting by 10."""
        for threshold, number in ROWS:
            self.assertEqual(replayed(threshold, 100_000), [number, 10 if number else 0])
            self.assertEqual(replayed(100_000, threshold), [0, number])

    def test_refusal(self):
        with self.assertRaises(Refusal) as caught:
            Book.open(SMALL)
        self.assertEqual((caught.exception.number, caught.exception.place), (44, None))
        self.assertEqual(str(caught.exception), "refused 44: a threshold that is no multiple of 10,000 cents")


class Setting(unittest.TestCase):
    def set(self, number, book, threshold):
        """By the raw function: the record is handed back with this threshold, or, refused, as it was."""
        before = guxhamole._Book.from_buffer_copy(book)
        answer = guxhamole._face().guxhamole_set_threshold(book, threshold)
        self.assertEqual((answer.number, answer.place), (number, 0), threshold)
        if number == 0:
            before.threshold = threshold
        self.assertEqual(fields(answer.book), fields(before))

    def test_thresholds(self):
        """On a book that an image brought and on one that was opened, each in a period."""
        for (start, first), (threshold, number) in product(((by_image, 95_000), (by_opening, 90_000)), ROWS):
            with self.subTest(threshold, start=start.__name__):
                book, ledger = machines = start(replace(SMALL, threshold=first))
                for machine in machines:
                    enter(machine, 0, 100_000)
                self.set(number, book._book, threshold)
                ring = bytes(book._ring)
                self.assertEqual([answered(machine.set_threshold, threshold) for machine in machines], [number] * 2)
                self.assertEqual(book.threshold, first if number else threshold)
                self.assertEqual(bytes(book._ring), ring)
                self.assertEqual(book.store(), image_of(ledger))

    def test_order(self):
        """A closed book, or a damaged one, is refused by 10 whatever the threshold."""
        damaged = Book.load(IMAGE)._book
        damaged.cap = 0
        for threshold, _ in ROWS:
            self.set(10, guxhamole._Book(), threshold)
            self.set(10, damaged, threshold)

    def test_rule_10(self):
        """A book with any threshold in range is no damaged one."""
        for threshold in IN_RANGE:
            record = Book.load(with_threshold(IMAGE, threshold))._book
            self.assertEqual(guxhamole._face().guxhamole_report(record, 0, 0).number, 0)
            self.assertEqual(guxhamole._face().guxhamole_set_limits(record, 1, -1).number, 0)


class Images(unittest.TestCase):
    """ "An image that holds another threshold still loads, and that threshold stays until the next setting." """

    def test_bytes(self):
        self.assertEqual((len(IMAGE), len(SECOND)), (148, 156))
        for kind, image in IMAGES.items():
            self.assertEqual(blank_image(SMALL, kind), image)
            self.assertIsNone(check(image))
            book = Book.load(image)
            self.assertEqual((book.threshold, book.cap, book.floor, book.entries), (95_000, 60_000, -60_000, 0))
            self.assertEqual((book.store_kind_1(), book.store()), (IMAGE, SECOND))

    def test_round_trips(self):
        """Each threshold, in an image without entries and in one with a price, is stored to the same bytes."""
        book = Book.load(IMAGE)
        enter(book, 0, -5)
        for kind, image in ((1, IMAGE), (2, SECOND), (1, book.store_kind_1()), (2, book.store())):
            for threshold in IN_RANGE:
                given = with_threshold(image, threshold)
                self.assertIsNone(check(given))
                loaded = Book.load(given)
                self.assertEqual((loaded.threshold, stored(loaded, kind)), (threshold, given))
                self.assertEqual(stored(Book.load(loaded.store()), kind), given)

    def test_out_of_range(self):
        for threshold in (0, HIGHEST + 1, HIGHEST + 10_000, 2**63, 2**64 - 10_000):
            for call, image in product((Book.load, check, begun), IMAGES.values()):
                self.assertEqual(answered(call, with_threshold(image, threshold)), 26)

    def test_worked_run(self):
        """The request's run: 95,000 is in force until 100,000 is set, which the refused setting between is not."""
        for start, image in product((Book.load, begun), IMAGES.values()):
            machine = start(image)
            with self.subTest(type(machine).__name__):
                self.assertEqual(machine.report(0, 0), (0, 0, False, 0))
                self.assertEqual(enter(machine, 0, 95_000), (0, [95_000]))
                self.assertEqual(machine.report(0, 0), (95_000, 1, False, 1))
                self.assertEqual(answered(machine.set_threshold, 95_000), 44)
                self.assertEqual(enter(machine, 1, 95_001), (0, [95_001]))
                self.assertEqual(machine.report(0, 0), (95_001, 1, True, 2))
                self.assertEqual(answered(machine.set_threshold, 100_000), 0)
                for number, period in ((2, True), (3, True), (4, True), (5, False)):
                    self.assertEqual(enter(machine, number, 95_001), (1, [60_000]))
                    self.assertEqual(machine.report(0, 0), (95_001, 1, period, number + 1))

    def test_stays(self):
        """Over entries, reports, limits, refused settings and restarts; each of them leaves bytes 28 to 35."""
        book, ledger = Book.load(IMAGE), begun(IMAGE)
        for number, price in enumerate((95_000, 95_001, 95_000, 1, 95_000, 95_000, 95_001)):
            for machine in (book, ledger):
                refused = [answered(machine.set_threshold, threshold) for threshold in (95_000, 95_001, 5_000, 0)]
                self.assertEqual(refused, [44, 44, 44, 18])
                machine.set_limits(60_000 + number, -60_000)
            self.assertEqual(enter(book, number, price), enter(ledger, number, price))
            self.assertEqual(book.report(0, 0), ledger.report(0, 0))
            image = stored(book, 2 - number % 2)
            self.assertEqual(image[28:36].hex(), "1873010000000000")
            self.assertEqual(image, image_of(ledger, 2 - number % 2))
            book = Book.load(image)
        self.assertEqual(book.threshold, 95_000)
        book.set_threshold(90_000)
        self.assertEqual(book.store(), with_threshold(image, 90_000))
        self.assertEqual(answered(book.set_threshold, 95_000), 44)
        self.assertEqual(book.threshold, 90_000)

    def test_thresholds_to_the_cent(self):
        """A sum at the image's threshold begins no period, one a cent above does."""
        for threshold in [threshold for threshold in IN_RANGE if threshold < 10_000_000]:
            for price, period in ((threshold, False), (threshold + 1, True)):
                for machine in by_image(replace(SMALL, threshold=threshold)):
                    enter(machine, 0, price)
                    self.assertEqual(machine.report(0, 0), (price, 1, period, 1))


class Starts(unittest.TestCase):
    """ "its list may begin with such an image of a book without entries and with no period marked, its settings
    standing for the opening's" """

    def test_settings(self):
        """Each setting from its own place; "the next entry's position" is the first position."""
        without = Settings(3, 2, 300, 47, 281, [255, 0, 1, *[255] * 5], 95_001, 61_000, -62_000)
        for settings, kind in ((without, 1), (without, 2), (replace(without, from_=2, to=0), 2)):
            self.assertEqual(settings_in(blank_image(settings, kind)), Opening(**vars(settings)))
            book = Book.load(blank_image(settings, kind))
            self.assertEqual((book.regions, book.services, book.window, book.halves), (3, 2, 300, 47))
            self.assertEqual((book.position, book.parents, book.threshold), (281, settings.parents, 95_001))
            self.assertEqual((book.cap, book.floor, book.from_, book.to), (61_000, -62_000, *ends_of(settings)))

    def test_same_book(self):
        """Where an opening takes the settings, all starts have the same record and ring."""
        for threshold, (ends, kinds) in product(ANSWERS[0], (((255, 255), (1, 2)), ((1, 0), (2,)), ((0, 1), (2,)))):
            settings = replace(SMALL, regions=2, services=1, window=3, first=4, threshold=threshold, from_=ends[0],
                               to=ends[1])
            opened, _ = by_opening(settings)
            for kind in kinds:
                loaded, _ = by_image(settings, kind)
                self.assertEqual((fields(opened._book), list(opened._ring)), (fields(loaded._book), list(loaded._ring)))

    def test_first_position(self):
        """From 4 of 6, the second entry is the day's last, and releases."""
        for machine in by_image(replace(SMALL, first=4)):
            periods = []
            for number, price in enumerate((95_001, 95_000, 95_001, 0)):
                enter(machine, number, price)
                periods.append(machine.report(0, 0)[2])
            self.assertEqual(periods, [True, False, True, True])

    def test_other_images(self):
        """One with an entry, and one with a period marked, load; no list of the ledger's begins with them."""
        for place, (kind, blank) in product((20, 60), IMAGES.items()):
            image = blank[:place] + b"\1" + blank[place + 1:]
            self.assertEqual(stored(Book.load(image), kind), image)
            self.assertRaises(ValueError, begun, image)
            self.assertEqual(answered(begun, blank[:-1]), 24)


if __name__ == "__main__":
    unittest.main()
