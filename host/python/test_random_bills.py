"""Random bills (request 2026-09), from a fixed seed, on random days of books of several shapes: every answer of the
library, its second ring and all else that was lent, held to bill.py's on the ledger that keeps the whole history; on
changed books and rings, to a ledger that goes on from the record and ring."""

import random
import unittest
from collections import Counter
from ctypes import c_int32
from dataclasses import replace

import bill
import interval
from bill import MOST_ENERGY, Resumed
from book import counted
from guxhamole import Book
from held_bill import FILL, MARGIN, columns, library_bill, method_bill
from image import image_of
from interval import Interval, records
from ledger import Ledger
from link import link_of
from linked import ends_alone, kinds_of, link_kind
from mistakes import FORGERIES, mistaken, right_line, spoiled
from starts import by_image, by_opening, stored
from test_intervals import number_of, right_lengths
from test_random import near_hundreds, outcome, random_entry, random_limits, random_price, random_settings
from test_random_intervals import damaged

SEED = 9
BILLS = 12_000
SLICES = ("ring", "second ring", "schedule", "numbers", "energy", "prices", "amounts")
# How often each kind must be met: an answer to a bill of a sound book, of a book or ring that others changed, with a
# slice or a region that doesn't fit; and what an error would have to get right by chance.
MET = {
    "yes": 1_000, "wrong at 0": 250, "wrong in the middle": 450, "missing": 80, "surplus": 150,
    "12": 150, "13": 120, "14": 50, "15": 45, "16": 70, "17": 35, "40": 200, "41": 100, "45": 80, "46": 400,
    "forged, yes": 250, "forged, wrong": 250, "forged, 10 first": 350, "forged, 10 mid-way": 180, "forged, 11": 8,
    "forged, 12": 50, "forged, 13": 40, "forged, 14": 10, "forged, 15": 10, "forged, 16": 15, "forged, 17": 8,
    "forged, 21": 0, "forged, 40": 60, "forged, 41": 30, "forged, 45": 20, "forged, 46": 100,
    "mid-way before a broken record": 15,
    "misfit, 10": 80, "misfit, 11": 500, "misfit, 21": 140, **{f"11 of {name}": 50 for name in SLICES},
    "refused before 46": 150, "refused behind a wrong line": 140, "place of a later interval": 100,
    "46 behind a wrong line": 70, "46 of a surplus line": 250, "46 of two lines": 70,
    "yes to nothing": 150, "yes to more than 8": 50, "marked": 600, "another price than the entry's": 1_500,
    "half a cent": 450, "half a cent below zero": 350, "half a cent from the even": 500,
    "1,000,000,000 kilowatt-hours": 500,
    "no link": 100, "a ring": 60, "two trees joined": 60, "linked, yes": 400, "linked, wrong": 250, "linked, 12": 50,
    "linked, 13": 40, "linked, 14": 15, "linked, 15": 15, "linked, 16": 25, "linked, 17": 15, "linked, 40": 100,
    "linked, 41": 50, "linked, 45": 30, "linked, 46": 150, "17 of the link": 10, "yes by the link": 20,
    "10 of the ends": 40,
}


class Bills:
    """One book and day after the other, with several bills each; what was met is counted."""

    def __init__(self, test):
        self.test = test
        self.dice = random.Random(SEED)
        self.met = Counter()
        self.bills = 0

    def open(self):
        """A book and its ledger: by an opening, or by an image of a book without entries; one in eight takes few more
        entries."""
        self.settings, way = random_settings(self.dice), self.dice.random()
        kind = self.dice.choice(kinds_of(self.settings))
        self.met[link_kind(self.settings)] += 1
        if way < 0.5:
            self.book, self.ledger = by_opening(self.settings)
        elif way < 0.875:
            self.settings = replace(self.settings, threshold=near_hundreds(self.dice))
            self.book, self.ledger = by_image(self.settings, kind)
        else:
            self.ledger = Ledger(self.settings, 10_000_000 - self.dice.randint(0, 9))
            self.book = Book.load(image_of(self.ledger, kind))

    def entry(self, number):
        """A random one by the limits and the threshold that are set now."""
        now = self.ledger.settings[-1]
        return random_entry(self.dice, replace(self.settings, threshold=now.threshold, cap=now.cap, floor=now.floor),
                            self.ledger.marked + self.ledger.taken + number)

    def go_before(self):
        """What was before the day: entries, and in some other limits or a restart, so that windows turn round."""
        for _ in range(self.dice.choice((0, 0, 1, 2, 3, 5, 8))):
            entry = self.entry(0)
            self.test.assertEqual(outcome(self.book.enter, *entry), outcome(self.ledger.enter, *entry))
        if self.dice.random() < 0.2:
            limits = random_limits(self.dice)
            for machine in (self.book, self.ledger):
                machine.set_limits(*limits)
        if self.dice.random() < 0.3:
            self.book = Book.load(stored(self.book, self.dice.choice(kinds_of(self.settings))))

    def begin(self):
        """A day of 0 to 8 intervals, some longer, as the ledger plays it. The one that goes on from the record and ring
        makes the same of it."""
        length = self.dice.randint(0, 8) if self.dice.random() < 0.93 else self.dice.randint(9, 16)
        self.intervals = [Interval(*self.entry(number)[:6]) for number in range(length)]
        places = self.settings.regions * (self.settings.services + 1)
        self.schedule = [random_price(self.dice, True) for _ in range(2 * places * self.settings.halves)]
        self.raw, self.ring = self.book._book, list(self.book._ring)
        self.records = self.recorded(self.intervals)
        history = self.ledger.history()
        self.day = bill.played(self.raw, history, self.records, self.schedule)
        resumed = bill.played(self.raw, Resumed(self.raw, self.ring), self.records, self.schedule)
        self.test.assertEqual((resumed.tables, str(resumed.refused)), (self.day.tables, str(self.day.refused)))
        self.hold_windows(history)

    def hold_windows(self, history):
        """The second ring that bill.py makes of the day holds the prices that the ledger counts after it."""
        after, ring = type(self.raw).from_buffer_copy(self.raw), bill.worked(self.raw, self.ring, self.day.entries)
        for region in range(after.regions):
            joined = sum(entry.marks[region] == 0 for entry in self.day.entries)
            after.counts[region] = min(after.window, after.counts[region] + joined)
            after.nexts[region] = (after.nexts[region] + joined) % after.window
            for market in range(after.services + 1):
                due = history.counted(region, market, history.taken - 1)
                self.test.assertEqual(counted(after, ring, region, market), due)

    def recorded(self, intervals):
        return b"".join(piece for each in intervals for piece in records(self.settings, each))

    def damaged_records(self):
        """In three of ten an interval, or a record, is wrong; in some both."""
        intervals, way = self.intervals, self.dice.random()
        if way < 0.16 and intervals:
            intervals = spoiled(self.dice, intervals)
        if way < 0.13 or way > 0.3:
            return self.recorded(intervals)
        pieces = [piece for each in intervals for piece in records(self.settings, each)]
        if self.dice.random() < 0.1:
            return b"".join(pieces) + bytes(self.dice.randint(1, 12))
        return b"".join(damaged(self.dice, self.settings, pieces))

    def lines(self, region):
        """A bill that is right, then left or not. Beside a published price: the entry's, and those of other regions and
        markets."""
        energy = region * (self.settings.services + 1)
        days = list(zip(self.day.entries, self.day.tables))
        right = [right_line(self.dice, entry.number, table[energy]) for entry, table in days]
        others = [[entry.prices[energy]] * len(table) + table for entry, table in days]
        return mistaken(self.dice, right, others)

    def compare(self, book, ring, given, schedule, region, lines, play, work=None):
        """The answer, if all of it is bill.py's."""
        if work is None:
            work = [self.dice.getrandbits(32) - 2**31 for _ in ring]
        of_library = library_bill(book, ring, work, given, schedule, region, lines)
        due = bill.billed(book, ring, work, schedule, region, lines, play)
        self.bills += 1
        margin = [FILL] * MARGIN
        if of_library != [*due[:4], margin + due.work + margin, True]:
            self.test.fail(f"bill {self.bills}: {of_library} is not {due}: {self.settings}, {region}, {lines}")
        return due

    def hold_method(self, book, ring, answer, *lent):
        """What the method says, and that book and ring stay."""
        lender = Book(book, (c_int32 * len(ring))(*ring))
        before = bytes(lender._book)
        self.test.assertEqual(method_bill(lender, *lent), answer)
        self.test.assertEqual((bytes(lender._book), list(lender._ring)), (before, ring))

    def bill(self):
        region = self.dice.randrange(self.settings.regions)
        given, lines, days = self.damaged_records(), self.lines(region), []

        def play():
            whole = given == self.records
            days.append(self.day if whole else bill.played(self.raw, self.ledger.history(), given, self.schedule))
            return days[-1]

        answer = self.compare(self.raw, self.ring, given, self.schedule, region, columns(lines), play)
        self.count(answer, days[0], region, lines)
        if self.dice.random() < 0.3:
            self.hold_method(self.raw, self.ring, answer[:4], given, self.schedule, region, lines)

    def misfit(self):
        """A slice of another length, a region that the book doesn't have, or both; in some the book is closed too."""
        dice, region, name = self.dice, self.dice.randrange(self.settings.regions), None
        lent = dict(zip(SLICES, (self.ring, [FILL] * len(self.ring), self.schedule, *columns(self.lines(region)))))
        if dice.random() < 0.7:
            name = dice.choice(SLICES)
            lent[name] = dice.choice((lent[name][1:], lent[name] + [0], lent[name] * 2, []))
        if name is None or dice.random() < 0.3:
            region = self.settings.regions + dice.choice((0, 0, 1, 8, 248, 2**16, 2**32 - 9))
        book, given = self.raw if dice.random() < 0.9 else type(self.raw)(), self.damaged_records()
        ring, work, schedule, *lines = lent.values()
        play = self.playing(book, ring, given, [])
        number = self.compare(book, ring, given, schedule, region, bill.Lines(*lines), play, work).number
        if number in (10, 11, 21):  # else the slice had nothing to lose
            self.met[f"misfit, {number}"] += 1
        if number == 11:
            self.met[f"11 of {name}"] += 1

    def playing(self, book, ring, given, days):
        """What plays the day of any book and ring, and leaves it in a list."""
        def play():
            days.append(bill.played(book, Resumed(book, ring), given, self.schedule))
            return days[0]

        return play

    def forgery(self):
        """A copy of book and ring that others changed; in some the day breaks off after an interval or two."""
        region, days = self.dice.randrange(self.settings.regions), []
        lines, given = self.lines(region), self.damaged_records()
        if self.dice.random() < 0.2:
            given = given[:self.dice.randint(1, 2) * interval.length(self.settings)] + bytes(self.dice.randint(1, 12))
        book, ring = type(self.raw).from_buffer_copy(self.raw), list(self.ring)
        book, ring = self.dice.choice(FORGERIES)(self.dice, book, ring)
        play = self.playing(book, ring, given, days)
        answer = self.compare(book, ring, given, self.schedule, region, columns(lines), play)
        said = answer.number or ("yes" if answer.right else "wrong")
        if answer.number == 10:
            said = "10 mid-way" if days else "10 first"
        self.met[f"forged, {said}"] += 1
        self.met["10 of the ends"] += ends_alone(book)
        if said == "10 mid-way":
            rest = given[len(days[0].entries) * interval.length(book):]
            self.met["mid-way before a broken record"] += isinstance(number_of(self.read, book, rest), int)
        if len(ring) == len(self.ring):
            self.hold_method(book, ring, answer[:4], given, self.schedule, region, lines)

    @staticmethod
    def read(book, rest):
        return interval.read(book, right_lengths(book), rest, 0)

    def count(self, answer, day, region, lines):
        """What a bill of a sound book showed."""
        intervals, energy = len(day.entries), region * (self.settings.services + 1)
        if link_of(self.settings):
            self.met[f"linked, {answer.number or ('yes' if answer.right else 'wrong')}"] += 1
            self.met["17 of the link"] += (answer.number, answer.place) == (17, self.settings.regions)
            self.met["yes by the link"] += answer.right and self.by_the_link(energy)
        if answer.number:
            self.look_at_refusal(answer, day, energy, lines)
        elif answer.right:
            self.look_at(day, energy, lines)
        elif answer.line >= len(lines):
            self.met["missing"] += 1
        elif answer.line >= intervals:
            self.met["surplus"] += 1
        else:
            self.met["wrong at 0" if answer.line == 0 else "wrong in the middle"] += 1

    def by_the_link(self, energy):
        """Whether the day's published prices would be others, if the link carried nothing."""
        history, tables = self.ledger.history(), []
        for each in self.day.entries:
            tables.append(history.enter(*each._replace(flows=[*each.flows[:-1], 0]), self.schedule)[1])
        return any(table[energy] != other[energy] for table, other in zip(self.day.tables, tables))

    def look_at_refusal(self, answer, day, energy, lines):
        """What a refusal came before, and 46 behind."""
        above = [place for place, line in enumerate(lines) if line.energy > MOST_ENERGY]
        due = zip((entry.number for entry in day.entries), (table[energy] for table in day.tables))
        wrong = bill.first_wrong(due, columns(lines))
        before = wrong is not None and wrong < min(len(day.entries), above[0] if above else len(lines))
        self.met[str(answer.number)] += 1
        if answer.number != 46:
            self.met["refused before 46"] += above != []
            self.met["refused behind a wrong line"] += before
            self.met["place of a later interval"] += answer.number in (15, 16, 17) and day.entries != []
        else:
            self.met["46 behind a wrong line"] += before
            self.met["46 of a surplus line"] += answer.place >= len(day.entries)
            self.met["46 of two lines"] += len(above) > 1

    def look_at(self, day, energy, lines):
        """A bill that is right."""
        self.met["yes"] += 1
        self.met["yes to nothing"] += not lines
        self.met["yes to more than 8"] += len(lines) > 8
        for entry, line in zip(day.entries, lines):
            marked = entry.marks[energy // (self.settings.services + 1)] == 1
            exact = line.energy * line.price
            self.met["marked"] += marked
            self.met["another price than the entry's"] += not marked and line.price != entry.prices[energy]
            self.met["half a cent"] += exact % 1_000 == 500 and exact > 0
            self.met["half a cent below zero"] += exact % 1_000 == 500 and exact < 0
            self.met["half a cent from the even"] += exact % 1_000 == 500 and line.amount % 2 == 1
            self.met["1,000,000,000 kilowatt-hours"] += line.energy == MOST_ENERGY

    def play(self):
        self.open()
        self.go_before()
        self.begin()
        before = bytes(self.book._book), bytes(self.book._ring)
        for _ in range(14):
            self.bill()
        for _ in range(4):
            self.misfit()
        for _ in range(6):
            self.forgery()
        self.test.assertEqual((bytes(self.book._book), bytes(self.book._ring)), before)


class RandomBills(unittest.TestCase):
    def test_against_the_ledger(self):
        bills = Bills(self)
        while bills.bills < BILLS:
            bills.play()
        met = ", ".join(f"{what} {bills.met[what]}" for what in sorted(bills.met))
        print(f"random bills: {bills.bills}, met: {met}")
        for what, least in MET.items():
            self.assertGreaterEqual(bills.met[what], least, what)
        self.assertEqual(set(bills.met) - set(MET), set())


if __name__ == "__main__":
    unittest.main()
