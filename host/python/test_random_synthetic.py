"""Random test loads (request 2026-07), from a fixed seed: every answer of the library on books of all sizes, and all
that was lent to it, held to synthetic.py's; what was drawn is entered, on smaller books beside the ledger."""

import random
import unittest
from collections import Counter
from dataclasses import replace
from itertools import product

import synthetic
from guxhamole import Book, Settings
from ledger import NONE, Ledger
from link import link_of
from linked import ends_alone, linked
from starts import blank_image
from test_intervals import right_lengths
from test_random import outcome
from test_random_intervals import damaged_book
from test_synthetic import Running, backwards, compared, record_of

SEED = 26
LISTS = 60
FULL = 10_000_000  # entries, after which a book takes no more
# Ends of the type, and seeds whose first d is 0, 63, 64 or 65,535 (the first of all is the one whose s becomes 0).
EDGES = [backwards(65_536 * d + low, 1) for d in (0, 63, 64, 65_535) for low in (0, 65_535)]
EDGES += [0, 1, 2**31 - 1, 2**31, 2**32 - 1]
# How often each kind must be met: an answer, a price that turns on one d, the state of a book, what an entry says.
MET = {
    "drawn 0": 14_000, "drawn 10": 1_500, "drawn 11": 2_000, "both wrong": 1_000, "changed within limits": 200,
    "of 1500000": 1_000, "of -1936": 396, "fresh": 3_000, "with history": 5_000, "with a period": 5_000, "full": 3_000,
    "entered 0": 500, "entered 12": 500, "entered 13": 500, "entered 14": 500, "entered, mended": 1_500,
    "linked, drawn 0": 7_000, "linked, drawn 11": 1_000, "linked, entered": 1_000, "10 of the ends": 100,
}
SHOWN = {"entered": 600, "begun": 100, "ended": 50, "bound": 50, "highest price": 50, "turned round": 300,
         "linked": 250}


def random_settings(dice, regions, services):
    parents = [dice.choice((NONE, *range(region))) if region < regions else NONE for region in range(8)]
    settings = Settings(regions, services, dice.choice((1, 2, 3)), 1, dice.randrange(6), parents, 10_000, 60_000,
                        -60_000)
    return linked(dice, settings)


def turning(dice):
    """A d at which a rule goes another way or a remainder begins anew, or the one before or behind it."""
    divisor = dice.choice((20_000, 3_000, 2_001, 2_000))
    return dice.choice((0, 62, 65, 65_535, divisor * dice.randint(1, 65_535 // divisor) + dice.choice((-1, 0, 0, 1))))


def later(dice, d, place):
    """A seed of which the draw at a place, from 0 up, gives this d."""
    return backwards(65_536 * d + dice.getrandbits(16), place + 1)


def filled(settings):
    """A book that takes no more entries."""
    image = bytearray(blank_image(settings))
    image[20:24] = FULL.to_bytes(4, "little")
    return Book.load(bytes(image))


class Draws:
    """One book after the other, of every size; what was met is counted."""

    def __init__(self, test):
        self.test = test
        self.dice = random.Random(SEED)
        self.met = Counter()

    def open(self, regions, services):
        """A book without entries, one that has and takes them, and one that takes no more."""
        self.settings = random_settings(self.dice, regions, services)
        self.fresh, self.book, self.full = Book.open(self.settings), Book.open(self.settings), filled(self.settings)
        self.schedule = [self.dice.randint(-90_000, 90_000) for _ in range(2 * regions * (services + 1))]

    def head(self, book):
        """Any number and day kind; most often those that an entry takes, or the ends of the types."""
        numbers = *[book.entries] * 3, 0, 2**32 - 1, self.dice.getrandbits(32)
        return self.dice.choice(numbers), self.dice.choice((0, 0, 1, 1, 2, 255, self.dice.getrandbits(8)))

    def compare(self, book, lengths, *lent):
        """The library's answer and synthetic.py's; the answer's number."""
        answer = compared(self.test, book, lengths, *lent)
        self.met[f"drawn {answer[0]}"] += 1
        if link_of(book) and answer[0] != 10:
            self.met[f"linked, drawn {answer[0]}"] += 1
        for price in (1_500_000, -1_936):
            self.met[f"of {price}"] += answer[5].count(price)
        return answer[0]

    def draw(self, seed):
        """By the raw function, and one in three by the method, of which the interval is entered."""
        book = self.dice.choice((self.fresh, self.book, self.book, self.full))
        lent, lengths = (seed, *self.head(book)), right_lengths(book)
        self.compare(book._book, lengths, *lent)
        self.met["fresh"] += book.entries == 0
        self.met["with history"] += 0 < book.entries < FULL
        self.met["with a period"] += any(book._book.marks)
        self.met["full"] += book.entries == FULL
        if self.dice.random() < 0.35:
            before = bytes(book._book), bytes(book._ring)
            drawn = book.synthetic(*lent)
            self.test.assertEqual(drawn, synthetic.drawn(book._book, lengths, *lent), (self.settings, lent))
            self.test.assertEqual((bytes(book._book), bytes(book._ring)), before)
            if book is not self.fresh:
                self.enter(book, drawn.interval)

    def due(self, book, interval):
        """What an entry refuses it by: never its prices, marks or factors."""
        if book is self.full:
            return 12
        if interval.number != book.entries:
            return 13
        return 14 if interval.day_kind > 1 else 0

    def enter(self, book, interval):
        """An entry takes every one, but for its number and day kind, and where these are mended."""
        due = self.due(book, interval)
        answer = outcome(book.enter, *interval, self.schedule)
        self.test.assertEqual(answer[:2], ("refused", due) if due else ("accepted", answer[1]), interval)
        self.met[f"entered {due}"] += 1
        self.met["linked, entered"] += link_of(book) and due in (0, 13, 14)
        if due in (13, 14):
            mended = interval._replace(number=book.entries, day_kind=interval.day_kind % 2)
            self.test.assertEqual(outcome(book.enter, *mended, self.schedule)[0], "accepted", mended)
            self.met["entered, mended"] += 1

    def wrong_lengths(self, right):
        """One slice too short, too long or empty, or as long as another is or a larger book's would be; or several."""
        while True:
            lengths = list(right)
            for place in self.dice.choice(([0], [1], [2], [3], [0, 1], [2, 3], [0, 1, 2, 3])):
                length = lengths[place]
                others = 0, max(0, length - 1), length + 1, 2 * length, right[0], right[1], 8, 88
                lengths[place] = self.dice.choice(others)
            if lengths != right:
                return lengths

    def refuse(self):
        """A wrong length, a damaged book, and both at once. What was changed of a book may be within its limits."""
        sound, seed = self.book._book, self.dice.choice((*EDGES, self.dice.getrandbits(32)))
        lent, right = (seed, *self.head(self.book)), right_lengths(self.book)
        self.compare(sound, self.wrong_lengths(right), *lent)
        damaged = damaged_book(self.dice, sound)
        number = self.compare(damaged, self.dice.choice((right, right_lengths(damaged))), *lent)
        self.met["changed within limits"] += number == 0
        self.met["10 of the ends"] += ends_alone(damaged)
        number = self.compare(damaged, self.wrong_lengths(right_lengths(damaged)), *lent)
        self.met["both wrong"] += number == 10

    def play(self, regions, services):
        """Every draw of an interval with a d of 63, of 64, and another at which something turns."""
        self.open(regions, services)
        for seed in EDGES:
            self.draw(seed)
        for place in range(regions * (services + 3) + 2 * link_of(self.settings)):
            for d in (63, 64, turning(self.dice)):
                self.draw(later(self.dice, d, place))
        for _ in range(40):
            self.draw(self.dice.getrandbits(32))
        for _ in range(24):
            self.refuse()


class Lists:
    """Test loads entered from the first entry on: by a book, the ledger, and the one that keeps sums and periods."""

    def __init__(self, test):
        self.test = test
        self.dice = random.Random(SEED)
        self.met = Counter()

    def open(self):
        """A threshold that a window's sum is about at, and limits within the prices."""
        dice = self.dice
        settings = random_settings(dice, dice.randint(1, 4), dice.choice((0, 1, 2)))
        threshold = 10_000 * max(1, settings.window + dice.choice((-1, 0, 0, 1)))
        cap, floor = dice.choice((5_000, 60_000)), dice.choice((-1, -900))
        self.settings = replace(settings, threshold=threshold, cap=cap, floor=floor)
        self.book, self.machines = Book.open(self.settings), (Ledger.open(self.settings), Running(self.settings))
        self.seed, self.periods = dice.getrandbits(32), []

    def step(self):
        """An interval of the seed that came with the one before; in some another one's, with a highest price."""
        dice, markets = self.dice, self.settings.services + 1
        if dice.random() < 0.1:
            self.seed = later(dice, dice.randrange(64), markets * dice.randrange(self.settings.regions))
        lent = self.seed, self.book.entries, dice.randrange(2)
        self.seed, interval = self.book.synthetic(*lent)
        due = synthetic.drawn(self.book._book, right_lengths(self.book), *lent)
        self.test.assertEqual((self.seed, interval), due)
        schedule = [dice.randint(-9_000, 9_000) for _ in range(2 * len(interval.prices))]
        entered = self.book.enter(*interval, schedule)
        for machine in self.machines:
            self.test.assertEqual(entered, machine.enter(*interval, schedule), (self.settings, interval))
        self.look_at(interval, entered)

    def look_at(self, interval, entered):
        """Every market's report, the record, and what was shown."""
        markets = self.settings.services + 1
        reports = [self.book.report(*divmod(place, markets)) for place in range(len(interval.prices))]
        for machine in self.machines:
            due = [machine.report(*divmod(place, markets)) for place in range(len(interval.prices))]
            self.test.assertEqual(reports, due, (self.settings, interval))
        self.test.assertEqual(record_of(self.book), self.machines[1].record())
        before, self.periods = self.periods or [False] * len(reports), [report.administered for report in reports]
        changes = Counter(zip(before, self.periods))
        self.met["entered"] += 1
        self.met["linked"] += link_of(self.settings)
        self.met["begun"] += changes[False, True]
        self.met["ended"] += changes[True, False]
        self.met["bound"] += entered.count
        self.met["highest price"] += interval.prices[::markets].count(1_500_000)
        self.met["turned round"] += self.book.entries > self.settings.window

    def play(self):
        self.open()
        for _ in range(self.dice.randint(6, 24)):
            self.step()


class RandomLoads(unittest.TestCase):
    def test_against_the_papers_words(self):
        draws = Draws(self)
        for regions, services in product(range(1, 9), range(11)):
            draws.play(regions, services)
        for what, least in MET.items():
            self.assertGreaterEqual(draws.met[what], least, what)
        self.assertEqual(set(draws.met), set(MET))
        print("random loads, met: " + ", ".join(f"{what} {draws.met[what]}" for what in MET))

    def test_against_the_ledger(self):
        lists = Lists(self)
        for _ in range(LISTS):
            lists.play()
        for what, least in SHOWN.items():
            self.assertGreaterEqual(lists.met[what], least, what)
        print("random loads beside the ledger: " + ", ".join(f"{what} {lists.met[what]}" for what in SHOWN))


if __name__ == "__main__":
    unittest.main()
