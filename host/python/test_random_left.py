"""Random lists of calls, from a fixed seed, with a question of intervals left (request 2026-02) after each: every
answer of the library held to the ledger's, and on damaged books and rings to the papers' words."""

import random
import unittest
from collections import Counter
from dataclasses import replace

from book import LARGEST_SUM
from guxhamole import Book
from image import image_of
from ledger import Entry, Ledger
from link import link_of
from linked import ends_alone, kinds_of, link_kind
from starts import by_image, by_opening, stored, with_threshold
from test_left import due_left, entered, first_above, library_left
from test_random import near_hundreds, outcome, random_entry, random_price, random_settings, random_threshold
from test_random_intervals import damaged_book

SEED = 7
QUESTIONS = 20_000
WINDOWS = (1, 2, 3, 4, 6, 9)
LONG = (30, 45)  # beside these; a list of calls turns them round too
MOST_PLACES = 1_000  # of a ring that is made for a damaged book
# How often each kind must be met: an answer, a refusal, and what an error would have to get right by chance.
MET = {
    "0": 500, "1": 500, "between": 500, "W": 200, "21": 100, "43": 100,
    "damaged 0": 200, "damaged 10": 100, "damaged 11": 100, "damaged 21": 40, "damaged 22": 200, "damaged 43": 50,
    "reached before": 200, "not above after W": 200, "above now, and 0": 100, "turned round": 500, "not full": 500,
    "last marked": 200, "restarted": 200, "no more entries": 50, "entered": 1_000, "another order": 20,
    "long window": 200, "begun by an image": 50, "brought": 200, "set": 100, "set refused": 200, "no multiple": 1_000,
    "no link": 150, "a ring": 120, "two trees joined": 100, "with the link": 3_000, "10 of the ends": 70,
}


def sums_after(prices, window, price):
    """Those of the last W of (counted prices ++ n copies), n from 1 to W."""
    return [sum((prices + [price] * number)[-window:]) for number in range(1, window + 1)]


def near_price(dice, prices, window, threshold):
    """One of which some number brings the sum to the threshold, or a cent or two beside it."""
    number = dice.randint(1, window)
    kept = sum((prices + [0] * number)[-window:])
    return (threshold - kept) // number + dice.choice((-1, 0, 0, 1, 1, 2))


def near_threshold(dice, prices, window, price):
    """The sum after some number of this price, or a cent beside it, where a book's threshold may be that."""
    return max(1, dice.choice(sums_after(prices, window, price)) + dice.choice((-1, 0, 0, 0, 1)))


def kind_of(answer, window):
    """ "0", "1", "between", "W" or the refusal's number. """
    if answer[0] == "refused":
        return str(answer[1])
    return {0: "0", window: "W", 1: "1"}.get(answer[1], "between")


def with_price(dice, book, ring):
    """A counted price is another, by a cent or out of its range; in some the sum goes along."""
    region = dice.choice([region for region in range(book.regions) if book.counts[region]] or [0])
    market = dice.randrange(book.services + 1)
    place = (region * (book.services + 1) + market) * book.window + dice.randrange(max(1, book.counts[region]))
    before = ring[place]
    ring[place] = dice.choice((before + 1, before - 1, random_price(dice, market == 0), -1, 10_000_001, -10_000_001))
    if dice.random() < 0.5:
        book.sums[11 * region + market] += ring[place] - before
    return book, ring


def with_sum(dice, book, ring):
    place = 11 * dice.randrange(book.regions) + dice.randrange(book.services + 1)
    book.sums[place] += dice.choice((-1, 1, 2**32, dice.randint(-LARGEST_SUM, LARGEST_SUM)))
    return book, ring


def with_free_place(dice, book, ring):
    """A place that holds no counted price has any number."""
    region = dice.randrange(book.regions)
    if book.counts[region] < book.window:
        window = region * (book.services + 1) + dice.randrange(book.services + 1)
        place = window * book.window + dice.randrange(book.counts[region], book.window)
        ring[place] = dice.choice((1, -2**31, 2**31 - 1, 10_000_001, -10_000_001))
    return book, ring


def with_next_place(dice, book, ring):
    """Another order of the same prices, where the window is full; else 10."""
    book.nexts[dice.randrange(book.regions)] = dice.randrange(book.window + 1)
    return book, ring


def with_length(dice, book, ring):
    return book, dice.choice(([], ring[1:], ring + [0], ring * 2))


def with_field(dice, book, ring):
    """A damaged record, with the ring as it was or one of its own length."""
    book = damaged_book(dice, book)
    places = book.regions * (book.services + 1) * book.window
    if dice.random() < 0.5 and places <= MOST_PLACES:
        ring = (ring + [0] * places)[:places]
    return book, ring


WAYS = (with_price, with_price, with_sum, with_free_place, with_next_place, with_next_place, with_length, with_field,
        with_field)


class Questions:
    """Lists of calls, made on a book and on a ledger; what was met is counted."""

    def __init__(self, test):
        self.test = test
        self.dice = random.Random(SEED)
        self.met = Counter()
        self.phases = set()
        self.questions = 0

    def open(self):
        """A new list's book and ledger, by an opening or by an image of a book without entries; one in ten goes on from
        a book that has taken nearly all entries."""
        window, way = self.dice.choice(LONG if self.dice.random() < 0.05 else WINDOWS), self.dice.random()
        self.settings = replace(random_settings(self.dice), window=window)
        kind = self.dice.choice(kinds_of(self.settings))
        self.met[link_kind(self.settings)] += 1
        if way < 0.5:
            self.book, self.ledger = by_opening(self.settings)
        elif way < 0.9:
            self.settings = replace(self.settings, threshold=near_hundreds(self.dice))
            self.book, self.ledger = by_image(self.settings, kind)
            self.met["begun by an image"] += 1
        else:
            self.ledger = Ledger(self.settings, 10_000_000 - self.dice.randint(0, 2 * window))
            self.book = Book.load(image_of(self.ledger, kind))

    def enter(self):
        """On both, or refused by both; what an entry publishes is test_random.py's to compare."""
        entry = Entry(*random_entry(self.dice, self.settings, self.ledger.marked + self.ledger.taken))
        answer, due = outcome(self.book.enter, *entry), outcome(self.ledger.refuse_entry, entry)
        if due[0] == "refused":
            self.test.assertEqual(answer, due)
        else:
            self.test.assertEqual(answer[0], "accepted")
            self.ledger.entries.append(entry)

    def set_threshold(self, threshold):
        """On both, or refused by both; then the one before is asked about."""
        answer = outcome(self.book.set_threshold, threshold)
        self.test.assertEqual(answer, outcome(self.ledger.set_threshold, threshold))
        self.met["set" if answer[0] == "accepted" else "set refused"] += 1

    def bring_threshold(self, threshold):
        """By an image with the book's entries and this threshold, whatever it is. No list of the ledger's begins with
        it, so the ledger is told."""
        self.book = Book.load(with_threshold(self.image(), threshold))
        now = self.ledger.settings[-1]
        self.ledger.settings.append(now._replace(entries=self.ledger.taken, threshold=threshold))
        self.met["brought"] += 1

    def image(self):
        """The book's, of a kind that tells it."""
        return stored(self.book, self.dice.choice(kinds_of(self.settings)))

    def restart(self):
        """The ledger does not see it."""
        self.book = Book.load(self.image())
        self.met["restarted"] += 1

    def question(self):
        """A market, in some questions one that the book doesn't have, and a price: near the threshold after some number
        of it, or the threshold near that; in some out of its range, or at the range's ends."""
        dice, window = self.dice, self.settings.window
        region, market = dice.randrange(self.settings.regions), dice.randrange(self.ledger.markets)
        prices, way = self.ledger.counted(region, market, self.ledger.taken - 1), dice.random()
        price = random_price(dice, market == 0)
        if way < 0.6:
            price = near_price(dice, prices, window, self.book.threshold)
        elif way < 0.85:
            change = dice.choice((self.set_threshold, self.bring_threshold))
            change(near_threshold(dice, prices, window, price))
        elif way < 0.9:
            price = dice.choice((-10_000_001, -10_000_000, -1, 0, 10_000_000, 10_000_001, -2**31, 2**31 - 1))
        if dice.random() < 0.04:
            beyond = (region, self.ledger.markets), (self.settings.regions, market), (region, 2**32 - 1), (2**32 - 1, 0)
            region, market = dice.choice(beyond)
        return region, market, price

    def ask(self):
        """The book and the ledger; the book and ring stay."""
        question = self.question()
        before = bytes(self.book._book), bytes(self.book._ring)
        answer = outcome(self.book.intervals_left, *question)
        self.questions += 1
        self.test.assertEqual(answer, outcome(self.ledger.intervals_left, *question), (self.settings, question))
        self.test.assertEqual((bytes(self.book._book), bytes(self.book._ring)), before)
        self.met[kind_of(answer, self.settings.window)] += 1
        if answer[0] == "accepted":
            self.look_at(question, answer[1])

    def look_at(self, question, answer):
        """Counts what a question showed; one in three is answered once more by entries that are made."""
        region, market, price = question
        record, window, threshold = self.book._book, self.settings.window, self.book.threshold
        prices = self.ledger.counted(region, market, self.ledger.taken - 1)
        sums = sums_after(prices, window, price)
        self.test.assertEqual(first_above(sums, threshold), answer)
        self.phases.add((window, record.counts[region], record.nexts[region]))
        self.met["turned round"] += len(prices) == window and record.nexts[region] != 0
        self.met["not full"] += len(prices) < window
        self.met["with the link"] += link_of(self.settings)
        self.met["long window"] += window in LONG
        self.met["last marked"] += self.ledger.taken > 0 and self.ledger.entries[-1].marks[region] == 1
        self.met["no multiple"] += threshold % 10_000 != 0
        self.met["no more entries"] += self.book.entries == 10_000_000
        self.met["reached before"] += threshold in sums[:answer or window]
        self.met["not above after W"] += answer > 0 and sums[-1] <= threshold
        self.met["above now, and 0"] += answer == 0 and sum(prices) > threshold
        if self.dice.random() < 0.33 and self.book.entries + window <= 10_000_000:
            self.test.assertEqual(entered(self.book, *question), sums)
            self.met["entered"] += 1

    def ask_damaged(self):
        """A copy of the book and ring with something wrong, or something that is not looked at."""
        question, sound = self.question(), self.book._book
        book, ring = type(sound).from_buffer_copy(sound), list(self.book._ring)
        way = self.dice.choice(WAYS)
        book, ring = way(self.dice, book, ring)
        answer = library_left(book, ring, *question)
        self.questions += 1
        self.test.assertEqual(answer, due_left(book, ring, *question), (self.settings, way.__name__, question))
        self.met[f"damaged {answer[0]}"] += 1
        self.met["10 of the ends"] += ends_alone(book)
        if way is with_next_place and answer[0] == 0:
            self.met["another order"] += answer[1] != self.book.intervals_left(*question)

    def play(self):
        """A list: an opening or an image, and a question after it and after each call."""
        self.open()
        self.ask()
        for _ in range(self.dice.randint(5, 10 + 2 * self.settings.window)):
            way = self.dice.random()
            if way < 0.8:
                self.enter()
            elif way < 0.9:
                self.restart()
            else:
                self.set_threshold(random_threshold(self.dice))
            self.ask()
            if self.dice.random() < 0.4:
                self.ask_damaged()


class RandomQuestions(unittest.TestCase):
    def test_against_the_ledger(self):
        questions = Questions(self)
        while questions.questions < QUESTIONS:
            questions.play()
        for what, least in MET.items():
            self.assertGreaterEqual(questions.met[what], least, what)
        self.assertEqual(set(questions.met), set(MET))
        phases = {(window, count, count) for window in WINDOWS for count in range(window)}
        phases |= {(window, window, place) for window in WINDOWS for place in range(window)}
        self.assertEqual(phases - questions.phases, set())
        met = ", ".join(f"{what} {questions.met[what]}" for what in MET)
        print(f"random questions: {questions.questions}, met: {met}")


if __name__ == "__main__":
    unittest.main()
