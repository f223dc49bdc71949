"""Random records, test loads and days with the additional link (request 2026-10 of document 02), from a fixed seed: the
reader, writer, rewriter, draw and bill check of `kit`, as in test_links.py, held to round trips, to a second reader and
to what a ledger that tries every order of regions as a route publishes."""

import random
import unittest
from collections import Counter

import edition
from book import refuse_book
from link import link_of
from linked import closes_ring, opening_of
from permuted import Permuted
from test_random import random_entry, random_price
from test_random import random_settings as small_settings
from test_random_intervals import damaged, damaged_book, random_interval, random_place, random_settings
from test_random_links import said

SEED = 18
RECORDS = {
    "read 0": 600, "read 10": 250, "read 40": 800, "read 41": 600, "read 45": 600,
    "rewritten 0": 1_000, "rewritten 10": 250, "rewritten 40": 800, "rewritten 41": 600, "rewritten 42": 120,
    "with the link": 2_000, "40 at the link": 60, "41 at the link": 20, "40 of a kind 18": 60,
    "41 of a kind 18": 120, "rewritten in another order": 250, "drawn": 400, "entered": 700,
}
DAYS = {"yes": 400, "wrong": 200, "yes round a ring": 100, "17": 80, "17 of the link": 60, "40": 80, "41": 70}


def due_records(book):
    """The kinds and lengths of an interval's records, in order, and by kind the length that it has in any book."""
    sizes = {16: 12, 17: 16 + 4 * (book.services + 1), 18: 14}
    return [16] + [17] * book.regions + [18] * link_of(book), sizes


def size_of(book):
    """An interval's bytes."""
    kinds, sizes = due_records(book)
    return sum(sizes[kind] for kind in kinds)


def second_reader(book, given, at, upward):
    """What refuses an interval at a place, and at which record; or 0 and its records' bytes as they stand."""
    kinds, sizes = due_records(book)
    pieces, seen = [], set()
    for number, due in enumerate(kinds):
        rest = given[at:]
        size, kind = int.from_bytes(rest[:4], "little"), int.from_bytes(rest[4:6], "little")
        if len(rest) < 6 or not 6 <= size <= len(rest) or size != sizes.get(kind, size):
            return 40, number, kind
        if kind != due or (due == 16 and rest[11] != book.regions):
            return 41, number, kind
        if due == 17 and upward and rest[6] != number - 1:
            return 45, number, kind
        if due == 17 and (rest[6] >= book.regions or rest[6] in seen):
            return 42, number, kind
        seen |= {rest[6]} if due == 17 else set()
        pieces.append(bytes(rest[:size]))
        at += size
    return 0, pieces, at


def in_order(book, pieces):
    """An interval's records by region, the head before them and the link's behind."""
    end = 1 + book.regions
    return b"".join([pieces[0], *sorted(pieces[1:end], key=lambda piece: piece[6]), *pieces[end:]])


class Records:
    """One book after the other, with one to three intervals end to end."""

    def __init__(self, test):
        self.test, self.kit = test, test.kit
        self.dice = random.Random(SEED)
        self.met = Counter()
        self.reads = 0

    def open(self):
        """A book of any size with one to three intervals, in half of them regions in another order."""
        kit, self.settings = self.kit, opening_of(random_settings(self.dice))
        image = kit.image.image_of(kit.ledger.Ledger(self.settings), 2)
        places = self.settings.regions * (self.settings.services + 1) * self.settings.window
        self.book, _ = kit.record.load(image, places)
        self.ledger, self.feed, self.pieces = kit.ledger.Ledger(self.settings), [], []
        for number in range(self.dice.randint(1, 3)):
            self.feed.append(kit.interval.Interval(*random_interval(self.dice, self.settings, number)))
            head, *rest = kit.interval.records(self.settings, self.feed[-1])
            regions, behind = rest[:self.settings.regions], rest[self.settings.regions:]
            if self.dice.random() < 0.5:
                self.dice.shuffle(regions)
            self.pieces += [head, *regions, *behind]

    def trip(self, entry):
        """Written, read, rewritten; and the link's record is the last 14 bytes."""
        interval, book = self.kit.interval, self.book
        size = size_of(book)
        written = interval.write(book, entry, size)
        self.test.assertEqual(len(written), size)
        self.test.assertEqual(said(interval.write, book, entry, size - 1), ("refused", 23, None))
        self.test.assertEqual(interval.read(book, interval.lengths(book), written, 0), (entry, size))
        self.test.assertEqual(interval.rewrite(book, written, 0, size), (written, size))
        self.test.assertEqual(said(interval.rewrite, book, b"", 0, size - 1), ("refused", 23, None))
        if link_of(book):
            flow, factor = entry.flows[-1].to_bytes(4, "little", signed=True), entry.factors[-1].to_bytes(4, "little")
            self.test.assertEqual(written[-14:], bytes([14, 0, 0, 0, 18, 0]) + flow + factor)

    def read(self):
        """Reader and rewriter on damaged records, on a sound book or not."""
        book, pieces, interval = self.book, self.pieces, self.kit.interval
        for _ in range(self.dice.choice((0, 1, 1, 2))):
            pieces = damaged(self.dice, self.settings, pieces)
        if self.dice.random() < 0.1:
            book = damaged_book(self.dice, book)
        given, at = b"".join(pieces), random_place(self.dice, self.settings, pieces)
        broken = said(refuse_book, book)[0] == "refused"
        answer = said(interval.read, book, interval.lengths(book), given, at)
        self.hold_read(book, given, at, answer, (10, 0, 0) if broken else second_reader(book, given, at, True))
        answer = said(interval.rewrite, book, given, at, size_of(book))
        self.hold_form(book, given, at, answer, (10, 0, 0) if broken else second_reader(book, given, at, False))

    def hold_read(self, book, given, at, answer, due):
        self.reads += 1
        self.met[f"read {due[0]}"] += 1
        self.met["with the link"] += link_of(book)
        if due[0]:
            self.test.assertEqual(answer, ("refused", due[0], None), (self.settings, at, given.hex()))
            self.met[f"{due[0]} at the link"] += due[1] == 1 + book.regions
            self.met[f"{due[0]} of a kind 18"] += due[2] == 18 and due[1] <= book.regions
            return
        entry, after = answer[1]
        self.test.assertEqual(after, due[2])
        self.test.assertEqual(b"".join(self.kit.interval.records(book, entry)), b"".join(due[1]))

    def hold_form(self, book, given, at, answer, due):
        self.met[f"rewritten {due[0]}"] += 1
        if due[0]:
            self.test.assertEqual(answer, ("refused", due[0], None), (self.settings, at, given.hex()))
            return
        form = in_order(book, due[1])
        self.test.assertEqual(answer, ("accepted", (form, due[2])))
        self.met["rewritten in another order"] += form != given[at:due[2]] and link_of(book)
        earlier, _ = self.kit.interval.read_earlier(book, given, at)
        again = self.kit.interval.read(book, self.kit.interval.lengths(book), form, 0)
        self.test.assertEqual(again, (earlier, len(form)))

    def draw(self):
        """As a book without the link draws, and one more pair; an entry takes it."""
        kit, book, seed = self.kit, self.book, self.dice.getrandbits(32)
        lengths, number = kit.interval.lengths(book), self.ledger.taken
        last, drawn = kit.synthetic.drawn(book, lengths, seed, number, 0)
        without = type(book).from_buffer_copy(book)
        without.from_ = without.to = 255
        s, same = kit.synthetic.drawn(without, kit.interval.lengths(without), seed, number, 0)
        places = book.regions
        self.test.assertEqual(drawn[:4], same[:4])
        self.test.assertEqual((drawn.flows[:places], drawn.factors[:places]), (same.flows, same.factors))
        pair = []
        for _ in range(2 * link_of(book)):
            s = (s * 1_664_525 + 1_013_904_223) % 2**32
            pair.append(s >> 16)
        self.test.assertEqual(last, s)
        self.test.assertEqual([*drawn.flows[places:], *drawn.factors[places:]],
                              [pair[0] % 2_001 - 1_000, 10_000 + pair[1] % 2_000] if pair else [])
        self.met["drawn"] += link_of(book)
        schedule = [0] * (2 * len(drawn.prices) * self.settings.halves)
        self.met["entered"] += said(self.ledger.enter, *drawn, schedule)[0] == "accepted"

    def play(self):
        self.open()
        for entry in self.feed:
            self.trip(entry)
        for _ in range(8):
            self.read()
        for _ in range(2):
            self.draw()


class Days:
    """Bills of random days of books with the link: by the record and ring, and by the whole history."""

    def __init__(self, test):
        self.test, self.kit = test, test.kit
        self.dice = random.Random(SEED)
        self.met = Counter()
        self.bills = 0

    def open(self):
        """A book after some entries, its day, and what the ledger that tries every order publishes of it."""
        self.settings = opening_of(small_settings(self.dice, (2, 3, 3, 4, 5)))
        self.ledger = self.kit.ledger.Ledger(self.settings)
        permuted = Permuted(self.settings)
        for number in range(self.dice.choice((0, 1, 2, 4))):
            entry = random_entry(self.dice, self.settings, number)
            self.test.assertEqual(self.ledger.enter(*entry), permuted.enter(*entry))
        numbers = range(self.ledger.taken, self.ledger.taken + self.dice.randint(1, 6))
        self.day = [random_entry(self.dice, self.settings, number)[:6] for number in numbers]
        places = self.settings.regions * (self.settings.services + 1)
        self.schedule = [random_price(self.dice, True) for _ in range(2 * places * self.settings.halves)]
        self.tables = [permuted.enter(*each, self.schedule)[1] for each in self.day]
        image = self.kit.image.image_of(self.ledger, 2)
        self.book, self.ring = self.kit.record.load(image, places * self.settings.window)

    def recorded(self, day):
        intervals = [self.kit.interval.Interval(*each) for each in day]
        return b"".join(b"".join(self.kit.interval.records(self.settings, each)) for each in intervals)

    def check(self, records, region, lines):
        """By both ledgers the same, the second ring too."""
        bill = self.kit.bill
        answers = [bill.billed(self.book, self.ring, [7] * len(self.ring), self.schedule, region, bill.Lines(*lines),
                               lambda: bill.played(self.book, ledger, records, self.schedule))
                   for ledger in (bill.Resumed(self.book, self.ring), self.ledger.history())]
        self.test.assertEqual(answers[0], answers[1])
        self.bills += 1
        return answers[0][:4]

    def bill(self):
        """Right lines, and lines of which one has another price."""
        region = self.dice.randrange(self.settings.regions)
        prices = [table[region * (self.settings.services + 1)] for table in self.tables]
        lines = [[each[0] for each in self.day], [1_000] * len(prices), prices, prices]
        records = self.recorded(self.day)
        self.test.assertEqual(self.check(records, region, lines), (0, 0, 1, 0), (self.settings, self.day))
        self.met["yes"] += 1
        self.met["yes round a ring"] += link_of(self.settings) and closes_ring(self.settings, self.settings[-2:])
        wrong = self.dice.randrange(len(prices))
        others = [price + (place == wrong) for place, price in enumerate(prices)]
        if self.dice.random() < 0.5:
            self.test.assertEqual(self.check(records, region, [*lines[:2], others, others]), (0, 0, 0, wrong))
            self.met["wrong"] += 1

    def spoil(self):
        """A factor of the last interval that 17 refuses, or records that end before the link's or have none."""
        last = [*self.day[-1][:5], list(self.day[-1][5])]
        place = self.dice.choice((0, len(last[5]) - 1, len(last[5]) - 1))
        last[5][place] = self.dice.choice((9_999, 20_001))
        looked = place == self.settings.regions or self.settings.parents[place] != 255
        answer = self.check(self.recorded([*self.day[:-1], last]), 0, [[]] * 4)
        self.test.assertEqual(answer[:2], (17, place) if looked else (0, 0))
        self.met["17"] += looked
        self.met["17 of the link"] += place == self.settings.regions
        records = self.recorded(self.day)
        if link_of(self.settings):
            self.test.assertEqual(self.check(records[:-14], 0, [[]] * 4)[0], 40)
            self.met["40"] += 1
            first = len(self.recorded(self.day[:1]))
            if len(self.day) > 1:
                self.test.assertEqual(self.check(records[:first - 14] + records[first:], 0, [[]] * 4)[0], 41)
                self.met["41"] += 1

    def play(self):
        self.open()
        for _ in range(3):
            self.bill()
        self.spoil()


class RandomLinkRecords(unittest.TestCase):
    kit = edition.loaded()
    reads, bills, whole = 5_000, 1_500, True
    whose = ""  # of which code

    def show(self, name, count, met, least):
        if self.whole:
            print(f"{self.whose}{name}: {count}, met: " + ", ".join(f"{what} {met[what]}" for what in least))
            for what, times in least.items():
                self.assertGreaterEqual(met[what], times, what)

    def test_records(self):
        records = Records(self)
        while records.reads < self.reads:
            records.play()
        self.show("random records with links", records.reads, records.met, RECORDS)

    def test_days(self):
        days = Days(self)
        while days.bills < self.bills:
            days.play()
        self.show("random bills with links", days.bills, days.met, DAYS)


if __name__ == "__main__":
    unittest.main()
