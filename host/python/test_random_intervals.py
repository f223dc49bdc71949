"""Random interval records, from a fixed seed, on books of all sizes: every answer of the library's reader, writer and
rewriter, and all that was lent to them, held to interval.py's. What is read is rewritten too."""

import random
import unittest
from itertools import accumulate, zip_longest

import interval
from arithmetic import Refused
from book import LARGEST_SUM
from guxhamole import Book, Refusal, Settings
from held import Held, any_interval
from interval import Interval
from ledger import NONE
from link import link_of
from linked import damaged_links, ends_alone, linked, odd_ends, pieces_of
from starts import by_opening
from test_intervals import due_write, library_write, number_of, right_lengths
from test_random import outcome, random_entry

SEED = 1
CALLS = 20_000
MOST_ROOM = 4_000  # bytes; a damaged book may have far longer intervals than any that is sound
# Lengths, kinds and totals that are right somewhere, and those beside them.
TELLING = (0, 1, 2, 5, 6, 11, 12, 13, 16, 17, 18, 20, 255)
# A book's fields at their ends and beyond.
ENDS = {
    "regions": (0, 1, 8, 9), "services": (0, 10, 11), "window": (0, 1, 2, 3, 2016, 2017), "halves": (0, 1, 48, 49),
    "parents": (0, 1, 7, 254, 255), "threshold": (0, 1, 95_000, 100_000_000_000, 100_000_000_001),
    "cap": (0, 1, 10_000_000, 10_000_001), "floor": (0, -1, -10_000_000, -10_000_001),
    "entries": (0, 1, 2, 10_000_000, 10_000_001), "position": (0, 5, 6, 288), "counts": (0, 1, 2, 3, 4),
    "nexts": (0, 1, 2, 3), "sums": (0, 1, LARGEST_SUM, LARGEST_SUM + 1, -LARGEST_SUM, -LARGEST_SUM - 1),
    "marks": (0, 1, 2, 255), "from_": (0, 1, 2, 7, 8, 254, 255), "to": (0, 1, 2, 7, 8, 254, 255),
}
# How often each must be met: an answer, what the rewriter says to one of the reader's, and the rest.
MET = {
    "read 0": 4_000, "read 10": 1_000, "read 11": 300, "read 40": 2_000, "read 41": 1_000, "read 45": 2_000,
    "write 0": 4_000, "write 10": 300, "write 11": 300, "write 23": 1_500,
    "rewrite 0": 4_000, "rewrite 10": 1_000, "rewrite 23": 2_000, "rewrite 40": 2_000, "rewrite 41": 1_000,
    "rewrite 42": 200, "10 before 23": 200, "23 before a record": 1_000,
    "0, rewritten 0": 1_000, "40, rewritten 40": 1_500, "41, rewritten 41": 800, "45, rewritten 0": 700,
    "45, rewritten 40": 150, "45, rewritten 41": 50, "45, rewritten 42": 200,
    "two of one entry": 500, "all rewritten": 300, "entered": 600,
    "10 of the ends": 150, "entered with the link": 250,
    "linked, read 0": 600, "linked, read 11": 150, "linked, read 40": 1_000, "linked, read 41": 600,
    "linked, read 45": 1_000, "linked, write 0": 1_500, "linked, write 11": 150, "linked, write 23": 700,
    "linked, rewrite 0": 900, "linked, rewrite 23": 1_000, "linked, rewrite 40": 900, "linked, rewrite 41": 500,
    "linked, rewrite 42": 100,
}


def random_settings(dice):
    regions = dice.randint(1, 8)
    parents = [dice.choice((NONE, *range(region))) if region < regions else NONE for region in range(8)]
    settings = Settings(regions, dice.randint(0, 10), dice.choice((1, 2, 3)), 1, dice.randrange(6), parents, 90_000,
                        60_000, -60_000)
    return linked(dice, settings)


def random_interval(dice, settings, number):
    """One that an entry takes, or, as often, any numbers of their types."""
    if dice.random() < 0.5:
        return Interval(*random_entry(dice, settings, number)[:6])
    drawn = any_interval(dice, settings.regions, settings.services, link_of(settings))
    return drawn._replace(number=dice.choice((number, drawn.number)), day_kind=dice.choice((0, 1, drawn.day_kind)))


def with_byte(dice, regions, piece):
    """A byte changed, most often one of the length, the kind, the region or the total."""
    changed = bytearray(piece)
    place = dice.randrange(min(len(piece), dice.choice((7, 12, len(piece)))))
    changed[place] = dice.choice((*TELLING, dice.randrange(256)))
    return bytes(changed)


def with_front(dice, regions, piece):
    """Another length and another kind at once."""
    length = dice.choice((0, 5, 6, 7, 12, len(piece), len(piece) + 1, 1_000, 2**32 - 1))
    return interval.FRONT.pack(length, dice.choice((0, 1, 16, 17, 18, 99, 16 * 256, 256 + 17))) + piece[6:]


def with_more(dice, regions, piece):
    """A byte added, which the length may or may not say."""
    place = dice.choice((0, len(piece), dice.randrange(len(piece) + 1)))
    longer = piece[:place] + bytes([dice.randrange(256)]) + piece[place:]
    return longer if dice.random() < 0.5 else bytes([len(longer) % 256]) + longer[1:]


def with_region(dice, regions, piece):
    """A region from R up, or one of the others."""
    return piece[:6] + bytes([dice.choice((regions, 255, dice.randrange(regions)))]) + piece[7:]


def damaged(dice, settings, pieces):
    """Records of which one is wrong, cut, missing, given twice, or where another one was. In one in three it is the
    additional link's, or one like it where there is none."""
    if dice.random() < 0.33:
        return damaged_links(dice, pieces)
    chosen = dice.randrange(len(pieces)) if pieces else 0
    before, piece, after = pieces[:chosen], pieces[chosen:chosen + 1], pieces[chosen + 1:]
    way = dice.randrange(10)
    if way == 0:
        return before + [part[:dice.choice((5, 6, len(part) - 1, dice.randrange(len(part))))] for part in piece if part]
    if way == 1:
        return before + dice.choice(([], piece + piece)) + after
    if way == 2:
        return dice.sample(pieces, len(pieces))
    change = dice.choice((with_byte, with_byte, with_front, with_more, with_region, with_region))
    return before + [change(dice, settings.regions, part) for part in piece if part] + after


def random_place(dice, settings, pieces):
    """Where an interval begins, and also any other place, beyond the end, and where 32 or 64 bits would wrap."""
    starts = [0, *accumulate(len(piece) for piece in pieces)]
    end, way = starts[-1], dice.randrange(20)
    if way < 14:
        return dice.choice(starts[:-1:pieces_of(settings)] or [0])
    if way < 16:
        return dice.choice(starts)
    wrapped = 2**64 - max(1, end - dice.choice(starts))  # a record's place, were the records lent from their end on
    return dice.choice((dice.randint(0, end), end + dice.randint(0, 20), 2**32 + dice.choice(starts),
                        2**63 + dice.choice(starts), wrapped, 2**64 - dice.randint(1, 80)))


def damaged_book(dice, book):
    """A closed book, or the record with a byte changed, with other ends of the link, or with up to three fields at
    their ends or beyond."""
    record, way = bytearray(book), dice.randrange(11)
    if way == 0:
        return type(book)()
    if way < 4:
        record[dice.choice((0, 1, dice.randrange(72), dice.randrange(len(record))))] = dice.randrange(256)
    changed = type(book).from_buffer_copy(record)
    if way == 10:
        changed.from_, changed.to = odd_ends(dice, book)
    for _ in range(dice.randint(1, 3) if 4 <= way < 10 else 0):
        name = dice.choice([*ENDS])
        field, value = getattr(changed, name), dice.choice(ENDS[name])
        if isinstance(field, int):
            setattr(changed, name, value)
        else:
            field[dice.randrange(len(field))] = value
    return changed


def collected(found):
    """The intervals that come, and the number by which one is refused."""
    taken = []
    try:
        for each in found:
            taken.append(each)
    except (Refusal, Refused) as refused:
        taken.append(refused.number)
    return taken


def due_intervals(book, records, at):
    while at != len(records):
        found, at = interval.read(book, right_lengths(book), records, at)
        yield found


def due_forms(book, records, at):
    forms = []
    while at != len(records):
        form, at = interval.rewrite(book, records, at, interval.length(book))
        forms.append(form)
    return b"".join(forms)


class Calls:
    """One book after the other, with one to three intervals end to end; what was met is counted."""

    def __init__(self, test):
        self.test = test
        self.dice = random.Random(SEED)
        self.held = Held(test)
        self.met = self.held.met
        self.calls = 0

    def open(self):
        """One in three intervals is one that stands before it once more, in an order of its own."""
        self.settings = random_settings(self.dice)
        self.book, self.ledger = by_opening(self.settings)
        self.feed, self.pieces, self.upward = [], [], []
        for number in range(self.dice.randint(1, 3)):
            fresh = random_interval(self.dice, self.settings, number)
            self.feed.append(self.dice.choice(self.feed) if self.feed and self.dice.random() < 0.3 else fresh)
            head, *regions = upward = list(interval.records(self.settings, self.feed[-1]))
            behind = [regions.pop()] if link_of(self.settings) else []
            if self.dice.random() < 0.5:
                self.dice.shuffle(regions)
            self.upward.append([head, *regions, *behind] == upward)
            self.pieces += [head, *regions, *behind]

    def enter_all(self):
        """What was rewritten, in whatever order its regions stood, is read and entered as what was written; as they
        stand, the intervals are read up to the first that is out of order."""
        records = b"".join(self.pieces)
        out = [number for number, upward in enumerate(self.upward) if not upward]
        due = [*self.feed[:out[0]], 45] if out else self.feed
        self.test.assertEqual(collected(self.book.intervals(records)), due)
        schedule = [self.dice.randint(-90_000, 90_000) for _ in range(2 * len(self.feed[0].prices))]
        rewritten = self.book.rewrite_intervals(records)
        for found, given in zip_longest(self.book.intervals(rewritten), self.feed):
            self.test.assertEqual(found, given)
            answer = outcome(self.book.enter, *found, schedule)
            self.test.assertEqual(answer, outcome(self.ledger.enter, *given, schedule), given)
            self.met["entered"] += answer[0] == "accepted"
            self.met["entered with the link"] += answer[0] == "accepted" and link_of(self.settings)

    def lent_book(self):
        """The book, and what a slice's lengths are by it or by the book that it was before it was damaged."""
        book = self.book._book
        lengths = right_lengths(book)
        if self.dice.random() < 0.15:
            book = damaged_book(self.dice, book)
            lengths = self.dice.choice((lengths, right_lengths(book)))
            self.met["10 of the ends"] += ends_alone(book)
        return book, lengths

    def damaged_pieces(self):
        pieces = self.pieces
        for _ in range(self.dice.choice((0, 1, 1, 2))):
            pieces = damaged(self.dice, self.settings, pieces)
        return pieces

    def read(self):
        dice, (book, lengths), pieces = self.dice, self.lent_book(), self.damaged_pieces()
        if dice.random() < 0.05:
            place = dice.randrange(4)
            lengths[place] = max(0, lengths[place] + dice.choice((-100, -1, 1, 2)))
        records, at = b"".join(pieces), random_place(dice, self.settings, pieces)
        number = self.held.read(book, records, at, lengths)[0]
        self.count(book, f"read {number}")
        self.calls += 1
        self.rewrite(book, records, at, number)
        if lengths == right_lengths(book):
            found = number_of(Book(book, self.book._ring).read_interval, records, at)
            self.test.assertEqual(found, number or number_of(interval.read, book, lengths, records, at))
            if number == 0:
                self.trip(book, found.interval, records[at:found.next])

    def count(self, book, what):
        """Once more, of a book with the link that isn't damaged; of that 10 is all that there is."""
        if link_of(book) and not what.endswith(" 10"):
            self.met[f"linked, {what}"] += 1

    def rewrite(self, book, records, at, read):
        """Whatever was read, by this number, is rewritten: by the method, and into room that suffices, or not."""
        exact, lent = interval.length(book), Book(book, self.book._ring)
        due = number_of(interval.rewrite, book, records, at, exact)
        self.test.assertEqual(number_of(lent.rewrite_interval, records, at), due)
        room = exact + self.dice.choice((0, 0, 0, self.dice.randint(1, 9), 400, -1, -self.dice.randint(1, exact)))
        number, form = self.held.rewrite(book, records, at, min(room, MOST_ROOM))
        self.count(book, f"rewrite {number}")
        self.met["10 before 23"] += number == 10 and room < exact
        self.met["23 before a record"] += number == 23 and isinstance(due, int)
        if read not in (10, 11) and number != 23:
            self.held.together(book, records, at, read, number, form)
        if (read, number) == (45, 0):
            self.trip(book, lent.read_interval(form).interval, form)

    def trip(self, book, found, taken):
        """Written, what was read is the bytes that it was read from; and it is read again."""
        answer = self.compare_write(book, found, len(taken))
        self.test.assertEqual(answer[2][:len(taken)], taken)
        again = self.held.read(book, taken, 0)
        self.test.assertEqual(again[:4], [0, len(taken), *found[:2]])

    def compare_write(self, book, entry, room):
        self.calls += 1
        answer = library_write(book, entry, room)
        self.test.assertEqual(answer, due_write(book, entry, room), (self.settings, entry, room))
        self.met[f"write {answer[0]}"] += 1
        self.count(book, f"write {answer[0]}")
        return answer

    def write(self):
        """Into room that suffices, or not; one slice in some calls of another length."""
        book, _ = self.lent_book()
        entry = self.dice.choice(self.feed)
        if self.dice.random() < 0.1:
            name = self.dice.choice(entry._fields[2:])
            numbers = getattr(entry, name)
            entry = entry._replace(**{name: self.dice.choice((numbers[1:], numbers + [0], []))})
        exact = len(b"".join(interval.records(self.settings, self.feed[0])))
        room = exact + self.dice.choice((0, 0, self.dice.randint(1, 9), -1, -exact, -self.dice.randrange(exact)))
        self.compare_write(book, entry, room)

    def go_through(self):
        pieces = self.damaged_pieces()
        records, at = b"".join(pieces), random_place(self.dice, self.settings, pieces)
        found = collected(self.book.intervals(records, at))
        self.test.assertEqual(found, collected(due_intervals(self.book._book, records, at)), (self.settings, at))
        self.met[f"{len(found)} gone through"] += 1
        forms = number_of(self.book.rewrite_intervals, records, at)
        self.test.assertEqual(forms, number_of(due_forms, self.book._book, records, at), (self.settings, at))
        if isinstance(forms, bytes):
            self.test.assertEqual(self.book.rewrite_intervals(forms), forms)
            self.met["all rewritten"] += 1

    def play(self):
        self.open()
        self.enter_all()
        for _ in range(8):
            self.read()
        for _ in range(4):
            self.write()
        self.go_through()


class RandomIntervals(unittest.TestCase):
    def test_against_the_papers_words(self):
        calls = Calls(self)
        while calls.calls < CALLS:
            calls.play()
        met = ", ".join(f"{what} {calls.met[what]}" for what in sorted(calls.met))
        print(f"random intervals: {calls.calls}, met: {met}")
        for what, least in MET.items():
            self.assertGreaterEqual(calls.met[what], least, what)
        self.assertEqual({what for what in calls.met if what not in MET and not what.endswith("gone through")}, set())


if __name__ == "__main__":
    unittest.main()
