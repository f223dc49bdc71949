"""Document 02's bill check (request 2026-09), from its words alone: a ledger plays the records of a day, and the lines
of a bill are held to what it publishes, in exact fractions. The tests hold the library to it; it shares no code with
guxhamole.py."""

from fractions import Fraction
from itertools import zip_longest
from typing import NamedTuple, Optional, Sequence

import interval
from arithmetic import Refused, nearest
from book import LARGEST_SUM, counted, refuse_book, refuse_length
from ledger import Ledger, Opening
from link import ends_of

MOST_ENERGY = 1_000_000_000


class Lines(NamedTuple):
    """ "number, kilowatt-hours, published energy price, amount, in four slices of one length" """

    numbers: Sequence[int]
    energy: Sequence[int]
    prices: Sequence[int]
    amounts: Sequence[int]


class Day(NamedTuple):
    """What became of a day's records: the entries that were accepted, what each published, and what refused the one
    after them, if any did."""

    entries: list
    tables: list
    refused: Optional[Refused]


class Answer(NamedTuple):
    """Number and place of a refusal; else whether the bill is right, and the first wrong line; and the second ring."""

    number: int
    place: int
    right: int
    line: int
    work: list


class Resumed(Ledger):
    """A ledger that begins with a record and a ring, whoever made them: what it counts is what stands in the ring, and
    "sums then move by price in less the price read there" from those of the record, "and periods by step 6" from its
    marks (document 01, of a ring that others changed). For a record and ring that calls made it is the ledger of those
    calls from here on."""

    def __init__(self, book, ring):
        days = 6 * book.halves
        shape = book.regions, book.services, book.window, book.halves, (book.position - book.entries) % days
        limits = book.threshold, book.cap, book.floor
        super().__init__(Opening(*shape, book.parents[:], *limits, *ends_of(book)), book.entries)
        places = [(region, market) for region in range(book.regions) for market in range(self.markets)]
        self.before = {place: counted(book, ring, *place) for place in places}
        self.sums = {(region, market): book.sums[11 * region + market] for region, market in places}
        self.periods = {(region, market): book.marks[11 * region + market] == 1 for region, market in places}

    def joined(self, region, market, t):
        """The prices that joined a window up to t."""
        place = region * self.markets + market
        return [entry.prices[place] for entry in self.entries[:t + 1] if entry.marks[region] == 0]

    def counted(self, region, market, t):
        return (self.before[region, market] + self.joined(region, market, t))[-self.opening.window:]

    def total(self, region, market, t):
        """The record's sum, with what joined and without what left: "the oldest leaves once W are counted". """
        joined = self.joined(region, market, t)
        row = self.before[region, market] + joined
        return self.sums[region, market] + sum(joined) - sum(row[:max(0, len(row) - self.opening.window)])

    def administered(self, region, market, t):
        """By an entry, or by the record's mark until an entry releases it."""
        marked = self.periods[region, market] and not any(self.releases(region, market, i) for i in range(t))
        return marked or super().administered(region, market, t)


def refuse_bill(book, ring, work, schedule, region, lines):
    """What comes before the records, "once 10, 11 and 21 pass": the book; the lengths of both rings, of the schedule
    (R × M × 2 × H) and of the lines, "four slices of one length (else 11)"; the region."""
    refuse_book(book)
    refuse_length(book, ring)
    refuse_length(book, work)
    if len(schedule) != book.regions * (book.services + 1) * 2 * book.halves:
        raise Refused(11)
    if len({len(numbers) for numbers in lines}) != 1:
        raise Refused(11)
    if region >= book.regions:
        raise Refused(21)


def refuse_sums(ledger):
    """10, of what an accepted entry handed back: "a sum beyond ±20,160,000,000". Over a ledger's own calls "10 and 22
    never occur"; all else that an entry hands back is within its limits."""
    for region in range(ledger.opening.regions):
        for market in range(ledger.markets):
            if abs(ledger.total(region, market, ledger.taken - 1)) > LARGEST_SUM:
                raise Refused(10)


def played(book, ledger, records, schedule):
    """The day, read and entered "interval by interval" from the records' first byte to their end; each is a call on the
    book that the one before handed back. The ledger goes on; every slice of an interval has its length."""
    lengths = interval.lengths(book)
    at, entries, tables = 0, [], []
    while at != len(records):
        try:
            refuse_sums(ledger)
            found, after = interval.read(book, lengths, records, at)
            _, table = ledger.enter(*found, schedule)
        except Refused as refused:
            return Day(entries, tables, refused)
        at = after
        entries.append(found)
        tables.append(table)
    return Day(entries, tables, None)


def worked(book, ring, entries):
    """The second ring: "made a copy of the book's", it holds "what the entries accepted till then made of it". "Each
    unmarked region's entry prices .. join its windows", at the region's next place, from W − 1 on to 0. """
    work, nexts, markets = list(ring), list(book.nexts), book.services + 1
    for entry in entries:
        for region in range(book.regions):
            if entry.marks[region] == 0:
                for place in range(region * markets, (region + 1) * markets):
                    work[place * book.window + nexts[region]] = entry.prices[place]
                nexts[region] = (nexts[region] + 1) % book.window
    return work


def amount(energy, price):
    """ "kilowatt-hours × price / 1,000 rounded half away from zero" """
    return nearest(Fraction(energy * price, 1_000))


def first_wrong(intervals, lines):
    """ "the first wrong line, counted from 0, the missing or surplus one included", or None where there is "one line an
    interval in order, each price is the published one, and each amount" is as it says. An interval is its number and
    published price. """
    for place, (due, line) in enumerate(zip_longest(intervals, zip(*lines))):
        if due is None or line is None:
            return place
        number, energy, price, billed = line
        if (number, price) != due or billed != amount(energy, price):
            return place
    return None


def judged(book, day, region, lines):
    """Number, place, right and line, of a day that was played: 46 "with the line, after all refusals of the records and
    entries", "of which 15 to 17 give the place within their own entry". """
    if day.refused is not None:
        return day.refused.number, day.refused.place or 0, 0, 0
    above = [place for place, energy in enumerate(lines.energy) if energy > MOST_ENERGY]
    if above:
        return 46, above[0], 0, 0
    published = [table[region * (book.services + 1)] for table in day.tables]
    wrong = first_wrong(zip((entry.number for entry in day.entries), published), lines)
    return (0, 0, 1, 0) if wrong is None else (0, 0, 0, wrong)


def billed(book, ring, work, schedule, region, lines, play):
    """The answer. `play` gives the day of the book and its ring, once it is known that there is one; the second ring
    stays before that, and afterwards holds what was accepted, "after a refusal too"."""
    try:
        refuse_bill(book, ring, work, schedule, region, lines)
    except Refused as refused:
        return Answer(refused.number, 0, 0, 0, list(work))
    day = play()
    return Answer(*judged(book, day, region, lines), worked(book, ring, day.entries))
