"""The library's reader and rewriter (request 2026-08 of document 02) on the same records, with all that is lent to
them: held to interval.py's, and the one to the other. For tests."""

from collections import Counter
from ctypes import c_uint8

import guxhamole
import interval
from arithmetic import Refused
from guxhamole import Book, Settings
from link import NO_LINK
from test_intervals import MARGIN as SLICE_MARGIN
from test_intervals import due_read, library_read, right_lengths, tripled

MARGIN = 5  # bytes before and behind the buffer that are not lent
FILLED = bytes(range(1, 251)) * 20  # what stood in and around a buffer: no two neighbours alike, and none zero
# What reader and rewriter may answer of the same bytes, in a book that both take and with room: what the reader takes
# the rewriter takes; 40 and 41 that the reader meets are the rewriter's too; and of 45 anything may come.
PAIRS = ((0, 0), (40, 40), (41, 41), (45, 0), (45, 40), (45, 41), (45, 42))


def library_rewrite(book, records, at, room):
    """The raw function's number and next place, and then all that was lent and what stands around it. The same records
    stand before and behind those lent, so that one that strays finds some."""
    record, around = bytes(book), (c_uint8 * (room + 2 * MARGIN)).from_buffer_copy(FILLED)
    buffer = (c_uint8 * room).from_buffer(around, MARGIN)
    three, given = tripled(records)
    answer = guxhamole._face().guxhamole_interval_rewrite(book, *guxhamole._lent(given), at, *guxhamole._lent(buffer))
    return [answer.number, answer.next, bytes(around), bytes(three), bytes(book) == record]


def due_rewrite(book, records, at, room):
    """The same by interval.py; refused, the buffer stays and the next place is 0."""
    try:
        number, (form, after) = 0, interval.rewrite(book, records, at, room)
    except Refused as refused:
        number, form, after = refused.number, b"", 0
    around = FILLED[:MARGIN] + form + FILLED[MARGIN + len(form):room + 2 * MARGIN]
    return [number, after, around, records * 3, True]


def sorted_records(book, taken):
    """An interval that was taken, its region records by their region, each as it stood; no field is looked into. What
    stands behind them is the additional link's."""
    size = 16 + 4 * (book.services + 1)
    end = 12 + book.regions * size
    rows = [taken[at:at + size] for at in range(12, end, size)]
    return taken[:12] + b"".join(sorted(rows, key=lambda row: row[6])) + taken[end:]


class Held:
    """What is compared, and how often each answer is met."""

    def __init__(self, test):
        self.test = test
        self.met = Counter()
        self.forms = {}  # by R, S and entry: the bytes that were first read to it, and their place

    def rewrite(self, book, records, at, room):
        """The number and the form of the library's rewriter, if all of it is interval.py's."""
        of_library = library_rewrite(book, records, at, room)
        self.test.assertEqual(of_library, due_rewrite(book, records, at, room), (book.regions, book.services, at, room))
        self.met[f"rewrite {of_library[0]}"] += 1
        return of_library[0], of_library[2][MARGIN:MARGIN + interval.length(book)]

    def read(self, book, records, at, lengths=None):
        """The answer of the library's reader, if all of it is interval.py's."""
        lengths = right_lengths(book) if lengths is None else lengths
        of_library = library_read(book, lengths, records, at)
        self.test.assertEqual(of_library, due_read(book, lengths, records, at), (book.regions, book.services, at))
        self.met[f"read {of_library[0]}"] += 1
        if of_library[0] == 0:
            self.one_form(book, records, at, of_library)
        return of_library

    def one_form(self, book, records, at, of_library):
        """Two places that read to one entry hold the same bytes."""
        taken, entry = records[at:of_library[1]], (book.regions, book.services, *map(str, of_library[2:8]))
        first, place = self.forms.setdefault(entry, (taken, at))
        self.test.assertEqual(taken, first)
        self.met["two of one entry"] += at != place

    def both(self, book, records, at=0, more=0):
        """Both numbers of a sound book, with so much more room than the interval takes."""
        read = self.read(book, records, at)[0]
        rewritten, form = self.rewrite(book, records, at, interval.length(book) + more)
        self.together(book, records, at, read, rewritten, form)
        return read, rewritten

    def together(self, book, records, at, read, rewritten, form):
        """The two numbers belong together, and the form to what was taken."""
        self.test.assertIn((read, rewritten), PAIRS)
        self.met[f"{read}, rewritten {rewritten}"] += 1
        if rewritten == 0:
            self.taken(book, records[at:at + len(form)], form, upward=read == 0)

    def taken(self, book, taken, form, upward):
        """The form is the records taken, sorted; it reads to the entry that the earlier reader gives for these, and is
        rewritten to itself."""
        self.test.assertEqual(form, sorted_records(book, taken))
        self.test.assertEqual(form == taken, upward)
        earlier, length = interval.read_earlier(book, taken, 0)
        of_library = library_read(book, right_lengths(book), form, 0)
        self.test.assertEqual(of_library, due_read(book, right_lengths(book), form, 0))
        self.test.assertEqual(of_library[:4], [0, length, *earlier[:2]])
        self.test.assertEqual([part[SLICE_MARGIN:-SLICE_MARGIN] for part in of_library[4:8]], list(earlier[2:]))
        self.test.assertEqual(self.rewrite(book, form, 0, length), (0, form))

    def show(self, name, least):
        """How often each of these was met, at least so often."""
        print(f"{name}: " + ", ".join(f"{what} {self.met[what]}" for what in least))
        for what, times in least.items():
            self.test.assertGreaterEqual(self.met[what], times, what)


def shaped(regions, services, ends=NO_LINK):
    """A book of this size and with this link, in which nothing else matters to records."""
    return Book.open(Settings(regions, services, 1, 1, 0, [255] * 8, 90_000, 60_000, -60_000, *ends))


def any_interval(dice, regions, services, link=0):
    """Of any numbers that the types hold; with one flow and factor more where there is the additional link."""
    def signed(count):
        return [dice.getrandbits(32) - 2**31 for _ in range(count)]

    return interval.Interval(dice.getrandbits(32), dice.getrandbits(8), signed(regions * (services + 1)),
                             [dice.getrandbits(8) for _ in range(regions)], signed(regions + link),
                             [dice.getrandbits(32) for _ in range(regions + link)])
