"""Regions in number order (request 2026-08 of document 02): the rewriter's worked cases on the library and on
interval.py, every refusal with nothing written, in its order, and the ends of the types; test_orders.py has what holds
of reader and rewriter together."""

import ctypes
import mmap
import random
import tempfile
import unittest
from array import array
from ctypes import c_uint8
from itertools import product

import guxhamole
import interval
from guxhamole import Book, Interval, Refusal, Rewritten, Settings
from held import FILLED, MARGIN, Held, due_rewrite, library_rewrite, shaped
from test_intervals import B2, ENTRY, FIRST, HEAD, READS, UNKNOWN, WILD, WILD_BYTES, I, U, number_of, right_lengths

# Records, place and room on B2; then the place after the interval taken, or a refusal. What is taken is written as I.
REWRITES = {
    "downward": (U, 0, 52, 52),
    "into more room": (U, 0, 60, 52),
    "upward": (I, 0, 52, 52),
    "upward into more room": (I, 0, 53, 52),
    "the second of two": (I + U, 52, 55, 104),
    "the first of two": (U + WILD_BYTES, 0, 52, 52),
    "what follows is not looked at": (U + b"\xff", 0, 52, 52),
    "no room, before a byte is read": (b"abc", 0, 51, 23),
    "no record": (b"abc", 0, 52, 40),
    "no room at all": (U, 0, 0, 23),
    "no room and no bytes": (b"", 0, 0, 23),
    "room for all but a byte": (U, 0, 51, 23),
    "region 0 twice": (I[:32] + I[12:32], 0, 52, 42),
    "region 0 twice, no room": (I[:32] + I[12:32], 0, 51, 23),
    "a total of 1": (U[:11] + b"\1" + U[12:], 0, 52, 41),
    "a total of 1, no room": (U[:11] + b"\1" + U[12:], 0, 51, 23),
    "no kind, no room": (UNKNOWN, 0, 51, 23),
    "at the end": (U, 52, 52, 40),
    "at the last place of all, no room": (U, 2**64 - 1, 51, 23),
    "at the last place of all": (U, 2**64 - 1, 52, 40),
}


class Cases(unittest.TestCase):
    """The request's sentences, one by one, on a book of two regions and one market."""

    def setUp(self):
        self.book = Book.open(B2)
        self.raw = self.book._book
        self.held = Held(self)

    def test_rewrites(self):
        for name, (records, at, room, answer) in REWRITES.items():
            with self.subTest(name):
                accepted = answer >= 52
                form = I if accepted else b""
                whole = FILLED[:MARGIN] + form + FILLED[MARGIN + len(form):room + 2 * MARGIN]
                due = [*((0, answer) if accepted else (answer, 0)), whole, records * 3, True]
                self.assertEqual(library_rewrite(self.raw, records, at, room), due)
                self.assertEqual(due_rewrite(self.raw, records, at, room), due)
                if answer != 23:  # the method's own buffer has the room
                    due = (I, answer) if accepted else answer
                    self.assertEqual(number_of(self.book.rewrite_interval, records, at), due)

    def test_all_that_was_read(self):
        """Whatever a read is tried on, with all kinds of room."""
        for name, records, at, answer, *earlier in READS:
            due = (earlier or [answer])[0]
            with self.subTest(name):
                for more in (0, 1, 8, 52):
                    number = 0 if isinstance(answer, tuple) else answer
                    rewritten = 0 if isinstance(due, tuple) else due
                    self.assertEqual(self.held.both(self.raw, records, at, more), (number, rewritten))
                for room in (0, 1, 12, 32, 51):
                    self.assertEqual(self.held.rewrite(self.raw, records, at, room)[0], 23)
                found = number_of(self.book.rewrite_interval, records, at)
                if isinstance(due, tuple):
                    self.assertEqual((self.book.read_interval(found.records), found.next), ((due[0], 52), due[1]))
                else:
                    self.assertEqual(found, due)

    def test_every_room(self):
        for records, number in ((I, 0), (U, 0), (b"", 40), (b"\xff" * 52, 40), (HEAD + U, 41), (I[:32] + I[12:32], 42)):
            for room in range(110):
                due = 23 if room < 52 else number
                self.assertEqual(self.held.rewrite(self.raw, records, 0, room)[0], due, room)

    def test_every_place(self):
        """Of two intervals, one in each order, and where 32 or 64 bits would wrap."""
        places = [*range(115), *(2**power + place for power in (31, 32, 63) for place in (0, 52, 104)),
                  *(2**64 - place for place in range(1, 115))]
        for records, orders in ((I + U, (0, 45)), (U + I, (45, 0))):
            for at in places:
                due = [(orders[at // 52], 0)] if at in (0, 52) else [(40, 40), (41, 41)]
                self.assertIn(self.held.both(self.raw, records, at, at % 3), due, at)

    def test_places_beyond_32_bits(self):
        """An interval across 2**32, in a file that takes no room before it, and room that begins to be enough beyond;
        `rewrite_interval` would copy all of it."""
        at = 2**32 - 26
        with tempfile.TemporaryFile() as file:
            file.seek(at)
            file.write(U)
            file.flush()
            mapped = mmap.mmap(file.fileno(), 0)
            given = (c_uint8 * len(mapped)).from_buffer(mapped)
            self.assertEqual(self.book._rewrite(given, at), (I, at + 52))
            self.assertEqual(interval.rewrite(self.raw, mapped, at, 52), (I, at + 52))
            self.assertEqual(number_of(self.book._read, given, at), 45)
            records = guxhamole._lent(guxhamole._bytes(U))
            answer = guxhamole._face().guxhamole_interval_rewrite(self.raw, *records, 0, given, 2**32 + 20)
            self.assertEqual((answer.number, answer.next, mapped[:60], mapped[at:]), (0, 52, I + bytes(8), U))

    def test_another_book(self):
        """A region record is as long as the lent book's markets make it, and the total is the lent book's."""
        for settings, number in ((Settings(services=1, regions=2, parents=B2.parents), 40), (Settings(), 41)):
            book = Book.open(settings)
            self.assertEqual(number_of(book.rewrite_interval, U), number)
            self.assertEqual(self.held.both(book._book, U), (number, number))
            self.assertEqual(self.held.rewrite(book._book, U, 0, 52)[0], 23)

    def test_what_an_entry_holds_is_not_looked_at(self):
        """Neither by the book's entries nor by ranges: a book that has taken one, one that takes no more."""
        self.book.enter(*ENTRY, [0] * 4)
        image = bytearray(self.book.store())
        image[20:24] = (10_000_000).to_bytes(4, "little")
        for book in (self.book, Book.load(bytes(image))):
            downward = WILD_BYTES[:12] + WILD_BYTES[32:] + WILD_BYTES[12:32]
            self.assertEqual(book.rewrite_interval(U + downward, 52), (WILD_BYTES, 104))
            self.assertEqual(book.rewrite_intervals(U + downward), I + WILD_BYTES)

    def test_what_was_rewritten_is_entered(self):
        form = self.book.rewrite_interval(U).records
        self.assertEqual(self.book.enter(*self.book.read_interval(form).interval, [0] * 4), (0, ENTRY.prices))
        self.assertEqual(self.book.entries, 1)


class Books(unittest.TestCase):
    """10 before 23, and 23 before any record."""

    def setUp(self):
        self.book = Book.open(B2)
        self.raw = self.book._book

    def refused(self, number, book, records, at, room):
        of_library = library_rewrite(book, records, at, room)
        self.assertEqual(of_library, due_rewrite(book, records, at, room))
        self.assertEqual(of_library[:3], [number, 0, FILLED[:room + 2 * MARGIN]])

    def refused_whatever(self, book):
        """A book by 10, whatever else is lent."""
        for records, at in ((U, 0), (I, 0), (b"abc", 0), (b"", 0), (U, 52), (U, 2**64 - 1), (HEAD + FIRST + FIRST, 0)):
            for room in {0, 11, 12, 51, 52, 60, interval.length(book)}:
                self.refused(10, book, records, at, room)

    def test_closed_book(self):
        self.refused_whatever(guxhamole._Book())
        closed = Book(guxhamole._Book(), guxhamole._ring(1, 0, 1))
        self.assertEqual(number_of(closed.rewrite_interval, U), 10)
        self.assertEqual(number_of(closed.rewrite_intervals, U), 10)

    def test_damaged_book(self):
        wrong = (("regions", None, 0), ("regions", None, 9), ("regions", None, 1), ("services", None, 11),
                 ("threshold", None, 0), ("window", None, 2017), ("halves", None, 49), ("entries", None, 10_000_001),
                 ("position", None, 6), ("cap", None, 0), ("floor", None, 0), ("parents", 0, 0), ("parents", 1, 1),
                 ("counts", 1, 2), ("counts", 7, 1), ("nexts", 0, 1), ("sums", 0, 20_160_000_001), ("sums", 1, 1),
                 ("marks", 0, 2), ("marks", 87, 1), ("from_", None, 0), ("to", None, 0), ("from_", None, 254))
        for name, place, value in wrong:
            record = guxhamole._Book.from_buffer_copy(self.raw)
            if place is None:
                setattr(record, name, value)
            else:
                getattr(record, name)[place] = value
            with self.subTest(name, place=place, value=value):
                self.refused_whatever(record)
                self.assertEqual(number_of(Book(record, self.book._ring).rewrite_interval, U), 10)

    def test_room_of_every_size(self):
        """Rubbish is 23 where the room is a byte too little, as the book alone tells, and 40 where it isn't; what an
        entry would be in goes into exactly the room."""
        for regions, services in product(range(1, 9), range(11)):
            book = shaped(regions, services)
            exact, blank = 12 + regions * (20 + 4 * services), [0] * regions
            form = book.write_interval(7, 1, [5] * (regions * (services + 1)), blank, blank, blank)
            self.every_room(book, form, exact)
            if regions > 1:
                book, links = shaped(regions, services, (0, regions - 1)), [9] * (regions + 1)
                form = book.write_interval(7, 1, [5] * (regions * (services + 1)), blank, links, links)
                self.every_room(book, form, exact + 14)

    def every_room(self, book, form, exact):
        """On a book whose intervals are so long."""
        for records in (form, b"", b"\xff" * exact):
            for room in (0, exact - 4, exact - 1):
                self.refused(23, book._book, records, 0, room)
        for records in (b"", b"\xff" * exact):
            self.refused(40, book._book, records, 0, exact)
        for more in (0, 1, 9):
            self.assertEqual(Held(self).rewrite(book._book, form, 0, exact + more), (0, form))

    def test_refusal(self):
        for records, number in ((U[:51], 40), (HEAD + U, 41), (HEAD + FIRST + FIRST, 42)):
            for call in (self.book.rewrite_interval, self.book.rewrite_intervals):
                with self.assertRaises(Refusal) as caught:
                    call(records)
                self.assertEqual((caught.exception.number, caught.exception.place), (number, None))
        with self.assertRaises(Refusal) as caught:
            self.book.read_interval(U)
        self.assertEqual((caught.exception.number, caught.exception.place), (45, None))
        self.assertEqual(str(caught.exception), f"refused 45: {guxhamole.MEANINGS[45]}")


class Together(unittest.TestCase):
    """Intervals end to end."""

    def setUp(self):
        self.book = Book.open(B2)

    def test_all(self):
        downward = WILD_BYTES[:12] + WILD_BYTES[32:] + WILD_BYTES[12:32]
        for records in (I + WILD_BYTES, U + WILD_BYTES, I + downward, U + downward):
            self.assertEqual(self.book.rewrite_intervals(records), I + WILD_BYTES)
            self.assertEqual(self.book.rewrite_intervals(records, 52), WILD_BYTES)
            self.assertEqual(list(self.book.intervals(self.book.rewrite_intervals(records))), [ENTRY, WILD])
        self.assertEqual(self.book.rewrite_intervals(U * 300), I * 300)
        self.assertEqual(self.book.rewrite_intervals(U, 52), b"")
        self.assertEqual(self.book.rewrite_intervals(b""), b"")

    def test_one_after_the_other(self):
        """The places are those of the records taken; the bytes come from the buffer's start."""
        records, at, forms = U + I + U, 0, []
        while at != len(records):
            form, at = self.book.rewrite_interval(records, at)
            forms.append((form, at))
        self.assertEqual(forms, [(I, 52), (I, 104), (I, 156)])

    def test_one_that_is_refused(self):
        """Nothing comes of those before it."""
        for records, number in ((U + U[:51], 40), (U + b"\xff", 40), (U + HEAD + U, 41), (U + HEAD + FIRST * 2, 42)):
            self.assertEqual(number_of(self.book.rewrite_intervals, records), number)
            self.assertEqual(self.book.rewrite_interval(records), (I, 52))
        for at in (53, 2**32 + 52, 2**64 - 1):
            self.assertEqual(number_of(self.book.rewrite_intervals, U, at), 40)
        self.assertEqual(number_of(self.book.rewrite_intervals, U, 12), 41)

    def test_entered(self):
        """A log of the earlier form, brought to the fixed order once and then read."""
        later = self.book.write_interval(*ENTRY._replace(number=1))
        log = U + later[:12] + later[32:] + later[12:32]
        self.assertEqual(number_of(next, self.book.intervals(log)), 45)
        for found in self.book.intervals(self.book.rewrite_intervals(log)):
            self.book.enter(*found, [0] * 4)
        self.assertEqual(self.book.entries, 2)

    def test_the_real_market(self):
        """An interval of 312 bytes, as two loggers wrote it."""
        book, dice = Book.open(Settings()), random.Random(5)
        entry = book.synthetic(2_026, 0, 0).interval
        head, *rows = interval.records(book._book, entry)
        form = book.write_interval(*entry)
        for order in ([0, 1, 2, 3, 4], [4, 3, 2, 1, 0], [2, 0, 3, 1, 4], dice.sample(range(5), 5)):
            log = head + b"".join(rows[region] for region in order)
            self.assertEqual((len(log), book.rewrite_interval(log)), (312, (form, 312)))
        self.assertEqual(book.read_interval(form), (entry, 312))
        self.assertEqual(book.rewrite_intervals(form * 3), form * 3)


class Types(unittest.TestCase):
    def setUp(self):
        self.book = Book.open(B2)

    def test_bytes_like(self):
        mapped = mmap.mmap(-1, len(U))
        mapped[:] = U
        views = (memoryview(b"\0" + U)[1:], memoryview(U).cast("I"), memoryview(U).cast("B", (4, 13)))
        for records in (U, bytearray(U), array("B", U), array("I", U), (c_uint8 * 52)(*U), mapped, *views):
            with self.subTest(type=type(records)):
                self.assertEqual(self.book.rewrite_interval(records), (I, 52))
                self.assertEqual(self.book.rewrite_intervals(records), I)
                self.assertEqual(bytes(records), U)

    def test_what_is_no_bytes_or_place(self):
        for call in (self.book.rewrite_interval, self.book.rewrite_intervals):
            for records in ("", list(U), None, 52):
                self.assertRaises(TypeError, call, records)
            self.assertRaises(BufferError, call, memoryview(U)[::2])
            for at in (-1, 2**64):
                self.assertRaises(OverflowError, call, U, at)
            for at in (0.0, "0", None):
                self.assertRaises(TypeError, call, U, at)

    def test_ends_of_the_types(self):
        for book in (Book.open(B2), shaped(8, 10)):
            prices, regions = right_lengths(book)[:2]
            for signed, byte, unsigned in ((-2**31, 0, 0), (2**31 - 1, 255, 2**32 - 1)):
                entry = Interval(unsigned, byte, [signed] * prices, [byte] * regions, [signed] * regions,
                                 [unsigned] * regions)
                head, *rows = interval.records(book._book, entry)
                form = book.write_interval(*entry)
                self.assertEqual(book.rewrite_interval(head + b"".join(rows[::-1])), (form, len(form)))
                self.assertEqual(book.rewrite_interval(form), (form, len(form)))

    def test_layout(self):
        self.assertEqual(ctypes.sizeof(guxhamole._Rewritten), 16)
        self.assertEqual([getattr(guxhamole._Rewritten, name).offset for name in ("number", "next")], [0, 8])

    def test_answer(self):
        """Bytes of their own and a plain number; book and ring stay."""
        before, records = (bytes(self.book._book), bytes(self.book._ring)), bytearray(U)
        answer = self.book.rewrite_interval(records=records, at=0)
        self.assertEqual((type(answer), *map(type, answer)), (Rewritten, bytes, int))
        self.assertIs(type(self.book.rewrite_intervals(records=records, at=0)), bytes)
        records[:] = bytes(52)
        self.assertEqual((answer.records, answer.next), (I, 52))
        self.assertEqual((bytes(self.book._book), bytes(self.book._ring)), before)


if __name__ == "__main__":
    unittest.main()
