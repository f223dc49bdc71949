"""Interval records (requests 2026-01 and 2026-08 of document 02): the worked cases of reader and writer on the library
and on interval.py, every refusal with nothing written, and the ends of the types; test_rewriting.py has the rewriter,
and test_link_records.py the records of books with the additional link."""

import ctypes
import mmap
import tempfile
import unittest
from array import array
from ctypes import c_int32, c_uint8, c_uint32

import guxhamole
import interval
from arithmetic import Refused
from guxhamole import Book, Interval, Refusal, Settings

FILL = 7
MARGIN = 3  # places before and behind each slice of a read, and behind a written buffer, that are not lent
KINDS = (c_int32, c_uint8, c_int32, c_uint32)

B2 = Settings(2, 0, 1, 1, 0, (255, 0, *[255] * 6), 90_000, 60_000, -60_000)
ENTRY = Interval(0, 0, [100_000, 90_000], [0, 0], [0, 1], [0, 11_000])
WILD = Interval(1, 7, [-2**31, 2**31 - 1], [9, 255], [-2**31, 2**31 - 1], [2**32 - 1, 0])
HEAD = bytes.fromhex("0c000000 1000 00000000 00 02")
FIRST = bytes.fromhex("14000000 1100 00 00 00000000 00000000 a0860100")
SECOND = bytes.fromhex("14000000 1100 01 00 01000000 f82a0000 905f0100")
LINK = bytes.fromhex("0e000000 1200 01000000 f82a0000")  # of the additional link, which B2 has not
UNKNOWN = bytes.fromhex("06000000 6300")
I = HEAD + FIRST + SECOND
U = HEAD + SECOND + FIRST
WILD_BYTES = bytes.fromhex(
    "0c000000 1000 01000000 07 02"
    "14000000 1100 00 09 00000080 ffffffff 00000080"
    "14000000 1100 01 ff ffffff7f 00000000 ffffff7f"
)



def of_region(region, record=FIRST):
    """A region's record with another region."""
    return record[:6] + bytes([region]) + record[7:]


# What a read of these bytes at this place answers on B2: entry and next place, or a refusal; and where the earlier form
# is told otherwise, what it was read to.
READS = (
    ("upward", I, 0, (ENTRY, 52)),
    ("downward", U, 0, 45, (ENTRY, 52)),
    ("downward behind an interval", I + U, 52, 45, (ENTRY, 104)),
    ("upward behind a downward one", U + I, 52, (ENTRY, 104)),
    ("no range is tested", I + WILD_BYTES, 52, (WILD, 104)),
    ("the first of two", I + WILD_BYTES, 0, (ENTRY, 52)),
    ("what follows is not looked at", I + b"\xff", 0, (ENTRY, 52)),
    ("no bytes", b"", 0, 40),
    ("at the end", I, 52, 40),
    ("beyond the end", I, 53, 40),
    ("at the last place of all", I, 2**64 - 1, 40),
    ("where the place after the front is no place", I, 2**64 - 6, 40),
    ("where a place that wraps is before the first byte", I, 2**64 - 52, 40),
    ("five bytes", I[:5], 0, 40),
    ("another total, before the next record is missed", HEAD[:11] + b"\3", 0, 41),
    ("total 0", HEAD[:11] + b"\0" + FIRST + SECOND, 0, 41),
    ("total 255", HEAD[:11] + b"\xff" + FIRST + SECOND, 0, 41),
    ("a head alone", HEAD, 0, 40),
    ("a head of 13 bytes", b"\x0d" + HEAD[1:] + b"\0", 0, 40),
    ("an unknown kind of length 6", UNKNOWN + I, 0, 41),
    ("an unknown kind of length 6 at the end", UNKNOWN, 0, 41),
    ("an unknown kind where a region is due", HEAD + UNKNOWN, 0, 41),
    ("an unknown kind before the first byte", UNKNOWN, 2**64 - 6, 40),
    ("an unknown kind of length 5", b"\5" + UNKNOWN[1:] + I, 0, 40),
    ("an unknown kind, cut short", b"\7" + UNKNOWN[1:], 0, 40),
    ("an unknown kind, cut short behind an interval", I + b"\7" + UNKNOWN[1:], 52, 40),
    ("a head but for its kind", HEAD[:4] + b"\x13" + HEAD[5:] + FIRST + SECOND, 0, 41),
    ("a link's record of a head's length", HEAD[:4] + b"\x12" + HEAD[5:] + FIRST + SECOND, 0, 40),
    ("a link's record where a head is due", LINK + I, 0, 41),
    ("that cut short", LINK[:-1], 0, 40),
    ("a link's record where a region is due", HEAD + LINK + FIRST + SECOND, 0, 41),
    ("a link's record where the second region is due", HEAD + FIRST + LINK + SECOND, 0, 41),
    ("a link's record behind is not looked at", I + LINK, 0, (ENTRY, 52)),
    ("a link's record behind, where the next head is due", I + LINK, 52, 41),
    ("a kind is two bytes", HEAD[:5] + b"\1" + HEAD[6:] + FIRST + SECOND, 0, 41),
    ("a length is four bytes", HEAD[:3] + b"\1" + HEAD[4:] + FIRST + SECOND, 0, 40),
    ("a head shorter than it has to be", b"\x0b" + HEAD[1:] + FIRST + SECOND, 0, 40),
    ("a head of 13 bytes and another total", b"\x0d" + HEAD[1:11] + b"\3\0" + FIRST + SECOND, 0, 40),
    ("a region of a head's length and another total", HEAD[:4] + b"\x11" + HEAD[5:11] + b"\3" + FIRST + SECOND, 0, 40),
    ("a region where a head is due", FIRST + SECOND, 0, 41),
    ("that of another length", b"\x15" + FIRST[1:] + b"\0" + SECOND, 0, 40),
    ("a head where a region is due", HEAD + I, 0, 41),
    ("that of another length", HEAD + b"\x0d" + HEAD[1:] + b"\0" + FIRST + SECOND, 0, 40),
    ("region 2", HEAD + of_region(2), 0, 45, 42),
    ("region 2, more behind", HEAD + of_region(2) + FIRST + SECOND, 0, 45, 42),
    ("region 2, cut short", HEAD + of_region(2)[:-1], 0, 40),
    ("region 2 but for its kind", HEAD + of_region(2, FIRST[:4] + b"\x13" + FIRST[5:]) + SECOND, 0, 41),
    ("region 2 as a link's record", HEAD + of_region(2, FIRST[:4] + b"\x12" + FIRST[5:]) + SECOND, 0, 40),
    ("region 2 after region 0", HEAD + FIRST + of_region(2), 0, 45, 42),
    ("region 2 after region 0, cut short", HEAD + FIRST + of_region(2)[:-1], 0, 40),
    ("region 3", HEAD + of_region(3) + SECOND, 0, 45, 42),
    ("region 255", HEAD + of_region(255) + SECOND, 0, 45, 42),
    ("region 255 after region 0", HEAD + FIRST + of_region(255), 0, 45, 42),
    ("region 0 twice", HEAD + FIRST + FIRST, 0, 45, 42),
    ("region 0 twice, more behind", HEAD + FIRST + FIRST + SECOND, 0, 45, 42),
    ("region 0 twice, then cut short", HEAD + FIRST + FIRST[:-1], 0, 40),
    ("region 0 twice but for the second's kind", HEAD + FIRST + FIRST[:4] + b"\x13" + FIRST[5:], 0, 41),
    ("region 0 twice, the second as a link's record", HEAD + FIRST + FIRST[:4] + b"\x12" + FIRST[5:], 0, 40),
    ("region 1 twice", HEAD + SECOND + SECOND, 0, 45, 42),
    ("region 1 twice, more behind", HEAD + SECOND + SECOND + FIRST, 0, 45, 42),
    ("region 1 alone", HEAD + SECOND, 0, 45, 40),
    ("region 1, then one cut short", U[:51], 0, 45, 40),
    ("region 1, then an unknown kind", HEAD + SECOND + UNKNOWN, 0, 45, 41),
    ("region 1, then a head", HEAD + SECOND + HEAD + FIRST, 0, 45, 41),
    ("region 1, then one that is longer", HEAD + SECOND + b"\x15" + FIRST[1:] + b"\0", 0, 45, 40),
    ("region 1, cut short", HEAD + SECOND[:-1], 0, 40),
    ("region 1 but for its length", HEAD + b"\x15" + SECOND[1:] + FIRST, 0, 40),
    ("region 1 but for its kind", HEAD + SECOND[:4] + b"\x13" + SECOND[5:] + FIRST, 0, 41),
    ("region 1 as a link's record", HEAD + SECOND[:4] + b"\x12" + SECOND[5:] + FIRST, 0, 40),
    ("region 1, then a link's record", HEAD + SECOND + LINK + FIRST, 0, 45, 41),
    ("region 1, then a link's record of another length", HEAD + SECOND + b"\x14" + LINK[1:] + FIRST, 0, 45, 40),
    ("downward after another total", HEAD[:11] + b"\3" + SECOND + FIRST, 0, 41),
    ("downward after a total of 1", HEAD[:11] + b"\1" + SECOND + FIRST, 0, 41),
    ("downward, no range is tested", WILD_BYTES[:12] + WILD_BYTES[32:] + WILD_BYTES[12:32], 0, 45, (WILD, 52)),
    ("two prices a region", HEAD + (b"\x18" + FIRST[1:] + bytes(4)) + (b"\x18" + SECOND[1:] + bytes(4)), 0, 40),
    ("the second region cut short", I[:51], 0, 40),
)


def right_lengths(book):
    """Those of the slices that a book's intervals have."""
    return interval.lengths(book)


def tripled(records):
    """Records three times end to end, and those in the middle, which are lent."""
    three = guxhamole._bytes(records * 3)
    return three, (c_uint8 * len(records)).from_buffer(three, len(records))


def library_read(book, lengths, records, at):
    """The raw function's number, next place, entry, day kind, and then all that was lent, with the margins. The same
    records stand before and behind those lent, so that a reader that strays finds some."""
    around = [(kind * (length + 2 * MARGIN))(*[FILL] * (length + 2 * MARGIN)) for kind, length in zip(KINDS, lengths)]
    slices = [(kind * length).from_buffer(places, MARGIN * ctypes.sizeof(kind))
              for kind, length, places in zip(KINDS, lengths, around)]
    three, given = tripled(records)
    answer = guxhamole._face().guxhamole_interval_read(book, *guxhamole._lent(given), at, *guxhamole._lent(*slices))
    return [answer.number, answer.next, answer.entry, answer.day_kind, *map(list, around), bytes(three)]


def due_read(book, lengths, records, at):
    """The same by interval.py; "Refused calls write nothing .. and answer zeros"."""
    margin = [FILL] * MARGIN
    try:
        found, after = interval.read(book, lengths, records, at)
    except Refused as refused:
        return [refused.number, 0, 0, 0, *([FILL] * (length + 2 * MARGIN) for length in lengths), records * 3]
    return [0, after, *found[:2], *(margin + numbers + margin for numbers in found[2:]), records * 3]


def library_write(book, entry, room):
    """The raw function's number and length, and then all that was lent, the buffer with its margin."""
    slices = guxhamole._contents(*entry[2:])
    buffer = (c_uint8 * (room + MARGIN))(*[FILL] * (room + MARGIN))
    lent = guxhamole._lent(*slices)
    answer = guxhamole._face().guxhamole_interval_write(book, *entry[:2], *lent, buffer, room)
    return [answer.number, answer.length, bytes(buffer), *map(list, slices)]


def due_write(book, entry, room):
    try:
        number, written = 0, interval.write(book, entry, room)
    except Refused as refused:
        number, written = refused.number, b""
    return [number, len(written), written + bytes([FILL]) * (room + MARGIN - len(written)), *entry[2:]]


def number_of(call, *arguments):
    """The refusal's number, or the answer."""
    try:
        return call(*arguments)
    except (Refusal, Refused) as refused:
        return refused.number


class Cases(unittest.TestCase):
    """The request's sentences, one by one, on a book of two regions and one market."""

    def setUp(self):
        self.book = Book.open(B2)
        self.raw = self.book._book

    def test_reads(self):
        lengths = right_lengths(self.book)
        for name, records, at, answer, *_ in READS:
            with self.subTest(name):
                self.assertEqual(number_of(self.book.read_interval, records, at), answer)
                self.assertEqual(number_of(interval.read, self.raw, lengths, records, at), answer)
                of_library = library_read(self.raw, lengths, records, at)
                self.assertEqual(of_library, due_read(self.raw, lengths, records, at))
                self.assertEqual(of_library[0], answer if isinstance(answer, int) else 0)

    def test_reads_of_the_earlier_form(self):
        """What the request before took and refused, which the rewriter's tests go by."""
        for name, records, at, answer, *earlier in READS:
            with self.subTest(name):
                self.assertEqual(number_of(interval.read_earlier, self.raw, records, at), (earlier or [answer])[0])

    def test_reads_of_other_slices(self):
        """11 before any record, 10 before 11."""
        for book, lengths, at, number in ((self.raw, [2, 2, 2, 1], 9, 11), (guxhamole._Book(), [9] * 4, 0, 10)):
            of_library = library_read(book, lengths, b"", at)
            self.assertEqual(of_library, due_read(book, lengths, b"", at))
            self.assertEqual(of_library[0], number)

    def test_every_length(self):
        """11 also where the records are out of order."""
        for place in range(4):
            for change in (-1, 1, 1000):
                lengths = right_lengths(self.book)
                lengths[place] += change
                for records in (I, U):
                    of_library = library_read(self.raw, lengths, records, 0)
                    self.assertEqual(of_library, due_read(self.raw, lengths, records, 0))
                    self.assertEqual(of_library[0], 11)

    def test_writes(self):
        """Into exactly the room, into more, and into less."""
        for room, number, written in ((52, 0, I), (55, 0, I), (51, 23, b""), (0, 23, b"")):
            rest = bytes([FILL]) * (room + MARGIN - len(written))
            of_library = library_write(self.raw, ENTRY, room)
            self.assertEqual(of_library, [number, len(written), written + rest, *ENTRY[2:]])
            self.assertEqual(of_library, due_write(self.raw, ENTRY, room))
        self.assertEqual(self.book.write_interval(*ENTRY), I)
        self.assertEqual(self.book.write_interval(*WILD), WILD_BYTES)

    def test_writes_of_other_slices(self):
        """11 before the room, 10 before 11."""
        short = ENTRY._replace(factors=[0])
        for book, number in ((self.raw, 11), (guxhamole._Book(), 10)):
            self.assertEqual(library_write(book, short, 0), due_write(book, short, 0))
            self.assertEqual(library_write(book, short, 0)[:2], [number, 0])
        for name in ENTRY._fields[2:]:
            for wrong in ([], [0], [0, 0, 0]):
                self.assertEqual(number_of(self.book.write_interval, *ENTRY._replace(**{name: wrong})), 11)

    def test_closed_book(self):
        closed = Book(guxhamole._Book(), guxhamole._ring(1, 0, 1))
        self.assertEqual(number_of(closed.read_interval, I), 10)
        self.assertEqual(number_of(closed.write_interval, *ENTRY), 10)

    def test_another_book(self):
        """A region record is as long as the lent book's markets make it, and the total is the lent book's."""
        for settings, number in ((Settings(services=1, regions=2, parents=B2.parents), 40), (Settings(), 41)):
            self.assertEqual(number_of(Book.open(settings).read_interval, I), number)

    def test_places_beyond_32_bits(self):
        """An interval across 2**32, in a file that takes no room before it; `read_interval` would copy all of it."""
        at = 2**32 - 26
        with tempfile.TemporaryFile() as file:
            file.seek(at)
            file.write(I)
            file.flush()
            mapped = mmap.mmap(file.fileno(), 0)
            self.assertEqual(self.book._read((c_uint8 * len(mapped)).from_buffer(mapped), at), (ENTRY, at + 52))
            self.assertEqual(interval.read(self.raw, right_lengths(self.raw), mapped, at), (ENTRY, at + 52))

    def test_what_was_read_is_entered(self):
        self.assertEqual(self.book.enter(*self.book.read_interval(I).interval, [0] * 4), (0, ENTRY.prices))
        self.assertEqual(self.book.entries, 1)


class Together(unittest.TestCase):
    """Intervals end to end."""

    def setUp(self):
        self.book = Book.open(B2)

    def test_all(self):
        self.assertEqual(list(self.book.intervals(I + WILD_BYTES)), [ENTRY, WILD])
        self.assertEqual(list(self.book.intervals(I + WILD_BYTES, 52)), [WILD])
        self.assertEqual(list(self.book.intervals(I, 52)), [])
        self.assertEqual(list(self.book.intervals(b"")), [])

    def test_refused_in_its_turn(self):
        found = self.book.intervals(I + WILD_BYTES[:-1])
        self.assertEqual(next(found), ENTRY)
        self.assertEqual(number_of(next, found), 40)
        self.assertEqual(list(found), [])
        self.assertEqual(number_of(next, self.book.intervals(I, 53)), 40)
        found = self.book.intervals(I + U + I)
        self.assertEqual([number_of(next, found), number_of(next, found), *found], [ENTRY, 45])

    def test_entered_while_read(self):
        later = self.book.write_interval(*ENTRY._replace(number=1))
        for found in self.book.intervals(I + later):
            self.book.enter(*found, [0] * 4)
        self.assertEqual(self.book.entries, 2)

    def test_records_changed_meanwhile(self):
        records = bytearray(I + I)
        found = self.book.intervals(records)
        records[:] = b""
        self.assertEqual(list(found), [ENTRY, ENTRY])


class Types(unittest.TestCase):
    def setUp(self):
        self.book = Book.open(B2)

    def test_bytes_like(self):
        mapped = mmap.mmap(-1, len(I))
        mapped[:] = I
        views = (memoryview(b"\0" + I)[1:], memoryview(I).cast("I"), memoryview(I).cast("B", (4, 13)))
        for records in (I, bytearray(I), array("B", I), array("I", I), (c_uint8 * 52)(*I), mapped, *views):
            with self.subTest(type=type(records)):
                self.assertEqual(self.book.read_interval(records), (ENTRY, 52))
                self.assertEqual(list(self.book.intervals(records)), [ENTRY])
                self.assertEqual(bytes(records), I)

    def test_what_is_no_bytes_or_place(self):
        for call in (self.book.read_interval, self.book.intervals):
            for records in ("", list(I), None, 52):
                self.assertRaises(TypeError, call, records)
            self.assertRaises(BufferError, call, memoryview(I)[::2])
            for at in (-1, 2**64):
                self.assertRaises(OverflowError, call, I, at)
            for at in (0.0, "0", None):
                self.assertRaises(TypeError, call, I, at)

    def test_numbers_out_of_their_types(self):
        wrong = (("number", 2**32), ("number", -1), ("day_kind", 256), ("prices", [2**31, 0]), ("marks", [256, 0]),
                 ("flows", [-2**31 - 1, 0]), ("factors", [-1, 0]), ("factors", [2**32, 0]))
        for name, value in wrong:
            with self.subTest(name=name, value=value), self.assertRaises(OverflowError):
                self.book.write_interval(*ENTRY._replace(**{name: value}))

    def test_ends_of_the_types(self):
        for book in (Book.open(B2), Book.open(Settings(regions=8, parents=[255] * 8))):
            prices, regions = right_lengths(book)[:2]
            for signed, byte, unsigned in ((-2**31, 0, 0), (2**31 - 1, 255, 2**32 - 1)):
                entry = Interval(unsigned, byte, [signed] * prices, [byte] * regions, [signed] * regions,
                                 [unsigned] * regions)
                written = book.write_interval(*entry)
                self.assertEqual(written, interval.write(book._book, interval.Interval(*entry), 2**32))
                self.assertEqual(book.read_interval(written), (entry, len(written)))

    def test_layout(self):
        self.assertEqual(ctypes.sizeof(guxhamole._Found), 24)
        offsets = [getattr(guxhamole._Found, name).offset for name in ("number", "next", "entry", "day_kind")]
        self.assertEqual(offsets, [0, 8, 16, 20])


if __name__ == "__main__":
    unittest.main()
