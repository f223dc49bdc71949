"""The library in the shape of the independent code's modules, as far as the tests of the additional link (request
2026-10 of document 02) ask for them: so these hold the library to the same cases. Bytes that a test needs at first, and
the lengths of slices, are the independent code's; every answer is the library's."""

from ctypes import c_int32, c_uint8
from types import SimpleNamespace

import bill
import guxhamole
import image
import interval
import ledger
import synthetic
from guxhamole import Book, Refusal, check
from held import FILLED, library_rewrite
from held import MARGIN as BUFFER_MARGIN
from held_bill import MARGIN as RING_MARGIN
from held_bill import library_bill
from link import ends_of
from starts import stored
from test_intervals import MARGIN as SLICE_MARGIN
from test_intervals import library_read, library_write
from test_synthetic import library_drawn

FILL = 7
BEHIND = 3  # bytes behind an image's buffer, and places behind a ring, that are not lent
MOST_ROOM = len(FILLED) - 2 * BUFFER_MARGIN  # of a rewriting: far more than a sound book's intervals take


def same(one, other):
    """What must hold of every answer, beside what a test asks for."""
    if one != other:
        raise AssertionError(f"{one} is not {other}")


def accepted(number, place=None):
    if number:
        raise Refusal(number, place)


def inner(slices):
    """What stands between the margins."""
    return [list(numbers[SLICE_MARGIN:-SLICE_MARGIN]) for numbers in slices]


def whole(record):
    """The record with zeros between its fields, where an answer has any bytes."""
    copy = guxhamole._Book()
    for name, _ in record._fields_:
        setattr(copy, name, getattr(record, name))
    return copy


class Machine:
    """A book of the library's that is asked as a ledger is."""

    marked = 0

    def __init__(self, opening):
        """Of any settings: from the image that the independent code has of a book with them."""
        self.book = Book.load(image.image_of(ledger.Ledger(opening)))

    @classmethod
    def of(cls, book):
        machine = cls.__new__(cls)
        machine.book = book
        return machine

    @classmethod
    def open(cls, opening):
        return cls.of(Book.open(opening))

    @property
    def opening(self):
        book = self.book
        shape = book.regions, book.services, book.window, book.halves, book.position, book.parents
        return ledger.Opening(*shape, book.threshold, book.cap, book.floor, *ends_of(book))

    @property
    def taken(self):
        return self.book.entries

    def history(self):
        return self

    def __getattr__(self, name):
        return getattr(self.book, name)


def refused_by(call, given):
    """The refusal, or None."""
    try:
        call(given)
    except Refusal as refusal:
        return refusal
    return None


def refuse_image(given):
    """By the check, and by the load, which says the place too."""
    loaded, checked = refused_by(Book.load, given), refused_by(check, given)
    same(loaded and loaded.number, checked and checked.number)
    if loaded:
        raise loaded


def load(given, places):
    """The record and ring; refused, the ring stays."""
    ring = (c_int32 * (places + BEHIND))(*[FILL] * (places + BEHIND))
    answer = guxhamole._face().guxhamole_load(*guxhamole._lent(guxhamole._bytes(given)), ring, places)
    kept = places if answer.number == 0 else 0
    same(ring[kept:], [FILL] * (places + BEHIND - kept))
    accepted(answer.number, answer.place if answer.number == 16 else None)
    return whole(answer.book), ring[:places]


def store(book, ring, kind, room):
    """An image's bytes, of a buffer that is otherwise as it was."""
    buffer, face = (c_uint8 * (room + BEHIND))(*[FILL] * (room + BEHIND)), guxhamole._face()
    function = face.guxhamole_store if kind == 1 else face.guxhamole_store_kind_2
    answer = function(book, *guxhamole._lent(guxhamole._numbers(ring, c_int32)), buffer, room)
    same(buffer[answer.length:], [FILL] * (room + BEHIND - answer.length))
    accepted(answer.number)
    return bytes(buffer)[:answer.length]


def refuse_restart(machine, kind, room, places):
    load(store(machine.book._book, machine.book._ring, kind, room), places)


def refuse_book(book):
    """By a report of the first market, which has no other refusal, and by a setting."""
    face = guxhamole._face()
    number = face.guxhamole_report(book, 0, 0).number
    same(face.guxhamole_set_limits(book, 1, -1).number, number)
    accepted(number)


def read(book, lengths, given, at):
    number, after, entry, day_kind, *slices = library_read(book, lengths, given, at)[:8]
    accepted(number)
    return interval.Interval(entry, day_kind, *inner(slices)), after


def write(book, entry, room):
    number, length, buffer = library_write(book, entry, room)[:3]
    accepted(number)
    return buffer[:length]


def rewrite(book, given, at, room):
    number, after, around = library_rewrite(book, given, at, min(room, MOST_ROOM))[:3]
    accepted(number)
    return around[BUFFER_MARGIN:BUFFER_MARGIN + interval.length(book)], after


def drawn(book, lengths, *lent):
    number, last, entry, day_kind, _, *slices = library_drawn(book, lengths, *lent)
    accepted(number)
    return last, interval.Interval(entry, day_kind, *inner(slices))


def resumed(record, ring):
    return Machine.of(Book(record, guxhamole._numbers(ring, c_int32)))


def billed(book, ring, work, schedule, region, lines, play):
    """The day that `play` gives is its records: the library plays them itself."""
    *answer, second, stays = library_bill(book, ring, work, play(), schedule, region, lines)
    same(stays, True)
    return bill.Answer(*answer, second[RING_MARGIN:-RING_MARGIN])


KIT = SimpleNamespace(
    ledger=SimpleNamespace(Opening=ledger.Opening, Ledger=Machine),
    image=SimpleNamespace(image_of=lambda machine, kind: stored(machine.book, kind), refuse_image=refuse_image,
                          begun=lambda given: Machine.of(Book.load(given)), refuse_restart=refuse_restart),
    record=SimpleNamespace(Record=guxhamole._Book, load=load, store=store),
    book=SimpleNamespace(refuse_book=refuse_book),
    interval=SimpleNamespace(Interval=interval.Interval, records=interval.records, lengths=interval.lengths,
                             length=interval.length, read_earlier=interval.read_earlier, read=read, write=write,
                             rewrite=rewrite),
    synthetic=SimpleNamespace(Draws=synthetic.Draws, drawn=drawn),
    bill=SimpleNamespace(Lines=bill.Lines, Resumed=resumed, played=lambda book, machine, records, schedule: records,
                         billed=billed),
)
