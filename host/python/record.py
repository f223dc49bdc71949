"""A book's record, with a place for the ends of the additional link (request 2026-10 of document 02), and its image of
either kind: stored from the record and ring, and loaded into them. It goes another way than image.py, which has an
image from a ledger, so that the tests can hold the one to the other; it shares no code with guxhamole.py."""

import ctypes
from ctypes import c_int32, c_int64, c_uint8, c_uint16, c_uint32
from struct import Struct, unpack_from

from arithmetic import Refused
from book import counted, refuse_book, refuse_length, refuse_prices
from image import refuse_image
from link import link_of

# Length, kind, R, S, W, H, a zero, parents, entries, position, two zeros, threshold, cap, floor, counts, periods.
FIRST = Struct("<IHBBHBx8sIHxxqii8H88s")
# The ends, two zeros, four bytes of 255.
REST = Struct("<BBxx4s")


class Record(ctypes.Structure):
    """Numbers of the widths that document 01 names; all zero it is the closed book. How the library lays its own out is
    not said here."""

    _fields_ = [
        ("regions", c_uint8), ("services", c_uint8), ("window", c_uint16), ("halves", c_uint8),
        ("parents", c_uint8 * 8), ("from_", c_uint8), ("to", c_uint8), ("threshold", c_int64), ("cap", c_int32),
        ("floor", c_int32), ("entries", c_uint32), ("position", c_uint16), ("counts", c_uint16 * 8),
        ("nexts", c_uint16 * 8), ("sums", c_int64 * 88), ("marks", c_uint8 * 88),
    ]


def length(book, kind):
    """ "Length = 148 + 4 × M × (sum of counts)", and of kind 2 from 156. """
    return FIRST.size + (REST.size if kind == 2 else 0) + 4 * (book.services + 1) * sum(book.counts)


def store(book, ring, kind, room):
    """The bytes that go to a buffer's start. "Store: 10; 11; 22 ..; 23 buffer shorter than the image", and "47: storing
    as kind 1 a book with the link; after 22". """
    refuse_book(book)
    refuse_length(book, ring)
    refuse_prices(book, ring)
    if kind == 1 and link_of(book):
        raise Refused(47)
    if room < length(book, kind):
        raise Refused(23)
    return laid_out(book, ring, kind)


def laid_out(book, ring, kind):
    """An image's bytes, whatever they are."""
    shape = book.regions, book.services, book.window, book.halves, bytes(book.parents)
    first = FIRST.pack(length(book, kind), kind, *shape, book.entries, book.position, book.threshold, book.cap,
                       book.floor, *book.counts, bytes(book.marks))
    rest = REST.pack(book.from_, book.to, b"\xff" * 4) if kind == 2 else b""
    places = [(region, market) for region in range(book.regions) for market in range(book.services + 1)]
    prices = [price for place in places for price in counted(book, ring, *place)]
    return first + rest + Struct(f"<{len(prices)}i").pack(*prices)


def named(image):
    """The record that the fields before the prices name, good or not, with every sum 0."""
    _, kind, *shape, parents, entries, position, threshold, cap, floor = FIRST.unpack_from(image)[:-9]
    *counts, marks = FIRST.unpack_from(image)[-9:]
    ends = REST.unpack_from(image, FIRST.size)[:2] if kind == 2 else (255, 255)
    nexts = [count % max(1, shape[2]) for count in counts]
    return Record(*shape, (c_uint8 * 8)(*parents), *ends, threshold, cap, floor, entries, position,
                  (c_uint16 * 8)(*counts), (c_uint16 * 8)(*nexts), marks=(c_uint8 * 88)(*marks))


def load(image, places):
    """The record, and what a lent ring of so many places then holds: "Loading puts the oldest at the window's first
    place, zeroes the others and adds the sums up anew." """
    refuse_image(image, places)
    book, ring = named(image), [0] * places
    at = len(image) - 4 * (book.services + 1) * sum(book.counts)
    for region in range(book.regions):
        for market in range(book.services + 1):
            prices = unpack_from(f"<{book.counts[region]}i", image, at)
            start = (region * (book.services + 1) + market) * book.window
            ring[start:start + len(prices)] = prices
            book.sums[11 * region + market] = sum(prices)
            at += 4 * len(prices)
    return book, ring
