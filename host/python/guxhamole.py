"""The proved book of administered electricity prices, from Python: ctypes over libguxhamole.so, which ./build makes.

    from guxhamole import Book, Settings
    book = Book.open(Settings(regions=1, services=0, parents=[255] * 8, threshold=2_000_000))
    count, table = book.enter(book.entries, 0, [8_500], [0], [0], [0], [0] * 96)
    print(book.report(0, 0))        # Report(sum=8500, counted=1, administered=False, entries=1)
    left = book.intervals_left(0, 0, 30_000)  # 67 more of this price exceed the threshold; 0: no number up to W does
    saved = book.store()            # bytes; Book.load(saved) goes on from here, after a restart too
    earlier = book.store_kind_1()   # the earlier kind of image, of a book without the additional link

Intervals that a site's logger hands over as records (request 2026-01 of document 02) are entered by
`for interval in book.intervals(records): book.enter(*interval, schedule)`. Their regions stand in number order; records
of the earlier form, in any order, are brought to it once by `book.rewrite_intervals(records)` (request 2026-08).

A test load that anyone can remake (request 2026-07 of document 02) is drawn from a 32-bit seed, each interval from the
seed that came with the one before: `seed, interval = book.synthetic(seed, book.entries, 0)`.

A retailer's bill is held against the rules (request 2026-09 of document 02) by the book before the first interval:
`book.check_bill(records, schedule, region, lines)` says that it is right, or which line is the first that isn't.

Money is in whole cents, the index in whole dollars. docs/REFUSALS.md has every refusal, host/c/guxhamole.h every
function.

A book may be opened with one additional link between two regions that are not linked already (request 2026-10):
`Settings(.., from_=4, to=0)`. Its flow, above 0 from the first named to the second, and its factor are then the last of
R + 1. `load` takes images of both kinds.

A book is opened at, and set to, thresholds in whole hundreds of dollars, multiples of 10,000 cents (request 2026-06 of
document 02). An image may hold another one: it loads, and that threshold stays until the next setting.

Proved are each function's whole outcome and, over sequences of calls, that the answers are those of a ledger which
keeps the whole history, where each call gets the book and ring that the call before left. A `Book` holds both and hands
them to no one, so this holds by construction, over restarts (`store`, then `load`) too. This file itself is tested, not
proved.

A refused call raises `Refusal`, with number and place, and changes nothing. A number that its type does not hold (a
price of 2**40) raises OverflowError before the call: it is never wrapped. A `Book` belongs to one thread at a time; the
library has no state, so different books may be used at once.

The library is the one that `use_library` names, or else the environment variable GUXHAMOLE_LIBRARY, or else
target/host/libguxhamole.so at the repository's top; the first call loads it, and one of another ABI is an ImportError.
"""

import ctypes
import operator
import os
from array import array
from ctypes import POINTER, c_int32, c_int64, c_size_t, c_uint8, c_uint16, c_uint32, c_uint64
from dataclasses import dataclass
from pathlib import Path
from typing import Iterator, List, NamedTuple, Optional, Sequence

ABI = 2
NO_PARENT = 255
NO_END = 255  # both ends of the additional link, where a book has none
LONGEST_TEXT = 21  # bytes: "-92233720368547758.08"
LARGEST_RING = 8 * 11 * 2016
HEAD = 156  # bytes of an image of kind 2 before its prices; kind 1 has eight fewer
REPLAYED_HEAD = 148  # a replay's restarts go by kind 1
INTERVAL_HEAD = 12  # bytes of the record that heads an interval
REGION_HEAD = 16  # bytes of a region's record before its prices
LINK_RECORD = 14  # bytes of the additional link's record

MEANINGS = {
    10: "the book is closed, or a field of it is outside its limits",
    11: "a slice's length",
    12: "10,000,000 entries were taken",
    13: "not the next entry's number",
    14: "a day kind that is neither 0 nor 1",
    15: "a mark that is neither 0 nor 1",
    16: "a price out of its market's range",
    17: "a factor, of a link to a parent or of the additional one, outside 10,000..20,000",
    18: "a threshold outside 1..100,000,000,000",
    19: "a cap outside 1..10,000,000 or a floor outside -10,000,000..-1",
    20: "a setting outside its limits, or ends that no additional link may have",
    21: "a region or market that the book does not have",
    22: "the ring is not this book's, or was changed by others",
    23: "a buffer shorter than the image, or than the interval's records",
    24: "an image's length, of kind 2 below 156 too",
    25: "an image's kind, neither 1 nor 2",
    26: "a field of an image, of kind 2 up to byte 155, outside its limits",
    27: "an image's length is not that of its kind and prices",
    30: "a quarter or an amount outside its limits",
    31: "a schedule's half-hours, or how many prices or day kinds are lent",
    32: "a schedule's day kind is neither 0 nor 1, or one kind is missing",
    33: "a buffer too short for the text",
    40: "a record missing, cut short, or of another length than its kind has",
    41: "a record's kind, or a head's region total, that doesn't belong there",
    42: "a record of a region from R up or given before",
    43: "a price asked about is outside its market's entry range",
    44: "a threshold that is no multiple of 10,000 cents",
    45: "a record that isn't the next region's",
    46: "a bill's line of more than 1,000,000,000 kilowatt-hours",
    47: "a book with the additional link, which an image of kind 1 cannot tell",
}

# "15 to 17 give the first place in the lent slice", 46 the line; beside any other refusal the place is 0 and says
# nothing.
PLACED = (15, 16, 17, 46)


class Refusal(Exception):
    """A refused call: `number`, `place` (None where none is named) and `text`, what the number means."""

    def __init__(self, number: int, place: Optional[int] = None):
        super().__init__(number, place)
        self.number = number
        self.place = place
        self.text = MEANINGS.get(number, "a refusal that this module does not know")

    def __str__(self) -> str:
        where = "" if self.place is None else f" at {self.place}"
        return f"refused {self.number}{where}: {self.text}"


@dataclass(frozen=True)
class Settings:
    """What a book is opened with; as it stands the real market, its first entry at midnight. `from_` and `to` are the
    ends of the additional link, the first and the second named."""

    regions: int = 5
    services: int = 10
    window: int = 2016
    halves: int = 48
    first: int = 0
    parents: Sequence[int] = (NO_PARENT, 0, 0, 2, 2, NO_PARENT, NO_PARENT, NO_PARENT)
    threshold: int = 182_360_000
    cap: int = 60_000
    floor: int = -60_000
    from_: int = NO_END
    to: int = NO_END


class Report(NamedTuple):
    """A market's sum, the prices counted in it, whether it is administered at the next entry, and the entries taken."""

    sum: int
    counted: int
    administered: bool
    entries: int


class Entered(NamedTuple):
    """How many published prices differ from the effective ones, and the published prices, region by region."""

    count: int
    table: List[int]


class Interval(NamedTuple):
    """An entry but for its schedule, as records carry it and a seed draws it: `book.enter(*interval, schedule)` enters
    it. Flows and factors have one place more where the book has the additional link, the last."""

    number: int
    day_kind: int
    prices: List[int]
    marks: List[int]
    flows: List[int]
    factors: List[int]


class Found(NamedTuple):
    """An interval that stands in some records, and the place after it."""

    interval: Interval
    next: int


class Rewritten(NamedTuple):
    """An interval's records in number order, and the place after those that they were taken from."""

    records: bytes
    next: int


class Drawn(NamedTuple):
    """The seed of the next interval of a test load, and this one's interval."""

    seed: int
    interval: Interval


class Line(NamedTuple):
    """A line of a retailer's bill: an interval's number, kilowatt-hours, published energy price and amount."""

    number: int
    energy: int
    price: int
    amount: int


class Judgement(NamedTuple):
    """Whether a bill is right; if not, its first wrong line, counted from 0, a missing or surplus one included."""

    right: bool
    line: Optional[int]


class Schedule(NamedTuple):
    """Two rows of 48 prices, a row a kind of day; places from the day's half-hours up are zero."""

    weekday: List[int]
    weekend: List[int]


class _Settings(ctypes.Structure):
    _fields_ = [
        ("regions", c_uint8), ("services", c_uint8), ("window", c_uint16), ("halves", c_uint8), ("first", c_uint16),
        ("parents", c_uint8 * 8), ("from_", c_uint8), ("to", c_uint8), ("threshold", c_int64), ("cap", c_int32),
        ("floor", c_int32),
    ]


class _Book(ctypes.Structure):
    _fields_ = [
        ("regions", c_uint8), ("services", c_uint8), ("window", c_uint16), ("halves", c_uint8),
        ("parents", c_uint8 * 8), ("from_", c_uint8), ("to", c_uint8), ("threshold", c_int64), ("cap", c_int32),
        ("floor", c_int32), ("entries", c_uint32), ("position", c_uint16), ("counts", c_uint16 * 8),
        ("nexts", c_uint16 * 8), ("sums", c_int64 * 88), ("marks", c_uint8 * 88),
    ]


class _Kept(ctypes.Structure):
    _fields_ = [("book", _Book), ("number", c_uint32), ("place", c_uint64)]


class _Entered(ctypes.Structure):
    _fields_ = [("book", _Book), ("number", c_uint32), ("place", c_uint64), ("count", c_uint32)]


class _Reading(ctypes.Structure):
    _fields_ = [
        ("number", c_uint32), ("counted", c_uint32), ("mark", c_uint32), ("entries", c_uint32), ("sum", c_int64),
    ]


class _Stored(ctypes.Structure):
    _fields_ = [("number", c_uint32), ("length", c_uint64)]


class _Found(ctypes.Structure):
    _fields_ = [("number", c_uint32), ("next", c_uint64), ("entry", c_uint32), ("day_kind", c_uint32)]


class _Rewritten(ctypes.Structure):
    _fields_ = [("number", c_uint32), ("next", c_uint64)]


class _Drawn(ctypes.Structure):
    _fields_ = [("number", c_uint32), ("seed", c_uint32), ("entry", c_uint32), ("day_kind", c_uint32)]


class _Left(ctypes.Structure):
    _fields_ = [("number", c_uint32), ("intervals", c_uint32)]


class _Billed(ctypes.Structure):
    _fields_ = [("number", c_uint32), ("place", c_uint64), ("right", c_uint32), ("line", c_uint64)]


class _Rows(ctypes.Structure):
    _fields_ = [("number", c_uint32), ("place", c_uint64), ("weekday", c_int32 * 48), ("weekend", c_int32 * 48)]


_SIZES = {
    _Settings: 40, _Book: 864, _Kept: 880, _Entered: 888, _Reading: 24, _Stored: 16, _Found: 24, _Rewritten: 16,
    _Drawn: 16, _Left: 8, _Billed: 32, _Rows: 400,
}
for _layout, _size in _SIZES.items():
    if ctypes.sizeof(_layout) != _size:
        raise ImportError(f"{_layout.__name__} has {ctypes.sizeof(_layout)} bytes here, {_size} in the archive")


def _slice(number):
    """The two arguments that a slice is: where it stands and its length in elements."""
    return [POINTER(number), c_size_t]


_BYTES, _SIGNED, _UNSIGNED = _slice(c_uint8), _slice(c_int32), _slice(c_uint32)
_CONTENTS = [*_SIGNED, *_BYTES, *_SIGNED, *_UNSIGNED]  # prices, marks, flows, factors
_COLUMNS = Line(c_uint32, c_uint32, c_int32, c_int64)  # what a bill's four slices hold

# What each function answers and takes, as host/c/guxhamole.h has it.
_FUNCTIONS = {
    "open": (_Kept, [_Settings, *_SIGNED]),
    "set_threshold": (_Kept, [_Book, c_int64]),
    "set_limits": (_Kept, [_Book, c_int32, c_int32]),
    "report": (_Reading, [_Book, c_uint32, c_uint32]),
    "intervals_left": (_Left, [_Book, *_SIGNED, c_uint32, c_uint32, c_int32]),
    "enter": (_Entered, [_Book, *_SIGNED, c_uint32, c_uint8, *_CONTENTS, *_SIGNED, *_SIGNED]),
    "store": (_Stored, [_Book, *_SIGNED, *_BYTES]),
    "store_kind_2": (_Stored, [_Book, *_SIGNED, *_BYTES]),
    "load": (_Kept, [*_BYTES, *_SIGNED]),
    "interval_read": (_Found, [_Book, *_BYTES, c_size_t, *_CONTENTS]),
    "interval_write": (_Stored, [_Book, c_uint32, c_uint8, *_CONTENTS, *_BYTES]),
    "interval_rewrite": (_Rewritten, [_Book, *_BYTES, c_size_t, *_BYTES]),
    "synthetic": (_Drawn, [_Book, c_uint32, c_uint32, c_uint8, *_CONTENTS]),
    "bill": (_Billed, [_Book, *_SIGNED, *_SIGNED, *_BYTES, *_SIGNED, c_uint32,
                       *(argument for kind in _COLUMNS for argument in _slice(kind))]),
    "schedule": (_Rows, [c_uint8, c_int32, c_int32, c_uint8, *_SIGNED, *_BYTES]),
    "amount_text": (c_size_t, [c_int64, *_BYTES]),
    "image_check": (c_uint32, _BYTES),
    "index": (c_int64, [c_uint64, *[c_uint32] * 8, c_uint64]),
    "replay": (c_size_t, [*_BYTES, *_BYTES, *_SIGNED, *_SIGNED, *_BYTES, *_SIGNED, *_UNSIGNED, *_SIGNED]),
    "abi": (c_uint32, []),
}

_library = None


def use_library(path) -> None:
    """Takes the functions from this shared object from here on."""
    global _library
    library = ctypes.CDLL(str(path))
    for name, (answer, arguments) in _FUNCTIONS.items():
        function = getattr(library, f"guxhamole_{name}", None)
        if function is None:
            raise ImportError(f"{path} has no guxhamole_{name}")
        function.restype, function.argtypes = answer, arguments
    if library.guxhamole_abi() != ABI:
        raise ImportError(f"{path} is of ABI {library.guxhamole_abi()}, this module of {ABI}")
    _library = library


def _face():
    """The library's functions."""
    if _library is None:
        top = Path(__file__).resolve().parents[2]
        use_library(os.environ.get("GUXHAMOLE_LIBRARY") or top / "target" / "host" / "libguxhamole.so")
    return _library


def _fits(value: int, kind) -> int:
    """The number, where its type holds it; ctypes alone would wrap it."""
    number = operator.index(value)
    if kind(number).value != number:
        raise OverflowError(f"{number} does not fit {kind.__name__}")
    return number


# An `array` tests every number that goes into it, as ctypes does not.
_CODES = {c_int32: "i", c_uint8: "B", c_uint32: "I", c_int64: "q"}


def _numbers(values: Sequence[int], kind):
    """These numbers as the library takes them, where their type holds every one."""
    numbers = array(_CODES[kind], list(values))
    return (kind * len(numbers)).from_buffer_copy(numbers)


def _contents(prices: Sequence[int], marks: Sequence[int], flows: Sequence[int], factors: Sequence[int]):
    """What an entry lends and an interval's records carry."""
    return [_numbers(prices, c_int32), _numbers(marks, c_uint8), _numbers(flows, c_int32), _numbers(factors, c_uint32)]


def _columns(lines: Sequence[Line]):
    """A bill's lines as the library takes them, a slice a field. The `array` of an older Python would cut a Decimal, so
    that what is no whole number raises here."""
    rows = [Line(*map(operator.index, line)) for line in lines]
    return [_numbers([row[field] for row in rows], kind) for field, kind in enumerate(_COLUMNS)]


def _bytes(given):
    """A bytes-like object's bytes, whatever its items are; copied, since ctypes lends nothing that is read-only."""
    view = memoryview(given)
    return (c_uint8 * view.nbytes).from_buffer_copy(view)


def _lent(*slices):
    """The arguments that these slices are."""
    return [argument for numbers in slices for argument in (numbers, len(numbers))]


def _accepted(answer):
    """The answer, where the call was accepted."""
    if answer.number != 0:
        raise Refusal(answer.number, answer.place if answer.number in PLACED else None)
    return answer


def _settings(settings: Settings) -> _Settings:
    record = _Settings()
    for name, kind in _Settings._fields_:
        if name != "parents":
            setattr(record, name, _fits(getattr(settings, name), kind))
    if len(settings.parents) != 8:
        raise ValueError(f"{len(settings.parents)} parents: there are eight, {NO_PARENT} where a region has none")
    record.parents = _numbers(settings.parents, c_uint8)
    return record


def _ring(regions: int, services: int, window: int):
    """A ring of exactly R x M x W places, or of one where no book has so many: that is refused before the ring is."""
    places = regions * (services + 1) * window
    return (c_int32 * (places if places <= LARGEST_RING else 1))()


class Book:
    """A book and its ring: made by `Book.open` and `Book.load`, changed by its calls alone."""

    def __init__(self, book: _Book, ring):
        """For `open` and `load`: the record that the library handed back and the ring that it was lent."""
        self._book = book
        self._ring = ring

    @classmethod
    def open(cls, settings: Settings) -> "Book":
        """A new book. Refusals: 20 18 44 19."""
        record = _settings(settings)
        ring = _ring(record.regions, record.services, record.window)
        return cls(_accepted(_face().guxhamole_open(record, *_lent(ring))).book, ring)

    @classmethod
    def load(cls, image: bytes) -> "Book":
        """The book of an image of either kind, with a ring of its own, whether or not `open` would take its threshold.
        Refusals: 24 25 26 27 16."""
        lent = _lent(_numbers(image, c_uint8))
        number = _face().guxhamole_image_check(*lent)
        if number not in (0, 16):
            raise Refusal(number)
        # The check has passed the head, so it says how long the ring is; the place of 16 is the load's to say.
        ring = _ring(image[6], image[7], int.from_bytes(image[8:10], "little"))
        return cls(_accepted(_face().guxhamole_load(*lent, *_lent(ring))).book, ring)

    def enter(self, number: int, day_kind: int, prices: Sequence[int], marks: Sequence[int], flows: Sequence[int],
              factors: Sequence[int], schedule: Sequence[int]) -> Entered:
        """One interval; `number` is that of the entries taken before it. A region each, and last, where the book has
        it, the additional link, have a flow and a factor. Refusals: 11 to 17."""
        head = (_fits(number, c_uint32), _fits(day_kind, c_uint8))
        table = (c_int32 * (self.regions * (self.services + 1)))()
        lent = _lent(*_contents(prices, marks, flows, factors), _numbers(schedule, c_int32), table)
        answer = _accepted(_face().guxhamole_enter(self._book, *_lent(self._ring), *head, *lent))
        self._book = answer.book
        return Entered(answer.count, list(table))

    def set_threshold(self, threshold: int) -> None:
        """Acts from the next entry. Refusals: 18 44."""
        self._book = _accepted(_face().guxhamole_set_threshold(self._book, _fits(threshold, c_int64))).book

    def set_limits(self, cap: int, floor: int) -> None:
        """Act from the next entry. Refusal: 19."""
        limits = (_fits(cap, c_int32), _fits(floor, c_int32))
        self._book = _accepted(_face().guxhamole_set_limits(self._book, *limits)).book

    def report(self, region: int, market: int) -> Report:
        """How a market stands; market 0 is energy. Refusal: 21."""
        answer = _accepted(_face().guxhamole_report(self._book, _fits(region, c_uint32), _fits(market, c_uint32)))
        return Report(answer.sum, answer.counted, answer.mark == 1, answer.entries)

    def intervals_left(self, region: int, market: int, price: int) -> int:
        """The least number of further unmarked intervals, 1 to W (the window), each bringing a market this price, after
        which its sum would exceed the present threshold, old prices leaving as they would; 0 exactly if none of 1 to W
        does, also where the sum exceeds it now. The book and ring stay. Refusals: 21 43."""
        question = (_fits(region, c_uint32), _fits(market, c_uint32), _fits(price, c_int32))
        return _accepted(_face().guxhamole_intervals_left(self._book, *_lent(self._ring), *question)).intervals

    def store(self) -> bytes:
        """The book's image, by kind 2, of which `load` makes the same book."""
        return self._stored(_face().guxhamole_store_kind_2)

    def store_kind_1(self) -> bytes:
        """The image of the earlier kind, for those who read no other; of a book that was loaded from one, the very
        bytes, but for what was called since. Refusal: 47."""
        return self._stored(_face().guxhamole_store)

    def read_interval(self, records: bytes, at: int = 0) -> Found:
        """The interval at a place of some records, any bytes-like object, its regions in number order; what stands
        behind it is not looked at, and that an entry would take it is not said. Refusals: 40 41 45."""
        return self._read(_bytes(records), _fits(at, c_size_t))

    def intervals(self, records: bytes, at: int = 0) -> Iterator[Interval]:
        """The intervals that stand end to end from a place to the records' end, of which it keeps a copy. One that is
        refused raises when its turn comes, as does a place beyond the end. Refusals: 40 41 45."""
        return self._each(_bytes(records), _fits(at, c_size_t))

    def write_interval(self, number: int, day_kind: int, prices: Sequence[int], marks: Sequence[int],
                       flows: Sequence[int], factors: Sequence[int]) -> bytes:
        """An interval's records, its regions upward; the numbers are written whether or not an entry would take them.
        Refusal: 11."""
        head = (_fits(number, c_uint32), _fits(day_kind, c_uint8))
        buffer = self._buffer()
        lent = _lent(*_contents(prices, marks, flows, factors), buffer)
        answer = _accepted(_face().guxhamole_interval_write(self._book, *head, *lent))
        return bytes(buffer)[:answer.length]

    def rewrite_interval(self, records: bytes, at: int = 0) -> Rewritten:
        """The interval at a place of some records, its regions in any order: its records in number order, which read to
        the same entry, and the place after the one taken. One that stands in that order comes back as it is. Refusals:
        40 41 42."""
        return self._rewrite(_bytes(records), _fits(at, c_size_t))

    def rewrite_intervals(self, records: bytes, at: int = 0) -> bytes:
        """The intervals that stand end to end from a place to the records' end, each rewritten and again end to end.
        One that is refused raises, as does a place beyond the end. Refusals: 40 41 42."""
        lent, place, forms = _bytes(records), _fits(at, c_size_t), []
        while place != len(lent):
            form, place = self._rewrite(lent, place)
            forms.append(form)
        return b"".join(forms)

    def synthetic(self, seed: int, number: int, day_kind: int) -> Drawn:
        """An interval of a test load with this number and day kind, drawn from a seed of 32 bits, 0 too, and the seed
        to draw the next one from. Whatever the seed, an entry takes its prices, marks and factors; number and day kind
        are not looked at. The book and ring stay. It is never refused."""
        head = (_fits(seed, c_uint32), _fits(number, c_uint32), _fits(day_kind, c_uint8))
        lent = self._slices()
        answer = _accepted(_face().guxhamole_synthetic(self._book, *head, *_lent(*lent)))
        return Drawn(answer.seed, Interval(answer.entry, answer.day_kind, *map(list, lent)))

    def check_bill(self, records: bytes, schedule: Sequence[int], region: int, lines: Sequence[Line]) -> Judgement:
        """A region's bill held against the records of a day, any bytes-like object, from the first byte to the last,
        and one schedule, by the book before the first interval. It is right exactly if there is one line an interval in
        order, with its number, the published energy price, and the amount kilowatt-hours x price / 1,000 rounded half
        away from zero. The intervals are entered in a second ring, made for this call: the book and its own ring stay
        as they were, after a refusal too. Refusals: 11 21; of each interval in turn 40 41 45 and 12 to 17, with places
        within its own entry; then 46, with the line."""
        answer = self._bill((c_int32 * len(self._ring))(), records, schedule, region, lines)
        return Judgement(True, None) if answer.right == 1 else Judgement(False, answer.line)

    def _bill(self, work, records: bytes, schedule: Sequence[int], region: int, lines: Sequence[Line]) -> _Billed:
        """Apart from `check_bill`, so that a test can lend a second ring and see what the call leaves in it."""
        lent = [*_lent(_bytes(records), _numbers(schedule, c_int32)), _fits(region, c_uint32), *_lent(*_columns(lines))]
        return _accepted(_face().guxhamole_bill(self._book, *_lent(self._ring, work), *lent))

    def _stored(self, function) -> bytes:
        """The image that a function of the library stores, with room for either kind."""
        image = (c_uint8 * (HEAD + 4 * len(self._ring)))()
        answer = _accepted(function(self._book, *_lent(self._ring, image)))
        return bytes(image)[:answer.length]

    def _linked(self) -> int:
        """1 where the book has the additional link, else 0."""
        return int(self.from_ != NO_END)

    def _slices(self):
        """Room for an interval of this book: its prices, marks, flows and factors."""
        regions, links = self.regions, self.regions + self._linked()
        return [(c_int32 * (regions * (self.services + 1)))(), (c_uint8 * regions)(), (c_int32 * links)(),
                (c_uint32 * links)()]

    def _buffer(self):
        """Room for the records of an interval of this book."""
        regions = self.regions * (REGION_HEAD + 4 * (self.services + 1))
        return (c_uint8 * (INTERVAL_HEAD + regions + self._linked() * LINK_RECORD))()

    def _rewrite(self, records, at: int) -> Rewritten:
        """The interval at a place of bytes that are the library's to look at, in number order."""
        buffer = self._buffer()
        answer = _accepted(_face().guxhamole_interval_rewrite(self._book, *_lent(records), at, *_lent(buffer)))
        return Rewritten(bytes(buffer), answer.next)

    def _read(self, records, at: int) -> Found:
        """The interval at a place of bytes that are the library's to look at."""
        lent = self._slices()
        answer = _accepted(_face().guxhamole_interval_read(self._book, *_lent(records), at, *_lent(*lent)))
        return Found(Interval(answer.entry, answer.day_kind, *map(list, lent)), answer.next)

    def _each(self, records, at: int) -> Iterator[Interval]:
        """Apart from `intervals`, so that what is wrong with its arguments raises there."""
        while at != len(records):
            interval, at = self._read(records, at)
            yield interval

    def __reduce__(self):
        """A copy, or a book that was pickled, has a ring of its own: two books on one ring would spoil each other."""
        return Book.load, (self.store(),)

    @property
    def regions(self) -> int:
        return self._book.regions

    @property
    def services(self) -> int:
        return self._book.services

    @property
    def window(self) -> int:
        return self._book.window

    @property
    def halves(self) -> int:
        return self._book.halves

    @property
    def parents(self) -> List[int]:
        return list(self._book.parents)

    @property
    def from_(self) -> int:
        """The first named end of the additional link, or 255."""
        return self._book.from_

    @property
    def to(self) -> int:
        """The second named end of the additional link, or 255."""
        return self._book.to

    @property
    def threshold(self) -> int:
        return self._book.threshold

    @property
    def cap(self) -> int:
        return self._book.cap

    @property
    def floor(self) -> int:
        return self._book.floor

    @property
    def entries(self) -> int:
        """The entries taken, and so the next entry's number."""
        return self._book.entries

    @property
    def position(self) -> int:
        """The next entry's position in its day."""
        return self._book.position


def check(image: bytes) -> None:
    """Whether `Book.load` takes an image. Refusals, none with a place: 24 25 26 27 16."""
    number = _face().guxhamole_image_check(*_lent(_numbers(image, c_uint8)))
    if number != 0:
        raise Refusal(number)


def schedule(halves: int, cap: int, floor: int, energy: bool, prices: Sequence[int],
             day_kinds: Sequence[int]) -> Schedule:
    """A market's suspension schedule, of 28 days' prices, day by day, and their kinds. Refusals: 31 32 19 16."""
    head = (_fits(halves, c_uint8), _fits(cap, c_int32), _fits(floor, c_int32), 1 if energy else 0)
    lent = _lent(_numbers(prices, c_int32), _numbers(day_kinds, c_uint8))
    answer = _accepted(_face().guxhamole_schedule(*head, *lent))
    return Schedule(list(answer.weekday), list(answer.weekend))


def index(amount: int, quarters: Sequence[int], base: Sequence[int], last: int) -> int:
    """An amount indexed by the four quarters of a year over those of the base year, in tenths, and never below last
    year's. Refusal: 30."""
    if len(quarters) != 4 or len(base) != 4:
        raise ValueError("a year has four quarters")
    years = [_fits(quarter, c_uint32) for quarter in (*quarters, *base)]
    dollars = _face().guxhamole_index(_fits(amount, c_uint64), *years, _fits(last, c_uint64))
    if dollars < 0:
        raise Refusal(-dollars)
    return dollars


def amount_text(cents: int) -> str:
    """Cents as dollars with two digits after the point."""
    buffer = (c_uint8 * LONGEST_TEXT)()
    written = _face().guxhamole_amount_text(_fits(cents, c_int64), *_lent(buffer))
    return bytes(buffer)[:written].decode("ascii")


def replay(calls: bytes) -> bytes:
    """The answers to a list of calls (docs/RECORDS.md), with room for every list: what ends a replay early, so that
    there are fewer answers than calls, is a record that is damaged or lends a ring longer than the book's."""
    words = len(calls) // 4 + 1  # an entry's contents stand in its record
    answers = (c_uint8 * (3 * len(calls)))()  # the most are 34 bytes for a report's 14
    rings = [(c_int32 * LARGEST_RING)(), (c_int32 * LARGEST_RING)()]
    image = (c_uint8 * (REPLAYED_HEAD + 4 * LARGEST_RING))()
    contents = [(c_int32 * words)(), (c_uint32 * words)(), (c_int32 * words)()]
    written = _face().guxhamole_replay(*_lent(_numbers(calls, c_uint8), answers, *rings, image, *contents))
    return bytes(answers)[:written]


def abi() -> int:
    """The number of the layouts, the library's and this module's."""
    return _face().guxhamole_abi()
