"""Document 02's interval records (requests 2026-01, 2026-08 and 2026-10), from its words alone: a reader that goes from
record to record, the reader of the earlier form, a writer and a rewriter. The tests hold the library to it; it shares
no code with guxhamole.py."""

from struct import Struct
from typing import NamedTuple, Sequence

from arithmetic import Refused
from book import refuse_book
from link import link_of, places_of

# "A record, little-endian throughout, is its length (4 bytes, the whole record), a two-byte kind, then the body."
FRONT = Struct("<IH")
HEAD, REGION, LINK = 16, 17, 18


class Interval(NamedTuple):
    """An entry, "its schedule aside"."""

    number: int
    day_kind: int
    prices: Sequence[int]
    marks: Sequence[int]
    flows: Sequence[int]
    factors: Sequence[int]


def bodies(markets):
    """ "Kind 16 heads an interval: number (4), day kind (1), regions (1). Kind 17 is a region: region (1), mark (1),
    flow (4), factor (4), M prices (4 each)." The additional link's flow and factor "are a kind 18, flow (4) and factor
    (4)". Flows and prices are signed. """
    return {HEAD: Struct("<IBB"), REGION: Struct(f"<BBiI{markets}i"), LINK: Struct("<iI")}


def record(markets, kind, *fields):
    body = bodies(markets)[kind].pack(*fields)
    return FRONT.pack(FRONT.size + len(body), kind) + body


def records(book, interval):
    """The head, the region records upward, and where the book has the link its own "after the last region". """
    markets = book.services + 1
    yield record(markets, HEAD, interval.number, interval.day_kind, book.regions)
    for region in range(book.regions):
        prices = interval.prices[region * markets:(region + 1) * markets]
        others = interval.marks[region], interval.flows[region], interval.factors[region]
        yield record(markets, REGION, region, *others, *prices)
    if link_of(book):
        yield record(markets, LINK, interval.flows[book.regions], interval.factors[book.regions])


def lengths(book):
    """Those of the slices that an entry has too: R × M prices, R marks, R flows, R factors, and of the last two one
    more where the book has the link."""
    return [book.regions * (book.services + 1), book.regions, places_of(book), places_of(book)]


def refuse_lengths(book, given):
    """11, of these slices."""
    if list(given) != lengths(book):
        raise Refused(11)


def write(book, interval, room):
    """The bytes that go to a buffer's start: "10, 11 and the writer's 23 come first", and nothing else is refused."""
    refuse_book(book)
    refuse_lengths(book, [len(numbers) for numbers in interval[2:]])
    written = b"".join(records(book, interval))
    if len(written) > room:
        raise Refused(23)
    return written


def take(given, place, book, due):
    """A due record's fields and the place after it. "40: a record missing or cut short, a length below 6 or, for a
    known kind, another than it has. 41: a kind .. that doesn't belong there." Kind 18 is known in every book. """
    left = given[place:]
    if len(left) < FRONT.size:
        raise Refused(40)
    length, kind = FRONT.unpack_from(left)
    body = bodies(book.services + 1).get(kind)
    if length < FRONT.size or length > len(left) or (body is not None and length != FRONT.size + body.size):
        raise Refused(40)
    if kind != due:
        raise Refused(41)
    return body.unpack_from(left, FRONT.size), place + length


def take_head(book, given, at):
    """Number, day kind, and the place of the first region record. "41: .. a region total in the head, that doesn't
    belong there." """
    (number, day_kind, total), place = take(given, at, book, HEAD)
    if total != book.regions:
        raise Refused(41)
    return number, day_kind, place


def take_link(book, given, place):
    """The additional link's flow and factor, and the place after their record: "read .. exactly when the book has the
    link", and without it nothing behind the last region is looked at. """
    return take(given, place, book, LINK) if link_of(book) else ((), place)


def interval_of(number, day_kind, rows, link):
    """Of region 0's row on: mark, flow, factor and prices; then the link's flow and factor, if there are any."""
    prices = [price for _, _, _, *prices in rows for price in prices]
    marks, flows, factors = ([row[field] for row in rows] for field in range(3))
    return Interval(number, day_kind, prices, marks, flows + [*link[:1]], factors + [*link[1:]])


def read(book, lent, given, at):
    """The interval at a place and the place after it. "Region records now follow their head as 0, 1 and so on"; "45: a
    region record that isn't the next region; in the reader it takes the place of 42". """
    refuse_book(book)
    refuse_lengths(book, lent)
    number, day_kind, place = take_head(book, given, at)
    rows = []
    while len(rows) < book.regions:
        (region, *row), place = take(given, place, book, REGION)
        if region != len(rows):
            raise Refused(45)
        rows.append(row)
    link, place = take_link(book, given, place)
    return interval_of(number, day_kind, rows, link), place


def read_earlier(book, given, at):
    """The same of the earlier form, for a sound book. "One head is followed by R region records, each region once, in
    any order"; "42: a region from R up or given before." The link's record stands after the last of them. """
    number, day_kind, place = take_head(book, given, at)
    rows = {}
    for _ in range(book.regions):
        (region, *row), place = take(given, place, book, REGION)
        if region >= book.regions or region in rows:
            raise Refused(42)
        rows[region] = row
    link, place = take_link(book, given, place)
    return interval_of(number, day_kind, [rows[region] for region in range(book.regions)], link), place


def length(book):
    """An interval's bytes: a head, R region records of M prices each, and the link's record where there is one."""
    head, region, link = (FRONT.size + body.size for body in bodies(book.services + 1).values())
    return head + book.regions * region + link_of(book) * link


def rewrite(book, given, at, room):
    """The bytes that go to a buffer's start, and "the place after the one taken". "Given book and place, a rewriter
    takes one interval of the earlier form, refusing by 10, 23, then 40 to 42, writes it .. in the fixed order with the
    same entry": so the book alone tells 23, before any record is looked at. """
    refuse_book(book)
    if room < length(book):
        raise Refused(23)
    entry, place = read_earlier(book, given, at)
    return b"".join(records(book, entry)), place
