"""Document 01's rule 10, from its words alone: the book records that every call refuses; and the rings that store
refuses beside them, by 11 and 22. The tests hold the library to it; it shares no code with guxhamole.py."""

from arithmetic import Refused, limits_good, price_good
from ledger import MOST_ENTRIES, parents_good
from link import ends_good, ends_of

LARGEST_SUM = 20_160_000_000


def refuse_book(book):
    """ "Any call on a book: 10, it is closed or a field is outside its limits" """
    if not (settings_good(book) and windows_good(book) and markets_good(book)):
        raise Refused(10)


def settings_good(book):
    """What opening sets, and the "entries taken above 10,000,000"; a closed book has no region. Any threshold in range
    is good, since an image may bring it."""
    return (
        1 <= book.regions <= 8 and book.services <= 10 and 1 <= book.window <= 2016 and 1 <= book.halves <= 48
        and parents_good(book.regions, book.parents[:])
        and ends_good(book.regions, book.parents[:], ends_of(book))
        and 1 <= book.threshold <= 100_000_000_000 and limits_good(book.cap, book.floor)
        and book.entries <= MOST_ENTRIES and book.position < 6 * book.halves
    )


def windows_good(book):
    """ "a count above W or above entries taken, next place not the count while below W", "an unused .. count .. not
    zero"; and "next place (0..W−1)" """
    for region, (count, place) in enumerate(zip(book.counts[:], book.nexts[:])):
        most = min(book.window, book.entries) if region < book.regions else 0
        if count > most or place >= book.window or (count < book.window and place != count):
            return False
    return True


def markets_good(book):
    """ "a sum beyond ±20,160,000,000, an unused sum, count or mark not zero"; a used mark is 0 or 1. They stand "at
    place 11 × region + market". """
    for place, (total, mark) in enumerate(zip(book.sums[:], book.marks[:])):
        used = place // 11 < book.regions and place % 11 <= book.services
        if abs(total) > (LARGEST_SUM if used else 0) or mark > (1 if used else 0):
            return False
    return True


def refuse_length(book, ring):
    """ "a lent ring of exactly R × M × W" """
    if len(ring) != book.regions * (book.services + 1) * book.window:
        raise Refused(11)


def counted(book, ring, region, market):
    """A market's counted prices, oldest first: its window "starts at (region × M + market) × W; a region's count and
    next place serve all its markets", and while the window isn't full its first place is the oldest. """
    start = (region * (book.services + 1) + market) * book.window
    window, count, place = list(ring[start:start + book.window]), book.counts[region], book.nexts[region]
    return window[place:] + window[:place] if count == book.window else window[:count]


def refuse_prices(book, ring):
    """22, over every market: a counted price out of its market's range, or a sum that is not the total."""
    for region in range(book.regions):
        for market in range(book.services + 1):
            prices = counted(book, ring, region, market)
            good = all(price_good(price, market == 0) for price in prices)
            if not good or sum(prices) != book.sums[11 * region + market]:
                raise Refused(22)
