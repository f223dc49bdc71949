"""Document 01's image and document 02's kind 2 of it (request 2026-10), from their words alone: the bytes that a
ledger's book has, what refuses bytes and a restart, and the ledger that begins with an image. The tests hold the
library to it; it shares no code with guxhamole.py."""

from arithmetic import Refused, limits_good, price_good
from ledger import MOST_ENTRIES, Ledger, Opening, parents_good
from link import NO_LINK, ends_good, ends_of, link_of

HEAD = 148
# By kind, where the prices begin: kind 2 has "at 148 the two ends (255, 255 for none), two zeros, at 152 four bytes of
# 255 kept for 2026-11, and prices from 156".
PRICES = {1: HEAD, 2: 156}


def number(value, size):
    """ "Little-endian." """
    return value.to_bytes(size, "little", signed=value < 0)


def least_kind(opening):
    """1, or 2 where a book has the link: "47: storing as kind 1 a book with the link". """
    return 2 if link_of(opening) else 1


def image_of(ledger, kind=2):
    """The layout's fields in order; "for each region and market its counted prices, oldest first, 4 bytes each"."""
    opening, last = ledger.opening, ledger.taken - 1
    if kind < least_kind(opening):
        raise Refused(47)
    counts, periods, prices = [0] * 8, [0] * 88, []
    for region in range(opening.regions):
        counts[region] = len(ledger.counted(region, 0, last))
        for market in range(ledger.markets):
            periods[11 * region + market] = int(ledger.administered(region, market, ledger.taken))
            prices += ledger.counted(region, market, last)
    setting = ledger.settings[-1]
    fields = [
        (PRICES[kind] + 4 * len(prices), 4), (kind, 2), (opening.regions, 1), (opening.services, 1),
        (opening.window, 2), (opening.halves, 1), (0, 1), *((parent, 1) for parent in opening.parents),
        (ledger.marked + ledger.taken, 4), (ledger.position(ledger.taken), 2), (0, 2), (setting.threshold, 8),
        (setting.cap, 4), (setting.floor, 4),
        *((count, 2) for count in counts), *((period, 1) for period in periods), *ends_fields(opening, kind),
        *((price, 4) for price in prices),
    ]
    return b"".join(number(value, size) for value, size in fields)


def ends_fields(opening, kind):
    """Bytes 148 to 155 of kind 2."""
    first, second = ends_of(opening)
    return [(first, 1), (second, 1), (0, 2), (2**32 - 1, 4)] if kind == 2 else []


def read(image, place, size, signed=False):
    return int.from_bytes(image[place:place + size], "little", signed=signed)


def head_good(image):
    """Whether every field of bytes 6 to 147 is inside "what Open or 10 allows", and every zero and unused one zero."""
    regions, services, window, halves = image[6], image[7], read(image, 8, 2), image[10]
    entries = read(image, 20, 4)
    return (
        1 <= regions <= 8 and services <= 10 and 1 <= window <= 2016 and 1 <= halves <= 48
        and parents_good(regions, image[12:20])
        and image[11] == image[26] == image[27] == 0
        and entries <= MOST_ENTRIES and read(image, 24, 2) < 6 * halves
        and 1 <= read(image, 28, 8) <= 100_000_000_000
        and limits_good(read(image, 36, 4, signed=True), read(image, 40, 4, signed=True))
        and all(count <= (min(window, entries) if region < regions else 0)
                for region, count in enumerate(counts(image)))
        and all(period <= (place // 11 < regions and place % 11 <= services)
                for place, period in enumerate(image[60:HEAD]))
    )


def ends_in(image):
    """ "Kind 1 loads as having no such link" """
    return (image[HEAD], image[HEAD + 1]) if read(image, 4, 2) == 2 else NO_LINK


def rest_good(image):
    """Of kind 2 "26 bytes 148 to 155": ends that opening takes, two zeros, four bytes of 255."""
    first_good = ends_good(image[6], image[12:20], ends_in(image))
    return first_good and (read(image, 4, 2) == 1 or image[150:156] == bytes([0, 0, 255, 255, 255, 255]))


def counts(image):
    return [read(image, 44 + 2 * region, 2) for region in range(8)]


def refuse_image(image, ring=None):
    """ "24 under 148 bytes or length field not the lent length", or "kind 2 under 156 bytes"; "25 kind; 26 ..; 27
    length formula", which "then reckons" from 156; 11; "16, place counted from 0 among the image's prices." No ring's
    length is told where it is the host's own, of its length. """
    kind = read(image, 4, 2)
    if len(image) < HEAD or read(image, 0, 4) != len(image) or len(image) < PRICES.get(kind, HEAD):
        raise Refused(24)
    if kind not in PRICES:
        raise Refused(25)
    if not head_good(image) or not rest_good(image):
        raise Refused(26)
    markets = image[7] + 1
    if len(image) != PRICES[kind] + 4 * markets * sum(counts(image)):
        raise Refused(27)
    if ring is not None and ring != image[6] * markets * read(image, 8, 2):
        raise Refused(11)
    energies = [market == 0 for count in counts(image) for market in range(markets) for _ in range(count)]
    for place, energy in enumerate(energies):
        if not price_good(read(image, PRICES[kind] + 4 * place, 4, signed=True), energy):
            raise Refused(16, place)


def refuse_restart(ledger, kind, room, ring):
    """A restart "goes by kind 2, or by kind 1 where 47 allows it": a store into a buffer of this room, then a load into
    another ring of this length. Over a ledger's calls these are refused by 47, 23 and the load's 11 alone. """
    image = image_of(ledger, kind)
    if room < len(image):
        raise Refused(23)
    refuse_image(image, ring)


def settings_in(image):
    """Where "the next entry's position" stands for the first position."""
    limits = read(image, 36, 4, signed=True), read(image, 40, 4, signed=True)
    shape = image[6], image[7], read(image, 8, 2), image[10]
    return Opening(*shape, read(image, 24, 2), list(image[12:20]), read(image, 28, 8), *limits, *ends_in(image))


def begun(image):
    """Request 2026-06 of document 02: a ledger's list "may begin with such an image of a book without entries and with
    no period marked, its settings standing for the opening's". Any threshold in range is one; 44 is of opening and
    setting alone."""
    refuse_image(image)
    if read(image, 20, 4) != 0 or any(image[60:HEAD]):
        raise ValueError("no list begins with an image of a book that has entries or a period marked")
    return Ledger(settings_in(image))
