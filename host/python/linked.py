"""Settings with the additional link (request 2026-10 of document 02), drawn at random, damaged images and records of
such books, and what to tell of a link. For tests that draw books."""

from dataclasses import replace
from itertools import permutations

from arithmetic import Refused
from book import refuse_book
from interval import FRONT, LINK
from ledger import Opening
from link import NO_LINK, NONE, ends_good, ends_of, link_of

BODY = 148  # where the bytes of kind 2 begin that kind 1 has not


def opening_of(settings):
    return Opening(**vars(settings))


def with_ends(settings, ends):
    return replace(settings, from_=ends[0], to=ends[1])


def good_ends(settings):
    """All that opening takes, in both orders, but for none."""
    return [ends for ends in permutations(range(settings.regions), 2)
            if ends_good(settings.regions, settings.parents, ends)]


def roots(settings):
    """Of each region the one without a parent that its links lead to."""
    tops = []
    for region in range(settings.regions):
        tops.append(region if settings.parents[region] == NONE else tops[settings.parents[region]])
    return tops


def closes_ring(settings, ends):
    """Whether a way leads from the one end to the other without the link."""
    tops = roots(settings)
    return tops[ends[0]] == tops[ends[1]]


def linked(dice, settings):
    """Settings with a link, in three of four where there can be one; where both are possible, as often one that closes
    a ring as one that doesn't."""
    ends = good_ends(settings)
    if not ends or dice.random() < 0.25:
        return with_ends(settings, NO_LINK)
    closing = [pair for pair in ends if closes_ring(settings, pair)]
    joining = [pair for pair in ends if pair not in closing]
    return with_ends(settings, dice.choice(dice.choice([pairs for pairs in (closing, joining) if pairs])))


def link_kind(settings):
    """What its link is, for the counts of what was met."""
    if not link_of(settings):
        return "no link"
    return "a ring" if closes_ring(settings, ends_of(settings)) else "two trees joined"


def kinds_of(settings):
    """The kinds of image that tell a book with these settings."""
    return (2,) if link_of(settings) else (1, 2)


def odd_ends(dice, settings):
    """Ends of which most are refused: one is none, both are one region, a region and its parent, or beyond R."""
    regions = settings.regions
    one, other = dice.randrange(regions), dice.randrange(8)
    pairs = [(NONE, one), (one, NONE), (one, one), (one, other), (regions, one), (one, regions), (NONE - 1, NONE),
             (dice.randrange(256), dice.randrange(256)), (NONE, NONE)]
    pairs += [(one, settings.parents[one]), (settings.parents[one], one)] * 3
    return dice.choice(pairs)


def ends_alone(book):
    """Whether a book's record would be taken, but for its ends."""
    without = type(book).from_buffer_copy(book)
    without.from_, without.to = NO_LINK
    try:
        refuse_book(without)
    except Refused:
        return False
    return not ends_good(book.regions, book.parents[:], ends_of(book))


def changed(image, place, *values):
    """An image, or records, but for some bytes."""
    return image[:place] + bytes(values) + image[place + len(values):]


def of_length(image, end):
    """An image cut, or filled up with zeros, to a length that its field says too."""
    return end.to_bytes(4, "little") + image[4:end] + bytes(max(0, end - len(image)))


def relabelled(dice, image):
    """The other kind, or one that there is not."""
    other = 1 if image[4] == 2 else 2
    return changed(image, 4, *dice.choice(((other, 0), (other, 0), (3, 0), (0, 0), (image[4], 1), (255, 255))))


def damaged_body(dice, image):
    """An image of kind 2 with something else at 148 to 155, or cut there; in some relabelled as well."""
    way = dice.randrange(8)
    if way == 0:
        image = of_length(image, dice.randint(BODY, BODY + 8))
        return relabelled(dice, image) if dice.random() < 0.3 else image
    if way < 3:
        return changed(image, dice.randrange(BODY + 2, BODY + 8), dice.choice((0, 1, 128, 254, 255)))
    regions, parents = max(1, min(8, image[6])), image[12:20]
    if way < 5:
        return changed(image, BODY + dice.randrange(2), dice.choice((NONE, regions, dice.randrange(8), 254)))
    shape = Opening(regions, 0, 1, 1, 0, parents, 1, 1, -1)
    return changed(image, BODY, *(odd_ends(dice, shape) if way < 7 else (NONE, NONE)))


def damaged_links(dice, pieces):
    """Records of which the link's is missing, given twice, elsewhere or of another length, or stands where none is due;
    where there is none, one is made."""
    found = [place for place, piece in enumerate(pieces) if piece[4:6] == bytes([LINK, 0])]
    any_place, size = dice.randint(0, len(pieces)), dice.choice((14, 14, 14, 12, 20))
    piece = FRONT.pack(size, LINK) + bytes(dice.randrange(256) for _ in range(size - 6))
    if not found:
        return pieces[:any_place] + [piece] + pieces[any_place:]
    place = dice.choice(found)
    rest, way = pieces[:place] + pieces[place + 1:], dice.randrange(5)
    if way == 0:
        return rest
    if way == 1:
        return pieces[:place] + [piece] + pieces[place:]
    if way == 2:
        return rest[:any_place] + pieces[place:place + 1] + rest[any_place:]
    if way == 3:
        size = dice.choice((0, 5, 6, 12, 13, 15, 16, 20, 2**32 - 1))
        longer = FRONT.pack(size, LINK) + (pieces[place][6:] + bytes(16))[:max(0, min(size, 20) - 6)]
        return pieces[:place] + [longer] + pieces[place + 1:]
    other = FRONT.pack(14, dice.choice((16, 17, 19, LINK + 256))) + pieces[place][6:]
    return pieces[:place] + [other] + pieces[place + 1:]


def pieces_of(settings):
    """How many records an interval has."""
    return 1 + settings.regions + link_of(settings)
