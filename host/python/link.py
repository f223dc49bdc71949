"""Document 02's additional link (request 2026-10), from its words alone: the two regions that it links, which of them
opening takes, and the places that its flow and factor make. It shares no code with guxhamole.py."""

NONE = 255
NO_LINK = NONE, NONE


def ends_of(book):
    """The first and the second named, of an opening, settings or a book's record."""
    return book.from_, book.to


def link_of(book):
    """Whether the book has the link: "the two ends (255, 255 for none)". """
    return ends_of(book) != NO_LINK


def ends_good(regions, parents, ends):
    """ "A book may be opened with one additional link between two regions not already linked", in either order; that it
    closes a ring is not asked. """
    if ends == NO_LINK:
        return True
    first, second = ends
    return max(ends) < regions and first != second and parents[first] != second and parents[second] != first


def places_of(book):
    """How many flows and factors there are: "its flow and factor come as an extra last place". """
    return book.regions + link_of(book)
