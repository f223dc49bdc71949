"""The two starts of a list of calls, each for the library's book and for the ledger: an opening, and an image of a book
without entries and with no period marked, which may hold any threshold (request 2026-06 of document 02) and is of
either kind (request 2026-10). For tests."""

from guxhamole import Book
from image import begun, image_of
from ledger import Ledger


def blank_image(settings, kind=2):
    """The image of a book with these settings, without entries and with no period marked."""
    return image_of(Ledger(settings), kind)


def stored(book, kind):
    """The library's image of a book, by either kind."""
    return book.store_kind_1() if kind == 1 else book.store()


def with_threshold(image, threshold):
    """An image but for bytes 28 to 35."""
    return image[:28] + threshold.to_bytes(8, "little") + image[36:]


def by_opening(settings):
    return Book.open(settings), Ledger.open(settings)


def by_image(settings, kind=2):
    image = blank_image(settings, kind)
    return Book.load(image), begun(image)
