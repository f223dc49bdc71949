"""The books of crates/guide_books/stdin, played line by line on this host's `Book`: what they print is the stored
output, crates/guide_books/stdout. The text's own comments have the words of document 01 that each case is from."""

import re
import unittest
from ctypes import c_uint8
from pathlib import Path

import guxhamole
from guxhamole import Book, Refusal, Settings, amount_text
from starts import blank_image

TOP = Path(__file__).resolve().parents[2]


def numbers(line):
    return [int(number) for number in re.findall(r"-?\d+", line)]


class Stage:
    """What is lent, by a line's first letter, until another line says otherwise; and what was printed."""

    def __init__(self):
        self.lent = {}
        self.book = Book(guxhamole._Book(), guxhamole._ring(1, 0, 1))
        self.printed = []

    def called(self, name, call, *arguments):
        """A call's answer, or None and the refusal printed."""
        try:
            return call(*arguments)
        except Refusal as refusal:
            where = "" if refusal.place is None else f" at {refusal.place}"
            self.printed.append(f"{name} refused {refusal.number}{where}")
            return None

    def ring(self):
        """A ring of so many places, as the text lends it; a `Book` by itself lends none but the right one."""
        return guxhamole._ring(1, 0, self.lent["a"][0])

    def settings(self, given):
        parents = (self.lent["w"] + [255] * 8)[:8]
        return Settings(*given[:5], parents, *given[5:])

    def begin(self, name, call, *lent):
        """The book that an opening or a load hands back, with the ring that it was lent."""
        ring = self.ring()
        answer = call(*lent, *guxhamole._lent(ring))
        self.book = Book(answer.book, ring)
        self.called(name, guxhamole._accepted, answer)

    def open(self, given):
        self.begin("open", guxhamole._face().guxhamole_open, guxhamole._settings(self.settings(given)))

    def image(self, given):
        """The image of a book with these settings and without entries, which may hold any threshold."""
        image = guxhamole._numbers(blank_image(self.settings(given)), c_uint8)
        self.begin("image", guxhamole._face().guxhamole_load, *guxhamole._lent(image))

    def enter(self, entry):
        own = self.book._ring
        if len(own) != self.lent["a"][0]:
            self.book._ring = self.ring()
        entered = self.called("entry", self.book.enter, *entry, *(self.lent[letter] for letter in "pmfls"))
        self.book._ring = own
        if entered is not None:
            amounts = " ".join(amount_text(price) for price in entered.table)
            self.printed.append(f"published {amounts} count {entered.count}")

    def report(self, market):
        report = self.called("report", self.book.report, *market)
        if report is not None:
            period = int(report.administered)
            self.printed.append(f"report {amount_text(report.sum)} {report.counted} {period} {report.entries}")

    def question(self, asked):
        """A ring of a wrong length is lent as it is, which a `Book` by itself doesn't do."""
        own = self.book._ring
        if len(own) != self.lent["a"][0]:
            self.book._ring = self.ring()
        left = self.called("left", self.book.intervals_left, *asked)
        self.book._ring = own
        if left is not None:
            self.printed.append(f"left {left}")

    def jot(self, given):
        place, price = given
        self.book._ring[place] = price

    def break_ring(self, _):
        """As others might: the first sum at its bound, the ring's first place the least number."""
        self.book._book.sums[0] = 20_160_000_000
        self.book._ring[0] = -2**31

    def line(self, line):
        calls = {
            "o": self.open, "i": self.image, "e": self.enter, "r": self.report, "b": self.break_ring,
            "q": self.question, "j": self.jot,
            "t": lambda given: self.called("threshold", self.book.set_threshold, *given),
            "c": lambda given: self.called("limits", self.book.set_limits, *given),
            "v": lambda _: self.printed.append(" " + amount_text(self.book._book.sums[0])),
            "=": lambda _: self.printed.append(line[1:]),
        }
        if line[:1] in calls:
            calls[line[0]](numbers(line))
        elif line[:1] in list("pmflswa"):
            self.lent[line[0]] = numbers(line)


class GuideBooks(unittest.TestCase):
    def test_books(self):
        stage = Stage()
        for line in (TOP / "crates/guide_books/stdin").read_text(encoding="utf-8").splitlines():
            stage.line(line)
        self.assertEqual(stage.printed, (TOP / "crates/guide_books/stdout").read_text(encoding="utf-8").splitlines())


if __name__ == "__main__":
    unittest.main()
