"""Random lists of calls on books with the additional link (request 2026-10 of document 02), from a fixed seed, with
restarts by images of either kind: the code of `kit`, as in test_links.py, held to a ledger that tries every order of
regions as a route; and random images of both kinds, held to a second verdict."""

import random
import unittest
from collections import Counter

import edition
from book import refuse_book
from image import image_of
from ledger import Entry, Ledger
from link import link_of
from linked import kinds_of, link_kind, opening_of, with_ends
from permuted import Cents, Permuted, Relaxed, Unlinked, as_if, ends_allowed
from record import named
from test_random import bad_settings, damage, damaged_image, near_hundreds, random_entry, random_limits, random_settings

SEED = 10
# How often each must be met: what was answered, what the link was, and what a wrong ledger would have published.
LISTS = {
    "accepted": 4_000, 11: 200, 13: 80, 14: 80, 15: 80, 16: 60, 17: 80, "17 of the link": 20, 20: 120, 21: 120,
    "restarted by kind 1": 80, "restarted by kind 2": 200, 47: 200, "47 before 23": 60, 23: 100, "23 before 11": 30,
    "load's 11": 60, "no link": 40, "a ring": 50, "two trees joined": 40, "without entries": 20,
    "power round a ring": 100, "two routes bind": 25, "the link binds": 120, "floors over the link": 60,
    "a relaxing loop": 40, "cents a link": 50, "flow the other way": 200,
}
IMAGES = {"accepted": 300, 16: 50, 24: 400, 25: 400, 26: 500, 27: 150, "of kind 1": 100, "of kind 2": 200,
          "26 at 148 to 155": 200, "other ends": 15, "relabelled 26": 60, "relabelled 27": 30, "of kind 2, 24": 70}


def said(call, *arguments):
    """What a call answers: "accepted" and the values, or "refused", number and place."""
    try:
        return "accepted", call(*arguments)
    except Exception as refused:
        if type(refused).__name__ not in ("Refused", "Refusal"):
            raise
        return "refused", refused.number, refused.place


def length_of(ledger, kind):
    """An image's bytes, by the prices that are counted."""
    counted = [ledger.counted(region, market, ledger.taken - 1)
               for region in range(ledger.opening.regions) for market in range(ledger.markets)]
    return {1: 148, 2: 156}[kind] + 4 * sum(map(len, counted))


def due_image(image):
    """What refuses an image, by the record that its fields name: 26 is that record's 10, or a byte that must be zero,
    or 255 in kind 2, and isn't."""
    kind = int.from_bytes(image[4:6], "little")
    if len(image) < 148 or image[:4] != len(image).to_bytes(4, "little") or (kind == 2 and len(image) < 156):
        return "refused", 24, None
    if kind not in (1, 2):
        return "refused", 25, None
    book, start = named(image), 148 if kind == 1 else 156
    kept = image[11:12] + image[26:28] + image[150:start]
    if said(refuse_book, book)[0] == "refused" or kept not in (bytes(3), bytes(5) + b"\xff" * 4):
        return "refused", 26, None
    if len(image) != start + 4 * (book.services + 1) * sum(book.counts):
        return "refused", 27, None
    prices = [int.from_bytes(image[at:at + 4], "little", signed=True) for at in range(start, len(image), 4)]
    lows = [0 if market else -10_000_000
            for count in book.counts for market in range(book.services + 1) for _ in range(count)]
    bad = [place for place, price in enumerate(prices) if not lows[place] <= price <= 10_000_000]
    return ("refused", 16, bad[0]) if bad else ("accepted", None)


class Lists:
    """Lists of calls, made on the code of `kit`, which restarts, and on the ledger with the whole history."""

    def __init__(self, test):
        self.test, self.kit = test, test.kit
        self.dice = random.Random(SEED)
        self.met = Counter()
        self.calls = 0

    def compare(self, answer, due, *about):
        self.calls += 1
        if answer != due:
            self.test.fail(f"call {self.calls}: {answer} is not {due}: {self.settings}, {about}")
        self.met[answer[1] if answer[0] == "refused" else "accepted"] += 1
        return answer

    def open(self):
        """By an opening, or by an image of kind 2, which may hold another threshold."""
        regions = (8,) if self.dice.random() < 0.03 else (2, 3, 3, 4, 4, 5)
        self.settings = opening_of(random_settings(self.dice, regions))
        if self.dice.random() < 0.5:
            self.machine = self.kit.ledger.Ledger.open(self.settings)
        else:
            self.settings = self.settings._replace(threshold=near_hundreds(self.dice))
            image = self.kit.image.image_of(self.kit.ledger.Ledger(self.settings), 2)
            self.machine = self.kit.image.begun(image)
        self.ledger = Permuted(self.settings)
        self.met[link_kind(self.settings)] += 1

    def on_both(self, name, *arguments):
        return self.compare(said(getattr(self.machine, name), *arguments), said(getattr(self.ledger, name), *arguments),
                            name, arguments)

    def enter(self):
        now = self.ledger.settings[-1]
        settings = self.settings._replace(threshold=now.threshold, cap=now.cap, floor=now.floor)
        entry = random_entry(self.dice, settings, self.ledger.taken)
        while self.dice.random() < 0.3:
            damage(self.dice, entry)
        if link_of(settings) and entry[5] and self.dice.random() < 0.04:
            last = len(entry[5]) - 1
            for place in sorted({last, self.dice.choice((last, self.dice.randint(0, last)))}):
                entry[5][place] = self.dice.choice((0, 9_999, 20_001, 2**32 - 1))
        if said(self.ledger.refuse_entry, Entry(*entry))[0] == "accepted" and link_of(settings):
            self.look_at(Entry(*entry), as_if(Permuted, self.ledger, entry))
        answer = self.on_both("enter", *entry)
        self.met["17 of the link"] += answer == ("refused", 17, settings.regions) and link_of(settings)

    def look_at(self, entry, table):
        """Counts what the next entry will show of the link, and what wrong ledgers would make of it; of eight regions
        that would take too long."""
        if self.settings.regions == 8:
            return
        self.met["the link binds"] += as_if(Unlinked, self.ledger, entry) != table
        self.met["a relaxing loop"] += as_if(Relaxed, self.ledger, entry) != table
        self.met["cents a link"] += as_if(Cents, self.ledger, entry) != table
        flows = [*entry.flows[:-1], max(-2**31, min(2**31 - 1, -entry.flows[-1]))]
        self.met["flow the other way"] += as_if(Permuted, self.ledger, entry._replace(flows=flows)) != table
        rows = [row for row, _ in self.ledger.routes(entry)]
        ends = Counter((row[0], row[-1]) for row in rows)
        around = any((row[-1], row[0]) in self.ledger.carrying(entry) for row in rows if len(row) > 2)
        changed = as_if(Unlinked, self.ledger, entry) != table
        self.met["power round a ring"] += around
        self.met["two routes bind"] += max(ends.values()) > 1 and changed
        self.met["floors over the link"] += changed and any(price < 0 for price in table[::self.ledger.markets])

    def set_limits(self):
        self.on_both("set_limits", *random_limits(self.dice))

    def report(self):
        places = self.dice.randint(0, self.settings.regions), self.dice.randint(0, self.settings.services + 1)
        self.on_both("report", *places)
        if self.machine.marked == 0:  # one that was loaded with entries has no whole history to enter a price behind
            self.on_both("intervals_left", *places, self.dice.randint(0, 90_000))

    def due_restart(self, kind, room, ring):
        """47, 23, 11."""
        if kind == 1 and link_of(self.settings):
            return "refused", 47, None
        if room < length_of(self.ledger, kind):
            return "refused", 23, None
        right = self.settings.regions * self.ledger.markets * self.settings.window
        return ("accepted", None) if ring == right else ("refused", 11, None)

    def restart(self):
        """By either kind; refused, the list goes on with what it had."""
        kind, settings = self.dice.choice((1, 2)), self.settings
        places = settings.regions * self.ledger.markets * settings.window
        room = length_of(self.ledger, kind) + self.dice.choice((0, 0, 0, 0, 9, 9, -1, -148))
        ring = self.dice.choice((*[places] * 6, places + 1, places - 1))
        answer = said(self.kit.image.refuse_restart, self.machine, kind, room, ring)
        self.compare(answer, self.due_restart(kind, room, ring), "restart", kind, room, ring)
        short = room < length_of(self.ledger, kind)
        self.met["47 before 23"] += answer[1] == 47 and short
        self.met["23 before 11"] += answer[1] == 23 and ring != places
        self.met["load's 11"] += answer[1] == 11
        if answer[0] == "accepted":
            self.go_on(kind, places)

    def go_on(self, kind, places):
        """From the image's record and ring; stored again, by whichever kind, these are the ledger's images."""
        kit, link = self.kit, link_of(self.settings)
        image = kit.image.image_of(self.machine, kind)
        book, ring = kit.record.load(image, places)
        for other in (1, 2):
            due = said(image_of, self.ledger, other)
            self.test.assertEqual(due[:2] == ("refused", 47), link and other == 1)
            self.test.assertEqual(said(kit.record.store, book, ring, other, len(image) + 8), due)
            self.test.assertEqual(said(kit.image.image_of, self.machine, other), due)
        self.test.assertEqual((book.from_, book.to), self.settings[-2:])
        self.machine = kit.bill.Resumed(book, ring)
        self.met[f"restarted by kind {kind}"] += 1
        self.met["without entries"] += self.ledger.taken == 0

    def bad_open(self):
        """20 of the ends is before all but the other settings' 20."""
        settings = bad_settings(self.dice)
        without = said(Ledger.open, with_ends(settings, (255, 255)))
        due = without if without[1] == 20 or ends_allowed(settings) else ("refused", 20, None)
        answer = said(self.kit.ledger.Ledger.open, settings)
        self.compare((*answer[:1], *answer[1:] * (answer[0] == "refused")),
                     (*due[:1], *due[1:] * (due[0] == "refused")), "open", settings)

    def play(self):
        self.open()
        kinds = [self.enter] * 12 + [self.restart] * 4 + [self.report, self.set_limits, self.bad_open]
        for _ in range(self.dice.randint(8, 40) if self.settings.regions < 8 else 8):
            self.dice.choice(kinds)()
        for region in range(self.settings.regions):
            for market in range(self.settings.services + 1):
                self.on_both("report", region, market)


class Images:
    """Images of both kinds of random books, damaged."""

    def __init__(self, test):
        self.test, self.kit = test, test.kit
        self.dice = random.Random(SEED)
        self.met = Counter()
        self.images = 0

    def book(self):
        """A random book's ledger, after some entries."""
        settings = opening_of(random_settings(self.dice))
        ledger = Ledger(settings._replace(window=min(settings.window, 3)))
        for number in range(self.dice.choice((0, 1, 2, 3))):
            ledger.entries.append(Entry(*random_entry(self.dice, ledger.opening, number)))
        return ledger

    def images_of(self, ledger):
        """By both kinds, where both take it."""
        for kind in kinds_of(ledger.opening):
            image = image_of(ledger, kind)
            self.hold(image, image)
            for _ in range(6):
                damaged = damaged_image(self.dice, image)
                self.hold(image, damaged)
                self.hold(image, damaged_image(self.dice, damaged) if len(damaged) > 160 else damaged)

    def hold(self, image, damaged):
        """The verdict; what is taken is loaded, and stored by its kind to the same bytes."""
        answer, due = said(self.kit.image.refuse_image, damaged), due_image(damaged)
        self.images += 1
        self.test.assertEqual(answer, due, damaged.hex())
        self.met["accepted" if answer[0] == "accepted" else answer[1]] += 1
        if answer[0] == "refused":
            body = image[4] == 2 and (damaged[:148], damaged[156:]) == (image[:148], image[156:])
            self.met["26 at 148 to 155"] += answer[1] == 26 and body
            self.met["of kind 2, 24"] += answer[1] == 24 and damaged[4:6] == b"\2\0" and 148 <= len(damaged) < 156
            only_kind = (damaged[:4], damaged[6:]) == (image[:4], image[6:])
            self.met[f"relabelled {answer[1]}"] += only_kind
            return
        self.round_trip(damaged)
        self.met[f"of kind {damaged[4]}"] += 1
        self.met["other ends"] += image[4] == damaged[4] == 2 and image[148:150] != damaged[148:150]

    def round_trip(self, image):
        """By its kind to the same bytes; by the other where it takes the book, and from there back."""
        record, kind = self.kit.record, image[4]
        book = named(image)
        places = book.regions * (book.services + 1) * book.window
        book, ring = record.load(image, places)
        self.test.assertEqual(said(self.kit.record.load, image, places + 1), ("refused", 11, None))
        self.test.assertEqual(record.store(book, ring, kind, len(image)), image)
        self.test.assertEqual(said(record.store, book, ring, kind, len(image) - 1), ("refused", 23, None))
        other, body = 3 - kind, bytes([book.from_, book.to, 0, 0, 255, 255, 255, 255])
        if other == 1 and link_of(book):
            self.test.assertEqual(said(record.store, book, ring, 1, 0), ("refused", 47, None))
            return
        changed = record.store(book, ring, other, len(image) + 8)
        both = {kind: image, other: changed}
        self.test.assertEqual(both[2][6:], both[1][6:148] + body + both[1][148:])
        again, same = record.load(changed, places)
        self.test.assertEqual((bytes(again), same), (bytes(book), ring))


class RandomLinks(unittest.TestCase):
    kit = edition.loaded()
    calls, images, whole = 9_000, 4_000, True
    whose = ""  # of which code

    def show(self, name, count, met, least):
        """How often each was met, at least so often; of wrong code it isn't asked."""
        if self.whole:
            print(f"{self.whose}{name}: {count}, met: " + ", ".join(f"{what} {met[what]}" for what in least))
            for what, times in least.items():
                self.assertGreaterEqual(met[what], times, what)

    def test_lists(self):
        lists = Lists(self)
        while lists.calls < self.calls:
            lists.play()
        self.show("random links", lists.calls, lists.met, LISTS)

    def test_images(self):
        images = Images(self)
        while images.images < self.images:
            images.images_of(images.book())
        self.show("random images of both kinds", images.images, images.met, IMAGES)


if __name__ == "__main__":
    unittest.main()
