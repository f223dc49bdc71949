"""Random calls, from a fixed seed, on small books: every answer of the library held to the independent ledger's."""

import random
import unittest
from collections import Counter
from dataclasses import replace

import arithmetic
import guxhamole
from arithmetic import Refused, nearest
from guxhamole import Book, Refusal, Settings
from image import PRICES, image_of, refuse_image
from ledger import NONE, Entry, Ledger
from link import NO_LINK, link_of, places_of
from linked import damaged_body, kinds_of, link_kind, linked, odd_ends, relabelled, with_ends
from starts import blank_image, by_image, by_opening, stored

SEED = 12
CALLS = 20_000
WINDOWS = (1, 2, 3, 4)
REGIONS = (1, 2, 2, 3, 3, 4, 5, 6, 7, 8)
# Every refusal that a `Book` can meet: it has the ring's and the buffers' lengths right (23, 33), is never closed or
# damaged (10), and its ring is its own (22).
MET = (11, 12, 13, 14, 15, 16, 17, 18, 19, 20, 21, 24, 25, 26, 27, 30, 31, 32, 44, 47)
# What must be met besides, at least ten times: periods and limits of other regions, and thresholds that an image
# brought.
SHOWN = ("accepted", "marked", "bound", "another cent", "begun", "ended", "begun by an image of kind 1",
         "begun by an image of kind 2", "restarted at no multiple", "not above, the hundreds below are",
         "above, the next hundreds are not", "exactly at no multiple")
# And of the additional link, so often: books by their links, restarts by both kinds, and what it makes of prices.
OF_LINKS = {
    "no link": 75, "a ring": 50, "two trees joined": 45, "first end above": 45, "first end below": 45,
    **{f"{regions} regions with the link": 8 for regions in range(2, 9)}, "entries with the link": 2_000,
    "flow 0": 200, "the link binds": 200, "the other way otherwise": 350, "17 of the link": 12, "20 of the ends": 80,
    "restarted by kind 1": 200, "restarted by kind 2": 400, 47: 250, "stored as kind 1 once more": 180,
    "damaged, of kind 1": 130, "damaged, of kind 2": 400, "26 at 148 to 155": 100, "24 from 148 on": 20,
    "relabelled 24": 10, "relabelled 25": 90, "relabelled 26": 18, "relabelled 27": 25, "other ends loaded": 13,
}
# Thresholds at the ends of the range and beyond; out of range a multiple of 10,000 is refused as any other number.
ODD_THRESHOLDS = (-2**63, -10_000, -1, 0, 1, 99_999_999_999, 100_000_000_000, 100_000_000_001, 100_000_010_000)
# Caps and floors with the factors of a route, the source's link first, at whose end a ten-thousandth of a cent on the
# way, or another way to round a half, makes another cent.
CAPS = {1: (10_001, 20_000), 3_751: (15_001,), 4: (13_334, 20_000), 8: (16_308, 14_016), 37: (10_137,),
        71: (12_800, 15_969, 14_781), 60_000: (10_800, 10_300, 10_300)}
FLOORS = {-1: (15_000,), -2: (16_250, 13_846), -7: (17_500, 15_102), -16: (15_854, 14_893, 19_191),
          -77: (15_000, 14_329), -8_161: (15_000, 15_625, 19_200), -60_001: (10_507, 10_507, 10_507)}


class Cents(Ledger):
    """A ledger that is wrong: each of its links rounds to the cent."""

    given = staticmethod(nearest)


def outcome(call, *arguments):
    """What a call answers: "accepted" and the values, or "refused", number and place."""
    try:
        return "accepted", call(*arguments)
    except (Refusal, Refused) as refused:
        return "refused", refused.number, refused.place


def random_settings(dice, regions=REGIONS):
    regions, services = dice.choice(regions), dice.choice((0, 0, 1, 2))
    halves = dice.choice((1, 1, 2))
    parents = [NONE] * 8
    for region in range(1, regions):
        parents[region] = dice.choice((NONE, *range(region), region - 1))
    settings = Settings(regions, services, dice.choice(WINDOWS), halves, dice.randrange(6 * halves), parents,
                        random_threshold(dice), *random_limits(dice))
    return linked(dice, settings)


def random_threshold(dice):
    """One that an opening and a setting take."""
    return 10_000 * dice.randint(1, 25)


def near_hundreds(dice):
    """No multiple of 10,000, but around one; an image may hold it."""
    return random_threshold(dice) - dice.choice((1, 9_999, 100, 1_000, 5_000, dice.randint(1, 9_999)))


def random_limits(dice):
    return dice.choice((1, 30_000, 60_000, 60_001, *CAPS)), dice.choice((-1, -30_000, -60_000, -60_001, *FLOORS))


def random_price(dice, energy):
    """One in two is a multiple of 10,000, as thresholds are, so that sums are often exactly at the threshold."""
    price = dice.randint(-90_000, 120_000) if energy else dice.randint(0, 90_000)
    return dice.choice((price, price // 10_000 * 10_000))


def bad_settings(dice):
    """Settings of which one is outside its limits, or at them; in one in two the threshold is another one too. In one
    in three the ends are odd."""
    settings = random_settings(dice)
    thresholds = ("threshold", (*ODD_THRESHOLDS, near_hundreds(dice), near_hundreds(dice)))
    if dice.random() < 0.33:
        first, second = odd_ends(dice, settings)
        threshold = dice.choice((settings.threshold, settings.threshold, 0, near_hundreds(dice)))
        return replace(settings, from_=first, to=second, threshold=threshold)
    name, values = dice.choice((
        ("regions", (0, 9, 255)), ("services", (11, 255)), ("window", (0, 2017, 65_535)), ("halves", (0, 49)),
        ("first", (6 * settings.halves, 65_535)), ("parents", ([0] + [NONE] * 7, [NONE] * 7 + [0], [NONE] + [1] * 7)),
        thresholds, thresholds, ("cap", (0, 10_000_000, 10_000_001)), ("floor", (0, -10_000_000, -10_000_001)),
    ))
    if dice.random() < 0.5:
        settings = replace(settings, threshold=dice.choice(thresholds[1]))
    return replace(settings, **{name: dice.choice(values)})


def random_prices(dice, settings):
    """Each of its own; in every other entry energy is high everywhere, low everywhere, or high in region 0 alone; in
    some one price is the threshold, or a cent more, so that a sum is at one that is no multiple of 10,000 too."""
    markets = settings.services + 1
    prices = [random_price(dice, place % markets == 0) for place in range(settings.regions * markets)]
    if dice.random() < 0.5:
        high, low = dice.choice((120_000, 250_010)), dice.choice((-1, -90_000, -200_000))
        energies = dice.choice(([high] * settings.regions, [low] * settings.regions, [high] + [0] * settings.regions))
        prices[::markets] = energies[:settings.regions]
    if dice.random() < 0.2:
        prices[dice.randrange(len(prices))] = min(10_000_000, settings.threshold + dice.randrange(2))
    return prices


def random_flows(dice, settings):
    places = places_of(settings)
    flows = [dice.choice((-2**31, -1, 0, 1, 2**31 - 1)) for _ in range(places)]
    return dice.choice((flows, flows, [1] * places, [-1] * places))


def random_factors(dice, settings):
    """Each of its own, or those that tie with the cap or the floor, again and again."""
    places = places_of(settings)
    factors = [dice.choice((10_000, 10_001, 10_800, 15_000, 20_000)) for _ in range(places)]
    ties = [ties[limit] for ties, limit in ((CAPS, settings.cap), (FLOORS, settings.floor)) if limit in ties]
    if not ties or dice.random() < 0.3:
        return factors
    return [10_000, *dice.choice(ties) * 8][:places]


def random_entry(dice, settings, number):
    """An entry's number, day kind, prices, marks, flows, factors and schedule, none of which is refused."""
    places = settings.regions * (settings.services + 1)
    return [
        number,
        dice.randrange(2),
        random_prices(dice, settings),
        [int(dice.random() < 0.15) for _ in range(settings.regions)],
        random_flows(dice, settings),
        random_factors(dice, settings),
        [random_price(dice, True) for _ in range(places * 2 * settings.halves)],
    ]


def damage(dice, entry):
    """One thing about an entry is wrong, or would be if the region were not marked or had a parent."""
    part = dice.randrange(8)
    if part == 0:
        entry[0] += dice.choice((-1, 1, 1000)) if entry[0] else 1
    elif part == 1:
        entry[1] = dice.choice((2, 255))
    elif part == 7:
        lent = dice.choice(entry[2:])
        lent.pop() if dice.random() < 0.5 else lent.append(0)
    elif entry[part]:
        bad = (-10_000_001, -1, 10_000_001, 2**31 - 1), (2, 255), (0,), (9_999, 20_001, 0), (2**31 - 1, -2**31)
        entry[part][dice.randrange(len(entry[part]))] = dice.choice(bad[part - 2])


def damaged_image(dice, image):
    """An image with a byte changed, cut, or longer; or with a price out of range. In one in two it is relabelled, or
    damaged where kind 2 has the ends."""
    if dice.random() < 0.5:
        return damaged_body(dice, image) if image[4] == 2 and dice.random() < 0.7 else relabelled(dice, image)
    way, prices = dice.randrange(6), PRICES.get(image[4], 148)
    if way == 0:
        return image[:dice.randrange(len(image))]
    if way == 1:
        return image + b"\0" * dice.randint(1, 4)
    damaged = bytearray(image)
    if way == 2:
        damaged += b"\0\0\0\0"
        damaged[0:4] = len(damaged).to_bytes(4, "little")
    elif way == 3 and len(image) > prices:
        place = prices + 4 * dice.randrange((len(image) - prices) // 4)
        damaged[place:place + 4] = dice.choice((10_000_001, -1, -10_000_001)).to_bytes(4, "little", signed=True)
    else:
        count, period, field = dice.randrange(44, 60), dice.randrange(60, 148), dice.randrange(5, 60)
        place = dice.choice((4, 11, 20, 26, 27, count, period, *[field] * 5))
        damaged[place] ^= dice.choice((1, 1 << dice.randrange(8)))
    return bytes(damaged)


def random_making(dice):
    """A schedule maker's arguments, one in two of them with something wrong."""
    halves = dice.choice((1, 2))
    prices = [dice.randint(-40, 40) for _ in range(168 * halves)]
    day_kinds = [dice.randrange(2) for _ in range(28)]
    making = [halves, *random_limits(dice), dice.random() < 0.5, prices, day_kinds]
    if not making[3]:
        making[4] = [abs(price) for price in prices]
    way = dice.randrange(12)
    if way < 2:
        making[0] = dice.choice((0, 3, 49))
    elif way < 4:
        making[5] = dice.choice(([0] * 28, [1] * 28, [2] + day_kinds[1:], day_kinds[1:]))
    elif way == 4:
        making[1:3] = dice.choice(((0, -1), (1, 0)))
    elif way == 5:
        making[4][dice.randrange(168 * halves)] = dice.choice((10_000_001, -10_000_001, -1))
    return making


def random_indexing(dice):
    quarters = [[dice.randint(1, 100_000) for _ in range(4)] for _ in range(2)]
    if dice.random() < 0.4:
        dice.choice(quarters)[dice.randrange(4)] = dice.choice((0, 100_001))
    amount = dice.choice((1, 12_500, 1_125_000, 100_000_000, 0, 100_000_001))
    return amount, *quarters, dice.choice((0, 15_100, 10_000_000_000_000, 10_000_000_000_001))


class Calls:
    """Lists of calls, made on a book and on a ledger; what was met is counted."""

    def __init__(self, test):
        self.test = test
        self.dice = random.Random(SEED)
        self.met = Counter()
        self.restarts = set()
        self.calls = 0

    def compare(self, of_book, of_ledger, *about):
        self.calls += 1
        self.test.assertEqual(of_book, of_ledger, about)
        self.met[of_book[1] if of_book[0] == "refused" else "accepted"] += 1

    def open(self):
        """A new list's book and ledger: by an opening, or by an image of a book without entries, in which the threshold
        is often no multiple of 10,000; one in eight goes on from a book that has taken nearly all entries."""
        self.settings, way = random_settings(self.dice), self.dice.random()
        self.count_link()
        if way < 0.5:
            self.book, self.ledger = by_opening(self.settings)
            return
        kind = self.dice.choice(kinds_of(self.settings))
        if self.dice.random() < 0.5:
            self.settings = replace(self.settings, threshold=near_hundreds(self.dice))
        if way < 0.875:
            self.book, self.ledger = by_image(self.settings, kind)
            self.met[f"begun by an image of kind {kind}"] += 1
        else:
            self.ledger = Ledger(self.settings, 10_000_000 - self.dice.randint(0, 9))
            self.book = Book.load(image_of(self.ledger, kind))

    def count_link(self):
        """A list's book by its link."""
        settings, link = self.settings, link_of(self.settings)
        self.met[link_kind(settings)] += 1
        self.met["first end above"] += link and settings.from_ > settings.to
        self.met["first end below"] += link and settings.from_ < settings.to
        self.met[f"{settings.regions} regions with the link"] += link

    def on_both(self, name, *arguments):
        """A call of the book and of the ledger; refused, it leaves book and ring as they were."""
        before = bytes(self.book._book), bytes(self.book._ring)
        answer = outcome(getattr(self.book, name), *arguments)
        self.compare(answer, outcome(getattr(self.ledger, name), *arguments), name, self.settings, arguments)
        if answer[0] == "refused":
            self.test.assertEqual((bytes(self.book._book), bytes(self.book._ring)), before)
        return answer

    def enter(self):
        number, now = self.ledger.marked + self.ledger.taken, self.ledger.settings[-1]
        settings = replace(self.settings, threshold=now.threshold, cap=now.cap, floor=now.floor)
        entry = random_entry(self.dice, settings, number)
        while self.dice.random() < 0.3:
            damage(self.dice, entry)
        answer = self.on_both("enter", *entry)
        self.met["17 of the link"] += link_of(settings) and answer == ("refused", 17, settings.regions)
        if answer[0] == "accepted":
            self.look_at(Entry(*entry), answer[1].table)

    def look_at(self, entry, table):
        """Counts what an accepted entry showed of energy: marks, limits of other regions, periods."""
        last = self.ledger.taken - 1
        for region in range(self.settings.regions):
            before, after = (self.ledger.administered(region, 0, t) for t in (last, last + 1))
            place = region * self.ledger.markets
            self.met["marked"] += entry.marks[region]
            self.met["bound"] += not before and not entry.marks[region] and table[place] != entry.prices[place]
            self.met["begun"] += after and not before
            self.met["ended"] += before and not after
        self.met["another cent"] += self.as_if(Cents, entry) != table
        self.look_at_link(entry, table)
        self.look_at_sums(last)

    def as_if(self, kind, entry):
        """What another kind of ledger would have published instead of the last entry, or what another entry would."""
        other = kind(self.settings, self.ledger.marked)
        other.entries, other.settings = self.ledger.entries[:-1], self.ledger.settings
        return other.published(entry, other.effective(entry))

    def look_at_link(self, entry, table):
        """Counts what the additional link made of the prices, and its flow's sign."""
        if link_of(self.settings):
            flow, before = entry.flows[-1], entry.flows[:-1]
            turned = max(-2**31, min(2**31 - 1, -flow))
            self.met["entries with the link"] += 1
            self.met["flow 0"] += flow == 0
            self.met["the link binds"] += self.as_if(Ledger, entry._replace(flows=[*before, 0])) != table
            self.met["the other way otherwise"] += self.as_if(Ledger, entry._replace(flows=[*before, turned])) != table

    def look_at_sums(self, t):
        """Counts sums after t at a threshold that is no multiple of 10,000: those that one rounded to a multiple would
        take otherwise, and those exactly at it."""
        threshold = self.ledger.setting(t).threshold
        rest = threshold % 10_000
        places = range(self.settings.regions * self.ledger.markets) if rest else ()
        for place in places:
            total = sum(self.ledger.counted(*divmod(place, self.ledger.markets), t))
            self.met["not above, the hundreds below are"] += threshold - rest < total <= threshold
            self.met["above, the next hundreds are not"] += threshold < total <= threshold - rest + 10_000
            self.met["exactly at no multiple"] += total == threshold

    def set_threshold(self):
        """More than one in two is taken; beside the multiples of 10,000, and at the range's ends and beyond."""
        thresholds = [random_threshold(self.dice)] * 4 + [near_hundreds(self.dice)] * 2
        self.on_both("set_threshold", self.dice.choice((*thresholds, self.dice.choice(ODD_THRESHOLDS))))

    def set_limits(self):
        bounds = ((0, -1), (1, 0), (10_000_000, -10_000_000), (10_000_001, -1), (1, -10_000_001))
        self.on_both("set_limits", *self.dice.choice((*[random_limits(self.dice)] * 7, *bounds)))

    def report(self):
        region, market = self.dice.randint(0, self.settings.regions), self.dice.randint(0, self.ledger.markets)
        self.on_both("report", region, market)

    def restart(self):
        """By either kind: "P accepts both calls and does nothing", but that 47 may refuse the one. The image is that of
        the ledger's book, and what was loaded is stored by its kind to the same bytes. """
        kind, before = self.dice.choice((1, 2)), (bytes(self.book._book), bytes(self.book._ring))
        answer = outcome(stored, self.book, kind)
        self.compare(answer, outcome(image_of, self.ledger, kind), "store", kind, self.settings)
        self.test.assertEqual((bytes(self.book._book), bytes(self.book._ring)), before)
        if answer[0] == "refused":
            return
        self.met["restarted at no multiple"] += self.book.threshold % 10_000 != 0
        self.restarts.add((self.book.window, self.book._book.counts[0], self.book._book.nexts[0]))
        self.restarts.add((self.book.halves, "position", self.book.position))
        self.book = Book.load(answer[1])
        self.compare(outcome(stored, self.book, kind), answer, "load", self.settings)
        self.met[f"restarted by kind {kind}"] += 1
        self.by_the_other_kind(kind)

    def by_the_other_kind(self, kind):
        """What was loaded from one kind is stored by the other, where that tells the book, and loads to the same."""
        if not link_of(self.settings):
            other = Book.load(stored(self.book, 3 - kind))
            for each in (1, 2):
                self.test.assertEqual(stored(other, each), stored(self.book, each))
            self.met["stored as kind 1 once more"] += kind == 2

    def bad_open(self):
        settings = bad_settings(self.dice)
        of_book = outcome(lambda: Book.open(settings).store())
        self.compare(of_book, outcome(lambda: image_of(Ledger.open(settings))), "open", settings)
        if of_book == ("refused", 20, None):
            self.met["20 of the ends"] += outcome(Ledger.open, with_ends(settings, NO_LINK))[1] != 20

    def bad_image(self):
        """An image of either kind, of this book or of one without entries, damaged; what is taken is stored by its kind
        to the same bytes."""
        kind = self.dice.choice(kinds_of(self.settings))
        whole = stored(self.book, kind) if self.dice.random() < 0.6 else blank_image(self.settings, kind)
        image = damaged_image(self.dice, whole)
        verdict = outcome(refuse_image, image)
        loaded = outcome(lambda: stored(Book.load(image), image[4]))
        self.compare(loaded, verdict if verdict[0] == "refused" else ("accepted", image), "load", image)
        self.compare(outcome(guxhamole.check, image), (*verdict[:2], None)[:len(verdict)], "check", image)
        self.count_image(whole, image, verdict[1])

    def count_image(self, whole, image, number):
        """What was wrong with a damaged image, and by which number it was refused, if it was."""
        self.met[f"damaged, of kind {whole[4]}"] += 1
        if (image[:148], image[156:]) == (whole[:148], whole[156:]) and whole[4] == 2:
            self.met["26 at 148 to 155"] += number == 26
            self.met["other ends loaded"] += number is None and image != whole
        self.met["24 from 148 on"] += number == 24 and 148 <= len(image) < 156 and image[4:6] == b"\2\0"
        if (image[:4], image[6:]) == (whole[:4], whole[6:]) and number:
            self.met[f"relabelled {number}"] += 1

    def arithmetic(self):
        making, indexing = random_making(self.dice), random_indexing(self.dice)
        cents = self.dice.choice((self.dice.randint(-2**63, 2**63 - 1), self.dice.randint(-10_000, 10_000)))
        for name, arguments in (("schedule", making), ("index", indexing), ("amount_text", (cents,))):
            of_library = outcome(getattr(guxhamole, name), *arguments)
            self.compare(of_library, outcome(getattr(arithmetic, name), *arguments), name, arguments)

    def end(self):
        """ "After L, the same for a report of each region and market." """
        for region in range(self.settings.regions):
            for market in range(self.ledger.markets):
                self.on_both("report", region, market)
        setting = self.ledger.settings[-1]
        self.test.assertEqual((self.book.threshold, self.book.cap, self.book.floor), setting[1:])

    def play(self):
        """A list: an opening or an image, calls, and a report of each market."""
        self.open()
        kinds = [self.enter] * 14 + [self.restart] * 3 + [self.report] * 2
        kinds += [self.set_threshold, self.set_limits, self.bad_open, self.bad_image, self.bad_image, self.arithmetic]
        for _ in range(self.dice.randint(10, 70)):
            self.dice.choice(kinds)()
        self.end()


class RandomCalls(unittest.TestCase):
    def test_against_the_ledger(self):
        calls = Calls(self)
        while calls.calls < CALLS:
            calls.play()
        for what, least in {**dict.fromkeys((*SHOWN, *MET), 10), **OF_LINKS}.items():
            self.assertGreaterEqual(calls.met[what], least, what)
        self.assertEqual({what for what in calls.met if isinstance(what, int)}, set(MET))
        phases = {(window, count, count) for window in WINDOWS for count in range(window)}
        phases |= {(window, window, place) for window in WINDOWS for place in range(window)}
        phases |= {(halves, "position", position) for halves in (1, 2) for position in range(6 * halves)}
        self.assertEqual(phases - calls.restarts, set())
        met = ", ".join(f"{what} {calls.met[what]}" for what in sorted(calls.met, key=str))
        print(f"random calls: {calls.calls}, met: {met}")


if __name__ == "__main__":
    unittest.main()
