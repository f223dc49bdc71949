"""Document 01's ledger machine P, from its words alone: "It keeps the settings of opening and, in order, the accepted
entries and settings." An image's settings may stand for the opening's (request 2026-06 of document 02), and a book may
have an additional link (request 2026-10). It keeps no sum, count, position or period: each is worked out from the whole
history whenever it is asked for. The tests hold the library to it; it shares no code with guxhamole.py."""

from fractions import Fraction
from typing import NamedTuple, Sequence

from arithmetic import Refused, held, limits_good, nearest, price_good
from link import NONE, ends_good, ends_of, link_of, places_of

MOST_ENTRIES = 10_000_000


class Opening(NamedTuple):
    """What a list of calls begins with; any record with these fields is one. The last two are the ends of the
    additional link, 255 for none."""

    regions: int
    services: int
    window: int
    halves: int
    first: int
    parents: Sequence[int]
    threshold: int
    cap: int
    floor: int
    from_: int = NONE
    to: int = NONE


class Entry(NamedTuple):
    number: int
    day_kind: int
    prices: Sequence[int]
    marks: Sequence[int]
    flows: Sequence[int]
    factors: Sequence[int]
    schedule: Sequence[int]


class Setting(NamedTuple):
    """What was set, and how many entries were taken before: these are the threshold and limits from that entry on."""

    entries: int
    threshold: int
    cap: int
    floor: int


def parents_good(regions, parents):
    """ "The parent of region r is a lower region linked to it, or 255 for none; region 0 and places from R up hold
    255." """
    return all(parent == NONE or parent < region < regions for region, parent in enumerate(parents))


def refuse_opening(opening):
    """ "Open: 20 a setting; 11 ring length; 18 threshold; 19 cap or floor", 44 "directly after 18", and "20 bad ends".
    The ring has its length. """
    shape_good = 1 <= opening.regions <= 8 and 0 <= opening.services <= 10 and 1 <= opening.window <= 2016
    day_good = 1 <= opening.halves <= 48 and 0 <= opening.first < 6 * opening.halves
    if not shape_good or not day_good or not parents_good(opening.regions, opening.parents):
        raise Refused(20)
    if not ends_good(opening.regions, opening.parents, ends_of(opening)):
        raise Refused(20)
    refuse_threshold(opening.threshold)
    refuse_limits(opening.cap, opening.floor)


def refuse_threshold(threshold):
    """ "threshold 1..100,000,000,000"; "44: a threshold within range but no multiple of 10,000; directly after 18" """
    if not 1 <= threshold <= 100_000_000_000:
        raise Refused(18)
    if threshold % 10_000 != 0:
        raise Refused(44)


def refuse_limits(cap, floor):
    if not limits_good(cap, floor):
        raise Refused(19)


class Ledger:
    """The machine, from settings that an opening accepted (`open`) or that stand for an opening's (image.py's `begun`).
    `marked` entries are taken first in which every region is marked, so that no price joins a window: of those it keeps
    how many they are, which brings the bound of 10,000,000 entries within reach of a test."""

    def __init__(self, opening, marked=0):
        self.opening = opening
        self.marked = marked
        self.entries = []
        self.settings = [Setting(0, opening.threshold, opening.cap, opening.floor)]

    @classmethod
    def open(cls, opening):
        refuse_opening(opening)
        return cls(opening)

    @property
    def markets(self):
        return self.opening.services + 1

    @property
    def taken(self):
        return len(self.entries)

    def position(self, t):
        """ "Accepted entry t, from 0 up, has position (first position + t) mod D." """
        return (self.opening.first + self.marked + t) % (6 * self.opening.halves)

    def setting(self, t):
        """ "Threshold, cap and floor at t are those last set before it, by opening at first." """
        return [setting for setting in self.settings if setting.entries <= t][-1]

    def counted(self, region, market, t):
        """ "the market's last W entry prices up to t at which its region was unmarked, or all if fewer" """
        place = region * self.markets + market
        prices = [entry.prices[place] for entry in self.entries[:t + 1] if entry.marks[region] == 0]
        return prices[-self.opening.window:]

    def total(self, region, market, t):
        """ "Sum after t: the total of the market's last W entry prices up to t at which its region was unmarked" """
        return sum(self.counted(region, market, t))

    def triggers(self, region, market, t):
        """ "Entry t triggers a market if its sum after t is above the threshold at t" """
        return self.total(region, market, t) > self.setting(t).threshold

    def releases(self, region, market, t):
        """ "at position D−1 it releases a market that it doesn't trigger" """
        return self.position(t) == 6 * self.opening.halves - 1 and not self.triggers(region, market, t)

    def administered(self, region, market, t):
        """ "exactly when some j < t triggers it and no i with j ≤ i < t releases it" """
        return any(
            self.triggers(region, market, j) and not any(self.releases(region, market, i) for i in range(j, t))
            for j in range(t)
        )

    def set_threshold(self, threshold):
        refuse_threshold(threshold)
        self.settings.append(self.settings[-1]._replace(entries=self.taken, threshold=threshold))

    def set_limits(self, cap, floor):
        refuse_limits(cap, floor)
        self.settings.append(self.settings[-1]._replace(entries=self.taken, cap=cap, floor=floor))

    def refuse_market(self, region, market):
        """21: a region from R up, or a market above S."""
        if region >= self.opening.regions or market >= self.markets:
            raise Refused(21)

    def report(self, region, market):
        """ "sum and prices counted after the last entry (0 before the first), mark 1 if administered at the next and
        else 0, and how many entries were accepted" """
        self.refuse_market(region, market)
        prices = self.counted(region, market, self.taken - 1)
        mark = self.administered(region, market, self.taken)
        return sum(prices), len(prices), mark, self.marked + self.taken

    def intervals_left(self, region, market, price):
        """Request 2026-02 of document 02: "the least number of further unmarked intervals, 1 to W, each bringing the
        window that price, after which the sum would exceed the present threshold, old prices leaving as they would; 0
        exactly if none does". They are entered, one after the other, in a copy of the history. "43: a price outside
        the entry range", after 21; 10, 11 and 22 are of a record and ring, of which a ledger has none. """
        self.refuse_market(region, market)
        if not price_good(price, market == 0):
            raise Refused(43)
        threshold = self.setting(self.taken).threshold
        further = self.history()
        for number in range(1, self.opening.window + 1):
            further.entries.append(further.unmarked(region, market, price))
            if sum(further.counted(region, market, further.taken - 1)) > threshold:
                return number
        return 0

    def history(self):
        """A ledger with the same entries and settings, to which more may be added."""
        same = Ledger(self.opening, self.marked)
        same.entries, same.settings = list(self.entries), list(self.settings)
        return same

    def unmarked(self, region, market, price):
        """An entry in which no region is marked: this market's price, every other one 0."""
        regions, places, links = self.opening.regions, self.opening.regions * self.markets, places_of(self.opening)
        prices = [price if place == region * self.markets + market else 0 for place in range(places)]
        schedule = [0] * (places * 2 * self.opening.halves)
        return Entry(self.marked + self.taken, 0, prices, [0] * regions, [0] * links, [10_000] * links, schedule)

    def enter(self, *lent):
        """The count and the table of an accepted entry."""
        entry = Entry(*lent)
        self.refuse_entry(entry)
        effective = self.effective(entry)
        table = self.published(entry, effective)
        self.entries.append(entry)
        return sum(price != before for price, before in zip(table, effective)), table

    def refuse_entry(self, entry):
        """ "11 any slice's length (schedule R × M × 2 × H); 12, 10,000,000 entries taken; 13 number not the next; 14
        kind; 15 mark not 0 or 1; 16 an unmarked region's energy beyond ±10,000,000 or service outside 0..10,000,000;
        17 a factor out of range where the region has a parent"; "17 now covers" the link's "factor", in its "extra last
        place" """
        regions, prices, links = self.opening.regions, self.opening.regions * self.markets, places_of(self.opening)
        lengths = [prices, regions, links, links, prices * 2 * self.opening.halves]
        if [len(numbers) for numbers in entry[2:]] != lengths:
            raise Refused(11)
        if self.marked + self.taken >= MOST_ENTRIES:
            raise Refused(12)
        if entry.number != self.marked + self.taken:
            raise Refused(13)
        if entry.day_kind not in (0, 1):
            raise Refused(14)
        bad_marks = [region for region in range(regions) if entry.marks[region] not in (0, 1)]
        bad_prices = [] if bad_marks else self.bad_prices(entry)
        bad_factors = [place for place, factor in enumerate(entry.factors)
                       if self.links_by(place) and not 10_000 <= factor <= 20_000]
        for number, bad in ((15, bad_marks), (16, bad_prices), (17, bad_factors)):
            if bad:
                raise Refused(number, bad[0])

    def links_by(self, place):
        """Whether the flow and factor at a place are a link's: a region's to its parent, or the additional one's."""
        return place == self.opening.regions or self.opening.parents[place] != NONE

    def bad_prices(self, entry):
        return [place for place, price in enumerate(entry.prices)
                if entry.marks[place // self.markets] == 0 and not price_good(price, place % self.markets == 0)]

    def effective(self, entry):
        """Step 1: "the entry price, or for a marked region the schedule's number at ((region × M + market) × 2 + kind)
        × H + position div 6, held within floor and cap (energy) or 0 and cap (service)" """
        setting, halves = self.setting(self.taken), self.opening.halves
        prices = list(entry.prices)
        for place in range(len(prices)):
            if entry.marks[place // self.markets] == 1:
                low = setting.floor if place % self.markets == 0 else 0
                number = entry.schedule[(place * 2 + entry.day_kind) * halves + self.position(self.taken) // 6]
                prices[place] = held(number, low, setting.cap)
        return prices

    def published(self, entry, effective):
        """Steps 2 to 4."""
        setting, table = self.setting(self.taken), list(effective)
        caps, floors = {}, {}
        for region in range(self.opening.regions):
            energy = region * self.markets
            periods = [self.administered(region, market, self.taken) for market in range(self.markets)]
            # "Energy administered in its region: energy is held within floor and cap."
            if periods[0]:
                table[energy] = held(table[energy], setting.floor, setting.cap)
            # "Energy or any service administered: every service is at most the cap. Services have no floor."
            for service in range(energy + 1, energy + self.markets):
                table[service] = min(table[service], setting.cap) if any(periods) else table[service]
            # "administered energy and effective energy at or above the cap .. at or below the floor"
            if periods[0] and effective[energy] >= setting.cap:
                caps[region] = setting.cap
            if periods[0] and effective[energy] <= setting.floor:
                floors[region] = setting.floor
        self.bind(entry, table, caps, floors)
        return table

    def bind(self, entry, table, caps, floors):
        """Step 4: "The smallest cap limit and highest floor limit bind energy", and of the way there "the last step
        alone rounds to the cent" (request 2026-04 of document 02). """
        links, every = self.links(entry), set(range(self.opening.regions))
        up = [(y, x, Fraction(10_000, factor)) for x, y, factor in links]
        down = [(x, y, Fraction(factor, 10_000)) for x, y, factor in links]
        for source, limit in caps.items():
            for region, reached in self.travelled(source, limit, up, every - {source}):
                table[region * self.markets] = min(table[region * self.markets], nearest(reached))
        for source, limit in floors.items():
            for region, reached in self.travelled(source, limit, down, every - {source}):
                table[region * self.markets] = max(table[region * self.markets], nearest(reached))

    def links(self, entry):
        """Where power goes from X to Y, and the factor: "Flow above 0 carries from a region to its parent, below 0 from
        the parent, 0 not at all." That of the additional link is "positive from the first named to the second". """
        named = [(region, parent) for region, parent in enumerate(self.opening.parents[:self.opening.regions])]
        if link_of(self.opening):
            named.append(ends_of(self.opening))
        links = []
        for (first, second), flow, factor in zip(named, entry.flows, entry.factors):
            if second != NONE and flow != 0:
                links.append((first, second, factor) if flow > 0 else (second, first, factor))
        return links

    def travelled(self, region, limit, ways, left):
        """The region's limit and those that it gives, in cents and parts of one: "a cap limit c of Y gives X the limit
        c × 10,000 / factor, and a floor limit f of X gives Y f × factor / 10,000. Limits travel on over any number of
        links", "over every route that carries power and visits no region twice, followed region by region with one
        fewer left to visit each time". """
        reached = [(region, limit)]
        for start, end, ratio in ways:
            if start == region and end in left:
                reached += self.travelled(end, self.given(limit * ratio), ways, left - {end})
        return reached

    @staticmethod
    def given(limit):
        """Request 2026-04 of document 02: "Each link should carry its limit in ten-thousandths of a cent, rounded there
        half away from zero". """
        return Fraction(nearest(10_000 * limit), 10_000)
