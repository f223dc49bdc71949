"""Limits, refused factors and good ends once more, by another way than ledger.py's: every order of every choice of
regions is tried as a route, in whole ten-thousandths of a cent. For tests of the additional link (request 2026-10 of
document 02)."""

from functools import lru_cache
from itertools import permutations

from arithmetic import Refused
from ledger import Entry, Ledger


@lru_cache(None)
def orders(regions):
    """Every row of different regions, one to all of them."""
    return [row for length in range(1, regions + 1) for row in permutations(range(regions), length)]


def divided(number, divisor):
    """Half away from zero."""
    size = (2 * abs(number) + divisor) // (2 * divisor)
    return size if number >= 0 else -size


def cap_over(cap, factors):
    """A cap limit at the far end of links with these factors, the source's first, in cents."""
    limit = 10_000 * cap
    for factor in factors:
        limit = divided(10_000 * limit, factor)
    return divided(limit, 10_000)


def floor_over(floor, factors):
    limit = 10_000 * floor
    for factor in factors:
        limit = divided(limit * factor, 10_000)
    return divided(limit, 10_000)


def neighbours(opening):
    """Pairs of regions that are parent and child."""
    return {frozenset((region, parent)) for region, parent in enumerate(opening.parents) if parent != 255}


def ends_allowed(opening):
    """Whether opening takes these ends, of settings that are otherwise good."""
    pair = {opening.from_, opening.to}
    if pair == {255}:
        return True
    return len(pair) == 2 and pair <= set(range(opening.regions)) and frozenset(pair) not in neighbours(opening)


class Permuted(Ledger):
    """The ledger, but that its limits and its refused entries are found so."""

    def carrying(self, entry):
        """The factor by which power goes from one region to another."""
        opening, found = self.opening, {}
        for region in range(opening.regions):
            if opening.parents[region] != 255 and entry.flows[region] > 0:
                found[region, opening.parents[region]] = entry.factors[region]
            if opening.parents[region] != 255 and entry.flows[region] < 0:
                found[opening.parents[region], region] = entry.factors[region]
        if opening.to != 255 and entry.flows[-1] > 0:
            found[opening.from_, opening.to] = entry.factors[-1]
        if opening.to != 255 and entry.flows[-1] < 0:
            found[opening.to, opening.from_] = entry.factors[-1]
        return found

    def routes(self, entry):
        """Where power goes from region to region, with the factors on the way."""
        found = self.carrying(entry)
        for row in orders(self.opening.regions):
            factors = [found.get(step) for step in zip(row, row[1:])]
            if None not in factors:
                yield row, factors

    def bind(self, entry, table, caps, floors):
        for row, factors in self.routes(entry) if caps or floors else ():
            source, sink = row[0] * self.markets, row[-1] * self.markets
            if row[-1] in caps:
                table[source] = min(table[source], cap_over(caps[row[-1]], factors[::-1]))
            if row[0] in floors:
                table[sink] = max(table[sink], floor_over(floors[row[0]], factors))

    def refuse_entry(self, entry):
        """By the first of all faults, in the order of their numbers and places."""
        regions, markets, parents = self.opening.regions, self.markets, self.opening.parents
        links = regions + (self.opening.to != 255)
        lengths = regions * markets, regions, links, links, regions * markets * 2 * self.opening.halves
        if any(len(numbers) != length for numbers, length in zip(entry[2:], lengths)):
            raise Refused(11)
        entries = self.marked + self.taken
        faults = [(12, None)] * (entries == 10_000_000) + [(13, None)] * (entry.number != entries)
        faults += [(14, None)] * (entry.day_kind > 1)
        faults += [(15, place) for place, mark in enumerate(entry.marks) if mark > 1]
        for place, price in enumerate(entry.prices):
            low = 0 if place % markets else -10_000_000
            if not entry.marks[place // markets] and not low <= price <= 10_000_000:
                faults.append((16, place))
        for place, factor in enumerate(entry.factors):
            linked = place == regions or parents[place] < 8
            if linked and not 10_000 <= factor <= 20_000:
                faults.append((17, place))
        if faults:
            raise Refused(*min(faults, key=lambda fault: (fault[0], fault[1] or 0)))


class Unlinked(Permuted):
    """As if the additional link carried nothing."""

    def carrying(self, entry):
        flows = [*entry.flows[:self.opening.regions], 0]
        return super().carrying(entry._replace(flows=flows))


class Relaxed(Permuted):
    """A ledger that is wrong: it goes over the links as often as there are regions, whatever was visited."""

    def routes(self, entry):
        """Only the ways of one link are routes; bind follows them again and again."""
        return [(step, [factor]) for step, factor in self.carrying(entry).items()]

    def bind(self, entry, table, caps, floors):
        caps, floors = ({region: 10_000 * limit for region, limit in limits.items()} for limits in (caps, floors))
        for _ in range(self.opening.regions):
            for (source, sink), (factor,) in self.routes(entry):
                if sink in caps:
                    limit = divided(10_000 * caps[sink], factor)
                    caps[source] = min(limit, caps.get(source, limit))
                if source in floors:
                    limit = divided(floors[source] * factor, 10_000)
                    floors[sink] = max(limit, floors.get(sink, limit))
        for region, limit in caps.items():
            table[region * self.markets] = min(table[region * self.markets], divided(limit, 10_000))
        for region, limit in floors.items():
            table[region * self.markets] = max(table[region * self.markets], divided(limit, 10_000))


class Cents(Permuted):
    """A ledger that is wrong: each link rounds to the cent."""

    def bind(self, entry, table, caps, floors):
        for row, factors in self.routes(entry) if caps or floors else ():
            source, sink = row[0] * self.markets, row[-1] * self.markets
            cap, floor = caps.get(row[-1]), floors.get(row[0])
            for factor in factors[::-1] if cap is not None else ():
                cap = divided(10_000 * cap, factor)
            for factor in factors if floor is not None else ():
                floor = divided(floor * factor, 10_000)
            table[source] = table[source] if cap is None else min(table[source], cap)
            table[sink] = table[sink] if floor is None else max(table[sink], floor)


def as_if(kind, ledger, entry):
    """What another kind of ledger would publish as the next entry, with this one's history."""
    other = kind(ledger.opening, ledger.marked)
    other.entries, other.settings = ledger.entries, ledger.settings
    return other.published(Entry(*entry), other.effective(Entry(*entry)))
