"""Document 02's test load (requests 2026-07 and 2026-10), from its words alone: the interval that a seed draws for a
book. The tests hold the library to it; it shares no code with guxhamole.py."""

from book import refuse_book
from interval import Interval, refuse_lengths
from link import places_of


class Draws:
    """ "From a 32-bit seed, each draw replaces s by (s × 1,664,525 + 1,013,904,223) mod 4,294,967,296 and gives d = s
    div 65,536." """

    def __init__(self, seed):
        self.s = seed

    def draw(self):
        self.s = (self.s * 1_664_525 + 1_013_904_223) % 4_294_967_296
        return self.s // 65_536

    def price(self, market):
        """ "Energy is 1,500,000 if d < 64, else d mod 20,000 − 2,000; a service is d mod 3,000" """
        d = self.draw()
        if market > 0:
            return d % 3_000
        return 1_500_000 if d < 64 else d % 20_000 - 2_000

    def flow(self):
        """ "flow is d mod 2,001 − 1,000" """
        return self.draw() % 2_001 - 1_000

    def factor(self):
        """ "factor is 10,000 + d mod 2,000" """
        return 10_000 + self.draw() % 2_000


def drawn(book, lengths, seed, number, day_kind):
    """The last s and the interval. "An interval draws its R × M prices, then flow and factor for each region"; "Marks
    are 0; the caller gives book, number and day kind and gets the last s back; 10, then 11 over the filled slices"; "a
    test load draws one more pair" for the additional link, at its "extra last place". """
    refuse_book(book)
    refuse_lengths(book, lengths)
    regions, draws = range(book.regions), Draws(seed)
    prices = [draws.price(market) for _ in regions for market in range(book.services + 1)]
    links = [(draws.flow(), draws.factor()) for _ in range(places_of(book))]
    flows, factors = [flow for flow, _ in links], [factor for _, factor in links]
    return draws.s, Interval(number, day_kind, prices, [0 for _ in regions], flows, factors)
