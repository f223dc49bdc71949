"""Passed-on limits in ten-thousandths of a cent (request 2026-04 of document 02): cases worked by hand, each on the
library and on the ledger, and how far a limit may be from the exact one. Any one of a row's links may be the additional
one (request 2026-10), in either order of its ends: the prices stay."""

import random
import unittest
from fractions import Fraction

from guxhamole import Settings
from link import NO_LINK
from starts import by_image

SEED = 4
PRICE = 10_000_000

# Cap and floor, the regions whose energy is administered, the prices, the flow over every link and its factor, region
# 1's first; then the published prices and their count. Each region is the next one's parent.
CASES = {
    "to half a cent by ten-thousandths": (
        (3_751, -60_000), (0,), [100_000] * 2, 1, (15_001,), [3_751, 2_501], 2),
    "a cap over three links": (
        (60_000, -60_000), (0,), [100_000] * 4, 1, (10_800, 10_300, 10_300), [60_000, 55_556, 53_937, 52_366], 4),
    "a floor over three links": (
        (60_000, -60_001), (0,), [-100_000] * 4, -1, (10_507,) * 3, [-60_001, -63_043, -66_239, -69_598], 4),
    "a cap limit of 0": ((1, -1), (0,), [100_000, 5, 5], 1, (20_000,) * 2, [1, 1, 0], 3),
    "a cap limit of 0 beside a floor limit": (
        (1, -1), (0, 4), [100_000, 7, 7, 7, -9], 1, (20_000, 20_000, 10_000, 10_000), [1, 1, 0, 0, -1], 5),
    "the guide's cap": (
        (60_000, -60_000), (0,), [100_000, 90_000, 85_000], 1, (11_000, 10_800), [60_000, 54_545, 50_505], 3),
    "the guide's floor": (
        (60_000, -60_000), (0,), [-70_000, -90_000, -85_000], -1, (11_000, 10_800), [-60_000, -66_000, -71_280], 3),
    "the highest cap": (
        (PRICE, -1), (0,), [PRICE] * 8, 1, (20_000,) * 7,
        [PRICE, 5_000_000, 2_500_000, 1_250_000, 625_000, 312_500, 156_250, 78_125], 7),
    "the lowest floor binds no price": ((1, -PRICE), (0,), [-PRICE] * 8, -1, (20_000,) * 7, [-PRICE] * 8, 0),
}


def row_of(regions, cap, floor, administered, ends=NO_LINK):
    """A book and a ledger of regions in a row at the guide's threshold, which an image brings, after an entry from
    which on some energy is administered. A region that is linked to the one before by the additional link has no
    parent."""
    parents = [255, *range(regions - 1), *[255] * 8][:8]
    if ends != NO_LINK:
        parents[max(ends)] = 255
    book, ledger = by_image(Settings(regions, 0, 1, 1, 0, parents, 95_000, cap, floor, *ends))
    first = [100_000 * (region in administered) for region in range(regions)]
    for machine in (book, ledger):
        entered(machine, 0, first, 0, [10_000] * (regions - 1), ends)
    return book, ledger


def entered(machine, number, prices, flow, factors, ends=NO_LINK):
    """The count and the table of an entry, with a flow from each region to the one before."""
    regions, flows, every = len(prices), [flow] * len(prices), [0, *factors]
    if ends != NO_LINK:
        flows.append(flow if ends[0] > ends[1] else -flow)
        every.append(every[max(ends)])
        every[max(ends)] = 0  # without a parent it is not looked at
    return machine.enter(number, 0, prices, [0] * regions, flows, every, [0] * 2 * regions)


def every_ends(regions):
    """None, and each link of the row in both orders."""
    return [NO_LINK, *((region, region - 1) for region in range(1, regions)),
            *((region - 1, region) for region in range(1, regions))]


class Limits(unittest.TestCase):
    def test_cases(self):
        for name, (limits, administered, prices, flow, factors, table, count) in CASES.items():
            for ends in every_ends(len(prices)):
                for machine in row_of(len(prices), *limits, administered, ends):
                    with self.subTest(name, of=type(machine).__name__, ends=ends):
                        self.assertEqual(entered(machine, 1, prices, flow, factors, ends), (count, table))

    def test_near(self):
        """ "a passed-on limit, cap or floor, is less than 0.51 cent from the exact quotient or product along its route,
        for up to seven links" """
        dice = random.Random(SEED)
        for _ in range(1_000):
            factors = [dice.choice((20_000, dice.randint(10_000, 20_000))) for _ in range(7)]
            cap, floor = dice.choice((dice.randint(1, PRICE), dice.randint(1, 100))), -dice.randint(1, PRICE // 128)
            ends = dice.choice(every_ends(8))
            for sign, exact, ratios in (
                (1, Fraction(cap), [Fraction(10_000, factor) for factor in factors]),
                (-1, Fraction(floor), [Fraction(factor, 10_000) for factor in factors]),
            ):
                book, _ = row_of(8, cap, floor, (0,), ends)
                table = entered(book, 1, [sign * PRICE] * 8, sign, factors, ends).table
                for price, ratio in zip(table[1:], ratios):
                    exact *= ratio
                    self.assertLess(abs(price - exact), Fraction(51, 100), (cap, floor, factors))


if __name__ == "__main__":
    unittest.main()
