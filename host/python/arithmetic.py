"""Document 01's rounding, holding, index, schedule maker and amount text, from its words alone, in exact fractions. The
tests hold the library to it; it shares no code with guxhamole.py."""

from fractions import Fraction
from math import floor

PRICE = 10_000_000


class Refused(Exception):
    """What a call is refused by: number, and place where the paper names one."""

    def __init__(self, number, place=None):
        super().__init__(number, place)
        self.number = number
        self.place = place


def nearest(value):
    """To the nearest whole number, "half away from zero". """
    size = floor(abs(Fraction(value)) + Fraction(1, 2))
    return size if value >= 0 else -size


def held(price, low, high):
    return max(low, min(high, price))


def price_good(price, energy):
    """ "energy beyond ±10,000,000 or service outside 0..10,000,000" are refused. """
    return (-PRICE if energy else 0) <= price <= PRICE


def limits_good(cap, lowest):
    """ "cap 1..10,000,000; floor −10,000,000..−1" """
    return 1 <= cap <= PRICE and -PRICE <= lowest <= -1


def index(amount, quarters, base, last):
    """ "amount × (four quarters of year c) / (four of year b) .. to the nearest 100 dollars, half up, and never below
    last year's" """
    quarters_good = all(1 <= quarter <= 100_000 for quarter in (*quarters, *base))
    if not quarters_good or not 1 <= amount <= 100_000_000 or last > 10_000_000_000_000:
        raise Refused(30)
    hundreds = Fraction(amount * sum(quarters), sum(base)) / 100
    return max(last, 100 * floor(hundreds + Fraction(1, 2)))


def refuse_making(halves, cap, lowest, energy, prices, day_kinds):
    """ "Maker: 31 H or lengths; 32 kind not 0 or 1, or one kind missing; 19; 16 with place." """
    if not 1 <= halves <= 48 or len(prices) != 28 * 6 * halves or len(day_kinds) != 28:
        raise Refused(31)
    if set(day_kinds) != {0, 1}:
        raise Refused(32)
    if not limits_good(cap, lowest):
        raise Refused(19)
    for place, price in enumerate(prices):
        if not price_good(price, energy):
            raise Refused(16, place)


def schedule(halves, cap, lowest, energy, prices, day_kinds):
    """ "each is the mean of all prices of that half-hour and kind, rounded half away from zero, then held as in step
    1", "places from H up zero" """
    refuse_making(halves, cap, lowest, energy, prices, day_kinds)
    rows = ([0] * 48, [0] * 48)
    for kind in (0, 1):
        days = [day for day in range(28) if day_kinds[day] == kind]
        for half in range(halves):
            places = [day * 6 * halves + 6 * half + interval for day in days for interval in range(6)]
            mean = Fraction(sum(prices[place] for place in places), len(places))
            rows[kind][half] = held(nearest(mean), lowest if energy else 0, cap)
    return rows


def amount_text(cents):
    """ "minus if below 0, dollars (0 at least), point, two digits" """
    dollars, rest = divmod(abs(cents), 100)
    return f"{'-' if cents < 0 else ''}{dollars}.{rest:02}"
