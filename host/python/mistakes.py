"""What may be wrong with a bill, with a day's intervals, and with a book and its ring (request 2026-09 of document 02):
each takes dice and what was right. For the random bills."""

from functools import lru_cache

import bill
from book import LARGEST_SUM
from guxhamole import Line
from test_random_left import with_field, with_free_place, with_next_place, with_price, with_sum

EDGES = (1_000_000_000, 999_999_999)  # as many kilowatt-hours as there may be, and one less
ABOVE = (1_000_000_001, 1_000_000_001, 2**31, 2**32 - 1)


@lru_cache(None)
def ties(rest):
    """The kilowatt-hours up to 1,000 that make half a cent of a price with this rest by 1,000."""
    return [energy for energy in range(1, 1_001) if energy * rest % 1_000 == 500]


def right_line(dice, number, price):
    """With few kilowatt-hours, many, as many as may be, or, one time in three, such as make half a cent."""
    energies = 0, 1, 3, dice.randint(1, 5_000), dice.randint(1, 1_000_000_000), *EDGES
    halves = ties(price % 1_000)
    energy = dice.choice(halves if halves and dice.random() < 0.33 else energies)
    return Line(number, energy, price, bill.amount(energy, price))


def with_line(lines, place, line):
    return [*lines[:place], line, *lines[place + 1:]]


def fitted(line):
    """A line whose numbers their types hold."""
    amount = max(-2**63, min(2**63 - 1, line.amount))
    return line._replace(number=line.number % 2**32, energy=line.energy % 2**32, amount=amount)


def off_by_one(dice, lines, place, _):
    name, line = dice.choice(Line._fields), lines[place]
    return with_line(lines, place, line._replace(**{name: getattr(line, name) + dice.choice((-1, 1))}))


def far_off(dice, lines, place, _):
    """By what a narrower type, or another sign, would not show."""
    line = lines[place]
    changes = ({"number": line.number ^ 2**31}, {"amount": line.amount + 2**32}, {"amount": line.amount - 2**32},
               {"price": -line.price}, {"amount": -line.amount}, {"amount": -2**63}, {"amount": 2**63 - 1})
    return with_line(lines, place, line._replace(**dice.choice(changes)))


def dropped(dice, lines, place, _):
    """One, the last, or all from a place on."""
    return dice.choice((lines[:place] + lines[place + 1:], lines[:-1], lines[:place]))


def added(dice, lines, place, _):
    """A line given twice, or more behind: any, or such as further intervals would have."""
    after = right_line(dice, lines[-1].number + 1, lines[-1].price)
    other = Line(dice.getrandbits(32), dice.randint(0, 9), -5, 0)
    return dice.choice((lines[:place] + [lines[place]] + lines[place:], [*lines, after], [*lines, after, other]))


def exchanged(dice, lines, place, _):
    other = dice.randrange(len(lines))
    return with_line(with_line(lines, place, lines[other]), other, lines[place])


def above(dice, lines, place, _):
    """Too many kilowatt-hours in a line, or in two, in some with the amount that they would make."""
    for each in (place, dice.choice((place, dice.randrange(len(lines))))):
        line, energy = lines[each], dice.choice(ABOVE)
        amounts = line.amount, bill.amount(energy, line.price)
        lines = with_line(lines, each, line._replace(energy=energy, amount=dice.choice(amounts)))
    return lines


def surplus_above(dice, lines, *_):
    return [*lines, Line(0, dice.choice(ABOVE), 0, 0)]


def at_the_bound(dice, lines, place, _):
    """As many as there may be; right, or a cent off."""
    line, energy = lines[place], dice.choice(EDGES)
    amount = bill.amount(energy, line.price) + dice.choice((0, 0, 1, -1))
    return with_line(lines, place, line._replace(energy=energy, amount=amount))


def other_price(dice, lines, place, others):
    """A price that isn't the published one, with the amount that it makes."""
    line, price = lines[place], dice.choice(others[place % len(others)])
    return with_line(lines, place, line._replace(price=price, amount=bill.amount(line.energy, price)))


def to_even(thousandths):
    """Half to the even neighbour."""
    whole, rest = divmod(abs(thousandths), 1_000)
    whole += rest > 500 or (rest == 500 and whole % 2 == 1)
    return whole if thousandths >= 0 else -whole


def otherwise_rounded(dice, lines, place, _):
    """Down, up, towards zero, half up, half down, half to even; and a hundredth for a thousandth."""
    line = lines[place]
    exact = line.energy * line.price
    sign = 1 if exact >= 0 else -1
    amounts = (exact // 1_000, -(-exact // 1_000), sign * (abs(exact) // 1_000), (exact + 500) // 1_000,
               -((500 - exact) // 1_000), to_even(exact), exact // 100)
    return with_line(lines, place, line._replace(amount=dice.choice(amounts)))


MISTAKES = (off_by_one, off_by_one, far_off, dropped, added, exchanged, above, surplus_above, at_the_bound, other_price,
            other_price, otherwise_rounded, otherwise_rounded)


def mistaken(dice, lines, others):
    """A bill as it is, or with up to three mistakes; others are, for each interval, prices that might be taken for the
    published one."""
    for _ in range(dice.choice((0, 0, 1, 1, 1, 2, 3))):
        if not lines or not others:
            return dice.choice(([], [Line(0, 0, 0, 0)], surplus_above(dice, lines)))
        lines = [*map(fitted, dice.choice(MISTAKES)(dice, lines, dice.randrange(len(lines)), others))]
    return lines


def spoiled(dice, intervals):
    """One is given twice, missing or elsewhere, or has something that an entry refuses, unless its region is marked or
    has no parent."""
    place, way = dice.randrange(len(intervals)), dice.randrange(8)
    chosen, rest = intervals[place], intervals[:place] + intervals[place + 1:]
    if way == 0:
        where = dice.randint(0, len(rest))
        return dice.choice((rest, intervals[:place] + intervals[place:place + 1] + intervals[place:],
                            rest[:where] + [chosen] + rest[where:]))
    if way == 1:
        return with_line(intervals, place, chosen._replace(number=chosen.number + dice.choice((1, 2, 2**31))))
    if way == 2:
        return with_line(intervals, place, chosen._replace(day_kind=dice.choice((2, 255))))
    name = ("marks", "prices", "prices", "factors", "factors")[way - 3]
    bad = {"marks": (2, 255), "prices": (-10_000_001, 10_000_001, -1, 2**31 - 1, -2**31), "factors": (9_999, 20_001, 0)}
    numbers = list(getattr(chosen, name))
    numbers[dice.randrange(len(numbers))] = dice.choice(bad[name])
    return with_line(intervals, place, chosen._replace(**{name: numbers}))


def with_sum_at_its_bound(dice, book, ring):
    """So that an entry can bring it beyond; in some a ring place has a number that no price is."""
    region, market = dice.randrange(book.regions), dice.randrange(book.services + 1)
    sign = dice.choice((1, 1, -1))
    book.sums[11 * region + market] = sign * (LARGEST_SUM - dice.choice((0, 0, 1, 50_000, 10_000_000)))
    if dice.random() < 0.5:
        place = (region * (book.services + 1) + market) * book.window + book.nexts[region]
        ring[place] = dice.choice((-2**31 if sign > 0 else 2**31 - 1, -sign * 10_000_001, 0))
    return book, ring


def with_period(dice, book, ring):
    """Another period mark, or another position in the day."""
    if dice.random() < 0.5:
        book.marks[11 * dice.randrange(book.regions) + dice.randrange(book.services + 1)] ^= 1
    else:
        book.position = dice.randrange(6 * book.halves)
    return book, ring


FORGERIES = (with_sum_at_its_bound, with_sum_at_its_bound, with_sum_at_its_bound, with_period, with_price, with_sum,
             with_free_place, with_next_place, with_field, with_field)
