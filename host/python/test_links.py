"""The additional link (request 2026-10 of document 02): its worked cases on the independent code. The tests are of
`kit`, so that test_link_library.py can hold the library to them, and test_link_variants.py can try them on wrong code.
"""

import unittest

import edition
from linked import changed, of_length

CHAIN = (255, 0, 1)
ROW = tuple(range(-1, 7))  # of eight regions, each the next one's parent


class Worked(unittest.TestCase):
    """What the cases are made of: G is three regions in a row at a threshold of 95,000 and limits of ±60,000."""

    kit = edition.loaded()

    def opening(self, ends, parents=CHAIN, threshold=95_000, **other):
        every = [255 if parent < 0 else parent for parent in parents] + [255] * (8 - len(parents))
        fields = {"services": 0, "window": 1, "halves": 1, "first": 0, **other}
        return self.kit.ledger.Opening(len(parents), fields["services"], fields["window"], fields["halves"],
                                       fields["first"], every, threshold, 60_000, -60_000, *ends)

    def begun(self, ends, parents=CHAIN):
        """The ledger that begins with an image of kind 2, after entry 0, from which on region 0 is administered."""
        image = self.kit.image.image_of(self.kit.ledger.Ledger(self.opening(ends, parents)), 2)
        ledger = self.kit.image.begun(image)
        self.entered(ledger, [100_000] + [0] * (len(parents) - 1), [0] * 9, [10_000] * 9)
        return ledger

    def entered(self, ledger, prices, flows, factors):
        """An entry; of longer lists of flows and factors those that the book has places for."""
        regions = ledger.opening.regions
        places = regions + (ledger.opening.from_ != 255)
        return ledger.enter(ledger.taken, 0, prices, [0] * regions, flows[:places], factors[:places],
                            [0] * 2 * regions)

    def published(self, ends, prices, flows, factors, parents=CHAIN):
        return self.entered(self.begun(ends, parents), prices, flows, factors)

    def refused(self, number, call, *arguments, place=None):
        with self.assertRaises(Exception) as caught:
            call(*arguments)
        self.assertIn(type(caught.exception).__name__, ("Refused", "Refusal"), caught.exception)
        self.assertEqual((caught.exception.number, caught.exception.place), (number, place))


class Limits(Worked):
    """ "A cap or floor limit is then taken over every route that carries power and visits no region twice" """

    PRICES = [100_000, 90_000, 85_000]

    def test_1_a_ring(self):
        answer = self.published((0, 2), self.PRICES, [1] * 4, [11_000] * 4)
        self.assertEqual(answer, (3, [60_000, 54_545, 49_587]))

    def test_2_two_routes(self):
        for factors, table in (([0, 10_100, 10_100, 13_000], [60_000, 59_406, 46_154]),
                               ([0, 11_000, 11_000, 10_500], [60_000, 54_545, 49_587])):
            with self.subTest(factors=factors):
                self.assertEqual(self.published((2, 0), self.PRICES, [0, 1, 1, 1], factors), (3, table))

    def test_3_the_direct_route_carries_nothing(self):
        """58,818 by B, where the direct one, which would bind, carries nothing; with factors of 11,000 it would not."""
        for flow in (-1, 0, -2**31):
            table = self.published((2, 0), self.PRICES, [0, 1, 1, flow], [0, 10_100, 10_100, 13_000])[1]
            self.assertEqual(table, [60_000, 59_406, 58_818])
            answer = self.published((2, 0), self.PRICES, [0, 1, 1, flow], [0, 11_000, 11_000, 11_000])
            self.assertEqual(answer, (3, [60_000, 54_545, 49_587]))

    def test_4_floors(self):
        answer = self.published((0, 2), [-100_000, -90_000, -95_000], [0, -1, -1, 1], [0, 11_000, 11_000, 10_500])
        self.assertEqual(answer, (3, [-60_000, -66_000, -63_000]))

    def test_5_no_other_link(self):
        for flows, factors in (([0, 0, 1], [0, 0, 11_000]), ([1, -1, 1], [9_999, 20_001, 11_000])):
            answer = self.published((1, 0), [100_000, 90_000], flows, factors, (255, 255))
            self.assertEqual(answer, (2, [60_000, 54_545]))

    def test_the_same_link_named_the_other_way(self):
        """ "positive from the first named to the second" """
        for ends, flow in (((0, 2), -1), ((2, 0), 1)):
            table = self.published(ends, self.PRICES, [0, 0, 0, flow], [0, 10_000, 10_000, 12_000])[1]
            self.assertEqual(table, [60_000, 90_000, 50_000])

    def test_to_half_a_cent(self):
        """3,751 / 1.5001 is below 2,500.5, and that by ten-thousandths of a cent."""
        ledger = self.begun((2, 0))
        ledger.set_limits(3_751, -60_000)
        self.assertEqual(self.entered(ledger, self.PRICES, [0, 0, 0, 1], [0, 10_000, 10_000, 15_001])[1],
                         [3_751, 90_000, 2_501])

    def test_a_ring_of_eight(self):
        """A limit goes once round, and no further: 60,000 / 1.1, .. / 1.1⁷."""
        prices = [100_000] * 8
        table = self.published((0, 7), prices, [1] * 9, [11_000] * 9, ROW)[1]
        self.assertEqual(table, [60_000, 54_545, 49_587, 45_079, 40_981, 37_255, 33_868, 30_789])
        against = self.published((7, 0), prices, [1] * 9, [11_000] * 8 + [20_000], ROW)[1]
        self.assertEqual(against, [60_000, 54_545, 49_587, 45_079, 40_981, 37_255, 33_868, 30_000])


class Openings(Worked):
    """ "20 bad ends", "17 now covers its factor", and 11"""

    BAD = ((255, 0), (0, 255), (0, 0), (1, 0), (0, 1), (1, 2), (2, 1), (3, 0), (0, 3), (255, 2), (2, 2), (254, 255))

    def test_6_ends(self):
        opened, images = self.kit.ledger.Ledger.open, self.kit.image
        good = images.image_of(self.kit.ledger.Ledger(self.opening((255, 255))), 2)
        for ends in self.BAD:
            with self.subTest(ends=ends):
                for threshold in (90_000, 95_000, 0):  # 20 is before 18 and 44
                    self.refused(20, opened, self.opening(ends, threshold=threshold))
                self.refused(26, images.refuse_image, changed(good, 148, *ends))
        for ends in ((0, 2), (2, 0), (255, 255)):
            self.assertEqual(opened(self.opening(ends, threshold=90_000)).opening[-2:], ends)
            self.assertEqual(images.begun(changed(good, 148, *ends)).opening[-2:], ends)
        for parents, ends in (((255, 0, 0), (1, 2)), ((255, 0, 0), (2, 1)), ((255, 255), (0, 1)), ((255, 255), (1, 0))):
            self.assertEqual(opened(self.opening(ends, parents, threshold=90_000)).opening[-2:], ends)

    def test_6_a_record_with_such_ends(self):
        """10 of every call, as 20 of the opening; the closed book's ends are 0, 0."""
        record, refuse = self.kit.record, self.kit.book.refuse_book
        image = self.kit.image.image_of(self.begun((0, 2)), 2)
        for ends in ((0, 2), (2, 0), (255, 255), *self.BAD):
            book, ring = record.load(image, 3)
            book.from_, book.to = ends
            if ends in self.BAD:
                self.refused(10, refuse, book)
                self.refused(10, record.store, book, ring, 2, 200)
            else:
                refuse(book)
        closed = record.Record()
        self.assertEqual((closed.from_, closed.to), (0, 0))
        self.refused(10, refuse, closed)

    def test_7_factors(self):
        ledger = self.begun((0, 2))
        for factors, place in (([0, 11_000, 11_000, 9_999], 3), ([0, 9_999, 11_000, 9_999], 1), ([0, 1, 1, 20_001], 1),
                               ([9, 20_000, 10_000, 20_001], 3)):
            for flow in (0, 1, -1):
                lent = [1, 0, [1, 1, 1], [1, 1, 1], [0, 1, 1, flow], factors, [0] * 6]
                self.refused(17, ledger.enter, *lent, place=place)
                self.refused(16, ledger.enter, *lent[:2], [0, 0, 10**8], [1, 1, 0], *lent[4:], place=2)
        self.assertEqual(self.entered(ledger, [1, 2, 3], [0] * 4, [0, 10_000, 20_000, 20_000]), (0, [1, 2, 3]))

    def test_7_lengths(self):
        """R + 1 flows and factors with the link, R without."""
        for ends, places in (((0, 2), 4), ((255, 255), 3)):
            ledger = self.begun(ends)
            for flows in range(6):
                for factors in range(6):
                    lent = 1, 0, [1, 2, 3], [0] * 3, [0] * flows, [10_000] * factors, [0] * 6
                    if (flows, factors) != (places, places):
                        self.refused(11, ledger.enter, *lent)
        ledger = self.begun((0, 2))
        self.refused(11, ledger.enter, 1, 0, [1, 2, 3], [0] * 4, [0] * 4, [10_000] * 4, [0] * 6)

    def test_8_eight_regions(self):
        ledger = self.begun((0, 7), ROW)
        lent = [1, 0, [0] * 8, [0] * 8, [1] * 9, [10_000] * 8 + [9_999], [0] * 16]
        self.refused(17, ledger.enter, *lent, place=8)
        self.refused(11, ledger.enter, *lent[:5], [10_000] * 8, lent[6])
        self.refused(11, ledger.enter, *lent[:4], [1] * 8, *lent[5:])
        self.assertEqual(ledger.enter(*lent[:5], [10_000] * 9, lent[6])[1], [0] * 8)


class Images(Worked):
    """Cases 9 to 12: kind 2, 47, and what refuses its bytes."""

    def after(self, ends):
        """The book of case 1 after entry 0: its ledger, and its record and ring, which an image brings."""
        ledger = self.begun(ends)
        return ledger, *self.kit.record.load(self.kit.image.image_of(ledger, 2), 3)

    def test_9_stored(self):
        ledger, book, ring = self.after((0, 2))
        image, store = self.kit.image.image_of(ledger, 2), self.kit.record.store
        self.assertEqual((len(image), image[0], image[4:6]), (168, 168, b"\2\0"))
        self.assertEqual(image[148:156].hex(), "00020000ffffffff")
        self.assertEqual(image[156:], (100_000).to_bytes(4, "little") + bytes(8))
        self.assertEqual([store(book, ring, 2, room) for room in (168, 169, 999)], [image] * 3)
        for room in (0, 147, 160, 167):
            self.refused(23, store, book, ring, 2, room)
        for room in (0, 160, 168):
            self.refused(47, store, book, ring, 1, room)
        self.refused(47, self.kit.image.image_of, ledger, 1)
        self.assertEqual((book.from_, book.to), (0, 2))

    def test_9_order(self):
        """10; 11; 22; 47; 23."""
        _, book, ring = self.after((0, 2))
        store = self.kit.record.store
        for kind in (1, 2):
            self.refused(22, store, book, [100_001, 0, 0], kind, 0)
            self.refused(11, store, book, ring + [0], kind, 0)
            self.refused(10, store, self.kit.record.Record(), ring + [0], kind, 0)

    def test_9_restart(self):
        """ "a restart goes by kind 2, or by kind 1 where 47 allows it": 47, 23, then the load's 11. """
        restart = self.kit.image.refuse_restart
        for ends, kind, size in (((0, 2), 2, 168), ((255, 255), 2, 168), ((255, 255), 1, 160)):
            ledger = self.begun(ends)
            restart(ledger, kind, size, 3)
            self.refused(23, restart, ledger, kind, size - 1, 4)
            self.refused(11, restart, ledger, kind, size, 4)
        for room, ring in ((0, 4), (0, 3), (200, 4), (200, 3)):
            self.refused(47, restart, self.begun((0, 2)), 1, room, ring)

    def test_10_damaged(self):
        image, refuse = self.kit.image.image_of(self.begun((0, 2)), 2), self.kit.image.refuse_image
        for place, values, number in (
            (148, (1, 0), 26), (148, (255, 2), 26), (148, (0, 255), 26), (148, (0, 3), 26), (150, (1,), 26),
            (151, (1,), 26), (150, (255, 255), 26), (152, (0,), 26), (153, (0,), 26), (155, (254,), 26),
            (152, (0, 0, 0, 0), 26), (4, (1,), 27), (4, (3,), 25), (4, (0,), 25), (5, (1,), 25),
        ):
            with self.subTest(place=place, values=values):
                self.refused(number, refuse, changed(image, place, *values))
                self.refused(number, self.kit.record.load, changed(image, place, *values), 3)
        for ends in ((255, 255), (2, 0)):
            book, ring = self.kit.record.load(changed(image, 148, *ends), 3)
            self.assertEqual(((book.from_, book.to), ring), (ends, [100_000, 0, 0]))
        self.refused(11, self.kit.record.load, image, 4)
        self.refused(16, refuse, changed(image, 160, 255, 255, 255, 127), place=1)

    def test_10_cut(self):
        image, refuse = self.kit.image.image_of(self.begun((0, 2)), 2), self.kit.image.refuse_image
        for end in (148, 150, 155):
            self.refused(24, refuse, of_length(image, end))
            self.refused(25, refuse, changed(of_length(image, end), 4, 3))
        for end in (0, 5, 147):
            self.refused(24, refuse, image[:end])
        self.refused(24, refuse, image[:167])
        for end in (156, 164, 167, 172):
            self.refused(27, refuse, of_length(image, end))
        self.refused(26, refuse, of_length(changed(image, 150, 1), 156))

    def test_11_of_kind_1(self):
        images, ledgers = self.kit.image, self.kit.ledger
        image = images.image_of(self.begun((255, 255)), 1)
        self.assertEqual(len(image), 160)
        self.refused(26, images.refuse_image, changed(image, 4, 2))
        without = images.image_of(ledgers.Ledger(self.opening((255, 255))), 1)
        self.assertEqual(len(without), 148)
        self.refused(24, images.refuse_image, changed(without, 4, 2))

    def test_12_without_the_link(self):
        """ "such a book can be stored back to the very kind 1 image" """
        ledger, record = self.begun((255, 255)), self.kit.record
        one, two = (self.kit.image.image_of(ledger, kind) for kind in (1, 2))
        self.assertEqual((len(one), len(two), two[148:156].hex()), (160, 168, "ffff0000ffffffff"))
        self.assertEqual((two[6:148], two[156:]), (one[6:148], one[148:]))
        (first, ring), (second, other) = (record.load(image, 3) for image in (one, two))
        self.assertEqual((bytes(first), ring), (bytes(second), other))
        self.assertEqual(record.store(second, other, 1, 160), one)
        self.assertEqual(record.store(first, ring, 2, 168), two)
        self.refused(23, record.store, first, ring, 1, 159)
        self.refused(23, record.store, first, ring, 2, 167)


if __name__ == "__main__":
    unittest.main()
