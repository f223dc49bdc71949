"""Wrong variants of the independent code of the additional link (request 2026-10 of document 02): one passage or two of
it are changed, and a worked case and, where one is named, a random test must tell the variant apart."""

import unittest

import edition
import test_link_records
import test_links
import test_random_link_records
import test_random_links

WORKED = (test_links.Limits, test_links.Openings, test_links.Images, test_link_records.Records, test_link_records.Loads,
          test_link_records.Bills)
RANDOM = {
    "lists": test_random_links.RandomLinks, "images": test_random_links.RandomLinks,
    "records": test_random_link_records.RandomLinkRecords, "days": test_random_link_records.RandomLinkRecords,
}
FEWER = {"calls": 4_000, "images": 2_000, "reads": 1_000, "bills": 500, "whole": False}

TRAVELLED = '''        for start, end, ratio in ways:
            if start == region and end in left:
                reached += self.travelled(end, self.given(limit * ratio), ways, left - {end})
        return reached
'''
RELAXED = '''        for _ in range(self.opening.regions):
            for start, end, ratio in ways:
                reached += [(end, self.given(limit * ratio)) for region, limit in set(reached) if region == start]
        return reached
'''
FIRST_ROUTE = TRAVELLED.replace("        return", "                break\n        return")
GIVEN = "        return Fraction(nearest(10_000 * limit), 10_000)\n"
PAIR = "zip(named, entry.flows, entry.factors)"
CARRIES = """            if second != NONE and flow != 0:
                links.append((first, second, factor) if flow > 0 else"""
AT_R = "[*entry.{0}[:self.opening.regions], entry.{0}[self.opening.regions - 1]]"
LINKED_PLACE = "place == self.opening.regions or self.opening.parents[place] != NONE"
BAD_FACTOR = "if self.links_by(place) and not"
LENGTHS = "lengths = [prices, regions, links, links,"
THRESHOLD = "    refuse_threshold(opening.threshold)\n"
# Limits, refused entries and openings: a name, the worked case, the random test, a passage, what stands there instead.
LEDGER = (
    ("a relaxing loop", "test_1_a_ring", "days", TRAVELLED, RELAXED),
    ("cents a link", "test_1_a_ring", "lists", GIVEN, "        return nearest(limit)\n"),
    ("no rounding on the way", "test_to_half_a_cent", "lists", GIVEN, "        return limit\n"),
    ("the source is not visited", "test_1_a_ring", "days", "limit, up, every - {source}", "limit, up, every"),
    ("one route alone", "test_2_two_routes", "lists", TRAVELLED, FIRST_ROUTE),
    ("one link alone", "test_1_a_ring", "lists", "ways, left - {end})", "ways, set())"),
    ("flow the other way", "test_2_two_routes", "lists", "append(ends_of(self.opening))",
     "append(ends_of(self.opening)[::-1])"),
    ("sign not looked at", "test_3_the_direct_route_carries_nothing", "lists", "factor) if flow > 0 else",
     "factor) if flow > 0 or (first, second) == ends_of(self.opening) else"),
    ("a flow of 0 carries", "test_3_the_direct_route_carries_nothing", "lists", CARRIES,
     CARRIES.replace(" and flow != 0", "").replace("flow > 0", "flow >= 0")),
    ("flow read at R − 1", "test_3_the_direct_route_carries_nothing", "lists", PAIR,
     PAIR.replace("entry.flows", AT_R.format("flows"))),
    ("factor read at R − 1", "test_2_two_routes", "lists", PAIR,
     PAIR.replace("entry.factors", AT_R.format("factors"))),
    ("the link carries nothing", "test_2_two_routes", "lists", "if link_of(self.opening):", "if False:"),
    ("17 not of the link", "test_7_factors", "lists", LINKED_PLACE, "[*self.opening.parents, NONE][place] != NONE"),
    ("17 of the link first", "test_7_factors", "lists", "enumerate(entry.factors)",
     "[*enumerate(entry.factors)][::-1]"),
    ("17 where it carries", "test_7_factors", "lists", BAD_FACTOR,
     BAD_FACTOR.replace("not", "(place < regions or entry.flows[place]) and not")),
    ("one more mark", "test_7_lengths", "lists", LENGTHS, LENGTHS.replace("regions", "links")),
    ("R flows", "test_7_lengths", "lists", LENGTHS, LENGTHS.replace("links, links", "regions, links")),
    ("R factors", "test_7_lengths", "lists", LENGTHS, LENGTHS.replace("links, links", "links, regions")),
    ("20 after 18", "test_6_ends", "lists", "    if not ends_good(", THRESHOLD + "    if not ends_good("),
)
NOT_PARENT, NOT_CHILD = " and parents[first] != second", " and parents[second] != first"
ENDS = (
    ("any end below R", "test_6_ends", "images", " and first != second" + NOT_PARENT + NOT_CHILD, ""),
    ("parent to child", "test_6_ends", "lists", NOT_CHILD, ""),
    ("child to parent", "test_6_ends", "images", NOT_PARENT, ""),
    ("an end may be R", "test_6_ends", "images", "max(ends) < regions", "max(ends) <= regions"),
    ("one end alone", "test_6_ends", "images", "if ends == NO_LINK:", "if NONE in ends:"),
    ("ends upward alone", "test_6_ends", "images", "first != second and", "first < second and"),
)
RULE_10 = (("ends not in rule 10", "test_6_a_record_with_such_ends", "records",
            "        and ends_good(book.regions, book.parents[:], ends_of(book))\n", ""),)
BODY = "image[150:156] == bytes([0, 0, 255, 255, 255, 255])"
TWO = "[(first, 1), (second, 1), (0, 2), (2**32 - 1, 4)]"
IMAGE = (
    ("zeros at 152", "test_9_stored", "lists", "(2**32 - 1, 4)]", "(0, 4)]"),
    ("the ledger's ends exchanged", "test_4_floors", "lists", "[(first, 1), (second, 1),", "[(second, 1), (first, 1),"),
    ("no 47 of the ledger's", "test_9_stored", "lists", "    if kind < least_kind(opening):", "    if kind < 1:"),
    ("a restart's 47 after 23", "test_9_restart", "lists",
     "    image = image_of(ledger, kind)\n    if room < len(image):",
     "    image = image_of(ledger, 2)\n    if room >= len(image):\n        image = image_of(ledger, kind)\n    else:"),
    ("24 under 148 alone", "test_10_cut", "images", " or len(image) < PRICES.get(kind, HEAD)", ""),
    ("24 under 156 of any kind", "test_10_cut", "images", "PRICES.get(kind, HEAD)", "PRICES.get(kind, 156)"),
    ("kind 1 alone", "test_9_stored", "images", "if kind not in PRICES:", "if kind != 1:"),
    ("any kind", "test_10_damaged", "images", "if kind not in PRICES:", "if kind == 0:"),
    ("150 not looked at", "test_10_damaged", "images", BODY, "image[152:156] == bytes([255] * 4)"),
    ("152 not looked at", "test_10_damaged", "images", BODY, "image[150:152] == bytes(2)"),
    ("153 not looked at", "test_10_damaged", "images", BODY, "image[150:153] == bytes([0, 0, 255])"),
    ("ends not looked at", "test_10_damaged", "images", "return first_good and (", "return ("),
    ("27 from 148", "test_9_stored", "images", "if len(image) != PRICES[kind] +", "if len(image) != HEAD +"),
    ("16 from 148", "test_10_damaged", "images", "read(image, PRICES[kind] + 4 * place",
     "read(image, HEAD + 4 * place"),
    ("kind 1 with ends", "test_12_without_the_link", "images", "if read(image, 4, 2) == 2 else NO_LINK",
     "if len(image) > HEAD else NO_LINK"),
)
REFUSED_47 = "    if kind == 1 and link_of(book):\n        raise Refused(47)\n"
REFUSED_23 = "    if room < length(book, kind):\n        raise Refused(23)\n"
REFUSED_22 = "    refuse_prices(book, ring)\n"
NAMED_ENDS = "REST.unpack_from(image, FIRST.size)[:2]"
RECORD = (
    ("ends exchanged when stored", "test_9_stored", "images", "pack(book.from_, book.to,", "pack(book.to, book.from_,"),
    ("ends exchanged when loaded", "test_10_damaged", "images", NAMED_ENDS, NAMED_ENDS.replace("[:2]", "[1::-1]")),
    ("ends not loaded", "test_9_stored", "images", "if kind == 2 else (255, 255)", "if kind == 3 else (255, 255)"),
    ("47 after 23", "test_9_stored", "images", REFUSED_47 + REFUSED_23, REFUSED_23 + REFUSED_47),
    ("47 before 22", "test_9_order", None, REFUSED_22 + REFUSED_47, REFUSED_47 + REFUSED_22),
    ("no 47", "test_9_stored", "images", REFUSED_47, ""),
    ("47 without the link", "test_12_without_the_link", "images", "kind == 1 and link_of(book)", "kind == 1"),
)
KNOWN = "    body = bodies(book.services + 1).get(kind)\n"
TAKEN = "take(given, place, book, LINK) if link_of(book) else"
INTERVAL = (
    ("18 known nowhere but where it is due", "test_reads", "records", KNOWN,
     KNOWN[:-1] + " if kind in (due, HEAD, REGION) else None\n"),
    ("18 known where the link is", "test_reads", "records", KNOWN,
     KNOWN[:-1] + " if kind != LINK or link_of(book) else None\n"),
    ("18 of any length", "test_reads", "records", "(body is not None and length",
     "(body is not None and kind != LINK and length"),
    ("18 not read", "test_reads", "records", TAKEN, "((0, 0), place) if link_of(book) else"),
    ("18 read in every book", "test_reads", "records", TAKEN, TAKEN.replace("link_of(book)", "True")),
    ("18 not written", "test_writes", "records", "    if link_of(book):\n        yield",
     "    if False:\n        yield"),
    ("23 without 18", "test_writes", "records", " + link_of(book) * link", ""),
    ("11 without the link", "test_lengths", "records", "book.regions, places_of(book), places_of(book)]",
     "book.regions, book.regions, book.regions]"),
)
DRAWN = "    flows, factors = [flow for flow, _ in links]"
SYNTHETIC = (
    ("no pair for the link", "test_one_more_pair", "records", "for _ in range(places_of(book))]", "for _ in regions]"),
    ("its pair first", "test_one_more_pair", "records", DRAWN, "    links = links[-1:] + links[:-1]\n" + DRAWN),
)
BILL = (("a bill without the link", "test_prices_round_the_ring", "days", "*limits, *ends_of(book)", "*limits"),)
ONE_EDIT = {"ledger": LEDGER, "link": ENDS, "book": RULE_10, "image": IMAGE, "record": RECORD, "interval": INTERVAL,
            "synthetic": SYNTHETIC, "bill": BILL}
# Those of two edits that would fit each other: a name, the worked case, the random test, the edits.
TWO_EDITS = (
    ("kind 2 from 148", "test_9_stored", "images",
     (("image", TWO + " if kind == 2 else []", "[]"), ("image", "2: 156}", "2: 148}"))),
    ("ends exchanged on both ways", "test_9_stored", "lists",
     (("record", "pack(book.from_, book.to,", "pack(book.to, book.from_,"),
      ("record", NAMED_ENDS, NAMED_ENDS.replace("[:2]", "[1::-1]")))),
    ("flow and factor exchanged in 18", "test_reads", "records",
     (("interval", "interval.flows[book.regions], interval.factors[book.regions])",
       "interval.factors[book.regions] - 2**31, interval.flows[book.regions] + 2**31)"),
      ("interval", "flows + [*link[:1]], factors + [*link[1:]])",
       "flows + [number - 2**31 for number in link[1:]], factors + [number + 2**31 for number in link[:1]])"))),
)


def variants():
    """Each with its edits."""
    for module, rows in ONE_EDIT.items():
        for name, case, chance, before, after in rows:
            yield name, case, chance, ((module, before, after),)
    yield from TWO_EDITS


def told(kit):
    """The worked cases that fail on this code."""
    return {name for tests in WORKED for name in edition.failing(tests, kit)}


class Variants(unittest.TestCase):
    def test_worked_cases_tell(self):
        self.assertEqual(told(edition.loaded()), set())
        for name, case, _, edits in variants():
            with self.subTest(name):
                self.assertIn(case, told(edition.loaded(edits)))

    def test_random_tests_tell(self):
        every = list(variants())
        by_chance = [variant for variant in every if variant[2]]
        for name, _, chance, edits in by_chance:
            with self.subTest(name):
                test = f"test_{chance}"
                self.assertEqual(edition.failing(RANDOM[chance], edition.loaded(edits), test, **FEWER), {test})
        print(f"variants of the link: {len(every)} told by worked cases, {len(by_chance)} by random tests")


if __name__ == "__main__":
    unittest.main()
