"""The additional link (request 2026-10 of document 02) on the library: the worked cases of test_links.py and
test_link_records.py, and the random lists, images, records and days that hold the independent code too."""

import unittest

import test_link_records
import test_links
import test_random_link_records
import test_random_links
from library_kit import KIT


class Limits(test_links.Limits):
    kit = KIT


class Openings(test_links.Openings):
    kit = KIT


class Images(test_links.Images):
    kit = KIT


class Records(test_link_records.Records):
    kit = KIT


class Loads(test_link_records.Loads):
    kit = KIT


class Bills(test_link_records.Bills):
    kit = KIT


class RandomLinks(test_random_links.RandomLinks):
    kit, whose = KIT, "library, "


class RandomLinkRecords(test_random_link_records.RandomLinkRecords):
    kit, whose = KIT, "library, "


if __name__ == "__main__":
    unittest.main()
