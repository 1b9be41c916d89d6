"""Words that stand in the package and elsewhere, and the pictures that the pages show."""
import os
import re
import unittest
import xml.etree.ElementTree as tree

from pmhost import status
from pmhost.errors import SAYINGS

from .running import DATA, ROOT, stored

PICTURES = os.path.join(ROOT, "docs", "pictures")


class Tables(unittest.TestCase):
    def test_bits_are_those_of_decode(self):
        text = stored(ROOT, "crates", "pm_trace", "src", "status.rt")
        sets = dict(re.findall(r"^static (\w+): \[Row; \d+\] = \[\n(.*?)^\];", text, re.DOTALL | re.MULTILINE))
        found = {f"STATUS_{name}": tuple((int(bit, 16), word) for bit, word in re.findall(r'\(0x([0-9A-F]+), "([^"]+)"\)', body)
                                         if not word.startswith("bit ")) for name, body in sets.items() if name != "CAPABILITY"}
        self.assertEqual(len(found), 10)
        self.assertEqual(status.BITS, {**found, "STATUS_BYTE": found["STATUS_WORD"][8:]})

    def test_each_refusal_of_the_library_has_its_words(self):
        rows = [line.split(" ", 1) for line in stored(DATA, "sayings.txt").splitlines()]
        self.assertEqual(SAYINGS, dict(rows))


class Pictures(unittest.TestCase):
    def test_each_picture_is_there_and_named_by_a_page(self):
        """trials/pictures draws them. Each is a picture with words, and each that a page shows is there."""
        pages = [stored(ROOT, "docs", name) for name in os.listdir(os.path.join(ROOT, "docs")) if name.endswith(".md")]
        shown = {name for page in [*pages, stored(ROOT, "README.md")] for name in re.findall(r"\]\((?:docs/)?pictures/(\S+?)\)", page)}
        self.assertEqual({*os.listdir(PICTURES)}, shown)
        for name in shown:
            words = [it.text for it in tree.fromstring(stored(PICTURES, name)).iter("{http://www.w3.org/2000/svg}text")]
            self.assertGreater(len(words), 10, name)
