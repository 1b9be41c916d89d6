"""The examples in the package's doc comments print what they say."""
import doctest
import unittest

import pmhost
from pmhost import course, device, host, part

MODULES = (course, device, host, part)


class Examples(unittest.TestCase):
    def test_each_example_prints_what_it_says(self):
        space = {name: getattr(pmhost, name) for name in pmhost.__all__}
        for module in MODULES:
            found = [it for it in doctest.DocTestFinder(exclude_empty=True).find(module, globs=space) if it.examples]
            self.assertTrue(found, module.__name__)
            for each in found:
                with self.subTest(each.name):
                    said = []
                    failed, tried = doctest.DocTestRunner(verbose=False).run(each, out=said.append)
                    self.assertTrue(tried)
                    self.assertEqual(failed, 0, "".join(said))


if __name__ == "__main__":
    unittest.main()
