"""The tests of the package: python -m unittest discover -s python/tests -t python."""
