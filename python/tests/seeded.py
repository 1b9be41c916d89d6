"""Tests that draw: each from a seed that is said where it fails, and PMHOST_SEED draws from another one."""
import functools
import os
import random


def seeded(seed):
    """The test is handed a source of random numbers."""
    def of(test):
        @functools.wraps(test)
        def drawn(self):
            number = int(os.environ.get("PMHOST_SEED", seed))
            try:
                return test(self, random.Random(number))
            except AssertionError as fault:
                raise self.failureException(f"seed {number} (PMHOST_SEED={number} draws the same): {fault}") from fault
        return drawn
    return of
