"""How many runs of a trial passed: what each script in Python that is run by hand counts by, and its last line."""


class Tally:
    """What differs in a run is printed, and the run failed."""

    def __init__(self):
        self.passed = self.failed = 0

    def tell(self, name, faults):
        faults = list(faults)
        self.passed += not faults
        self.failed += bool(faults)
        for fault in faults:
            print(f"{name}: {fault}", flush=True)

    def add(self, name, passed, failed, said=""):
        """Those of a part that counts for itself are told, and what it said where some failed."""
        self.passed, self.failed = self.passed + passed, self.failed + failed
        print(f"{name}: {passed} passed, {failed} failed", flush=True)
        if failed:
            print(said, flush=True)

    def end(self, note=""):
        """The last line, with a note of what wasn't tried, and the status: 1 if something failed or nothing was tried."""
        print(f"{self.passed} passed, {self.failed} failed{note}", flush=True)
        return 1 if self.failed or not self.passed else 0
