"""Counts what was tried, and tells what failed."""


class Judge:
    def __init__(self):
        self.passed = 0
        self.failed = 0

    def same(self, name, got, wanted):
        """One trial: whether what was got is what is wanted."""
        if got == wanted:
            self.passed += 1
        else:
            self.failed += 1
            print(f"{name}:\n  got    {str(got)[:400]}\n  wanted {str(wanted)[:400]}")

    def none(self, name, faults):
        """One trial that went through many checks: the list of those that failed is empty."""
        self.same(name, list(faults)[:5], [])

    def close(self):
        """Prints the counts; answers the exit status."""
        print(f"{self.passed} passed, {self.failed} failed")
        return 1 if self.failed or not self.passed else 0


def fault_of(call, *arguments):
    """The name, the numbers and the reason of the fault that this call raises; None where it raises none."""
    try:
        call(*arguments)
    except ValueError as fault:
        return fault.name, fault.numbers, fault.reason
    return None
