"""What the runs of one test came to: which allocations of its call failed, and whether that is what is wanted."""
from .lines import Wanted

# What a test prints that got no memory before its first request: its error as it is, or in a `Fail`.
NO_MEMORY = ("Error: AllocError\n", "error: AllocError\n", "error: AllocFailed ")


class Failed(Exception):
    """What is not as it should be."""


class Turns:
    """The numbers of the allocations of one test: its own first, those of the call, and its own last."""

    def __init__(self, name, wanted=None, is_alone=False):
        self.name, self.wanted, self.is_alone = name, wanted or Wanted(), is_alone
        self.before, self.call, self.went_on, self.after = [], [], [], []
        self.bytes = 0

    def fail(self, words):
        raise Failed(f"{self.name}: {words}")

    def judge(self, number, said, errors):
        """Takes what the test said, and how it failed, where the allocation of this number failed."""
        if not said and errors.startswith(NO_MEMORY):
            return  # before the first
        parts = 2 if self.wanted.is_none else 3
        if errors or len(said) != parts or not set(said) <= {"passed", "refused"} or said.count("refused") > 1:
            self.fail(f"request {number}: {said}, {errors!r}")
        if "refused" in said:
            place = said.index("refused")
            (self.before if place == 0 else self.after if place == parts - 1 else self.call).append(number)
        elif not self.after and (self.wanted.goes_on or self.wanted.passes or self.wanted.is_unmeasured):
            self.went_on.append(number)
        elif not self.after:
            self.fail(f"request {number}: was not refused")

    @property
    def numbers(self):
        """The numbers of the call's allocations."""
        return range(self.before[0] + 1, self.after[0])

    def close(self):
        """Compares all with what is wanted, and returns what to print."""
        if len(self.before) != 1 or len(self.after) != 1:
            self.fail(f"its own requests have the numbers {self.before} and {self.after}")
        if sorted(self.call + self.went_on) != list(self.numbers):
            self.fail(f"between {self.before} and {self.after} only {self.call} were refused")
        if self.wanted.is_unmeasured:
            went_on = ", or goes on" if self.call and self.went_on else ", and passes" if self.went_on else ""
            self.fail(f"write above it: // allocates: {len(self.numbers)}, {self.bytes:_} bytes{went_on}")
        if self.wanted.passes and self.call:
            self.fail(f"it did not pass where the requests {self.call} were refused")
        if len(self.went_on) > 1 and not self.wanted.passes:
            self.fail(f"it went on where the requests {self.went_on} were refused")
        if self.wanted.is_none == bool(self.numbers) and not self.is_alone:
            self.fail(f"{len(self.numbers)} requests")
        self.compare_alone() if self.is_alone else self.compare()
        went_on = f", {len(self.went_on)} gone on without" if self.went_on else ""
        where = " on one processor" if self.is_alone else ""
        return f"{self.name}{where}: {len(self.call)} refused in turn{went_on}, {self.bytes} bytes: ok"

    def compare(self):
        requests, wanted = len(self.numbers), self.wanted
        if wanted.most is not None and requests > wanted.most:
            self.fail(f"{requests} requests, where {wanted.most} at most are to be made")
        if wanted.requests is not None and requests != wanted.requests:
            self.fail(f"{requests} requests, where {wanted.requests} are to be made")
        if wanted.bytes is not None and self.bytes != wanted.bytes:
            self.fail(f"asks for {self.bytes} bytes, where {wanted.bytes} are to be asked for")

    def compare_alone(self):
        """Compares a walk in parts that has one processor: it makes one allocation, of these bytes, or none."""
        requests, wanted = len(self.numbers), self.wanted.alone
        if requests != (wanted > 0) or self.bytes != wanted:
            self.fail(
                f"{requests} requests for {self.bytes} bytes on one processor, where one for the {wanted} bytes of a list, "
                "or none, is to be made"
            )
