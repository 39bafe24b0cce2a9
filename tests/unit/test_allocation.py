"""Allocations that fail: the lines above the tests, and what is refused of the runs."""
import unittest
from concurrent.futures import ThreadPoolExecutor

from allocation import calls, lines, scripts
from allocation.judge import Failed
from allocation.programs import in_turn, tests_in_turn

from .fixture import InRepository

TESTS = """//! Tests.
// It adds.
// allocates: 2, 4_096 bytes: low::Set::add,
//     low::Set::put
#[test]
fn add(rt: HostRuntime) -> Result<(), Fail> {
    Ok(())
}

#[test]
fn lost(rt: HostRuntime) -> Result<(), Fail> {
    Ok(())
}

// allocates: many
#[test]
fn many(rt: HostRuntime) -> Result<(), Fail> {
    Ok(())
}
"""
CALLS = """//! Sets.
pub struct Set;

impl Set {
    pub fn add(&mut self, id: usize) -> Result<bool, AllocError>
        requires { id < MAX }
    {
        Ok(true)
    }

    pub fn has(&self, id: usize) -> bool
        ensures { IsOk (Result<id>) }
    {
        true
    }

    fn put(&mut self) -> Result<(), AllocError> {
        Ok(())
    }
}
"""


class Lines(InRepository):
    def test_lines_above_tests(self):
        repository = self.repository({"crates/hibitset_refusals/src/tests/sets.rt": TESTS})
        found, wrong = lines.read(repository.crates / "hibitset_refusals")
        said = found["tests::sets::add"]
        self.assertEqual((said.requests, said.bytes, said.calls), (2, 4096, ("low::Set::add", "low::Set::put")))
        self.assertEqual([line for _, line, _ in wrong], [10, 16])
        self.assertIn("tests::sets::lost has no line", self.said(wrong))
        self.assertIn("has not the form of figures: many", self.said(wrong))

    def test_figures(self):
        self.assertTrue(lines.wanted("none", None).is_none)
        self.assertTrue(lines.wanted("1, 96 bytes, or goes on", "low::f").goes_on)
        self.assertTrue(lines.wanted("8, 96 bytes, and passes", None).passes)
        self.assertEqual(lines.wanted("11, in threads", "low::f").bytes, None)
        self.assertEqual(lines.wanted("5 at most, 2_048 bytes on 1 processor", "low::f").alone, 2048)
        for figures in ("1", "1, 2 byte", "some, 2 bytes", ""):
            with self.assertRaises(lines.BadLine):
                lines.wanted(figures, None)

    def test_calls_that_can_fail(self):
        repository = self.repository({"crates/low/src/set.rt": CALLS})
        self.assertEqual(calls.fallible(repository.crate("low")), {"low::Set::add"})

    def test_calls_that_no_test_makes(self):
        files = {"crates/hibitset/src/lib.rt": CALLS, "crates/hibitset_refusals/src/tests/sets.rt": TESTS.replace("low::Set::put", "hibitset::Set::put")}
        said = self.said(calls.wrong_calls(self.repository(files)))
        self.assertIn("no test makes hibitset::Set::add", said)
        self.assertIn("a test names hibitset::Set::put", said)


class Fake:
    """A program whose test makes an allocation of its own, some in its call, and one more of its own."""

    def __init__(self, sizes, goes_on=False, broken=0):
        self.sizes, self.goes_on, self.broken = [8, *sizes, 8], goes_on, broken

    def run(self, words, number, given="", log=None):
        if log:
            with open(log, "w", encoding="utf-8") as file:
                file.write("".join(f"{size}\n" for size in self.sizes))
        last = len(self.sizes)
        if number and number == self.broken:
            return 1, "passed\n", "error: assertion failed\n"
        call = "refused" if 1 < number < last and not self.goes_on else "passed"
        said = ["refused" if number == 1 else "passed", call, "refused" if number == last else "passed"]
        return 0, "\n".join(said) + "\ntest result: ok\n", ""


class Runs(unittest.TestCase):
    def closed(self, program, figures, is_alone=False):
        return in_turn(program, "tests::sets::add", lines.wanted(figures, "low::f"), is_alone).close()

    def refuses(self, program, figures, words, is_alone=False):
        with self.assertRaises(Failed) as failed:
            self.closed(program, figures, is_alone)
        self.assertIn(words, str(failed.exception))

    def test_what_is_right(self):
        self.assertIn("2 refused in turn, 48 bytes: ok", self.closed(Fake([16, 32]), "2, 48 bytes"))
        self.assertIn("1 gone on without", self.closed(Fake([16], goes_on=True), "1, 16 bytes, or goes on"))
        self.assertIn("2 gone on without", self.closed(Fake([16, 32], goes_on=True), "2, 48 bytes, and passes"))
        self.assertIn("2 refused in turn", self.closed(Fake([16, 32]), "2, in threads"))
        self.assertIn("on one processor", self.closed(Fake([64]), "5 at most, 64 bytes on 1 processor", is_alone=True))

    def test_other_figures(self):
        self.refuses(Fake([16, 32]), "1, 48 bytes", "2 requests, where 1 are to be made")
        self.refuses(Fake([16, 32]), "2, 40 bytes", "asks for 48 bytes, where 40")
        self.refuses(Fake([16, 32]), "1 at most, 0 bytes on 1 processor", "2 requests, where 1 at most")
        self.refuses(Fake([16]), "5 at most, 0 bytes on 1 processor", "1 requests for 16 bytes on one processor", is_alone=True)
        self.refuses(Fake([]), "0, 0 bytes", "0 requests")

    def test_a_call_that_passes_or_breaks(self):
        self.refuses(Fake([16], goes_on=True), "1, 16 bytes", "request 2: was not refused")
        self.refuses(Fake([16, 32], goes_on=True), "2, 48 bytes, or goes on", "it went on where the requests [2, 3]")
        self.refuses(Fake([16, 32]), "2, 48 bytes, and passes", "it did not pass where the requests [2, 3]")
        self.refuses(Fake([16, 32], broken=3), "2, 48 bytes", "request 3")
        self.refuses(Fake([16] * 70), "70, 1120 bytes", "and there are more")

    def test_what_was_not_measured(self):
        self.refuses(Fake([16, 4096]), "unmeasured", "write above it: // allocates: 2, 4_112 bytes")
        unmeasured = {name: lines.wanted("unmeasured", "low::f") for name in ("tests::sets::add", "tests::sets::put")}
        with ThreadPoolExecutor(2) as pool, self.assertRaises(Failed) as failed:
            tests_in_turn(pool, Fake([16]), unmeasured)
        self.assertEqual(str(failed.exception).count("write above it"), 2)


class Scripts(unittest.TestCase):
    def tried(self, replies):
        class Told:
            def run(self, words, number, given):
                return replies[number - 1]

        return scripts.try_script(Told(), "add a 5\n", ["no memory\n", "false\n"])

    def test_outputs(self):
        end, refused, right = (3, "", "no memory\n"), (0, "no memory\n", ""), (0, "false\n", "")
        self.assertIn("status 3 1 times, 1 other outputs: ok", self.tried([end, refused, right]))
        for replies, words in (
            ([refused, right], "never ended for want of memory"),
            ([end, right], "never printed"),
            ([end, (0, "true\n", "")], "ended with status 0"),
        ):
            with self.assertRaises(Failed) as failed:
                self.tried(replies)
            self.assertIn(words, str(failed.exception))
