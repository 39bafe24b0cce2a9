"""The sources of the operators: what differs from the template is found."""
import tempfile
import unittest
from pathlib import Path

import operators


class Operators(unittest.TestCase):
    def test_a_file_that_was_edited_and_those_that_lack(self):
        with tempfile.TemporaryDirectory() as folder:
            first, second = operators.SOURCES[:2]
            for source, text in ((first, operators.text(first)), (second, operators.text(second).replace("rhs", "other"))):
                path = Path(folder) / source.path
                path.parent.mkdir(parents=True, exist_ok=True)
                path.write_text(text, encoding="utf-8")
            found = [path for path, _ in operators.different(Path(folder))]
        self.assertEqual(found, [Path(folder) / source.path for source in operators.SOURCES[1:]])

    def test_a_long_fact_has_two_lines(self):
        self.assertEqual(len(operators.fact("IsUnion (has set) (T.holds other)").splitlines()), 1)
        self.assertEqual(len(operators.fact("IsIntersection (has set.now) (T.holds other)").splitlines()), 2)
