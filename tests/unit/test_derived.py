"""Derived files: what the script says is a fault, and where it breaks."""
from checks import derived

from .fixture import InRepository

SAYS = """import sys
print("rust/src/derived/set.rs:3: is stale")
sys.exit(1)
"""


class Derived(InRepository):
    def found(self, script):
        return list(derived.derive(self.repository({"rust/derive.py": script})))

    def test_faults(self):
        ((path, line, words),) = self.found(SAYS)
        self.assertEqual((path.name, line, words), ("set.rs", 3, "is stale"))
        self.assertEqual(self.found("print('ok')\n"), [])

    def test_a_script_that_breaks(self):
        self.assertIn("ends with status 1", self.said(self.found("raise SystemExit(1)\n")))

    def test_no_script(self):
        self.assertEqual(list(derived.derive(self.repository())), [])
