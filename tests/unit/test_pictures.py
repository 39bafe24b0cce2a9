"""What the pictures of docs/pictures are computed by: where two lines cross, and who stands on whom."""
import sys
import unittest

from checks import release

sys.path.insert(0, str(release.TOP / "docs/pictures"))

import diagrams  # noqa: E402 (its folder is named above)
import parallel  # noqa: E402
import plots  # noqa: E402


class Pictures(unittest.TestCase):
    def test_crossings(self):
        level, falling = [(0.01, 1.0), (1, 1.0)], [(0.01, 10.0), (1, 0.1)]
        (share,) = plots.crossings(level, falling)
        self.assertAlmostEqual(share, 0.1)
        self.assertAlmostEqual(plots.between(share, falling), 1)
        self.assertEqual(list(plots.crossings(level, [(0.01, 2.0), (1, 3.0)])), [])

    def test_points(self):
        rows = list(plots.rows_of("results", plots.RESULTS.read_text(encoding="utf-8")))
        for title, pattern in plots.PANELS:
            for column, *_ in plots.SETS:
                self.assertGreaterEqual(len(plots.points(pattern, rows, column)), 3, f"{title}: {column}")

    def test_parallel(self):
        for table, kinds in (("threads", parallel.SETS), ("steps", parallel.STEPS)):
            rows = list(parallel.measured(table))
            self.assertEqual({members for *_, members, _ in rows if members < 10**6} & {10**4, 10**5}, {10**4, 10**5})
            self.assertEqual({kind for _, kind, *_ in rows}, {name.split(", ")[-1] for name in kinds})

    def test_crates(self):
        named = {"low": ["rayon"], "middle": ["low"], "beside": ["low"], "high": ["middle", "low"]}
        self.assertEqual(diagrams.nearest("high", named), ["middle"])
        self.assertEqual(diagrams.levels(named), [["low"], ["middle", "beside"], ["high"]])
