"""Checks of a release and of the C header (bindings/c/check.py): each check passes on the repository, and finds a fault that is put into a file."""
import re
import sys
import unittest

from checks import release

sys.path.insert(0, str(release.TOP / "bindings/c"))

import check  # noqa: E402 (its folder is named above)
import results  # noqa: E402 (release names its folder)


def changed(name, old, new):
    """The files of the repository, one of them changed."""

    def text(path):
        found = release.text_of(path)
        if path != name:
            return found
        assert old in found, f"{name} has no {old}"
        return found.replace(old, new)

    return text


class Faults(unittest.TestCase):
    def finds(self, check, name, old, new, words):
        said = list(check(changed(name, old, new)))
        self.assertTrue(any(words in f"{page}: {line}" for page, line in said), said)

    def test_versions(self):
        version = release.text_of("VERSION").strip()
        self.finds(release.wrong_versions, "CHANGELOG.md", f"## [{version}]", "## [9.9.9]", "no heading for")
        self.finds(release.wrong_versions, "VERSION", version, "9.9", "is no version")
        self.finds(release.wrong_versions, "README.md", f"version {version}.", "version 9.9.9.", "does not say that")

    def test_cargo_version(self):
        texts = {"VERSION": "0.1.0\n", "CHANGELOG.md": "\n## [0.1.0] - x\n", "README.md": "This is version 0.1.0.", "rust/Cargo.toml": '[package]\nversion = "0.6.3"\n'}
        self.assertEqual(list(release.wrong_versions(texts.get)), [("rust/Cargo.toml", "has another version than 0.1.0")])
        texts["rust/Cargo.toml"] = '[package]\nversion = "0.1.0"\n'
        self.assertEqual(list(release.wrong_versions(texts.get)), [])

    def test_license(self):
        for copy in ("rust/LICENSE", "bindings/python/LICENSE"):
            self.finds(release.wrong_license, copy, "Apache", "Another", f"{copy}: is not LICENSE")

    def test_kits(self):
        self.finds(release.wrong_kits, ".ci/kit", "rattle-kit-", "other-kit-", "does not name `other-kit-")
        self.finds(release.wrong_kits, ".ci/kit", " logic ", " ", "is not what rt version prints")

    def test_packages(self):
        self.finds(release.wrong_packages, ".ci/packages", "binutils\n", "", "lacks binutils")
        self.finds(release.wrong_packages, ".ci/packages", "binutils\n", "zsh\nbinutils\n", "in order")
        self.finds(release.wrong_packages, "Dockerfile", "$(cat /packages)", "gcc", "does not install what")
        self.finds(release.wrong_packages, "Dockerfile", " cargo ", " ", "does not install cargo")
        self.finds(release.wrong_packages, "tests/bindings.sh", "readelf;", "readelf awk;", "no package for awk")
        self.finds(release.wrong_packages, "tests/python.sh", "numpy dask", "numpy scipy", "no package for scipy")
        self.finds(release.wrong_packages, ".ci/packages", "python3-numpy\n", "", "lacks python3-numpy, which has numpy")
        self.finds(release.wrong_packages, ".ci/packages", "python3-dev\n", "", "lacks python3-dev, which has Python.h")

    def test_speed(self):
        self.finds(release.wrong_tables, "README.md", "| contains, hit | index | ", "| contains, hit | index | 1", "not those of")
        self.finds(release.wrong_tables, "README.md", "<!-- slower -->", "", "no table between")
        self.finds(release.wrong_tables, "bench/results.txt", "| walk, dense, 1M of 1M | ", "| walk, dense, 1M of 1M | 1", "not those of")
        self.finds(release.wrong_tables, "bench/RESULTS.md", "| walk | ", "| walk | 1", "is not what bench/results.py makes")

    def test_rows_in_a_line(self):
        rows = {"low": ("0.03", "0.05"), "with a star": ("0.05 *", "0.01"), "high": ("0.03", "0.10")}
        line, shown = results.in_line({name: [results.Row("", name, "", dict(zip(("ratio", "its ratio"), cells)))] for name, cells in rows.items()})
        self.assertEqual(shown, ["with a star", "high"])
        self.assertIn("low: 0.05.", line)

    def test_pictures(self):
        self.finds(release.wrong_pictures, "docs/pictures/ratios.svg", "<circle", "<circles", "is not what draw.py draws")

    def test_a_slower_row(self):
        slow = "| walk, dense, 1M of 1M | 1.25 | 1.00 | 1.25 * |"
        results = re.sub(r"^\| walk, dense, 1M of 1M (\| [^|]*){3}\|", slow, release.text_of("bench/results.txt"), flags=re.M)
        said = [words for _, words in release.unlisted(results)]
        self.assertEqual(len(said), 1)
        self.assertIn("1.25", said[0])

    def test_a_row_that_is_gone(self):
        results = release.text_of("bench/results.txt").replace("| contains, miss |", "| contains nothing |")
        self.assertEqual(release.speed(results), release.speed(release.text_of("bench/results.txt")))
        with self.assertRaises(KeyError):
            release.speed(results.replace("| contains, hit |", "| contains something |"))


class Header(unittest.TestCase):
    HEADER = release.text_of("bindings/c/hibitset.h")

    def finds(self, old, new, words):
        self.assertIn(old, self.HEADER)
        said = list(check.faults(self.HEADER.replace(old, new, 1)))
        self.assertTrue(any(words in line for line in said), said)

    def test_functions(self):
        self.finds("void hibitset_clear(hibitset_t *set);", "", "hibitset_clear: the crate exports")
        self.finds("hibitset_fault *fault", "uint32_t *fault", "hibitset_roaring_read: the crate exports")
        self.finds("bool hibitset_contains(", "size_t hibitset_contains(", "hibitset_contains: the crate exports")

    def test_layouts(self):
        self.finds("    const void *seat_;", "    bool first_;\n    const void *seat_;", "the layouts differ")

    def test_numbers(self):
        self.finds("HIBITSET_SHARED = 4", "HIBITSET_SHARED = 5", "the numbers of hibitset_status differ")

    def test_versions(self):
        self.finds("HIBITSET_VERSION_MINOR 1", "HIBITSET_VERSION_MINOR 7", "the header has version")
        self.finds("const char *hibitset_version(void);", "", "hibitset_version: version.c defines it")
        self.finds("extern const uint64_t hibitset_abi_0;", "extern const uint64_t hibitset_abi_7;", "hibitset_abi_0: version.c defines it")
        self.finds("libhibitset.so.0", "libhibitset.so.7", "two numbers of the ABI")

    def test_statuses(self):
        self.finds("HIBITSET_MUST_USE hibitset_status hibitset_add(", "hibitset_status hibitset_add(", "hibitset_add: is not")
