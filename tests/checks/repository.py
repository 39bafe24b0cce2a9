"""The repository that is checked: its pages, its crates and their libraries."""
import re
from functools import cached_property
from pathlib import Path

from .pages import files_of_crate
from .sources import Crate, is_test, text_of

LIBRARY = "hibitset_base hibitset_sparse hibitset_atomic hibitset hibitset_store hibitset_roaring hibitset_c".split()
# The pages of a crate whose tables say what it promises.
PROMISES = ("README.md", "INTERNALS.md", "SHARED.md", "INTERLEAVINGS.md", "CALLING.md")
PAGES = ("*.md", "docs/*.md", "bench/*.md", "tests/**/*.md", "crates/*/*.md", "bindings/*/*.md", "rust/*.md")


class Repository:
    """A repository below a folder; what was read once is kept."""

    def __init__(self, top):
        self.top, self.crates = Path(top), Path(top) / "crates"
        self.read, self.names, self.listed = {}, {}, {}

    @cached_property
    def pages(self):
        scripts = self.top / "tests" / "differential" / "scripts"
        found = {path for pattern in PAGES for path in self.top.glob(pattern)}
        return sorted(path for path in found if not path.is_relative_to(scripts))

    @property
    def readmes(self):
        """The README of each crate that has one."""
        return [page for page in self.pages if page.parent.parent == self.crates and page.name == "README.md"]

    def promises_of(self, name):
        """The pages of a crate that say what it promises, its README first."""
        pages = (self.crates / name / page for page in PROMISES)
        return [page for page in pages if page.is_file()]

    def modules_page(self, name):
        """The page of a crate that has its table of modules: INTERNALS.md if it has one."""
        pages = self.promises_of(name)
        return next((page for page in pages if page.name == "INTERNALS.md"), next(iter(pages), None))

    def shown(self, path):
        return str(path.relative_to(self.top))

    def crate(self, name):
        if name not in self.read:
            self.read[name] = Crate(self.crates / name)
        return self.read[name]

    def files(self, name):
        """The paths of a crate's sources, specs and proofs, each with a slash before it."""
        if name not in self.listed:
            self.listed[name] = files_of_crate(self.crates / name)
        return self.listed[name]

    @cached_property
    def rows(self):
        """The crates of crates.txt: what stands behind the name of each, and what it names."""
        rows = re.findall(r"^(\w+)([^:#\n]*): *(.*)$", text_of(self.top / "crates.txt"), re.M)
        return {name: (kind.split(), said.split()) for name, kind, said in rows}

    @cached_property
    def libraries(self):
        """The crates of crates.txt, each with the crates of this repository that it names."""
        return {name: [word for word in said if (self.crates / word).is_dir()] for name, (_, said) in self.rows.items()}

    def of_kit(self, name):
        """The crates of the toolchain that a crate names."""
        return [word for word in self.rows[name][1] if word not in self.libraries[name]]

    def is_static(self, name):
        return "staticlib" in self.rows[name][0]

    def at_or_below(self, name):
        found = [name]
        for each in found:
            found += [low for low in self.libraries.get(each, []) if low not in found]
        return found

    def has_test(self, name, test):
        """Whether the crate has a test function of this path."""
        *_, function = test.split("::")
        return any(is_test(function, text_of(path)) for path in (self.crates / name / "src").rglob("*.rt"))
