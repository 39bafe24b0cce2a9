"""Pages: links, paths, files in backticks, and the tests that "What is only tested" names."""
import re
from functools import lru_cache

from .sources import is_test, line_at, text_of

# Words that stand for a name in a path, as in crates/NAME/must-fail.
PLACEHOLDER = re.compile(r"\b(F|FILE|NAME|CRATE|OTHER|PATCH|MODULE|TYPE|FUNCTION|SUBJECT|WHAT_IS_WRONG|PROGRAM)\b|[*]|\.\.")
PATH = re.compile(
    r"(?<![\w./-])((?:docs|bench|tests|crates|bindings|rust)/[\w./*+-]*\.(?:md|py|sh|rt|antt|edit|mutants|patch|svg)|CONTRIBUTING\.md)(?!\w)"
)
RATTLE_FILE = re.compile(r"`((?!crates/|tests/)(?:[\w-]+/)*[\w-]+\.(?:rt|antt))`")


def without_fences(text, kinds="sh"):
    """The text with blank lines in the place of fenced blocks, but for those of commands."""

    def blank(block):
        return block[0] if block[1] in kinds.split() else "\n" * block[0].count("\n")

    return re.sub(r"^```(\w*).*?^```$", blank, text, flags=re.M | re.S)


@lru_cache(maxsize=None)
def anchors(path):
    """The anchors of a page's headings, as GitHub makes them."""
    found, counts = set(), {}
    for heading in re.findall(r"^#+ +(.*?)\s*#*$", without_fences(text_of(path), ""), re.M):
        plain = re.sub(r"\[([^\]]*)\]\([^)]*\)", r"\1", heading)
        slug = re.sub(r"[^\w\- ]", "", plain.lower()).replace(" ", "-")
        count = counts.get(slug, 0)
        counts[slug] = count + 1
        found.add(slug if count == 0 else f"{slug}-{count}")
    return found


def dead_links(repository, page):
    """The relative links of a page that lead nowhere."""
    text = without_fences(text_of(page))
    for link in re.finditer(r"\]\(([^)\s]+)\)", text):
        target, _, anchor = link[1].partition("#")
        if re.match(r"[a-z]+:", target):
            continue
        path = (page.parent / target).resolve() if target else page
        if not path.exists():
            yield line_at(text, link.start()), f"links to {link[1]}, which is not there"
        elif anchor and path.suffix == ".md" and anchor not in anchors(path):
            yield line_at(text, link.start()), f"links to {link[1]}, but no heading has the anchor #{anchor}"


def dead_paths(repository, page):
    """The paths from the top, or from the page's folder, in the words of a page that are not there."""
    text = without_fences(text_of(page))
    # What a guide prints to be a file of the user's is not looked for here.
    printed = re.findall(r"`([\w./-]+)`:\n\n```", text_of(page))
    for name in PATH.finditer(text):
        if PLACEHOLDER.search(name[1]) or name[1] in printed:
            continue
        if not any((folder / name[1]).exists() for folder in (repository.top, page.parent)):
            yield line_at(text, name.start()), f"names {name[1]}, which is not there"


def files_of_crate(folder):
    """The paths of a crate's sources, specs and proofs, each with a slash before it."""
    parts = (folder / part for part in ("src", "specs", "proofs"))
    return ["/" + str(path.relative_to(folder)) for part in parts for path in part.rglob("*.*t")]


def dead_files(repository, page):
    """The files of Rattle that a page names in backticks, and that no crate has, or none at or below the page's own."""
    every = [path.name for path in repository.crates.iterdir()]
    own = repository.at_or_below(page.parent.name) if page.parent.parent == repository.crates else every
    for name in RATTLE_FILE.finditer(text_of(page)):
        among = own if name[1].startswith(("src/", "specs/", "proofs/")) else every
        there = any(path.endswith("/" + name[1]) for each in among for path in repository.files(each))
        if not there and not PLACEHOLDER.search(name[1]):
            yield line_at(text_of(page), name.start()), f"names {name[1]}, which is in no crate"


def untested(repository, page):
    """The tests that "What is only tested" names, and that are not there."""
    text = text_of(page)
    section = re.search(r"^## What is only tested\n(.*?)(?=^## |\Z)", text, re.M | re.S)
    if not section:
        return
    for number, line in enumerate(section[1].splitlines(), line_at(text, section.start(1))):
        where = ""
        for name, within in re.findall(r"`([^`]+)`(?: \(((?:`\w+`(?:, )?)+)\))?", line):
            if (repository.crates / name).is_dir() or (repository.top / name).is_file():
                where = name
            if name.startswith("tests::") or within:
                lacking = lacking_tests(repository, where, name, re.findall(r"\w+", within))
                yield from ((number, f"there is no {test} in {where or 'no crate'}") for test in lacking)


def lacking_tests(repository, where, name, functions):
    """Which tests a crate or a file of C lacks: functions, alone or of a module tests::.. that is named before them."""
    if where and (repository.top / where).is_file():
        text = text_of(repository.top / where)
        return [each for each in functions if f"static void {each}(void)" not in text]
    module = repository.crates / where / "src" / f"{name.replace('::', '/')}.rt"
    if where and module.is_file():
        return [each for each in functions if not is_test(each, text_of(module))]
    return [] if where and repository.has_test(where, name) else [name]
