"""The tables of modules at the tops of crates, in INTERNALS.md or else in README.md, made of the first sentences of the sources, without explanations."""
import re

from .repository import LIBRARY
from .sources import line_at, text_of

MODULES = re.compile(r"^<!-- modules -->\n(.*?)^<!-- /modules -->$", re.M | re.S)


def first_sentence(path):
    """The first sentence of the lines //! at the head of a file."""
    lines = []
    for line in text_of(path).splitlines():
        if not line.startswith("//! "):
            break
        lines.append(line[4:].strip())
    found = re.match(r".*?[.](?=\s|$)", " ".join(lines))
    return (found[0] if found else " ".join(lines)).replace("|", "\\|")


def main_phrase(sentence):
    """A sentence without its full stop and without an explanation behind a colon or a comma; an enumeration is whole."""
    short = re.sub(r"(?<=.{16}): .*", "", sentence.removesuffix("."))
    found = re.match(r"(.{16,}?), (?:as|by|found by|of which|which|whose)\b(?!.*\b(?:and|or)\b)", short)
    return found[1] if found else short


def table_of_modules(crate):
    rows = [
        f"| `{path.relative_to(crate.folder / 'src').with_suffix('')}` | {main_phrase(first_sentence(path))} |"
        for path in crate.modules()
        if path.parent == crate.folder / "src" and path.name not in ("lib.rt", "main.rt")
    ]
    return "\n".join(["| in `src/` | what it is |", "|---|---|", *rows, ""])


def wrong_modules(repository, page):
    """The rows that a crate's table of modules lacks or has too many."""
    if page.parent.parent != repository.crates or page != repository.modules_page(page.parent.name):
        return
    text = text_of(page)
    found = MODULES.search(text)
    if not found:
        if page.parent.name in LIBRARY:
            yield 1, "has no table between <!-- modules --> and <!-- /modules -->"
        return
    line, wanted = line_at(text, found.start()), table_of_modules(repository.crate(page.parent.name))
    yield from ((line, words) for words in differences(found[1].splitlines(), wanted.splitlines()))


def differences(has, wants):
    for row in wants:
        if row not in has:
            yield f"the table of modules lacks (docs.py --write puts it there): {row}"
    for row in has:
        if row not in wants:
            yield f"the table of modules has what is not so: {row or 'an empty line'}"
    if has != wants and sorted(has) == sorted(wants):
        yield "the table of modules has another order"


def write_modules(repository):
    for readme in repository.readmes:
        page = repository.modules_page(readme.parent.name)
        text, table = text_of(page), table_of_modules(repository.crate(page.parent.name))
        new = MODULES.sub(lambda _: f"<!-- modules -->\n{table}<!-- /modules -->", text)
        if new != text:
            page.write_text(new, encoding="utf-8")
            print(f"docs.py: {repository.shown(page)}: its table of modules is written anew")
