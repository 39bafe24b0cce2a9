"""Lemmas: a statement stands in one file. Those that stand in several are in known_lemmas.txt, which may only shrink."""
import re
from pathlib import Path

from . import known
from .sources import text_of

STATEMENT = re.compile(r"(?:pub |unfoldable |instance )*([^\s(λ=\-]\S*) : (.*)")
BINDER = re.compile(r"[({]((?:[^\s(){}]+ )+): |λ ((?:[^\s.]+ ?)+)\.")
RELATION = re.compile(r"[≡≢≤↔¬]|(?<!\w)<(?!\w)|\b(?!Type|Bool|List|Option|Unit)[A-Z]\w*")
KNOWN = Path(__file__).with_name("known_lemmas.txt")


def statements(text):
    """The statements of a file, each with its name, that say a fact and have no name that the toolchain gives."""
    lines = text.splitlines()
    for at, line in enumerate(lines):
        found = STATEMENT.match(line)
        if not found:
            continue
        said = [found[2]]
        for more in lines[at + 1 :]:
            if not more.startswith(" "):
                break
            said.append(more.strip())
        whole = " ".join(said)
        if RELATION.search(whole) and not whole.startswith("goal.") and not whole.endswith("Type 0"):
            yield found[1], whole


def without_names(said):
    """A statement whose bound variables have numbers for names."""
    bound = {}
    for group in BINDER.finditer(said):
        for name in (group[1] or group[2]).split():
            bound.setdefault(name, f"v{len(bound)}")
    return " ".join(bound.get(word, word) for word in re.findall(r"[\w'₀-₉]+|\S", said))


def twice(repository):
    """The statements that stand in several files: each place as PATH NAME, with its other places."""
    found = {}
    for folder in ("specs", "proofs"):
        for path in sorted(repository.crates.glob(f"*/{folder}/**/*.antt")):
            # The toolchain gives the form of a Proof.antt or Send.antt.
            if path.name not in ("Proof.antt", "Send.antt", "Sync.antt"):
                for name, said in statements(text_of(path)):
                    found.setdefault(without_names(said), []).append((repository.shown(path), name))
    return {
        f"{path} {name}": [f"{other} {also}" for other, also in places if other != path]
        for places in found.values()
        for path, name in places
        if len({each for each, _ in places}) > 1
    }


def repeated(repository, listed=KNOWN):
    """The statements that stand in several files and are not known, and the known ones that no longer do."""
    found = twice(repository)
    for path, line, words in known.changes(listed, found, "stands also in another file", "stands in one file alone, so take it off the list"):
        place = words.split(": ", 1)[1]
        yield path, line, f"{words}, as {'; '.join(found[place])}" if place in found else words


def shrink(repository, listed=KNOWN):
    if known.shrink(listed, twice(repository)):
        print(f"docs.py: {listed.name} is shorter")
