"""Tables of promises: the clauses that their cells name, and the public functions that no row names."""
import re

from .pages import without_fences
from .repository import LIBRARY
from .sources import text_of

ITEM = r"`[^`]+`(?:, `[^`]+`)*"
RULE = re.compile(r"\|[ :|-]+\|$")

# Public functions that no row names: NAME of a crate, as CRATE NAME, each for a reason that its comment says.
UNNAMED = set()

# What stands before the name of each export for C; a cell of the page of hibitset_c may leave it out.
EXPORTING, PREFIX = "hibitset_c", "hibitset_"


class Names(dict):
    """What a page may name in a cell: each name with its clauses, invariants or fields."""

    def __init__(self, crates, where):
        super().__init__()
        self.where, self.clauses, self.signatures = where, {}, {}
        for each in crates:
            self.add_functions(each)
            self.add_words(each)
        self.add_traits(crates)

    def add(self, name, labels):
        self.setdefault(name, set()).update(labels)

    def whole(self, name):
        """A name as a cell says it, or on the page of the exports that of an export, with its prefix."""
        return PREFIX + name if self.where.startswith(f"{EXPORTING} ") and PREFIX + name in self else name

    def add_functions(self, crate):
        for function in crate.functions:
            facts = crate.facts.get((function.owner, function.trait), set()) if function.owner else set()
            for name in function.names():
                self.add(name, function.labels | facts)
                self.clauses.setdefault(name, set()).update(function.clauses)
                self.signatures.setdefault(name, set()).add(function.signature)

    def add_words(self, crate):
        for name, words in crate.words.items():
            self.add(name, words)
        for (owner, _), facts in crate.facts.items():
            self.add(owner, facts)

    def add_traits(self, crates):
        """A type has the functions of its traits, with the traits' clauses."""
        traits = {}
        for function in (function for crate in crates for function in crate.functions if function.trait and not function.owner):
            traits.setdefault(function.trait, {}).setdefault(function.name, set()).update(function.labels)
        for owner, trait in (pair for crate in crates for pair in crate.impls):
            for function, labels in traits.get(trait, {}).items():
                self.add(f"{owner}::{function}", labels)


def names_for(repository, page):
    """The names that a page may use: of its crate and those below it, or of all."""
    own = page.parent.name if page.parent.parent == repository.crates else ""
    if own not in repository.names:
        crates = repository.at_or_below(own) if own else list(repository.libraries)
        where = f"{own} or a crate below it" if own else "any crate"
        repository.names[own] = Names([repository.crate(name) for name in crates], where)
    return repository.names[own]


def cells_of(line):
    return [cell.strip() for cell in re.split(r"(?<!\\)\|", line.strip())[1:-1]]


def clause_cells(page):
    """The cells in columns that are headed 'clause': line, column and cell."""
    lines = without_fences(text_of(page), "").splitlines()
    column = None
    for number, line in enumerate(lines, 1):
        if not line.startswith("|"):
            column = None
        elif number < len(lines) and RULE.match(lines[number]) and column is None:
            column = next((at for at, head in enumerate(cells_of(line)) if head in ("clause", "clauses")), None)
        elif column is not None and not RULE.match(line):
            cells = cells_of(line)
            if column < len(cells):
                yield number, column, cells[column]


def carriers(cell):
    """The parts of a cell, each as its names and its labels; None where it has not the form."""
    parts = []
    for part in filter(None, (part.strip() for part in cell.split(";"))):
        found = re.fullmatch(rf"({ITEM})(?:: ({ITEM}))?", part)
        if not found:
            return None
        parts.append((re.findall(r"`([^`]+)`", found[1]), re.findall(r"`([^`]+)`", found[2] or "")))
    return parts


def wrong_cells(repository, page):
    """The cells that name what is not there."""
    names = names_for(repository, page)
    for line, column, cell in clause_cells(page):
        yield from ((line, words) for words in (unknown_labels(names, cell) if column == 0 else unknown_names(names, cell)))


def unknown_labels(names, cell):
    """The labels of a table that says what the clauses of one function are, and that nothing has."""
    for label in re.findall(r"`([^`]+)`", cell):
        if not any(label in labels for labels in names.values()):
            yield f"nothing has a clause {label} in {names.where}"


def unknown_names(names, cell):
    parts = carriers(cell)
    if parts is None:
        yield f"is not of the form `Type::function`: `clause`, `clause`; ..: {cell}"
    for which, labels in parts or []:
        yield from lacking(names, [names.whole(name) for name in which], labels)


def lacking(names, which, labels):
    """Which of the names are not there, and which of the labels none of them has; each has one of the labels."""
    yield from (f"no function, type, record or definition {name} in {names.where}" for name in which if name not in names)
    known = [name for name in which if name in names]
    for label in labels:
        if known and not any(label in names[name] for name in known):
            yield f"{', '.join(known)} has no clause {label}"
    for name in known:
        if len(known) > 1 and labels and not any(label in names[name] for label in labels):
            yield f"{name} has none of the clauses {', '.join(labels)}"


def unnamed_functions(repository):
    """The public functions of the library crates with an `ensures` that no row of the crate's pages of promises names."""
    for name in LIBRARY:
        pages = repository.promises_of(name)
        if pages:
            yield from ((pages[0], 1, words) for words in unnamed_in(repository, repository.crate(name), pages))


def unnamed_in(repository, crate, pages):
    said = set()
    for page in pages:
        names = names_for(repository, page)
        said |= {names.whole(name) for *_, cell in clause_cells(page) for which, _ in carriers(cell) or [] for name in which}
    for function in promised(crate):
        if not said & set(function.names()) and f"{crate.name} {function.name_shown()}" not in UNNAMED:
            yield f"no row of a table with a column 'clause' names {function.name_shown()}"


def promised(crate):
    """The public functions with an `ensures`, each once."""
    seen = set()
    for function in crate.functions:
        shown = function.name_shown()
        if function.ensures and crate.is_public(function) and not crate.is_hidden(function) and shown not in seen:
            seen.add(shown)
            yield function


def unsaid_clauses(repository, page):
    """The clauses of the functions of a crate whose page has a table of common clauses, that neither a row of theirs nor that table
    names, and the common clauses that none of these functions has."""
    cells = list(clause_cells(page))
    common = {label: line for line, column, cell in cells if column == 0 for label in re.findall(r"`([^`]+)`", cell)}
    if not common or page.parent.parent != repository.crates:
        return
    names, said, lines, has = names_for(repository, page), {}, {}, set()
    for line, column, cell in cells:
        for which, labels in (carriers(cell) or []) if column else []:
            for name in map(names.whole, which):
                said.setdefault(name, set()).update(labels)
                lines.setdefault(name, line)
    for function in promised(repository.crate(page.parent.name)):
        has |= function.labels
        named = set(function.names()) & set(said)
        lacks = function.labels - set(common) - {label for name in named for label in said[name]}
        if named and lacks:
            yield min(lines[name] for name in named), f"neither a row of {function.name_shown()} nor the table of common clauses names {', '.join(sorted(lacks))}"
    yield from ((line, f"no public function has the common clause {label}") for label, line in common.items() if label not in has)
