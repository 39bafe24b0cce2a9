"""The labels of public clauses: docs/STYLE.md lists each, and no other."""
import re

from .sources import text_of

TITLE = "## Labels of clauses"
OWN_WORDS = {"uses"}


def listed(page):
    """The labels in the table below the title."""
    section = text_of(page).split(TITLE, 1)[-1].split("\n## ", 1)[0]
    return {label for row in section.splitlines() if row.startswith("| ") for label in re.findall(r"`([a-z_0-9]+)`", row)}


def used(repository):
    """Each label of a public clause, with a function that has it."""
    found = {}
    for name in sorted(set(repository.libraries) - OWN_WORDS):
        crate = repository.crate(name)
        for function in crate.functions:
            if function.ensures and crate.is_public(function) and not crate.is_hidden(function):
                for label in function.labels:
                    found.setdefault(label, f"{name}::{function.name}")
    return found


def wrong_labels(repository):
    """Labels that the table does not have, and those of the table that no public clause has."""
    page = repository.top / "docs" / "STYLE.md"
    table, labels = listed(page), used(repository)
    yield from ((page, 1, f"the table of labels lacks {label} ({labels[label]})") for label in sorted(set(labels) - table))
    yield from ((page, 1, f"no public clause has the label {label}") for label in sorted(table - set(labels)))
