#!/usr/bin/env python3
"""docs.py [--write]: sees that the pages, the sources, the mutants and the tables agree. It proves and runs nothing.

Links     A relative link of a page leads to a file, and its #anchor to a heading there. A path of a page, given from the
          top of the repository (docs/.., bench/.., tests/.., crates/.., CONTRIBUTING.md), is there.
Files     A file in backticks that is one of Rattle's (`cost.rt`, `src/set.rt`, `specs/Seats.antt`) is in some crate, and of
          a crate's page, if src/, specs/ or proofs/ stands before it, in this crate or one below it.
Tests     What "What is only tested" names is there: after a crate the modules and functions `tests::..`, after a module
          or a file of C the functions in brackets.
Quotes    A block of rust whose first line is '// crates/..', the path of a file, has parts of that file, with an empty line
          between two; a block of antt with '-- crates/..' has whole statements of it. A block of text that has lines
          'fn NAME(ARGUMENTS) -> RESULT' and below them 'ensures LABEL: ..' or 'ensures LABEL { .. }' has signatures and
          clauses of these functions; 'fn NAME(..)' leaves the signature out.
Clauses   A table with a column 'clause' names in each cell what carries the row's promise, as
              `BitSet::add`: `refused`, `stays`; `laws`: `within`
          that is functions (Type::function, Trait::function, function, module::function), types, traits, or records and
          definitions of specs/, of the page's crate or one below it, and their clauses, invariants, facts or fields. A
          function of an impl also has the impl's facts, as `BitIter::next`: `next_gives`. In a table whose first column
          is 'clause' a cell has clauses alone. That is a table of common clauses, and if a crate's page has one, each clause of
          a function that the other cells name is in such a cell or in the table; a cell of hibitset_c may leave out the
          hibitset_ before a name.
          Each public function of a library crate that has an `ensures`, but for those with #[doc(hidden)], is named in such
          a cell of one of the crate's pages.
Counts    A number in prose that a script can count or read off a source (counts.py says which) is what it counts.
Modules   Between <!-- modules --> and <!-- /modules --> a crate's README, or INTERNALS.md if there is one, has what the first
          sentence of each file at the top of src/ says, without explanations behind a colon or a comma.
Heads     Each .rt file begins with //!, and each .antt file beside Lib.antt that is of no single function with --.
Labels    The table of docs/STYLE.md has the label of each public clause, and no other; `uses` has words of its own.
Lemmas    A statement stands in one file of specs/ and proofs/, but for those of known_lemmas.txt.
Mutants   Of each mutant of a table of tests/mutants/contract/ an edit can be made and applied: its heading names a function
          of the table's module, or what holds the line that goes, and that line stands there once. must-fail/ of each
          crate has the edits of those marked gate, and no other. Each public function with clauses has a mutant, but for
          those of without_mutant.txt. A patch of tests/mutants/tests/ can be applied, and the tests that its head names
          are there. Each function of the files of a table of tests/mutants/unseen/ has a mutant there, which can be applied.
Operators The sources of the operators are what the template of operators.py makes of its table.
Calls     Each public call that can fail for memory is in the line above a test of hibitset_refusals, and each such line has
          the form that allocation/lines.py gives.
Results   bench/RESULTS.md says in its first line which commit was measured.
Release   Versions, the C header, toolchains, packages, README's tables of speed and the pictures agree (release.py says how).
Derived   rust/src/derived has what rust/derive.py makes of the sources, if that is there.

The two lists may only shrink. --write writes anew what is made by a script (tables of modules, edits of must-fail/,
sources of the operators, tables of speed, pictures, derived files), and takes off the lists what is no longer so. It prints a line for each fault, with page and
line, and ends with status 1 where there is one. checks/ has a module for each subject.
"""
import argparse
import sys
from concurrent.futures import ThreadPoolExecutor
from pathlib import Path

import operators
from allocation import calls
from checks import clauses, counts, derived, heads, labels, lemmas, module_tables, mutants, pages, quotes, release
from checks.repository import Repository
from checks.sources import lines_of, text_of

TOP = Path(__file__).resolve().parent.parent
OF_PAGES = (
    pages.dead_links,
    pages.dead_paths,
    pages.dead_files,
    pages.untested,
    quotes.misquoted,
    quotes.misquoted_clauses,
    clauses.wrong_cells,
    clauses.unsaid_clauses,
    module_tables.wrong_modules,
)
OF_REPOSITORY = (
    calls.wrong_calls,
    clauses.unnamed_functions,
    counts.wrong_counts,
    counts.wrong_lists,
    heads.headless,
    heads.wrong_results,
    labels.wrong_labels,
    lemmas.repeated,
    mutants.wrong_unseen,
)
# Those that wait for other programs, beside the others.
BESIDE = (mutants.wrong_patches, release.faults, derived.derive)
OF_MUTANTS = (mutants.wrong_mutants, mutants.wrong_untried)


def faults(repository, tables):
    """All that is wrong, each as page, line and words."""
    with ThreadPoolExecutor() as pool:
        beside = [pool.submit(lambda check=check: list(check(repository))) for check in BESIDE]
        yield from faults_read(repository, tables)
        for found in beside:
            yield from found.result()


def faults_read(repository, tables):
    """What is wrong by the files alone."""
    for page in repository.pages:
        for check in OF_PAGES:
            yield from ((page, line, words) for line, words in check(repository, page))
    for check in OF_REPOSITORY:
        yield from check(repository)
    for check in OF_MUTANTS:
        yield from check(repository, tables)
    yield from ((path, 1, "is not as the template of operators.py makes it") for path, _ in operators.different(repository.crates))


def write(repository):
    """Writes anew what is made by a script."""
    operators.write(repository.crates)
    module_tables.write_modules(repository)
    tables = mutants.Mutants(repository)
    mutants.write_gate_edits(repository, tables)
    mutants.shrink(repository, tables)
    lemmas.shrink(repository)
    release.write_tables()
    list(derived.derive(repository, "--write"))
    text_of.cache_clear()
    lines_of.cache_clear()


def main():
    reader = argparse.ArgumentParser(description="Sees that pages, sources, mutants and tables agree.")
    reader.add_argument("--write", action="store_true", help="write anew what is made by a script before")
    if reader.parse_args().write:
        write(Repository(TOP))
    repository = Repository(TOP)
    tables = mutants.Mutants(repository)
    said = [f"{repository.shown(path)}:{line}: {words}" for path, line, words in faults(repository, tables)]
    for line in said:
        print(line)
    cells = sum(1 for page in repository.pages for _ in clauses.clause_cells(page))
    for line in mutants.untried_lines(repository, tables):
        print(f"docs.py: public functions without a mutant: {line}")
    print(f"docs.py: {len(repository.pages)} pages, {cells} cells of clauses: {f'{len(said)} faults' if said else 'ok'}")
    return 1 if said else 0


if __name__ == "__main__":
    sys.exit(main())
