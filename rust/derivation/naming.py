"""What is called or seen otherwise: paths, names, visibility, and the lines that are put in."""

# Where the first name of a path lies in the one package. `crate` is the module of its crate.
DERIVED = "crate::derived::"
SUPPORT = "crate::support::"
ELSEWHERE = {"std": SUPPORT + "rattle_std", "rayon": SUPPORT + "rayon", "atomic_table": SUPPORT + "atomic_table"}

# What returns a Result, while Rust's own of the name does not.
RENAMED = {"clone": "try_clone", "Clone": "TryClone", "to_vec": "try_to_vec"}

# Functions that only this package calls, as FILE and NAME: rayon's traits have the first names for users, and `new` is
# by hand for four masks too (beside/iterators.rs).
HIDDEN_FUNCTIONS = {
    ("hibitset_base/parallel/par_iter.rt", "count"): "count",
    ("hibitset_base/parallel/par_iter.rt", "collect"): "collect",
    ("hibitset_base/parallel/par_iter.rt", "for_each"): "for_each",
    ("hibitset_base/parallel/par_iter.rt", "fold"): "fold",
    ("hibitset_base/parallel.rt", "split"): "split",
    ("hibitset_base/parallel.rt", "fold_with"): "fold_with",
    ("hibitset_base/iter.rt", "new"): "of_parts",
    ("hibitset_base/drain.rt", "new"): "of_parts",
}

# Private functions that code by hand calls: the program's `main`.
OPEN_FUNCTIONS = {("hibitset_run/main.rt", "main")}

# Iterators whose impl has members by hand (beside/iterators.rs).
ITERATORS = ("BitIter", "BitRevIter", "DrainBitIter")

# Conditions (`requires`) of methods that users call and the face does not, by FILE and the first words of the body.
CONDITIONS = {("hibitset_base/like.rt", "match", "layer"): "crate::beside::check_layer(layer);"}

HEAD = f"use {SUPPORT}rattle_std::prelude::*;"


def path(source, at, crates):
    """The first name of a path, if it is that of a crate."""
    name = source.text(at)
    if source.text(source.next(at)) != "::" or source.text(source.last(at)) == "::":
        return
    if name == "crate":
        source.put(at, DERIVED + source.name.split("/")[0], "path")
    elif name in crates:
        source.put(at, DERIVED + name, "path")
    elif name in ELSEWHERE:
        source.put(at, ELSEWHERE[name], "path")


def link(source, at):
    """A path of this crate that documentation links to."""
    if "](crate::" in source.text(at):
        source.put(at, source.text(at).replace("](crate::", f"]({DERIVED}{source.name.split('/')[0]}::"), "path")


def renamed(source, at):
    if source.text(at) in RENAMED:
        source.put(at, RENAMED[source.text(at)], "name")
    elif source.text(at) == "collect" and source.text(source.last(at)) == "." and takes_one(source, source.next(at)):
        source.put(at, "collect_in", "name")


def takes_one(source, at):
    """Returns whether a call has exactly one argument."""
    if source.text(at) != "(":
        return False
    inside = source.words(at + 1, source.close(at))
    return bool(inside) and "," not in inside[:-1]


def hidden(source, at):
    """`pub` of a function that this package alone calls becomes `pub(crate)`."""
    name, before = source.next(at), source.last(at)
    new = HIDDEN_FUNCTIONS.get((source.name, source.text(name)))
    if new is None or source.text(before) != "pub":
        return
    source.put(before, "pub(crate)", "visibility")
    if new != source.text(name):
        source.put(name, new, "name")


def opened_function(source, at):
    """A private function that code by hand calls becomes `pub(crate)`."""
    if (source.name, source.text(source.next(at))) in OPEN_FUNCTIONS:
        source.put(at, "pub(crate) fn", "visibility")


def condition(source, at):
    """A condition that Rattle proves at each call is checked in the first line of the body."""
    check = CONDITIONS.get((source.name, source.text(at), source.text(source.next(at))))
    if check is not None:
        source.put(at, check + "\n" + source.indent(at) + source.text(at), "condition")


def members(source, at):
    """An impl of Iterator for one of the iterators has members by hand."""
    opening = source.until(at, "{", ";")
    head = source.words(at, opening)
    if "Iterator" not in head or "for" not in head or source.text(opening) != "{":
        return
    name = head[head.index("for") + 1]
    if name in ITERATORS and source.name.startswith("hibitset_base/"):
        end = source.close(opening)
        source.put(end, f"\n    crate::beside::iterator_members! {{ {name} }}\n}}", "members")
