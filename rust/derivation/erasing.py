"""What is left out: clauses, ghosts, attributes of proofs, and what Rattle says of drops."""

import re

PROOF_ATTRIBUTES = ("tactic", "cycle", "rattlefmt")

# All that an impl of Drop may do if it is left out: Rust drops the fields by itself.
TAKES_APART = re.compile(r"fn drop \( self \) *\{ let \w+ \{ [\w :,]* \} = self ; (?:drop \( \w+ \) ; )*\} *")


def ghost(source, at):
    """`ghost use ..;`, or a ghost field or member with the comment above it."""
    before = source.last(at)
    first = before if source.text(before) == "pub" else at
    if source.text(before) == ")":
        source.fail(at, "a ghost whose visibility is restricted")
    word = source.next(at)
    if source.text(word) == "use":
        end = source.until(word, ";")
        source.leave_out(first, end, "ghost use")
        return end
    if not source.is_word(word):
        source.fail(at, "a ghost without a name")
    here = source.next(word)
    while source.text(here) in (":", "=", "by"):
        here = source.next(source.close(source.next(here)))
    if source.text(here) not in (",", ";"):
        source.fail(at, "a ghost member without an end")
    source.leave_out(source.comment_above(first), here, "ghost member")
    return here


def end_of_clause(source, at):
    """`requires` or `ensures` with `*`, a label, and what it says: the place of its end."""
    here = source.next(at)
    if source.text(here) == "*":
        here = source.next(here)
    if source.is_word(here):
        here = source.next(here)
    return source.close(here)


def clause(source, at):
    end = end_of_clause(source, at)
    source.leave_out(at, end, "clause")
    return end


def attribute(source, at):
    """An attribute of proofs, or `Drop` in a derive."""
    bracket = source.next(at)
    if source.text(bracket) == "!":
        bracket = source.next(bracket)
    if source.text(bracket) != "[":
        return at
    end = source.close(bracket)
    name = source.next(bracket)
    if source.text(name) in PROOF_ATTRIBUTES:
        source.leave_out(at, end, "attribute")
    elif source.text(name) == "derive":
        derive(source, at, name, end)
    return end


def derive(source, at, name, end):
    first = source.next(name)
    names = [place for place in range(first, source.close(first)) if source.is_word(place)]
    drops = [place for place in names if source.text(place) == "Drop"]
    if not drops:
        return
    if len(names) == 1:
        source.leave_out(at, end, "drop")
    elif source.text(source.last(drops[0])) == ",":
        source.leave_out_within_line(source.last(drops[0]), drops[0], "drop")
    else:
        source.leave_out_within_line(drops[0], source.space_after(source.next(drops[0])), "drop")


def drop(source, at):
    """`Drop` in a bound, or an impl of it that only takes the value apart."""
    before, after = source.last(at), source.next(at)
    if source.text(before) == "impl" and source.text(after) == "for":
        return drop_impl(source, before)
    if source.text(before) == "+":
        source.leave_out_within_line(source.space_before(before), at, "drop")
    elif source.text(before) == ":" and source.text(after) == "+":
        source.leave_out_within_line(at, source.space_after(after), "drop")
    elif source.text(before) == ":" and source.text(source.last(source.last(before))) == "where":
        where_drop(source, before, after)
    elif source.text(before) == ":" and source.text(after) in (",", ">", "{"):
        source.leave_out_within_line(before, at, "drop")
    else:
        source.fail(at, "Drop in an unknown place")
    return at


def where_drop(source, colon, comma):
    """`where T: Drop,` before the clauses or the body of a function: nothing else is behind the `where`."""
    if source.text(comma) != "," or source.text(source.next(comma)) not in ("requires", "ensures", "{"):
        source.fail(colon, "a where with Drop and more")
    source.leave_out(source.last(source.last(colon)), comma, "drop")


def drop_impl(source, at):
    opening = source.until(at, "{")
    end = source.close(opening)
    inside = " ".join(source.words(opening + 1, end))
    inside = re.sub(r"# \[ tactic .*? \] (?=fn)", "", inside)
    inside = re.sub(r"\b(?:requires|ensures) \w* ?\{ [^{}]* \}", "", inside)
    if not TAKES_APART.fullmatch(inside):
        source.fail(at, "an impl of Drop that does more than take the value apart")
    source.leave_out(source.comment_above(at), end, "drop")
    return end


def final(source, at):
    source.leave_out_within_line(at, source.space_after(at), "final")
    return at


def formatter(source, at):
    """`<W: fmt::Write>` of the function `fmt` at a place, and the `<W>` of its formatter. Returns where they end, or None."""
    left = source.next(source.next(at))
    if source.text(source.next(at)) != "fmt" or source.text(left) != "<":
        return None
    right = source.until(left, ">")
    writer, *bound = source.words(left + 1, right)
    if bound != [":", "fmt", "::", "Write"]:
        source.fail(at, "an fmt with other parameters")
    source.leave_out_within_line(left, right, "formatter")
    end = source.close(source.next(right))
    for place in range(right, end):
        opening = source.next(place)
        if source.text(place) == "Formatter" and source.text(opening) == "<":
            closing = source.until(opening, ">")
            if source.words(opening + 1, closing) != [writer]:
                source.fail(place, "another formatter")
            source.leave_out_within_line(opening, closing, "formatter")
    return end
