#!/usr/bin/env python3
"""check.py [--tests]: compares derived Rust with the Rattle that it comes from, token by token. No code of derive.py is in it.

It reads each source from left to right, and says which tokens have to stand in the derived file: those of the source, in
their order, but for the forms of DERIVATION.md. Each form is one of the functions below. Where the derived file has
another token, more or fewer, the check names the line of the source. A comment of a derived file stands in the source
before the same token; a `# Contract` is all clauses of the function under it, and none is missing.
"""

import re
import sys
from collections import Counter
from pathlib import Path

TOP = Path(__file__).resolve().parent
LIBRARIES = "hibitset_base hibitset_sparse hibitset_atomic hibitset hibitset_store hibitset_roaring".split()
TESTS = (
    "hibitset_run hibitset_testing hibitset_tests hibitset_atomic_tests hibitset_sparse_tests hibitset_store_tests"
    " hibitset_roaring_tests hibitset_word_reads uses uses_tests hibitset_refusals"
).split()

LEXER = re.compile(
    r'\s+|(?P<comment>//[^\n]*)|(?P<word>b?"(?:\\.|[^"\\])*"|b?\'(?:\\u\{\w+\}|\\x\w\w|\\.|[^\'\\])\'|\'\w+|«\w+»|\w+'
    # Signs that belong together, so that `a & &b` is not `a && b`.
    r'|::|->|=>|<<=|>>=|\.\.\.|\.\.=|\.\.|&&|\|\||<<|>>|[-+*/%^&|=!<>]=|.)',
    re.S,
)
SHUT = {"{": "}", "(": ")", "[": "]"}

# What stands nowhere in a derived file.
RATTLE_ONLY = {"ghost", "requires", "ensures", "final", "Drop"}

HEAD = "use crate :: support :: rattle_std :: prelude :: * ;".split()
ROOTS = {"std": "rattle_std", "rayon": "rayon", "atomic_table": "atomic_table"}
CALLED = {"clone": "try_clone", "to_vec": "try_to_vec", "Clone": "TryClone"}
CRATE_ONLY = ["pub", "(", "crate", ")"]

# Functions that are `pub(crate)` in the derived file, by file; and what the two with another name are called.
UNSEEN = {
    "hibitset_base/parallel/par_iter": {"count", "collect", "for_each", "fold"},
    "hibitset_base/parallel": {"split", "fold_with"},
    "hibitset_base/iter": {"new"},
    "hibitset_base/drain": {"new"},
}
SEEN_FUNCTIONS = {"hibitset_run/main": "main"}
PARTS = {"hibitset_base/iter", "hibitset_base/drain"}
WALKS = {"hibitset_base/iter": "BitIter", "hibitset_base/rev_iter": "BitRevIter", "hibitset_base/drain": "DrainBitIter"}
APART = re.compile(r"fn drop \( self \) \{ let \w+ \{ [\w :,]+ \} = self ; (?:drop \( \w+ \) ; )*\}")


class Difference(Exception):
    """Where source and derived file are not alike."""


def read(path):
    """The words of a file, the line of each, and its comments with the number of words before each."""
    words, lines, comments, line = [], [], [], 1
    for match in LEXER.finditer(path.read_text(encoding="utf-8")):
        if match["comment"]:
            comments.append((match["comment"], len(words)))
        elif match["word"]:
            words.append(match["word"])
            lines.append(line)
        line += match[0].count("\n")
    return words, lines, comments


def past(words, at):
    """The place behind the bracket that closes the one at a place."""
    depth = 0
    for here in range(at, len(words)):
        depth += (words[here] in SHUT) - (words[here] in SHUT.values())
        if depth == 0:
            return here + 1
    raise Difference("a bracket is not closed")


# What is left out: each function returns the place behind it, or None.


def ghost_use(words, at):
    return words.index(";", at) + 1 if words[at : at + 2] == ["ghost", "use"] else None


def ghost_member(words, at):
    start = at + 1 if words[at : at + 2] == ["pub", "ghost"] else at
    if words[start] != "ghost":
        return None
    here = start + 2
    while words[here] in (":", "=", "by"):
        here = past(words, here + 1)
    if words[here] not in (",", ";"):
        raise Difference("a ghost that ends otherwise")
    return here + 1


def clause(words, at):
    if words[at] not in ("requires", "ensures"):
        return None
    here = at + 1 + (words[at + 1] == "*")
    here += words[here] != "{"
    if words[here] != "{":
        raise Difference("a clause without braces")
    return past(words, here)


def attribute(words, at):
    if words[at] != "#":
        return None
    bracket = at + 1 + (words[at + 1] == "!")
    end = past(words, bracket)
    return end if words[bracket + 1] in ("tactic", "cycle", "rattlefmt") else None


def final(words, at):
    return at + 1 if words[at : at + 2] == ["final", "fn"] else None


def drop(words, at):
    word, after = words[at], words[at + 1 : at + 3]
    if word == "impl" and after[:1] == ["Drop"]:
        return drop_impl(words, at)
    if word == "#" and words[at + 1 : at + 7] == ["[", "derive", "(", "Drop", ")", "]"]:
        return at + 7
    if word == "where" and words[at + 2 : at + 5] == [":", "Drop", ","] and words[at + 5] in ("requires", "ensures", "{"):
        return at + 5
    if word == "Drop" and words[at - 1] == ":" and after[:1] == ["+"]:
        return at + 2
    if word == "Drop" and words[at - 1] == "(" and after[:1] == [","]:
        return at + 2
    if word == "+" and after[:1] == ["Drop"] and after[1] in ("+", ",", ">", ">>", "{"):
        return at + 2
    if word == ":" and after[:1] == ["Drop"] and after[1] in (",", ">", ">>", "{"):
        return at + 2
    if word == "," and after[:1] == ["Drop"] and after[1] in (")", ","):
        return at + 2
    return None


def drop_impl(words, at):
    """An impl of Drop that takes the value apart and does nothing more."""
    opening = words.index("{", at)
    end = past(words, opening)
    here, kept = opening + 1, []
    while here < end - 1:
        behind = clause(words, here) or attribute(words, here)
        if behind is None:
            kept.append(words[here])
            behind = here + 1
        here = behind
    if not APART.fullmatch(" ".join(kept)):
        raise Difference("an impl of Drop that does more")
    return end


def formatter(words, at):
    """`<W: fmt::Write>` behind `fn fmt`, and `<W>` behind a Formatter in its parameters."""
    if words[at] != "<":
        return None
    if words[at - 2 : at] == ["fn", "fmt"]:
        if words[at + 2 : at + 7] != [":", "fmt", "::", "Write", ">"]:
            raise Difference("an fmt with other parameters")
        return at + 7
    if words[at - 1] == "Formatter" and words[at + 2] == ">":
        fn = max(here for here in range(at) if words[here] == "fn")
        writer = words[fn + 3] if words[fn + 1 : fn + 3] == ["fmt", "<"] else None
        return at + 3 if words[at + 1] == writer else None
    return None


def runtime(words, at):
    if words[at - 1] != "(" or words[at + 1 : at + 3] != [":", "HostRuntime"] or words[at - 3] != "fn":
        return None
    end = at + 3 + (words[at + 3] == ",")
    return end if words[end] == ")" else None


LEFT_OUT = {
    "ghost use": ghost_use,
    "ghost member": ghost_member,
    "clause": clause,
    "attribute": attribute,
    "final": final,
    "drop": drop,
    "formatter": formatter,
    "runtime": runtime,
}


# What stands otherwise, or is put in.


def one_argument(words, at):
    return words[at] == "(" and words[at + 1] != ")" and "," not in words[at + 1 : past(words, at) - 2]


class Wanted:
    """The words that a derived file has to have, and what was found on the way."""

    def __init__(self, name, source):
        self.name, self.crate = name, name.split("/")[0]
        self.words, self.lines, comments = source
        self.made, self.from_line, self.clauses = [], [], []
        self.counts, self.places = Counter(), [0] * (len(self.words) + 1)
        self.in_derive = range(0)
        self.walk_end, self.handle = -1, None
        self.read_on()
        own = f"](crate::derived::{self.crate}::"
        self.comments = [(text.replace("](crate::", own), self.places[place]) for text, place in comments]

    def read_on(self):
        at = 0
        while at < len(self.words):
            self.places[at] = len(self.made)
            at = self.step(at)
        self.places[len(self.words)] = len(self.made)

    def step(self, at):
        """Reads one word, or all that is left out from there on. Returns the next place."""
        for form, read_past in LEFT_OUT.items():
            end = read_past(self.words, at)
            if end is not None:
                self.counts[form] += 1
                for here in range(at, end):
                    self.places[here] = len(self.made)
                if form == "clause":
                    self.clauses.append((len(self.made), self.words[at:end]))
                if form == "runtime":
                    self.handle = self.words[at]
                return end
        self.look_ahead(at)
        self.made += self.put(at)
        self.from_line += [self.lines[at]] * (len(self.made) - len(self.from_line))
        return at + 1

    def look_ahead(self, at):
        """Notes where a derive or the impl of a walk ends."""
        words = self.words
        if words[at : at + 3] == ["#", "[", "derive"]:
            self.in_derive = range(at, past(words, at + 1))
        if words[at] == "impl" and "{" in words[at:]:
            opening = words.index("{", at)
            head = " ".join(words[at:opening])
            if re.search(rf" Iterator for {WALKS.get(self.name, '!')}\b", head):
                self.walk_end = past(words, opening) - 1

    def put(self, at):
        """The words that stand for one word of the source."""
        word, before, after = self.words[at], self.words[at - 1] if at else "", self.words[at + 1 : at + 3]
        if after[:1] == ["::"] and before != "::" and (word == "crate" or word in ROOTS or word in LIBRARIES + TESTS):
            return self.counted("path", self.path(word))
        if word in CALLED and at not in self.in_derive:
            return self.counted("name", [CALLED[word]])
        if word == "collect" and before == "." and one_argument(self.words, at + 1):
            return self.counted("name", ["collect_in"])
        if word == "pub" and after[:1] == ["fn"] and after[1] in UNSEEN.get(self.name, ()):
            return self.counted("visibility", CRATE_ONLY)
        if word == "new" and before == "fn" and self.words[at - 2] == "pub" and self.name in PARTS:
            return self.counted("name", ["of_parts"])
        if word == "fn" and before != "pub" and after[0] == SEEN_FUNCTIONS.get(self.name):
            return self.counted("visibility", CRATE_ONLY + ["fn"])
        if at == self.walk_end:
            members = ["crate", "::", "beside", "::", "iterator_members", "!", "{", WALKS[self.name], "}", "}"]
            return self.counted("members", members)
        if word == "match" and self.name == "hibitset_base/like" and after[0] == "layer":
            return self.counted("condition", "crate :: beside :: check_layer ( layer ) ; match".split())
        if word == "{" and self.handle is not None:
            handle, self.handle = self.handle, None
            return ["{", "let", handle, "=", *"crate :: support :: rattle_std :: rt :: host ( ) ;".split()]
        return [word]

    def path(self, word):
        if word in ROOTS:
            return ["crate", "::", "support", "::", ROOTS[word]]
        return ["crate", "::", "derived", "::", self.crate if word == "crate" else word]

    def counted(self, form, words):
        self.counts[form] += 1
        return words


# Comments and contracts.

OPENING = ["///", "/// # Contract", "///", "/// ```text"]


def contracts(comments):
    """The contracts in a derived file, each as its place and its words; and the comments that are no contract."""
    found, rest, at = [], [], 0
    while at < len(comments):
        if [text for text, _ in comments[at : at + 4]] != OPENING:
            rest.append(comments[at])
            at += 1
            continue
        end = next((k for k in range(at + 4, len(comments)) if comments[k][0] == "/// ```"), None)
        if end is None or {place for _, place in comments[at : end + 1]} != {comments[at][1]}:
            raise Difference("a contract in words that has no end")
        text = "\n".join(comment[4:] for comment, _ in comments[at + 4 : end])
        found.append((comments[at][1], [match["word"] for match in LEXER.finditer(text) if match["word"]]))
        at = end + 1
    return found, rest


def documented(wanted):
    """The functions with documentation and clauses: the place of the documentation, and the words of the clauses."""
    by_function = {}
    for place, words in wanted.clauses:
        fn = max((here for here in range(place) if wanted.made[here] == "fn"), default=None)
        # The clauses of a closure stand behind the beginning of the body.
        if fn is not None and place <= body_of(wanted.made, fn):
            by_function.setdefault(fn, []).extend(words)
    for fn, words in by_function.items():
        first = start_of_item(wanted.made, fn)
        if any(text.startswith("///") and place == first for text, place in wanted.comments):
            yield first, words


def body_of(words, fn):
    """The place of the `{` of the body of a function, or of the `;` in its place."""
    at = fn + 1
    while at < len(words) and words[at] not in ("{", ";"):
        at = past(words, at) if words[at] in ("(", "[") else at + 1
    return at


def start_of_item(words, fn):
    """The place of the first word of the item of a `fn`: of its attributes, or of its visibility."""
    at = fn
    while at > 0:
        if words[at - 1] in ("pub", "const"):
            at -= 1
        elif words[at - 4 : at] == CRATE_ONLY:
            at -= 4
        elif words[at - 1] == "]":
            opening = max(here for here in range(at - 1) if words[here] == "#" and past(words, here + 1) == at)
            at = opening
        else:
            break
    return at


def compare_comments(wanted, comments, first):
    if not comments or comments[0] != (first, 0):
        raise Difference("its first line does not say where it comes from")
    found, rest = contracts([(text, max(0, place - len(HEAD))) for text, place in comments[1:]])
    if found != list(documented(wanted)):
        said = next((pair for pair in found if pair not in list(documented(wanted))), None)
        raise Difference("a contract is missing" if said is None else f"a contract that is not so: {' '.join(said[1])}")
    here = iter(wanted.comments)
    for comment in rest:
        if comment not in here:
            raise Difference(f"a comment that the source has not there: {comment[0]}")
    wanted.counts["contract"] += len(found)


def compare(name, source, derived):
    """Compares one source with its derived file. Returns how often each form was met."""
    wanted = Wanted(name, read(source))
    words, _, comments = read(derived)
    # The head comes behind the documentation of the file, which is before all words.
    if words[: len(HEAD)] != HEAD:
        raise Difference(f"{derived}: its head is not that of a derived file")
    made = words[len(HEAD) :]
    for at, (word, other) in enumerate(zip(wanted.made, made)):
        if word != other:
            raise Difference(f"{source}:{wanted.from_line[at]}: {word!r} became {other!r} in {derived}")
    if len(made) != len(wanted.made):
        raise Difference(f"{derived}: it has {len(made)} words behind its head, and not {len(wanted.made)}")
    if RATTLE_ONLY & set(made):
        raise Difference(f"{derived}: a word of Rattle is left: {', '.join(RATTLE_ONLY & set(made))}")
    folder, _, inside = name.partition("/")
    first = f"// Derived from crates/{folder}/src/{inside}.rt by rust/derive.py, and never edited by hand."
    try:
        compare_comments(wanted, comments, first)
    except Difference as difference:
        raise Difference(f"{derived}: {difference}") from None
    wanted.counts["head"] += 1
    wanted.counts["token kept"] += len(made)
    wanted.counts["token of the sources"] += len(wanted.words)
    return wanted.counts


def pairs(crates, names, folder):
    """Each source with its name and its derived file. No derived file is without a source."""
    made = {path for path in folder.rglob("*.rs")}
    modules = "".join(f"pub mod {name};\n" for name in sorted(names))
    root = folder / "mod.rs"
    if root.read_text(encoding="utf-8") != f"//! The derived crates, each a module: made by rust/derive.py.\n\n{modules}":
        raise Difference(f"{root}: it does not have the derived crates as its modules")
    made.remove(root)
    for crate in names:
        for source in sorted((crates / crate / "src").rglob("*.rt")):
            name = source.relative_to(crates / crate / "src").with_suffix("").as_posix()
            derived = folder / crate / ("mod.rs" if name in ("lib", "main") else f"{name}.rs")
            if derived not in made:
                raise Difference(f"{derived}: is missing")
            made.remove(derived)
            yield f"{crate}/{name}", source, derived
    if made:
        raise Difference(f"{min(made)}: comes from no source")


def main():
    tests = sys.argv[1:] == ["--tests"]
    folder = TOP / ("checks/src/derived" if tests else "src/derived")
    counts, files = Counter(), 0
    try:
        for pair in pairs(TOP.parent / "crates", TESTS if tests else LIBRARIES, folder):
            counts += compare(*pair)
            files += 1
    except Difference as difference:
        sys.exit(f"check.py: {difference}")
    print(f"check.py: {files} files: " + ", ".join(f"{count} {form}" for form, count in counts.most_common()))


if __name__ == "__main__":
    main()
