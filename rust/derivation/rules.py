"""The rules, and a walk over the tokens of a file that calls them."""

from . import erasing, naming, running
from .contracts import Contract
from .layout import laid_out
from .tokens import Source

# Each rule, as the table of DERIVATION.md has it.
RULES = (
    "ghost use",
    "ghost member",
    "clause",
    "attribute",
    "final",
    "drop",
    "formatter",
    "path",
    "name",
    "visibility",
    "members",
    "condition",
    "runtime",
    "head",
    "contract",
)

PROOFS_IN_CODE = ("prove", "prove_eq", "prove_ne")


class Rules:
    """The rules at work on one source."""

    def __init__(self, name, text, crates):
        self.source, self.crates = Source(name, text), crates
        self.contract = Contract()

    def derived(self):
        """The derived text, and how often each rule was at work."""
        source, at = self.source, 0
        while at < len(source.tokens):
            if source.tokens[at].kind == "word":
                at = self.word(at)
            elif source.tokens[at].kind == "sign":
                at = self.sign(at)
            elif source.tokens[at].kind == "comment":
                naming.link(source, at)
            at += 1
        return laid_out("".join(source.out)), source.counts

    def sign(self, at):
        source = self.source
        if not source.text(at).isascii():
            source.fail(at, "a sign that Rust has not")
        if source.text(at) == "#":
            return erasing.attribute(source, at)
        if at == self.contract.body:
            self.contract.end(source)
        return at

    def word(self, at):
        """The rule for a word. Returns the place where it ends."""
        source, word = self.source, self.source.text(at)
        if word == "ghost":
            return erasing.ghost(source, at)
        if word in ("requires", "ensures"):
            end = erasing.clause(source, at)
            self.contract.add(source, at, end)
            return end
        if word == "final" and source.text(source.next(at)) == "fn":
            return erasing.final(source, at)
        if word == "Drop":
            return erasing.drop(source, at)
        if word in PROOFS_IN_CODE and source.text(source.next(at)) == "!":
            source.fail(at, "a proof in code")
        if word == "fn":
            return self.function(at)
        if word == "impl":
            naming.members(source, at)
        naming.condition(source, at)
        naming.path(source, at, self.crates)
        naming.renamed(source, at)
        return at

    def function(self, at):
        """The rules at the head of a function. Returns the place where the next token is looked at."""
        source, name = self.source, self.source.next(at)
        if not source.is_word(name):
            return at
        self.contract.begin(source, at)
        naming.hidden(source, at)
        naming.opened_function(source, at)
        running.runtime(source, at)
        if source.out[name] == source.text(name):
            naming.renamed(source, name)
        return erasing.formatter(source, at) or name
