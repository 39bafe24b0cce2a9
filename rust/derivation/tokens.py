"""The tokens of a source, what stands beside what, and what becomes of each."""

import re
from collections import Counter

TOKEN = re.compile(
    r"""
    (?P<space>\s+)
  | (?P<comment>//[^\n]*)
  | (?P<block>/\*.*?\*/)
  | (?P<raw>b?r(?P<hash>\#*)".*?"(?P=hash))
  | (?P<string>b?"(?:\\.|[^"\\])*")
  | (?P<char>b?'(?:\\(?:x[0-9a-fA-F]{2}|u\{[^}]*\}|.)|[^'\\\n])')
  | (?P<lifetime>'[A-Za-z_]\w*)
  | (?P<number>\d\w*(?:\.\d\w*)?)
  | (?P<word>«[^»]*»|[^\W\d]\w*)
  | (?P<sign>::|->|=>|\.\.=|\.\.\.|\.\.|.)
    """,
    re.X | re.S,
)
BLANK = ("space", "comment", "block")
CLOSING = {"{": "}", "(": ")", "[": "]"}

# Stands where something was left out, until lines are laid out.
GAP = "\x00"


class Unknown(Exception):
    """What no rule knows, with file and line."""


class Token:
    __slots__ = ("kind", "text", "line")

    def __init__(self, kind, text, line):
        self.kind, self.text, self.line = kind, text, line


def tokens_of(text):
    tokens, line = [], 1
    for match in TOKEN.finditer(text):
        kind = "raw" if match.lastgroup == "hash" else match.lastgroup
        tokens.append(Token(kind, match.group(), line))
        line += match.group().count("\n")
    return tokens


class Source:
    """A file: its tokens, and the text that each becomes."""

    def __init__(self, name, text):
        self.name = name
        self.tokens = tokens_of(text)
        self.out = [token.text for token in self.tokens]
        self.gone = [False] * len(self.tokens)
        self.counts = Counter()

    def fail(self, at, why):
        token = self.tokens[min(at, len(self.tokens) - 1)]
        raise Unknown(f"crates/{self.name.replace('/', '/src/', 1)}:{token.line}: {why} at {token.text!r}")

    def text(self, at):
        return self.tokens[at].text if 0 <= at < len(self.tokens) else ""

    def is_blank(self, at):
        return self.tokens[at].kind in BLANK

    def is_word(self, at):
        return 0 <= at < len(self.tokens) and self.tokens[at].kind == "word"

    def next(self, at):
        """The place of the next token that is no blank."""
        at += 1
        while at < len(self.tokens) and self.is_blank(at):
            at += 1
        return at

    def last(self, at):
        """The place of the last token that is no blank and was not left out, or -1."""
        at -= 1
        while at >= 0 and (self.is_blank(at) or self.gone[at]):
            at -= 1
        return at

    def until(self, at, *texts):
        """The place of the next token with one of these texts."""
        while at < len(self.tokens) and self.text(at) not in texts:
            at = self.next(at)
        return at

    def close(self, at):
        """The place of the bracket that closes the one at a place."""
        opening, depth = self.text(at), 0
        if opening not in CLOSING:
            self.fail(at, "a bracket is wanted")
        for here in range(at, len(self.tokens)):
            if self.tokens[here].kind == "sign":
                depth += (self.text(here) == opening) - (self.text(here) == CLOSING[opening])
                if depth == 0:
                    return here
        self.fail(at, "a bracket is not closed")

    def words(self, first, end):
        """The texts from a place to before another one, without blanks."""
        return [self.text(at) for at in range(first, end) if not self.is_blank(at)]

    def indent(self, at):
        """The blanks at the beginning of the line of a place."""
        before = "".join(token.text for token in self.tokens[:at])
        return re.match(r" *", before.rsplit("\n", 1)[-1] + ("" if self.is_blank(at) else "x")).group()

    def leave_out(self, first, last, rule):
        for at in range(first, last + 1):
            self.out[at], self.gone[at] = "", True
        self.out[first] = GAP
        self.counts[rule] += 1

    def leave_out_within_line(self, first, last, rule):
        """Leaves out what no line may end at, so that lines stay as they are."""
        self.leave_out(first, last, rule)
        self.out[first] = ""

    def put(self, at, text, rule):
        """What becomes of the token at a place."""
        self.out[at] = text
        self.counts[rule] += 1

    def space_after(self, at):
        """The place of a blank within the line behind a place, or the place itself."""
        return at + 1 if self.text(at + 1).isspace() and "\n" not in self.text(at + 1) else at

    def space_before(self, at):
        return at - 1 if self.text(at - 1).isspace() and "\n" not in self.text(at - 1) else at

    def comment_above(self, at):
        """The first place of the comment lines right above what begins at a place."""
        first = at
        while first >= 2 and self.text(first - 1).count("\n") == 1 and self.text(first - 1).isspace():
            if self.tokens[first - 2].kind != "comment":
                break
            first -= 2
        return first
