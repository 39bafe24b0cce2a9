#!/usr/bin/env python3
"""check_mutants.py [COUNT]: tries check.py on COUNT wrong derived files, 500 unless said. It has to refuse each.

A mutant is a derived file in which one word is left out, doubled, changed for another word of the file or moved behind
one; in which a clause of the source stands in the code; or in which a line of a contract or of a comment is another.
The choice is the same at each run.
"""

import random
import re
import sys
import tempfile
from collections import Counter
from pathlib import Path

import check

SEED = 7


def spans(text):
    return [match.span("word") for match in check.LEXER.finditer(text) if match["word"]]


def left_out(pick, text, start, end, _):
    return text[:start] + text[end:]


def doubled(pick, text, start, end, _):
    return text[:end] + " " + text[start:end] + text[end:]


def changed(pick, text, start, end, _):
    first, last = pick.choice(spans(text))
    return text[:start] + text[first:last] + text[end:]


def moved(pick, text, start, end, _):
    first, last = pick.choice(spans(text))
    if first < end:
        return text
    return text[:start] + text[end:last] + " " + text[start:end] + text[last:]


def clause_in_code(pick, text, start, end, source):
    clauses = re.findall(r"\b(?:requires|ensures)\b[^{\n]*\{[^{}\n]*\}", source)
    return text[:end] + " " + pick.choice(clauses) + " " + text[end:] if clauses else text


def other_comment(pick, text, start, end, _):
    lines = [line.start() for line in re.finditer(r"(?m)^ *// ?\w|^ *///.*\w", text)]
    at = pick.choice(lines)
    line = text[at : text.index("\n", at)]
    letter = pick.choice([n for n, sign in enumerate(line) if sign.isalpha()] or [0])
    return text[: at + letter] + "zq" + text[at + letter + 1 :]


KINDS = {
    "left out": left_out,
    "doubled": doubled,
    "changed": changed,
    "moved": moved,
    "clause in code": clause_in_code,
    "comment": other_comment,
}


def same(text, mutant):
    """Returns whether two texts have the same words and comments, so that the second is no mutant."""
    parts = ([match[0] for match in check.LEXER.finditer(each) if match[0].strip()] for each in (text, mutant))
    return next(parts) == next(parts)


def is_refused(name, source, path):
    try:
        check.compare(name, source, path)
    except check.Difference:
        return True
    return False


def main():
    count = int(sys.argv[1]) if len(sys.argv) > 1 else 500
    pick = random.Random(SEED)
    pairs = list(check.pairs(check.TOP.parent / "crates", check.LIBRARIES, check.TOP / "src/derived"))
    kinds, passed = Counter(), []
    with tempfile.TemporaryDirectory() as folder:
        path = Path(folder) / "mutant.rs"
        while sum(kinds.values()) < count:
            name, source, derived = pick.choice(pairs)
            kind, text = pick.choice(list(KINDS)), derived.read_text(encoding="utf-8")
            start, end = pick.choice(spans(text))
            mutant = KINDS[kind](pick, text, start, end, source.read_text(encoding="utf-8"))
            if same(text, mutant):
                continue
            kinds[kind] += 1
            path.write_text(mutant, encoding="utf-8")
            if not is_refused(name, source, path):
                passed.append(f"{derived}:{text.count(chr(10), 0, start) + 1}: {kind}: {text[start:end]}")
    for line in passed:
        print(line)
    said = ", ".join(f"{kinds[kind]} {kind}" for kind in KINDS)
    print(f"check_mutants.py: {count} mutants ({said}): {len(passed)} not refused")
    sys.exit(1 if passed else 0)


if __name__ == "__main__":
    main()
