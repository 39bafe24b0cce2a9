#!/usr/bin/env python3
"""operators.py [--write]: the sources of the operators are what the template below makes of the table of types.

The toolchain refuses impls that a macro of the repository writes, so they are written out for each type and for a
reference to it. Without --write it prints each file that is not as the template makes it, and ends with status 1 then.
"""
import argparse
import sys
from dataclasses import dataclass
from pathlib import Path
from string import Template

CRATES = Path(__file__).resolve().parent.parent / "crates"
COLUMNS = 100

HEAD = Template("""\
$about
ghost use Rattle.std.specs.Prelude.{◌≡◌};
ghost use Rattle.hibitset_base.specs.Connectives.{IsComplement, IsDifference, IsSymmetricDifference, IsIntersection, IsUnion};
ghost use Rattle.hibitset_base.specs.Walk.{StartsAtTop};
$uses
use std::ops::{BitAnd, BitOr, BitXor, Not, Sub};
""")

OPERATOR = Template("""
impl$generics $trait for $type {
    type Output = $output;

    ghost ${name}_gives = { λ $arguments result. $parts
$fact };

    #[inline]
    fn $name($parameters) -> $output {
        $body
    }
}
""")

WALK = Template("""
impl$generics IntoIterator for $type {
    type Item = Index;

    type IntoIter = $walk;

    ghost into_iter_gives = { StartsAtTop $start };

    #[inline]
    fn into_iter(self) -> $walk {
        self.iter()
    }
}
""")

# Trait, function, fact, output, body, and the part of the result that is the other operand.
BINARY = (
    ("BitAnd", "bitand", "IsIntersection", "BitSetAnd<Self, T>", "BitSetAnd(self, rhs)", "result.1"),
    ("BitOr", "bitor", "IsUnion", "BitSetOr<Self, T>", "BitSetOr(self, rhs)", "result.1"),
    ("BitXor", "bitxor", "IsSymmetricDifference", "BitSetXor<Self, T>", "BitSetXor(self, rhs)", "result.1"),
    ("Sub", "sub", "IsDifference", "BitSetAnd<Self, BitSetNot<T>>", "BitSetAnd(self, BitSetNot(rhs))", "result.1.0"),
)
RESULT = "(⟦<Self::Output as BitSetLike>⟧.holds result)"
OWN_WORDS = "⟦<Self as BitSetLike>⟧.holds\n        ⟦<Self as BitSetLike>⟧.word"


@dataclass
class Operand:
    """A type, or a reference to it: its members in a fact, and what a walk over it begins with, if it is the generic one."""

    type: str
    generics: tuple
    members: str
    start: str
    walk: str = "BitIter<Self>"

    def impl(self, *more):
        names = ", ".join([*self.generics, *more])
        return f"<{names}>" if names else ""


@dataclass
class Source:
    """A file of operators: what stands at its head, and its two operands."""

    path: str
    about: str
    uses: str
    owned: Operand
    reference: Operand


def virtual(file, about, type_name, generics=(), more="", listed="BitSetAnd, BitSetNot, BitSetOr, BitSetXor"):
    """The file of a virtual set, whose impl says which words it has."""
    uses = f"\nuse crate::iter::BitIter;\nuse crate::like::BitSetLike;\n{more}use crate::util::Index;\nuse crate::virt::{{{listed}}};"
    members = "(⟦<Self as BitSetLike>⟧.holds set)"
    bounds = tuple(f"{name}: BitSetLike" for name in generics)
    full = f"{type_name}<{', '.join(generics)}>" if generics else type_name
    owned = Operand(full, bounds, members, OWN_WORDS)
    reference = Operand(f"&'a {full}", ("'a", *bounds), members, OWN_WORDS)
    return Source(f"hibitset_base/src/ops/{file}.rt", f"//! Operators over {about}.", uses, owned, reference)


def stored(crate, about, type_name, module, words, own_walk=False):
    """The file of a set that keeps its words; one with a walk of its own gives that of a reference elsewhere."""
    lines = (
        f"//! Operators over {about}:",
        "//! `!`, `&`, `|`, `^` and `-` make a virtual set of their operands, and `into_iter` a walk.",
        "//!",
        "//! They are written out, for the set and for a reference to it: the toolchain refuses impls that a macro of the",
        "//! repository writes.",
    )
    uses = (
        f"ghost use Rattle.{crate}.specs.{type_name}.{{has, {words}}};",
        "",
        f"use crate::{module}::{type_name};",
        *(f"use hibitset_base::{name};" for name in ("iter::BitIter", "like::BitSetLike", "util::Index")),
        "use hibitset_base::virt::{BitSetAnd, BitSetNot, BitSetOr, BitSetXor};",
    )
    owned = Operand(type_name, (), "(has set)", f"has {words}", f"BitIter<{type_name}>")
    reference = Operand(f"&'a {type_name}", ("'a",), "(has set.now)", f"(λ set. has set.now) (λ set. {words} set.now)")
    if own_walk:
        reference.walk = None
    return Source(f"{crate}/src/ops.rt", "\n".join(lines), "\n".join(uses), owned, reference)


SOURCES = (
    virtual("bit_set_all", "a set of all numbers", "BitSetAll", listed="BitSetAll, BitSetAnd, BitSetNot, BitSetOr, BitSetXor"),
    virtual("bit_set_and", "an intersection", "BitSetAnd", ("A", "B")),
    virtual("bit_set_not", "a complement", "BitSetNot", ("A",)),
    virtual("bit_set_or", "a union", "BitSetOr", ("A", "B")),
    virtual("bit_set_range", "a range of numbers", "BitSetRange", more="use crate::range::BitSetRange;\n"),
    virtual("bit_set_xor", "a symmetric difference", "BitSetXor", ("A", "B")),
    stored("hibitset", "the sets that keep their words", "BitSet", "set", "word_of"),
    stored("hibitset_sparse", "sparse sets", "SparseBitSet", "set", "word_of", own_walk=True),
    stored("hibitset_atomic", "atomic sets held alone", "AtomicBitSet", "atomic", "topped_word"),
)


def fact(relation):
    """The line of a fact, in two where it is too long for one."""
    line = f"        × {relation} {RESULT}"
    return line if len(f"{line} }};") <= COLUMNS else f"        × {relation}\n        {RESULT}"


def complement(operand):
    said = {"name": "not", "arguments": "set", "parameters": "self", "parts": "(result.0 ≡ set)"}
    shape = {"trait": "Not", "output": "BitSetNot<Self>", "body": "BitSetNot(self)"}
    relation = fact(f"IsComplement {operand.members}")
    return OPERATOR.substitute(said, **shape, generics=operand.impl(), type=operand.type, fact=relation)


def binary(operand, trait, name, word, output, body, other):
    parts = f"(result.0 ≡ set) × ({other} ≡ other)"
    said = {"name": name, "arguments": "set other", "parameters": "self, rhs: T", "parts": parts}
    shape = {"trait": f"{trait}<T>", "output": output, "body": body}
    relation = fact(f"{word} {operand.members} (T.holds other)")
    return OPERATOR.substitute(said, **shape, generics=operand.impl("T: BitSetLike"), type=operand.type, fact=relation)


def impls(operand):
    """All impls of an operand."""
    said = complement(operand) + "".join(binary(operand, *row) for row in BINARY)
    if operand.walk is None:
        return said
    return said + WALK.substitute(generics=operand.impl(), type=operand.type, walk=operand.walk, start=operand.start)


def text(source):
    return HEAD.substitute(about=source.about, uses=source.uses) + impls(source.owned) + impls(source.reference)


def different(crates=CRATES):
    """The files that are not as the template makes them, each with the text that it makes."""
    for source in SOURCES:
        path, wanted = crates / source.path, text(source)
        if not path.is_file() or path.read_text(encoding="utf-8") != wanted:
            yield path, wanted


def write(crates=CRATES):
    for path, wanted in different(crates):
        path.write_text(wanted, encoding="utf-8")
        print(f"operators.py: crates/{path.relative_to(crates)} is written anew")


def main():
    reader = argparse.ArgumentParser(description="Compares the sources of the operators with their template.")
    reader.add_argument("--write", action="store_true", help="write them anew")
    if reader.parse_args().write:
        write()
    found = [path.relative_to(CRATES) for path, _ in different()]
    for path in found:
        print(f"operators.py: crates/{path} is not as the template makes it")
    return 1 if found else 0


if __name__ == "__main__":
    sys.exit(main())
