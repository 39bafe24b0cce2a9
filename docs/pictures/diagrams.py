"""The diagrams: who stands on whom among the crates, and the seats of a shared set over time."""
import pathlib
import re

from drawing import BLUE, FAINT, GREEN, GREY, INK, ORANGE, Drawing

TOP = pathlib.Path(__file__).resolve().parent.parent.parent

# What a crate has, as its box says; a crate without a line has its name alone.
HAS = {
    "hibitset_base": "traits, iteration, virtual sets",
    "hibitset_sparse": "SparseBitSet",
    "hibitset_atomic": "AtomicBitSet, SharedBitSet",
    "hibitset": "BitSet",
    "hibitset_store": "Column, join",
    "hibitset_roaring": "streams of bytes",
    "hibitset_run": "a program",
    "hibitset_c": "exports for C",
    "uses": "modules to copy from",
}
FOR_TESTS = re.compile(r"_tests$|_testing$|_refusals$|_word_reads$|_bench")


def crates():
    """The crates of crates.txt, each with all that it names."""
    listed = re.findall(r"^(\w+)[^:#\n]*: *(.*)$", (TOP / "crates.txt").read_text(encoding="utf-8"), re.M)
    return {name: said.split() for name, said in listed}


def below(name, named):
    """All crates that a crate stands on."""
    found = set()
    for each in named.get(name, []):
        found |= {each} | below(each, named)
    return found


def nearest(name, named):
    """Those that a crate stands on by itself, and not by way of another."""
    own = [each for each in named[name] if each in named]
    return [each for each in own if not any(each in below(other, named) for other in own if other != each)]


def levels(named):
    """The crates by how many stand one on the other below them, each near those that it stands on."""
    depth, at = {}, {}
    for name in named:  # lowest first, as crates.txt has them
        depth[name] = 1 + max((depth[each] for each in nearest(name, named)), default=-1)
    found = [[name for name in named if depth[name] == level] for level in range(max(depth.values()) + 1)]
    for row in found:
        row.sort(key=lambda name: sum(at[each] for each in nearest(name, named)) / max(1, len(nearest(name, named))))
        at.update((name, (place + 0.5) / len(row)) for place, name in enumerate(row))
    return found


def draw_crates(folder):
    every = crates()
    named = {name: said for name, said in every.items() if not FOR_TESTS.search(name)}
    rows, width, box, height, step = levels(named), 760, (224, 40), 20, 84
    others = [name for name in every if name not in named]
    top = 74
    bottom = top + step * len(rows)
    drawing = Drawing(width, bottom + 20 + height * -(-len(others) // 4), "The crates")
    drawing.text(16, 24, "The crates: each stands on those below that a line leads to", 14, bold=True)
    drawing.text(16, 42, "A line is left out where another crate leads there. In brackets: crates of the toolchain.", 12)
    places = {}
    for level, row in enumerate(rows):
        for at, name in enumerate(row):
            places[name] = (width * (at + 0.5) / len(row), bottom - step * (level + 1) + 10)
    for name, (x, y) in places.items():
        for each in nearest(name, named):
            to_x, to_y = places[each]
            drawing.line(x, y + box[1], to_x, to_y, GREY)
    for name, (x, y) in places.items():
        drawing.rect(x - box[0] / 2, y, *box, "#f4f4f4" if name not in ("hibitset_run", "uses") else "#eef3fa", "#888")
        kit = [each for each in named[name] if each not in every]
        drawing.text(x, y + 17, name, 13, "middle", GREEN, True)
        drawing.text(x, y + 32, HAS.get(name, "") + (f" [{', '.join(kit)}]" if kit else ""), 10, "middle", INK)
    drawing.line(16, bottom - 8, width - 16, bottom - 8, FAINT)
    drawing.text(16, bottom + 8, "Tests and benchmarks, over these:", 11, fill="#555")
    for at, name in enumerate(others):
        drawing.text(16 + (width - 32) / 4 * (at % 4), bottom + 26 + height * (at // 4), name, 11, fill="#555")
    drawing.write(folder / "crates.svg")


# What happens to the seats of a shared set, from left to right: the call and what is said under it.
CALLS = [("share", 130), ("divide", 250), ("join", 640), ("settle", 760)]
ADDS = [("add 5: false", 340, 0, GREEN), ("add 7: false", 400, 1, GREEN), ("add 5: true", 510, 1, ORANGE)]


def draw_seats(folder):
    width, lanes, middle = 900, (120, 190), 155
    drawing = Drawing(width, 292, "The seats of a shared set over time")
    drawing.text(16, 24, "The seats of a shared set over time", 14, bold=True)
    drawing.text(16, 42, "Two threads add to one set without a lock, each with its own seat. An add that puts the index in returns false, and reports it.", 12)

    def seat(x, to_x, y, weight, reports):
        drawing.rect(x, y - 3, to_x - x, 6, BLUE)
        drawing.text(x + 6, y - 24, f"weight {weight}", 11, fill="#555")
        drawing.text(x + 6, y - 10, f"reports {reports}", 11, fill="#555")

    drawing.rect(16, middle - 16, 96, 32, "#f4f4f4", "#888")
    drawing.text(64, middle - 1, "AtomicBitSet", 12, "middle")
    drawing.text(64, middle + 12, "{3}", 11, "middle", "#555")
    drawing.rect(786, middle - 16, 98, 32, "#f4f4f4", "#888")
    drawing.text(835, middle - 1, "AtomicBitSet", 12, "middle")
    drawing.text(835, middle + 12, "{3, 5, 7}", 11, "middle", "#555")
    seat(130, 250, middle, "65,536", "none")
    for y in lanes:
        drawing.line(250, middle, 264, y, BLUE)
        drawing.line(626, y, 640, middle, BLUE)
    seat(264, 626, lanes[0], "32,768", "none, then 5")
    seat(264, 626, lanes[1], "32,768", "none, then 7")
    seat(640, 760, middle, "65,536", "5, 7")
    for words, x, lane, colour in ADDS:
        drawing.dot(x + 40, lanes[lane], 6, colour)
        drawing.text(x + 40, lanes[lane] + 20, words, 12, "middle", colour, True)
    drawing.rect(130, 236, 630, 18, "#eef3fa", "#88a")
    drawing.text(445, 249, "SharedBitSet: {3} is old, 5 and 7 come in", 11, "middle")
    for words, x in CALLS:
        drawing.line(x, 66, x, 258, FAINT, "3 3")
        drawing.text(x, 62, words, 13, "middle", INK, True)
    drawing.text(16, 280, "The seat that `join` gives is whole: it has all shares. So the settled set has what was old and what was reported, and no more.", 12)
    drawing.write(folder / "seats.svg")
