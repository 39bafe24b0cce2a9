"""The plots: time over the share of members beside other sets, and when threads pay."""
import math
import re

from drawing import BLUE, GREEN, GREY, ORANGE, RED, Drawing
from results import RESULTS, rows_of

# The panels of the plot over density: its title, and the row of bench/results.txt at each share of members.
SHARES = {"dense": 1, "half": 0.5, "10 %": 0.1, "1 %": 0.01, "0.01 %": 0.0001}
PANELS = [
    ("iterate: ns per item", r"walk, (dense|half|10 %|1 %|0\.01 %)[^a-z]*(?:of 2\^21)?(?:1M of 1M)?"),
    ("list of the members (to_vec): ns per item", r"to_vec, (dense|half|10 %|1 %|0\.01 %)[^a-z]*(?:of 2\^21)?(?:1M of 1M)?"),
    ("iterate a & b: ns per member of either set", r"walk of a & b, (half|10 %|1 %)[^a-z]*(?:of 2\^21)? and another .*"),
    ("a &= b: ns per member of either set", r"a &= b, (half|10 %|1 %|0\.01 %)[^a-z]*(?:of 2\^21)? and another .*"),
]
SETS = [("crate", "this crate", BLUE, ""), ("fixedbitset", "fixedbitset", ORANGE, "6 3"), ("CRoaring", "CRoaring", RED, "2 3")]


def points(pattern, rows, column):
    """The share of members and the time of each row that a panel has, the sparsest first."""
    found = []
    for row in rows:
        match = re.fullmatch(pattern, row.name.replace("\\", ""))
        if match and re.fullmatch(r"[\d.]+", row.cells.get(column, "")):
            found.append((SHARES[match[1]], float(row.cells[column])))
    return sorted(found)


def crossings(ours, theirs):
    """Where two lines cross that go straight from point to point, both axes by logarithms."""
    both = [(math.log(x), math.log(y / dict(theirs)[x])) for x, y in ours if x in dict(theirs)]
    for (x, gap), (to_x, to_gap) in zip(both, both[1:]):
        if gap * to_gap < 0:
            yield math.exp(x + (to_x - x) * gap / (gap - to_gap))


def between(x, line):
    """The height of a line at a share of members."""
    for (low, y), (high, to_y) in zip(line, line[1:]):
        if low <= x <= high:
            part = (math.log(x) - math.log(low)) / (math.log(high) - math.log(low))
            return math.exp(math.log(y) + part * (math.log(to_y) - math.log(y)))
    raise ValueError(x)


def percent(share):
    return f"{float(f'{100 * share:.2g}'):g} %"


def draw_panel(drawing, box, title, pattern, rows):
    left, top, width, height = box
    lines = [(points(pattern, rows, column), *look) for column, *look in SETS]
    values = [y for line, *_ in lines for _, y in line]
    low, high = math.floor(math.log10(min(values))), math.ceil(math.log10(max(values)))

    def at(share, value):
        return left + width * (math.log10(share) + 4) / 4, top + height * (high - math.log10(value)) / (high - low)

    drawing.text(left, top - 10, title, 12, bold=True)
    for power in range(low, high + 1):
        _, y = at(1, 10.0**power)
        drawing.line(left, y, left + width, y, "#ddd", "3 3")
        drawing.text(left - 6, y + 4, f"{10.0**power:g}", 10, "end", "#555")
    for share in SHARES.values():
        x, _ = at(share, 1)
        drawing.line(x, top, x, top + height, "#eee")
        side = {1: (-4, "start"), 0.5: (2, "end")}.get(share, (0, "middle"))
        drawing.text(x + side[0], top + height + 14, percent(share), 10, side[1], "#555")
    for line, _, colour, dashes in lines:
        for (share, value), (to_share, to_value) in zip(line, line[1:]):
            drawing.line(*at(share, value), *at(to_share, to_value), colour, dashes, 2)
        for share, value in line:
            drawing.dot(*at(share, value), 3, colour)
    ours = lines[0][0]
    for line, _, colour, _ in lines[1:]:
        for number, share in enumerate(crossings(ours, line)):
            x, y = at(share, between(share, ours))
            drawing.ring(x, y, 6, colour)
            drawing.text(max(x, left + 24), y + (22 if number % 2 else -12), percent(share), 11, "middle", colour, True)


def draw_density(folder):
    rows = list(rows_of("results", RESULTS.read_text(encoding="utf-8")))
    drawing = Drawing(860, 660, "Time over the share of members")
    drawing.text(16, 24, "Time over the share of members that a set has of its range", 14, bold=True)
    drawing.text(16, 42, "Both axes by powers of ten. A ring: where this crate and another set cross, between two measured points.", 12)
    x = 16
    for _, name, colour, dashes in SETS:
        drawing.line(x, 60, x + 28, 60, colour, dashes, 2)
        drawing.dot(x + 14, 60, 3, colour)
        drawing.text(x + 34, 64, name, 12, fill=colour)
        x += 130
    for at, (title, pattern) in enumerate(PANELS):
        draw_panel(drawing, (60 + 420 * (at % 2), 110 + 285 * (at // 2), 350, 210), title, pattern, rows)
    drawing.text(16, 648, "100 %: all below a million; 50 %: half below 2^21; the others: of the indices below 2^24, at random.", 11, fill="#555")
    drawing.write(folder / "density.svg")


# The time of a call that always takes threads, as part of the same call in one thread (`count`: of `len`), on four
# processors: for each kind of set the thousands of members, and the least and the most part of some runs.
ALWAYS_THREADS = {
    "fold": {
        "dense": [(200, 1.45, 1.57), (400, 0.87, 1.03), (800, 0.59, 0.71)],
        "half": [(200, 1.17, 1.38), (400, 0.57, 0.86), (800, 0.55, 0.55)],
        "10 %": [(100, 1.3, 1.3), (200, 0.74, 0.86), (400, 0.52, 0.66)],
        "1 %": [(100, 0.88, 1.0), (200, 0.64, 0.80)],
    },
    "collect": {
        "dense": [(1000, 2.1, 2.6), (2000, 1.2, 1.2), (3000, 1.0, 1.35), (4000, 0.84, 1.17)],
        "half": [(300, 2.7, 3.1), (500, 1.0, 2.0), (1000, 1.07, 1.4), (2000, 0.58, 1.19)],
        "clusters": [(1000, 1.8, 2.0), (2000, 1.3, 1.5), (3000, 0.93, 0.99), (4000, 0.91, 1.2)],
        "10 %": [(100, 1.9, 1.9), (200, 1.08, 1.22), (400, 0.76, 0.85)],
        "1 %": [(100, 1.08, 1.19), (200, 0.83, 1.02)],
    },
    "count": {
        "dense": [(4000, 11, 11), (16000, 1.12, 1.12), (64000, 0.83, 0.83)],
        "half": [(4000, 4.2, 4.2), (16000, 1.49, 1.49), (64000, 0.70, 0.70)],
        "10 %": [(4000, 1.38, 1.38), (16000, 0.48, 0.48), (64000, 0.44, 0.44)],
        "1 %": [(100, 4.3, 4.3), (1000, 0.52, 0.52), (4000, 0.40, 0.40)],
    },
}
KINDS = {"dense": BLUE, "half": GREEN, "clusters": GREY, "10 %": ORANGE, "1 %": RED}


def members(thousands):
    return f"{thousands / 1000:g} M" if thousands >= 1000 else f"{thousands:g},000"


def draw_threads_panel(drawing, box, call, kinds):
    left, top, width, height = box
    low, high, first, last = math.log10(0.35), math.log10(12), math.log10(80), math.log10(80000)

    def at(thousands, part):
        return left + width * (math.log10(thousands) - first) / (last - first), top + height * (high - math.log10(part)) / (high - low)

    drawing.text(left, top - 10, call, 13, bold=True)
    for part in (0.5, 1, 2, 4, 8):
        _, y = at(100, part)
        drawing.line(left, y, left + width, y, RED if part == 1 else "#ddd", "" if part == 1 else "3 3")
        drawing.text(left - 6, y + 4, f"{part:g}", 10, "end", RED if part == 1 else "#555")
    for thousands in (100, 1000, 10000):
        x, _ = at(thousands, 1)
        drawing.line(x, top, x, top + height, "#eee")
        drawing.text(x, top + height + 14, members(thousands), 10, "middle", "#555")
    for kind, runs in kinds.items():
        colour = KINDS[kind]
        middles = [at(thousands, math.sqrt(least * most)) for thousands, least, most in runs]
        for (x, y), (to_x, to_y) in zip(middles, middles[1:]):
            drawing.line(x, y, to_x, to_y, colour, "", 2)
        for (x, y), (thousands, least, most) in zip(middles, runs):
            drawing.line(x, at(thousands, least)[1], x, at(thousands, most)[1], colour)
            drawing.dot(x, y, 3, colour)


def draw_threads(folder):
    drawing = Drawing(860, 330, "When threads pay")
    drawing.text(16, 24, "When threads pay: the time of a call that always takes threads, as part of the same in one thread", 14, bold=True)
    drawing.text(16, 42, "Below the red line at 1 threads are faster. Over the number of members, four processors; a bar is the range of some runs.", 12)
    x = 16
    for kind, colour in KINDS.items():
        drawing.dot(x + 4, 60, 4, colour)
        drawing.text(x + 14, 64, kind, 12, fill=colour)
        x += 90
    for at, (call, kinds) in enumerate(ALWAYS_THREADS.items()):
        draw_threads_panel(drawing, (46 + 278 * at, 100, 236, 190), call, kinds)
    drawing.text(16, 322, "`count` is beside `len`.", 11, fill="#555")
    drawing.write(folder / "threads.svg")
