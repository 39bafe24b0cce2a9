"""The plots of parallel calls over the number of members, beside the original and beside our own iteration in one thread."""
import math

from drawing import BLUE, GREEN, GREY, ORANGE, RED, Drawing
from results import RESULTS, rows_of

# What the rows of panels compare with: its title, and the column of bench/results.txt.
COMPARED = [("beside the original", "ratio"), ("beside iteration", "its ratio")]
SETS = {"dense": BLUE, "half": GREEN, "clusters": GREY, "10 %": ORANGE, "1 %": RED}
STEPS = {"for_each, dense": (BLUE, ""), "fold, dense": (BLUE, "4 3"), "for_each, 10 %": (ORANGE, ""), "fold, 10 %": (ORANGE, "4 3")}
WIDTH, HEIGHT, GAP = 230, 150, 46
LOWEST, HIGHEST = -2, 1  # the powers of ten of the ratios


def measured(table):
    """The rows of all processors: call, set, members, cells."""
    for row in rows_of(table, RESULTS.read_text(encoding="utf-8")):
        if row.part.startswith("on all processors"):
            call, kind, members = row.name.split(", ")
            yield call, kind, int(members), row.cells


def draw_panel(drawing, left, top, title, lines, sizes):
    """One panel: a line a kind, of (members, ratio); both axes by logarithms."""
    first, last = math.floor(math.log10(min(sizes))), math.ceil(math.log10(max(sizes)))

    def at(members, ratio):
        height = (HIGHEST - math.log10(max(ratio, 10.0**LOWEST))) / (HIGHEST - LOWEST)
        return left + WIDTH * (math.log10(members) - first) / (last - first), top + HEIGHT * height

    drawing.text(left, top - 8, title, 12, bold=True)
    for power in range(LOWEST, HIGHEST + 1):
        _, y = at(10.0**first, 10.0**power)
        drawing.line(left, y, left + WIDTH, y, RED if power == 0 else "#ddd", "" if power == 0 else "3 3")
        drawing.text(left - 6, y + 4, f"{10.0**power:g}", 10, "end", RED if power == 0 else "#555")
    for power in range(first, last + 1):
        x, _ = at(10.0**power, 1)
        drawing.line(x, top, x, top + HEIGHT, "#eee")
        drawing.text(x, top + HEIGHT + 14, f"{10**power:,}", 9, "middle", "#555")
    for (colour, dashes), line in lines:
        for here, there in zip(line, line[1:]):
            drawing.line(*at(*here), *at(*there), colour, dashes, 2)
        for point in line:
            drawing.dot(*at(*point), 3, colour)


def draw(path, title, table, panels, kinds):
    """A row of panels for each of COMPARED. panels: their titles and which rows they have, as a kind or None; kinds: colours and dashes."""
    rows = list(measured(table))
    drawing = Drawing(60 + len(panels) * (WIDTH + GAP), 78 + 2 * (HEIGHT + 62), title)
    drawing.text(16, 24, title, 14, bold=True)
    drawing.text(16, 42, "Below the red line at 1 this library takes less time. On all processors, over the number of members. Iteration: our own, in one thread.", 12)
    for at, (kind, (colour, dashes)) in enumerate(kinds.items()):
        drawing.line(16 + 130 * at, 60, 44 + 130 * at, 60, colour, dashes, 2)
        drawing.text(50 + 130 * at, 64, kind, 12, fill=colour)
    for down, (words, column) in enumerate(COMPARED):
        for along, (shown, kind_of) in enumerate(panels):
            lines = {}
            for call, kind, members, cells in rows:
                if (name := kind_of(call, kind)) and cells[column] != "-":
                    lines.setdefault(name, []).append((members, float(cells[column])))
            found = [(kinds[name], sorted(line)) for name, line in lines.items()]
            sizes = [members for _, _, members, _ in rows]
            draw_panel(drawing, 46 + (WIDTH + GAP) * along, 104 + (HEIGHT + 62) * down, f"{shown}, {words}", found, sizes)
    drawing.write(path)


def draw_parallel(folder):
    panels = [(call, lambda found, kind, call=call: kind if found == call else None) for call in ("count", "collect", "fold")]
    draw(folder / "parallel.svg", "Parallel calls: time as part of the original's and of iteration", "threads", panels, {kind: (colour, "") for kind, colour in SETS.items()})


def draw_steps(folder):
    def kind_of(step):
        return lambda call, kind: f"{call.partition(' of ')[0]}, {kind}" if call.endswith(f" of {step}") else None

    panels = [(f"steps of {step}", kind_of(step)) for step in ("0 ns", "100 ns", "1 us")]
    draw(folder / "steps.svg", "Parallel calls whose step takes time: time as part of the original's and of iteration", "steps", panels, STEPS)
