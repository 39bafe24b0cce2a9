#!/usr/bin/env python3
"""results.py: reads bench/results.txt, which the scripts here write, and makes bench/RESULTS.md of it."""
import re
from collections import namedtuple
from pathlib import Path

HERE = Path(__file__).resolve().parent
RESULTS = HERE / "results.txt"
PAGE = HERE / "RESULTS.md"

# A row: the title of its part, its name, what its nanoseconds are per, and its cells by their columns.
Row = namedtuple("Row", "part name unit cells")

# The names of sets in rows, and in the heads of columns.
ONE_SET = {"dense, 1M of 1M": "dense", "half of 2^21": "half", "10 %": "10 %", "1 %": "1 %", "0.01 %": "0.01 %", "100 clusters of 1,000": "clusters"}
TWO_SETS = {
    "half of 2^21 and another half": "half, half",
    "10 % and another 10 %": "10 %, 10 %",
    "1 % and another 1 %": "1 %, 1 %",
    "0.01 % and another 0.01 %": "0.01 %, 0.01 %",
    "0.01 % and 10 %": "0.01 %, 10 %",
    "10 % and 0.01 %": "10 %, 0.01 %",
    "100 clusters of 1,000 and 1 %": "clusters, 1 %",
    "0.01 % and 100 clusters of 1,000": "0.01 %, clusters",
}
# The rows that are shown beside other libraries; README's table and the plot over density have others.
PEERS = r"add, 1M ascending.*|contains, miss|remove.*|walk, 100 clusters.*|walk of a & b, 0\.01 %.*|a &= b, (1|0\.01) % and another.*|build.*"
# The sets of rows that go up to 2^30, without the ", " between.
FAR = {
    "1M spread over 2^30": "spread",
    "1M spread over 2^30 and another 1M": "spread",
    "100 clusters of 10,000 below 2^30": "clusters",
    "100 clusters of 10,000 below 2^30 and the same, 5,000 further": "clusters",
}
MEMORY = r"Memory of (.*): ([\d.]+) MB here .*, ([\d.]+) MB in fixedbitset, ([\d.]+) MB in CRoaring"
BELOW = {"below 1,000,000": "below 1M", "below 2^24": "below 2^24", "below 2^30": "below 2^30"}
THREADS = {"one thread": "one thread", "all processors": "all"}
# Calls whose ratios all lie below this have a line in the place of a row.
LOW = 0.10


def cells_of(line):
    return [cell.strip() for cell in re.split(r"(?<!\\)\|", line.strip())[1:-1]]


def unlike(names):
    """Names of columns; one that comes again has `its` before it."""
    return [f"its {name}" if name in names[:at] else name for at, name in enumerate(names)]


def block_of(table, results):
    found = re.search(rf"^<!-- {table} -->\n(.*?)^<!-- end of {table} -->$", results, re.M | re.S)
    return found[1].strip().splitlines() if found else []


def rows_of(table, results):
    """The rows of a table."""
    columns, part, unit = [], "", ""
    for line in block_of(table, results):
        cells = cells_of(line) if line.startswith("|") else []
        if {"ours", "crate", "shared"} & set(cells):
            part, columns = cells[0], unlike(cells[1:])
        elif cells and (heading := re.fullmatch(r"\*\*(.*?) \((.*)\)\*\*", cells[0])):
            part, unit = heading[1], heading[2].removeprefix("ns per ")
        elif cells and not cells[0].startswith(("**", "--")):
            yield Row(part, cells[0], unit, dict(zip(columns, cells[1:])))


def ratio_of(row):
    """The time as part of the original's, of the crate where the table has it and else of ours, or None."""
    found = re.match(r"-?[\d.]+", row.cells.get("ratio", ""))
    return float(found[0]) if found else None


def head_of(table, results):
    """When, where and at which commit a table was measured."""
    day, machine, *rest = block_of(table, results)[0].split("; ")
    return day, machine, next(part for part in rest if part.startswith("commit "))


def own_head(table, results):
    """What the line above a table says beside that of the first table."""
    first, own = ([part.split(", ") for part in block_of(each, results)[0].rstrip(".").split("; ")] for each in ("results", table))
    said = {each for part in first for each in part}
    words = "; ".join(filter(None, (", ".join(each for each in part if each not in said) for part in own)))
    return words[:1].upper() + words[1:]


def readable(cell):
    """A number without an exponent, from 10,000 on with commas, its star close to it."""
    number = f"{float(cell):.0f}" if re.fullmatch(r"[\d.]+e\+\d+", cell) else cell.replace(" *", "*")
    return f"{int(number):,}" if re.fullmatch(r"\d{5,}", number) else number


def table_of(heads, lines, left=1):
    """A table whose first columns are words and whose others are numbers."""
    yield "| " + " | ".join(heads) + " |"
    yield "|" + "---|" * left + "---:|" * (len(heads) - left)
    yield from ("| " + " | ".join([*cells[:left], *map(readable, cells[left:])]) + " |" for cells in lines)
    yield ""


def split_name(name, ends):
    """What a row is about and the end of its name, one of these; the whole name and None if it has none of them."""
    for end in ends:
        if found := re.fullmatch(rf"(.*), {re.escape(end)}(?: and its copy)?", name):
            return found[1], end
    return name, None


def pivot(rows, ends):
    """The rows that differ in the ends of their names alone, by what they are about and by the end."""
    found = {}
    for row in rows:
        call, end = split_name(row.name, ends)
        if end:
            found.setdefault(call, {})[end] = row
    return found


def across(calls, ends, title, columns):
    """The table of pivoted rows; columns: what the head says beside the end, and what gives the cell of a row."""
    shown = [end for end in ends if any(end in cells for cells in calls.values())]
    lines = []
    for call, cells in calls.items():
        lines.append([call, *(cell(cells[end]) if end in cells else "" for cell in columns.values() for end in shown)])
    return table_of([title, *(" ".join([ends[end], words]).strip() for words in columns for end in shown)], lines)


def named(names):
    """The columns of these names, for across."""
    return {name: lambda row, name=name: row.cells[name] for name in names}


def pair(row):
    """Both ratios of a row in one cell."""
    return f"{row.cells['ratio']}/{row.cells['its ratio']}"


def greatest(rows):
    """The greatest ratio of these rows; None if one of them has a star."""
    cells = [row.cells[column] for row in rows for column in ("ratio", "its ratio")]
    return None if any("*" in cell for cell in cells) else max(map(float, cells))


def in_line(calls):
    """A line with the calls whose ratios all lie below LOW, each with its greatest, and the other calls."""
    most = {call: greatest(rows) for call, rows in calls.items()}
    low = [call for call, ratio in most.items() if ratio is not None and ratio < LOW]
    words = "; ".join(f"{call}: {most[call]:.2f}" for call in low)
    return f"Below {LOW:.2f}, with the greatest ratio of each: {words}.\n", [call for call in calls if call not in low]


def one_thread(results):
    """The parts on sets in one thread."""
    rows = [row for row in rows_of("results", results) if row.cells.get("crate", "-") != "-"]
    one, two = ({call: cells for call, cells in pivot(rows, sets).items() if len(cells) > 1} for sets in (ONE_SET, TWO_SETS))
    there = {row.name for calls in (one, two) for cells in calls.values() for row in cells.values()}
    yield "## One thread, over the share of members\n"
    line, shown = in_line({call: cells.values() for call, cells in one.items()})
    yield from across({call: one[call] for call in shown}, ONE_SET, "crate/Rattle", {"": pair})
    yield line
    yield "## Two sets\n"
    yield from across(two, TWO_SETS, "crate/Rattle", {"": pair})
    yield "## Other work in one thread\n"
    others = {row.name: row for row in rows if row.name not in there and "eight sets" not in row.name}
    line, shown = in_line({name: [row] for name, row in others.items()})
    yield from table_of(["", "crate/Rattle"], [[name, pair(others[name])] for name in shown])
    yield line


def beside_others(results):
    """The parts on other libraries, and on what the original does not have."""
    rows = list(rows_of("results", results))
    yield "## Beside other libraries\n\n![Time over the share of members, beside fixedbitset and CRoaring](../docs/pictures/density.svg)\n"
    yield "[README](../README.md#speed) has the main rows; here are others.\n"
    shown = [row for row in rows if re.fullmatch(PEERS, row.name) and row.cells.get("fixedbitset", "-") != "-" and row.cells["ratio"] != "-"]
    names = ["crate", "Rattle", "fixedbitset", "bit-set", "CRoaring", "BTreeSet", "HashSet"]
    yield from table_of(["nanoseconds an index, item or member of either set", *names], [[row.name, *(row.cells[name] for name in names)] for row in shown])
    yield "## Indices up to 2^30, which the original does not have\n"
    yield "`spread`: a million members; `clusters`: 100 of 10,000. `a &= b`: with another million; with the same clusters, 5,000 further.\n"
    far = {}
    for row in rows:
        call, end = split_name(row.name, FAR)
        if end and row.cells["ratio"] == "-":
            far.setdefault(call, {})[FAR[end]] = row
    *lines, end = across(far, {name: name for name in FAR.values()}, "nanoseconds a member", named(("Rattle", "fixedbitset", "CRoaring")))
    found = (re.match(MEMORY, line) for line in block_of("results", results))
    megabytes = sorted((each.groups() for each in found if each), key=lambda each: list(FAR).index(each[0]))
    cells = [cell for column in list(zip(*megabytes))[1:] for cell in column]
    yield from [*lines, *([f"| memory, in MB | {' | '.join(cells)} |"] if cells else []), end]


def columns(results):
    """The part on values by index."""
    rows = [row._replace(name=re.sub("column |100,000 random ", "", row.name)) for row in rows_of("results", results) if "crate" not in row.cells]
    yield "## Values by index\n\nNanoseconds are per call, of a join per key of either column.\n"
    yield from across(pivot(rows, BELOW), BELOW, "nanoseconds", named(("ours", "ratio", "HashMap")))


def parallel(results):
    """The part on calls that take threads."""
    yield "## Parallel calls\n\nTime over the number of members, as part of the original's and of our own iteration in one thread.\n"
    for table, picture, title in (("threads", "parallel", "Calls"), ("steps", "steps", "Calls whose step takes time")):
        yield f"![{title}: time over the number of members](../docs/pictures/{picture}.svg)\n\n{own_head(table, results)}.\n"


def shared(results):
    """The part on the shared set."""
    parts = {}
    for row in rows_of("shared", results):
        title = "microseconds a call" if "(micro" in row.name else row.part
        parts.setdefault(title, []).append(row._replace(name=row.name.partition(" (")[0]))
    yield f"## The shared set\n\n{own_head('shared', results)}.\n"
    for title, rows in parts.items():
        names = [name for name in ("ours", "shared", "settled", "ratio") if rows[0].cells.get(name, "-") != "-"]
        yield from across(pivot(rows, THREADS), THREADS, title, named(names))


def streams(results):
    """The part on streams."""
    yield f"## Streams in the Roaring format\n\n{own_head('roaring', results)}.\n"
    yield (
        "Read: a stream into a set; by CRoaring into its own. Write: into a buffer with capacity. The ratio is to CRoaring where containers are bitsets; "
        "else to making a set of its words, and to listing its members into a buffer.\n"
    )
    rows = pivot(rows_of("roaring", results), BELOW)
    shown = {end: BELOW[end] for end in list(BELOW)[1:]}
    yield from across(rows, shown, "microseconds", named(("ours", "CRoaring", "ratio")))


# The columns of the tables of sparse sets that are shown as parts of CRoaring's.
BESIDE_ROARING = {
    "contains, there": "contains",
    "add, random": "add, random",
    "add, ascending": "ascending",
    "remove, random": "remove",
    "walk": "walk",
    "`a & b`, µs": "`a & b`",
    "`a \\|= b`, µs": "`a \\|= b`",
    "`a &= b`, µs": "`a &= b`",
    "`a -= b`, µs": "`a -= b`",
    "clone, µs": "clone",
}


def sparse_cells(results):
    """Of each kind of members the cells of each set, by their columns."""
    found, kind, heads = {}, "", []
    for line in block_of("sparse", results):
        cells = cells_of(line) if line.startswith("|") else []
        if heading := re.fullmatch(r"\*\*(.*)\*\* \(.*\)", line):
            kind = heading[1]
        elif cells and cells[0] == "set":
            heads = cells
        elif cells and not cells[0].startswith("--"):
            found.setdefault(kind, {})[cells[0]] = dict(zip(heads, cells))
    return found


def bytes_of(cells):
    """Bytes a member; of a few members the allocator may have had them to spare, and shows none."""
    return "-" if not cells or not float(cells["bytes a member"]) else cells["bytes a member"]


def part_of(cell, other):
    return f"{float(cell) / float(other):.2f}" if float(other) else "-"


def sparse(results):
    """The part on sets whose memory goes by their members."""
    kinds = sparse_cells(results)
    if not kinds:
        return
    yield f"## Sparse sets\n\n{own_head('sparse', results)}. Of the Rust crate, filled in random order.\n"
    names = list(dict.fromkeys(name for sets in kinds.values() for name in sets))
    heads = [name.strip("`") for name in names]
    yield from table_of(["bytes a member", *heads], [[kind, *(bytes_of(sets.get(name)) for name in names)] for kind, sets in kinds.items()])
    own, other = names[:2]
    lines = [[kind, *(part_of(sets[own][column], sets[other][column]) for column in BESIDE_ROARING)] for kind, sets in kinds.items()]
    yield from table_of([f"time as part of {other}'s", *BESIDE_ROARING.values()], lines)


PARTS = (one_thread, beside_others, sparse, columns, parallel, shared, streams)
WORDS = (
    "Cells `crate/Rattle` have two ratios to the original: of the Rust crate, and of the same source by Rattle's own compiler. A star says that one lies above its aim. "
    "[README.md](README.md) says how rows are measured, what their sets are, and why some lie above; [results.txt](results.txt) has every row, time and aim. "
    "The first line holds for all tables, but for what the line above a table says. `-`: not measured."
)


def page(results):
    """RESULTS.md."""
    lines = [block_of("results", results)[0], "\n# Results\n", f"{WORDS}\n", *(line for part in PARTS for line in part(results))]
    return "\n".join(lines).rstrip() + "\n"


def write_page():
    PAGE.write_text(page(RESULTS.read_text(encoding="utf-8")), encoding="utf-8")


if __name__ == "__main__":
    write_page()
