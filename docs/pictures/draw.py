#!/usr/bin/env python3
"""draw.py [FOLDER]: draws the pictures of the pages into its own folder or this one.

layers.svg: the words of a set of four members, and the order in which a walk reads them.
sparse.svg: one index in a dense set and in a sparse one, word by word.
ratios.svg: the time of each row of bench/results.txt, as part of the original's, a dot each.
density.svg, threads.svg (plots.py): time over the share of members; when threads pay.
parallel.svg, steps.svg (parallel.py): parallel calls over the number of members.
crates.svg, seats.svg (diagrams.py): who stands on whom, by crates.txt; the seats of a shared set over time.
"""
import pathlib
import sys

HERE = pathlib.Path(__file__).resolve().parent
sys.path.insert(0, str(HERE.parent.parent / "bench"))

from diagrams import draw_crates, draw_seats
from drawing import BLUE, FAINT, GREEN, RED, Drawing
from parallel import draw_parallel, draw_steps
from plots import draw_density, draw_threads
from results import RESULTS, ratio_of, rows_of  # noqa: E402 (its folder is named above)

BITS = 64
LAYERS = 5
MEMBERS = [3, 70, 5000, 300000]
FAR_MEMBER = 1_000_000_000
WORD_BYTES, GROUP_BYTES, CHUNK_BYTES, LEAST_CAPACITY = 8, 16, 56, 4


def words_of(members):
    """The words of each layer that are not 0, from the lowest layer up: position and bits."""
    layers, positions = [], members
    for _ in range(LAYERS):
        words = {}
        for position in positions:
            words.setdefault(position // BITS, []).append(position % BITS)
        layers.append(words)
        positions = sorted(words)
    return layers


def read_order(layers, layer=LAYERS - 1, position=0):
    """The words in the order in which a walk reads them, the top one first."""
    yield layer, position
    if layer > 0:
        for bit in layers[layer][position]:
            yield from read_order(layers, layer - 1, position * BITS + bit)


def draw_layers(folder):
    width, tick, word_height, row_height, top = 940, 3, 22, 92, 80
    word_width = BITS * tick
    layers = words_of(MEMBERS)
    under = top + (LAYERS - 1) * row_height + word_height + 18
    drawing = Drawing(width, under + 40, "The layers of a set and the way of a walk")
    drawing.text(16, 24, "The set {" + ", ".join(map(str, MEMBERS)) + "}, and the order in which a walk reads its words", 14, bold=True)
    drawing.text(16, 42, "Each box is a word of 64 bits that is not 0. A bit above stands for a word below; no other word is read.", 12)
    left, places = 90, {}
    for layer in range(LAYERS):
        words = sorted(layers[layer])
        space = (width - left - 16) / len(words)
        for at, position in enumerate(words):
            x = left + space * at + (space - word_width) / 2
            places[layer, position] = (x, top + (LAYERS - 1 - layer) * row_height)
    for (layer, position), (x, y) in places.items():
        for bit in layers[layer][position]:
            middle = x + (bit + 0.5) * tick
            if layer > 0:
                below_x, below_y = places[layer - 1, position * BITS + bit]
                drawing.line(middle, y + word_height, below_x + word_width / 2, below_y, FAINT)
            else:
                drawing.text(middle, under, str(position * BITS + bit), 13, "middle", GREEN, True)
    for (layer, position), (x, y) in places.items():
        drawing.rect(x, y, word_width, word_height, "#f4f4f4")
        for bit in range(8, BITS, 8):
            drawing.line(x + bit * tick, y, x + bit * tick, y + word_height, "#ddd")
        for bit in layers[layer][position]:
            drawing.rect(x + bit * tick, y, tick, word_height, GREEN)
        drawing.rect(x, y, word_width, word_height, "none", "#888")
        drawing.text(x + word_width, y - 4, f"word {position}", 11, "end", "#555")
    for number, (layer, position) in enumerate(read_order(layers), 1):
        x, y = places[layer, position]
        drawing.dot(x + 8, y - 9, 8, BLUE)
        drawing.text(x + 8, y - 5, str(number), 11, "middle", "white", True)
    for layer in range(LAYERS):
        drawing.text(16, top + (LAYERS - 1 - layer) * row_height + 15, f"layer {layer}", 13, bold=True)
    drawing.text(left, under + 24, "Under each bit of layer 0 stands the member that it is for.", 12, fill=GREEN)
    drawing.write(folder / "layers.svg")


def draw_sparse(folder):
    width, tick, word_height, row_height, top = 940, 3, 22, 62, 112
    word_width, dense_left, dense_width = BITS * tick, 90, 400
    sparse_left = dense_left + dense_width + 60
    layers = [next(iter(words.items())) for words in words_of([FAR_MEMBER])]
    chunk = layers[2][0]
    rooms = ["the set's root", f"the word of its group {layers[3][0]}", f"the root of its chunk {chunk:,}", f"the word of the chunk's group {layers[1][0] % BITS}", f"the word {layers[0][0] % BITS**2:,} of the chunk"]
    bytes_of_sparse = LEAST_CAPACITY * (2 * GROUP_BYTES + CHUNK_BYTES + WORD_BYTES)
    words_of_dense = sum(position + 1 for position, _ in layers)
    under = top + (LAYERS - 1) * row_height + word_height
    drawing = Drawing(width, under + 50, "One index in a dense and in a sparse set")
    drawing.text(16, 24, f"The index {FAR_MEMBER:,} in both sets", 14, bold=True)
    drawing.text(16, 42, "Five words are not 0, the same in both. A BitSet also keeps each word before them, grey here; a SparseBitSet keeps no other word.", 12)
    drawing.text(dense_left, 76, f"BitSet: {words_of_dense * WORD_BYTES / 1e6:.0f} MB", 13, bold=True)
    drawing.text(sparse_left, 76, f"SparseBitSet: {bytes_of_sparse} bytes", 13, bold=True)
    for layer, (position, bits) in enumerate(layers):
        y = top + (LAYERS - 1 - layer) * row_height
        drawing.text(16, y + 15, f"layer {layer}", 13, bold=True)
        before = dense_width - 14 if position else 0
        drawing.rect(dense_left, y, before, word_height, "#ddd")
        drawing.rect(dense_left + before, y, 14, word_height, GREEN)
        drawing.text(dense_left, y - 4, f"{position + 1:,} words" if position else "1 word", 11, fill="#555")
        drawing.rect(sparse_left, y, word_width, word_height, "#f4f4f4", "#888")
        drawing.rect(sparse_left + bits[0] * tick, y, tick, word_height, GREEN)
        drawing.text(sparse_left, y - 4, rooms[LAYERS - 1 - layer], 11, fill="#555")
        drawing.text(sparse_left + word_width + 12, y + 15, f"bit {bits[0]}", 11, fill=GREEN)
        if layer > 0:
            drawing.line(sparse_left + (bits[0] + 0.5) * tick, y + word_height, sparse_left + word_width / 2, y + row_height - 16, FAINT)
    drawing.text(16, under + 32, f"Room for {LEAST_CAPACITY} groups, chunks and words is taken at once, and doubles where it is full.", 12)
    drawing.write(folder / "sparse.svg")


def ratios_by_part():
    """The parts of the table of sets, each with the ratios of its rows; those of columns of values are left out."""
    parts, sets = {}, RESULTS.read_text(encoding="utf-8").split("\nValues by index")[0] + "\n<!-- end of results -->\n"
    for row in rows_of("results", sets):
        if ratio_of(row) is not None:
            parts.setdefault(row.part, []).append(ratio_of(row))
    return list(parts.items())


def draw_ratios(folder):
    parts = ratios_by_part()
    width, left, right, top, row = 760, 330, 24, 70, 24
    drawing = Drawing(width, top + row * len(parts) + 40, "Time beside the original")
    drawing.text(16, 24, "Time as part of the original's, a dot for each row of the benchmark", 14, bold=True)
    drawing.text(16, 42, "Left of the line at 1 this library is faster. The bar is the median of a line's rows; a row past the edge has its number.", 12)
    bottom, most = top + row * len(parts), 1.25

    def across(ratio):
        return left + (width - left - right) * min(max(ratio, 0), most) / most

    for mark in (0, 0.25, 0.5, 0.75, 1):
        drawing.line(across(mark), top - 6, across(mark), bottom, RED if mark == 1 else "#ddd", "" if mark == 1 else "3 3")
        drawing.text(across(mark), bottom + 16, f"{mark:g}", 11, "middle", RED if mark == 1 else "#555")
    for at, (name, ratios) in enumerate(parts):
        y = top + row * at + row / 2
        drawing.text(left - 12, y + 4, name, 12, "end")
        for ratio in ratios:
            drawing.dot(across(ratio), y, 4, BLUE, 0.45)
            if ratio > most:
                drawing.text(across(ratio) - 8, y + 4, f"{ratio:.1f}", 11, "end", BLUE)
        median = across(sorted(ratios)[len(ratios) // 2])
        drawing.rect(median - 1.5, y - 9, 3, 18, GREEN)
    drawing.write(folder / "ratios.svg")


if __name__ == "__main__":
    into = pathlib.Path(sys.argv[1]) if sys.argv[1:] else HERE
    for draw in (draw_layers, draw_sparse, draw_ratios, draw_density, draw_threads, draw_parallel, draw_steps, draw_crates, draw_seats):
        draw(into)
