"""Scripts that are too long to keep: each is made anew, always the same, by the function of its name."""

END = 1 << 24  # the range of the original; what a script says to lie in range lies below


class Numbers:
    """A fixed sequence of numbers that look random (a 64 bit congruential generator, the high half of each state)."""

    def __init__(self, seed):
        self.state = seed * 2862933555777941757 + 3037000493 & (1 << 64) - 1

    def below(self, bound):
        self.state = self.state * 6364136223846793005 + 1442695040888963407 & (1 << 64) - 1
        return (self.state >> 32) * bound >> 32

    def of(self, all):
        return all[self.below(len(all))]


# Lines that are no command, beside those that the oracle's generator makes.
BAD_LINES = (
    "add a 5:", "add a /5", "add a 5/", "add a :5", "add\x0ca\x0c5", "add a\x0c5", "add\x0ba 5", "add a 5\0", "add a \x85",
    "clear a ", "count a ", "list a ", "remove a 5 6", "has a 5 6", "remove a 5 ", "and a b c", "within a b ", "split a 2 1",
    "split a :", "split a /", "add ` 5", "add @ 5", "add a\xff5", "add a 18446744073709551616", "add a 18446744073709551621",
    "has a 18446744073709551621", "split a 18446744073709551618",
)  # fmt: skip


# Where the ids of a long script come from.


def dense(numbers):
    return numbers.below(4_000)


def below_60_000(numbers):
    return numbers.below(60_000)


def in_range(numbers):
    return numbers.below(END)


def every_size(numbers):
    return numbers.below(1 << 1 + numbers.below(32))


def clusters(numbers):
    return (numbers.below(12) * 1_398_101 + numbers.below(200)) % END


def blocks(numbers):
    digits = (0, 0, 1, 2, 31, 62, 63)
    return sum(numbers.of(digits) << 6 * layer for layer in range(4))


def borders(numbers):
    powers = [64**layer * times for layer in range(1, 6) for times in (1, 2, 63, 64)]
    return min(max(numbers.of(powers + [0]) + numbers.below(3) - 1, 0), (1 << 32) - 1)


# How often each command stands in a long script. Lists are long, so few of them.
BASIC = {"add": 5000, "has": 5000, "list": 3}
MIXED = {
    "add": 5000, "remove": 2000, "has": 2500, "list": 3, "count": 20, "and": 12, "or": 16, "xor": 14, "clear": 2,
    "same": 34, "within": 34,
}  # fmt: skip


def long(seed, ids, weights, sets):
    """100,000 lines."""
    numbers = Numbers(seed)
    words = [word for word, weight in weights.items() for _ in range(weight)]
    lines = []
    for _ in range(100_000):
        word = numbers.of(words)
        line = f"{word} {numbers.of(sets)}"
        if word in ("add", "has", "remove"):
            line += f" {ids(numbers)}"
        elif word not in ("list", "count", "clear"):
            line += f" {numbers.of(sets)}"
        lines.append(line)
    return "\n".join(lines) + "\n"


STORE = {"put": 50, "get": 30, "take": 18, "join": 1}


def store(seed, ids):
    """20,000 lines on two columns."""
    numbers = Numbers(seed)
    words = [word for word, weight in STORE.items() for _ in range(weight)]
    lines = ["store"]
    for _ in range(20_000):
        word = numbers.of(words)
        line = f"{word} {numbers.of('pq')}"
        line += f" {numbers.of('pq')}" if word == "join" else f" {ids(numbers)}"
        if word == "put":
            line += f" {every_size(numbers)}"
        lines.append(line)
    return "\n".join(lines) + "\n"


def pairs():
    """Each pair of subsets of six indices, under each command of two sets."""
    ids = (0, 63, 64, 4096, 262144, END - 1)
    subsets = [[id for at, id in enumerate(ids) if subset >> at & 1] for subset in range(64)]
    lines = []
    for a in subsets:
        lines += ["clear a"] + [f"add a {id}" for id in a]
        for b in subsets:
            lines += ["clear b"] + [f"add b {id}" for id in b]
            lines += ["same a b", "within a b", "within b a"]
            for word in ("and", "or", "xor"):
                lines += ["clear c", "or c a", f"{word} c b", "list c", "count c", "add c 4160", "remove c 0", "list c"]
    return "\n".join(lines) + "\n"


def full_range():
    """Two sets over the whole range, put together and compared."""
    lines = [f"add {'ab'[n % 2]} {n * 167 % END}" for n in range(100_000)]
    lines += ["count a", "count b", "or a b", "count a", "and b a", "xor a b", "count a", "list b", "same a b", "within a b"]
    return "\n".join(lines) + "\n"


def long_last_list():
    """A list of over 64 KiB as the last reply, after as many short ones."""
    return "".join(f"add a {END - 1 - 3 * n}\n" for n in range(8_000)) + "list a"


PIECE = 1 << 16  # bytes of text that the program has ready when it writes


def replies_of_a_piece():
    """Replies that take the bytes of a piece, no more and no fewer: one "false", and then "true" alone."""
    return "add a 5\n" * (1 + (PIECE - len("false\n")) // len("true\n"))


RECIPES = {
    "pairs": pairs,
    "full-range": full_range,
    "long-basic-dense": lambda: long(1, below_60_000, BASIC, "abc"),
    "long-basic-every-size": lambda: long(2, every_size, BASIC, "abc"),
    "long-mixed-dense": lambda: long(3, dense, MIXED, "abcd"),
    "long-mixed-in-range": lambda: long(4, in_range, MIXED, "abcd"),
    "long-mixed-every-size": lambda: long(5, every_size, MIXED, "abcd"),
    "long-mixed-clusters": lambda: long(6, clusters, MIXED, "abcd"),
    "long-mixed-blocks": lambda: long(7, blocks, MIXED, "abcdefgh"),
    "long-mixed-borders": lambda: long(8, borders, MIXED, "ab"),
    "store-long-dense": lambda: store(9, dense),
    "store-long-below-60000": lambda: store(10, below_60_000),
    "store-long-every-size": lambda: store(11, every_size),
    "store-long-clusters": lambda: store(12, clusters),
    "store-long-borders": lambda: store(13, borders),
    "bad-letters": lambda: "a" * 1_000_000,
    "bad-spaces": lambda: " " * 100_000,
    "bad-newlines-many": lambda: "\n" * 100_000,
    "bad-digits": lambda: "add a 1" + "0" * 100_000 + "\n",
    "bad-words": lambda: "add a 5 " * 20_000,
    "bad-zeros": lambda: "\0" * 5000,
    "bad-at-99999": lambda: "add a 5\n" * 99_998 + "list\nhas a 5\n\n",
    "bad-at-100001": lambda: "add a 5\n" * 100_000 + "add a 05\n",
    "long-last-list": long_last_list,
    "list-of-none": lambda: "list a\n",
    "replies-of-a-piece": replies_of_a_piece,
    "replies-of-a-piece-and-more": lambda: replies_of_a_piece() + "list b\nhas a 6\n",
    "good-long-no-newline": lambda: "add a 5\n" * 100_000 + "list a",
}


def made(name):
    return RECIPES[name]().encode("ascii")
