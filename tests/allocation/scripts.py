"""Scripts that the program runs while one of its allocations fails, and what it may print then."""
from .judge import Failed
from .programs import MOST

# Each of these outputs is to come where one allocation fails, the last one where none does. The program may also end with
# status 3 before it has printed anything.
SCRIPTS = {
    "add a 5\nlist a\nhas a 5\n": ["no memory\n\nfalse\n", "false\nno memory\ntrue\n", "false\n5\ntrue\n"],
    "add a 5\nadd b 70000\nor a b\ncount a\n": [
        "no memory\nfalse\nok\n1\n",
        "false\nno memory\nok\n1\n",
        "false\nfalse\nno memory\n1\n",
        "false\nfalse\nok\n2\n",
    ],
    "add a 5\nadd b 70000\nxor a b\ncount a\n": [
        "no memory\nfalse\nok\n1\n",
        "false\nno memory\nok\n1\n",
        "false\nfalse\nno memory\n1\n",
        "false\nfalse\nok\n2\n",
    ],
    "remove a 5\nhas a 5\ncount a\nand a b\nor a b\nxor a a\nclear a\nsame a b\nwithin a b\nsplit a 3\nlist a\n": [
        "false\nfalse\n0\nok\nok\nok\nok\ntrue\ntrue\n1\n\n",
    ],
    "store\nput p 5 7\njoin p p\nget p 5\ntake p 5\njoin p p\n": [
        "no memory\n\nnone\nnone\n\n",
        "none\nno memory\n7\n7\n\n",
        "none\n5:7:7\n7\n7\n\n",
    ],
}


def outputs_of(program, script, outputs):
    """Which outputs came while the allocations failed in turn, and how often the program ended with status 3."""
    seen, ends = set(), 0
    for number in range(1, MOST + 1):
        status, output, errors = program.run([], number, script)
        if (status, output, errors) == (3, "", "no memory\n"):
            ends += 1
        elif (status, errors) == (0, "") and output in outputs:
            seen.add(output)
        else:
            raise Failed(f"request {number}: {script!r} ended with status {status} and printed {output!r} and {errors!r}")
        if output == outputs[-1]:
            break
    return seen, ends


def try_script(program, script, outputs):
    """Runs a script, and returns what to print of it."""
    seen, ends = outputs_of(program, script, outputs)
    if not ends:
        raise Failed(f"{script!r} never ended for want of memory")
    if seen != set(outputs):
        raise Failed(f"{script!r} never printed {sorted(set(outputs) - seen)}")
    return f"{script!r}: status 3 {ends} times, {len(outputs) - 1} other outputs: ok"
