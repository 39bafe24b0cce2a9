"""Lists of what is not right yet and known: they may only shrink."""


def lines_of(path):
    return path.read_text(encoding="utf-8").splitlines() if path.is_file() else []


def listed(path):
    """The lines of a list, without its comments."""
    return [line for line in lines_of(path) if line and not line.startswith("#")]


def changes(path, found, new, gone):
    """What is found and not in the list, and what is in the list and not found; both texts end in the line."""
    lines = listed(path)
    yield from ((path, 1, f"{new}: {each}") for each in sorted(set(found) - set(lines)))
    yield from ((path, 1, f"{gone}: {each}") for each in lines if each not in found)


def shrink(path, found):
    """Takes off a list what is no longer found; returns whether it had some of it."""
    lines = lines_of(path)
    left = [line for line in lines if not line or line.startswith("#") or line in found]
    if left != lines:
        path.write_text("\n".join(left) + "\n", encoding="utf-8")
    return left != lines
