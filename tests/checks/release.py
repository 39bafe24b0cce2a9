"""A release: versions, the C header, toolchains, packages, and README's tables of speed.

Versions   The version in VERSION is that of the header, of rust/Cargo.toml if it is there, of README, and of a heading of
           CHANGELOG.md.
License    rust/LICENSE and bindings/python/LICENSE are LICENSE.
Header     bindings/c/check.py finds no fault.
Toolchains README names each toolchain of .ci/kit, and its logic.
Packages   The Dockerfile installs what .ci/packages lists. That has a package for each command that tests/bindings.sh or tests/rust.sh
           asks for, and for each module that tests/python.sh does.
Speed      README's tables between <!-- speed -->, <!-- crate --> and <!-- slower --> and their ends are those that bench/results.txt gives.
           bench/RESULTS.md is what bench/results.py makes of that.
           Each row that is slower than the original is in one of them.
Pictures   Those of docs/pictures are what draw.py draws. docs.py --write makes tables and pictures anew.
"""
import re
import subprocess
import sys
import tempfile
from pathlib import Path

TOP = Path(__file__).resolve().parent.parent.parent
sys.path.insert(0, str(TOP / "bench"))

from results import head_of, page, ratio_of, rows_of, write_page  # noqa: E402 (its folder is named above)


def text_of(name):
    path = TOP / name
    return path.read_text(encoding="utf-8") if path.is_file() else ""


def wrong_versions(text=text_of):
    """The files that do not say the version of the file VERSION."""
    version = text("VERSION").strip()
    if not re.fullmatch(r"\d+\.\d+\.\d+", version):
        yield "VERSION", f"is no version: {version}"
    cargo = re.search(r'^version = "(.*)"$', text("rust/Cargo.toml"), re.M)
    if text("rust/Cargo.toml") and (not cargo or cargo[1] != version):
        yield "rust/Cargo.toml", f"has another version than {version}"
    if f"\n## [{version}] - " not in text("CHANGELOG.md"):
        yield "CHANGELOG.md", f"has no heading for {version}"
    if f"This is version {version}." not in text("README.md"):
        yield "README.md", f"does not say that this is version {version}"


def wrong_license(text=text_of):
    """The licenses of the packages for Rust and Python, which are copies: a package has no file from outside of its folder."""
    for copy in ("rust/LICENSE", "bindings/python/LICENSE"):
        if text(copy) != text("LICENSE"):
            yield copy, "is not LICENSE"


def wrong_header():
    """What bindings/c/check.py says, but for its last line."""
    ran = subprocess.run([sys.executable, TOP / "bindings/c/check.py"], capture_output=True, text=True)
    lines = (ran.stdout + ran.stderr).splitlines()
    yield from (("bindings/c/hibitset.h", line) for line in (lines[:-1] if ran.returncode == 1 else lines if ran.returncode else []))


def wrong_kits(text=text_of):
    """The toolchains of .ci/kit that README does not name."""
    lines = text(".ci/kit").splitlines()
    if not lines:
        yield ".ci/kit", "names no toolchain"
    for line in lines:
        found = re.fullmatch(r"(\S+) logic ([0-9a-f]+)", line)
        if not found:
            yield ".ci/kit", f"is not what rt version prints: {line}"
        else:
            yield from (("README.md", f"does not name `{word}`") for word in found.groups() if f"`{word}`" not in text("README.md"))


# The package of Debian that has a command.
PACKAGES = {
    "make": "make",
    "ld": "binutils",
    "objcopy": "binutils",
    "readelf": "binutils",
    "cc": "gcc",
    "c++": "g++",
    "cmake": "cmake",
    "pkg-config": "pkg-config",
    "python3": "python3",
}

# The package of Debian that has a module of Python, or a file that tests/python.sh looks for.
MODULES = {
    "sysconfig": "python3",
    "setuptools": "python3-setuptools",
    "wheel": "python3-wheel",
    "pip": "python3-pip",
    "build": "python3-build",
    "mypy": "python3-mypy",
    "numpy": "python3-numpy",
    "pytest": "python3-pytest",
    "hypothesis": "python3-hypothesis",
    "dask": "python3-dask",
    "distributed": "python3-distributed",
    "Python.h": "python3-dev",
    "roaring/roaring.h": "libroaring-dev",
}

# What the Dockerfile installs beside .ci/packages: a machine may have it from elsewhere.
RUST = {"cargo": "cargo", "rustc": "rustc"}


def wrong_packages(text=text_of):
    """What the Dockerfile does not install, and the commands and modules of tests that no package is listed for."""
    listed, docker = text(".ci/packages").split(), text("Dockerfile")
    if listed != sorted(set(listed)):
        yield ".ci/packages", "is not one name a line, in order, each once"
    copied = re.search(r"^COPY \.ci/packages (\S+)$", docker, re.M)
    installs = re.search(r"^RUN .*apt-get install .*$", docker, re.M)
    if not copied or not installs or f"$(cat {copied[1]})" not in installs[0]:
        yield "Dockerfile", "does not install what .ci/packages lists"
    asked = re.findall(r'has "[^"]*" ([^;]*);', text("tests/bindings.sh")) + re.findall(r"command -v ([\w-]+)", text("tests/rust.sh"))
    for line in asked:
        for command in line.split():
            package = PACKAGES.get(command) or RUST.get(command)
            if not package:
                yield "tests/checks/release.py", f"PACKAGES has no package for {command}"
            elif command in RUST and not re.search(rf"\b{package}\b", installs[0] if installs else ""):
                yield "Dockerfile", f"does not install {package}"
            elif command in PACKAGES and package not in listed:
                yield ".ci/packages", f"lacks {package}, which has {command}"
    yield from wrong_modules(text("tests/python.sh"), listed)


def wrong_modules(script, listed):
    """The modules and files that the script looks for, and that no package is listed for."""
    modules = " ".join(re.findall(r'has "[^"]*" ([\w ]*\w)', script)).split()
    files = re.findall(r'no (Python\.h|roaring/roaring\.h):', script)
    for name in dict.fromkeys(modules + files):
        if name not in MODULES:
            yield "tests/checks/release.py", f"MODULES has no package for {name}"
        elif MODULES[name] not in listed:
            yield ".ci/packages", f"lacks {MODULES[name]}, which has {name}"


# Tables of speed.

# README's rows: what it says, and the row of the table `results`.
SPEED = [
    ("add, 1M random below 2^24", "add, 1M random below 2^24, from empty"),
    ("contains, hit", "contains, hit"),
    ("iterate, dense", "walk, dense, 1M of 1M"),
    ("iterate, 1 %", "walk, 1 %"),
    ("iterate, 0.01 %", "walk, 0.01 %"),
    ("iterate `a & b`, 1 % each", "walk of a & b, 1 % and another 1 %"),
    ("`len`, half of 2^21", "len, half of 2^21"),
    ("`to_vec`, half of 2^21", "to_vec, half of 2^21"),
    ("`a &= b`, half of 2^21 each", "a &= b, half of 2^21 and another half"),
    ("`add_range` and `remove_range`, 100,000 indices", "add\\_range and remove\\_range, 100,000 indices"),
]

# README's columns: what it says, and that of results.txt.
COLUMNS = [("crate", "crate"), ("Rattle", "Rattle"), ("hibitset", "original"), ("fixedbitset", "fixedbitset"), ("CRoaring", "CRoaring"), ("`BTreeSet`", "BTreeSet")]

# What is slower than the original: what README says, and the rows that it is about, in the tables `results` and `shared`.
SLOWER = [
    ("one value of a column, beside a flat vector", r"column (get|insert|remove)"),
    ("`contains` of a shared set", r"contains, hit, 1M (random|ascending), (one thread|all processors)$"),
    ("`clear` and an add after it", r"clear and add one"),
    ("`from_words`, beside a clone", r"from\\_words"),
    ("`add` of ascending indices, and a set collected from them", r"(add|build from an iterator), 1M ascending"),
    ("`remove` of all members", r"remove, all"),
    ("`iter().next()`", r"iter\(\)\.next"),
    ("a drain of all members", r"drain, "),
    ("`bitor_assign` by a thin set", r"a \\\|= b, (10 % and )?0\.01 %"),
    ("`contains_set` of thin sets", r"a\.contains\\_set\(b\), 0\.01 %"),
    ("`contains` of an atomic set", r"atomic contains, hit"),
    ("`last_before` over a dense set, beside `contains`", r"last\\_before, (dense|half)"),
    ("`iter_from(i).next()` over a dense set, beside `contains`", r"iter\\?_from"),
]
SLOWER_TABLES = ("results", "shared")

# From this ratio on a row counts as slower: of ten rows one differs so much from run to run.
SLOWER_FROM = 1.1


def with_commas(number):
    return f"{int(number):,}" if re.fullmatch(r"\d{4,}", number) else number


def speed(results):
    """README's table of speed."""
    rows = {row.name: row for row in rows_of("results", results)}
    day, machine, commit = head_of("results", results)
    lines = [f"Nanoseconds at {commit}, {day}, {machine}; `-` is not measured.", ""]
    lines += ["|  | per | " + " | ".join(shown for shown, _ in COLUMNS) + " |", "|---|---|" + "---:|" * len(COLUMNS)]
    for shown, name in SPEED:
        row = rows[name]
        lines.append(f"| {shown} | {row.unit} | " + " | ".join(with_commas(row.cells[column]) for _, column in COLUMNS) + " |")
    return "\n".join(lines) + "\n"


def ratios(results):
    """The names and ratios of the rows that have one, of the tables that README's is made of."""
    for table in SLOWER_TABLES:
        yield from ((row.name, ratio_of(row)) for row in rows_of(table, results) if ratio_of(row) is not None)


def slower(results):
    """README's table of what is slower than the original."""
    lines = ["| call | ratio, at most |", "|---|---:|"]
    most = [(max(ratio for name, ratio in ratios(results) if re.match(pattern, name)), shown) for shown, pattern in SLOWER]
    lines += [f"| {shown} | {ratio:.1f} |" for ratio, shown in sorted(most)]
    return "\n".join(lines) + "\n"


def unlisted(results):
    """The rows that are slower than the original and in no row of README's table."""
    for name, ratio in ratios(results):
        if ratio >= SLOWER_FROM and not any(re.match(pattern, name) for _, pattern in SLOWER):
            yield "tests/checks/release.py", f"SLOWER has no row for {name}: {ratio}"


TABLES = {"speed": speed, "slower": slower}


def with_tables(page, results):
    """The page with its tables as results.txt gives them."""
    for name, table in TABLES.items():
        page = re.sub(
            rf"(^<!-- {name} -->\n).*?(^<!-- /{name} -->$)",
            lambda found: found[1] + table(results) + found[2],
            page,
            flags=re.M | re.S,
        )
    return page


def wrong_tables(text=text_of):
    """README's tables that are not those of results.txt, and RESULTS.md if it is not."""
    readme, results = text("README.md"), text("bench/results.txt")
    for name in TABLES:
        if f"<!-- {name} -->\n" not in readme:
            yield "README.md", f"has no table between <!-- {name} --> and <!-- /{name} -->"
    if with_tables(readme, results) != readme:
        yield "README.md", "its tables of speed are not those of bench/results.txt (docs.py --write)"
    if page(results) != text("bench/RESULTS.md"):
        yield "bench/RESULTS.md", "is not what bench/results.py makes of bench/results.txt (docs.py --write)"
    yield from unlisted(results)


def wrong_pictures(text=text_of):
    """The pictures of docs/pictures that draw.py draws otherwise."""
    with tempfile.TemporaryDirectory() as folder:
        subprocess.run([sys.executable, TOP / "docs/pictures/draw.py", folder], check=True)
        for drawn in sorted(Path(folder).iterdir()):
            name = f"docs/pictures/{drawn.name}"
            if drawn.read_text(encoding="utf-8") != text(name):
                yield name, "is not what draw.py draws (docs.py --write)"


def write_tables():
    write_page()
    readme = text_of("README.md")
    new = with_tables(readme, text_of("bench/results.txt"))
    if new != readme:
        (TOP / "README.md").write_text(new, encoding="utf-8")
        print("docs.py: README.md: its tables of speed are written anew")
    subprocess.run([sys.executable, TOP / "docs/pictures/draw.py"], check=True)


def faults(repository=None):
    """All that is wrong, each as page, line and words."""
    for found in (wrong_versions, wrong_license, wrong_header, wrong_kits, wrong_packages, wrong_tables, wrong_pictures):
        yield from ((TOP / page, 1, words) for page, words in found())
