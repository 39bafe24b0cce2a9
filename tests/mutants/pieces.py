"""The pieces of code that no prover sees: their files, how a copy of them is built, and how a test runs there."""
import os
import shutil
import subprocess
from pathlib import Path

from .unseen import Table

TOP = Path(__file__).resolve().parent.parent.parent
LEFT_OUT = shutil.ignore_patterns("target", "out", "specs", "proofs", "must-fail", "__pycache__", "*.lock")
SECONDS = 120  # What a test may take; one that takes longer fails.
BUILD_SECONDS = 900


class NotBuilt(Exception):
    """A copy that is not compiled: its mutant counts for nothing."""


def run(command, folder, seconds=SECONDS, **variables):
    """Runs a command. Returns its status, or None if it takes too long, and what it prints."""
    words, environment = [str(word) for word in command], {**os.environ, "PYTHONDONTWRITEBYTECODE": "1", **variables}
    try:
        ran = subprocess.run(
            words, cwd=folder, env=environment, timeout=seconds, stdin=subprocess.DEVNULL, stdout=subprocess.PIPE, stderr=subprocess.STDOUT, text=True, errors="replace"
        )
    except subprocess.TimeoutExpired:
        return None, ""
    return ran.returncode, ran.stdout


class TooLong(Exception):
    """A test that takes longer than it may: it fails."""


def status_of(command, folder, seconds=SECONDS, **variables):
    """The status of a test, and what it prints."""
    status, said = run(command, folder, seconds, **variables)
    if status is None:
        raise TooLong
    return status, said


def build(command, folder, **variables):
    status, said = run(command, folder, BUILD_SECONDS, **variables)
    if status != 0:
        lines = [line for line in said.splitlines() if "error" in line]
        raise NotBuilt((lines or said.splitlines() or ["no word"])[0])


class Piece:
    """A piece: its files, and the folders that a copy has."""

    def __init__(self, name, folders, patterns):
        self.name, self.folders, self.patterns = name, folders, patterns

    def paths(self, top=TOP):
        return sorted(path for pattern in self.patterns for path in top.glob(pattern) if path.name != "tests.rs")

    def table(self, top=TOP):
        return Table(top / "tests" / "mutants" / "unseen" / f"{self.name}.mutants")

    def prepare(self, room):
        """Makes a worker's copy."""
        for folder in self.folders:
            shutil.copytree(TOP / folder, room / folder, ignore=LEFT_OUT)

    def missing(self):
        """What the machine lacks, if something."""
        return None

    def fails(self, room, test, changed):
        """Whether a test fails in a copy in which a file is changed. NotBuilt, if it does not compile."""
        raise NotImplementedError


class Derivation(Piece):
    """The scripts that derive, and those that check it."""

    COMMANDS = {
        "unit": ["-m", "unittest", "-q", "test_derivation"],
        "derive": ["derive.py"],
        "tests": ["derive.py", "--tests"],
        "check": ["check.py"],
        "mutants": ["check_mutants.py"],
        "callees": ["callees.py"],
    }
    ALSO = {"tests": ["check.py", "--tests"]}

    def missing(self):
        return None if shutil.which("rustc") else "rustc"

    def fails(self, room, test, changed):
        if changed:
            build(["python3", "-m", "py_compile", changed], room)
        commands = [self.COMMANDS[test], *([self.ALSO[test]] if test in self.ALSO else [])]
        return any(status_of(["python3", *command], room / "rust")[0] != 0 for command in commands)


class Rust(Piece):
    """The Rust crate: what is written by hand around the derived files."""

    VARIABLES = {"CARGO_PROFILE_DEV_OPT_LEVEL": "1", "CARGO_PROFILE_DEV_DEBUG": "0", "CARGO_INCREMENTAL": "1", "CARGO_TERM_COLOR": "never"}
    REGISTRY = os.environ.get("RUST_REGISTRY", "/usr/share/cargo/registry")  # Debian's folder of crates
    CONFIG = '[source.crates-io]\nreplace-with = "here"\n[source.here]\ndirectory = "{}"\n'

    def missing(self):
        if not shutil.which("cargo"):
            return "cargo"
        return None if os.path.isdir(self.REGISTRY) else f"folder {self.REGISTRY}"

    def prepare(self, room):
        super().prepare(room)
        (room / "config.toml").write_text(self.CONFIG.format(self.REGISTRY), encoding="utf-8")
        built = TOP / "rust" / "target" / "debug"
        for folder in ("build", "deps", ".fingerprint"):  # The crates that it stands on, if rust.sh has built them.
            if (built / folder).is_dir():
                shutil.copytree(built / folder, room / "target" / "debug" / folder)

    def fails(self, room, test, changed):
        words = test.split()
        features = ["--no-default-features"] if words[0] == "bare" else ["--features", "parallel,serde"]
        name, *only = words[words[0] == "bare" :]
        which = [f"--{name}"] if name == "lib" else ["--test", name]
        options = ["--config", room / "config.toml", "--offline", "--quiet", "-j", "1", *features, *which]
        variables = {**self.VARIABLES, "CARGO_TARGET_DIR": str(room / "target")}
        build(["cargo", "test", "--no-run", *options], room / "rust", **variables)
        return status_of(["cargo", "test", *options, *only], room / "rust", **variables)[0] != 0


class Compiled(Piece):
    """Code over the library for C, which `make -C bindings/c` builds."""

    HEADERS = os.environ.get("HIBITSET_INCLUDE_DIR", TOP / "bindings" / "c")
    LIBRARY = os.path.join(os.environ.get("HIBITSET_LIB_DIR", TOP / "bindings" / "c" / "out"), "libhibitset.a")
    WRAP = ["-Wl,--wrap=malloc,--wrap=realloc"]

    def missing(self):
        return None if os.path.isfile(self.LIBRARY) else self.LIBRARY


class Python(Compiled):
    """The C of the Python package."""

    PYTHON = os.environ.get("PYTHON", "/usr/bin/python3")
    PACKAGE = "bindings/python"
    VARIABLES = {"HIBITSET_EXAMPLES": "30", "HIBITSET_INCLUDE_DIR": str(Compiled.HEADERS)}
    REFUSED = "ImportError: hibitset needs a processor of level x86-64-v2, with SSE 4.2 and POPCNT"

    def missing(self):
        if run([self.PYTHON, "-c", "import numpy, pytest, hypothesis"], TOP)[0] != 0:
            return "modules numpy, pytest and hypothesis"
        return super().missing()

    def compiled(self, source, target, flags):
        include = run([self.PYTHON, "-c", "import sysconfig; print(sysconfig.get_path('include'))"], TOP)[1].strip()
        target.parent.mkdir(exist_ok=True)
        build(["cc", "-w", "-c", "-fPIC", "-std=c11", "-O1", f"-I{self.HEADERS}", f"-I{include}", *flags, source, "-o", target], source.parent)

    def link(self, package, changed, flags, extra):
        """Builds the module, whose files are compiled once, but for what is changed: all of them if that is a header."""
        objects = []
        for source in sorted((package / "src" / "core").glob("*.c")):
            is_anew = bool(flags) or changed and changed in (source, source.with_name(changed.name).with_suffix(".h"))
            target = package / ("changed" if is_anew else "clean") / f"{source.stem}.o"
            if is_anew or not target.exists():
                self.compiled(source, target, flags)
            objects.append(target)
        module = package / "src" / "hibitset" / "_core.abi3.so"
        build(["cc", "-shared", "-fPIC", *objects, *extra, self.LIBRARY, "-pthread", "-o", module], package)

    def fails(self, room, test, changed):
        package, name, *words = room / self.PACKAGE, *test.split()
        extra, flags, wanted = [], [], None
        command = ["-m", "pytest", "-q", "-x", "-p", "no:cacheprovider", f"tests/test_{name}.py", *(["-k", " and ".join(words)] if words else [])]
        if test == "failing":
            extra = ["tests/failing.c", f"-I{self.HEADERS}", *self.WRAP, "-Wl,--wrap=hibitset_sparse_len,--wrap=hibitset_hash,--wrap=hibitset_contains_many,--wrap=hibitset_add_range"]
            command = ["tests/failing.py"]
        elif test == "processor":
            flags, command, wanted = ["-DPROCESSOR_HAS(feature)=0"], ["-c", "import hibitset"], self.REFUSED
        self.link(package, changed, flags, extra)
        status, said = status_of([self.PYTHON, *command], package, PYTHONPATH=str(package / "src"), **self.VARIABLES)
        return status != 0 if wanted is None else said.splitlines()[-1:] != [wanted]


class Cpp(Compiled):
    """The header for C++."""

    def missing(self):
        return super().missing() if shutil.which("c++") else "c++"

    def fails(self, room, test, changed):
        folder = room / "bindings" / "c"
        flags = ["-O0", "-fsanitize=address"] if test == "sanitized" else ["-O0"]
        build(["c++", "-std=c++11", "-w", *flags, "test_cpp.cpp", self.LIBRARY, *self.WRAP, "-o", "test_cpp"], folder)
        return status_of(["./test_cpp"], folder)[0] != 0


PIECES = (
    Derivation("derivation", ["rust", "crates"], ["rust/derive.py", "rust/derivation/*.py", "rust/check.py", "rust/callees.py"]),
    Rust("rust", ["rust"], ["rust/src/face/*.rs", "rust/src/beside/*.rs", "rust/src/support/**/*.rs"]),
    Python("python", [Python.PACKAGE], [f"{Python.PACKAGE}/src/core/*.[ch]"]),
    Cpp("cpp", ["bindings/c"], ["bindings/c/hibitset.hpp"]),
)
