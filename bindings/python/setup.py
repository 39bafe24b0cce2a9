"""Builds the module `_core` with the library in it: libhibitset.a, which `make -C bindings/c` makes.

The first of these that is there: the folder in HIBITSET_LIB_DIR, what pkg-config has as hibitset, and ../c/out. The header lies
in HIBITSET_INCLUDE_DIR, where pkg-config says, or in ../c.
"""
import os
import subprocess
import sys
from pathlib import Path

from setuptools import Extension, setup
from setuptools.command.build_ext import build_ext

HERE = Path(__file__).resolve().parent
LIBRARY = "libhibitset.a"


def from_pkg_config(variable):
    command = ["pkg-config", f"--variable={variable}", "hibitset"]
    try:
        return subprocess.run(command, capture_output=True, text=True, check=True).stdout.strip()
    except (OSError, subprocess.CalledProcessError):
        return ""


def folders():
    """Where the library and its header lie."""
    library = os.environ.get("HIBITSET_LIB_DIR")
    if library:
        return Path(library), Path(os.environ.get("HIBITSET_INCLUDE_DIR", library))
    library = from_pkg_config("libdir")
    if library:
        return Path(library), Path(from_pkg_config("includedir"))
    return HERE.parent / "c" / "out", HERE.parent / "c"


class Build(build_ext):
    def run(self):
        library, headers = folders()
        if not (library / LIBRARY).is_file():
            sys.exit(f"hibitset: there is no {LIBRARY} in {library}: set HIBITSET_LIB_DIR, or run make -C bindings/c")
        for extension in self.extensions:
            extension.include_dirs.append(str(headers))
            extension.extra_objects.append(str(library / LIBRARY))
            extension.depends += [str(library / LIBRARY), str(headers / "hibitset.h")]
            extension.depends += ["src/core/core.h", "src/core/set.h"]
        super().run()


setup(
    ext_modules=[
        Extension(
            "hibitset._core",
            sorted(str(path.relative_to(HERE)) for path in (HERE / "src" / "core").glob("*.c")),
            py_limited_api=True,
            extra_compile_args=["-std=c11", "-O2", "-Wall", "-Wextra", "-fvisibility=hidden"],
            # No name of the library is seen outside.
            extra_link_args=["-Wl,--exclude-libs,ALL", "-Wl,-z,text", "-Wl,-z,now", "-pthread"],
        )
    ],
    cmdclass={"build_ext": Build},
    options={"bdist_wheel": {"py_limited_api": "cp311"}},
)
