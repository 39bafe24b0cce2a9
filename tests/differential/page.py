"""The examples of crates/hibitset_run/README.md. They stand there as in a file of scripts/, and program.txt has the same text."""
import re
from pathlib import Path

import bundle

PAGE = Path(__file__).resolve().parent.parent.parent / "crates" / "hibitset_run" / "README.md"


def text():
    """The examples, one after the other."""
    return "".join(re.findall(r"^```\n(=== .*?)^```$", PAGE.read_text(encoding="utf-8"), re.M | re.S))


def scripts():
    return bundle.parsed(text().splitlines(keepends=True), PAGE.name)
