"""The files of scripts: how they are read and written.

A file has any number of scripts. A script begins with a line '=== NAME' and has sections, each under a line of its own:

    === NAME            then the script as it stands, or
    === NAME made       for a script that recipes.py makes under this name, then its digest
    === args WORD..     the arguments that the program is given (left out: none)
    === stdin folder    the program reads a folder, not the script
    === stdout full     the program writes to a device that takes nothing
    === out             what is to come on standard output (left out: nothing)
    === out digests     the same by digests, each of some lines (a line 'LINES DIGEST')
    === err             what is to come on standard error (left out: nothing)
    === status N        the exit status (left out: 0)

The files have printable ASCII alone. In a script, its output and its errors any other byte is written \\xHH, a backslash
is written \\\\, and a line that ends in a single backslash has no newline: it is a text's last line.
"""
import hashlib
import re

PIECE = 1000  # lines to a digest


class Script:
    def __init__(self, name):
        self.name = name
        self.text = b""
        self.digest = None  # of a made script
        self.args = []
        self.folder = False
        self.full = False
        self.out = b""
        self.digests = None  # of the output: [(lines, digest)]
        self.err = b""
        self.status = 0


def digest(text):
    return hashlib.sha256(text).hexdigest()[:16]


def lines_of(text):
    """The lines, each with its newline. Only a newline ends a line."""
    return re.findall(rb"[^\n]*\n|[^\n]+", text)


def pieces(text):
    lines = lines_of(text)
    parts = [lines[at : at + PIECE] for at in range(0, len(lines), PIECE)]
    return [(len(part), digest(b"".join(part))) for part in parts]


def escaped(text):
    def line(one):
        bare = one[:-1] if one.endswith(b"\n") else one
        shown = "".join(
            "\\\\" if byte == 0x5C else chr(byte) if 0x20 <= byte < 0x7F else f"\\x{byte:02x}" for byte in bare
        )
        if shown.startswith("==="):
            shown = "\\x3d" + shown[1:]
        return shown + ("\n" if one.endswith(b"\n") else "\\\n")

    return "".join(map(line, lines_of(text)))


def unescaped(line):
    """The bytes of one line of a file."""
    bare = line.rstrip("\n")
    parts = re.findall(r"\\x[0-9a-f]{2}|\\\\|\\$|[^\\]+", bare)
    if "".join(parts) != bare:
        raise ValueError(f"not a line of a text: {bare}")
    out = b""
    for part in parts:
        if part == "\\":
            return out
        out += bytes([int(part[2:], 16)]) if part.startswith("\\x") else part.replace("\\\\", "\\").encode("ascii")
    return out + b"\n"


def written(script):
    made = script.digest is not None
    text = f"=== {script.name}{' made' if made else ''}\n"
    text += f"{script.digest}\n" if made else escaped(script.text)
    if script.args:
        text += f"=== args {' '.join(script.args)}\n"
    if script.folder:
        text += "=== stdin folder\n"
    if script.full:
        text += "=== stdout full\n"
    if script.digests is not None:
        text += "=== out digests\n" + "".join(f"{count} {it}\n" for count, it in script.digests)
    elif script.out:
        text += "=== out\n" + escaped(script.out)
    if script.err:
        text += "=== err\n" + escaped(script.err)
    if script.status:
        text += f"=== status {script.status}\n"
    return text


def read(path):
    """The scripts of one file."""
    with open(path, encoding="ascii", newline="\n") as file:
        return parsed(file, path)


def parsed(lines, name):
    """The scripts of the lines of a file of this name."""
    scripts = []
    section = None
    for number, line in enumerate(lines, 1):
        words = line.split()
        if line.startswith("=== "):
            section = words[1]
            if section == "args":
                scripts[-1].args = words[2:]
            elif section == "stdin":
                scripts[-1].folder = True
            elif section == "stdout":
                scripts[-1].full = True
            elif section == "status":
                scripts[-1].status = int(words[2])
            elif section == "out" and words[2:] == ["digests"]:
                section = "digests"
                scripts[-1].digests = []
            elif section not in ("out", "err"):
                scripts.append(Script(section))
                section = "made" if words[2:] == ["made"] else "text"
        elif section == "text":
            scripts[-1].text += unescaped(line)
        elif section == "made":
            scripts[-1].digest = words[0]
        elif section == "out":
            scripts[-1].out += unescaped(line)
        elif section == "digests":
            scripts[-1].digests.append((int(words[0]), words[1]))
        elif section == "err":
            scripts[-1].err += unescaped(line)
        else:
            raise ValueError(f"{name}:{number}: {line.rstrip()}")
    return scripts
