#!/usr/bin/env python3
"""check.py [--names]: sees that hibitset.h declares exactly what the library has, and that the layouts of a set agree.

Functions  Each function that the header declares without a body is an export of the crate, with the same parameters, in
           name and type, and the same result; and each export is declared.
Layouts    `Set` and `LentSet` of the crate have the same fields in the same places, and `hibitset_t` has them too; so do
           `SparseSet` and `hibitset_sparse_t`, `AtomicSet` and `hibitset_atomic_t`, and `SeatSlot` and
           `hibitset_seat_t`.
Numbers    The enumerators of hibitset_status are the constants of status.rt, and those of hibitset_fault those of fault.rt.
Versions   HIBITSET_VERSION is the version in the file VERSION, and its three numbers are those of the macros.
Statuses   Each function that returns a status is HIBITSET_MUST_USE.

It prints a line for each fault, and ends with status 1 where there is one. With --names it prints the names that the
library has for others, one a line, and looks at nothing else.
"""
import re
import sys
from pathlib import Path

HERE = Path(__file__).resolve().parent
TOP = HERE.parent.parent
CRATE = TOP / "crates" / "hibitset_c" / "src"

# What C calls a type of an export: each parameter may be one or two of C's, with what follows its name. An allocator takes
# no bytes, so C passes nothing for it.
TYPES = {
    "Global": [],
    "&mut Set": [("hibitset_t *", "")],
    "&LentSet<'_>": [("const hibitset_t *", "")],
    "&mut SparseSet": [("hibitset_sparse_t *", "")],
    "&mut AtomicSet": [("hibitset_atomic_t *", "")],
    "&mut SeatSlot": [("hibitset_seat_t *", "")],
    "u32": [("uint32_t", "")],
    "usize": [("size_t", "")],
    "&mut u32": [("uint32_t *", "")],
    "fault: &mut u32": [("hibitset_fault *", "")],
    "&mut usize": [("size_t *", "")],
    "&[u32]": [("const uint32_t *", ""), ("size_t", "len")],
    "&mut [u32]": [("uint32_t *", ""), ("size_t", "len")],
    "&[usize]": [("const uint64_t *", ""), ("size_t", "len")],
    "&mut [usize]": [("uint64_t *", ""), ("size_t", "len")],
    "u64": [("uint64_t", "")],
    "&[u64]": [("const uint64_t *", ""), ("size_t", "len")],
    "&mut [u64]": [("uint64_t *", ""), ("size_t", "len")],
    "&[u8]": [("const uint8_t *", ""), ("size_t", "len")],
    "&mut [u8]": [("uint8_t *", ""), ("size_t", "len")],
}
RESULTS = {"": "void", "bool": "bool", "usize": "size_t", "u32": "hibitset_status", "u64": "uint64_t"}

# The structs of the crate that are seen as a struct of the header.
LAYOUTS = [
    (["Set", "LentSet"], "hibitset"),
    (["SparseSet"], "hibitset_sparse"),
    (["AtomicSet"], "hibitset_atomic"),
    (["SeatSlot"], "hibitset_seat"),
]

# The size of a field; all are aligned to it.
SIZES = {"usize": 8, "*const usize": 8, "bool": 1}


def squeezed(text):
    return re.sub(r"\s*\*\s*", " *", " ".join(text.split())).replace(" *", " *").strip()


def exports():
    """The exports of the crate, each as C declares it: name, result, parameters."""
    found = {}
    for path in sorted(CRATE.glob("*.rt")):
        text = path.read_text(encoding="utf-8")
        for name, parameters, result in re.findall(r'extern "C" fn (\w+)\(([^)]*)\)(?: -> (\w+))?', text):
            said = []
            for parameter in filter(None, (part.strip() for part in re.split(r",\s*(?![^<]*>)", parameters))):
                word, kind = (part.strip() for part in parameter.split(":", 1))
                kinds = TYPES.get(f"{word}: {kind}") or TYPES[kind]
                # The length of a second slice has that slice's name.
                said += [(c_type, f"{word}_{second}" if (c_type, second) in said else second or word) for c_type, second in kinds]
            found[name] = (RESULTS[result], said)
    return found


def code_of(header):
    """The header without its comments, and without the macro before what returns a status."""
    return re.sub(r"/\*.*?\*/", "", header, flags=re.S).replace("HIBITSET_MUST_USE ", "")


def declarations(header):
    """The functions that the header declares without a body, but for those of version.c, in the same form."""
    text = code_of(header)
    found = {}
    for result, name, parameters in re.findall(r"^(?!static|typedef)(\w[\w ]*?) (hibitset_\w+)\(([^)]*)\);", text, re.M):
        said = []
        for parameter in parameters.split(","):
            kind, word = re.match(r"(.*?)(\w+)$", parameter.strip()).groups()
            said.append((re.sub(r"\s*\*$", " *", kind.strip()), word))
        found[name] = (result, said)
    return found


def fields(name, types):
    """The fields of a struct of the crate in order, those of structs within it in their place, each as offset and size."""
    body = re.search(rf"pub struct {name}(?:<'a>)? \{{\n(.*?)^\}}", types, re.M | re.S)[1]
    found = []
    for kind in re.findall(r"^    (?!ghost|pub ghost)(?:pub(?:\(crate\))? )?\w+: (.*),$", body, re.M):
        if kind == "&'a [usize]":
            found += [8, 8]
        else:
            found += [SIZES[kind]] if kind in SIZES else [size for _, size in fields(kind, types)]
    return placed(found)


def placed(sizes):
    offset, found = 0, []
    for size in sizes:
        offset = -(-offset // size) * size
        found.append((offset, size))
        offset += size
    return found


def c_fields(name, header):
    """The fields of a struct of the header, in the same form."""
    body = re.search(rf"typedef struct {name}_t \{{\n(.*?)^\}} {name}_t;", header, re.M | re.S)[1]
    layers = re.search(r"struct \{\s*const uint64_t \*words;\s*size_t len;\s*\} layers_\[4\];", body)
    rest = re.findall(r"^    (uint64_t |const void \*|bool )\w+;", body[layers.end() if layers else 0 :], re.M)
    return placed(([8, 8] * 4 if layers else []) + [{"uint64_t ": 8, "const void *": 8, "bool ": 1}[kind] for kind in rest])


def of_version(header):
    """What version.c defines, as the header declares it: names and declarations."""
    source = (HERE / "version.c").read_text(encoding="utf-8")
    found = re.findall(r"^(const [\w ]+?[ *](hibitset_\w+)(?:\(void\))?) [={]", source, re.M)
    return {name: f"{'' if said.endswith(')') else 'extern '}{said};" for said, name in found}


def wrong_version(header):
    """What the header and version.c say of the version and the ABI, where it is not so."""
    version = (TOP / "VERSION").read_text(encoding="utf-8").strip()
    numbers = [re.search(rf"^#define HIBITSET_VERSION_{part} (\d+)$", header, re.M)[1] for part in ("MAJOR", "MINOR", "PATCH")]
    text = re.search(r'^#define HIBITSET_VERSION "(.*)"$', header, re.M)[1]
    if not text == ".".join(numbers) == version:
        yield f"the header has version {text} and {'.'.join(numbers)}, VERSION has {version}"
    for name, said in of_version(header).items():
        if said not in code_of(header):
            yield f"{name}: version.c defines it, the header does not declare it as {said}"
    for number in set(re.findall(r"libhibitset\.so\.(\d+)|hibitset_abi_(\d+)", header)):
        if max(number) != abi(header):
            yield f"the header names two numbers of the ABI: {max(number)}, {abi(header)}"


def abi(header):
    """The number of the ABI."""
    return re.search(r"^extern const uint64_t hibitset_abi_(\d+);$", header, re.M)[1]


def unwarned(header):
    """The functions that return a status which a caller may drop without a warning."""
    text = re.sub(r"/\*.*?\*/", "", header, flags=re.S)
    for before, name in sorted(set(re.findall(r"^([\w ]*?)hibitset_status (hibitset_\w+)\(", text, re.M))):
        defined = re.search(rf"^HIBITSET_MUST_USE static inline hibitset_status {name}\(", text, re.M)
        if "HIBITSET_MUST_USE" not in before and not defined:
            yield f"{name}: is not HIBITSET_MUST_USE"


def faults(header):
    of_crate, of_header = exports(), declarations(header)
    yield from wrong_version(header)
    yield from unwarned(header)
    for name in sorted(set(of_crate) | set(of_header)):
        ours, theirs = of_crate.get(name), of_header.get(name)
        if ours != theirs:
            yield f"{name}: the crate exports {ours}, the header declares {theirs}"
    files = ("words", "handle", "set", "lent_set", "owned_box", "sparse_set", "atomic_set", "seat_slot")
    types = "".join((CRATE / f"{name}.rt").read_text(encoding="utf-8") for name in files)
    for ours, theirs in LAYOUTS:
        layouts = {name: fields(name, types) for name in ours} | {f"{theirs}_t": c_fields(theirs, header)}
        if len(set(map(tuple, layouts.values()))) > 1:
            yield f"the layouts differ: {layouts}"
    for enum, prefix in [("status", "HIBITSET_"), ("fault", "HIBITSET_FAULT_")]:
        constants = (CRATE / f"{enum}.rt").read_text(encoding="utf-8")
        body = re.search(rf"typedef enum hibitset_{enum} \{{\n(.*?)^\}} hibitset_{enum};", header, re.M | re.S)[1]
        ours = {prefix + name: value for name, value in re.findall(r"pub const (\w+): u32 = (\d+);", constants)}
        theirs = dict(re.findall(r"^    (HIBITSET_\w+) = (\d+)", body, re.M))
        if ours != theirs:
            yield f"the numbers of hibitset_{enum} differ: {ours}, {theirs}"


def main():
    header = (HERE / "hibitset.h").read_text(encoding="utf-8")
    if sys.argv[1:] == ["--names"]:
        print("\n".join(sorted([*declarations(header), *of_version(header)])))
        return
    said = list(faults(header))
    for line in said:
        print(line)
    print(f"check.py: {len(exports())} exports: {f'{len(said)} faults' if said else 'ok'}")
    sys.exit(1 if said else 0)


if __name__ == "__main__":
    main()
