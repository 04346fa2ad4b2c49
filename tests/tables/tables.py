"""Holds the places where the library's functions, structs, numbers and words stand against each other: the Rattle crates, the C header, the Rust crate's and
the referee's declarations, and the Python module.

    python3 tables.py ROOT

The header is the middle: each of the others is compared with it, and the header itself with what gcc makes of it. Prints what differs, and how much was
compared; the exit status is 0 if nothing differs.
"""

import ctypes
import glob
import os
import re
import subprocess
import sys

ROOT = sys.argv[1]
SCALARS = {"u8": 1, "u16": 2, "u32": 4, "usize": 8, "bool": 1}
C_SCALARS = {"uint8_t": "u8", "uint16_t": "u16", "uint32_t": "u32", "size_t": "usize", "bool": "bool"}
#: Fields of the crates that C names otherwise.
OTHER_NAMES = {"register": "crc_start", "wrong": "wrong_locator", "class": "class_code", "ptype": "type_code", "common": "common_delay",
               "flag": "expansion", "fields": "expansion", "first": "first_dry", "most": "most_waiting", "psd.start": "psd_start",
               "psd.length": "psd_length"}

compared = {}
faults = []


def text_of(*path):
    with open(os.path.join(ROOT, *path), encoding="utf-8") as file:
        return file.read()


def same(what, name, expected, came):
    """A comparison, counted by what it is about."""
    compared[what] = compared.get(what, 0) + 1
    if expected != came:
        faults.append("{}: {}: {} and {}".format(what, name, expected, came))


# ---- Layouts ------------------------------------------------------------------------------------------------------------------------------------


class Struct:
    """Fields with their types and counts, and where C puts them."""

    def __init__(self, fields):
        #: Paths of scalars: name, offset, size of each, count.
        self.leaves = []
        at = most = 0
        for name, kind, count in fields:
            size, align = (SCALARS[kind],) * 2 if isinstance(kind, str) else (kind.size, kind.align)
            at += -at % align
            if isinstance(kind, str):
                self.leaves.append((name, at, size, count))
            else:
                self.leaves += [(name + "." + path, at + offset, size, many) for path, offset, size, many in kind.leaves]
            at += kind.size * count if not isinstance(kind, str) else size * count
            most = max(most, align)
        self.align = most
        self.size = at + -at % most

    def told(self):
        return [("whole", 0, self.size, self.align)] + self.leaves


def form(kind):
    """A type as it is compared: a scalar by its size, since C has a byte where Rattle has a bool in an answer; a struct by its fields."""
    return kind.told() if isinstance(kind, Struct) else SCALARS[kind]


def compare(what, name, header, other):
    """A function's answer and arguments."""
    same(what, name + ", arguments", len(header[1]), len(other[1]))
    for k, (one, two) in enumerate(zip([header[0]] + header[1], [other[0]] + other[1])):
        place = name + (", answer" if k == 0 else ", argument {}".format(k))
        same(what, place + ", by pointer", one[0], two[0])
        same(what, place, form(one[1]), form(two[1]))


# ---- The C header -------------------------------------------------------------------------------------------------------------------------------

header_text = re.sub(r"/\*.*?\*/", "", text_of("include", "barzhilup.h"), flags=re.S)
header_macros = {name: int(value.rstrip("u"), 0)
                 for name, value in re.findall(r"^#define (BARZHILUP_\w+) (0x[0-9A-Fa-f]+u?|\d+)$", header_text, flags=re.M)}
header_structs = {}
header_fields = {}


def c_kind(words):
    word = words.replace("const ", "").strip()
    return C_SCALARS.get(word) or header_structs.get(word)


for body, struct in re.findall(r"typedef struct \{(.*?)\} (\w+);", header_text, flags=re.S):
    rows = [(name, c_kind(kind), header_macros.get(size, 1))
            for kind, name, size in re.findall(r"([\w ]+?) (\w+)(?:\[(\w+)\])?;", body)]
    if "*" not in body:
        header_structs[struct] = Struct(rows)
        header_fields[struct] = [name for name, _, _ in rows]

header_functions = {}
for answer, name, arguments in re.findall(r"^(\w+)\s+(barzhilup_\w+)\(([^()]*)\);", header_text, flags=re.M):
    takes = []
    for argument in arguments.split(","):
        kind, pointer, array = re.match(r"\s*([\w\s]*?)\s*(\*?)\w+(\[\w+\])?\s*$", argument).groups()
        if kind:
            takes.append((("const" if "const" in kind else "mut") if pointer or array else "value", c_kind(kind)))
    header_functions[name] = (("value", c_kind(answer)), takes)


def header_by_gcc():
    """What the header says here is what gcc sees."""
    lines = ['#include "barzhilup.h"']
    for struct, layout in header_structs.items():
        claims = ["sizeof({}) == {}".format(struct, layout.size), "_Alignof({}) == {}".format(struct, layout.align)]
        claims += ["offsetof({}, {}) == {}".format(struct, path, offset) for path, offset, _, _ in layout.leaves]
        claims += ["sizeof((({} *)0)->{}) == {}".format(struct, path, size * count) for path, _, size, count in layout.leaves]
        lines += ['_Static_assert({}, "{}");'.format(claim, claim) for claim in claims]
    lines += ['_Static_assert({} == {}, "{}");'.format(name, value, name) for name, value in header_macros.items()]
    done = subprocess.run(["gcc", "-std=c11", "-fsyntax-only", "-I", os.path.join(ROOT, "include"), "-x", "c", "-"], input="\n".join(lines).encode(),
                          stderr=subprocess.PIPE, check=False)
    for _ in lines[1:]:
        same("header and gcc", "", 0, 0)
    if done.returncode:
        faults.append("header and gcc: " + done.stderr.decode())


# ---- The Rattle crates --------------------------------------------------------------------------------------------------------------------------

crate_texts = {}
for path in sorted(glob.glob(os.path.join(ROOT, "crates", "*", "src", "*.rt"))):
    crate = path.split(os.sep)[-3]
    with open(path, encoding="utf-8") as source:
        crate_texts[crate] = crate_texts.get(crate, "") + re.sub(r"//.*", "", source.read())
crate_structs = {}


def crate_kind(crate, word):
    """A type of a crate: a scalar, or a struct that it has or uses."""
    word = word.strip()
    if word in SCALARS:
        return word
    if "::" in word:
        crate, word = word.split("::")
    used = re.search(r"^use (\w+)::(?:{0}|\{{(?:[^}}]*\W)?{0}(?:\W[^}}]*)?\}});".format(word), crate_texts[crate], flags=re.M)
    if used:
        crate = used.group(1)
    if (crate, word) not in crate_structs:
        found = re.search(r"#\[repr\(C\)\]\s*(?:#\[[^\n]*\]\s*)*pub struct {} \{{(.*?)\n\}}".format(word), crate_texts[crate], flags=re.S)
        rows = []
        for name, array, kind, count in re.findall(r"pub (\w+): (?:(\[)?([\w:]+)(?:; (\d+)\])?),", found.group(1)):
            rows.append((OTHER_NAMES.get(name, name), crate_kind(crate, kind), int(count) if array else 1))
        crate_structs[crate, word] = Struct(rows)
        # The PSD's place and length are a struct of their own there, and stand beside the other fields in C.
        crate_structs[crate, word].leaves = [(OTHER_NAMES.get(leaf[0], leaf[0]),) + leaf[1:] for leaf in crate_structs[crate, word].leaves]
    return crate_structs[crate, word]


def crate_functions():
    for crate in ("capi", "panel"):
        for name, arguments, answer in re.findall(r'pub extern "C" fn (\w+)\(([^()]*)\) -> ([\w:]+)', crate_texts[crate]):
            takes = []
            for argument in filter(None, (part.strip() for part in arguments.split(","))):
                kind = argument.split(":", 1)[1].strip()
                lent = re.match(r"&(mut )?(?:\[(\w+)(?:; \d+)?\]|(\w+))$", kind)
                if not lent:
                    takes.append(("value", crate_kind(crate, kind)))
                    continue
                takes.append(("mut" if lent.group(1) else "const", crate_kind(crate, lent.group(2) or lent.group(3))))
                if lent.group(2) and ";" not in kind:
                    takes.append(("value", "usize"))
            yield name, (("value", crate_kind(crate, answer)), takes)


# ---- Rust ---------------------------------------------------------------------------------------------------------------------------------------


class Rust:
    """The declarations of a Rust package: its structs, constants, and the functions of C."""

    def __init__(self, *folder, names=None):
        self.files = {}
        self.names = names or {}
        self.structs = {}
        for path in sorted(glob.glob(os.path.join(ROOT, *folder, "**", "*.rs"), recursive=True)):
            with open(path, encoding="utf-8") as source:
                self.files[path] = re.sub(r"//.*", "", source.read())
        whole = "\n".join(self.files.values())
        self.constants = {name: int(value.replace("_", ""), 0)
                          for name, value in re.findall(r"pub const (\w+): \w+ = (0x[0-9A-Fa-f_]+|[\d_]+);", whole)}

    def kind(self, path, word):
        """A type: a scalar, or a struct of this file or of another."""
        word = word.strip().split("::")[-1]
        if word in SCALARS:
            return word
        for place in [path] + list(self.files):
            found = re.search(r"#\[repr\(C\)\]\s*(?:#\[.*?\]\s*)*(?:pub(?:\(\w+\))? )?struct {} \{{(.*?)\}}".format(word), self.files[place], flags=re.S)
            if found:
                if (place, word) not in self.structs:
                    rows = re.findall(r"(?:pub(?:\(\w+\))? )?(\w+): (\[)?([\w:]+)(?:; (\w+)\])?,", found.group(1))
                    struct = Struct([(self.names.get(name, name), self.kind(place, kind), self.count(count) if array else 1)
                                     for name, array, kind, count in rows])
                    # The referee names the bytes between fields, to see that they are left alone.
                    struct.leaves = [leaf for leaf in struct.leaves if not leaf[0].startswith("unused")]
                    self.structs[place, word] = struct
                return self.structs[place, word]
        raise SystemExit("no struct {} for {}".format(word, path))

    def count(self, word):
        return int(word) if word.isdigit() else self.constants[word]

    def functions(self):
        for path, text in self.files.items():
            for name, arguments, answer in re.findall(r"fn (barzhilup_\w+)\(([^()]*)\) -> ([\w:]+);", text):
                takes = []
                for argument in filter(None, (part.strip() for part in re.split(r",(?![^\[]*\])", arguments))):
                    pointer, kind = re.match(r"\w+: (\*const |\*mut )?\[?([\w:]+)", argument).groups()
                    takes.append((pointer.strip(" *") if pointer else "value", self.kind(path, kind)))
                yield name, (("value", self.kind(path, answer)), takes)


# ---- Python -------------------------------------------------------------------------------------------------------------------------------------


def python_kind(kind):
    """A type of ctypes as one of the header's."""
    plain = {ctypes.c_uint8: "u8", ctypes.c_uint16: "u16", ctypes.c_uint32: "u32", ctypes.c_size_t: "usize", ctypes.c_bool: "bool"}
    if kind in plain:
        return plain[kind]
    rows = []
    for name, field in kind._fields_:
        array = issubclass(field, ctypes.Array)
        rows.append((name, python_kind(field._type_ if array else field), field._length_ if array else 1))
    return Struct(rows)


def compare_python():
    sys.path.insert(0, os.path.join(ROOT, "bindings", "python"))
    sys.dont_write_bytecode = True
    import barzhilup  # pylint: disable=import-outside-toplevel

    for name, kind in barzhilup._STRUCTS.items():
        same("header and Python", name, header_structs[name].told(), python_kind(kind).told())
        same("header and Python", name + ", by ctypes", [header_structs[name].size] + [getattr(kind, field).offset for field, _ in kind._fields_],
             [ctypes.sizeof(kind)] + [offset_of(header_structs[name], field) for field in header_fields[name]])
    for name, (answer, takes) in barzhilup._FUNCTIONS.items():
        pointers = [hasattr(kind, "contents") for kind in takes]
        other = [("pointer" if lent else "value", python_kind(kind._type_ if lent else kind)) for lent, kind in zip(pointers, takes)]
        plain = [("value" if lent == "value" else "pointer", kind) for lent, kind in header_functions[name][1]]
        compare("header and Python", name, (header_functions[name][0], plain), (("value", python_kind(answer)), other))
    for name, value in header_macros.items():
        short = name[len("BARZHILUP_"):]
        if isinstance(getattr(barzhilup, short, None), int):
            same("header and Python", short, value, getattr(barzhilup, short))
    same("header and Python", "refusals", refusals(), {entry.name: int(entry) for entry in barzhilup.RefusalNumber})
    same("header and Python", "notes", notes(), {entry.name: int(entry) for entry in barzhilup.Cause})
    for number in range(0, 30):
        same("header and Python", "words for {}".format(number), refusal_words().get(number, "unknown"), barzhilup.refusal_text(number))
    for number in range(0, 10):
        same("header and Python", "words for note {}".format(number), note_words().get(number, "unknown"), barzhilup.note_text(number))
    same("versions", "Python", version(), barzhilup.__version__)


def offset_of(layout, field):
    return next(offset for path, offset, _, _ in layout.leaves if path == field or path.startswith(field + "."))


def table_of_modes():
    """The table at the head of the header: mode and stream to locator bits, last sequence, and the most bytes of PSD."""
    rows = {}
    row = r"^ \*    ([\d, ]+?)  +(\d), \w+ +(\d+) +0 to (\d) +(\d+)(, no PSD)?$"
    for modes, stream, bits, sequence, most, none in re.findall(row, text_of("include", "barzhilup.h"), flags=re.M):
        for mode in modes.split(","):
            rows[int(mode), int(stream)] = (int(bits), int(sequence), 0 if none else int(most))
    return rows


def mode_by_library(barzhilup, mode, stream):
    """The same as a writer has it; None where there is no such mode and stream."""

    def taken(length, psd):
        try:
            barzhilup.Writer(mode, stream).write([b"a"], length, bytes(psd))
            return True
        except barzhilup.Refusal:
            return False

    try:
        writer = barzhilup.Writer(mode, stream)
    except barzhilup.Refusal:
        return None
    sequences = set()
    for _ in range(16):
        sequences.add(writer.sequence)
        writer.write([b"a"], 96)
    return (16 if taken(4097, 0) else 12, max(sequences), max(psd for psd in range(200) if taken(512, psd)))


def compare_modes():
    import barzhilup  # pylint: disable=import-outside-toplevel

    rows = table_of_modes()
    for mode in range(16):
        for stream in range(4):
            same("header's modes and the library", "mode {}, stream {}".format(mode, stream), rows.get((mode, stream)),
                 mode_by_library(barzhilup, mode, stream))


# ---- Numbers and words --------------------------------------------------------------------------------------------------------------------------


def refusals():
    """The refusals of the header, but for second names of a number."""
    return {name[len("BARZHILUP_REFUSED_"):]: value for name, value in header_macros.items()
            if name.startswith("BARZHILUP_REFUSED_") and name not in ("BARZHILUP_REFUSED_LIST_LENGTH", "BARZHILUP_REFUSED_PLACE")}


def notes():
    return {name[len("BARZHILUP_NOTE_"):]: value for name, value in header_macros.items() if name.startswith("BARZHILUP_NOTE_")}


def words_of(function):
    """The words of a switch in the header, by number."""
    body = re.search(r"{}\(uint32_t \w+\)\n\{{(.*?)\n\}}".format(function), header_text, flags=re.S).group(1)
    return {header_macros[name]: "".join(re.findall(r'"(.*?)"', words))
            for name, words in re.findall(r"case (\w+):\s*return ((?:\s*\"[^\"]*\")+);", body)}


def refusal_words():
    return words_of("barzhilup_refusal_text")


def note_words():
    return words_of("barzhilup_note_text")


def version():
    return re.search(r'#define BARZHILUP_VERSION_STRING "(.*)"', header_text).group(1)


def arms(crate, function):
    """The words of a match on numbers in a function of a crate, by number."""
    body = re.search(r"fn {}\(.*?\n    \}}\n\}}".format(function), crate_texts[crate], flags=re.S).group(0)
    return {int(number): words.replace("\\n", "") for number, words in re.findall(r'(\d+) => b"(.*?)"', body)}


def compare_words():
    """The header's words are those of the program, or begin with them and go on after "; or"; for a writer's the program names the option instead."""
    receiver = arms("causes", "refusal")
    test = re.search(r'refusal == 24 \{\s*line\.put\(b"(.*?)\\n"\);\s*\} else \{\s*line\.put\(b"(.*?)\\n"\)', crate_texts["joining"])
    joining = {24: test.group(1), 23: test.group(2)}
    same("header and the program's words", "refusals of the program", [*range(1, 14), 19, 20, 22, 23, 24, 25, 27], sorted({**receiver, **joining}))
    for number, words in {**receiver, **joining}.items():
        same("header and the program's words", str(number), words, refusal_words().get(number, "").split("; or ")[0])
    same("header and the program's words", "notes of the program", sorted(note_words()), sorted(arms("causes", "note")))
    for number, words in arms("causes", "note").items():
        same("header and the program's words", "note {}".format(number), words, note_words().get(number))
    same("header and the program's words", "numbers of refusals", sorted(refusals().values()), sorted(set(refusal_words()) - {0}))


def compare_rust():
    rust = Rust("bindings", "rust", "src")
    functions = list(rust.functions())
    same("header and Rust", "over 20 functions are declared", True, len(functions) > 20)
    for name, declared in functions:
        compare("header and Rust", name, header_functions[name], declared)
    for name, value in rust.constants.items():
        if "BARZHILUP_" + name in header_macros:
            same("header and Rust", name, header_macros["BARZHILUP_" + name], value)
    whole = "\n".join(rust.files.values())

    def upper(name):
        return re.sub(r"(?<=[a-z])(?=[A-Z])", "_", name).upper()

    numbers = {upper(name): int(number) for name, number in re.findall(r"Refusal::(\w+)(?: \{ \.\. \})? => (\d+),", whole)}
    same("header and Rust", "refusals", refusals(), numbers)
    numbers = {upper(name): int(number) for name, number in re.findall(r"Cause::(\w+) => (\d+),", whole)}
    same("header and Rust", "notes", notes(), numbers)
    same("versions", "Rust", version(), re.search(r'^version = "(.*)"', text_of("bindings", "rust", "Cargo.toml"), flags=re.M).group(1))
    functions = list(Rust("referee", "tests", names={"register": "crc_start"}).functions())
    same("header and the referee", "over 20 functions are declared", True, len(functions) > 20)
    for name, declared in functions:
        compare("header and the referee", name, header_functions[name], declared)


def compare_crates():
    named = dict(crate_functions())
    same("header and the crates", "functions", sorted(header_functions), sorted(named))
    for name, declared in named.items():
        compare("header and the crates", name, header_functions[name], declared)
    number = re.search(r'fn barzhilup_version\(\).*?\{\s*(0x\w+)', crate_texts["capi"], flags=re.S).group(1)
    parts = [header_macros["BARZHILUP_VERSION_" + part] for part in ("MAJOR", "MINOR", "PATCH")]
    same("versions", "the library", header_macros["BARZHILUP_VERSION"], int(number, 0))
    same("versions", "numbers", version(), ".".join(map(str, parts)))
    same("versions", "the header's number", header_macros["BARZHILUP_VERSION"], parts[0] << 16 | parts[1] << 8 | parts[2])
    same("versions", "the program", version(), re.search(r'b"barzhilup (\d.*?)\\n"', crate_texts["commands"]).group(1))


header_by_gcc()
compare_crates()
compare_rust()
compare_python()
compare_words()
# The library is called only where nothing differs.
if not faults:
    compare_modes()
for what, count in compared.items():
    print("tables: {}: {} comparisons".format(what, count))
for fault in faults:
    print("tables: differs: " + fault)
sys.exit(bool(faults))
