#!/usr/bin/env python3
"""Makes the library as C source: FOLDER/exifnorm-VERSION-c.tar.gz, and the folder that it is an archive of.

  packaging/c_source.py VERSION SECONDS FOLDER               of the proved library, that of `make library`
  packaging/c_source.py VERSION SECONDS FOLDER --unproved    of the quick library, for tests; its version ends with -unproved

SECONDS is the time of the files since 1970. It needs Debian's binaryen (wasm-opt) and wabt (wasm2c).

The toolchain's clang writes no C. So it compiles the library's module for WebAssembly with addresses of 64 bits; binaryen writes this as
WebAssembly of 32 bits, which wasm2c needs; and wasm2c writes C. In this C each address is then taken before binaryen's cut to 32 bits, and
so it is an address of the process. Which numbers are addresses of constants can't be seen in one module. So two are linked, whose
constants are at different addresses: the numbers that differ are these addresses.
"""

from __future__ import annotations

import gzip
import io
import os
import re
import shutil
import subprocess
import sys
import tarfile
import tempfile
from dataclasses import dataclass
from pathlib import Path

TOP = Path(__file__).resolve().parent.parent
sys.dont_write_bytecode = True
sys.path.insert(0, str(TOP / "build"))

import guard
import wasm
from module import as_text
from prove import NotBuilt, listen

SOURCES = TOP / "packaging" / "c"
HEADER = TOP / "crates" / "px_c" / "include" / "exifnorm.h"
CASES = TOP / "tests" / "program" / "lines_of_cases.py"
TOOLS = {"wasm-opt": "binaryen", "wasm2c": "wabt"}
LINKED = ["-mwasm64", "--no-entry", "--gc-sections", "--allow-undefined", "--strip-debug", "--no-stack-first"]
LOWERED = [*wasm.FEATURES, "--memory64-lowering", "--strip-debug", "--strip-producers"]
BASES = 1 << 16, 1 << 17  # where the constants of the two modules begin
MOST_BEFORE = 4096  # bytes that an address may be before the first constant, as that of a table whose first index is above 0
WIDTH = 8  # bytes of an address
LEVELS = 101  # elements of a packet of XMP that are read inside one another: px_xmp_markup refuses one inside 100 others


class Failed(Exception):
    """Why there is no C source."""


# ---- the module as WebAssembly, and as C of wasm2c


def compile_module(source: Path, folder: Path) -> Path:
    """Compiles the library's module for WebAssembly of 64 bits. It must have no variable outside its functions, only constants."""
    text, object_file = folder / "module.ll", folder / "module.o"
    wasm.run(*as_text(wasm.clang()), source, "-o", text)
    lines = text.read_text(encoding="utf-8")
    if variable := re.search(r"(?m)^@\S+ = (?:[a-z_]+ )*global .*", lines):
        raise Failed(f"the module has a variable: {variable[0][:200]}")
    text.write_text(wasm.for_wasm(lines), encoding="utf-8")
    wasm.run(wasm.clang(), *wasm.FLAGS, *wasm.LIBRARY, text, "-o", object_file)
    (folder / "wasm-ld").symlink_to(wasm.clang())
    return object_file


def in_c(object_file: Path, base: int) -> str:
    """The C of wasm2c for the module, with its constants from an address on."""
    linked, lowered, written = (object_file.with_suffix(suffix) for suffix in (".wasm", ".lowered.wasm", ".c"))
    exports = [f"--export={name}" for name in calls()]
    wasm.run(object_file.with_name("wasm-ld"), *LINKED, f"--global-base={base}", *exports, object_file, "-o", linked)
    linked.write_bytes(wasm.without_table(linked.read_bytes()))
    wasm.run("wasm-opt", *LOWERED, linked, "-o", lowered)
    wasm.run("wasm2c", "-n", "exifnorm", lowered, "-o", written)
    return written.read_text(encoding="utf-8")


# ---- the C of two such modules as one, over the addresses of the process


@dataclass
class Written:
    """What wasm2c wrote of a module: its constants, and the lines of its functions."""

    data: bytes
    lines: list[str]


def written(text: str) -> Written:
    """The constants and the functions of wasm2c's C, without the macros and the start of a module."""
    data = re.findall(r"(?s)static const u8 data_segment_data_\w+\[\] = \{(.*?)\};", text)
    functions = re.search(r"(?ms)^static u(?:32|64) w2c_[^;]*?\) \{\n.*?(?=^wasm_rt_memory_t\*|^/\* export)", text)
    if len(data) != 1 or not functions or "CALL_INDIRECT(" in functions[0] or "memory_grow" in functions[0]:
        raise Failed("wasm2c wrote another kind of module than expected")
    return Written(bytes.fromhex(re.sub(r"0x|[,\s]", "", data[0])), functions[0].splitlines())


NUMBER = re.compile(r"(\d+)u(?:ll)?")
TOKEN = re.compile(r"\d+u(?:ll)?|\w+|\s+|.")
CUT = re.compile(r"\s*w2c_i(\d+) = \(u32\)\(w2c_j\1\);")
SET = re.compile(r"\s*w2c_([ij]\d+) (?:[-+*&|^]|<<|>>)?= ")
LABEL = re.compile(r"\s*w2c_\w+:;|.*[{}]$")
ACCESS = re.compile(r"(i(?:32|64)_(?:load|store)\w*\()&instance->w2c_memory, \(u64\)\(w2c_i(\d+)\)")
BULK = re.compile(r"memory_(copy|fill)\((?:&instance->w2c_memory, )+w2c_i(\d+), w2c_i(\d+), w2c_i(\d+)\)")


def constant_of(first: str, second: str) -> int | None:
    """The offset from the first constant of which these are the addresses in both modules; None if they aren't. It is below 0 if an index that
    begins above 0 is added: nothing else is before the constants.

    >>> constant_of("65542ull", "131078ull"), constant_of("65529ull", "131065ull"), constant_of("7ull", "8ull")
    (6, -7, None)
    """
    numbers = [NUMBER.fullmatch(token) for token in (first, second)]
    offsets = {int(number[1]) - base if number else None for number, base in zip(numbers, BASES)}
    return offsets.pop() if len(offsets) == 1 else None


def joined_line(line: str, other: str, length: int) -> str:
    """A line of both modules, with the name of the constants in place of their address.

    >>> joined_line("  w2c_j1 = 65542ull;", "  w2c_j1 = 131078ull;", 100)
    '  w2c_j1 = CONSTANT(6);'
    """
    if line == other:
        return line
    tokens, others = TOKEN.findall(line), TOKEN.findall(other)
    if len(tokens) != len(others):
        raise Failed(f"the two modules differ: {line!r}, {other!r}")
    for at, (first, second) in enumerate(zip(tokens, others)):
        if first != second:
            offset = constant_of(first, second)
            if offset is None or not -MOST_BEFORE <= offset <= length:
                raise Failed(f"the two modules differ: {line!r}, {other!r}")
            tokens[at] = f"CONSTANT({offset})"
    return "".join(tokens)


class Wide:
    """Takes each address of a function before it is cut to 32 bits: wasm2c keeps the value at each depth of WebAssembly's stack in a
    variable for its type, so the whole address is still in that of 64 bits."""

    def __init__(self) -> None:
        self.lines: list[str] = []
        self.cuts: dict[str, int] = {}  # of a depth the line that cuts its address, as long as nothing else was assigned there

    def address(self, depth: str) -> str:
        """The whole address at a depth. The line that cuts it is left out."""
        try:
            self.lines[self.cuts.pop(depth)] = ""
        except KeyError:
            raise Failed(f"an address is no number of 64 bits that was cut: {self.lines[-3:]}") from None
        return f"w2c_j{depth}"

    def add(self, line: str) -> None:
        """Adds a line."""
        line = ACCESS.sub(lambda it: f"{it[1]}{self.address(it[2])}", line)
        if bulk := BULK.search(line):
            kind, to, second, length = bulk.groups()
            second = self.address(second) if kind == "copy" else f"w2c_i{second}"
            line = f"{line[: bulk.start()]}memory_{kind}({self.address(to)}, {second}, {self.address(length)}){line[bulk.end() :]}"
        if LABEL.match(line):
            self.cuts.clear()
        if assigned := SET.match(line):
            self.cuts.pop(assigned[1][1:], None)
        if cut := CUT.fullmatch(line):
            self.cuts[cut[1]] = len(self.lines)
        self.lines.append(line)


def functions_of(lines: list[str]) -> str:
    """The functions over the addresses of the process, and with a stack of the caller."""
    wide = Wide()
    for line in lines:
        wide.add(line)
    text = "\n".join(it for it in wide.lines if it.strip() not in ("", "FUNC_PROLOGUE;", "FUNC_EPILOGUE;")) + "\n"
    text = re.sub(r"\(\*Z_envZ_(?:__)?(\w+)\)\(instance->Z_env_instance", r"import_\1(stack", text)
    text = text.replace("Z_exifnorm_instance_t* instance", "u64 *stack").replace("instance->w2c_g0", "*stack")
    text = re.sub(r"\(instance(?=[,)])", "(stack", text)
    if left := re.search(r".*(?:instance|w2c_memory|Z_).*", text):
        raise Failed(f"wasm2c wrote what isn't known here: {left[0]}")
    return text


def stack_of(text: str) -> int:
    """The bytes of stack that the deepest call needs, from the frames of the functions and the calls among them.

    Functions that call each other read elements inside one another, so each of them is in at most LEVELS calls that have not returned. A
    function takes its frame from the stack at its beginning.
    """
    frames, called = {}, {}
    for head, body in re.findall(r"(?ms)^static \w+ (w2c_\w+)\([^;{]*\{\n(.*?)^\}", text):
        frame = re.search(r"w2c_j0 = \*stack;\n\s*w2c_j1 = (\d+)ull;\n\s*w2c_j0 -= w2c_j1;", body)
        if frame is None and "*stack" in body:
            raise Failed(f"it isn't known how much of the stack {head} uses")
        frames[head] = int(frame[1]) if frame else 0
        called[head] = {it for it in re.findall(r"\b(w2c_\w+)\(stack", body)}
    depths: dict[frozenset[str], int] = {}

    def depth(name: str) -> int:
        """Of a function with those that call it and that it calls, at any depth."""
        cycle = frozenset(it for it in reached[name] if name in reached[it]) | {name}
        if cycle not in depths:
            own = sum(frames[it] for it in cycle) * (LEVELS if name in reached[name] else 1)
            depths[cycle] = own + max((depth(it) for it in set().union(*(called[it] for it in cycle)) - cycle), default=0)
        return depths[cycle]

    reached = {name: reached_from(name, called) for name in called}
    return max(depth(it) for it in frames)


def reached_from(name: str, called: dict[str, set[str]]) -> set[str]:
    """The functions that a function calls, at any depth."""
    found: set[str] = set()
    left = set(called[name])
    while left:
        it = left.pop()
        found.add(it)
        left |= called[it] - found
    return found


# ---- what is written


def literal(octets: bytes) -> str:
    """Bytes as a C string."""
    text = "".join(chr(it) if 32 <= it < 127 and chr(it) not in '"\\?' else f"\\{it:03o}" for it in octets)
    return f'"{text}"'


def constants(data: bytes, other: bytes) -> str:
    """The constants as a struct, whose fields are bytes and the addresses of others."""
    fields, values, at = [], [], 0
    differing = [n for n, (a, b) in enumerate(zip(data, other)) if a != b]
    places = sorted({n // WIDTH * WIDTH for n in differing}) + [len(data)]
    for place in places:
        for start in range(at, place, 80):
            size = min(80, place - start)
            fields.append(f"    u8 at{start}[{size}];")
            values.append(f"    {literal(data[start : start + size])},")
        if place < len(data):
            offset, again = (int.from_bytes(it[place : place + WIDTH], "little") - base for it, base in zip((data, other), BASES))
            if offset != again or not 0 <= offset <= len(data):
                raise Failed(f"the constants of the two modules differ at {place}")
            fields.append(f"    const u8 *at{place};")
            values.append(f"    (const u8 *)&constant + {offset},")
            at = place + WIDTH
    lines = [
        "static const struct constant {",
        *fields,
        "} constant = {",
        *values,
        "};",
        "",
        "#define CONSTANT(offset) (address(&constant) + (u64)(offset))",
    ]
    return "\n".join(lines) + "\n"


def declared() -> dict[str, str]:
    """The functions of exifnorm.h with their parameters."""
    text = re.sub(r"(?s)/\*.*?\*/", "", HEADER.read_text(encoding="utf-8"))
    found = re.findall(r"(?ms)^uint32_t (exifnorm_\w+)\((.*?)\);", text)
    return {name: " ".join(parameters.split()) for name, parameters in found}


def calls() -> list[str]:
    """The names of the functions of the C source."""
    return list(declared())


def call(name: str, parameters: str) -> str:
    """A function of exifnorm.h, which calls the module's with a stack.

    >>> print(call("exifnorm_check", "const unsigned char *block, size_t length"), end="")
    uint32_t exifnorm_check(const unsigned char *block, size_t length) {
        u64 frames[STACK / 8], stack = address(frames) + STACK;
        return w2c_exifnorm_check(&stack, address(block), length);
    }
    """
    own = name.replace("exifnorm_version", "module_version")
    head = f"{'static ' if own != name else ''}uint32_t {own}({parameters}) {{"
    arguments = [re.sub(r".*\*(\w+)$", r"address(\1)", it.strip()).split()[-1] for it in parameters.split(",")]
    room = "    u64 frames[STACK / 8], stack = address(frames) + STACK;"
    return f"{head}\n{room}\n    return w2c_{name}(&stack, {', '.join(arguments)});\n}}\n"


def all_calls() -> str:
    """Each function of the C source."""
    return "\n".join(call(name, parameters) for name, parameters in declared().items())


def module_in_c(source: Path) -> str:
    """The text of module.c."""
    with tempfile.TemporaryDirectory() as folder:
        object_file = compile_module(source, Path(folder))
        module, other = (written(in_c(object_file, base)) for base in BASES)
    if len(module.lines) != len(other.lines) or len(module.data) != len(other.data):
        raise Failed("the two modules have not the same lines")
    lines = [joined_line(first, second, len(module.data)) for first, second in zip(module.lines, other.lines)]
    functions = functions_of(lines)
    heads = "".join(f"{head};\n" for head in re.findall(r"(?m)^(static \w+ w2c_\w+\([^;{]*\)) \{$", functions))
    stack = -(-stack_of(functions) // 16) * 16 + 16
    mark = guard.MARK if guard.MARK.encode() in module.data else ""  # a constant is written in pieces, so the mark can't be seen there
    about = f"/* Made by packaging/c_source.py of the library's module{mark}; exifnorm.c includes it. */"
    size = f"#define STACK {stack} /* bytes that the deepest call needs */"
    return "\n".join([about, size, "", constants(module.data, other.data), heads, functions, all_calls()])


def put(folder: Path, release: str, module_text: str) -> None:
    """Writes the files of a release into a folder."""
    for file in sorted(SOURCES.iterdir()):
        (folder / file.name).write_text(file.read_text(encoding="utf-8").replace("@VERSION@", release), encoding="utf-8")
    for file in (*HEADER.parent.glob("*.h"), TOP / "LICENSE-APACHE", TOP / "LICENSE-MIT"):
        shutil.copyfile(file, folder / file.name)
    (folder / "module.c").write_text(module_text, encoding="utf-8")
    (folder / "cases.txt").write_bytes(subprocess.check_output([sys.executable, CASES]))


def archive(folder: Path, seconds: int) -> Path:
    """Writes a folder as an archive beside it: the same bytes for the same files."""
    octets = io.BytesIO()
    with tarfile.open(fileobj=octets, mode="w", format=tarfile.GNU_FORMAT) as tar:
        for file in sorted(path for path in folder.rglob("*") if path.is_file()):
            member = tarfile.TarInfo(str(file.relative_to(folder.parent)))
            member.size, member.mtime, member.mode = file.stat().st_size, seconds, 0o755 if os.access(file, os.X_OK) else 0o644
            tar.addfile(member, io.BytesIO(file.read_bytes()))
    target = folder.with_name(f"{folder.name}.tar.gz")
    target.write_bytes(gzip.compress(octets.getvalue(), 9, mtime=0))
    return target


def make(release: str, seconds: int, target: Path, is_proved: bool) -> Path:
    """Makes the sources of a release and their archive in a folder, both or none."""
    if lacking := [package for tool, package in TOOLS.items() if not shutil.which(tool)]:
        raise Failed(f"install {' and '.join(lacking)}")
    text = module_in_c(wasm.source_of(is_proved))
    if (guard.MARK in text) == is_proved:
        raise Failed(f"the version in the module {'ends' if is_proved else 'does not end'} with {guard.MARK}")
    target.mkdir(parents=True, exist_ok=True)
    with tempfile.TemporaryDirectory(dir=target) as making:
        folder = Path(making, f"exifnorm-{release}-c")
        folder.mkdir()
        put(folder, release, text)
        packed = archive(folder, seconds)
        shutil.rmtree(target / folder.name, ignore_errors=True)
        folder.rename(target / folder.name)
        os.replace(packed, target / packed.name)
    return target / packed.name


def main(words: list[str]) -> int:
    is_proved = words[3:] != ["--unproved"]
    if len(words) != (3 if is_proved else 4):
        sys.exit(__doc__)
    try:
        listen()
        target = make(words[0], int(words[1]), Path(words[2]).resolve(), is_proved)
    except (Failed, NotBuilt, OSError, subprocess.SubprocessError) as why:
        print(f"c-source: {why}", file=sys.stderr)
        return 1
    print(f"c-source: {target.name}")
    return 0


if __name__ == "__main__":
    sys.exit(main(sys.argv[1:]))
