"""Facts about the bodies of Rattle functions on which a reader relies, and which no contract can state.

A function of a crate's `global.rt`, and an export for C, makes a `Memory` of its own, of which no clause can speak. So its body must be one
line over its `_in` variant, which is proved to fail only where an allocation failed. Only a few listed functions make memory elsewhere, and
hardly a function but those of `Memory` calls what allocates. For both, libraries that `make` built are judged by the compiled code, programs
and static libraries by their text.
"""

import re
from pathlib import Path

import lowered

TOP = Path(__file__).resolve().parent.parent.parent

# Where a function begins.
FUNCTION = re.compile(r"^(?P<indent> *)(?P<public>pub(?:\(crate\))? )?(?:extern \"C\" )?fn (?P<name>\w+)", re.M)

# What follows: an array's type, a clause, the body, or the end of a declaration.
SIGNATURE = re.compile(r"\[[^\]\n]*\]|\b(?:requires|ensures)\b[^{;]*\{|\{|;")


def closed(text, at, opening, closing):
    """The position after the bracket that closes the one at `at`."""
    depth = 0
    for i in range(at, len(text)):
        depth += (text[i] == opening) - (text[i] == closing)
        if depth == 0:
            return i + 1
    raise ValueError("a bracket is left open")


def parted(text):
    """The parts of a list, cut at the commas outside brackets."""
    parts, depth, part = [], 0, ""
    for c in text:
        depth += (c in "(<[{") - (c in ")>]}")
        if c == "," and depth == 0:
            parts.append(part.strip())
            part = ""
        else:
            part += c
    return [it for it in [*parts, part.strip()] if it]


def functions(text):
    """Each function with a body: its name, whether it is public, its parameters, and the lines of its body."""
    for found in FUNCTION.finditer(text):
        at = found.end()
        if text[at] == "<":
            at = closed(text.replace("->", "  "), at, "<", ">")
        end = closed(text, at, "(", ")")
        parameters = parted(text[at + 1 : end - 1])
        # after the result and the clauses comes the body, or a semicolon in a trait
        for part in SIGNATURE.finditer(text, end):
            if part[0].endswith("]") or part.start() < end:
                continue
            if part[0] == ";":
                break
            end = closed(text, part.end() - 1, "{", "}")
            if part[0] == "{":
                yield found["name"], bool(found["public"]), parameters, text[part.end() : end - 1]
                break


def crates():
    """Each crate's functions, without those of tests: (file, name, whether it is public, parameters, body)."""
    for folder in sorted(TOP.glob("crates/*/src")):
        paths = [it for it in sorted(folder.glob("*.rt")) if not it.name.endswith("tests.rt")]
        yield folder.parent.name, [
            (str(it.relative_to(TOP)), *found) for it in paths for found in functions(it.read_text(encoding="utf-8"))
        ]


# The memory that a call makes for itself, and the one line over the `_in` variant.
OWN = r"(?:let mut memory = (?:Memory::new\([*\w.]+(?:\(\))?\)|[\w.]+\.(?:fresh|memory)\(\)); )?"
VARIANT = (
    OWN + r"(?:Ok\()?(?:self\.|\w+::)?{}_in\(((?:(?:&mut |&)?(?:memory|Memory::new\(alloc\))|\w+)(?:, \w+)*)\)(?:\?\)|\?; Ok\(\(\)\))?"
)

# A call that makes a Memory.
MAKES = re.compile(r"\bMemory::new\(|\.fresh\(\)")

# The functions that make memory and are not one line over an `_in` variant: that of the program, those of structs that keep memory
# for later calls, and one of `Memory` itself.
MAKERS = {
    "crates/px_bytes/src/growing.rt: new",
    "crates/px_bytes/src/memory.rt: fresh",
    "crates/px_cli/src/main.rt: main",
    "crates/px_words/src/texts.rt: new",
}

# The structs that keep a `Memory`. What they ask for through it is counted in no memory of their caller, unless they pass it on at their
# end, as `Growing` does, or are the caller's own.
KEEPERS = {
    "crates/px_bytes/src/growing.rt: Growing",
    "crates/px_words/src/texts.rt: Plain",
}

# A struct with a field that is a `Memory`.
KEEPS = re.compile(r"^(?:pub(?:\(crate\))? )?struct (\w+)[^{;]*\{[^}]*?^    (?:pub(?:\(crate\))? )?\w+: (?:&\S* ?(?:mut )?)?Memory,", re.M)

# A text that calls what allocates, other than a call of `Memory`.
ALLOCATES = re.compile(
    r"\b(?:Arc|Arg|BTreeMap|BTreeSet|Box|Command|HashMap|HashSet|Rc|VecDeque)::|\bBinaryHeap::(?!from\()|"
    r"\b(?:String|Vec)::(?!new\()|\b(?:format|vec)!|"
    r"\.(?:append|clone|collect|extend|into|to_owned|to_string|to_vec)\(|\.(?:subcommand\(\w|try_get_matches_from\()|"
    r"(?<!\bmemory)\.(?:extend_from_slice|insert|push|push_str|reserve|reserve_exact|resize)\((?!memory\b)"
)

FOR_TESTS = ("px_calls",)  # crates

# The functions that call what allocates and are none of `Memory`: those over clap, which takes no `Memory`, the one that copies the
# program's arguments, and the one of the files with known bytes, which the program never calls.
GROWERS = {
    "crates/px_cli/src/main.rt: given",
    "crates/px_words/src/grammar.rt: bare",
    "crates/px_words/src/grammar.rt: joined",
    "crates/px_words/src/grammar.rt: of_one",
    "crates/px_words/src/grammar.rt: of_two",
    "crates/px_words/src/grammar.rt: with_word",
    "crates/px_words/src/parser.rt: matches_of",
}

# The two lines of the program's run. No contract describes clap's result, so the run does nothing else.
RUN = "let asked = parse(memory, parser, words, VERSION); run_asked(files, memory, asked, streams)"


def is_one_line(name, takes, body):
    """Whether a body only calls the `_in` variant of that name, with the memory and all parameters of the function, in their order.

    >>> is_one_line("check", ["alloc", "file"], "check_in(&mut Memory::new(alloc), file)")
    True
    >>> is_one_line("check", ["alloc", "file"], "if file.len() > 2 { return NO_MEMORY; } check_in(&mut Memory::new(alloc), file)")
    False
    >>> is_one_line("compare", ["alloc", "first", "second"], "compare_in(&mut Memory::new(alloc), second, first)")
    False
    """
    found = re.fullmatch(VARIANT.format(name), " ".join(body.split()))
    given = [it for it in found[1].split(", ") if not re.search("memory|Memory", it)] if found else []
    return bool(found) and given == [it for it in takes if it.lstrip("_") not in ("alloc", "&self", "&mut self")]


def names_of(parameters):
    """The names of parameters, without their types."""
    return [it.split(":")[0].removeprefix("mut ").strip() for it in parameters]


def place_of(crate, path):
    """The file and the name of a function, from its path in the compiled code.

    >>> [place_of("px_one", it) for it in ("px_one::files::Opened::of", "px_one::main")]
    ['crates/px_one/src/files.rt: of', 'crates/px_one/src/lib.rt: main']
    """
    parts = path.split("::")
    return f"crates/{crate}/src/{parts[1] if len(parts) > 2 else 'lib'}.rt: {parts[-1]}"


def calls_over_an_allocator():
    """The functions of each `global.rt`, and the exports for C that take an allocator: (path, name, parameters, body)."""
    for crate, found in crates():
        for path, name, _, parameters, body in found:
            takes = names_of(parameters)
            if path.endswith("/global.rt") or crate == "px_c" and name.startswith("exifnorm_") and "alloc" in takes:
                yield path, name, takes, body


# An impl, or a public function.
IMPL_OR_FUNCTION = re.compile(r"^impl(?:<[^>]*>)? (?P<kind>\w+)|^(?P<indent> *)pub fn (?P<name>\w+)", re.M)


def ends_of_paths(text):
    """How the paths of the functions of a `global.rt` end in the compiled code, where a method has the module of its type.

    >>> list(ends_of_paths("impl<'a> List<'a> {\\n    pub fn push(self) {}\\n}\\n\\npub fn read() {}"))
    ['List::push', 'global::read']
    """
    kind = ""
    for found in IMPL_OR_FUNCTION.finditer(text):
        kind = found["kind"] or kind
        if found["name"]:
            yield f"{kind if found['indent'] else 'global'}::{found['name']}"


def with_own_memory(crate, compiled):
    """The compiled functions of a crate's `global.rt`."""
    path = TOP / "crates" / crate / "src" / "global.rt"
    ends = set(ends_of_paths(path.read_text(encoding="utf-8"))) if path.exists() else set()
    return {it for it in compiled if "::".join(it.split("::")[-2:]) in ends}


def test_calls_over_an_allocator_are_one_line_over_their_variant():
    calls = list(calls_over_an_allocator())
    assert {Path(path).name for path, *_ in calls} == {"global.rt", "lib.rt"}
    assert [f"{it[0]}: {it[1]}" for it in calls if not is_one_line(it[1].removeprefix("exifnorm_"), *it[2:])] == []


def test_only_listed_functions_make_memory_otherwise():
    own = {f"{path}: {name}" for path, name, *_ in calls_over_an_allocator()}
    makers = set()
    for crate, found in crates():
        compiled = lowered.functions(crate)
        if compiled is not None:
            makers |= {place_of(crate, it) for it in set(lowered.callers(compiled, lowered.MAKES)) - with_own_memory(crate, compiled)}
        elif crate not in FOR_TESTS:
            makers |= {f"{path}: {name}" for path, name, _, _, body in found if MAKES.search(body)}
    assert makers - own == MAKERS


def test_only_listed_structs_keep_memory():
    sources = [it for it in sorted(TOP.glob("crates/*/src/*.rt")) if it.parent.parent.name not in FOR_TESTS]
    found = {f"{path.relative_to(TOP)}: {name}" for path in sources for name in KEEPS.findall(path.read_text(encoding="utf-8"))}
    assert found == KEEPERS


def test_no_function_calls_one_with_memory_of_its_own():
    """What that call requests would be counted in no memory of the caller, and so in no clause. In the program and the C library it is
    found by the name of the call, unless it is a method's."""
    libraries = {crate: lowered.functions(crate) for crate, _ in crates()}
    with_own = {it for crate, compiled in libraries.items() if compiled for it in with_own_memory(crate, compiled)}
    plain = sorted(it.rpartition("::")[2] for it in with_own if not re.search(r"::[A-Z]", it))
    named = re.compile(rf"(?<![.\w])(?:{'|'.join(plain)})\(")
    found = {}
    for crate, functions_of in crates():
        if libraries[crate]:
            found.update(lowered.callers(libraries[crate], with_own))
        elif crate not in FOR_TESTS and with_own:
            found.update({f"{path}: {name}": call for path, name, _, _, body in functions_of if (call := named.findall(body))})
    assert found == {}


def growers():
    """The functions that call what allocates, but those of `Memory` and of crates for tests."""
    for crate, found in crates():
        if crate in FOR_TESTS:
            continue
        compiled = lowered.functions(crate)
        if compiled is None:
            yield from (f"{path}: {name}" for path, name, _, _, body in found if ALLOCATES.search(body))
        else:
            yield from (place_of(crate, it) for it in lowered.allocating(compiled))


def test_only_memory_and_listed_functions_allocate():
    """No contract would count the requests of others."""
    assert {it for it in growers() if not it.startswith("crates/px_bytes/src/memory.rt: ")} == GROWERS


def test_each_export_with_memory_has_a_variant():
    exports = [it for crate, found in crates() if crate == "px_c" for it in found]
    names = {name for _, name, _, _, _ in exports}
    assert {"exifnorm_check", "exifnorm_version"} <= names
    assert [it[1] for it in exports if "alloc" in names_of(it[3]) and f"{it[1].removeprefix('exifnorm_')}_in" not in names] == []


def test_the_run_of_the_program_is_two_lines():
    """No contract describes clap's result, so the run does nothing else than to read its arguments and to do what they request."""
    found = [body for _, it in crates() for path, name, _, _, body in it if (path, name) == ("crates/px_runs/src/run.rt", "run_words")]
    assert [" ".join(it.split()) for it in found] == [RUN]
