"""The extension module by itself: its arguments, its memory, each of its allocations failing in turn, and what it needs of Python."""

import ctypes
import hashlib
import inspect
import itertools
import os
import re
import subprocess
import sys
import sysconfig
from pathlib import Path

import pytest

import made_by_tools
from commands import TOP, run
from compiling import HERE
from exifnorm import _calls, _library
from exifnorm_pictures.model.records import Stamp
from exifnorm_pictures.scan import looking
from meanings import ASCII, SHORT, Exif, Layout, Record, Value, laid
from jpeg_made import VASE, exif, packet, picture
from small_blocks import CAPTION, LOOP, ONE, long_form, outcome
from small_packets import small_packets

OF_ONE_BLOCK = ("check", "normalise", "show", "captions")
OF_JPEGS = ("jpeg_parts", "photoshop_resources")


def of_text(length):
    """An Exif block of so many bytes, with one text. It is its own normal form; if the number is odd, that has a zero byte more."""
    return laid(Exif({0x010E: Value(ASCII, b"A" * (length - 27) + b"\0")}), Layout(">"))


BLOCKS = {
    "a form": ONE,
    "a record": CAPTION,
    "a refused block": LOOP,
    "no bytes": b"",
    "a block of a tool": made_by_tools.PIEXIF.block,
    "a long block": ONE + bytes(2_000_000),
    "twice as many bytes": laid(Exif({0x0116: Value(SHORT, [1] * 16_371)}), Layout("<")),
    "three times as many bytes": Record([(2, 120, bytes(30_000))]).spelled(),
    "more text than the stack takes": Record([(2, 120, bytes(6000))]).spelled(),
    **{f"a text in {length:,} bytes": of_text(length) for length in (8191, 8192, 8193, 69_999, 70_000)},
    "a form with six bytes before it": b"Exif\0\0" + of_text(70_000),
    "a record of an odd number of bytes": Record([(2, 120, bytes(20_000))]).spelled() + b"\x1c\x02\x05\0\0",
}


PARTS, RESOURCE = b"\xff\x01", b"8BIM\x04\x04\0\0\0\0\0\x03abc\0"
JPEGS = {
    "a head": b"\xff\xd8" + PARTS + b"\xff\xd9",
    "a head that is refused": b"\xff\xd8" + PARTS + b"x",
    "a long head": b"\xff\xd8" + 1000 * PARTS + b"\xff\xd9",
    "a long head that is refused": b"\xff\xd8" + 1000 * PARTS + b"x",
    "resources": RESOURCE,
    "many resources": 1000 * RESOURCE,
    "no bytes": b"",
}


PAIRS = ("jpeg_same", "jpeg_same_blocks")
PICTURES = {
    "a picture": picture(exif(ONE)),
    "a packet": picture(packet(VASE)),
    "without metadata": JPEGS["a head"],
    "a refused block": picture(exif(LOOP)),
    "no head": b"x",
}
MOST = [-(1 << 63), -1, 0, 1, 2, 63, 64, 65, 999, 1000, 1001, (1 << 63) - 1]
PACKETS = [*small_packets(), b"", b"x", b"<a>", small_packets()[0] + 20_000 * b" "]
OF_PACKETS = ("xmp_normalise", "xmp_unsorted")
PACKING = (hashlib.sha256, str, lambda octets: b"[]")
# What is made for catalogues, whose results test_packed.py compares with Python's
BOWL = os.fsencode(TOP / "samples/before/ceramics/2003-12-bowl.jpg")
PACKED = {
    "packed": [(it, hashlib.sha256) for it in (ONE, CAPTION, BLOCKS["a text in 8,191 bytes"], b"", b"x")],
    "xmp_packed": [(it, *PACKING) for it in PACKETS],
    "jpeg_record": [(b"/none", b"/", (0,) * 5, (0,) * 5, looking._USUAL)],
}
# The arguments of each call of the library.
ARGUMENTS = {
    **dict.fromkeys(OF_ONE_BLOCK, [(it,) for it in BLOCKS.values()]),
    "compare": [pair for it in BLOCKS.values() for pair in ((it, it), (it, ONE), (ONE, it), (it, LOOP))],
    **dict.fromkeys(OF_JPEGS, [*itertools.product(JPEGS.values(), MOST)]),
    **dict.fromkeys(OF_PACKETS, [(it,) for it in PACKETS]),
    **dict.fromkeys(PAIRS, [*itertools.product(PICTURES.values(), repeat=2)]),
}


@pytest.fixture
def loaded(native, shared, monkeypatch):
    """The loaded library, whose calls are those of the extension module."""
    monkeypatch.setattr(_library, "_native", native)
    return _library.Library(str(shared))


@pytest.fixture
def call_of(loaded):
    """The function of this name: `normal` of the package, or a call for blocks."""
    return lambda name: _calls.in_c(_calls.normal) if name == "normal" else getattr(loaded, name)


def test_normal_is_the_function_of_the_package(loaded):
    """In C it has the same description and the same arguments as in Python."""
    in_c, in_python = _calls.in_c(_calls.normal), _calls.normal
    assert inspect.isbuiltin(in_c) and (in_c.__name__, in_c.__module__) == (in_python.__name__, in_python.__module__)
    assert inspect.getdoc(in_c) == inspect.getdoc(in_python)
    kinds = [[(it.name, it.kind, it.default) for it in inspect.signature(call).parameters.values()] for call in (in_c, in_python)]
    assert kinds[0] == kinds[1]


def test_normal_of_bytes_runs_no_python(call_of):
    """That is what makes it fast."""
    normal, events = call_of("normal"), []
    sys.setprofile(lambda frame, event, _: events.append((event, frame.f_code.co_name)))
    try:
        form = normal(ONE)
    finally:
        sys.setprofile(None)
    assert form == ONE and not [it for it in events if it[0] == "call"]


def unpacked(name, found):
    """What a call returns: of rows the failure, and the rows without the bytes between their numbers."""
    if name not in OF_JPEGS:
        return found
    *failure, rows = found if isinstance(found, tuple) else (found,)
    return failure, [*(_library.PART if name == "jpeg_parts" else _library.RESOURCE).iter_unpack(rows)]


@pytest.mark.parametrize("name", ARGUMENTS)
def test_results_are_those_of_ctypes(loaded, name):
    more = [(long_form(),)] if name in OF_ONE_BLOCK else [(long_form(), long_form())] if name == "compare" else []
    for arguments in ARGUMENTS[name] + more:
        found, expected = (unpacked(name, getattr(it, name)(*arguments)) for it in (loaded, loaded.by_ctypes))
        assert found == expected, [repr(it)[:100] for it in arguments]


@pytest.mark.parametrize("wrong", [None, 5, "MM", bytearray(ONE), memoryview(ONE)], ids=lambda it: type(it).__name__)
def test_arguments_of_calls(loaded, wrong):
    for name in OF_ONE_BLOCK:
        assert outcome(getattr(loaded, name), wrong)[0] == "TypeError"
        assert outcome(getattr(loaded, name))[0] == "TypeError"
    for wrong_pair in ((wrong, ONE), (ONE, wrong), (ONE,), (ONE, ONE, ONE)):
        for name in ("compare", *PAIRS):
            assert outcome(getattr(loaded, name), *wrong_pair)[0] == "TypeError"
    for name in OF_JPEGS:
        for words in ((wrong, 1), (ONE, "1"), (ONE, 1.5), (ONE,), (ONE, 1, 1)):
            assert outcome(getattr(loaded, name), *words)[0] == "TypeError"
        assert outcome(getattr(loaded, name), ONE, 1 << 63)[0] == "OverflowError"


@pytest.mark.parametrize(
    "wrong, error",
    [
        ((0, 1, 1, 1, 1, 1, 1, 1, 1, 1, 1, 1), "ValueError"),
        ((1, 1, 1, 1, 1, 1, 1, 1, 1, 1, 0, 1), "ValueError"),
        ((1, 1, 1, 1, 1, 1, 1, 1, 1, 1, 1), "TypeError"),
        ((1, 1, 1, 1, 1, 1, 1, 1, 1, 1, 1, None), "TypeError"),
        ((1, 1, 1, 1, 1, 1, 1, 1, 1, 1, 1, 1.5), "TypeError"),
        ((1, 1, 1, 1, 1, 1, 1, 1, 1, 1, 1, 1 << 70), "OverflowError"),
    ],
)
def test_addresses(native, wrong, error):
    assert outcome(native.functions, *wrong)[0] == error


def test_bytes_beside_a_buffer(extension, shared, folder):
    """With PYTHONMALLOC=debug Python ends if a byte beside an allocation was written."""
    code = """
import sys
sys.path.insert(0, sys.argv[1])
from exifnorm import _library
import importlib.machinery, importlib.util
loader = importlib.machinery.ExtensionFileLoader("exifnorm._native", sys.argv[2])
_library._native = importlib.util.module_from_spec(importlib.util.spec_from_loader("exifnorm._native", loader))
loader.exec_module(_library._native)
calls = _library.library()
for name in sys.argv[3:]:
    block = open(name, "rb").read()
    for call in (calls.check, calls.normalise, calls.show, calls.captions):
        call(block)
    calls.compare(block, block)
    calls.jpeg_same(block, block)
    calls.jpeg_same_blocks(block, block)
    for call in (calls.jpeg_parts, calls.photoshop_resources):
        for most in (1, 64, 100_000):
            call(block, most)
print("all")
"""
    files = []
    for at, block in enumerate([*BLOCKS.values(), *JPEGS.values(), *PICTURES.values()]):
        files.append(folder / str(at))
        files[-1].write_bytes(block)
    words = [sys.executable, "-B", "-c", code, TOP / "python", extension, *files]
    assert run(*words, PYTHONMALLOC="debug", EXIFNORM_LIBRARY=str(shared)) == "all\n"


def resident():
    """The bytes of memory that this process has."""
    return int(Path("/proc/self/statm").read_text(encoding="ascii").split()[1]) * os.sysconf("SC_PAGE_SIZE")


def check_no_leak(act, times):
    """That the process has no more memory after many calls. Something else, as another thread, may take some once: a leak grows each time."""
    for _ in range(times // 50):
        act()
    for _ in range(5):
        before = resident()
        for _ in range(times):
            act()
        if resident() - before < 1_000_000:
            return
    raise AssertionError("the process has more memory after each round of calls")


def often(name):
    """The arguments of many calls: some that succeed, some that fail, and wrong ones."""
    if name in PACKED:
        record = [(BOWL, b"/", Stamp.at(BOWL), Stamp.at(BOWL), looking._USUAL)] * (name == "jpeg_record")
        return [*PACKED[name][:9], *record, (None, *PACKED[name][0][1:])]
    if name in OF_JPEGS:
        return [*itertools.product(JPEGS.values(), (1, 100_000))]
    if name in PAIRS:
        return [(PICTURES["a picture"], it) for it in PICTURES.values()]
    if name == "compare":
        return [(ONE, it) for it in (ONE, LOOP, None)]
    return [(it,) for it in (ONE, LOOP, BLOCKS["three times as many bytes"], None)]  # whose captions are longer than expected


@pytest.mark.parametrize("name", [*OF_ONE_BLOCK, "compare", "normal", *OF_JPEGS, *PAIRS, *PACKED])
def test_memory_after_many_calls(call_of, name):
    """Nothing stays allocated or referred to, whether a call succeeds, fails, or gets a wrong argument."""
    call = call_of(name)
    for arguments in often(name):
        counts = [*map(sys.getrefcount, arguments)]
        check_no_leak(lambda: outcome(call, *arguments), 2000 if len(arguments[0] or b"") > 1000 else 50_000)
        assert max(abs(now - was) for now, was in zip(map(sys.getrefcount, arguments), counts)) < 100


def addresses(loaded):
    """Those of the library's functions, as the extension module takes them."""
    names = ("check", "normalise", "compare", "show", "captions", *OF_JPEGS, *PAIRS, "jpeg_blocks", "xmp_normalise", "xmp_unsorted")
    return [ctypes.cast(getattr(loaded._library, f"exifnorm_{it}"), ctypes.c_void_p).value for it in names]


def test_functions_that_are_gone(loaded, native):
    where = addresses(loaded)
    check_no_leak(lambda: native.functions(*where), 100_000)
    assert native.functions(*where)[1](ONE) == ONE


# ---- allocations that fail


@pytest.fixture(scope="module")
def refusing(session_folder):
    """Calls a function with its one argument while Python's allocation of a number fails. Returns its outcome, and whether one failed."""
    path = session_folder / "refused_allocation.so"
    words = ["cc", "-std=c99", "-Wall", "-Wextra", "-Werror", "-shared", "-fPIC", "-isystem", sysconfig.get_paths()["include"], "-o", path]
    run(*words, HERE / "refused_allocation.c")
    library = ctypes.PyDLL(str(path))
    library.call_refused.restype, library.call_refused.argtypes = ctypes.py_object, [ctypes.py_object, ctypes.py_object, ctypes.c_long]
    was_refused = ctypes.c_int.in_dll(library, "was_refused")

    def call(function, argument, number):
        found = outcome(library.call_refused, function, argument, number)
        return found, bool(was_refused.value)

    return call


def outcomes(refusing, function, argument):
    """The outcomes while the first allocation fails, then the second, and so on. In the last one none fails."""
    found = []
    for number in itertools.count(1):
        result, has_failed = refusing(function, argument, number)
        found.append(result)
        if not has_failed:
            return found


@pytest.mark.parametrize("name", ["normal", *ARGUMENTS, *PACKED])
def test_allocations_of_a_call_that_fail(call_of, refusing, name):
    call = call_of(name)
    few = {"normal": [(it,) for it in (ONE, CAPTION, BLOCKS["twice as many bytes"])]}
    few.update(dict.fromkeys(OF_JPEGS, [(it, 100_000) for it in JPEGS.values()]))
    for first, *rest in few.get(name, {**ARGUMENTS, **PACKED}.get(name)):
        expected = unpacked(name, call(first, *rest))
        *failed, last = outcomes(refusing, (lambda it, rest=rest: call(it, *rest)) if rest else call, first)
        assert failed == [("MemoryError",)] * len(failed) and unpacked(name, last) == expected
        assert failed or not isinstance(expected, bytes), "the result is allocated"
        assert unpacked(name, call(first, *rest)) == expected, "afterwards it works as before"


def test_allocations_of_functions_that_fail(loaded, native, refusing):
    where = addresses(loaded)
    *failed, made = outcomes(refusing, lambda of: native.functions(*of), where)
    assert len(failed) > 5 and failed == [("MemoryError",)] * len(failed)
    assert [it(ONE) for it in (made[0], made[1])] == [1, ONE]


# ---- what it needs


# The part of the stable ABI that it uses, with what CPython 3.9 has of it: "Contents of Limited API" in Python's documentation.
STABLE = """PyArg_UnpackTuple PyBytes_AsString PyBytes_AsStringAndSize PyBytes_FromStringAndSize PyBytes_Size PyBytes_Type PyCMethod_New
    PyCapsule_GetPointer PyCapsule_New PyErr_Clear PyErr_ExceptionMatches PyErr_NoMemory PyErr_Occurred PyErr_SetString PyEval_RestoreThread
    PyEval_SaveThread PyExc_Exception PyExc_ValueError PyLong_AsLong PyLong_AsLongLong PyLong_AsSsize_t PyLong_FromLong PyLong_FromSize_t
    PyLong_FromUnsignedLong PyMem_Calloc PyMem_Free PyMem_Malloc PyMem_Realloc PyModuleDef_Init PyModule_GetState
    PyObject_CallFunctionObjArgs PyObject_IsTrue PyTuple_GetItem PyTuple_New PyTuple_SetItem PyTuple_Size PyTuple_Type
    PyUnicode_AsUTF8String PyUnicode_DecodeUTF8 PyUnicode_FromStringAndSize Py_DecRef Py_IncRef _PyArg_ParseTupleAndKeywords_SizeT
    _PyArg_ParseTuple_SizeT _PyObject_CallFunction_SizeT _PyObject_CallMethod_SizeT _Py_BuildValue_SizeT _Py_Dealloc _Py_NoneStruct""".split()


def test_symbols(extension):
    """It needs nothing that the oldest CPython of the package might not have."""
    needed = subprocess.run(["nm", "-D", "--undefined-only", extension], capture_output=True, text=True, check=True).stdout
    of_libc = "close free malloc memchr memcmp memcpy open open64 pread pread64 qsort strchr strcmp strlen syscall".split()
    assert {*re.findall(r" U (\w+)", needed)} <= {*STABLE, *of_libc}
    shown = subprocess.run(["nm", "-D", "--defined-only", extension], capture_output=True, text=True, check=True).stdout
    assert re.findall(r" [A-Z] (\w+)", shown) == ["PyInit__native"]


def test_oldest_python():
    """Its limited API is that of the oldest Python for which the package is."""
    project = (TOP / "python" / "pyproject.toml").read_text(encoding="utf-8")
    major, minor = map(int, re.search(r'requires-python = ">=(\d+)\.(\d+)"', project).groups())
    source = (TOP / "python" / "exifnorm" / "_native.c").read_text(encoding="utf-8")
    assert f"#define Py_LIMITED_API {major << 24 | minor << 16:#010x}\n" in source
