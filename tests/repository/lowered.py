"""The lowered code (MIR) of functions, which a build leaves in out/proved beside each library.

test_sources.py finds in it which functions make memory or call what makes it, and which call what may allocate. Programs and
static libraries are built without such a file.
"""

from __future__ import annotations

import json
import re
from pathlib import Path
from typing import Any, Iterator, Optional

from crates import Crates
from store import Store

TOP = Path(__file__).resolve().parent.parent.parent

MAKES = {"px_bytes::memory::Memory::new", "px_bytes::memory::Memory::fresh"}
# the calls outside the repository's own crates that allocate nothing
QUIET = re.compile(
    r"core::.*|byteorder::.*|itoa::Buffer::.*|hex::encode_to_slice|md5::.*|memchr::bytes::.*|std_alloc::boxed::Box::drop|std_alloc::string::String::(?:as_str|drop|new)|"
    r"std_alloc::vec::Vec::(?:allocator|as_mut_slice|as_slice|capacity|clear|drop|is_empty|last_mut|len|new|pop|push_reserved|truncate)|"
    r"std_alloc::vec::(?:derefs|lends)::.*|"
    r"std_alloc::vec::into_iter::(?:IntoIterIterator::next|VecIntoIterator::into_iter)|std_alloc::vec::deque::VecDeque::drop|"
    r"std_alloc::collections::binary_heap::BinaryHeap(?:::into_sorted_vec|FromVec::from)|"
    r"std_collections::btree_map::BTreeMap::new|clap::error::.*|clap::parser::matches::ArgMatches::(?:get_str|subcommand)"
)
Function = dict[str, Any]


def functions(crate: str) -> Optional[dict[str, Function]]:
    """The functions of a library by their paths, or None if no library of these sources was built."""
    store = Store(Crates.read(TOP), "", TOP / "out" / "proved")
    file = store.product(crate) / "toolchain" / "mir.json"
    return dict(json.loads(file.read_text(encoding="utf-8"))) if store.is_built(crate) and file.is_file() else None


def steps(body: Any) -> Iterator[Any]:
    """The statements of a body, in the order in which they are written, in branches too.

    >>> list(steps(["Seq", {"Assign": 1}, "Seq", {"Switch": 2}, [{"Assign": 3}, "Return"], "Return"]))
    [{'Assign': 1}, {'Switch': 2}, {'Assign': 3}, 'Return', 'Return']
    """
    for it in body if isinstance(body, list) else [body]:
        if isinstance(it, list):
            yield from steps(it)
        elif it != "Seq":
            yield it


def callee(step: Any) -> str:
    """The path of the function that a statement calls: empty if it calls none, and a mark if it calls by a pointer."""
    if not isinstance(step, dict) or "Call" not in step:
        return ""
    called = step["Call"][0]
    return called["Fn"][0] if isinstance(called, dict) and "Fn" in called else "a pointer"


def callers(found: dict[str, Function], called: set[str]) -> dict[str, set[str]]:
    """Which of some functions each function calls. A closure belongs to its function.

    >>> call = lambda name: {"Call": [{"Fn": [name, {}]}, [], {"local": 0, "steps": []}]}
    >>> found = {"a::read_in": {"body": [call("b::Record::push"), "Return"]}, "a::b": {"body": [call("b::Record::push_in"), "Return"]}}
    >>> callers({**found, "a::c::fn::all": {"body": [[call("b::read")]]}}, {"b::Record::push", "b::read"})
    {'a::read_in': {'b::Record::push'}, 'a::c': {'b::read'}}
    """
    calls: dict[str, set[str]] = {}
    for name, function in found.items():
        for it in called & {callee(step) for step in steps(function["body"])}:
            calls.setdefault(name.partition("::fn::")[0], set()).add(it)
    return calls


def allocating(found: dict[str, Function]) -> dict[str, set[str]]:
    """The calls outside the repository's own crates that may allocate, by the functions that make them.

    >>> call = lambda name: {"Call": [{"Fn": [name, {}]}, [], {"local": 0, "steps": []}]}
    >>> push, quiet = "std_alloc::vec::Vec::push", ["std_alloc::vec::Vec::push_reserved", "px_bytes::memory::Memory::push", "core::cmp::min"]
    >>> allocating({"a::b": {"body": [call(push), "Return"]}, "a::c": {"body": [*map(call, quiet), "Return"]}, "a::d::fn::0": {"body": [[call(push)]]}})
    {'a::b': {'std_alloc::vec::Vec::push'}, 'a::d': {'std_alloc::vec::Vec::push'}}
    """
    calls: dict[str, set[str]] = {}
    for name, function in found.items():
        for called in filter(None, map(callee, steps(function["body"]))):
            if called != "a pointer" and not called.startswith("px_") and not QUIET.fullmatch(called):
                calls.setdefault(name.partition("::fn::")[0], set()).add(called)
    return calls
