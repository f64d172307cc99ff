"""A mistake in a module that is imported: which functions get another code, and whether it changes anything that runs."""

from __future__ import annotations

import functools
import gc
import sys
from types import CodeType, FunctionType
from typing import Any, List, Optional, Tuple

OWN_NAMES = 2  # of co_flags: a function's code, not a module's or a class's


def inner(code: CodeType) -> List[CodeType]:
    return [it for it in code.co_consts if isinstance(it, CodeType)]


def own(code: CodeType) -> Tuple[Any, ...]:
    """What a code does, without its lines and without the codes in it."""
    constants = tuple("code" if isinstance(it, CodeType) else (type(it), repr(it)) for it in code.co_consts)
    return (code.co_code, constants, code.co_names, code.co_varnames, code.co_freevars, code.co_cellvars, code.co_flags)


def whole(code: CodeType) -> Tuple[Any, ...]:
    """What a code does, without its lines."""
    return (own(code), *(whole(it) for it in inner(code)))


def is_equal(old: bytes, new: bytes) -> Optional[bool]:
    """Whether two sources are the same bytecode; None if the second one doesn't compile."""
    try:
        return whole(compile(old, "", "exec", dont_inherit=True)) == whole(compile(new, "", "exec", dont_inherit=True))
    except (SyntaxError, ValueError):
        return None


def exchanges(old: CodeType, new: CodeType) -> Optional[List[Tuple[CodeType, CodeType]]]:
    """The codes of functions that differ; None if a module, a class or a parameter's default does."""
    if own(old) != own(new):
        return None
    found: List[Tuple[CodeType, CodeType]] = []
    for before, after in zip(inner(old), inner(new)):
        if whole(before) == whole(after):
            continue
        if before.co_flags & OWN_NAMES:
            found.append((before, after))
            continue
        more = exchanges(before, after)
        if more is None:
            return None
        found += more
    return found if all(before.co_freevars == after.co_freevars for before, after in found) else None


def functions_of(old: bytes, new: bytes, path: str) -> Optional[List[Tuple[FunctionType, CodeType]]]:
    """The functions of this process that get another code; none if it hasn't imported the module; None if not all that differs is in such."""
    if path not in {getattr(it, "__file__", None) for it in [*sys.modules.values()]}:
        return []
    gc.unfreeze()  # a command freezes all that is there when it begins, which gc then doesn't name
    found = exchanges(compile(old, path, "exec", dont_inherit=True), compile(new, path, "exec", dont_inherit=True))
    if found is None:
        return None
    by_place = {(before.co_name, before.co_firstlineno): after for before, after in found}
    objects = [it for it in gc.get_objects() if isinstance(it, FunctionType) and it.__code__.co_filename == path]
    made = [(it, by_place[place]) for it in objects if (place := (it.__code__.co_name, it.__code__.co_firstlineno)) in by_place]
    return made if {(it.__code__.co_name, it.__code__.co_firstlineno) for it, _ in made} == {*by_place} else None


def put(functions: List[Tuple[FunctionType, CodeType]]) -> None:
    """Gives functions another code, and forgets what functions have kept."""
    for function, code in functions:
        function.__code__ = code
    for it in gc.get_objects():
        if isinstance(it, functools._lru_cache_wrapper):
            it.cache_clear()
