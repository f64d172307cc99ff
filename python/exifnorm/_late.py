"""Names of a module that are imported when a program first asks for one: a program that needs few
of them doesn't wait for the others."""

TYPE_CHECKING = False  # that of `typing`, which takes long to import
if TYPE_CHECKING:
    from typing import Any, Callable, Dict, List, Tuple


def late(module: "Dict[str, Any]", module_of: "Callable[[str], str]") -> "Tuple[Callable[[str], Any], Callable[[], List[str]]]":
    """The functions `__getattr__` and `__dir__` of a module, by its variables: `module_of` names the
    module that has a name of its `__all__`.

    >>> found, names = late({"__name__": "a", "__all__": ["sqrt"]}, lambda name: "math")
    >>> found("sqrt")(4), names()
    (2.0, ['__all__', '__name__', 'sqrt'])
    """

    def found(name: str) -> "Any":
        if name not in module["__all__"]:
            raise AttributeError(f"module {module['__name__']!r} has no attribute {name!r}")
        from importlib import import_module

        module[name] = getattr(import_module(module_of(name)), name)  # which is found at once then
        return module[name]

    return found, lambda: sorted({*module["__all__"], *(name for name in module if name.startswith("_"))})
