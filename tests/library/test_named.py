"""Classes of named tuples: those that the package makes are as `typing` makes them."""

import inspect
import pickle
import typing

import pytest
from hypothesis import given, strategies as st

from exifnorm import _named

NAMES = st.lists(st.sampled_from(("start", "size", "kind", "text", "values", "a1")), unique=True, min_size=1)
TYPES = st.sampled_from(("int", "str", "bytes", "typing.Optional[int]", "list[str]", "'dict[str, int]'"))


def made(base, names, types, defaults):
    """A class with these fields, the last of which have defaults, and with a method, a property and words."""
    fields = [f"    {name}: {type_}" for name, type_ in zip(names, types)]
    for at, default in enumerate(reversed(defaults), 1):
        fields[-at] += f" = {default!r}"
    lines = ["from __future__ import annotations", "class Made(NamedTuple):", "    'Words.'", *fields]
    lines += ["    @property", "    def first(self): return self[0]", "    @classmethod", "    def of(cls, *words): return cls(*words)"]
    space = {"NamedTuple": base, "__name__": __name__}
    exec("\n".join(lines), space)
    return space["Made"]


@st.composite
def classes(draw):
    names = draw(NAMES)
    types = [draw(TYPES) for _ in names]
    defaults = draw(st.lists(st.one_of(st.integers(), st.none(), st.text(max_size=3)), max_size=len(names)))
    return [made(base, names, types, defaults) for base in (_named.NamedTuple, typing.NamedTuple)]


def about(kind):
    """What a program sees of a class."""
    values = kind.of(*range(len(kind._fields)))
    return (
        (kind.__name__, kind.__qualname__, kind.__module__, kind.__doc__, kind.__mro__[1:], type(kind)),
        (
            kind._fields,
            kind._field_defaults,
            typing.get_type_hints(kind),
            [str(it.name) for it in inspect.signature(kind).parameters.values()],
        ),
        (values, values.first, repr(values), values._asdict(), values._replace(**{kind._fields[0]: 9}), hash(values)),
    )


@given(classes())
def test_a_class_is_as_typing_makes_it(both):
    ours, theirs = map(about, both)
    assert ours == theirs


def test_signatures_name_the_types():
    """help() shows them."""
    from exifnorm import JpegPart

    assert str(inspect.signature(JpegPart)) == "(marker: 'int', kind: 'str', begins: 'bool', start: 'int', size: 'int')"
    assert pickle.loads(pickle.dumps(JpegPart(1, "exif", True, 2, 3))) == (1, "exif", True, 2, 3)


def test_a_field_without_a_default_follows_none_with_one():
    with pytest.raises(TypeError):
        exec("class Made(NamedTuple):\n    a: int = 1\n    b: int", {"NamedTuple": _named.NamedTuple, "__name__": __name__})
