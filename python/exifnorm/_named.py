"""Named tuples as those of `typing`, whose classes are made in a third of the time: `typing` compiles the text of each annotation,
which takes longer than all else that some modules do when they are imported.

    >>> class Place(NamedTuple):
    ...     start: int
    ...     size: int = 0
    >>> Place(3)
    Place(start=3, size=0)
"""

import sys
from collections import namedtuple

TYPE_CHECKING = False  # that of `typing`, which takes long to import
if TYPE_CHECKING or sys.version_info >= (3, 14):  # which evaluates annotations later, if at all
    from typing import NamedTuple as NamedTuple
else:

    class _Made(type):
        """Makes a class of named tuples of a class with annotations."""

        def __new__(cls, name, bases, members):
            if not bases:  # NamedTuple itself
                return super().__new__(cls, name, bases, members)
            fields = members["__annotations__"]
            last = [it for it in fields if it in members]
            if last != list(fields)[len(fields) - len(last) :]:
                raise TypeError(f"{name}: a field without a default follows one that has one")
            made = namedtuple(name, fields, defaults=[members[it] for it in last])
            made.__new__.__annotations__ = fields  # which help() shows
            for key in members.keys() - fields:
                setattr(made, key, members[key])
            return made

    class NamedTuple(metaclass=_Made):
        """The base of a class whose annotations are the fields."""
