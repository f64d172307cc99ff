"""The calls for whole pictures, and their classes. Their code is in the package `exifnorm_pictures`, from which nothing else is public.

    >>> from exifnorm import pictures
    >>> pictures.Field("main", "013b", "ASCII", 5, b"Otto\\0")
    Field(name='IFD0:Artist', text='Otto')

- `read` and `read_bytes` return a `Picture`, whose fields are found by name; `read_all` reads many in several processes
- `Reader` reads one after another within limits of time and size, also without starting other programs
- `compare` returns a `Comparison` of two pictures
- `NoPicture` and `NotReadable` are raised for what can't be read

A refused block raises nothing: see `Picture.refusals`.
"""

from ._late import late

TYPE_CHECKING = False  # that of `typing`, which takes long to import
if TYPE_CHECKING:
    from exifnorm_pictures.api import Comparison, Difference, NoPicture, NotReadable, Reader, compare, read, read_bytes
    from exifnorm_pictures.catalogue.conflicts import Conflict
    from exifnorm_pictures.fields.field import Field
    from exifnorm_pictures.fields.labels import Caption
    from exifnorm_pictures.many import read_all
    from exifnorm_pictures.picture import Block, Picture, Position, Refusal

__all__ = [
    "Block",
    "Caption",
    "Comparison",
    "Conflict",
    "Difference",
    "Field",
    "NoPicture",
    "NotReadable",
    "Picture",
    "Position",
    "Reader",
    "Refusal",
    "compare",
    "read",
    "read_all",
    "read_bytes",
]

_MODULES = {  # where a name is, if not in api
    "Block": "picture",
    "Caption": "catalogue.conflicts",
    "Conflict": "catalogue.conflicts",
    "Field": "fields.field",
    "Picture": "picture",
    "Position": "picture",
    "Refusal": "picture",
    "read_all": "many",
}

if not TYPE_CHECKING:  # a type checker would take any name for one of these
    __getattr__, __dir__ = late(globals(), lambda name: f"exifnorm_pictures.{_MODULES.get(name, 'api')}")
