"""The code of the command `exifnorm-pictures`, also `python3 -m exifnorm_pictures`, and of the calls for whole pictures, which a program
imports from `exifnorm`: `exifnorm.read`, `exifnorm.compare`.

The readers of `formats` extract the blocks of pictures, and ExifTool those that they don't read. exifnorm judges the blocks in this process,
and a SQLite catalogue keeps the results.
"""

TYPE_CHECKING = False  # that of `typing`, which takes long to import
if not TYPE_CHECKING:  # a type checker would take any name for one of these

    def __getattr__(name):
        """Where a program finds a call that it looks for here. Of an AttributeError, which a module
        that isn't imported yet needs, `from exifnorm_pictures import read` would show no words."""
        calls = "compare read read_all read_bytes Reader".split()
        raise (ImportError if name in calls else AttributeError)(
            f"exifnorm_pictures has no {name!r}: programs import exifnorm, as for exifnorm.read"
        )
