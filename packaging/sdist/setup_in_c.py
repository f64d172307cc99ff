"""Compiles the library from C source into the package, by any compiler that setuptools finds."""

import os
import re
from pathlib import Path

from setuptools import Extension, setup

SOURCES = ["exifnorm.c", "machine.h", "module.c", "exifnorm.h"]
CALLS = re.findall(r"^uint32_t (exifnorm_\w+)\(", Path("c", "exifnorm.h").read_text(encoding="utf-8"), re.MULTILINE)
OLDEST = ("Py_LIMITED_API", "0x03090000")
# By Python's own -O3 -g a module takes twice as long to compile, and has eighteen times as many
# bytes; its calls take as many instructions. By -O1 they take 1.7 times as many.
FLAGS = ["-O2", "-g0"] if os.name == "posix" and "CFLAGS" not in os.environ else []

setup(
    ext_modules=[
        Extension(
            "exifnorm._in_c",
            ["c/in_c.c"],
            include_dirs=["c"],
            depends=[f"c/{name}" for name in SOURCES],
            define_macros=[OLDEST],
            export_symbols=CALLS,
            extra_compile_args=FLAGS,
            py_limited_api=True,
        ),
        # without it, ctypes makes the calls
        Extension(
            "exifnorm._native",
            ["exifnorm/_native.c"],
            include_dirs=["c"],
            depends=["exifnorm/_packed.h"],
            extra_compile_args=FLAGS,
            py_limited_api=True,
            optional=True,
        ),
    ],
    options={"bdist_wheel": {"py_limited_api": "cp39"}},
)
