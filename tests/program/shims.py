"""Libraries that are preloaded into the program, compiled from the C files beside this one."""

import os
import shutil
import subprocess

HERE = os.path.dirname(os.path.abspath(__file__))


class NoShim(Exception):
    """A library can't be made."""


def make_shim(folder, name):
    """Compiles NAME.c into the folder and returns the library's path."""
    compiler = shutil.which("cc") or shutil.which("gcc")
    if not compiler:
        raise NoShim(f"there is no C compiler cc: {name}.c can't be used without one")
    shim = os.path.join(folder, f"{name}.so")
    words = [compiler, "-shared", "-fPIC", "-O1", "-o", shim, os.path.join(HERE, f"{name}.c"), "-ldl"]
    ran = subprocess.run(words, stdin=subprocess.DEVNULL, capture_output=True, text=True)
    if ran.returncode:
        raise NoShim(f"{compiler} did not compile {name}.c: {ran.stderr.strip()}")
    return shim
