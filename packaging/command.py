#!/usr/bin/env python3
"""Prints the script exifnorm-pictures for the Python that runs this file, or for INTERPRETER, such as '/usr/bin/env python3'.

  PYTHON packaging/command.py BINDIR PYTHONDIR [INTERPRETER]

It finds the packages by a path relative to its own folder, so that it also runs from a staged installation, and from a prefix in which that
Python looks for no packages. Lines for the shell, which are a text to Python, are where the system can't read the first line.
"""

import os
import sys

SCRIPT = '''"""Runs exifnorm-pictures with the packages that were installed with it."""
import os
import sys

parts = os.environ.get("PYTHONPATH")
for folder in parts.split(os.pathsep) if parts else ():
    if not os.path.isabs(folder) and os.path.abspath(folder) in sys.path:
        sys.path.remove(os.path.abspath(folder))  # the current folder, which may be a stranger's
packages = os.path.normpath(os.path.join(os.path.dirname(os.path.realpath(__file__)), {way!r}))
if packages not in sys.path:
    sys.path.insert(1, packages)

import signal

if signal.getsignal(signal.SIGINT) == signal.default_int_handler:
    signal.signal(signal.SIGINT, signal.SIG_DFL)  # while modules are imported, the keyboard ends the process without a traceback

from exifnorm_pictures.cli.main import main

sys.exit(main())
'''

programs, packages, python = [*sys.argv[1:], sys.executable][:3]
is_read = len(python) <= 125 and (" " not in python or python.startswith("/usr/bin/env "))
print(f"#!{python}" if is_read else f"#!/bin/sh\n'''exec' '{python}' \"$0\" \"$@\"\n' '''")
print(SCRIPT.format(way=os.path.relpath(packages, programs)), end="")
