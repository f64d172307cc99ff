"""`python3 -m exifnorm_pictures`."""

import os
import sys

if os.path.abspath(sys.path[0]) == os.getcwd() != os.path.dirname(os.path.dirname(os.path.abspath(__file__))):
    del sys.path[0]  # the current folder, which Python puts first, and where a file could be imported in place of a module

import signal

if signal.getsignal(signal.SIGINT) == signal.default_int_handler:
    signal.signal(signal.SIGINT, signal.SIG_DFL)  # while modules are imported, the keyboard ends the process without a traceback

from .cli.main import main

if __name__ == "__main__":
    sys.exit(main())
