"""Runs exifnorm-pictures with the packages of this folder. ./exifnorm-pictures calls it, with the library in EXIFNORM_LIBRARY."""

import sys
from pathlib import Path

sys.path[0] = str(Path(__file__).resolve().parent.parent / "python")  # which was build/

import signal

if signal.getsignal(signal.SIGINT) == signal.default_int_handler:
    signal.signal(signal.SIGINT, signal.SIG_DFL)  # while modules are imported, the keyboard ends the process without a traceback

from exifnorm_pictures.cli.main import main

if __name__ == "__main__":
    sys.exit(main())
