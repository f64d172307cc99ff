"""Where Python looks for modules: not in the current folder, which may be a stranger's, with modules of its own."""

import os
import sys

_PACKAGES = os.path.dirname(os.path.dirname(os.path.dirname(os.path.abspath(__file__))))


def leave_out_current_folder() -> None:
    """Takes the folders of empty and relative parts of PYTHONPATH out of the search path, as of `PYTHONPATH=:/packages`.

    Python's option -I would also leave out what `pip install --user` has installed.
    """
    relative = _relative_parts(os.environ.get("PYTHONPATH", ""))
    sys.path[:] = [it for it in sys.path if os.path.abspath(it) == _PACKAGES or (os.path.isabs(it) and it not in relative)]


def _relative_parts(pythonpath: str) -> "set[str]":
    """The folders that empty and relative parts of PYTHONPATH name.

    >>> _relative_parts(":/packages") == {os.getcwd()}, _relative_parts("")
    (True, set())
    """
    return {os.path.abspath(it) for it in pythonpath.split(os.pathsep) if not os.path.isabs(it)} if pythonpath else set()
