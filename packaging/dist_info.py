#!/usr/bin/env python3
"""Writes the dist-info folder of the Python packages, which importlib.metadata and pip read.

  packaging/dist_info.py PROJECT FOLDER

PROJECT is the folder of pyproject.toml, FOLDER the one that the packages are installed in. There is no RECORD, as usual for packages
from a distribution: pip lists the packages and leaves their removal to the program that installed them.
"""

from __future__ import annotations

import shutil
import sys
import tomllib
from pathlib import Path


def metadata(source: Path) -> str:
    """The core metadata of the project in a folder."""
    project = tomllib.loads((source / "pyproject.toml").read_text(encoding="utf-8"))["project"]
    people = ", ".join(f"{it['name']} <{it['email']}>" for it in project["authors"])
    lines = ["Metadata-Version: 2.1", f"Name: {project['name']}", f"Version: {project['version']}", f"Summary: {project['description']}"]
    lines += [f"Author-email: {people}", f"License: {project['license']['text']}"]
    lines += [f"Project-URL: {name}, {it}" for name, it in project["urls"].items()]
    lines += [f"Classifier: {it}" for it in project["classifiers"]]
    lines += [f"Requires-Python: {project['requires-python']}", "Description-Content-Type: text/markdown"]
    for extra, needed in sorted(project["optional-dependencies"].items()):
        lines += [f"Provides-Extra: {extra}", *(f"Requires-Dist: {it} ; extra == '{extra}'" for it in needed)]
    return "\n".join([*lines, "", (source / project["readme"]).read_text(encoding="utf-8")])


def write(source: Path, folder: Path) -> None:
    """Writes the dist-info of the project in a folder into another."""
    project = tomllib.loads((source / "pyproject.toml").read_text(encoding="utf-8"))["project"]
    target = folder / f"{project['name']}-{project['version']}.dist-info"
    target.mkdir()
    (target / "METADATA").write_text(metadata(source), encoding="utf-8")
    calls = "".join(f"{name} = {call}\n" for name, call in project["scripts"].items())
    (target / "entry_points.txt").write_text(f"[console_scripts]\n{calls}", encoding="utf-8")
    (target / "INSTALLER").write_text("make\n", encoding="utf-8")
    for licence in source.glob("LICENSE-*"):
        shutil.copyfile(licence, target / licence.name)


if __name__ == "__main__":
    if len(sys.argv) != 3:
        sys.exit(__doc__)
    write(Path(sys.argv[1]), Path(sys.argv[2]))
