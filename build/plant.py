#!/usr/bin/python3
"""Plants random mistakes in Python statements and lines of JavaScript, one at a time, and prints those that no test finds.

  build/plant.py                                          in 100 statements that the made museum runs, with it, its laws and tables
  build/plant.py --since main --tests tests/pictures      in the statements that differ from main
  build/plant.py python/exifnorm --tests tests/library/test_package.py tests/library/test_fields.py
  build/plant.py javascript --tests tests/web/test_javascript.py tests/web/test_plain_words.py -k "not chromium"

What each test runs is found once, by python3-coverage. Each mistake is planted in a copy of the tree, and a forked process runs the tests that
reach the statement, the quickest first, until one fails. A mistake that compiles to the same bytecode is no mistake, nor is one that doesn't
compile; one that doesn't end in a minute isn't counted; one that by a rule changes no answer is printed with the reason, and isn't planted. Each
other one that gets through asks for a picture or a call that the museum lacks, or for less code.
"""

from __future__ import annotations

import argparse
import ast
import importlib
import json
import os
import random
import re
import shutil
import subprocess
import tempfile
from collections import Counter
from pathlib import Path
from subprocess import PIPE
from typing import Any, Dict, Iterator, List, Optional, Set

import mistakes
import planted
import reached
import token_mistakes
import trying

TOP = Path(__file__).resolve().parent.parent
CALL = "tests/pictures/test_museum.py::test_what_a_command_prints"
LAW = "tests/pictures/test_museum_laws.py::test_processes_keep_what_one_keeps"
SLOW = [f"{CALL}[mend full mended --lossless]", LAW]  # one of 10 seconds, and one that starts processes
MODULES = "museum museum_laws museum_faults museum_limits museum_api museum_bytes words_of_tables format_laws functions own_texts sidecars"
MODULES += " coded_picture conflicts edits messages moves pairs parts plain_values repairs tables trailers"
MUSEUM = [*(f"tests/pictures/test_{it}.py" for it in MODULES.split()), "tests/library/test_package.py::test_examples"]
MUSEUM += [word for it in SLOW for word in ("--deselect", it)]
IMPORTED = "hypothesis PIL.Image jinja2 xlsxwriter openpyxl".split()
LEFT_OUT = shutil.ignore_patterns(".git", "__pycache__", "*.rlib", "stage", "wheel", "dist", "*.log", "plant")


def changed_lines(since: str) -> Dict[Path, Set[int]]:
    """The lines that differ from a commit, by file."""
    words = ["git", "diff", "--unified=0", "--no-prefix", f"{since}...", "--", "*.py", "*.js", ":!tests", ":!bench"]
    by_file: Dict[Path, Set[int]] = {}
    for line in subprocess.run(words, cwd=TOP, stdout=PIPE, text=True, check=True).stdout.splitlines():
        if line.startswith("+++ ") and line != "+++ /dev/null":
            lines = by_file.setdefault(Path(line[4:]), set())
        elif at := re.match(r"@@ .* \+(\d+)(?:,(\d+))? @@", line):
            lines.update(range(int(at[1]), int(at[1]) + int(at[2] or 1)))
    return by_file


def sizes() -> List[str]:
    """The names of the sizes that a test gives other values, with which commands print the same."""
    tree = ast.parse((TOP / "tests/pictures/test_museum_limits.py").read_bytes())
    tables = {mistakes.name_of(it.targets[0]): it.value for it in tree.body if isinstance(it, ast.Assign)}
    return [*ast.literal_eval(tables["SIZES"])]


class Sources:
    """The sources of the packages, and where each name is."""

    def __init__(self, known: reached.Reached) -> None:
        self.known = known
        self.texts = {path.relative_to(TOP): path.read_bytes() for path in sorted((TOP / "python").rglob("*.py"))}
        self.of_names = mistakes.Known(self.texts.values())
        self.sizes = [name.rsplit(".", 1) for name in sizes()]
        self.trees: Dict[Path, ast.AST] = {}
        self.places: Dict[str, List[tuple[Path, int]]] = {}
        for path, text in self.texts.items():
            for number, line in enumerate(text.decode().splitlines(), 1):
                for name in set(re.findall(r"\w+", line)):
                    self.places.setdefault(name, []).append((path, number))

    def readers(self, mistake: mistakes.Mistake) -> Set[str]:
        """The tests that run a line with a name that a statement gives a value to."""
        places = [place for name in mistake.names for place in self.places.get(name, ())]
        others = [it for it in places if it[0] != mistake.path or it[1] not in mistake.lines]
        return set().union(*(self.known.of(path, range(line, line + 1)) for path, line in others))

    def plant(self, number: int, mistake: mistakes.Mistake) -> trying.Plant:
        """A mistake with the tests that should find it."""
        old = self.texts[mistake.path]
        if is_script(mistake.path):  # of which it isn't known what reaches it
            return trying.Plant(number, str(mistake.path), old, mistake.planted(old), self.known.all(), True)
        tests = self.known.order(mistake.path, mistake.lines, self.readers(mistake))
        is_shared, is_imported = "" in self.known.of(mistake.path, mistake.lines), self.is_imported(mistake)
        return trying.Plant(number, str(mistake.path), old, mistake.planted(old), tests, is_shared, is_imported)

    def is_imported(self, mistake: mistakes.Mistake) -> bool:
        """Whether a mistake is in a function that runs while its module is imported."""
        tree = ast.parse(self.texts[mistake.path])
        every = (it for it in ast.walk(tree) if isinstance(it, (ast.FunctionDef, ast.AsyncFunctionDef)))
        around = {it.name for it in every if it.lineno <= mistake.lines.start <= (it.end_lineno or it.lineno)}
        return bool(around & mistakes.run_by_import(tree))

    def places_of(self, path: Path, lines: Optional[Set[int]]) -> List[Any]:
        """Where a mistake can be: statements that tests run, and lines of JavaScript."""
        if is_script(path):
            self.texts[path] = (TOP / path).read_bytes()
            return [it for it in token_mistakes.lines(self.texts[path]) if lines is None or it in lines]
        self.trees[path] = ast.parse(self.texts[path])
        some = (it for it in mistakes.statements(self.trees[path]) if lines is None or it.lineno in lines)
        return [it for it in some if self.known.of(path, mistakes.lines_of(it))]

    def at(self, path: Path, place: Any) -> List[mistakes.Mistake]:
        """The mistakes of a place."""
        if is_script(path):
            return token_mistakes.mistakes(path, self.texts[path], place)
        own = self.texts[path].decode()
        for module, name in self.sizes:  # of this module, or of one that it is imported from
            is_size = path.match(f"*/{module.replace('.', '/')}.py") or not re.search(rf"^{name}\b", own, re.M)
            (self.of_names.sizes.add if is_size else self.of_names.sizes.discard)(name)
        return mistakes.mistakes(path, self.texts[path], place, mistakes.members_of(self.trees[path]), self.of_names)

    def chosen(self, wanted: Dict[Path, Optional[Set[int]]], chance: random.Random) -> Iterator[mistakes.Mistake]:
        """A mistake in each place, in the order of chance, of those that change what runs; before it
        those that are drawn and change no answer."""
        every = [(path, it) for path, lines in sorted(wanted.items()) for it in self.places_of(path, lines)]
        chance.shuffle(every)
        for path, place in every:
            several = self.at(path, place)
            for mistake in chance.sample(several, len(several)):
                if is_change(path, self.texts[path], mistake):
                    yield mistake
                    if not mistake.equal:
                        break


def is_script(path: Path) -> bool:
    return path.suffix == ".js"


def is_change(path: Path, old: bytes, mistake: mistakes.Mistake) -> bool:
    """Whether a mistake compiles, and isn't the same."""
    if not is_script(path):
        return planted.is_equal(old, mistake.planted(old)) is False
    words = ["node", "--input-type=module", "--check"]
    return subprocess.run(words, input=mistake.planted(old), stderr=subprocess.DEVNULL, check=False).returncode == 0


def answers(plants: List[trying.Plant], words: List[str], trees: List[Path]) -> Iterator[Dict[str, Any]]:
    """What each tree's process says of its share of the mistakes, as it comes."""
    reader, writer = os.pipe()
    children = []
    for number, tree in enumerate(trees):
        child = os.fork()
        if not child:
            os.close(reader)
            try:
                with os.fdopen(writer, "w") as said:
                    trying.try_all(plants[number :: len(trees)], words, tree, said)
            finally:
                os._exit(0)
        children.append(child)
    os.close(writer)
    with os.fdopen(reader) as lines:
        yield from map(json.loads, lines)
    for child in children:
        os.waitpid(child, 0)


def share(results: Counter[str]) -> str:
    """How many mistakes get through, of those that end."""
    through, count = results[trying.THROUGH], results[trying.FOUND] + results[trying.THROUGH]
    return f"{through} of {count} got through ({100 * through / max(count, 1):.1f} %), {results[trying.ENDED]} didn't end"


def changing(every: Iterator[mistakes.Mistake], count: int, sources: Sources) -> List[mistakes.Mistake]:
    """The first ones that may change an answer. Those before them are printed with the reason why they don't."""
    found: List[mistakes.Mistake] = []
    while len(found) < count and (mistake := next(every, None)):
        if mistake.equal:
            print(f"not planted, {mistake.equal}: {mistake.words(sources.texts[mistake.path])}")
        else:
            found.append(mistake)
    return found


def print_all(chosen: List[mistakes.Mistake], sources: Sources, words: List[str], trees: List[Path]) -> None:
    """Prints what finds each mistake, or that it gets through, and the share of these by folder."""
    plants = [sources.plant(number, it) for number, it in enumerate(chosen)]
    folders: Dict[str, Counter[str]] = {}
    seconds = 0.0
    for answer in answers(plants, words, trees):
        mistake = chosen[answer["number"]]
        folders.setdefault(str(mistake.path.parent), Counter())[answer["result"]] += 1
        seconds += answer["seconds"]
        words_of_it = mistake.words(sources.texts[mistake.path])
        print(f"{answer['result']} {answer['by']}: {words_of_it} ({answer['seconds']:.1f} s)", flush=True)
    for folder, results in sorted(folders.items()):
        print(f"{folder}: {share(results)}")
    print(f"{share(sum(folders.values(), Counter()))}; {seconds / max(len(chosen), 1):.1f} s of a processor for each")


def main() -> None:
    parser = argparse.ArgumentParser(description=__doc__, formatter_class=argparse.RawDescriptionHelpFormatter)
    parser.add_argument("paths", nargs="*", type=Path, help="files and folders of Python sources (python/exifnorm_pictures)")
    parser.add_argument("--since", help="the statements that differ from this commit")
    parser.add_argument("--count", type=int, default=100, help="how many statements (100)")
    parser.add_argument("--seed", type=int, default=random.randrange(10**6), help="the same number plants the same mistakes")
    parser.add_argument("--jobs", type=int, default=2, help="how many at a time (2)")
    parser.add_argument("--tests", nargs=argparse.REMAINDER, default=MUSEUM, help="words for pytest; without them the museum's")
    given = parser.parse_args()
    wanted: Dict[Path, Optional[Set[int]]] = dict(changed_lines(given.since)) if given.since else {}
    sources = "*.py" if given.tests is MUSEUM else "*.[pj][ys]"  # the museum runs no JavaScript
    for path in given.paths or ([] if given.since else [TOP / "python" / "exifnorm_pictures"]):
        wanted.update({it.resolve().relative_to(TOP): None for it in (path.rglob(sources) if path.is_dir() else [path])})
    for name in IMPORTED:  # by the process that is forked, so that each fork has them
        importlib.import_module(name)
    with tempfile.TemporaryDirectory(prefix="plant-") as folder:
        Path(folder).chmod(0o755)
        trees = [Path(shutil.copytree(TOP, Path(folder, str(it)), symlinks=True, ignore=LEFT_OUT)) for it in range(given.jobs)]
        kept = reached.place(TOP, given.tests)
        if not kept.exists() and (wrong := trying.traced(trees[0], given.tests, kept, reached.Traced)):
            raise SystemExit(f"the tests don't pass without a mistake:\n{wrong}")
        known = Sources(reached.Reached(kept))
        chosen = changing(known.chosen(wanted, random.Random(given.seed)), given.count, known)
        print(f"{len(chosen)} statements that these tests run; --seed {given.seed} repeats them", flush=True)
        print_all(chosen, known, given.tests, trees)


if __name__ == "__main__":
    main()
