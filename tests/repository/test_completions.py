"""The completions that packaging/completions.py makes of a command's help, for a command that is written out here.

How bash, zsh and fish read completions is in their own manuals: COMPREPLY and `complete`, `_describe` and `_arguments`, and `complete -C`.
test_installed.py tests those of the installed commands.
"""

import argparse
import shutil
import sys
from pathlib import Path
from shlex import quote

import pytest
from exifnorm_pictures.cli import parser
from grammar import flat, program_of
from installed import TOP, run

# A command with all that a help text may have, in the forms of clap and of argparse: an apostrophe, brackets, colons and a backslash,
# choices, a number, texts, a file, and no operands, two of them or many.
HELP = {
    "": """Does what it does.

Usage: my-tool <COMMAND>

Commands:
  show  Show a file: it's [one] line
  pair  Pair two files
  list-all  List all
  join  Join files
  move  Move files
  store  Keep files

Options:
  -h, --help  Print help
""",
    "show": """Usage: my-tool show [OPTIONS] FILE ...

Arguments:
  FILE  the file

Options:
  --kind {both,exif}  which: [blocks]
  -n N, --jobs N  how many
  --catalogue FILE  where
  -h, --help  Print help
""",
    "pair": """Usage: my-tool pair <FIRST> <SECOND>

Arguments:
  <FIRST>   the first
  <SECOND>  the second

Options:
  -h, --help  Print help
""",
    "list-all": """usage: my-tool list-all [-h] [-k {one,two}] [--catalogue FILE] [--title TITLE] [--note TEXT]

optional arguments:
  -h, --help  Print help
  -k {one,two}, --kind {one,two}
                        one \\ two
  --catalogue FILE  where
  --title TITLE  its title
  --note TEXT  a note
""",
    "join": """Usage: my-tool join <FILE>...

Arguments:
  <FILE>...  the files

Options:
  -h, --help  Print help
""",
    "move": """usage: my-tool move [-h] [--jobs N] FROM TO

positional arguments:
  FROM  a file
  TO    a folder

options:
  -h, --help  Print help
  --jobs N  how many
""",
    "store": """usage: my-tool store [-h] COMMAND ...

Commands:
  put  put files in
  get  get a file

options:
  -h, --help  Print help
""",
    "store put": """usage: my-tool store put [-h] [--kind {both,exif}] [--to FILE] FILE ...

positional arguments:
  FILE  a file

options:
  -h, --help  Print help
  --kind {both,exif}  which
  --to FILE  where
""",
    "store get": """usage: my-tool store get FILE

positional arguments:
  FILE  a file

options:
  -h, --help  Print help
""",
}


@pytest.fixture(scope="module")
def made(session_folder: Path) -> Path:
    """A folder with the completions of my-tool, and a folder with files that may be offered."""
    base = session_folder / "completions"
    (base / "files").mkdir(parents=True)
    tool = base / "tool"
    texts = [f"{quote(' '.join([*it.split(), '--help']))})\ncat <<'END'\n{text}END\n;;\n" for it, text in HELP.items()]
    tool.mkdir()
    (tool / "my-tool").write_text("#!/bin/sh\ncase $* in\n" + "".join(texts) + "esac\n")
    (tool / "my-tool").chmod(0o755)
    for name in ("compare.c", "other"):
        (base / "files" / name).write_text("")
    made = base / "made"
    made.mkdir()
    run(sys.executable, TOP / "packaging" / "completions.py", tool / "my-tool", made, made, made)
    return made


def test_options_are_those_of_the_parser(folder: Path, library: Path) -> None:
    """Of each command of exifnorm-pictures."""
    (folder / "exifnorm-pictures").write_text(f'#!/bin/sh\nexec {sys.executable} {TOP}/build/pictures.py "$@"\n', encoding="utf-8")
    (folder / "exifnorm-pictures").chmod(0o755)
    found = {
        it.name: {name for option in it.options for name in option.names}
        for it in flat(program_of(str(folder / "exifnorm-pictures")).commands)
    }
    shown = {name: [one for one in it._actions if one.help != argparse.SUPPRESS] for name, it in parser.parsers()[1].items()}
    due = {name: {word for it in actions for word in it.option_strings} for name, actions in shown.items()}
    assert {name: found[name] for name in due} == due


def need(shell: str) -> None:
    if not shutil.which(shell):
        pytest.skip(f"{shell} is not installed")


class TestBash:
    @pytest.fixture(autouse=True)
    def set_up(self, made: Path) -> None:
        need("bash")
        self.file, self.files = made / "my-tool", made.parent / "files"

    def ran(self, code: str, *words: str) -> str:
        """What bash prints, after it read the completions. `$@` is the line, and COMP_CWORD is at its last word."""
        prefix = 'source "$1"; shift; COMP_WORDS=("$@") COMP_CWORD=$(($# - 1)); '
        return run("bash", "-c", prefix + code, "bash", self.file, "my-tool", *words, folder=self.files)

    @pytest.mark.parametrize(
        "words, expected", [(["show", ""], "-o filenames\n"), (["show", "--catalogue", ""], "-o filenames\n"), (["show", "--kind", ""], "")]
    )
    def test_offers_are_names_of_files(self, words: list[str], expected: str) -> None:
        """So bash puts a slash after a folder, and a backslash before a space: for operands, and for the values of options."""
        assert self.ran('compopt() { echo "$*"; }; _my_tool', *words) == expected

    def test_the_command_is_completed_and_leaves_no_variable(self) -> None:
        said = self.ran('complete -p; _my_tool; echo "${word-}${last-}${options-}${operands-}"', "show", "")
        assert said == "complete -F _my_tool my-tool\n\n"

    @pytest.mark.parametrize(
        "line, expected",
        [
            ("", "--help -h join list-all move pair show store"),
            ("s", "show store"),
            ("-", "--help -h"),
            ("show -", "--catalogue --help --jobs --kind -h -n"),
            ("show --k", "--kind"),
            ("show --kind ", "both exif"),
            ("show --kind e", "exif"),
            ("pair --kind e", ""),
            ("show --jobs comp", ""),
            ("show -n comp", ""),
            ("show --catalogue comp", "compare.c"),
            ("show comp", "compare.c"),
            ("show a b c comp", "compare.c"),
            ("pair a comp", "compare.c"),
            ("pair a b comp", ""),
            ("pair -", "--help -h"),
            ("show --kind -", ""),
            ("show --catalogue -", ""),
            ("list-all ", ""),
            ("list-all -k o", "one"),
            ("list-all --catalogue comp", "compare.c"),
            ("list-all --title comp", ""),
            ("list-all --note comp", ""),
            ("join a b c comp", "compare.c"),
            ("move --jobs 2 a comp", "compare.c"),
            ("store ", "--help -h get put"),
            ("store p", "put"),
            ("store put --", "--help --kind --to"),
            ("store put --kind ", "both exif"),
            ("store put --to comp", "compare.c"),
            ("store put a b comp", "compare.c"),
            ("store get -", "--help -h"),
            ("store get comp", "compare.c"),
            ("store get a comp", ""),
        ],
    )
    def test_offers(self, line: str, expected: str) -> None:
        """Also where an earlier word had offers."""
        said = self.ran('COMPREPLY=(old); _my_tool; printf "%s\\n" "${COMPREPLY[@]}"', *line.split(" "))
        assert sorted(said.split()) == expected.split()


class TestZsh:
    CODE = """
_describe() { print -rl -- "$1" "${(@P)2}" }
_arguments() { print -rl -- "$@" }
words=("${@:2}") CURRENT=$(($# - 1))
source_it() { source $1 }
source_it $1"""
    HELP = ["(-h --help)-h[Print help]", "(-h --help)--help[Print help]"]

    @pytest.fixture(autouse=True)
    def set_up(self, made: Path) -> None:
        need("zsh")
        self.folder = made

    def offers(self, *words: str) -> list[str]:
        """What the function passes to zsh's own functions, a line for each."""
        return run("zsh", "-f", "-c", self.CODE, "zsh", self.folder / "_my-tool", "my-tool", *words).splitlines()

    COMMANDS = ["show:Show a file: it's [one] line", "pair:Pair two files", "list-all:List all", "join:Join files"]
    COMMANDS += ["move:Move files", "store:Keep files"]

    def test_options_and_operands(self) -> None:
        jobs = ["(-n --jobs)-n[how many]:N: ", "(-n --jobs)--jobs[how many]:N: "]
        kind = ["(-k --kind)-k[one \\\\ two]:value:(one two)", "(-k --kind)--kind[one \\\\ two]:value:(one two)"]
        where, files = "--catalogue[where]:FILE:_files", "*:file:_files"
        assert self.offers("") == ["command", *self.COMMANDS, *self.HELP]
        assert self.offers("show", "") == ["--kind[which\\: \\[blocks\\]]:value:(both exif)", *jobs, where, *self.HELP, files]
        assert self.offers("pair", "") == [*self.HELP, "1:file:_files", "2:file:_files"]
        assert self.offers("list-all", "") == [*self.HELP, *kind, where, "--title[its title]:TITLE: ", "--note[a note]:TEXT: "]
        assert self.offers("join", "") == [*self.HELP, files]
        assert self.offers("move", "") == [*self.HELP, "--jobs[how many]:N: ", files]
        assert self.offers("store", "") == ["command", "put:put files in", "get:get a file", *self.HELP]
        assert self.offers("store", "get", "") == [*self.HELP, "1:file:_files"]
        assert self.offers("store", "put", "a", "") == [*self.HELP, "--kind[which]:value:(both exif)", "--to[where]:FILE:_files", files]

    def test_an_autoloaded_file_runs_its_function(self) -> None:
        """Zsh makes a function of the file, whose last line calls the function in it. It counts the arguments from the command on."""
        code = '_describe() { : } ; _arguments() { print -rl -- "at $CURRENT of $words" "$@" }; fpath=($1); autoload -Uz _my-tool; words=(my-tool join "") CURRENT=3; _my-tool'
        said = run("zsh", "-f", "-c", code, "zsh", self.folder)
        assert said.startswith("at 2 of join \n") and "*:file:_files\n" in said
        assert (self.folder / "_my-tool").read_text(encoding="utf-8").splitlines()[0] == "#compdef my-tool"


class TestFish:
    @pytest.fixture(autouse=True)
    def set_up(self, made: Path) -> None:
        need("fish")
        self.file, self.base = made / "my-tool.fish", made.parent

    @pytest.mark.parametrize(
        "line, expected",
        [
            (
                "",
                [
                    "join\tJoin files",
                    "list-all\tList all",
                    "move\tMove files",
                    "pair\tPair two files",
                    "show\tShow a file: it's [one] line",
                    "store\tKeep files",
                ],
            ),
            ("-", ["--help\tPrint help", "-h\tPrint help"]),
            ("--h", ["--help\tPrint help"]),
            ("show --k", ["--kind\twhich: [blocks]"]),
            ("show --kind ", ["both\twhich: [blocks]", "exif\twhich: [blocks]"]),
            ("show --j", ["--jobs\thow many"]),
            ("show --jobs comp", []),
            ("show --catalogue comp", ["compare.c"]),
            ("show comp", ["compare.c"]),
            ("pair --k", []),
            ("pair a comp", ["compare.c"]),
            ("list-all comp", []),
            ("list-all --kind ", ["one\tone \\ two", "two\tone \\ two"]),
            ("list-all --catalogue comp", ["compare.c"]),
            ("list-all --title comp", []),
            ("store ", ["get\tget a file", "put\tput files in"]),
            ("store put --k", ["--kind\twhich"]),
            ("store put --to comp", ["compare.c"]),
            ("store put a comp", ["compare.c"]),
            ("store get --k", []),
        ],
    )
    def test_offers(self, line: str, expected: list[str]) -> None:
        """With their descriptions."""
        words = ["fish", "--no-config", "-c", "source $argv[1]; complete -C $argv[2]", self.file, f"my-tool {line}"]
        said = run(*words, folder=self.base / "files", HOME=str(self.base))
        assert sorted(it.rstrip("\t") for it in said.splitlines()) == expected
