"""The arguments of the command line, and the text of `--help`."""

from __future__ import annotations

import argparse
import itertools
import re
import sys

from exifnorm._hints import IO, Any, Callable, Iterable, Iterator, NoReturn, Sequence

from ..model.budgets import PROGRAM_SECONDS
from ..model.texts import safe
from .exit_codes import USAGE
from .grammar import COMMANDS, DAILY, OF_CATALOGUES, OF_PICTURES, ONLY_WITH, OPTIONS_WENT, SHARED, UPKEEP, WENT, Command, joined

_ABOUT = """Compares the Exif, IPTC and XMP metadata of many pictures. It finds pictures
with the same metadata, lists what changed in each, and explains and mends
metadata that break the rules of their format (refused)."""
_MORE = "More: exifnorm-pictures help options, and exifnorm-pictures help statuses"
_PROGRAM = "exifnorm-pictures"
_Formatter = argparse.RawDescriptionHelpFormatter


class _Parser(argparse.ArgumentParser):
    """A parser that ends with the status of refused arguments."""

    def error(self, message: str) -> NoReturn:
        self.print_usage(sys.stderr)
        self.exit(USAGE, f"{self.prog}: {safe(message)}\n")

    def exit(self, status: int = 0, message: str | None = None) -> NoReturn:
        """Ends with this status. It flushes the output of --help before, so that a failed write is reported."""
        sys.stdout.flush()
        super().exit(status, message)
        raise SystemExit(status)

    def _print_message(self, message: str, file: IO[str] | None = None) -> None:
        """Writes a message. argparse ignores a failed write: on standard output it must be reported."""
        if file is sys.stdout:
            file.write(message)
        else:
            super()._print_message(message, file)


def parsed(words: Sequence[str]) -> argparse.Namespace:
    """The arguments of a command line; `help COMMAND` is `COMMAND --help`. Wrong ones end the process, after the usage of their command.

    >>> parsed(["show", "a.jpg", "--json", "b.jpg"]).names
    ['a.jpg', 'b.jpg']
    """
    given = list(words)
    if given[:1] == ["help"]:
        _print_topic(given[1:])
        given = [*given[1:3], "--help"]
    if given[:1] == [UPKEEP]:
        _refuse_upkeep(given[1:])
        given = [" ".join(given[:2]), *given[2:]]
    whole, commands = parsers(given[0] if given else None)
    _refuse_unknown(whole, commands, given)
    _refuse_dashes(commands.get(given[0], whole) if given else whole, given)
    arguments, others = whole.parse_known_args(given)
    if others:
        _refuse_question(whole, arguments, others)
        if given[0] != arguments.command:
            whole.error(f"unrecognized arguments: {' '.join(others)}")
        # an option between names, which a parser of commands takes for the end of the names; this one also names what is wrong
        arguments = commands[given[0]].parse_intermixed_args(given[1:], argparse.Namespace(command=given[0]))
    _refuse_apart(commands[arguments.command], arguments)
    return arguments


def _refuse_dashes(parser: _Parser, words: Sequence[str]) -> None:
    """Refuses -- where argparse makes an empty list of it, or nothing."""
    for word in itertools.takewhile(lambda word: word != "--", words):
        if word.startswith("--") and word.endswith("=--"):
            parser.error(f"argument {word[:-3]}: expected a value, and not --")
    if words.count("--") > 1:
        parser.error("a file that is called -- is given as ./--")


def _print_topic(words: Sequence[str]) -> None:
    """Prints what `help` says of something that several commands have, and ends."""
    from .topics import TOPICS  # which few runs need

    if len(words) == 1 and words[0] in TOPICS:
        print(TOPICS[words[0]]())
        _Parser().exit()


def _refuse_upkeep(words: Sequence[str]) -> None:
    """Prints the help of the commands about catalogues, if it is asked for, and refuses a line without one of them."""
    if not words or words[0].startswith("-"):
        name = f"exifnorm-pictures {UPKEEP}"
        abouts = {it.name.split()[1]: it.about for it in OF_CATALOGUES}
        parser = _Parser(name, f"{name} [-h] COMMAND ...", _listed("Commands", abouts.items()), _MORE, formatter_class=_Formatter)
        parser.parse_args(words)
        parser.error("give a command: " + ", ".join(abouts))


def _refuse_question(whole: _Parser, arguments: argparse.Namespace, others: Sequence[str]) -> None:
    """Refuses a question that has no option before it, and says how it is written."""
    if arguments.command == "list" and not any(it.startswith("-") for it in others):
        import shlex

        words = shlex.join(["list", arguments.source, "--where", " ".join([*arguments.where, *others])])
        whole.exit(USAGE, f"exifnorm-pictures: a question follows --where: exifnorm-pictures {safe(words)}\n")


def _refuse_apart(parser: _Parser, arguments: argparse.Namespace) -> None:
    """Refuses two options that can't stand together."""
    known = parser._option_string_actions
    names = [name for name, action in known.items() if getattr(arguments, action.dest, action.default) != action.default]
    shown = {name: "/".join(action.option_strings) for name, action in known.items()}  # as argparse names them
    for first, others, why in _apart(arguments.command):
        given = [name for name in others if name in names and first in names]
        if given:
            parser.error(f"argument {shown[given[0]]}: not allowed with argument {shown[first]}{why}")
    _refuse_alone(parser, names, shown)


def _refuse_alone(parser: _Parser, names: Sequence[str], shown: "dict[str, str]") -> None:
    """Refuses an option that has no effect without another."""
    for name, needed in ONLY_WITH.items():
        there = [it for it in needed if it in shown]
        if name in names and there and not set(there) & set(names):
            parser.error(f"argument {shown[name]}: not allowed without argument {' or '.join(there)}")


def _apart(command: str) -> Iterator[tuple[str, list[str], str]]:
    """The options of a command that go with none of some others, and why."""
    (text,) = (it.apart for it in COMMANDS if it.name == command)
    for options, _, why in (line.partition("  ") for line in joined(text)):
        first, _, others = options.partition(": ")
        yield first, others.split(), f": {why}" * bool(why)


def _refuse_unknown(whole: _Parser, commands: "dict[str, _Parser]", words: Sequence[str]) -> None:
    """Refuses a command or an option that isn't there, and names the one that may be meant."""
    first = words[0] if words else "--help"
    if first in WENT:
        whole.exit(USAGE, f"exifnorm-pictures: there is no command {first} any more; use: exifnorm-pictures {WENT[first]}\n")
    if not first.startswith("-") and first not in _NAMES:
        from .topics import TOPICS  # which few runs need

        whole.error(f"there is no command {first}{_meant(first, _NAMES) or _meant(first, TOPICS, 'help ') or '; --help lists them'}")
    _refuse_option(commands.get(first, whole), words if first in _NAMES else words[:1])


def _refuse_option(parser: _Parser, words: Sequence[str]) -> None:
    known = [option[2:] for option in parser._option_string_actions if option.startswith("--")]
    for word in itertools.takewhile(lambda word: word != "--", words):
        option = word[2:].partition("=")[0]
        if word.startswith("--") and not any(name.startswith(option) for name in known):
            parser.error(f"there is no option --{option}{OPTIONS_WENT.get(option) or _meant(option, known, '--')}")


def _meant(word: str, known: Iterable[str], prefix: str = "") -> str:
    """What is said of a word that is none of those that are known.

    >>> _meant("lst", ["list", "same"]), _meant("hist", ["history"]), _meant("recursive", ["csv"], "--")
    ('; did you mean list?', '; did you mean history?', '')
    """
    import difflib  # which takes long to import, and few runs need it

    longer = [name for name in known if name.startswith(word)]
    near = longer if len(longer) == 1 else difflib.get_close_matches(word, known, 1, 0.75)
    return f"; did you mean {prefix}{near[0]}?" if near else ""


def refuse(command: str, message: str) -> NoReturn:
    """Ends the process with what is wrong with the arguments of a command, after its usage."""
    parsers(command)[1][command].error(message)


def parsers(only: str | None = None) -> "tuple[_Parser, dict[str, _Parser]]":
    """The parser of the arguments, and those of each command, or of one alone: to make all of them takes longer than to read a picture."""
    whole = _Parser(
        prog=_PROGRAM,
        usage="exifnorm-pictures [-h] [--version] COMMAND ...",
        description="\n\n".join(
            [
                _ABOUT,
                _listed("Daily commands, for an archive", (it[:2] for it in DAILY)),
                _listed("Commands for a picture, or two", (it[:2] for it in OF_PICTURES)),
                _listed("Upkeep", [(UPKEEP, "merge catalogues, forget or relocate pictures, export tables")]),
            ]
        ),
        epilog=f"Also: exifnorm-pictures help COMMAND, help fields, help questions, help rules\n{_MORE}",
        formatter_class=_Formatter,
    )
    whole.add_argument("--version", action="store_true", help="the version")  # which `main` prints
    commands = whole.add_subparsers(prog=whole.prog, dest="command", metavar="COMMAND", required=True, help=argparse.SUPPRESS)
    each: dict[str, _Parser] = {}
    for command in COMMANDS:
        if only in (None, command.name):
            each[command.name] = _parser_of(command, commands)
    return whole, each


def _parser_of(command: Command, commands: argparse._SubParsersAction[_Parser]) -> _Parser:
    """The parser of a command."""
    example = f"Example:\n  {_PROGRAM} {command.name} {command.example}"
    about = "\n\n".join(filter(None, [f"{command.about[0].upper()}{command.about[1:]}.", example, command.more]))
    parser = commands.add_parser(command.name, description=about, epilog=_MORE, formatter_class=_Formatter)
    group: argparse._ActionsContainer = parser
    for line in _lines(command.lines):
        if line.endswith(":"):
            group = parser.add_argument_group(line[:-1]) if line != "options:" else parser
        else:
            _add(group, line)
    forms = parser.add_mutually_exclusive_group()
    if command.row:
        _add(forms, f"--csv  a table for spreadsheets: {command.row}")
        _add(forms, "--xlsx FILE  the same table as a new spreadsheet file (needs python3-xlsxwriter)")
    if command.name != "report":
        _add(forms, "--json  print JSON Lines: one object on each line")
    _add(parser, "--debug")
    if command.name not in ("catalogue merge", "compare", "list", "nightly", "catalogue relocate"):
        _add(parser, "--files-from LIST  read names from the file LIST, one on each line; - is standard input")
        _add(parser, "-0, --null  the names in LIST end with NUL, as from find -print0")
    needed = [f"{it.option_strings[0]} {it.metavar}" for it in parser._get_optional_actions() if it.required]
    parser.usage = " ".join([parser.prog, "[OPTIONS]", *needed, *map(_operand, parser._get_positional_actions())])
    return parser


def _lines(text: str) -> Iterator[str]:
    """The lines of a command, with those that it shares with others.

    >>> [*_lines("+quiet\\n--html NAME  the page to\\n    write")]
    ['--quiet  no progress on standard error', '--html NAME  the page to write']
    """
    for line in joined(text):
        yield from _lines(SHARED[line[1:]]) if line.startswith("+") else [line]


_FIRST = ("CATALOGUE", "?")  # what may be a folder
_LINE = re.compile(r"(-?[\w, -]+?)(?::(\w+))?(?: (?=[A-Zst{])([\w:/]*)(?:{(.*?)})?(?:=(.*?))?(?: ([?*+!]))?)?(?: {2,}(.+))?")


def _add(group: argparse._ActionsContainer, line: str) -> None:
    """Adds an operand or an option, as a line of `grammar` has it."""
    found = _LINE.fullmatch(line)
    assert found, line
    names, dest, value, choices, default, count, words = found.groups()
    known: dict[str, Any] = {"help": words or argparse.SUPPRESS}
    if dest:
        known["dest"] = dest
    if value is None:
        known["action"] = "store_true"
    else:
        known.update(_of_value(value, choices, default, count))
    if count == "*":
        known.update({"action": "append"} if names.startswith("-") else {"nargs": "*"}, default=[])
    elif count == "!":
        known["required"] = True
    elif count:
        known["nargs"] = count
    group.add_argument(*names.split(", "), **known)


def _of_value(name: str, choices: str | None, default: str | None, count: str | None) -> dict[str, Any]:
    """How a value is read, and what it is if it isn't given."""
    if choices:
        return {"choices": choices.split(","), "metavar": name or None, "default": default}
    kind, usual = _VALUES.get(name, (_first_name if (name, count) == _FIRST else _name, None))
    usual = (kind or str)(default) if default else usual
    known = {"type": kind, "metavar": name}
    return known if usual is None else {**known, "default": usual}


def _operand(action: argparse.Action) -> str:
    """An operand as the usage has it."""
    name = str(action.metavar)
    return {"?": f"[{name}]", "*": f"[{name} ...]", "+": f"{name} ..."}.get(str(action.nargs), name)


def _listed(heading: str, commands: Iterable[tuple[str, str]]) -> str:
    return "\n".join([f"{heading}:", *(f"  {name:<10} {about}" for name, about in commands)])


def _positive(text: str) -> int:
    try:
        number = int(text)
    except ValueError:
        raise argparse.ArgumentTypeError(f"{text} is no whole number") from None
    if number < 1:
        raise argparse.ArgumentTypeError(f"{text} is less than 1")
    return number


def _seconds(text: str) -> float:
    try:
        number = float(text)
    except ValueError:
        number = 0.0
    if not 0 < number < 1e6:
        raise argparse.ArgumentTypeError(f"{text} is no number of seconds")
    return number


def _name(text: str) -> str:
    if not text or "\0" in text:
        raise argparse.ArgumentTypeError("a name is empty")
    return text


def _first_name(text: str) -> str:
    """The first name of a command, which may be a catalogue or a folder."""
    if not text or "\0" in text:
        raise argparse.ArgumentError(None, "argument CATALOGUE or FOLDER: a name is empty")
    return text


# The values that aren't names of files, and what they are if they aren't given
_VALUES: dict[str, tuple[Callable[[str], Any] | None, Any]] = {
    "N": (_positive, 0),
    "SECONDS": (_seconds, PROGRAM_SECONDS),
    **dict.fromkeys(("FIELD", "LABEL", "LABELS", "QUESTION", "DAY", "ADDRESS", "TITLE", "LIST", "tcp://HOST:PORT"), (None, None)),
}
_NAMES = tuple(command.name for command in COMMANDS)
