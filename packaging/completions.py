#!/usr/bin/env python3
"""Writes the completion of a program for bash, zsh and fish, from its --help.

  packaging/completions.py PROGRAM BASHDIR ZSHDIR FISHDIR
"""

from __future__ import annotations

import sys
from pathlib import Path
from typing import Iterator

from grammar import MANY, Command, Option, Program, flat, program_of

BASH = """# Completion of {name} in bash, made from its --help.
{function}() {{
    local word=${{COMP_WORDS[COMP_CWORD]}} last=${{COMP_WORDS[COMP_CWORD - 1]}} command=${{COMP_WORDS[1]}}
    local before=1 options= operands=0
    COMPREPLY=()
    if [ "$COMP_CWORD" -eq 1 ]; then
        mapfile -t COMPREPLY < <(compgen -W '{first}' -- "$word")
        return
    fi
    case $command:$((COMP_CWORD > 2)) in
{further}
    esac
    case $command in
{commands}
    esac
    case $command:$last in
{values}
    esac
    if [[ $word == -* ]]; then
        mapfile -t COMPREPLY < <(compgen -W "$options" -- "$word")
    elif [ $((COMP_CWORD - before)) -le "$operands" ]; then
        compopt -o filenames 2>/dev/null
        mapfile -t COMPREPLY < <(compgen -f -- "$word")
    fi
}}
complete -F {function} {name}
"""

ZSH = """#compdef {name}
# Completion of {name} in zsh, made from its --help.
{function}() {{
    local -a commands
{lines}
}}
{function} "$@"
"""
ZSH_LINES = """    commands=(
{described}
    )
    if (( CURRENT == 2 )); then
        _describe command commands
        _arguments {options}
        return
    fi
    shift words
    (( CURRENT-- ))
    case $words[1] in
{commands}
    esac"""


def quoted(text: str) -> str:
    """A text as one word of a shell."""
    return "'" + text.replace("'", "'\\''") + "'"


def function_of(program: Program) -> str:
    return "_" + program.name.replace("-", "_")


def names_of(options: list[Option]) -> list[str]:
    return [name for it in options for name in it.names]


# bash


def bash_value(command: Command, option: Option) -> str:
    """The value of an option, if it takes one."""
    names = " | ".join(quoted(f"{command.name}:{it}") for it in option.names)
    if option.choices:
        lines = [f"mapfile -t COMPREPLY < <(compgen -W '{' '.join(option.choices)}' -- \"$word\")"]
    elif option.takes_file:
        lines = ["compopt -o filenames 2>/dev/null", 'mapfile -t COMPREPLY < <(compgen -f -- "$word")']
    else:
        return f"    {names}) return ;;"
    return "\n        ".join([f"    {names})", *lines, "return", ";;"])


def bash_words(command: Command) -> str:
    """The words that may follow a command that has further ones."""
    words = " ".join([*(it.name for it in command.commands), *names_of(command.options)])
    return f"    {command.name}:{command.name}) mapfile -t COMPREPLY < <(compgen -W '{words}' -- \"$word\"); return ;;"


def bash(program: Program) -> str:
    """The completion for bash."""
    every = [*flat(program.commands)]
    commands = [f"    {quoted(it.name)}) options='{' '.join(names_of(it.options))}' operands={it.operands} ;;" for it in every]
    values = [bash_value(command, it) for command in every for it in command.options if it.value]
    further = [it for it in program.commands if it.commands]
    values += map(bash_words, further)
    return BASH.format(
        name=program.name,
        function=function_of(program),
        first=" ".join([*(it.name for it in program.commands), *names_of(program.options)]),
        further="\n".join(f'    {it.name}:1) command+=" ${{COMP_WORDS[2]}}" before=2 ;;' for it in further) or "    *) ;;",
        commands="\n".join(commands),
        values="\n".join(values or ["    *) ;;"]),
    )


# zsh


def zsh_option(option: Option) -> str:
    """An option as _arguments reads it."""
    text = "".join(f"\\{it}" if it in "[]:\\" else it for it in option.text)
    wanted = f"({' '.join(option.choices)})" if option.choices else "_files" if option.takes_file else " "
    value = f":{'value' if option.choices else option.value}:{wanted}" if option.value else ""
    excluded = f"({' '.join(option.names)})" if len(option.names) > 1 else ""
    return " ".join(quoted(f"{excluded}{it}[{text}]{value}") for it in option.names)


def zsh_command(command: Command) -> str:
    """The arguments of a command."""
    if command.commands:
        return f"    {command.name})\n{zsh_lines(command.commands, command.options)}\n    ;;"
    operands = ["'*:file:_files'"] if command.operands == MANY else [f"'{i + 1}:file:_files'" for i in range(command.operands)]
    return f"    {command.name}) _arguments {' '.join([*map(zsh_option, command.options), *operands])} ;;"


def zsh_lines(commands: list[Command], options: list[Option]) -> str:
    """What completes one of some commands, or an option before it, and then its arguments."""
    return ZSH_LINES.format(
        described="\n".join(f"        {quoted(f'{it.name}:{it.text}')}" for it in commands),
        options=" ".join(map(zsh_option, options)),
        commands="\n".join(map(zsh_command, commands)),
    )


def zsh(program: Program) -> str:
    """The completion for zsh."""
    return ZSH.format(name=program.name, function=function_of(program), lines=zsh_lines(program.commands, program.options))


# fish


def fish_option(begin: str, option: Option) -> str:
    """An option as `complete` takes it."""
    names = " ".join(f"-l {it[2:]}" if it.startswith("--") else f"-s {it[1:]}" for it in option.names)
    if option.choices:
        value = f" -x -a {quoted(' '.join(option.choices))}"
    else:
        value = (" -r -F" if option.takes_file else " -x") if option.value else ""
    return f"{begin} {names}{value} -d {quoted(option.text)}"


def fish_lines(program: Program) -> Iterator[str]:
    begin = f"complete -c {program.name}"
    yield f"# Completion of {program.name} in fish, made from its --help."
    yield f"{begin} -f"
    yield from (fish_option(f"{begin} -n __fish_use_subcommand", it) for it in program.options)
    yield from fish_commands(begin, "__fish_use_subcommand", "", program.commands)


def fish_commands(begin: str, first: str, before: str, commands: list[Command]) -> Iterator[str]:
    """Some commands, which are offered under the condition `first`, and what may follow each of them."""
    for command in commands:
        seen = f"{before}__fish_seen_subcommand_from {command.name}"
        yield f"{begin} -n {first} -a {command.name} -d {quoted(command.text)}"
        names = " ".join(it.name for it in command.commands)
        none = quoted(f"{seen}; and not __fish_seen_subcommand_from {names}") if names else quoted(seen)
        yield from (fish_option(f"{begin} -n {none}", it) for it in command.options)
        yield from fish_commands(begin, none, f"{seen}; and ", command.commands)
        if command.operands:
            yield f"{begin} -n {quoted(seen)} -F"


def fish(program: Program) -> str:
    """The completion for fish."""
    return "".join(f"{it}\n" for it in fish_lines(program))


def main(words: list[str]) -> None:
    if len(words) != 4:
        sys.exit(__doc__)
    program = program_of(words[0])
    files = [(words[1], program.name, bash), (words[2], f"_{program.name}", zsh), (words[3], f"{program.name}.fish", fish)]
    for folder, name, write in files:
        path = Path(folder, name)
        path.write_text(write(program), encoding="utf-8")
        path.chmod(0o644)


if __name__ == "__main__":
    main(sys.argv[1:])
