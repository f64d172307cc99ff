"""Errors whose text is for people. `cli` decides by which status they end a command."""

from __future__ import annotations


class Failure(Exception):
    """An error whose text is for people. It ends the command. Further arguments are lines below the text."""

    problem: str | None = None  # that a picture has at which it happens, if it ends no command

    def __str__(self) -> str:
        return str(self.args[0]) if self.args else ""

    @property
    def lines(self) -> tuple[str, ...]:
        """The lines below the text."""
        return tuple(map(str, self.args[1:]))


class WrongUse(Failure):
    """The arguments of a command, or a file that they name, are refused."""


class Damaged(Exception):
    """A catalogue has a value that nothing here writes: it is damaged. Only what reads the values of a catalogue raises this."""
