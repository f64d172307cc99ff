"""Tables as a spreadsheet file (--xlsx), in which each text is one: a spreadsheet that opens a CSV file takes the number 1998.10 for 1998.1,
and 2003-12 for a date. XlsxWriter writes it, a package that only this option needs."""

from __future__ import annotations

import contextlib
import os
from typing import Iterator, Sequence

from ..files import atomic
from ..files.session import Session
from ..model.errors import Failure
from ..model.texts import escaped, in_words, reason, safe_lines, shown_path
from .output import Cell, print_line

ROWS, LONGEST = 1_048_576, 32_767  # of a sheet, and characters of a cell in UTF-16, of Excel and LibreOffice
WIDTH, WIDEST = 24, 60  # of a column, in characters


class NoSpreadsheet(Failure):
    """The file can't be written. The text is the reason."""


class Sheet:
    """A sheet of a new file, which is written row by row."""

    def __init__(self, name: str) -> None:
        try:
            import xlsxwriter
        except ImportError:
            why = "it needs the Python package XlsxWriter (Debian: apt-get install python3-xlsxwriter). --csv needs no package"
            raise NoSpreadsheet(f"--xlsx: {why}") from None
        self._book = xlsxwriter.Workbook(name, {"constant_memory": True, "tmpdir": os.path.dirname(name)})
        self._sheet = self._book.add_worksheet()
        self._text = self._book.add_format({"num_format": "@", "valign": "top"})
        self._head = self._book.add_format({"num_format": "@", "bold": True})
        self.rows = 0

    def heads(self, heads: Sequence[str]) -> None:
        """Writes the first row, which stays in sight."""
        self._sheet.freeze_panes(1, 1)
        for at, head in enumerate(heads):
            self._sheet.set_column(at, at, WIDEST if head == "picture" else max(WIDTH, len(head) + 2), self._text)
            self._sheet.write_string(0, at, head, self._head)
        self.rows = 1

    def row(self, cells: Sequence[Cell]) -> None:
        """Writes a row. Raises `NoSpreadsheet` if a sheet has no more."""
        if self.rows == ROWS:
            raise NoSpreadsheet(f"a sheet of a spreadsheet has no more than {ROWS:,} rows: use --csv")
        for at, cell in enumerate(cells):
            if isinstance(cell, (int, float)):
                self._sheet.write_number(self.rows, at, cell)
            elif cell:
                self._sheet.write_string(
                    self.rows, at, _fitting(safe_lines(shown_path(cell) if isinstance(cell, bytes) else cell)), self._text
                )
        self.rows += 1

    def close(self) -> None:
        """Writes what is left. Raises `NoSpreadsheet`, as on a full disk."""
        from xlsxwriter.exceptions import XlsxWriterException

        try:
            self._book.close()
        except XlsxWriterException as error:
            cause = error.args[0] if error.args and isinstance(error.args[0], OSError) else None
            raise NoSpreadsheet(f"the spreadsheet can't be written: {reason(cause) if cause else error}") from None


def _fitting(text: str) -> str:
    """A text that a cell has room for.

    >>> _fitting("Vase"), _fitting("a" * 40_000)[-27:]
    ('Vase', 'aaaaa.. (40,000 characters)')
    """
    octets = text.encode("utf-16-le", "surrogatepass")
    if len(octets) <= 2 * LONGEST:
        return text
    end = f".. ({len(text):,} characters)"
    return octets[: 2 * (LONGEST - len(end))].decode("utf-16-le", "ignore") + end


@contextlib.contextmanager
def written(name: str, session: Session) -> Iterator[Sheet]:
    """Writes the table of a command to a file, which it makes at the end, and only if the command didn't fail. Raises `NoSpreadsheet`."""
    if os.path.lexists(name):
        raise NoSpreadsheet(atomic.not_written(escaped(name), "it is there already, and may have somebody's work in it"))
    table = os.path.join(session.room, "table.xlsx")
    sheet = Sheet(table)
    yield sheet
    sheet.close()
    atomic.put_copy(name, table, lambda _: False)
    print_line(f"{escaped(name)}: {in_words(max(0, sheet.rows - 1), 'row')}")
