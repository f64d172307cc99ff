"""The built program by the cases of cases/*.json, with their cost counted, without memory, and with devices that move one byte at a time."""

from typing import Iterable, Union

import pytest
from allocations import after_arguments, every, problems_without_memory
from cases import Case, Sweep, read_all
from judging import problems_of_case, problems_of_sweep
from made_cases import cases_of_causes
from watching import problems_of_cost, problems_of_short_calls

ALL = read_all()
CASES = [it for it in ALL if isinstance(it, Case)]
# The cost can be measured if a run reads files or a whole input, and the test reads its output.
COUNTED = [it for it in CASES if not (it.endless or it.in_pieces or it.input_from or it.output_to or it.folders)]
SHORT = [it for it in COUNTED if "/dev/zero" not in it.words and len(it.input) + sum(map(len, it.files.values())) < 1000]
WITHOUT_MEMORY = [it for it in CASES if it.refuses_allocations]
FIRST = {tuple(it.words): it for it in reversed(WITHOUT_MEMORY)}  # the first case of equal arguments


def each(cases: Iterable[Union[Case, Sweep]]) -> pytest.MarkDecorator:
    """One test for each case, with its name."""
    return pytest.mark.parametrize("case", [pytest.param(it, id=it.name) for it in cases])


@each([*CASES, *cases_of_causes()])
def test_result(program, case):
    assert problems_of_case(program, case) == []


@each([it for it in ALL if isinstance(it, Sweep)])
def test_each_changed_block(program, case):
    assert problems_of_sweep(program, case) == []


@each(COUNTED)
def test_cost(program, watch, case):
    assert problems_of_cost(program, watch, case) == []


@each(WITHOUT_MEMORY)
def test_without_each_allocation(program, refuse, case):
    """The allocations for its arguments don't depend on the files, so they fail in one case of equal arguments."""
    numbers = every() if FIRST[tuple(case.words)] is case else after_arguments(program, refuse, case)
    assert problems_without_memory(program, refuse, case, numbers) == []


@each(SHORT)
def test_byte_by_byte(program, watch, case):
    assert problems_of_short_calls(program, watch, case) == []
