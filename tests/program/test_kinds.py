"""The built program by blocks of every kind, made from their meanings, and by random changes of these."""

import pytest
from allocations import problems_without_memory, some
from changed import changed
from hypothesis import given, settings
from hypothesis import strategies as st
from judging import problems_of_case
from kinds import LARGE_MAKERS, small_kinds
from made_cases import COMMANDS, case_of, cases_of_kind, cases_of_long_values
from watching import problems_of_cost

SMALL = list(small_kinds())
LAYOUTS = [pytest.param(it, id=f"{kind.name}, layout {at}") for kind in SMALL for at, it in enumerate(kind.blocks, 1) if len(it) < 10_000]
EXAMPLES = settings.default.max_examples * 2 // 5  # of each layout

each_small_kind = pytest.mark.parametrize("kind", [pytest.param(it, id=it.name) for it in SMALL])


@each_small_kind
def test_result_and_cost(program, watch, kind, checks):
    for case in cases_of_kind(kind):
        checks.equal(case.name, problems_of_cost(program, watch, case), [])


@each_small_kind
def test_without_some_allocations(program, refuse, kind, checks):
    for case in cases_of_kind(kind):
        checks.equal(case.name, problems_without_memory(program, refuse, case, some()), [])


@pytest.mark.parametrize("block", LAYOUTS)
@settings(max_examples=EXAMPLES)
@given(chance=st.randoms(use_true_random=True), command=st.sampled_from(COMMANDS))
def test_random_changes(program, block, chance, command):
    """The independent reader says what is expected."""
    file = changed(block, chance)
    assert problems_of_case(program, case_of(file, command)) == [], file.hex()


# A large block takes seconds and much memory, so it is made when its test runs.
@pytest.mark.parametrize("make", [pytest.param(make, id=make.__name__) for make in LARGE_MAKERS])
def test_large_blocks(program, watch, make, checks):
    for kind in make():
        for case in cases_of_kind(kind):
            checks.equal(f"{kind.name}: {case.name}", problems_of_cost(program, watch, case), [])


def test_writes_of_long_values(program, watch, checks):
    for case in cases_of_long_values():
        checks.equal(case.name, problems_of_cost(program, watch, case), [])
