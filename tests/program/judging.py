"""What is wrong with a run of the program. Each function returns a list of sentences, which is empty if nothing is wrong."""

from typing import Iterable, List

from cases import Case, Sweep
from made_cases import case_of
from program import Outcome, run

SECONDS = 600  # a guard alone, also on a very busy machine


def shown(octets: bytes) -> str:
    text = repr(octets[:100])
    return text if len(octets) <= 100 else f"{text}.. ({len(octets)} bytes)"


def problems(case: Case, outcome: Outcome) -> List[str]:
    """Compares the outcome of a run with what its case expects."""
    found = []
    if outcome.status != case.status:
        found.append(f"expected status {case.status}, got {outcome.status} with the output {shown(outcome.output)}")
    if case.output is not None and outcome.output != case.output:
        found.append(f"expected the output {shown(case.output)}, got {shown(outcome.output)}")
    if case.lines is not None and (outcome.output.count(b"\n"), outcome.output[-1:]) != (case.lines, b"\n"):
        found.append(f"expected {case.lines} lines, got {outcome.output.count(bytes([10]))}")
    found += [f"expected {shown(it)} in the output {shown(outcome.output)}" for it in case.has if it not in outcome.output]
    if outcome.errors:
        found.append(f"expected nothing on standard error, got {shown(outcome.errors)}")
    return found + problems_of_files(case, outcome)


def problems_of_files(case: Case, outcome: Outcome) -> List[str]:
    """Only OUT of normalise may be written. All other files must be unchanged."""
    found = []
    for name, octets in case.left.items():
        if outcome.files.get(name) != octets:
            got = shown(outcome.files[name]) if name in outcome.files else "no such file"
            found.append(f"expected {shown(octets)} in {name}, got {got}")
    found += [f"expected no file {name}, but there is one" for name in case.absent if name in outcome.files]
    named = {*case.left, *case.absent, *([case.out] if case.words[:1] == ["normalise"] else [])}
    found += [f"{name} was changed" for name, octets in case.files.items() if name not in named and outcome.files.get(name) != octets]
    return found + [f"a file {name} was made" for name in outcome.files if name not in named and name not in case.files]


def problems_of_case(program, case: Case) -> List[str]:
    return problems(case, run(program, case, seconds=SECONDS))


def problems_of_cases(program, cases: Iterable[Case]) -> List[str]:
    """Runs cases with one file each, up to the third that is wrong."""
    found = []
    for case in cases:
        file = case.files["a"] if case.files else case.input
        found += [
            f"for the file {file[:100].hex()} of {len(file)} bytes, by {case.words[:1]}: {it}" for it in problems_of_case(program, case)
        ]
        if len(found) > 3:
            return [*found[:3], "and no further ones were tried"]
    return found


def problems_of_sweep(program, sweep: Sweep) -> List[str]:
    """Runs each block of a sweep, and then each normal form that came out, which must be its own."""
    expected = [case_of(block) for block in sweep.blocks]
    found = problems_of_cases(program, expected)
    accepted = [it for it in expected if it.status == 0]
    if sweep.accepted is not None and len(accepted) != sweep.accepted:
        found.append(f"{sweep.accepted} blocks were to be accepted, and the rules accept {len(accepted)}")
    forms = {it.output for it in accepted}
    if sweep.normal is not None and (forms != {sweep.normal} or len(accepted) < len(sweep.blocks)):
        found.append(f"expected the one normal form {shown(sweep.normal)}, and there are {len(forms)}, of {len(accepted)} blocks")
    return found + problems_of_cases(program, map(case_of, sorted(forms)))
