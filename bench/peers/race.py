"""Times drivers on one block in turns, and compares the forms of those that write the same one."""

import subprocess
from pathlib import Path
from typing import Dict, Optional, Tuple

from drivers import C, C_BY_OFFSETS, OWN, Driver

MODES = ("parse", "write")
TIMEOUT = 60.0  # seconds
SLOW = 1e6  # microseconds: a call that takes longer is timed once
Times = Dict[Tuple[str, str], Optional[float]]


class Differs(Exception):
    """Plain C and the library differ on a block: then their times can't be compared."""


def microseconds(driver: Driver, mode: str, seconds: float, path: Path) -> Optional[float]:
    """The least time of a call; none if the peer can't do it, or takes too long."""
    try:
        ran = subprocess.run([driver.path, mode, str(seconds), path], capture_output=True, text=True, timeout=TIMEOUT, check=False)
    except subprocess.TimeoutExpired:
        return None
    return float(ran.stdout) if ran.returncode == 0 else None


def least_times(drivers: Dict[str, Driver], path: Path, rounds: int, seconds: float) -> Times:
    """The least time of each mode and driver over all rounds, of which each runs every driver once. A driver that failed or was slow
    is not run again."""
    least: Times = {}
    for _ in range(rounds):
        for mode in MODES:
            for name, driver in drivers.items():
                before = least.get((mode, name), 0.0)
                if before is not None and before < SLOW:
                    spent = microseconds(driver, mode, seconds, path)
                    least[mode, name] = min(before or spent, spent) if spent is not None else None
    return least


def form(driver: Driver, path: Path) -> Optional[bytes]:
    """The normal form that a driver writes; none if it refuses the block."""
    ran = subprocess.run([driver.path, "form", "0", path], capture_output=True, check=False)
    if ran.returncode not in (0, 1):
        raise Differs(f"{driver.path} ended with status {ran.returncode}")
    return ran.stdout if ran.returncode == 0 else None


def compare_forms(drivers: Dict[str, Driver], path: Path) -> Optional[bytes]:
    """The one form of the library and of plain C; none if all of them refuse the block."""
    forms = {name: form(it, path) for name, it in drivers.items() if name in (OWN, C, C_BY_OFFSETS)}
    for name, octets in forms.items():
        if octets != forms[OWN]:
            raise Differs(f"{name} and the library write different forms")
    return forms[OWN]


def allocated(driver: Driver, mode: str, path: Path) -> int:
    """The most bytes that a call has allocated at once."""
    ran = subprocess.run([driver.counting, mode, "0", path], capture_output=True, text=True, check=True)
    return int(ran.stdout)
