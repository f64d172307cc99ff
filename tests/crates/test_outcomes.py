"""What the contracts of public functions say of each status, and of each constructor of a result."""

from __future__ import annotations


import outcomes
import pytest

CRATES = sorted(it.parent.name for it in outcomes.CRATES.glob("*/src"))
# Shortcuts: without a result, the caller reads the same in a longer way. Their comments and docs/PROOFS.md say so.
SHORTCUTS = {"px_meaning::long_lengths: None", "px_meaning::long_sizes: None", "px_tree::rising_span: None"}
# What these make holds an allocator or the system, and the contracts of its methods name no field of it.
MADE = {"px_cli::new: any result", "px_words::new: any result"}


@pytest.mark.parametrize("crate", CRATES)
def test_each_status_and_constructor_has_a_clause(crate: str) -> None:
    """Otherwise a body that always returns it would be proved."""
    assert {*outcomes.missing(crate)} <= SHORTCUTS | MADE
