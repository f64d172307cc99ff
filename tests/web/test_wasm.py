"""How exifnorm.wasm is made: what was compiled without proofs is no proved module."""

from unittest import mock

import guard
import module
import pytest
import wasm
from crates import Crates
from prove import NotBuilt

MODULE = 'target datalayout = "e-p:64:64"\ntarget triple = "x86_64-unknown-linux-gnu"\ndefine void @f() "target-cpu"="x86-64" nounwind {}\n'


def test_the_target_of_a_module_is_changed_and_nothing_else():
    expected = f'target datalayout = "{wasm.LAYOUT}"\ntarget triple = "{wasm.TRIPLE}"\ndefine void @f() nounwind {{}}\n'
    assert wasm.for_wasm(MODULE) == expected
    for text in ("", MODULE + MODULE):
        with pytest.raises(NotBuilt, match="triples"):
            wasm.for_wasm(text)


@pytest.mark.parametrize("version, is_proved", [(b"1.0.0-unproved", True), (b"1.0.0", False)])
def test_a_module_of_the_other_kind_is_refused(monkeypatch, folder, version, is_proved):
    """The version in the module decides, whatever was asked for; nothing is left."""
    monkeypatch.setattr(wasm, "run", lambda *words: None)
    monkeypatch.setattr(wasm, "build", lambda text, making: [(making / name).write_bytes(version) for name in wasm.NAMES])
    with pytest.raises(NotBuilt, match=guard.MARK):
        wasm.make(folder / "module.bc", is_proved, folder / "made")
    assert not [*folder.iterdir()]
    wasm.make(folder / "module.bc", not is_proved, folder / "made")
    assert sorted(path.name for path in (folder / "made").iterdir()) == sorted(wasm.NAMES)


@pytest.mark.parametrize(
    "archive, status, why", [(b"another", 0, "is not of the current sources"), (b"the same", 1, "ended with status 1")]
)
def test_the_module_of_other_sources_is_refused(folder, monkeypatch, archive, status, why):
    (folder / "libpx_c.a").write_bytes(b"the same")
    (folder / "making").mkdir()
    compiler = mock.Mock()
    compiler.words.side_effect = lambda _crate, made, _jobs: ["--toolchain", str(made.write_bytes(archive))]
    compiler.call.return_value = status
    monkeypatch.setattr(module, "Compiler", lambda *_: compiler)
    monkeypatch.setattr(module, "with_clang", lambda *_: folder)
    with pytest.raises(NotBuilt, match=why):
        module.build(Crates(folder, {"px_c": []}, {"px_c"}), folder / "libpx_c.a", folder / "making")
