"""Refuses each growth of mkcheck in turn, over the examples of the gate."""

from __future__ import annotations

import os
import shutil

import pytest
from growths.sweep import GATE, PROGRAM, compiled, sweep

MKCHECK = os.path.abspath(os.environ.get("MKCHECK", PROGRAM))


@pytest.fixture(scope="session", name="shim")
def made_shim(tmp_path_factory: pytest.TempPathFactory) -> str:
    """The library that refuses growths."""
    if shutil.which("cc") is None:
        pytest.skip("no C compiler is here")
    return compiled(str(tmp_path_factory.mktemp("growths")))


@pytest.mark.parametrize("name", GATE)
def test_a_refused_growth_is_out_of_memory(name: str, shim: str) -> None:
    """The whole answer, or status 3: never another answer, and never one that is cut."""
    assert sweep(MKCHECK, name, shim)
