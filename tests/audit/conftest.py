"""The folder of a project, for the tests of mkcheck-audit."""

from __future__ import annotations

from pathlib import Path

import pytest

from audit.project import Project


@pytest.fixture
def project(tmp_path: Path) -> Project:
    """A folder that is empty, with room for others beside it."""
    folder = tmp_path.resolve() / "project"
    folder.mkdir()
    return Project(folder)
