"""Collects the case files below this folder as tests."""

from __future__ import annotations

import os
from collections.abc import Iterator
from pathlib import Path
from typing import Any

import pytest
from case_file import CaseError, read_case_file
from case_run import answers_of, difference

ROOT = Path(__file__).resolve().parents[2]


class CaseDiffers(Exception):
    """How the answers of the program differ from those that a case wants."""


def pytest_addoption(parser: pytest.Parser) -> None:
    """Adds the option that writes what the program answers into the case files."""
    parser.addoption(
        "--update-cases",
        action="store_true",
        help="write what mkcheck answers into the case files, and show what changes",
    )


def pytest_collect_file(file_path: Path, parent: pytest.Collector) -> CaseFile | None:
    """Collects a file whose name ends in .case."""
    return CaseFile.from_parent(parent, path=file_path) if file_path.suffix == ".case" else None


class CaseFile(pytest.File):
    """A case file."""

    def collect(self) -> Iterator[CaseItem]:
        """The one test in the file."""
        yield CaseItem.from_parent(self, name=self.path.stem)


class CaseItem(pytest.Item):
    """The test of a case."""

    def runtest(self) -> None:
        """Asks the program, and compares."""
        program = Path(os.environ.get("MKCHECK", ROOT / "bin" / "mkcheck")).resolve()
        case = read_case_file(self.path)
        given = case.with_answers(answers_of(program, case)).words()
        said = difference(str(self.path.relative_to(ROOT)), case.words(), given)
        if said and self.config.getoption("--update-cases", False):
            self.path.write_bytes(given.encode())
            self.add_report_section("call", "updated", said)
        elif said:
            raise CaseDiffers(f"{case.title}\n{said}")

    def repr_failure(self, excinfo: pytest.ExceptionInfo[BaseException], style: Any = None) -> str:
        """What pytest prints of a failure: the difference alone, where that is all."""
        if isinstance(excinfo.value, (CaseDiffers, CaseError)):
            return str(excinfo.value)
        return str(super().repr_failure(excinfo, style))

    def reportinfo(self) -> tuple[Path, int, str]:
        """Where the test stands, and its name."""
        return self.path, 0, self.name


def pytest_terminal_summary(terminalreporter: Any) -> None:
    """Shows what was changed in case files."""
    for report in terminalreporter.getreports("passed"):
        for name, said in report.sections:
            if name.endswith("updated call") or name == "Captured updated call":
                terminalreporter.write(said)
