"""Proper prefixes of footprints and of certificates, all of which are refused."""

from __future__ import annotations

from pathlib import Path

from program.runs import CERTIFICATE, FILES, RECORDS, Run, answer


def test_fronts_of_footprints_are_none(tmp_path: Path) -> None:
    """Footprints that end too early are no JSON."""
    text = RECORDS.strip()
    for end in range(len(text)):
        run = Run(["check", "-b", "B"], 2, files={**FILES, "B": text[:end]})
        assert answer(run, tmp_path) == (2, "refused 51\n", ""), text[:end]


def test_fronts_of_certificates_are_none(tmp_path: Path) -> None:
    """A certificate that ends too early is no JSON."""
    for end in range(len(CERTIFICATE)):
        run = Run(["verify", "-b", "B", "-k", "C"], 2, files={**FILES, "C": CERTIFICATE[:end]})
        assert answer(run, tmp_path) == (2, "refused 71\n", ""), CERTIFICATE[:end]
