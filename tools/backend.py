"""Builds the package for pip, by the standard library alone (PEP 517).

So `pip install ./tools` and `pipx install ./tools` need no other package and no network.
"""

from __future__ import annotations

import base64
import csv
import hashlib
import io
import tarfile
import zipfile
from pathlib import Path
from typing import Any

import tomllib

HERE = Path(__file__).resolve().parent
PACKAGE = HERE / "mkcheck_tools"
Settings = dict[str, Any]


def project() -> dict[str, Any]:
    """What pyproject.toml says of the project."""
    with open(HERE / "pyproject.toml", "rb") as file:
        found: dict[str, Any] = tomllib.load(file)["project"]
    return found


def version() -> str:
    """The version, which stands in the package."""
    lines = (PACKAGE / "__init__.py").read_text(encoding="utf-8").splitlines()
    line = next(line for line in lines if line.startswith("VERSION = "))
    return line.partition("=")[2].strip().strip('"')


def sources() -> list[Path]:
    """The files of the package."""
    return sorted(path for path in PACKAGE.rglob("*.py") if "__pycache__" not in path.parts)


def metadata() -> str:
    """What pip knows of the package."""
    about = project()
    return (
        f"Metadata-Version: 2.1\nName: {about['name']}\nVersion: {version()}\n"
        f"Summary: {about['description']}\nRequires-Python: {about['requires-python']}\n"
    )


def entry_points() -> str:
    """The programs."""
    lines = [f"{name} = {entry}" for name, entry in project()["scripts"].items()]
    return "\n".join(["[console_scripts]", *lines]) + "\n"


def build_wheel(
    wheel_directory: str,
    config_settings: Settings | None = None,
    metadata_directory: str | None = None,
) -> str:
    """Writes a wheel into a folder, and returns its name."""
    front = f"mkcheck_tools-{version()}"
    info = f"{front}.dist-info"
    texts = {str(path.relative_to(HERE)): path.read_bytes() for path in sources()}
    texts[f"{info}/METADATA"] = metadata().encode()
    texts[f"{info}/entry_points.txt"] = entry_points().encode()
    texts[
        f"{info}/WHEEL"
    ] = b"Wheel-Version: 1.0\nGenerator: mkcheck\nRoot-Is-Purelib: true\nTag: py3-none-any\n"
    record = io.StringIO()
    rows = csv.writer(record, lineterminator="\n")
    for name, text in texts.items():
        digest = base64.urlsafe_b64encode(hashlib.sha256(text).digest()).rstrip(b"=").decode()
        rows.writerow((name, f"sha256={digest}", len(text)))
    rows.writerow((f"{info}/RECORD", "", ""))
    texts[f"{info}/RECORD"] = record.getvalue().encode()
    name = f"{front}-py3-none-any.whl"
    with zipfile.ZipFile(Path(wheel_directory, name), "w", zipfile.ZIP_DEFLATED) as wheel:
        for path, text in texts.items():
            wheel.writestr(path, text)
    return name


def build_sdist(sdist_directory: str, config_settings: Settings | None = None) -> str:
    """Writes an archive of the sources into a folder, and returns its name."""
    front = f"mkcheck_tools-{version()}"
    name = f"{front}.tar.gz"
    with tarfile.open(Path(sdist_directory, name), "w:gz") as archive:
        for path in [HERE / "pyproject.toml", Path(__file__), *sources()]:
            archive.add(path, f"{front}/{path.relative_to(HERE)}")
        text = metadata().encode()
        entry = tarfile.TarInfo(f"{front}/PKG-INFO")
        entry.size = len(text)
        archive.addfile(entry, io.BytesIO(text))
    return name
