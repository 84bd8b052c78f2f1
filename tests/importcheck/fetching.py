"""Fetches source packages of Debian, as `apt-get source` does, with lists and files in a cache."""

from __future__ import annotations

import shutil
import subprocess
from pathlib import Path

MIRROR = "http://deb.debian.org/debian"
SUITE = "bookworm"
KEYS = Path("/usr/share/keyrings/debian-archive-keyring.gpg")


class FetchFault(Exception):
    """A package can't be fetched or unpacked; the sentence says why."""


class Archive:
    """Debian's archive, over a cache of its own: the lists of the system stay as they are."""

    def __init__(self, cache: Path):
        self.cache = cache
        self.is_listed = False

    def missing(self) -> str:
        """What this machine lacks, in words; an empty text where nothing is missing."""
        lacking = [name for name in ("apt-get", "dpkg-source") if shutil.which(name) is None]
        if not KEYS.exists():
            lacking.append(f"{KEYS} (debian-archive-keyring)")
        return ", ".join(lacking)

    def apt(self, *words: str) -> None:
        """Runs apt-get over the lists of the cache."""
        place = self.cache / "apt"
        for name in ("lists/partial", "archives/partial"):
            (place / name).mkdir(parents=True, exist_ok=True)
        sources = place / "sources.list"
        sources.write_text(f"deb-src [signed-by={KEYS}] {MIRROR} {SUITE} main\n")
        options = {
            "Dir::Etc::sourcelist": sources,
            "Dir::Etc::sourceparts": "-",
            "Dir::State::lists": place / "lists",
            "Dir::Cache": place,
            "APT::Sandbox::User": "root",
        }
        settings = [word for name, value in options.items() for word in ("-o", f"{name}={value}")]
        done = subprocess.run(
            ["apt-get", *settings, *words],
            cwd=self.cache,
            capture_output=True,
            text=True,
            check=False,
        )
        if done.returncode:
            said = [line for line in done.stderr.splitlines() if line.startswith("E: ")]
            raise FetchFault(f"apt-get {words[0]}: {'; '.join(said) or done.stderr.strip()[-200:]}")

    def fetch(self, name: str, version: str) -> Path:
        """The description of a package in one version, with its files beside it."""
        description = self.cache / f"{name}_{version.partition(':')[2] or version}.dsc"
        if not description.exists():
            if not self.is_listed:
                self.apt("update")
                self.is_listed = True
            self.apt("source", "--download-only", f"{name}={version}")
        if not description.exists():
            raise FetchFault(f"{name} {version}: apt-get left no {description.name}")
        return description

    def unpack(self, description: Path, folder: Path, is_patched: bool = True) -> None:
        """Unpacks a package, with or without Debian's patches, into a folder of its own."""
        patches = [] if is_patched else ["--skip-patches"]
        shutil.rmtree(folder, ignore_errors=True)
        folder.parent.mkdir(parents=True, exist_ok=True)
        done = subprocess.run(
            ["dpkg-source", "--no-check", *patches, "-x", str(description), str(folder)],
            cwd=self.cache,
            capture_output=True,
            text=True,
            check=False,
        )
        if done.returncode:
            raise FetchFault(f"{description.name}: {done.stderr.strip()[-200:]}")
        for copy in folder.parent.glob("*.orig.tar.*"):
            copy.unlink()
