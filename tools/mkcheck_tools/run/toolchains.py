"""Where programs lie that a user installed for himself, or a package manager that isn't the
system's: like the system's, they are no part of a project."""

from __future__ import annotations

import functools
import os

from mkcheck_tools.run.folders import SYSTEM, is_plain_path

# Folders of package managers that belong to no user.
SHARED = ("/nix/store/", "/gnu/store/", "/snap/", "/home/linuxbrew/.linuxbrew/")
# Folders below the home folder into which managers of compilers, interpreters and packages install.
# .local/bin is none of them, since users keep scripts of their own there, which they edit.
OWN = (
    *(".local/lib/", ".local/share/uv/", ".local/share/mise/", ".local/pipx/"),
    *(".pyenv/", ".conda/", "anaconda3/", "miniconda3/", "miniforge3/", "mambaforge/"),
    *(".rustup/", ".cargo/bin/", ".cargo/registry/", ".nvm/", ".volta/", ".bun/", ".deno/"),
    *(".asdf/", ".nodenv/", ".rbenv/", ".rvm/", ".sdkman/", ".jenv/", ".ghcup/", ".stack/"),
    *(".opam/", ".elan/", ".juliaup/", ".julia/", ".nimble/", ".dotnet/", "go/pkg/", ".linuxbrew/"),
)
# Variables that name the folder of a manager, or of an environment of Python.
VARIABLES = (
    *("PYENV_ROOT", "CONDA_PREFIX", "CONDA_ROOT", "VIRTUAL_ENV", "RUSTUP_HOME", "NVM_DIR"),
    *("ASDF_DIR", "ASDF_DATA_DIR", "RBENV_ROOT", "SDKMAN_DIR", "GOROOT", "GOMODCACHE"),
    *("OPAMROOT", "VOLTA_HOME", "HOMEBREW_PREFIX"),
)


@functools.lru_cache(1)
def fixed_prefixes() -> tuple[str, ...]:
    """The prefixes that are fixed without being asked for: those of the system, and those of
    programs that the user installed, where these folders are there."""
    home = os.path.expanduser("~")
    own = [os.path.join(home, name) for name in OWN] if home.startswith("/") else []
    named = [os.environ.get(name, "") for name in VARIABLES]
    found = [path.rstrip("/") + "/" for path in (*SHARED, *own, *named) if is_apart(path, home)]
    return tuple(dict.fromkeys([*SYSTEM, *(one for one in found if not one.startswith(SYSTEM))]))


def is_apart(path: str, home: str) -> bool:
    """Whether a path is that of a folder of programs: it is there, a footprint file can name it,
    and neither the home folder nor the present one lies in it."""
    plain = path.rstrip("/")
    if not plain.startswith("/") or not is_plain_path(plain) or not os.path.isdir(plain):
        return False
    return not any(f"{inner}/".startswith(f"{plain}/") for inner in (home, os.getcwd()))
