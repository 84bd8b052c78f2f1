"""The folder of a project, as the tests of mkcheck-audit have it."""

from audit.conftest import project

__all__ = ["project"]
