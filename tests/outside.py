"""A folder outside of the projects of tests, in which nothing may be written."""

from __future__ import annotations

import shutil
import tempfile
import unittest
from pathlib import Path

from mkcheck_tools.run import places

HERE = Path(__file__).resolve().parent


def folder_outside(test: unittest.TestCase) -> Path:
    """A folder beside the tests with one file, `there`; it is gone after the test.

    Folders for temporary files stay open for recipes, so the test is skipped where the tests lie in
    one, and where the system can't make folders read-only.
    """
    if places.shut() is None:
        test.skipTest("the system doesn't allow making folders read-only")
    try:
        folder = Path(tempfile.mkdtemp(prefix="outside-", dir=HERE))
    except OSError:
        test.skipTest("the folder of the tests can't be written")
    test.addCleanup(shutil.rmtree, folder)
    if str(folder).startswith(("/tmp/", "/var/tmp/", tempfile.gettempdir() + "/")):
        test.skipTest("the tests lie in a folder for temporary files")
    (folder / "there").write_text("1")
    return folder


def assert_untouched(test: unittest.TestCase, folder: Path) -> None:
    """Asserts that such a folder is as it was."""
    test.assertEqual([path.name for path in folder.iterdir()], ["there"])
    test.assertEqual((folder / "there").read_text(), "1")
