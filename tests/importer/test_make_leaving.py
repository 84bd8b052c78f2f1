"""Recipes of GNU make that leave a file as it was that is there before the build."""

from __future__ import annotations

import os

from importer.make_folder import MakeFolderTest, can_judge


@can_judge
class LeavingTest(MakeFolderTest):
    """A configured header whose recipe, as Automake's, makes it only where it is missing."""

    def test_configured_header(self) -> None:
        self.write(
            {
                "Makefile": "p: config.h main\n\tcat config.h main > p\n"
                "config.h: stamp\n\t@test -f config.h || $(MAKE) stamp\n"
                "stamp: config.in\n\techo '#define X' > config.h; touch stamp\n",
                "config.in": "in\n",
                "main": "main\n",
                "config.h": "#define X\n",
                "stamp": "",
            }
        )
        for name, seconds in (("config.in", 1000), ("config.h", 2000), ("stamp", 3000)):
            os.utime(self.folder / name, (seconds, seconds))
        answer = self.imported("--no-replay")
        self.assertEqual(answer.status, 0, answer.output + answer.errors)
        self.assertIn("the build has for them aren't judged (2 files): config.h", answer.output)
        self.assertEqual(list(answer.records), ["p"])
        self.try_answer(answer)

    def test_configured_stamp(self) -> None:
        """A recipe that runs config.status only where its target is there: it is trusted."""
        self.write(
            {
                "Makefile": "p: config.h main\n\tcat config.h main > p\nconfig.h: stamp-h\n"
                "stamp-h: config.in config.status\n"
                "\ttest ! -f stamp-h || FILES=config.h ./config.status\n\ttouch stamp-h\n",
                "config.in": "in\n",
                "main": "main\n",
                "config.h": "in\n",
                "config.status": "#!/bin/sh\ncp config.in config.h\n",
            }
        )
        answer = self.imported(replay=True)
        self.assertEqual(answer.status, 0, answer.output + answer.errors)
        self.assertIn(
            "    stamp-h: its recipe runs config.status, so it is of the configure step, and is"
            " recorded as it is, whatever its replay shows\n",
            answer.output,
        )
        (self.folder / "config.status").rename(self.folder / "configure.sh")
        makefile = self.folder / "Makefile"
        makefile.write_text(makefile.read_text().replace("config.status", "configure.sh"))
        answer = self.imported(replay=True)
        self.assertEqual(answer.status, 4, answer.output + answer.errors)
