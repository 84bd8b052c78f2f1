"""Which files belong to a configure step, so that they aren't sources."""

from __future__ import annotations

from importer.ninja_folder import NinjaFolderTest
from mkcheck_tools.faults import Fault
from mkcheck_tools.imports.configured import configured_files

CMAKE = "# CMAKE generated file: DO NOT EDIT!\n"
STATUS = 'config_files=" Makefile lib/Makefile po/Makefile.in t.sh"\nconfig_headers=" config.h"\n'


class ConfiguredTest(NinjaFolderTest):
    """The files that are found."""

    def files(self, *asked: str) -> list[str]:
        """What is found, in order."""
        return sorted(configured_files(str(self.folder), asked).files)

    def test_cmake(self) -> None:
        """CMake's own files are, but neither configured headers nor files of other folders."""
        own = [
            "out/CMakeCache.txt",
            "out/CMakeFiles/a.dir/cmake_clean_target.cmake",
            "out/CMakeFiles/a.dir/flags.make",
            "out/Makefile",
            "out/build.ninja",
            "out/cmake_install.cmake",
            "out/sub/CMakeFiles/b.dir/link.txt",
            "out/sub/Makefile",
        ]
        others = ["out/config.h", "out/CMakeFiles/a.dir/cmake_pch.hxx", "CMakeFiles/x", "out/a.pc"]
        self.write({name: CMAKE for name in [*own, *others, "Makefile"]})
        self.write({"out/data/Makefile": "all:\n"})
        self.assertEqual(self.files(), own)
        notes = configured_files(str(self.folder)).notes
        expected = "8 files in out that CMake wrote when it configured are taken as never changing"
        self.assertEqual(notes, [expected])

    def test_meson(self) -> None:
        """Meson's own files are, but neither configured headers nor files of other folders."""
        own = ["out/build.ninja", "out/compile_commands.json", "out/meson-info/intro-tests.json"]
        own += ["out/meson-private/coredata.dat", "out/meson-private/meson_exe_a.dat"]
        others = ["out/config.h", "out/meson-private/a.c", "build.ninja", "out/sub/build.ninja"]
        self.write({name: "" for name in [*own, *others, "meson.build"]})
        self.assertEqual(self.files(), sorted(own))
        found = configured_files(str(self.folder))
        expected = "5 files in out that Meson wrote when it configured are taken as never changing"
        self.assertEqual(found.notes, [expected])
        self.assertEqual(found.tools["out/build.ninja"], "Meson")

    def test_config_status(self) -> None:
        """Makefiles, stamps and lists of prerequisites are, but neither headers nor scripts."""
        own = [
            "Makefile",
            "config.log",
            "config.status",
            "lib/.deps/a.Po",
            "lib/Makefile",
            "libtool",
            "po/Makefile",
            "po/Makefile.in",
            "po/POTFILES",
            "stamp-h1",
        ]
        others = ["config.h", "t.sh", "configure", "Makefile.in", "other/Makefile", "lib/stamp-h"]
        self.write({name: STATUS for name in [*own, *others]})
        self.assertEqual(self.files(), own)

    def test_folders_that_are_asked_for(self) -> None:
        """All files of such a folder are."""
        self.write({"conf/a": "", "conf/b/c": "", "d": "", "confer/e": ""})
        self.assertEqual(self.files(), [])
        self.assertEqual(self.files("conf/"), ["conf/a", "conf/b/c"])
        self.assertEqual(self.files("."), ["conf/a", "conf/b/c", "confer/e", "d"])
        with self.assertRaisesRegex(Fault, "--configured none: there is no such folder"):
            self.files("none")
