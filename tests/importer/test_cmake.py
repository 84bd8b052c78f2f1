"""Builds that CMake configured for ninja and for make."""

from __future__ import annotations

import shutil
import subprocess
import unittest

from importer import make_folder
from importer.make_folder import MakeFolderTest
from importer.ninja_folder import NinjaFolderTest, can_judge

LISTS = """cmake_minimum_required(VERSION 3.13)
project(small C)
configure_file(config.h.in config.h)
add_custom_command(OUTPUT made.h
  COMMAND sed s/@/x/ ${CMAKE_CURRENT_SOURCE_DIR}/made.txt > made.h DEPENDS made.txt)
add_library(part STATIC part.c made.h)
target_include_directories(part PUBLIC ${CMAKE_CURRENT_BINARY_DIR})
add_executable(main main.c)
"""
FILES = {
    "config.h.in": "#define ONE 1\n",
    "made.txt": "#define TWO 2 /* @ */\n",
    "part.c": '#include "made.h"\n#include "config.h"\nint part(void) { return ONE + TWO; }\n',
    "main.c": '#include "made.h"\nint main(void) { return TWO; }\n',
    "other.c": "int other;\n",
}


@can_judge
@unittest.skipUnless(shutil.which("cmake") and shutil.which("cc"), "no cmake, or no compiler")
class CmakeTest(NinjaFolderTest):
    """A library with a generated header, and a program that uses it."""

    def configure(self, lines: str) -> None:
        """Writes the project, and lets CMake configure it in the folder `out`."""
        self.write({**FILES, "CMakeLists.txt": LISTS + lines})
        words = ["cmake", "-G", "Ninja", "-S", ".", "-B", "out"]
        done = subprocess.run(words, cwd=self.folder, capture_output=True, text=True, check=False)
        self.assertEqual(done.returncode, 0, done.stderr)

    def test_yes(self) -> None:
        """Where the program is linked with the library, CMake gives the order."""
        self.configure("target_link_libraries(main part)\n")
        answer = self.answer(folder="out")
        self.assertEqual(answer.findings, [])
        # What CMake keeps for itself never changes, and a configured header does.
        files = {way[1] for way in answer.ways}
        self.assertIn("out/config.h", files)
        self.assertFalse([name for name in files if "CMakeFiles/" in name and name[-2:] != ".o"])
        way = ["out/CMakeFiles/main.dir/main.c.o", "out/made.h", "written"]
        self.assertIn(way, [one[:3] for one in answer.ways])

    def test_race(self) -> None:
        """Where it only includes the header, the compiler may be too early in a first build."""
        self.configure("target_include_directories(main PRIVATE ${CMAKE_CURRENT_BINARY_DIR})\n")
        # The library comes first in the serial order, so that the header is there.
        answer = self.answer("libpart.a", "main", folder="out")
        race = "no race out/CMakeFiles/main.dir/main.c.o out/made.h out/made.h"
        self.assertEqual(answer.findings, [race])
        inputs = self.ninja("-t", "inputs", "main", folder=self.folder / "out")
        self.assertNotIn("made.h", inputs.stdout)

    def test_target_that_is_always_built(self) -> None:
        """A custom target without an output is built each time; what it reads is never stale."""
        command = "add_custom_target(look ALL COMMAND cat ${CMAKE_CURRENT_SOURCE_DIR}/other.c)\n"
        self.configure(command + "target_link_libraries(main part)\n")
        answer = self.answer(folder="out")
        self.assertEqual(answer.findings, [])
        self.assertIn(["out/CMakeFiles/look", "other.c", "always"], [w[:3] for w in answer.ways])


MAKE_LISTS = """cmake_minimum_required(VERSION 3.13)
project(small C)
"""
# A header without DEPENDS, and a library that doesn't wait for it.
HEADER = """add_custom_command(OUTPUT made.h
  COMMAND sed s/@/x/ ${CMAKE_CURRENT_SOURCE_DIR}/made.txt > made.h NEEDS)
add_custom_target(header ALL DEPENDS made.h)
"""
LIBRARY = """add_library(part STATIC two.c)
target_include_directories(part PRIVATE ${CMAKE_CURRENT_BINARY_DIR})
"""


@make_folder.can_judge
@unittest.skipUnless(shutil.which("cmake") and shutil.which("cc"), "no cmake, or no compiler")
@unittest.skipUnless(shutil.which("git"), "no git")
class ConfiguredHeaderTest(MakeFolderTest):
    """Headers in a build folder that git doesn't track."""

    def doubts(self, generator: str, more: dict[str, str]) -> str:
        """What is said of headers that nothing makes, in a folder that CMake configured."""
        lists = "configure_file(config.h.in config.h)\nadd_library(part STATIC part.c)\n"
        lists += "target_include_directories(part PRIVATE ${CMAKE_CURRENT_BINARY_DIR})\n"
        include = "".join(f'#include "{name}"\n' for name in ["config.h", *more])
        self.write({"CMakeLists.txt": MAKE_LISTS + lists, "config.h.in": "#define ONE 1\n"})
        self.write({"part.c": include + "int part(void) { return ONE; }\n"})
        words = ["cmake", "-G", generator, "-S", ".", "-B", "out"]
        for command in (["git", "init", "-q"], ["git", "add", "."], words):
            subprocess.run(command, cwd=self.folder, capture_output=True, check=True)
        self.write({f"out/{name}": text for name, text in more.items()})
        answer = self.imported("-S", "out")
        self.assertEqual(answer.status, 0, answer.output + answer.errors)
        self.assertIn("out/config.h", {way[1] for way in answer.ways})
        return "".join(line for line in answer.log.splitlines() if "git doesn't track" in line)

    def test_what_cmake_wrote_is_no_file_of_an_earlier_build(self) -> None:
        generators = ["Unix Makefiles", *(["Ninja"] if shutil.which("ninja") else [])]
        for generator in generators:
            with self.subTest(generator):
                self.assertEqual(self.doubts(generator, {}), "")
                shutil.rmtree(self.folder / "out")

    def test_what_it_does_not_list_may_be_one(self) -> None:
        said = self.doubts("Unix Makefiles", {"old.h": ""})
        self.assertIn("out/old.h is no target, but a file that git doesn't track", said)


@make_folder.can_judge
@unittest.skipUnless(shutil.which("cmake") and shutil.which("cc"), "no cmake, or no compiler")
class CmakeForMakeTest(MakeFolderTest):
    """A library with a generated header, in CMake's makefiles."""

    def configure(self, lines: str) -> None:
        """Writes the project, and lets CMake configure it in the folder `out`."""
        two = '#include "made.h"\nint two(void) { return TWO; }\n'
        self.write({"CMakeLists.txt": lines, "made.txt": FILES["made.txt"], "two.c": two})
        words = ["cmake", "-G", "Unix Makefiles", "-S", ".", "-B", "out"]
        subprocess.run(words, cwd=self.folder, capture_output=True, check=True)

    def test_advice_is_for_the_file_that_people_edit(self) -> None:
        self.configure(MAKE_LISTS + HEADER.replace(" NEEDS", "") + LIBRARY)
        answer = self.imported("-S", "out")
        self.assertEqual(answer.status, 1, answer.output + answer.errors)
        self.assertIn("write `add_dependencies(part header)` in CMakeLists.txt", answer.output)
        self.assertIn("CMake writes it, so say it in CMakeLists.txt, by DEPENDS", answer.output)
        self.assertEqual(self.made_after("TWO 3"), "#define TWO 2 /* x */\n")

    def test_with_what_is_advised_the_answer_is_yes(self) -> None:
        header = HEADER.replace("NEEDS", "DEPENDS made.txt")
        self.configure(MAKE_LISTS + header + LIBRARY + "add_dependencies(part header)\n")
        answer = self.imported("-S", "out")
        self.assertEqual(answer.status, 0, answer.output + answer.errors)
        self.assertEqual(self.made_after("TWO 3"), "#define TWO 3 /* x */\n")

    def test_a_list_that_was_edited_since_is_told(self) -> None:
        """Make itself would run CMake first."""
        self.configure(MAKE_LISTS)
        self.write({"CMakeLists.txt": MAKE_LISTS + HEADER.replace(" NEEDS", "") + LIBRARY})
        answer = self.imported("-S", "out")
        self.assertEqual(answer.status, 2)
        self.assertIn(
            "CMakeLists.txt has changed since CMake configured out, so make would let CMake do so"
            " anew first: run `cmake out`",
            answer.errors,
        )
        words = ["make", "-C", "out"]
        done = subprocess.run(words, cwd=self.folder, capture_output=True, text=True, check=True)
        self.assertIn("Configuring done", done.stdout)

    def made_after(self, new: str) -> str:
        """What make leaves in the header after an edit of its source in a built copy."""
        copy = self.scratch / "copy"
        shutil.rmtree(copy, ignore_errors=True)
        shutil.copytree(self.folder, copy)
        shutil.rmtree(copy / "out")
        for words in (["cmake", "-S", ".", "-B", "out"], ["make", "-C", "out"]):
            subprocess.run(words, cwd=copy, capture_output=True, check=True)
        text = (copy / "made.txt").read_text()
        (copy / "made.txt").write_text(text.replace("TWO 2", new))
        subprocess.run(["make", "-C", "out"], cwd=copy, capture_output=True, check=True)
        return (copy / "out" / "made.h").read_text()
