"""Reading strace's output, mkcheck's graph, and names. No strace is needed."""

from __future__ import annotations

import os
import threading
import unittest
from pathlib import Path
from unittest import mock

from mkcheck_tools.answers.graphs import Command, read_graph
from mkcheck_tools.faults import Fault
from mkcheck_tools.replay.orders import OLD, OTHER, OTHER_OF_MADE, with_order
from mkcheck_tools.run.folders import Naming, is_plain_path
from mkcheck_tools.run.paths import Name, RealPath, SeenPath
from mkcheck_tools.run.places import Place
from mkcheck_tools.trace.accesses import Accesses, Follower
from mkcheck_tools.trace.calls import (
    FORKS,
    SAME,
    SIGNALS,
    TRACED,
    Trace,
    WAITS,
    path_of,
    read_calls,
    text_of,
)
from mkcheck_tools.trace.tracing import Listener
from mkcheck_tools.trace.trees import Tree

TRACES = Path(__file__).resolve().parent / "traces"


def followed(name: str, there: tuple[str, ...] = ()) -> Accesses:
    """What the calls of a stored trace do, from the folder /nowhere/p on."""
    place = Place.of(RealPath("/nowhere/p"))
    accesses = Accesses(Tree(place, {SeenPath(path) for path in there}))
    lines = [line for line in (TRACES / name).read_text().splitlines() if not line.startswith("#")]
    Follower(accesses, place.seen).follow(read_calls(lines))
    return accesses


class CallsTest(unittest.TestCase):
    """Single lines of a trace."""

    def one(self, line: str) -> tuple[str, tuple[str, ...], str]:
        """The one call of a line."""
        (call,) = read_calls([line])
        return call.name, call.arguments, call.result

    def test_a_call(self) -> None:
        line = (
            '12    openat(AT_FDCWD</tmp/a b>, "x, (y)\\"", O_WRONLY|O_CREAT, 0666) = 3</tmp/a b/x,'
            ' (y)">'
        )
        name, arguments, result = self.one(line)
        self.assertEqual(name, "openat")
        self.assertEqual(text_of(arguments[1]), 'x, (y)"')
        self.assertEqual(path_of(arguments[0]), "/tmp/a b")
        self.assertEqual(arguments[2:], ("O_WRONLY|O_CREAT", "0666"))
        self.assertEqual(path_of(result), '/tmp/a b/x, (y)"')

    def test_brackets_hold_commas(self) -> None:
        line = '12 execve("/bin/a", ["a", "-c", "b)"], 0x7ffe /* 3 vars */) = 0'
        self.assertEqual(
            self.one(line),
            ("execve", ('"/bin/a"', '["a", "-c", "b)"]', "0x7ffe /* 3 vars */"), "0"),
        )

    def test_escapes(self) -> None:
        self.assertEqual(text_of('"\\303\\244\\tb\\\\\\x41"'), "ä\tb\\A")
        self.assertEqual(path_of("3</a\\74b\\76>"), "/a<b>")
        self.assertEqual(path_of("3</a (deleted)>"), "/a (deleted)")
        self.assertEqual(path_of("3</a>(deleted)"), "/a")
        self.assertIsNone(path_of("3<pipe:[12]>"))
        self.assertIsNone(path_of("3"))

    def test_failed_calls_are_none(self) -> None:
        self.assertEqual(
            read_calls(['12 open("x", O_RDONLY) = -1 ENOENT (No such file or directory)']), []
        )
        self.assertEqual(
            read_calls(
                ['12 open("x", O_RDONLY) = -1 ENOSYS (Function not implemented) (INJECTED)']
            ),
            [],
        )
        self.assertEqual(read_calls(['12 open("x", O_RDONLY <unfinished ...>) = ?']), [])
        self.assertEqual(read_calls(["12 +++ exited with 0 +++", "12 vfork( <unfinished ...>"]), [])

    def test_removals_in_vain_are_kept(self) -> None:
        lines = [
            '7 unlink("x") = -1 ENOENT (No such file or directory)',
            '7 unlinkat(AT_FDCWD</d>, "x", 0) = -1 ENOENT (No such file or directory)',
            '7 rename("x", "y") = -1 ENOENT (No such file or directory)',
        ]
        for line in lines:
            (call,) = read_calls([line])
            self.assertEqual((call.failed, call.result), (True, "ENOENT"), line)
        others = [
            '7 unlink("x") = -1 EISDIR (Is a directory)',
            '7 unlink("x") = -1 EACCES (Permission denied)',
            '7 unlink("x") = ? ERESTARTNOINTR (To be restarted)',
            '7 mkdir("x/y", 0777) = -1 ENOENT (No such file or directory)',
        ]
        self.assertEqual(read_calls(others), [])

    def test_names_that_look_like_failures(self) -> None:
        for name in (
            "a) = -1 ENOENT (No such file)",
            "a = ?",
            "b <unfinished ...>",
            "+++ exited with 0 +++",
        ):
            escaped = name.replace("<", "\\74").replace(">", "\\76")
            line = f'12 openat(AT_FDCWD</p>, "{name}", O_RDONLY) = 3</p/{escaped}>'
            (call,) = read_calls([line])
            self.assertEqual(
                (text_of(call.arguments[1]), path_of(call.result)), (name, f"/p/{name}")
            )
            (call,) = read_calls([f'12 rename("a", "{name}") = 0'])
            self.assertEqual(text_of(call.arguments[1]), name)

    def test_lines_that_were_cut(self) -> None:
        whole = '12 openat(AT_FDCWD</p>, "a", O_WRONLY|O_CREAT, 0666) = 3</p/a>'
        for line in (
            "",
            "12",
            "open",
            "12 +++ exited",
            "12 <... open resumed>) = 3",
            *(whole[:at] for at in range(4, whole.index("3</p/a"))),
        ):
            with self.assertRaises(Fault, msg=line):
                read_calls([line])

    def test_a_call_of_a_process_that_is_killed_as_it_begins_is_none(self) -> None:
        trace = Trace()
        trace.feed('7 execve("/bin/true", ["true"], 0x7f /* 1 var */) = 0')
        trace.feed("7 ???()                             = ?")
        trace.feed("7 +++ killed by SIGKILL +++")
        self.assertTrue(trace.is_whole())

    def test_such_a_call_in_two_lines_is_none(self) -> None:
        for end in ("", "7 <... ??? resumed>) = ?", "7 <... ??? resumed>)  = ? <unavailable>"):
            ends = [end] if end else []
            trace = Trace()
            trace.feed('7 execve("/bin/true", ["true"], 0x7f /* 1 var */) = 0')
            for line in ("7 ???( <unfinished ...>", *ends, "7 +++ killed by SIGKILL +++"):
                trace.feed(line)
            self.assertTrue(trace.is_whole())
            self.assertEqual([call.name for call in trace.calls()], ["execve"])

    def test_a_call_whose_result_is_unavailable_since_its_process_was_killed_is_none(self) -> None:
        for end in ("= ?", "= ? <unavailable>"):
            trace = Trace()
            trace.feed('7 execve("/bin/cat", ["cat"], 0x7f /* 1 var */) = 0')
            trace.feed(f'7 openat(AT_FDCWD</p>, "/p/a", O_RDONLY)   {end}')
            trace.feed("7 +++ killed by SIGKILL +++")
            self.assertTrue(trace.is_whole())
            self.assertEqual([call.name for call in trace.calls()], ["execve"])

    def test_processes_that_go_on(self) -> None:
        trace = Trace()
        for line in (
            '7 execve("/bin/sh", [], 0x0 /* 1 var */) = 0',
            "7 vfork( <unfinished ...>",
            '8 execve("/bin/true", [], 0x0 /* 1 var */) = 0',
            "8 +++ exited with 0 +++",
            "7 <... vfork resumed>) = 8",
            "7 fork() = 9",
        ):
            trace.feed(line)
        self.assertEqual((trace.alive, trace.is_whole()), ({7, 9}, False))
        trace.feed("7 +++ killed by SIGSEGV (core dumped) +++")
        self.assertEqual((trace.alive, trace.programs[9]), ({9}, "/bin/sh"))
        trace.feed("9 +++ exited with 0 +++")
        self.assertTrue(trace.is_whole())


# Calls that the trace itself takes.
OTHERS = (*FORKS, *SIGNALS, *WAITS)


class RepeatedLooksTest(unittest.TestCase):
    """Lines that come again with the same process, name and result."""

    LOOK = '12 readlink("/nowhere/p/a", 0x7ffd1f1c, 1023) = -1 ENOENT (No such file or directory)'

    def found(self, *lines: str) -> list[str]:
        """The names of the calls that are kept."""
        trace = Trace(looking=True)
        for line in lines:
            trace.feed(line)
        return [call.name for call in trace.calls()]

    def test_a_look_that_comes_again_is_one_look(self) -> None:
        read = '12 openat(AT_FDCWD</nowhere/p>, "b", O_RDONLY) = 3</nowhere/p/b>'
        self.assertEqual(self.found(self.LOOK, read, self.LOOK), ["readlink", "openat"])

    def test_a_look_of_another_process_is_another_one(self) -> None:
        other = self.LOOK.replace("12 ", "13 ")
        self.assertEqual(self.found(self.LOOK, other), ["readlink", "readlink"])

    def test_a_look_after_a_writing_is_another_one(self) -> None:
        for change in (
            '13 symlink("b", "/nowhere/p/a") = 0',
            '13 openat(AT_FDCWD</nowhere/p>, "a", O_RDWR|O_CREAT, 0666) = 3</nowhere/p/a>',
            '13 unlink("/nowhere/p/a") = 0',
            '13 rename("/nowhere/p/b", "/nowhere/p/a") = 0',
            '12 chdir("/nowhere") = 0',
        ):
            name = change[3:].partition("(")[0]
            kept = self.found(self.LOOK, change, self.LOOK)
            self.assertEqual(kept, ["readlink", name, "readlink"], change)

    def test_a_look_while_another_process_writes_is_another_one(self) -> None:
        begun = '13 mkdir("/nowhere/p/a", 0777 <unfinished ...>'
        ended = "13 <... mkdir resumed>) = 0"
        kept = self.found(begun, self.LOOK, ended, self.LOOK)
        self.assertEqual(kept, ["readlink", "mkdir", "readlink"])

    def test_a_look_of_a_later_process_of_the_same_number_is_another_one(self) -> None:
        kept = self.found(self.LOOK, "12 +++ exited with 0 +++", self.LOOK)
        self.assertEqual(kept, ["readlink", "readlink"])


class TracedTest(unittest.TestCase):
    """What strace is asked for."""

    def test_each_call_is_followed(self) -> None:
        for name in (SAME.get(name, name) for name in TRACED if name not in OTHERS):
            self.assertTrue(hasattr(Follower, f"on_{name}"), name)


class ListenerTest(unittest.TestCase):
    """A trace that is read while it is written."""

    LINE = b'12 mkdir("/nowhere/p/d", 0777) = 0\n'

    def listened(self, parts: list[bytes]) -> tuple[Listener, int]:
        """What hears a trace that is written in these parts, and how often it reads."""
        inner, outer = os.pipe()
        listener = Listener(inner)
        with mock.patch("os.read", wraps=os.read) as read:
            reading = threading.Thread(target=listener.listen)
            reading.start()
            for part in parts:
                os.write(outer, part)
            os.close(outer)
            listener.over.set()
            reading.join()
        return listener, read.call_count

    def test_many_lines_are_read_at_a_time(self) -> None:
        """strace writes each by itself, and to wake what reads it takes longer than to write it."""
        listener, reads = self.listened([self.LINE] * 1000)
        self.assertEqual([call.name for call in listener.trace.found], ["mkdir"] * 1000)
        self.assertLess(reads, 100)

    def test_a_line_in_two_parts_is_one(self) -> None:
        listener, _ = self.listened([self.LINE + self.LINE[:9], self.LINE[9:]])
        self.assertEqual([call.name for call in listener.trace.found], ["mkdir"] * 2)
        self.assertIsNone(listener.fault)

    def test_a_last_line_without_an_end_is_a_fault(self) -> None:
        listener, _ = self.listened([self.LINE, self.LINE[:9]])
        self.assertEqual([call.name for call in listener.trace.found], ["mkdir"])
        self.assertIsNotNone(listener.fault)


class TreeTest(unittest.TestCase):
    """Where names lead over links."""

    def test_a_name_leads_elsewhere_when_a_link_on_its_way_is_another_one(self) -> None:
        tree = Tree(Place(RealPath("/nowhere/p"), SeenPath("/nowhere/p")))
        name = SeenPath("/nowhere/p/d/x")
        self.assertEqual(tree.own(name)[0], name)
        tree.link(SeenPath("/nowhere/p/d"), "a")
        self.assertEqual(tree.own(name)[0], "/nowhere/p/a/x")
        tree.link(SeenPath("/nowhere/p/d"), "b")
        self.assertEqual(tree.own(name)[0], "/nowhere/p/b/x")
        tree.remove(SeenPath("/nowhere/p/d"))
        self.assertEqual(tree.own(name)[0], name)


class FollowerTest(unittest.TestCase):
    """Whole traces: see each file for where it comes from."""

    def test_interrupted_calls_and_new_processes(self) -> None:
        accesses = followed("forks.txt")
        self.assertEqual(
            list(accesses.reads),
            [
                "/nowhere/bin/sh",
                "/nowhere/p/b",
                "/nowhere/p/s/a",
                "/nowhere/p/s/none",
                "/nowhere/p/s/d",
            ],
        )
        self.assertEqual(list(accesses.writes), ["/nowhere/p/s/out"])

    def test_calls_of_other_machines(self) -> None:
        accesses = followed("calls.txt", ("/nowhere/p/db",))
        self.assertEqual(
            list(accesses.reads), [f"/nowhere/p/{name}" for name in ("tool", "x", "db", "f", "e")]
        )
        self.assertEqual(
            list(accesses.writes), [f"/nowhere/p/{name}" for name in ("db", "t", "g", "q/r", "e")]
        )
        self.assertEqual(
            set(accesses.touched) - set(accesses.writes), {"/nowhere/p/x.tmp", "/nowhere/p/f"}
        )


class GraphTest(unittest.TestCase):
    """What mkcheck prints."""

    def test_commands_of_more_lines(self) -> None:
        graph = read_graph(
            "goals a\nc:\nb recipe phony: c\n\tx \\\n\ty\n\tz\\\\\na recipe: .WAIT b\n\t@w\n"
        )
        self.assertEqual(graph.names, ["c", "b", "a"])
        self.assertEqual(
            [(recipe.target, recipe.lines) for recipe in graph.recipes],
            [("b", ["x \\\n\ty", "z\\\\"]), ("a", ["@w"])],
        )

    def test_prefixes(self) -> None:
        self.assertEqual(Command.of("@- + cc -c a.c"), Command("cc -c a.c", True))
        self.assertEqual(Command.of("cc -c a.c").words, ["/bin/sh", "-c", "cc -c a.c"])
        self.assertEqual(Command.of("-x").words, ["/bin/sh", "-c", "x"])


class OrdersTest(unittest.TestCase):
    """Other orders of stamps, of files that are made as a graph says."""

    def ordered(self, order: str, graph: str, files: str) -> str:
        """The files of a recipe, oldest first, where they were made or edited in the given order;
        names in capitals are sources."""
        names = [Name(name) for name in files.split()]
        ancestors = read_graph(f"goals all\n{graph}").ancestors()
        stamps = {name: number for number, name in enumerate(names)}
        made = {name: (name,) for name in names if name.islower()}
        sources = [name for name in names if name.isupper()]
        found = {**stamps, **with_order(order, stamps, made, sources, ancestors)}
        self.assertEqual(len(set(found.values())), len(names))
        ordered = sorted(names, key=lambda name: found[name])
        return " ".join(ordered)

    def test_orders(self) -> None:
        graph = "X:\nY:\na recipe: X\nb recipe: Y\nc recipe: a\nall: a b c\n"
        for files, other, of_made in (
            ("X Y a b", "X a Y b", "X Y b a"),
            ("X a b", "b X a", "X b a"),
            ("X a c", "X a c", "X a c"),
            ("a b c", "b a c", "b a c"),
            ("X Y", "X Y", "X Y"),
            ("Y X a", "Y X a", "Y X a"),
            ("Y c", "c Y", "Y c"),
        ):
            self.assertEqual(self.ordered(OTHER, graph, files), other, files)
            self.assertEqual(self.ordered(OTHER_OF_MADE, graph, files), of_made, files)
            self.assertEqual(self.ordered(OLD, graph, files), files)

    def test_side_by_side(self) -> None:
        for text, beside in (
            ("goals all\na recipe:\nb recipe:\nall: a b\n", True),
            ("goals all\na recipe:\nb recipe:\nall: a .WAIT b\n", False),
            ("goals all b\na recipe:\nb recipe:\nall: a .WAIT b\n", True),
            ("goals b\na recipe:\nb recipe: a\n", False),
        ):
            self.assertEqual(not read_graph(text).ancestors().in_order("a", "b"), beside, text)
            self.assertEqual(not read_graph(text).ancestors().in_order("b", "a"), beside, text)


class NamesTest(unittest.TestCase):
    """Names of files."""

    def test_plain_paths(self) -> None:
        for name in ("a", "/a", "../a", "../../a/b", "..", "a.b/.c", "ä", "a,b"):
            self.assertTrue(is_plain_path(name), name)
        for name in ("", "/", "a/", "a//b", "./a", "a/.", "a/../b", "/..", "/../a"):
            self.assertFalse(is_plain_path(name), name)
        for name in ("a b", "a\tb", "a\x7f", "a" * 4097, "\udcff"):
            self.assertFalse(is_plain_path(name), name)

    def test_names_in_the_folder_and_under_prefixes(self) -> None:
        naming = Naming(SeenPath("/nowhere/p"), ("/usr/", "../c/"))
        self.assertEqual(naming.name(SeenPath("/nowhere/p/a/b")), "a/b")
        self.assertEqual(naming.name(SeenPath("/usr/x")), "/usr/x")
        self.assertEqual(naming.name(SeenPath("/nowhere/c/x")), "../c/x")
        self.assertIsNone(naming.name(SeenPath("/nowhere/d")))
        self.assertIsNone(naming.name(SeenPath("/nowhere/pp")))


if __name__ == "__main__":
    unittest.main()
