"""Schedules of a large build, for which mkcheck is asked over smaller footprints."""

from __future__ import annotations

from collections.abc import Sequence

from mkcheck_tools.answers.checkers import Checker
from mkcheck_tools.answers.findings import Finding, answer_of
from mkcheck_tools.answers.plans import phases_of
from mkcheck_tools.report.judging import graph_and_book
from mkcheck_tools.report.schedules import FEW_READS, plans
from mkcheck_tools.run.paths import RealPath
from mkcheck_tools.run.places import Place
from report.project import MKCHECK, ReportTest


class SmallerTest(ReportTest):
    """What is read is left out, but for the files that findings are about."""

    def compare(self, kinds: Sequence[str]) -> None:
        """Each schedule has the same recipes and steps as one that is asked over all footprints,
        and isn't longer."""
        book = str(self.folder / "B")
        checker = Checker(MKCHECK, Place.of(RealPath(str(self.folder))), (), (), book)
        graph, reached = graph_and_book(checker)
        self.assertGreater(reached.reads, FEW_READS)
        found = answer_of(checker.check()).findings
        asked: list[Finding] = []
        for kind in kinds:
            of_kind = [one for one in found if one.kind == kind]
            asked += of_kind[:: max(1, len(of_kind) // 4)]
        self.assertEqual({one.kind for one in asked}, set(kinds))
        with plans(checker, reached, graph.goals, asked) as plan_of:
            for one in asked:
                part, whole = plan_of(one), checker.plan(one.number)
                self.assertLessEqual(len(part), len(whole))
                self.assertEqual(
                    phases_of(part, one.reader, one.file), phases_of(whole, one.reader, one.file)
                )

    def test_of_stale_reads(self) -> None:
        self.large()
        self.compare(["stale"])

    def test_of_races(self) -> None:
        """80 recipes read a file that another one writes, and 40 files that they name."""
        number, headers = range(80), [f"h{one}.h" for one in range(40)]
        objects = [f"o{one}.o" for one in number]
        rules = [f"o{one}.o: {' '.join(headers)}\n\tcc {one}\n" for one in number]
        makefile = f"prog: g.h {' '.join(objects)}\n\tcc -o prog\n{''.join(rules)}g.h: g\n\tmk\n"
        records = [(f"o{one}.o", [f"cc {one}"], [*headers, "g.h"], [f"o{one}.o"]) for one in number]
        records += [("prog", ["cc -o prog"], objects, ["prog"]), ("g.h", ["mk"], ["g"], ["g.h"])]
        self.build(makefile, records, [*headers, "g"])
        self.compare(["race", "stale"])
