"""The answer as a value for other programs: each finding at its line of the original makefiles,
with the names that people know, and the lines that mend it."""

from __future__ import annotations

import json
from collections.abc import Iterable
from typing import Any

from mkcheck_tools.book.footprint_files import Footprints
from mkcheck_tools.imports.answers import is_nothing_judged, status_of
from mkcheck_tools.imports.builds import Build, Node
from mkcheck_tools.imports.grouping import grouped
from mkcheck_tools.imports.judging import UNAWARE, BuildFinding, BuildVerdict
from mkcheck_tools.imports.known_names import KnownNames
from mkcheck_tools.imports.plain import names_of
from mkcheck_tools.imports.sentences import OF_ONE_LINE, Sentences

FORMAT = 1
# A JSON object.
Value = dict[str, Any]


class Teller:
    """Gives the findings of a build as values."""

    def __init__(self, build: Build, footprints: Footprints, has_first: bool) -> None:
        self.build, self.footprints, self.has_first = build, footprints, has_first
        self.names = self.sentences()

    def sentences(self) -> Sentences:
        """What turns findings into sentences, without advice from other findings."""
        return Sentences(self.build, self.footprints, self.has_first)

    def answer(self, verdict: BuildVerdict) -> str:
        """The answer as a JSON text."""
        build, refused = self.build, verdict.refused
        if not refused and is_nothing_judged(build, verdict):
            refused = f"no recipe could be judged, of {verdict.recipes}"
        known = KnownNames.of(build, names_of(build))
        makefiles = {node.origin.makefile for node in build.nodes.values() if node.origin}
        generators = {name: self.names.generated(name) for name in sorted(makefiles)}
        value = {
            "format": FORMAT,
            "tool": build.tool,
            "status": status_of(build, verdict),
            "refused": refused,
            "recipes": verdict.recipes,
            "unjudged_recipes": len(build.unjudged & verdict.targets),
            "reads": verdict.reads,
            "findings": [self.finding(group) for group in self.groups(verdict.findings)],
            "later": [self.finding(group) for group in self.groups(verdict.later)],
            "generators": {name: how for name, how in generators.items() if how},
            "unjudged": list(map(known.replace, grouped(build.problems, build.subjects))),
            "given": list(build.given),
            "unwritten": list(build.unwritten),
            "notes": list(map(known.replace, grouped(build.notes, build.subjects))),
        }
        return json.dumps(value, indent=1, ensure_ascii=False) + "\n"

    def groups(self, findings: Iterable[BuildFinding]) -> list[list[BuildFinding]]:
        """Findings that one sentence tells of."""
        found: dict[object, list[BuildFinding]] = {}
        stale: dict[object, dict[str, list[BuildFinding]]] = {}
        findings, names = list(findings), self.names
        pairs = [(one.words[0], one.words[1]) for one in findings if one.kind == "writers"]
        places = names.places_of_pairs(pairs)
        for finding in findings:
            if finding.kind == "stale" and not names.is_unseen(*finding.words[:2]):
                recipe = finding.words[0]
                at = ("stale", names.place(recipe))
                stale.setdefault(at, {}).setdefault(recipe, []).append(finding)
                found.setdefault(at, [])
            elif finding.kind == UNAWARE:
                found.setdefault((UNAWARE, finding.words[1]), []).append(finding)
            elif finding.kind == "writers":
                pair = finding.words[0], finding.words[1]
                found.setdefault(("writers", *places[pair]), []).append(finding)
            else:
                found.setdefault(id(finding), []).append(finding)
        groups = []
        for key, group in found.items():
            groups += [group] if key not in stale else self.of_one_line(stale[key])
        return groups

    def of_one_line(self, recipes: dict[str, list[BuildFinding]]) -> list[list[BuildFinding]]:
        """Stale reads of the recipes of one line: those that read the same files are told in one
        sentence, and all of them where there are many such sentences."""
        alike: dict[tuple[str, ...], list[BuildFinding]] = {}
        for findings in recipes.values():
            files = tuple(sorted(finding.words[1] for finding in findings))
            alike.setdefault(files, []).extend(findings)
        if len(alike) > OF_ONE_LINE:
            return [[finding for group in alike.values() for finding in group]]
        return list(alike.values())

    def finding(self, group: list[BuildFinding]) -> Value:
        """Findings that one sentence tells of, as a value."""
        first, telling = group[0], self.sentences()
        text = next(iter(telling.texts(group)))
        node = self.build.nodes.get(first.words[0])
        origin = node.origin if node is not None else None
        names = [self.names.called(word) for one in group for word in targets_of(one)]
        return {
            "kind": "stale" if first.kind == UNAWARE else first.kind,
            "makefile": origin.makefile if origin else None,
            "line": origin.line if origin else None,
            "sentence": text.removeprefix(f"{self.names.place(first.words[0])}: "),
            "targets": list(dict.fromkeys(names)),
            "files": list(dict.fromkeys(word for one in group for word in files_of(one))),
            "mends": self.mends(telling, group),
        }

    def mends(self, telling: Sentences, group: list[BuildFinding]) -> list[Value]:
        """The lines that mend a group, each at the rule of its target."""
        nodes = [self.names.node(finding.words[0]) for finding in group]
        rules = {(makefile_of(node), node.known_as or node.name): node for node in nodes}
        found: dict[tuple[object, ...], list[str]] = {}
        for makefile, advice in telling.advice.items():
            for target, words in advice.lines.items():
                node = rules.get((makefile, target))
                line = node.origin.line if node is not None and node.origin else None
                lacking = (makefile, line, tuple(words), advice.macros.get(target, ""))
                found.setdefault(lacking, []).append(target)
        keys = ("makefile", "line", "words", "takes_all")
        return [{**dict(zip(keys, key)), "targets": names} for key, names in found.items()]


def makefile_of(node: Node) -> str:
    """The makefile that has the rule of a node."""
    return node.origin.makefile if node.origin else ""


def targets_of(finding: BuildFinding) -> tuple[str, ...]:
    """The names of a finding that are targets whose recipes it is about."""
    return finding.words[:2] if finding.kind == "writers" else finding.words[:1]


def files_of(finding: BuildFinding) -> tuple[str, ...]:
    """The file of a finding, if there is one."""
    return finding.words[-1:] if len(finding.words) > 1 and finding.kind != "loose" else ()
