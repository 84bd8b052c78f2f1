"""Files that make writes by `$(file >NAME,..)` when it expands a recipe."""

from __future__ import annotations

import unittest

from importer.make_folder import MakeFolderTest, can_judge
from mkcheck_tools.imports.database import Database, OwnMacro, Rule
from mkcheck_tools.imports.expanded import names_in


class NameTest(unittest.TestCase):
    """The names in such functions."""

    def test_names(self) -> None:
        base = Database({"DIR": "out", "list": "$(file >>$(DIR)/l,x)"}, {"wr": "$(file > w ,$1)x"})
        for recipe, names in {
            "$(file >a,b)": ["a"],
            "$(file >>a b,c)": ["a b"],
            "$(file >$@.rsp,$^)": ["d/t.rsp"],
            "$(file >$(@D)/$(@F).x)": ["d/t.x"],
            "${file >$(DIR)/a,b}": ["out/a"],
            "$(call wr,$^)": ["w"],
            "$(list)": ["out/l"],
            "$(file <a)": [],
            "$(file >$1,b)": [],
            "echo file >a": [],
        }.items():
            with self.subTest(recipe):
                self.assertEqual(names_in(Rule("d/t", recipe=[recipe]), base), names)

    def test_macros_of_the_target(self) -> None:
        base = Database({"R": "other"}, {})
        for text, names in (("$@.rsp", ["d/t.rsp"]), (None, [])):
            for recipe in ("$(file >$R,$^)", "$(file >${R},$^)"):
                with self.subTest(f"{recipe} {text}"):
                    macros = [OwnMacro("R", "Makefile", 1, text=text)]
                    rule = Rule("d/t", recipe=[recipe], macros=macros)
                    self.assertEqual(names_in(rule, base), names)


@can_judge
class FileTest(MakeFolderTest):
    """Builds with such recipes."""

    def test_targets_and_other_files(self) -> None:
        """One that has no other command, one that hands on a list, and one by a macro."""
        self.write(
            {
                "Makefile": "all: out out2 out3\nlist: a b\n\t$(file >list,$^)\nout: list\n"
                "\tcat list > out\nout2: a\n\t$(file >$@.rsp,$^)cat @$@.rsp > out2 || cat $@.rsp >"
                " out2\ndefine put\n$(file >args,$(1) %d \'x\')\ncat args > $@\nendef\nout3: b\n"
                "\t$(call put,$^)\n",
                "a": "",
                "b": "",
            }
        )
        answer = self.imported(replay=True)
        self.assertEqual(answer.status, 0, answer.output + answer.errors)
        self.assertIn("list: a b\n\tset +e; printf 'a b\\n' > list\n", answer.rules())
        self.assertIn("make writes args by $(file ..) when it expands the recipe of", answer.log)
        built = self.built()
        for name, outputs in {"a": ("list", "out", "out2"), "b": ("list", "out3")}.items():
            for output in outputs:
                self.assertTrue(self.rebuilds(built, [name], [output]))
        for name in ("out", "out2", "out3"):
            text = answer.records[name].commands[0]
            self.assertEqual("printf" in text, name != "out")

    def test_file_to_which_make_adds(self) -> None:
        """A list that make begins anew and to which it adds a line for each prerequisite."""
        lines = "$(file >$@.rsp)\n\t$(foreach one,$^,$(file >>$@.rsp,$(one)))\n"
        self.write({"Makefile": f"out: a b\n\t{lines}\tcat `cat $@.rsp` > $@\n"})
        self.write({"a": "a\n", "b": "b\n"})
        answer = self.imported(replay=True)
        self.assertEqual(answer.status, 0, answer.output + answer.errors)
        self.assertIn("printf 'a\\nb\\n' > out.rsp", answer.rules())
        built = self.built()
        self.assertEqual((built / "out.rsp").read_text(), "a\nb\n")
        self.assertEqual((built / "out").read_text(), "a\nb\n")
        self.assertTrue(self.rebuilds(built, ["b"], ["out"]))

    def test_file_that_only_grows(self) -> None:
        """What an earlier build left stays in it."""
        lines = "$(file >>$@.rsp,$^)cat $@.rsp > $@"
        self.write({"Makefile": f"out: a\n\t{lines}\n", "a": "a\n"})
        answer = self.imported()
        self.assertNotEqual(answer.status, 0, answer.output + answer.errors)
        self.assertIn("make reads out.rsp beside its makefiles", answer.output)

    def test_name_by_a_macro_of_the_target(self) -> None:
        self.write(
            {
                "Makefile": "all: out out2\nout: R = o1.rsp\nout2: R := o2.rsp\nout out2: a\n"
                "\t$(file >$R,$^)\n\tcat `cat $R` > $@\n",
                "a": "a\n",
            }
        )
        answer = self.imported(replay=True)
        self.assertEqual(answer.status, 0, answer.output + answer.errors)
        for name in ("o1", "o2"):
            self.assertIn(f"printf 'a\\n' > {name}.rsp", answer.rules())

    def test_a_race(self) -> None:
        """Who reads such a file has to wait for the recipe."""
        self.write(
            {
                "Makefile": "all: x y\nx: in\n\t$(file >args,$^)cp in x\ny: y.in\n"
                "\tcat y.in args > y || true\n",
                "in": "in\n",
                "y.in": "y\n",
            }
        )
        answer = self.imported()
        self.assertIn("the recipe of y reads args, and make may begin it before", answer.output)
        self.assertNotIn("Not judged", answer.output)

    def test_other_contents_after_a_build(self) -> None:
        self.write({"Makefile": "x: in\n\t$(file >l,$(wildcard x))cat l in > x\n", "in": ""})
        answer = self.imported()
        self.assertEqual(answer.status, 2, answer.output + answer.errors)
        self.assertIn("x: after a build make writes something else into l by", answer.output)


if __name__ == "__main__":
    unittest.main()
