"""Refuses each growth of mkcheck in turn, over worked examples.

sweep.py [PROGRAM] [--gate]

The program must answer the whole text, or end with status 3 and say `want of memory`: never
anything else, and never a text that is cut. It prints a line for each example, and ends with 1
where an answer was another one. With `--gate` it takes the examples of the gate alone.
"""

import argparse
import os
import shutil
import subprocess
import sys
import tempfile
from pathlib import Path

HERE = Path(__file__).resolve().parent
PROGRAM = HERE.parent.parent / "bin" / "mkcheck"
PLAIN_RULES = "p: a.o\n\tcc -o p a.o\na.o: a.c\n\tcc -c a.c\n"
PLAIN_GRAPH = "goals p\na.c:\na.o recipe: a.c\np recipe: a.o\n"
COPY_RULES = "b: a\n\tcp a b\n"
COPIED = """{"format":1,"fixed":[],"sources":["a"],"records":[
{"target":"b","commands":["cp a b"],"reads":["a"],"writes":["b"]}]}"""
PLAN = "make 1\nbegin b\nfinish b\nend\nedit a\nmake 1\npass b"
NO_RECORDS = '{"format":1,"fixed":[],"sources":["a.c"],"records":[]}'
RECORDED = """{"format":1,"fixed":[],"sources":["a.c"],"records":[
{"target":"p","commands":["cc -o p a.o"],"reads":["a.o"],"writes":["p"]},
{"target":"a.o","commands":["cc -c a.c"],"reads":["a.c"],"writes":["a.o"]}]}"""
SHARING = """{"format":2,"fixed":["/usr/"],"sources":["a.c","h.h","a.c"],"lists":{"hd":["h.h"]},"groups":[{"goals":["p"],"records":[
{"target":"p","commands":["cc -o p a.o"],"reads":["a.o"],"writes":["p"],"shared":[]},
{"target":"a.o","commands":["cc -c a.c"],"reads":["a.c"],"writes":["a.o"],"shared":["hd"]}]}]}"""

CERTIFICATE = (
    '{"format":1,"goals":["p"],"ways":['
    '{"end":"source","file":"a.c","path":["a.o"],"recipe":"a.o"},'
    '{"end":"written","file":"a.o","path":["p","a.o"],"recipe":"p"}'
)
FAR_READ = RECORDED.replace('"reads":["a.o"]', '"reads":["a.o","a.c"]')
FAR_CERTIFICATE = CERTIFICATE + ',{"end":"source","file":"a.c","path":["p","a.o"],"recipe":"p"}]}'
RACE_RULES = ".PHONY: b\nall: x y\nx: a .WAIT b\ny: b\na:\n\ttouch a\nb:\n\tcat a\n"
RACE = """{"format":1,"fixed":[],"sources":[],"records":[
{"target":"a","commands":["touch a"],"reads":[],"writes":["a"]},
{"target":"b","commands":["cat a"],"reads":["a"],"writes":[]}]}"""
BESIDE_RULES = (
    "m.o: m.c y.tab.h\n\tcc -c m.c\ny.tab.h: y.tab.c\ny.tab.c: gram.y\n\tyacc -d gram.y\n"
)
BESIDE = """{"format":1,"fixed":[],"sources":["m.c","gram.y"],"records":[
{"target":"m.o","commands":["cc -c m.c"],"reads":["m.c","y.tab.h"],"writes":["m.o"]},
{"target":"y.tab.c","commands":["yacc -d gram.y"],"reads":["gram.y"],"writes":["y.tab.c","y.tab.h"]}]}"""
TRIED_RULES = "t: b\n\tt\nb:\n\tb\n"
TRIED = """{"format":1,"fixed":[],"sources":["a"],"records":[
{"target":"t","commands":["t"],"reads":[],"writes":[]},
{"target":"b","commands":["b"],"reads":["a"],"writes":["b"]}]}"""
BOTH_RULES = "all: a b\na:\n\tdo a\nb:\n\tdo b\n"
BOTH = """{"format":1,"fixed":[],"sources":[],"records":[
{"target":"a","commands":["do a"],"reads":["b"],"writes":["a"]},
{"target":"b","commands":["do b"],"reads":["a"],"writes":["b"]}]}"""


def nested(last: str) -> dict[str, str]:
    """A makefile and sixteen files, each of which includes the next one."""
    files = {"makefile": "include f1\n"}
    for level in range(1, 16):
        files[f"f{level}"] = f"include f{level + 1}\n"
    files["f16"] = last
    return files


# The files, the words of the command line, the status and what is printed.
EXAMPLES = {
    "plain rules": (
        {"makefile": PLAIN_RULES},
        ["graph"],
        0,
        PLAIN_GRAPH,
    ),
    "a file that is written beside another": (
        {
            "makefile": BESIDE_RULES,
        },
        ["graph"],
        0,
        "goals m.o\nm.c:\ngram.y:\ny.tab.c recipe: gram.y\ny.tab.h: y.tab.c\n"
        "m.o recipe: m.c y.tab.h\n",
    ),
    "a cycle": (
        {"makefile": "a: b c\nc: d\nd: c a\n"},
        ["graph"],
        2,
        "refused 42 c d c\n",
    ),
    "includes to the last level": (nested("a:\n"), ["graph"], 0, "goals a\na:\n"),
    "an include too deep": (nested("include f17\n"), ["graph"], 2, "refused 33 f16:1\n"),
    "a substitution": (
        {"makefile": "S = a.c b.h\nall: $(S:%.c=obj/%.o)\n"},
        ["graph"],
        0,
        "goals all\nobj/a.o:\nb.h:\nall: obj/a.o b.h\n",
    ),
    "an inference rule and commands": (
        {"makefile": "p: a.o\n\t$(CC) -o $@ $^\na.o:\na.c:\n"},
        ["graph", "-c", "CC=cc"],
        0,
        "goals p\na.c:\na.o recipe: a.c\n\tcc -O1 -c a.c\np recipe: a.o\n\tcc -o p a.o\n",
    ),
    "commands with footprints": (
        {"makefile": "p: a.o\n\t$(CC) -o $@ $^\n", "B": NO_RECORDS},
        ["graph", "-c", "-b", "B", "CC=cc"],
        0,
        "goals p\na.c:\na.o recipe: a.c\n\tcc -O1 -c a.c\np recipe: a.o\n\tcc -o p a.o\n",
    ),
    "footprints with records": (
        {"makefile": PLAIN_RULES, "B": RECORDED},
        ["graph", "-b", "B"],
        0,
        PLAIN_GRAPH,
    ),
    "footprints with shared lists": (
        {"makefile": PLAIN_RULES, "B": SHARING},
        ["graph", "-b", "B", "p"],
        0,
        PLAIN_GRAPH,
    ),
    "footprints of no JSON": (
        {"makefile": PLAIN_RULES, "B": "{"},
        ["graph", "-b", "B"],
        2,
        "refused 51\n",
    ),
    "a name without a rule": (
        {"makefile": PLAIN_RULES, "B": '{"format":1,"fixed":[],"sources":[],"records":[]}'},
        ["graph", "-b", "B"],
        2,
        "refused 41 a.c\n",
    ),
    "the suffixes in their order": (
        {"makefile": ".SUFFIXES: .s\n.s.o:\n\tas -o $@ $<\nx.o:\nx.s:\nx.c:\n"},
        ["graph"],
        0,
        "goals x.o\nx.c:\nx.o recipe: x.c\n",
    ),
    "a plan": (
        {"makefile": COPY_RULES, "B": COPIED, "P": PLAN},
        ["simulate", "-b", "B", "-p", "P"],
        2,
        "a 1 1\nb 2 2\nrefused 65 line 7\na 3 3\nb 2 2\n",
    ),
    "a plan with a malformed line": (
        {"makefile": COPY_RULES, "B": COPIED, "P": "make 1\nbegin b\nfin"},
        ["simulate", "-b", "B", "-p", "P"],
        2,
        "refused 69 line 3\n",
    ),
    "a yes": (
        {"makefile": PLAIN_RULES, "B": RECORDED},
        ["check", "-b", "B"],
        0,
        "yes 2 recipes 2 reads\nway a.o a.c source a.o\nway p a.o written p a.o\n",
    ),
    "a certificate": (
        {"makefile": PLAIN_RULES, "B": FAR_READ},
        ["check", "-c", "-b", "B"],
        0,
        FAR_CERTIFICATE + "\n",
    ),
    "a race": (
        {"makefile": RACE_RULES, "B": RACE},
        ["check", "-b", "B"],
        1,
        "no race b a a\n",
    ),
    "a yes of a file that is written beside another": (
        {"makefile": BESIDE_RULES, "B": BESIDE},
        ["check", "-b", "B"],
        0,
        "yes 2 recipes 3 reads\nway y.tab.c gram.y source y.tab.c\nway m.o m.c source m.o\n"
        "way m.o y.tab.h written m.o y.tab.c\n",
    ),
    "recipes without records": (
        {"makefile": PLAIN_RULES, "B": NO_RECORDS},
        ["check", "-b", "B"],
        1,
        "no record a.o\nno record p\n",
    ),
    "a stale read": (
        {"makefile": PLAIN_RULES, "B": SHARING},
        ["check", "-b", "B"],
        1,
        "no stale a.o h.h\n",
    ),
    "a plan of a race": (
        {"makefile": RACE_RULES, "B": RACE},
        ["check", "-b", "B", "-e", "1"],
        1,
        "make 1\nbegin b\n",
    ),
    "a plan of a stale read": (
        {"makefile": PLAIN_RULES, "B": SHARING},
        ["check", "-b", "B", "-e", "1"],
        1,
        "make 1\nbegin a.o\nlook a.o a.c\nlook a.o h.h\nput a.o a.o 3\ndone a.o\nbegin p\nlook p a.o\nput p p 4\ndone p\nend\n"
        "edit h.h 5\nmake 1\npass a.o\nbegin p\nlook p a.o\nput p p 4\ndone p\nend\n",
    ),
    "no plan": (
        {"makefile": RACE_RULES, "B": RACE},
        ["check", "-b", "B", "-e", "2"],
        1,
        "no plan\n",
    ),
    "findings in words": (
        {"makefile": BOTH_RULES, "B": BOTH},
        ["check", "-w", "-b", "B"],
        1,
        "makefile:2: a reads b, but doesn't depend on it: with several jobs it may be missing, old or"
        " half-written then, and when it changes, a stays old [race, stale]\n"
        "  do: with a line for this each of these names would need the next one: a b a; split one of"
        " these recipes in two, or take a prerequisite away\n"
        "makefile:4: b reads a, but doesn't depend on it: with several jobs it may be missing, old or"
        " half-written then, and when it changes, b stays old [race, stale]\n"
        "  do: with a line for this each of these names would need the next one: a b a; split one of"
        " these recipes in two, or take a prerequisite away\n"
        "4 findings in 2 groups; no line mends them\n",
    ),
    "a refusal in words": (
        {"makefile": "x\n", "B": BOTH},
        ["check", "-w", "-b", "B"],
        2,
        "makefile:1: NotALine (25): no rule, macro or include line, as `ifdef`; commands need a"
        " tab\n"
        "  x\n",
    ),
    "a yes as JSON": (
        {"makefile": PLAIN_RULES, "B": RECORDED},
        ["check", "--json", "-b", "B"],
        0,
        f'{{"answer":"yes","certificate":{CERTIFICATE}]}},"format":1,"reads":2,"recipes":2}}\n',
    ),
    "a no as JSON": (
        {"makefile": PLAIN_RULES, "B": SHARING},
        ["check", "--json", "-b", "B"],
        1,
        '{"answer":"no","counts":{"findings":1,"groups":1,"lines":1,"mended":1},"findings":[{"group"'
        ':1,"kind":"stale","names":["a.o","h.h"],"number":1,"text":"no stale a.o h.h"}],"format":1,'
        '"groups":[{"add":"a.o: h.h\\n","also":[],"do":null,"files":["h.h"],"kind":"stale","place":{'
        '"file":"makefile","line":3},"sentence":"a.o reads h.h, but doesn\'t depend on it: when it'
        ' changes, a.o stays old","targets":["a.o"],"writers":[]}],"later":[]}\n',
    ),
    "a refusal as JSON": (
        {"makefile": "x\n", "B": BOTH},
        ["check", "--json", "-b", "B"],
        2,
        '{"answer":"refused","argument":null,"format":1,"name":"NotALine","names":[],"number":25,'
        '"place":{"file":"makefile","line":1},"sentence":"makefile:1: NotALine (25): no rule, macro'
        ' or include line, as `ifdef`; commands need a tab","source":"x","text":"refused 25'
        ' makefile:1","word":null}\n',
    ),
    "a mended makefile": (
        {"makefile": TRIED_RULES, "B": TRIED},
        ["repair", "-b", "B"],
        0,
        "\n.PHONY: t\nb: a\n",
    ),
    "a makefile that lines don't mend": (
        {
            "makefile": TRIED_RULES.replace("\tb\n", "\tb $^\n"),
            "B": TRIED.replace('"b"]', '"b "]', 1),
        },
        ["repair", "-b", "B"],
        1,
        "no target t\ntried .PHONY: t\ntried b: a\nwith these lines mkcheck check says:\n"
        "no commands b\nthese lines change commands: append them, and record again\n",
    ),
    "a cycle of what recipes need": (
        {"makefile": BOTH_RULES, "B": BOTH},
        ["repair", "-b", "B"],
        1,
        "no race a b b\nno race b a a\nno stale a b\nno stale b a\n"
        "no lines mend this, since each of these names needs the next one: a b a\n",
    ),
    "a makefile that needs no repair": (
        {"makefile": PLAIN_RULES, "B": RECORDED},
        ["repair", "-b", "B"],
        0,
        "",
    ),
    "a yes verified": (
        {"makefile": PLAIN_RULES, "B": FAR_READ, "C": FAR_CERTIFICATE},
        ["verify", "-b", "B", "-k", "C"],
        0,
        "yes 2 recipes 3 reads\n",
    ),
    "a way that is missing": (
        {"makefile": PLAIN_RULES, "B": FAR_READ, "C": CERTIFICATE + "]}"},
        ["verify", "-b", "B", "-k", "C"],
        2,
        "refused 74 p a.c\n",
    ),
    "a certificate of no JSON": (
        {"makefile": PLAIN_RULES, "B": FAR_READ, "C": CERTIFICATE},
        ["verify", "-b", "B", "-k", "C"],
        2,
        "refused 71\n",
    ),
}


# Those of the gate: a graph, includes at their limit, a plan that is refused, a yes, a certificate,
# a race, plans that show what was found, findings and a refusal in words, findings as JSON, lines
# that mend a makefile in two rounds, and a certificate that is judged.
GATE = [
    "plain rules",
    "includes to the last level",
    "an include too deep",
    "a substitution",
    "a plan",
    "a yes",
    "a certificate",
    "a race",
    "a yes of a file that is written beside another",
    "a plan of a stale read",
    "findings in words",
    "a refusal in words",
    "a no as JSON",
    "a mended makefile",
    "a yes verified",
]


def answer(command: list[str], folder: str, shim: str, refused: int) -> tuple[int, str, str, int]:
    """The status, both outputs, and how many growths were asked for."""
    source, sink = os.pipe()
    environment = {"LD_PRELOAD": shim, "REFUSED": str(refused), "COUNT_TO": str(sink)}
    done = subprocess.run(
        command,
        cwd=folder,
        env=environment,
        pass_fds=[sink],
        capture_output=True,
        text=True,
        check=False,
    )
    os.close(sink)
    with os.fdopen(source) as told:
        asked = told.read()
    return done.returncode, done.stdout, done.stderr, int(asked or 0)


def sweep(program: str, name: str, shim: str) -> bool:
    """Whether each run over this example answered as it must."""
    files, words, status, printed = EXAMPLES[name]
    with tempfile.TemporaryDirectory() as folder:
        for file, text in files.items():
            (Path(folder) / file).write_text(text)
        unmended = words[0] == "repair" and status == 1
        whole = (status, "", printed) if unmended else (status, printed, "")
        wanting = (3, "", "want of memory\n")
        command = [program, *words]
        asked = answer(command, folder, shim, 0)[3]
        wanted = 0
        for refused in range(asked + 1):
            *got, _ = answer(command, folder, shim, refused)
            if tuple(got) == wanting and refused > 0:
                wanted += 1
            elif tuple(got) != whole:
                print(f"{name}: growth {refused} of {asked}: {got}")
                return False
    print(f"{name}: {asked} growths, {wanted} of them answered by want of memory")
    return wanted > 0


def compiled(folder: str) -> str:
    """The library that refuses growths, compiled into a folder."""
    shim = f"{folder}/refuse.so"
    command = ["cc", "-O1", "-shared", "-fPIC", "-o", shim, str(HERE / "refuse.c")]
    subprocess.run(command, check=True)
    return shim


def arguments() -> argparse.Namespace:
    parser = argparse.ArgumentParser(description=__doc__.split("\n", maxsplit=1)[0])
    parser.add_argument("program", nargs="?", default=os.environ.get("MKCHECK", str(PROGRAM)))
    parser.add_argument("--gate", action="store_true")
    return parser.parse_args()


def main() -> int:
    given = arguments()
    if shutil.which("cc") is None:
        print("growths: no C compiler is here, so no growth was refused")
        return 0
    program = os.path.abspath(given.program)
    with tempfile.TemporaryDirectory() as folder:
        shim = compiled(folder)
        passed = [sweep(program, name, shim) for name in (GATE if given.gate else EXAMPLES)]
    print(f"growths: {len(passed)} examples, {passed.count(False)} of them wrong")
    return 0 if all(passed) else 1


if __name__ == "__main__":
    sys.exit(main())
