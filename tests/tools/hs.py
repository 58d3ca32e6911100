#!/usr/bin/env python3
"""Tries tools/hs: that it lists and runs each command, says how each is called with an example, and which arguments are wrong; and columns by name.

usage: tests/tools/hs.py    (PROGRAM=FILE tries another build than tools/build's)
It ends with status 1 where one differs.
"""
import concurrent.futures
import os
import re
import subprocess
import sys
import tempfile

sys.path.insert(0, f"{os.path.dirname(os.path.abspath(__file__))}/../lib")
from places import TOP  # noqa: E402
from causes import COMMANDS  # noqa: E402
from entries import ENTRIES, ROLES  # noqa: E402

CATALOG, KEY = "examples/survey/catalog.json", "examples/survey/key"
YOUNG = "size (filter (fn (p : row persons) => p.age <= 30) persons)"
# Words, the status, and what is on standard output and on standard error.
CALLS = [
    ("", 0, "An analyst can", ""),
    ("help", 0, "An analyst can", ""),
    ("--help", 0, "usage: tools/hs", ""),
    ("chek", 2, "", "`chek` is no command: is `check` meant?"),
    ("zzzz", 2, "", "`zzzz` is no command: tools/hs lists them."),
    ("run catalog.json", 2, "usage",
        "`run` takes 2 arguments, CATALOG KEY, and 1 stand there.\ntools/why: Its form is:\ntools/why:     hitchseason run CATALOG KEY "),
    ("serve c k --port 70000 --each 1", 2, "usage", "     hitchseason serve CATALOG KEY [--addr A] --port P [--workers W] --each N"),
    ("grant c k labour 0.5", 2, "usage", "     hitchseason grant CATALOG KEY OWNER AMOUNT"),
    ("check a b", 2, "usage", "     hitchseason check CATALOG OWNER FILE"),
    ("gen 1 1", 0, "", ""),
    (f"public {CATALOG}", 0, "persons", ""),
    ("explain no\u00a013", 2, "", "no line that the program writes"),
    ("check --help", 0, "usage: tools/hs check CATALOG OWNER FILE\nExample: tools/hs check ", ""),
    (f"check {CATALOG} labour /nowhere", 8, "", ""),
]  # fmt: skip
# Programs with names, what `check` says, and what is on standard error.
PROGRAMS = [
    (YOUNG, 0, "ok 1\n", ""),
    ("sum[0,5000] (map (fn (p : row persons) => p.income) persons)", 0, "ok 5000\n", ""),
    ("size persons", 0, "ok 1\n", ""),
    (YOUNG.replace("<=", "<"), 1, "no 21 20\n", "p.age < 30) persons)\n" + 52 * " " + "^\nhint: `<` opens a pair"),
    (YOUNG.replace("age", "aeg"), 1, "", "tools/hs: `persons` has no column `aeg`: is `age` meant?\nline 1:\n"),
    (YOUNG.replace("row persons", "row person"), 1, "", "there is no table `person`: is `persons` meant?"),
    ("size persons * 2", 1, "no 21 2\n", "write `2 * size persons`"),
]

# What a terminal takes for a command, or for the order of what is written; and a byte that is none of UTF-8's.
HOSTILE = "no\udcff\x1b]0;x\x07\x9b31m\u202e\u2028such"
CONTROLS = {*map(chr, (*range(9), *range(11, 32), *range(127, 160), 0x61C, 0x200E, 0x200F, *range(0x2028, 0x202F), *range(0x2066, 0x206A)))}
# Arguments of tools, X being hostile and Q a program: names of files, of folders, of owners, and words that are none.
NAMED = """
explain X|explain X labour Q no|explain {c} X Q no|explain {c} labour X no|explain {c} labour Q X
explain --script X Q|explain --script {c} X|explain --script {c} Q X
public X|public {c} X|public --json X|prepare X --guess x|prepare X --spec X|prepare {c} --spec X|prepare {c} --guess X/x|prepare {c} --X
find_fault X|find_fault {c} X|walks X labour Q|walks {c} X Q|walks {c} labour X|walks --X
forecast X labour 1 Q|forecast {f} X 1 Q|forecast {f} labour X Q|forecast {f} labour 1 X|forecast {f} labour 1 Q X|forecast {f} labour 1 Q --public X
ask {c} {k} X labour 1 Q|ask {c} {k} mia X 1 Q|ask {c} {k} mia labour X Q|ask {c} {k} mia labour 1 X|ask {c} {k} mia labour 1 Q X X
shell X mia labour|shell {f} X labour|shell {f} mia X|askparts {f} mia labour X 1 Q|askparts {f} mia labour areas 1 X
left X labour|left {f} X|left ssh://X labour|left h:1 labour --public X|plot X|plot histogram X|plot --X
door X 7000 1|door mia X 1|door mia 7000 1 --catalog X|door mia 7000 1 X|snapshot X copies|snapshot Q copies|mirror X|mirror --X|watch X copies|watch Q X|watch --X
why run X {k}|why run {c} X|why X|why check {c} X Q|why check {c} labour X|why serve {c} {k} --port X --each 1|why grant {c} {k} X 1|why gap {c} labour X Q
reference.py X {k}|reference.py {c} X|journal.py X {k}|journal.py {c} X|hs X|hs check X labour Q|hs check {c} X Q|hs check {c} labour X
"""


class Trial:
    def __init__(self, room):
        self.room, self.tried, self.differences = room, 0, 0

    def called(self, tool, *words, text=True):
        return subprocess.run([f"{TOP}/tools/{tool}", *words], cwd=TOP, capture_output=True, text=text, stdin=subprocess.DEVNULL)

    def holds(self, what, holds, found):
        self.tried += 1
        if not holds:
            self.differences += 1
            print(f"{what}: {found}")

    def calls(self):
        for words, status, out, err in CALLS:
            ran = self.called("hs", *words.split(" ")) if words else self.called("hs")
            statuses = (status,) if status != 8 else range(2, 11)
            self.holds(words, ran.returncode in statuses and out in ran.stdout and err in ran.stderr, f"{ran.returncode} {ran.stdout}{ran.stderr}")

    def lists(self):
        """Each command of tools/ and of the program, once, for somebody, in a line of the list."""
        tools = {name for name in os.listdir(f"{TOP}/tools") if os.path.isfile(f"{TOP}/tools/{name}")} - {"hs"}
        words = [entry.word for entry in ENTRIES]
        self.holds("commands", sorted(words) == sorted({*tools, *COMMANDS}), sorted(set(words) ^ {*tools, *COMMANDS}))
        listed = self.called("hs").stdout.splitlines()
        for entry in ENTRIES:
            self.holds(entry.word, entry.role in ROLES and len([line for line in listed if line.split()[:1] == [entry.word]]) == 1, listed)
        self.holds("widths", max(map(len, listed)) <= 100, max(listed, key=len))

    def helps(self):
        """Each says how it is called, and has an example, which runs the command."""
        for entry in ENTRIES:
            ran = self.called("hs", entry.word, "--help")
            example = re.search(r"Example: (?:\w+=\S+ )?tools/(?:hs )?(\S+)", ran.stdout)
            self.holds(f"{entry.word} --help", ran.returncode == 0 and len(ran.stdout.splitlines()) > 1 and example and example[1] == entry.word, ran.stdout)

    def program(self, text):
        name = f"{self.room}/query"
        with open(name, "w") as file:
            file.write(text)
        return name

    def names(self):
        for text, status, out, err in PROGRAMS:
            ran = self.called("hs", "check", CATALOG, "labour", self.program(text))
            said = err in ran.stderr if err else not ran.stderr
            self.holds(text, (ran.returncode, ran.stdout) == (status, out) and said, f"{ran.returncode} {ran.stdout}{ran.stderr}")
        name = self.program(YOUNG)
        ran = self.called("walks", CATALOG, "labour", name)
        self.holds("walks", ran.returncode == 0 and ran.stdout.startswith("It walks rows 1 deep: at most 1,048,576 visits"), ran.stdout)
        # With the survey's key: what docs/first-programs.md's own forms of these answer, whose noise is number 0's.
        for part, said in (((), "answer 0 349 500000"), (("areas", "north"), "answer 0 62 500000")):
            ran = self.called("ask", CATALOG, KEY, "mia", "labour", "0.5", name, *part)
            self.holds("ask", ran.returncode == 0 and ran.stdout == f"hello mia\n{said}\nbye\n", f"{ran.stdout}{ran.stderr}")
        name = self.program(YOUNG.replace("age", "aeg"))
        for words in (("walks", CATALOG, "labour", name), ("ask", CATALOG, KEY, "mia", "labour", "0.5", name)):
            ran = self.called(*words)
            self.holds(words[0], ran.returncode == 1 and "has no column `aeg`: is `age` meant?" in ran.stdout + ran.stderr, f"{ran.stdout}{ran.stderr}")

    def hostile(self):
        """Whatever a file or another argument is called, nothing of it goes on to the terminal. What the program says on standard output is its own."""
        program = self.program("size persons")
        calls = [call.split() for call in NAMED.format(c=CATALOG, k=KEY, f=os.path.dirname(CATALOG)).replace("\n", "|").strip("|").split("|")]
        tried = [(word, [program if one == "Q" else one.replace("X", HOSTILE) for one in words]) for word, *words in calls]
        with concurrent.futures.ThreadPoolExecutor(4) as pool:
            came = pool.map(lambda call: self.called(call[0], *map(os.fsencode, call[1]), text=False), tried)
        for (word, words), ran in zip(tried, came):
            of_program = word in ("why", "ask", "hs")
            lines = [line for line in ran.stdout.split(b"\n") if not (of_program and line.startswith(b"refused "))]
            said = b"\n".join([*lines, ran.stderr]).decode(errors="replace")
            self.holds((word, words), ran.returncode != 0 and said.strip() and not CONTROLS & {*said} and "Traceback" not in said, (ran.returncode, said))

    def deep(self):
        """A walk within walks is marked where it is written."""
        text = "let n = fn (q : row persons) =>\n  size (filter (fn (p : row persons) => p.age <= q.age) persons) in\n"
        text += "0 * sum[0,9] (map (fn (p : row persons) => n (![inf] p)) persons)"
        ran = self.called("walks", CATALOG, "labour", self.program(text))
        place = f"the `sum` in bytes {text.index('sum')} to {len(text)}:"
        self.holds("a deep walk", "walks rows 2 deep" in ran.stdout and place in ran.stdout and "line 2:\n      size (filter" in ran.stdout, ran.stdout)


def main():
    if "PROGRAM" not in os.environ:
        subprocess.run([f"{TOP}/tools/build"], check=True)
        os.environ["PROGRAM"] = f"{TOP}/out/hitchseason"
    os.environ["PROGRAM"] = os.path.abspath(os.environ["PROGRAM"])
    with tempfile.TemporaryDirectory() as room:
        trial = Trial(room)
        for call in (trial.lists, trial.calls, trial.helps, trial.names, trial.hostile, trial.deep):
            call()
    print(f"{trial.tried} calls of tools/hs and of programs with names, {trial.differences} differences")
    return 1 if trial.differences else 0


sys.exit(main())
