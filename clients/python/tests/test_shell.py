"""The prompt, `tools/shell`: through pipes, and at a terminal of its own."""
import fcntl
import json
import os
import pty
import re
import select
import signal
import struct
import subprocess
import sys
import tempfile
import termios
import time
import unittest

from common import PROGRAM, TOP, Place, rows_of, survey
from hitchseason import shell as shells
from hitchseason import told
from hitchseason.prompt import candidates

SHELL = f"{TOP}/tools/shell"
ANSWERS = os.environ["HITCHSEASON_ANSWERS"]
REGISTER = f"{TOP}/examples/register"
PAGE = next(page for page in (f"{TOP}/docs/client.md", f"{TOP}/docs/dev/client.md") if os.path.isfile(page))
YOUNG = "size (filter (fn (p : row persons) =>\n  p.age <= 30) persons)"


def piped(folder, *lines, words=("mia", "labour"), program=PROGRAM, given=None):
    given = "".join(f"{line}\n" for line in lines).encode() if given is None else given
    return subprocess.run([SHELL, folder, *words, "--program", program], input=given, capture_output=True)


def started(folder, program=PROGRAM):
    """Through pipes, while they are open."""
    pipes = {name: subprocess.PIPE for name in ("stdin", "stdout", "stderr")}
    return subprocess.Popen([SHELL, folder, "mia", "labour", "--program", program], **pipes)


def asked(ran):
    """The numbers of the answers that were told."""
    return [int(number) for number in re.findall(r"^number (\d+), ", ran.stdout.decode(), re.M)]


def until(holds):
    """Waits for it."""
    end = time.monotonic() + 60
    while not holds():
        if time.monotonic() > end:
            raise AssertionError("it never came")
        time.sleep(0.02)


def text_of(name):
    with open(name, encoding="utf-8") as file:
        return file.read()


class Pipes(unittest.TestCase):
    def setUp(self):
        self.place = survey(budget=20_000_000, capacity=1000)
        self.folder = self.place.folder

    def tearDown(self):
        self.place.__exit__()

    def said(self, *lines, **more):
        ran = piped(self.folder, *lines, **more)
        self.assertEqual((ran.returncode, ran.stderr), (0, b""))
        return ran.stdout.decode()

    def refused(self, *lines, **more):
        ran = piped(self.folder, *lines, **more)
        self.assertEqual(ran.returncode, 1, ran.stdout)
        self.assertNotIn(b"Traceback", ran.stderr)
        return ran.stderr.decode()

    def test_answers(self):
        lines = self.said("\\e 0.5", "size persons;", YOUNG, "", "\\b").splitlines()
        value = int(lines[0].split()[0])
        ends = f"50 of 100: {value - 1} to {value + 1}  95 of 100: {value - 6} to {value + 6}  99.9 of 100: {value - 14} to {value + 14}"
        self.assertEqual(lines[:2], [f"{value}  {ends}", "number 0, 0.5 taken, 19.5 left"])
        self.assertEqual(lines[3:], ["number 1, 0.5 taken, 19 left", "labour: 19 left of 20, 1 spent; 4 records"])

    def test_ends_of_programs(self):
        for lines, number in (
            (["size persons;"], 1),
            (["size persons; size persons;size persons", ";"], 3),
            (["size", "  persons", ""], 1),
            (['size (filter (fn (p : row persons) => p.work == "a;b") persons);'], 1),
            (["", " ", ";", ";;", "size persons;;", ""], 1),
            (["size persons", "\\d", ";"], 1),
            (["size persons\r", "\r"], 1),
            (["size persons", "\\f", "\\g"], 1),
            (["size", "\\g persons"], 0),
            (["size persons", "\\g;"], 1),
            (["\\p areas north;", "size persons;", "\\p;", "size persons;", "\\d;", "\\q;", "size persons;"], 2),
            (["size persons; \\b", "size persons; \\q", "size persons;"], 2),
        ):
            ran = piped(self.folder, "\\e 0.01", *lines)
            self.assertEqual(len(asked(ran)), number, (lines, ran))

    def test_nothing(self):
        for given in (b"", b"\n", b"\n\n;\n", b"\\q", b"\\q\nsize persons;\n"):
            ran = piped(self.folder, given=given)
            self.assertEqual((ran.returncode, ran.stdout, ran.stderr), (0, b"", b""))
        for given in (b"\\e 1\nsize persons", b"\\e 1\nsize persons\n", b"\\e 1\nsize persons\n\\b\n"):
            ran = piped(self.folder, given=given)
            self.assertEqual((ran.returncode, asked(ran)), (1, []))
            self.assertIn(b"isn't asked", ran.stderr)

    def test_commas(self):
        """A key with a comma in it."""
        with open(f"{TOP}/examples/survey/catalog.json") as file:
            catalog = json.load(file)
        owner = {**catalog["owners"][0], "budget": 10**12}
        owner["tables"][0]["file"], owner["partitions"][0]["keys"] = "persons.csv", ["north,south", "west"]
        rows = [[row[0].replace("north", "north,south"), *row[1:]] for row in rows_of(f"{TOP}/examples/survey/persons.csv")]
        with Place({**catalog, "owners": [owner]}, {"persons.csv": rows}) as place:
            lines = ["\\a count persons eps=100 part=areas,north,south", "\\p areas north,south", "\\e 100", "size persons;"]
            said = piped(place.folder, *lines, words=("mia",)).stdout.decode().splitlines()
            count = sum(row[0] == "north,south" for row in rows)
            self.assertEqual([line.split()[0] for line in said[::2]], [str(count)] * 2)

    def test_mark(self):
        """What some editors write before the first line isn't of it."""
        for before in ("\ufeff", "\ufeff\r\n"):
            ran = piped(self.folder, given=f"{before}\\e 0.1\nsize persons;\n".encode())
            self.assertEqual((ran.returncode, ran.stderr, len(asked(ran))), (0, b"", 1))
        self.assertIn("line 2: ", self.refused("", "\ufeff\\d persons;"))

    def test_parts(self):
        keys = ["north", "south", "east", "west", "capital"]
        lines = self.said("\\e 0.5", "\\p areas", YOUNG, "", "\\p areas west", "size persons;", "\\p", "size persons;").splitlines()
        self.assertEqual(lines[0].split(), "value 50 of 100 95 of 100 99.9 of 100".split())
        self.assertEqual([line.split()[0] for line in lines[1:6]], keys)
        self.assertEqual(lines[6], "numbers 0 to 4, 0.5 taken, 19.5 left")
        self.assertLess(abs(int(lines[7].split()[0]) - 154), 40)
        self.assertLess(abs(int(lines[9].split()[0]) - 1000), 40)

    def test_forecasts(self):
        mean = "\\f \\a mean persons income 0 5000 charge=1"
        lines = self.said("\\e 0.5", YOUNG, "\\f", "\\p areas", "\\f", "\\f size persons;", "\\p", mean, "\\b").splitlines()
        self.assertEqual(lines[0], "charge: 0.5 (1 ask)")
        self.assertEqual([line for line in lines if "at most 0.5 (5 asks)" in line], ["charge: at most 0.5 (5 asks)"] * 2)
        self.assertIn("charge: 1 (2 asks)", lines)
        self.assertEqual(lines[-1], "labour: 20 left of 20, 0 spent; 0 records")

    def test_sent(self):
        apart = "size (filter (fn (p : text * num * text * num) =>\n  let (_, p) = p in let (age, p) = p in age <= 30) persons)\n"
        self.assertEqual(self.said("\\s " + YOUNG.replace("\n", " ")), apart.replace("=>\n  ", "=>   "))
        self.assertEqual(self.said(YOUNG, "\\s", "\\s"), apart * 2)

    def test_tables(self):
        said = self.said("\\d", "\\d persons", "\\d areas", "\\o")
        table = "table persons: region text, age num, work text, income num"
        for one in (table, "  p.age     num", "5 keys", "north  south  east", "labour\nhealth"):
            self.assertIn(one, said)
        self.assertIn("stays: ward text", self.said("\\o health", "\\d", words=("mia", "labour")))

    def test_recalls(self):
        first = self.said("\\e 0.5", "size persons;", "\\r 0").splitlines()
        self.assertEqual((first[2], first[3]), (first[0], "number 0, recalled"))
        # Of an earlier session: by what was kept of it, by the EPS that is typed, or the value alone.
        self.assertEqual(self.said("\\r 0").splitlines(), [*first[2:4], "asked: size persons"])
        os.environ["HITCHSEASON_ANSWERS"] = ""
        try:
            alone = [first[0].split()[0], "number 0, recalled; \\r 0 EPS gives its interval, by the EPS at which it was asked"]
            self.assertEqual(self.said("\\r 0").splitlines(), alone)
            self.assertEqual(self.said("\\r 0 0.5").splitlines(), first[2:4])
        finally:
            os.environ["HITCHSEASON_ANSWERS"] = ANSWERS
        self.assertIn("no number 7 was ever reserved", self.refused("\\r 7"))
        self.assertIn("another analyst made", self.refused("\\r 0", words=("tom", "labour")))
        self.assertIn("is none", self.refused("\\r x"))
        self.assertIn("no run was cut", self.refused("\\r"))

    def test_other_sessions(self):
        """What is kept counts for its folder, analyst and owner, where the value is the one that is recalled. It is kept for the analyst alone."""
        first = self.said("\\e 0.5", "\\p areas north", "size persons;").splitlines()
        with survey(budget=20_000_000, capacity=1000, key="another key") as other:
            value = piped(other.folder, "\\e 2", "size persons;").stdout.decode().split()[0]
            self.assertEqual(self.said("\\r 0").splitlines()[0], first[0])
            self.assertEqual(piped(other.folder, "\\r 0").stdout.decode().split()[:6], [value, "50", "of", "100:", value, "to"])
        with open(ANSWERS) as file:
            lines = file.read().splitlines()
        self.assertEqual(os.stat(ANSWERS).st_mode & 0o777, 0o600)
        kept = [json.loads(line) for line in lines if json.loads(line)["place"] == os.path.realpath(self.folder)]
        self.assertEqual([(one["eps"], one["sent"], one["part"]) for one in kept], [("0.5", "size persons", ["areas", "north"])])
        with open(ANSWERS, "a") as file:
            file.write(json.dumps({**kept[0], "value": kept[0]["value"] + 1, "eps": "9"}) + "\nno JSON\n[]\n{}\n")
        self.assertEqual(self.said("\\r 0").splitlines()[0], first[0])

    def test_words_of_others(self):
        """`help`, `quit` and `exit` where a line begins anew, and nowhere else."""
        self.assertEqual(self.said("help"), self.said("\\h"))
        for word in ("quit", "exit", "quit;", " EXIT "):
            self.assertEqual(self.said(word, "size persons;"), "")
        self.assertIn("no 30 unbound 5 9", self.refused("\\e 1", "size", "quit;"))

    def test_granted(self):
        """What was granted since is in \\d, with what is left."""
        self.assertEqual(self.said("\\d").splitlines()[0], "labour: budget 20, room for 500 answers")
        self.said("\\e 0.5", "size persons;")
        subprocess.run([PROGRAM, "grant", "catalog.json", "key", "labour", "2500000"], cwd=self.folder, check=True, stdout=subprocess.DEVNULL)
        # Three records of 1,000 are written: room for 498 pairs.
        wanted = "labour: budget 22.5, of which 2.5 were granted since; 22 left, room for 498 more answers"
        self.assertEqual(self.said("\\d").splitlines()[0], wanted)

    def test_json(self):
        lines = ["\\e 0.5", "size persons;", "\\b", "\\f size persons", "\\p areas", "size persons;", "\\p"]
        lines += ["\\a mean persons income 0 5000 charge=1", "\\a top areas 2"]
        lines += ["\\a quantile persons age 0.9 0 100 charge=1", "\\a variance persons age 0 100 charge=2", "\\r 0"]
        said = self.said(*lines, words=("mia", "labour", "--json")).splitlines()
        one, left, forecast, groups, mean, top, tenth, variance, again = map(json.loads, said)
        self.assertEqual((one["taken"], one["left"], one["sent"], one["recalled"]), (500_000, 19_500_000, "size persons", False))
        self.assertEqual(again, {**one, "taken": None, "left": None, "recalled": True})
        self.assertEqual(json.loads(self.said("\\r 0", words=("mia", "labour", "--json"))), again)
        self.assertEqual((left["left"], forecast["charge"], len(groups["groups"])), (19_500_000, 500_000, 5))
        self.assertEqual((len(mean["numbers"]), len(top["top"]), top["taken"]), (2, 2, 500_000))
        for known in (mean, tenth, variance):
            low, high = known["intervals"]["99.9"]
            self.assertTrue(low <= known["value"] <= high)

    def test_statistics(self):
        lines = ["\\e 0.5", "\\a count persons 'p.work == \"employed\"'", "\\p areas north", "\\a count persons", "\\p"]
        lines += ["\\a median persons income 0 5000 charge=1 steps=3"]
        lines += ["\\a sum persons income 0 5000 charge=1", "\\a histogram areas eps=0.1 keys=north,west"]
        lines += ["\\a groups areas 'size persons' 'eps=0.1'"]
        lines += ["\\a groups areas mean income 0 5000 charge=1 keys=north,west", "\\a mean persons income 0 5000 charge=1 shares=1,2"]
        said = self.said(*lines)
        self.assertEqual(len(re.findall("^numbers? ", said, re.M)), 8)
        self.assertRegex(said.splitlines()[-3], "^numbers [0-9]+ to [0-9]+, 1 taken, ")
        # Of the price 1/3 and 2/3, whole EPS in millionths for a sensitivity of 2500 and of 1.
        self.assertRegex(said.splitlines()[-1], "^numbers [0-9]+ [0-9]+, 0.999166 taken, ")
        for line, why in (
            ("\\a", "there is no statistic ``"),
            ("\\a maen persons", "is `mean` meant?"),
            ("\\a mean persons income 0 5000", "a charge is said"),
            ("\\a mean charge=1", "its arguments are \\a mean TABLE COLUMN LOW HIGH [where=]"),
            ("\\a groups areas mean income charge=1", "its arguments are \\a groups PARTITION mean COLUMN LOW HIGH [where=] [charge=] [shares=] [keys=]"),
            ("\\a groups areas", "or in PROGRAM's place a statistic's name and its arguments but for TABLE"),
            ("\\a groups areas mean income 0 x charge=1", "HIGH is a whole number, and not `x`"),
            ("\\a count persons eps=1 part=north", "`part` is a partition and one of its keys, as part=(\"areas\", \"north\")"),
            ("\\a count persons", "\\e 0.5 sets one"),
            ("\\a mean persons income 0 x charge=1", "HIGH is a whole number, and not `x`"),
            ("\\a mean persons income 9 5 charge=1", "bounds are whole numbers"),
            ("\\a mean persons income 0 5 charge=1 steps=4", "its arguments are"),
            ("\\a mean persons 'income 0 5 charge=1", "No closing quotation"),
            ("\\a count person eps=1", "is `persons` meant?"),
            ("\\a crosstab areas eps=1", "no partition by a joint column"),
            ("\\a mean persons income 0 5000 charge=1 shares=1/0,2", "shares are numbers over 0, one for each of the 2 asks"),
            ("\\a median persons income 0 5000 charge=1 steps=-1", "how many steps is a whole number from 1 to 1000, and not -1"),
            ("\\a quantile persons income 1/0 0 5000 charge=1", "a share is over 0 and under 1, of at most a thousandth, as 0.9, and not 1/0"),
            ("\\a top areas 2 eps=1 percent=nan", "a level is over 0"),
            ("\\a mean persons income 0 5000 charge=100", "none of them was asked"),
        ):
            self.assertIn(why, self.refused(line), line)

    def test_refusals(self):
        wrong = "size (filter (fn (p : row persons) => p.agee <= 30) persons);"
        said = self.refused("\\e 1", wrong)
        self.assertIn("tools/shell: line 2: `persons` has no column `agee`: is `age` meant?\nline 1:\n", said)
        marked, mark = said.splitlines()[2:4]
        self.assertEqual(marked[mark.index("^") : mark.rindex("^") + 1], "p.agee")
        for line, why in (
            ("size persons;", "\\e 0.5 sets one, and \\g asks then"),
            ("\\e 1e3", "write 1000"),
            ("\\e 0", "EPS is 0.000001 to 1000"),
            ("\\e 1e400", "`1e400` is over 1000"),
            ("\\e", "no epsilon is set"),
            ("\\g", "no program that waits"),
            ("\\f", "there is no program yet"),
            ("\\p area", "is `areas` meant?"),
            ("\\p areas nort", "is `north` meant?"),
            ("\\p areas north south", "one key"),
            ("\\o labor", "is `labour` meant?"),
            ("\\d person", "is `persons` meant?"),
            ("\\x", "`\\x` is no command"),
            ("\\", "`\\` is no command"),
            ("\\dpersons", "is no command"),
            ("\\é", "is no command"),
        ):
            self.assertIn(why, self.refused(line), line)

    def test_beginnings(self):
        for words, why in (
            (("mia",), "there are several owners, and one is asked: `labour`, `health`"),
            (("mi", "labour"), "is `mia` meant?"),
            (("mia", "labor"), "is `labour` meant?"),
        ):
            self.assertIn(why, self.refused("\\d", words=words))
        self.assertIn(b"no folder", piped("/nowhere", "\\d").stderr)
        self.assertEqual(piped(self.folder, words=()).returncode, 2)
        self.assertIn("can't be run", self.refused("\\b", program="/nowhere/hitchseason"))

    def test_asked_once(self):
        """\\g asks what was refused, and nothing that was answered."""
        ran = piped(self.folder, "size persons;", "\\e 30", "\\g", "\\e 1", "\\g", "\\g")
        self.assertEqual(asked(ran), [0])
        self.assertEqual(len(ran.stderr.splitlines()), 3)
        ran = piped(self.folder, "\\e 1", "size persons;", "\\a count persons eps=100", "\\g")
        self.assertIn(b"no program that waits", ran.stderr)
        ran = piped(self.folder, "\\f size persons", "\\o health", "\\e 1", "\\g")
        self.assertIn(b"no program that waits", ran.stderr)

    def test_long_and_odd(self):
        begun = time.monotonic()
        for line, why in (
            (b"size " + b"(" * 10**6 + b";", b"has over 65536"),
            (b"size (\n" * 20_000 + b"size persons;", b"has over 65536"),
            (b"size " + b"(" * 10**6, b"ended within a program"),
            (b"size persons + " * 4000 + b"1;", b"no 20"),
            (b"size persons + " * 1050 + b"1;", b"no 22"),
            (b'size (filter (fn (x : text) => x == "' + b"a" * 12_000 + b'") persons);', b"no 20"),
            (b"size \xff persons;", b"is no UTF-8"),
            (b"size \x00 persons;", b"no 20"),
            (b"size \x1b[31m persons;", b"no 20"),
            ("size pérsons;".encode(), b"no 20"),
            (b"\\" + b"d" * 10**5, b"is no command"),
            (b"\\d " + b"d" * 10**5, b"has no table"),
            (b"\\r " + b"9" * 10**5, b"is none"),
            (b"\\r 99999999999", b"is none"),
        ):
            ran = piped(self.folder, given=b"\\e 1\n" + line + b"\n")
            self.assertEqual((ran.returncode, ran.stdout), (1, b""), line[:50])
            self.assertIn(why, ran.stderr, line[:50])
            self.assertNotIn(b"Traceback", ran.stderr)
        self.assertEqual(piped(self.folder, given=b";" * 10**6 + b"\n").returncode, 0)
        self.assertLess(time.monotonic() - begun, 60)

    def test_spent(self):
        with survey(budget=1_000_000, capacity=6) as place:
            ran = piped(place.folder, "\\e 0.6", "size persons;", "size persons;", "\\e 0.1", "\\g", "\\p areas", "size persons;")
            self.assertEqual(asked(ran), [0, 1, 2])
            self.assertIn(b"an EPS of 0.4 is the greatest that fits now", ran.stderr)
            # Of the keys one is answered before there is no room.
            self.assertIn(b"no 41", ran.stderr)
            self.assertIn(b"\nnorth", ran.stdout)
            self.assertIn(b"number 2, 0.1 taken", ran.stdout)

    def test_nobody_reads(self):
        """Where output is closed nothing more is asked."""
        ran = started(self.folder)
        ran.stdin.write(b"\\e 0.1\nsize persons;\n")
        ran.stdin.flush()
        ran.stdout.readline()
        ran.stdout.close()
        ran.stdin.write(b"size persons;\n" * 20)
        ran.stdin.close()
        said = ran.stderr.read()
        ran.stderr.close()
        self.assertEqual(ran.wait(), 1)
        self.assertIn(b"can't be written: Broken pipe. Nothing more is asked; the last answer has number", said)
        self.assertNotIn(b"Traceback", said)
        self.assertLessEqual(self.place.client().left().records, 4)

    def killed(self, acts, *lines):
        """What comes where some of its runs are killed: the first learns the next number, and the second asks."""
        with survey(budget=20_000_000, capacity=1000) as place:
            cases = " ".join(f"{run}) {act}; kill -KILL $$ ;;" for run, act in acts.items())
            wrapped = place.wrapped(f'echo >>runs; case $(wc -l <runs) in {cases} esac; exec REAL "$@"\n')
            return piped(place.folder, "\\e 1", "size persons;", *lines, program=wrapped)

    def test_cut(self):
        """Runs that are killed before, after and after two of what they ask."""
        answered, twice = 'REAL "$@" >/dev/null', 'cat >script; REAL "$@" <script >/dev/null; REAL "$@" <script >/dev/null'
        for act, out, why in (
            ("true", "labour: 20 left", "nothing is charged"),
            (answered, "number 0, recalled, 19 left\n", ""),
            (twice, "labour: 18 left", "which is whose isn't known: 0 answer"),
        ):
            ran = self.killed({2: act}, "\\b")
            self.assertIn(out, ran.stdout.decode())
            self.assertIn(why, ran.stderr.decode())
        # What came to nothing waits for \\g.
        self.assertEqual(asked(self.killed({2: "true"}, "\\g")), [0])
        # Until \\r says what came of it, nothing more is asked.
        ran = self.killed({2: answered, 3: "true"}, "size persons;", "\\r", "size persons;")
        self.assertEqual(ran.stderr.count(b"Here \\r alone does what recover() does."), 2)
        self.assertEqual(asked(ran), [0, 1])
        self.assertIn(b"number 0, recalled, 19 left", ran.stdout)


class Odd(unittest.TestCase):
    """Keys with letters of all kinds, and a cross table."""

    def place(self, keys):
        columns = [{"name": "group", "type": "text"}]
        owner = {"name": "census", "budget": 10**9, "capacity": 1000, "tables": [{"name": "people", "file": "people.csv", "columns": columns}]}
        owner["partitions"] = [{"name": "group", "table": "people", "column": "group", "keys": keys}]
        return Place({"analysts": ["ann"], "owners": [owner]}, {"people.csv": [["group"], *([key] for key in keys)]})

    def test_keys(self):
        keys = ["Île-de-France", "\u202eevil", "\x9b31m", "a;b", '"', "\\q", "日本", "k" * 64]
        with self.place(keys) as place:
            for key in keys:
                ran = piped(place.folder, "\\e 100", f"\\p group {key}", "size people;", words=("ann",))
                self.assertEqual((ran.returncode, ran.stdout.split()[:1]), (0, [b"1"]), (key, ran))
            ran = piped(place.folder, "\\e 100", "\\p group", "size people;", "\\d group", words=("ann",))
            self.assertTrue(all(ran.stdout.count(key.encode()) >= 2 for key in keys))
            with Typed([SHELL, place.folder, "ann", "--program", PROGRAM]) as typed:
                typed.prompted()
                typed.after("\\p group \u202eevil\r", "group.\\u202eevil 800> ")
                said = typed.after("\\d group\r", "> ")
                self.assertIn("\\x9b31m", said)
                self.assertNotIn("\x9b", said)

    def test_meanings(self):
        """Of a file of the owner's own that says what columns mean."""
        with self.place(["a"]) as place:
            with open(f"{place.folder}/public.json", "w") as file:
                columns = [{"name": "group", "type": "text", "meaning": "bands of age"}]
                partitions = [{"name": "bands", "table": "people", "column": "group", "keys": ["a"]}]
                tables = [{"name": "people", "columns": columns}]
                owner = {"name": "census", "budget": 10**9, "capacity": 1000, "tables": tables, "partitions": partitions}
                json.dump({"analysts": ["ann"], "owners": [owner]}, file)
            ran = piped(place.folder, "\\d people", words=("ann", "--public", f"{place.folder}/public.json"))
            said = ran.stdout.decode().splitlines()[1:]
            self.assertEqual(said, ["  p.group  text  bands of age", "partition bands: rows of people by group, 1 key"])

    def test_crosstab(self):
        with open(f"{REGISTER}/catalog.json") as file:
            catalog = json.load(file)
        with Place(catalog, {"people.csv": rows_of(f"{REGISTER}/people.csv")}) as place:
            ran = piped(place.folder, "\\e 0.5", "\\a crosstab group", words=("ann",))
            self.assertEqual([line.split()[0] for line in ran.stdout.decode().splitlines()], ["under_18", "f", "m", "unknown", "total", "numbers"])
            ran = piped(place.folder, "\\e 0.5", "\\a crosstab group", words=("ann", "--json"))
            found = json.loads(ran.stdout)
            totals, values = found["totals"], {key: one["value"] for key, one in found["groups"].items()}
            self.assertEqual(totals["all"]["value"], sum(values.values()))
            self.assertEqual(totals["rows"]["f"]["value"], sum(value for key, value in values.items() if key.startswith("f.")))
            self.assertEqual(totals["columns"]["from_65"]["value"], sum(value for key, value in values.items() if key.endswith(".from_65")))


class Typed:
    """A command at a terminal of its own."""

    def __init__(self, argv, columns=100, **environment):
        self.room = tempfile.TemporaryDirectory()
        self.pid, self.terminal = pty.fork()
        if self.pid == 0:
            fcntl.ioctl(0, termios.TIOCSWINSZ, struct.pack("HHHH", 24, columns, 0, 0))
            environment = {"TERM": "dumb", "HITCHSEASON_HISTORY": f"{self.room.name}/history", "LC_ALL": "C.UTF-8", **environment}
            os.execve(argv[0], argv, {**{name: os.environ[name] for name in ("PATH", "HOME") if name in os.environ}, **environment})
        self.seen = self.rest = ""

    def __enter__(self):
        return self

    def __exit__(self, *_):
        os.close(self.terminal)
        try:
            os.kill(self.pid, signal.SIGKILL)
            os.waitpid(self.pid, 0)
        except (ProcessLookupError, ChildProcessError):
            pass
        self.room.cleanup()

    def more(self, seconds):
        """What is written next; nothing at the end."""
        if not select.select([self.terminal], [], [], seconds)[0]:
            raise AssertionError(f"nothing more came after {self.seen!r}")
        try:
            return os.read(self.terminal, 2**16).decode(errors="replace").replace("\r\n", "\n")
        except OSError:
            return ""

    def after(self, typed, awaited, seconds=30):
        """Types, and gives what is written up to what is awaited; what came after it is the next call's."""
        os.write(self.terminal, typed.encode())
        said = self.rest
        while awaited not in said:
            came = self.more(seconds)
            if not came:
                raise AssertionError(f"it ended after {self.seen + said!r}")
            said += came
        end = said.index(awaited) + len(awaited)
        said, self.rest = said[:end], said[end:]
        self.seen += said
        return said

    def prompted(self, typed=""):
        """Types a line, and gives what is written up to the next prompt."""
        os.write(self.terminal, typed.encode())
        said, self.rest = self.rest, ""
        while not re.search(r"(^|\n)([a-z]+ [^\n>]*|\.\.\.)> $", said):
            came = self.more(30)
            if not came:
                raise AssertionError(f"it ended after {self.seen + said!r}")
            said += came
        self.seen += said
        return said

    def ended(self, typed=""):
        """Types, and gives what is written to the end, and the status."""
        os.write(self.terminal, typed.encode())
        said = self.rest
        while came := self.more(30):
            said += came
        return said, os.waitstatus_to_exitcode(os.waitpid(self.pid, 0)[1])


class Terminals(unittest.TestCase):
    def setUp(self):
        self.place = survey(budget=20_000_000, capacity=1000)

    def tearDown(self):
        self.place.__exit__()

    def typed(self, columns=100, program=PROGRAM, **environment):
        return Typed([SHELL, self.place.folder, "mia", "labour", "--program", program], columns, **environment)

    def test_prompts(self):
        with self.typed() as typed:
            self.assertIn("mia asks labour: \\h says how", typed.after("", "labour 20> "))
            typed.after("\\e 0.5\r", "labour 20, eps 0.5> ")
            said = typed.after("size persons;\r", "labour 19.5, eps 0.5> ")
            self.assertIn("number 0, 0.5 taken, 19.5 left\n", said)
            typed.after("size (filter (fn (p : row persons) =>\r", "\n...> ")
            typed.after("  p.age <= 30) persons)\r", "\n...> ")
            self.assertIn("number 1", typed.after("\r", "labour 19, eps 0.5> "))
            typed.after("\\p areas north\r", "labour areas.north 19, eps 0.5> ")
            typed.after("\\p areas\r", "labour areas.* 19, eps 0.5> ")
            typed.after("\\o health\r", "health 20, eps 0.5> ")
            said = typed.after("size stay;\r", "health 20, eps 0.5> ")
            self.assertIn("    size stay\n         ^^^^\n", said)
            self.assertEqual(typed.ended("\x04"), ("\n", 0))

    def test_keys(self):
        """Completion, history, Ctrl-C and Ctrl-D."""
        with self.typed() as typed:
            typed.prompted()
            typed.after("\\e 0.1\r", "eps 0.1> ")
            self.assertIn("size persons;", typed.after("size per\t;\r", "19.9, eps 0.1> "))
            self.assertIn("p.income) ", typed.after("size (map (fn (p : row persons) => p.inc\t) pers\t)\r", "...> "))
            typed.after(";\r", "19.8, eps 0.1> ")
            # One statement is one line of the history.
            typed.after("\x1b[A", "p.income) persons);")
            typed.after("\r", "19.7, eps 0.1> ")
            typed.after("\x1b[A\x1b[A", "size persons;")
            # A signal that comes while readline draws waits for the next key.
            time.sleep(0.3)
            typed.after("\x03", "\nlabour 19.7, eps 0.1> ")
            typed.after("size (\r", "...> ")
            time.sleep(0.3)
            typed.after("\x03", "\nlabour 19.7, eps 0.1> ")
            self.assertIn("\\p areas north", typed.after("\\p ar\t no\t\r", "areas.north 19.7, eps 0.1> "))
            typed.after("size (\r", "...> ")
            self.assertEqual(typed.ended("\x04")[1], 0)
            self.assertEqual(text_of(f"{typed.room.name}/history").splitlines()[:2], ["\\e 0.1", "size persons;"])
            self.assertEqual(os.stat(f"{typed.room.name}/history").st_mode & 0o777, 0o600)

    def test_history_comes_again(self):
        with tempfile.TemporaryDirectory() as room:
            history = f"{room}/history"
            with self.typed(HITCHSEASON_HISTORY=history) as typed:
                typed.prompted()
                typed.after("\\f size persons\r", "> ")
                typed.ended("\\q\r")
            with self.typed(HITCHSEASON_HISTORY=history) as typed:
                typed.prompted()
                self.assertIn("and \\f says then", typed.after("\x1b[A\x1b[A\r", "labour 20> "))
            with open(history, "wb") as file:
                file.write(b"\xff\xfe\0\n" * 10)
            for name in (history, room, f"{room}/no/history", ""):
                with self.typed(HITCHSEASON_HISTORY=name) as typed:
                    typed.prompted()
                    self.assertEqual(typed.ended("\\q\r")[1], 0)

    def test_not_run(self):
        """Where the program can't be run that is said once, and `?` stands for what is left."""
        with self.typed(program="/nowhere/hitchseason") as typed:
            self.assertIn("can't be run", typed.after("", "\nlabour ?> "))
            self.assertEqual(typed.after("\\d areas\r", "?> ").count("can't be run"), 0)
            typed.after("\\e 1\r", "eps 1> ")
            self.assertIn("can't be run", typed.after("size persons;\r", "eps 1> "))
            self.assertEqual(typed.ended("\\q\r")[1], 0)

    def test_narrow(self):
        wrong = f"size (filter (fn (p : row persons) => {'if p.age <= 30 then true else ' * 3}p.agee <= 30) persons)"
        with self.typed(columns=40) as typed:
            typed.prompted()
            said = typed.after("\\e 0.5\r", "> ") + typed.after("size persons;\r", "left\n") + typed.after("\\d persons\r\\h\r", "is typed\n")
            said += typed.after("\\p areas north\r", "north 19.5, eps 0.5\n> ")
            for line in (said + typed.seen).split("\n"):
                self.assertLessEqual(len(line.replace("\b", "")), 42, line)
            self.assertIn("\nlabour areas.north 19.5, eps 0.5\n> ", said)
            marked, mark = re.search(r"\n(.*)\n( *\^+)\n", typed.after(f"{wrong};\r", "^^^^^^\n")).groups()
            self.assertLessEqual(max(len(marked), len(mark)), 40)
            self.assertEqual(marked[mark.index("^") : mark.rindex("^") + 1], "p.agee")

    def test_without_readline(self):
        with tempfile.TemporaryDirectory() as room:
            with open(f"{room}/readline.py", "w") as file:
                file.write("raise ImportError('none')\n")
            with self.typed(PYTHONPATH=room) as typed:
                typed.after("", "labour 20> ")
                typed.after("\\e 0.5\r", "labour 20, eps 0.5> ")
                typed.after("size\r", "...> ")
                typed.after("persons;\r", "labour 19.5, eps 0.5> ")
                time.sleep(0.3)
                typed.after("size\x03", "\nlabour 19.5, eps 0.5> ")
                self.assertEqual(typed.ended("\x04"), ("\n", 0))

    def test_pasted(self):
        """Lines that come at once, as a terminal's own paste."""
        with self.typed(TERM="xterm") as typed:
            typed.prompted()
            typed.after("\\e 0.1\r", "0.1> ")
            pasted = "\x1b[200~size persons;\nsize (filter (fn (p : row persons) =>\n  p.age <= 30) persons)\n\nsize persons\x1b[201~"
            said = typed.after(pasted, "size persons") + typed.after("\r", "...> ")
            self.assertIn("number 1, 0.1 taken", said)
            typed.after(";\r", "19.7, eps 0.1> ")

    def slow(self):
        """A program that has asked when there is a file `asked`, and says its replies when there is a file `go`."""
        asks = 'cat >script; REAL "$@" <script >replies; if grep -q "^ask" script; then touch asked; '
        return self.place.wrapped(asks + 'for _ in $(seq 300); do [ -e go ] && break; sleep 0.1; done; fi; cat replies\n')

    def asking(self, typed, line):
        """Types a line, and waits until it is asked."""
        os.write(typed.terminal, line.encode())
        until(lambda: os.path.exists(f"{self.place.folder}/asked"))

    def go(self):
        with open(f"{self.place.folder}/go", "w"):
            pass

    def test_interrupted(self):
        """The first Ctrl-C waits for the answer, and gives up what is typed after it."""
        with self.typed(program=self.slow()) as typed:
            typed.prompted()
            typed.prompted("\\e 0.1\r")
            self.asking(typed, "size persons; size persons; size persons;\r")
            typed.after("\x03", "its answer is waited for")
            self.go()
            said = typed.after("", "19.9, eps 0.1> ")
            self.assertIn("number 0, 0.1 taken, 19.9 left", said)
            self.assertEqual(self.place.client().left().records, 2)
            typed.after("\\r 0\r", "number 0, recalled")

    def test_interrupted_twice(self):
        """The second cuts the run, and what came of it is recalled."""
        with self.typed(program=self.slow()) as typed:
            typed.prompted()
            typed.prompted("\\e 0.1\r")
            self.asking(typed, "size persons;\r")
            typed.after("\x03", "waited for")
            said = typed.after("\x03", "\nlabour 19.9, eps 0.1> ")
            self.assertIn("number 0, recalled, 19.9 left", said)
            self.go()
            self.assertIn("number 1, 0.1 taken, 19.8 left", typed.after("size persons;\r", "19.8, eps 0.1> "))

    def test_interrupted_search(self):
        """Of a search no further step is asked."""
        with self.typed(program=self.slow()) as typed:
            typed.prompted()
            self.asking(typed, "\\a median persons income 0 5000 charge=0.8\r")
            typed.after("\x03", "waited for")
            self.go()
            said = typed.after("", "19.9> ")
            self.assertIn("number 0, 0.1 taken, 19.9 left", said)
            self.assertIn("nothing more was asked", said)

    def test_interrupted_lines(self):
        """Plain lines end by it, too, after the answer."""
        ran = started(self.place.folder, self.slow())
        ran.stdin.write(b"\\e 0.1\nsize persons;\nsize persons;\n")
        ran.stdin.flush()
        until(lambda: os.path.exists(f"{self.place.folder}/asked"))
        ran.send_signal(signal.SIGINT)
        self.assertIn(b"", ran.stderr.readline())
        self.assertIn(b"waited for", ran.stderr.readline())
        self.go()
        said, _ = ran.communicate()
        self.assertEqual((ran.returncode, said.count(b"number")), (130, 1))

    def test_waiting(self):
        """Where another's run is waited for, nothing is asked, and the first Ctrl-C ends it."""
        with self.typed() as typed, open(f"{self.place.folder}/journals.lock", "a") as lock:
            typed.prompted()
            typed.prompted("\\e 0.1\r")
            typed.after("size persons;\r", "19.9, eps 0.1> ")
            fcntl.flock(lock, fcntl.LOCK_EX)
            os.write(typed.terminal, b"size persons;\r")
            until(lambda: re.search(rf"-> FLOCK .*:{os.fstat(lock.fileno()).st_ino} ", text_of("/proc/locks")))
            typed.after("\x03", "nothing was asked")
            fcntl.flock(lock, fcntl.LOCK_UN)
            typed.after("", "19.9, eps 0.1> ")
            self.assertIn("number 1, ", typed.after("\\g\r", "19.8, eps 0.1> "))

    def test_lock_outlives(self):
        """Who is killed while it asks leaves a run that still holds the lock."""
        with self.typed(program=self.slow()) as typed:
            typed.prompted()
            typed.prompted("\\e 0.1\r")
            self.asking(typed, "size persons;\r")
            os.kill(typed.pid, signal.SIGKILL)
            with open(f"{self.place.folder}/journals.lock", "a") as lock:
                with self.assertRaises(BlockingIOError):
                    fcntl.flock(lock, fcntl.LOCK_EX | fcntl.LOCK_NB)
                self.go()
                fcntl.flock(lock, fcntl.LOCK_EX)
            self.assertEqual(self.place.client().left().records, 2)


class Candidates(unittest.TestCase):
    def test_words(self):
        with survey(capacity=100) as place:
            prompt = shells.Shell(lambda owner: place.client("mia", owner), "labour", shells.Plain())
            for before, word, found in (
                ("", "\\", [f"\\{letter}" for letter in "abdefghopqrs"]),
                ("size (filter (fn (p : row ", "", ["persons"]),
                ("size (filter (fn (p : row persons) => ", "p.", ["p.region", "p.age", "p.work", "p.income"]),
                ("size (filter (fn (p : row persons) => ", "3-p.a", ["3-p.age"]),
                ("size (filter (fn (p : row persons) => ", "q.a", ["q.age"]),
                ("", "filt", ["filter"]),
                ("let incomes = 3 in ", "inc", ["incomes"]),
                ("\\p ", "", ["areas"]),
                ("\\p areas ", "", ["north", "south", "east", "west", "capital"]),
                ("\\p areas north ", "", []),
                ("\\d ", "", ["persons", "areas"]),
                ("\\o ", "", ["labour", "health"]),
                ("\\a ", "me", ["mean", "median"]),
                ("\\a mean persons ", "in", ["income"]),
                ("\\f size (filter (fn (p : row persons) => ", "p.w", ["p.work"]),
                ("\\e ", "", []),
            ):
                self.assertEqual(candidates(prompt, before, word), found, before + word)

    def test_folded(self):
        self.assertEqual(told.folded("abc\n", 20), "abc\n")
        line, mark = "x" * 50 + "bad" + "y" * 50, " " * 50 + "^^^"
        for columns in (20, 40, 80, 103, 200):
            shown, under = told.folded(f"{line}\n{mark}", columns).split("\n")
            self.assertLessEqual(max(len(shown), len(under)), columns)
            self.assertEqual(shown[under.index("^") : under.rindex("^") + 1], "bad")


class Page(unittest.TestCase):
    """The session in docs/client.md: what is after a prompt is typed, and all else is what comes."""

    def test_session(self):
        session = re.search(r"^```session\n(.*?)^```$", text_of(PAGE), re.M | re.S)[1]
        with tempfile.TemporaryDirectory() as folder:
            with open(f"{TOP}/examples/survey/catalog.json") as file, open(f"{folder}/catalog.json", "w") as bare:
                bare.write(file.read().replace("examples/survey/", ""))
            subprocess.run(["cp", *(f"{TOP}/examples/survey/{name}" for name in ("persons.csv", "stays.csv", "key")), folder], check=True)
            subprocess.run([PROGRAM, "init", "catalog.json", "key"], cwd=folder, check=True, stdout=subprocess.DEVNULL)
            lines = re.findall(r"^(?:labour [^>]*|\.\.\.)> (.*)$", session, re.M)
            with Typed([SHELL, folder, "mia", "labour", "--program", PROGRAM], 110) as typed:
                said = typed.prompted()
                for line in lines[:-1]:
                    said += typed.prompted(f"{line}\r")
                said += typed.ended(f"{lines[-1]}\r")[0]
        self.assertEqual(said, session)


if __name__ == "__main__":
    unittest.main()
