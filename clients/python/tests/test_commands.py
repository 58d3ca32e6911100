"""The commands of `tools/`, and the pictures."""
import csv
import io
import json
import os
import subprocess
import unittest
from collections import Counter
from math import exp
from xml.etree import ElementTree

from common import PROGRAM, TOP, Place, published, rows_of, survey
from hitchseason import Refused, connect, grids, pictures
from hitchseason.answers import short
from hitchseason.signs import never_negative

YOUNG = "size (filter (fn (p : row persons) =>\n  p.age <= 30) persons)\n"
REGISTER = f"{TOP}/examples/register"
SVG = "{http://www.w3.org/2000/svg}"


def tool(name, *words, given=""):
    return subprocess.run([f"{TOP}/tools/{name}", *words], input=given, capture_output=True, text=True, env={**os.environ, "PROGRAM": PROGRAM})


class Commands(unittest.TestCase):
    @classmethod
    def setUpClass(cls):
        cls.place = survey(budget=20_000_000, capacity=1000)
        cls.folder = cls.place.folder
        cls.file = f"{cls.folder}/young"
        with open(cls.file, "w") as file:
            file.write(YOUNG)
        cls.empty = f"{cls.folder}/empty"
        with open(cls.empty, "w") as file:
            json.dump({"partition": "areas", "groups": {}}, file)

    @classmethod
    def tearDownClass(cls):
        cls.place.__exit__()

    def said(self, name, *words, given=""):
        ran = tool(name, *words, given=given)
        self.assertEqual((ran.returncode, ran.stderr), (0, ""))
        return ran.stdout

    def test_askparts(self):
        keys = ["north", "south", "east", "west", "capital"]
        text = self.said("askparts", self.folder, "mia", "labour", "areas", "0.5", self.file).splitlines()
        self.assertEqual([line.split()[0] for line in text[:-1]], keys)
        for line in text[:-1]:
            _, value, low, to, high = line.split()
            self.assertEqual((int(low), to, int(high)), (int(value) - 6, "to", int(value) + 6))
        self.assertIn("taken 0.5", text[-1])
        rows = list(csv.DictReader(io.StringIO(self.said("askparts", self.folder, "mia", "labour", "areas", "0.5", self.file, "--csv"))))
        self.assertEqual([row["key"] for row in rows], keys)
        self.assertTrue(all(int(row["high_50"]) - int(row["value"]) == 1 for row in rows))
        found = json.loads(self.said("askparts", "--json", self.folder, "mia", "labour", "areas", "0.5", self.file))
        self.assertEqual(list(found["groups"]), keys)
        self.assertEqual(found["taken"], 500_000)
        few = self.said("askparts", self.folder, "mia", "labour", "areas", "0.5", "-", "west", "north", "west", given=YOUNG)
        self.assertEqual([line.split()[0] for line in few.splitlines()[:-1]], ["west", "north"])

    def test_left_and_forecast(self):
        left = json.loads(self.said("left", self.folder, "health", "--json"))
        self.assertEqual((left["owner"], left["spent"], left["budget"], left["records"]), ("health", 0, 20_000_000, 0))
        self.assertEqual(self.said("left", self.folder, "health"), "health: 20 left of 20, 0 spent; 0 records\n")
        one = json.loads(self.said("forecast", self.folder, "labour", "0.5", self.file, "--json"))
        self.assertEqual((one["charge"], one["at_most"], one["kinds"][0]["margins"]), (500_000, False, {"50": 1, "95": 6, "99.9": 14}))
        each = json.loads(self.said("forecast", "--json", self.folder, "labour", "0.5", self.file, "areas"))
        self.assertEqual((each["charge"], each["at_most"], each["kinds"][0]["asks"]), (500_000, True, 5))
        sent = self.said("forecast", self.folder, "labour", "0.5", self.file, "--sent")
        self.assertIn("fn (p : text * num * text * num) =>\n  let (_, p) = p in let (age, p) = p in age <= 30", sent)

    def test_refusals(self):
        for words, status, said in (
            (["askparts", self.folder, "mia", "labour", "area", "0.5", self.file], 1, "is `areas` meant?"),
            (["askparts", self.folder, "mia", "labour", "areas", "1e3", self.file], 1, "EPS"),
            (["askparts", self.folder, "mia", "labour", "areas", "0.5", "/nowhere"], 1, "/nowhere"),
            (["left", "/nowhere", "labour"], 1, "no folder"),
            (["left", self.folder], 2, "usage"),
            (["forecast", "ssh://there", "labour", "1", self.file], 1, "--public FILE"),
            (["plot", "histogram", self.file], 1, "tools/plot"),
            (["plot", "histogram", self.empty], 1, "no answer"),
        ):
            ran = tool(*words)
            self.assertEqual(ran.returncode, status, ran.stderr)
            self.assertIn(said, ran.stderr)
            self.assertNotIn("Traceback", ran.stderr)
        ran = tool("askparts", self.folder, "mia", "labour", "areas", "0.5", "-", given="size (filter (fn (p : row persons) => p.agee <= 30) persons)")
        self.assertIn("is `age` meant?\nline 1:\n", ran.stderr)
        self.assertIn("^^^^^^", ran.stderr)

    def spent(self):
        return json.loads(self.said("left", self.folder, "labour", "--json"))["spent"]

    def test_levels(self):
        """A level that is none is refused before anything is asked."""
        before = self.spent()
        for level in ("100", "foo", "0", "nan", "-1", "1e9999999"):
            ran = tool("askparts", self.folder, "mia", "labour", "areas", "0.5", self.file, "--level", level)
            self.assertEqual((ran.returncode, ran.stdout), (1, ""))
            self.assertRegex(ran.stderr, "^tools/askparts: a level is over 0 and at most 99.999")
        self.assertEqual(self.spent(), before)

    def in_shell(self, line):
        """What a line of a shell comes to, by Python as it buffers by itself."""
        environment = {name: value for name, value in os.environ.items() if name != "PYTHONUNBUFFERED"}
        words = {"folder": self.folder, "file": self.file, "empty": self.empty, "tools": f"{TOP}/tools"}
        return subprocess.run(["bash", "-c", line.format(**words)], capture_output=True, text=True, env={**environment, "PROGRAM": PROGRAM})

    def test_no_output(self):
        """Where standard output is closed nothing is asked; where it fails that is said, and what is paid."""
        before, asks = self.spent(), "{tools}/askparts {folder} mia labour areas 0.5 {file}"
        for line, said in (
            (f"{asks} >&-", "tools/askparts: standard output is closed\n"),
            ("{tools}/left {folder} labour >&-", "tools/left: standard output is closed\n"),
            ("{tools}/left /nowhere labour >&-", "tools/left: standard output is closed\n"),
            ("{tools}/left {folder} labour >/dev/full", "tools/left: [Errno 28] No space left on device\n"),
            ("{tools}/forecast {folder} labour 0.5 {file} >/dev/full", "tools/forecast: [Errno 28] No space left on device\n"),
            ("{tools}/forecast {folder} labour x {file} >/dev/full", "tools/forecast: `x` is no number"),
            ("{tools}/plot histogram <&-", "tools/plot: standard input is closed\n"),
            ("{tools}/plot histogram {empty} >/dev/full 2>/dev/full", ""),
        ):
            ran = self.in_shell(line)
            self.assertEqual((ran.returncode, ran.stdout), (1, ""), line)
            self.assertTrue(ran.stderr.startswith(said), (line, ran.stderr))
            self.assertLessEqual(ran.stderr.count("\n"), 1)
        self.assertEqual(self.spent(), before)
        ran = self.in_shell(f"{asks} >/dev/full")
        said = r"tools/askparts: what it says can't be written: No space left on device; what was answered is paid, and tools/shell tells it again \(\\r N\): "
        self.assertRegex(ran.stderr, f"^{said}numbers [0-9]+ to [0-9]+\n$")
        self.assertEqual((ran.returncode, self.spent()), (1, before + 500_000))

    def test_no_text(self):
        """A program that isn't UTF-8, and a public file that is nested too deep, are told by their names."""
        name = f"{self.folder}/latin"
        with open(name, "wb") as file:
            file.write(b'size persons + "\xe9"')
        with open(name, "rb") as given:
            for words in (name, "-"):
                command = [f"{TOP}/tools/forecast", self.folder, "labour", "0.5", words]
                ran = subprocess.run(command, stdin=given, capture_output=True, text=True, env={**os.environ, "PYTHONUTF8": "1"})
                said = f"tools/forecast: {'standard input' if words == '-' else name} is no UTF-8, from byte 16 on\n"
                self.assertEqual((ran.returncode, ran.stderr), (1, said))
        with open(name, "w") as file:
            file.write(10**5 * "[")
        ran = tool("left", self.folder, "labour", "--public", name)
        self.assertEqual((ran.returncode, ran.stderr), (1, f"tools/left: {name} isn't what tools/public --json writes\n"))

    def test_some_answered(self):
        """What was answered before a refusal is told."""
        with survey(budget=20_000_000, capacity=6) as place:
            ran = tool("askparts", place.folder, "mia", "labour", "areas", "0.5", self.file)
            self.assertEqual(ran.returncode, 1)
            self.assertIn("no 41", ran.stderr)
            self.assertEqual([line.split()[0] for line in ran.stdout.splitlines()[:-1]], ["north", "south", "east"])

    def test_journals_of_a_copy(self):
        """tools/journal.py reads a folder with `journals` in it, and what tools/snapshot makes of it; elsewhere there is none."""
        with survey(budget=20_000_000, capacity=6) as place:
            place.client().count("persons", eps="0.5")
            tools, run = f"{TOP}/tools", lambda *words: subprocess.run(words, cwd=place.folder, capture_output=True, text=True)
            self.assertEqual(run(f"{tools}/snapshot", "copy").returncode, 0)
            for words in ([], ["--areas"]):
                own, here, copy = (run(f"{tools}/journal.py", *words, "catalog.json", "key", *folder) for folder in ([], ["."], ["copy"]))
                self.assertEqual((own.returncode, own.stdout, own.stdout), (0, here.stdout, copy.stdout))
                self.assertIn("2 records of 6" if words else "labour reservations 1 answered 1", own.stdout)
            os.mkdir(f"{place.folder}/empty")
            ran = run(f"{tools}/journal.py", "catalog.json", "key", "empty")
            self.assertEqual((ran.returncode, ran.stdout), (1, "journal labour uninitialised 0\njournal health uninitialised 0\n"))

    def test_two_disks(self):
        """Where the folder has `mirrors`, what is asked is recorded there, too."""
        with survey(budget=20_000_000, capacity=6) as place:
            place.client().count("persons", eps="0.5")
            self.assertEqual(subprocess.run([f"{TOP}/tools/mirror", place.folder], capture_output=True).returncode, 0)
            place.client().count("persons", eps="0.5")
            ran = subprocess.run(["diff", "-r", "journals", "mirrors"], cwd=place.folder, capture_output=True)
            self.assertEqual((ran.returncode, ran.stdout), (0, b""))
            ran = subprocess.run([f"{TOP}/tools/journal.py", "catalog.json", "key"], cwd=place.folder, capture_output=True, text=True)
            self.assertIn("labour reservations 2 answered 2", ran.stdout)

    def test_plot(self):
        asked = self.said("askparts", self.folder, "mia", "labour", "areas", "0.5", self.file, "--json")
        drawn = ElementTree.fromstring(self.said("plot", "histogram", given=asked).encode())
        self.assertEqual(len(drawn.findall(f"{SVG}rect")), 1 + 5)
        text = self.said("plot", "histogram", "--text", "--level", "99.9", given=asked).splitlines()
        self.assertEqual([line.split()[0] for line in text[1:-1]], ["north", "south", "east", "west", "capital"])
        self.assertTrue(all("├" in line and "┤" in line for line in text[1:-1]))
        self.assertTrue(text[-1].startswith("EPS 0.5; "), text[-1])
        foot = "Noisy answers at EPS 0.5. Error bars: each holds the exact value in at least 95 of 100 answers"
        self.assertEqual(drawn.findall(f"{SVG}text")[-1].text, foot)
        lefts = "".join(self.said("left", self.folder, "labour", "--json") for _ in range(3))
        drawn = ElementTree.fromstring(self.said("plot", "budget", given=lefts).encode())
        self.assertEqual(len(drawn.findall(f"{SVG}path")), 3)
        self.assertEqual(len(self.said("plot", "budget", "--text", given=lefts).splitlines()), 5)


def within(eps, count, margin):
    """How likely the sum of so many noises is off by at most so much, each noise being K with P(K = k) = (1 - q)/(1 + q) q^|k| for q = exp(-EPS): one sum
    after the other, up to 100 to both sides, where 10^-20 is left."""
    q, most = exp(-eps), 100
    one = {k: (1 - q) / (1 + q) * q ** abs(k) for k in range(-most, most + 1)}
    found = {0: 1.0}
    for _ in range(count):
        more = dict.fromkeys(range(-most, most + 1), 0.0)
        for have, share in found.items():
            for k, other in one.items():
                if -most <= have + k <= most:
                    more[have + k] += share * other
        found = more
    return sum(found[k] for k in range(-margin, margin + 1))


def has_grant():
    """Whether the program has the command: then it wants a catalog."""
    said = subprocess.run([PROGRAM, "grant", "no catalog", "no key", "labour", "1"], stdin=subprocess.DEVNULL, capture_output=True, timeout=60)
    return said.returncode == 3


@unittest.skipUnless(has_grant(), "the program has no grant")
class Grants(unittest.TestCase):
    """An owner grants more of the budget, whose record stands among those of answers."""

    def test_granted(self):
        with survey(budget=1_000_000, capacity=300) as place:
            run = lambda *words: subprocess.run(words, cwd=place.folder, capture_output=True, text=True)
            grant = lambda amount: run(PROGRAM, "grant", "catalog.json", "key", "labour", str(amount)).stdout
            client = place.client()
            client.count("persons", eps=1)
            with self.assertRaises(Refused):
                client.count("persons", eps="0.5")
            self.assertEqual(client.forecast("count", "persons", eps="0.5").too_much(), ["But 0 is left: it is refused."])
            self.assertEqual(grant(500_000), "granted labour 1500000 3\n")
            left = client.left()
            self.assertEqual((left.left, left.spent, left.budget, left.records), (500_000, 1_000_000, 1_500_000, 3))
            self.assertEqual(client.forecast("count", "persons", eps="0.5").too_much(), [])
            self.assertEqual(client.count("persons", eps="0.5").number, 1)
            # Of 205 records 201 are grants: whoever comes new finds the next number, and a forecast knows the budget behind a balance.
            for turn in range(200):
                self.assertEqual(grant(1), f"granted labour {1_500_001 + turn} {6 + turn}\n")
            other = place.client("tom")
            self.assertEqual(other.count("persons", charge="0.0001").number, 2)
            self.assertEqual(other.forecast("count", "persons", eps="0.0002").too_much(), ["But 0.0001 is left: it is refused."])
            self.assertEqual(run(f"{TOP}/tools/snapshot", "copy").returncode, 0)
            watched = run(f"{TOP}/tools/watch", "catalog.json", "copy").stdout
            self.assertIn("labour: spent 1500100 of 1500200 (100.0 of 100), records 207 of 300", watched)


class Register(unittest.TestCase):
    """A cross table by a joint column, and the client beside a file that tools/public wrote."""

    def test_crosstab(self):
        with open(f"{REGISTER}/catalog.json") as file:
            catalog = json.load(file)
        rows = rows_of(f"{REGISTER}/people.csv")
        groups = Counter(row[4] for row in rows[1:])
        with Place(catalog, {"people.csv": rows}) as place:
            client = connect(place.folder, "ann", program=PROGRAM, public=published(place))
            forecast = client.forecast("crosstab", "group", eps="0.5")
            self.assertEqual((forecast.charge, forecast.left, forecast.too_much()), (500_000, None, []))
            totals = {("a row's total", 5): 13, ("a column's total", 3): 10, ("the total", 15): 21}
            self.assertEqual({(name, count): margins["95"] for name, count, margins in forecast.margins_of_sums()}, totals)
            for (_, count), margin in totals.items():
                self.assertTrue(within(0.5, count, margin - 1) < 0.95 <= within(0.5, count, margin), count)
            self.assertEqual(str(forecast).splitlines()[2], "a row's total, of 5 answers: 50 of 100 ±4, 95 of 100 ±13, 99.9 of 100 ±24")
            self.assertEqual(forecast.as_dict()["sums"][1]["margins"], {"50": 3, "95": 10, "99.9": 20})
            too_much = ["But the budget is 1, unless the owner has granted more: it may be refused."]
            self.assertEqual(client.forecast("crosstab", "group", eps=2).too_much(), too_much)
            table = client.crosstab("group", eps="0.5")
            self.assertEqual([short(table.row_total("f")), short(table.column_total("from_18")), short(table.total())],
                [f"{known.value} ±{margin}" for known, margin in zip((table.row_total("f"), table.column_total("from_18"), table.total()), totals.values())])
            self.assertEqual(client.forecast("count", "people", eps="0.5").too_much(), [])
            self.assertEqual(str(client.forecast("count", "people", eps="0.6")).splitlines()[-1], "But 0.5 is left: it is refused.")
            self.assertTrue(client.forecast("histogram", "group", eps="0.6").as_dict()["too_much"])
            self.assertEqual((table.taken, table.left.left), (500_000, 500_000))
            self.assertEqual((table.rows, len(table.columns)), (["f", "m", "unknown"], 5))
            for (row, column), answer in table.cells.items():
                low, high = answer.interval("99.9")
                self.assertTrue(low <= groups[f"{row}.{column}"] <= high)
            low, high = table.row_total("f").interval("99.9")
            self.assertTrue(low <= sum(count for key, count in groups.items() if key.startswith("f.")) <= high)
            self.assertEqual(len(str(table).splitlines()), 5)
            self.of_grid(table)
            nobody = connect(place.folder, None, program=PROGRAM)
            with self.assertRaises(Refused):
                nobody.count("people", eps="0.1")


    def of_grid(self, table):
        """Three rows and five columns of cells, with totals of each: each number and margin stands there, and the greatest cell alone has the full color."""
        drawn = ElementTree.fromstring(table.svg("cells"))
        boxes, texts = drawn.findall(f"{SVG}rect")[1:], [one.text for one in drawn.findall(f"{SVG}text")]
        self.assertEqual(len(boxes), 4 * 6)
        greatest = max(table.cells, key=lambda cell: table.cells[cell].value)
        full = [one.find(f"{SVG}title").text for one in boxes if one.get("fill") == pictures.BAR]
        self.assertEqual(full, [f"{greatest[0]}, {greatest[1]}: {table.cells[greatest].value} ({' to '.join(map(str, table.cells[greatest].interval(95)))})"])
        for answer in (*table.cells.values(), table.row_total("f"), table.total()):
            self.assertIn(pictures.told(answer.value), texts)
        self.assertTrue({"f", "m", "unknown", "under_18", "from_65", "total", "±6", "±13", "±10", "±21"} <= set(texts))
        rows = table.as_rows()
        self.assertEqual((len(rows), rows[0]["row"], rows[0]["column"]), (15, *next(iter(table.cells))))


class Pictures(unittest.TestCase):
    """Odd numbers are drawn too: within the picture, and as XML."""

    def test_histograms(self):
        for bars in (
            [("a", 0, -6, 6)],
            [("a", -3, -9, 3), ("<b> & \"c\"", 10**9, 10**9 - 6, 10**9 + 6)],
            [(f"a long key of group {number}", number, number - 3, number + 3) for number in range(250)],
        ):
            drawn = ElementTree.fromstring(pictures.histogram_svg(bars, "of <these>").encode())
            height = float(drawn.get("height"))
            for one in drawn.iter(f"{SVG}rect"):
                self.assertTrue(0 <= float(one.get("y", 0)) and float(one.get("y", 0)) + float(one.get("height")) <= height)
            for one in drawn.iter(f"{SVG}line"):
                self.assertTrue(all(0 <= float(one.get(end)) <= height for end in ("y1", "y2")), bars[:2])
            lines = pictures.histogram_text(bars, "of these", columns=80).splitlines()
            self.assertTrue(all(len(line) <= 80 for line in lines[1:-1]))

    def test_ends(self):
        """Worked by hand: ticks are at -50, 0, 50 and 100, which is 300 px, from 52 down to 352."""
        drawn = ElementTree.fromstring(pictures.histogram_svg([("a", 50, -50, 100), ("b", -20, -40, -1)], "ends"))
        texts = [one.text for one in drawn.findall(f"{SVG}text")]
        self.assertEqual(texts[1:5], ["\u221250", "0", "50", "100"])
        bars = [(float(one.get("y")), float(one.get("height"))) for one in drawn.findall(f"{SVG}rect")[1:]]
        self.assertEqual(bars, [(152, 100), (252, 40)])
        ends = [(float(one.get("y1")), float(one.get("y2"))) for one in drawn.findall(f"{SVG}line") if one.get("x1") == one.get("x2")]
        self.assertEqual(ends, [(352, 52), (332, 254)])

    def test_below_by_noise(self):
        """Worked by hand: `b` may be 0, so ticks are at 0, 20 .. 100, which is 300 px; the first line is the axis, and of four ends
        two are below, which have no foot."""
        svg = pictures.histogram_svg([("a", 50, -50, 100), ("b", -20, -40, 0)], "ends")
        drawn = ElementTree.fromstring(svg)
        self.assertEqual([one.text for one in drawn.findall(f"{SVG}text")][1:7], ["0", "20", "40", "60", "80", "100"])
        self.assertEqual([(float(one.get("y")), float(one.get("height"))) for one in drawn.findall(f"{SVG}rect")[1:]], [(202, 150), (352, 0)])
        errors = [one for one in drawn.findall(f"{SVG}line") if one.get("stroke") == pictures.ERROR][1:]
        self.assertEqual([(float(one.get("y1")), float(one.get("y2"))) for one in errors], [(352, 52), (52, 52), (352, 352), (352, 352)])
        self.assertIn(pictures.FOOTLESS, svg)
        self.assertNotIn(pictures.FOOTLESS, pictures.histogram_svg([("a", 50, 0, 100)], "ends"))

    def test_least(self):
        """A count is never below 0; a sum of what may be is, where its interval at 99.9 of 100 says so."""
        def groups(*answers):
            return {"groups": {str(number): answer for number, answer in enumerate(answers)}}

        def answer(value, sent):
            return {"value": value, "intervals": {percent: [value - off, value + off] for percent, off in (("50", 1), ("95", 6), ("99.9", 14))}, "sent": sent}

        for answers, least in (
            ([answer(-20, "size people")], 0),
            ([answer(-20, "sum[-5,5] people")], -26),
            ([answer(-14, "sum[-5,5] people"), answer(30, "size people")], 0),
            ([answer(-20, "sum[0,5] people"), answer(-15, "-1 * size people")], -21),
        ):
            self.assertEqual(pictures.least_of(groups(*answers)), least)

    def test_signs(self):
        for program, said in (
            ("size people", True), ("(2 * (size people + 3))", True), ("let n = size people in n + n", True), ("sum[0,9] people", True),
            ("if 1 <= 2 then size people else 0", True), ("clip[0,9] (size people - 5)", True), ("let (a, b) = (1, 2) in size people", True),
            ("size people - 1", False), ("sum[-1,9] people", False), ("-1 * size people", False), ("let n = 0 - 1 in n", False), ("-3", False),
            ("let n = 3 in let (n, m) = (0 - 1, 2) in n", False), ("least <1, 2>", False), ("size (", False), (None, False),
        ):  # fmt: skip
            self.assertEqual(never_negative(program), said, program)

    def test_any_text(self):
        """A title in several lines, texts that XML can't have, long keys by both their ends, all in ASCII."""
        keys = ["東京" * 10, f"{'a' * 30}1{'b' * 32}1", f"{'a' * 30}1{'b' * 32}2", "\uffff", "<&>"]
        svg = pictures.histogram_svg([(key, 1, 0, 2) for key in keys], "one\x01 " + "word " * 40)
        self.assertTrue(svg.isascii())
        texts = [one.text for one in ElementTree.fromstring(svg).findall(f"{SVG}text")]
        self.assertTrue(texts[0].startswith("one\ufffd word"))
        self.assertEqual(sum(text.count("word") for text in texts), 40)
        for text in ("\ufffd", "<&>"):
            self.assertIn(text, texts)
        self.assertEqual([text[-1] for text in texts if "…" in text and text.startswith("aaa")], ["1", "2"])

    def test_text(self):
        """Worked by hand: a sign of Japanese takes two cells; 41 cells from -20 to 20, of which the 21st is 0; and 41 from 0 to 20 for what may be 0."""
        lines = pictures.histogram_text([("ab", 1, 0, 2), ("東京", 1, 0, 2)], "two", columns=40).splitlines()
        bar = f"├{'─' * 14}┼{'─' * 14}┤"
        self.assertEqual(lines[1:3], [f"ab    1  {bar}", f"東京  1  {bar}"])
        lines = pictures.histogram_text([("a", -15, -20, -10), ("b", 10, 5, 20)], "below", columns=49, eps="0.5").splitlines()
        self.assertEqual(lines[1], f"a  -15  ├────┼────┤{'█' * 9}│")
        self.assertEqual(lines[2], f"b   10  {' ' * 20}│████├────┼{'─' * 9}┤")
        self.assertEqual(lines[3], "EPS 0.5; │ is 0; each ├─┤ holds the exact value in at least 95 of 100 answers")
        lines = pictures.histogram_text([("a", -5, -20, 10), ("b", 10, 5, 20)], "noise", columns=48, eps="0.5").splitlines()
        self.assertEqual(lines[1], f"a  -5  {'─' * 20}┤")
        self.assertEqual(lines[2], f"b  10  {'█' * 10}├{'─' * 9}┼{'─' * 19}┤")
        self.assertEqual(lines[3], "EPS 0.5; each ├─┤ holds the exact value in at least 95 of 100 answers; one without ├ goes on to the left")

    def test_steps(self):
        """Worked by hand: ticks to 20, which are 260 px, from 52 down to 312, and 640 px across from 64. The budget is stepped too."""
        drawn = ElementTree.fromstring(pictures.budget_svg([(None, 0, 10**7), (None, 10**7, 10**7), (None, 0, 2 * 10**7)], "steps"))
        area, spent, budget = [one.get("d") for one in drawn.findall(f"{SVG}path")]
        self.assertEqual(spent, "M64.0,312.0H384.0V182.0H704.0V312.0H704.0")
        self.assertEqual(area, f"{spent}V312.0H64.0Z")
        self.assertEqual(budget, "M64.0,182.0H384.0V182.0H704.0V52.0H704.0")
        self.assertEqual(pictures.told_units(1234567890123456789), "1\u2009234\u2009567\u2009890\u2009123.456789")

    def test_budgets(self):
        for points in ([(None, 0, 10**6)], [("2026-01-01T00:00:00Z", 5, 10), ("2026-01-03T00:00:00Z", 10, 10)], [(None, number, 20) for number in range(9)]):
            ElementTree.fromstring(pictures.budget_svg(points, "a budget").encode())
            self.assertEqual(len(pictures.budget_text(points, "a budget").splitlines()), len(points) + 2)

    def test_grids(self):
        """Worked by hand: half of the greatest is half of the way from white to the bars' color; below 0 is white."""
        cells = {("a", "x"): (100, 90, 110), ("a", "y"): (50, 40, 60), ("b", "x"): (-5, -15, 5)}
        drawn = ElementTree.fromstring(grids.grid_svg(grids.Table(cells), "of <these>"))
        self.assertEqual([one.get("fill") for one in drawn.findall(f"{SVG}rect")[1:]], ["#4c78a8", "#a6bcd4", "#ffffff"])
        self.assertEqual([one.text for one in drawn.findall(f"{SVG}text")][1:-1], ["x", "y", "a", "100", "±10", "50", "±10", "b", "\u22125", "±10"])
        many = {(f"row number {row}", f"column {column}"): (row * column, 0, 9) for row in range(30) for column in range(60)}
        self.assertEqual(len(ElementTree.fromstring(grids.grid_svg(grids.Table(many), "many")).findall(f"{SVG}rect")), 1801)
        for said in ('{"groups": {}}', '{"groups": {"north": {"value": 1, "intervals": {"95": [0, 2]}}}}'):
            with self.assertRaises(ValueError):
                grids.table_of(json.loads(said))

    def test_scales(self):
        for low, high in ((0, 1), (0, 7), (-3, 5), (0, 999), (-10**9, 10**12), (0, 10**18)):
            first, last, ticks = pictures.scale_of([low, high])
            self.assertLessEqual(first, low)
            self.assertGreaterEqual(last, high)
            self.assertTrue(2 <= len(ticks) <= 9, ticks)


if __name__ == "__main__":
    unittest.main()
