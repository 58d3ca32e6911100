"""What a notebook shows of answers, their rows for other programs, and the package where pip installs it."""
import filecmp
import glob
import importlib.util
import os
import subprocess
import sys
import tempfile
import types
import unittest
import zipfile
from xml.etree import ElementTree

from common import PROGRAM, TOP, register, survey
from hitchseason.shows import table_html

PACKAGE = f"{TOP}/clients/python"


def cells_of(shown):
    """The texts of a table's cells, row by row."""
    table = ElementTree.fromstring(shown[shown.index("<table>") : shown.index("</table>") + len("</table>")])
    return [["".join(cell.itertext()) for cell in row] for row in table.iter("tr")]


class Shows(unittest.TestCase):
    def test_answers(self):
        with survey() as place:
            labour = place.client()
            one = labour.count("persons", eps=0.5)
            ends = [f"{one.value - off} to {one.value + off}" for off in (1, 6, 14)]
            self.assertEqual(cells_of(one._repr_html_()), [["value", "50 of 100", "95 of 100", "99.9 of 100"], [str(one.value), *ends]])
            self.assertIn("number 0, 0.5 taken", one._repr_html_())
            low, high = one.interval(95)
            row = {"value": one.value, "low_50": one.value - 1, "high_50": one.value + 1, "low_95": low, "high_95": high}
            row.update({"low_99.9": one.value - 14, "high_99.9": one.value + 14, "number": 0, "taken": 500_000})
            self.assertEqual(one.as_rows(), [row])
            mean = labour.mean("persons", "income", 0, 5000, charge=1)
            self.assertEqual(mean.as_rows()[0]["numbers"], [1, 2])
            self.assertIn("<pre>", labour.left()._repr_html_())
            self.assertIn("EPS 0.5, sensitivity 1", labour.forecast("count", "persons", eps=0.5)._repr_html_())
            self.assertIn("table persons: region text, age num", labour._repr_html_())

    def test_groups(self):
        with survey() as place:
            areas = place.client().histogram("areas", eps=0.5)
            shown = areas._repr_html_()
            self.assertTrue(shown.startswith("<svg style="))
            self.assertEqual(len(ElementTree.fromstring(areas._repr_svg_())), len(ElementTree.fromstring(shown[: shown.index("</svg>") + 6])))
            keys = ["north", "south", "east", "west", "capital"]
            self.assertEqual(cells_of(shown)[1:], [[key, str(areas[key].value), "{} to {}".format(*areas[key].interval(95))] for key in keys])
            self.assertEqual([(row["key"], row["value"]) for row in areas.as_rows()], [(key, areas[key].value) for key in keys])
            top = areas.top(2)
            self.assertEqual(cells_of(top._repr_html_())[1][0], top[0][0])
            self.assertEqual([(row["key"], row["surely"]) for row in top.as_rows()], [(key, sure) for key, _, sure in top])

    def test_crosstab(self):
        with register() as place:
            table = place.client("ann", None).crosstab("group", eps=0.5)
            shown = cells_of(table._repr_html_())
            self.assertEqual([len(row) for row in shown], [7] * 5)
            self.assertEqual(" ".join(shown[-1]).split()[0], "total")
            self.assertIn("<svg", table._repr_html_())

    def test_frames(self):
        """pandas, of which a DataFrame is made of the list of dictionaries; where it isn't there that is said."""
        with survey() as place:
            areas = place.client().histogram("areas", eps=0.5)
        kept = sys.modules.get("pandas")
        try:
            sys.modules["pandas"] = None
            with self.assertRaises(ImportError) as caught:
                areas.as_frame()
            self.assertIn("as_rows() gives the same", str(caught.exception))
            sys.modules["pandas"] = types.SimpleNamespace(DataFrame=lambda rows: ("frame", rows))
            self.assertEqual(areas.as_frame(), ("frame", areas.as_rows()))
        finally:
            sys.modules.pop("pandas")
            if kept:
                sys.modules["pandas"] = kept
        if importlib.util.find_spec("pandas"):
            self.assertEqual(areas.as_frame()["key"].tolist(), list(areas))

    def test_text(self):
        self.assertEqual(cells_of(table_html(["<b>"], [["a & b"]])), [["<b>"], ["a & b"]])


class Installed(unittest.TestCase):
    """Out of the repository and without a network."""

    def ran(self, *words, cwd):
        env = {name: said for name, said in os.environ.items() if not name.startswith("PYTHON")}
        ran = subprocess.run(words, cwd=cwd, env={**env, "PIP_NO_INDEX": "1"}, stdin=subprocess.DEVNULL, capture_output=True, text=True)
        self.assertEqual(ran.returncode, 0, ran.stdout + ran.stderr)
        return ran.stdout

    def asks(self, python, room, home):
        """A client of what is installed, in another folder than the repository."""
        with survey() as place:
            call = "import hitchseason, hitchseason.borrowed as b; print(hitchseason.__file__, b.TOP); "
            call += f"c = hitchseason.connect({place.folder!r}, 'mia', 'labour', program={PROGRAM!r}); "
            call += "print(c.count('persons', 'p.age <= 30', eps=0.5).number); print(c.crosstab.__doc__)"
            first, number, *_ = self.ran(*python, "-c", call, cwd=room).splitlines()
            self.assertEqual((number, [name.startswith(home) for name in first.split()]), ("0", [True, True]), first)
            said = self.ran(*python, "-m", "hitchseason", "left", place.folder, "labour", "--program", PROGRAM, cwd=room)
            self.assertIn("0.5 spent; 2 records", said)

    def test_wheel(self):
        """The same bytes each time, with each module of the package and of the tools."""
        with tempfile.TemporaryDirectory() as room:
            for name in ("one", "two"):
                os.mkdir(f"{room}/{name}")
                call = f"import wheels; print(wheels.build_wheel({room + '/' + name!r}), wheels.build_sdist({room + '/' + name!r}))"
                wheel, sdist = self.ran(sys.executable, "-c", call, cwd=f"{PACKAGE}/backend").split()
            for name in (wheel, sdist):
                self.assertTrue(filecmp.cmp(f"{room}/one/{name}", f"{room}/two/{name}", shallow=False))
            with zipfile.ZipFile(f"{room}/one/{wheel}") as found:
                names = set(found.namelist())
                found.extractall(f"{room}/site")
            for folder, to in ((f"{PACKAGE}/hitchseason", "hitchseason"), (f"{TOP}/tools/lib", "hitchseason/tools/lib")):
                self.assertTrue({f"{to}/{os.path.basename(name)}" for name in glob.glob(f"{folder}/*.py")} <= names)
            call = f"import sys; sys.path.insert(0, {room + '/site'!r}); import runpy; import hitchseason; print(hitchseason.__file__)"
            self.assertTrue(self.ran(sys.executable, "-I", "-c", call, cwd=room).startswith(f"{room}/site/"))

    @unittest.skipUnless(importlib.util.find_spec("ensurepip"), "this Python makes no environments with pip")
    def test_pip(self):
        with tempfile.TemporaryDirectory() as room:
            self.ran(sys.executable, "-m", "venv", f"{room}/venv", cwd=room)
            python = [f"{room}/venv/bin/python"]
            self.ran(*python, "-m", "pip", "install", "--disable-pip-version-check", "--quiet", "./clients/python", cwd=TOP)
            self.asks(python, room, os.path.realpath(room))
            self.assertIn("shell", self.ran(f"{room}/venv/bin/hitchseason-client", "--help", cwd=room))


if __name__ == "__main__":
    unittest.main()
