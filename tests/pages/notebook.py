#!/usr/bin/env python3
"""Runs the cells of examples/notebook in their order, without Jupyter, and compares what they show with what the notebook says that they show.

usage: tests/pages/notebook.py [--write | --kernel PYTHON]    (PROGRAM=FILE tries another build than tools/build's)
The cells run in one process, in a copy of the notebook's folder, as Jupyter runs them. A cell shows what it prints, and its last expression: as text, and
by `_repr_html_` and `_repr_svg_` where it has them. --write puts what they show into the notebook. --kernel has Jupyter itself run them, by the
nbconvert and ipykernel of that Python; where it has pandas, what has rows is turned into a DataFrame, too. It ends with status 1 where one differs.
"""
import ast
import io
import json
import os
import subprocess
import sys
import tempfile
from contextlib import redirect_stdout

sys.path.insert(0, f"{os.path.dirname(os.path.abspath(__file__))}/../lib")
from places import TOP  # noqa: E402

NOTEBOOK = f"{TOP}/examples/notebook/histogram.ipynb"
SHOWN = {"text/html": "_repr_html_", "image/svg+xml": "_repr_svg_"}


def lines_of(text):
    return text.splitlines(keepends=True)


def value_of(source, names):
    """Runs a cell, and gives the value of its last expression, or nothing."""
    body = ast.parse(source).body
    last = ast.Expression(body.pop().value) if body and isinstance(body[-1], ast.Expr) else None
    exec(compile(ast.Module(body, []), "cell", "exec"), names)
    return eval(compile(last, "cell", "eval"), names) if last else None


def outputs_of(number, source, names):
    """As a notebook keeps them."""
    printed = io.StringIO()
    with redirect_stdout(printed):
        value = value_of(source, names)
    found = []
    if printed.getvalue():
        found.append({"name": "stdout", "output_type": "stream", "text": lines_of(printed.getvalue())})
    if value is not None:
        data = {"text/plain": lines_of(repr(value))}
        data.update({kind: lines_of(getattr(value, call)()) for kind, call in SHOWN.items() if hasattr(value, call)})
        found.append({"data": data, "execution_count": number, "metadata": {}, "output_type": "execute_result"})
    return found


def by_kernel(python, notebook):
    """The outputs of each cell with code, by Jupyter's own kernel, in the folder where this process is."""
    with open("run.ipynb", "w", encoding="utf-8") as file:
        json.dump(notebook, file)
    words = [python, "-m", "nbconvert", "--to", "notebook", "--execute", "--stdout", "run.ipynb"]
    done = json.loads(subprocess.run(words, check=True, stdout=subprocess.PIPE, stderr=subprocess.DEVNULL).stdout)
    found = [cell["outputs"] for cell in done["cells"] if cell["cell_type"] == "code"]
    for outputs in found:
        for one in outputs:
            # nbformat keeps each kind of output as it came or by lines.
            for of in (one, one.get("data", {})):
                of.update({kind: lines_of(text) for kind, text in of.items() if kind in ("text", "text/plain", *SHOWN) and isinstance(text, str)})
    return found


def unfolded(outputs):
    """The same, but each value's plain text on one line, since a kernel folds a long one."""
    texts = [one.get("data", {}).get("text/plain", []) for one in outputs]
    return [{**one, "data": {**one.get("data", {}), "text/plain": " ".join("".join(text).split())}} for one, text in zip(outputs, texts)]


FRAMES = """
import pandas
frames = {name: (shown.as_rows(), shown.as_frame()) for name, shown in list(vars().items()) if hasattr(shown, "as_frame")}
for name, (rows, frame) in frames.items():
    if not isinstance(frame, pandas.DataFrame) or frame.to_dict("records") != rows:
        print(f"{name}: the DataFrame has other rows")
print(len(frames), "DataFrames")
"""


def frames(python, cells):
    """Whether what the cells' names show makes DataFrames of the same rows, by a Python that has pandas."""
    if subprocess.run([python, "-c", "import pandas"], stderr=subprocess.DEVNULL).returncode:
        print("no pandas there: no DataFrame was tried")
        return 0
    source = "\n".join("".join(cell["source"]) for cell in cells) + FRAMES
    said = subprocess.run([python, "-c", source], check=True, stdout=subprocess.PIPE, text=True).stdout.splitlines()
    print(said[-1])
    wrong = [line for line in said if line.endswith("has other rows")]
    print(*wrong, sep="\n", end="\n" if wrong else "")
    return len(wrong) + (said[-1] == "0 DataFrames")


def run(notebook, python):
    """The cells with code, the outputs of each, and how many DataFrames are wrong. The notebook's folder is made anew; the program is the one that is
    tried."""
    names, found, wrong = {}, [], 0
    with tempfile.TemporaryDirectory() as room:
        os.makedirs(f"{room}/examples/notebook")
        for folder in ("clients", "tools", "examples/survey"):
            os.symlink(f"{TOP}/{folder}", f"{room}/{folder}")
        os.makedirs(f"{room}/out")
        os.symlink(os.path.abspath(os.environ["PROGRAM"]), f"{room}/out/hitchseason")
        os.chdir(f"{room}/examples/notebook")
        cells = [cell for cell in notebook["cells"] if cell["cell_type"] == "code"]
        if python:
            found = by_kernel(python, notebook)
            wrong = frames(python, cells)
        else:
            for number, cell in enumerate(cells, 1):
                found.append(outputs_of(number, "".join(cell["source"]), names))
        os.chdir(TOP)
    return cells, found, wrong


def main():
    if "PROGRAM" not in os.environ:
        subprocess.run([f"{TOP}/tools/build"], check=True)
        os.environ["PROGRAM"] = f"{TOP}/out/hitchseason"
    with open(NOTEBOOK, encoding="utf-8") as file:
        notebook = json.load(file)
    python = sys.argv[2] if sys.argv[1:2] == ["--kernel"] else ""
    cells, found, differences = run(notebook, python)
    for number, (cell, outputs) in enumerate(zip(cells, found), 1):
        if (unfolded(cell["outputs"]) != unfolded(outputs)) if python else (cell["outputs"] != outputs):
            differences += 1
            print(f"cell {number} shows\n{json.dumps(outputs, indent=1)}\nand not\n{json.dumps(cell['outputs'], indent=1)}"[:2000])
        cell["outputs"], cell["execution_count"] = outputs, number
    if sys.argv[1:] == ["--write"]:
        with open(NOTEBOOK, "w", encoding="utf-8") as file:
            file.write(json.dumps(notebook, indent=1, ensure_ascii=False) + "\n")
        return 0
    print(f"{len(cells)} cells of the notebook, {differences} differences")
    return 1 if differences else 0


sys.exit(main())
