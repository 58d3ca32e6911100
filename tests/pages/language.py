#!/usr/bin/env python3
"""Tries each program of docs/language.md, and the examples of scripts: what they say beside a second implementation, and beside the program.

usage: tests/pages/language.py [--alone]     (PROGRAM=FILE tries another build than tools/build's; --alone tries none)
The page's programs stand in tables (Program, `check`, Value; or Program, Reply) and in blocks named `program`, each with a line
behind it. It ends with status 1 where one differs, where a form of terms is in no program that has a value, or a code in none.
"""
import os
import re
import subprocess
import sys
import tempfile

sys.path.insert(0, f"{os.path.dirname(os.path.abspath(__file__))}/../lib")
from places import TOP, page  # noqa: E402

PROGRAM = os.path.abspath(os.environ.get("PROGRAM", f"{TOP}/out/hitchseason"))
from programs import RULES  # noqa: E402
from reference import house_of, transcript  # noqa: E402
from runs import Run, asked, judgement  # noqa: E402
from tables import signature  # noqa: E402

CODES = "20 21 22 30 31 32 33 34 35 36 37".split()
CATALOG, KEY = "examples/language/catalog.json", "examples/first-run/key"


def cells_of(line):
    return [cell.strip().replace("\\|", "|") for cell in re.split(r"(?<!\\)\|", line)[1:-1]]


def bare(cell):
    return cell.removeprefix("`").removesuffix("`")


def rows_of_tables(text):
    """The rows of all tables, each cell by its column's name."""
    kind = None
    for line in text.splitlines():
        if not line.startswith("|"):
            kind = None
            continue
        cells = cells_of(line)
        if kind is None:
            kind = cells
        elif not set(cells[0]) <= set("-"):
            yield dict(zip(kind, map(bare, cells)))


def in_tables(text):
    """The rows of the tables that begin with a program: program, what is said, value."""
    for row in rows_of_tables(text):
        if "Program" in row:
            yield row["Program"], row.get("`check`", row.get("Reply")), int(row["Value"]) if "Value" in row else None


def in_blocks(text):
    for program, said, value in re.findall(r"```program\n(.*?)\n```\n\n`check` says `(.*?)`(?:, and the value is (-?\d+))?\.\n", text, re.S):
        yield program, said, int(value) if value else None
    for program in re.findall(r"```program\n([^`]*)\n```\n\n`ask` is answered `no 90`, and `check` ends with the line `memory`\.\n", text):
        yield program, "no 90", None


def bytes_of(name):
    with open(f"{TOP}/{name}", "rb") as file:
        return file.read()


class Trial:
    def __init__(self):
        self.differences, self.forms, self.codes = 0, set(), set()
        self.house = house_of(bytes_of(CATALOG), bytes_of)
        self.tables, self.rows = signature(self.house.catalog["owners"][0]), self.house.rows[0]

    def differ(self, by, program, found, want):
        self.differences += 1
        print(f"{by}: {found}, and the page says {want}, of {program[:200]}")

    def judged(self, program):
        return judgement(program.encode(), self.tables)

    def by_reference(self, program, said, value):
        found = self.judged(program)
        self.codes.add(found.split()[1])
        # Of a block the code alone is said where the refusal has a span that nobody would count.
        if found != said and not (found.startswith(said + " ") and "\n" in program):
            self.differ("the second implementation", program, found, said)
        elif value is not None:
            run = Run()
            number = run.value(asked(program.encode(), self.tables)[0], self.rows)
            self.forms |= run.forms
            if number != value:
                self.differ("the second implementation", program, number, value)
        elif said.startswith("ok"):
            self.differ("the page", program, "no value", said)

    def by_program(self, program):
        with tempfile.NamedTemporaryFile() as file:
            file.write(program.encode())
            file.flush()
            ran = subprocess.run([PROGRAM, "check", CATALOG, "census", file.name], capture_output=True, cwd=TOP)
        want = {"no 90": "memory"}.get(self.judged(program), self.judged(program))
        if ran.stdout.decode().strip() != want:
            self.differ("check", program, ran.stdout.decode().strip(), want)
        script = b"hello ann\nask census 0.01 " + program.replace("\n", " ").encode() + b"\n"
        self.ask("ask", script, CATALOG, transcript(script, self.house))

    def ask(self, what, script, catalog, want):
        ran = subprocess.run([f"{TOP}/tools/afresh", catalog, KEY], input=script, capture_output=True, cwd=TOP, env={**os.environ, "PROGRAM": PROGRAM})
        if ran.stdout.decode() != want:
            self.differ(what, script.decode(), ran.stdout.decode().splitlines(), want.splitlines())

    def by_example(self, name, alone):
        """The script of an example, and the replies that stand beside it."""
        catalog = f"examples/{name}/catalog.json"
        script, replies = bytes_of(f"examples/{name}/script"), bytes_of(f"examples/{name}/replies").decode()
        found = transcript(script, house_of(bytes_of(catalog), bytes_of))
        if found != replies:
            self.differ("the second implementation", f"examples/{name}", found, replies)
        if not alone:
            self.ask("run", script, catalog, replies)


def main():
    alone = sys.argv[1:] == ["--alone"]
    if not alone and "PROGRAM" not in os.environ:
        subprocess.run([f"{TOP}/tools/build"], check=True)
    text = open(page("language.md")).read()
    found = [*in_tables(text), *in_blocks(text)]
    trial = Trial()
    for program, said, value in found:
        trial.by_reference(program, said, value)
        if not alone:
            trial.by_program(program)
    for example in ("first-run", "programs"):
        trial.by_example(example, alone)
    lacking = [form for form in RULES if form not in trial.forms] + [code for code in CODES if code not in trial.codes]
    if text.count("```program") != len(list(in_blocks(text))):
        lacking.append("what is said of a block")
    print(f"{len(found)} programs, {sum(value is not None for _, _, value in found)} with a value, {trial.differences} differences")
    print(f"{len(trial.forms)} forms of terms were evaluated, {len(trial.codes & set(CODES))} codes of {len(CODES)} came")
    if lacking:
        print("no program for", ", ".join(lacking))
    sys.exit(1 if trial.differences or lacking else 0)


if __name__ == "__main__":
    main()
