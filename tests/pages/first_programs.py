#!/usr/bin/env python3
"""Tries each program of docs/first-programs.md and examples/survey, and README's first script, beside a second implementation and the program.

usage: tests/pages/first_programs.py [--alone | --write]    (PROGRAM=FILE tries another build than tools/build's)
--alone tries no build. --write puts what the second implementation says into the page and the example, and tries nothing.
The page's programs stand in blocks named `program`, each with a line behind it, and its other asks, `left` and `recall` in tables of a line
and its reply; they are asked in one script, in the page's order. The programs of the example stand in
its table. It ends with status 1 where one differs, or where the example's tables aren't those of tools/make_survey.
"""
import os
import re
import shlex
import subprocess
import sys
import tempfile

sys.path.insert(0, f"{os.path.dirname(os.path.abspath(__file__))}/../lib")
from places import TOP, page  # noqa: E402

PROGRAM = os.path.abspath(os.environ.get("PROGRAM", f"{TOP}/out/hitchseason"))
from reference import house_of, transcript  # noqa: E402
from runs import judgement  # noqa: E402
from tables import signature  # noqa: E402

PAGE = os.path.relpath(page("first-programs.md"), TOP)
SURVEY = "examples/survey"
CATALOG, KEY = f"{SURVEY}/catalog.json", f"{SURVEY}/key"
BLOCK = re.compile(r"```program\n(.*?)\n```\n\n`check` says `(.*?)`(?:\. Asked at EPS ([0-9.]+), the reply is `(.*?)`)?\.\n", re.S)
ROW = re.compile(r"\| `(\w+)` \| ([^|]*) \| `(.*?)` \| `(\w+)` \| ([0-9.]+) \| `(.*?)` \|\n")
PART = re.compile(r"^\| `((?:ask|askpart|left|recall) .*?)` \| `(.*?)` \|$", re.M)
FIRST = re.compile(r"(< examples/survey/first\n)(.*?)(^\$ hitchseason audit )", re.M | re.S)
ASK = "tools/ask {0} {1} mia {2} {3} {4}/programs/{5}\n"


def bytes_of(name):
    with open(f"{TOP}/{name}", "rb") as file:
        return file.read()


def text_of(name):
    return bytes_of(name).decode()


class House:
    """The survey's house, and what a second implementation says of it."""

    def __init__(self):
        self.house = house_of(bytes_of(CATALOG), bytes_of)
        self.tables = {owner["name"]: signature(owner) for owner in self.house.catalog["owners"]}

    def check(self, owner, program):
        return judgement(program.encode(), self.tables[owner])

    def replies(self, script):
        return transcript(script.encode(), self.house)


def asked(owner, epsilon, program):
    return f"ask {owner} {epsilon} {' '.join(program.split(chr(10)))}\n"


def script_of(lines):
    return "hello mia\n" + "".join(lines) + "bye\n"


# The page. A program is (program, what check says, EPS or nothing, the reply or nothing).


def page_script(text):
    """What the page asks, in its order."""
    asks = [(found.start(), asked("labour", found[3], found[1])) for found in BLOCK.finditer(text) if found[3]]
    asks += [(found.start(), found[1] + "\n") for found in PART.finditer(text)]
    return script_of(line for _, line in sorted(asks))


def page_now(house, text):
    """The page as it should be."""
    replies = iter(house.replies(page_script(text)).splitlines()[1:])

    def one(found):
        part = PART.fullmatch(found[0])
        return f"| `{part[1]}` | `{next(replies)}` |" if part else block(BLOCK.fullmatch(found[0]))

    def block(found):
        program, _, epsilon, _ = found.groups()
        said = f"`check` says `{house.check('labour', program)}`"
        return f"```program\n{program}\n```\n\n{said}{f'. Asked at EPS {epsilon}, the reply is `{next(replies)}`' if epsilon else ''}.\n"

    return re.sub(f"(?:{BLOCK.pattern})|(?:{PART.pattern})", one, text, flags=re.S | re.M)


# The example. A row is (name, what it asks, what check says, owner, EPS, the reply).


def program_of(row):
    return text_of(f"{SURVEY}/programs/{row[0]}")


def survey_script(rows):
    return script_of(asked(row[3], row[4], program_of(row).rstrip("\n")) for row in rows)


def commands_of(rows):
    return [ASK.format(CATALOG, KEY, row[3], row[4], SURVEY, row[0]) for row in rows]


def survey_now(house, text):
    """The example's page, script and replies, as they should be."""
    rows = ROW.findall(text)
    script = survey_script(rows)
    replies = house.replies(script)
    said = iter(replies.splitlines()[1:])

    def line(found):
        name, asks, _, owner, epsilon, _ = found.groups()
        return f"| `{name}` | {asks} | `{house.check(owner, program_of(found.groups()))}` | `{owner}` | {epsilon} | `{next(said)}` |\n"

    text = re.sub(r"(noise:\n\n```sh\n).*?```", lambda found: found[1] + "".join(commands_of(rows)) + "```", text, flags=re.S)
    return ROW.sub(line, text), script, replies


# README shows what tools/first_run prints, the replies to the survey's first script among it.


def first_now(house, text):
    """The page as it should be."""
    return FIRST.sub(lambda found: found[1] + house.replies(text_of(f"{SURVEY}/first")) + found[3], text)


class Trial:
    def __init__(self):
        self.differences = 0

    def compare(self, what, found, want):
        if found != want:
            self.differences += 1
            print(f"{what} differs:")
            for mine, other in zip(found.splitlines() + [""] * len(want), want.splitlines()):
                if mine != other:
                    print(f"    {mine}\n        and should be\n    {other}")

    def by_program(self, words, script, what, want):
        ran = subprocess.run([PROGRAM, *words], input=script.encode(), capture_output=True, cwd=TOP)
        self.compare(what, ran.stdout.decode(), want)

    def by_run(self, script, want):
        """A script over new journals, which are in a folder of their own."""
        ran = subprocess.run([f"{TOP}/tools/afresh", CATALOG, KEY], input=script.encode(), capture_output=True, cwd=TOP, env={**os.environ, "PROGRAM": PROGRAM})
        self.compare("run", ran.stdout.decode(), want)

    def tables(self):
        with tempfile.TemporaryDirectory() as room:
            subprocess.run([f"{TOP}/tools/make_survey", room], check=True)
            for name in ("persons.csv", "stays.csv"):
                with open(f"{room}/{name}") as file:
                    self.compare(name, text_of(f"{SURVEY}/{name}"), file.read())

    def checks(self, house, found):
        with tempfile.NamedTemporaryFile() as file:
            for owner, program in found:
                file.seek(0)
                file.truncate()
                file.write(program.encode())
                file.flush()
                self.by_program(["check", CATALOG, owner, file.name], "", f"check of {program}", house.check(owner, program) + "\n")

    def picture(self, readme):
        """The picture in README is what its lines of Python draw after tools/first_run's commands."""
        block = re.search(r"python3 <<'END'\n(.*?)^END$", readme, re.M | re.S)[1]
        with tempfile.TemporaryDirectory() as room:
            os.makedirs(f"{room}/out/first_run")
            for name, at in (("clients", "clients"), ("tools", "tools"), ("examples", "out/first_run/examples")):
                os.symlink(f"{TOP}/{name}", f"{room}/{at}")
            os.symlink(os.path.abspath(PROGRAM), f"{room}/out/hitchseason")
            script = text_of(f"{SURVEY}/first").encode()
            for command in ("init", "run"):
                subprocess.run([os.path.abspath(PROGRAM), command, CATALOG, KEY], input=script, cwd=f"{room}/out/first_run", check=True, capture_output=True)
            subprocess.run([sys.executable, "-c", block], cwd=room, check=True)
            with open(f"{room}/out/areas.svg") as drawn:
                self.compare("the picture of README", text_of("docs/pictures/areas.svg"), drawn.read())

    def commands(self, house, rows):
        for row, command in zip(rows, commands_of(rows)):
            environment = {**os.environ, "PROGRAM": PROGRAM}
            ran = subprocess.run(shlex.split(command), capture_output=True, cwd=TOP, env=environment)
            want = house.replies(script_of([asked(row[3], row[4], program_of(row))]))
            self.compare(command, ran.stdout.decode(), want)


def main():
    house = House()
    page, survey = text_of(PAGE), text_of(f"{SURVEY}/README.md")
    files = {PAGE: page_now(house, page)}
    files.update(zip((f"{SURVEY}/README.md", f"{SURVEY}/script", f"{SURVEY}/replies"), survey_now(house, survey)))
    files["README.md"] = first_now(house, text_of("README.md"))
    if sys.argv[1:] == ["--write"]:
        for name, text in files.items():
            with open(f"{TOP}/{name}", "w") as file:
                file.write(text)
        return
    trial = Trial()
    trial.tables()
    for name, text in files.items():
        trial.compare(name, text_of(name), text)
    programs, rows = BLOCK.findall(page), ROW.findall(survey)
    if sys.argv[1:] != ["--alone"]:
        if "PROGRAM" not in os.environ:
            subprocess.run([f"{TOP}/tools/build"], check=True)
        trial.checks(house, [("labour", program[0]) for program in programs] + [(row[3], program_of(row)) for row in rows])
        for script in (page_script(page), survey_script(rows), text_of(f"{SURVEY}/first")):
            trial.by_run(script, house.replies(script))
        trial.commands(house, rows)
        trial.picture(files["README.md"])
    if page.count("```program") != len(programs):
        trial.compare("the number of lines behind blocks", str(len(programs)), str(page.count("```program")))
    print(f"{len(programs)} programs of the page and {len(rows)} of the survey, {trial.differences} differences")
    sys.exit(1 if trial.differences else 0)


if __name__ == "__main__":
    main()
