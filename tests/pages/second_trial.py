#!/usr/bin/env python3
"""A new user's way from raw files to answers, by README.md and by the commands that the tools propose: each count is compared with the raw file's own.

usage: tests/pages/second_trial.py [SEED]    (PROGRAM=FILE tries another build than tools/build's)
SEED makes other raw files: persons with several rows, decimals, missing cells, quotes, umlauts, in three forms. Of each file the five commands of README
are run; where one stops or warns, the command that it proposes. It ends with status 1 where an answer is off by more than its noise can be, where
more than 2,000 words were to be read or it took over 10 minutes, or where what a person's rows are isn't handed on to analysts.
"""
import codecs
import csv
import io
import os
import random
import re
import subprocess
import sys
import tempfile
import time

sys.path.insert(0, f"{os.path.dirname(os.path.abspath(__file__))}/../lib")
from places import TOP  # noqa: E402

PERSONS, ROWS, WORDS, SECONDS = 400, 3, 2000, 600
# Noise of EPS 0.2 is off by more in less than 1 of 10^12 answers.
MARGIN = 140
# Delimiter, encoding, what stands for missing, titles of person, town, day, amount and answer, towns, and how a day and an amount are written.
FORMS = [
    (";", "cp1252", "", "Kunden-Nr;Wohnort;Kauf am;Betrag (€);Zufrieden?", ["Köln", "Bad Tölz; Süd", 'Hof "Au"', "Düren"],
        lambda day: f"{day[2]:02}.{day[1]:02}.{day[0]}", lambda cents: f"{cents // 100},{cents % 100:02}"),
    ("\t", "utf-8-sig", "n/a", "e-mail\trégion\tdate d'achat\tmontant\tavis", ["Île-de-France", "Provence, Alpes", "Grand Est"],
        lambda day: f"{day[0]}-{day[1]:02}-{day[2]:02}", lambda cents: f"{cents // 100:,}".replace(",", "\u202f") + f",{cents % 100:02}"),
    (",", "utf-8", "NULL", "member id,home town,joined,fee,happy", ["Åre", "St. John's, NL", "Łódź"],
        lambda day: f"{day[1]:02}/{day[2]:02}/{day[0]}", lambda cents: f"{cents // 100:,}.{cents % 100:02}"),
]  # fmt: skip
SIX_LINES = """
import sys
sys.path.insert(0, "clients/python")
from hitchseason import connect
owner = connect("own", "ann", "owner", program="out/hitchseason")
found = owner.histogram(sys.argv[1], eps=0.3)
print(*(found[key].value for key in found), owner.count("persons", eps=0.2).value)
open("own.svg", "w").write(found.svg())
"""


class Raw:
    """A raw file, what its columns are called, and what it really has: rows with an amount, at most three a person, by town; and persons."""

    def __init__(self, rng, form):
        delimiter, encoding, missing, titles, towns, day_text, amount_text = form
        self.titles, self.towns, rows = titles.split(delimiter), dict.fromkeys(towns, 0), []
        for person in range(PERSONS):
            known, town, key = 0, rng.choice(towns), f"{rng.randrange(10**6):06}-{person}"
            for _ in range(rng.choice([1, 1, 2, 3, 4, 7])):
                has_amount = rng.random() > 0.06
                known += has_amount
                day = day_text((rng.randint(2019, 2023), rng.randint(1, 12), rng.randint(1, 28)))
                amount = amount_text(rng.randrange(100_000, 900_000)) if has_amount else missing
                rows.append([key, town, day, amount, rng.choice(["ja", "nein", missing])])
            self.towns[town] += min(known, ROWS)
        rng.shuffle(rows)
        text = io.StringIO()
        writer = csv.writer(text, delimiter=delimiter)
        writer.writerow(self.titles)
        writer.writerows(rows)
        self.bytes, self.rows = codecs.encode(text.getvalue(), encoding), sum(self.towns.values())


class User:
    """Who reads, types, and waits."""

    def __init__(self, raw):
        self.raw, self.begun, self.said, self.read = raw, time.monotonic(), "", 0

    def type(self, command, folder, wanted=0):
        ran = subprocess.run(["bash", "-c", command], cwd=folder, capture_output=True, text=True, stdin=subprocess.DEVNULL)
        self.said = ran.stdout
        self.read += len((ran.stdout + ran.stderr).split())
        if ran.returncode != wanted:
            raise AssertionError(f"{command}: status {ran.returncode}\n{ran.stdout}{ran.stderr}")
        return ran.stdout

    def proposed(self, words):
        """The command that was just proposed, with these words in it, as a user types it in the folder."""
        line = next((line.strip() for line in self.said.splitlines() if line.startswith("    tools/") and words in line), None)
        if line is None:
            raise AssertionError(f"no command with `{words}` is proposed:\n{self.said}")
        return f"../{line}"

    def name_of(self, title):
        return re.search(f"^  (\\w+): .*, from `{re.escape(title)}`", self.said, re.M)[1]


def block_of(page, heading):
    """The first block of commands below a heading."""
    return page.split(f"## {heading}\n", 1)[1].split("```sh\n", 1)[1].split("```", 1)[0].splitlines()


def tried(raw, room):
    with open(f"{TOP}/README.md", encoding="utf-8") as file:
        page = file.read()
    guess, prepare, key, ask = [line.split("  #")[0].strip() for line in block_of(page, "Your own file in five commands")[1:]]
    user, own = User(raw), f"{room}/own"
    user.read += len(page.split("## To a colleague")[0].split())
    for name, place in (("tools", f"{TOP}/tools"), ("clients", f"{TOP}/clients")):
        os.symlink(place, f"{room}/{name}")
    os.makedirs(f"{room}/out")
    os.symlink(os.environ["PROGRAM"], f"{room}/out/hitchseason")
    os.makedirs(own)
    with open(f"{own}/raw.csv", "wb") as file:
        file.write(raw.bytes)
    user.type(guess, own)
    town, rows, each = user.name_of(raw.titles[1]), user.proposed("person.rows=N"), user.proposed("table.per=person")
    # Missing amounts stop it, and the proposals that were made of them and of persons are taken.
    user.type(prepare, own, 1)
    user.type(user.proposed("row out"), own)
    user.type(rows.replace("=N", f"={ROWS}"), own)
    if "raw.spec is as before: with --save" not in user.type("../tools/prepare raw.csv --spec raw.spec --set catalog.capacity=9", own):
        raise AssertionError(f"nothing says that a flag holds once:\n{user.said}")
    user.type("../tools/prepare raw.csv --save --set catalog.capacity=9", own, 2)
    user.type(prepare, own)
    user.type(each, own)
    user.type("../tools/prepare raw.csv --spec raw.spec.persons", own, 1)
    user.type(user.proposed("=CODE").replace("CODE", "-1"), own)
    public = user.type("../tools/public catalog.json raw.spec raw.spec.persons", own)
    if f"at most {ROWS} rows a person" not in public or f"a person has at most {ROWS + 2} rows in all tables" not in public:
        raise AssertionError(f"the rows a person may have aren't handed on:\n{public}")
    user.type(key, own)
    answer = int(re.search("^answer 0 (-?[0-9]+) ", user.type(ask, own), re.M)[1])
    first = time.monotonic() - user.begun
    with open(f"{room}/six.py", "w") as file:
        file.write(SIX_LINES)
    *towns, unknown, persons = map(int, user.type(f"python3 six.py {town}", room).split())
    with open(f"{room}/own.svg", encoding="utf-8") as file:
        drawn = file.read()
    # Keys stand in the order of their texts, the one of missing cells last.
    pairs = [(answer, raw.rows), (persons, PERSONS), (unknown, 0), *zip(sorted(towns), sorted(raw.towns.values()))]
    off = [pair for pair in pairs if abs(pair[0] - pair[1]) > MARGIN]
    # An error bar is a line with two ends.
    bars = drawn.count("<line") // 3
    if off or len(towns) != len(raw.towns) or bars <= len(towns):
        raise AssertionError(f"answers and what the raw file has: {pairs}; {bars} bars")
    if user.read > WORDS or first > SECONDS:
        raise AssertionError(f"{user.read} words were to be read, and the first answer came after {first:.0f} s")
    return f"{raw.titles[0]}: the first answer after {first:.0f} s, all after {time.monotonic() - user.begun:.0f} s, {user.read} words to read"


def main():
    if "PROGRAM" not in os.environ:
        subprocess.run([f"{TOP}/tools/build"], check=True)
        os.environ["PROGRAM"] = f"{TOP}/out/hitchseason"
    os.environ["PROGRAM"] = os.path.abspath(os.environ["PROGRAM"])
    rng, failed = random.Random(int(sys.argv[1]) if sys.argv[1:] else 17), 0
    for form in FORMS:
        with tempfile.TemporaryDirectory() as room:
            try:
                print(tried(Raw(rng, form), room))
            except AssertionError as fault:
                failed += 1
                print(f"{form[3].split(form[0])[0]}: {fault}")
    print(f"{len(FORMS) - failed} raw files answered as they are, {failed} not")
    return 1 if failed else 0


sys.exit(main())
