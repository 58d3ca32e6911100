"""What tools/hs lists: each command, for whom it is, what it does, and an example.

    ENTRIES     of all commands, those of the program and those of tools/; a command is listed once
    ROLES       for whom, in their order
"""
from typing import NamedTuple

ROLES = ("An owner of tables", "An analyst", "An operator", "A developer")
OWNER, ANALYST, OPERATOR, DEVELOPER = ROLES
SURVEY = "examples/survey/catalog.json"
KEYED = f"{SURVEY} examples/survey/key"


class Entry(NamedTuple):
    role: str
    word: str
    what: str
    example: str
    # Whether tools/WORD takes --help; else what it begins with is its help.
    has_help: bool = True


ENTRIES = [
    Entry(OWNER, "prepare", "make a table, a catalog and a private report of a raw CSV file", "tools/hs prepare raw.csv --guess raw.spec"),
    Entry(OWNER, "find_fault", "find what is wrong with a catalog, a key or a table", f"tools/hs find_fault {SURVEY}"),
    Entry(OWNER, "public", "print what analysts may know: columns, keys, budgets", f"tools/hs public {SURVEY}"),
    Entry(OWNER, "init", "make the journals, once", "tools/hs init catalog.json key"),
    Entry(OWNER, "grant", "add to a budget", "tools/hs grant catalog.json key labour 500000"),
    Entry(OWNER, "audit", "say what each owner's journal holds", "tools/hs audit catalog.json key"),
    Entry(OWNER, "gap", "compare two versions of the tables, without noise", f"tools/hs gap {SURVEY} labour later.json query"),
    Entry(OWNER, "judge", "say what a derivation shows of a program", f"tools/hs judge {SURVEY} labour query derivation"),
    Entry(OWNER, "judge.py", "say the same, by one page apart from the program", f"tools/hs judge.py {SURVEY} labour query derivation"),
    Entry(ANALYST, "check", "say what a program would be charged by, or why it is refused", f"tools/hs check {SURVEY} labour query"),
    Entry(ANALYST, "derive", "write out why a program's sensitivity is what it is", f"tools/hs derive {SURVEY} labour query > derivation"),
    Entry(ANALYST, "explain", "say what a refusal or another line means", "tools/hs explain 'no 13'"),
    Entry(ANALYST, "walks", "say how deep a program walks rows within rows", f"tools/hs walks {SURVEY} labour query"),
    Entry(ANALYST, "forecast", "say what a program would cost, and how far it would be off", "tools/hs forecast survey labour 0.5 query"),
    Entry(ANALYST, "ask", "ask a program over new journals, for trying out", f"tools/hs ask {KEYED} mia labour 0.5 query", False),
    Entry(ANALYST, "shell", "ask at a prompt", "tools/hs shell survey mia labour"),
    Entry(ANALYST, "askparts", "ask a program of each part of a partition", "tools/hs askparts survey mia labour areas 0.5 query"),
    Entry(ANALYST, "plot", "draw a histogram, a cross table, or a budget over time", "tools/hs plot histogram answers"),
    Entry(ANALYST, "left", "say what is left of a budget", "tools/hs left survey labour"),
    Entry(OPERATOR, "run", "answer a script", "tools/hs run catalog.json key < script"),
    Entry(OPERATOR, "serve", "answer over connections", "tools/hs serve catalog.json key --port 7000 --each 1000"),
    Entry(OPERATOR, "keep_serving", "keep a service running", "tools/hs keep_serving served catalog.json key --port 7000 --each 1000", False),
    Entry(OPERATOR, "mirror", "give journals a second disk, or replace a lost one", "tools/hs mirror served"),
    Entry(OPERATOR, "door", "let one analyst's key in over ssh", "tools/hs door mia 7000 1 --catalog served/catalog.json"),
    Entry(OPERATOR, "snapshot", "copy journals while a service writes them", "tools/hs snapshot copies/monday served"),
    Entry(OPERATOR, "watch", "say of a copy what each owner has spent", "tools/hs watch served/catalog.json copies/monday"),
    Entry(OPERATOR, "why", "run the program, and say why it ended", "tools/hs why run catalog.json key < script"),
    Entry(DEVELOPER, "build", "make the quick build, which isn't proved", f"tools/hs build check {SURVEY} labour query", False),
    Entry(DEVELOPER, "first_run", "build, and run the example of two owners", "tools/hs first_run", False),
    Entry(DEVELOPER, "afresh", "answer a script over new journals, which go", f"tools/hs afresh {KEYED} < script", False),
    Entry(DEVELOPER, "gen", "write random numbers of the noise's source", "tools/hs gen 1 5"),
    Entry(DEVELOPER, "reference.py", "work out a script's replies apart from the program", f"tools/hs reference.py {KEYED} < script", False),
    Entry(DEVELOPER, "journal.py", "read journals apart from the program", "tools/hs journal.py catalog.json key", False),
    Entry(DEVELOPER, "grammar.py", "write the grammar's tables of fz_parser", "tools/hs grammar.py", False),
    Entry(DEVELOPER, "make_survey", "write the tables of examples/survey", "tools/hs make_survey examples/survey", False),
    Entry(DEVELOPER, "make_register", "write the raw file of examples/register", "tools/hs make_register examples/register", False),
]
