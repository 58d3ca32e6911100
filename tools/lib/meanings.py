"""What each status of the program means, and each line that it writes, in words: without a look at any file.

    STATUSES              a sentence a status
    COMMANDS              the arguments that each command takes
    meaning(LINE)         what a line means that the program wrote, or nothing where it writes no such line
    is_refusal(LINE)      whether it is one by which a line of a script, or a program, is refused
"""
import re

from bounds import DEPTH_LIMIT, DRAW_LIMIT, FILE_LIMIT, LINE_LIMIT, NEST_LIMIT, PROGRAM_LIMIT, TOKEN_LIMIT, TURN_LIMIT, WIDTH_LIMIT

COMMANDS = {
    "init": "CATALOG KEY [--mirror]", "run": "CATALOG KEY [--workers W] [--mirror] < SCRIPT",
    "serve": "CATALOG KEY [--addr A] --port P [--workers W] --each N [--mirror]", "audit": "CATALOG KEY [--mirror]",
    "grant": "CATALOG KEY OWNER AMOUNT [--mirror]",
    "check": "CATALOG OWNER FILE", "gap": "CATALOG OWNER CATALOG2 FILE", "gen": "SEED N [WORKERS]",
    "derive": "CATALOG OWNER FILE", "judge": "CATALOG OWNER FILE DERIVATION",
}  # fmt: skip
STATUSES = {
    0: "all was done; replies of a run may still be refusals, which are the analyst's, but for `no 42` and `no 52`",
    1: "`check`, `gap` or `derive` refuses the program, by its line, or `judge` the program or the derivation; other commands never end so: the shell couldn't "
        "open a file, and nothing was asked",
    2: "the arguments are no command",
    3: "a file that the arguments or a catalog names is absent, too long or not what it should be, or OWNER isn't in the catalog, or `gap`'s entries don't fit",
    4: "an owner's journal isn't the one that belongs there; nothing was read of the script",
    5: "a file, standard input or standard output failed; what was written is a part of what was due, or nothing; or a port of `serve` couldn't be listened at",
    6: "the disk, or the folder `journals`, failed while an owner's journal was made or opened, or another process has that journal; nothing was asked; of "
        "`grant` also while its record was written, which may be there or not. With `--mirror` both disks failed, or the one whose other is empty; of `init` "
        "either",
    7: "memory ran out before anything was answered; of `serve` and `gen` it may be later, and `check`, `gap` and `derive` end so of any program that walks "
        "bags too often or too deep",
    8: "the script has over 2^24 bytes, and nothing of it was answered",
    9: "`grant` would raise the budget over 10^18 millionths; nothing changed",
    10: "the owner's journal has no room for a grant's record; nothing changed",
    11: f"`derive` would write a derivation of over {FILE_LIMIT} bytes, more than `judge` reads; nothing is written of it",
}
ENDINGS = {
    124: "`timeout` ended it: it has written nothing, or a part of what was due; `audit` shows by its reservations what was asked",
    126: "it may not be run; nothing was asked",
    127: "there is no such program on the path; nothing was asked",
}  # fmt: skip

NUMBER, NAME = "([0-9]+)", "([A-Za-z_][A-Za-z0-9_]{0,31})"
# Words of a line as it is written, N standing for a number and W for a name, and what they mean.
REFUSALS = {
    "no 10 N": "the line is malformed at its word {0} (the first is 0): it is missing, empty (two blanks, or one at the end), one too many, no kind of "
        "line, or no number of 1 to 10 digits below 2^32",
    "no 11": f"the line has over {LINE_LIMIT} bytes",
    "no 12 1": "the analyst (of `hello`) or the owner isn't in the catalog",
    "no 12 2": "the owner has no partition of this name",
    "no 12 3": "the partition has no key of this name",
    "no 13": "EPS is no decimal from 0.000001 to 1000; write 0.5 and 0.001, not `.5` and `1e-3`",
    "no 14": "nobody has said hello: `hello ANALYST` stands before what is asked, and again after a `bye`",
    "no 20 N": f"at byte {{0}} of the program no token begins, or it has over {PROGRAM_LIMIT} bytes or {TOKEN_LIMIT} tokens",
    "no 21 N": "no term begins with the program's tokens up to token {0} (the first is 0), or they end there, too early",
    "no 22 N": f"the term is {{0}} deep, and {NEST_LIMIT} are allowed",
    "no 30 unbound N N": "the name in bytes {0} to {1} is neither bound nor a table's",
    "no 30 mismatch N N": "the part in bytes {0} to {1} has another type than is wanted there",
    "no 30 notground N N": "of the part in bytes {0} to {1} a side, or a branch, would hold a function",
    "no 30 notflat N N": "by the part in bytes {0} to {1} a bag would hold a function or a bag",
    "no 31 N N R": "the function in bytes {0} to {1} uses its argument at {2}, and a `fun` may use it at 1 at most",
    "no 32 N N": "a sensitivity of the part in bytes {0} to {1} is out of range",
    "no 33 W": "nothing bounds how far the value moves when a row of {0} is added or taken away",
    "no 34": "the program's value is no number",
    "no 35 N N": f"run without data, the part in bytes {{0}} to {{1}} would be visited at depth {DEPTH_LIMIT + 1}, and {DEPTH_LIMIT} are allowed",
    "no 36 N N": f"run without data, the part in bytes {{0}} to {{1}} would be visited by turn {TURN_LIMIT + 1}, and {TURN_LIMIT} are allowed",
    "no 37 N N N": f"the union in bytes {{0}} to {{1}} would be {{2}} tables wide, and {WIDTH_LIMIT} are allowed",
    "no 40 N N N N": "the budget doesn't allow it: of {2} millionths {0} are spent, and with this ask it would be {1}",
    "no 41 N N N": "there is no room for its two records: {0} of {2} are taken, and room is kept for {1} that are to come; no ask is answered any more, not "
        "even one that costs nothing",
    "no 42 N": "the owner's journal is closed for the rest of this run, since its disk failed (fault {0}) at an ask before; nothing is charged, "
        "unless several workers answered the script and another one's record failed after this ask's reservation (`left` in the next run tells): it may be "
        "asked again then",
    "no 43 N N N N": "the analyst's limit doesn't allow it: of {2} millionths that this analyst may spend {0} are spent, and with this ask it would be {1}",
    "no 50 N": f"the noise of reservation {{0}} took over {DRAW_LIMIT} draws, which hardly ever happens: it has no answer for ever, and its charge comes "
        "back, or stays in a journal of version 1 or 2",
    "no 51 N": "memory ran out while the program of reservation {0} was run: it is charged, and has no answer for ever",
    "no 52": "the disk failed while its record was written: it may be charged, and has no answer; `audit`, and `recall` of its number in the next run, tell "
        "which",
    "no 60 N N": "no number {0} was ever reserved of this owner",
    "no 61 N N": "another analyst made reservation {0}, and recalls it alone",
    "no 90": "memory ran out before anything was reserved, and it may be asked again; or the program walks bags too often or too deep, whatever memory there "
        "is (docs/language.md, \"Walks of bags\"): nothing is charged",
}  # fmt: skip
LINES = {
    "usage": STATUSES[2],
    "owner W budget N capacity N": "the journal of {0} is made: its budget is {1} millionths, and it has room for {2} records",
    "W reservations N answered N exhausted N lost N spent N budget N": "of {1} reservations in the journal of {0} {2} are answered, {3} have no answer, since "
        f"their noise took over {DRAW_LIMIT} draws, and {{4}} are lost: charged, and without an answer; {{5}} of {{6}} millionths are spent",
    "distance N": "of `gap`: the two datasets are {0} rows apart, which are those to be removed and those to be added",
    "sensitivity R": "of `gap`: the sensitivity of the program is {0}, by which its value moves at most for each row that the datasets are apart",
    "values V V": "of `gap`: the program's exact value is {0} on the first dataset and {1} on the second, without noise: they are for the owner alone",
    "gap N": "of `gap`: the two values differ by {0}, which is at most the sensitivity times the distance",
    "memory": STATUSES[7],
    "script too long": STATUSES[8],
    "journal W uninitialised N": "the journal of {0} isn't there, or no `init` ended on it: it has {1} bytes",
    "journal W damaged N": "the journal of {0} has bytes in its slot {1} (the first is 0) that the program never leaves there, or the wrong length; there "
        "is no repair",
    "journal W changed": "the entry of {0}, the analysts, the key or a table isn't what it was when the journal was made, or it is another owner's",
    "journal W forked N": "the two disks of the journal of {0} have different records in slot {1} (the first is 0): one of them had missed a run, and was put "
        "back; there is no repair",
    "journal W exists N": "`init` finds a file of {1} bytes in the place of the journal of {0}",
    "disk W": "the disk of the journal of {0}, or the folder `journals`, failed, or another process has the journal; with `--mirror` both disks, or the one "
        "whose other is empty",
    "granted W N N": "the budget of {0} is {1} millionths now; its journal has {2} records",
    "too large N": "the budget is {0} millionths, and with the grant it would be over 10^18; nothing changed",
    "full N N": "there is no room for a grant's record: {0} of {1} are taken; nothing changed",
    "bye": "the session ended",
    "hello W": "{0} speaks from here on",
    "answer N V N": "reservation {0} has the noisy value {1}, and took {2} millionths",
    "recall N answer V N": "reservation {0} was answered with {1}",
    "recall N exhausted N": f"reservation {{0}} has no answer, since its noise took over {DRAW_LIMIT} draws; its charge came back, or stays in a "
        "journal of version 1 or 2",
    "recall N lost N": "reservation {0} is charged and has no answer: memory ran out, the disk failed, or the program was stopped",
    "recall N open N": "reservation {0} is of this very run and has no answer yet; ask again in the next run",
    "left N N N": "{0} of {1} millionths are spent",
    "mine N N N": "the analyst has spent {0} of the {1} millionths that its limit allows; the budget may have less left, as `left` says",
    "mine N none N": "the analyst has spent {0} millionths, and has no limit of its own",
    "ok R": "the program is accepted, at a sensitivity of {0}",
    "yes R": "of `judge`: the derivation shows that the program's value moves by at most {0} for each row that is added or taken away",
    "derivation too long": STATUSES[11],
    "asks N answered N exhausted N over N spent N sum V": "of {0} generated asks {1} were answered, {2} have no answer, since their noise "
        f"took over {DRAW_LIMIT} draws, "
        "and the budget didn't allow {3}; {4} millionths are spent, and the answers' sum is {5}",
    **REFUSALS,
    # After all others, since a line may have the number of a refusal's code.
    "no L": "of `judge`: line {0} of the derivation (the first is 0) is the least that is missing, too many or not of the form, or, where all are of the form, "
        "whose rule fails",
}  # fmt: skip
PARTS = {"N": NUMBER, "W": NAME, "V": "(-?[0-9]+)", "R": "([0-9]+(?:/[0-9]+)?|inf)", "L": "(0|[1-9][0-9]*)"}
FORMS = {form: (re.compile(" ".join(PARTS.get(word, re.escape(word)) for word in form.split())), said) for form, said in LINES.items()}


def is_refusal(line):
    """Whether a line refuses a line of a script, or a program."""
    return any(FORMS[form][0].fullmatch(line) for form in REFUSALS)


def meaning(line):
    first, _, name = line.partition(" ")
    if first == "refused":
        return f"{name!r} is the file, or the owner, that is refused: {STATUSES[3]}"
    status = re.fullmatch(r"(?:status )?([0-9]{1,3})", line)
    if status:
        return of_status(int(status[1]))
    return next((said.format(*found.groups()) for form, said in FORMS.values() if (found := form.fullmatch(line))), None)


def of_status(status):
    if status in STATUSES:
        return STATUSES[status]
    if status > 128:
        return f"signal {status - 128} ended it: it has written nothing, or a part of what was due; `audit` shows by its reservations what was asked"
    return ENDINGS.get(status, "the program never ends so: the shell or `timeout` did")
