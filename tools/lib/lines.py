"""Lines of scripts by their rules: what one asks, or why it is refused before its program is looked at.

    lines_of(SCRIPT)                  the lines of a script's bytes
    amount_of(WORD)                   the AMOUNT of a `grant`, or None
    fraction_of(TEXT)                 a number that somebody wrote, exactly; ValueError or ZeroDivisionError where it is none
    harmless(TEXT)                    without what a terminal would take for a command
    Line(BYTES, CATALOG, ANALYST)     a line, by a catalog and whoever has said hello: its `refusal` (`10 2`) or nothing, `why` in words, and of
                                      an ask the `owner`, the `partition` or nothing, `e` in millionths and the `program`

The server is compared with reference.py, which shares the forms of numbers with this file.
"""
import difflib
import re
from fractions import Fraction

from bounds import AMOUNT_LIMIT, LINE_LIMIT

FORMS = {
    "hello": "ANALYST", "ask": "OWNER EPS PROGRAM", "askpart": "OWNER PARTITION KEY EPS PROGRAM", "recall": "OWNER N", "left": "OWNER", "mine": "OWNER", "bye": "",
}  # fmt: skip
COMMANDS = (b"init", b"run", b"serve", b"audit", b"grant", b"check", b"gap", b"gen", b"derive", b"judge")
WORDS = b"size sum fst snd least greatest let if case in then else map filter split union".split()
# A number of so many digits is over every limit, and Python doesn't read some thousand digits.
LONG = 19
# An exponent of six digits or more, whose power of ten would take long.
FAR = re.compile(r"(.*)[eE]([-+]?)0*[1-9][0-9]{5,}\s*", re.S)
# What moves a terminal's cursor, or turns the order of what is written.
CONTROLS = re.compile("[\x00-\x08\x0b-\x1f\x7f-\x9f\u061c\u200e\u200f\u2028-\u202e\u2066-\u2069]")


def lines_of(script):
    """The lines of a script. A last one without LF counts where it has a byte. One CR is dropped."""
    lines = script.split(b"\n")
    if lines[-1] == b"":
        lines.pop()
    return [line.removesuffix(b"\r") for line in lines]


def millionths(text):
    """An epsilon: 1 to 4 digits, perhaps a point and 1 to 6 digits; 0.000001 to 1000. None where it isn't one."""
    whole, point, part = text.partition(b".")
    digits = all(b in b"0123456789" for b in whole + part)
    if not digits or not 1 <= len(whole) <= 4 or (point and not 1 <= len(part) <= 6):
        return None
    value = Fraction(int(whole)) + Fraction(int(part or b"0"), 10 ** len(part))
    return int(value * 10**6) if 0 < value <= 1000 else None


def whole_number(text):
    """A number of 1 to 10 digits below 2^32, or None."""
    if not 1 <= len(text) <= 10 or any(b not in b"0123456789" for b in text):
        return None
    return int(text) if int(text) < 2**32 else None


def amount_of(word):
    """A whole number of millionths from 1 to 10^18, as `clap` reads one, or None."""
    found = whole_of(word)
    return found if found is not None and 1 <= found <= AMOUNT_LIMIT else None


def whole_of(word):
    """A whole number from 0 on, as `clap` reads one, or None where it is none or is over every limit."""
    found = re.fullmatch(f"[+]?0*([0-9]{{1,{LONG}}})", word)
    return int(found[1]) if found else None


def fraction_of(text):
    """Far beyond every limit one exponent stands for another, so that none takes long."""
    found = FAR.fullmatch(text)
    return Fraction(f"{found[1]}e{found[2]}99999" if found else text)


def harmless(text):
    return CONTROLS.sub(lambda found: found[0].encode("unicode_escape").decode(), text)


def said(data):
    text = harmless(data.decode(errors="backslashreplace"))
    return f"`{text if len(text) <= 40 else text[:38] + '..'}`"


def near(word, names):
    likely = difflib.get_close_matches(word.decode(errors="replace").lower(), [name.lower() for name in names], 1)
    return next((name for name in names if likely and name.lower() == likely[0]), None)


def or_all(word, names, what):
    """What is said of a name that isn't there."""
    likely = near(word, names)
    if likely:
        return f"is `{likely}` meant?"
    return f"{what} {', '.join(f'`{name}`' for name in names[:20])}{' and more' if len(names) > 20 else ''}" if names else f"{what} none"


class Line:
    def __init__(self, data, catalog, analyst):
        self.data, self.catalog, self.analyst = data, catalog, analyst
        self.refusal = self.why = self.owner = self.partition = self.e = self.program = None
        self.kind = data.split(b" ", 1)[0].decode(errors="replace")
        if len(data) > LINE_LIMIT:
            self.refuse("11", f"it has {len(data)} bytes, and {LINE_LIMIT} are allowed")
        elif self.kind not in FORMS:
            self.refuse("10 0", self.no_kind())
        elif self.read():
            self.look_up()

    def refuse(self, words, why):
        self.refusal, self.why = words, why
        return False

    def no_kind(self):
        if not self.data:
            return "the line is empty"
        if self.data.startswith(b" "):
            return "the line begins with a blank, and a program stands in one line, with that which asks it"
        likely = near(self.data.split(b" ")[0], list(FORMS))
        word = self.data.split(b" ")[0]
        if word in COMMANDS:
            return f"{said(word)} is a command of the program, and no line of a script: there are {', '.join(FORMS)}"
        within = "" if likely or word not in WORDS else ". A program stands in one line, with that which asks it"
        return f"{said(word)} is no kind of line: " + (f"is `{likely}` meant?" if likely else f"there are {', '.join(FORMS)}{within}")

    def read(self):
        """The words by their names, or the first that is malformed."""
        names = FORMS[self.kind].split()
        has_program = names[-1:] == ["PROGRAM"]
        words = self.data.split(b" ", len(names) if has_program else -1)
        form = f"`{' '.join([self.kind, *names])}`"
        for number, name in enumerate(names, 1):
            if len(words) <= number:
                return self.refuse(f"10 {number}", f"{name} is missing: {form}")
            if words[number] == b"" and name != "PROGRAM":
                return self.refuse(f"10 {number}", f"where {name} belongs stands nothing, since two blanks follow one another or one stands at the end: {form}")
            if name == "N" and whole_number(words[number]) is None:
                return self.refuse(f"10 {number}", f"{said(words[number])} is no number of 1 to 10 digits below 2^32")
        if len(words) > len(names) + 1:
            return self.refuse(f"10 {len(names) + 1}", f"{said(words[len(names) + 1])} is one word too many: {form}")
        self.words = dict(zip(names, words[1:]))
        return True

    def look_up(self):
        """Names in the line's order, then EPS, then whether somebody has said hello."""
        words, catalog = self.words, self.catalog
        if "ANALYST" in words and words["ANALYST"].decode(errors="replace") not in catalog["analysts"]:
            return self.refuse("12 1", f"the catalog has no analyst {said(words['ANALYST'])}: {or_all(words['ANALYST'], catalog['analysts'], 'it has')}")
        if "OWNER" in words and not self.find_owner(words["OWNER"]):
            return False
        if "PARTITION" in words and not self.find_part(words["PARTITION"], words["KEY"]):
            return False
        if "EPS" in words:
            self.e, self.program = millionths(words["EPS"]), words["PROGRAM"]
            if self.e is None:
                return self.refuse("13", self.of_a_part(words["EPS"]) or why_no_epsilon(words["EPS"]))
        if self.kind in ("ask", "askpart", "recall", "mine") and self.analyst is None:
            return self.refuse("14", "nobody has said hello: `hello ANALYST` stands before what is asked, and again after a `bye`")
        return True

    def find_owner(self, word):
        owners = self.catalog["owners"]
        self.owner = next((owner for owner in owners if owner["name"].encode() == word), None)
        if self.owner is None:
            return self.refuse("12 1", f"the catalog has no owner {said(word)}: {or_all(word, [owner['name'] for owner in owners], 'it has')}")
        return True

    def of_a_part(self, word):
        """What is said of an `ask` where a partition's name, or a key, stands for EPS."""
        for partition in self.owner["partitions"] if self.kind == "ask" else []:
            if word.decode(errors="replace") in (partition["name"], *partition["keys"]):
                return f"{said(word)} is no EPS, and a part is asked by `askpart {self.owner['name']} {partition['name']} KEY EPS PROGRAM`"
        return None

    def find_part(self, word, key):
        partitions = self.owner["partitions"]
        self.partition = next((partition for partition in partitions if partition["name"].encode() == word), None)
        if self.partition is None:
            names = [partition["name"] for partition in partitions]
            of = next((one["name"] for one in partitions if word.decode(errors="replace") in (one["column"], *one["keys"])), None)
            what = f"is `{of}` meant?" if of else or_all(word, names, "it has")
            return self.refuse("12 2", f"{self.owner['name']} has no partition {said(word)}: {what}")
        if key not in [one.encode() for one in self.partition["keys"]]:
            keys = self.partition["keys"]
            if millionths(key) is not None:
                what = f"KEY is missing before EPS: {or_all(b'', keys, 'it has')}"
            elif {one.encode() for one in keys} & set(key.split(b",")):
                what = "one key stands in a line"
            else:
                what = or_all(key, keys, "it has")
            return self.refuse("12 3", f"the partition {self.partition['name']} has no key {said(key)}: {what}")
        return True


def why_no_epsilon(text):
    """What is wrong with an EPS, and how it is written."""
    known = "EPS is 0.000001 to 1000, with 1 to 4 digits before the point and 1 to 6 after it"
    try:
        value = fraction_of(text.decode().replace(",", ".", 1))
    except (ValueError, ZeroDivisionError):
        digits = text.replace(b",", b".", 1).replace(b".", b"", 1)
        return f"{said(text)} {'has too many digits' if digits.isdigit() else 'is no number'}: {known}"
    if value > 1000:
        return f"{said(text)} is over 1000: {known}"
    written = f"{float(value):.6f}".rstrip("0").rstrip(".")
    if value < Fraction(1, 10**6):
        return f"{said(text)} is under 0.000001: {known}"
    if Fraction(written) == value and millionths(written.encode()) is not None:
        return f"{said(text)} isn't how EPS is written: write {written}"
    return f"{said(text)} has too many digits: {known}"
