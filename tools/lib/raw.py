"""Raw files of separated values, as offices hand them out: bytes of some encoding, some delimiter, lines before the header.

    RawFile(NAME, ENCODING, DELIMITER)   its records, each with the line at which it begins; BadRaw where it can't be read
    guessed_form(NAME)                   the encoding, the delimiter and the number of records before the header, by its looks

Fields may stand in quotes, which stand twice inside; a quoted field may hold line ends. Blank lines are no records. A byte
order mark is taken off. Bytes that the encoding doesn't know stay in their cell as lone surrogates, so that it can be told.
"""
import codecs
import csv
import itertools
import os
import re

DELIMITERS = {",": "comma", ";": "semicolon", "\t": "tab", "|": "bar"}
# No text has this character, so a record of it alone is the end, and not inside a quote that was never closed.
END = "\ufdd0"
SAMPLE = 200
CHUNK = 2**20
FIELD_LIMIT = 2**31 - 1


class BadRaw(Exception):
    """Why a raw file can't be read."""


def codec_of(encoding):
    """Python's codec, which takes a mark off where there may be one."""
    return "utf-8-sig" if codecs.lookup(encoding).name == "utf-8" else encoding


# How files begin that hold no text, and what they are.
PACKED = [(b"PK\x03\x04", "a workbook (.xlsx, .ods) or a packed file"), (b"\xd0\xcf\x11\xe0", "a workbook (.xls)"), (b"\x1f\x8b", "a packed file (.gz)"), (b"%PDF", "a PDF")]


def start_of(name):
    """The first bytes of a file, where these may be a text's."""
    with open(name, "rb") as file:
        start = file.read(4)
    for magic, what in PACKED:
        if start.startswith(magic):
            raise BadRaw(f"{name} is {what}, and no text: save or unpack it as CSV first")
    return start


class RawFile:
    def __init__(self, name, encoding, delimiter):
        self.name, self.encoding, self.delimiter, self.file = name, encoding, delimiter, None

    def share(self):
        """How much of it is read, in parts of a hundred."""
        return 100 * self.file.buffer.tell() // max(os.fstat(self.file.fileno()).st_size, 1)

    def lines(self):
        try:
            start_of(self.name)
            with open(self.name, encoding=codec_of(self.encoding), errors="surrogateescape", newline="") as file:
                self.file = file
                yield from file
        except (FileNotFoundError, NotADirectoryError):
            raise BadRaw(f"there is no {self.name}") from None
        except OSError as fault:
            raise BadRaw(f"{self.name} can't be read: {fault.strerror}") from None
        except UnicodeError:
            raise BadRaw(f"{self.name} isn't written in {self.encoding}") from None
        yield END

    def records(self):
        """(line, fields) of each record that isn't a blank line."""
        csv.field_size_limit(FIELD_LIMIT)
        reader = csv.reader(self.lines(), delimiter=self.delimiter, skipinitialspace=True)
        line, before = 1, None
        try:
            for fields in reader:
                if before and before[1]:
                    yield before
                before, line = (line, fields), reader.line_num + 1
        except csv.Error as fault:
            raise BadRaw(f"{self.name}, at line {line}: {fault}") from None
        if before[1] != [END]:
            raise BadRaw(f"{self.name}: a quote (\") is opened in the record of line {before[0]} and never closed")


# By its looks.


def bytes_unknown(name, encoding):
    """How many places the encoding doesn't know, and how many letters outside ASCII there are."""
    decoder, unknown, letters = codecs.getincrementaldecoder(encoding)(errors="surrogateescape"), 0, 0
    with open(name, "rb") as file:
        while chunk := file.read(CHUNK):
            text = decoder.decode(chunk)
            unknown += len(re.findall("[\udc80-\udcff]", text))
            letters += len(re.findall("[^\x00-\x7f\udc80-\udcff]", text))
    return unknown + len(decoder.decode(b"", True)), letters


def guessed_encoding(name):
    start = start_of(name)
    if start.startswith((codecs.BOM_UTF16_LE, codecs.BOM_UTF16_BE)):
        return "utf-16"
    unknown, letters = bytes_unknown(name, "utf-8")
    # A few broken bytes among many right letters: the file is UTF-8, and its broken cells are told.
    if unknown == 0 or letters >= 10 * unknown:
        return "utf-8"
    return "windows-1252" if bytes_unknown(name, "windows-1252")[0] == 0 else "latin-1"


def first_records(name, encoding, delimiter):
    """The first records. By a wrong delimiter a quote may seem open: then those before it."""
    found = []
    try:
        for _, fields in itertools.islice(RawFile(name, encoding, delimiter).records(), SAMPLE):
            found.append(fields)
    except BadRaw:
        pass
    return found


def usual(counts):
    """The count that most records have; of several the greatest."""
    return max(set(counts), key=lambda count: (counts.count(count), count))


def agreement(records):
    """How well a delimiter fits: the share of records with the usual number of fields, and that number."""
    counts = list(map(len, records))
    most = usual(counts)
    return (counts.count(most) / len(counts) if most > 1 else 0, most)


def header_at(records):
    """The number of the first record that is as long as most, with a title over at least half of its columns."""
    most = usual(list(map(len, records)))
    for number, fields in enumerate(records):
        # `sep=;` is a line for a spreadsheet.
        if len(fields) == most and not fields[0].startswith("sep=") and 2 * sum(field.strip() != "" for field in fields) >= most:
            return number
    return 0


def guessed_form(name):
    try:
        encoding = guessed_encoding(name)
    except FileNotFoundError:
        raise BadRaw(f"there is no {name}") from None
    except OSError as fault:
        raise BadRaw(f"{name} can't be read: {fault.strerror}") from None
    found = {delimiter: first_records(name, encoding, delimiter) for delimiter in DELIMITERS}
    if not any(found.values()):
        # Nothing is there, or what keeps it from being read is told.
        next(RawFile(name, encoding, ",").records(), None)
        raise BadRaw(f"{name} has no record")
    delimiter = max((one for one in DELIMITERS if found[one]), key=lambda one: agreement(found[one]))
    return encoding, delimiter, header_at(found[delimiter])
