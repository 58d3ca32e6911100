#!/usr/bin/env python3
"""Checks the pages' English: words a page, sentences over 35 words, and words that this repository says otherwise.

usage: ci/words.py [--list] [--most N] [PAGE ..]
Without pages: README.md, docs/, the READMEs of crates, examples and clients. It prints a line, with its place, for each sentence over 35
words, each word to be avoided, each page that is too long (a crate's README, README.md by its two parts, and those of PAGES), each line of
README.md's table over 20 words and each crate that has no line there; and then the words of each group of pages. Blocks of code count as
words of the page alone, and so does what stands in backquotes. --list prints the words of each page.
It ends with status 1 where a rule is broken, or where all pages together have over N words (73,000 unless given).
"""
import glob
import os
import re
import sys

TOP = os.path.dirname(os.path.dirname(os.path.abspath(__file__)))
MOST, LONGEST, CRATE, ROW = 73_000, 35, 250, 20
PAGES = {"docs/dev/DECISIONS.md": 6_000, "docs/dev/measurements.md": 4_000}
# README.md's first page, and what is proved, crate by crate.
FIRST, SECOND, PROVED = 1_200, 1_500, "\n# What is proved, crate by crate\n"
# What is said in its place. A word within backquotes is a name, and stays.
AVOID = {
    r"want(?:s|ed|ing)? of memory|memory (?:is|was) wanting": "out of memory",
    r"\bbehind\b": "after",
    r"\bbeside\b(?! each other)": "next to, with, while .. runs",
    r"\btold\b": "reported, answered",
    r"\bdearest\b|\bdearer\b": "highest cost, most expensive",
    r"\bso many workers\b": "n workers",
    r"\bissue #?\d+|\bissues \d+|\bT\d\b|\bD\d+\b|\bW\d+\b": "nothing: no page cites these by number",
    r"\bdemand(?:ed)? by\b": "asked by",
}  # fmt: skip
FENCE = re.compile(r"^ *```.*?^ *```[^\n]*$", re.M | re.S)
TICKS = re.compile(r"(`+).+?\1", re.S)
LINK = re.compile(r"\]\([^)]*\)")
ABBREVIATED = re.compile(r"\b(?:e\.g|i\.e|cf|vs|etc|No)\.$")


def blanked(found):
    return re.sub(r"[^\n]", " ", found[0])


def prose(text):
    """The page without code: what stands in backquotes is one word, and places stay."""
    text = FENCE.sub(blanked, text)
    text = TICKS.sub(lambda found: "X" + re.sub(r"[^\n]", " ", found[0])[1:], text)
    return LINK.sub(lambda found: "]" + " " * (len(found[0]) - 1), text)


def pieces(text):
    """The paragraphs, items and cells, each with its place."""
    start, place, lines = 0, 0, []
    for line in [*text.splitlines(keepends=True), ""]:
        new = re.match(r"\s*(?:[-*] |\d+\. |#|\||>)", line)
        if lines and (not line.strip() or new):
            yield start, "".join(lines)
            lines = []
        if line.lstrip().startswith("|"):
            at = place
            for cell in line.split("|"):
                yield at, cell
                at += len(cell) + 1
        elif line.strip():
            start = start if lines else place
            lines.append(line)
        place += len(line)


def sentences(start, piece):
    begun = 0
    for found in re.finditer(r"[.!?:][)\"'*_]*(?=\s|$)|(?<=;)(?=\s)", piece):
        if piece[found.start()] in ":;" or ABBREVIATED.search(piece[begun : found.end()]):
            continue
        yield start + begun, piece[begun : found.end()]
        begun = found.end()
    if piece[begun:].strip():
        yield start + begun, piece[begun:]


def number_of_words(text):
    return len([word for word in text.split() if re.search(r"\w", word)])


def faults(text, longest):
    plain = prose(text)
    for start, piece in pieces(plain):
        for place, sentence in sentences(start, piece):
            if longest and number_of_words(sentence) > longest:
                at = place + len(sentence) - len(sentence.lstrip())
                yield at, f"{number_of_words(sentence)} words: {' '.join(text[place:place + len(sentence)].split())[:90]} .."
    for pattern, better in AVOID.items():
        for found in re.finditer(pattern, plain, re.I):
            yield found.start(), f"{found[0]!r} ({better})"


def too_long(page, text):
    """What is longer than its page may be, each with its place."""
    parts = [(0, text, PAGES.get(page, CRATE if group_of(page) == "crates" else None))]
    if page == "README.md":
        first = text.partition(PROVED)[0]
        parts = [(0, first, FIRST), (len(first), text[len(first) :], SECOND)]
        yield from table_faults(text, len(first))
    for place, part, most in parts:
        if most and len(part.split()) > most:
            yield place, f"{len(part.split())} words from here, and {most} are allowed"


def table_faults(text, start):
    """Lines of the table of crates that are too long, and crates that aren't named there or below it."""
    for line in re.finditer(r"^\| \[.*$", text[start:], re.M):
        number = number_of_words(LINK.sub("]", line[0]))
        if number > ROW:
            yield start + line.start(), f"a crate's line has {number} words, and {ROW} are allowed"
    for crate in sorted(os.listdir(os.path.join(TOP, "crates"))):
        if f"`{crate}`" not in text[start:]:
            yield start, f"{crate} has no line"


def group_of(page):
    return "crates" if page.startswith("crates/") else page.split("/")[0]


def main():
    arguments = sys.argv[1:]
    listed = "--list" in arguments and not arguments.remove("--list")
    most = MOST
    if "--most" in arguments:
        at = arguments.index("--most")
        most = int(arguments[at + 1])
        del arguments[at : at + 2]
    found = ["README.md", *(name for way in ("docs", "crates/*", "examples", "examples/*", "clients/*") for name in glob.glob(f"{way}/*.md", root_dir=TOP))]
    found += glob.glob("docs/*/*.md", root_dir=TOP)
    pages = arguments or sorted(set(found))
    counts, broken = {}, 0
    for page in pages:
        with open(os.path.join(TOP, page)) as file:
            text = file.read()
        number = len(text.split())
        counts[group_of(page)] = counts.get(group_of(page), 0) + number
        if listed:
            print(f"{number:7} {page}")
        said = sorted([*faults(text, LONGEST), *too_long(page, text)])
        for place, what in said:
            broken += 1
            line = text.count("\n", 0, place) + 1
            print(f"{page}:{line}: {what}")
    total = sum(counts.values())
    print("; ".join(f"{group} {number}" for group, number in counts.items()), f"; {total} words in {len(pages)} pages, {broken} faults")
    sys.exit(1 if broken or total > most else 0)


if __name__ == "__main__":
    main()
