"""How a bench begins: what it says of itself, the numbers among its words, and the quick program where none is named.

    numbers(DOC, DEFAULT, ..)    the numbers that stand among the words, in their order, those that aren't said being the defaults; at --help it
                                 prints DOC and ends. WORDS are the bench's own words, without those that are no numbers
    begin(DOC, DEFAULT, ..)      the same, behind tools/build where the environment names no PROGRAM
"""
import os
import subprocess
import sys

from places import TOP


def numbers(doc, *defaults, words=None):
    words = sys.argv[1:] if words is None else words
    if sys.argv[1:] == ["--help"]:
        print(doc.strip())
        sys.exit()
    return [int(word) for word in (*words, *defaults[len(words) :])]


def begin(doc, *defaults, words=None):
    found = numbers(doc, *defaults, words=words)
    if "PROGRAM" not in os.environ:
        subprocess.run([f"{TOP}/tools/build"], check=True)
    return found
