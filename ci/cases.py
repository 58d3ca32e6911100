#!/usr/bin/env python3
"""Counts what the case files of crates/run_cases show: files, commands whose end is wanted, rows, trials with a fault, and connections.

usage: ci/cases.py [--join]
With --join it first writes the crate's `args` and `stdout` anew: the names of the case files, and the files one after another.
It ends with status 1 where `args` or `stdout` is another, so that what `rt ci` judges is all files.
"""
import os
import re
import sys

CRATE = f"{os.path.dirname(os.path.dirname(os.path.abspath(__file__)))}/crates/run_cases"


def text_of(name):
    with open(f"{CRATE}/{name}", encoding="utf-8", newline="\n") as file:
        return file.read()


def write(name, text):
    with open(f"{CRATE}/{name}", "w", encoding="utf-8", newline="\n") as file:
        file.write(text)


def counted(text):
    """Commands, rows, trials and connections of a case file."""
    commands = rows = trials = connections = 0
    for line in text.split("\n"):
        word = line.split(" ", 1)[0]
        commands += word == "="
        rows += word == "?"
        connections += line.startswith("< --") + line.count("| -- |")
        if found := re.fullmatch(r"each \w+ \w+ (\d+) (\d+)", line):
            trials += int(found[2]) - int(found[1]) + 1
    return commands, rows, trials, connections


def main():
    names = sorted(name for name in os.listdir(f"{CRATE}/data") if name.endswith(".case"))
    texts = [text_of(f"data/{name}") for name in names]
    if sys.argv[1:] == ["--join"]:
        write("args", "".join(f"{name}\n" for name in names))
        write("stdout", "".join(texts))
    if text_of("args").split() != names or text_of("stdout") != "".join(texts):
        sys.exit("args and stdout aren't those of the case files: ci/cases.py --join writes them")
    for name, text in zip(names, texts):
        print("{}: {} commands, {} rows, {} trials, {} connections".format(name, *counted(text)))
    print("{} commands, {} rows, {} trials, {} connections in {} case files".format(*map(sum, zip(*map(counted, texts))), len(names)))


main()
