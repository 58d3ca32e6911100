#!/usr/bin/env python3
"""Tests the client of clients/python and its commands over the real program: its last line says how many there were.

usage: tests/tools/client.py [--long]    (PROGRAM=FILE tries another build than tools/build's)
--long tries more of everything: 20,000 answers, 2,000 random programs with names, 400 runs that are killed. It ends with status 1 where one fails.
Two files of tests run at a time.
"""
import concurrent.futures
import os
import re
import subprocess
import sys
import time

sys.path.insert(0, f"{os.path.dirname(os.path.abspath(__file__))}/../lib")
from places import TOP  # noqa: E402

TESTS = f"{TOP}/clients/python/tests"


def ran(name):
    found = subprocess.run([sys.executable, name], cwd=TESTS, stdin=subprocess.DEVNULL, stdout=subprocess.PIPE, stderr=subprocess.STDOUT, text=True)
    return name, found.returncode, found.stdout


def main():
    begun = time.monotonic()
    if "PROGRAM" not in os.environ:
        subprocess.run([f"{TOP}/tools/build"], check=True)
        os.environ["PROGRAM"] = f"{TOP}/out/hitchseason"
    os.environ["PROGRAM"] = os.path.abspath(os.environ["PROGRAM"])
    os.environ["LONG"] = "1" if sys.argv[1:] == ["--long"] else "0"
    # The longest first.
    names = sorted((name for name in os.listdir(TESTS) if name.startswith("test_")), key=lambda name: name != "test_statistics.py")
    tests = failed = 0
    with concurrent.futures.ThreadPoolExecutor(2) as pool:
        for name, status, said in pool.map(ran, names):
            tests += sum(map(int, re.findall(r"^Ran (\d+) test", said, re.M)))
            failed += status != 0
            print(f"{name}: status {status}\n{said}" if status else "\n".join([f"{name}:", *re.findall("^.*    .*$", said, re.M)]))
    print(f"{tests} tests of the client, {failed} of {len(names)} files failed, in {time.monotonic() - begun:.0f} s")
    return 1 if failed else 0


sys.exit(main())
