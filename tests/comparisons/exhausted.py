#!/usr/bin/env python3
"""Benches beside the second server over a program of which every fourth number draws zeros alone, and so is exhausted, as no number of a key is.

usage: tests/comparisons/exhausted.py make FOLDER    a copy of this repository in FOLDER, whose numbers 1, 5, 9, .. draw zeros, built by tools/build: out/hitchseason
       PROGRAM=FOLDER/out/hitchseason tests/comparisons/exhausted.py BENCH [WORDS..]    compare_scripts.py, compare_orders.py or compare_gen.py with these words, the
                                         second server drawing alike; it ends as BENCH does, whatever of its replies never came
"""
import os
import runpy
import shutil
import subprocess
import sys
from itertools import repeat

HERE = os.path.dirname(os.path.abspath(__file__))
sys.path.insert(0, f"{HERE}/../lib")
from places import TOP  # noqa: E402

STREAMS = "crates/word_streams/src/lib.rt"
CHANGES = (
    ("ChaChaWords { rng, place: 0 }", "ChaChaWords { rng, place: 0, zeros: n % 4 == 1 }"),
    ("    rng: ChaCha20Rng,\n    place: u64,\n", "    rng: ChaCha20Rng,\n    place: u64,\n    zeros: bool,\n"),
    ("        next_u64_via_u32(&mut self.rng)", "        if self.zeros {\n            return 0;\n        }\n        next_u64_via_u32(&mut self.rng)"),
)


def make(folder):
    shutil.copytree(TOP, folder, ignore=shutil.ignore_patterns("out", "__pycache__"))
    with open(f"{folder}/{STREAMS}") as file:
        text = file.read()
    for before, after in CHANGES:
        if text.count(before) != 1:
            sys.exit(f"{STREAMS} doesn't have {before!r} once")
        text = text.replace(before, after)
    with open(f"{folder}/{STREAMS}", "w") as file:
        file.write(text)
    subprocess.run([f"{folder}/tools/build"], check=True)


def run(name, words):
    import compare_scripts
    import orders
    import reference

    draws = reference.key_draws
    reference.key_draws = lambda key, owner, number: repeat(0) if number % 4 == 1 else draws(key, owner, number)
    # What is worked by hand there is of a key's own draws; and too many asks are exhausted for some replies.
    orders.check = lambda: None
    compare_scripts.WANTED.clear()
    sys.argv = [f"{HERE}/{name}", *words]
    if name == "compare_scripts.py":
        compare_scripts.main()
    else:
        runpy.run_path(sys.argv[0], run_name="__main__")


if sys.argv[1:2] == ["make"] and len(sys.argv) == 3:
    make(sys.argv[2])
elif len(sys.argv) > 1 and sys.argv[1] in ("compare_scripts.py", "compare_orders.py", "compare_gen.py") and "PROGRAM" in os.environ:
    run(sys.argv[1], sys.argv[2:])
else:
    print(__doc__.strip())
    sys.exit(2)
