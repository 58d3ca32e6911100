#!/usr/bin/env python3
"""What the deepest accepted programs take of the stack: each must be answered on 4 MiB, half of what a thread has by default.

usage: tests/faults/deep_walks.py    (PROGRAM=FILE tries another build)
For 1 to 63 maps, each of whose functions sums the bag before, by functions whose bodies are made deep by each of six forms, as deep as walks within one
another are evaluated at most: with one level more in each function the program must be told `no 90`. Then what the levels don't count: functions that hold
17,000 bangs within one another and are let go at the bottom of such walks, or with no walk around them, and 850 pairs that a walk in columns makes and lets go there.
It says how small a stack was enough for the dearest of each, and ends with status 1 where one isn't answered on 4 MiB, or isn't refused.
"""
import json
import os
import resource
import shutil
import subprocess
import sys
import tempfile

sys.path.insert(0, f"{os.path.dirname(os.path.abspath(__file__))}/../lib")
from places import TOP  # noqa: E402

PROGRAM = os.path.abspath(os.environ.get("PROGRAM", f"{TOP}/out/hitchseason"))
STACK = 4096
# Each puts n forms around a number.
FORMS = {
    "+": lambda n, e: e + " + 0" * n,
    "let": lambda n, e: "let c = 0 in " * n + e,
    "if": lambda n, e: "if 0 <= 1 then " * n + e + " else 0" * n,
    "application": lambda n, e: "(fn (c : num) => " * n + e + ") (![inf] 0)" * n,
    "linear application": lambda n, e: "(fun (c : num) => " * n + e + ") 0" * n,
    "case": lambda n, e: "case true of inl c => " * n + e + " | inr c => 0" * n,
    "fst": lambda n, e: "fst <" * n + e + ", 0>" * n,
}
MAPS = (1, 4, 8, 16, 32, 63)


def program(maps, body, first=""):
    """So many maps of the table, each of which sums the one before in this body: by functions that are applied twice, so that `let`s don't nest. The first
    sums the bag `a` of the `let`s that may stand in front."""
    lets = [first, f"let f1 = fn (b : bag num) => map (fn (x : num) => {body}) people in"]
    counts = [1]
    while 2 * counts[-1] <= maps:
        n = counts[-1]
        lets.append(f"let f{2 * n} = fn (b : bag num) => f{n} (![inf] (f{n} (![inf] b))) in")
        counts.append(2 * n)
    bag = "a" if first else "people"
    for n in reversed(counts):
        while maps >= n:
            lets.append(f"let a = f{n} (![inf] {bag}) in")
            bag, maps = "a", maps - n
    return " ".join(lets).strip() + " 0 * sum[0,1] a"


def holding():
    """Functions of functions, each of which gives one that holds its argument in 55 bangs: 308 times by the last, 16,940 bangs within one another."""
    lets = [f"let h = fun (p : {'![1] ' * 55}(num -o num)) => fun (y : num) => y in"]
    lets.append(f"let g0 = fun (g : num -o num) => h ({'![1] (' * 55}g{')' * 55}) in")
    for n in range(3):
        lets.append(f"let g{n + 1} = fun (g : num -o num) => {f'g{n} (' * 6}g{')' * 6} in")
    return " ".join(lets), "g0 (g0 (g1 (g1 (g1 (g2 (g2 (g3 (fun (z : num) => z))))))))"


def let_go(maps, levels):
    """Where a row is visited below so many walks, such a function is made and let go."""
    made, held = holding()
    return program(maps, FORMS["linear application"](levels, "sum[0,1] b"), f"{made} let a = map (fn (x : num) => let q = {held} in 0) people in")


def paired(maps, levels):
    """Where a row is visited below so many walks, 850 pairs within one another are made in columns."""
    nested = "".join(f"let p = {'(0, ' * n}p{')' * n} in " for n in range(52, 32, -1))
    return program(maps, FORMS["application"](levels, "sum[0,1] b"), f"let a = map (fn (x : num) => let p = x in {nested}let (c, d) = p in c) people in")


class Tries:
    def __init__(self, folder):
        self.folder = folder
        table = {"name": "people", "file": "people.csv", "columns": [{"name": "age", "type": "num"}]}
        owner = {"name": "census", "budget": 10**6, "capacity": 100, "tables": [table], "partitions": []}
        self.write("cat.json", json.dumps({"analysts": ["ann"], "owners": [owner]}))
        self.write("people.csv", "age\n30\n")
        self.write("key", "k" * 32)

    def write(self, name, text):
        with open(f"{self.folder}/{name}", "w", encoding="utf-8") as file:
            file.write(text)

    def ran(self, words, kibibytes=STACK, script=""):
        def limit():
            resource.setrlimit(resource.RLIMIT_STACK, (kibibytes * 1024, resource.getrlimit(resource.RLIMIT_STACK)[1]))

        return subprocess.run([PROGRAM, *words], cwd=self.folder, input=script, capture_output=True, text=True, preexec_fn=limit, check=False)

    def checked(self, query):
        self.write("query", query)
        return self.ran(["check", "cat.json", "census", "query"], 65536).stdout.strip()

    def asked(self, query, kibibytes=STACK):
        """The reply, or how the run ended without one."""
        shutil.rmtree(f"{self.folder}/journals", ignore_errors=True)
        if self.ran(["init", "cat.json", "key"]).returncode:
            sys.exit("tests/faults/deep_walks.py: no journal could be made")
        run = self.ran(["run", "cat.json", "key"], kibibytes, f"hello ann\nask census 1 {query}\n")
        return run.stdout.split("\n")[1] if run.returncode == 0 else f"an end by status {run.returncode}"

    def deepest(self, maps, form):
        """The deepest body with which so many maps are accepted, and what is said of one level more."""
        least, most = 0, 128
        while most - least > 1:
            middle = (least + most) // 2
            if self.checked(program(maps, form(middle, "sum[0,1] b"))).startswith("ok"):
                least = middle
            else:
                most = middle
        return least, self.checked(program(maps, form(most, "sum[0,1] b")))

    def least_stack(self, query):
        least, most = 32, STACK
        while most - least > 8:
            middle = (least + most) // 2
            if self.asked(query, middle).startswith("answer "):
                most = middle
            else:
                least = middle
        return most


def main():
    failed, refused, dearest = 0, 0, (0, "")
    with tempfile.TemporaryDirectory() as folder:
        tries = Tries(folder)
        for maps in MAPS:
            for name, form in FORMS.items():
                levels, beyond = tries.deepest(maps, form)
                query = program(maps, form(levels, "sum[0,1] b"))
                reply = tries.asked(query)
                if not reply.startswith("answer "):
                    print(f"{maps} maps, {levels} times {name}: {reply} on {STACK} KiB, and an answer is due")
                    failed = 1
                    continue
                dearest = max(dearest, (tries.least_stack(query), f"{maps} maps, {levels} times {name}"))
                if beyond != "memory":
                    continue
                refused += 1
                reply = tries.asked(program(maps, form(levels + 1, "sum[0,1] b")))
                if reply != "no 90":
                    print(f"{maps} maps, {levels + 1} times {name}: {reply}, and `no 90` is due")
                    failed = 1
        made, held = holding()
        others = {
            "let go without a walk": f"{made} {held} 3",
            "let go below 12 walks": let_go(12, 24),
            "pairs in columns below 13 walks": paired(13, 24),
        }
        stacks = {}
        for name, query in others.items():
            reply = tries.asked(query)
            if reply.startswith("answer "):
                stacks[name] = tries.least_stack(query)
            else:
                print(f"{name}: {reply} on {STACK} KiB, and an answer is due")
                failed = 1
    print(f"{len(MAPS) * len(FORMS)} programs; the dearest takes {dearest[0]} KiB of stack ({dearest[1]}); {refused} are told `no 90` with a level more")
    print("; ".join(f"{name}: {stack} KiB" for name, stack in stacks.items()))
    return failed or refused < 20


if __name__ == "__main__":
    sys.exit(main())
