#!/usr/bin/env python3
"""Times `derive` and `judge` next to `check`, and tools/judge.py, over programs of about 4,096 tokens and over ever longer derivations.

usage: bench/derivations.py [ROUNDS] [--page]    (PROGRAM=FILE measures another build; with --page tools/judge.py alone)
Bars: `derive` and `judge` each take at most 2 times what `check` of the program takes and 1 us for each byte of the derivation; where a derivation is twice as
long they take at most 2.5 times as much; tools/judge.py takes at most 2 s for a program of 4,096 tokens and a derivation of 1 MB. A time is processor time, the
least of the rounds (5), that of starting the process included. Memory is the most that a run had, from one more run. It ends with status 1 where a bar isn't met,
or the program says something else than tools/judge.py.
"""
import os
import subprocess
import sys
import tempfile

sys.path.insert(0, f"{os.path.dirname(os.path.abspath(__file__))}/../tests/lib")
from places import TOP  # noqa: E402

PROGRAM = os.path.abspath(os.environ.get("PROGRAM", f"{TOP}/crates/hitchseason/out/hitchseason"))
from beginning import numbers  # noqa: E402
from deriving import derived  # noqa: E402
from derivation_rows import doubling  # noqa: E402
from programs import checked, tokens_of  # noqa: E402
from random_programs import CATALOG, TABLES, balanced  # noqa: E402

FILES = (("cat.json", CATALOG), ("people.csv", b"age\n20\n30\n40\n"), ("stays.csv", b"ward,nights\nA,3\n"))
PAGE_BAR, PAGE_BYTES, SHORT, GROWTH = 2.0, 1_050_000, 0.02, 2.5


def sum_of(names):
    return balanced(list(names), "+")


def tree(depth, left, between, right, leaf):
    for _ in range(depth):
        leaf = f"{left}{leaf}{between}{leaf}{right}"
    return leaf


def lets(count, part):
    return "".join(f"let a{number}={part} in " for number in range(1, count + 1))


# Programs of some 4,096 tokens.
WIDE = {
    "sum of 1,024 numbers": tree(10, "(", "+", ")", "1"),
    "sum of 512 sizes": tree(9, "(", "+", ")", "size people"),
    "52 lets, all in use at 64 sums": lets(52, "size people") + f"({sum_of(f'a{n}' for n in range(1, 53))})+" + tree(6, "(", "+", ")", f"({sum_of(f'a{n}' for n in range(1, 10))})"),
    "52 lets of fractions, 700 uses": "".join(f"let !a{n}=![{n + 2}/{n + 3}](size people)in " for n in range(52)) + sum_of(f"a{n % 52}" for n in range(700)),
    "64 functions and their calls": tree(6, "(", "+", ")", "(fun(x:![2]num)=>let !y=x in y)(![2](size people))"),
    "64 sums of maps": tree(6, "(", "+", ")", "sum[0,9](map(fn(x:num)=>clip[0,9]x)people)"),
}


class Trial:
    def __init__(self, rounds, page):
        self.rounds, self.page, self.missed = rounds, page, False

    def verdict(self, holds, said):
        self.missed = self.missed or not holds
        return "met" if holds else f"MISSED: {said}"

    def spent(self, words):
        """The least processor time of the rounds, and what was written."""
        times = []
        for _ in range(self.rounds):
            with open("output", "wb") as output:
                process = subprocess.Popen(words, stdin=subprocess.DEVNULL, stdout=output)
                used = os.wait4(process.pid, 0)[2]
            times.append(used.ru_utime + used.ru_stime)
        with open("output", "rb") as output:
            return min(times), output.read()

    @staticmethod
    def memory(words):
        """In MiB, by a small process that starts it: a large one's own memory would count."""
        ran = subprocess.run(["/usr/bin/time", "-f", "%M", *words], stdin=subprocess.DEVNULL, stdout=subprocess.DEVNULL, stderr=subprocess.PIPE, text=True)
        return int(ran.stderr.split()[-1]) / 1024

    def row(self, name, program, derivation, own=True):
        """One program with its derivation: what it takes of each, and the bars. What `derive` and `judge` took."""
        for file, data in (("p", program), ("d", derivation)):
            with open(file, "wb") as kept:
                kept.write(data)
        by_page, said = self.spent([sys.executable, f"{TOP}/tools/judge.py", "cat.json", "census", "p", "d"])
        within = len(derivation) > PAGE_BYTES or by_page <= PAGE_BAR
        print(f"{name}: {len(tokens_of(program))} tokens, a derivation of {len(derivation):,} bytes: {said.decode().strip()}")
        told = self.verdict(within, f"{PAGE_BAR} s") if len(derivation) <= PAGE_BYTES else "no bar"
        print(f"    tools/judge.py {by_page:.2f} s, {self.memory([sys.executable, f'{TOP}/tools/judge.py', 'cat.json', 'census', 'p', 'd']):.0f} MiB: {told}", flush=True)
        if self.page:
            return None
        of_check, took = self.spent([PROGRAM, "check", "cat.json", "census", "p"])[0], []
        bar = 2 * of_check + len(derivation) / 10**6
        for command, words, wanted in [("derive", ["p"], derivation)] * own + [("judge", ["p", "d"], said)]:
            given = [PROGRAM, command, "cat.json", "census", *words]
            used, found = self.spent(given)
            told = self.verdict(used <= bar, f"{bar * 1000:.0f} ms") if found == wanted else self.verdict(False, f"WRONG, it said {found[:80]!r}")
            print(f"    {command} {used * 1000:.1f} ms, {self.memory(given):.0f} MiB, next to {of_check * 1000:.1f} ms of check, at most {bar * 1000:.1f} ms: {told}", flush=True)
            took.append(used)
        return took

    def growing(self, name, made, own=True):
        """Derivations each twice as long as the one before; not the program's own ones are judged alone."""
        before = None
        for program, derivation in made:
            took = self.row(f"{name}, {len(derivation) / 2**20:.1f} MiB", program, derivation, own)
            for command, first, second in zip(("derive", "judge") if own else ("judge",), before or (), took or ()):
                if first > SHORT:
                    print(f"    {command}: {second / first:.2f} times the one before, at most {GROWTH}: {self.verdict(second <= GROWTH * first, f'{GROWTH} times')}")
            before = took


def least(program):
    return program, derived(checked(program, TABLES)[0], TABLES)


def main():
    words = [word for word in sys.argv[1:] if word != "--page"]
    (rounds,) = numbers(__doc__, 5, words=words)
    trial = Trial(rounds, "--page" in sys.argv)
    with tempfile.TemporaryDirectory(dir="/dev/shm" if os.access("/dev/shm", os.W_OK) else None) as folder:
        os.chdir(folder)
        for name, data in FILES:
            with open(name, "wb") as file:
                file.write(data)
        for name, text in WIDE.items():
            trial.row(name, *least(text.encode()))
        trial.growing("lets that double a type", (least(doubling(names)) for names in range(12, 19)))
        size, one = b"size people", b"num | people 1\n"
        trial.growing("a line of nested bags", ((size, one + b"bag " * many + b"num | people 1\n") for many in (2**15, 2**16, 2**17, 2**18)), own=False)
        trial.growing("a line of names", ((size, one + b"bag num" + b"".join(b" | n%08d 1" % at for at in range(many)) + b"\n") for many in (2**14, 2**15, 2**16)), own=False)
        os.chdir(TOP)
    sys.exit(1 if trial.missed else 0)


main()
