#!/usr/bin/env python3
"""How fast several workers answer, next to one worker, next to processes of one worker each, and next to a plain C loop, in turn.

usage: bench/workers_speed.py [ROUNDS [ANSWERS [FOLDER]]]    (PROGRAM=FILE measures another build)
9 rounds, 500 answers an owner, and a folder on the disk of this repository, unless said. Needs cc; the last bar needs perf, and is left out without it.
Each figure is the median of the rounds, in which what is beside each other is run in turn, in either order; what stands next to it is what it comes to
by the median of the rounds' ratios. Above it stand the least and the most wall time of both. Bars:

- a run by one worker takes at most 1.25 times the wall time of the loop that writes and syncs the same (bench/journal_loop.c);
- 4 workers over 4 owners, the journals in memory and a program of about a millisecond over 2^14 rows, give at least 0.75 times the answers a
  second of four runs by one worker at once, each in a folder of its own;
- on the disk, `size people`, at least 0.8 times those of four loops at once, each on a file of its own;
- 16 workers at one owner take at most 1.5 times the processor time an answer of one worker, and give at least 0.8 times its answers a second,
  on the disk, with 16 times as many answers in memory (some 30 ms), and with 160 times as many there, where the start of the workers is lost in the rest;
- a hold of an owner's lock that nobody else wants takes at most 1 us above the book's call: what a run by one worker spends in the lock's and
  the desk's own code, and where that was put into a caller in the caller's, too, by samples of the processor's clock, a hold. An answer takes two, for its reservation and for its settlement.

2 and 4 workers at one owner stand below, without a bar.

Times are of whole processes, but the loop's, which takes its own after the making of its file. It ends with status 1 where a bar isn't met.
"""
import os
import re
import shutil
import subprocess
import sys
import tempfile
import time
from statistics import median

sys.path.insert(0, f"{os.path.dirname(os.path.abspath(__file__))}/../tests/lib")
from places import TOP  # noqa: E402

PROGRAM = os.path.abspath(os.environ.get("PROGRAM", f"{TOP}/crates/hitchseason/out/hitchseason"))
from catalog import catalog, owner  # noqa: E402

OWNERS = ("o1", "o2", "o3", "o4")
SHORT = "size people"
# some 0.14 ms over 2^14 rows, seven times
LONG = " + ".join(["sum[0,100] (map (fn (x : num) => x + 1) (filter (fn (x : num) => x <= 50) people))"] * 7)
MEMORY = "/dev/shm"
# Where the lock's and the desk's own code stands: their functions, the kit's loop in which a caller waits, and a caller into which the compiler puts one
# (which is counted whole, so the figure is too great rather than too small). And how often a second the clock is sampled.
LOCKS = ("owner_lock::", "owner_desk::", "core::sync::", "core::atomic::", "answer_path::answer::settle")
SAMPLES = 20000


class Folder:
    """A folder with new journals, its scripts, and what a run on it takes."""

    def __init__(self, place, names, rows, answers):
        self.made = tempfile.TemporaryDirectory(dir=place)
        self.name = self.made.name
        self.put("cat.json", catalog(*[owner(name, budget=10**18, capacity=2 * len(names) * answers) for name in names], analysts=("ann",)))
        self.put("key", bytes(32))
        self.put("people.csv", b"age\n" + b"".join(b"%d\n" % (20 + at * 7919 % 80) for at in range(rows)))

    def put(self, name, data):
        with open(f"{self.name}/{name}", "wb") as file:
            file.write(data)

    def script(self, script, blocks):
        """Blocks of so many asks of an owner: an owner, a count and a program for each."""
        written = [f"hello ann\n{f'ask {name} 1 {program}{chr(10)}' * count}bye\n" for name, count, program in blocks]
        self.put(script, "".join(written).encode())

    def renew(self):
        subprocess.run(["rm", "-rf", f"{self.name}/journals"], check=True)
        subprocess.run([PROGRAM, "init", "cat.json", "key"], cwd=self.name, check=True, stdout=subprocess.DEVNULL)

    def begin(self, script, workers):
        with open(f"{self.name}/{script}") as given, open(f"{self.name}/out", "w") as out:
            return subprocess.Popen([PROGRAM, "run", "cat.json", "key", "--workers", str(workers)], cwd=self.name, stdin=given, stdout=out)

    def answered(self):
        with open(f"{self.name}/out") as out:
            return sum(line.startswith("answer ") for line in out)


def timed(folders, script, workers, answers):
    """Wall and processor seconds of runs at once, one in each folder, which give so many answers together."""
    for folder in folders:
        folder.renew()
    began = time.monotonic()
    runs = [folder.begin(script, workers) for folder in folders]
    used = [os.wait4(run.pid, 0) for run in runs]
    wall = time.monotonic() - began
    found = sum(folder.answered() for folder in folders)
    if any(status for _, status, _ in used) or found != answers:
        sys.exit(f"{found} answers in {[folder.name for folder in folders]}, and {answers} are due")
    return wall, sum(one.ru_utime + one.ru_stime for _, _, one in used)


def looped(loop, place, count, answers):
    """Wall seconds of so many loops at once; their processor time isn't wanted."""
    with tempfile.TemporaryDirectory(dir=place) as folder:
        runs = [subprocess.Popen([loop, f"{folder}/{number}", str(answers)], stdout=subprocess.PIPE, text=True) for number in range(count)]
        return max(float(run.communicate()[0]) for run in runs), 0


class Table:
    missed = False

    def row(self, what, figure, bar, met):
        self.missed = self.missed or not met
        print(f"{what:<52} {figure:>24} {bar:>30}   {'met' if met else 'MISSED'}", flush=True)


def in_turn(rounds, ours, theirs):
    """The figures of both ways: the medians of ours, and next to them theirs by the median of the rounds' ratios, since machines change their speed from
    round to round. Every other round begins with the other way."""
    found = {ours: [], theirs: []}
    for number in range(rounds):
        for way in (ours, theirs) if number % 2 == 0 else (theirs, ours):
            found[way].append(way())
    walls = [sorted(wall for wall, _ in found[way]) for way in (ours, theirs)]
    print("    " + ", and next to it ".join(f"{wall[0]:.3f} to {wall[-1]:.3f} s" for wall in walls))
    figures = []
    for of_ours, of_theirs in zip(zip(*found[ours]), zip(*found[theirs])):
        times = median(one / other if other else 1 for one, other in zip(of_ours, of_theirs))
        figures.append((median(of_ours), median(of_ours) / times))
    return list(zip(*figures))


def one_worker(table, rounds, answers, disk, loop):
    folder = Folder(disk, OWNERS[:1], 3, answers)
    folder.script("script", [(OWNERS[0], answers, SHORT)])
    (ours, _), (theirs, _) = in_turn(rounds, lambda: timed([folder], "script", 1, answers), lambda: looped(loop, disk, 1, answers))
    table.row(f"{answers} asks, one worker, on the disk, next to the loop", f"{ours:.3f} s", f"1.25 * {theirs:.3f} s", ours <= 1.25 * theirs)


def four_in_memory(table, rounds, answers):
    all_of_them, apart = Folder(MEMORY, OWNERS, 2**14, answers), [Folder(MEMORY, [name], 2**14, answers) for name in OWNERS]
    all_of_them.script("script", [(name, answers, LONG) for name in OWNERS])
    for name, folder in zip(OWNERS, apart):
        folder.script("script", [(name, answers, LONG)])
    (ours, used), (theirs, used_apart) = in_turn(
        rounds, lambda: timed([all_of_them], "script", 4, 4 * answers), lambda: timed(apart, "script", 1, 4 * answers)
    )
    ours, theirs = 4 * answers / ours, 4 * answers / theirs
    table.row("4 workers, 4 owners, in memory, next to 4 processes", f"{ours:.0f} a second", f"0.75 * {theirs:.0f} a second", ours >= 0.75 * theirs)
    print(f"    processor time an answer {used / answers / 4 * 1000:.3f} ms, of the 4 processes {used_apart / answers / 4 * 1000:.3f} ms")


def four_on_disk(table, rounds, answers, disk, loop):
    folder = Folder(disk, OWNERS, 3, answers)
    folder.script("script", [(name, answers, SHORT) for name in OWNERS])
    (ours, _), (theirs, _) = in_turn(rounds, lambda: timed([folder], "script", 4, 4 * answers), lambda: looped(loop, disk, 4, answers))
    ours, theirs = 4 * answers / ours, 4 * answers / theirs
    table.row("4 workers, 4 owners, on the disk, next to 4 loops", f"{ours:.0f} a second", f"0.8 * {theirs:.0f} a second", ours >= 0.8 * theirs)


def at_one_owner(table, rounds, answers, place, where):
    each = answers // 16
    answers = 16 * each
    folder = Folder(place, OWNERS[:1], 3, answers)
    folder.script("script", [(OWNERS[0], each, SHORT)] * 16)
    by = lambda workers: lambda: timed([folder], "script", workers, answers)
    (many, used), (one, used_by_one) = in_turn(rounds, by(16), by(1))
    used, used_by_one = (seconds / answers * 10**6 for seconds in (used, used_by_one))
    many, one = answers / many, answers / one
    where = f"{where}, {answers} answers"
    table.row(f"16 workers at one owner {where}: time", f"{used:.1f} us an answer", f"1.5 * {used_by_one:.1f} us", used <= 1.5 * used_by_one)
    table.row(f"16 workers at one owner {where}: answers", f"{many:.0f} a second", f"0.8 * {one:.0f} a second", many >= 0.8 * one)
    for few in (2, 4):
        (wall, used), (one, used_by_one) = in_turn(rounds, by(few), by(1))
        print(f"    {few} workers at one owner {where}: {used / used_by_one:.2f} times the processor time of one, {one / wall:.2f} times its answers")


def one_hold(table, rounds, answers, room):
    folder = Folder(MEMORY, OWNERS[:1], 3, answers)
    folder.script("script", [(OWNERS[0], answers, SHORT)])
    found, kept = [], f"{room}/samples"
    for _ in range(rounds):
        folder.renew()
        with open(f"{folder.name}/script") as given, open(f"{folder.name}/out", "w") as out:
            record = ["perf", "record", "-q", "-e", "cpu-clock:u", "-F", str(SAMPLES), "-o", kept]
            subprocess.run([*record, PROGRAM, "run", "cat.json", "key"], cwd=folder.name, stdin=given, stdout=out, stderr=subprocess.DEVNULL, check=True)
        told = subprocess.run(["perf", "report", "-i", kept, "--stdio", "-n", "--sort", "symbol"], capture_output=True, text=True, check=True).stdout
        samples = [(int(count), name) for count, name in re.findall(r"^ +[\d.]+% +(\d+) +\[\.\] (\S+)", told, re.M)]
        if folder.answered() != answers or not any(name.startswith(LOCKS[0]) for _, name in samples):
            sys.exit(f"not {answers} answers, or no function of the lock among the {len(samples)} that perf names")
        found.append(sum(count for count, name in samples if name.startswith(LOCKS)) / SAMPLES / (2 * answers) * 10**6)
    table.row(f"a hold that nobody else wants, {answers} answers", f"{median(found):.3f} us", "1 us", median(found) <= 1)


def main():
    if not os.access(PROGRAM, os.X_OK):
        sys.exit(f"there is no {PROGRAM}: run 'rt run' in crates/hitchseason first, which proves and builds it")
    words = sys.argv[1:]
    rounds, answers = (int(word) for word in (words[:2] + ["9", "500"][len(words[:2]) :]))
    disk = words[2] if len(words) > 2 else f"{TOP}/out"
    os.makedirs(disk, exist_ok=True)
    table = Table()
    print(f"{os.cpu_count()} processors, load {os.getloadavg()[0]:.1f}, {rounds} rounds")
    with tempfile.TemporaryDirectory() as built:
        loop = f"{built}/loop"
        subprocess.run(["cc", "-O2", "-o", loop, f"{TOP}/bench/journal_loop.c"], check=True)
        one_worker(table, rounds, answers, disk, loop)
        if os.path.isdir(MEMORY):
            four_in_memory(table, rounds, answers)
        four_on_disk(table, rounds, answers, disk, loop)
        at_one_owner(table, rounds, answers, disk, "on the disk")
        if os.path.isdir(MEMORY):
            for times in (16, 160):
                at_one_owner(table, rounds, times * answers, MEMORY, "in memory")
            if shutil.which("perf"):
                one_hold(table, rounds, 160 * answers, built)
            else:
                print("a hold that nobody else wants: left out, since there is no perf")
    sys.exit(1 if table.missed else 0)


main()
