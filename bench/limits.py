#!/usr/bin/env python3
"""What a catalog's greatest numbers take: 64 owners, and partitions of 4,000 keys.

usage: bench/limits.py [ROUNDS [NAME..]]    7 rounds, and all of the four, unless said: reply, divide, catalogs, memory
                                            (PROGRAM=FILE measures another build)
- reply: with 64 owners of two tables of 1,000 rows the first reply over a connection comes at most 0.2 s after the start of `serve`: the median of
  the rounds. Journals have no records, and every table is a file of its own.
- divide: a `run` divides rows by key where it loads a table. Of a table of 2^20 rows of a text and a number, whose texts are 4,000 keys at random, that
  takes at most twice one pass over the text column. What is compared is processor time, the least of the rounds. Dividing is a `run` of no ask
  with that partition less the same run without it, and less the same difference over a table of no rows, which is what the keys themselves cost. A
  pass is an eighth of what eight asks cost in the run without the partition, each of which looks at the text of every row and at no number:
  `size (filter (fn (p : text * num) => let (town, age) = p in town == "town0001") people)`.
- catalogs: `check`, which divides nothing, reads a catalog of 64 owners with 8 tables of 16 columns each in at most 1 s; and one of 64 owners with
  8 partitions of 4,000 keys each, 2,048,000 keys as long as a file of 2^26 bytes lets them be, in at most 2 s: wall time, the median of the rounds.
- memory: a `serve` over 64 owners of two tables of 1,000 rows, with room for 262,144 records each, has taken at most 64 MB by its first reply; with 8
  partitions of 4,000 keys for each owner at most 1,000 MB, which is 488 bytes a key. Records take theirs as they come: up to 120 bytes each.
It ends with status 1 where a bar isn't met, and with 2 where there is no program or no /dev/shm, in which all files lie.
"""
import os
import random
import socket
import subprocess
import sys
import tempfile
import time
from statistics import median

os.environ.setdefault("PROGRAM", f"{os.path.dirname(os.path.dirname(os.path.abspath(__file__)))}/crates/hitchseason/out/hitchseason")
sys.path.insert(0, f"{os.path.dirname(os.path.abspath(__file__))}/../tests/lib")
import places  # noqa: E402,F401
from beginning import numbers  # noqa: E402
from served import MEMORY, PROGRAM, Wrong, free_ports  # noqa: E402
from catalog import KEYS, OWNERS, catalog, owner  # noqa: E402

FILE_LIMIT, RECORDS = 2**26, 262_144
NAMES = [f"owner_{number}" for number in range(OWNERS)]
COLUMNS = (("town", "text"), ("age", "num"))
PASS = 'ask owner_0 0.000001 size (filter (fn (p : text * num) => let (town, age) = p in town == "town0001") people)\n'
ASKS = 8


def rows_of(rng, towns, count):
    return "town,age\n" + "".join(f"{rng.choice(towns)},{rng.randrange(100)}\n" for _ in range(count))


class House:
    """A folder in memory with a catalog of these owners, a key and files."""

    def __init__(self, owners, files):
        self.room = tempfile.TemporaryDirectory(dir=MEMORY)
        self.folder = self.room.name
        for name, data in (("catalog.json", catalog(*owners)), ("key", bytes(32)), ("zero", b"0"), *files.items()):
            with open(f"{self.folder}/{name}", "wb") as file:
                file.write(data if isinstance(data, bytes) else data.encode())

    def __enter__(self):
        return self

    def __exit__(self, *_):
        self.room.cleanup()

    def ran(self, *words, script=""):
        """What a command says, and the wall and processor seconds that it takes."""
        begun = time.perf_counter()
        with open(f"{self.folder}/script", "w+") as lines:
            lines.write(script)
            lines.seek(0)
            run = subprocess.Popen([PROGRAM, *words], cwd=self.folder, stdin=lines, stdout=subprocess.PIPE, text=True)
            said = run.stdout.read()
            _, status, used = os.wait4(run.pid, 0)
        run.returncode = os.waitstatus_to_exitcode(status)
        run.stdout.close()
        if run.returncode != 0:
            raise Wrong(f"{words[0]} ended with {run.returncode} and {said[:200]!r}")
        return said, time.perf_counter() - begun, used.ru_utime + used.ru_stime

    def first_reply(self):
        """Seconds from the start of `serve` to a reply over a connection, and the most memory that it has had then, in MB."""
        port, line = free_ports(1), f"left {NAMES[-1]}\n"
        begun = time.perf_counter()
        run = subprocess.Popen([PROGRAM, "serve", "catalog.json", "key", "--port", str(port), "--each", "1"], cwd=self.folder, stdin=subprocess.DEVNULL)
        while True:
            try:
                link = socket.create_connection(("127.0.0.1", port))
                break
            except ConnectionRefusedError:
                if run.poll() is not None or time.perf_counter() - begun > 600:
                    raise Wrong("serve doesn't listen") from None
                time.sleep(0.001)
        with link, link.makefile("r") as replies:
            link.sendall(line.encode())
            reply = replies.readline()
            took = time.perf_counter() - begun
            peak = peak_of(run.pid)
        run.wait(60)
        if reply != "left 0 10000000 0\n":
            raise Wrong(f"the reply was {reply!r}")
        return took, peak


def peak_of(process):
    with open(f"/proc/{process}/status", encoding="ascii") as file:
        return next(int(line.split()[1]) for line in file if line.startswith("VmHWM")) * 1024 / 1e6


def small_owners(parts=(), keys=(), capacity=100):
    """64 owners of two tables of 1,000 rows, whose towns are these keys, and their files."""
    rng, owners, files = random.Random(64), [], {}
    for name in NAMES:
        for table in ("people", "stays"):
            files[f"{name}_{table}.csv"] = rows_of(rng, keys or [f"town{number}" for number in range(100)], 1000)
        tables = tuple((table, f"{name}_{table}.csv", COLUMNS) for table in ("people", "stays"))
        owners.append(owner(name, tables, capacity=capacity, partitions=parts))
    return owners, files


def told(what, figure, unit, bar, more=""):
    """A sentence on a figure and its bar, and whether it is met."""
    met = figure <= bar
    print(f"{what}: {figure:.3g} {unit}{more}, at most {bar} wanted{'' if met else ': MISSED'}", flush=True)
    return met


def reply(rounds):
    with House(*small_owners()) as house:
        house.ran("init", "catalog.json", "key")
        took = [house.first_reply()[0] for _ in range(rounds)]
    return [told("64 owners of two tables of 1,000 rows, the first reply after the start of `serve`", median(took), "s", 0.2,
        f" ({min(took):.3f} to {max(took):.3f})")]  # fmt: skip


def divide(rounds):
    keys = [f"town{number:04}" for number in range(KEYS)]
    rows, table = rows_of(random.Random(16), keys, 2**20), (("people", "people.csv", COLUMNS),)
    make = lambda parts, rows: House([owner(NAMES[0], table, budget=10**12, capacity=10**4, partitions=parts)], {"people.csv": rows})
    parts, none = (("area", "people", "town", keys),), "town,age\n"
    with make((), rows) as plain, make(parts, rows) as parted, make((), none) as bare, make(parts, none) as keyed:
        for house in (plain, parted, bare, keyed):
            house.ran("init", "catalog.json", "key")
        used = lambda house, script="": house.ran("run", "catalog.json", "key", script=script)[2]
        ways = lambda: (used(plain), used(parted), used(bare), used(keyed), used(plain, "hello ann\n" + ASKS * PASS))
        without, divided, empty, with_keys, passes = (min(found) for found in zip(*(ways() for _ in range(rounds))))
    one, dividing = (passes - without) / ASKS, divided - without - (with_keys - empty)
    print(f"2^20 rows: a run of {without:.3f} s, of {divided:.3f} s with the keys, which alone cost {with_keys - empty:.3f} s; a pass {1000 * one:.1f} ms")
    more = f", {1000 * dividing:.1f} ms"
    return [told("2^20 rows divided by 4,000 keys, in passes over the text column", dividing / one, "passes", 2, more)]


def catalogs(rounds):
    columns = tuple((f"column_{number}", "num") for number in range(16))
    wide = [owner(name, tuple((f"table_{number}", "wide.csv", columns) for number in range(8))) for name in NAMES]
    files = {"wide.csv": ",".join(name for name, _ in columns) + "\n", "people.csv": "town,age\n"}
    met = [catalog_read(rounds, "64 owners of 8 tables", wide, files, 1)]
    full = lambda length: [owner(name, (("people", "people.csv", COLUMNS),), partitions=eight_parts(length)) for name in NAMES]
    # A key takes four bytes more than its own, by the blank and the comma between two of them.
    length = min(64, FILE_LIMIT // (OWNERS * 8 * KEYS) - 5)
    return met + [catalog_read(rounds, "64 owners of 8 partitions of 4,000 keys", full(length), files, 2)]


def eight_parts(length):
    keys = [f"k{number:0{length - 1}}" for number in range(KEYS)]
    return tuple((f"part_{number}", "people", "town", keys) for number in range(8))


def catalog_read(rounds, what, owners, files, bar):
    with House(owners, files) as house:
        size = os.path.getsize(f"{house.folder}/catalog.json")
        ran = [house.ran("check", "catalog.json", NAMES[-1], "zero") for _ in range(rounds)]
        if size > FILE_LIMIT or {said for said, *_ in ran} != {"ok 0\n"}:
            raise Wrong(f"{what}: {size} bytes, {ran[0][0]!r}")
    took = [wall for _, wall, _ in ran]
    return told(f"a catalog of {what}, read", median(took), "s", bar, f" ({size / 1e6:.1f} MB, {min(took):.2f} to {max(took):.2f})")


def memory(rounds):
    keys = [f"town{number:04}" for number in range(KEYS)]
    parts = tuple((f"part_{number}", "people", "town", keys) for number in range(8))
    met = []
    for what, bar, house in (
        ("64 owners", 64, House(*small_owners(capacity=RECORDS))),
        ("64 owners of 8 partitions of 4,000 keys", 1000, House(*small_owners(parts, keys, RECORDS))),
    ):
        with house:
            house.ran("init", "catalog.json", "key")
            took, peak = house.first_reply()
        met.append(told(f"{what} of two tables of 1,000 rows, the peak of a `serve` by its first reply", peak, "MB", bar, f", {took:.2f} s after its start"))
    return met


BARS = {"reply": reply, "divide": divide, "catalogs": catalogs, "memory": memory}


def main():
    names = [word for word in sys.argv[1:] if word in BARS]
    (rounds,) = numbers(__doc__, 7, words=[word for word in sys.argv[1:] if word not in BARS])
    if not os.access(PROGRAM, os.X_OK) or not os.access(MEMORY, os.W_OK):
        print(f"there is no {PROGRAM}, which `rt run` in crates/hitchseason proves and builds, or no {MEMORY}", file=sys.stderr)
        sys.exit(2)
    print(f"{os.cpu_count()} processors, load {os.getloadavg()[0]:.1f}, {rounds} rounds")
    try:
        met = [one for name, bar in BARS.items() if not names or name in names for one in bar(rounds)]
    except Wrong as fault:
        print(f"WRONG: {fault}")
        sys.exit(1)
    sys.exit(0 if all(met) else 1)


if __name__ == "__main__":
    main()
