#!/usr/bin/env bash
# Asks of the 4,000 parts of a table of 2^20 rows beside one ask of the whole, by the same program, which maps every row: processor time, the
# least of five runs each, less a run of no ask. Either is lost in what the loading varies by, so each part is asked ten times and the whole forty times, and
# a tenth and a fortieth are taken.
# Together the parts are to take at most four times that.
# The catalog and its journals lie on tmpfs, so that no disk is timed.
# usage: bench/parts.sh [KEYS]    (PROGRAM=FILE measures another build)
# It ends with status 1 where they take more.
set -euo pipefail
. "$(dirname "$0")/../tests/lib/common.sh"
need_program
need_tool python3 python3
program=$(realpath "$program")
keys=${1:-4000}
export TMPDIR=/dev/shm
make_room
python3 - "$keys" <<'END'
import json
import random
import sys
rng = random.Random(16)
keys = [f"town{number:04}" for number in range(int(sys.argv[1]))]
with open("people.csv", "w") as file:
    file.write("town,age\n")
    file.writelines(f"{rng.choice(keys)},{rng.randrange(100)}\n" for _ in range(2**20))
table = {"name": "people", "file": "people.csv", "columns": [{"name": "town", "type": "text"}, {"name": "age", "type": "num"}]}
partition = {"name": "area", "table": "people", "column": "town", "keys": keys}
owner = {"name": "census", "budget": 10**15, "capacity": 2 * 10**5, "tables": [table], "partitions": [partition]}
with open("cat.json", "w") as file:
    json.dump({"analysts": ["ann"], "owners": [owner]}, file)
ask = "1 sum[0,100] (map (fn (p : text * num) => let (town, age) = p in age + 1) people)\n"
for name, lines in [("none", []), ("whole", 40 * [f"ask census {ask}"]), ("parts", 10 * [f"askpart census area {key} {ask}" for key in keys])]:
    with open(name, "w") as file:
        file.write("hello ann\n" + "".join(lines) + "left census\n")
END
read -r none whole parts < <(
    python3 - "$program" <<'END'
import resource
import shutil
import subprocess
import sys
program = sys.argv[1]


def spent(script):
    shutil.rmtree("journals", ignore_errors=True)
    subprocess.run([program, "init", "cat.json", "key"], check=True, stdout=subprocess.DEVNULL)
    before = resource.getrusage(resource.RUSAGE_CHILDREN)
    with open(script) as lines, open(f"{script}.replies", "w") as replies:
        subprocess.run([program, "run", "cat.json", "key"], stdin=lines, stdout=replies, check=True)
    after = resource.getrusage(resource.RUSAGE_CHILDREN)
    return after.ru_utime + after.ru_stime - before.ru_utime - before.ru_stime


rounds = [[spent(script) for script in ("none", "whole", "parts")] for _ in range(5)]
print(*(min(times) for times in zip(*rounds)))
END
)
tail -qn 1 whole.replies parts.replies
python3 - "$none" "$whole" "$parts" "$keys" <<'END'
import sys
none, whole, parts = map(float, sys.argv[1:4])
one, all_parts = (whole - none) / 40, (parts - none) / 10
times = all_parts / one
print(f"loading {none:.2f} s; the whole {one:.4f} s; {sys.argv[4]} parts {all_parts:.3f} s: {times:.2f} times (bar 4)")
sys.exit(times > 4)
END
