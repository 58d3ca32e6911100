#!/usr/bin/env bash
# What the journal costs: asks of `size people` beside a plain C loop with the same writes and syncs, in turn; `audit` of a full journal, of all
# versions; asks behind many records and behind few; an ask that opens the last area.
# usage: bench/journal.sh [ROUNDS [FOLDER]]    (PROGRAM=FILE measures another build). FOLDER lies on a real disk: out/ here, unless said
#        bench/journal.sh long [FOLDER]        one round of 100,000 asks on the disk alone, all growths of the journal among them: some minutes
# Bars: a run of 2,000 asks, and of 100,000, takes at most 1.25 times the loop's wall time on the disk, and on tmpfs, less the run of no ask, at most 10
# microseconds an answer above the loop; `init` of a journal for 262,144 records at most twice that of one for 64; an ask behind 200,000 records at most
# 1.1 times as long as one behind none; the dearest ask, which opens the area of 262,144 slots, at most 1.5 times the loop's; `audit` of 131,072
# reservations with their settlements under 0.25 seconds; at most 128 bytes of memory a record. Each time is the least of the rounds. It ends with
# status 1 where one isn't met.
. "$(dirname "$0")/../tests/lib/common.sh"
rounds=${1:-7}
disk=${2:-$top/out}
answers=2000
[ "$rounds" != long ] || { rounds=1; answers=100000; }
need_program
need_tool /usr/bin/time time
need_tool cc gcc
need_tool python3 python3
mkdir -p "$disk"
make_room
behind=30000
passed=0
cc -O2 -o loop "$top/bench/journal_loop.c" || exit 2
printf 'age\n20\n30\n40\n' >people.csv
# deep NAME CAPACITY: the catalog NAME with a budget that nothing uses up and room for so many records.
deep() { catalog "$1" people.csv && sed -i "s/10000000/1000000000000000000/; s/\"capacity\": 100/\"capacity\": $2/" "$1"; }
deep short.json $((2 * answers))
deep full.json 262144
deep small.json 64
deep least.json 2
# asks COUNT: a script of so many asks.
asks() { echo "hello ann" && yes "ask census 1 size people" | head -n "$1"; }
asks "$answers" >many
asks "$behind" >some
asks 0 >none
# filled RECORDS FILE [VERSION]: a journal of full.json with so many records, each reservation with its settlement; of version 3, unless said.
filled() {
    python3 - "$top/tools/lib" "$1" "$2" "${3:-3}" <<'END'
import sys
sys.path.insert(0, sys.argv[1])
from journal import ONE, WHOLE, Reservation, Settlement, appended, contents, header, made
head = header(contents("full.json"), 0, contents("key"), contents, int(sys.argv[4]))
pairs = ((Reservation(number, WHOLE, 10**6, 1, 1, 10**6, 0, ONE), Settlement(number, 1, 3)) for number in range(int(sys.argv[2]) // 2))
with open(sys.argv[3], "wb") as file:
    file.write(appended(made(head, 262144), 262144, (record for pair in pairs for record in pair)))
END
}
# bar NAME FIGURE BAR MET: a row; MET is a formula of awk.
bar() {
    local verdict=MISSED
    if awk "BEGIN { exit !($4) }"; then verdict=met; else passed=1; fi
    printf '%-44s %26s %26s   %s\n' "$1" "$2" "$3" "$verdict"
}
least() { sort -g "$1" | head -n 1; }
# seconds FILE COMMAND..: the wall time of the command is put behind those in the file.
seconds() {
    local begun=$EPOCHREALTIME
    "${@:2}" >output || { echo "status $? of ${*:2}" >&2; exit 1; }
    awk -v begun="$begun" -v ended="$EPOCHREALTIME" 'BEGIN { printf "%.6f\n", ended - begun }' >>"$1"
}
# run CATALOG SCRIPT: the whole run, on its standard output.
run() { "$program" run "$1" key <"$2"; }

# beside FOLDER: the rounds of the asks and of the loop there; leaves the least times in ours, empty and theirs.
beside() {
    local round here
    here=$(mktemp -d -p "$1")
    trap 'rm -rf "$room" "$here"' EXIT
    ln -s "$room"/{short.json,people.csv,key} "$here"
    rm -f ./*.times
    for ((round = 0; round < rounds; round++)); do
        cd "$here" || exit 2
        renew short.json key
        seconds "$room/empty.times" run short.json "$room/none"
        seconds "$room/ours.times" run short.json "$room/many"
        [ "$(grep -c '^answer ' output)" = "$answers" ] || { echo "not all were answered: $(tail -n 1 output)" >&2; exit 1; }
        cd "$room" || exit 2
        ./loop "$here/loop" "$answers" >>theirs.times
    done
    ours=$(least ours.times)
    empty=$(least empty.times)
    theirs=$(least theirs.times)
    rm -rf "$here"
}

# one_behind RECORDS: the microseconds of an ask behind so many records, on tmpfs, one after another.
one_behind() {
    local round
    filled "$1" filled.bud
    rm -f ./*.times
    mkdir -p journals
    for ((round = 0; round < rounds; round++)); do
        cp filled.bud journals/0.bud
        seconds empty.times run full.json none
        seconds ours.times run full.json some
        [ "$(grep -c '^answer ' output)" = "$behind" ] || { echo "not all were answered: $(tail -n 1 output)" >&2; exit 1; }
    done
    awk -v ours="$(least ours.times)" -v empty="$(least empty.times)" -v count="$behind" 'BEGIN { printf "%.1f\n", (ours - empty) * 1000000 / count }'
}
# peak CATALOG: the most memory of an audit, in KiB.
peak() { /usr/bin/time -f %M "$program" audit "$1" key 2>&1 >/dev/null | tail -n 1; }

echo "$(nproc) processors, load $(cut -d' ' -f1 /proc/loadavg), $rounds rounds"
printf '%-44s %26s %26s\n' what figure bar
beside "$disk"
bar "$answers asks on $(stat -f -c %T "$disk")" "$ours s" "1.25 * $theirs s" "$ours <= 1.25 * $theirs"
echo "    $(awk "BEGIN { printf \"%d answers a second, the loop %d\", $answers / $ours, $answers / $theirs }")"
[ "$answers" = 2000 ] || exit $passed
rm -f ./*.times
for ((round = 0; round < rounds; round++)); do
    for catalog in full small; do
        rm -f journals/0.bud
        seconds $catalog.times "$program" init $catalog.json key
    done
done
bar "init for 262,144 records" "$(least full.times) s" "2 * $(least small.times) s" "$(least full.times) <= 2 * $(least small.times)"
if [ -d /dev/shm ]; then
    beside /dev/shm
    above=$(awk "BEGIN { printf \"%.2f\", ($ours - $empty - $theirs) * 1000000 / $answers }")
    bar "an answer on tmpfs above the loop's" "$above us" "10 us" "$above <= 10"
    echo "    $(awk "BEGIN { printf \"%.1f us an answer, the loop %.1f; a run of no ask %.1f ms\", ($ours - $empty) * 1000000 / $answers, $theirs * 1000000 / $answers, $empty * 1000 }")"
    memory=$(mktemp -d -p /dev/shm)
    trap 'rm -rf "$room" "$memory"' EXIT
    cp full.json least.json people.csv key none some "$memory"
    cd "$memory" || exit 2
fi
few=$(one_behind 0)
many=$(one_behind 200000)
bar "an ask after 200,000 records" "$many us" "1.1 * $few us" "$many <= 1.1 * $few"
echo "    after 4,100, where no area is opened as after 200,000, $(one_behind 4100) us; after none six are opened"
filled 131072 filled.bud
echo "hello ann
ask census 1 size people" >one
rm -f ./*.times
for ((round = 0; round < rounds; round++)); do
    cp filled.bud journals/0.bud
    seconds empty.times run full.json none
    seconds ours.times run full.json one
    "$room/loop" journals/grown grow 262144 >>theirs.times
    rm journals/grown
done
growing=$(awk -v ours="$(least ours.times)" -v empty="$(least empty.times)" 'BEGIN { printf "%.2f", (ours - empty) * 1000 }')
loop=$(awk -v theirs="$(least theirs.times)" 'BEGIN { printf "%.2f", theirs * 1000 }')
bar "one that opens the area of 262,144 slots" "$growing ms" "1.5 * $loop ms" "$growing <= 1.5 * $loop"
for version in 1 2 3; do
    filled 262144 journals/0.bud "$version"
    rm -f ./*.times
    for ((round = 0; round < rounds; round++)); do seconds audit.times "$program" audit full.json key; done
    [ "$(cat output)" = "census reservations 131072 answered 131072 exhausted 0 lost 0 spent 131072000000 budget 1000000000000000000" ] || { cat output; passed=1; }
    bar "audit of 131,072 reservations, version $version" "$(least audit.times) s" "0.25 s" "$(least audit.times) < 0.25"
done
full=$(peak full.json)
renew least.json key
most=$(awk "BEGIN { printf \"%.1f\", ($full - $(peak least.json)) * 1024 / 262144 }")
bar "memory a record, of 262,144" "$most bytes" "128 bytes" "$most <= 128"
exit $passed
