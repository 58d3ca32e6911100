#!/usr/bin/env bash
# After a passed gate: ends of the program over real files, streams and journals that no stored run of a crate can have.
# usage: ci/behind_the_gate_disks.sh    (PROGRAM=FILE tries another build than the proved one)
# Each row is a run's status and output beside what is wanted, and it ends with status 1 where one differs. As root it also tries files
# that may not be read, as the user nobody; where there is a C compiler, each call on a journal failing or killed at, what is written to one
# torn, and allocations refused. What can't be tried is named; without Python, or where fewer rows were tried than ci/counts says, it ends with 1.
. "$(dirname "$0")/../tests/lib/common.sh"
. "$top/ci/counted.sh"
need_program
if ! command -v python3 >/dev/null; then
    echo "there is no Python; not tried: all rows of ci/behind_the_gate_disks.sh, tests/faults/failing_disk.py, failing_workers.py, torn_writes.py, two_disks.py, refused_memory.sh"
    exit 1
fi
# The user nobody may read what is made here, under whatever umask this was started and the repository made.
umask 022
make_room
cp "$program" ./program && program=$room/program
cp "$top"/examples/first-run/{people.csv,script} .
chmod 755 . program
chmod 644 people.csv script
passed=0

# sums: what stands in journals.
sums() { find journals -type f -exec sha256sum {} + | sort; }

# ---- words that aren't UTF-8 are no command, wherever one stands: nothing is run

over_journals "a byte that is none of UTF-8's" 2 usage/ run cat.json $'ke\xffy'
over_journals "a word more, of that byte" 2 usage/ run cat.json key $'\xff'
over_journals "half of a surrogate in a word" 2 usage/ run $'cat.json\xed\xa0\x80' key

# ---- a generated run, as it is worked out by the second implementation (tools/reference.py), by one worker and by four

over_journals "gen: one ask" 0 'asks 1 answered 1 exhausted 0 over 0 spent 1000000 sum 1002/' gen 0 1 1
over_journals "gen: 21 asks by four workers" 0 'asks 21 answered 11 exhausted 0 over 10 spent 11000000 sum 10997/' gen 99 21 4

# ---- a journal that is there: the owner's name, and the length. That of the owner before it is made.

python3 - <<'END'
import json
with open("cat.json") as file:
    catalog = json.load(file)
catalog["owners"].append({**catalog["owners"][0], "name": "wards", "capacity": 10})
with open("two.json", "w") as file:
    json.dump(catalog, file)
END
mkdir journals && printf x >journals/1.bud
over_journals "init: a journal that is there" 4 'journal wards exists 1/' init two.json key
[ "$(stat -c %s journals/0.bud journals/1.bud | tr '\n' ' ')" = "4224 1 " ] || { echo "WRONG: the files' lengths"; passed=1; }

# ---- standard input and output are closed: no journal is opened in their place

# ends NAME ASKS: the last run ended with 5, and the journal has so many answers in all.
ends() {
    : >output
    judge "$1" 5 ''
    "$program" audit cat.json key >output 2>errors
    status=$?
    judge "    and by audit" 0 "census reservations $2 answered $2 exhausted 0 lost 0 spent $(($2 * 1000000)) budget 10000000/"
}
renew cat.json key
for fresh in 0 1; do
    [ $fresh = 0 ] || "$program" run cat.json key <script >replies
    "$program" run cat.json key <&- >output 2>errors
    status=$?
    [ -s output ] && { echo "WRONG: something was written"; passed=1; }
    ends "run: standard input is closed" $fresh
done
"$program" run cat.json key <script >&- 2>errors
status=$?
ends "run: standard output is closed" 2
"$program" run cat.json key <&- >&- 2>errors
status=$?
ends "run: both are closed" 2
"$program" run cat.json key <&- >&- 2>&-
status=$?
: >errors
ends "run: all three are closed" 2
# A service is looked at while its journal is open: what stands in the place of standard error is no journal, where a message would go.
port=$(python3 -c 'import socket; s = socket.socket(); s.bind(("127.0.0.1", 0)); print(s.getsockname()[1])')
"$program" serve cat.json key --port "$port" --each 1 <&- >&- 2>&- &
for _ in $(seq 50); do
    if readlink /proc/$!/fd/* 2>/dev/null | grep -q 0.bud; then break; fi
    sleep 0.1
done
readlink /proc/$!/fd/{0,1,2} | tr '\n' ' ' >output
kill $! && wait $! 2>/dev/null
status=0
judge "serve: all three are closed" 0 '/ / / '

# ---- tables past the limits: of rows, and of bytes

{ echo age && yes 1 | head -n 1048577; } >people.csv
printf 'size people' >query
over_journals "a table of a row more than 2^20" 3 'refused people.csv/' check cat.json census query
{ echo age && yes "$(printf '%063d' 1)" | head -n 1048576; } >people.csv
over_journals "a table of four bytes more than 2^26" 3 'refused people.csv/' check cat.json census query
{ echo age && yes "$(printf '%063d' 1)" | head -n 1048575; } >people.csv
over_journals "    and one of 60 bytes less" 0 'ok 1/' check cat.json census query
cp "$top"/examples/first-run/people.csv .

# ---- files that may not be read

# as_nobody NAME STATUS OUTPUT WORD..: the same as a user who isn't root.
as_nobody() {
    "${nobody[@]}" "$program" "${@:4}" <script >output 2>errors
    status=$?
    judge "$1" "$2" "$3"
}
nobody=()
[ "$(id -u)" != 0 ] || nobody=(setpriv --reuid 65534 --regid 65534 --clear-groups)
if "${nobody[@]}" true 2>/dev/null; then
    renew cat.json key
    [ "$(id -u)" != 0 ] || chown -R 65534:65534 journals
    before=$(sums)
    chmod 000 journals/0.bud
    as_nobody "a journal that may not be read" 6 'disk census/' run cat.json key
    chmod 600 journals/0.bud
    [ "$before" = "$(sums)" ] || { echo "WRONG: the journal isn't as it was"; passed=1; }
    for name in cat.json key people.csv; do
        mode=$(stat -c %a "$name")
        chmod 000 "$name"
        as_nobody "$name may not be read" 5 '' run cat.json key
        chmod "$mode" "$name"
    done
else
    echo "not tried, since rights are missing: four rows of files that may not be read"
    rows=$((rows + 4))
fi
echo "$rows rows" >rows.said
counted ci/behind_the_gate_disks.sh rows.said || passed=1

# ---- what needs a C compiler

# try SCRIPT WORD..: it ends well, and tried as many as it should.
try() {
    PROGRAM=$program "$top/$1" "${@:2}" | tee said
    [ "${PIPESTATUS[0]}" = 0 ] || passed=1
    counted "$1" said || passed=1
}
if command -v cc >/dev/null; then
    try tests/faults/failing_disk.py --quick
    try tests/faults/failing_workers.py --quick
    try tests/faults/torn_writes.py 1
    try tests/faults/two_disks.py --quick
    PROGRAM=$program "$top/tests/faults/refused_memory.sh" >memory.said || passed=1
    grep -c "out of memory" memory.said | sed 's/$/ refused allocations end with 7/' | tee said
    cat said >>memory.said
    counted tests/faults/refused_memory.sh memory.said || passed=1
    grep WRONG memory.said && passed=1
else
    echo "not tried, since there is no cc: calls on a journal that fail, torn writes, two disks, refused allocations"
fi
if [ $passed = 0 ]; then echo "journals on disks: all as they should be"; else echo "journals on disks: something is WRONG"; fi
exit $passed
