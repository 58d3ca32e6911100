#!/usr/bin/env bash
# Compares a table of 2^20 rows with another one: the whole command, and what is left of it without the comparison.
# usage: bench/gap.sh [ROUNDS]    (PROGRAM=FILE measures another build)
# Bar: the whole command takes under 2 seconds. It ends with status 1 where that isn't met.
. "$(dirname "$0")/../tests/lib/common.sh"
rounds=${1:-3}
need_program
make_room
TIMEFORMAT='%R %U %S'
awk -v rows=$((1 << 20)) 'BEGIN { print "age"; for (i = 0; i < rows; i++) print 20 + (i * 7919) % 80000 }' >first.csv
awk -v rows=$((1 << 20)) 'BEGIN { print "age"; for (i = 0; i < rows; i++) print 21 + (i * 104729) % 80000 }' >second.csv
catalog first.json first.csv
catalog second.json second.csv
printf 'size people' >text
for ((round = 0; round < rounds; round++)); do
    { time "$program" gap first.json census second.json text >output; } 2>>times
    { time "$program" check first.json census text >/dev/null; } 2>>loads
done
cat output
awk 'NR == 1 || $1 < least { least = $1; used = $2 + $3 } END { printf "gap of 2^20 rows and 2^20 others: %s s of wall, %s s of processor time\n", least, used; exit !(least < 2) }' times
status=$?
awk 'NR == 1 || $1 < least { least = $1 } END { printf "check, which loads one of them: %s s of wall\n", least }' loads
exit $status
