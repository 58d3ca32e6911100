#!/usr/bin/env bash
# Reads tables of 2^20 rows and answers ten asks, next to sqlite3's import of the same file, in turn.
# usage: bench/table.sh [ROUNDS]    (PROGRAM=FILE measures another build)
# Bars: of one column of numbers, a fifth of sqlite3's wall time; of four columns, two of them texts, a third; and a peak of at most 8
# times the file and 64 MB. It ends with status 1 where one isn't met.
. "$(dirname "$0")/../tests/lib/common.sh"
rounds=${1:-7}
need_program
need_tool /usr/bin/time time
need_tool sqlite3 sqlite3
make_room

rows=$((1 << 20))
passed=0
{
    echo "hello ann"
    for number in 1 2 3 4 5 6 7 8 9 10; do echo "ask census 0.5 size people"; done
    echo "bye"
} >script
median() { sort -n "$1" | sed -n "$(((rounds + 1) / 2))p"; }

# beside NAME CATALOG FILE TIMES: the rounds, and what came of them.
beside() {
    local file bar worst=0 round
    file=$(stat -c %s "$3")
    bar=$(((8 * file + 64000000) / 1024))
    echo "$1: $rows rows, $file bytes"
    : >ours_wall
    : >theirs_wall
    print_head
    for ((round = 1; round <= rounds; round++)); do
        renew "$2" key
        measure "run $2 key" "$program" run "$2" key <script
        if [ "$status" != 0 ] || [ "$(grep -c '^answer ' output)" != 10 ]; then
            echo "the program ended with status $status and this output:" >&2
            cat output >&2
            exit 1
        fi
        echo "$wall" >>ours_wall
        [ "$memory" -gt "$worst" ] && worst=$memory
        measure "sqlite3 .import" sqlite3 :memory: '.mode csv' ".import $3 t" </dev/null
        [ "$status" = 0 ] || exit 1
        echo "$wall" >>theirs_wall
    done
    echo "sqlite3 counts $(sqlite3 :memory: '.mode csv' ".import $3 t" 'select count(*) from t') rows; the replies, the same in each round:"
    afresh "$2" key <script | head -n 3
    echo "median wall: $(median ours_wall) s next to sqlite3's $(median theirs_wall) s, bar $4 times faster"
    echo "greatest peak: $worst KiB, bar $bar KiB"
    [ "$worst" -le "$bar" ] || { echo "over the memory bar"; passed=1; }
    awk -v ours="$(median ours_wall)" -v theirs="$(median theirs_wall)" -v times="$4" 'BEGIN { exit !(times * ours <= theirs) }' ||
        { echo "not $4 times faster than sqlite3"; passed=1; }
}

echo "$(nproc) processors; sqlite3 $(sqlite3 --version | cut -d' ' -f1)"
awk -v rows="$rows" 'BEGIN { print "age"; for (i = 0; i < rows; i++) print 20 + (i * 7919) % 80 }' >people.csv
beside "one column of numbers" cat.json people.csv 5
awk -v rows="$rows" 'BEGIN {
    print "town,age,street,nights"
    for (i = 0; i < rows; i++) printf "town %d,%d,\"%d, long \"\"street\"\"\",%d\n", (i * 7919) % 5000, 20 + (i * 7919) % 80, (i * 104729) % 90000, i
}' >four.csv
catalog four.json four.csv town text age num street text nights num
beside "two columns of texts and two of numbers" four.json four.csv 3
exit $passed
