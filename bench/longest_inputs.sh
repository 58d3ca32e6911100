#!/usr/bin/env bash
# The longest scripts and files that are taken, and bad ones of their length: time, peak memory, status and last line.
# Bar of a table: at most 8 times its file and 64 MB, 586,788 KiB. A record of 2^26 fields takes the csv crate 8 bytes a field beside the
# file's own, so the two of commas are some 5 MB over it.
# usage: bench/longest_inputs.sh    (PROGRAM=FILE measures another build)
. "$(dirname "$0")/../tests/lib/common.sh"
need_program
need_tool /usr/bin/time time
make_room
printf 'age\n20\n30\n40\n' >people.csv
printf 'hello ann\nask census 1 size people\nbye\n' >script
longest_script=$((1 << 24))
longest_file=$((1 << 26))
rows=$((1 << 20))
awk -v rows="$rows" 'BEGIN { print "age"; for (i = 0; i < rows; i++) print 1 }' >rows.csv
catalog rows.json rows.csv
catalog table.json table.csv

# of BYTE COUNT: that byte, so many times.
of() { head -c "$2" /dev/zero | tr '\0' "$1"; }
# run NAME CATALOG SCRIPT: prints a row and how it ended.
run() {
    renew "$2" key
    measure "$1" "$program" run "$2" key <"$3"
    echo "    status $status, $(wc -l <output) lines, the last: $(tail -n 1 output)"
}

print_head
{ echo "hello ann"; yes 'ask census 1 size people'; } | head -c "$longest_script" >lines
run "asks" cat.json lines
run "asks of 2^20 rows" rows.json lines
yes $'hello ann\nbye' | head -c "$longest_script" >lines
run "hello and bye in turn" cat.json lines
head -c "$longest_script" /dev/zero >lines
run "one line of NUL" cat.json lines

{ printf 'age\n'; of 0 $((longest_file - 5)); echo; } >table.csv
run "one cell of zeros" table.json script
cell=$(of 0 61)7
{ echo age; yes "$cell" | head -n "$rows"; } >table.csv
run "2^20 rows of 63 bytes" table.json script
{ printf 'age\n'; of '\n' $((longest_file - 4)); } >table.csv
run "empty lines" table.json script
{ printf 'age\n'; of , $((longest_file - 4)); } >table.csv
run "a row of commas" table.json script
{ of , $((longest_file - 1)); echo; } >table.csv
run "a header of commas" table.json script
{ printf 'age\n'; of 0 $((longest_file - 3)); } >table.csv
run "a byte too long" table.json script
