#!/usr/bin/env bash
# Asks over a table of 2^20 rows, next to sqlite3's query for the same number on the same rows, in turn; and runs that are long or deep.
# usage: bench/bags.sh [ROUNDS]    (PROGRAM=FILE measures another build; BEFORE=FILE has a function that isn't flat beside that build's)
# Bars: each ask takes less processor time than sqlite3's query, a third of it where a function runs in columns; those with a function of
# numbers take at most 20 times what a plain C loop takes (bench/bags_loop.c), one whose function isn't flat at most 1.05 times what it took
# BEFORE, a sum of a filter of a map of a union no longer than BEFORE, and each takes under 1 MiB above the table, also over a union of 64
# tables; a program of 20,000 turns without bags is read, checked and run in under 10 ms; a map that makes 50 values of a row ends in its
# answer or in `no 51` within 2 GB of address space; the deepest values and runs, and 64 walks within one another, end well on a stack of
# 1 MiB; and 40 lets that each use the bag before twice are told `no 90` within a second. It ends with status 1 where one isn't met.
# A cost is that of a script with many asks of a program, less that of one with one, by ask: the least of the rounds.
. "$(dirname "$0")/../tests/lib/common.sh"
rounds=${1:-5}
need_program
need_tool /usr/bin/time time
need_tool sqlite3 sqlite3
need_tool python3 python3
need_tool cc gcc
before=${BEFORE:+$(realpath "$BEFORE")}
make_room
cc -O2 -o bags_loop "$top/bench/bags_loop.c"

rows=$((1 << 20))
asks=41
TIMEFORMAT='%U %S'
passed=0
awk -v rows="$rows" 'BEGIN { print "age"; for (i = 0; i < rows; i++) print 20 + (i * 7919) % 80 }' >people.csv
printf 'age\n20\n30\n40\n' >three.csv
catalog three.json three.csv
printf 'age\n20\n' >one.csv
catalog one.json one.csv
awk -v rows="$rows" 'BEGIN { print "town"; for (i = 0; i < rows; i++) print "town " (i * 7919) % 50 }' >towns.csv
catalog towns.json towns.csv town text
paste -d, towns.csv people.csv >both.csv
catalog both.json both.csv town text age num
# over CATALOG FILE COLUMNS: the table of the rows that follow, and its columns for sqlite3.
over() {
    held=$1
    file=$2
    columns=$3
}

# script NAME COUNT EPSILON PROGRAM: the script NAME, of so many asks of this program.
script() { { echo "hello ann"; for ((ask = 0; ask < $2; ask++)); do echo "ask census $3 $4"; done; } >"$1"; }
# spend CATALOG NAME: runs the script NAME over new journals and keeps its seconds.
spend() {
    renew "$1" key
    { time "$program" run "$1" key <"$2" >"$2.output"; } 2>>"$2.times"
}
# least NAME: the seconds that the script NAME took, the least of the rounds.
least() { awk '{ used = $1 + $2; if (NR == 1 || used < least) least = used } END { print least }' "$1.times"; }
# query TEXT: keeps the processor time that sqlite3 takes for the query, by query, and what it answers.
query() {
    {
        printf 'create table t(%s);\n.mode csv\n.import --skip 1 %s t\n.mode list\n.timer on\n' "$columns" "$file"
        for ((ask = 0; ask < 10; ask++)); do echo "$1;"; done
    } | sqlite3 :memory: >sqlite.output
    awk '/^Run Time/ { used += $6 + $8; many++ } END { print used / many }' sqlite.output >>sqlite.times
    head -n 1 sqlite.output >sqlite.answer
}
# exact EPSILON ANSWER: the value in a first answer, by the second implementation's noise.
exact() {
    python3 - "$top/tools/lib" "$1" "$2" <<'END'
import sys
sys.path.insert(0, sys.argv[1])
from reference import key_draws, millionths, noise
print(int(sys.argv[3]) - noise(millionths(sys.argv[2].encode()), key_draws(bytes(32), 0, 0)))
END
}
# peak NAME: the script NAME run once, the most memory it takes in KiB.
peak() {
    renew "$held" key
    /usr/bin/time -f %M "$program" run "$held" key <"$1" 2>&1 >/dev/null | tail -n 1
}
# bar NAME FIGURE BAR VERDICT: a row.
bar() {
    printf '%-34s %22s %22s   %s\n' "$1" "$2" "$3" "$4"
    [[ $4 == met* ]] || passed=1
}

# loops NAME: 20 times the nanoseconds a row that the plain loop NAME takes.
loops() { ./bags_loop people.csv | awk -v name="$1" '$1 == name { printf "%.1f", 20 * $3 }'; }

# beside NAME EPSILON PROGRAM TIMES: a program by this build and by the one BEFORE, of which it may take so many times the time.
beside() {
    local round name of now=$program ours theirs
    [ -n "$before" ] || return 0
    rm -f ./*.times
    script one 1 "$2" "$3"
    script many 5 "$2" "$3"
    for ((round = 0; round < rounds; round++)); do
        for of in ours theirs; do
            program=$([ "$of" = ours ] && echo "$now" || echo "$before")
            for name in one many; do
                spend "$held" "$name"
                tail -n 1 "$name.times" >>"$of.$name.times"
            done
        done
    done
    program=$now
    ours=$(awk -v many="$(least ours.many)" -v one="$(least ours.one)" 'BEGIN { printf "%.6f", (many - one) / 4 }')
    theirs=$(awk -v many="$(least theirs.many)" -v one="$(least theirs.one)" 'BEGIN { printf "%.6f", (many - one) / 4 }')
    bar "$1" "$(awk -v s="$ours" 'BEGIN { printf "%.3f ms", s * 1000 }')" "$(awk -v s="$theirs" -v times="$4" 'BEGIN { printf "%.3f ms * %s", s * 1000, times }')" \
        "$(awk -v ours="$ours" -v theirs="$theirs" -v times="$4" 'BEGIN { print ours <= times * theirs ? "met, of the build before" : "MISSED" }')"
}

# row NAME EPSILON PROGRAM QUERY TIMES NANOSECONDS: a program next to a query, of which it may take so many times the time, and at
# most so many nanoseconds a row.
row() {
    local round answer ours theirs
    rm -f ./*.times
    script one 1 "$2" "$3"
    script many "$asks" "$2" "$3"
    echo "hello ann" >none
    for ((round = 0; round < rounds; round++)); do
        spend "$held" one
        spend "$held" many
        query "$4"
    done
    answer=$(awk '$1 == "answer" { print $3 }' one.output)
    if [ -z "$answer" ] || [ "$(grep -c '^answer ' many.output)" != "$asks" ]; then
        bar "$1" "$(tail -n 1 one.output)" "answers" "MISSED"
        return
    fi
    [ "$(exact "$2" "$answer")" = "$(cat sqlite.answer)" ] || bar "$1" "$(exact "$2" "$answer")" "$(cat sqlite.answer)" "ANOTHER NUMBER"
    ours=$(awk -v many="$(least many)" -v one="$(least one)" -v asks="$asks" 'BEGIN { printf "%.6f", (many - one) / (asks - 1) }')
    theirs=$(sort -g sqlite.times | head -n 1)
    bar "$1" "$(awk -v s="$ours" 'BEGIN { printf "%.3f ms", s * 1000 }')" \
        "$(awk -v s="$theirs" -v times="$5" 'BEGIN { printf "%.3f ms * %s", s * 1000, times }')" \
        "$(awk -v ours="$ours" -v theirs="$theirs" -v times="$5" 'BEGIN { print ours < times * theirs ? "met, of sqlite3" : "MISSED: sqlite3 is faster" }')"
    if [ "$6" != 0 ]; then
        bar "" "$(awk -v s="$ours" -v rows="$rows" 'BEGIN { printf "%.1f ns a row", s * 1e9 / rows }')" "$6 ns a row" \
            "$(awk -v s="$ours" -v rows="$rows" -v most="$6" 'BEGIN { print s * 1e9 / rows < most ? "met" : "MISSED" }')"
    fi
    above ""
}

# above NAME: what the script `one` takes above the script `none`, of which it may take 1 MiB.
above() {
    local more
    more=$(($(peak one) - $(peak none)))
    bar "$1" "$more KiB above" "1024 KiB above" "$([ "$more" -lt 1024 ] && echo met || echo MISSED)"
}

# turns: a program of 20,000 turns and without bags, in which functions call the one before twice.
turns() {
    python3 - "$top/tests/lib" <<'END'
import random
import sys
sys.path.insert(0, sys.argv[1])
import places
from random_programs import turning
print(turning(random.Random(1), 12, "x", 20_000, "7"))
END
}
long_run() {
    local each verdict round
    rm -f ./*.times
    script one 1 1000 "$1"
    script many "$asks" 1000 "$1"
    for ((round = 0; round < 2 * rounds; round++)); do
        spend three.json one
        spend three.json many
    done
    each=$(awk -v many="$(least many)" -v one="$(least one)" -v asks="$asks" 'BEGIN { printf "%.3f", (many - one) * 1000 / (asks - 1) }')
    verdict="MISSED: $(tail -n 1 many.output)"
    if [ "$(grep -c '^answer ' many.output)" = "$asks" ] && awk -v each="$each" 'BEGIN { exit !(each < 10) }'; then verdict=met; fi
    bar "20,000 turns without bags" "$each ms" "10 ms" "$verdict"
}

# ends NAME CATALOG LIMIT KIB PROGRAM: an ask of this program under a `ulimit`, and one of a size. The first is answered, or has no
# memory once it is reserved; the second is answered, with the next number.
ends() {
    local status said verdict=MISSED
    { echo "hello ann"; echo "ask census 0.01 $5"; echo "ask census 1 size people"; } >limited
    renew "$2" key
    (ulimit "$3" "$4" && exec "$program" run "$2" key <limited >limited.output 2>&1)
    status=$?
    said=$(sed -n 2p limited.output | cut -c1-20)
    if [ "$status" = 0 ] && [[ $said == "no 51 0" || $said == "answer 0 "* ]] && [[ $(sed -n 3p limited.output) == "answer 1 "* ]]; then verdict=met; fi
    bar "$1" "$said, status $status" "answer or no 51" "$verdict"
}
# refused NAME CATALOG PROGRAM: an ask that is told `no 90` within a second.
refused() {
    local begun ended said
    { echo "hello ann"; echo "ask census 1 $3"; } >refused
    renew "$2" key
    begun=$(date +%s%N)
    said=$(timeout 60 "$program" run "$2" key <refused | tail -n 1)
    ended=$((($(date +%s%N) - begun) / 1000000))
    bar "$1" "$said in $ended ms" "no 90 in 1000 ms" "$([ "$said" = "no 90" ] && [ "$ended" -lt 1000 ] && echo met || echo MISSED)"
}
# of TEXT COUNT: that text, so many times.
of() { printf "%0$2d" 0 | sed "s/0/$1/g"; }
# pairs COUNT: a row in pairs of pairs, so deep.
pairs() { printf '%s' "$(of '(x, ' "$1")x$(of ')' "$1")"; }
# doubled COUNT: a row in pairs of pairs, so deep, each of one value twice.
doubled() {
    local made="let x1 = <x, x> in " at
    for ((at = 2; at <= $1; at++)); do made+="let x$at = <x$((at - 1)), x$((at - 1))> in "; done
    printf '%s' "${made}x$1"
}
# deep_value: pairs some 900 deep, made by nested lets of which each adds to the value before.
deep_value() {
    local made="" before=1 at deep
    for ((at = 1; at <= 17; at++)); do
        deep=$((61 - at))
        made+="let a$at = $(of '(' "$deep")$before$(of ',1)' "$deep") in "
        before=a$at
    done
    printf '%slet (x, y) = a17 in 3 * y' "$made"
}
# nested MORE: 64 walks within one another, and so many more, over a table of one row: each function walks its argument for each row.
nested() {
    local made="let f0 = fn (b : bag num) => map (fn (x : num) => x + sum[0,1] b) people in " bag=people at
    for ((at = 1; at < 6; at++)); do made+="let f$at = fn (b : bag num) => f$((at - 1)) (![inf] (f$((at - 1)) (![inf] b))) in "; done
    for ((at = 0; at < 6; at++)); do bag="f$at (![inf] ($bag))"; done
    for ((at = 0; at < $1; at++)); do bag="f0 (![inf] ($bag))"; done
    printf '%s0 * sum[0,1] (%s)' "$made" "$bag"
}
# lets COUNT: so many lets, each of which uses the bag before twice.
lets() {
    local made="let a = people in " at
    for ((at = 0; at < $1; at++)); do made+="let a = map (fn (x : num) => x + sum[0,1] a) a in "; done
    printf '%s0 * size a' "$made"
}
# doubled_tables: a bag of 64 tables, which is the name b.
doubled_tables() {
    local made="let b = people in " at
    for ((at = 0; at < 6; at++)); do made+="let b = union b b in "; done
    printf '%s' "$made"
}
# deep_run: functions that call the one before, 128 deep.
deep_run() {
    local made="let f0 = fun (x : num) => 0 + (0 + x) in " at
    for ((at = 1; at < 42; at++)); do made+="let f$at = fun (x : num) => 0 + f$((at - 1)) x in "; done
    printf '%sf41 1' "$made"
}

echo "$rows rows, $(nproc) processors, load $(cut -d' ' -f1 /proc/loadavg), sqlite3 $(sqlite3 --version | cut -d' ' -f1)"
printf '%-34s %22s %22s\n' what figure bar
over cat.json people.csv "age integer"
row "size people" 0.1 "size people" "select count(*) from t" 1 0
row "sum[0,100] people" 0.001 "sum[0,100] people" "select sum(min(max(age, 0), 100)) from t" 1 0
row "size of a filter" 0.1 "size (filter (fn (x : num) => x <= 30) people)" "select count(*) from t where age <= 30" 0.3333 "$(loops filter)"
row "sum of a map" 0.001 "sum[0,100] (map (fn (x : num) => x + 1) people)" "select sum(min(max(age + 1, 0), 100)) from t" 0.3333 "$(loops map)"
beside "a function that isn't flat" 0.1 "size (filter (fn (x : num) => case inl[unit] x of inl y => y <= 30 | inr y => false) people)" 1.05
beside "a filter of a map of a union" 0.001 "sum[0,100] (filter (fn (x : num) => x <= 50) (map (fn (x : num) => x + 1) (union people people)))" 1
script one 1 0.001 "$(doubled_tables)sum[0,100] (filter (fn (x : num) => x <= 50) (map (fn (x : num) => x + 1) b))"
above "a union of 64 tables, in columns"
script one 1 0.001 "$(doubled_tables)size (filter (fn (x : num) => case inl[unit] x of inl y => y <= 30 | inr y => false) b)"
above "the same, row by row"
over towns.json towns.csv "town text"
row "size of a filter of texts" 0.1 'size (filter (fn (t : text) => t == "town 7") people)' "select count(*) from t where town = 'town 7'" 0.3333 0
over both.json both.csv "town text, age integer"
row "the same, next to a number" 0.1 'size (filter (fn (r : text * num) => let (t, n) = r in t == "town 7") people)' \
    "select count(*) from t where town = 'town 7'" 0.3333 0
long_run "$(turns)"
ends "map to pairs 50 deep, 2 GB" cat.json -v 2097152 "size (map (fn (x : num) => $(pairs 50)) people)"
ends "map that doubles 50 times, 2 GB" cat.json -v 2097152 "size (map (fn (x : num) => $(doubled 50)) people)"
ends "pairs 900 deep, 1 MiB of stack" three.json -s 1024 "$(deep_value)"
ends "the same of each row" three.json -s 1024 "size (map (fn (x : num) => $(pairs 55)) people)"
ends "a run 128 deep, 1 MiB of stack" three.json -s 1024 "$(deep_run)"
ends "64 nested walks, 1 MiB of stack" one.json -s 1024 "$(nested 0)"
refused "65 nested walks" one.json "$(nested 1)"
refused "40 lets, one row" one.json "$(lets 40)"
exit $passed
