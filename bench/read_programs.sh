#!/usr/bin/env bash
# Reads programs of 16,000 bytes: what one costs, from scripts of 1,000 asks of it, of half of it and of a short one, each behind an ask
# of another program, since a session doesn't read the program that it has just asked again.
# usage: bench/read_programs.sh [ROUNDS]    (PROGRAM=FILE measures another build)
# Bars: under 5 ms a program, and at most 2.3 times what half of it costs. It ends with status 1 where one isn't met.
# A cost is the processor time of 1,000 pairs of lines, less that of the short ones: the least of the rounds. The names are
# unbound, so that the first of them ends what comes after the reading.
. "$(dirname "$0")/../tests/lib/common.sh"
rounds=${1:-5}
need_program
make_room
printf 'age\n20\n30\n40\n' >people.csv
renew cat.json key
cp journals/0.bud empty.bud
asks=1000
runs=4
bar=5000
TIMEFORMAT='%U %S'

# of TEXT COUNT: that text, so many times.
of() { printf "%0$2d" 0 | sed "s/0/$1/g"; }
# padded PROGRAM BYTES: with spaces behind it.
padded() { printf "%-$2s" "$1"; }
# pairs DEPTH NAME: pairs of pairs, so deep, of this name: 2^(DEPTH + 2) - 3 tokens.
pairs() {
    local tree=$2 turn
    for ((turn = 0; turn < $1; turn++)); do tree="($tree,$tree)"; done
    printf '%s' "$tree"
}
# script NAME PROGRAM: the script NAME, of lines with this program, each behind one with another.
script() { { echo "hello ann"; yes "ask census 1 b"$'\n'"ask census 1 $2" | head -n "$((2 * asks))"; } >"$1"; }
# spend NAME..: runs each of the scripts in turn, so that a busy machine slows them alike, and keeps the seconds of each.
spend() {
    local round run name
    for ((round = 0; round < rounds; round++)); do
        for name in "$@"; do
            { time for ((run = 0; run < runs; run++)); do cp empty.bud journals/0.bud && "$program" run cat.json key <"$name" >"$name.output"; done; } 2>>"$name.times"
            [ "$(wc -l <"$name.output")" = $((2 * asks + 1)) ] || { echo "another number of replies than of lines" >&2; exit 1; }
        done
    done
}
# least NAME: the microseconds of a pair of lines, the least of the rounds.
least() { awk -v each="$((runs * asks))" '{ used = ($1 + $2) * 1000000 / each; if (NR == 1 || used < least) least = used } END { print least }' "$1.times"; }

passed=0
# compare NAME WHOLE HALF: prints a row. The ratio is judged where half of the program costs over 10 microseconds.
compare() {
    rm -f ./*.times
    script whole "$2"
    script half "$3"
    spend short whole half
    awk -v name="$1" -v bytes="${#2}" -v short="$(least short)" -v whole="$(least whole)" -v half="$(least half)" -v bar="$bar" -v last="$(tail -n 1 whole.output)" 'BEGIN {
        w = whole - short; h = half - short; ratio = h > 0 ? w / h : 0
        verdict = w < bar ? "under 5 ms" : "OVER 5 MS"
        if (h <= 10) verdict = verdict ", too short to compare"
        else verdict = verdict (ratio <= 2.3 ? ", at most 2.3 times" : ", OVER 2.3 TIMES")
        printf "%-28s %6d %9.1f %9.1f %6.2f   %-16s %s\n", name, bytes, w, h, ratio, last, verdict
        exit verdict ~ /OVER/
    }' || passed=1
}

script short a
echo "load $(cut -d' ' -f1 /proc/loadavg)"
printf '%-28s %6s %9s %9s %6s   %-16s %s\n' program bytes "us" "half, us" ratio "last reply" verdict
compare "pairs of 1,024 names" "$(padded "$(pairs 10 abcdefghijkl)" 16000)" "$(padded "$(pairs 9 abcdefghijkl)" 8000)"
compare "4,000 names applied" "$(of 'abc ' 4000)" "$(of 'abc ' 2000)"
compare "one name in 31 pairs, blanks" "$(padded "$(of '(a,' 31)a$(of ')' 31)" 16000)" "$(padded "$(of '(a,' 31)a$(of ')' 31)" 8000)"
compare "4,096 (" "$(of '(' 4096)" "$(of '(' 2048)"
compare "16,000 (" "$(of '(' 16000)" "$(of '(' 8000)"
compare '16,000 $' "$(of '$' 16000)" "$(of '$' 8000)"
exit $passed
