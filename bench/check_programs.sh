#!/usr/bin/env bash
# Checks programs: what one costs, from scripts of many asks of it, less as many asks of a program of one byte, each behind an ask of another
# program, since a session doesn't read the program that it has just asked again.
# usage: bench/check_programs.sh [ROUNDS]    (PROGRAM=FILE measures another build)
# Bars: a program of 4,096 tokens is read and checked in under 10 ms; of nested lets whose names are all in use, twice as
# many cost at most 4.6 times as much, which is nodes times names in scope and an allowance; lets that double a type end,
# and take at most 256 KiB more than a short program. It ends with status 1 where one isn't met.
# A cost is processor time, the least of the rounds. Beside each program of the first part stands what reading alone costs:
# the same program with a name near its front that nothing binds, which ends the checking there.
. "$(dirname "$0")/../tests/lib/common.sh"
rounds=${1:-5}
need_program
need_tool /usr/bin/time time
make_room
printf 'age\n20\n30\n40\n' >people.csv
renew cat.json key
cp journals/0.bud empty.bud
runs=4
bar=10000
TIMEFORMAT='%U %S'
passed=0

# tree DEPTH LEFT BETWEEN RIGHT LEAF: a full tree of this depth, its parts within LEFT and RIGHT, and BETWEEN them.
tree() {
    local made=$5 turn
    for ((turn = 0; turn < $1; turn++)); do made="$2$made$3$made$4"; done
    printf '%s' "$made"
}
# lets COUNT FIRST NEXT LAST: so many lets of names a1, a2, .., the first of FIRST and each other of NEXT, and LAST. In both an
# @ stands for the name before.
lets() {
    local number text="let a1=$2 in "
    for ((number = 2; number <= $1; number++)); do text+="let a$number=${3//@/a$((number - 1))} in "; done
    printf '%s' "$text${4//@/a$1}"
}
# sum_of COUNT: the sum of the names a1 to aCOUNT, as a tree that is as flat as can be.
sum_of() {
    local -a parts=() joined
    local at
    for ((at = 1; at <= $1; at++)); do parts+=("a$at"); done
    while [ "${#parts[@]}" -gt 1 ]; do
        joined=()
        for ((at = 0; at < ${#parts[@]}; at += 2)); do
            if [ $((at + 1)) -lt "${#parts[@]}" ]; then joined+=("(${parts[at]}+${parts[at + 1]})"); else joined+=("${parts[at]}"); fi
        done
        parts=("${joined[@]}")
    done
    printf '%s' "${parts[0]}"
}
# script NAME LINES PROGRAM: the script NAME, of so many lines with this program, each behind one with another.
script() { { echo "hello ann"; yes "ask census 1000 b"$'\n'"ask census 1000 $3" | head -n "$((2 * $2))"; } >"$1"; }
# spend LINES NAME..: runs each of the scripts in turn, so that a busy machine slows them alike, and keeps the seconds of each.
spend() {
    local round run name lines=$1
    shift
    for ((round = 0; round < rounds; round++)); do
        for name in "$@"; do
            { time for ((run = 0; run < runs; run++)); do cp empty.bud journals/0.bud && "$program" run cat.json key <"$name" >"$name.output"; done; } 2>>"$name.times"
            [ "$(wc -l <"$name.output")" = $((2 * lines + 1)) ] || { echo "another number of replies than of lines" >&2; exit 1; }
        done
    done
}
# least NAME LINES: the microseconds of a pair of lines, the least of the rounds.
least() { awk -v each="$((runs * $2))" '{ used = ($1 + $2) * 1000000 / each; if (NR == 1 || used < least) least = used } END { print least }' "$1.times"; }
# said PROGRAM: what `check` says of a program.
said() {
    printf '%s' "$1" >checked
    "$program" check cat.json census checked
}

# wide NAME PROGRAM UNREAD: a row of the first part. UNREAD is the program with a name in front that nothing binds.
wide() {
    rm -f ./*.times
    script short 400 a
    script whole 400 "$2"
    script reading 400 "$3"
    spend 400 short whole reading
    awk -v name="$1" -v short="$(least short 400)" -v whole="$(least whole 400)" -v reading="$(least reading 400)" -v bar="$bar" -v bytes="${#2}" -v said="$(said "$2")" 'BEGIN {
        w = whole - short; r = reading - short
        verdict = w < bar ? "under 10 ms" : "OVER 10 MS"
        printf "%-34s %6d %9.1f %9.1f %9.1f   %-14s %s\n", name, bytes, w, r, w - r, substr(said, 1, 14), verdict
        exit verdict ~ /OVER/
    }' || passed=1
}

# nested NAME FIRST NEXT LAST COUNT..: rows of so many lets, each beside the one before. LAST is `sum` or `name`: the sum of
# all their names, or the last name alone.
nested() {
    local count before=0 lines name=$1 first=$2 next=$3 last=$4 text
    shift 4
    for count in "$@"; do
        lines=$((60000 / (count * count) + 300))
        text=$(lets "$count" "$first" "$next" "$([ "$last" = sum ] && sum_of "$count" || echo @)")
        rm -f ./*.times
        script short "$lines" a
        script whole "$lines" "$text"
        spend "$lines" short whole
        before=$(awk -v name="$name, $count" -v short="$(least short "$lines")" -v whole="$(least whole "$lines")" -v before="$before" -v said="$(said "$text")" 'BEGIN {
            w = whole - short; ratio = before > 0 ? w / before : 0
            verdict = ratio == 0 ? "" : before <= 10 ? "too short to compare" : ratio <= 4.6 ? "at most 4.6 times" : "OVER 4.6 TIMES"
            printf "%-34s %9.1f %6.2f   %-14s %s\n", name, w, ratio, substr(said, 1, 14), verdict >"/dev/stderr"
            print w
            if (verdict ~ /OVER/) exit 1
        }') || passed=1
    done
}

# doubling NAME PROGRAM REPLY: a row of the third part.
doubling() {
    local verdict="at most 256 KiB more" found
    printf '%s' "$2" >checked
    measure "$1" "$program" check cat.json census checked
    found=$(cut -d' ' -f1,2 output)
    [ "$found" = "$3" ] || { verdict="WRONG: $found, wanted $3"; passed=1; }
    [ "$memory" -le $((short_memory + 256)) ] || { verdict="OVER: $short_memory KiB and 256"; passed=1; }
    echo "    ${#2} bytes, $found: $verdict"
}

echo "load $(cut -d' ' -f1 /proc/loadavg)"
printf '%-34s %6s %9s %9s %9s   %-14s %s\n' "4,096 tokens or a few less" bytes "us" "reading" "checking" said verdict
ones=$(tree 10 "(" + ")" 1)
wide "sum of 1,024 numbers" "$ones" "$(sed 's/1/x/' <<<"$ones")"
sizes=$(tree 9 "(" + ")" "size people")
wide "sum of 512 sizes" "$sizes" "$(sed 's/people/nobody/' <<<"$sizes")"
names="let a=size people in $(tree 9 "(" + ")" "2*a")"
wide "sum of 512 products of a name" "$names" "$(sed 's/people/nobody/' <<<"$names")"
pairs="let a=1 in size(map(fn(x:num)=>1)people)+(let b=$(tree 9 "(" , ")" a) in 2)"
wide "pairs of pairs of 512 names" "$pairs" "$(sed 's/size(/nope(/' <<<"$pairs")"
many="$(lets 53 "size people" "@+1" "$(tree 8 "(" + ")" "a1+a53")")"
wide "53 lets, sum of 512 of their names" "$many" "$(sed 's/people/nobody/' <<<"$many")"
all="$(lets 52 "size people" "size people" "($(sum_of 52))+$(tree 6 "(" + ")" "$(sum_of 9)")")"
wide "52 lets, all in use at 64 sums" "$all" "$(sed 's/people/nobody/' <<<"$all")"
functions=$(tree 6 "(" + ")" "(fun(x:![2]num)=>let !y=x in y)(![2](size people))")
wide "64 functions and their calls" "$functions" "$(sed 's/y)/q)/' <<<"$functions")"
maps=$(tree 6 "(" + ")" "sum[0,9](map(fn(x:num)=>clip[0,9]x)people)")
wide "64 sums of maps" "$maps" "$(sed 's/\]x/]q/' <<<"$maps")"

printf '%-34s %9s %6s   %-14s %s\n' "nested lets" us ratio said verdict
nested "of a name and one" "size people" "@+1" sum 7 14 28 56
nested "of sizes" "size people" "size people" sum 7 14 28 56
nested "of a name and one, the last" "size people" "@+1" name 8 15 30 60
nested "of a name, the last" "size people" "@" name 8 15 30 60
nested "of a sum of two" "size people" "@+a1" sum 7 14 28 56

ulimit -t 20
print_head
printf 'size people' >checked
measure "size people" "$program" check cat.json census checked
short_memory=$memory
echo "    11 bytes, $(cat output)"
doubling "58 lets that double a number" "$(lets 58 1 "(@,@)" 7)" "ok 0"
doubling "58 lets that double a name" "$(lets 58 "size people" "(@,@)" 7)" "ok 0"
doubling "58 lets, taken apart" "$(lets 58 "size people" "(@,@)" "let (x,y)=@ in 7")" "ok 0"
doubling "58 lets, the type beside itself" "$(lets 58 1 "<@,@>" "if true then @ else @")" "no 34"
doubling "29 and 29, the types equal" "$(lets 29 1 "<@,@>" "let b=@ in $(lets 29 1 "<@,@>" "if true then b else @")")" "no 34"
doubling "58 lets, an amount of 2^58" "$(lets 58 "size people" "(@,@)" @)" "no 32"
doubling "58 lets of with-pairs" "$(lets 58 "size people" "<@,@>" "size people")" "ok 1"
exit $passed
