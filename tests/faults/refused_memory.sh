#!/usr/bin/env bash
# Refuses allocation 1, 2, 3, .. of the first run's example, one a run, until none is refused.
# Each run must end with status 7 and the line 'memory' (or no line, where the words themselves had no memory),
# or with the right replies and status 0, of which that to an ask may be 'no 90', or 'no 51 0' once number 0 was reserved.
# usage: tests/faults/refused_memory.sh              the proved program under a malloc that refuses: a second in all. Needs cc.
#        tests/faults/refused_memory.sh --more       the same of other runs: larger inputs and refusals. A row a run's kind.
#        tests/faults/refused_memory.sh --programs   the same of `check`, and of asks whose programs are checked. A row a run's kind.
#        tests/faults/refused_memory.sh --gaps       the same of `gap`: two tables, several programs, and each refusal. A row a run's kind.
#        tests/faults/refused_memory.sh --runs       the same of asks whose programs run over bags, with what they are charged: refused_runs.py.
#        tests/faults/refused_memory.sh --workers    the same of a run by four workers over two owners: refused_workers.py.
#        tests/faults/refused_memory.sh --sessions   the same of a session, by a test of session_tests: refused_sessions.py.
#        tests/faults/refused_memory.sh --services   the same of `init`, of a service with a connection, and of a generated run: refused_services.py.
#        tests/faults/refused_memory.sh --try [FIRST [LAST]]     the kit's own refusals, in a build of its own that
#                                             isn't proved: 15 to 30 s a run. Ends after five right runs in a row.
. "$(dirname "$0")/../lib/common.sh"
example=$top/examples/first-run
right=$'hello ann\nanswer 0 5 1000000\nbye'
spared=$'hello ann\nno 90\nbye'
lost=$'hello ann\nno 51 0\nbye'
passed=0

# judge NUMBER STATUS OUTPUT: prints a row.
judge() {
    local verdict=WRONG
    case "$2/$3" in
        7/memory | 7/) verdict="out of memory" ;;
        "0/$right") verdict="the right replies" ;;
        "0/$spared") verdict="the ask's refusal" ;;
        "0/$lost") verdict="lost once reserved" ;;
        *) passed=1 ;;
    esac
    printf '%8s %7s   %-40s %s\n' "$1" "$2" "$(tr '\n' '/' <<<"$3")" "$verdict"
}

# The kit's refusals: the build is made anew for each number.
by_try() {
    local first=$1 last=$2 in_a_row=0 output number status
    take_quick_program
    make_room
    cp "$example"/{people.csv,key} .
    renew cat.json key
    cd "$top/crates/hitchseason" || exit 2
    for ((number = first; number <= last && in_a_row < 5; number++)); do
        output=$(rt try --fail-alloc "$number" --data cat.json="$room/cat.json" --data people.csv="$room/people.csv" --data key="$room/key" \
            --data journals/0.bud="$room/journals/0.bud" -- run cat.json key <"$example/script" 2>/dev/null)
        status=$?
        judge "$number" "$status" "$output"
        if [ "$status" = 0 ]; then in_a_row=$((in_a_row + 1)); else in_a_row=0; fi
    done
}

# A run of the proved program over new journals, with the refusals that the environment names.
refuse() { renew cat.json key; env "$@" LD_PRELOAD="$room/refuse.so" "$program" run cat.json key <"$example/script"; }

by_malloc() {
    local count number
    need_program
    need_tool cc gcc
    make_room
    cp "$example/people.csv" "$example/key" .
    cc -O1 -shared -fPIC -o refuse.so "$top/tests/faults/refuse_allocation.c" -ldl || exit 2
    count=$(refuse TELL=1 2>&1 >/dev/null)
    echo "$count allocations where none is refused"
    for ((number = 1; number <= count + 1; number++)); do
        judge "$number" "$(refuse REFUSE="$number" >output 2>&1; echo $?)" "$(cat output)"
    done
    echo "and each from that one on:"
    for ((number = 1; number <= count + 1; number++)); do
        judge "$number.." "$(refuse REFUSE="$number" REFUSE_ALL=1 >output 2>&1; echo $?)" "$(cat output)"
    done
}

# is_spared: the files output and wanted have as many lines, each the same, but that some asks' replies are 'no 90', and those of
# granted ones 'no 51' with their number.
is_spared() {
    awk 'NR == FNR { wanted[NR] = $0; split($0, words, " "); if (words[1] == "answer") lost[NR] = "no 51 " words[2]; lines = NR; next }
        { differs += $0 != wanted[FNR] && ($0 != "no 90" || wanted[FNR] !~ /^(no|answer) /) && $0 != lost[FNR] }
        END { exit differs > 0 || FNR != lines }' wanted output
}
# new_journals WORD..: before a run, the journals are made anew, on two disks where it says so.
new_journals() { if [ "$1" = run ] && { [ $# = 3 ] || [ "${4:-}" = --mirror ]; }; then renew "${@:2}"; fi; }
# turns NAME SCRIPT WORD..: each allocation of this run refused in turn, alone and with all later ones. Each run must
# end with status 7 and the line 'memory', or as it ends with none refused, but that replies to asks may be 'no 90' or 'no 51'.
turns() {
    local name=$1 script=$2 count number all right=0 ninety=0 want
    shift 2
    new_journals "$@"
    "$program" "$@" <"$script" >wanted
    want=$?
    new_journals "$@"
    count=$(env TELL=1 LD_PRELOAD="$room/refuse.so" "$program" "$@" <"$script" 2>&1 >/dev/null)
    for all in "" REFUSE_ALL=1; do
        for ((number = 1; number <= count; number++)); do
            new_journals "$@"
            env REFUSE="$number" $all LD_PRELOAD="$room/refuse.so" "$program" "$@" <"$script" >output 2>&1
            status=$?
            if [ "$status" = "$want" ] && cmp -s output wanted; then
                right=$((right + 1))
            elif [ "$status" = "$want" ] && [ "$want" = 0 ] && grep -qx 'no 90\|no 51 [0-9]*' output && is_spared; then
                ninety=$((ninety + 1))
            elif [ "$status" != 7 ] || [ "$(cat output)" != memory ]; then
                echo "$name: allocation $number $all: status $status"
                passed=1
            fi
        done
    done
    printf '%-28s status %s, %4d allocations, of %5d runs %4d as with none refused, %5d with no 90 or 51   %s\n' \
        "$name" "$want" "$count" $((2 * count)) "$right" "$ninety" "$([ "$1" = check ] && head -c 40 wanted)"
}

by_malloc_more() {
    need_program
    need_tool cc gcc
    make_room
    cp "$example/people.csv" "$example/key" "$example/script" .
    cc -O1 -shared -fPIC -o refuse.so "$top/tests/faults/refuse_allocation.c" -ldl || exit 2
    { echo age; seq 5000; } >long.csv
    # One grant, the last of the asks, so that its number doesn't hang on what was refused before.
    for _ in {1..400}; do
        printf 'hello ann\nask census 0 size people\nask people 1 %015000d\n\nbye\n' 0
    done >long
    printf 'hello ann\nask census 1000 size people\nask census 1 size people\n' >>long
    printf 'age\n1.5\n' >bad.csv
    for name in long bad nobody; do catalog "$name.json" "$name.csv"; done
    printf 'town,age\nA,20\n"B ""C""\303\251",30\n' >towns.csv
    catalog towns.json towns.csv town text age num
    many_owners many.json 3 3
    sed 's/"census"/"o1"/' many.json >twice.json
    head -c 31 /dev/zero >key31
    turns "two disks" script run cat.json key --mirror
    turns "5,000 rows" script run long.json key
    turns "2,000 lines" long run cat.json key
    turns "both" long run long.json key
    turns "an empty script" /dev/null run cat.json key
    turns "an absent table" script run nobody.json key
    turns "an absent catalog" script run nobody key
    turns "a catalog that is none" script run script key
    turns "an absent key" script run cat.json nokey
    turns "a key of 31 bytes" script run cat.json key31
    turns "a table of texts and numbers" script run towns.json key
    turns "3 owners of 3 tables" script run many.json key
    turns "an owner twice, at the end" script run twice.json key
    turns "a cell that is no number" script run bad.json key
    turns "no words" script
    turns "five words" script a b c d e
    turns "a word not UTF-8" script run $'\xff' key
}

# checks NAME PROGRAM: the turns of this program under `check`.
checks() {
    printf '%s' "$2" >text
    turns "check: $1" /dev/null check cat.json census text
}

by_malloc_programs() {
    local unions="let a = union people people in let b = union a a in let c = union b b in let d = union c c in let e = union d d in let f = union e e in "
    local doubling="let a1 = size people in " sum="(size people + 2 * size people)" number
    need_program
    need_tool cc gcc
    make_room
    cp "$top/examples/check/people.csv" "$example/key" . && cp "$top/examples/check/query" program
    cc -O1 -shared -fPIC -o refuse.so "$top/tests/faults/refuse_allocation.c" -ldl || exit 2
    for ((number = 2; number <= 31; number++)); do doubling+="let a$number = (a$((number - 1)), a$((number - 1))) in "; done
    for ((number = 0; number < 5; number++)); do sum="($sum + $sum)"; done
    local programs=(
        "$(cat program)" "$sum" "$doubling(size people)" "${doubling}a31" "size people" "if size people <= 3 then 0 else 100"
        "let !y = ![2] (size people) in y" "(fun (x : ![3/2] num) => let !y = x in y) (![3/2] (size people))"
        'size people + (case inl[bag text] ("a" == "b") of inl x => if x then 1 else 2 | inr y => size y)'
        "$unions(size f)" "$unions(size (union f people))"
        "(fun (x : num) => x + x) (size people)" "size nobody" "size 3" "fst 1"
        "inl[num -o num] 1" "map (fn (x : num) => people) people" "(fn (x : bag (bag num)) => 1) 2"
        "65536 * (65536 * size people)" '"a text"' "1 +" "size people $" "$(printf '(1,%.0s' {1..64})1$(printf ')%.0s' {1..64})" ""
    )
    for text in "${programs[@]}"; do checks "${text:0:20}" "$text"; done
    printf '%16001s' size >text
    turns "check: 16,001 bytes" /dev/null check cat.json census text
    turns "check: an absent file" /dev/null check cat.json census nothing
    turns "check: no such owner" /dev/null check cat.json nobody program
    turns "check: two words" /dev/null check cat.json census
    # One grant, the last of the asks, so that its number doesn't hang on what was refused before: the others are over the budget.
    {
        echo "hello ann"
        for text in "${programs[@]}"; do [ "$text" = "size people" ] || echo "ask census 1000 ${text//$'\n'/ }"; done
        printf 'ask census 1 size people\nbye\n'
    } >asks
    turns "asks of all of these" asks run cat.json key
}

# gaps NAME PROGRAM: the turns of this program under `gap`.
gaps() {
    printf '%s' "$2" >text
    turns "gap: $1" /dev/null gap first.json census second.json text
}

by_malloc_gaps() {
    need_program
    need_tool cc gcc
    make_room
    cc -O1 -shared -fPIC -o refuse.so "$top/tests/faults/refuse_allocation.c" -ldl || exit 2
    { echo age; seq 1000; } >first.csv
    { echo age; seq 3 1005; } >second.csv
    printf 'age\n1.5\n' >bad.csv
    for name in first second bad; do catalog "$name.json" "$name.csv"; done
    catalog years.json first.csv years num
    gaps "a count" "size people"
    gaps "a filter" "size (filter (fn (x : num) => x <= 30) people)"
    gaps "a sum of a map" "sum[0,100] (map (fn (x : num) => x + 1) people)"
    gaps "two numbers of a split" "let (a, b) = split (fn (x : num) => x <= 30) people in size a + 2 * size b"
    gaps "unbounded" "if size people <= 3 then 0 else 100"
    gaps "no token" "size people $"
    printf 'size people' >text
    turns "gap: a bad table" /dev/null gap bad.json census second.json text
    turns "gap: entries that don't fit" /dev/null gap first.json census years.json text
    turns "gap: an absent catalog" /dev/null gap first.json census nobody text
    turns "gap: a bad second table" /dev/null gap first.json census bad.json text
    turns "gap: no such owner" /dev/null gap first.json nobody second.json text
    turns "gap: an absent program" /dev/null gap first.json census second.json nothing
}

head_of_rows() { printf '%8s %7s   %-40s %s\n' "refused" "status" "output" "verdict"; }
case "$1" in
    --try) head_of_rows && by_try "${2:-1}" "${3:-10000}" ;;
    --more) by_malloc_more ;;
    --programs) by_malloc_programs ;;
    --gaps) by_malloc_gaps ;;
    --runs) python3 "$top/tests/faults/refused_runs.py" || passed=1 ;;
    --workers) python3 "$top/tests/faults/refused_workers.py" || passed=1 ;;
    --sessions) python3 "$top/tests/faults/refused_sessions.py" || passed=1 ;;
    --services) PROGRAM=$program python3 "$top/tests/faults/refused_services.py" || passed=1 ;;
    *) head_of_rows && by_malloc ;;
esac
exit $passed
