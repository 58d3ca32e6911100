#!/usr/bin/env bash
# The program on whatever bytes CATALOG holds: status and output beside what is wanted, and the time and memory of the longest ones.
# usage: tests/faults/bad_catalogs.sh    (PROGRAM=FILE tries another build than tools/build's; the times of that one say little)
# Bars: each ends with status 3, or with 7 where it is long; one of 2^26 bytes takes at most 2.6 times as long as one of 2^25, and under
# 20 seconds; its peak of memory is at most BAR times its bytes. It ends with status 1 where one isn't met. The greatest is that of
# small objects, each of which is a map of its own to the crate that reads JSON: 8.5 GB of 2^26 bytes.
. "$(dirname "$0")/../lib/common.sh"
take_quick_program
need_tool /usr/bin/time time
need_tool python3 python3
make_room
bar=${BAR:-140}
cp "$top"/examples/first-run/{people.csv,script} .
cp "$top/examples/check/query" program
replies='hello ann/answer 0 5 1000000/bye/'

passed=0
# judged NAME VERDICT: the file bad.json as CATALOG, in each command that reads one. It is `ok`, or refused. The second reader says so too.
judged() {
    local said
    said=$(python3 "$top/tools/lib/catalog.py" bad.json | cut -d' ' -f2)
    [ "$said" = "$2" ] || { echo "the second reader says $said, and here $2 is wanted"; passed=1; }
    if [ "$2" = ok ]; then
        words "$1" 0 "$replies" run bad.json key
        return
    fi
    words "$1" 3 'refused bad.json/' run bad.json key
    words "check: $1" 3 'refused bad.json/' check bad.json census nothing
    words "gap: $1" 3 'refused bad.json/' gap cat.json census bad.json nothing
}
# text VERDICT TEXT: a catalog of this text, with printf's escapes.
text() {
    printf "$2" >bad.json
    judged "'${2:0:30}'" "$1"
}
# with VERDICT OLD NEW: the catalog cat.json with this text in place of that one, in printf's escapes.
with() {
    local whole
    whole=$(cat cat.json)
    [[ $whole == *"$2"* ]] || { echo "there is no $2 in the catalog"; passed=1; }
    printf "${whole/"$2"/"$3"}" >bad.json
    judged "${3:0:30}" "$1"
}

text Syntax ''
text Syntax ' '
text Syntax '{'
text Syntax '{}{}'
text Syntax '\357\273\277{}'
text Syntax '"\377"'
text Syntax '"\355\240\200"'
text Syntax '"\\ud800"'
text Syntax '[1,]'
text Syntax '01'
text Syntax '1e999'
text Syntax 'NaN'
text Syntax '\0'
text Syntax "$(printf '[%.0s' {1..128})$(printf ']%.0s' {1..128})"
text Kind "$(printf '[%.0s' {1..127})$(printf ']%.0s' {1..127})"
text Kind 'null'
text Kind '[]'
text Missing '{}'
with ok '"age"' '"ag\\u0065"'
with ok '"bob"]' '"bob"], "analysts": ["ann"]'
with ok '"capacity": 100' '"capacity": 2'
with ok '"analysts"' '"owners": 7, "analysts"'
with Kind '"bob"]' '"bob"], "analysts": null'
with Syntax '"age"' '"a\0ge"'
with Syntax '"age"' '"a\377ge"'
with Unknown '"bob"]' '"bob"], "more": 1'
with Unknown '"budget"' '"\\u0000": 1, "budget"'
with Missing '"budget": 10000000,' ''
with Kind '10000000' '-0'
with Kind '10000000' '1e7'
with Kind '10000000' '10000000.0'
with Kind '10000000' '"10000000"'
with Kind '10000000' '18446744073709551616'
with Range '10000000' '18446744073709551615'
with Range '10000000' '1000000000000000001'
with Range '"capacity": 100' '"capacity": 262145'
with Count '"partitions": []' '"partitions": [0,1,2,3,4,5,6,7,8]'
with Kind '"partitions": []' '"partitions": [0,1,2,3,4,5,6,7]'
with Form '"people"' '"bag"'
with Form '"people"' '""'
with Form '"people"' '"p\303\251ople"'
with Form '"people.csv"' '"people\\n.csv"'
with Form '"num"' '"number"'
with Double '"bob"' '"ann"'
with Form 'ann' "$(printf 'a%.0s' {1..33})"

# many VERDICT OWNERS KEYS: a catalog of so many owners, the first of which is census and has a partition of so many keys.
many() {
    python3 - "$2" "$3" >bad.json <<'END'
import json
import sys
owners, keys = map(int, sys.argv[1:])
table = {"name": "people", "file": "people.csv", "columns": [{"name": "age", "type": "text"}]}
partition = {"name": "ages", "table": "people", "column": "age", "keys": [str(key) for key in range(keys)]}
one = {"budget": 10**7, "capacity": 100, "tables": [table]}
print(json.dumps({"analysts": ["ann"], "owners": [
    {**one, "name": f"o{number}" if number else "census", "partitions": [] if number else [partition]} for number in range(owners)
]}))
END
    judged "$2 owners, $3 keys" "$1"
}
many ok 64 4000
many Count 65 4000
many Count 64 4001

# of TEXT COUNT: that text, so many times, cut to so many bytes.
of() { yes "$1" | tr -d '\n' | head -c "$2"; }
# longest NAME BEFORE TEXT AFTER: catalogs of 2^25 and of 2^26 bytes, which are the text again and again between the others.
# Each ends with status 3, or with 7 and no other line. Prints a row of both.
longest() {
    local size times=() most=0 verdict="met"
    for size in $((1 << 25)) $((1 << 26)); do
        { printf '%s' "$2"; of "$3" $((size - ${#2} - ${#4})); printf '%s' "$4"; } >bad.json
        measure "$1" "$program" check bad.json census program
        times+=("$(awk -v spent="$user $system" 'BEGIN { split(spent, part, " "); print part[1] + part[2] }')")
        most=$memory
        case "$status/$(cat output)" in
            3/refused\ bad.json | 7/memory) ;;
            *) verdict="WRONG: status $status, $(head -c 60 output)" ;;
        esac
    done
    awk -v half="${times[0]}" -v whole="${times[1]}" -v most="$most" -v bar="$bar" -v verdict="$verdict" 'BEGIN {
        if (verdict == "met" && whole > 2.6 * half + 0.1) verdict = "OVER 2.6 TIMES"
        if (verdict == "met" && whole > 20) verdict = "OVER 20 SECONDS"
        if (verdict == "met" && most / 65536 > bar) verdict = "OVER " bar " TIMES ITS BYTES"
        printf "    %.2f times as long as half of it, %.1f times its bytes: %s\n", (half > 0 ? whole / half : 0), most / 65536, verdict
        exit verdict != "met"
    }' || passed=1
}
print_head
longest "spaces" "" " " ""
longest "control bytes" "" "$(printf '\1')" ""
longest "[" "" "[" ""
longest "{\"a\":" "" '{"a":' ""
longest "empty lists" "[" "[]," "[]]"
longest "empty objects" "[" "{}," "{}]"
longest "small lists" "[" "[0]," "[]]"
longest "small objects" "[" '{"":0},' "{}]"
longest "zeros" "[" "0," "0]"
longest "one number" "" "7" ""
longest "one number with an exponent" "1e" "7" ""
longest "one text" '"' "a" '"'
longest "one text of escapes" '"' '\u0061' '"'
longest "one text without end" '"' "a" ""
longest "texts" "[" '"",' '""]'
longest "one member again and again" "{" '"a":0,' '"a":0}'
longest "small owners" '{"analysts": ["ann"], "owners": [' '{},' '{}]}'
longest "one file name" '{"analysts": ["' "a" '"], "owners": []}'
python3 - >bad.json <<'END'
print("{", ",".join(f'"{number * 7919 % 4194304:07}":0' for number in range(4194304)), "}", sep="")
END
measure "4,194,304 members" "$program" check bad.json census program
echo "    $(stat -c %s bad.json) bytes, status $status, $(cat output), $(awk -v most="$memory" -v bytes="$(stat -c %s bad.json)" 'BEGIN { print most * 1024 / bytes }') times its bytes"
[ "$status" = 3 ] || passed=1
head -c $(((1 << 26) + 1)) /dev/zero >bad.json
words "a byte too long" 3 'refused bad.json/' run bad.json key
exit $passed
