#!/usr/bin/env bash
# A script of 2^24 line ends, the longest that is taken, and one a byte longer: time, peak memory, status and output.
# usage: bench/empty_lines.sh [ROUNDS]    (PROGRAM=FILE measures another build)
. "$(dirname "$0")/../tests/lib/common.sh"
rounds=${1:-3}
need_program
need_tool /usr/bin/time time
make_room

printf 'age\n20\n30\n40\n' >people.csv
renew cat.json key
longest=$((1 << 24))
head -c "$longest" /dev/zero | tr '\0' '\n' >longest
head -c $((longest + 1)) /dev/zero | tr '\0' '\n' >longer
yes 'no 10 0' | head -n "$longest" >wanted
echo 'script too long' >wanted_longer

passed=0
# check STATUS FILE: the last run's status and output are these.
check() {
    if [ "$status" != "$1" ] || ! cmp -s output "$2"; then
        echo "status $status where $1 is wanted, or another output than $2's"
        passed=1
    fi
}
print_head
for ((round = 1; round <= rounds; round++)); do
    measure "2^24 empty lines" "$program" run cat.json key <longest
    check 0 wanted
    measure "2^24 + 1" "$program" run cat.json key <longer
    check 8 wanted_longer
done
exit $passed
