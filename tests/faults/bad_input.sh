#!/usr/bin/env bash
# The program on bad words, files, scripts and outputs: status and output of each beside what is wanted.
# usage: tests/faults/bad_input.sh    (PROGRAM=FILE tries another build than tools/build's). It ends with status 1 where one differs.
. "$(dirname "$0")/../lib/common.sh"
take_quick_program
make_room
cp "$top"/examples/first-run/{people.csv,key,script} .
head -c 31 /dev/zero >key31
head -c 33 /dev/zero >key33
: >empty
cp "$top/examples/check/query" program
printf '%16001s' 'size people' >long_program
printf '%16000s' 'size people' >longest_program
replies='hello ann/answer 0 5 1000000/bye/'

passed=0
# table STATUS OUTPUT TEXT [COLUMN TYPE]..: a table's file of this text, with printf's escapes, and of these columns.
table() {
    printf "$3" >table.csv
    catalog table.json table.csv "${@:4}"
    words "table '$3'" "$1" "$2" run table.json key
}
# asked REPLY PROGRAM [R]: an ask of this program gets this reply, and `check` of it says the same, or for an answer that it is
# accepted at sensitivity R.
asked() {
    local said=$1
    [[ $1 != "answer "* ]] || said="ok $3"
    printf 'hello ann\nask census 1 %s\n' "$2" >lines
    afresh cat.json key <lines >output 2>errors
    status=$?
    judge "ask ${2:0:35}" 0 "hello ann/$1/"
    printf '%s' "$2" >text
    words "check ${2:0:33}" "$([[ $said == ok* ]] && echo 0 || echo 1)" "$said/" check cat.json census text
}
# functions COUNT FIRST MORE: lets of so many functions of x, an @ standing for the one before, and a call of the last one.
functions() {
    local made="let f0 = fun (x : num) => $2 in " at
    for ((at = 1; at < $1; at++)); do made+="let f$at = fun (x : num) => ${3//@/f$((at - 1))} in "; done
    printf '%s' "${made}f$(($1 - 1)) 1"
}
unions="let a = union people people in let b = union a a in let c = union b b in let d = union c c in let e = union d d in "
# lines STATUS OUTPUT TEXT: a script of this text, with printf's escapes.
lines() {
    printf "$3" >lines
    afresh cat.json key <lines >output 2>errors
    status=$?
    judge "script '$3'" "$1" "$2"
}

words "the example" 0 "$replies" run cat.json key
words "no words" 2 usage/
words "one word" 2 usage/ run
words "two words" 2 usage/ run cat.json
words "four words" 2 usage/ run cat.json key more
words "another command" 2 usage/ walk cat.json key
words "--help" 2 usage/ --help
words "a word that isn't UTF-8" 2 usage/ run cat.json $'ke\xffy'
catalog nobody.json nobody.csv
catalog through.json people.csv/x
catalog folder.json .
catalog endless.json /dev/zero
words "a catalog that is absent" 3 refused\ nothing/ run nothing nokey
words "a key that is absent" 3 refused\ nokey/ run nobody.json nokey
words "a table that is absent" 3 refused\ nobody.csv/ run nobody.json key
words "an empty name" 3 'refused /' run "" key
words "a key of 31 bytes" 3 refused\ key31/ run cat.json key31
words "a key of 33 bytes" 3 refused\ key33/ run cat.json key33
words "a key of 31 bytes, an absent table" 3 refused\ key31/ run nobody.json key31
words "an empty key" 3 refused\ empty/ run cat.json empty
words "a key without end" 3 refused\ /dev/zero/ run cat.json /dev/zero
words "a catalog without end" 3 refused\ /dev/zero/ run /dev/zero key
words "a table without end" 3 refused\ /dev/zero/ run endless.json key
words "a path through the catalog" 3 refused\ cat.json/x/ run cat.json/x key
words "a path through the table" 3 refused\ people.csv/x/ run through.json key
words "a key by a path through a file" 3 refused\ key/x/ run cat.json key/x
words "the catalog is a folder" 5 "" run . key
words "the key is a folder" 5 "" run cat.json .
words "the table is a folder" 5 "" run folder.json key

printf 'age\n1.5\n' >bad.csv
catalog bad.json bad.csv
words "check: the example" 0 'ok 2/' check cat.json census program
words "check: no words more" 2 usage/ check
words "check: one word more" 2 usage/ check cat.json
words "check: two words more" 2 usage/ check cat.json census
words "check: four words more" 2 usage/ check cat.json census program more
words "check: a word that isn't UTF-8" 2 usage/ check cat.json census $'\xff'
words "check: its words under run" 2 usage/ run cat.json census program
words "check: capitals" 2 usage/ Check cat.json census program
words "check: a catalog that is absent" 3 'refused nothing/' check nothing nobody nothing
words "check: a catalog that isn't one" 3 'refused program/' check program nobody nothing
words "check: neither table nor owner" 3 'refused nobody/' check nobody.json nobody nothing
words "check: a table that is absent" 3 'refused nobody.csv/' check nobody.json census nothing
words "check: a table that isn't one" 3 'refused bad.csv/' check bad.json census nothing
words "check: no such owner" 3 'refused nobody/' check cat.json nobody nothing
words "check: an owner without a name" 3 'refused /' check cat.json '' nothing
words "check: a FILE that is absent" 3 'refused nothing/' check cat.json census nothing
words "check: a path through the catalog" 3 'refused cat.json/x/' check cat.json/x nobody nothing
words "check: a FILE by a path through a file" 3 'refused program/x/' check cat.json census program/x
words "check: the catalog is a folder" 5 '' check . nobody nothing
words "check: the table is a folder" 5 '' check folder.json census nothing
words "check: FILE is a folder" 5 '' check cat.json census .
words "check: an empty FILE" 1 'no 21 0/' check cat.json census empty
words "check: a FILE of 16,000 bytes" 0 'ok 1/' check cat.json census longest_program
words "check: a FILE of 16,001 bytes" 1 'no 20 16000/' check cat.json census long_program
words "check: a FILE without end" 3 'refused /dev/zero/' check cat.json census /dev/zero
head -c $((1 << 26)) /dev/zero | tr '\0' ' ' >spaces
words "check: a FILE of 2^26 bytes" 1 'no 20 16000/' check cat.json census spaces
echo >>spaces
words "check: a FILE of 2^26 + 1 bytes" 3 'refused spaces/' check cat.json census spaces
rm spaces

catalog years.json people.csv years num
catalog texts.json people.csv age text
catalog files.json nobody.csv
sed 's/"people"/"persons"/' cat.json >persons.json
sed 's/"budget": 10000000/"budget": 1/' cat.json >poor.json
printf 'age\n1\n' >one.csv
catalog one.json one.csv
words "gap: the example" 0 'distance 4/sensitivity 2/values 4 1/gap 3/' gap cat.json census one.json program
words "gap: another budget" 0 'distance 0/sensitivity 2/values 4 4/gap 0/' gap cat.json census poor.json program
words "gap: three words more" 2 usage/ gap cat.json census one.json
words "gap: a second catalog that is absent" 3 'refused nothing/' gap cat.json census nothing nothing
words "gap: no such owner in either" 3 'refused nobody/' gap cat.json nobody nothing nothing
sed 's/"census"/"other"/' one.json >other.json
words "gap: no such owner in the second" 3 'refused census/' gap nobody.json census other.json nothing
words "gap: another column" 3 'refused census/' gap nobody.json census years.json nothing
words "gap: a column of texts" 3 'refused census/' gap nobody.json census texts.json nothing
words "gap: another table" 3 'refused census/' gap nobody.json census persons.json nothing
words "gap: a first table that is absent" 3 'refused nobody.csv/' gap nobody.json census bad.json nothing
words "gap: a bad second table" 3 'refused bad.csv/' gap cat.json census bad.json nothing
words "gap: a FILE that is absent" 3 'refused nothing/' gap cat.json census one.json nothing
words "gap: an empty FILE" 1 'no 21 0/' gap cat.json census one.json empty

awk 'BEGIN { print "age"; for (i = 0; i < 1048576; i++) print 1 }' >most.csv
{ cat most.csv; echo 1; } >more.csv
catalog most.json most.csv
catalog more.json more.csv
words "a table of 2^20 rows" 0 'hello ann/answer 0 1048578 1000000/bye/' run most.json key
words "a table of 2^20 + 1 rows" 3 refused\ more.csv/ run more.json key
two='hello ann/answer 0 2 1000000/bye/'
three='hello ann/answer 0 3 1000000/bye/'
table 3 refused\ table.csv/ ''
table 3 refused\ table.csv/ 'Age\n20\n'
table 3 refused\ table.csv/ 'age,age\n1,2\n'
table 3 refused\ table.csv/ 'age\n1,2\n'
table 3 refused\ table.csv/ 'age\n1.5\n'
table 3 refused\ table.csv/ 'age\n+20\n'
table 3 refused\ table.csv/ 'age\n 20\n'
table 3 refused\ table.csv/ 'age\n20\0\n'
table 3 refused\ table.csv/ 'age\n"20\n'
table 3 refused\ table.csv/ 'age\n\377\n'
table 3 refused\ table.csv/ 'age\n1125899906842625\n'
table 3 refused\ table.csv/ 'age\n-\n'
table 3 refused\ table.csv/ 'age,town\n1,A\n' town text age num
table 3 refused\ table.csv/ 'town,age\nA\n' town text age num
table 3 refused\ table.csv/ 'town,age\nA,B\n' town text age num
table 3 refused\ table.csv/ "town\n$(printf '%065d' 0)\n" town text
table 0 "$two" 'age'
table 0 "$three" 'age\n20'
table 0 "$three" 'age\r\n-1125899906842624\r\n'
table 0 "$three" '\357\273\277"age"\n"20"\n'
table 0 "$three" "town\n$(printf '%064d' 0)\n" town text
table 0 "$three" 'town,age\n"\377, ""A""\n",-0\n' town text age num
table 0 "$three" '\357\273\277\357\273\277town\r\n\0\r\n' town text

lines 0 '' ''
lines 0 "$replies" 'hello ann\nask census 1 size people\nbye'
lines 0 "$replies" 'hello ann\r\nask census 1 size people\r\nbye\r\n'
lines 0 'no 12 1/no 10 0/no 10 0/no 10 0/' 'hello ann\0\n\0\n\n\r'
lines 0 'no 10 0/no 10 0/' '\377\376hello ann\n\303\251\n'
lines 0 'no 14/no 12 1/' 'ask census 1 size people\nhello eve\n'
lines 0 'bye/no 14/' 'bye\nask census 1 size people\n'
asked "no 20 0" $'\xff'
asked "no 20 0" '#'
asked "no 20 0" nnnnnnnnnnnnnnnnnnnnnnnnnnnnnnnnn
asked "no 20 0" 1125899906842625
asked "no 20 5" 'size "a'
asked "no 20 12" 'size people $'
asked "no 20 4096" "$(printf '(%.0s' {1..4097})"
asked "no 21 4096" "$(printf '(%.0s' {1..4096})"
asked "no 21 0" ''
asked "no 21 0" release
asked "no 21 0" 'text 1'
asked "no 21 1" size
asked "no 21 2" 'size people people'
asked "no 21 3" 'sum[0 people'
asked "no 21 2" '![0] 1'
asked "no 21 2" '![4294967296] 1'
asked "no 22 65" "$(printf '1+%.0s' {1..64})1"
asked "no 30 unbound 5 11" 'size nobody'
asked "no 30 unbound 3 6" '1 -one'
asked "no 30 mismatch 5 6" 'size 1'
asked "no 30 mismatch 4 9" '1 + "two"'
asked "no 30 mismatch 5 11" '1 + (people)'
asked "no 30 notground 4 14" 'inl[num -o num] 1'
asked "no 30 notground 0 57" 'if true then (fun(x : num) => x) else (fun(x : num) => x)  '
asked "no 30 notflat 9 22" '(fn (x : bag (bag num)) => 1) 2'
asked "no 30 notflat 5 27" 'map (fn (x : num) => people) people'
asked "no 31 1 23 2" '(fun (x : num) => x + x) (size people)'
asked "no 31 0 43 3/2" 'fun (x : ![2] num) => 3 * (let !y = x in y)'
asked "no 31 0 40 inf" 'fun (x : num) => if x == 1 then 1 else 2'
asked "no 32 0 30" '1125899906842624 * size people'
asked "no 32 0 29" '65536 * (65536 * size people)'
asked "no 33 people" 'if size people <= 3 then 0 else 100'
asked "no 34" '"a"'
asked "no 34" people
asked "no 35 65 67" "$(functions 43 '0 + x' '0 + @ x')"
asked "no 36 61 63" "$(functions 16 x '@ (@ x)')"
asked "no 37 121 145 65" "${unions}size (union (union e people) e)"
asked "answer 0 8 2000000" '2 * size people' 2
asked "answer 0 3 0" '(1)' 0
asked "answer 0 6 1000000" '(size people + 1)' 1
asked "answer 0 4 1000000" 'size (filter (fn (x : num) => x <= 30) people)' 1
long=$(head -c 16384 /dev/zero | tr '\0' a)
printf '%s\n%sa\n' "$long" "$long" >lines
afresh cat.json key <lines >output 2>errors
status=$?
judge "lines of 16,384 and 16,385 bytes" 0 'no 10 0/no 11/'
afresh cat.json key </dev/zero >output 2>errors
status=$?
judge "a script without end" 8 'script too long/'
afresh cat.json key <. >output 2>errors
status=$?
judge "standard input is a folder" 5 ''
afresh cat.json key <&- >output 2>errors
status=$?
judge "standard input is closed" 5 ''

: >output
afresh cat.json key <script 2>errors >&-
status=$?
judge "standard output is closed" 5 ''
afresh cat.json key <script 2>errors >/dev/full
status=$?
judge "standard output is full" 5 ''
"$program" run nobody key <script 2>errors >/dev/full
status=$?
judge "a refusal, standard output is full" 5 ''
"$program" 2>errors >/dev/full
status=$?
judge "usage, standard output is full" 5 ''
yes bye | head -c 16000000 >lines
afresh cat.json key <lines 2>errors | head -n 1 >output
status=${PIPESTATUS[0]}
judge "the reader of standard output goes" 5 'bye/'
exit $passed
