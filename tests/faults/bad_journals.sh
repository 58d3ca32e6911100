#!/usr/bin/env bash
# The program on whatever stands in the place of a journal: status and output beside what is wanted, and the file as it was. And grants.
# usage: tests/faults/bad_journals.sh    (PROGRAM=FILE tries another build than tools/build's)
# As root it also tries a read-only file and a full disk, as the user nobody and on a small tmpfs in a mount of its own. It ends with
# status 1 where one differs.
. "$(dirname "$0")/../lib/common.sh"
take_quick_program
need_tool python3 python3
make_room
cp "$top"/examples/first-run/{people.csv,script} .
passed=0
replies='hello ann/answer 0 5 1000000/bye/'
again='hello ann/answer 1 3 1000000/bye/'

# two NAME: the catalog NAME, of the owners census and, behind it, second.
two() {
    catalog "$1" people.csv
    python3 - "$1" <<'END'
import json
import sys
with open(sys.argv[1]) as file:
    catalog = json.load(file)
catalog["owners"].append({**catalog["owners"][0], "name": "second", "capacity": 10})
with open(sys.argv[1], "w") as file:
    json.dump(catalog, file)
END
}
# anew [CATALOG]: new journals with one ask in that of census.
anew() {
    renew "${1:-cat.json}" key
    "$program" run "${1:-cat.json}" key <script >/dev/null
}
# older [CATALOG]: the same, but the journal of census is one of version 1.
older() {
    anew "$@"
    python3 - "$top/tools/lib" <<'END'
import sys
sys.path.insert(0, sys.argv[1])
from journal import contents, remade
data = contents("journals/0.bud")
with open("journals/0.bud", "wb") as file:
    file.write(remade(data, 1))
END
}
# lay NUMBER AMOUNT: a grant behind the records of the journal of census, as it is, whether or not it may stand there.
lay() {
    python3 - "$top/tools/lib" "$@" <<'END'
import sys
sys.path.insert(0, sys.argv[1])
from journal import Grant, appended, capacity_in, contents
data = contents("journals/0.bud")
with open("journals/0.bud", "wb") as file:
    file.write(appended(data, capacity_in(data), [Grant(*map(int, sys.argv[2:]))]))
END
}
# part PARTITION PART STATUS OUTPUT: a reservation of this part behind the records of the journal of census, over a catalog with 4,000 keys.
part() {
    anew parts.json
    python3 - "$top/tools/lib" "$1" "$2" <<'END'
import sys
sys.path.insert(0, sys.argv[1])
from journal import ONE, Reservation, appended, capacity_in, contents
data = contents("journals/0.bud")
one = Reservation(1, (int(sys.argv[2]), int(sys.argv[3])), 7, 1, 1, 7, 1, ONE)
with open("journals/0.bud", "wb") as file:
    file.write(appended(data, capacity_in(data), [one]))
END
    over_journals "partition $1, part $2" "$3" "$4" audit parts.json key
}
# sums: what stands in journals.
sums() { find journals -type f -exec sha256sum {} + 2>/dev/null | sort; ls -ld journals journals/* 2>/dev/null | cut -c1-10; }
# refused NAME STATUS OUTPUT [CATALOG [KEY]]: `run` and `audit` refuse what is there, and leave it as it is.
refused() {
    local before after
    before=$(sums)
    over_journals "$1" "$2" "$3" run "${4:-cat.json}" "${5:-key}"
    over_journals "    and by audit" "$2" "$3" audit "${4:-cat.json}" "${5:-key}"
    after=$(sums)
    [ "$before" = "$after" ] || { echo "the files aren't as they were"; passed=1; }
}
# refused_grant NAME STATUS OUTPUT WORD..: `grant` on these words is refused, and leaves what is there as it is.
refused_grant() {
    local before
    before=$(sums)
    over_journals "$1" "$2" "$3" grant "${@:4}"
    [ "$before" = "$(sums)" ] || { echo "the files aren't as they were"; passed=1; }
}
# put PLACE BYTES: writes bytes, with printf's escapes, into the journal of census.
put() { printf "$2" | dd of=journals/0.bud bs=1 seek="$1" conv=notrunc status=none; }
# copy FROM TO: a slot of the journal of census in another slot's place.
copy() { dd if=journals/0.bud of=slot bs=64 skip=$(($1 + 2)) count=1 status=none && dd if=slot of=journals/0.bud bs=64 seek=$(($2 + 2)) conv=notrunc status=none; }
two two.json
python3 - <<'END'
import json
with open("cat.json") as file:
    catalog = json.load(file)
owner = catalog["owners"][0]
owner["tables"][0]["columns"] = [{"name": "age", "type": "text"}]
owner["partitions"] = [{"name": "ages", "table": "people", "column": "age", "keys": [str(key) for key in range(4000)]}]
with open("parts.json", "w") as file:
    json.dump(catalog, file)
END

rm -rf journals
refused "no journal" 4 'journal census uninitialised 0/'
[ ! -e journals ] || { echo "run or audit made the folder"; passed=1; }
over_journals "init" 0 'owner census budget 10000000 capacity 100/' init cat.json key
over_journals "init twice" 4 'journal census exists 4224/' init cat.json key
over_journals "the first run" 0 "$replies" run cat.json key
over_journals "audit" 0 'census reservations 1 answered 1 exhausted 0 lost 0 spent 1000000 budget 10000000/' audit cat.json key
over_journals "the second run" 0 "$again" run cat.json key

anew && truncate -s 0 journals/0.bud && refused "an empty file" 4 'journal census uninitialised 0/'
anew && truncate -s 127 journals/0.bud && refused "127 bytes" 4 'journal census uninitialised 127/'
anew && truncate -s 128 journals/0.bud && refused "a header alone" 4 'journal census damaged 0/'
anew && truncate -s 191 journals/0.bud && refused "the first slot torn off" 4 'journal census damaged 0/'
anew && truncate -s 192 journals/0.bud && refused "the second slot torn off" 4 'journal census damaged 1/'
anew && truncate -s 4223 journals/0.bud && refused "a byte too short" 4 'journal census damaged 63/'
anew && truncate -s 4225 journals/0.bud && over_journals "a byte behind the live area" 0 "$again" run cat.json key
anew && truncate -s 12928 journals/0.bud && over_journals "many bytes behind it" 0 "$again" run cat.json key
older && truncate -s 6527 journals/0.bud && refused "version 1: a byte too short" 4 'journal census damaged 99/'
older && truncate -s 6529 journals/0.bud && refused "version 1: a byte too long" 4 'journal census damaged 100/'
older && truncate -s 12928 journals/0.bud && refused "version 1: twice as many slots" 4 'journal census damaged 100/'
older && over_journals "version 1" 0 "$again" run cat.json key && [ "$(stat -c %s journals/0.bud)" = 6528 ] || { echo "WRONG: its length"; passed=1; }
anew && head -c 6528 /dev/zero >journals/0.bud && refused "zeros" 4 'journal census uninitialised 6528/'
anew && tr '\0' '\377' </dev/zero | head -c 6528 >journals/0.bud && refused "bytes 0xFF" 4 'journal census uninitialised 6528/'
anew && head -c 6528 /dev/urandom >journals/0.bud && put 0 '\245' && refused "random bytes behind a gate" 4 'journal census changed/'
anew && put 0 '\045' && refused "the header's gate torn" 4 'journal census uninitialised 4224/'
older && put 0 '\045' && refused "version 1: the header's gate torn" 4 'journal census uninitialised 6528/'
anew && put 9 '\004' && refused "another version" 4 'journal census changed/'
anew && put 9 '\001' && refused "version 3 called version 1" 4 'journal census damaged 64/'
anew && put 9 '\002' && over_journals "version 3 called version 2" 0 "$again" run cat.json key
older && put 9 '\002' && over_journals "version 1 called version 2" 0 "$again" run cat.json key
older && put 9 '\003' && over_journals "version 1 called version 3" 0 "$again" run cat.json key
anew && put 96 '\001' && refused "a byte of the header's end" 4 'journal census changed/'
anew && put 127 '\001' && over_journals "a gate of an area that isn't open" 0 "$again" run cat.json key
anew && put 97 '\245' && refused "an area opened that isn't there" 4 'journal census damaged 0/'
anew && put 98 '\245' && refused "an area opened before the one before it" 4 'journal census changed/'
anew && put 97 '\245\245' && refused "an area opened that the capacity hasn't" 4 'journal census changed/'
older && put 127 '\001' && refused "version 1: a byte of the header's end" 4 'journal census changed/'
anew && put 128 '\045' && refused "the first gate torn, behind it a slot" 4 'journal census damaged 1/'
anew && put 192 '\045' && over_journals "the last gate torn" 0 "$again" run cat.json key
anew && put 193 '\004' && refused "no such kind of record" 4 'journal census damaged 1/'
anew && put 193 '\003' && refused "a settlement called a grant" 4 'journal census damaged 1/'
anew && put 135 '\001' && refused "another number" 4 'journal census damaged 0/'
anew && put 131 '\001' && refused "a part's low byte, of the whole" 4 'journal census damaged 0/'
anew && put 158 '\001' && refused "a part's high byte, of the whole" 4 'journal census damaged 0/'
anew && put 159 '\001' && refused "a byte where a zero belongs" 4 'journal census damaged 0/'
anew && put 157 '\002' && refused "an analyst that isn't there" 4 'journal census damaged 0/'
anew && put 155 '\101' && refused "another charge" 4 'journal census damaged 0/'
anew && put 147 '\002' && refused "another sensitivity" 4 'journal census damaged 0/'
anew && copy 1 2 && refused "a settlement twice" 4 'journal census damaged 2/'
anew && copy 0 2 && refused "a reservation twice" 4 'journal census damaged 2/'
anew && copy 1 0 && refused "a settlement first" 4 'journal census damaged 0/'
anew && copy 1 63 && refused "the last slot open" 4 'journal census damaged 63/'
anew && copy 1 64 && over_journals "a record behind the live area" 0 "$again" run cat.json key
older && copy 1 99 && refused "version 1: the last slot open" 4 'journal census damaged 99/'
anew && copy 0 3 && refused "a slot open behind a closed one" 4 'journal census damaged 3/'

for at in 0 255 256 3999; do
    part 0 $at 0 'census reservations 2 answered 1 exhausted 0 lost 1 spent 1000007 budget 10000000/'
done
for view in '0 4000' '0 65535' '1 0' '1 256' '7 3999' '8 0' '255 1' '255 256'; do
    read -r partition at <<<"$view"
    part "$partition" "$at" 4 'journal census damaged 2/'
done

counted='census reservations 1 answered 1 exhausted 0 lost 0 spent 1000000 budget'
for version in anew older; do
    $version && lay 0 7 && over_journals "$version: a grant" 0 "$counted 10000007/" audit cat.json key
    over_journals "    and a run goes on" 0 "$again" run cat.json key
    lay 1 5 && refused_grant "    and behind a second one" 9 'too large 10000012/' cat.json key census 999999999990000000
    $version && lay 0 999999999990000000 && over_journals "a grant up to 10^18" 0 "$counted 1000000000000000000/" audit cat.json key
    refused_grant "    and no more" 9 'too large 1000000000000000000/' cat.json key census 1
    $version && lay 1 7 && refused "a grant of another number" 4 'journal census damaged 2/'
    $version && lay 0 7 && copy 2 3 && refused "a grant twice" 4 'journal census damaged 3/'
    $version && lay 0 0 && refused "a grant of nothing" 4 'journal census damaged 2/'
    $version && lay 0 1000000000000000001 && refused "a grant of more than 10^18" 4 'journal census damaged 2/'
    $version && lay 0 999999999990000001 && refused "a grant by which it is more" 4 'journal census damaged 2/'
    for place in 258 259 272 319; do
        $version && lay 0 7 && put $place '\001' && refused "a grant with byte $((place - 256))" 4 'journal census damaged 2/'
    done
    $version && over_journals "grant" 0 'granted census 10500000 3/' grant cat.json key census 500000
    over_journals "    and once more" 0 'granted census 10500001 4/' grant cat.json key census 1
    over_journals "    and what it counts" 0 "$counted 10500001/" audit cat.json key
    refused_grant "grant: too much" 9 'too large 10500001/' cat.json key census 1000000000000000000
done
anew
for amount in 0 -1 1.5 x '' 1000000000000000001 18446744073709551616; do
    refused_grant "grant: no amount, '$amount'" 2 'usage/' cat.json key census "$amount"
done
refused_grant "grant: no amount at all" 2 'usage/' cat.json key census
refused_grant "grant: a word more" 2 'usage/' cat.json key census 5 5
refused_grant "grant: nobody" 3 'refused nobody/' cat.json key nobody 5
refused_grant "grant: no catalog" 3 'refused nothing/' nothing key census 5
refused_grant "grant: no key" 3 'refused nothing/' cat.json nothing census 5
sed 's/"capacity": 100/"capacity": 2/' cat.json >small.json
anew small.json && refused_grant "grant: no room" 10 'full 2 2/' small.json key census 1
refused_grant "grant: neither room nor so much" 9 'too large 10000000/' small.json key census 1000000000000000000
anew two.json && rm journals/1.bud && over_journals "grant: another owner's isn't there" 0 'granted census 10000005 3/' grant two.json key census 5
refused_grant "    and to that one" 4 'journal second uninitialised 0/' two.json key second 5
anew && lay 1 7 && refused_grant "grant: a damaged journal" 4 'journal census damaged 2/' cat.json key census 5

anew two.json && cp journals/1.bud journals/0.bud && refused "another owner's" 4 'journal census changed/' two.json
anew two.json && rm journals/1.bud && refused "no journal of the second owner" 4 'journal second uninitialised 0/' two.json
anew two.json && truncate -s 700 journals/1.bud && refused "the second owner's torn off" 4 'journal second damaged 8/' two.json
renew two.json key && rm journals/0.bud && over_journals "init: the second owner's is there" 4 'journal second exists 768/' init two.json key
over_journals "    and the first owner's was made" 4 'journal census exists 4224/' init two.json key
sed 's/10000000/10000001/' cat.json >richer.json
anew && refused "a catalog of another budget" 4 'journal census changed/' richer.json
sed 's/"capacity": 100/"capacity": 99/' cat.json >less.json
anew && refused "a catalog of another capacity" 4 'journal census changed/' less.json
sed 's/"bob"/"eve"/' cat.json >eve.json
anew && refused "a catalog of another analyst" 4 'journal census changed/' eve.json
printf '%s' "$(tr -d ' \n' <cat.json)" >tight.json
anew && over_journals "the same catalog without blanks" 0 "$again" run tight.json key
head -c 32 /dev/zero | tr '\0' '\1' >key1
anew && refused "another key" 4 'journal census changed/' cat.json key1
anew && cp people.csv kept.csv && printf '50\n' >>people.csv && refused "another table" 4 'journal census changed/'
cp kept.csv people.csv
refused "a catalog that is absent" 3 'refused nothing/' nothing
printf 'age\n1.5\n' >bad.csv && catalog bad.json bad.csv
refused "a table that isn't one" 3 'refused bad.csv/' bad.json

rm -rf journals && mkdir -p journals/0.bud && refused "a folder in its place" 6 'disk census/'
refused_grant "    and for grant" 6 'disk census/' cat.json key census 5
over_journals "    and for init" 6 'disk census/' init cat.json key
rm -rf journals && : >journals && refused "a file in the folder's place" 6 'disk census/'
over_journals "    and for init" 6 'disk census/' init cat.json key
rm -rf journals && mkdir journals && ln -s 0.bud journals/0.bud && refused "a link to itself" 6 'disk census/'
anew && mv journals/0.bud kept.bud && ln -s ../kept.bud journals/0.bud && over_journals "a link to a journal" 0 "$again" run cat.json key
anew && : >output
"$program" audit cat.json key 2>errors >/dev/full
status=$?
judge "audit: standard output is full" 5 ''
"$program" run cat.json key <script 2>errors >/dev/full
status=$?
judge "run: standard output is full" 5 ''
over_journals "    what it asked is charged" 0 'census reservations 2 answered 2 exhausted 0 lost 0 spent 2000000 budget 10000000/' audit cat.json key

# as_nobody NAME STATUS OUTPUT WORD..: the same as a user who may read what lies here and write nothing.
as_nobody() {
    setpriv --reuid 65534 --regid 65534 --clear-groups "$program" "${@:4}" <script >output 2>errors
    status=$?
    judge "$1" "$2" "$3"
}
if [ "$(id -u)" = 0 ] && command -v setpriv unshare >/dev/null; then
    chmod 755 . && cp "$program" ./program && program=$room/program
    anew && chmod 444 journals/0.bud
    before=$(sums)
    as_nobody "a file that can't be written" 6 'disk census/' run cat.json key
    as_nobody "    and for audit" 6 'disk census/' audit cat.json key
    [ "$before" = "$(sums)" ] || { echo "the files aren't as they were"; passed=1; }
    rm -rf journals
    as_nobody "a folder that can't be made" 6 'disk census/' init cat.json key
    mkdir small
    sed 's/"capacity": 100/"capacity": 262144/' cat.json >large.json
    # A disk that is full but for a page, on which the first area has no room; and one on which the second one has none.
    unshare -m bash -s "$program" >small.said 2>&1 <<'END' || { cat small.said; passed=1; }
mount -t tmpfs -o size=1m none small && cp large.json people.csv key small && cd small && mkdir journals || exit 1
head -c 2m /dev/zero >filler 2>/dev/null
truncate -s -4096 filler
for command in init run init; do
    "$1" "$command" large.json key </dev/null
    echo "status $?"
done
rm filler && rm -r journals && "$1" init large.json key
{ echo hello ann && yes "ask census 0.01 size people" | head -n 34 && echo left census; } >script
head -c 2m /dev/zero >filler 2>/dev/null
"$1" run large.json key <script | tail -n 3
"$1" audit large.json key
rm filler && printf 'hello ann\nask census 0.01 size people\n' | "$1" run large.json key | cut -d' ' -f1-2
END
    said=$(sed 's/\(uninitialised\|exists\) [0-9]*/\1 SOME/' small.said | tr '\n' '/')
    wanted="disk census/status 6/journal census uninitialised SOME/status 4/journal census exists SOME/status 4/owner census budget 10000000 capacity 262144/"
    wanted+="no 52/no 42 1/left 320000 10000000 64/census reservations 32 answered 32 exhausted 0 lost 0 spent 320000 budget 10000000/hello ann/answer 32/"
    [ "$said" = "$wanted" ] || { echo "WRONG on a full disk, wanted $wanted:"; passed=1; }
    printf '%-40s      %s\n' "disks that are full" "$said"
else
    echo "not tried, for want of rights: a file that can't be written, a full disk"
fi
exit $passed
