# What the measurements share. Read by the scripts beside it, never run alone.

top=$(cd "$(dirname "${BASH_SOURCE[0]}")/../.." && pwd)
program=${PROGRAM:-$top/crates/hitchseason/out/hitchseason}
# By its whole name, since a run goes on in a folder of its own.
case $program in /*) ;; *) program=$PWD/$program ;; esac

# Stops where the program or a tool isn't there, and says how to get it.
need_program() {
    if [ ! -x "$program" ]; then
        echo "there is no $program: run 'rt run' in crates/hitchseason first, which proves and builds it" >&2
        exit 2
    fi
}

# Takes the quick build, which isn't proved, where no other is named: for what is compared, and never for what is timed.
take_quick_program() {
    if [ -z "${PROGRAM:-}" ]; then
        "$top/tools/build" || exit 2
        program=$top/out/hitchseason
    fi
}

need_tool() {
    if ! command -v "$1" >/dev/null; then
        echo "there is no $1: apt-get install -y $2" >&2
        exit 2
    fi
}

# catalog NAME FILE [COLUMN TYPE]..: the catalog NAME, of the analysts ann and bob and the owner census, whose one table `people` is
# the file FILE. It has one column of numbers, `age`, where no other columns are named.
catalog() {
    local name=$1 file=$2 columns=
    shift 2
    [ $# -gt 0 ] || set -- age num
    for (( ; $# > 1; )); do
        columns+="${columns:+, }{\"name\": \"$1\", \"type\": \"$2\"}"
        shift 2
    done
    cat >"$name" <<END
{"analysts": ["ann", "bob"],
 "owners": [{"name": "census", "budget": 10000000, "capacity": 100, "partitions": [],
   "tables": [{"name": "people", "file": "$file", "columns": [$columns]}]}]}
END
}

# many_owners NAME OWNERS TABLES: the catalog NAME, of so many owners, `o1`, `o2`, .. and last `census`, each with so many tables,
# `people`, `t1`, `t2`, .., which are all the file people.csv.
many_owners() {
    local owner table columns='"file": "people.csv", "columns": [{"name": "age", "type": "num"}]' tables
    tables="{\"name\": \"people\", $columns}"
    for ((table = 1; table < $3; table++)); do tables+=", {\"name\": \"t$table\", $columns}"; done
    {
        echo '{"analysts": ["ann", "bob"], "owners": ['
        for ((owner = 1; owner <= $2; owner++)); do
            printf '{"name": "%s", "budget": 10000000, "capacity": 100, "partitions": [], "tables": [%s]}%s\n' \
                "$([ "$owner" = "$2" ] && echo census || echo "o$owner")" "$tables" "$([ "$owner" = "$2" ] || echo ,)"
        done
        echo ']}'
    } >"$1"
}

# Makes a new folder for the files of one run, which goes with the run: a key, and the catalog of a table people.csv.
make_room() {
    room=$(mktemp -d)
    trap 'rm -rf "$room"' EXIT
    cd "$room" || exit 2
    head -c 32 /dev/zero >key
    catalog cat.json people.csv
}

# renew CATALOG KEY [--mirror]: this folder's journals are made anew, and hold no records. Where the files are refused there are none.
renew() {
    rm -rf journals mirrors
    "$program" init "$@" </dev/null >made 2>&1
}
# afresh CATALOG KEY: a run over new journals, on this function's standard input.
afresh() {
    renew "$@"
    "$program" run "$@"
}

# measure NAME COMMAND..: runs the command on this script's standard input, and prints a row.
# Its standard output goes to the file output, its status to the variable status.
measure() {
    local name=$1
    shift
    /usr/bin/time -o figures -f '%e %U %S %M' "$@" >output
    status=$?
    read -r wall user system memory < <(tail -n 1 figures)
    printf '%-24s %8s %8s %8s %10s   %s\n' "$name" "$wall" "$user" "$system" "$memory" "$(cut -d' ' -f1 /proc/loadavg)"
}

print_head() {
    printf '%-24s %8s %8s %8s %10s   %s\n' "what" "wall s" "user s" "system s" "peak KiB" "load"
}

# judge NAME STATUS OUTPUT: the last run's status and the file output, lines parted by '/', are these.
judge() {
    local found verdict=
    found=$(head -c 300 output | tr '\n' '/')
    [ "$status" = "$2" ] && [ "$found" = "$3" ] && [ ! -s errors ] || { verdict="WRONG, wanted $2 $3"; passed=1; }
    rows=$((${rows:-0} + 1))
    printf '%-40s %3s  %s  %s\n' "$1" "$status" "${found:0:60}" "$verdict"
}
# over_journals NAME STATUS OUTPUT WORD..: the example's script under these words, over the journals as they are.
over_journals() {
    "$program" "${@:4}" <script >output 2>errors
    status=$?
    judge "$1" "$2" "$3"
}
# words NAME STATUS OUTPUT WORD..: the same, but a run goes over new journals.
words() {
    if [ $# = 6 ] && [ "$4" = run ]; then renew "$5" "$6"; fi
    over_journals "$@"
}
