#!/usr/bin/env bash
# The Python tests that go after a passed `rt ci`: tools and pages with the real program, in some two minutes.
# usage: ci/behind_the_gate.sh [--services]    (PROGRAM=FILE tries another build)
# With --services those of connections, copies and the second implementation, in short forms: they wait for clocks and ports, so no gate
# hangs on them.
# It tries the proved program where `rt run` has built it, else tools/build's quick build, which takes its minutes first where something has
# changed. Two scripts run at a time.
# It ends with status 1 where one fails or isn't there, and shows what that one said; where one tried fewer cases than ci/counts says; and where
# something that a script needs is missing (Python 3.9 or later, say): then it names what went untried.
set -uo pipefail
# PROGRAM is meant from where this is started.
case ${PROGRAM:-} in '' | /*) ;; *) PROGRAM=$PWD/$PROGRAM ;; esac
cd "$(dirname "${BASH_SOURCE[0]}")/.." || exit 2
. ci/counted.sh
# Seconds for one script: many times what it takes, since machines may be slow and busy.
LIMIT=900
# Each with its arguments.
SCRIPTS=(ci/words.py "ci/more_edits --fits" ci/cases.py tests/comparisons/cases.py tests/tools/stated_numbers.py tests/faults/deep_walks.py
    tests/tools/client.py tests/tools/prepare.py tests/tools/persons.py tests/tools/find_fault.py tests/tools/explain.py tests/tools/walks.py
    tests/tools/why.py tests/tools/hs.py tests/tools/certify.py "tests/comparisons/compare_derivations.py 500" tests/pages/notebook.py
    tests/pages/pages.py tests/pages/first_programs.py tests/pages/language.py tests/pages/second_trial.py tests/comparisons/short_scripts.py)
OF_REFERENCE=(tests/pages/first_programs.py tests/pages/language.py tests/comparisons/short_scripts.py)
kind=scripts
if [ "${1:-}" = --services ]; then
    kind=services
    OF_REFERENCE=(tests/comparisons/compare_gen.py "tests/comparisons/compare_tables.py 500" "tests/comparisons/compare_journals.py 500"
        "tests/comparisons/compare_mirrors.py 500"
        "tests/comparisons/compare_scripts.py 60" "tests/comparisons/compare_orders.py 40")
    SCRIPTS=("tests/services/serving.py --quick" tests/services/keeping.py tests/services/full_disk.py tests/tools/page.py
        "tests/services/snapshots.py 8" "tests/services/two_processes.py 3"
        tests/services/memory_limit.py tests/faults/refused_threads.py tests/faults/limited_memory.py tests/comparisons/noise_counts.py
        "${OF_REFERENCE[@]}" "tests/services/door.py 20")
fi

passed=0
untried=()
if ! python3 -c 'import sys; sys.exit(sys.version_info < (3, 9))' 2>/dev/null; then
    echo "there is no Python 3.9 or later; not tried:"
    printf '    %s\n' "${SCRIPTS[@]}"
    exit 1
fi
# The second implementation takes its ChaCha20 from there.
if ! python3 -c 'import cryptography' 2>/dev/null; then
    echo "there is no Python package cryptography"
    untried+=("${OF_REFERENCE[@]}")
fi
# It runs an sshd of its own.
if ! PATH=$PATH:/usr/sbin:/sbin command -v sshd ssh ssh-keygen >/dev/null && [ $kind = services ]; then
    echo "there is no sshd"
    untried+=("tests/services/door.py 20")
fi
# It looks at a page.
if ! command -v chromium chromium-browser google-chrome >/dev/null && [ $kind = services ]; then
    echo "there is no browser"
    untried+=(tests/tools/page.py)
fi
proved=crates/hitchseason/out/hitchseason
if [ -z "${PROGRAM:-}" ]; then
    if [ -x $proved ] && [ -z "$(find crates.txt crates/*/src -newer $proved -print -quit)" ]; then
        PROGRAM=$proved
    else
        tools/build || exit 2
        PROGRAM=out/hitchseason
    fi
fi
PROGRAM=$(realpath "$PROGRAM")
export PROGRAM
room=$(mktemp -d)
trap 'rm -rf "$room"' EXIT

# One script with its arguments: its last line and its time, or all that it said.
try() {
    local begun=$SECONDS status=0 said="$room/${1//\//_}"
    timeout $LIMIT "$@" >"$said" 2>&1 </dev/null || status=$?
    if [ $status != 0 ]; then
        { echo "$*: FAILED, status $status"; cat "$said"; } >"$said.failed"
    elif ! counted "$1" "$said" >"$said.counted"; then
        { echo "$*: FAILED"; cat "$said.counted"; } >"$said.failed"
    else
        { echo "$*: $(tail -n 1 "$said") ($((SECONDS - begun)) s)"; cat "$said.counted"; } >"$said.passed"
        cat "$said.passed"
        return
    fi
    cat "$said.failed"
}

for script in "${SCRIPTS[@]}"; do
    for missing in "${untried[@]}"; do [ "$script" != "$missing" ] || continue 2; done
    read -ra words <<<"$script"
    while [ "$(jobs -rp | wc -l)" -ge 2 ]; do wait -n; done
    try "${words[@]}" &
done
wait
if [ ${#untried[@]} -gt 0 ]; then
    echo "not tried:"
    printf '    %s\n' "${untried[@]}"
    passed=1
fi
if compgen -G "$room/*.failed" >/dev/null; then passed=1; fi
tried=$(find "$room" -name '*.passed' -o -name '*.failed' | wc -l)
echo "$tried $kind tried" >"$room/tried"
# Those of the services are not counted: which of them can be tried depends on the machine.
[ $kind = services ] || counted ci/behind_the_gate.sh "$room/tried" || passed=1
if [ $passed = 0 ]; then echo "tools and pages: all as they should be, $tried scripts in $SECONDS s"; else echo "tools and pages: something is WRONG"; fi
exit $passed
