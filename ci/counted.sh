# How many cases a script tried, and how many ci/counts says that it tries. Read by the scripts of the whole check, at the
# repository's top or where `top` is that.

# counted SCRIPT FILE: whether the number before the words of each line of ci/counts that is SCRIPT's, as it stands last in FILE, is at least the one there.
# A greater one is said, so that somebody writes it there. Behind a smaller one stand FILE's first and last lines, which may say why.
counted() {
    local script number what found enough=0
    while read -r script number what; do
        [ "$script" = "$1" ] || continue
        found=$(grep -oE "[0-9][0-9,]* $what" "$2" | tail -n 1 | cut -d' ' -f1 | tr -d ,)
        if [ "${found:-0}" -lt "$number" ]; then
            echo "$1: ${found:-0} $what, where ci/counts says $number"
            enough=1
        elif [ "$found" -gt "$number" ]; then
            echo "    $1: $found $what now: write that into ci/counts, which says $number"
        fi
    done < <(grep -v '^#' "${top:-.}/ci/counts")
    [ $enough = 0 ] || { echo "    it said, first and last:"; sed -n '1,6s/^/    /p' "$2"; tail -n +7 "$2" | tail -n 6 | sed 's/^/    /'; }
    return $enough
}
