#!/bin/sh
# Checks a changed crate, in two minutes at most if everything else was checked before:
#
#     sh gate/quick.sh RT CRATE SECONDS
#
# It formats the files, and names those that change; checks the proofs, and that edits can be
# applied; runs the tests in CRATE_tests before they are proved, for SECONDS at most; and checks
# the pages. If a step fails, it shows the step's output without the lines about proved parts.
if [ $# -ne 3 ] || [ ! -d "$(dirname "$0")/../crates/${2%_tests}" ]; then
    echo "usage: make quick CRATE=name, with the name of a folder in crates/" >&2
    exit 2
fi
cd "$(dirname "$0")/.." || exit 2
rt=$1
crate=${2%_tests}
seconds=$3
unseen=
log=$(mktemp) || exit 2
trap 'rm -f "$log"' EXIT

# After a line that ends with a list of bytes, which rt prints for a failed comparison, adds a line
# with their text.
with_texts() {
    awk '{ print }
        match($0, /\[[0-9]+(, [0-9]+)+\]$/) {
            count = split(substr($0, RSTART + 1, RLENGTH - 2), bytes, ", ")
            text = ""
            for (at = 1; at <= count; at++) {
                if (bytes[at] != 10 && (bytes[at] < 32 || bytes[at] > 126)) next
                text = text (bytes[at] == 10 ? "\\n" : sprintf("%c", bytes[at] + 0))
            }
            printf "%" RSTART - 1 "s\"%s\"\n", "", text
        }'
}

# show WHAT: prints the log without the lines about proved parts, and exits.
show() {
    echo
    grep -v ': proved$\|^statements \|^library \|\.\.\. ok$' "$log" | with_texts
    echo "$1: failed"
    exit 1
}

# step WHAT FOLDER COMMAND..: prints WHAT, runs the command in the folder, and prints how long it
# took.
step() {
    what=$1
    folder=$2
    shift 2
    began=$(date +%s)
    printf '%s: ' "$what"
    (cd "$folder" && "$@") > "$log" 2>&1 || show "$what"
    echo "$(($(date +%s) - began)) s"
    grep '^rt: formatted ' "$log"
    ! grep '^rt: note: must-fail/' "$log" || { echo "$what: failed"; exit 1; }
}

# The crates that use this one, directly or indirectly, except crates of tests.
crates_above() {
    awk -F: -v crate="$crate" '
        { uses[$1] = $2 " " }
        END {
            found[crate]
            do {
                more = 0
                for (name in uses) for (below in found)
                    if (!(name in found) && index(uses[name], " " below " ")) { found[name]; more = 1 }
            } while (more)
            delete found[crate]
            for (name in found) if (name !~ /_tests$/) print name
        }' crates.txt | sort | paste -sd ' ' -
}

# Runs the crate's tests. A test without an answer within rt's limit of a minute hasn't failed: the
# machine may be busy. If no test was run, nothing is known, so the step fails.
tests() {
    began=$(date +%s)
    all=$(grep -rh '^ *#\[test\]' "crates/${crate}_tests/src" | wc -l)
    printf '%s: ' "${crate}_tests"
    [ "$all" -gt 0 ] || { echo "has only proofs, and nothing to run"; return; }
    # timeout has a process group of its own, which Ctrl-C doesn't reach.
    (cd "crates/${crate}_tests" && exec timeout "$seconds" "$rt" try --test) > "$log" 2>&1 &
    trap 'kill $!; exit 130' INT TERM
    wait $!
    status=$?
    read -r passed open wrong << COUNTS
$(awk '/^test .* \.\.\. ok$/ { passed++ }
        failed { if (/checked: no-answer/) open++; else wrong++ }
        { failed = /^test .* \.\.\. FAILED$/ }
        END { print passed + 0, open + 0, wrong + failed }' "$log")
COUNTS
    case $status in 0 | 124) ;; 6) [ "$open" -gt 0 ] || show "${crate}_tests" ;; *) show "${crate}_tests" ;; esac
    [ "$wrong" -eq 0 ] || show "${crate}_tests"
    echo "$passed of $all passed, before they are proved: $(($(date +%s) - began)) s"
    [ "$open" -eq 0 ] || echo "${crate}_tests: $open of its tests had no answer within a minute"
    [ $status -ne 124 ] || echo "${crate}_tests: no more tests were run in $seconds s: LIMIT=900 gives more time"
    [ $((passed + open)) -gt 0 ] || { echo "${crate}_tests: failed"; exit 1; }
    [ $((passed + open)) -eq "$all" ] || unseen="$((all - passed - open)) of its tests weren't run, and "
}

for name in "$crate" "${crate}_tests"; do
    [ ! -d "crates/$name" ] || step "$name: layout" "crates/$name" "$rt" fmt
done
step "$crate: proofs, and those of changed libraries" "crates/$crate" "$rt" check
[ ! -d "crates/${crate}_tests" ] || tests
step "pages" . make -s --no-print-directory pages
above=$(crates_above)
echo "$crate: ok, but ${unseen}the proofs of tests weren't checked${above:+, nor the crates above: $above}"
