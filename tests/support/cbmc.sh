#!/bin/sh
# cbmc [--trace] --external-sat-solver SOLVER | --dimacs --outfile FORMULA, and PROGRAM.c: stands in
# for CBMC 6.6. As CBMC does, it calls the solver by a quoted name with a temporary formula, reads
# the answer, removes the formula, and after a failure asks whether another assertion fails. Its
# formula is one that CBMC has written, for examples/cbmc/middle.c with a sum that wraps.
sample=$(dirname "$(readlink -f "$0")")/../../examples/cbmc/wrong.cnf
solver='' outfile=''
while [ $# -gt 0 ]; do
    case $1 in
        --trace | --dimacs) ;;
        --external-sat-solver) solver=$2; shift ;;
        --outfile) outfile=$2; shift ;;
        *) program=$1 ;;
    esac
    shift
done
echo "Type-checking $program"
[ -z "$outfile" ] || { cp "$sample" "$outfile"; exit; }

# The clauses without comments, and the further ones of this call; the header counts these.
call() {
    formula=$(mktemp "${TMPDIR:-/tmp}/external-sat$$.XXXXXX.cnf") || exit
    { sed -n "1s/.*/p cnf $1/p; /^[-0-9]/p" "$sample"; printf "$2"; } > "$formula"
    answer=$(sh -c "'$solver' '$formula'")
    rm "$formula"
    case $answer in
        *'s UNSATISFIABLE'*) return 20 ;;
        *'s SATISFIABLE'*) return 10 ;;
    esac
    echo 'external SAT solver has provided an unexpected response' >&2
    printf '\nVERIFICATION ERROR\n'
    exit 6
}
fails=0
if grep -q 'low + ((high - low) >> 1)' "$program"; then
    call '187 381' '187 0\n0\n' && exit 1
else
    call '187 380' '187 0\n' && exit 1
    [ $? -ne 10 ] || fails=1
    call '188 381' '0\n188 0\n' && exit 1
fi
[ $? -ne 10 ] || fails=1
if [ "$fails" -eq 0 ]; then echo 'VERIFICATION SUCCESSFUL'; else echo 'VERIFICATION FAILED'; exit 10; fi
