#!/bin/sh
# bmc.sh [--induction] FILE DEPTH FORMULA: asks, as DIMACS CNF, whether `bad` can be 1 in a step
# from 2 to DEPTH; step 1 is the reset. With --induction: whether `bad` can be 1 in step DEPTH if it
# is 0 in all steps before, which may begin anywhere, without a reset and whatever registers hold at
# first.
# bmc.sh --to DEPTH FILE FORMULA CUBES: the first question, and a cube for each step, for
# `lrup-solve --cubes-in-order --cubes CUBES FORMULA`, which finds the first step with a `bad`.
#
# Any bit of `bad` counts. In FILE.sv a failing `assert` counts, too, and each `assume` holds from
# step 2 on, or with --induction from step 1 on. Needs `yosys`. Comments name the bits of the module's
# wires in each step, for show.awk. What is undefined (x) may be 0 or 1.
usage='usage: bmc.sh [--induction] FILE DEPTH FORMULA | bmc.sh --to DEPTH FILE FORMULA CUBES'
usage="$usage, with 2 or more steps for DEPTH"
first='reset=reset' begin='' cubes=''
[ "$*" != --help ] || { echo "$usage"; exit; }
case $1 in
    --induction) first='induction=1' begin='setattr -unset init w:*;'; shift ;;
    --to) if [ $# -eq 5 ]; then cubes=$5; set -- "$3" "$2" "$4"; else set --; fi ;;
esac
case $#$2 in 3 | 3*[!0-9]* | 30* | 31 | [!3]*) echo "$usage" >&2; exit 2 ;; esac
case $cubes in
    '') ;;
    "$1" | "$3") echo "bmc.sh: CUBES would replace FILE or FORMULA" >&2; exit 2 ;;
    -*) cubes=./$cubes ;;
esac
here=$(dirname "$0")
# A name of the cells that has the place in FILE, unless the path has characters that yosys refuses.
case $1 in
    *[!A-Za-z0-9_./-]*) named='-enumerate -pattern assertion_%' ;;
    *) named=-src ;;
esac
# Without -noopt, `proc` would simplify before verilog2cnf.sh has looked for loops; `opt_expr` only
# makes what a memory holds at first a constant. `memory` would run `opt_clean`, which drops registers
# that nothing reads, and move registers into memories; these two of its passes map memories.
CUBES=$cubes exec "$here/../verilog2cnf.sh" "$1" "$3" "hierarchy -auto-top; proc -noopt; async2sync;
chformal -cover -remove; rename $named t:\$assert t:\$assume; flatten; opt_expr -keepdc t:\$meminit_v2;
memory_collect; memory_map -keepdc; $begin
expose w:* w:\$* %d i:* %d; techmap -map \"$here/asserts.v\";
expose w:*.\$fails w:*.\$holds %u w:*._TECHMAP_REPLACE_.* %d" '' -v output=bad -v steps="$2" -v "$first"
