#!/bin/sh
# miter.sh FILE FORMULA: asks, as DIMACS CNF, whether the modules `one` and `other` of the file
# ever differ; they have no registers. Needs `yosys`. Comments name the bits of inputs and of the
# modules' wires, for show.awk. What is undefined (x) may be 0 or 1 in each module.
usage='usage: miter.sh FILE FORMULA'
[ "$*" != --help ] || { echo "$usage"; exit; }
[ $# -eq 2 ] || { echo "$usage" >&2; exit 2; }
exec "$(dirname "$0")/../verilog2cnf.sh" "$1" "$2" 'hierarchy; proc -noopt; setundef -undriven -anyseq;
setattr -set named 1 w:* w:$* %d i:* %d; miter -equiv one other miter;
hierarchy -top miter; flatten; expose a:named' \
    '/^o.* gold_/d; /^o.* gate_/d; s/ in_/ /; s/ gold\./ one./; s/ gate\./ other./' \
    -v output=trigger
