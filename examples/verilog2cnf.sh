#!/bin/sh
# verilog2cnf.sh FILE FORMULA PASSES NAMES OPTION..: for bmc.sh and miter.sh. The PASSES of `yosys`
# leave one module of FILE, which is SystemVerilog if its name ends with .sv. NAMES has `sed` rewrite
# names, and aiger2cnf.awk with these options of `awk` writes FORMULA, and the file that CUBES in its
# environment names. What is undefined (x) may be 0 or 1.
file=$1 formula=$2 passes=$3 names=$4
shift 4
[ "$file" != "$formula" ] || { echo "verilog2cnf.sh: FORMULA would replace FILE.v" >&2; exit 2; }
case $file in -?*) file=./$file ;; esac   # to yosys an option, even after --
case $file in *.sv) language='verilog -sv -formal' ;; *) language=verilog ;; esac

# A wire with two drivers, which yosys would take for one wire with both, and a loop without a
# register are refused; a constant is a driver if a cell makes it. `opt -keepdc -noff` simplifies
# gates alone: without the two options it also merges registers with the same input, and replaces a
# register that only ever gets one value by this value, whatever registers hold at first. What is
# undefined in the end comes from mapping to gates, such as a bit beyond the end of a word.
gates='setundef -undriven -anyseq; techmap; design -push-copy;
hilomap -hicell $_BUF_ Y -locell $_BUF_ Y; check -assert; design -pop;
opt -keepdc -noff; setundef -undriven -anyseq; dffunmap; aigmap'

# AIGER has a single clock. So all registers need the same edge of the same input.
clock='select -set rising t:$_DFF_P_ %ci:+[C] w:* %i; select -set falling t:$_DFF_N_ %ci:+[C] w:* %i;
select -set clocks @rising @falling; select -assert-max 1 @clocks;
select -set clocks_with_both_edges @rising @falling %i; select -assert-none @clocks_with_both_edges;
select -set clocks_that_are_no_inputs @clocks i:* %d; select -assert-none @clocks_that_are_no_inputs;
select -set clocks_of_several_bits @clocks s:2: %i; select -assert-none @clocks_of_several_bits'

# A formula appears whole or not at all, and an old one doesn't outlive a failure. Where there is
# something else than a plain file, such as /dev/stdout, it is written there.
new=$formula
if [ ! -L "$formula" ] && { [ -f "$formula" ] || [ ! -e "$formula" ]; }; then
    new=$formula.$$
    trap 'rm -f -- "$new"' EXIT
    trap 'exit 1' HUP INT TERM
    rm -f -- "$formula" || exit
fi
[ ! -f "${CUBES-}" ] || rm -f -- "$CUBES" || exit
# yosys would write its history to HOME.
circuit=$(unset HOME
    yosys -q -f "$language" -p "$passes; $gates; $clock; write_aiger -ascii -symbols" \
        -- "$file") || exit
printf '%s\n' "$circuit" | sed "$names" |
    awk "$@" -f "$(dirname "$0")/aiger2cnf.awk" > "$new" || exit
[ "$new" = "$formula" ] || mv -- "$new" "$formula"
