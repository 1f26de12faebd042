# awk -v output=NAME [-v steps=N ..] -f aiger2cnf.awk CIRCUIT: asks, as DIMACS CNF, whether this
# output of a circuit in ASCII AIGER can be 1. A circuit with registers needs -v steps=N. Then the
# question is whether the output can be 1 in one of the steps 1 to N. With -v reset=NAME this input
# is 1 in step 1, and the output counts from step 2 on. With -v induction=1 the output is 0 in each
# step before step N, and step 1 is any step: what registers hold at first doesn't count.
#
# Any bit of an output with several bits counts, and so does each output whose name ends with
# `.$fails`. One whose name ends with `.$holds` is 1 in all steps up to the one that is asked for, but
# for step 1 if that is a reset. If CUBES in the environment names a file, a cube for each step that
# counts is written there, below a comment with the step.
#
# Each gate of each step becomes three clauses. A comment `c NAME LITERAL` names each other output,
# and each input that has a name and is used. With steps, it also names this output, and the name
# has its step: NAME@STEP, or NAME@STEP[3] for bit 3 of a word, from 0 on. A bit that is always 0 or
# 1 has a variable that no other clause has, so that no core has it.
function stop(cause) {
    print "aiger2cnf.awk: " cause > "/dev/stderr"
    status = 1
    exit 1
}

# A register has the value that its input had a step before. In step 1 it may be anything, unless a
# clause says what it is.
function literal(code, step) {
    if (code % 2) return -literal(code - 1, step)
    if (code == 0) return constant
    if (code in input_of && step > 1) return literal(input_of[code], step - 1)
    return code / 2 + (step - 1) * variables
}
function named_literal(code, step,    found) {
    found = literal(code, step)
    return found == constant ? tied : found == -constant ? -tied : found
}

# With several outputs that count, or with assumptions, a step has a variable that is true only if
# one of these is 1, and a variable that is true only if the assumptions hold up to this step.
function counts_in(step) { return is_plain ? literal(asked[1], step) : tied + step }
function holds_to(step) { return tied + last + step }

function title(name, step,    bit) {
    if (steps == "") return name
    bit = match(name, /\[[0-9]+\]$/) ? substr(name, RSTART) : ""
    return substr(name, 1, length(name) - length(bit)) "@" step bit
}

NR == 1 {
    if ($1 != "aag") stop("not ASCII AIGER")
    if (NF > 6) stop("a circuit with assert or assume, which bmc.sh is for")
    if ($4 > 0 && steps == "") stop("a circuit with registers, which bmc.sh is for")
    variables = $2
    constant = $2 * (steps == "" ? 1 : steps) + 1   # a variable that is false
    tied = constant + 1                             # the same for names
    inputs = $3; latches = inputs + $4; named = latches + $5; gates = named + $6
    next
}
NR <= 1 + inputs { codes[NR - 2] = $1; next }
NR <= 1 + latches {
    input_of[$1] = $2
    if (!induction && (NF < 3 || $3 < 2)) at_first[++known] = $3 == 1 ? $1 : $1 + 1
    used[$2 - $2 % 2] = 1
    next
}
NR <= 1 + named { codes[NR - 2 - latches + inputs] = $1; used[$1 - $1 % 2] = 1; next }
NR <= 1 + gates {
    gate[++count] = $1; left[count] = $2; right[count] = $3
    used[$2 - $2 % 2] = used[$3 - $3 % 2] = 1
    next
}
/^i[0-9]/ { names[substr($1, 2) + 0] = $2 }
/^o[0-9]/ {
    k = substr($1, 2) + inputs
    name = $2
    if (sub(/\.\$holds$/, ".holds", name)) assumed[++assumptions] = codes[k]
    else if (sub(/\.\$fails$/, ".fails", name) || name == output || name ~ /\[[0-9]+\]$/ &&
             substr(name, 1, length(output) + 1) == output "[") asked[++questions] = codes[k]
    if (name != $2) sub(/^.*\//, "", name)      # of the path of the file that has it
    names[k] = name
}
/^c$/ { exit }
END {
    if (status) exit status
    last = steps == "" ? 1 : steps
    first = induction ? last : reset == "" ? 1 : 2
    begin = induction ? 1 : first                   # of the assumptions
    forced = -1
    for (k = 0; k < inputs; k++) if (names[k] == reset && reset != "") forced = k
    if (!questions) stop("the circuit has no output " output)
    if (reset != "" && forced < 0) stop("the circuit has no input " reset)
    is_plain = questions == 1 && !assumptions
    clauses = 3 * count * last + 3 + known + (reset != "")
    if (induction) clauses += questions * (last - 1)
    if (!is_plain) clauses += last - first + 1
    if (assumptions) clauses += last - first + 1 + (last - begin + 1) * (assumptions + 1) - 1
    print "p cnf", is_plain ? tied : tied + 2 * last, clauses
    for (step = 1; step <= last; step++)
        for (k = 0; k < inputs + named - latches; k++)
            if (names[k] != "" && (k < inputs ? codes[k] in used : names[k] != output || steps != ""))
                print "c", title(names[k], step), named_literal(codes[k], step)
    print -constant, 0
    print -tied, 0
    for (k = 1; k <= known; k++) print literal(at_first[k], 1), 0
    if (reset != "") print literal(codes[forced], 1), 0
    for (step = 1; step < first && induction; step++)
        for (k = 1; k <= questions; k++) print -literal(asked[k], step), 0
    for (step = first; step <= last; step++) printf "%d ", counts_in(step)
    print 0
    for (step = first; step <= last && !is_plain; step++) {
        printf "%d ", -counts_in(step)
        for (k = 1; k <= questions; k++) printf "%d ", literal(asked[k], step)
        print 0
        if (assumptions) print -counts_in(step), holds_to(step), 0
    }
    for (step = begin; step <= last && assumptions; step++) {
        if (step > begin) print -holds_to(step), holds_to(step - 1), 0
        for (k = 1; k <= assumptions; k++) print -holds_to(step), literal(assumed[k], step), 0
    }
    for (step = 1; step <= last; step++)
        for (k = 1; k <= count; k++) {
            out = literal(gate[k], step); one = literal(left[k], step)
            other = literal(right[k], step)
            print -out, one, 0
            print -out, other, 0
            print out, -one, -other, 0
        }
    for (step = first; step <= last && ENVIRON["CUBES"] != ""; step++)
        print "c step " step "\na " counts_in(step) " 0" > ENVIRON["CUBES"]
}
