#!/usr/bin/awk -f
# show.awk FORMULA ANSWER: prints the values that an answer's `v` lines give to the bits that the
# formula's comments `c NAME LITERAL` name. The bits of a word are named NAME[0], NAME[1] .., or
# follow one name, as CBMC writes them: `c NAME LITERAL LITERAL ..`, from bit 0 on, with TRUE or
# FALSE for a constant. A bit that no comment names, but a higher one of its word, is x.
# show.awk FORMULA ANSWER TRACE.vcd: writes the values of names NAME@STEP to a file for viewers of
# waves, such as GTKWave. Its time is the step.
# show.awk FORMULA CORE: prints the names of which the core, also a formula, has a variable.
function stop(cause) {
    print "show.awk: " cause > "/dev/stderr"
    status = 1
    exit 1
}
function variable(literal) { return literal < 0 ? -literal : literal + 0 }
function is_constant(literal) { return literal == "TRUE" || literal == "FALSE" }
function value_of(literal) {
    if (is_constant(literal)) return literal == "TRUE"
    return values[variable(literal)] == literal
}
# A variable has one value.
function take(number, literal) {
    if (number in values && values[number] != literal) is_wrong = 1
    values[number] = literal
}
# The bit of the word that a comment names.
function put(name, literal, place) {
    if (match(name, /\[[0-9]+\]$/)) {
        place = substr(name, RSTART + 1, RLENGTH - 2) + 0
        name = substr(name, 1, RSTART - 1)
    }
    if (!(name in width)) words[++last] = name
    if (place >= width[name]) width[name] = place + 1
    named[++count] = literal
    literals[name, place] = literal
}
function bits(word,    k, found) {
    for (k = 0; k < width[word]; k++)
        found = ((word, k) in literals ? value_of(literals[word, k]) : "x") found
    return found
}
function is_in_core(word,    k) {
    for (k = 0; k < width[word]; k++)
        if ((word, k) in literals && !is_constant(literals[word, k]) &&
            variable(literals[word, k]) in used) return 1
    return 0
}

# A wire's identifier: the digits of its number, to the base of VCD's 94 characters.
function identifier(number,    text) {
    for (; number > 0; number = int((number - 1) / 94))
        text = text sprintf("%c", 33 + (number - 1) % 94)
    return text
}
# The instances in the name are scopes.
function declare(wire, size, number,    parts, levels, k) {
    levels = split(wire, parts, ".")
    if (wire ~ /:/) { levels = 1; parts[1] = wire }     # the place in a file
    for (k = 1; k < levels; k++) print "$scope module " parts[k] " $end" > trace
    print "$var wire " size " " identifier(number) " " parts[levels] \
        (size > 1 ? " [" size - 1 ":0]" : "") " $end" > trace
    for (k = 1; k < levels; k++) print "$upscope $end" > trace
}
function write_trace(    k, wire, step, final, wires, number, size, sizes, names, found, before) {
    for (k = 1; k <= last; k++) {
        if (!match(words[k], /@[0-9]+$/)) continue
        wire = substr(words[k], 1, RSTART - 1)
        step = substr(words[k], RSTART + 1) + 0
        if (step > final) final = step
        if (!(wire in number)) { names[++wires] = wire; number[wire] = wires }
        if (width[words[k]] > size[wire]) size[wire] = width[words[k]]
    }
    if (!final) stop("the formula has no comments with steps, 'c NAME@STEP LITERAL'")
    print "$timescale 1 ns $end\n$scope module top $end" > trace
    for (k = 1; k <= wires; k++) declare(names[k], size[names[k]], k)
    print "$upscope $end\n$enddefinitions $end" > trace
    for (step = 1; step <= final; step++) {
        print "#" step > trace
        for (k = 1; k <= wires; k++) {
            found = (names[k] "@" step) in width ? bits(names[k] "@" step) : "x"
            if (found == before[k]) continue
            print (size[names[k]] > 1 ? "b" found " " : found) identifier(k) > trace
            before[k] = found
        }
    }
    print "#" final + 1 > trace
}

BEGIN {
    if (ARGC == 4 && ARGV[3] ~ /\.vcd$/) {
        trace = ARGV[3]
        ARGV[3] = ""
    } else if (ARGC != 3) {
        print "usage: show.awk FORMULA ANSWER [TRACE.vcd] | show.awk FORMULA CORE" > "/dev/stderr"
        status = 2
        exit 2
    }
}
FNR == 1 { file++ }
file == 1 && /^c [^ ]+( (-?[1-9][0-9]*|TRUE|FALSE))+ *$/ {
    for (k = 3; k <= NF; k++) put($2, $k, k - 3)
}
file == 1 && /^[-0-9 \t]/ { for (k = 1; k <= NF; k++) clauses[++length_of_all] = $k }
file == 2 && $1 == "p" { is_core = 1 }
file == 2 && is_core && /^[-0-9 \t]/ { for (k = 1; k <= NF; k++) used[variable($k)] = 1 }
file == 2 && $0 == "s SATISFIABLE" { is_answer = 1 }
file == 2 && $1 == "v" { for (k = 2; k <= NF; k++) take(variable($k), $k) }
END {
    if (status) exit status
    if (!count) stop("the formula has no comments 'c NAME LITERAL'")
    is_true = 0
    for (k = 1; k <= length_of_all && !is_core; k++)
        if (clauses[k] == 0) {
            if (!is_true) is_wrong = 1
            is_true = 0
        } else if (values[variable(clauses[k])] == clauses[k]) is_true = 1
    for (k = 1; k <= count; k++)
        if (!is_constant(named[k]) && !(variable(named[k]) in values)) is_wrong = 1
    if (is_core ? trace : is_wrong || !is_answer)
        stop("the answer isn't s SATISFIABLE with an assignment of this formula")
    if (trace) write_trace()
    for (k = 1; k <= last && !trace; k++)
        if (!is_core) print words[k] " = " width[words[k]] "'b" bits(words[k])
        else if (is_in_core(words[k])) print words[k]
}
