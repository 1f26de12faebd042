#!/usr/bin/python3
"""Turns a bit-vector problem in SMT-LIB (QF_BV) into DIMACS CNF, using Z3's bit-blaster.

    smt2cnf.py PROBLEM.smt2 > FORMULA.cnf

If Z3 is right, the formula is satisfiable exactly if the problem is. Its comments `c NAME LITERAL`
name each bit NAME[0], NAME[1] .. of each word that the problem uses, and each truth value, for
show.awk. All other problems are refused: those with integers, arrays, functions, quantifiers, or
with several questions. It needs Debian's package python3-z3."""
import re
import sys

try:
    import z3
except ImportError:
    sys.exit("smt2cnf.py: there is no module z3: in Debian it is the package python3-z3")

ASSERTING = {"set-logic", "set-info", "set-option", "declare-const", "declare-fun", "define-fun",
             "define-const", "define-sort", "assert", "check-sat"}
AFTER = {"set-info", "set-option", "get-model", "get-value", "get-assignment", "get-info",
         "get-option", "get-assertions", "get-proof", "get-unsat-core", "echo", "exit"}


class Refused(Exception):
    """Why a problem is refused."""


def commands(text):
    """The first word of each command."""
    depth, last = 0, ""
    for token in re.findall(r';.*|"[^"]*"|\|[^|]*\||[()]|[^\s()";|]+', text):
        if not token.startswith(";"):
            depth += {"(": 1, ")": -1}.get(token, 0)
            if depth == 1 and last == "(" and token != ")":     # not the end of an empty list
                yield token
            last = token


def check_commands(text):
    """Refuses what Z3's parser would leave out."""
    allowed = ASSERTING
    for command in commands(text):
        if command not in allowed:
            raise Refused(f"'{command}' isn't supported" +
                          ("" if allowed is ASSERTING else " after check-sat"))
        allowed = AFTER if command == "check-sat" else allowed


def terms(problem):
    """Each term in the problem, once."""
    found, waiting = set(), list(problem)
    while waiting:
        term = waiting.pop()
        if term.get_id() not in found:
            found.add(term.get_id())
            yield term
            waiting += [term.body()] if z3.is_quantifier(term) else term.children()


def is_constant(term):
    return z3.is_const(term) and term.decl().kind() == z3.Z3_OP_UNINTERPRETED


def cause_of(term):
    """Why the term isn't one of QF_BV; or an empty text."""
    if z3.is_quantifier(term):
        return "quantifiers aren't supported"
    if not z3.is_bool(term) and not z3.is_bv(term):
        return f"{term.sort()} isn't supported, only Bool and BitVec"
    if z3.is_app(term) and term.decl().kind() == z3.Z3_OP_UNINTERPRETED and term.num_args() > 0:
        return f"the function {term.decl()} isn't defined"
    return ""


def renamed(problem):
    """The problem with a name of our own for each truth value and each word, and for each bit of
    the words, so that no name can have two meanings, or be taken for a part of the formula. Also
    the problem's name for each truth value and bit."""
    names, substitutes, bits = {}, [], []
    constants = sorted(filter(is_constant, terms(problem)), key=str)
    for number, term in enumerate(constants):
        name = re.sub(r"[\s\0-\x20\x7f%\[\]]", lambda found: f"%{ord(found[0]):02X}",
                      term.decl().name())
        own = z3.Const(f"value_{number}", term.sort())
        substitutes.append((term, own))
        if z3.is_bool(term):
            names[str(own)] = name
        for k in range(0 if z3.is_bool(term) else term.size()):
            bit = z3.Bool(f"value_{number}_{k}")
            names[str(bit)] = f"{name}[{k}]"
            bits.append(bit == (z3.Extract(k, k, own) == 1))
    return [z3.substitute(term, substitutes) for term in problem] + bits, names


def formula(text):
    """The lines of the formula for this problem."""
    check_commands(text)
    problem = z3.parse_smt2_string(text)
    goal = z3.Goal()
    goal.add(problem)
    if z3.Probe("is-qfbv")(goal) != 1:
        causes = filter(None, map(cause_of, terms(problem)))
        raise Refused(next(causes, "not a problem of QF_BV"))
    problem, names = renamed(problem)
    goal = z3.Goal()
    goal.add(problem)
    clauses, = z3.Then("simplify", "propagate-values", "bit-blast", "tseitin-cnf")(goal)
    if clauses.inconsistent():
        return ["p cnf 1 2", "1 0", "-1 0"]
    if z3.Probe("is-propositional")(clauses) != 1:
        raise Refused("Z3 can't turn this problem into clauses")
    # After the clauses Z3 writes a comment with number and name of each variable. The numbers may
    # be higher than the one in Z3's header. What has no variable may have any value; but even the
    # constants true and false may have one.
    _, *lines = clauses.dimacs().splitlines()
    comments = [line.split(" ") for line in lines if line.startswith("c ")]
    variables = {own: int(variable) for _, variable, own in comments}
    lines = [line for line in lines if not line.startswith("c ")]
    lines += [f"{sign}{variables[own]} 0" for own, sign in (("true", ""), ("false", "-"))
              if own in variables]
    last = max(variables.values(), default=0)
    for own in names:
        last += own not in variables
        variables.setdefault(own, last)
    return [f"p cnf {last} {len(lines)}",
            *(f"c {name} {variables[own]}" for own, name in names.items()), *lines]


def main(words):
    if len(words) != 1 or words == ["--help"]:
        is_asked = words == ["--help"]
        print("usage: smt2cnf.py PROBLEM.smt2 > FORMULA.cnf",
              file=sys.stdout if is_asked else sys.stderr)
        return 0 if is_asked else 2
    try:
        with open(words[0], encoding="utf-8") as file:
            text = file.read()
        print(*formula(text), sep="\n")
    except Refused as fault:
        return f"smt2cnf.py: {words[0]}: {fault}"
    except z3.Z3Exception as fault:
        return f"smt2cnf.py: {words[0]}: {fault.value.decode().splitlines()[0]}"
    except (OSError, UnicodeError) as fault:
        return f"smt2cnf.py: {words[0]}: {fault}"
    return 0


if __name__ == "__main__":
    sys.exit(main(sys.argv[1:]))
