#!/usr/bin/env python3
"""plan.py DOMAIN PROBLEM STEPS: asks, as DIMACS CNF, whether a planning problem has a plan of at
most STEPS steps, one action each. Comments `c NAME LITERAL` name the actions of each step, such as
move(kitchen,hall)@1, for show.awk.

DOMAIN and PROBLEM are PDDL with only STRIPS and types: conjunctions, and `not` in effects; no
equality."""
import ast
import itertools
import re
import sys


# What isn't STRIPS, and what it is called.
UNSUPPORTED = [(r"\(\s*=\s|:equality\b", "equality"), (r"\(\s*either\b", "either"),
               (r":negative-preconditions\b", "not in preconditions"),
               (r"\(\s*(?:or|imply|forall|exists|when)\b|:(?:adl|conditional-effects"
                r"|disjunctive-preconditions|quantified-preconditions"
                r"|existential-preconditions|universal-preconditions)\b", "more than conjunctions")]


def read(path, kind):
    """The nested lists of a file (define (domain ..) ..) or (define (problem ..) ..), parsed as
    Python lists."""
    text = re.sub(r";.*", "", open(path, errors="replace").read().lower())
    if not re.match(rf"\s*\(\s*define\s*\(\s*{kind}\s", text):
        sys.exit(f"plan.py: {path}: not a {kind} in PDDL")
    for pattern, what in UNSUPPORTED:
        if re.search(pattern, text):
            sys.exit(f"plan.py: {path}: {what} isn't supported, only STRIPS and types")
    lists = re.sub(r"[^\s()]+", lambda word: f"{word[0]!r},",
                   text).replace("(", "[").replace(")", "],")
    return ast.literal_eval(f"[{lists}]")[0]


def parts(expression):
    return expression[1:] if expression[:1] in ([], ["and"]) else [expression]


def wanted(expression):
    """The facts of a precondition or a goal."""
    if any(fact[0] == "not" for fact in parts(expression)):
        sys.exit("plan.py: not in preconditions and goals isn't supported, only STRIPS and types")
    return parts(expression)


def typed(words):
    """The names of a list, each with its type."""
    found, names, words = {}, [], iter(words)
    for word in words:
        if word == "-":
            found.update(dict.fromkeys(names, next(words)))
            names = []
        else:
            names.append(word)
    return {**found, **dict.fromkeys(names, "object")}


def is_a(kind, other, types):
    known = set()
    while kind != other and kind not in known:
        known.add(kind)
        kind = types.get(kind, "object")
    return other in (kind, "object")


def ground(domain, problem):
    """The initial facts, the goal's facts, and for each action its name, and the facts that it
    needs, adds and deletes. Facts that no action changes have to hold initially, and are
    dropped."""
    sections = {entry[0]: entry[1:] for entry in [*domain[2:], *problem[2:]]}
    types = typed(sections.get(":types", []))
    objects = typed(sections.get(":constants", [])) | typed(sections.get(":objects", []))
    schemas = [dict(zip(entry[2::2], entry[3::2]), name=entry[1]) for entry in domain[2:]
               if entry[0] == ":action"]
    changing = {fact[1][0] if fact[0] == "not" else fact[0] for schema in schemas
                for fact in parts(schema[":effect"])}
    facts = {tuple(fact) for fact in sections[":init"]}
    actions = []
    for schema in schemas:
        parameters = typed(schema.get(":parameters", []))
        effect = parts(schema[":effect"])
        found = (wanted(schema.get(":precondition", [])),
                 [fact for fact in effect if fact[0] != "not"],
                 [fact[1] for fact in effect if fact[0] == "not"])
        fitting = ([name for name, kind in objects.items() if is_a(kind, other, types)]
                   for other in parameters.values())
        for values in itertools.product(*fitting):
            bound = dict(zip(parameters, values))
            wants, adds, deletes = ([tuple(bound.get(word, word) for word in fact)
                                     for fact in facts_of] for facts_of in found)
            if all(fact in facts for fact in wants if fact[0] not in changing):
                wants = [fact for fact in wants if fact[0] in changing]
                actions.append((f"{schema['name']}({','.join(values)})", wants, adds,
                                [fact for fact in deletes if fact not in adds]))
    return facts, {tuple(fact) for fact in wanted(sections[":goal"][0])}, actions


def main(domain, problem, steps):
    facts, goal, actions = ground(read(domain, "domain"), read(problem, "problem"))
    fluents = sorted(goal.union(*(wants + adds + deletes for _, wants, adds, deletes in actions)))
    # For each step, a variable for each fact, and for each action's number.
    fresh = itertools.count(1)
    at = [{what: next(fresh) for what in [*fluents, *range(len(actions))]}
          for _ in range(steps + 1)]
    clauses = ([[at[0][fact] if fact in facts else -at[0][fact]] for fact in fluents]
               + [[at[steps][fact]] for fact in sorted(goal)])
    for now, later in zip(at, at[1:]):
        for a, (_, wants, adds, deletes) in enumerate(actions):
            clauses += [[-now[a], now[fact]] for fact in wants]
            clauses += [[-now[a], later[fact]] for fact in adds]
            clauses += [[-now[a], -later[fact]] for fact in deletes]
            clauses += [[-now[a], -now[other]] for other in range(a)]
        for fact in fluents:        # only actions change facts
            clauses.append([now[fact], -later[fact]]
                           + [now[a] for a, x in enumerate(actions) if fact in x[2]])
            clauses.append([-now[fact], later[fact]]
                           + [now[a] for a, x in enumerate(actions) if fact in x[3]])
    print(f"p cnf {next(fresh) - 1} {len(clauses)}",
          *(f"c {actions[a][0]}@{step} {now[a]}" for step, now in enumerate(at[:-1], 1)
            for a in range(len(actions))),
          *(" ".join(map(str, clause)) + " 0" for clause in clauses), sep="\n")


if len(sys.argv) != 4 or not re.fullmatch("[0-9]+", sys.argv[3]):
    is_asked = sys.argv[1:] == ["--help"]
    print("usage: plan.py DOMAIN PROBLEM STEPS", file=sys.stdout if is_asked else sys.stderr)
    sys.exit(0 if is_asked else 2)
try:
    main(sys.argv[1], sys.argv[2], int(sys.argv[3]))
except Exception as fault:
    sys.exit(f"plan.py: DOMAIN or PROBLEM can't be read: {fault}")
