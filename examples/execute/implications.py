#!/usr/bin/env python3
"""implications.py judge PROGRAM SEED DEFINITIONS REQUESTS: random definitions without rules, each with so many random requests of
`implies`; what `PROGRAM stdio` answers to these, against all values over small ranges: each `valid` has instances of the antecedent
that are all instances of the consequent, and a substitution that makes the consequent's body have each; each `valid` with `\\bottom`
has none; each not valid has an instance that isn't one of the consequent; each that isn't decided shows a literal that isn't plain,
or a limit. It prints each difference, and how many replies of each kind it judged."""

import itertools
import json
import random
import sys
import tempfile

import requests
import steps
from requests import CALL, Difference, check, clauses_of, compact, is_plain, pattern_of, tree_of, unwrapped, valuations
from model import wrapped
from steps import application, conjuncts, connective, definition_text, free_variables, is_true, match, parts_of, solutions, value_of

FAULTS = {1, 2, 4}


def sort_at(p):
    """The sort of a term."""
    if p[0] == "variable":
        return p[2]
    if p[0] == "literal":
        return p[1]
    if p[1] == "inj":
        return p[2][1]
    return steps.HOOKS[p[1]][2] if p[1] in steps.HOOKS else steps.CONSTRUCTORS[p[1]][1]


class Maker(requests.Maker):
    def bound(self, term, name, sort):
        return ("connective", "exists", ["S"], [("variable", name, sort), term])

    def loosened(self, p, share):
        """The term with other variables, sums or closed terms in the place of some parts."""
        sort = sort_at(p)
        if sort and sort not in ("S", "V") and self.chance(share):
            return self.part(sort)
        if p[0] != "application" or p[1] in steps.HOOKS:
            return p
        if p[1] == "inj":
            return (*p[:3], [self.loosened(p[3][0], share)])
        return (*p[:3], [self.loosened(it, share) for it in p[3]])

    def part(self, sort):
        if self.chance(0.1):
            return self.closed(sort)
        if sort == "Int" and self.chance(0.25):
            return application(self.random.choice(["add", "sub"]), self.variable(sort, "Y", True), self.literal("Int"))
        lows = [it for it in steps.BELOW[sort] if it != sort and it not in ("V", "S")]
        if lows and self.chance(0.3):
            low = self.random.choice(lows)
            return steps.injected(low, sort, self.variable(low, "Y", True))
        return self.variable(sort, "Y", True)

    def consequent(self, term):
        own = dict(self.variables)
        self.variables = {} if self.chance(0.7) else own
        if self.chance(0.8):
            other = self.loosened(term, self.random.choice([0, 0.3, 0.5, 0.8]))
        else:
            other = self.configuration(self.heads, "Y", 2, steps.SORTS + steps.LITERAL_SORTS, 0.6)
        known = {**own, **free_variables(other)}
        clauses = self.predicates({n: s for n, s in known.items() if self.chance(0.8)}, 0.3, 2)
        body = connective("and", other, *clauses) if clauses else other
        return own, other, body

    def request(self, rules):
        state = self.shaped(self.state(self.heads))
        term = next(it for it in conjuncts(state) if not (it[0] == "connective"))
        own, other, body = self.consequent(term)
        new = [(n, s) for n, s in free_variables(other).items() if n not in own or self.chance(0.03)]
        bound = [it for it in new if self.chance(0.85)]
        if self.chance(0.02):
            bound.append(("Z1", "Int"))
        self.random.shuffle(bound)
        for name, sort in bound:
            body = ("connective", "exists", ["S" if self.sort == "S" else self.sort], [("variable", name, sort), body])
        sides = {"antecedent": wrapped(tree_of(state)), "consequent": wrapped(tree_of(body))}
        return {**CALL, "method": "implies", "params": sides}


def make(seed, definitions, asked):
    for number in range(definitions):
        maker = Maker(seed * 1000003 + number)
        maker.definition()
        yield [], [maker.request([]) for _ in range(asked)]


def under_binders(p):
    bound = {}
    while p[0] == "connective" and p[1] == "exists":
        bound[p[3][0][1]] = p[3][0][2]
        p = p[3][1]
    return bound, p


def split(p):
    parts = conjuncts(p)
    terms = [it for it in parts if it[0] != "connective"]
    return terms, [it for it in parts if it[0] == "connective"]


def choices(term, clauses, bound, value, v):
    """The values of the bound variables for which the term is the value and the clauses are true."""
    x = {n: u for n, u in v.items() if n not in bound}
    told = match(term, value, x)
    if told is False:
        return
    for found in solutions(clauses, {n: s for n, s in bound.items()}, x):
        if value_of(term, found) == value:
            yield found


class Judge(requests.Judge):
    def reply(self, rules, request, line):
        reply = json.loads(line)
        check(line == compact(reply), "no compact JSON with sorted keys")
        antecedent = pattern_of(request["params"]["antecedent"]["term"])
        bound, body = under_binders(pattern_of(request["params"]["consequent"]["term"]))
        if "error" in reply:
            return self.refused(reply["error"], antecedent, bound, body)
        result = reply["result"]
        self.counts["replies"] += 1
        (term,), clauses = split(antecedent)
        (other,), asked = split(body)
        own = {**free_variables(antecedent), **{n: s for n, s in free_variables(body).items() if n not in bound}}
        live = [v for v in valuations(own, self.random) if all(is_true(it, v) for it in clauses)][: requests.MOST_POINTS]
        if not live:
            live = list(itertools.islice(solutions(clauses, own, {}), 0, 400, 20))
        if not result["valid"]:
            check(set(result) == {"valid"}, "members")
            self.counts["not valid"] += 1
            if not any(next(choices(other, asked, bound, value_of(term, v), v), None) is None for v in live):
                self.sampled("no small counterexample", [steps.text(antecedent), steps.text(body)])
            return result
        predicate, substitution = (unwrapped(result["condition"][it]) for it in ("predicate", "substitution"))
        if predicate[1] == "bottom":
            self.counts["vacuous"] += 1
            check(not live, f"it has an instance at {live[:1]}")
            check(substitution[1] == "top", "a substitution of no instance")
            return result
        check(predicate[1] == "top", "another predicate")
        self.counts["valid"] += 1
        if not live:
            self.sampled("no small instance", [steps.text(antecedent)])
        told = conjuncts(substitution)
        self.counts["equalities"] += len(told)
        for v in self.random.sample(live, min(len(live), 60)):
            value = value_of(term, v)
            x = {n: u for n, u in v.items() if n not in bound}
            made = list(itertools.islice(solutions(told, dict(bound), x), 200))
            check(made, f"no values make the substitution true at {v}")
            for it in made:
                check(value_of(other, it) == value and all(is_true(c, it) for c in asked), f"{it} makes the substitution true at {v}, and not the body")
        return result

    def refused(self, error, antecedent, bound, body):
        code = error["code"]
        self.counts[f"code {code}"] += 1
        if code == 4:
            kind, inside = error["data"]["kind"], {n for it in split(body)[0] for n in free_variables(it)}
            idle = [n for n in bound if n not in inside]
            free = {**{n: s for n, s in free_variables(body).items() if n not in bound}}
            clash = [n for n in free_variables(antecedent) if n in bound or free.get(n, free_variables(antecedent)[n]) != free_variables(antecedent)[n]]
            check((kind == "I1") == bool(idle), f"{kind}, binders in no term {idle}")
            check(kind != "I3" or clash, "I3 without a name of two meanings")
            sorts = [[sort_at(it) for it in split(side)[0]] for side in (antecedent, body)]
            check(kind != "I2" or sorts[0] != sorts[1], "I2 of two sides of one sort with one term each")
        elif code == 5:
            data = error["data"]
            if "limit" not in data:
                shown = clauses_of(data["unknown-predicate"])
                check(not all(is_plain(it) for it in shown), "plain clauses alone are unknown")
                self.sampled("unknown predicates", [steps.text(it) for it in shown])
            else:
                self.sampled("limits", [compact(data["limit"])])
        else:
            check(code in FAULTS, f"code {code}")
            self.sampled(f"faults of code {code}", [json.dumps(error)[:200], steps.text(antecedent), steps.text(body)])
        return {}

    def difference(self, rules, request, line, what):
        self.faults += 1
        print(f"DIFFERENCE {what}")
        for side in ("antecedent", "consequent"):
            print(side, steps.text(pattern_of(request["params"][side]["term"])))
        print(requests.shortened(line), flush=True)


def judge(program, seed, definitions, asked):
    judging = Judge(random.Random(seed))
    with tempfile.TemporaryDirectory() as room:
        for rules, sides in make(seed, definitions, asked):
            path = f"{room}/definition.kore"
            with open(path, "w") as file:
                file.write(definition_text(rules))
            for it in judging.answered(program, path, rules, sides):
                judging.judged(rules, *it)
    print(dict(sorted(judging.counts.items())), "differences:", judging.faults)
    return judging.faults


if __name__ == "__main__":
    sys.exit(bool(judge(sys.argv[2], *map(int, sys.argv[3:6]))))
