#!/usr/bin/env python3
"""equalities.py make SEED DEFINITIONS REQUESTS: definitions and requests as those of requests.py, whose conditions ask by equality:
`\\equals`, `==K` and `=/=K`, in either sign, of variables of constructors' sorts and of tokens, with constants and with one
another.
equalities.py judge PROGRAM SEED DEFINITIONS REQUESTS: judges them as requests.py does. What is plain is told here by what a
literal says: in a clause of its own, that a variable's head is a given one, or isn't, is plain in every spelling."""

import os
import sys

sys.path += [os.path.join(os.path.dirname(os.path.abspath(__file__)), "..", it) for it in ("oracle", "steps")]
import steps  # noqa: E402

EQUAL, DIFFERENT = "samek", "differk"
steps.HOOKS[EQUAL] = ("KEQUAL.eq", ["K", "K"], "Bool", None)
steps.HOOKS[DIFFERENT] = ("KEQUAL.ne", ["K", "K"], "Bool", None)
value_of_others, is_true_of_others = steps.value_of, steps.is_true


def value_of(p, v):
    if p[0] == "application" and p[1] in (EQUAL, DIFFERENT):
        left, right = [steps.value_of(it, v) for it in p[3]]
        return ("?", (left == right) == (p[1] == EQUAL))
    return value_of_others(p, v)


def is_true(p, v):
    if p[1] == "in":
        left, right = [steps.value_of(it, v) for it in p[3]]
        return left == right
    return is_true_of_others(p, v)


steps.value_of, steps.is_true = value_of, is_true

import requests  # noqa: E402 (what it imports of steps is as above)

requests.PLACES["in"] = ["first", "second"]
is_plain_otherwise = requests.is_plain

# ---- definitions


class Maker(requests.Maker):
    def predicate(self, variables):
        others = [(n, s) for n, s in variables.items() if s not in ("Int", "Bool", "V", "S")]
        if not others or self.chance(0.3):
            return super().predicate(variables)
        p = self.equality(*self.random.choice(others), others)
        if self.chance(0.1):
            more = super().predicate(variables)
            p = steps.connective("or", p, more) if more else p
        return p

    def equality(self, name, sort, others):
        """An equality of the variable, in some spelling and of either sign."""
        same = [n for n, s in others if s == sort and n != name]
        kept, self.variables = self.variables, {}
        other = ("variable", self.random.choice(same), sort) if same and self.chance(0.3) else self.closed(sort)
        self.variables = kept
        sides = [("variable", name, sort), other]
        if self.chance(0.4):
            sides.reverse()
        if "K" in steps.SUBSORTS.get(sort, []) and self.chance(0.6):
            call = steps.application(self.random.choice([EQUAL, DIFFERENT]), *[steps.injected(sort, "K", it) for it in sides])
            both = [call, ("literal", "Bool", self.random.choice(["true", "false"]))]
            return steps.equals("Bool", *(both if self.chance(0.8) else reversed(both)))
        p = steps.equals(sort, *sides)
        return steps.connective("not", p) if self.chance(0.4) else p


# ---- what is plain


def uninjected(p):
    """The term, and a constructor's with its arguments, without inj."""
    if p[0] == "application" and p[1] == "inj":
        return uninjected(p[3][0])
    return p


def is_one_head(p, bound=()):
    """A constructor of exactly the bound variables, in order."""
    p = uninjected(p)
    if p[0] == "variable":
        return [(p[1], p[2])] == list(bound)
    if p[0] != "application" or p[1] not in steps.CONSTRUCTORS:
        return False
    return list(p[3]) == [("variable", *it) for it in bound]


def is_asked_of(sides, bound=()):
    names = {name for name, _ in bound}
    for one, other in (sides, sides[::-1]):
        one = uninjected(one)
        if one[0] == "variable" and one[1] not in names and is_one_head(other, bound):
            return True
    return False


def is_head_test(p, bound=()):
    """Whether a literal says that a variable's head is a given one, or isn't."""
    if p[0] != "connective":
        return False
    if p[1] == "not" and not bound:
        return is_head_test(p[3][0])
    if p[1] == "exists":
        return is_head_test(p[3][1], (*bound, (p[3][0][1], p[3][0][2])))
    if p[1] not in ("equals", "in"):
        return False
    sides = list(p[3])
    for one, other in (sides, sides[::-1]):
        if other[0] == "literal" and other[1] == "Bool" and one[0] == "application" and one[1] in (EQUAL, DIFFERENT) and not bound:
            return is_asked_of(one[3])
    return is_asked_of(sides, bound)


def has_equality(p):
    return any(it[0] == "application" and it[1] in (EQUAL, DIFFERENT) for it in steps.parts_of(p))


def sides_of(p):
    """The sides that a literal says are equal, if it says so of two."""
    if p[0] != "connective" or p[1] not in ("equals", "in"):
        return None
    for one, other in (p[3], p[3][::-1]):
        if other[0] == "literal" and other[1] == "Bool" and one[0] == "application" and one[1] in (EQUAL, DIFFERENT):
            return one[3] if (other[2] == "true") == (one[1] == EQUAL) else None
    return p[3]


def is_unit_equation(p):
    """Whether a literal equates a variable of a constructors' sort with a term that doesn't hold it."""
    sides = sides_of(p)
    for one, other in (sides, sides[::-1]) if sides else ():
        one = uninjected(one)
        if one[0] == "variable" and one[2] not in steps.LITERAL_SORTS and one[1] not in steps.free_variables(other):
            return True
    return False


def is_plain(clause):
    return is_head_test(clause) or (not has_equality(clause) and is_plain_otherwise(clause))


class Judge(requests.Judge):
    def aborted(self, semantics, asked, state, result, params):
        super().aborted(semantics, asked, state, result, params)
        if "unknown-predicate" in result and "limit" not in result:
            shown = requests.clauses_of(result["unknown-predicate"])
            requests.check(not any(map(is_unit_equation, shown)), "an equation that can be solved is unknown")


requests.is_plain, requests.Maker, requests.Judge = is_plain, Maker, Judge

if __name__ == "__main__":
    sys.exit(requests.main())
