#!/usr/bin/env python3
"""requests.py make SEED DEFINITIONS REQUESTS: random definitions, each with so many random requests of `execute`.
requests.py judge PROGRAM SEED DEFINITIONS REQUESTS: what `PROGRAM stdio` answers to these, against all ground instances over
small values: the configurations so many steps on are exactly the instances of the reply's state, none before it ends or stops
the run, and the reason holds of them. It prints each difference, and how many replies of each reason it judged."""

import itertools
import json
import math
import os
import random
import re
import subprocess
import sys
import tempfile

sys.path += [os.path.join(os.path.dirname(os.path.abspath(__file__)), "..", it) for it in ("oracle", "steps")]
import steps
from model import literal_json, sort_json, wrapped
from steps import SMALL, application, conjuncts, connective, definition_text, firing, free_variables, has_instance
from steps import instances, is_open, is_true, meets_skeleton, parts_of, pool, renamed, solutions, successors, value_of, within

SCHEMA = {
    "vacuous": [set()],
    "stuck": [set()],
    "depth-bound": [set()],
    "branching": [{"next-states"}],
    "cut-point-rule": [{"next-states", "rule"}],
    "terminal-rule": [{"rule"}],
    "aborted": [{"foreign-rule"}, {"unknown-predicate"}, {"limit", "unknown-predicate"}, {"limit"}],
}
PLACES = {"not": ["arg"], "implies": ["first", "second"], "equals": ["first", "second"], "top": [], "bottom": []}
CALL = {"id": 1, "jsonrpc": "2.0", "method": "execute"}
MOST_POINTS, MOST_VALUATIONS, MOST_CONFIGURATIONS = 1500, 80, 400

# ---- Kore JSON


def tree_of(p):
    kind = p[0]
    if kind == "variable":
        return {"name": p[1], "sort": sort_json(p[2]), "tag": "EVar"}
    if kind == "literal":
        return literal_json(p[1], p[2])
    name, parts, sorts = p[1], [tree_of(it) for it in p[3]], [sort_json(it) for it in p[2]]
    if kind == "application":
        return {"args": parts, "name": name, "sorts": sorts, "tag": "App"}
    tree = {"sort": sorts[-1], "tag": name.capitalize()}
    if name in ("and", "or"):
        return {**tree, "patterns": parts}
    if name == "exists":
        return {**tree, "var": p[3][0][1], "varSort": sort_json(p[3][0][2]), "arg": parts[1]}
    return {**tree, **({"argSort": sorts[0]} if name == "equals" else {}), **dict(zip(PLACES[name], parts))}


def pattern_of(tree):
    tag = tree["tag"]
    if tag == "EVar":
        return ("variable", tree["name"], tree["sort"]["name"])
    if tag == "DV":
        return ("literal", tree["sort"]["name"], tree["value"])
    if tag == "App":
        return ("application", tree["name"], [it["name"] for it in tree["sorts"]], [pattern_of(it) for it in tree["args"]])
    name, sorts = tag.lower(), [tree[key]["name"] for key in ("argSort", "sort") if key in tree]
    if name in ("and", "or"):
        return ("connective", name, sorts, [pattern_of(it) for it in tree["patterns"]])
    if name == "exists":
        return ("connective", name, sorts, [("variable", tree["var"], tree["varSort"]["name"]), pattern_of(tree["arg"])])
    check(name in PLACES, f"the tag {tag}")
    return ("connective", name, sorts, [pattern_of(tree[key]) for key in PLACES[name]])


def compact(tree):
    return json.dumps(tree, sort_keys=True, separators=(",", ":"), ensure_ascii=False)


# ---- definitions and requests


class Maker(steps.Maker):
    """Rules that often lead to states which other rules rewrite, in some definitions most of them with variables alone on the
    left and without conditions; some ground states, and some that are a variable."""

    def definition(self):
        self.heads = self.random.sample(["f", "g", "h", "k", "u", "b", "t"], self.random.choice([1, 2, 3, 3, 4]))
        self.ends = ["out", "end", *self.heads, *self.heads, *self.heads, *(["k", "u", "g"] if self.chance(0.3) else [])]
        self.width, self.rest = self.random.choice([(0.5, 1), (0.7, 0.6), (0.9, 0.3)])
        self.heads += ["v"] if self.chance(0.03) else []
        return [self.rule(f"r{place}", self.heads) for place in range(self.random.choice([1, 2, 3, 3, 4, 5, 6, 8]))]

    def configuration(self, heads, letter, depth, repeat, share):
        name = self.random.choice(heads)
        if self.chance(0.03):
            return self.variable("S", letter, False)
        if letter == "X" and name != "v" and self.chance(0.15):
            return application(name, *[self.closed(sort) for sort in steps.CONSTRUCTORS[name][0]])
        share = self.random.choice([0.2, share, share, 0.8]) if letter == "X" else self.width
        return super().configuration(heads, letter, depth, repeat, share)

    def call(self, sort, numbers):
        if sort == "Bool":
            return self.truth(numbers, 1)
        return application(self.random.choice(["add", "sub", "add", "sub", "mul"]), *self.sides(numbers))

    def sides(self, numbers):
        return ("variable", self.random.choice(numbers), "Int"), self.number(numbers)

    def truth(self, numbers, depth):
        """A truth value that is computed, of these numbers and of truth values at hand."""
        known = [name for name, of in self.variables.items() if of == "Bool"]
        if known and self.chance(0.2):
            return ("variable", self.random.choice(known), "Bool")
        if depth == 0 or self.chance(0.6):
            return application(self.random.choice(["lt", "le", "eq", "gt", "ge", "ne"]), *self.sides(numbers))
        if self.chance(0.2):
            return application("opposite", self.truth(numbers, depth - 1))
        two = [self.truth(numbers, depth - 1) for _ in range(2)]
        return application(self.random.choice(["both", "either", "implied", "alike", "unlike"]), *two)

    def closed(self, sort):
        """In a right term, some calls over the variables of the left one."""
        numbers = [name for name, of in self.variables.items() if of == "Int"]
        return self.call(sort, numbers) if sort in ("Int", "Bool") and numbers and self.chance(0.4) else super().closed(sort)

    def term(self, sort, letter, depth, repeat=(), share=0.5):
        if letter == "X" and sort in ("Int", "Bool") and self.chance(0.15):
            return self.call(sort, [self.variable("Int", letter, True)[1] for _ in range(2)])
        return super().term(sort, letter, depth, repeat, share)

    def predicate(self, variables):
        sorts = {of: name for name, of in variables.items()}
        if "Int" in sorts and self.chance(0.25):
            kept, self.variables = self.variables, variables
            other = ("variable", sorts["Bool"], "Bool") if "Bool" in sorts and self.chance(0.4) else self.literal("Bool")
            p = steps.equals("Bool", self.truth([sorts["Int"]], 2), other)
            self.variables = kept
            return p
        return super().predicate(variables)

    def predicates(self, variables, share, most):
        found = super().predicates(variables, share * self.rest, most)
        if len(found) > 1 and self.chance(0.1):
            found[:2] = [connective("implies", *found[:2])]
        return found

    def request(self, rules):
        state, identities = self.shaped(self.state(self.heads)), [*[it.identity for it in rules], "none"]
        if self.chance(0.2) and self.variables:
            state = renamed(state, self.random.choice(sorted(self.variables)), self.random.choice(["Fresh1", "Fresh2", "Fresh01"]))
        params = {"max-depth": self.random.randint(0, 6), "state": wrapped(tree_of(state))}
        for key in ("cut-point-rules", "terminal-rules"):
            if self.chance(0.3):
                params[key] = self.random.sample(identities, self.random.randint(0, min(2, len(identities))))
        return {**CALL, "params": params}

    def shaped(self, state):
        """The state with its parts in another order, or with a predicate of a sort without values."""
        if self.sort != "S":
            return state
        parts = conjuncts(state)
        if self.chance(0.02):
            parts.append(steps.equals("V", ("variable", "Z", "V"), ("variable", "Z", "V")))
        if self.chance(0.1):
            self.random.shuffle(parts)
            return connective("and", parts[0], connective("and", *parts[1:]))
        return parts[0] if len(parts) == 1 else connective("and", *parts)


def make(seed, definitions, requests):
    for number in range(definitions):
        maker = Maker(seed * 1000003 + number)
        rules = maker.definition()
        yield rules, [maker.request(rules) for _ in range(requests)]


# ---- ground steps


class Difference(Exception):
    pass


def check(holds, what):
    if not holds:
        raise Difference(what)


class Semantics:
    """Which rules have their turn at a configuration, and what they lead to."""

    def __init__(self, rules):
        self.rules = sorted(rules, key=lambda it: it.priority)
        self.foreign = [it for it in self.rules if it.is_foreign]
        self.known = {}

    def is_unknown(self, value):
        return any(meets_skeleton(it, value) for it in self.foreign)

    def turns(self, value):
        if value not in self.known:
            fired = [(it, firing(it, value)) for it in self.rules if not it.is_foreign]
            fired = [(it, found) for it, found in fired if found is not None]
            first = [it for it in fired if it[0].priority == fired[0][0].priority]
            self.known[value] = {it.identity: successors(it, found) for it, found in first}
        return self.known[value]

    def after(self, value, depth, listed, terminal, source):
        """The configurations so many steps on, whether these are all, and whether there is one a step before; none before is
        final or unknown or has the turn of a listed rule, but that the last step is by the terminal rule alone."""
        reached, is_whole, goes_on = {value}, True, True
        for step in range(depth):
            onward, goes_on = set(), bool(reached)
            for it in reached:
                check(not self.is_unknown(it), f"a foreign rule may rewrite {it} at step {step}")
                turns = self.turns(it)
                check(turns, f"{it} is final at step {step}")
                if terminal and step == depth - 1:
                    check(set(turns) == {terminal}, f"{set(turns)} have their turn at {it} before the end")
                else:
                    check(not set(turns) & listed, f"a listed rule has its turn at {it} at step {step}")
                onward.update(*turns.values())
            if len(onward) > MOST_CONFIGURATIONS:
                onward, is_whole = set(source.sample(sorted(onward), MOST_CONFIGURATIONS)), False
            reached = onward
        return reached, is_whole, goes_on


# ---- the judge


class State:
    """What a state of a reply says: its term, its clauses, and both as one pattern."""

    def __init__(self, tree):
        self.clauses = clauses_of(tree["predicate"]) if "predicate" in tree else []
        check("predicate" not in tree or self.clauses, "a predicate that says nothing")
        self.term = unwrapped(tree["term"])
        self.pattern = connective("and", self.term, *self.clauses)
        self.variables = free_variables(self.pattern)


def unwrapped(tree):
    check(tree == wrapped(tree["term"]), "no wrapper of Kore JSON")
    return pattern_of(tree["term"])


def in_order(state):
    """The term of a state, then its predicates."""
    return connective("and", *sorted(conjuncts(state), key=lambda it: it[0] == "connective"))


def clauses_of(tree):
    """The clauses of a predicate, in the order of their text, none twice."""
    clauses = conjuncts(unwrapped(tree))
    texts = [compact(tree_of(it)) for it in clauses]
    check(texts == sorted(set(texts)), "clauses out of order")
    check(tree["term"] == tree_of(predicate_of(clauses, tree["term"]["sort"]["name"])), "a predicate of another form")
    return clauses


def predicate_of(clauses, sort="S"):
    return clauses[0] if len(clauses) == 1 else ("connective", "and" if clauses else "top", [sort], clauses)


def sort_of(term):
    """The sort of a state's term."""
    if term[0] != "application":
        return term[-1] if term[0] == "variable" else term[1]
    return term[2][1] if term[1] == "inj" else (steps.HOOKS[term[1]][2] if term[1] in steps.HOOKS else steps.CONSTRUCTORS[term[1]][1])


def is_plain(clause):
    """Without products, sums other than of a term and a constant, quantifiers, equalities of constructors' terms or of two truth
    values that aren't written out."""
    every = parts_of(clause)
    sums = [it[3][1:] for it in every if it[0] == "application" and it[1] in ("add", "sub")]
    truths = [it[3] for it in every if it[0] == "connective" and it[1] == "equals" and it[2][0] == "Bool"]
    is_quantified = any(it[0] == "connective" and it[1] == "exists" for it in every)
    return not is_open(clause) and not is_quantified and all(any(it[0] == "literal" for it in sides) for sides in sums + truths)


def valuations(variables, source):
    """Of more numbers where these aren't too many; some where all are too many."""
    for numbers in (range(-5, 7), SMALL):
        lists = [pool(sort, numbers) for sort in variables.values()]
        if math.prod(map(len, lists)) <= MOST_POINTS:
            return (dict(zip(variables, values)) for values in itertools.product(*lists))
    return ({name: source.choice(values) for name, values in zip(variables, lists)} for _ in range(MOST_POINTS))


class Judge(steps.Judge):
    def __init__(self, source):
        super().__init__()
        self.random = source

    def divided(self, variables, clauses, term):
        """Valuations of the variables that make the clauses true, and others; where these are many some of each, of the shapes
        that the term has."""
        live, others = [], []
        for v in valuations(variables, self.random):
            (live if all(is_true(it, v) for it in clauses) else others).append(v)
        live = live or list(itertools.islice(solutions(clauses, variables, {}), 0, 50 * MOST_VALUATIONS, 50))
        return [it if len(it) <= MOST_VALUATIONS else self.spread(it, term) for it in (live, others)]

    def spread(self, points, term):
        shapes = {}
        for v in self.random.sample(points, len(points)):
            value = value_of(term, v)
            parts = [it[0] if isinstance(it, tuple) and it[0] != "?" else it for it in value[1:]]
            shapes.setdefault((value[0], *parts), []).append(v)
        rounds = itertools.zip_longest(*self.random.sample(list(shapes.values()), len(shapes)))
        return list(itertools.islice((v for it in rounds for v in it if v), MOST_VALUATIONS))

    def reply(self, rules, request, line):
        """Raises a difference where the reply to the request isn't right; else its state is handed back."""
        reply = json.loads(line)
        check(line == compact(reply), "no compact JSON with sorted keys")
        check(set(reply) == {"id", "jsonrpc", "result"} and reply["id"] == 1 and reply["jsonrpc"] == "2.0", "no result")
        result, params = reply["result"], request["params"]
        reason, depth = result["reason"], result["depth"]
        check(set(result) - {"depth", "reason", "state"} in SCHEMA[reason], f"members {sorted(result)} of {reason}")
        check(set(result["state"]) in ({"term"}, {"predicate", "term"}), "members of the state")
        asked, state, semantics = in_order(pattern_of(params["state"]["term"])), State(result["state"]), Semantics(rules)
        self.names(asked, free_variables(asked), state.variables)
        check(0 <= depth <= params["max-depth"], "too deep")
        check(depth == params["max-depth"] or reason != "depth-bound", "depth-bound before the bound")
        check(depth < params["max-depth"] or reason in ("vacuous", "depth-bound", "terminal-rule"), "beyond the bound")
        self.leads(semantics, asked, state, result, params)
        getattr(self, reason.replace("-", "_"))(semantics, asked, state, result, params)
        self.counts["replies"] += 1
        self.counts[f"{reason} {depth}"] += 1
        return result

    def names(self, asked, old, new):
        """New names are `Fresh` and a number, and don't stand in the request; the others keep their sorts."""
        every = {it[1] for it in parts_of(asked) if it[0] == "variable"}
        for name, sort in new.items():
            is_new = re.fullmatch("Fresh[1-9][0-9]*", name) and name not in every
            check(old.get(name) == sort if name in old else is_new, f"the name {name}")

    def leads(self, semantics, asked, state, result, params):
        """The configurations so many steps on are the instances of the state, for each valuation of the request's variables."""
        own, clauses, term = free_variables(asked), conjuncts(asked)[1:], conjuncts(asked)[0]
        listed = {it for key in ("cut-point-rules", "terminal-rules") for it in params.get(key, [])}
        terminal = result["rule"] if result["reason"] == "terminal-rule" else None
        live, others = self.divided(own, clauses, term)
        self.ends, reaches = {}, False
        for v in others:
            check(not instances(state.pattern, v, own), f"an instance too many at {v}")
        for v in live:
            reached, is_whole, goes_on = semantics.after(value_of(term, v), result["depth"], listed, terminal, self.random)
            got = {it for it in instances(state.pattern, v, own) if within(it)}
            wanted = {it for it in reached if within(it)}
            check(got == wanted if is_whole else wanted <= got, f"instances {got} wanted {wanted} at {v}")
            self.ends.update({it: v for it in reached})
            reaches = reaches or goes_on
            self.counts["instances"] += 1
        if result["depth"] > 0 and not reaches:
            self.sampled("steps of no small instance", [steps.text(asked)])

    def is_empty(self, asked, state):
        variables = {**free_variables(asked), **state.variables}
        return not self.ends and not any(True for _ in solutions(state.clauses, variables, {}))

    def owes_instance(self, asked, state):
        if self.is_empty(asked, state) and all(is_plain(it) for it in state.clauses):
            self.sampled("no small instance", [steps.text(state.pattern)])

    def vacuous(self, semantics, asked, state, result, params):
        check(self.is_empty(asked, state), "it has an instance")

    def depth_bound(self, semantics, asked, state, result, params):
        self.owes_instance(asked, state)

    def stuck(self, semantics, asked, state, result, params):
        self.owes_instance(asked, state)
        for value, v in self.ends.items():
            check(not semantics.turns(value), f"{set(semantics.turns(value))} have their turn at {value}, {v}")
            check(not semantics.is_unknown(value), f"a foreign rule may rewrite {value}, {v}")

    def terminal_rule(self, semantics, asked, state, result, params):
        terminals, cut_points = params.get("terminal-rules", []), params.get("cut-point-rules", [])
        check(result["depth"] > 0 and result["rule"] in terminals and result["rule"] not in cut_points, "no terminal rule")

    def branching(self, semantics, asked, state, result, params):
        found = self.next_states(semantics, asked, state, result)
        check(len({who for who, _, _ in found}) > 1, "one case alone")

    def cut_point_rule(self, semantics, asked, state, result, params):
        self.owes_instance(asked, state)
        found = self.next_states(semantics, asked, state, result)
        check([who for who, _, _ in found] == [result["rule"]] and result["rule"] in params.get("cut-point-rules", []), "no cut point")

    def next_states(self, semantics, asked, state, result):
        found, order = [], [it.identity for it in semantics.rules] + ["none"]
        for tree in result["next-states"]:
            check({"rule-predicate", "term"} <= set(tree) <= {"predicate", "rule-id", "rule-predicate", "term"}, "members of a next state")
            onward, predicate = State(tree), predicate_of(clauses_of(tree["rule-predicate"]))
            found.append((tree.get("rule-id", "none"), onward.pattern, predicate))
            self.names(asked, state.variables, onward.variables)
            self.names(asked, {**state.variables, **onward.variables}, free_variables(predicate))
        places = [order.index(who) for who, _, _ in found]
        check(places == sorted(places), "next states out of order")
        own, seen = state.variables, set()
        for is_live, points in zip((True, False), self.divided(own, state.clauses, state.term)):
            for v in points:
                check(not is_live or not semantics.is_unknown(value_of(state.term, v)), f"a foreign rule may rewrite it at {v}")
                problem = self.at(semantics.rules, state.term, v, is_live, found, own, seen)
                check(not problem, f"{problem} at {v}")
        for place in range(len(found)):
            holds = place in seen or has_instance(found[place][2], state.term, state.clauses, own)
            check(holds, f"next state {place} has no instance")
        self.counts["next states"] += len(found)
        return found

    def aborted(self, semantics, asked, state, result, params):
        plain = [it for it in state.clauses if is_plain(it)]
        check(any(True for _ in solutions(plain, state.variables, {})), "its plain clauses have no instance")
        if "foreign-rule" in result:
            told = [it.identity for it in semantics.foreign].index(result["foreign-rule"])
            values = set(self.ends) | {value_of(state.term, v) for v in solutions(state.clauses, state.variables, {})}
            met = [any(meets_skeleton(it, value) for value in values) for it in semantics.foreign]
            may_pass = any(it[1] in steps.HOOKS for it in parts_of(state.term)) or len(plain) < len(state.clauses)
            check(met[told], f"the foreign rule {result['foreign-rule']} may rewrite nothing")
            check(may_pass or not any(met[:told]), "another foreign rule goes before")
            self.counts["foreign rules"] += 1
        if "unknown-predicate" in result:
            shown = clauses_of(result["unknown-predicate"])
            if "limit" not in result:
                check(not any(is_plain(it) for it in shown), "a plain clause is unknown")
            self.sampled("unknown predicates", [steps.text(it) for it in shown])
        if "limit" in result:
            self.sampled("limits", [compact(result["limit"])])

    def answered(self, program, path, rules, requests):
        """The requests with the lines that the program answers, all in one run."""
        given = "".join(json.dumps(it) + "\n" for it in requests)
        ran = subprocess.run([program, "stdio", path, "--module", "R"], input=given.encode(), capture_output=True, timeout=600)
        lines = ran.stdout.decode().split("\n")
        if ran.returncode or ran.stderr or len(lines) != len(requests) + 1 or lines[-1]:
            self.faults += 1
            print(f"DIFFERENCE status {ran.returncode}, {len(lines) - 1} lines of {len(requests)}: {ran.stderr[:300]}")
            print(definition_text(rules), *map(json.dumps, requests[len(lines) - 1 :][:1]), sep="\n", flush=True)
        return list(zip(requests, lines[:-1]))

    def judged(self, rules, request, line):
        """The result of the reply where it is right."""
        try:
            return self.reply(rules, request, line)
        except (Difference, ValueError, KeyError, IndexError) as problem:
            self.difference(rules, request, line, f"{type(problem).__name__} {problem}")

    def sampled(self, what, texts):
        self.counts[what] += 1
        if self.counts[what] <= 5:
            print(f"{what}:", *texts, flush=True)

    def difference(self, rules, request, line, what):
        self.faults += 1
        print(f"DIFFERENCE {what}")
        print("\n".join(it.text() + (" FOREIGN" if it.is_foreign else "") for it in rules))
        print("state:", steps.text(pattern_of(request["params"]["state"]["term"])))
        print({key: value for key, value in request["params"].items() if key != "state"})
        print(shortened(line), flush=True)


def shortened(line):
    """The reply with each wrapper as Kore text."""

    def text(tree):
        if isinstance(tree, dict):
            return steps.text(pattern_of(tree["term"])) if "format" in tree else {key: text(it) for key, it in tree.items()}
        return [text(it) for it in tree] if isinstance(tree, list) else tree

    try:
        return json.dumps(text(json.loads(line)))
    except (ValueError, KeyError, Difference):
        return line


# ---- runs of the program


def asked_again(state, bound):
    """A request of a state, or a next state, of a reply."""
    trees = [state[key]["term"] for key in ("term", "predicate") if key in state]
    pattern = trees[0] if len(trees) == 1 else {"patterns": trees, "sort": sort_json(sort_of(pattern_of(trees[0]))), "tag": "And"}
    return {**CALL, "params": {"max-depth": bound, "state": wrapped(pattern)}}


def judge(program, seed, definitions, requests):
    judging = Judge(random.Random(seed))
    with tempfile.TemporaryDirectory() as room:
        for rules, asked in make(seed, definitions, requests):
            path = f"{room}/definition.kore"
            with open(path, "w") as file:
                file.write(definition_text(rules))
            judge_definition(judging, program, path, rules, asked)
    print(dict(sorted(judging.counts.items())), "differences:", judging.faults)
    return judging.faults


def judge_definition(judging, program, path, rules, asked):
    """The requests; then the states of the replies, at no depth, and their next states, for some steps more."""
    found = [judging.judged(rules, *it) for it in judging.answered(program, path, rules, asked)]
    found = [it for it in found if it]
    states = [it["state"] for it in found]
    for state, it in zip(states, judging.answered(program, path, rules, [asked_again(it, 0) for it in states])):
        result = judging.judged(rules, *it)
        if result and result["state"] != state:
            judging.sampled("written otherwise when read again", map(steps.text, [State(state).pattern, State(result["state"]).pattern]))
    onward = [asked_again(it, 3) for result in found for it in result.get("next-states", [])]
    for it in judging.answered(program, path, rules, onward):
        judging.judged(rules, *it)


def main():
    if sys.argv[1] == "make":
        for rules, asked in make(*map(int, sys.argv[2:])):
            print(definition_text(rules), *map(json.dumps, asked), sep="\n")
        return 0
    return 1 if judge(sys.argv[2], *map(int, sys.argv[3:])) else 0


if __name__ == "__main__":
    sys.exit(main())
