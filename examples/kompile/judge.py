#!/usr/bin/env python3
"""judge.py PROGRAM SEED STATES: the requests of this directory and random states of `imp.kore`, with and without its foreign
rules, judged against all ground instances over small values by the judge of `examples/execute`."""

import itertools
import json
import math
import os
import random
import re
import subprocess
import sys
import tempfile

ROOM = os.path.dirname(os.path.abspath(__file__))
sys.path[:0] = [os.path.join(ROOM, "..", it) for it in ("execute", "oracle", "steps")]
import requests
import states
import steps

HOOKS = {hook: (name, result, function) for name, (hook, _, result, function) in steps.HOOKS.items()}
HOOKS["BOOL.andThen"], HOOKS["BOOL.orElse"] = (("then", *HOOKS["BOOL.and"][1:]), ("else", *HOOKS["BOOL.or"][1:]))
SORTS = {"SortInt": "Int", "SortBool": "Bool", "SortGeneratedTopCell": "S"}
TOKENS = {"SortId": ["n", "sum", "x"]}
LEFTS = []

# ---- Kore text


class Text(steps.Reader):
    """Definitions as kompile writes them, with comments and sort parameters."""

    def __init__(self, source):
        super().__init__(re.sub(r"(?m)//.*$", "", source) + " ")

    def peek(self):
        while self.source[self.at].isspace() and self.at < len(self.source) - 1:
            self.at += 1
        return self.source[self.at]

    def string(self):
        found = re.compile(r'\s*"((?:[^"\\]|\\.)*)"').match(self.source, self.at)
        self.at = found.end()
        return found[1]

    def sort(self):
        found = self.name()
        return found if self.peek() != "{" else found + "".join(self.listed("{", "}", self.sort))

    def pattern(self):
        if self.peek() == '"':
            return ("literal", "", self.string())
        if self.peek() == "@":
            self.take("@")
        return super().pattern()

    def attributes(self):
        return {it[1]: it for it in self.listed("[", "]", self.pattern)}

    def declared(self, is_symbol):
        name, parameters = self.name(), self.listed("{", "}", self.name)
        places = self.listed("(", ")", self.sort) if is_symbol else []
        if is_symbol:
            self.take(":")
        return name, parameters, places, self.sort() if is_symbol else None

    def sentences(self):
        """Each sentence with its module: the word, what it declares or states, and its attributes."""
        self.attributes()
        while self.peek() != " ":
            self.name()
            module, word = self.name(), self.name()
            while word != "endmodule":
                if word == "import":
                    found = self.name()
                elif word in ("axiom", "claim"):
                    self.listed("{", "}", self.name)
                    found = self.pattern()
                elif word == "alias":
                    found = self.declared(True)
                    self.name(), self.pattern(), self.take(":"), self.take("="), self.pattern()
                else:
                    found = self.declared("symbol" in word)
                yield module, word, found, self.attributes()
                word = self.name()
            self.attributes()


def text_of(attributes, name):
    return attributes[name][3][0][2] if name in attributes else None


# ---- a definition in the tables of `steps`


class Definition:
    def __init__(self, path):
        self.sentences, self.pairs, self.names = list(Text(open(path).read()).sentences()), [], dict(SORTS)
        steps.HOOKS, steps.CONSTRUCTORS, self.sorts, self.literal = {}, {}, [], ["Int", "Bool"]
        for _, word, found, attributes in self.sentences:
            if word in ("sort", "hooked-sort"):
                self.sort(found[0], word, attributes)
            elif word in ("symbol", "hooked-symbol"):
                self.symbol(*found, attributes)
            elif word == "axiom" and "subsort" in attributes:
                self.pairs.append([self.name(it) for it in attributes["subsort"][2]])
        self.outer = {inner: outer for outer, inner in self.names.items()}
        self.settle()
        self.rules, numbers = [], {}
        for module, word, found, attributes in self.sentences:
            numbers[module] = numbers.get(module, 0) + (word == "axiom")
            if word == "axiom" and found[:2] == ("connective", "rewrites"):
                identity = text_of(attributes, "label") or f"{module}#{numbers[module]}"
                self.rules.append(self.rule(identity, self.inward(found), attributes))

    def name(self, outer):
        return self.names.get(outer, outer)

    def sort(self, name, word, attributes):
        self.sorts.append(self.name(name))
        if (word == "hooked-sort" or "hasDomainValues" in attributes) and name not in SORTS:
            self.literal.append(name)

    def symbol(self, name, parameters, places, result, attributes):
        hook = text_of(attributes, "hook")
        if "constructor" in attributes:
            steps.CONSTRUCTORS[name] = ([self.name(it) for it in places], self.name(result))
        elif hook in HOOKS:
            inner, of, function = HOOKS[hook]
            self.names[name] = inner
            steps.HOOKS[inner] = (hook, [self.name(it) for it in places], of, function)

    def settle(self):
        below = {it: {it} for it in self.sorts}
        while any(not below[low] <= below[high] for low, high in self.pairs):
            for low, high in self.pairs:
                below[high] |= below[low]
        steps.SORTS, steps.LITERAL_SORTS = self.sorts, self.literal
        steps.BELOW = {it: sorted(below[it], key=self.sorts.index) for it in self.sorts}
        steps.BUILT = {it: [name for name, (_, of) in steps.CONSTRUCTORS.items() if of == it] for it in self.sorts}
        own = {it: steps.BUILT[it] + [it] * (it in self.literal) for it in self.sorts}
        steps.HEADS = {it: {head for low in below[it] for head in own[low]} for it in self.sorts}

    def inward(self, p):
        """The pattern with the names of `steps` for sorts and hooks."""
        if p[0] in ("variable", "literal"):
            places = (1, 2) if p[0] == "literal" else (2, 1)
            sort, other = self.name(p[places[0]]), p[places[1]]
            return (p[0], sort, other) if p[0] == "literal" else (p[0], other, sort)
        return (p[0], self.name(p[1]), [self.name(it) for it in p[2]], [self.inward(it) for it in p[3]])

    def rule(self, identity, axiom, attributes):
        left, right = axiom[3]
        new = {}
        while right[:2] == ("connective", "exists"):
            new[right[3][0][1]] = right[3][0][2]
            right = right[3][1]
        sides = [steps.conjuncts(it) for it in (left, right)]
        terms = [next(it for it in side if it[0] != "connective") for side in sides]
        rest = [[it for it in side if it[0] == "connective"] for side in sides]
        priority = int(text_of(attributes, "priority") or (200 if "owise" in attributes else 50))
        return steps.Rule(identity, terms[0], rest[0], terms[1], rest[1], priority, new)

    def translated(self, tree, names):
        if isinstance(tree, dict):
            kept = {key: self.translated(it, names) for key, it in tree.items()}
            if tree.get("tag") in ("SortApp", "App"):
                kept["name"] = names.get(kept["name"], kept["name"])
            return kept
        return [self.translated(it, names) for it in tree] if isinstance(tree, list) else tree


def is_foreign(rule):
    """Beside what makes a rule foreign there: a symbol without a meaning, and a call in the left term."""
    every = [it for p in (rule.left, rule.right, *rule.condition, *rule.ensured) for it in steps.parts_of(p)]
    known = {"inj", *steps.CONSTRUCTORS, *steps.HOOKS}
    if any(it[0] == "application" and it[1] not in known for it in every):
        return True
    return is_foreign_there(rule) or any(it[1] in steps.HOOKS for it in steps.parts_of(rule.left) if it[0] == "application")


def literal_value(sort, content):
    return ("#", int(content)) if sort == "Int" else ("?", content == "true") if sort == "Bool" else ("~" + sort, content)


def head(value):
    return {"#": "Int", "?": "Bool"}.get(value[0], value[0][1:] if value[0][0] == "~" else value[0])


def numbers_in(value):
    if value[0] == "#":
        return [value]
    return [] if value[0][0] in "?~" else [it for part in value[1:] for it in numbers_in(part)]


def pool(sort, numbers, memo={}):
    """Literals, of each constructor's terms some, from smaller ones up, and the parts of some instances of each rule's left term."""
    if numbers not in memo:
        source, found = random.Random(len(numbers)), {it: [] for it in steps.SORTS}
        texts = {"Bool": ["false", "true"], "Int": numbers, **TOKENS}
        literals = {it: [literal_value(it, text) for text in texts.get(it, ["z"])] for it in steps.LITERAL_SORTS}
        for _ in range(6):
            found = {it: [*values, *grown(it, found, source, literals)] for it, values in found.items()}
            found = {it: list(dict.fromkeys(values)) for it, values in found.items()}
        for it in LEFTS * 2:
            add_parts(it, {name: source.choice(found[of]) for name, of in steps.free_variables(it).items()}, found)
        memo[numbers] = {it: list(dict.fromkeys(values)) for it, values in found.items()}
    return memo[numbers][sort]


def add_parts(p, v, found):
    for it in steps.parts_of(p):
        if it[0] == "application" and it[1] in steps.CONSTRUCTORS:
            own = steps.CONSTRUCTORS[it[1]][1]
            for sort in steps.SORTS:
                if own in steps.BELOW[sort]:
                    found[sort].append(steps.value_of(it, v))


def grown(sort, found, source, literals):
    for low in steps.BELOW[sort]:
        values = literals.get(low, []) if low in steps.LITERAL_SORTS else []
        yield from values if low == sort else source.sample(values, min(len(values), 3))
        for name in steps.BUILT[low]:
            places = steps.CONSTRUCTORS[name][0]
            if all(found[it] for it in places):
                for _ in range(1 if len(steps.BELOW[sort]) > 6 else 2):
                    yield (name, *[source.choice(found[it]) for it in places])


def has_instance(predicate, term, clauses, own):
    """Variables that no equation tells are chosen first: the others are then told by equations."""
    parts = [*clauses, *steps.conjuncts(predicate)]
    every = {name: of for it in parts for name, of in steps.free_variables(it).items()}
    told = {it[3][0][1] for it in parts if it[1] == "equals" and it[3][0][0] == "variable"}
    order = {**{name: of for name, of in every.items() if name not in own and name not in told}, **every, **own}
    return any(True for _ in steps.solutions(parts, order, {}))


def use(definition):
    """Gives the judge this definition."""
    pool.__defaults__[0].clear()
    LEFTS[:] = [it.left for it in definition.rules]
    requests.has_instance = has_instance
    for module in (steps, requests):
        module.pool = pool
    requests.pattern_of = lambda tree: pattern_of_there(definition.translated(tree, definition.names))
    requests.tree_of = lambda p: definition.translated(tree_of_there(p), definition.outer)


is_foreign_there, pattern_of_there, tree_of_there = steps.is_foreign, requests.pattern_of, requests.tree_of
steps.is_foreign, steps.literal_value, steps.head, steps.numbers_in = is_foreign, literal_value, head, numbers_in


class Judge(requests.Judge):
    def __init__(self, path, module, source):
        super().__init__(source)
        self.path, self.module, self.definition = path, module, Definition(path)
        use(self.definition)

    def answered(self, program, path, rules, asked):
        asked = [self.definition.translated(it, self.definition.outer) for it in asked]
        given = "".join(json.dumps(it) + "\n" for it in asked)
        ran = subprocess.run([program, "stdio", self.path, "--module", self.module], input=given.encode(), capture_output=True, timeout=600)
        lines = ran.stdout.decode().split("\n")
        if ran.returncode or ran.stderr or len(lines) != len(asked) + 1:
            self.faults += 1
            print(f"DIFFERENCE status {ran.returncode}, {len(lines) - 1} lines of {len(asked)}: {ran.stderr[:300]}")
            print(*map(json.dumps, asked[len(lines) - 1 :][:1]), flush=True)
        return list(zip(asked, lines[:-1]))

    def judged(self, rules, request, line):
        """The judge's id is 1, and a bound always stands there."""
        line = line.replace(json.dumps({"id": request["id"]}, separators=(",", ":"))[1:-1], '"id":1', 1)
        return super().judged(rules, {**request, "params": {"max-depth": 10000, **request["params"]}}, line)

    def difference(self, rules, request, line, what):
        self.faults += 1
        print(f"DIFFERENCE {what}\n{json.dumps(request)}\n{states.shown(request['params']['state']['term'])}")
        print({key: value for key, value in request["params"].items() if key != "state"})
        print(json.dumps(states.told(json.loads(line))) if line.startswith("{") else line, flush=True)

    def sampled(self, what, texts):
        self.counts[what] += 1

    def all(self, program, asked):
        requests.judge_definition(self, program, self.path, self.definition.rules, asked)
        return self.faults


# ---- random states


class Maker:
    """Programs in the notation of `states`, some parts of them variables."""

    def __init__(self, source, identities):
        self.random, self.identities = source, identities

    def chance(self, share):
        return self.random.random() < share

    def number(self, depth):
        if depth == 0 or self.chance(0.4):
            return self.random.choice(["0", "1", "- 1", "2", "X", "Y", "X", "n", "sum", "n", "x", "read()", "E:AExp", "Q:Id"])
        mark = self.random.choice(["+", "-", "+", "-", "*", "/" if self.chance(0.3) else "+"])
        return f"({self.number(depth - 1)} {mark} {self.number(depth - 1)})"

    def truth(self, depth):
        if self.chance(0.2):
            return self.random.choice(["true", "false", "B:BExp", "T:Bool"])
        if depth and self.chance(0.2):
            return "! " + self.truth(depth - 1)
        if depth and self.chance(0.1):
            return f"{self.truth(depth - 1)} && true"
        return f"{self.number(depth)} <= {self.number(depth)}"

    def block(self, depth):
        if self.chance(0.1):
            return "C:Block"
        return "{ }" if depth == 0 or self.chance(0.2) else "{ " + self.statements(depth - 1) + " }"

    def statement(self, depth):
        found = self.random.random()
        if depth == 0 or found < 0.5:
            return f"{self.random.choice(['n', 'sum', 'n', 'sum', 'x', 'Q:Id'])} = {self.number(min(depth, 2))} ;"
        if found < 0.7:
            return f"if ({self.truth(1)}) {self.block(depth)} else {self.block(depth)}"
        return f"while ({self.truth(1)}) {self.block(depth)}" if found < 0.85 else self.block(depth)

    def statements(self, depth):
        return " ".join(self.statement(depth) for _ in range(self.random.choice([1, 1, 2])))

    def continuation(self):
        rest = "R:K" if self.chance(0.1) else "."
        kind, item = self.random.random(), None
        if kind < 0.6:
            item = self.statements(2)
        elif kind < 0.7:
            item = f"int {self.random.choice(['n , sum', 'n', ''])} ; {self.statements(1)}"
        elif kind < 0.8:
            item = self.truth(2)
        elif kind < 0.9:
            item = self.number(2)
        return rest if item is None else f"{item} ~> {rest}"

    def condition(self):
        mark = self.random.choice(["<=", "<", ">=", ">", "==", "!="])
        other = self.random.choice(["0", "1", "2", "Y", "Z", "Y + 1", "X - 1"])
        return f"{self.random.choice(['', '', '! '])}{self.random.choice('XYZ')} {mark} {other}"

    def request(self):
        cells = {name: self.random.choice(["0", "2", "X", "Y", "Z", "X + 1"]) for name in ("n", "sum")}
        where = [self.condition() for _ in range(self.random.choice([0, 0, 1, 1, 2]))]
        params = {"max_depth": self.random.choice([0, 1, 2, 4, 8, 16, 30])}
        for key in ("cut_point_rules", "terminal_rules"):
            if self.chance(0.2):
                params[key] = self.random.sample(self.identities, self.random.randint(0, 3))
        return states.request(1, states.imp(self.continuation(), where=where, **cells), **params)


def without_foreign(definition, path, room):
    """The definition's text without the axioms that are foreign rules."""
    kept, foreign = [], [it.identity for it in definition.rules if it.is_foreign]
    for block in open(path).read().split("// rule "):
        is_of = [re.search(re.escape(f'label{{}}("{it}")'), block) or "&&" in block.split("\n")[0] for it in foreign]
        if not any(is_of) or "rewrites" not in block:
            kept.append(block)
    made = os.path.join(room, "native.kore")
    open(made, "w").write("// rule ".join(kept))
    return made


def main():
    program, seed, count = sys.argv[1], int(sys.argv[2]), int(sys.argv[3])
    faults = 0
    with tempfile.TemporaryDirectory() as room:
        for name, module in (("counter", "COUNTER"), ("imp", "IMP")):
            path = f"{ROOM}/{name}.kore"
            judge = Judge(path, module, random.Random(seed))
            asked = map(json.loads, open(f"{ROOM}/{name}.requests"))
            asked = [it for it in asked if it["method"] == "execute" and not {"module"} & set(it["params"]) and "error" not in it["id"]]
            faults += judge.all(program, asked)
            print(name, dict(sorted(judge.counts.items())), "differences:", judge.faults, flush=True)
        path = f"{ROOM}/imp.kore"
        for it in (path, without_foreign(Definition(path), path, room)):
            judge = Judge(it, "IMP", random.Random(seed))
            maker = Maker(judge.random, [rule.identity for rule in judge.definition.rules])
            for _ in range(0, count, 10):
                judge.all(program, [maker.request() for _ in range(10)])
            faults += judge.faults
            print("random", dict(sorted(judge.counts.items())), "differences:", judge.faults, flush=True)
    return 1 if faults else 0


if __name__ == "__main__":
    sys.exit(main())
