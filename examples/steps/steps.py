#!/usr/bin/env python3
"""steps.py make SEED DEFINITIONS STATES > input: random definitions, each with so many random states, for the program beside it.
steps.py judge input output: what the program found of each state, against all ground instances over small values: each step of
an instance is in exactly the next states that it should be in, the remainder is exactly where no rule fires, and a foreign rule
is told exactly where its left side meets an instance."""

import collections
import itertools
import random
import sys

SUBSORTS = {
    "D": ["PP", "QQ", "K"],
    "E": ["PP", "QQ", "K"],
    "PP": ["K"],
    "QQ": ["K"],
    "Int": ["M", "K"],
    "M": ["K"],
    "C": ["K"],
}
CONSTRUCTORS = {
    "da": ([], "D"),
    "db": ([], "D"),
    "ea": ([], "E"),
    "pp": ([], "PP"),
    "qq": ([], "QQ"),
    "nil": ([], "M"),
    "c": (["D"], "C"),
    "d": (["PP", "D"], "C"),
    "m": (["M"], "C"),
    "loop": (["V"], "V"),
    "f": (["PP", "C"], "S"),
    "g": (["Int", "Int", "PP"], "S"),
    "h": (["C", "QQ"], "S"),
    "k": (["K"], "S"),
    "u": (["M", "M"], "S"),
    "b": (["Bool", "D", "Int"], "S"),
    "t": (["T", "T"], "S"),
    "out": (["Int"], "S"),
    "v": (["V"], "S"),
    "end": ([], "S"),
}
SORTS = ["D", "E", "PP", "QQ", "M", "C", "V", "K", "S"]
LITERAL_SORTS = ["Int", "Bool", "T"]
# the hook, the sorts of its arguments, its sort, its function
HOOKS = {
    "add": ("INT.add", ["Int", "Int"], "Int", lambda x, y: x + y),
    "sub": ("INT.sub", ["Int", "Int"], "Int", lambda x, y: x - y),
    "mul": ("INT.mul", ["Int", "Int"], "Int", lambda x, y: x * y),
    "lt": ("INT.lt", ["Int", "Int"], "Bool", lambda x, y: x < y),
    "le": ("INT.le", ["Int", "Int"], "Bool", lambda x, y: x <= y),
    "eq": ("INT.eq", ["Int", "Int"], "Bool", lambda x, y: x == y),
    "gt": ("INT.gt", ["Int", "Int"], "Bool", lambda x, y: x > y),
    "ge": ("INT.ge", ["Int", "Int"], "Bool", lambda x, y: x >= y),
    "ne": ("INT.ne", ["Int", "Int"], "Bool", lambda x, y: x != y),
    "both": ("BOOL.and", ["Bool", "Bool"], "Bool", lambda x, y: x and y),
    "either": ("BOOL.or", ["Bool", "Bool"], "Bool", lambda x, y: x or y),
    "implied": ("BOOL.implies", ["Bool", "Bool"], "Bool", lambda x, y: not x or y),
    "alike": ("BOOL.eq", ["Bool", "Bool"], "Bool", lambda x, y: x == y),
    "unlike": ("BOOL.ne", ["Bool", "Bool"], "Bool", lambda x, y: x != y),
    "opposite": ("BOOL.not", ["Bool"], "Bool", lambda x: not x),
}
BELOW = {s: [s] + [low for low in SUBSORTS if s in SUBSORTS[low]] for s in SORTS + LITERAL_SORTS}
BUILT = {s: [n for n, (_, r) in CONSTRUCTORS.items() if r == s] for s in SORTS + LITERAL_SORTS}
HEADS = {s: {h for low in BELOW[s] for h in BUILT[low] + ([low] if low in LITERAL_SORTS else [])} for s in BELOW}
SMALL, LARGE = range(-2, 4), range(-10, 13)
TOKENS = ["a", "b", "x", "y", "z"]

# ---- texts


def sort_text(sort):
    return sort + "{}"


def text(p):
    kind = p[0]
    if kind == "variable":
        return f"{p[1]}:{sort_text(p[2])}"
    if kind == "literal":
        return f'\\dv{{{sort_text(p[1])}}}("{p[2]}")'
    if kind in ("application", "connective"):
        head = p[1] if kind == "application" else "\\" + p[1]
        return f"{head}{{{', '.join(map(sort_text, p[2]))}}}({', '.join(map(text, p[3]))})"
    raise ValueError(p)


def application(name, *arguments):
    return ("application", name, [], list(arguments))


def injected(low, high, term):
    return term if low == high else ("application", "inj", [low, high], [term])


def equals(sort, left, right):
    return ("connective", "equals", [sort, "S"], [left, right])


def connective(name, *parts):
    return ("connective", name, ["S"], list(parts))


# ---- reading


class Reader:
    def __init__(self, source):
        self.source, self.at = source, 0

    def peek(self):
        while self.source[self.at] == " ":
            self.at += 1
        return self.source[self.at]

    def take(self, wanted):
        if self.peek() != wanted:
            raise ValueError(f"{wanted} wanted at {self.source[self.at:self.at + 40]}")
        self.at += 1

    def name(self):
        self.peek()
        begin = self.at
        while self.at < len(self.source) and (self.source[self.at].isalnum() or self.source[self.at] in "\\-'@_"):
            self.at += 1
        return self.source[begin : self.at]

    def sort(self):
        found = self.name()
        self.take("{")
        self.take("}")
        return found

    def listed(self, left, right, one):
        self.take(left)
        found = []
        while self.peek() != right:
            found.append(one())
            if self.peek() == ",":
                self.take(",")
        self.take(right)
        return found

    def string(self):
        self.take('"')
        begin = self.at
        while self.source[self.at] != '"':
            self.at += 1
        self.at += 1
        return self.source[begin : self.at - 1]

    def pattern(self):
        found = self.name()
        if self.peek() == ":":
            self.take(":")
            return ("variable", found, self.sort())
        sorts = self.listed("{", "}", self.sort)
        if found == "\\dv":
            return ("literal", sorts[0], self.listed("(", ")", self.string)[0])
        parts = self.listed("(", ")", self.pattern)
        if found.startswith("\\"):
            return ("connective", found[1:], sorts, parts)
        return ("application", found, sorts, parts)


def read(source):
    return Reader(source + " ").pattern()


# ---- values


class Unbound(Exception):
    pass


def literal_value(sort, content):
    if sort == "Int":
        return ("#", int(content))
    if sort == "Bool":
        return ("?", content == "true")
    return ("~", content)


def value_of(p, v):
    kind = p[0]
    if kind == "variable":
        if p[1] not in v:
            raise Unbound(p[1])
        return v[p[1]]
    if kind == "literal":
        return literal_value(p[1], p[2])
    name, parts = p[1], [value_of(it, v) for it in p[3]]
    if name == "inj":
        return parts[0]
    if name in HOOKS:
        _, _, result, function = HOOKS[name]
        return ("#" if result == "Int" else "?", function(*[it[1] for it in parts]))
    return (name, *parts)


def head(value):
    return {"#": "Int", "?": "Bool", "~": "T"}.get(value[0], value[0])


def has_sort(value, sort):
    return head(value) in HEADS[sort]


def pool(sort, numbers, memo={}):
    key = (sort, numbers)
    if key not in memo:
        found = []
        for low in BELOW[sort]:
            if low == "Int":
                found += [("#", n) for n in numbers]
            elif low == "Bool":
                found += [("?", False), ("?", True)]
            elif low == "T":
                found += [("~", it) for it in TOKENS]
            for name in BUILT[low]:
                if low != "V":
                    lists = [pool(s, numbers) for s in CONSTRUCTORS[name][0]]
                    found += [(name, *parts) for parts in itertools.product(*lists)]
        memo[key] = list(dict.fromkeys(found))
    return memo[key]


def free_variables(p, bound=()):
    kind = p[0]
    if kind == "variable":
        return {} if p[1] in bound else {p[1]: p[2]}
    if kind == "literal":
        return {}
    parts = p[3]
    if kind == "connective" and p[1] in ("exists", "forall"):
        return free_variables(parts[1], (*bound, parts[0][1]))
    found = {}
    for it in parts:
        found.update(free_variables(it, bound))
    return found


def match(p, value, v, sort_checked=True):
    """Whether the valuation can be made one under which the term is the value; None where that isn't told by its form."""
    kind = p[0]
    if kind == "variable":
        if p[1] in v:
            return v[p[1]] == value
        if not has_sort(value, p[2]):
            return False
        v[p[1]] = value
        return True
    if kind == "literal":
        return literal_value(p[1], p[2]) == value
    if p[1] == "inj":
        return match(p[3][0], value, v)
    if p[1] in HOOKS:
        try:
            return value_of(p, v) == value
        except Unbound:
            return None
    if value[0] != p[1]:
        return False
    answers = [match(it, part, v) for it, part in zip(p[3], value[1:])]
    if False in answers:
        return False
    return None if None in answers else True


def conjuncts(p):
    if p[0] == "connective" and p[1] == "and":
        return [it for part in p[3] for it in conjuncts(part)]
    if p[0] == "connective" and p[1] == "top":
        return []
    return [p]


def is_true(p, v):
    name, parts = p[1], p[3]
    if name == "equals":
        return value_of(parts[0], v) == value_of(parts[1], v)
    if name == "not":
        return not is_true(parts[0], v)
    if name == "and":
        return all(is_true(it, v) for it in parts)
    if name == "or":
        return any(is_true(it, v) for it in parts)
    if name in ("top", "bottom"):
        return name == "top"
    if name == "implies":
        return not is_true(parts[0], v) or is_true(parts[1], v)
    if name == "exists":
        inner = {n: u for n, u in v.items() if n != parts[0][1]}
        return any(True for _ in solutions(conjuncts(parts[1]), {parts[0][1]: parts[0][2]}, inner))
    raise ValueError(name)


def bind_by(p, v):
    """Binds variables by an equality of which one side is a value: True or False where it is told by that, else None."""
    for left, right in ((p[3][0], p[3][1]), (p[3][1], p[3][0])):
        try:
            value = value_of(left, v)
        except Unbound:
            continue
        return match(right, value, v)
    return None


def renamed(p, old, new):
    if p[0] == "variable":
        return (p[0], new, p[2]) if p[1] == old else p
    return p if p[0] == "literal" else (*p[:3], [renamed(it, old, new) for it in p[3]])


def solutions(formulas, variables, v):
    """The valuations of these variables, beside v, that make the formulas true."""
    v, waiting, changed = dict(v), list(formulas), True
    while changed:
        changed, later = False, []
        for p in waiting:
            unbound = [n for n in free_variables(p) if n not in v]
            if not unbound:
                if not is_true(p, v):
                    return
                changed = True
            elif p[1] == "equals":
                answer = bind_by(p, v)
                if answer is False:
                    return
                if answer is None:
                    later.append(p)
                else:
                    changed = True
            elif p[1] == "exists":
                name = p[3][0][1]
                while name in v or name in variables:
                    name += "'"
                variables = {**variables, name: p[3][0][2]}
                later += conjuncts(renamed(p[3][1], p[3][0][1], name))
                changed = True
            else:
                later.append(p)
        waiting = later
    free = [n for n in variables if n not in v]
    if not free:
        yield v
        return
    for value in pool(variables[free[0]], LARGE):
        yield from solutions(waiting, variables, {**v, free[0]: value})


def instances(state, v, own):
    """The instances of a state under v, its further variables having any values."""
    parts = conjuncts(state)
    term, clauses = parts[0], parts[1:]
    further = {n: s for n, s in free_variables(state).items() if n not in own}
    return {value_of(term, x) for x in solutions(clauses, further, v)}


def is_true_over(predicate, v, own):
    if predicate is None:
        return True
    further = {n: s for n, s in free_variables(predicate).items() if n not in own}
    return any(True for _ in solutions(conjuncts(predicate), further, v))


# ---- rules


class Rule:
    def __init__(self, identity, left, condition, right, ensured, priority, new, sort="S"):
        self.identity, self.left, self.condition, self.right = identity, left, condition, right
        self.ensured, self.priority, self.new, self.sort = ensured, priority, new, sort
        self.is_foreign = is_foreign(self)

    def text(self):
        left = text(self.left)
        if self.condition:
            left = text(connective("and", self.left, *self.condition))
        right = self.right
        if self.ensured:
            right = connective("and", right, *self.ensured)
        for name, sort in reversed(self.new.items()):
            right = ("connective", "exists", ["S"], [("variable", name, sort), right])
        attributes = f'label{{}}("{self.identity}")'
        if self.priority == 200:
            attributes += ", owise{}()"
        elif self.priority != 50:
            attributes += f', priority{{}}("{self.priority}")'
        return f"  axiom{{}} \\rewrites{{{sort_text(self.sort)}}}({left}, {text(right)}) [{attributes}]"


def parts_of(p):
    return [p] + ([it for part in p[3] for it in parts_of(part)] if p[0] in ("application", "connective") else [])


def has_no_meet(low, sorts):
    """Whether one of these sorts has heads in common with the lower one, and no sort below both has exactly these."""
    for sort in sorts:
        common = HEADS[sort] & HEADS[low]
        both = set(BELOW[sort]) & set(BELOW[low])
        if common and not any(HEADS[it] == common for it in both):
            return True
    return False


def splits_no_sort(low, high):
    return has_no_meet(low, BELOW[high])


def is_unsplit(p):
    return p[0] == "application" and p[1] == "inj" and p[3][0][0] == "variable" and splits_no_sort(*p[2])


def is_lone_unsplit(left):
    return left[0] == "variable" and has_no_meet(left[2], BELOW)


def is_foreign(rule):
    every = [it for p in [rule.left, rule.right, *rule.condition, *rule.ensured] for it in parts_of(p)]
    if any(it[0] == "application" and it[1] == "other" or is_unsplit(it) for it in every) or is_lone_unsplit(rule.left):
        return True
    of_left = [it for it in parts_of(rule.left) if it[0] == "variable"]
    names = collections.Counter(it[1] for it in of_left)
    return any(names[it[1]] > 1 and it[2] not in LITERAL_SORTS for it in of_left)


def meets_skeleton(rule, value):
    names = collections.Counter(it[1] for it in parts_of(rule.left) if it[0] == "variable")
    v = {}

    def meets(p, value):
        if p[0] == "variable" and p[2] not in LITERAL_SORTS:
            return has_sort(value, p[2])
        if p[0] in ("variable", "literal"):
            return match(p, value, v)
        if p[1] == "inj":
            return has_sort(value, p[2][1]) if is_unsplit(p) else meets(p[3][0], value)
        return value[0] == p[1] and all([meets(it, part) for it, part in zip(p[3], value[1:])])

    return meets(rule.left, value)


def firing(rule, value):
    v = {}
    if match(rule.left, value, v) is True and all(is_true(it, v) for it in rule.condition):
        return v
    return None


def successors(rule, v):
    inner = {n: u for n, u in v.items() if n not in rule.new}
    return {value_of(rule.right, x) for x in solutions(rule.ensured, rule.new, inner)}


# ---- random definitions and states


class Maker:
    # the heads of right terms
    ends = ["out", "end", "k", "u", "g", "f", "h", "b", "t"]

    def __init__(self, seed):
        self.random = random.Random(seed)
        self.variables, self.count = {}, 0
        self.has_lone, self.sort = False, "S"

    def chance(self, share):
        return self.random.random() < share

    def variable(self, sort, letter, repeated):
        known = [n for n, s in self.variables.items() if s == sort]
        if known and repeated and self.chance(0.3):
            return ("variable", self.random.choice(known), sort)
        name = f"{letter}{len(self.variables)}"
        self.variables[name] = sort
        return ("variable", name, sort)

    def literal(self, sort):
        if sort == "Int":
            return ("literal", sort, str(self.random.randint(-1, 2)))
        if sort == "Bool":
            return ("literal", sort, self.random.choice(["true", "false"]))
        return ("literal", sort, self.random.choice(TOKENS[:2]))

    def term(self, sort, letter, depth, repeat=(), share=0.5):
        """A term of the sort; variables of the sorts `repeat` may come again."""
        if depth == 0 or sort == "V" or self.chance(share):
            return self.variable(sort, letter, sort in repeat)
        low = self.random.choice(BELOW[sort])
        if low in LITERAL_SORTS:
            inner = self.literal(low) if self.chance(0.5) else self.variable(low, letter, low in repeat)
            return injected(low, sort, inner)
        if low != sort and self.chance(0.5):
            return injected(low, sort, self.variable(low, letter, low in repeat))
        if not BUILT[low]:
            return self.term(sort, letter, depth - 1, repeat, share)
        name = self.random.choice(BUILT[low])
        parts = [self.term(s, letter, depth - 1, repeat, share) for s in CONSTRUCTORS[name][0]]
        return injected(low, sort, application(name, *parts))

    def number(self, names):
        if not names or self.chance(0.3):
            return self.literal("Int")
        p = ("variable", self.random.choice(names), "Int")
        if self.chance(0.3):
            return application(self.random.choice(["add", "sub"]), p, self.literal("Int"))
        if self.chance(0.03):
            return application("mul", p, ("variable", self.random.choice(names), "Int"))
        return p

    def predicate(self, variables):
        """A predicate of some of these variables; none where no sort serves."""
        numbers = [n for n, s in variables.items() if s == "Int"]
        others = [(n, s) for n, s in variables.items() if s not in ("Int", "V", "S")]
        if numbers and (not others or self.chance(0.75)):
            hook = self.random.choice(["lt", "le", "eq", "lt", "le", "equals"])
            left, right = self.number(numbers), self.number(numbers)
            if hook == "equals":
                p = equals("Int", left, right)
            else:
                p = equals("Bool", application(hook, left, right), ("literal", "Bool", self.random.choice(["true", "true", "false"])))
        elif others:
            name, sort = self.random.choice(others)
            same = [n for n, s in others if s == sort and n != name]
            if same and self.chance(0.4):
                other = ("variable", self.random.choice(same), sort)
            else:
                kept, self.variables = self.variables, {}
                other = self.closed(sort)
                self.variables = kept
            p = equals(sort, ("variable", name, sort), other)
        else:
            return None
        if self.chance(0.25):
            p = connective("not", p)
        if self.chance(0.15):
            other = self.predicate(variables)
            if other:
                p = connective(self.random.choice(["or", "and"]), p, other)
        return p

    def closed(self, sort):
        low = self.random.choice([it for it in BELOW[sort] if it in LITERAL_SORTS or BUILT[it]])
        if low in LITERAL_SORTS:
            return injected(low, sort, self.literal(low))
        name = self.random.choice(BUILT[low])
        return injected(low, sort, application(name, *[self.closed(s) for s in CONSTRUCTORS[name][0]]))

    def predicates(self, variables, share, most):
        found = []
        for _ in range(most):
            if self.chance(share):
                p = self.predicate(variables)
                if p:
                    found.append(p)
        return found

    def configuration(self, heads, letter, depth, repeat, share):
        name = self.random.choice(heads)
        return application(name, *[self.term(s, letter, depth, repeat, share) for s in CONSTRUCTORS[name][0]])

    def right(self, left_variables):
        """A right term over the variables of the left side, and new ones."""
        self.variables, new = dict(left_variables), {}
        name = self.random.choice(self.ends + (["v"] if self.chance(0.1) else []))

        def part(sort):
            known = [n for n, s in left_variables.items() if s == sort]
            lows = [(n, s) for n, s in left_variables.items() if sort in SUBSORTS.get(s, []) and not splits_no_sort(s, sort)]
            if known and self.chance(0.6):
                p = ("variable", self.random.choice(known), sort)
                return application("add", p, self.literal("Int")) if sort == "Int" and self.chance(0.3) else p
            if lows and self.chance(0.6):
                n, s = self.random.choice(lows)
                return injected(s, sort, ("variable", n, s))
            if sort == "V" or self.chance(0.2):
                n = f"Y{len(new)}"
                new[n] = sort
                return ("variable", n, sort)
            return self.closed(sort)

        return application(name, *[part(s) for s in CONSTRUCTORS[name][0]]), new

    def lone_rule(self, identity):
        """A rule of which a variable alone is the left term, most often of a sort that has values in common with others."""
        sort, self.variables, self.has_lone = self.random.choice(["PP", "QQ", "D", "M", "K", "C"]), {}, True
        left = self.variable(sort, "L", False)
        right = left if self.chance(0.2) else self.closed(sort)
        return Rule(identity, left, [], right, [], self.random.choice([20, 50, 50, 200]), {}, sort)

    def lone_state(self):
        """A state of such a sort: a variable, one under inj, or a closed term."""
        self.sort, self.variables = self.random.choice(["PP", "QQ", "M", "K"]), {}
        if self.chance(0.3):
            return self.closed(self.sort)
        low = self.random.choice(BELOW[self.sort])
        return injected(low, self.sort, self.variable(low, "X", False))

    def rule(self, identity, heads):
        if self.chance(0.02):
            return self.lone_rule(identity)
        self.variables = {}
        repeat = LITERAL_SORTS if self.chance(0.95) else LITERAL_SORTS + ["D", "PP", "M", "C"]
        left = self.configuration(heads, "L", 2, repeat, 0.5)
        variables = {n: s for n, s in self.variables.items()}
        condition = self.predicates(variables, 0.35, 2)
        right, new = self.right(variables)
        ensured = []
        if new and self.chance(0.5):
            ensured = self.predicates({**variables, **new}, 0.6, 2)
        numbers = [n for n, s in variables.items() if s == "Int"]
        if numbers and self.chance(0.02):
            right = application("out", application("other", ("variable", numbers[0], "Int")))
            new, ensured = {}, []
        return Rule(identity, left, condition, right, ensured, self.random.choice([20, 50, 50, 50, 100, 200, 200]), new)

    def state(self, heads):
        if self.has_lone and self.chance(0.5):
            return self.lone_state()
        self.sort, self.variables = "S", {}
        term = self.configuration(heads, "X", 2, SORTS + LITERAL_SORTS, 0.65)
        clauses = self.predicates(dict(self.variables), 0.3, 3)
        return connective("and", term, *clauses) if clauses else term


def definition_text(rules):
    lines = ["[]", "module R"]
    lines.append('  hooked-sort Int{} [hook{}("INT.Int"), hasDomainValues{}()]')
    lines.append('  hooked-sort Bool{} [hook{}("BOOL.Bool"), hasDomainValues{}()]')
    lines.append("  sort T{} [hasDomainValues{}()]")
    for name, (hook, places, result, _) in HOOKS.items():
        lines.append(f'  hooked-symbol {name}{{}}({", ".join(map(sort_text, places))}) : {result}{{}} [hook{{}}("{hook}"), function{{}}()]')
    lines.append("  symbol inj{From, To}(From) : To [sortInjection{}()]")
    lines.append("  symbol other{}(Int{}) : Int{} [function{}()]")
    lines += [f"  sort {s}{{}} []" for s in SORTS]
    for name, (places, result) in CONSTRUCTORS.items():
        lines.append(f"  symbol {name}{{}}({', '.join(map(sort_text, places))}) : {sort_text(result)} [constructor{{}}()]")
    lines += [f"  axiom{{R}} \\top{{R}}() [subsort{{{low}{{}}, {high}{{}}}}()]" for low in SUBSORTS for high in SUBSORTS[low]]
    lines += [rule.text() for rule in rules]
    return "\n".join([*lines, "endmodule []", ""])


def make(seed, definitions, states):
    for number in range(definitions):
        maker = Maker(seed * 1000003 + number)
        heads = maker.random.sample(["f", "g", "h", "k", "u", "b", "t"], maker.random.choice([1, 1, 2]))
        rules = [maker.rule(f"r{i}", heads) for i in range(maker.random.choice([1, 2, 2, 3, 3, 4, 5]))]
        kept = [maker.state(heads) for _ in range(states)]
        yield definition_text(rules), rules, kept


# ---- the judge


def is_open(predicate):
    """Whether it may be left undecided: it has a product of numbers, or equates terms of a sort of constructors."""
    every = parts_of(predicate)
    sorts = [it[2][0] for it in every if it[0] == "connective" and it[1] == "equals"]
    return any(it[0] == "application" and it[1] == "mul" for it in every) or any(s not in LITERAL_SORTS for s in sorts)


def within(value):
    return all(-6 <= it[1] <= 8 for it in numbers_in(value))


def numbers_in(value):
    if value[0] == "#":
        return [value]
    return [] if value[0] in ("?", "~") else [it for part in value[1:] for it in numbers_in(part)]


def has_instance(predicate, term, clauses, own):
    """Whether the part with this predicate has an instance over more numbers."""
    lists = [pool(s, range(-8, 10)) for s in own.values()]
    points = (dict(zip(own, values)) for values in itertools.product(*lists))
    return any(all(is_true(it, v) for it in clauses) and is_true_over(predicate, v, own) for v in points)


class Judge:
    def __init__(self):
        self.counts, self.faults = collections.Counter(), 0

    def fault(self, what, rules, state, lines, v=None):
        self.faults += 1
        print(f"FAULT {what}")
        for rule in rules:
            print(rule.text(), "FOREIGN" if rule.is_foreign else "")
        print("state:", text(state))
        for line in lines:
            print("  >", line)
        print("at:", v, flush=True)

    def state(self, rules, state, lines):
        parts = conjuncts(state)
        term, clauses, own = parts[0], parts[1:], free_variables(state)
        points = [dict(zip(own, values)) for values in itertools.product(*[pool(s, SMALL) for s in own.values()])]
        live = [v for v in points if all(is_true(it, v) for it in clauses)]
        by_turn = sorted(range(len(rules)), key=lambda i: rules[i].priority)
        foreign = [rules[i] for i in by_turn if rules[i].is_foreign]
        met = [rule for rule in foreign if any(meets_skeleton(rule, value_of(term, v)) for v in live)]
        word = lines[0].split(" ")[0] if lines else "nothing"
        is_rough = any(is_open(p) for p in clauses + [q for rule in rules for q in rule.condition + rule.ensured])
        if word in ("fail", "nothing", "number", "depth"):
            return self.fault(word, rules, state, lines)
        if word == "undecided":
            self.counts["undecided"] += 1
            return None if is_rough else self.fault("undecided", rules, state, lines)
        if word == "empty":
            self.counts["empty"] += 1
            return self.fault("empty", rules, state, lines) if live else None
        if word == "foreign":
            self.counts["foreign"] += 1
            told = lines[0].split(" ")[1]
            return None if met and met[0].identity == told else self.fault("foreign", rules, state, lines)
        if met:
            return self.fault("not foreign", rules, state, lines)
        self.counts["cases"] += 1
        found = []
        for line in lines:
            who, rest = line.split(": ", 1)
            what, _, predicate = rest.rpartition(" if ")
            found.append((who, read(what), None if predicate == "true" else read(predicate)))
        order = [[rules[i].identity for i in by_turn].index(who) for who, _, _ in found if who != "none"]
        if order != sorted(order) or "none" in [who for who, _, _ in found][: len(order)]:
            return self.fault("order", rules, state, lines)
        seen = set()
        for v in points:
            problem = self.at(rules, term, v, v in live, found, own, seen)
            if problem:
                return self.fault(problem, rules, state, lines, v)
        for place in range(len(found)):
            if place not in seen and not has_instance(found[place][2], term, clauses, own):
                return self.fault(f"no instance {place}", rules, state, lines)
        self.counts["parts"] += len(found)
        return None

    def at(self, rules, term, v, is_live, found, own, seen):
        value = value_of(term, v)
        if not is_live:
            return "an instance too many" if any(instances(state, v, own) for _, state, _ in found) else None
        fired = [(rule, firing(rule, value)) for rule in rules if not rule.is_foreign]
        fired = [(rule, x) for rule, x in fired if x is not None]
        least = min([rule.priority for rule, _ in fired], default=None)
        turns = {rule.identity: (rule, x) for rule, x in fired if rule.priority == least}
        self.counts["instances"] += 1
        self.counts["steps"] += len(turns)
        for who in [rule.identity for rule in rules] + ["none"]:
            here = [i for i, it in enumerate(found) if it[0] == who]
            true = [i for i in here if is_true_over(found[i][2], v, own)]
            seen.update(true)
            has_turn = not turns if who == "none" else who in turns
            if len(true) != (1 if has_turn else 0):
                return f"{who}: {len(true)} parts, turn {has_turn}"
            wanted = set()
            if has_turn:
                wanted = {value} if who == "none" else successors(*turns[who])
            got = [instances(found[i][1], v, own) for i in here]
            if {u for it in got for u in it if within(u)} != {u for u in wanted if within(u)}:
                return f"{who}: successors {got} wanted {wanted}"
            if any(got[j] for j in range(len(here)) if here[j] not in true):
                return f"{who}: an instance where the predicate is false"
        return None


def judge(given, output):
    """The rules and states are made again from the line that the input begins with."""
    seed, definitions, states = map(int, open(given).readline().split()[1:])
    blocks = [block.split("\n@") for block in open(output).read().split("@D\n")[1:]]
    judging = Judge()
    for (_, rules, kept), block in zip(make(seed, definitions, states), blocks):
        answers = block[1:] if not block[0].startswith("@") else [block[0][1:], *block[1:]]
        if len(answers) != len(kept):
            judging.faults += 1
            print("FAULT", block[:2], [rule.text() for rule in rules])
            continue
        for state, answer in zip(kept, answers):
            lines = answer.rstrip("\n").split("\n")
            try:
                judging.state(rules, state, lines[1:])
            except (ValueError, IndexError) as problem:
                judging.fault(f"judge {problem}", rules, state, lines)
            judging.counts["states"] += 1
    print(dict(judging.counts), "faults:", judging.faults)


def main():
    if sys.argv[1] == "make":
        seed, definitions, states = map(int, sys.argv[2:])
        print(f"@C {seed} {definitions} {states}")
        for definition, _, kept in make(seed, definitions, states):
            print("@D")
            print(definition, end="")
            print("@S")
            for state in kept:
                print(text(state))
    else:
        judge(*sys.argv[2:])


if __name__ == "__main__":
    main()
