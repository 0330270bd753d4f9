"""What K means for ground configurations, written from the rules in words and not from the program.

A term is a tuple: ("variable", name, sort), ("literal", sort, text), ("application", symbol, arguments) or
("injection", lower, upper, term). A value is ("number", n), ("truth", b), ("token", sort, text) or
("built", constructor, arguments). A predicate is ("equals" or "in", sort, left, right), ("and" or "or", parts),
("not", part), ("top",), ("bottom",), ("implies" or "iff", left, right).
"""

INT, BOOL = "SortInt", "SortBool"
LEAST, MOST = -(1 << 127), (1 << 127) - 1
DEEPEST_TERM = 48


class Wide(Exception):
    """A computed number leaves 128 bits."""


# symbol: its hook, the sorts of its arguments, its sort, its function
NUMBERS, TRUTHS = (INT, INT), (BOOL, BOOL)
HOOKS = {
    "Lbladd": ("INT.add", NUMBERS, INT, lambda a, b: a + b),
    "Lblsub": ("INT.sub", NUMBERS, INT, lambda a, b: a - b),
    "Lblmul": ("INT.mul", NUMBERS, INT, lambda a, b: a * b),
    "Lbleqi": ("INT.eq", NUMBERS, BOOL, lambda a, b: a == b),
    "Lblnei": ("INT.ne", NUMBERS, BOOL, lambda a, b: a != b),
    "Lbllt": ("INT.lt", NUMBERS, BOOL, lambda a, b: a < b),
    "Lblle": ("INT.le", NUMBERS, BOOL, lambda a, b: a <= b),
    "Lblgt": ("INT.gt", NUMBERS, BOOL, lambda a, b: a > b),
    "Lblge": ("INT.ge", NUMBERS, BOOL, lambda a, b: a >= b),
    "Lbland": ("BOOL.and", TRUTHS, BOOL, lambda a, b: a and b),
    "Lblor": ("BOOL.or", TRUTHS, BOOL, lambda a, b: a or b),
    "LblandThen": ("BOOL.andThen", TRUTHS, BOOL, lambda a, b: a and b),
    "LblorElse": ("BOOL.orElse", TRUTHS, BOOL, lambda a, b: a or b),
    "Lblnot": ("BOOL.not", (BOOL,), BOOL, lambda a: not a),
    "Lblimplies": ("BOOL.implies", TRUTHS, BOOL, lambda a, b: not a or b),
    "Lbleqb": ("BOOL.eq", TRUTHS, BOOL, lambda a, b: a == b),
    "Lblneb": ("BOOL.ne", TRUTHS, BOOL, lambda a, b: a != b),
}


class Definition:
    """Sorts, subsorts (pairs, the lower first), token sorts, constructors and foreign symbols (name: argument sorts,
    result sort), and rules in order. `below` and `heads` follow from these (`settle`)."""

    def settle(self):
        self.below = {sort: {sort} for sort in self.sorts}
        while any(not self.below[lower] <= self.below[upper] for lower, upper in self.subsorts):
            for lower, upper in self.subsorts:
                self.below[upper] |= self.below[lower]
        self.heads = {sort: self.heads_of(sort) for sort in self.sorts}

    def heads_of(self, sort):
        heads = set()
        for lower in self.below[sort]:
            heads |= {("built", name) for name, (_, result) in self.constructors.items() if result == lower}
            heads |= {"number"} if lower == INT else {"truth"} if lower == BOOL else set()
            heads |= {("token", lower)} if lower in self.tokens else set()
        return heads

    def has_sort(self, value, sort):
        head = value[0] if value[0] in ("number", "truth") else value[:2]
        return head in self.heads[sort]

    def own_sort(self, value):
        """The sort of the value's head."""
        kind = value[0]
        return INT if kind == "number" else BOOL if kind == "truth" else value[1] if kind == "token" else self.constructors[value[1]][1]

    def result_of(self, symbol):
        return HOOKS[symbol][2] if symbol in HOOKS else self.foreign[symbol][1]


class Rule:
    """left, condition (predicates), right, ensured (predicates), priority, id, sort, is_foreign"""


def literal_value(sort, text):
    if sort == INT:
        return ("number", int(text))
    return ("truth", text == "true") if sort == BOOL else ("token", sort, text)


def value_of(term, valuation):
    kind = term[0]
    if kind == "variable":
        return valuation[term[1]]
    if kind == "literal":
        return literal_value(term[1], term[2])
    if kind == "injection":
        return value_of(term[3], valuation)
    values = [value_of(it, valuation) for it in term[2]]
    if term[1] not in HOOKS:
        return ("built", term[1], tuple(values))
    _, _, sort, function = HOOKS[term[1]]
    result = function(*[it[1] for it in values])
    if sort == BOOL:
        return ("truth", result)
    if not LEAST <= result <= MOST:
        raise Wide
    return ("number", result)


def is_true(predicate, valuation):
    """Each part is looked at, so that a number beyond 128 bits is found wherever it stands."""
    kind = predicate[0]
    if kind in ("equals", "in"):
        return value_of(predicate[2], valuation) == value_of(predicate[3], valuation)
    if kind in ("and", "or"):
        return (all if kind == "and" else any)([is_true(it, valuation) for it in predicate[1]])
    if kind in ("top", "bottom"):
        return kind == "top"
    if kind == "not":
        return not is_true(predicate[1], valuation)
    left, right = is_true(predicate[1], valuation), is_true(predicate[2], valuation)
    return left == right if kind == "iff" else not left or right


def matches(definition, term, value, valuation):
    """Whether the valuation can be made one under which the term is the value; it is filled in."""
    kind = term[0]
    if kind == "variable":
        if term[1] in valuation:
            return valuation[term[1]] == value
        if not definition.has_sort(value, term[2]):
            return False
        valuation[term[1]] = value
        return True
    if kind == "literal":
        return literal_value(term[1], term[2]) == value
    if kind == "injection":
        return matches(definition, term[3], value, valuation)
    is_built = value[0] == "built" and value[1] == term[1]
    return is_built and all(matches(definition, it, part, valuation) for it, part in zip(term[2], value[2]))


def parts(term):
    """The term and all that stands in it."""
    below = [term[3]] if term[0] == "injection" else term[2] if term[0] == "application" else []
    return [term, *[part for it in below for part in parts(it)]]


def variables(term):
    return [it for it in parts(term) if it[0] == "variable"]


def symbols(term):
    return [it[1] for it in parts(term) if it[0] == "application"]


def terms_of(predicate):
    kind = predicate[0]
    if kind in ("equals", "in"):
        return [predicate[2], predicate[3]]
    below = predicate[1] if kind in ("and", "or") else predicate[1:]
    return [term for it in below for term in terms_of(it)]


def is_literal_sort(definition, sort):
    return sort in (INT, BOOL) or sort in definition.tokens


def has_no_meet(definition, lower, sorts):
    """Whether one of these sorts has heads in common with the lower one, and no sort below both has exactly these."""
    for sort in sorts:
        common = definition.heads[sort] & definition.heads[lower]
        both = definition.below[sort] & definition.below[lower]
        if common and not any(definition.heads[it] == common for it in both):
            return True
    return False


def is_unsplit(definition, term):
    """Whether it is a variable under `inj` that can't be told by the sorts below the upper one."""
    return term[0] == "injection" and term[3][0] == "variable" and has_no_meet(definition, term[1], definition.below[term[2]])


def is_lone_unsplit(definition, left):
    """Whether the left term is a variable alone that can't be told by sorts."""
    return left[0] == "variable" and has_no_meet(definition, left[2], definition.sorts)


def is_foreign(definition, rule):
    terms = [rule.left, rule.right, *[term for it in rule.condition + rule.ensured for term in terms_of(it)]]
    if any(symbol in definition.foreign for term in terms for symbol in symbols(term)):
        return True
    if any(symbol in HOOKS for symbol in symbols(rule.left)):
        return True
    if any(is_unsplit(definition, part) for term in terms for part in parts(term)):
        return True
    if is_lone_unsplit(definition, rule.left):
        return True
    names = [it[1] for it in variables(rule.left)]
    if any(names.count(it[1]) > 1 and not is_literal_sort(definition, it[2]) for it in variables(rule.left)):
        return True
    return any(it[1] not in names for predicate in rule.condition for term in terms_of(predicate) for it in variables(term))


def meets_skeleton(definition, rule, value):
    """Whether the value is an instance of the left term with each unsupported part replaced by any value of its sort."""
    names, valuation = [it[1] for it in variables(rule.left)], {}

    def meets(term, value):
        kind = term[0]
        if kind == "variable" and names.count(term[1]) > 1 and not is_literal_sort(definition, term[2]):
            return definition.has_sort(value, term[2])
        if kind in ("variable", "literal"):
            return matches(definition, term, value, valuation)
        if kind == "injection":
            return definition.has_sort(value, term[2]) if is_unsplit(definition, term) else meets(term[3], value)
        if term[1] in definition.foreign or term[1] in HOOKS:
            return definition.has_sort(value, definition.result_of(term[1]))
        is_built = value[0] == "built" and value[1] == term[1]
        return is_built and all([meets(it, part) for it, part in zip(term[2], value[2])])

    return meets(rule.left, value)


def firing(definition, rule, value):
    """The valuation under which the rule fires, or None."""
    valuation = {}
    if not matches(definition, rule.left, value, valuation):
        return None
    return valuation if all([is_true(it, valuation) for it in rule.condition]) else None


def step(definition, value):
    """("foreign", id), ("wide",), ("stuck",), ("branching",) where two rules have their turn, ("open",) where one
    chooses, or ("next", value, the rule's sort)."""
    foreign = [it for it in definition.rules if it.is_foreign and meets_skeleton(definition, it, value)]
    if foreign:
        return ("foreign", min(foreign, key=lambda it: it.priority).id)
    fired, is_wide = [], False
    for rule in definition.rules:
        try:
            valuation = None if rule.is_foreign else firing(definition, rule, value)
        except Wide:
            is_wide = True
            continue
        if valuation is not None:
            fired.append((rule, valuation))
    if is_wide or not fired:
        return ("wide",) if is_wide else ("stuck",)
    least = min(rule.priority for rule, _ in fired)
    turns = [it for it in fired if it[0].priority == least]
    rule, valuation = turns[0]
    chooses = any(it[0] != "top" for it in rule.ensured) or any(it[1] not in valuation for it in variables(rule.right))
    if len(turns) > 1 or chooses:
        return ("branching",) if len(turns) > 1 else ("open",)
    try:
        return ("next", value_of(rule.right, valuation), rule.sort)
    except Wide:
        return ("wide",)


def execute(definition, value, sort, bound):
    """(reason, depth, value, sort) with the rule's id behind where it is aborted, or the reason alone, in words of
    this model, where the run branches, leaves ground values or passes a limit."""
    depth = 0
    while depth != bound:
        taken = step(definition, value)
        if taken[0] == "foreign":
            return ("aborted", depth, value, sort, taken[1])
        if taken[0] == "stuck":
            return ("stuck", depth, value, sort)
        if taken[0] != "next":
            return (taken[0],)
        value = taken[1]
        sort = sort if taken[2] in definition.below[sort] else taken[2]
        if term_depth(value_json(definition, value, sort)) > DEEPEST_TERM:
            return ("deep",)
        depth += 1
    return ("depth-bound", depth, value, sort)


def prove(definition, left, right, sort, most_steps):
    """What a claim from one ground value to another comes to, as a report has it behind the label. Runs that leave
    ground values aren't judged."""
    value, first, node = left, sort, 1
    while node <= 1000:
        if sort != first:
            return "refused", "code 2"
        if value == right:
            return "passed", ""
        ended = execute(definition, value, sort, most_steps)
        if ended[0] == "open":
            raise Wide
        if len(ended) == 1:
            return "refused", "code 2"
        if ended[1] == 0:
            return ("failed", f"node {node}") if ended[0] == "stuck" else ("pending", f"node {node} foreign {ended[4]}")
        value, sort, node = ended[2], ended[3], node + 1
    return "pending", f"node {node} rounds"


def sort_json(sort):
    return {"args": [], "name": sort, "tag": "SortApp"}


def literal_json(sort, text):
    return {"sort": sort_json(sort), "tag": "DV", "value": text}


def application_json(symbol, sorts, arguments):
    return {"args": arguments, "name": symbol, "sorts": [sort_json(it) for it in sorts], "tag": "App"}


def term_json(term):
    kind = term[0]
    if kind == "variable":
        return {"name": term[1], "sort": sort_json(term[2]), "tag": "EVar"}
    if kind == "literal":
        return literal_json(term[1], term[2])
    if kind == "injection":
        return application_json("inj", term[1:3], [term_json(term[3])])
    return application_json(term[1], [], [term_json(it) for it in term[2]])


def term_of(definition, value, sort):
    """The normal spelling of a value at a sort."""
    kind = value[0]
    if kind in ("number", "truth"):
        term = ("literal", INT if kind == "number" else BOOL, str(value[1]).lower())
    elif kind == "token":
        term = ("literal", value[1], value[2])
    else:
        arguments = [term_of(definition, it, at) for it, at in zip(value[2], definition.constructors[value[1]][0])]
        term = ("application", value[1], arguments)
    own = definition.own_sort(value)
    return term if own == sort else ("injection", own, sort, term)


def value_json(definition, value, sort):
    return term_json(term_of(definition, value, sort))


def term_depth(tree):
    return 1 + max([term_depth(it) for it in tree.get("args", [])], default=0)


def wrapped(tree):
    return {"format": "KORE", "term": tree, "version": 1}


def text(string):
    return '"' + string.replace("\\", "\\\\").replace('"', '\\"') + '"'


def term_text(term):
    kind = term[0]
    if kind == "variable":
        return f"{term[1]}:{term[2]}{{}}"
    if kind == "literal":
        return f"\\dv{{{term[1]}{{}}}}({text(term[2])})"
    if kind == "injection":
        return f"inj{{{term[1]}{{}}, {term[2]}{{}}}}({term_text(term[3])})"
    return f"{term[1]}{{}}({', '.join(term_text(it) for it in term[2])})"


def predicate_text(predicate, sort):
    kind = predicate[0]
    if kind in ("equals", "in"):
        return f"\\{kind}{{{predicate[1]}{{}}, {sort}{{}}}}({term_text(predicate[2])}, {term_text(predicate[3])})"
    below = predicate[1] if kind in ("and", "or") else predicate[1:]
    return f"\\{kind}{{{sort}{{}}}}({', '.join(predicate_text(it, sort) for it in below)})"
