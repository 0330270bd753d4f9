"""Random definitions, states and claims, and their text."""

from model import BOOL, HOOKS, INT, LEAST, MOST, Definition, Rule, Wide, is_foreign, predicate_text, step, symbols
from model import term_of, term_text, text, value_of, variables

USUAL, OWISE = 50, 200
COMPARISONS = ["Lbleqi", "Lblnei", "Lbllt", "Lblle", "Lblgt", "Lblge"]
CONNECTIVES = ["Lbland", "Lblor", "Lblimplies", "Lbleqb", "Lblneb", "LblandThen", "LblorElse"]


class Maker:
    """Makes the parts of one definition from one source of random numbers."""

    def __init__(self, source):
        self.source = source
        self.definition = Definition()

    def chance(self, share):
        return self.source.random() < share

    def pick(self, things):
        return self.source.choice(things)

    def make(self):
        definition = self.definition
        self.users = [f"SortU{place}" for place in range(self.source.randint(2, 4))]
        definition.tokens = ["SortTok"] if self.chance(0.6) else []
        definition.sorts = [INT, BOOL, *definition.tokens, *self.users]
        order = [INT, BOOL, *definition.tokens, *self.users[::-1]]
        pairs = [(lower, upper) for place, lower in enumerate(order) for upper in order[place + 1 :] if upper in self.users]
        definition.subsorts = [pair for pair in pairs if self.chance(0.3)]
        definition.constructors = {f"Lblk{sort[-1]}": ([], sort) for sort in self.users}
        for place in range(self.source.randint(4, 8)):
            arguments = [self.pick(definition.sorts) for _ in range(self.source.randint(0, 3))]
            definition.constructors[f"Lblc{place}"] = (arguments, self.pick(self.users))
        definition.foreign = {"Lblf": ([INT], INT)} if self.chance(0.7) else {}
        definition.settle()
        rules = [self.rule(place) for place in range(self.source.randint(2, 9))]
        definition.rules = [it for it in rules if it.module == "RULES"] + [it for it in rules if it.module == "MAIN"]
        for rule in definition.rules:
            rule.is_foreign = is_foreign(definition, rule)
        self.give_ids()
        return definition

    def give_ids(self):
        """A label of printable characters without `#` and comma that no other rule has, else the module and the number."""
        rules = self.definition.rules
        labels, numbers = [it.label for it in rules], {"RULES": 0, "MAIN": 0}
        for rule in rules:
            numbers[rule.module] += 1 + rule.others_before
            is_own = rule.label and labels.count(rule.label) == 1 and not set("#, ") & set(rule.label)
            rule.id = rule.label if is_own else f"{rule.module}#{numbers[rule.module]}"

    def number_text(self):
        edge = self.pick([MOST, LEAST, MOST - 1]) if self.chance(0.5) else 4
        number = self.pick([0, 0, 1, 1, 2, 3, -1, 5, self.source.randint(-9, 9), edge])
        return self.pick(["+", "", "", ""]) + self.pick(["", "", "0"]) + str(number) if number >= 0 else str(number)

    def term(self, sort, known, depth, calls=False, is_left=False):
        """A term of this sort over the known variables; a left term makes new ones, which are added to those known."""
        fitting = [it for it in known if it[2] == sort]
        if is_left and self.chance(0.35 if depth > 0 else 0.8):
            if fitting and self.chance(0.15):
                return self.pick(fitting)
            known.append(("variable", f"X{len(known)}", sort))
            return known[-1]
        if not is_left and fitting and self.chance(0.5):
            return self.pick(fitting)
        if sort == INT:
            return self.number(known, depth, calls)
        if sort == BOOL:
            is_call = calls and depth > 0 and self.chance(0.5)
            return self.truth(known, depth - 1) if is_call else ("literal", BOOL, self.pick(["true", "false"]))
        if sort in self.definition.tokens:
            return ("literal", sort, self.pick(["a", "b", 'x"y']))
        return self.built(sort, known, depth, calls, is_left)

    def number(self, known, depth, calls):
        if calls and depth > 0 and self.chance(0.4):
            arguments = [self.term(INT, known, depth - 1, calls) for _ in range(2)]
            return ("application", self.pick(["Lbladd", "Lblsub", "Lblmul"]), arguments)
        return ("literal", INT, self.number_text())

    def truth(self, known, depth):
        """A call whose value is a truth value, or a variable."""
        fitting = [it for it in known if it[2] == BOOL]
        if fitting and self.chance(0.15):
            return self.pick(fitting)
        if depth > 0 and self.chance(0.2):
            return ("application", self.pick(CONNECTIVES), [self.truth(known, depth - 1) for _ in range(2)])
        if self.chance(0.1):
            return ("application", "Lblnot", [self.truth(known, depth - 1)])
        return ("application", self.pick(COMPARISONS), [self.term(INT, known, depth - 1, True) for _ in range(2)])

    def built(self, sort, known, depth, calls, is_left):
        constructors = self.definition.constructors
        names = [it for it, (arguments, result) in constructors.items() if result == sort and (depth > 0 or not arguments)]
        lower = sorted(self.definition.below[sort] - {sort})
        if lower and self.chance(0.35 if names else 0.9):
            below = self.pick(lower)
            lowest = sorted(self.definition.below[below] - {below})
            if lowest and self.chance(0.1):
                least = self.pick(lowest)
                inner = self.term(least, known, depth - 1, calls, is_left)
                return ("injection", below, sort, ("injection", least, below, inner))
            return ("injection", below, sort, self.term(below, known, depth - 1, calls, is_left))
        name = self.pick(names)
        arguments = [self.term(it, known, depth - 1, calls, is_left) for it in constructors[name][0]]
        return ("application", name, arguments)

    def predicate(self, known, depth):
        kind = self.source.random()
        if kind < 0.55:
            sides = [self.truth(known, 2), ("literal", BOOL, self.pick(["true", "true", "false"]))]
            return (self.pick(["equals", "equals", "equals", "in"]), BOOL, *(sides[::-1] if self.chance(0.15) else sides))
        if kind < 0.75 or depth == 0:
            sort = self.pick([it[2] for it in known] + [INT])
            return ("equals", sort, self.term(sort, known, 1, True), self.term(sort, known, 1, True))
        if kind < 0.8:
            return ("not", self.predicate(known, depth - 1))
        if kind < 0.9:
            return (self.pick(["and", "or"]), [self.predicate(known, depth - 1) for _ in range(self.source.randint(0, 3))])
        if kind < 0.95:
            return (self.pick(["implies", "iff"]), self.predicate(known, depth - 1), self.predicate(known, depth - 1))
        return (self.pick(["top", "bottom"]),)

    def rule(self, place):
        rule, known = Rule(), []
        rule.sort = self.pick(self.users[:2])
        constructors = self.definition.constructors
        names = [it for it, (_, result) in constructors.items() if result == rule.sort]
        name = self.pick(names)
        rule.left = ("application", name, [self.term(it, known, 2, is_left=True) for it in constructors[name][0]])
        if self.chance(0.05):
            known = []
            rule.left = self.term(rule.sort, known, 2, is_left=True)
        if self.chance(0.04):
            known = [("variable", "X0", rule.sort)]
            rule.left = known[0]
        rule.condition = [self.predicate(known, 1) for _ in range(self.pick([0, 0, 0, 1, 1, 2]))]
        new = [("variable", "NEW", INT)] if self.chance(0.06) else []
        rule.right = self.term(rule.sort, known + new, 3, True)
        if self.definition.foreign and self.chance(0.08):
            arguments = [self.foreign_or_not(it, known) for it in constructors[names[-1]][0]]
            rule.right = ("application", names[-1], arguments)
        if self.definition.foreign and self.chance(0.04):
            one = ("literal", INT, "1")
            rule.condition.append(("equals", INT, ("application", "Lblf", [one]), one))
        chance = self.source.random()
        rule.ensured = [("top",)] if chance < 0.05 else [self.predicate(known, 0)] if chance < 0.09 else []
        self.give_attributes(rule, place)
        return rule

    def foreign_or_not(self, sort, known):
        if sort == INT:
            return ("application", "Lblf", [self.term(INT, known, 1, True)])
        return self.term(sort, known, 1, True)

    def give_attributes(self, rule, place):
        rule.is_owise = self.chance(0.15)
        rule.written = self.pick([1, 20, 49, 50, 51, 200, 0, 4294967295]) if self.chance(0.25) else None
        rule.priority = rule.written if rule.written is not None else OWISE if rule.is_owise else USUAL
        rule.label = self.pick([None, f"L{place}", f"L{place}", f"L{place}", "same", "a#b", "T.x-y", "a,b"])
        rule.module = self.pick(["RULES", "MAIN"])
        rule.others_before = self.pick([0, 0, 0, 1])

    def instance(self, term, chosen):
        kind = term[0]
        if kind == "variable":
            if term[1] not in chosen:
                chosen[term[1]] = self.term(term[2], [], 2)
            return chosen[term[1]]
        if kind == "injection":
            return (*term[:3], self.instance(term[3], chosen))
        return ("application", term[1], [self.instance(it, chosen) for it in term[2]]) if kind == "application" else term

    def state(self):
        """A ground term, most often an instance of some rule's left term, and its sort."""
        rule = self.pick(self.definition.rules)
        if self.chance(0.8) and not any(it in HOOKS or it in self.definition.foreign for it in symbols(rule.left)):
            return self.instance(rule.left, {}), rule.sort
        sort = self.pick(self.users[:2])
        return self.term(sort, [], 3, True), sort

    def conjunction(self, term, predicates, sort):
        """The text of one term and predicates, in any order and nesting."""
        members = [term_text(term), *[predicate_text(it, sort) for it in predicates]]
        if len(members) == 1 and self.chance(0.85):
            return members[0]
        self.source.shuffle(members)
        while len(members) > 2 and self.chance(0.5):
            members = [f"\\and{{{sort}{{}}}}({members[0]}, {members[1]})", *members[2:]]
        return f"\\and{{{sort}{{}}}}({', '.join(members)})"

    def rule_text(self, rule):
        right = self.conjunction(rule.right, rule.ensured, rule.sort)
        if any(it[1] == "NEW" for it in variables(rule.right)) and self.chance(0.5):
            right = f"\\exists{{{rule.sort}{{}}}}(NEW:{INT}{{}}, {right})"
        attributes = [f"label{{}}({text(rule.label)})"] if rule.label else []
        attributes += [f'priority{{}}("{rule.written}")'] if rule.written is not None else []
        attributes += ["owise{}()"] if rule.is_owise else []
        self.source.shuffle(attributes)
        left = self.conjunction(rule.left, rule.condition, rule.sort)
        return f"  axiom{{}} \\rewrites{{{rule.sort}{{}}}}({left}, {right}) [{', '.join(attributes)}]"

    def text(self):
        """The definition's text: a module of sorts and symbols, one of rules, and the main one, which imports both."""
        lines = ["[]", *signature_lines(self.definition), "module RULES", "  import BASIC []", *self.rule_lines("RULES"), "endmodule []"]
        imports = ["  import BASIC []", "  import RULES []", "  import BASIC []"]
        return "\n".join([*lines, "module MAIN", *imports, *self.rule_lines("MAIN"), "endmodule []", ""])

    def rule_lines(self, module):
        lines = []
        for rule in self.definition.rules:
            if rule.module == module:
                other = f"  axiom{{}} \\equals{{{INT}{{}}, {rule.sort}{{}}}}(N:{INT}{{}}, N:{INT}{{}}) []"
                lines += [other] * rule.others_before + [self.rule_text(rule)]
        return lines


def signature_lines(definition):
    lines = ["module BASIC", f'  hooked-sort {BOOL}{{}} [hook{{}}("BOOL.Bool")]']
    lines += [f'  hooked-sort {INT}{{}} [hook{{}}("INT.Int"), hasDomainValues{{}}()]']
    lines += ["  symbol inj{From, To}(From) : To [sortInjection{}()]"]
    for name, (hook, arguments, result, _) in HOOKS.items():
        lines.append(f'  hooked-symbol {symbol_text(name, arguments, result)} [hook{{}}("{hook}"), function{{}}()]')
    lines += [f"  sort {it}{{}} [hasDomainValues{{}}()]" for it in definition.tokens]
    lines += [f"  sort {it}{{}} []" for it in definition.sorts if it not in (INT, BOOL, *definition.tokens)]
    lines += [f"  symbol {symbol_text(it, *about)} [constructor{{}}()]" for it, about in definition.constructors.items()]
    lines += [f"  symbol {symbol_text(it, *about)} [function{{}}()]" for it, about in definition.foreign.items()]
    for lower, upper in definition.subsorts:
        below = f"inj{{{lower}{{}}, {upper}{{}}}}(F:{lower}{{}})"
        pattern = f"\\exists{{R}}(V:{upper}{{}}, \\equals{{{upper}{{}}, R}}(V:{upper}{{}}, {below}))"
        lines.append(f"  axiom{{R}} {pattern} [subsort{{{lower}{{}}, {upper}{{}}}}()]")
    return [*lines, "endmodule []"]


def symbol_text(name, arguments, result):
    return f"{name}{{}}({', '.join(it + '{}' for it in arguments)}) : {result}{{}}"


def claim_sides(maker):
    """Two ground terms of one sort, the second most often one that follows the first; None where numbers leave 128 bits."""
    definition = maker.definition
    left, sort = maker.state()
    try:
        value = value_of(left, {})
        for _ in range(maker.source.randint(0, 4)):
            taken = step(definition, value)
            if taken[0] != "next":
                break
            value = taken[1]
    except Wide:
        return None
    if not definition.has_sort(value, sort):
        return None
    right = term_of(definition, value, sort) if maker.chance(0.8) else maker.term(sort, [], 2)
    return left, right, sort


def claims_text(claims):
    lines = ["module SPEC", "  import MAIN []"]
    for label, (left, right, sort) in claims.items():
        target = f"weakAlwaysFinally{{{sort}{{}}}}({term_text(right)})"
        lines.append(f"  claim{{}} \\implies{{{sort}{{}}}}({term_text(left)}, {target}) [label{{}}({text(label)})]")
    return "\n".join([*lines, "endmodule []", ""])
