#!/usr/bin/env python3
"""Left sides that meet nothing: meets.py PROGRAM SEED DEFINITIONS

Each random definition has one rule, read or foreign, whose left side has variables at several places, and twelve random states with
calls of whole numbers. Where no value is an instance of both, each call standing for any number, the rule has to be passed over: the
run is stuck at once. What stands in no relation to that (a rule that does meet) is counted alone."""
import json
import random
import subprocess
import sys
import tempfile
from collections import Counter

SORTS = {"int": "SortInt{}", "list": "SortList{}"}
HEAD = """[]
module MEETS
  hooked-sort SortInt{} [hook{}("INT.Int"), hasDomainValues{}()]
  sort SortState{} []
  sort SortList{} []
  hooked-symbol Lblmul{}(SortInt{}, SortInt{}) : SortInt{} [hook{}("INT.mul"), function{}()]
  hooked-symbol Lbladd{}(SortInt{}, SortInt{}) : SortInt{} [hook{}("INT.add"), function{}()]
  symbol Lblone{}(SortInt{}) : SortList{} [constructor{}()]
  symbol Lblmore{}(SortList{}, SortInt{}) : SortList{} [constructor{}()]
  symbol Lblnone{}() : SortList{} [constructor{}()]
  symbol Lblstate{}(SORTS) : SortState{} [constructor{}()]
  symbol Lbldone{}() : SortState{} [constructor{}()]
  symbol Lblother{}(SortInt{}) : SortState{} [function{}()]
"""


# ---- terms: ("variable", name, sort), ("number", n), ("call", symbol, arguments), ("built", symbol, arguments)

def variable(name, sort):
    return ("variable", name, sort)


def random_term(sort, depth=0):
    """A term of a state."""
    chance = random.random()
    if sort == "int":
        if chance < 0.3:
            return variable(random.choice("ABXYZ"), "int")
        if chance < 0.55:
            return ("number", random.choice([5, 6, 7]))
        if chance < 0.65:
            return ("call", "Lbladd", (variable(random.choice("ABXYZ"), "int"), ("number", random.choice([1, 2]))))
        return ("call", "Lblmul", (variable(random.choice("XYZ"), "int"), variable(random.choice("XYZ"), "int")))
    if chance < 0.3:
        return variable(random.choice("DEF"), "list")
    if chance < 0.55:
        return ("built", "Lblone", (random_term("int"),))
    if chance < 0.85 and depth < 3:
        return ("built", "Lblmore", (random_term("list", depth + 1), random_term("int")))
    return ("built", "Lblnone", ())


def random_left(sort, depth=0):
    """A part of a left side."""
    chance = random.random()
    if sort == "int":
        return variable(random.choice("LMN"), "int") if chance < 0.85 else ("number", random.choice([5, 6]))
    if chance < 0.55 or depth > 1:
        return variable(random.choice("PQ"), "list")
    if chance < 0.75:
        return ("built", "Lblone", (random_left("int"),))
    return ("built", "Lblmore", (random_left("list", depth + 1), random_left("int")))


def numbers_in(term):
    """The names of the term's variables of whole numbers."""
    if term[0] == "variable":
        return {term[1]} if term[2] == "int" else set()
    return set().union(*map(numbers_in, term[2])) if term[0] in ("call", "built") else set()


# ---- writing

def text_of(term):
    """As Kore text."""
    if term[0] == "variable":
        return f"{term[1]}:{SORTS[term[2]]}"
    if term[0] == "number":
        return '\\dv{SortInt{}}("%d")' % term[1]
    return f"{term[1]}{{}}({', '.join(map(text_of, term[2]))})"


def tree_of(term):
    """As Kore JSON."""
    sort = {"args": [], "name": "SortList" if term[0] == "variable" and term[2] == "list" else "SortInt", "tag": "SortApp"}
    if term[0] == "variable":
        return {"tag": "EVar", "name": term[1], "sort": sort}
    if term[0] == "number":
        return {"tag": "DV", "sort": sort, "value": str(term[1])}
    return {"tag": "App", "name": term[1], "sorts": [], "args": list(map(tree_of, term[2]))}


# ---- unification, each call standing for any number

names = iter(range(10**9))


def loosened(term):
    """The state's term with a variable of its own in the place of each call."""
    if term[0] == "call":
        return variable(f"call {next(names)}", "int")
    return ("built", term[1], tuple(map(loosened, term[2]))) if term[0] == "built" else term


def apart(term):
    """The left side with variables of its own. One of lists that stands twice makes the rule foreign, which asks nothing of it."""
    if term[0] == "variable":
        return variable(f"left {term[1]}" if term[2] == "int" else f"list {next(names)}", term[2])
    return ("built", term[1], tuple(map(apart, term[2]))) if term[0] == "built" else term


def found(term, put):
    while term[0] == "variable" and term[1] in put:
        term = put[term[1]]
    return term


def is_within(name, term, put):
    term = found(term, put)
    return term[1] == name if term[0] == "variable" else term[0] == "built" and any(is_within(name, t, put) for t in term[2])


def do_meet(first, second, put):
    first, second = found(first, put), found(second, put)
    if first == second:
        return True
    if first[0] != "variable" and second[0] == "variable":
        first, second = second, first
    if first[0] == "variable":
        if is_within(first[1], second, put):
            return False
        put[first[1]] = second
        return True
    if first[0] != "built" or second[0] != "built" or first[1] != second[1]:
        return False
    return all(do_meet(a, b, put) for a, b in zip(first[2], second[2]))


# ---- the program

def definition():
    """The left side, whether the rule was made foreign, and the definition's text."""
    sorts = [random.choice(["int", "int", "list"]) for _ in range(random.randrange(3, 12))]
    left = ("built", "Lblstate", tuple(map(random_left, sorts)))
    numbers = sorted(numbers_in(left))
    foreign = bool(numbers) and random.random() < 0.4
    right = f"Lblother{{}}({numbers[0]}:SortInt{{}})" if foreign else "Lbldone{}()"
    rule = f'  axiom{{}} \\rewrites{{SortState{{}}}}({text_of(left)}, {right}) [label{{}}("rule")]\n'
    return sorts, left, HEAD.replace("SORTS", ", ".join(SORTS[s] for s in sorts)) + rule + "endmodule []\n"


def request(number, state):
    state = {"format": "KORE", "version": 1, "term": tree_of(state)}
    return json.dumps({"jsonrpc": "2.0", "id": number, "method": "execute", "params": {"max-depth": 1, "state": state}})


def kind_of(result):
    undecided = " undecided" if "unknown-predicate" in result else ""
    return result["reason"] + undecided + (" foreign" if "foreign-rule" in result else "")


def main(program, seed, definitions):
    random.seed(seed)
    counts, differences = Counter(), 0
    for _ in range(definitions):
        sorts, left, text = definition()
        states = [("built", "Lblstate", tuple(map(random_term, sorts))) for _ in range(12)]
        with tempfile.NamedTemporaryFile("w", suffix=".kore") as file:
            file.write(text)
            file.flush()
            asked = "".join(request(n, state) + "\n" for n, state in enumerate(states))
            run = subprocess.run([program, "stdio", file.name, "--module", "MEETS"], input=asked, capture_output=True, text=True)
        replies = [json.loads(line) for line in run.stdout.split("\n") if line]
        if run.returncode != 0 or len(replies) != len(states):
            differences += 1
            print("status", run.returncode, run.stderr, text)
            continue
        for state, reply in zip(states, replies):
            meets = do_meet(apart(left), loosened(state), {})
            kind = kind_of(reply["result"]) if "result" in reply else f"error {reply['error']['code']}"
            counts[("meets: " if meets else "doesn't: ") + kind] += 1
            if not meets and kind != "stuck":
                differences += 1
                print(text_of(left), text_of(state), kind)
    print(dict(sorted(counts.items())), "differences:", differences)
    return 1 if differences else 0


if __name__ == "__main__":
    sys.exit(main(sys.argv[1], int(sys.argv[2]), int(sys.argv[3])))
