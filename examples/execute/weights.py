#!/usr/bin/env python3
"""States beside weights: weights.py PROGRAM SEED DEFINITIONS

Each random definition has up to four rules, read or foreign, over lists with whole numbers as members, some of them under an injection;
twelve random states of each have whole-number variables and comparisons with numbers of up to 121 bits, so that a weight of bits is passed
now and then. Every request has to be answered, and where that weight is told, the predicate's whole-number variables may be no more than
those of the state and the places of left sides at which one stands, or a number: each twice where a sort above Int has only numbers."""
import json
import random
import subprocess
import sys
import tempfile
from collections import Counter

INT = {"args": [], "name": "SortInt", "tag": "SortApp"}
LIST = {"args": [], "name": "SortList", "tag": "SortApp"}
ITEM = {"args": [], "name": "SortItem", "tag": "SortApp"}
BOOL = {"args": [], "name": "SortBool", "tag": "SortApp"}
STATE = {"args": [], "name": "SortState", "tag": "SortApp"}
SUBSORT = ("  axiom{R} \\exists{R}(Val:SortItem{}, \\equals{SortItem{}, R}(Val:SortItem{}, inj{SortInt{}, SortItem{}}(From:SortInt{}))) "
           "[subsort{SortInt{}, SortItem{}}()]\n")
HEAD = """[]
module WEIGHTS
  hooked-sort SortInt{} [hook{}("INT.Int"), hasDomainValues{}()]
  hooked-sort SortBool{} [hook{}("BOOL.Bool"), hasDomainValues{}()]
  sort SortState{} []
  sort SortList{} []
  sort SortItem{} []
  hooked-symbol Lblgt{}(SortInt{}, SortInt{}) : SortBool{} [hook{}("INT.gt"), function{}()]
  hooked-symbol Lbladd{}(SortInt{}, SortInt{}) : SortInt{} [hook{}("INT.add"), function{}()]
  hooked-symbol Lblmul{}(SortInt{}, SortInt{}) : SortInt{} [hook{}("INT.mul"), function{}()]
  symbol inj{From, To}(From) : To [sortInjection{}()]
  symbol Lblone{}(SortInt{}, SortInt{}) : SortList{} [constructor{}()]
  symbol Lblmore{}(SortList{}, SortInt{}) : SortList{} [constructor{}()]
  symbol Lblitem{}(SortItem{}) : SortList{} [constructor{}()]
  symbol Lblnone{}() : SortList{} [constructor{}()]
  symbol Lblstate{}(SortList{}, SortInt{}, SortList{}) : SortState{} [constructor{}()]
  symbol Lblother{}(SortInt{}) : SortInt{} [function{}()]
"""
OTHER_ITEM = "  symbol Lblnoitem{}() : SortItem{} [constructor{}()]\n"


class Maker:
    """A random definition and random states of it."""

    def __init__(self, rnd):
        self.rnd = rnd
        self.only_numbers = rnd.random() < 0.5
        self.places = 0

    def number(self):
        return str(self.rnd.choice([1, 5, 2**60, 2**100, 2**118 + 3, 2**120, 2**121 + 7, -(2**120)]))

    def left_number(self, names):
        self.places += 1
        if self.rnd.random() < 0.8:
            name = self.rnd.choice("ABCDEFG")
            names.append(name)
            return f"{name}:SortInt{{}}"
        return f'\\dv{{SortInt{{}}}}("{self.rnd.choice([1, 2, 2**119])}")'

    def left_list(self, depth, names, foreign):
        chance = self.rnd.random()
        if chance < 0.25 or depth == 0:
            return self.rnd.choice(["V:SortList{}", "Lblnone{}()"])
        if chance < 0.5:
            first = self.left_number(names)
            if foreign and self.rnd.random() < 0.4:
                first = f"Lblother{{}}({first})"
            return f"Lblone{{}}({first}, {self.left_number(names)})"
        if chance < 0.6:
            return f"Lblitem{{}}(inj{{SortInt{{}}, SortItem{{}}}}({self.left_number(names)}))"
        return f"Lblmore{{}}({self.left_list(depth - 1, names, foreign)}, {self.left_number(names)})"

    def rule(self, number):
        names = []
        foreign = self.rnd.random() < 0.25
        left = f"Lblstate{{}}({self.left_list(2, names, foreign)}, {self.left_number(names)}, {self.left_list(2, names, foreign)})"
        for _ in range(self.rnd.randrange(3) if names else 0):
            second = self.rnd.choice([f"{self.rnd.choice(names)}:SortInt{{}}", f'\\dv{{SortInt{{}}}}("{self.number()}")'])
            truth = self.rnd.choice(["true", "false"])
            test = f"Lblgt{{}}({self.rnd.choice(names)}:SortInt{{}}, {second})"
            left = f'\\and{{SortState{{}}}}({left}, \\equals{{SortBool{{}}, SortState{{}}}}({test}, \\dv{{SortBool{{}}}}("{truth}")))'
        right = 'Lblstate{}(Lblnone{}(), \\dv{SortInt{}}("0"), Lblnone{}())'
        priority = self.rnd.choice([10, 20, 30, 50])
        return f'  axiom{{}} \\rewrites{{SortState{{}}}}({left}, {right}) [label{{}}("r{number}"), priority{{}}("{priority}")]\n'

    def definition(self):
        rules = "".join(self.rule(i) for i in range(self.rnd.choice([1, 2, 3, 4])))
        return HEAD + ("" if self.only_numbers else OTHER_ITEM) + SUBSORT + rules + "endmodule []\n"

    def whole(self):
        chance = self.rnd.random()
        if chance < 0.6:
            return variable(self.rnd.choice("XYZW"), INT)
        if chance < 0.75:
            return applied("Lbladd", [variable(self.rnd.choice("XYZ"), INT), value(self.rnd.choice([1, 2**110]))])
        if chance < 0.85:
            return applied("Lblmul", [variable("X", INT), variable("Y", INT)])
        return value(self.rnd.choice([1, 2, 2**119]))

    def list(self, depth):
        chance = self.rnd.random()
        if chance < 0.5 or depth == 0:
            return variable(self.rnd.choice("PQ"), LIST)
        if chance < 0.65:
            return applied("Lblone", [self.whole(), self.whole()])
        if chance < 0.72:
            return applied("Lblitem", [variable("T", ITEM)])
        if chance < 0.8:
            return applied("Lblnone", [])
        return applied("Lblmore", [self.list(depth - 1), self.whole()])

    def condition(self):
        first = variable(self.rnd.choice("XYZW"), INT)
        second = self.rnd.choice([variable(self.rnd.choice("XYZW"), INT), value(self.number())])
        one = greater(first, second, self.rnd.choice(["true", "false"]))
        if self.rnd.random() < 0.2:
            return {"patterns": [one, greater(variable("X", INT), value(self.number()), "true")], "sort": STATE, "tag": "Or"}
        return one

    def request(self, number):
        term = applied("Lblstate", [self.list(2), self.whole(), self.list(2)])
        patterns = [term] + [self.condition() for _ in range(self.rnd.randrange(6))]
        state = term if len(patterns) == 1 else {"patterns": patterns, "sort": STATE, "tag": "And"}
        params = {"state": {"format": "KORE", "term": state, "version": 1}, "max-depth": 1}
        return {"id": number, "jsonrpc": "2.0", "method": "execute", "params": params}


def variable(name, sort):
    return {"name": name, "sort": sort, "tag": "EVar"}


def value(number, sort=INT):
    return {"sort": sort, "tag": "DV", "value": str(number)}


def applied(name, arguments):
    return {"args": arguments, "name": name, "sorts": [], "tag": "App"}


def greater(first, second, truth):
    test = applied("Lblgt", [first, second])
    return {"argSort": BOOL, "first": test, "second": value(truth, BOOL), "sort": STATE, "tag": "Equals"}


def numeric_names(tree, sorts):
    """The names of variables of these sorts in a pattern's JSON."""
    if isinstance(tree, dict):
        if tree.get("tag") == "EVar":
            return {tree["name"]} if tree["sort"]["name"] in sorts else set()
        return set().union(*(numeric_names(member, sorts) for member in tree.values()))
    if isinstance(tree, list):
        return set().union(*(numeric_names(member, sorts) for member in tree))
    return set()


def judge(maker, request, reply):
    """What is wrong with the reply, and of which kind it is."""
    if "error" in reply:
        return f"error {reply['error']['code']}", "error"
    result = reply["result"]
    weight = result.get("limit")
    if weight is None or weight.get("name") != "bits" or "unknown-predicate" not in result:
        return None, result["reason"]
    sorts = ["SortInt", "SortItem"] if maker.only_numbers else ["SortInt"]
    state = numeric_names(result["state"], sorts) | numeric_names(request, sorts)
    most = len(state) + maker.places * (2 if maker.only_numbers else 1)
    shown = numeric_names(result["unknown-predicate"], sorts)
    return (f"{len(shown)} variables, at most {most}" if len(shown) > most else None), "bits"


def main():
    program, seed, definitions = sys.argv[1], int(sys.argv[2]), int(sys.argv[3])
    rnd = random.Random(seed)
    kinds, differences = Counter(), 0
    for _ in range(definitions):
        maker = Maker(rnd)
        with tempfile.NamedTemporaryFile("w", suffix=".kore") as file:
            file.write(maker.definition())
            file.flush()
            requests = [maker.request(i) for i in range(12)]
            text = "\n".join(json.dumps(request, separators=(",", ":")) for request in requests) + "\n"
            run = subprocess.run([program, "stdio", file.name, "--module", "WEIGHTS"], input=text, capture_output=True, text=True)
        replies = [json.loads(line) for line in run.stdout.splitlines()]
        if run.returncode != 0 or len(replies) != len(requests):
            differences += 1
            print(f"status {run.returncode}, {len(replies)} replies: {run.stderr.strip()}\n{maker.definition}\n{text}")
        for request, reply in zip(requests, replies):
            wrong, kind = judge(maker, request, reply)
            kinds[kind] += 1
            if wrong:
                differences += 1
                print(wrong, json.dumps(request), json.dumps(reply), sep="\n")
    print(dict(kinds), "differences:", differences)


main()
