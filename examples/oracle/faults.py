#!/usr/bin/env python3
"""faults.py PROGRAM FIRST LAST: states with one to three planted faults over random definitions, against the first fault that the
rules tell: of the JSON (J1 to J4), of the term (V1 to V7), a foreign symbol (T1). It prints each difference."""

import collections
import copy
import json
import random
import re
import subprocess
import sys
import tempfile

from definitions import Maker
from model import BOOL, DEEPEST_TERM, HOOKS, INT, LEAST, MOST, Wide, literal_json, sort_json, term_json, value_json, value_of, wrapped

MOST_NESTED = 127
PATTERNS = {"EVar": ["name", "sort"], "App": ["name", "sorts", "args"], "DV": ["sort", "value"]}
SORTS = {"SortApp": ["name", "args"], "SortVar": ["name"]}
IDENTIFIER = re.compile(r"[A-Za-z][A-Za-z0-9'-]*\Z")
WIDER = [str(MOST + 1), str(LEAST), str(LEAST - 1)]
TEXTS = ["1", "-0", "+7", "", "x", "true", "True", "1 ", "0x1", "--1", "+", *WIDER]


class Fault(Exception):
    """A code of the reply and its data."""


def nesting(tree):
    if not isinstance(tree, (dict, list)):
        return 0
    return 1 + max([nesting(it) for it in (tree.values() if isinstance(tree, dict) else tree)], default=0)


def is_of_kind(name, member):
    if name == "name":
        return isinstance(member, str) and bool(IDENTIFIER.match(member))
    if name == "value":
        return isinstance(member, str)
    if name in ("sorts", "args"):
        return isinstance(member, list) and all(isinstance(it, dict) for it in member)
    return isinstance(member, dict)


def need(tree, names):
    for name in names:
        if name not in tree:
            raise Fault(1, {"kind": "J2", "name": name})


def tag_of(tree, table):
    need(tree, ["tag"])
    tag = tree["tag"]
    if not isinstance(tag, str):
        raise Fault(1, {"kind": "J3", "name": "tag"})
    if tag not in table:
        raise Fault(1, {"kind": "J1", "name": tag})
    need(tree, table[tag])
    for name in table[tag]:
        if not is_of_kind(name, tree[name]):
            raise Fault(1, {"kind": "J3", "name": name})
    return tag


def read_sort(tree):
    if tag_of(tree, SORTS) == "SortApp":
        for it in tree["args"]:
            read_sort(it)


def read_pattern(tree):
    if tag_of(tree, PATTERNS) != "App":
        return read_sort(tree["sort"])
    for it in tree["sorts"]:
        read_sort(it)
    for it in tree["args"]:
        read_pattern(it)


def read_wrapper(tree):
    need(tree, ["format", "version", "term"])
    is_whole = isinstance(tree["version"], int) and not isinstance(tree["version"], bool)
    for name, is_so in [("format", isinstance(tree["format"], str)), ("version", is_whole), ("term", isinstance(tree["term"], dict))]:
        if not is_so:
            raise Fault(1, {"kind": "J3", "name": name})
    for name, wanted in [("format", "KORE"), ("version", 1)]:
        if tree[name] != wanted:
            raise Fault(1, {"kind": "J4", "name": name})
    read_pattern(tree["term"])


def sort_text(tree):
    return tree["name"] if tree["tag"] == "SortVar" else f"{tree['name']}{{{','.join(sort_text(it) for it in tree['args'])}}}"


class Verified:
    """Looks for the first fault of a term over a definition, from the top down and from left to right."""

    def __init__(self, definition):
        self.definition = definition
        self.sorts = {}

    def refuse(self, kind, name):
        raise Fault(2, {"kind": kind, "name": name})

    def fits(self, expected, found):
        if expected is not None and expected != found:
            raise Fault(2, {"expected": expected, "found": found, "kind": "V4"})

    def known(self, sort):
        if sort["tag"] == "SortVar" or sort["args"] or sort["name"] not in self.definition.sorts:
            self.refuse("V1", sort_text(sort))

    def deep(self, depth):
        if depth > DEEPEST_TERM:
            raise Fault(2, {"kind": "V6"})

    def verify(self, tree, place, depth):
        """The sort's text of the term at a place of this sort (None: of any)."""
        if tree["tag"] == "App":
            return self.application(tree, place, depth)
        self.known(tree["sort"])
        self.fits(place, sort_text(tree["sort"]))
        if tree["tag"] == "DV":
            self.literal(tree["sort"]["name"], tree["value"])
        else:
            self.fits(self.sorts.setdefault(tree["name"], sort_text(tree["sort"])), sort_text(tree["sort"]))
        self.deep(depth)
        return sort_text(tree["sort"])

    def literal(self, sort, text):
        is_number = re.match(r"[+-]?[0-9]+\Z", text)
        has_value = is_number if sort == INT else text in ("true", "false") if sort == BOOL else sort in self.definition.tokens
        if not has_value:
            self.refuse("V7", text)
        if sort == INT and not LEAST <= int(text) <= MOST:
            self.refuse("V5", text)

    def application(self, tree, place, depth):
        name, sorts, arguments = tree["name"], tree["sorts"], tree["args"]
        for it in sorts:
            self.known(it)
        if name == "inj":
            return self.injection(sorts, arguments, place, depth)
        if name in HOOKS:
            wanted, result = HOOKS[name][1:3]
        elif name in self.definition.constructors or name in self.definition.foreign:
            wanted, result = {**self.definition.constructors, **self.definition.foreign}[name]
        else:
            self.refuse("V2", name)
        if sorts or len(arguments) != len(wanted):
            self.refuse("V3", name)
        self.fits(place, f"{result}{{}}")
        self.deep(depth)
        for it, sort in zip(arguments, wanted):
            self.verify(it, f"{sort}{{}}", depth + 1)
        return f"{result}{{}}"

    def injection(self, sorts, arguments, place, depth):
        if len(sorts) != 2 or len(arguments) != 1:
            self.refuse("V3", "inj")
        lower, upper = sort_text(sorts[0]), sort_text(sorts[1])
        self.fits(place, upper)
        if sorts[0]["name"] not in self.definition.below[sorts[1]["name"]]:
            self.fits(upper, lower)
        self.deep(depth)
        self.verify(arguments[0], lower, depth + 1)
        return upper

    def all_meant(self, tree):
        """T1 of the first foreign symbol."""
        below = [it for it in objects(tree) if it.get("tag") in PATTERNS]
        for it in below:
            if it["tag"] == "App" and it["name"] in self.definition.foreign:
                self.refuse("T1", it["name"])


def objects(tree):
    """The objects in a tree, each before those in it; arguments stand after sorts, which hold no patterns."""
    found = [tree]
    for member in tree.values():
        below = [member] if isinstance(member, dict) else member if isinstance(member, list) else []
        found += [it for one in below if isinstance(one, dict) for it in objects(one)]
    return found


def term_of_json(tree):
    if tree["tag"] == "DV":
        return ("literal", tree["sort"]["name"], tree["value"])
    if tree["name"] == "inj":
        return ("injection", tree["sorts"][0]["name"], tree["sorts"][1]["name"], term_of_json(tree["args"][0]))
    return ("application", tree["name"], [term_of_json(it) for it in tree["args"]])


def wanted_reply(definition, wrapper):
    if nesting(wrapper) + 2 > MOST_NESTED:
        return {"error": {"code": -32700, "message": "Parse error"}, "id": None, "jsonrpc": "2.0"}
    try:
        read_wrapper(wrapper)
        verified = Verified(definition)
        sort = verified.verify(wrapper["term"], None, 1).removesuffix("{}")
        verified.all_meant(wrapper["term"])
    except Fault as fault:
        code, data = fault.args
        message = "Could not parse pattern" if code == 1 else "Could not verify pattern"
        return {"error": {"code": code, "data": data, "message": message}, "id": 1, "jsonrpc": "2.0"}
    value = value_of(term_of_json(wrapper["term"]), {})
    state = {"term": wrapped(value_json(definition, value, sort))}
    return {"id": 1, "jsonrpc": "2.0", "result": {"depth": 0, "reason": "depth-bound", "state": state}}


class Planter:
    """Plants faults into a term's JSON."""

    def __init__(self, maker):
        self.maker, self.pick, self.chance = maker, maker.pick, maker.chance

    def ground(self, sort, depth=2):
        return term_json(self.maker.term(sort, [], depth))

    def plant(self, tree):
        below = [it for it in objects(tree) if isinstance(it.get("tag"), str) and it["tag"] in PATTERNS]
        sorts = [it for it in objects(tree) if it.get("tag") == "SortApp"]
        plants = [self.any_member] * 3 + [self.name] * 2 + [self.count, self.other, self.other, self.literal, self.literal]
        plants += [self.injected, self.nested, self.sort, self.foreign]
        plant = self.pick(plants)
        if plant == self.any_member:
            self.any_member(self.pick(objects(tree)))
        elif plant == self.sort and sorts:
            self.sort(self.pick(sorts))
        elif plant == self.nested:
            self.nested(tree)
        elif below:
            plant(self.pick(below))

    def replace(self, tree, by):
        tree.clear()
        tree.update(by)

    def any_member(self, tree):
        if tree and self.chance(0.3):
            tree.pop(self.pick(sorted(tree)))
        elif self.chance(0.3):
            tree["tag"] = self.pick(["Nope", "SortApp", "App", "EVar", "DV", "SortVar", "SortNope", 5])
        else:
            tree[self.pick(sorted(tree) or ["name"])] = self.pick([5, None, {}, [], "x", [5], True, "1x", "a b", [{}]])

    def sort(self, tree):
        if self.chance(0.6):
            tree["name"] = self.pick(["SortNope", INT, BOOL, "SortU0", "SortTok"])
        elif self.chance(0.5):
            tree["args"] = [sort_json(INT)]
        else:
            self.replace(tree, {"name": tree.get("name"), "tag": "SortVar"})

    def name(self, tree):
        tree["name"] = self.pick(["Lblzz", "Lblf", "Lbladd", "Lbllt", "Lblk0", "inj", *self.maker.definition.constructors])

    def count(self, tree):
        if isinstance(tree.get("args"), list):
            tree["args"] = tree["args"][:-1] if tree["args"] and self.chance(0.5) else [*tree["args"], literal_json(INT, "1")]
        if isinstance(tree.get("sorts"), list) and self.chance(0.4):
            tree["sorts"].append(sort_json(self.pick([*self.maker.definition.sorts, "SortNope"])))

    def other(self, tree):
        self.replace(tree, self.ground(self.pick(self.maker.definition.sorts)))

    def literal(self, tree):
        self.replace(tree, literal_json(self.pick(self.maker.definition.sorts), self.pick(TEXTS)))

    def injected(self, tree):
        sorts = [sort_json(self.pick(self.maker.definition.sorts)) for _ in range(2)]
        self.replace(tree, {"args": [copy.deepcopy(tree)], "name": "inj", "sorts": sorts, "tag": "App"})

    def foreign(self, tree):
        if tree.get("tag") == "DV" and tree.get("sort") == sort_json(INT):
            self.replace(tree, {"args": [copy.deepcopy(tree)], "name": "Lblf", "sorts": [], "tag": "App"})

    def nested(self, tree):
        """A term of about as many levels as a term may have."""
        constructors = self.maker.definition.constructors
        deep = [it for it, (arguments, result) in constructors.items() if result in arguments]
        if not deep:
            return
        name = self.pick(deep)
        arguments, result = constructors[name]
        inner = self.ground(result)
        for _ in range(self.maker.source.randint(38, 52)):
            below = [self.ground(it, 1) for it in arguments]
            below[arguments.index(result)] = inner
            inner = {"args": below, "name": name, "sorts": [], "tag": "App"}
        self.replace(tree, inner)


def planted(maker):
    wrapper, planter = wrapped(term_json(maker.state()[0])), Planter(maker)
    for _ in range(maker.pick([1, 1, 1, 2, 2, 3])):
        if maker.chance(0.96) and isinstance(wrapper.get("term"), dict):
            planter.plant(wrapper["term"])
        else:
            others = [{"format": 5}, {"format": "KORE2"}, {"version": 2}, {"version": "1"}, {"version": 1.5}, {"term": 5}]
            wrapper.update(maker.pick(others))
    return wrapper


def main():
    program, first, last = sys.argv[1], int(sys.argv[2]), int(sys.argv[3])
    counts, differences = collections.Counter(), 0
    with tempfile.TemporaryDirectory() as room:
        for number in range(first, last):
            maker = Maker(random.Random(number))
            maker.make()
            with open(f"{room}/definition.kore", "w") as file:
                file.write(maker.text())
            for place in range(25):
                wrapper = planted(maker)
                try:
                    reply = wanted_reply(maker.definition, wrapper)
                except Wide:
                    continue
                counts[reply["error"].get("data", {"kind": "-32700"})["kind"] if "error" in reply else "result"] += 1
                wanted = (json.dumps(reply, sort_keys=True, separators=(",", ":"), ensure_ascii=False) + "\n").encode()
                request = {"jsonrpc": "2.0", "id": 1, "method": "execute", "params": {"state": wrapper, "max-depth": 0}}
                words = [program, "stdio", f"{room}/definition.kore", "--module", "MAIN"]
                ran = subprocess.run(words, input=json.dumps(request).encode(), capture_output=True, timeout=120)
                if (ran.returncode, ran.stdout, ran.stderr) != (0, wanted, b""):
                    differences += 1
                    print(f"definition {number}, state {place}: wanted {wanted[:300]}, got {ran.stdout[:300]} {ran.stderr[:300]}", flush=True)
    print("differences:", differences, dict(counts))
    return 1 if differences else 0


sys.exit(main())
