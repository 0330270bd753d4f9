#!/usr/bin/env python3
"""conditions.py PROGRAM: what `PROGRAM stdio` answers where a rule asks by an equality of terms of constructors, in each of its
spellings, a row each: the reason, then each next state with its rule and when it is the case, or what isn't decided. It prints each
row that is told otherwise."""

import json
import os
import subprocess
import sys
import tempfile

HERE = os.path.dirname(os.path.abspath(__file__))
sys.path += [HERE, os.path.join(HERE, "..", "oracle"), os.path.join(HERE, "..", "steps")]
from model import sort_json, wrapped

BINARY = {"Equals": ("first", "second"), "In": ("first", "second")}
RULES = {
    "one": "\\equals{P{}, S{}}(N:P{}, pa{}())",
    "same": '\\equals{Bool{}, S{}}(same{}(N:P{}, pa{}()), \\dv{Bool{}}("true"))',
    "other": '\\equals{Bool{}, S{}}(other{}(N:P{}, pa{}()), \\dv{Bool{}}("true"))',
    "member": "\\in{P{}, S{}}(pa{}(), N:P{})",
    "built": "\\equals{P{}, S{}}(N:P{}, pair{}(pb{}(), pb{}()))",
}
# a state, and what is answered of it
ROWS = [
    ("one(X)", "branching; one: X = pa: done; none: !(X = pa): one(X)"),
    ("same(X)", "branching; same: same(X, pa) = true: done; none: !(same(X, pa) = true): same(X)"),
    ("member(X)", "branching; member: X = pa: done; none: !(pa = X): member(X)"),
    ("other(X)", "branching; other: other(X, pa) = true: done; none: !(other(X, pa) = true): other(pa)"),
    ("built(X)", "aborted; !(X = pair(pb, pb))"),
    ("two(X, Y)", "aborted; !(Y = X)"),
    ("one(X) & !(X = pa)", "stuck"),
    ("same(X) & !(X = pa)", "stuck"),
    ("one(X) & !(same(X, pa) = true)", "stuck"),
    ("one(X) & some Q. w(Q) = X", "stuck"),
    ("one(X) & some Q. X in w(Q)", "stuck"),
    ("one(X) & !(all Q. !(w(Q) = X))", "stuck"),
    ("built(X) & X = pair(Y, Y)", "branching; built: Y = pb: done; none: !(Y = pb): built(pair(Y, Y))"),
]


def definition():
    lines = ["[]", "module D", '  hooked-sort Bool{} [hook{}("BOOL.Bool"), hasDomainValues{}()]', "  sort P{} []", "  sort S{} []"]
    lines += [f"  symbol {it}{{}}() : P{{}} [constructor{{}}()]" for it in ("pa", "pb")]
    lines += ["  symbol w{}(P{}) : P{} [constructor{}()]", "  symbol pair{}(P{}, P{}) : P{} [constructor{}()]"]
    for name, hook in (("same", "KEQUAL.eq"), ("other", "KEQUAL.ne")):
        lines.append(f'  hooked-symbol {name}{{}}(P{{}}, P{{}}) : Bool{{}} [hook{{}}("{hook}"), function{{}}()]')
    lines += [f"  symbol S{it}{{}}(P{{}}) : S{{}} [constructor{{}}()]" for it in RULES]
    lines += ["  symbol Stwo{}(P{}, P{}) : S{} [constructor{}()]", "  symbol done{}() : S{} [constructor{}()]"]
    for it, asked in RULES.items():
        lines.append(f'  axiom{{}} \\rewrites{{S{{}}}}(\\and{{S{{}}}}(S{it}{{}}(N:P{{}}), {asked}), done{{}}()) [label{{}}("{it}")]')
    lines.append('  axiom{} \\rewrites{S{}}(\\and{S{}}(Stwo{}(N:P{}, M:P{}), \\equals{P{}, S{}}(M:P{}, N:P{})), done{}()) [label{}("two")]')
    return "\n".join([*lines, "endmodule []", ""])


# ---- states as short texts


def variable(name):
    return {"name": name, "sort": sort_json("P"), "tag": "EVar"}


def term(text):
    """The term of a text like `pair(X, w(pa))`; a state's heads have an S before them."""
    text = text.strip()
    if "(" not in text:
        return variable(text) if text.isupper() else applied(text, [])
    name, rest = text.split("(", 1)
    parts, depth = [""], 0
    for it in rest[:-1]:
        depth += (it == "(") - (it == ")")
        if it == "," and depth == 0:
            parts.append("")
        else:
            parts[-1] += it
    return applied(name, [term(it) for it in parts])


def applied(name, parts):
    return {"args": parts, "name": name, "sorts": [], "tag": "App"}


def predicate(text):
    text = text.strip()
    if text.startswith("!("):
        return {"arg": predicate(text[2:-1]), "sort": sort_json("S"), "tag": "Not"}
    for word, tag in (("some ", "Exists"), ("all ", "Forall")):
        if text.startswith(word):
            name, rest = text[len(word) :].split(". ", 1)
            return {"arg": predicate(rest), "sort": sort_json("S"), "tag": tag, "var": name, "varSort": sort_json("P")}
    tag, between = ("In", " in ") if " in " in text else ("Equals", " = ")
    left, right = text.split(between)
    sort = "Bool" if right == "true" else "P"
    other = {"sort": sort_json("Bool"), "tag": "DV", "value": "true"} if right == "true" else term(right)
    return {"argSort": sort_json(sort), "first": term(left), "second": other, "sort": sort_json("S"), "tag": tag}


def state(text):
    parts = text.split(" & ")
    patterns = [term("S" + parts[0]), *map(predicate, parts[1:])]
    return patterns[0] if len(patterns) == 1 else {"patterns": patterns, "sort": sort_json("S"), "tag": "And"}


def shown(p):
    tag = p["tag"]
    if tag in ("EVar", "DV"):
        return p.get("name", p.get("value"))
    if tag == "App":
        name = p["name"].removeprefix("S")
        return name + (f"({', '.join(map(shown, p['args']))})" if p["args"] else "")
    if tag == "Not":
        return f"!({shown(p['arg'])})"
    if tag in BINARY:
        return (" = " if tag == "Equals" else " in ").join(shown(p[it]) for it in BINARY[tag])
    return tag


def told(result):
    found = [result["reason"]]
    for it in result.get("next-states", []):
        found.append(f"{it.get('rule-id', 'none')}: {shown(it['rule-predicate']['term'])}: {shown(it['term']['term'])}")
    if "unknown-predicate" in result:
        found.append(shown(result["unknown-predicate"]["term"]))
    return "; ".join(found)


def main(program):
    asked = [{"id": 1, "jsonrpc": "2.0", "method": "execute", "params": {"max-depth": 1, "state": wrapped(state(it))}} for it, _ in ROWS]
    with tempfile.TemporaryDirectory() as room:
        path = f"{room}/definition.kore"
        with open(path, "w") as file:
            file.write(definition())
        given = "".join(json.dumps(it) + "\n" for it in asked)
        ran = subprocess.run([program, "stdio", path, "--module", "D"], input=given.encode(), capture_output=True, timeout=60)
    lines = ran.stdout.decode().split("\n")[:-1]
    found = [told(json.loads(it).get("result", {"reason": it})) for it in lines]
    faults = [(row[0], it, row[1]) for row, it in zip(ROWS, found) if it != row[1]]
    for text, it, wanted in faults:
        print(f"{text}\n  told:   {it}\n  wanted: {wanted}")
    print(f"{len(found)} replies, {len(faults)} differ", ran.stderr.decode())
    return int(bool(faults) or len(found) != len(ROWS))


if __name__ == "__main__":
    sys.exit(main(sys.argv[1]))
