#!/usr/bin/env python3
"""Runs the ground engine beside Maude in the same run, on the same rules, and prints both times.

    beside_maude.py PROGRAM [MAUDE]

PROGRAM is the built kprove. A line tells the row, the seconds of kprove's whole process (reading the definition and writing
the state included), of Maude's whole process, and what Maude itself says its rewriting took. Each is the least of five runs.
"""
import json
import os
import re
import subprocess
import sys
import tempfile
import time

sys.path.insert(0, os.path.dirname(os.path.abspath(__file__)))
import make


def module(body):
    return f"mod M is\n  protecting INT .\n{body}endm\n"


COUNTER = """  sort S .
  op count : Int -> S .
  op done : -> S .
  var N : Int .
  crl count(N) => count(N - 1) if N > 0 .
  crl count(N) => done if N == 0 .
"""


def variables(n):
    sizes = make.groups(n)
    rows = [[f"X{place}x{i}" for i in range(size)] for place, size in enumerate(sizes)]
    names = " ".join(name for row in rows for name in row)
    body = "  sorts Row Top .\n" + "".join(f"  op row{place} : {'Int ' * size}-> Row .\n" for place, size in enumerate(sizes))
    body += f"  op top : Int {'Row ' * len(sizes)}-> Top .\n  vars N {names} : Int .\n"
    written = ", ".join(f"row{place}({', '.join(row)})" for place, row in enumerate(rows))
    body += f"  rl top(N, {written}) => top(N - 1, {written}) .\n"
    state = "top(7, " + ", ".join(f"row{place}({', '.join(['7'] * size)})" for place, size in enumerate(sizes)) + ")"
    return module(body) + f"rew [1000] {state} .\n"


def doubling(n):
    body = """  sorts S T .
  op d : -> T .
  op p : T T -> T .
  op grow : Int T -> S .
  op done : -> S .
  var N : Int .
  var X : T .
  crl grow(N, X) => grow(N - 1, p(X, X)) if N > 0 .
  rl grow(0, X) => done .
"""
    return module(body) + f"rew grow({n}, d) .\n"


def push(n):
    def tree(size):
        if size < 3:
            return "d"
        half = (size - 1) // 2
        return f"p({tree(half)}, {tree(size - 1 - half)})"

    body = """  sorts S T .
  op d : -> T .
  op p : T T -> T .
  op s : T -> T .
  ops a b : T -> S .
  var X : T .
  rl a(X) => b(s(X)) .
  rl b(s(X)) => a(X) .
"""
    return module(body) + f"rew [10000] a({tree(n)}) .\n"


def other_heads(n):
    body = COUNTER + "".join(f"  op s{i} : Int -> S .\n  rl s{i}(N) => s{i}(N - 1) .\n" for i in range(n))
    return module(body) + "rew [10000] count(10001) .\n"


def ring(n):
    body = "  sort S .\n  op ring : Int -> S .\n" + "".join(f"  rl ring({i}) => ring({(i + 1) % n}) .\n" for i in range(n))
    return module(body) + "rew [10000] ring(0) .\n"


def counting(n):
    return module(COUNTER) + f"rew [10000] count({n}) .\n"


ROWS = (
    [(f"1,000 steps, {n} variables", make.variables(n), make.variables_request(n), variables(n)) for n in (10, 60, 120, 240)]
    + [(f"{n} doublings", make.doubling(n), make.doubling_request(n), doubling(n)) for n in (20, 24, 26, 40)]
    + [(f"10,000 pushes and pops, {n} nodes", make.push(n), make.push_request(n), push(n)) for n in (1000, 5000, 20000)]
    + [(f"10,000 steps beside {n} other heads", make.rules(n), make.counting_request(10000), other_heads(n)) for n in (10, 100, 1000, 10000)]
    + [("10,000 steps at 1,000 rules of one head", make.ring(1000), make.ring_request(10000), ring(1000))]
    + [("10,000 steps of count(20000)", make.rules(0), make.execute("Lblcount", 20000, 10000), counting(20000))]
)


def least(command, given=None):
    """The least time of five runs, and what the last one wrote."""
    best, wrote = 1e9, ""
    for _ in range(5):
        begin = time.monotonic()
        wrote = subprocess.run(command, input=given, capture_output=True, text=True, timeout=600).stdout
        best = min(best, time.monotonic() - begin)
    return best, wrote


def main():
    program, maude = sys.argv[1], (sys.argv[2:] or ["maude"])[0]
    with tempfile.TemporaryDirectory() as folder:
        definition, file = os.path.join(folder, "definition.kore"), os.path.join(folder, "rules.maude")
        for name, text, question, rules in ROWS:
            open(definition, "w").write(text)
            open(file, "w").write(rules)
            ours, reply = least([program, "stdio", definition, "--module", "TOYS"], question)
            theirs, said = least([maude, "-no-banner", "-batch", file])
            depth = json.loads(reply)["result"]["depth"]
            own = re.search(r"in (\d+)ms cpu", said)
            print(f"{name}: kprove {ours:.3f} s (depth {depth}), Maude {theirs:.3f} s, of it rewriting {own[1] if own else '?'} ms")


main()
