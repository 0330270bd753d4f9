#!/usr/bin/env python3
"""check.py PROGRAM: what `PROGRAM stdio` answers to `counter.requests` and `imp.requests`, compared with the replies beside them.
check.py make: writes the requests. check.py show PROGRAM: prints the answers in the notation of K."""

import json
import os
import subprocess
import sys

from states import counter, imp, request, sort, told, wrapped

ROOM = os.path.dirname(os.path.abspath(__file__))
LOOP = "while (! n <= 0) { sum = sum + n ; n = n - 1 ; }"
ROUND = "while (0 <= n) { n = n + 1 ; }"
MOST = str((1 << 127) - 1)


def counter_requests():
    return [
        request("three steps and an end", counter("count(3)")),
        request("a number", counter("count(X)")),
        request("a number that suffices", counter("count(X)", where=["X > 4"]), max_depth=4),
        request("behind a rule", counter("count(X)", where=["X > 4"]), terminal_rules=["COUNTER.step"]),
        request("before a rule without a label", counter("count(X)", where=["! X > 0"]), cut_point_rules=["COUNTER#10"]),
        request("any program", counter("P:Pgm")),
        request("a rest", counter("count(0)", rest="R:K")),
        request("any cell", counter("count(X)", rest="R:K", where=["X > 0"], count="C"), max_depth=1),
        request("no number", counter("count(X)", where=["X > 0", "1 > X"])),
        request("simplified", counter("count(X - 3 - - 1)", where=["X > 0", "X > 0"]), "simplify"),
        request("no rules", counter("count(X)"), module="KSEQ"),
        request("error: no symbol", counter("count(X + 1)")),
    ]


def imp_requests():
    return [
        request("a sum", imp(f"int n , sum ; n = 3 ; {LOOP} ~> .")),
        request("a sum, ten steps of it", imp(f"int n , sum ; n = 3 ; {LOOP} ~> ."), max_depth=10),
        request("if n <= 0", imp("if (n <= 0) { sum = 1 ; } else { sum = 2 ; } ~> .", n="X")),
        request("if n <= 0, known", imp("if (n <= 0) { sum = 1 ; } else { sum = 2 ; } ~> .", n="X", where=["X > 0"])),
        request("three rounds and a branch", imp(f"{LOOP} ~> .", n="X", where=["X >= 3"])),
        request("rounds to a bound", imp(f"{LOOP} ~> .", n="X", where=["X >= 5"]), max_depth=60),
        request("no bound", imp("while (true) { } ~> ."), max_depth=10000),
        request("before a round", imp(f"n = 2 ; {LOOP} ~> .", n="X"), cut_point_rules=["IMP.while", "IMP.if-true"]),
        request("before heating", imp("n = sum + 1 ; ~> .", n="X", sum="Y"), cut_point_rules=["IMP#158"]),
        request("behind an assignment", imp(f"{LOOP} ~> .", n="X", sum="Y", where=["X > 0"]), terminal_rules=["IMP.assign-sum"]),
        request("no number", imp(f"{LOOP} ~> .", n="X", where=["X > 0", "X <= 0"])),
        request("a new number", imp("n = read() ; if (n <= - 1) { sum = 1 ; } else { sum = 2 ; } ~> .", n="X")),
        request("two new numbers", imp("n = read() + read() ; ~> ."), max_depth=7),
        request("a product", imp("if (n * sum <= 0) { } else { } ~> .", n="X", sum="Y")),
        request("a product above 0", imp("n = 1 ; ~> .", n="X", sum="Y", where=["X * Y > 0"])),
        request("a quotient", imp("n = n / 2 ; ~> .", n="X")),
        request("both", imp("if (true && false) { } else { } ~> .")),
        request("an identifier", imp("Q:Id ~> .", n="X", sum="Y")),
        request("an identifier, assigned", imp("Q:Id = 1 ; ~> .", n="X", sum="Y")),
        request("an unbound one", imp("n = x ; ~> .")),
        request("a truth value", imp("if (T:Bool) { n = 1 ; } else { n = 2 ; } ~> .")),
        request("blocks", imp("if (0 <= n) C:Block else D:Block ~> .", n="X", where=["X == 7"])),
        request("any expression", imp("n = E:AExp ; ~> .")),
        request("any rest", imp("n = 1 ; ~> R:K")),
        request("any rest, to its beginning", imp("n = 1 ; ~> R:K"), max_depth=1),
        request("128 bits", imp(f"n = {MOST} + 1 ; ~> .")),
        request("deep", imp("if (0 <= n) " + "{ " * 21 + "} " * 21 + "else { } ~> .")),
        request("a long rest", imp("n = n + 1 ; ~> " * 38 + ".", n="X")),
        request("a loop upward", imp(f"{ROUND} ~> .", n="X", where=["X >= 0"]), max_depth=200),
        request("no step", imp(f"{LOOP} ~> .", n="X"), max_depth=0),
        request("simplified", imp("S:Stmt ~> .", n="X + 3 - 1", sum="2 * 3", where=["X > 0", "! Y <= X", "Y == 2"]), "simplify"),
        request("simplified, no number", imp("S:Stmt ~> .", n="X", where=["X > 0", "X <= 0"]), "simplify"),
        request("simplified, a product", imp("S:Stmt ~> .", n="X", where=["X > 0", "X * Y > 0"]), "simplify"),
        compared("the same", imp("n = 1 ; ~> .", n="2 + 1"), imp("n = 1 ; ~> .", n="3")),
        compared("another", imp("n = 1 ; ~> .", n="2"), imp("n = 1 ; ~> .", n="3")),
        compared("an invariant, a round on", imp(f"{LOOP} ~> .", n="X - 1", sum="Y + X", where=["X > 0"]), some(imp(f"{LOOP} ~> .", n="A", sum="B", where=["A >= 0"]), A="Int", B="Int")),
        compared("an invariant that is lost", imp(f"{LOOP} ~> .", n="X - 1", sum="Y + X", where=["X >= 0"]), some(imp(f"{LOOP} ~> .", n="A", sum="B", where=["A >= 0"]), A="Int", B="Int")),
        compared("a narrowed cell", imp("S:Stmt ~> R:K", n="X"), some(imp("Q:Id = E:AExp ; ~> T:K", n="A"), Q="Id", E="AExp", T="K", A="Int")),
        compared("a cell that is narrow", imp("Q:Id = E:AExp ; ~> R:K", n="X", where=["X > 1"]), some(imp("S:Stmt ~> T:K", n="A", where=["A > 0"]), S="Stmt", T="K", A="Int")),
        compared("an implied product", imp("n = 1 ; ~> .", n="X", sum="Y"), imp("n = 1 ; ~> .", n="X", sum="Y", where=["X * Y > 0"])),
        request("error: a foreign symbol", imp("n = 1 ; ~> .", n="X / 2")),
        request("error: no such module", imp("n = 1 ; ~> ."), module="IMP-SYNTAX"),
        request("error: too deep", imp("n = 1 ; ~> " * 43 + ".")),
    ]


def compared(name, antecedent, consequent):
    params = {"antecedent": wrapped(antecedent), "consequent": wrapped(consequent)}
    return {"id": name, "jsonrpc": "2.0", "method": "implies", "params": params}


def some(state, **bound):
    """For some values of these variables."""
    for name, of in reversed(bound.items()):
        state = {"arg": state, "sort": sort("GeneratedTopCell"), "tag": "Exists", "var": "Var" + name, "varSort": sort(of)}
    return state


FILES = [("counter", "COUNTER", counter_requests), ("imp", "IMP", imp_requests)]


def answered(program, name, module):
    words = [program, "stdio", f"{ROOM}/{name}.kore", "--module", module]
    with open(f"{ROOM}/{name}.requests", "rb") as given:
        return subprocess.run(words, stdin=given, capture_output=True, timeout=60)


def differences(program, name, module):
    ran = answered(program, name, module)
    wanted, got = open(f"{ROOM}/{name}.replies", "rb").read().split(b"\n"), ran.stdout.split(b"\n")
    if ran.returncode or ran.stderr or len(got) != len(wanted):
        print(f"{name}: status {ran.returncode}, {len(got) - 1} replies of {len(wanted) - 1}, {ran.stderr.decode()}")
    found = [(it, that) for it, that in zip(wanted, got) if it != that]
    for it, that in found:
        print(f"{name}: wanted {it.decode()}\n{name}: got    {that.decode()}")
    print(f"{name}: {len(wanted) - 1} replies, {len(found)} differences")
    return len(found) + (ran.returncode != 0) + (len(got) != len(wanted))


def main():
    if sys.argv[1] == "make":
        for name, _, rows in FILES:
            lines = [json.dumps(it, separators=(",", ":")) + "\n" for it in rows()]
            open(f"{ROOM}/{name}.requests", "w").writelines(lines)
        return 0
    if sys.argv[1] == "show":
        for name, module, _ in FILES:
            for line in answered(sys.argv[2], name, module).stdout.decode().splitlines():
                print(json.dumps(told(json.loads(line)), indent=1, ensure_ascii=False))
        return 0
    return 1 if sum([differences(sys.argv[1], name, module) for name, module, _ in FILES]) else 0


if __name__ == "__main__":
    sys.exit(main())
