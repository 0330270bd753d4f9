#!/usr/bin/env python3
"""exchanges.py PROGRAM: gives each exchange of docs/PROTOCOL.md to `PROGRAM stdio` and compares the replies byte by byte.
exchanges.py whole: prints the exchanges with their whole bytes.

Each block of the document with lines that begin with `> ` is one connection over examples/toys/toys.kore: `> ` is a line that
is sent, `< ` the line that comes back. In both, T(..) stands for a pattern as Kore JSON and K(..) for the same in its wrapper.
"""
import json
import os
import re
import subprocess
import sys

HERE = os.path.dirname(os.path.abspath(__file__))
DOCUMENT = os.path.join(HERE, "..", "..", "docs", "PROTOCOL.md")
DEFINITION = os.path.join(HERE, "..", "toys", "toys.kore")
TOKENS = re.compile(r"\s*(/\\|\\\w+|[<>]=?|==|=|[A-Z]\w*|[a-z]\w*|-?\d+|[-+*^(),.])")
CALLS = {"+": "add", "-": "sub", "*": "mul", ">": "gt", ">=": "ge", "<": "lt", "<=": "le", "==": "eq"}
SORTS = {"P": "SortP", "pa": "SortP", "pb": "SortP", "pc": "SortP"}


def sort(name):
    return {"tag": "SortApp", "name": name, "args": []}


def application(name, *args):
    return {"tag": "App", "name": "Lbl" + name, "sorts": [], "args": list(args)}


def equality(at, first, second):
    return {"tag": "Equals", "argSort": sort(at), "sort": sort("SortS"), "first": first, "second": second}


class Reader:
    """Reads the short notation: `count(X - 1) /\\ X > 0`; `f^3(x)` is `f(f(f(x)))`."""

    def __init__(self, text):
        self.tokens, at = [], 0
        while text[at:].strip():
            token = TOKENS.match(text, at)
            assert token, text[at:]
            self.tokens.append(token[1])
            at = token.end()

    def next(self, *wanted):
        if self.tokens and (not wanted or self.tokens[0] in wanted):
            return self.tokens.pop(0)
        return None

    def pattern(self):
        parts = [self.predicate()]
        while self.next("/\\"):
            parts.append(self.predicate())
        return parts[0] if len(parts) == 1 else {"tag": "And", "sort": sort("SortS"), "patterns": parts}

    def times(self):
        return int(self.next()) if self.next("^") else 1

    def predicate(self):
        if self.next("\\not"):
            times, it = self.times(), self.predicate()
            for _ in range(times):
                it = {"tag": "Not", "sort": sort("SortS"), "arg": it}
            return it
        if self.next("\\exists"):
            name = self.next()
            assert self.next(".")
            bound = {"var": name, "varSort": sort(SORTS.get(name, "SortInt")), "arg": self.pattern()}
            return {"tag": "Exists", "sort": sort("SortS"), **bound}
        if self.tokens[0] in ("\\top", "\\bottom"):
            return {"tag": self.next()[1:].capitalize(), "sort": sort("SortS")}
        name = self.tokens[0]
        first = self.sum()
        sign = self.next(">", ">=", "<", "<=", "==", "=")
        if sign == "=":
            return equality(SORTS.get(name, "SortInt"), first, self.sum())
        if sign:
            call = application(CALLS[sign], first, self.sum())
            return equality("SortBool", call, {"tag": "DV", "sort": sort("SortBool"), "value": "true"})
        return first

    def sum(self):
        it = self.product()
        while sign := self.next("+", "-"):
            it = application(CALLS[sign], it, self.product())
        return it

    def product(self):
        it = self.atom()
        while self.next("*"):
            it = application("mul", it, self.atom())
        return it

    def atom(self):
        token = self.next()
        if token == "(":
            it = self.sum()
            assert self.next(")")
            return it
        if token.lstrip("-").isdigit():
            return {"tag": "DV", "sort": sort("SortInt"), "value": token}
        if token[0].isupper():
            return {"tag": "EVar", "name": token, "sort": sort(SORTS.get(token, "SortInt"))}
        times, args = self.times(), []
        if self.next("("):
            while not self.next(")"):
                args.append(self.sum())
                self.next(",")
        it = application(token, *args)
        for _ in range(times - 1):
            it = application(token, it)
        return it


def compact(tree):
    return json.dumps(tree, sort_keys=True, separators=(",", ":"), ensure_ascii=False)


def whole(line):
    """The line with each T(..) and K(..) as Kore JSON."""
    made, at = "", 0
    for start in re.finditer(r"[:\[,](T|K)\(", line):
        if start.start() < at:
            continue
        end, depth = start.end(), 1
        while depth:
            depth += {"(": 1, ")": -1}.get(line[end], 0)
            end += 1
        tree = Reader(line[start.end() : end - 1]).pattern()
        made += line[at : start.start() + 1]
        made += compact(tree if start[1] == "T" else {"format": "KORE", "term": tree, "version": 1})
        at = end
    return made + line[at:]


def connections():
    """The blocks of the document that are exchanges, each with its lines."""
    for block in open(DOCUMENT).read().split("```")[1::2]:
        lines = block.strip("\n").split("\n")
        if lines[0].startswith("> "):
            yield [(line[0], whole(line[2:])) for line in lines]


def main():
    if sys.argv[1:] == ["whole"]:
        print("\n\n".join("\n".join(" ".join(line) for line in lines) for lines in connections()))
        return 0
    count, wrong = 0, 0
    for lines in connections():
        sent = "".join(text + "\n" for way, text in lines if way == ">")
        due = [text for way, text in lines if way == "<"]
        ran = subprocess.run([sys.argv[1], "stdio", DEFINITION, "--module", "TOYS"], input=sent.encode(), capture_output=True)
        got = ran.stdout.decode().split("\n")
        count += len(due)
        for k in range(max(len(due), len(got) - 1)):
            pair = due[k] if k < len(due) else "nothing", got[k] if k < len(got) - 1 else "nothing"
            if pair[0] != pair[1]:
                wrong += 1
                print(f"due: {pair[0]}\ngot: {pair[1]}\n")
        if ran.returncode != 0 or ran.stderr:
            wrong += 1
            print(f"status {ran.returncode}, {ran.stderr.decode()}")
    print(f"{count} replies, {wrong} differ")
    return 1 if wrong else 0


if __name__ == "__main__":
    sys.exit(main())
