#!/usr/bin/env python3
"""check.py PROGRAM FIRST LAST: over random definitions, one for each number from FIRST to below LAST, what `kprove stdio` answers to
requests of `execute` and `implies` and what `kprove prove` reports of ground claims, against what `model.py` says. It prints each difference."""

import collections
import json
import random
import subprocess
import sys
import tempfile

from definitions import Maker, claim_sides, claims_text
from model import Wide, execute, prove, sort_json, term_json, term_of, value_json, value_of, wrapped


def line(reply):
    return (json.dumps(reply, sort_keys=True, separators=(",", ":"), ensure_ascii=False) + "\n").encode()


def wanted_reply(definition, request_id, term, sort, bound):
    """The reply, and the word under which it is counted."""
    ended = execute(definition, value_of(term, {}), sort, bound)
    if len(ended) == 1:
        return None, ended[0]
    reason, depth, value, last = ended[:4]
    result = {"depth": depth, "reason": reason, "state": {"term": wrapped(value_json(definition, value, last))}}
    if reason == "aborted":
        result["foreign-rule"] = ended[4]
    return line({"id": request_id, "jsonrpc": "2.0", "result": result}), reason


def wanted_implication(definition, antecedent, consequent):
    """The reply to `implies` of two ground terms, each with its sort, and the word under which it is counted."""
    (left, sort), (right, other) = antecedent, consequent
    is_valid = value_of(left, {}) == value_of(right, {})
    if sort != other:
        error = {"code": 4, "data": {"kind": "I2"}, "message": "Implication check error"}
        return line({"error": error, "id": 1, "jsonrpc": "2.0"}), "I2"
    top = wrapped({"sort": sort_json(sort), "tag": "Top"})
    result = {"condition": {"predicate": top, "substitution": top}, "valid": True} if is_valid else {"valid": False}
    return line({"id": 1, "jsonrpc": "2.0", "result": result}), "valid" if is_valid else "not valid"


class Check:
    def __init__(self, program, room):
        self.program, self.room = program, room
        self.counts, self.differences = collections.Counter(), 0

    def run(self, words, given, wanted, name):
        """Runs the program; `wanted` is its status and its output, and nothing stands on standard error."""
        ran = subprocess.run([self.program, *words], input=given, capture_output=True, timeout=120)
        if (ran.returncode, ran.stdout, ran.stderr) != (*wanted, b""):
            self.differences += 1
            print(f"{name}: wanted {wanted}, got {ran.returncode} {ran.stdout[:400]} {ran.stderr[:400]}", flush=True)

    def requests(self, maker, path, name):
        for place in range(6):
            term, sort = maker.state()
            bound, request_id = maker.pick([0, 1, 2, 3, 7, 50]), maker.pick([1, "x", None, 7])
            params = {"state": wrapped(term_json(term)), "max-depth": bound}
            request = {"jsonrpc": "2.0", "id": request_id, "method": "execute", "params": params}
            try:
                reply, word = wanted_reply(maker.definition, request_id, term, sort, bound)
            except Wide:
                continue
            self.counts[word] += 1
            # (runs that leave ground values are judged by examples/execute)
            if reply:
                self.run(["stdio", path, "--module", "MAIN"], json.dumps(request).encode(), (0, reply), f"{name}, request {place}")

    def implications(self, maker, path, name):
        for place in range(3):
            antecedent = maker.state()
            try:
                respelled = term_of(maker.definition, value_of(antecedent[0], {}), antecedent[1]), antecedent[1]
                consequent = respelled if maker.chance(0.4) else maker.state()
                reply, word = wanted_implication(maker.definition, antecedent, consequent)
            except Wide:
                continue
            sides = {"antecedent": wrapped(term_json(antecedent[0])), "consequent": wrapped(term_json(consequent[0]))}
            request = {"jsonrpc": "2.0", "id": 1, "method": "implies", "params": sides}
            self.counts[word] += 1
            self.run(["stdio", path, "--module", "MAIN"], json.dumps(request).encode(), (0, reply), f"{name}, implication {place}")

    def claims(self, maker, path, name):
        most_steps = maker.pick([None, 1, 2, 5, 100])
        claims, lines = {}, []
        for place in range(4):
            label, sides = f"C{place}", claim_sides(maker)
            try:
                ended = sides and prove(maker.definition, value_of(sides[0], {}), value_of(sides[1], {}), sides[2], most_steps or 1)
            except Wide:
                continue
            if ended:
                claims[label] = sides
                self.counts[ended[0]] += 1
                lines.append(" ".join(it for it in (ended[0], label, ended[1]) if it))
        with open(f"{self.room}/claims.kore", "w") as file:
            file.write(claims_text(claims))
        first_words = {it.split()[0] for it in lines}
        status = 0 if first_words <= {"passed"} else 1 if "failed" in first_words else 2
        words = ["prove", path, "--module", "MAIN", "--claims", f"{self.room}/claims.kore"]
        words += ["--max-depth", str(most_steps)] if most_steps else []
        self.run(words, b"", (status, "".join(it + "\n" for it in lines).encode()), f"{name}, claims")


def main():
    program, first, last = sys.argv[1], int(sys.argv[2]), int(sys.argv[3])
    with tempfile.TemporaryDirectory() as room:
        check = Check(program, room)
        for number in range(first, last):
            maker = Maker(random.Random(number))
            maker.make()
            with open(f"{room}/definition.kore", "w") as file:
                file.write(maker.text())
            check.requests(maker, f"{room}/definition.kore", f"definition {number}")
            check.implications(maker, f"{room}/definition.kore", f"definition {number}")
            check.claims(maker, f"{room}/definition.kore", f"definition {number}")
    print("differences:", check.differences, dict(check.counts))
    return 1 if check.differences else 0


sys.exit(main())
