#!/usr/bin/env python3
"""Writes inputs for measuring kprove by hand: large definitions, long chains, deep nests.

    make.py KIND NUMBER [FILE]

KIND is one of: rules, sorts, modules, chain, arguments, deep-sort, deep-pattern, deep-and, deep-fold, wide-fold,
deep-attribute, labels, subsorts, injections, sort-chain, beside, beside-request, counting-request, ring, ring-request,
any-head, variables, variables-request, doubling, doubling-request, push, push-request, beside-claim, heads, open-requests,
closed-requests, variable-request. NUMBER is how many. The text goes to FILE, or to standard output.
"""
import json
import sys

HEAD = """  hooked-sort SortBool{} [hook{}("BOOL.Bool"), hasDomainValues{}()]
  hooked-sort SortInt{} [hook{}("INT.Int"), hasDomainValues{}()]
  symbol inj{From, To}(From) : To [sortInjection{}()]
  hooked-symbol Lblsub{}(SortInt{}, SortInt{}) : SortInt{} [hook{}("INT.sub"), function{}()]
  hooked-symbol Lblgt{}(SortInt{}, SortInt{}) : SortBool{} [hook{}("INT.gt"), function{}()]
  hooked-symbol Lbleq{}(SortInt{}, SortInt{}) : SortBool{} [hook{}("INT.eq"), function{}()]
  sort SortS{} []
  symbol Lblcount{}(SortInt{}) : SortS{} [constructor{}()]
  symbol Lbldone{}() : SortS{} [constructor{}()]
  axiom{} \\rewrites{SortS{}}(\\and{SortS{}}(Lblcount{}(N:SortInt{}), \\equals{SortBool{}, SortS{}}(Lblgt{}(N:SortInt{}, \\dv{SortInt{}}("0")), \\dv{SortBool{}}("true"))), Lblcount{}(Lblsub{}(N:SortInt{}, \\dv{SortInt{}}("1")))) [label{}("dec")]
  axiom{} \\rewrites{SortS{}}(\\and{SortS{}}(Lblcount{}(N:SortInt{}), \\equals{SortBool{}, SortS{}}(Lbleq{}(N:SortInt{}, \\dv{SortInt{}}("0")), \\dv{SortBool{}}("true"))), Lbldone{}()) [label{}("stop")]
"""


def module(body, name="TOYS", imports=""):
    return f"module {name}\n{imports}{body}endmodule []\n"


def rules(n):
    lines = []
    for i in range(n):
        lines.append(f"  symbol Lbls{i}{{}}(SortInt{{}}) : SortS{{}} [constructor{{}}()]\n")
        lines.append(f"  axiom{{}} \\rewrites{{SortS{{}}}}(Lbls{i}{{}}(N:SortInt{{}}), Lbls{i}{{}}(Lblsub{{}}(N:SortInt{{}}, \\dv{{SortInt{{}}}}(\"1\")))) [label{{}}(\"r{i}\")]\n")
    return "[]\n" + module(HEAD + "".join(lines))


def labels(n):
    lines = [f"  axiom{{}} \\rewrites{{SortS{{}}}}(Lbldone{{}}(), Lbldone{{}}()) [label{{}}(\"same\"), priority{{}}(\"60\")]\n" for _ in range(n)]
    return "[]\n" + module(HEAD + "".join(lines))


def sorts(n):
    lines = [f"  sort SortX{i}{{}} []\n  symbol Lblx{i}{{}}() : SortX{i}{{}} [constructor{{}}()]\n" for i in range(n)]
    return "[]\n" + module(HEAD + "".join(lines))


def subsorts(n):
    lines = ["  sort SortK{} []\n"]
    for i in range(n):
        lines.append(f"  sort SortX{i}{{}} []\n")
        lines.append(f"  axiom{{R}} \\top{{R}}() [subsort{{SortX{i}{{}}, SortK{{}}}}()]\n")
    for i in range(1, n):
        lines.append(f"  axiom{{R}} \\top{{R}}() [subsort{{SortX{i - 1}{{}}, SortX{i}{{}}}}()]\n")
    lines.append("  symbol Lblk{}(SortK{}) : SortS{} [constructor{}()]\n")
    lines.append("  axiom{} \\rewrites{SortS{}}(Lblk{}(inj{SortX0{}, SortK{}}(X:SortX0{})), Lbldone{}()) [label{}(\"k\")]\n")
    return "[]\n" + module(HEAD + "".join(lines))


def injections(n):
    lines = [f"  sort SortX{i}{{}} []\n  symbol Lblx{i}{{}}() : SortX{i}{{}} [constructor{{}}()]\n" for i in range(n + 1)]
    lines += [f"  axiom{{R}} \\top{{R}}() [subsort{{SortX{i}{{}}, SortX{i + 1}{{}}}}()]\n" for i in range(n)]
    lines.append(f"  symbol Lblk{{}}(SortX{n}{{}}) : SortS{{}} [constructor{{}}()]\n")
    lines += [f"  axiom{{}} \\rewrites{{SortS{{}}}}(Lblk{{}}(inj{{SortX{i}{{}}, SortX{n}{{}}}}(Lblx{i}{{}}())), Lbldone{{}}()) [label{{}}(\"k{i}\")]\n" for i in range(n)]
    return "[]\n" + module(HEAD + "".join(lines))


def sort_chain(n):
    lines = [f"  sort SortX{i}{{}} []\n" for i in range(n + 1)]
    lines += [f"  axiom{{R}} \\top{{R}}() [subsort{{SortX{i}{{}}, SortX{i + 1}{{}}}}()]\n" for i in range(n)]
    lines.append("  symbol Lblx{}() : SortX0{} [constructor{}()]\n")
    lines.append(f"  symbol Lblk{{}}(SortX{n}{{}}) : SortS{{}} [constructor{{}}()]\n")
    lines.append(f"  axiom{{}} \\rewrites{{SortS{{}}}}(Lblk{{}}(inj{{SortX0{{}}, SortX{n}{{}}}}(Lblx{{}}())), Lbldone{{}}()) [label{{}}(\"k\")]\n")
    return "[]\n" + module(HEAD + "".join(lines))


def modules(n):
    parts = [f"module M{i}\nendmodule []\n" for i in range(n)]
    imports = "".join(f"  import M{i} []\n" for i in range(n))
    return "[]\n" + "".join(parts) + module(HEAD, imports=imports)


def chain(n):
    parts = ["module M0\nendmodule []\n"]
    parts += [f"module M{i}\n  import M{i - 1} []\nendmodule []\n" for i in range(1, n)]
    return "[]\n" + "".join(parts) + module(HEAD, imports=f"  import M{n - 1} []\n")


def arguments(n):
    return "[]\n" + module(HEAD + f"  symbol Lblwide{{}}({','.join(['SortInt{}'] * n)}) : SortS{{}} [constructor{{}}()]\n")


def axiom(pattern, attributes=""):
    return "[]\n" + module(HEAD + f"  axiom{{}} {pattern} [{attributes}]\n")


def deep_sort(n):
    return axiom("\\top{" + "S{" * n + "}" * n + "}()")


def deep_pattern(n):
    return axiom("\\not{SortS{}}(" * n + "\\top{SortS{}}()" + ")" * n)


def deep_and(n):
    return axiom("\\and{SortS{}}(" * n + "\\top{SortS{}}()" + ")" * n)


def deep_fold(n):
    return axiom("\\left-assoc{}(\\and{SortS{}}(" * n + "\\top{SortS{}}()" + "))" * n)


def wide_fold(n):
    return axiom("\\left-assoc{}(f{}(" + ",".join(["x:S"] * n) + "))")


def deep_attribute(n):
    return axiom("\\top{SortS{}}()", "a{}(" * n + ")" * n)


def ring(n):
    """n rules of one head, of which one fires on each state."""
    lines = ["  symbol Lblring{}(SortInt{}) : SortS{} [constructor{}()]\n"]
    for i in range(n):
        lines.append(f"  axiom{{}} \\rewrites{{SortS{{}}}}(Lblring{{}}(\\dv{{SortInt{{}}}}(\"{i}\")), Lblring{{}}(\\dv{{SortInt{{}}}}(\"{(i + 1) % n}\"))) [label{{}}(\"at{i}\")]\n")
    return "[]\n" + module(HEAD + "".join(lines))


def any_head(n):
    """n heads with a rule each, and n rules with a variable at the top, which come after those."""
    lines = [f"  axiom{{}} \\rewrites{{SortS{{}}}}(X:SortS{{}}, X:SortS{{}}) [label{{}}(\"any{i}\"), priority{{}}(\"200\")]\n" for i in range(n)]
    return rules(n).replace("endmodule []\n", "".join(lines) + "endmodule []\n")


def execute(name, number, steps):
    """The request of so many steps from a constructor of one number."""
    value = {"tag": "DV", "sort": {"tag": "SortApp", "name": "SortInt", "args": []}, "value": str(number)}
    term = {"tag": "App", "name": name, "sorts": [], "args": [value]}
    state = {"format": "KORE", "version": 1, "term": term}
    return json.dumps({"jsonrpc": "2.0", "id": 1, "method": "execute", "params": {"state": state, "max-depth": steps}})


def counting_request(n):
    """n steps of the counter: over `rules` they stand beside rules of other heads."""
    return execute("Lblcount", n + 1, n)


def ring_request(n):
    return execute("Lblring", 0, n)


def beside(n):
    """A counter that stands beside a tree, which no rule touches; beside-request is the request of a tree of n nodes."""
    body = HEAD + """  sort SortTree{} []
  sort SortTop{} []
  symbol Lblleaf{}() : SortTree{} [constructor{}()]
  symbol Lblnode{}(SortTree{}, SortTree{}) : SortTree{} [constructor{}()]
  symbol Lbltop{}(SortInt{}, SortTree{}) : SortTop{} [constructor{}()]
  axiom{} \\rewrites{SortTop{}}(\\and{SortTop{}}(Lbltop{}(N:SortInt{}, T:SortTree{}), \\equals{SortBool{}, SortTop{}}(Lblgt{}(N:SortInt{}, \\dv{SortInt{}}("0")), \\dv{SortBool{}}("true"))), Lbltop{}(Lblsub{}(N:SortInt{}, \\dv{SortInt{}}("1")), T:SortTree{})) [label{}("top")]
"""
    return "[]\n" + module(body)


def beside_request(n):
    def applied(name, arguments):
        return {"tag": "App", "name": name, "sorts": [], "args": arguments}

    def tree(size):
        if size < 3:
            return applied("Lblleaf", [])
        return applied("Lblnode", [tree((size - 1) // 2), tree(size - 1 - (size - 1) // 2)])

    number = {"tag": "DV", "sort": {"tag": "SortApp", "name": "SortInt", "args": []}, "value": "10000"}
    term = {"format": "KORE", "version": 1, "term": applied("Lbltop", [number, tree(n)])}
    return json.dumps({"jsonrpc": "2.0", "id": 1, "method": "execute", "params": {"state": term}})


def beside_claim(n):
    """One ground claim of 1,000 rounds, over `beside`: the counter from 1,000 to 1, beside a tree of n nodes."""
    def tree(size):
        if size < 3:
            return "Lblleaf{}()"
        half = (size - 1) // 2
        return f"Lblnode{{}}({tree(half)}, {tree(size - 1 - half)})"

    def top(number):
        return f'Lbltop{{}}(\\dv{{SortInt{{}}}}("{number}"), {tree(n)})'

    claim = f"\\implies{{SortTop{{}}}}({top(1000)}, weakAlwaysFinally{{SortTop{{}}}}({top(1)}))"
    return f'module TOYS-SPEC\n  import TOYS []\n  claim{{}} {claim} [label{{}}("beside")]\nendmodule []\n'


def groups(n):
    return [min(60, n - first) for first in range(0, n, 60)]


def variables(n):
    """A counter beside n numbers, which the one rule takes along; variables-request is the request."""
    sizes = groups(n)
    body = HEAD + "  sort SortTop{} []\n  sort SortRow{} []\n"
    for place, size in enumerate(sizes):
        body += f"  symbol Lblrow{place}{{}}({', '.join(['SortInt{}'] * size)}) : SortRow{{}} [constructor{{}}()]\n"
    body += f"  symbol Lbltop{{}}({', '.join(['SortInt{}'] + ['SortRow{}'] * len(sizes))}) : SortTop{{}} [constructor{{}}()]\n"
    rows = [f"Lblrow{place}{{}}({', '.join(f'X{place}x{i}:SortInt{{}}' for i in range(size))})" for place, size in enumerate(sizes)]
    left = f"Lbltop{{}}({', '.join(['N:SortInt{}'] + rows)})"
    less = 'Lblsub{}(N:SortInt{}, \\dv{SortInt{}}("1"))'
    right = f"Lbltop{{}}({', '.join([less] + rows)})"
    body += f"  axiom{{}} \\rewrites{{SortTop{{}}}}({left}, {right}) [label{{}}(\"top\")]\n"
    return "[]\n" + module(body)


def variables_request(n, steps=1000):
    def applied(name, arguments):
        return {"tag": "App", "name": name, "sorts": [], "args": arguments}

    number = {"tag": "DV", "sort": {"tag": "SortApp", "name": "SortInt", "args": []}, "value": "7"}
    rows = [applied(f"Lblrow{place}", [number] * size) for place, size in enumerate(groups(n))]
    term = {"format": "KORE", "version": 1, "term": applied("Lbltop", [number] + rows)}
    return json.dumps({"jsonrpc": "2.0", "id": 1, "method": "execute", "params": {"max-depth": steps, "state": term}})


def doubling(n):
    """A counter beside a tree that each step doubles by sharing it, and a rule that forgets the tree at 0."""
    body = HEAD + """  sort SortT{} []
  symbol Lbld{}() : SortT{} [constructor{}()]
  symbol Lblp{}(SortT{}, SortT{}) : SortT{} [constructor{}()]
  symbol Lblgrow{}(SortInt{}, SortT{}) : SortS{} [constructor{}()]
  axiom{} \\rewrites{SortS{}}(\\and{SortS{}}(Lblgrow{}(N:SortInt{}, X:SortT{}), \\equals{SortBool{}, SortS{}}(Lblgt{}(N:SortInt{}, \\dv{SortInt{}}("0")), \\dv{SortBool{}}("true"))), Lblgrow{}(Lblsub{}(N:SortInt{}, \\dv{SortInt{}}("1")), Lblp{}(X:SortT{}, X:SortT{}))) [label{}("grow")]
  axiom{} \\rewrites{SortS{}}(Lblgrow{}(\\dv{SortInt{}}("0"), X:SortT{}), Lbldone{}()) [label{}("forget")]
"""
    return "[]\n" + module(body)


def doubling_request(n):
    """N doublings and the step that forgets the tree."""
    state = application("Lblgrow", [literal("SortInt", n), application("Lbld", [])])
    return execution(state, n + 1)


def push(n):
    """A rest that one rule takes a level down and another a level up."""
    body = HEAD + """  sort SortT{} []
  symbol Lbld{}() : SortT{} [constructor{}()]
  symbol Lblp{}(SortT{}, SortT{}) : SortT{} [constructor{}()]
  symbol Lbls{}(SortT{}) : SortT{} [constructor{}()]
  symbol Lbla{}(SortT{}) : SortS{} [constructor{}()]
  symbol Lblb{}(SortT{}) : SortS{} [constructor{}()]
  axiom{} \\rewrites{SortS{}}(Lbla{}(X:SortT{}), Lblb{}(Lbls{}(X:SortT{}))) [label{}("push")]
  axiom{} \\rewrites{SortS{}}(Lblb{}(Lbls{}(X:SortT{})), Lbla{}(X:SortT{})) [label{}("pop")]
"""
    return "[]\n" + module(body)


def push_request(n):
    """10,000 steps over an untouched rest of n nodes."""
    def tree(size):
        if size < 3:
            return application("Lbld", [])
        half = (size - 1) // 2
        return application("Lblp", [tree(half), tree(size - 1 - half)])

    return execution(application("Lbla", [tree(n)]), 10000)


def heads(n):
    """n sorts with a constructor each, which another one takes, beside a rule that touches none of them."""
    lines = ["  symbol Lblnext{}(SortInt{}) : SortS{} [constructor{}()]\n"]
    lines.append('  axiom{} \\rewrites{SortS{}}(Lblnext{}(N:SortInt{}), Lblnext{}(Lblsub{}(N:SortInt{}, \\dv{SortInt{}}("1")))) [label{}("next")]\n')
    for i in range(n):
        lines.append(f"  sort SortR{i}{{}} []\n  symbol Lblr{i}{{}}(SortInt{{}}) : SortR{i}{{}} [constructor{{}}()]\n")
        lines.append(f"  symbol Lblq{i}{{}}(SortR{i}{{}}) : SortS{{}} [constructor{{}}()]\n")
    return "[]\n" + module(HEAD + "".join(lines))


def open_requests(n):
    """n requests of one step from a state with a variable, over `heads`."""
    variable = {"tag": "EVar", "name": "X", "sort": {"tag": "SortApp", "name": "SortInt", "args": []}}
    return (execution(application("Lblnext", [variable]), 1) + "\n") * n


def closed_requests(n):
    """The same from a state without one."""
    return (execution(application("Lblnext", [literal("SortInt", 7)]), 1) + "\n") * n


def variable_request(n):
    """n steps from a state that is a variable alone, which over `rules` each rule narrows."""
    return execution({"tag": "EVar", "name": "X", "sort": {"tag": "SortApp", "name": "SortS", "args": []}}, n)


def application(name, arguments):
    return {"tag": "App", "name": name, "sorts": [], "args": arguments}


def literal(sort, value):
    return {"tag": "DV", "sort": {"tag": "SortApp", "name": sort, "args": []}, "value": str(value)}


def execution(state, steps):
    """The request of so many steps from a state."""
    term = {"format": "KORE", "version": 1, "term": state}
    return json.dumps({"jsonrpc": "2.0", "id": 1, "method": "execute", "params": {"max-depth": steps, "state": term}})


def main():
    kind, number = sys.argv[1], int(sys.argv[2])
    text = globals()[kind.replace("-", "_")](number)
    out = open(sys.argv[3], "w") if len(sys.argv) > 3 else sys.stdout
    out.write(text)


if __name__ == "__main__":
    main()
