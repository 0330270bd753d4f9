#!/usr/bin/env python3
"""Tries one connection of the built program by hand: python3 connection.py PROGRAM [PART..]

The parts: rows (modules that are added, batches), frames (where a stream is cut), waits (a client that waits for each
reply), many (100,000 requests), big (streams of 100 MB), modules (4,096 added modules and one more).
"""
import hashlib
import json
import os
import select
import subprocess
import sys
import time

PROGRAM = sys.argv[1]
PARTS = sys.argv[2:]
TOYS = os.path.join(os.path.dirname(os.path.abspath(__file__)), "..", "toys")
WORDS = [PROGRAM, "stdio", os.path.join(TOYS, "toys.kore"), "--module", "TOYS"]
COUNT = open(os.path.join(TOYS, "count-2.json"), "rb").read().strip()
DONE = b'{"id":1,"jsonrpc":"2.0","result":{"depth":3,"reason":"stuck","state":{"term":{"format":"KORE","term":{"args":[],"name":"Lbldone","sorts":[],"tag":"App"},"version":1}}}}'
UNREAD = b'{"error":{"code":-32700,"message":"Parse error"},"id":null,"jsonrpc":"2.0"}'
INVALID = b'{"error":{"code":-32600,"message":"Invalid Request"},"id":null,"jsonrpc":"2.0"}'
LONE = {"tag": "App", "name": "Lbllone", "sorts": [], "args": []}


def told(stream):
    """The status and what is written."""
    it = subprocess.run(WORDS, input=stream, capture_output=True, timeout=600)
    return it.returncode, it.stdout


def replies(stream):
    return [json.loads(line) for line in told(stream)[1].splitlines()]


def show(name, is_right, more=""):
    print(f"{name}: {'right' if is_right else 'WRONG'} {more}", flush=True)


def request(number, method, **params):
    call = {"jsonrpc": "2.0", "method": method, "params": params}
    if number is not None:
        call["id"] = number
    return json.dumps(call).encode()


def execute(number, **params):
    return request(number, "execute", state={"format": "KORE", "version": 1, "term": LONE}, **params)


def add(number, text, **params):
    return request(number, "add-module", module=text, **params)


def id_of(text):
    return "m" + hashlib.sha256(text.encode()).hexdigest()


def depth(reply):
    return reply["result"]["depth"]


def code(reply):
    return reply["error"]["code"]


def rows():
    rule = 'module EX import TOYS [] axiom{} \\rewrites{SortS{}}(Lbllone{}(),Lblgoal{}()) [label{}("EX.go")] endmodule []'
    steps = [add(1, rule), execute(2, module=id_of(rule)), execute(3)]
    for name, stream in [("one behind another", b"".join(steps)), ("in a batch", b"[" + b",".join(steps) + b"]")]:
        found = replies(stream)
        found = found[0] if len(found) == 1 else found
        show("a module is added " + name, found[0]["result"] == {"module": id_of(rule)} and [depth(r) for r in found[1:]] == [1, 0])
    found = replies(b"[" + execute(1, module=id_of(rule)) + b"," + add(2, rule) + b"]")[0]
    show("not before it is added", code(found[0]) == 3 and "result" in found[1])
    found = replies(add(None, rule) + execute(2, module=id_of(rule)))
    show("a notification adds", len(found) == 1 and depth(found[0]) == 1)
    found = replies(add(1, "module E import NOPE [] endmodule []") + add(2, "module E sort SortZ{} [] endmodule []", **{"name-as-id": True}) + execute(3, module="E"))
    show("what is refused adds nothing", [code(r) for r in found] == [8, 8, 3])
    named = {"name-as-id": True}
    found = replies(add(1, "module N import TOYS [] endmodule []", **named) + add(2, "module N endmodule []", **named) + execute(3, module="N"))
    show("a name is bound once", code(found[1]) == 9 and depth(found[2]) == 0)


def frames():
    line = DONE + b"\n"
    for name, stream, wanted in [
        ("two, a line between", COUNT + b"\n" + COUNT, line + line),
        ("two, nothing between", COUNT + COUNT, line + line),
        ("a line that is none", b"nonsense\n" + COUNT, UNREAD + b"\n" + line),
        ("a rest", COUNT + b"\nrest", line + UNREAD + b"\n"),
        ("an open bracket", COUNT + b'{"a":', line + UNREAD + b"\n"),
        ("white space", b" \n\t\r ", b""),
        ("127 brackets", b"[" * 127 + b"]" * 127 + COUNT, b"[" + INVALID + b"]\n" + line),
        ("128 brackets", b"[" * 128 + b"]" * 128 + b"\n" + COUNT, UNREAD + b"\n" + line),
        ("a bracket in a string", b'{"a":"}"}' + COUNT, INVALID + b"\n" + line),
        ("no UTF-8", b'{"\xff":1}' + COUNT, UNREAD + b"\n" + line),
        ("4,194,304 bytes", COUNT[:-1] + b" " * (4194304 - len(COUNT)) + b"}" + COUNT, line + line),
        ("4,194,305 bytes", COUNT[:-1] + b" " * (4194305 - len(COUNT)) + b"}" + COUNT, UNREAD + b"\n"),
    ]:
        show(name, told(stream) == (0, wanted))
    whole = COUNT + b"\nxx\n" + COUNT
    show("cut after any byte", all(told(whole[:n])[0] == 0 for n in range(len(whole))))


def waits():
    it = subprocess.Popen(WORDS, stdin=subprocess.PIPE, stdout=subprocess.PIPE)
    begun, right = time.time(), True
    for _ in range(1000):
        it.stdin.write(COUNT)
        it.stdin.flush()
        right = right and it.stdout.readline() == DONE + b"\n"
    show("each request behind the reply before", right, f"1,000 in {time.time() - begun:.3f} s")
    for byte in COUNT[:-1]:
        it.stdin.write(bytes([byte]))
        it.stdin.flush()
    early = select.select([it.stdout], [], [], 0.3)[0]
    it.stdin.write(COUNT[-1:])
    it.stdin.flush()
    show("byte by byte", not early and it.stdout.readline() == DONE + b"\n")
    it.stdin.close()
    show("its end", it.wait() == 0)


def timed(name, stream, is_right):
    begun = time.time()
    found = told(stream)
    show(name, found[0] == 0 and is_right(found[1]), f"{time.time() - begun:.2f} s, {len(found[1])} bytes")


def many():
    timed("100,000 requests", (COUNT + b"\n") * 100000, lambda out: out == (DONE + b"\n") * 100000)


def big():
    number = 100000000 // (len(COUNT) + 1)
    timed("100 MB of requests", (COUNT + b"\n") * number, lambda out: out.count(b"\n") == number)
    wide = b'{"jsonrpc":"2.0","id":1,"method":"execute","params":{"state":"' + b"x" * 4000000 + b'"}}'
    timed("100 MB in frames of 4 MB", wide * 25, lambda out: out.count(b"\n") == 25)
    timed("100 MB of white space", b" " * 100000000, lambda out: out == b"")
    timed("a million lines that are none", b"x\n" * 1000000, lambda out: out.count(b"\n") == 1000000)
    timed("a batch of 2,000,000 that are none", b"[" + b"1," * 1999999 + b"1]", lambda out: out.count(b"-32600") == 2000000)


def modules():
    texts = [f"module M{i} import TOYS [] endmodule []" for i in range(4097)]
    stream = b"\n".join(add(i, text) for i, text in enumerate(texts)) + execute(1, module=id_of(texts[4095])) + execute(2, module=id_of(texts[4096]))
    begun = time.time()
    found = replies(stream)
    entered = [r["result"]["module"] for r in found[:4096]] == [id_of(text) for text in texts[:4096]]
    show("4,096 modules and one more", entered and code(found[4096]) == 8 and depth(found[4097]) == 0 and code(found[4098]) == 3, f"{time.time() - begun:.2f} s")
    chain = ["module C0 import TOYS [] endmodule []"]
    for i in range(1, 1000):
        chain.append(f"module C{i} import {id_of(chain[-1])} [] endmodule []")
    begun = time.time()
    found = replies(b"\n".join(add(i, text) for i, text in enumerate(chain)))
    show("1,000 modules, each importing the one before", all("result" in r for r in found), f"{time.time() - begun:.2f} s")


for part in [rows, frames, waits, many, big, modules]:
    if not PARTS or part.__name__ in PARTS:
        part()
