#!/usr/bin/env python3
"""refuse.py PROGRAM DEFINITION REQUEST: refuses each allocation of one request in turn.

The answer is the request's own, or status 7 with a front of it. It prints how many allocations there were, and how many runs
ended with status 7. The library `refuse.c` is built first.
"""
import os
import subprocess
import sys
import tempfile

HERE = os.path.dirname(os.path.abspath(__file__))


def library():
    path = os.path.join(tempfile.gettempdir(), f"refuse-{os.getuid()}.so")
    subprocess.run(["cc", "-shared", "-fPIC", "-o", path, os.path.join(HERE, "refuse.c"), "-ldl"], check=True)
    return path


def main():
    program, definition, request = sys.argv[1:4]
    words = [program, "stdio", definition, "--module", "TOYS"]
    preloaded, data = library(), open(request, "rb").read()

    def run(n):
        env = dict(os.environ, LD_PRELOAD=preloaded, REFUSE=str(n))
        it = subprocess.run(words, input=data, capture_output=True, env=env, timeout=60)
        return it.returncode, it.stdout, it.stderr

    right = run(0)
    assert right[0] == 0 and right[1], right
    n, same, ended = 0, 0, 0
    # the last allocation is past, or a refusal changed nothing: three in a row end it
    while same < 3:
        n += 1
        got = run(n)
        if got == right:
            same += 1
            continue
        same = 0
        assert got[0] == 7 and right[1].startswith(got[1]) and b"kprove: memory\n".startswith(got[2]), (n, got)
        ended += 1
    print(f"allocations tried: {n}, answers with status 7: {ended}, the others: the request's own")


if __name__ == "__main__":
    main()
