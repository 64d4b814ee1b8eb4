#!/usr/bin/env python3
"""Runs a program on generated inputs and compares it with the reference.

    compare.py PROGRAM [COUNT] [FIRST_SEED]

Prints the first input whose answer differs and ends with 1, or prints one
line of counts: inputs, selections, and refusals by their numbers.
"""

import collections
import os
import subprocess
import sys

sys.dont_write_bytecode = True  # no caches among the sources

import generate
import reference

SECONDS = 20  # far above any honest run


def outcome(program, data):
    """(output, exit status) of one run; the status is None after too long."""
    try:
        done = subprocess.run([program], input=data, stdout=subprocess.PIPE,
                              timeout=SECONDS)
    except subprocess.TimeoutExpired as late:
        return late.stdout or b"", None
    return done.stdout, done.returncode


def shown(data):
    if len(data) <= 2000:
        return repr(data)
    return "%r ... %r (%d bytes)" % (data[:1000], data[-500:], len(data))


def main(arguments):
    if not 1 <= len(arguments) <= 3:
        sys.exit(__doc__)
    program = os.path.abspath(arguments[0])
    count = int(arguments[1]) if len(arguments) > 1 else 3000
    first = int(arguments[2]) if len(arguments) > 2 else 0
    endings = collections.Counter()
    with_numbers = 0
    for seed in range(first, first + count):
        data = generate.case(seed)
        expected = reference.answer(data)
        found, status = outcome(program, data)
        if found != expected or status != 0:
            print("seed %d" % seed)
            print("input     %s" % shown(data))
            print("expected  %s, status 0" % shown(expected))
            print("found     %s, status %s" % (shown(found), status))
            return 1
        lines = expected.splitlines()
        with_numbers += len(lines) > 1
        endings[b" ".join(lines[-1].split()[:2]) if lines[-1][:1] == b"r"
                else b"selected"] += 1
    selected = endings.pop(b"selected", 0)
    refusals = sorted(endings.items())
    print("%d inputs alike: %d selected, %d with numbers, refused %s" % (
        count, selected, with_numbers,
        ", ".join("%s: %d" % (ending.split()[1].decode(), times)
                  for ending, times in refusals)))
    return 0


if __name__ == "__main__":
    sys.exit(main(sys.argv[1:]))
