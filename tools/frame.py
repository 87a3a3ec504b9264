#!/usr/bin/env python3
"""Puts an input for the program findings together.

    tools/frame.py M K QUERY TRACE.. > INPUT

QUERY and each TRACE are the names of trace files. Written are M and K, and then each file behind its length in bytes,
all as numbers in the fewest bytes: seven bits to a byte, the lowest first, and 128 added where another byte follows."""
import sys


def number(value):
    groups = []
    while True:
        value, low = divmod(value, 128)
        if value == 0:
            return bytes(groups + [low])
        groups.append(low + 128)


def main():
    if len(sys.argv) < 4:
        sys.exit(__doc__)
    m, k, *names = sys.argv[1:]
    out = sys.stdout.buffer
    out.write(number(int(m)) + number(int(k)))
    for name in names:
        with open(name, "rb") as trace:
            file = trace.read()
        out.write(number(len(file)) + file)


main()
