#!/usr/bin/env python3
"""Times evaluations of expressions, and prints how many there are a second.

usage: evaluations.py [COUNT]
"""
import sys

from timing import readings


def main():
    count = int(sys.argv[1]) if len(sys.argv) > 1 else 2_000_000
    for what, size, took in readings("evaluations", count):
        print(f"{what}: {size} in {took / 1_000_000:.2f} s, {size * 1_000_000 / max(took, 1):.0f} a second")


main()
