#!/usr/bin/env python3
"""Times the reading and the writing of request lines, and prints how many there are a second, the best of five readings.

A reading is of so many short lines, or of a tenth as many long ones. Where others use the processors too, let it be short.
usage: request_lines.py [COUNT]
"""
import sys

from timing import readings


def main():
    count = int(sys.argv[1]) if len(sys.argv) > 1 else 400
    for what, size, took in readings("request_lines", count):
        print(f"{what}: {size} in {took} microseconds, {size * 1_000_000 / max(took, 1):.0f} a second")


main()
