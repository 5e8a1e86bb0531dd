#!/usr/bin/env python3
"""Times macrosteps: events that an actor of a machine takes, one after the other, the best of five readings.

A reading is of so many events for the toggle and for the machine of 4,096 nodes, of a tenth as many for 12 regions, and of
a thousandth for the loop of 1,000 microsteps. Where others use the processors too, let it be short.
usage: macrosteps.py [COUNT]
"""
import sys

from timing import readings


def main():
    count = int(sys.argv[1]) if len(sys.argv) > 1 else 1_000_000
    for what, size, took in readings("macrosteps", count):
        print(f"{what}: {size} in {took} microseconds, {size * 1_000_000 / max(took, 1):.0f} a second")


main()
