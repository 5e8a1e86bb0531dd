#!/usr/bin/env python3
"""Times the calls of the node tree and of the sets of a step on trees of 4,096 nodes.

Each line names a tree and a call, the size of what the call was about, and the shortest reading in microseconds.
usage: sets.py [TIMES]
"""
import sys

from timing import readings


def main():
    times = int(sys.argv[1]) if len(sys.argv) > 1 else 5
    for what, size, took in readings("set_times", times):
        print(f"{what:26} {size:6} {took:8}")


main()
