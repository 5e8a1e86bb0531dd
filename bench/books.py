#!/usr/bin/env python3
"""Times 16,384 timers and 4,096 system names.

Each line names a call, how often it was called, and the shortest reading in microseconds.
usage: books.py [TIMES]
"""
import sys

from timing import readings


def main():
    times = int(sys.argv[1]) if len(sys.argv) > 1 else 5
    for what, size, took in readings("book_times", times):
        print(f"{what:18} {size:6} {took:8}")


main()
