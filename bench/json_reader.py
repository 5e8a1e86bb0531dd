#!/usr/bin/env python3
"""Times the JSON reader on texts of about 1 MiB, beside python3's own.

`check` reads each text as definitions, which it then refuses; what an empty text costs is taken off.
usage: json_reader.py PROGRAM
"""
import json
import sys

from timing import best, check_over

LIMIT = 1_048_576
TIMES = 15
REFUSED = 3


def repeated(part):
    count = (LIMIT - 2) // (len(part) + 1)
    return "[" + ",".join([part] * count) + "]"


def keys(count, order):
    return "{" + ",".join(f'"key{order(number):06}":{number}' for number in range(count)) + "}"


TEXTS = {
    "deep: 63 levels again and again": repeated("[" * 63 + "]" * 63),
    "wide: one list of numbers": repeated("12345678"),
    "escaped: one list of texts": repeated('"\\u00e9\\n\\ud83d\\ude00"'),
    "an object of 50,000 keys, sorted": keys(50_000, lambda number: number),
    "an object of 50,000 keys, not sorted": keys(50_000, lambda number: number * 7_919 % 50_000),
}


def main():
    program = sys.argv[1]

    def read(text):
        return check_over(program, text, REFUSED, TIMES)

    nothing = read("")
    for name, text in TEXTS.items():
        print(f"{name}: {len(text)} bytes, {read(text) - nothing:.1f} ms; python3 {best(lambda: json.loads(text), TIMES):.1f} ms")


main()
