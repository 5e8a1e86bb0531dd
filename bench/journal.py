#!/usr/bin/env python3
"""Times a journal on real files: appends beside a plain loop in C with the same calls and bytes, and opening a long side.

Each reading of the one is followed by one of the other, on files of the folder that is given, and the medians are
printed; the two sides are compared byte by byte. The side that is opened has 1,000,000 records.
usage: journal.py [TIMES [COUNT [SIZE [FOLDER]]]]
"""
import filecmp
import os
import statistics
import struct
import subprocess
import sys
import tempfile

from timing import HERE

RECORDS = 1_000_000
RECORD = b"R ann 1 start toggle - null"
BASE = b"base"


def run(words):
    """What a program prints, and its peak memory in bytes."""
    with subprocess.Popen(words, stdin=subprocess.DEVNULL, stdout=subprocess.PIPE, text=True) as process:
        printed = process.stdout.read()
        _, status, used = os.wait4(process.pid, 0)
        process.returncode = os.waitstatus_to_exitcode(status)
    if process.returncode != 0:
        raise SystemExit(f"{words[0]} ended with {process.returncode}")
    return [int(number) for number in printed.split()], used.ru_maxrss * 1024


def compile_loop(room):
    loop = os.path.join(room, "journal_loop")
    subprocess.run(["cc", "-O2", "-o", loop, os.path.join(HERE, "journal_loop.c")], check=True)
    return loop


def time_appends(program, loop, room, times, count, size):
    side, other, plain = (os.path.join(room, name) for name in ("side.a", "side.b", "plain"))
    ours, theirs = [], []
    for _ in range(times):
        for file in (side, other, plain):
            if os.path.exists(file):
                os.remove(file)
        ours.append(count / run([program, "append", str(count), str(size), side, other])[0][0] * 1e6)
        theirs.append(count / run([loop, str(count), str(size), plain])[0][0] * 1e6)
        if not filecmp.cmp(side, plain, shallow=False):
            raise SystemExit("the two sides differ")
    shares = [a / b for a, b in zip(ours, theirs)]
    print(f"{count} appends of {size} bytes, {times} times: the journal {statistics.median(ours):.0f} a second "
          f"({min(ours):.0f} to {max(ours):.0f}), the loop {statistics.median(theirs):.0f} ({min(theirs):.0f} to "
          f"{max(theirs):.0f}); share {statistics.median(shares):.3f} ({min(shares):.3f} to {max(shares):.3f})")


def time_opening(program, room, times):
    side, other = os.path.join(room, "long.a"), os.path.join(room, "long.b")
    record = b"\x01" + struct.pack(">I", len(RECORD)) + RECORD
    # Written piece by piece: the peak of a child counts what its parent had in memory when it was started.
    with open(side, "wb") as file:
        file.write(b"\x01" + struct.pack(">QI", 1, len(BASE)) + BASE)
        for _ in range(RECORDS // 1_000):
            file.write(record * 1_000)
        file.write(b"\x00")
    length = os.path.getsize(side)
    took, peaks = [], []
    for _ in range(times):
        (micros, records), peak = run([program, "open", side, other])
        if records != RECORDS:
            raise SystemExit(f"{records} records")
        took.append(length / micros)
        peaks.append(peak)
    print(f"opening {RECORDS} records in {length} bytes, {times} times: {statistics.median(took):.0f} MB/s "
          f"({min(took):.0f} to {max(took):.0f}), peak memory {max(peaks)} bytes, {max(peaks) / length:.2f} of the side")


def main():
    times = int(sys.argv[1]) if len(sys.argv) > 1 else 7
    count = int(sys.argv[2]) if len(sys.argv) > 2 else 1_000
    size = int(sys.argv[3]) if len(sys.argv) > 3 else len(RECORD)
    folder = sys.argv[4] if len(sys.argv) > 4 else None
    built = subprocess.run([os.path.join(HERE, "build.sh"), "journal_times"], stdout=subprocess.PIPE, text=True, check=True)
    program = built.stdout.strip()
    with tempfile.TemporaryDirectory(dir=folder) as room:
        time_appends(program, compile_loop(room), room, times, count, size)
        time_opening(program, room, times)


main()
