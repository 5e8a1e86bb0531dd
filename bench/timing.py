"""Timing that the benchmarks share."""
import contextlib
import os
import subprocess
import tempfile
import time

HERE = os.path.dirname(os.path.abspath(__file__))


def best(of, times):
    """The shortest of so many calls, in milliseconds."""
    readings = []
    for _ in range(times):
        start = time.perf_counter()
        of()
        readings.append(time.perf_counter() - start)
    return min(readings) * 1000


@contextlib.contextmanager
def definitions_file(definitions):
    """The path of a file with these definitions, for a while."""
    with tempfile.TemporaryDirectory() as room:
        path = os.path.join(room, "office.json")
        with open(path, "w") as file:
            file.write(definitions)
        yield path


def check_over(program, definitions, status, times):
    """The shortest of so many runs of `check` over these definitions, in milliseconds."""
    with definitions_file(definitions) as path:

        def run():
            ended = subprocess.run([program, "check", path], stdout=subprocess.DEVNULL)
            if ended.returncode != status:
                raise SystemExit(f"{program} ended with {ended.returncode}")

        return best(run, times)


def readings(name, rounds):
    """Builds a program of bench/programs and lets it measure so often.

    For each thing that it measured, in order: its name, its size, and the fewest microseconds that it took. A line of one
    word is a heading, which the names below it begin with.
    """
    built = subprocess.run([os.path.join(HERE, "build.sh"), name], stdout=subprocess.PIPE, text=True, check=True)
    printed = subprocess.run([built.stdout.strip(), str(rounds)], stdout=subprocess.PIPE, text=True, check=True)
    heading, fewest = "", {}
    for line in printed.stdout.splitlines():
        what, *numbers = line.split()
        if not numbers:
            heading = what + " "
            continue
        size, took = map(int, numbers)
        key = (heading + what, size)
        fewest[key] = min(took, fewest.get(key, took))
    return [(what, size, took) for (what, size), took in fewest.items()]
