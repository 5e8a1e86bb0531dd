#!/usr/bin/env python3
"""Times `check` on definitions of about 1 MiB, and looks at the counts that it prints.

What definitions without a machine cost is taken off; of so many runs the best counts.
usage: definitions.py PROGRAM [TIMES]
"""
import subprocess
import sys

from timing import check_over, definitions_file

LIMIT = 1_048_576
MAX_NODES = 4_096
MAX_LEVELS = 64
DONE = 0


def office(machines, implementations="{}"):
    return '{"machines":[' + ",".join(machines) + '],"implementations":' + implementations + "}"


def compound(name, states):
    return f'{{"id":"{name}","initial":"0","states":{{' + ",".join(states) + "}}"


def tiny_states(count):
    """Machines of as many states as one may have, each state as short as can be."""
    room = MAX_NODES - 1
    sizes = [min(room, count - first) for first in range(0, count, room)]
    machines = [
        compound(f"m{number:x}", [f'"{state:x}":{{}}' for state in range(size)])
        for number, size in enumerate(sizes)
    ]
    return office(machines), len(machines), count + len(machines)


def transitions(width):
    """One state with 20,000 transitions, each descriptor of so many bytes."""
    events = ",".join(f'"{number:0{width}}":"0"' for number in range(20_000))
    return office([compound("busy", [f'"0":{{"on":{{{events}}}}}'])]), 1, 2


def uses_of_a_name(count):
    """One action, used again and again."""
    uses = ",".join(['"a"'] * count)
    return office([f'{{"id":"m","entry":[{uses}]}}'], '{"actions":{"a":{"cancel":"t"}}}'), 1, 1


def nested_guards(count):
    """Transitions with guards that go as deep as JSON may."""
    depth = MAX_LEVELS - 5
    guard = '{"not":' * depth + '"g"' + "}" * depth
    always = ",".join([f'{{"guard":{guard}}}'] * count)
    return office([f'{{"id":"m","always":[{always}]}}'], '{"guards":{"g":true}}'), 1, 1


def long_ids(width):
    """As many nodes as a machine may have, each with an id of so many bytes of which the last few differ."""
    nodes = [f'"{number:x}":{{"id":"{number:0{width}}"}}' for number in range(MAX_NODES - 1)]
    return office([compound("m", nodes)]), 1, MAX_NODES


def table_of_names(width):
    """50,000 guards, each name of so many bytes."""
    guards = ",".join(f'"{number:0{width}}":true' for number in range(50_000))
    return office([], f'{{"guards":{{{guards}}}}}'), 0, 0


def largest(text_of):
    """The longest text of its kind that is within the limit, by its one number."""

    def is_within(number):
        return len(text_of(number)[0]) <= LIMIT

    over = 1
    while is_within(over):
        over *= 2
    within = over // 2
    while within + 1 < over:
        middle = (within + over) // 2
        if is_within(middle):
            within = middle
        else:
            over = middle
    return within, text_of(within)


KINDS = {
    "tiny states": tiny_states,
    "bytes in each of 20,000 descriptors of one state": transitions,
    "uses of one name": uses_of_a_name,
    "guards of 59 levels": nested_guards,
    "bytes in each id of 4,095 nodes": long_ids,
    "bytes in each of 50,000 names of a table": table_of_names,
}


def printed(program, text):
    """What `check` prints of these definitions."""
    with definitions_file(text) as path:
        return subprocess.run([program, "check", path], stdout=subprocess.PIPE, text=True).stdout


def main():
    program = sys.argv[1]
    times = int(sys.argv[2]) if len(sys.argv) > 2 else 5

    def checked(text):
        return check_over(program, text, DONE, times)

    nothing = checked(office([]))
    for kind, text_of in KINDS.items():
        number, (text, machines, nodes) = largest(text_of)
        counts = printed(program, text)
        if counts != f"definitions machines {machines} nodes {nodes}\n":
            raise SystemExit(f"{kind}: {counts}")
        print(f"{number} {kind}: {len(text)} bytes, {checked(text) - nothing:.1f} ms")


main()
