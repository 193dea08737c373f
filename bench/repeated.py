#!/usr/bin/env python3
"""Times `uset eval` on sets that are named again and again: `repeated.py PROGRAM [TABLES]`.

A variable of 100,000 ranges, or of 10,000 strings, is joined, taken away or kept ever more often in one bracket, and
named in ever more brackets one behind another, in lines that answer with little of it, and in brackets inside one
another, which stand open at once; and lines keep what it has in common with another of as many, which is nothing. With
tables, properties are named so too. The time of binding the variables, or of reading the tables, and of printing the
set once is taken off.
"""

import sys
from pathlib import Path

from growth import TABLES, element, peak, seconds, string

# How often a set is named.
TIMES = (1_000, 10_000, 100_000, 1_000_000)

# The most bytes that the program takes.
MOST_BYTES = 1 << 23

# In how many brackets it is named.
BRACKETS = (1, 10, 100, 10_000, 500_000)

# In how many lines.
LINES = (1_000, 100_000)

# In how many brackets that stand open at once: of properties, and of variables, which are larger.
OPEN_PROPERTIES, OPEN_VARIABLES = 50_000, 100

# In how many lines that name two large sets.
LINES_OF_TWO = (1_000,)


def ranges(first):
    """A bracket of 100,000 elements that touch no other: every second one from the first on."""
    return "[" + "".join(element(first + 2 * index) for index in range(100_000)) + "]"


def strings(first):
    """A bracket of 10,000 strings: every second one from the first on."""
    return "[" + "".join(string(first + 2 * index) for index in range(10_000)) + "]"


# What is named again, behind a first time.
AGAIN = [
    ("joined", lambda name: name),
    ("taken away", lambda name: "-" + name),
    ("kept", lambda name: "&" + name),
    ("joined and taken away by turns", lambda name: "-" + name + name),
    ("joined, with an element between", lambda name: "\u4e00" + name),
]


def print_head(*names):
    """The head of a table."""
    print()
    print("| " + " | ".join(names) + " |")
    print("|" + "---|" * len(names))


def named_again(program, before, sets):
    """Prints the time of each way to name each set again, at each count."""
    print_head("set", "how", "times", "ms", "ns each")
    for label, name in sets:
        start, _ = seconds(program, before + f"pat [{name}]\n")
        for how, once in AGAIN:
            for times in TIMES:
                text = before + f"pat [{name}{once(name) * times}]\n"
                if len(text.encode("utf-8")) > MOST_BYTES:
                    continue
                taken, _ = seconds(program, text)
                net = max(taken - start, 0.0)
                print(f"| {label} | {how} | {times:,} | {net * 1e3:.1f} | {net * 1e9 / times:.0f} |", flush=True)


def named_in_many(program, before, sets, places, counts, once, many):
    """Prints the time of a pattern, or of lines, that name each set in many places, at each count. What `once` takes is taken off."""
    print_head("set", places, "ms", "us each")
    for label, name in sets:
        start, _ = seconds(program, before + once(name))
        for count in counts:
            text = before + many(name, count)
            if len(text.encode("utf-8")) > MOST_BYTES:
                continue
            taken, _ = seconds(program, text)
            net = max(taken - start, 0.0)
            print(f"| {label} | {count:,} | {net * 1e3:.1f} | {net * 1e6 / count:.0f} |", flush=True)


def named_in_brackets(program, before, sets):
    """Brackets one behind another that each take an element from the set."""
    once, many = lambda name: f"pat [{name}]\n", lambda name, count: "pat [" + f"[{name}-[b]]" * count + "]\n"
    named_in_many(program, before, sets, "brackets", BRACKETS, once, many)


def named_in_lines(program, before, sets):
    """Lines that each name the set, and answer with little of it."""
    once, many = lambda name: f"pat [[{name}-[b]]&[a]]\n", lambda name, count: f"pat [[{name}-[b]]&[a]]\n" * count
    named_in_many(program, before, sets, "lines", LINES, once, many)


def named_with_another(program, before, sets):
    """Lines that each keep what two sets have in common."""
    once, many = lambda names: "pat [a]\n", lambda names, count: f"pat [{names}]\n" * count
    named_in_many(program, before, sets, "lines", LINES_OF_TWO, once, many)


def named_inside_one_another(program, before, sets, count):
    """Prints the time and the memory of brackets inside one another that each have the set, or the set without an element. The
    memory is what as many brackets more take: a process begins with what the one that starts it has resident."""
    print_head("set", "in each bracket", "open brackets", "us each", "kB each")
    for label, name in sets:
        start, _ = seconds(program, before + f"pat [{name}]\n")
        for inside in (name, f"[{name}-[b]]"):
            few, many = (before + "pat " + f"[{inside}" * times + "]" * times + "\n" for times in (count, 2 * count))
            taken, _ = seconds(program, few)
            kept = peak(program, many) - peak(program, few)
            print(f"| {label} | `{inside}` | {count:,} | {(taken - start) * 1e6 / count:.0f} | {kept / count / 1e3:.1f} |", flush=True)


def main():
    program = sys.argv[1]
    bound = TABLES + f"let r set {ranges(0)}\nlet s set {strings(0)}\n"
    two = bound + f"let q set {ranges(1)}\nlet t set {strings(1)}\n"
    variables = [("100,000 ranges", "$r"), ("10,000 strings", "$s")]
    named_again(program, bound, variables)
    named_in_brackets(program, bound, variables)
    named_in_lines(program, bound, variables)
    named_with_another(program, two, [("100,000 ranges, twice", "$r&$q"), ("10,000 strings, twice", "$s&$t")])
    named_inside_one_another(program, bound, variables, OPEN_VARIABLES)
    if len(sys.argv) > 2:
        tables = Path(sys.argv[2]).read_text(encoding="utf-8")
        properties = [("`[:Alphabetic:]`", "[:Alphabetic:]"), ("`[:L:]`", "[:L:]")]
        named_again(program, tables, properties)
        named_in_brackets(program, tables, properties)
        named_in_lines(program, tables, properties)
        named_inside_one_another(program, tables, properties, OPEN_PROPERTIES)


if __name__ == "__main__":
    main()
