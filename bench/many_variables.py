#!/usr/bin/env python3
"""Times `uset eval` on lines that each name many variables, which are large sets: `many_variables.py PROGRAM [LINES]`.

The variables have so many ranges each, all over the code points, and a line keeps what all have in common, which is
nothing. What the variables take alone is taken off, and behind each time stands how long an input of 8 MB of such lines
would take.
"""

import sys

from growth import seconds
from large_tables import SYNTAX

# The most bytes that the program takes.
MOST_BYTES = 1 << 23

# How many variables there are, and how many ranges each has.
CASES = [(2, 16_384), (2, 4_096), (2, 4_095), (50, 16_384), (50, 4_096), (50, 4_095), (50, 1_024), (50, 136), (600, 16_384)]

LETTERS = "abcdefghijklmnopqrstuvwxyz"


def name(number):
    """The name of a variable: one letter where that is enough."""
    return LETTERS[number] if number < 26 else LETTERS[number // 26 - 1] + LETTERS[number % 26]


def spelled(code_point):
    """A code point as a pattern may have it."""
    return f"\\U{code_point:08X}"


def variables(count, ranges):
    """The lines that bind them, by turns to one of two sets that have nothing in common, without one of its ranges."""
    distance = 0x110000 // (ranges + 1)
    points = [[spelled(place * distance + first) for place in range(ranges + 1)] for first in (7, 9)]
    bound = "".join(f"let base{'ab'[turn]} set [{''.join(points[turn])}]\n" for turn in (0, 1))
    for number in range(count):
        turn = number % 2
        bound += f"let {name(number)} set [$base{'ab'[turn]}-[{points[turn][number]}]]\n"
    return SYNTAX + "end\n" + bound


def line_of(count):
    """A line that keeps what all of them have in common, which is nothing."""
    return "pat [" + "&".join("$" + name(number) for number in range(count)) + "]\n"


def main():
    program = sys.argv[1]
    count = int(sys.argv[2]) if len(sys.argv) > 2 else 200
    print("| lines | ms each | us a name | s for 8 MB |")
    print("|---|---|---|---|")
    for number, ranges in CASES:
        before = variables(number, ranges)
        start, size = seconds(program, before)
        line = line_of(number)
        lines = max(50, count * 50 // number)
        taken, _ = seconds(program, before + line * lines)
        each = max(taken - start, 0.0) / lines
        whole = (MOST_BYTES - size) // len(line)
        print(f"| {lines:,} over {number} variables of {ranges:,} ranges | {each * 1e3:.3f} | {each * 1e6 / number:.1f} | {each * whole:.0f} |", flush=True)


if __name__ == "__main__":
    main()
