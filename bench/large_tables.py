#!/usr/bin/env python3
"""Times `uset eval` on inputs of which each line asks a large table, or a variable of long strings, anew:
`large_tables.py PROGRAM [LINES]`.

Each row is an input with so many lines (1,000 where nothing is said) of which the answer is small: another script, other
script extensions or another group of categories in each, over a map that changes at each code point; and one variable
or two, sets of few strings that are long and begin alike, or such strings. What the tables and variables take alone is
taken off. Behind it stands how long an input of 8 MB of such lines would take, where a map or the strings have half of
it. Lists of extensions and groups are forgotten before their names come again; those of scripts are kept, so that no
more of these lines cost as much than there are names.
"""

import sys

from growth import seconds

SYNTAX = "set Pattern_White_Space\n20\nset XID_Start\n61-7A\nset XID_Continue\n61-7A\n"

# Half of the bytes that the program takes.
HALF = 1 << 22

# How many names there are at most: numbers have 16 bits.
MOST_NAMES = 1 << 16

# The first code point of a map's rows, and how many of them half of an input has.
FIRST, RUNS = 0x10000, 400_000

LETTERS = "abcdefghijklmnopqrstuvwxyz"


def name(number):
    """A name of four letters that no other number has, and no property."""
    return "q" + "".join(LETTERS[number // 26**place % 26] for place in range(3, -1, -1))


def rows(value_of):
    """Rows of a map, a code point each."""
    return "".join(f"{FIRST + index:X} {value_of(index)}\n" for index in range(RUNS))


def names(table, count):
    """A table of names, one for each number."""
    return f"names {table}\n" + "".join(f"{number} {name(number)}\n" for number in range(count))


def scripts(count):
    """A script in each run, by turns two of them, and all scripts have names."""
    return SYNTAX + "map Script 0\n" + rows(lambda index: 1 + index % 2) + names("Script", count) + "end\n"


def categories(count):
    """A category in each run, by turns two of them, and all groups have names."""
    return SYNTAX + "map General_Category 0\n" + rows(lambda index: 1 + index % 2) + names("General_Category_Mask", count) + "end\n"


def extensions(count):
    """Script extensions in each run, by turns two lists of 30,000 scripts, and all scripts have names."""
    lists = "".join(f"ext {index}\n" + "".join(f"{2 * number + index}\n" for number in range(30_000)) for index in (0, 1))
    return SYNTAX + "scx 103\n" + rows(lambda index: 1024 + index % 2) + lists + names("Script", count) + "end\n"


def long_strings(variables, count):
    """So many variables, of so many strings that begin alike, of all the bytes together."""
    length = HALF // (len(variables) * count)
    bound = ""
    for place, variable in enumerate(variables):
        ends = (f"{place}{number:03}" for number in range(count))
        bound += f"let {variable} set [" + "".join("{" + "b" * (length - 4) + end + "}" for end in ends) + "]\n"
    return SYNTAX + "end\n" + bound


def long_texts(variables):
    """So many variables that are strings and begin alike, of which the lines have half of an input."""
    length = HALF // (3 * len(variables))
    return SYNTAX + "end\n" + "".join(f"let {variable} str{' 62' * length} {97 + place:X}\n" for place, variable in enumerate(variables))


def cases(count):
    """What each row shows, what stands before its lines, how many lines can cost as much, and a line."""
    names = min(count, MOST_NAMES)
    property_line = lambda key: lambda number: f"pat [[:{key}{name(number % names)}:]&[a]]\n"
    every = HALF
    return [
        ("another script in each line", scripts(names), MOST_NAMES, property_line("sc=")),
        ("other script extensions in each line", extensions(names), every, property_line("scx=")),
        ("another group of categories in each line", categories(names), every, property_line("gc=")),
        ("a variable of one long string", long_strings("v", 1), every, lambda number: "pat [$v&[a]]\n"),
        ("a variable of 63 long strings", long_strings("v", 63), every, lambda number: "pat [$v&[a]]\n"),
        ("two variables of 10 long strings, none in common", long_strings("vw", 10), every, lambda number: "pat [$v&$w]\n"),
        ("two variables of 63 long strings, none in common", long_strings("vw", 63), every, lambda number: "pat [$v&$w]\n"),
        ("a long string", long_texts("s"), every, lambda number: "pat [[$s]&[a]]\n"),
        ("two long strings", long_texts("st"), every, lambda number: "pat [[$s]&[$t]]\n"),
        ("a long string, named 1,000 times", long_texts("s"), every, lambda number: "pat [[" + "$s" * 1_000 + "]&[a]]\n"),
    ]


def main():
    program = sys.argv[1]
    count = int(sys.argv[2]) if len(sys.argv) > 2 else 1_000
    print("| lines | s | ms each | s for 8 MB |")
    print("|---|---|---|---|")
    for label, before, most, line in cases(count):
        lines = min(count, most)
        start, _ = seconds(program, before)
        taken, _ = seconds(program, before + "".join(line(number) for number in range(lines)))
        each = max(taken - start, 0.0) / lines
        whole = min(most, HALF // len(line(0).encode("utf-8")))
        print(f"| {lines:,}: {label} | {taken - start:.2f} | {each * 1e3:.3f} | {each * whole:.0f} |", flush=True)


if __name__ == "__main__":
    main()
