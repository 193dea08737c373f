#!/usr/bin/env python3
"""Runs `uset eval` on damaged tables and scripts, twice each, and looks at how each run ends: with one of the statuses that an
input of a few lines can have, and an answer of the shape that the status demands.

Usage: bench/damaged.py PROGRAM [SEED]. PROGRAM is crates/uset/out/uset, which `rt run` in crates/uset builds. The damage is
drawn from the seed.
"""

import random
import re
import subprocess
import sys
from collections import Counter
from concurrent.futures import ThreadPoolExecutor

from hostile import SCRIPT, tables

INPUTS = 10_000
AT_ONCE = 4
KINDS = (
    "UnknownLine UnknownTable TableTwice BadNumber TooLarge RangeOrder ValueOutOfType BadName NamesClash SyntaxAscii "
    "ExtensionOrder StringOfOne StringTwice ExtensionMissing NoEnd AfterEnd"
).split()
TABLE_FAULT = re.compile(rf"tables line [1-9][0-9]*: ({'|'.join(KINDS)})\n".encode())


def flip_bytes(source, data):
    """One to three bytes have one bit flipped, so that most stay ASCII."""
    changed = bytearray(data)
    for _ in range(source.randint(1, 3)):
        changed[source.randrange(len(changed))] ^= 1 << source.randrange(8)
    return bytes(changed)


def cut_line(source, data):
    lines = data.splitlines(keepends=True)
    lines.pop(source.randrange(len(lines)))
    return b"".join(lines)


def double_line(source, data):
    lines = data.splitlines(keepends=True)
    place = source.randrange(len(lines))
    return b"".join(lines[: place + 1] + lines[place:])


def exchange_lines(source, data):
    lines = data.splitlines(keepends=True)
    one, other = source.randrange(len(lines)), source.randrange(len(lines))
    lines[one], lines[other] = lines[other], lines[one]
    return b"".join(lines)


def cut_end(source, data):
    return data[: source.randrange(len(data))]


DAMAGES = (flip_bytes, cut_line, double_line, exchange_lines, cut_end)


def damaged_inputs(seed):
    """Inputs that all differ, each with damage of one to three kinds in the tables or in the script."""
    source = random.Random(seed)
    whole = [tables().encode(), SCRIPT.encode()]
    inputs = {}
    while len(inputs) < INPUTS:
        parts = list(whole)
        place = source.randrange(len(parts))
        for damage in source.sample(DAMAGES, source.randint(1, 3)):
            parts[place] = damage(source, parts[place] or b"\n")
        inputs.setdefault(b"".join(parts))
    return list(inputs)


def lines_of(data):
    """The lines, which end at LF, without one CR in front of it."""
    pieces = data.split(b"\n")
    lines = [piece.removesuffix(b"\r") for piece in pieces[:-1]]
    return lines + [pieces[-1]] if pieces[-1] else lines


def answered_lines(data):
    """How many lines behind the tables have an answer."""
    lines = lines_of(data)
    ends = [re.split(rb"[ \t]+", line.split(b"#")[0].strip(b" \t")) == [b"end"] for line in lines]
    script = lines[ends.index(True) + 1 :]
    return sum(1 for line in script if line and not line.startswith(b"#"))


def is_text(data):
    try:
        data.decode("utf-8")
    except UnicodeDecodeError:
        return False
    return True


def has_shape(data, status, answer):
    """Whether the answer to the input has the shape that the status demands."""
    if status == 7 or not is_text(data):
        return (status, answer, is_text(data)) == (7, b"input is not UTF-8\n", False)
    if status == 3:
        return TABLE_FAULT.fullmatch(answer) is not None
    answers = answer.split(b"\n")
    faulty = [line.startswith(b"err ") for line in answers[:-1]]
    sound = all(re.match(rb"(ok [1-9]|bound .|err .)", line) for line in answers[:-1])
    return sound and answers[-1] == b"" and len(faulty) == answered_lines(data) and status == int(any(faulty))


def run(program, data):
    """The status, the answer, and what was written to standard error."""
    ended = subprocess.run([program, "eval"], input=data, capture_output=True)
    return ended.returncode, ended.stdout, ended.stderr


def is_wrong(data, once, again):
    status, answer, errors = once
    return once != again or errors != b"" or not has_shape(data, status, answer)


def main():
    program = sys.argv[1]
    seed = int(sys.argv[2]) if len(sys.argv) > 2 else 1
    inputs = damaged_inputs(seed)
    with ThreadPoolExecutor(AT_ONCE) as pool:
        both = list(pool.map(lambda data: (run(program, data), run(program, data)), inputs))
    wrong = [(data, once, again) for data, (once, again) in zip(inputs, both) if is_wrong(data, once, again)]
    for data, once, again in wrong[:10]:
        print(f"{data!r}\n  {once}\n  {again}")
    print("| status | inputs |\n|---|---|")
    for status, count in sorted(Counter(once[0] for once, _ in both).items()):
        print(f"| {status} | {count:,} |")
    print(f"{len(inputs):,} inputs from seed {seed}, {len(wrong)} of which ended in another way")
    sys.exit(1 if wrong else 0)


main()
