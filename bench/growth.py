#!/usr/bin/env python3
"""Times `uset eval` on inputs of growing size, and prints the time a byte, so that growth shows: first for
patterns, then for tables of each kind, for properties and variables, for sources with a fault at their end, and for
sets that take many steps; and the memory that brackets inside one another, maps and elements of one bracket take.

Usage: bench/growth.py [PROGRAM]. PROGRAM is crates/uset/out/uset, which `rt run` in crates/uset builds.
Each input is timed REPEATS times, and the least processor time stands in the table: others may use the
machine too. The time of an input of two lines, which is that of starting the program, is taken off.
"""

import os
import random
import resource
import subprocess
import sys
from pathlib import Path

from category import category_runs

REPEATS = 5
TOP = Path(__file__).resolve().parent.parent
TABLES = (TOP / "examples" / "syntax.txt").read_text(encoding="utf-8")
# Code points of four bytes each, none of which touches another.
ELEMENTS = [chr(0x10000 + 2 * index) for index in range(100_000)]
# The bytes of the largest inputs: the program takes 2^23.
MOST_BYTES = 8_000_000
# Properties whose numbers may be those of categories.
MAPS = ("Script", "Bidi_Class", "East_Asian_Width", "Line_Break", "Grapheme_Cluster_Break", "Word_Break", "Sentence_Break", "Joining_Type")


def lines(count):
    """A script of patterns, one a line."""
    return TABLES + "pat [a-z0]\n" * count


def elements(count, order):
    """A script of one pattern, in this order of its elements."""
    chosen = ELEMENTS[:count]
    if order == "descending":
        chosen = chosen[::-1]
    elif order == "shuffled":
        chosen = random.Random(1).sample(chosen, count)
    return TABLES + "pat [" + "".join(chosen) + "]\n"


def strings(count, order):
    """A script of one pattern of this many strings, in this order."""
    chosen = [f"{{s{index:06d}}}" for index in range(count)]
    if order == "shuffled":
        random.Random(1).shuffle(chosen)
    return TABLES + "pat [" + "".join(chosen) + "]\n"


def one_string(length):
    """A script of one pattern of one string with this many characters."""
    return TABLES + "pat [{" + "a" * length + "}]\n"


def one_escape(count):
    """A script of one pattern of one escape with this many numbers."""
    return TABLES + "pat [\\u{" + " ".join(f"{ord(element):X}" for element in ELEMENTS[:count]) + "}]\n"


def nested(depth, inside="a"):
    """A script of one pattern of brackets inside one another."""
    return TABLES + "pat " + "[" * depth + inside + "]" * depth + "\n"


def neighbours(count):
    """A script of one pattern of this many sets of one element each, one behind another."""
    return TABLES + "pat [" + "".join(f"[{element}]" for element in ELEMENTS[:count]) + "]\n"


def operations(count):
    """A script of one pattern of this many sets with operations, one behind another."""
    return TABLES + "pat [" + "[[a-z{ab}]-[b-d{bc}]&[c-x{ab}]]" * count + "]\n"


def element(index):
    """A code point of four bytes, by its number; past the last they begin anew."""
    return chr(0x10000 + 2 * (index % 0x80000))


def base(count):
    """A set of this many elements: every second one of those that there are."""
    return "[" + "".join(element(2 * index) for index in range(count)) + "]"


def removals(count):
    """A script of one pattern of this many elements, each of which is then taken away alone."""
    return TABLES + "pat [" + base(count) + "".join(f"-[{element(2 * index)}]" for index in range(count)) + "]\n"


def keeps(count):
    """The same, where the complement of each is kept."""
    return TABLES + "pat [" + base(count) + "".join(f"&[^{element(2 * index)}]" for index in range(count)) + "]\n"


def turns(count):
    """A script of one pattern of this many elements, of which each is taken away and another joined, by turns."""
    steps = "".join(f"[{element(2 * index + 1)}]-[{element(2 * index)}]" for index in range(count))
    return TABLES + "pat [" + base(count) + steps + "]\n"


def outwards(count):
    """A script of one pattern of this many elements, and as many brackets around it with an element behind each."""
    behind = "".join(f"{element(2 * index + 1)}]" for index in range(count))
    return TABLES + "pat " + "[" * count + base(count) + behind + "\n"


def complements(count):
    """A script of one pattern of this many elements, and as many complements around it."""
    return TABLES + "pat " + "[^" * count + base(count) + "]" * count + "\n"


def string(index):
    """A string by its number."""
    return f"{{s{index:06d}}}"


def string_base(count):
    """A set of this many strings."""
    return "[" + "".join(string(index) for index in range(count)) + "]"


def string_removals(count):
    """A script of one pattern of this many strings, each of which is then taken away alone."""
    return TABLES + "pat [" + string_base(count) + "".join(f"-[{string(index)}]" for index in range(count)) + "]\n"


def string_keeps(count):
    """A script of one pattern of this many strings, of which two are kept as often."""
    return TABLES + "pat [" + string_base(count) + f"&[{string(0)}{string(1)}]" * count + "]\n"


def strings_outwards(count):
    """A script of one pattern of this many strings, and as many brackets around it with a string behind each."""
    behind = "".join(f"{string(count + index)}]" for index in range(count))
    return TABLES + "pat " + "[" * count + string_base(count) + behind + "\n"


def properties(count):
    """A script of one pattern of this many properties, one behind another."""
    return TABLES + "pat [" + "[:XIDS:]" * count + "]\n"


def variables(count):
    """A script of this many variables, and of one pattern that names each."""
    bound = "".join(f"let v{index:06d} char {0x10000 + 2 * index:X}\n" for index in range(count))
    return TABLES + bound + "pat [" + "".join(f"$v{index:06d} " for index in range(count)) + "]\n"


def unclosed(front, middle):
    """What makes a script of one pattern that ends too soon, behind `front` and as many of `middle`."""
    return lambda count: TABLES + "pat " + front + middle * count + "\n"


def unknown_property(length):
    """A script of one pattern of one property that no table has, with a name of this many characters."""
    return TABLES + "pat [:" + "a" * length + ":]\n"


def rows(count):
    """A table text whose first table has this many rows more, and no script."""
    head, first = TABLES.split("set XID_Start\n", 1)
    before, after = first.split("set ", 1)
    more = "".join(f"{0x10000 + 2 * index:X}\n" for index in range(count))
    return head + "set XID_Start\n" + before + more + "set " + after


def with_table(text):
    """A table text with one table more, and no script."""
    return TABLES.removesuffix("end\n") + text + "end\n"


def map_rows(count):
    """A table text with a map of this many rows."""
    return with_table("map Script 0\n" + "".join(f"{2 * index:X} {index % 7}\n" for index in range(count)))


def names_rows(count):
    """A table text with this many names of values."""
    return with_table("names Script\n" + "".join(f"{index % 60_000} n{index}\n" for index in range(count)))


def emoji_strings(count, order):
    """A table text with an emoji set of this many strings, in this order."""
    chosen = [f"{{{0x10000 + index:05X}_FE0F}}\n" for index in range(count)]
    if order == "shuffled":
        random.Random(1).shuffle(chosen)
    return with_table("emoji Basic_Emoji\n" + "".join(chosen))


def scripts_rows(count):
    """A table text with this many rows of scripts with extensions, of which each names a list."""
    lists = "".join(f"ext {index}\n{index}\n" for index in range(7))
    return with_table(lists + "scx 0\n" + "".join(f"{2 * index:X} {1024 + index % 7}\n" for index in range(count)))


def extensions(count):
    """A table text with this many scripts in one list."""
    return with_table("ext 0\n" + "".join(f"{index}\n" for index in range(count)))


KINDS = [
    ("rows of a map", map_rows, (1_000, 10_000, 100_000)),
    ("names of values", names_rows, (1_000, 10_000, 100_000)),
    ("emoji strings, ascending", lambda count: emoji_strings(count, "ascending"), (1_000, 10_000, 100_000)),
    ("emoji strings, shuffled", lambda count: emoji_strings(count, "shuffled"), (1_000, 10_000, 100_000)),
    ("scripts with extensions", scripts_rows, (1_000, 10_000, 100_000)),
    ("scripts of one list", extensions, (1_000, 10_000, 60_000)),
]

NAMED = [
    ("properties, one behind another", properties, (10, 1_000, 100_000)),
    ("variables, each used once", variables, (10, 1_000, 100_000)),
]

# Each is answered with a fault at its end, or at that of the name.
FAULTS = [
    ("open brackets", unclosed("", "["), (1_000, 100_000, 1_000_000)),
    ("an open string", unclosed("[{", "a"), (1_000, 100_000, 1_000_000)),
    ("an open escape", unclosed("[\\u{", "61 "), (1_000, 100_000, 1_000_000)),
    ("an open property", unclosed("[:", "a"), (1_000, 100_000, 1_000_000)),
    ("a name of no property", unknown_property, (1_000, 100_000, 1_000_000)),
]

STEPS = [
    ("elements taken away", removals),
    ("complements kept", keeps),
    ("joins and removals by turns", turns),
    ("brackets around elements", outwards),
    ("complements around elements", complements),
    ("strings taken away", string_removals),
    ("strings kept under few", string_keeps),
    ("brackets around strings", strings_outwards),
]


def processor_time():
    """The time that processors spent on the programs that have ended, for them and for the system."""
    usage = resource.getrusage(resource.RUSAGE_CHILDREN)
    return usage.ru_utime + usage.ru_stime


def seconds(program, text, status=0):
    """The least processor time that the program takes for the input, which it ends with this status."""
    data = text.encode("utf-8")
    least = None
    for _ in range(REPEATS):
        begun = processor_time()
        run = subprocess.run([program, "eval"], input=data, stdout=subprocess.PIPE, check=False)
        taken = processor_time() - begun
        if run.returncode != status:
            sys.exit(f"status {run.returncode}: {run.stdout[:80]!r}")
        least = taken if least is None else min(least, taken)
    return least, len(data)


def peak(program, text):
    """The most memory that the program holds for the input, in bytes."""
    with subprocess.Popen([program, "eval"], stdin=subprocess.PIPE, stdout=subprocess.DEVNULL) as run:
        run.stdin.write(text.encode("utf-8"))
        run.stdin.close()
        _, _, usage = os.wait4(run.pid, 0)
        run.returncode = 0
    return usage.ru_maxrss * 1024


def peak_at_answer(program, text):
    """The most memory of its own, in bytes, that the program has held as it begins to write an answer that fills a pipe: the
    peak of what is resident, without the pages of the program's file, of which some are read only where they are run."""
    with subprocess.Popen([program, "eval"], stdin=subprocess.PIPE, stdout=subprocess.PIPE) as run:
        run.stdin.write(text.encode("utf-8"))
        run.stdin.close()
        run.stdout.read(1)
        status = Path(f"/proc/{run.pid}/status").read_text(encoding="ascii")
        run.stdout.read()
    kibibytes = {line.split()[0]: int(line.split()[1]) for line in status.splitlines() if line.endswith(" kB")}
    return (kibibytes["VmHWM:"] - kibibytes["RssFile:"]) * 1024


def most_steps(make):
    """The most steps that a source of at most MOST_BYTES takes."""
    each = (len(make(2_000).encode("utf-8")) - len(make(1_000).encode("utf-8"))) / 1_000
    return int(MOST_BYTES / each)


def growing(program, start, series, status=0):
    """Prints the time of each series at each of its counts; the program ends with this status."""
    print()
    print("| input | count | bytes | ms | ns a byte |")
    print("|---|---|---|---|---|")
    for name, make, counts in series:
        for count in counts:
            taken, size = seconds(program, make(count), status)
            net = max(taken - start, 0.0)
            print(f"| {name} | {count:,} | {size:,} | {net * 1000:.1f} | {net * 1e9 / size:.0f} |")


def gathering(program, start):
    """Prints the time of sets that take many steps, at ever more steps, and at as many as the largest inputs have."""
    print()
    print("| input | steps | bytes | ms | ns a byte |")
    print("|---|---|---|---|---|")
    for name, make in STEPS:
        for count in (1_000, 4_000, 16_000, 64_000, most_steps(make)):
            taken, size = seconds(program, make(count))
            net = max(taken - start, 0.0)
            print(f"| {name} | {count:,} | {size:,} | {net * 1000:.1f} | {net * 1e9 / size:.0f} |")


def memory(program):
    """Prints what an open bracket takes beside the text itself, at depths that outweigh all else."""
    print()
    print("| brackets inside one another | bytes of memory a bracket |")
    print("|---|---|")
    for depth in (1_000_000, 2_000_000, 4_000_000):
        text = nested(depth, "")
        taken = peak(program, text) - len(text)
        print(f"| {depth:,} | {taken / depth:.0f} |")


def memory_of_maps(program):
    """Prints what a map takes beside its text: its runs, and its page tables at four bytes a value."""
    runs = category_runs()
    rows = "".join(f"{start:X}-{end:X} {value}\n" for start, end, value in runs if value)
    # an answer that fills a pipe
    script = "pat [" + "".join(ELEMENTS[:20_000]) + "]\n"
    texts = [with_table("".join(f"map {name} 0\n{rows}" for name in MAPS[:count])) + script for count in (1, len(MAPS))]
    few, many = (peak_at_answer(program, text) - len(text.encode("utf-8")) for text in texts)
    print()
    print("| a map of General_Category | runs | kB of memory |")
    print("|---|---|---|")
    print(f"| four bytes a value | {len(runs):,} | {(many - few) / (len(MAPS) - 1) / 1000:.0f} |")


def memory_of_elements(program):
    """Prints what an element of one bracket takes beside the text itself, and beside what does not grow with them."""
    print()
    print("| elements of one bracket | count | bytes of memory an element | beyond 16 bytes each, in kB |")
    print("|---|---|---|---|")
    for name, opening, shuffled in (
        ("ascending", "[", False),
        ("ascending, in a complement", "[^", False),
        ("shuffled", "[", True),
        ("shuffled, in a complement", "[^", True),
    ):
        for count in (60_000, 131_000, 262_000, 523_000):
            chosen = [element(index) for index in range(count)]
            if shuffled:
                random.Random(1).shuffle(chosen)
            text = TABLES + "pat " + opening + "".join(chosen) + "]\n"
            taken = peak_at_answer(program, text) - len(text.encode("utf-8"))
            print(f"| {name} | {count:,} | {taken / count:.1f} | {max(taken - 16 * count, 0) / 1000:.0f} |")


def main():
    program = sys.argv[1] if len(sys.argv) > 1 else str(TOP / "crates" / "uset" / "out" / "uset")
    # First, while this process is small: what it has resident counts towards the peak of a process that it starts.
    memory(program)
    print()
    start, _ = seconds(program, lines(2))
    print(f"start: {start * 1000:.1f} ms")
    series = [("`pat` lines", lines, (100, 1_000, 10_000, 100_000)), ("rows of a table", rows, (1_000, 10_000, 100_000))]
    for order in ("ascending", "shuffled", "descending"):
        series.append((f"elements, {order}", lambda count, order=order: elements(count, order), (1_000, 10_000, 100_000)))
    for order in ("ascending", "shuffled"):
        series.append((f"strings, {order}", lambda count, order=order: strings(count, order), (1_000, 10_000, 100_000)))
    series.append(("characters of one string", one_string, (1_000, 100_000, 1_000_000)))
    series.append(("numbers of one escape", one_escape, (1_000, 10_000, 100_000)))
    series.append(("brackets inside one another", nested, (10, 1_000, 100_000, 1_000_000)))
    series.append(("brackets around a string", lambda depth: nested(depth, "{ab}"), (10, 1_000, 100_000, 1_000_000)))
    series.append(("sets one behind another", neighbours, (10, 1_000, 100_000)))
    series.append(("sets with operations", operations, (10, 1_000, 100_000)))
    growing(program, start, series)
    growing(program, start, KINDS)
    growing(program, start, NAMED)
    growing(program, start, FAULTS, status=1)
    gathering(program, start)
    memory_of_elements(program)
    memory_of_maps(program)


if __name__ == "__main__":
    main()
