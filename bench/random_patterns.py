#!/usr/bin/env python3
"""Gives random patterns to `uset eval` and to ICU4C's UnicodeSet, and compares what they answer.

Usage: bench/random_patterns.py PROGRAM TABLES [COUNT [SEED]]. TABLES is a table text of the Unicode version that ICU4C has; its
headers are to be had (libicu-dev), and a C++ compiler. The patterns of the first half are written so that both have to read
them alike. In those of the second half some characters are left out, put in or doubled. There one may refuse what the other
reads: ICU4C reads names loosely, a `$` that begins no variable as itself, a range from a hyphen behind a first one, a property
with an empty value, surrogates in strings, and `\\x` with one digit; `uset` reads ranges of one member, those with an end in
braces, and `\\u` with braces. How many are read by one alone for each of these reasons is printed, and each pattern that is
read otherwise, or by one alone in the first half or for no such reason; then the status is 1.
"""

import random
import re
import subprocess
import sys
import tempfile
from collections import Counter
from pathlib import Path

REFERENCE = """
#include <unicode/parsepos.h>
#include <unicode/uniset.h>
#include <unicode/usetiter.h>
#include <cstdio>
#include <iostream>
#include <string>

int main() {
  std::string line;
  while (std::getline(std::cin, line)) {
    UErrorCode error = U_ZERO_ERROR;
    icu::ParsePosition end(0);
    icu::UnicodeString source = icu::UnicodeString::fromUTF8(line);
    icu::UnicodeSet set;
    set.applyPattern(source, end, USET_IGNORE_SPACE, nullptr, error);
    if (U_FAILURE(error)) { std::puts("err"); continue; }
    std::string read;
    source.tempSubString(0, end.getIndex()).toUTF8String(read);
    std::printf("ok %zu", read.size());
    for (int32_t i = 0; i < set.getRangeCount(); i++) {
      std::printf(" %04X", set.getRangeStart(i));
      if (set.getRangeStart(i) != set.getRangeEnd(i)) std::printf("-%04X", set.getRangeEnd(i));
    }
    icu::UnicodeSetIterator members(set);
    while (members.nextRange()) {
      if (!members.isString()) continue;
      const icu::UnicodeString &text = members.getString();
      std::printf(" {");
      for (int32_t i = 0; i < text.length(); i = text.moveIndex32(i, 1)) {
        std::printf(i ? "_%04X" : "%04X", text.char32At(i));
      }
      std::printf("}");
    }
    std::puts("");
  }
}
"""

PROPERTIES = (
    "[:L:] [:Lu:] \\p{Ll} \\P{L} [:^Alphabetic:] \\p{^Nd} [:sc=Grek:] [:scx=Deva:] [:Script=Latin:] \\p{gc=Zs} [:White_Space:] "
    "[:gc=P:] \\p{sc=Cyrl} [:Greek:] [:lb=AL:] [:wb=ALetter:] [:gcb=Extend:] [:sb=Lower:] [:ea=W:] [:ccc=230:] [:Uppercase:] "
    "[:ASCII_Hex_Digit=Yes:] [:Alphabetic=No:]"
).split()

# Characters as a pattern may have them, in ascending order.
CHARACTERS = (
    "\\u0000 \\t \\n \\  ! \\\" # \\$ \\& ' ( \\- . / 0 9 \\: ; = ? @ A Z \\[ \\\\ \\] \\^ _ a b c x y z \\{ | \\} ~ \\u00AD ß é α "
    "\\uD800 一 \\uFFFF \\U00010000 😀 \\U0010FFFF"
).replace("\\  ", "\\\u0001 ").split()
CHARACTERS = [character.replace("\u0001", " ") for character in CHARACTERS]

# What is put in where a pattern is spoilt.
SIGNS = "[]{}^-&$\\:=pPab0"

# One character, or an escape of one.
ONE = r"(\\u[0-9A-F]{4}|\\U[0-9A-F]{8}|\\.|[^\\])"

# A range of two of them.
RANGE = re.compile(f"(?={ONE}-{ONE})")

# Why `uset` alone reads a pattern that has no range of one member.
USET_ALONE = {
    "a range with braces": re.compile(rf"\{{{ONE}\}}-|-\{{{ONE}\}}"),
    "an escape with braces": re.compile(r"\\u\{"),
}

# Why ICU4C alone reads a pattern, by the answer of `uset`: the source through the character at the fault, and what is wrong.
ICU4C_ALONE = {
    "a `$`": re.compile(r"\$.?← error: unexpected character|← error: unknown variable"),
    "a range from a hyphen": re.compile(r"\[\^?--.← error: unexpected character"),
    "a loose name": re.compile(r"(\[:|\\[pP]\{)[^\]}]*(-← error: unexpected character|← error: unknown property)"),
    "an empty value": re.compile(r"(\[:|\\[pP]\{)[^\]}]*=[:}]← error: unexpected character"),
    "an `\\x` with one digit": re.compile(r"\\x[0-9A-Fa-f].← error: unexpected character"),
    "a surrogate in a string": re.compile(r"\{([^}\\]|\\.)*\\← error: invalid escape sequence"),
}

# Escapes that ICU4C reads and `uset` has for the character itself, or not at all: octal numbers, \\c, \\e and \\N.
OTHER_ESCAPES = re.compile(r"\\[0-7ceN]")


class Patterns:
    """Makes patterns, the same for a seed."""

    def __init__(self, seed):
        self.random = random.Random(seed)

    def space(self):
        return self.random.choice(["", "", "", " "])

    def string(self):
        characters = [character for character in CHARACTERS if character != "\\uD800"]
        return "{" + "".join(self.random.choices(characters, k=self.random.choice([0, 2, 2, 3, 4]))) + "}"

    def range(self):
        first, last = sorted(self.random.sample(range(len(CHARACTERS)), 2))
        return f"{CHARACTERS[first]}{self.space()}-{self.space()}{CHARACTERS[last]}"

    def operand(self, depth):
        if depth == 0 or self.random.random() < 0.4:
            return self.random.choice(PROPERTIES)
        return self.bracket(depth - 1)

    def element(self, depth):
        kind = self.random.random()
        if kind < 0.3:
            return self.random.choice(CHARACTERS)
        if kind < 0.5:
            return self.range()
        return self.string() if kind < 0.65 else self.operand(depth)

    def bracket(self, depth):
        text = "[" + self.random.choice(["", "", "", "^", "-", "^-"])
        for _ in range(self.random.choice([0, 1, 1, 2, 2, 3, 4])):
            text += self.space() + self.element(depth)
            if self.random.random() < 0.3:
                text += self.space() + self.random.choice("&-") + self.space() + self.operand(depth)
        return text + self.random.choice(["", "", "", "", "-", "$"]) + self.space() + "]"

    def whole(self):
        return self.bracket(self.random.choice([0, 1, 1, 2, 3])) + self.random.choice(["", "", "", "x", "]", "[a]"])

    def spoilt(self):
        """Without white space, since ICU4C also counts what stands behind a set."""
        text = self.whole().replace(" ", "")
        for _ in range(self.random.choice([1, 1, 2, 3])):
            place = self.random.randrange(len(text) + 1)
            kind = self.random.random()
            if kind < 0.4:
                text = text[:place] + text[place + 1 :]
            elif kind < 0.8:
                text = text[:place] + self.random.choice(SIGNS) + text[place:]
            else:
                text = text[:place] + text[place : place + 2] + text[place:]
        return self.spoilt() if OTHER_ESCAPES.search(text) else text


def answers(command, text):
    done = subprocess.run(command, input=text.encode("utf-8"), stdout=subprocess.PIPE, check=False)
    return done.stdout.decode("utf-8").split("\n")[:-1]


def in_one_order(answer):
    """An answer with its strings in one order: UnicodeSet has them by UTF-16 units."""
    words = answer.split(" ")
    return words[:2] + sorted(words[2:]) if words[0] == "ok" else ["err"]


def character(spelled):
    """The character that one character or one escape spells."""
    if spelled[0] != "\\":
        return spelled
    digits = spelled[2:]
    return chr(int(digits, 16)) if digits else {"t": "\t", "n": "\n"}.get(spelled[1], spelled[1])


def reason_of(pattern, answer):
    """Why one alone reads the pattern, by the answer of `uset`. Empty where for none of the reasons that are known."""
    if answer.startswith("err "):
        return next((reason for reason, told in ICU4C_ALONE.items() if told.search(answer)), "")
    if any(character(ends[1]) == character(ends[2]) for ends in RANGE.finditer(pattern)):
        return "a range of one member"
    return next((reason for reason, spelled in USET_ALONE.items() if spelled.search(pattern)), "")


def kind_of(one, other):
    """How the two answers to a pattern stand to one another."""
    if one[0] != other[0]:
        return "read by uset alone" if one[0] == "ok" else "read by ICU4C alone"
    if one != other:
        return "read otherwise"
    return "read alike" if one[0] == "ok" else "refused by both"


def wrong_answers(name, patterns, ours, theirs, is_spoilt):
    """How many answers are wrong. They are printed, and how many stand to one another in each way, and why."""
    counts = dict.fromkeys(["read alike", "refused by both", "read by uset alone", "read by ICU4C alone", "read otherwise"], 0)
    reasons, wrong = Counter(), 0
    for pattern, our, their in zip(patterns, ours, theirs, strict=True):
        one, other = in_one_order(our), in_one_order(their)
        kind = kind_of(one, other)
        counts[kind] += 1
        reason = reason_of(pattern, our) if kind.endswith("alone") and is_spoilt else ""
        if reason:
            reasons[reason] += 1
        elif kind == "read otherwise" or kind.endswith("alone"):
            wrong += 1
            print(f"{pattern}\n  uset  {our[:200]}\n  ICU4C {their[:200]}")
    told = [f"{count:,} {kind}" for kind, count in counts.items()] + [f"{count:,} for {reason}" for reason, count in reasons.most_common()]
    print(f"{name}: " + ", ".join(told), flush=True)
    return wrong


def main():
    program, tables = sys.argv[1], Path(sys.argv[2]).read_text(encoding="utf-8")
    count = int(sys.argv[3]) if len(sys.argv) > 3 else 100_000
    patterns = Patterns(int(sys.argv[4]) if len(sys.argv) > 4 else 1)
    with tempfile.TemporaryDirectory() as folder:
        source, reference = Path(folder) / "reference.cpp", Path(folder) / "reference"
        source.write_text(REFERENCE, encoding="utf-8")
        subprocess.run(["g++", "-O2", "-std=c++17", str(source), "-o", str(reference), "-licuuc"], check=True)
        wrong = 0
        for name, make in [("whole", patterns.whole), ("spoilt", patterns.spoilt)]:
            made = [make() for _ in range(count // 2)]
            ours = answers([program, "eval"], tables + "".join(f"pat {pattern}\n" for pattern in made))
            theirs = answers([str(reference)], "".join(f"{pattern}\n" for pattern in made))
            wrong += wrong_answers(name, made, ours, theirs, name == "spoilt")
    sys.exit(1 if wrong else 0)


if __name__ == "__main__":
    main()
