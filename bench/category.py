"""The runs of General_Category, by Python's own Unicode data."""

import unicodedata

# The categories, each at its number.
CATEGORIES = "Cn Lu Ll Lt Lm Lo Mn Me Mc Nd Nl No Zs Zl Zp Cc Cf Co Cs Pd Ps Pe Pc Po Sm Sc Sk So Pi Pf".split()


def category_runs():
    """The maximal runs: the first and last code point of each, and the number of its category."""
    runs = []
    for c in range(0x110000):
        value = CATEGORIES.index(unicodedata.category(chr(c)))
        if runs and runs[-1][2] == value:
            runs[-1][1] = c
        else:
            runs.append([c, c, value])
    return runs
