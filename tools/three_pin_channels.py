"""Channels of two- and three-pin nets that use every rule of the third sweep and every tie (docs/THREE-PIN.md): top row, bottom row.

D and M are the unpaired double nets of rule 3. Beside each channel stands what it was chosen for; each uses other rules too.
"""

MIXED = (  # all rules between them
    ("9 3 3 5 5 4 7 7 0", "9 1 3 1 1 5 4 0 7"),
    ("2 0 2 2 4 4 8 0", "0 7 4 8 7 7 0 8"),
    ("9 7 5 7 5 2 2 4 4", "7 9 9 5 2 6 4 6 6"),
    ("3 3 8 0 0 6 0", "8 8 3 6 6 0 0"),
    ("8 5 1 3 8 6 4 3 4", "1 1 5 8 5 3 6 6 4"),
    ("4 4 2 8 8 1", "2 8 4 1 1 0"),
    ("2 7 8 1 1 7 0 3", "1 2 3 7 8 8 3 2"),
    ("4 1 4 6 8 6 3 2 2", "1 8 1 3 4 2 6 8 3"),
    ("7 7 7 2 4 1 0 1", "3 4 3 4 1 2 3 2"),
    ("4 1 6 1 4 6 6 3", "9 3 9 9 1 8 4 8"),
    ("7 4 4 7 3 1 0 3", "2 2 3 2 1 4 7 1"),
    ("7 6 4 7 3 0", "6 6 7 4 0 3"),
    ("1 7 4 2 3 3 3", "7 1 2 4 0 0 4"),
    ("0 7 6 6 5 5 2 2", "3 3 5 2 3 6 7 7"),
)

TIES = (  # the order of nets where several would do
    ("7 1 7 1 5 7 4 5 4", "6 8 1 8 6 5 0 6 4"),  # of two that end together D is the lower-numbered
    ("12 3 1 8 1 7 1 9 11 12", "11 7 9 3 0 9 3 7 8 11"),  # of two continuing nets that end together the lower-numbered is double
    ("3 12 9 4 12", "9 3 3 12 4"),  # of two ending nets the one with more strands ends; of equals the lower-numbered
    ("9 0 9 8 8 4 12 12", "11 8 11 4 11 12 4 0"),  # a continuing net that ends together with D stays single
    ("1 4 4 4 1 0 5 11", "11 5 1 11 5 2 2 2"),  # D ends last, though M has the lower number
    ("2 6 1 16 8 2 12 17 6 5 17 19 16 13", "8 12 2 10 1 16 10 13 5 19 6 19 10 1"),  # M is the lowest-numbered of two others
    ("8 1 11 1 8 2 4 6 0", "11 6 2 11 6 4 2 0 8"),  # beside M, a continuing top net that ends before it
    ("7 8 10 10 8 11 2 10 6", "6 2 8 7 6 2 0 0 11"),  # the same of a bottom net
    ("9 3 9 12 2 8 8 1 1", "12 8 2 9 3 1 2 0 12"),  # beside M, a continuing top net that ends no earlier
    ("11 4 5 5 11 2 11 6 0", "5 12 6 6 12 4 4 2 2"),  # the same of a bottom net
    ("5 9 9 2 5 1 5 10 3 3 8 1", "8 10 1 10 3 9 2 8 4 2 4 4"),  # beside M, the lowest-numbered of two others
    ("4 6 6 4 1 3 5 5", "1 0 1 3 6 4 2 2"),  # of two extended nets the lower-numbered is joined
)

PAIRS = (  # a double net that would be reduced, had it no mate
    ("3 2 6 2 4 7 1 5 1 4", "6 3 4 6 3 1 5 7 5 2"),  # M, beside D that was reduced
    ("3 4 4 5 0 1 2 2", "5 3 3 2 1 1 5 4"),  # a continuing net that took the second strand of an unpaired one
    ("1 0 3 1 2 2 5", "3 5 5 2 4 4 1"),  # a double net beside a continuing one that ends no earlier
)

SINGLE = (  # one case of a rule each
    ("6 9 4 6 5 1 9 3 6 2 3 10 10 1 5", "8 7 9 4 7 0 4 7 2 8 5 1 10 2 8"),  # M beside a bottom net that ends with it and moves; rule 4 beside an extended net
    ("2 6 6 8 7 4 7 8 0 8 7", "3 1 1 3 4 2 1 3 5 4 5"),  # D beside a bottom net that ends later; M of two others, a bottom pin starts
    ("2 7 9 4 1 2 9 4 3 6 2 5", "4 8 6 5 9 8 1 5 7 1 3 7"),  # M of two others beside a bottom net that ends later
    ("3 1 3 5 5 1 2 6 5", "2 0 1 4 3 4 6 4 2"),  # M beside a top net that ends later and moves
    ("9 5 11 2 8 1 8 4 1 11 5 6 2 3 7", "3 7 8 5 7 10 10 9 9 4 3 2 11 6 1"),  # M of two others beside a bottom net that ends before it
    ("4 6 1 4 2 5 3 2 3 2", "3 1 5 5 4 6 1 7 6 7"),  # M beside a top net that ends later; D by number
    ("1 1 2 0", "2 2 1 0"),  # an extended net, and no pin: it is joined
    ("2 2 1 3", "0 1 2 3"),  # an extended net, and both pins of a two-pin net
    ("3 3 0 2", "1 1 2 1"),  # D alone, a bottom pin starts
    ("0 2 3 5 1 2 3 6 6 5 7 8", "6 1 7 8 2 8 1 4 5 3 4 4"),  # M beside a top net that ends before it, the free track below its two
    ("2 6 5 7 1 2 2 0 5 4 4 3", "3 4 1 8 6 7 1 8 3 9 9 8"),  # M beside a top net that ends before it, the free track between its two; D by number
    ("3 0 2 3 3", "2 1 0 1 1"),  # two continuing nets that end together, the bottom one double, the top one stays
    ("1 3 4 1 3 2", "4 2 4 2 1 3"),  # two continuing nets, the top one double, the bottom one moves
    ("1 4 2 1 4 1", "2 3 2 4 3 3"),  # two continuing nets, the bottom one double, the top one stays
    ("3 1 2 5 1 4 4", "5 2 2 3 4 5 1"),  # D beside a top net that ends later and stays
    ("2 5 2 4 5 5 4", "4 3 2 3 1 1 1"),  # D beside a top net that ends before it, the free track between its two
    ("4 2 4 2 1 3 5", "2 4 3 3 5 1 1"),  # D alone, both pins start, the free track between its two
    ("3 1 1 3 4 4 4", "2 5 2 3 5 5 1"),  # D beside a bottom net that ends before it, the free track between its two
    ("4 5 5 1 3 3 3", "1 2 2 0 4 2 4"),  # D beside a bottom net that ends later and moves
    ("4 1 1 4 5 5 4", "3 5 3 3 2 2 2"),  # D beside a top net that ends before it, the free track below its two
    ("1 2 3 3 1 5 5 6", "3 6 4 4 6 2 2 4"),  # M beside a bottom net that ends before it, D by number
    ("2 3 4 2 6 3 6 0", "4 5 5 4 3 1 1 2"),  # D beside a bottom net that ends before it, the free track below its two
    ("5 1 0 1 5 0 2 1", "3 4 5 4 3 2 2 3"),  # D by number, a bottom pin starts
    ("2 6 5 4 1 5 6 3", "6 2 1 3 2 3 4 1"),  # two double nets end beside an extended one, and both are joined
    ("4 6 6 5 3 2 3 2", "1 5 1 6 2 3 4 5"),  # D alone, both pins start, the free track below its two
    ("7 5 6 4 1 4 3 1 3", "2 2 1 7 6 2 5 4 5"),  # M beside a bottom net that ends later, D by number
    ("3 5 1 3 5 4 3 5 4", "1 6 6 6 1 2 2 4 2"),  # D and M, both pins start, the free track below its two
    ("6 4 2 5 2 3 3 1 2", "0 5 6 4 6 1 0 1 5"),  # D by number, both pins start
    ("2 6 5 4 2 3 3 4 1", "4 5 6 6 5 1 2 3 1"),  # D and M, both pins start, the free track between its two
    ("0 2 6 3 4 2 3 3 5 1", "6 4 4 5 6 5 1 2 0 1"),  # M beside a top net that ends with it and stays
    ("6 1 4 2 5 5 3 7 0 7 2", "4 4 1 6 3 6 1 2 7 3 5"),  # M beside a bottom net that ends later and moves
    ("2 1 7 2 3 1 8 4 4 5 1 8", "3 6 5 7 7 2 6 6 5 4 8 3"),  # M beside a bottom net that ends before it, the free track below its two
    ("4 7 3 1 5 6 5 4 2 8 8 7", "3 5 2 6 6 1 7 3 8 1 4 2"),  # M of two others beside a top net that ends later
    ("5 9 6 2 10 5 2 3 7 8 9 9 8", "6 3 4 1 7 6 1 10 4 0 2 10 5"),  # M of two others, a top pin starts
    ("1 4 5 5 2 7 2 5 3 6 8 9 1 9", "9 0 7 0 3 6 4 1 7 8 2 6 8 3"),  # M of two others beside a top net that ends before it
)

BORDERS = (  # which channels are drawn by this sweep
    ("1 2 3 1 2 3", "0 0 0 1 2 3"),  # the last two pins in one column: it is, on 4 tracks
    ("1 2 3 1 2 3", "1 2 3 0 0 0"),  # the first two: it is not, and has 5
    ("1 2 3 4 1 2 3", "0 4 3 5 5 1 2"),  # the first two of one net alone: it is not
    ("1 2 6 3 1 2 3", "0 4 6 4 1 2 3"),  # both pins of a two-pin net in one column: it is
    ("1 2 3 1 2 3 1", "2 0 0 1 0 0 3"),  # one net of four pins: it is not
)


def channels():
    """All of them, as rows of numbers."""
    return [tuple([int(word) for word in row.split()] for row in rows) for rows in MIXED + TIES + PAIRS + SINGLE + BORDERS]
