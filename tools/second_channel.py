"""The channel of the second router, from documents 01 and 02 alone: refusals, nets, density, families, tracks."""

LARGEST = 256  # columns of a channel, and net numbers
TWO_PIN, THREE_PIN, MANY_PIN = "two-pin", "three-pin", "many-pin"  # the families, each with a sweep of its own


def refused_lengths(top, bottom, limit=LARGEST):
    """The first of 4 and 5 that applies to the rows; 0 if none does."""
    if len(top) != len(bottom):
        return 4
    return 5 if len(top) > limit else 0


def refusal(top, bottom, limit=LARGEST):
    """The number of the first row of the table, 4 to 7, that applies to the rows; 0 if none does."""
    number = refused_lengths(top, bottom, limit)
    if number:
        return number
    if any(number > LARGEST for number in top + bottom):
        return 6
    if any(count == 1 for count in pin_counts(top, bottom).values()):
        return 7
    return 0


def pin_counts(top, bottom):
    """The pins of each net."""
    counts = {}
    for number in top + bottom:
        if number:
            counts[number] = counts.get(number, 0) + 1
    return counts


def span(top, bottom):
    """First and last column of each net."""
    ends = {}
    for column, pair in enumerate(zip(top, bottom), 1):
        for number in pair:
            if number:
                ends[number] = (ends.get(number, (column, 0))[0], column)
    return ends


def density(top, bottom):
    """The largest count, over the gaps, of nets with pins on both sides."""
    ends = span(top, bottom).values()
    return max((sum(first <= gap < last for first, last in ends) for gap in range(1, len(top))), default=0)


def begins_twice(top, bottom):
    """Whether a net of three pins has its first two in one column."""
    counts, ends = pin_counts(top, bottom), span(top, bottom)
    shared = [(column, above) for column, (above, below) in enumerate(zip(top, bottom), 1) if above and above == below]
    return any(counts[net] == 3 and ends[net][0] == column for column, net in shared)


def family(top, bottom):
    """Which sweep draws a channel: by its largest net, and where that has three pins by how such nets begin."""
    largest = max(pin_counts(top, bottom).values(), default=2)
    if largest == 2:
        return TWO_PIN
    return THREE_PIN if largest == 3 and not begins_twice(top, bottom) else MANY_PIN


def tracks(top, bottom):
    """The tracks of the sweep's drawing."""
    d = density(top, bottom)
    return {TWO_PIN: d, THREE_PIN: 3 * d // 2, MANY_PIN: 2 * d - 1}[family(top, bottom)]
