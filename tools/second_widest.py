"""The second writer of the channel with the widest drawing, from documents 01 and 02; which channel it is, include/gaxwethi.h says."""

from second_channel import refused_lengths


def columns_of(n):
    """Top and bottom pin of each column of the channel with n columns: for odd n first an empty one, then two nets begin in each, then they end crossed."""
    begun = [(net + 1, net) for net in range(1, n, 2)]
    return [(0, 0)] * (n % 2) + begun + [(below, above) for above, below in begun]


def widest(top, bottom):
    """Writes the channel into two rows, whatever they hold; number and added columns of the answer. A refused call leaves them as they were."""
    number = refused_lengths(top, bottom)
    if number:
        return number, 0
    n = len(top)
    for column, pins in enumerate(columns_of(n)):
        top[column], bottom[column] = pins
    return 0, n // 2
