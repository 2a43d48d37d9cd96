"""The records of the second router, from documents 01 and 02 alone: reading, writing, and the canonical record of a channel."""

from second_channel import refusal


def little(data, place):
    """The two-byte number at a place."""
    return data[place] + 256 * data[place + 1]


def read_record(data):
    """Number, top row and bottom row of a record of kind 1."""
    if not 4 <= len(data) <= 1030 or little(data, 0) != len(data) - 2:
        return 1, [], []
    if little(data, 2) != 1:
        return 2, [], []
    body = data[4:]
    if len(body) < 2 or len(body) != 2 + 4 * little(body, 0):
        return 3, [], []
    n = little(body, 0)
    numbers = [little(body, 2 + 2 * k) for k in range(2 * n)]
    return 0, numbers[:n], numbers[n:]


def write_record(top, bottom):
    """A record of kind 1."""
    body = b"".join(number.to_bytes(2, "little") for number in [len(top)] + top + bottom)
    return (len(body) + 2).to_bytes(2, "little") + b"\x01\x00" + body


def renumbered(top, bottom):
    """The rows with their nets renumbered 1, 2, 3 in the order of their first pin, column by column, top before bottom."""
    numbers = {0: 0}
    for pair in zip(top, bottom):
        for net in pair:
            numbers.setdefault(net, len(numbers))
    return [numbers[net] for net in top], [numbers[net] for net in bottom]


def canonical(top, bottom, output):
    """Writes the canonical record into the first bytes of a bytearray; number and length of the answer. A refused call leaves it as it was."""
    number = refusal(top, bottom) or (18 if len(output) < 6 + 4 * len(top) else 0)
    if number:
        return number, 0
    record = write_record(*renumbered(top, bottom))
    output[: len(record)] = record
    return 0, len(record)
