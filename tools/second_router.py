#!/usr/bin/env python3
"""A second router, checker, net report, canonical record, column-by-column sweep, drawing board and widest channel for knock-knee channels.

Written from documents 01 and 02, the third sweep with the choices of docs/THREE-PIN.md, so that its answers can be laid beside those of the proved one.
It keeps the tracks of each net as a set, draws wires row by row, and finds pieces by a search over grid points.

    second_router.py list  < record      the listing of one record
    second_router.py compare FILE ...    compare with files of worked cases, whose names end in routes.txt, needs.txt, listings.txt, checks.txt,
                                         reports.txt, long.txt, records.txt, pairs.txt, steps.txt, short.txt, boards.txt or widest.txt; cases of games
                                         are skipped
"""

import copy
import sys

from second_board import Board
from second_channel import LARGEST, TWO_PIN, family, refusal
from second_checker import check
from second_record import canonical, read_record
from second_report import NO_RECORD, report
from second_steps import Sweep
from second_sweep import need, route, route_number
from second_widest import widest

LISTED = 64  # columns of a channel that is listed


def listing(data):
    """The text for a record."""
    number, top, bottom = read_record(data)
    number = number or refusal(top, bottom, LISTED)
    if number:
        return "refused %d\n" % number
    d, t, w, layout = route(top, bottom)
    lines = ["density %d tracks %d width %d" % (d, t, w)]
    for column in range(w):
        entries = [str(entry) for entry in layout[column * (2 * t + 1) : (column + 1) * (2 * t + 1)]]
        lines.append(" ".join(["%d:" % (column + 1)] + entries[: t + 1] + ["|"] + entries[t + 1 :]))
    return "\n".join(lines) + "\n"


# Comparison with known answers


def blocks(path):
    """Parts of a file between empty lines."""
    with open(path) as file:
        return [part.split("\n") for part in file.read().strip("\n").split("\n\n")]


def row(line):
    """The numbers of a line after its first word, where 5x199 is the number 5, 199 times."""
    parts = (word.partition("x") for word in line.split(" ")[1:] if word)
    return [int(number) for number, _, times in parts for _ in range(int(times or 1))]


def figures(line):
    """Every second word of a line as a number."""
    return tuple(int(word) for word in line.split(" ")[1::2])


def weighed(layout):
    """The sum over the entries of (position + 1) times entry, modulo 2 to the 32nd."""
    return sum(place * entry for place, entry in enumerate(layout, 1)) % 2**32


def same_route(part):
    """Whether the router gives a worked case's answer: a refusal, or figures and a drawing, by its entries or, where it is large, by their sum alone."""
    lines = {line.split(" ")[0]: line for line in part}
    top, bottom = row(lines["top"]), row(lines["bottom"])
    number = refusal(top, bottom)
    if number or "refused" in lines:
        return part[2:] == ["refused %d" % number]
    d, t, w, drawn = route(top, bottom)
    same = [(d, t, w) == figures(lines["density"]), check(top, bottom, w, t, drawn) == (0, 0, 0, 0)]
    same += [weighed(drawn) == row(lines["sum"])[0]] if "sum" in lines else []
    same += [drawn == row(lines["layout"])] if "layout" in lines else []
    return len(same) > 2 and all(same)


def same_need(part):
    """Whether the router gives a worked case's answers: the need or a refusal, then the number of routing with a slice of each length."""
    top, bottom = row(part[0]), row(part[1])
    number = refusal(top, bottom)
    lengths = [figures(line)[0] for line in part[3:]]
    answers = ["refused %d" % number if number else "need %d" % need(top, bottom)]
    answers += ["slice %d number %d" % (length, route_number(top, bottom, length)) for length in lengths]
    return len(answers) > 1 and part[2:] == answers


def same_listing(part):
    return listing(bytes.fromhex(part[0].partition(" ")[2])) == "\n".join(part[1:]) + "\n"


def check_case(part):
    """What the checker is lent."""
    return row(part[0]), row(part[1]), *figures(part[2]), row(part[3])


def before_job_1(number, place, *point):
    """Number and place as they were before Job 1, when a loose end passed, and Job 8, when 14 stood for 19 and 20 too."""
    return (0, 0) if number == 17 else (14 if number in (19, 20) else number, place)


def same_check(part):
    """Whether the checker gives a worked case's answer. One without column and row is from before Job 1."""
    answer, worked = check(*check_case(part)), figures(part[4])
    return worked == (before_job_1(*answer) if len(worked) == 2 else answer)


def report_case(part):
    """What the report is lent: rows, the drawing or None, and how many records the table has."""
    drawing = None if part[2] == "no drawing" else (*figures(part[2]), row(part[3]))
    records, = next(figures(line) for line in part if line.startswith("table "))
    return row(part[0]), row(part[1]), drawing, records


def same_report(part):
    """Whether the report gives a worked case's answer and fills the table accordingly: the records of a refused call and those after the 256th stay."""
    top, bottom, drawing, records = report_case(part)
    kept = [(-1,) * 4] * records
    table = list(kept)
    answer = report(top, bottom, table, drawing)
    worked = next(figures(line) for line in part if line.startswith("number "))
    nets = {net: record for net, *record in (figures(line) for line in part if line.startswith("net "))}
    filled = [tuple(nets.get(net, NO_RECORD)) for net in range(1, LARGEST + 1)]
    return worked == answer and table == (kept if worked[0] else filled + kept[LARGEST:])


def same_record(part):
    """Whether a worked case's canonical record is written, or its refusal answered, and the rest of the slice stays."""
    (room,), (number,) = row(part[2]), row(part[3])
    record = b"".join(bytes.fromhex(line.partition(" ")[2]) for line in part[4:])
    kept = b"\xa5" * room
    output = bytearray(kept)
    answer = canonical(row(part[0]), row(part[1]), output)
    return answer == (number, len(record)) and output == record + kept[len(record) :]


def first_columns(top, bottom, k):
    """The density of a channel, and the first k columns of its drawing."""
    d, t, _, drawn = route(top, bottom)
    return d, drawn[: k * (2 * t + 1)]


def same_pair(part):
    """Whether two channels of two-pin nets and equal density, whose first columns agree, have the worked ones there in their drawings, both the same."""
    one, other = (row(part[0]), row(part[1])), (row(part[2]), row(part[3]))
    (k,), (total,) = row(part[4]), row(part[5])
    if any(refusal(*rows) or family(*rows) != TWO_PIN or len(rows[0]) < k for rows in (one, other)):
        return False
    drawn = first_columns(*one, k)
    return [pins[:k] for pins in one] == [pins[:k] for pins in other] and drawn == first_columns(*other, k) and weighed(drawn[1]) == total


def same_step(sweep, layout, line, width):
    """Whether a step is answered as in a worked case, finished at the width and not before, and changes just the columns that it draws."""
    (k, worked), first, kept = figures(line), sweep.drawn, list(layout)
    if sweep.step(layout, k) != (0, worked, worked == width):
        return False
    entries = 2 * sweep.tracks + 1
    left, right = first * entries, worked * entries
    return len(layout) == len(kept) and layout[:left] == kept[:left] and layout[right:] == kept[right:]


def same_short_step(sweep, layout, line):
    """Whether a step with a slice one entry too short is refused as in a worked case, and changes neither sweep nor slice."""
    (k, worked), before, lent = figures(line), copy.deepcopy(sweep), layout[:-1]
    return sweep.step(lent, k) == (worked, 0, False) and lent == layout[:-1] and vars(sweep) == vars(before)


def same_net(state, call, line):
    """Whether a call with a net, and its two terminals if it has some, is answered as in a worked case; a refused one changes nothing."""
    (net, *given), before = row(line.partition(" number ")[0]), copy.deepcopy(state)
    number = call(net, *zip(given[::2], given[1::2]))
    return line.endswith(" number %d" % number) and (number == 0 or vars(state) == vars(before))


def same_call(sweep, layout, line, width):
    """Whether one call of a worked case is answered as there."""
    if line.startswith("place "):
        return same_net(sweep, sweep.place, line)
    if line.startswith("short "):
        return same_short_step(sweep, layout, line.removeprefix("short "))
    return same_step(sweep, layout, line, width)


def same_steps(part, sweep_of=Sweep):
    """Whether a sweep driven as in a worked case gives its answers, and at the end its channel with all late nets and its drawing, the one-call router's."""
    sweep = sweep_of()
    sweep.start([1, 2], [2, 1])  # another channel before, of which nothing must stay
    sweep.step([0] * 15, 1)
    number, t, length = sweep.start(row(part[0]), row(part[1]))
    if part[2] != "start %d tracks %d slice %d" % (number, t, length):
        return False
    if number:
        return len(part) == 3 and vars(sweep) == vars(sweep_of())
    calls = [line for line in part[3:] if line.split(" ")[0] in ("place", "short", "step")]
    end = part[3 + len(calls) :]
    if len(end) < 4 or not end[0].startswith("finished width "):
        return False
    layout, width = [-1] * length, int(end[0].split(" ")[2])
    if not all(same_call(sweep, layout, line, width) for line in calls):
        return False
    drawn = layout[: width * (2 * t + 1)]
    same = [sweep.finished(), sweep.drawn == width, sweep.rows == (row(end[1]), row(end[2])), end[3] == "sum %d" % weighed(drawn)]
    same += [row(line) == drawn for line in end[4:]]
    return all(same) and route(*sweep.rows)[1:] == (t, width, drawn) and layout[len(drawn) :] == [-1] * (length - len(drawn))


def same_answer(board, line):
    """Whether one call of a worked case with a board is answered as there."""
    word = line.split(" ")[0]
    if word in ("add", "drop"):
        return same_net(board, board.add if word == "add" else board.drop, line)
    if word == "count":
        gap, worked = row(line)
        return board.count(gap) == worked
    return line == "density %d" % board.density()


def same_board(part, board_of=Board):
    """Whether a board with the changes of a worked case gives its answers."""
    board = board_of()
    board.start(3)  # another channel before, of which nothing must stay
    board.add(1, (1, 0), (3, 1))
    columns, number = figures(part[0])
    if board.start(columns) != number:
        return False
    kept = 0 if number else columns
    return board.rows == ([0] * kept, [0] * kept) and all(same_answer(board, line) for line in part[1:])


def adds_half(top, bottom, width):
    """Whether a channel has two-pin nets, an empty first column if its columns are odd in number, and a drawing of that width, half as many columns more."""
    n = len(top)
    if refusal(top, bottom) or family(top, bottom) != TWO_PIN or n % 2 and top[0] + bottom[0]:
        return False
    return route(top, bottom)[2] == width == n + n // 2


def same_lent_rows(line, write):
    """Whether rows of two lengths are written or refused as in a worked case; refused ones stay as they were."""
    lengths, _, number = line.partition(" number ")
    n, m = row(lengths)
    kept = [257] * n, [1] * m
    top, bottom = list(kept[0]), list(kept[1])
    answer = write(top, bottom)
    if int(number):
        return answer == (int(number), 0) and (top, bottom) == kept
    return answer == (0, n // 2) and adds_half(top, bottom, n + n // 2)


def same_widest(part, write=widest):
    """Whether rows are written or refused as in a worked case. Where the case has the channel, its drawing has the worked width, and just it is written."""
    if len(part) == 1:
        return same_lent_rows(part[0], write)
    (n,), (width,) = row(part[0]), row(part[3])
    worked = row(part[1]), row(part[2])
    rows = [257] * n, [1] * n
    return write(*rows) == (0, width - n) and rows == worked and adds_half(*worked, width)


def is_game(part):
    """Whether a case is of Job 13, which is skipped."""
    return part[0].startswith("game ")


KINDS = {
    "routes.txt": same_route,
    "needs.txt": same_need,
    "listings.txt": same_listing,
    "checks.txt": same_check,
    "reports.txt": same_report,
    "long.txt": same_report,
    "records.txt": same_record,
    "pairs.txt": same_pair,
    "steps.txt": same_steps,
    "short.txt": same_steps,
    "boards.txt": same_board,
    "widest.txt": same_widest,
}


def compare(paths):
    """Count agreements; whether there is no other answer."""
    whole = True
    for path in paths:
        same = next(same for name, same in KINDS.items() if path.endswith(name))
        parts = blocks(path)
        answers = [same(part) for part in parts if not is_game(part)]
        games = len(parts) - len(answers)
        print(path, sum(answers), "of", len(answers), "agree" + (", %d games skipped" % games if games else ""))
        whole = whole and all(answers)
    return whole


if __name__ == "__main__":
    if sys.argv[1:] == ["list"]:
        sys.stdout.write(listing(sys.stdin.buffer.read()))
    elif len(sys.argv) > 2 and sys.argv[1] == "compare" and all(path.endswith(tuple(KINDS)) for path in sys.argv[2:]):
        sys.exit(0 if compare(sys.argv[2:]) else 1)
    else:
        sys.exit(__doc__)
