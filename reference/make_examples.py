#!/usr/bin/env python3
# Writes examples/NAME.job and, by reference.py, examples/NAME.report. With
# "show" as argument it writes nothing, and prints the picture at the start
# and after each move.
import os
import sys
import reference as R
from jobs import ROOT, job

EXAMPLES = os.path.join(ROOT, "examples")


def filled(cells):
    """The CELL lines of a picture: ascending, without the cells that are 0."""
    return [(cell, value) for cell, value in sorted(cells.items()) if value]


def tread():
    # From row 7 down to row 0; for each x two letters, even then odd cell:
    # '#' contact, '.' none, 'x' dead. Blocks, two grooves, four grit cells.
    rows = """
    .. .. .. .. .. .. .. #. .. .. .. ..
    .# .. .. .. .. .. .. .. .. .. .. ..
    .. .. ## ## ## ## .. ## ## ## .. ..
    .. .. ## ## ## ## .. ## ## ## .. ..
    .. .. .. .. .. .. .. .. .. .. .. ..
    .. .. ## x# ## ## .. ## ## ## .. #.
    .. .. ## ## ## ## .. ## ## ## .. ..
    .. .. .. .# .. .. .. .. .. .. .. ..
    """.split()
    cells, dead = {}, []
    for k, pair in enumerate(rows):
        y, x = 7 - k // 12, k % 12
        for s in (0, 1):
            c = 2 * (y * 12 + x) + s
            if pair[s] == "#":
                cells[c] = 1
            if pair[s] == "x":
                dead.append(c)
    patch = [(0, 0, 0, 0), (0, 1, 0, -1), (0, 0, 1, -1), (0, 1, 1, -2)]
    return job((1, 12, 8, 1), [patch], dead, filled(cells), [(4, 0), (3, 0)])


def pressure():
    # Even and odd cells of an 8 by 6 plate, a hill of pressure with one
    # spike on an even cell (3, 1) and one dropout on an odd cell (4, 3).
    even = """
      0   0  12  15  14  10   0   0
      0  20  44  60  58  40   0   0
     10  48  90 120 118  86  12  12
     12  50  96 130 126  90  14  14
      0  24  50 210  62  44   0   0
      0   0  14  18  16  12   0   0""".split()
    odd = """
      0   0  11  14  13   9   0   0
      0  19  42  58  55  37   0   0
      9  46  88 117   0  83  11  11
     11  49  93 127 122  87  13  13
      0  22  48  64  60  42   0   0
      0   0  13  17  15  11   0   0""".split()
    cells = {}
    for k in range(48):
        y, x = 5 - k // 8, k % 8
        cells[2 * (y * 8 + x)] = int(even[k])
        cells[2 * (y * 8 + x) + 1] = int(odd[k])
    along = [(0, 0, 0, 0), (0, 1, 0, -1)]           # itself and the next in x
    pair = [(0, 0, 0, 0), (0, 0, 0, 1)]             # an even cell with the odd one beside it
    return job((2, 8, 6, 2), [along, pair], [], filled(cells), [(4, 0), (3, 1)])


def frames():
    # A wheel rolls over 6 by 2 positions, from even to odd to the next even
    # cell: the i-th cell on its way is touched in the frames i to i + 3. One
    # odd cell lost its two middle frames, one even cell shows a stray frame.
    cells = {}
    for y in range(2):
        for i in range(12):
            cells[12 * y + i] = 0b1111 << i
    cells[12 * 0 + 5] &= ~(0b0110 << 5)             # lost: odd cell (2, 0)
    cells[12 * 1 + 6] |= 1 << 15                    # stray: even cell (3, 1)
    onward = [(1, 0, 0, 0), (1, 0, 0, 1), (2, 0, 0, 0), (2, 1, 0, -2)]
    return job((3, 6, 2, 3), [onward], [], filled(cells), [(4, 0), (3, 0)])


def layers():
    # Two feet on the sums 0 and 1 of a 4 by 4 stack with a gap at x = 2, and
    # two lone cells: one on sum -1, one on sum 3, the top of the stack.
    cells = {}
    for y in (1, 2):
        for x in (1, 3):
            for s in (0, 1):
                cells[6 * (y * 4 + x) + s + 2] = 1
    cells[6 * (0 * 4 + 0) - 1 + 2] = 1
    cells[6 * (3 * 4 + 0) + 3 + 2] = 1
    up = [(0, 0, 0, 0), (0, 0, 0, 1)]
    along = [(0, 0, 0, 0), (0, 1, 0, -1)]
    up_down = [(0, 0, 0, 0), (0, 0, 0, 1), (0, 0, 0, -1)]
    return job((4, 4, 4, 1), [up, along, up_down], [], filled(cells), [(3, 0), (4, 1), (1, 2)])


def first():
    return job((2, 1, 1, 1), [[(0, 0, 0, 1)]], [], [(0, 1)], [(1, 0), (3, 7)])


def refused():
    # The tread with one field damaged: the cell of its 20th CELL line.
    lines = tread().split(b"\n")
    at = [k for k, columns in enumerate(lines) if columns.startswith(b"CELL")][19]
    columns = lines[at]
    lines[at] = columns[:4] + (columns[4:10].strip() + b"x").rjust(6) + columns[10:]
    return b"\n".join(lines)


def shown(kind, value, dead):
    """A cell of a picture: contact or a number, in hexadecimal for frames."""
    if kind.greatest == 1:
        return "#" if value else "x" if dead else "."
    return "%4d" % value if kind.greatest == 255 else "%5x" % value


def show(name, data):
    start = R.read_job(data)
    plan, kind = start.plan, start.kind
    sums = plan.row_length // plan.width

    def picture(title, values):
        print(name, title)
        for y in reversed(range(plan.height)):
            places = [range(y * plan.row_length + x * sums, y * plan.row_length + (x + 1) * sums) for x in range(plan.width)]
            print("  y%d  " % y + " ".join("".join(shown(kind, values[c], c in plan.dead) for c in place) for place in places))

    picture("start", start.picture)
    for k in range(1, len(start.records) + 1):
        done, values = R.run(plan, kind, start.picture, start.records[:k])
        picture("after %s" % (done[-1],), values)


def write(name, data):
    with open(os.path.join(EXAMPLES, name), "wb") as f:
        f.write(data)


if __name__ == "__main__":
    for example in (first, tread, pressure, frames, layers, refused):
        data = example()
        text, status = R.report(data)
        if sys.argv[1:] != ["show"]:
            write(example.__name__ + ".job", data)
            write(example.__name__ + ".report", text.encode("ascii"))
        elif status == 0:
            show(example.__name__, data)
        else:
            print(example.__name__, text, end="")
