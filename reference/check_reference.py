#!/usr/bin/env python3
# Checks reference.py against footprints worked out by hand, bounds with their
# neighbours, the smallest example, and fields by themselves.
import reference as R
from jobs import job


checks = 0


def equal(found, due):
    global checks
    checks += 1
    assert found == due, (checks, found, due)


def report(data):
    text, status = R.report(data)
    assert status == 0 and all(len(line) == 28 for line in text.splitlines()), text
    return [line.split() for line in text.splitlines()]


def after(cells, *moves, plat=(2, 1, 1, 1), elements=(((0, 0, 0, 1),),), dead=()):
    """The cells that are not least after some moves, all by element 0."""
    lines = report(job(plat, elements, dead, sorted(cells.items()), [(move, 0) for move in moves]))
    return {int(line[1]): int(line[2]) for line in lines if line[0] == "CELL"}


def touched(*cells):
    return {cell: 1 for cell in cells}


DILATE, ERODE, OPEN, CLOSE = 1, 2, 3, 4

# one position, one vector that leads the even cell to the odd one
equal(after(touched(0), DILATE), touched(1))
equal(after(touched(1), DILATE), {})
equal(after({}, ERODE), touched(1))
equal(after(touched(1), ERODE), touched(0, 1))
equal(after(touched(0), OPEN), {})
equal(after(touched(0), CLOSE), touched(0, 1))
equal(after(touched(0), OPEN, CLOSE, OPEN), touched(1))
equal(after(touched(0), CLOSE, OPEN, CLOSE), touched(1))
equal(after(touched(0), DILATE, dead=[1]), {})
# the same in levels, in frames, and on a stack
equal(after({0: 5, 1: 9}, DILATE, plat=(2, 1, 1, 2)), {1: 5})
equal(after({0: 5, 1: 9}, ERODE, plat=(2, 1, 1, 2)), {0: 9, 1: 255})
equal(after({0: 6, 1: 3}, DILATE, plat=(2, 1, 1, 3)), {1: 6})
equal(after({0: 6, 1: 3}, ERODE, plat=(2, 1, 1, 3)), {0: 3, 1: 65535})
equal(after(touched(2, 3), DILATE, plat=(4, 1, 1, 1)), touched(3, 4))
equal(after(touched(3), ERODE, plat=(4, 1, 1, 1)), touched(2, 5))
# three by four, two vectors
start = touched(12, 14, 15, 18, 19, 21)
strict = dict(plat=(1, 3, 4, 1), elements=[[(0, 0, -1, 1), (0, 1, -1, 0)]])
equal(after(start, DILATE, **strict), touched(6, *range(8, 16), 17))
equal(after(start, CLOSE, **strict), touched(*range(6), 12, *range(14, 20), 21, 23))
equal([line for line in report(job((1, 3, 4, 1), (), (), start.items())) if line[0] == "WIDE"], [["WIDE", "2", "3"]])


# the bounds, accepted against refused
def bound(accepted, refused, *stop):
    equal(report(accepted)[0][0], "AREA")
    equal(R.report(refused), (R.put("STOP", *stop), 1))


vectors = [(0, k, -k, 0) for k in range(33)]
bound(job((1, 64, 1, 1)), job((1, 65, 1, 1)), 46, 1, 11)
bound(job((1, 1, 64, 1)), job((1, 1, 65, 1)), 46, 1, 11)
bound(job((1, 1, 1, 1), [[(0, 63, -63, 0)]]), job((1, 1, 1, 1), [[(0, 64, -63, -1)]]), 46, 3, 13)
bound(job((1, 1, 1, 1), [vectors[:32]]), job((1, 1, 1, 1), [vectors]), 46, 35, 19)
bound(job((1, 8, 8, 1), (), range(64)), job((1, 8, 8, 1), (), range(65)), 46, 66, 20)

# the smallest example, letter by letter
FIRST = """PLAT     2     1     1     1
ELEM     0
VECT     0     0     0     1
CELL     0     1
MOVE     1     0
MOVE     3     7
LAST"""
REPORT = """DONE     1     0     0     1
DONE     3     7    23     1
CELL     1     1
AREA     1
WIDE     0     1
LAST"""


def padded(text):
    return "".join(line.ljust(28) + "\n" for line in text.splitlines())


equal(R.report(padded(FIRST).encode("ascii")), (padded(REPORT), 0))

# fields by themselves; a number may fill six columns
for field, number in [(b"999999", 999999), (b"-99999", -99999), (b"     0", 0), (b"      ", None)]:
    equal(R.read_field(field), number)
for field in [b"    -0", b"    01", b"    00", b"   -01", b"    +1", b"    1 ", b"1     ", b"   1 1", b"   - 1", b"     -", b"   --1", b"   12x", b"   1_0",
              b"    \t1", b"    \r1", b"     \0", b"\xb2     "]:
    try:
        R.read_field(field)
    except ValueError:
        checks += 1
    else:
        raise SystemExit("accepted %r" % field)
print(checks, "checks passed")
