#!/usr/bin/env python3
# Writes crates/cases/data: NNN-name.job, by reference.py NNN-name.report, and
# the list of the names. Each case also says by hand what its report must be:
# a triple for STOP (number, line, inner), or lines that the report must hold.
import os
import random
import reference as R
from jobs import ROOT, line as L, job

DATA = os.path.join(ROOT, "crates", "cases", "data")


def T(text):
    """One line from its text, padded."""
    return text.ljust(28).encode("latin-1") + b"\n"


P1 = L("PLAT", 1, 4, 3, 1)      # mode 1, 4 by 3, touch: 24 cells
P2 = L("PLAT", 2, 4, 3, 2)      # mode 2, 4 by 3, level
P3 = L("PLAT", 3, 4, 3, 3)      # mode 3, 4 by 3, frames
E0 = L("ELEM", 0)
V0 = L("VECT", 0, 0, 0, 0)
C5 = L("CELL", 5, 1)
M1 = L("MOVE", 1, 0)
LAST = L("LAST")
ACROSS = [(k - 16, 16 - k, 0) for k in range(33)]     # 33 vectors of sum 0

cases = []


def case(name, data, expect):
    cases.append((name, data, expect))


def stop(name, data, *triple):
    case(name, data, triple)


# ---- accepted jobs: each kind, each mode, sizes
case("sample", job((2, 1, 1, 1), [[(0, 0, 0, 1)]], (), [(0, 1)], [(1, 0), (3, 7)]),
     ["DONE     1     0     0     1", "DONE     3     7    23     1", "CELL     1     1", "AREA     1", "WIDE     0     1"])
case("only-plat-last", P1 + LAST, ["AREA     0", "WIDE", "LAST"])
W6 = [(0, 0, 0, 1)]
case("one-by-one-all-moves", job((2, 1, 1, 1), [W6], (), [(0, 1)], [(3, 0), (4, 0), (3, 0), (4, 0), (2, 0), (1, 0)]),
     ["DONE     3     0     0     0", "DONE     4     0     0     1"])
case("one-by-one-close-open-close", job((2, 1, 1, 1), [W6], (), [(0, 1)], [(4, 0), (3, 0), (4, 0)]), ["CELL     1     1", "AREA     1"])
case("one-by-one-dead", job((2, 1, 1, 1), [W6], [1], [(0, 1)], [(1, 0)]), ["AREA     0", "WIDE"])
case("one-by-one-erode-empty", job((2, 1, 1, 1), [W6], (), (), [(2, 0)]), ["CELL     1     1", "AREA     1"])
case("level-dilate", job((2, 1, 1, 2), [W6], (), [(0, 5), (1, 9)], [(1, 0)]), ["CELL     1     5", "AREA     1"])
case("level-erode", job((2, 1, 1, 2), [W6], (), [(0, 5), (1, 9)], [(2, 0)]), ["CELL     0     9", "CELL     1   255"])
case("frames-dilate", job((2, 1, 1, 3), [W6], (), [(0, 6), (1, 3)], [(1, 0)]), ["CELL     1     6", "AREA     1"])
case("frames-erode", job((2, 1, 1, 3), [W6], (), [(0, 6), (1, 3)], [(2, 0)]), ["CELL     0     3", "CELL     1 65535"])
case("stack-dilate", job((4, 1, 1, 1), [W6], (), [(2, 1), (3, 1)], [(1, 0)]), ["CELL     3     1", "CELL     4     1", "AREA     2"])
case("stack-erode", job((4, 1, 1, 1), [W6], (), [(3, 1)], [(2, 0)]), ["CELL     2     1", "CELL     5     1", "AREA     2"])
SHIFTED = [12, 14, 15, 18, 19, 21]
TWO = [(0, 0, -1, 1), (0, 1, -1, 0)]
case("strict-before", job((1, 3, 4, 1), [TWO], (), [(c, 1) for c in SHIFTED]), ["WIDE     2     3", "AREA     6"])
case("strict-dilate", job((1, 3, 4, 1), [TWO], (), [(c, 1) for c in SHIFTED], [(1, 0)]),
     ["CELL%6d     1" % c for c in (6, 8, 9, 10, 11, 12, 13, 14, 15, 17)] + ["AREA    10"])
case("strict-close", job((1, 3, 4, 1), [TWO], (), [(c, 1) for c in SHIFTED], [(4, 0)]),
     ["CELL%6d     1" % c for c in (0, 1, 2, 3, 4, 5, 12, 14, 15, 16, 17, 18, 19, 21, 23)] + ["AREA    15"])
# values must not travel on within one picture: one step, not two
case("one-step-only", job((1, 5, 1, 1), [[(0, 1, 0, -1)]], (), [(0, 1)], [(1, 0)]), ["CELL     2     1", "AREA     1"])
# the edge does not spoil an erosion: a full plate stays full
case("erode-full-plate", job((1, 3, 3, 1), [[(0, 1, 0, -1), (0, 0, -1, 1)]], (), [(c, 1) for c in range(18)], [(2, 0)]), ["AREA    18", "WIDE     0     6"])
# side 2 is used as it stands, not negated
case("side-two-as-written", job((3, 3, 1, 1), [[(1, 1, 0, -1), (2, 1, 0, -2)]], (), [(0, 1), (1, 1)], [(1, 0)]), ["CELL     2     1", "AREA     1"])
case("side-two-alone", job((3, 3, 2, 3), [[(2, 0, 0, 0), (2, 0, 0, -1)]], (), [(0, 7), (3, 65535)], [(1, 0)]), ["CELL     2 65535", "CELL     3 65535", "AREA     2"])
case("weak-odd-cells-do-not-rise", job((2, 2, 2, 2), [[(0, 0, 0, 1), (0, 0, 0, 0)]], (), [(1, 200), (6, 100)], [(1, 0), (2, 0)]), ["CELL     1   200", "CELL     6   100"])
case("widest-lowest-of-equals", job((4, 2, 3, 2), (), (), [(13, 1), (14, 255), (25, 3), (35, 4)]), ["AREA     4", "WIDE     1     2"])
case("wide-64-by-1", job((1, 64, 1, 1), [[(0, 63, 0, -63), (0, -63, 0, 63), (0, 0, 0, 0)]], (), [(0, 1), (127, 1)], [(1, 0), (4, 0)]), ["CELL     0     1", "CELL     1     1", "CELL   126     1", "CELL   127     1"])
case("high-1-by-64", job((2, 1, 64, 3), [[(0, 0, 63, -62), (0, 0, 1, -1)]], (), [(0, 4096), (5, 3)], [(1, 0), (3, 0)]), ["DONE     1     0     0     3"])
r = random.Random(16)
ring = [(0, 0, 0, 0), (0, 1, 0, -1), (0, 0, 1, -1), (0, 0, 0, 1), (0, 0, 0, -1), (0, -2, 1, 0), (0, 5, -3, -1)]
case("stack-16-by-16", job((4, 16, 16, 2), [ring, [(0, 0, 0, 1)]], range(3, 1536, 61), [(c, r.randint(1, 255)) for c in range(0, 1536, 5)],
     [(4, 0), (3, 0), (2, 1), (1, 0)]), ["DONE     4     0     0"])
case("flat-16-by-16-frames", job((3, 16, 16, 3), [[(1, 0, 0, 1), (1, 1, -1, 0), (2, 0, 0, 0), (2, -1, 0, 0)]], (), [(c, r.randint(1, 65535)) for c in range(1, 512, 3)],
     [(3, 0), (4, 0), (1, 0)]), ["DONE     3     0     0"])
r = random.Random(500)
case("moves-500", job((3, 5, 4, 2), [[(1, 1, 0, -1), (2, 0, 1, -1)], [(1, 0, 0, 0), (1, 0, 0, 1), (2, 0, 0, 0), (2, 1, 0, -2)], [(1, 0, 1, -1), (2, 1, 0, -1)]], [13],
     [(c, 5 * c + 1) for c in range(40)], [(r.choice((1, 1, 2, 2, 3, 4)), r.choice((0, 0, 1, 2, 2, 3))) for k in range(500)]), ["DONE     1     3    23", "DONE     2     2     0"])
case("dead-64", job((1, 8, 8, 1), [[(0, 0, 0, 0), (0, 1, 0, -1), (0, 0, 1, -1)]], [(5 * k) % 128 for k in range(64)], [(c, 1) for c in range(0, 128, 3)], [(1, 0), (3, 0), (4, 0)]), ["DONE     1     0     0"])
case("dead-cell-has-a-line", job((1, 2, 2, 1), [[(0, 0, 0, 0)]], [2], [(2, 1), (3, 1)]), ["CELL     2     1", "CELL     3     1", "AREA     2"])
case("elements-8", job((2, 4, 4, 2), [[(0, k % 3 - 1, k % 2, (1 - k % 3) - k % 2 + k // 4), (0, 0, 0, 0)] for k in range(8)], (), [(c, 7 * c % 255 + 1) for c in range(32)],
     [(1 + k % 4, k) for k in range(10)]), ["DONE     1     8    23", "DONE     2     9    23", "DONE     4     7     0"])
case("element-without-vectors", job((1, 2, 2, 2), [[], []], (), [(0, 9)], [(2, 1), (1, 0)]), ["DONE     2     1     0     8", "DONE     1     0     0     0", "WIDE"])
case("vectors-32-both-sides", job((3, 6, 6, 1), [[(1,) + v for v in ACROSS[:32]] + [(2,) + v for v in ACROSS[:32]]], (), [(c, 1) for c in range(0, 72, 7)], [(1, 0), (2, 0), (3, 0)]), ["DONE     1     0     0"])
case("missing-elements", job((2, 2, 1, 1), (), (), [(1, 1)], [(1, 0), (2, 99), (3, 8), (4, 1)]), ["DONE     1     0    23     1", "DONE     2    99    23     1", "CELL     1     1"])
case("lines-2259", job((2, 1, 1, 1), [], (), (), [(1 + k % 4, k % 100) for k in range(2257)]), ["DONE     1     0    23     0", "AREA     0"])
case("coordinate-63", job((1, 64, 2, 2), [[(0, 63, -63, 0), (0, -63, 63, 0), (0, 63, 0, -63)]], (), [(0, 200)], [(1, 0)]), ["CELL   126   200", "AREA     1"])
case("same-vector-other-side-and-element", job((3, 2, 2, 1), [[(1, 0, 0, 0), (2, 0, 0, 0)], [(1, 0, 0, 0)]], (), [(3, 1), (4, 1)], [(1, 1)]), ["CELL     4     1", "AREA     1"])
case("side-one-in-next-element", P3 + E0 + L("VECT", 2, 0, 0, -1) + L("ELEM", 1) + L("VECT", 1, 0, 0, 1) + LAST, ["AREA     0"])

# ---- 41: not 28 bytes and a line feed
stop("41-short-line", P1 + b"ELEM     0\n" + LAST, 41, 2, 0)
stop("41-long-line", P1 + E0[:-1] + b" \n" + LAST, 41, 2, 0)
stop("41-line-feed-among-columns", P1 + E0[:20] + b"\n" + E0[21:] + LAST, 41, 2, 0)
stop("41-last-without-line-feed", P1 + C5 + LAST[:-1], 41, 3, 0)
stop("41-cr-lf", (P1 + LAST).replace(b"\n", b"\r\n"), 41, 1, 0)
stop("41-one-byte-left", P1 + b"L", 41, 2, 0)
stop("41-empty-line", P1 + b"\n" + LAST, 41, 2, 0)
stop("41-before-42", b"FOOT\n" + P1 + LAST, 41, 1, 0)

# ---- 42: word unknown or not allowed here
stop("42-unknown-word", P1 + T("FOOT     0") + LAST, 42, 2, 0)
stop("42-lower-case", P1 + T("elem     0") + LAST, 42, 2, 0)
stop("42-last-first", LAST, 42, 1, 0)
stop("42-elem-first", E0 + P1 + LAST, 42, 1, 0)
stop("42-plat-twice", P1 + P1 + LAST, 42, 2, 0)
stop("42-vect-before-elem", P1 + V0 + LAST, 42, 2, 0)
stop("42-vect-after-dead", P1 + E0 + L("DEAD", 1) + V0 + LAST, 42, 4, 0)
stop("42-vect-after-cell", P1 + E0 + V0 + C5 + L("VECT", 0, 1, 0, -1) + LAST, 42, 5, 0)
stop("42-elem-after-dead", P1 + L("DEAD", 1) + E0 + LAST, 42, 3, 0)
stop("42-elem-after-cell", P1 + C5 + E0 + LAST, 42, 3, 0)
stop("42-dead-after-cell", P1 + C5 + L("DEAD", 1) + LAST, 42, 3, 0)
stop("42-dead-after-move", P1 + M1 + L("DEAD", 1) + LAST, 42, 3, 0)
stop("42-cell-after-move", P1 + M1 + C5 + LAST, 42, 3, 0)
stop("42-word-one-column-late", P1 + T(" LAST"), 42, 2, 0)
stop("42-before-43", P1 + T("VECT    0x"), 42, 2, 0)
stop("42-report-words", P1 + T("AREA     0") + LAST, 42, 2, 0)

# ---- 43: field malformed, blank where due, filled where none is
for name, field in [("12x", "   12x"), ("minus-zero", "    -0"), ("zero-one", "    01"), ("two-zeros", "    00"), ("minus-zero-one", "   -01"), ("plus", "    +1"),
                    ("space-after", "    1 "), ("left-justified", "1     "), ("space-inside", "   1 1"), ("lone-minus", "     -"), ("two-minus", "   --1"), ("tab", "    \t1"), ("point", "   1.0"), ("hex", "   0x1"), ("nul", "    \x001"), ("high-byte", "     \xb9")]:
    stop("43-" + name, P1 + T("CELL" + field + "     1") + LAST, 43, 2, 0)
stop("43-blank-where-due", P1 + T("CELL     1") + LAST, 43, 2, 0)
stop("43-blank-first-field", P1 + T("CELL           1") + LAST, 43, 2, 0)
stop("43-vect-three-numbers", P1 + E0 + T("VECT     0     0     0") + LAST, 43, 3, 0)
stop("43-filled-where-none", P1 + T("CELL     1     1     0") + LAST, 43, 2, 0)
stop("43-last-filled", P1 + T("LAST                       0"), 43, 2, 0)
stop("43-cr-in-column-28", P1 + LAST[:27] + b"\r\n", 43, 2, 0)
stop("43-five-letter-word", P1 + T("ELEMS    0") + LAST, 43, 2, 0)
stop("43-before-44", P1 + T("CELL    -1    0x") + LAST, 43, 2, 0)
stop("43-in-plat", T("PLAT     5     1     1   0x") + LAST, 43, 1, 0)

# ---- 44
stop("44-mode-below-0", T("PLAT    -1     1     1     1"), 44, 1, 0)
stop("44-width-below-0", T("PLAT     1    -1     1     1"), 44, 1, 0)
stop("44-kind-0", L("PLAT", 1, 1, 1, 0), 44, 1, 0)
stop("44-kind-4-before-mode-5", L("PLAT", 5, 65, 0, 4), 44, 1, 0)
stop("44-elem-not-next", P1 + E0 + L("ELEM", 2), 44, 3, 0)
stop("44-elem-again", P1 + E0 + E0, 44, 3, 0)
stop("44-elem-9-where-8", P1 + b"".join(L("ELEM", k) for k in range(8)) + L("ELEM", 9), 44, 10, 0)
stop("44-side-below-0", P1 + E0 + L("VECT", -1, 0, 0, 0), 44, 3, 0)
stop("44-dead-below-0", P1 + L("DEAD", -1), 44, 2, 0)
stop("44-cell-n", P1 + L("CELL", 24, 1), 44, 2, 0)
stop("44-cell-below-0", P1 + L("CELL", -1, 1), 44, 2, 0)
stop("44-cell-six-digits", P1 + L("CELL", 100000, 1), 44, 2, 0)
stop("44-value-0", P1 + L("CELL", 1, 0), 44, 2, 0)
stop("44-touch-2", P1 + L("CELL", 1, 2), 44, 2, 0)
stop("44-level-256", P2 + L("CELL", 1, 255) + L("CELL", 2, 256), 44, 3, 0)
stop("44-frames-65536", P3 + L("CELL", 1, 65535) + L("CELL", 2, 65536), 44, 3, 0)
stop("44-before-45", P1 + C5 + L("CELL", 4, 2), 44, 3, 0)
stop("44-move-0", P1 + L("MOVE", 0, 0), 44, 2, 0)
stop("44-move-5", P1 + L("MOVE", 5, 0), 44, 2, 0)
stop("44-move-element-100", P1 + L("MOVE", 1, 99) + L("MOVE", 1, 100), 44, 3, 0)
stop("44-move-element-below-0", P1 + L("MOVE", 1, -1), 44, 2, 0)

# ---- 45
stop("45-cell-lower", P1 + C5 + L("CELL", 4, 1) + LAST, 45, 3, 0)
stop("45-cell-again", P1 + C5 + C5 + LAST, 45, 3, 0)
stop("45-side-one-after-two", P3 + E0 + L("VECT", 1, 0, 0, 0) + L("VECT", 2, 0, 0, 0) + L("VECT", 1, 0, 0, 1) + LAST, 45, 5, 0)
stop("45-before-46", P3 + E0 + L("VECT", 2, 0, 0, 0) + L("VECT", 1, 64, 0, 7) + LAST, 45, 4, 0)

# ---- 46 with each number of the plan
stop("46-10-mode-0", L("PLAT", 0, 1, 1, 1) + LAST, 46, 1, 10)
stop("46-10-mode-5-before-size", L("PLAT", 5, 65, 1, 1) + LAST, 46, 1, 10)
stop("46-11-width-0", L("PLAT", 1, 0, 1, 1) + LAST, 46, 1, 11)
stop("46-11-width-65", L("PLAT", 1, 65, 1, 1) + LAST, 46, 1, 11)
stop("46-11-height-65", L("PLAT", 4, 64, 65, 3) + LAST, 46, 1, 11)
stop("46-12-side-1-in-mode-1", P1 + E0 + L("VECT", 1, 0, 0, 0) + LAST, 46, 3, 12)
stop("46-12-side-0-in-mode-3", P3 + E0 + L("VECT", 0, 64, 0, 0) + LAST, 46, 3, 12)
stop("46-12-side-3-in-mode-3", P3 + E0 + L("VECT", 3, 0, 0, 0) + LAST, 46, 3, 12)
stop("46-13-coordinate-64", P1 + E0 + L("VECT", 0, 64, -63, -1) + LAST, 46, 3, 13)
stop("46-13-coordinate-below", P1 + E0 + L("VECT", 0, 0, 0, -64) + LAST, 46, 3, 13)
stop("46-13-six-columns", P1 + E0 + L("VECT", 0, 0, -99999, 0) + LAST, 46, 3, 13)
stop("46-14-mode-1-sum-1", P1 + E0 + L("VECT", 0, 1, 0, 0) + LAST, 46, 3, 14)
stop("46-14-mode-2-sum-below", P2 + E0 + L("VECT", 0, 0, 0, 1) + L("VECT", 0, 0, 0, -1) + LAST, 46, 4, 14)
stop("46-14-side-1-sum-below", P3 + E0 + L("VECT", 1, 0, 0, -1) + LAST, 46, 3, 14)
stop("46-14-side-2-sum-1", P3 + E0 + L("VECT", 2, 0, 0, 1) + LAST, 46, 3, 14)
stop("46-14-mode-4-sum-2", L("PLAT", 4, 1, 1, 1) + E0 + L("VECT", 0, 1, 0, 1) + LAST, 46, 3, 14)
stop("46-15-vector-again", P1 + E0 + V0 + L("VECT", 0, 1, 0, -1) + V0 + LAST, 46, 5, 15)
full = P1 + E0 + b"".join(L("VECT", 0, *v) for v in ACROSS[:32])
stop("46-15-before-19", full + L("VECT", 0, *ACROSS[31]) + LAST, 46, 35, 15)
stop("46-16-ninth-element", P1 + b"".join(L("ELEM", k) for k in range(9)) + LAST, 46, 10, 16)
stop("46-17-dead-n", P1 + L("DEAD", 23) + L("DEAD", 24) + LAST, 46, 3, 17)
stop("46-18-dead-again", P1 + L("DEAD", 23) + L("DEAD", 0) + L("DEAD", 23) + LAST, 46, 4, 18)
stop("46-19-vector-33", full + L("VECT", 0, *ACROSS[32]) + LAST, 46, 35, 19)
dead64 = L("PLAT", 1, 8, 8, 1) + b"".join(L("DEAD", 127 - k) for k in range(64))
stop("46-18-before-20", dead64 + L("DEAD", 64) + LAST, 46, 66, 18)
stop("46-20-dead-65", dead64 + L("DEAD", 0) + LAST, 46, 66, 20)

# ---- 48, 49, 53
stop("48-empty", b"", 48, 1, 0)
stop("48-only-plat", P1, 48, 2, 0)
stop("48-all-but-last", P1 + E0 + V0 + C5 + M1, 48, 6, 0)
stop("49-one-byte", P1 + LAST + b"\n", 49, 3, 0)
stop("49-second-last", P1 + C5 + LAST + LAST, 49, 4, 0)
stop("43-in-last-before-49", P1 + T("LAST     1") + b"x", 43, 2, 0)
many = job((2, 1, 1, 1), [], (), (), [(1, 0)] * 2257)
stop("49-at-65536-bytes", many + b" " * 25, 49, 2260, 0)
stop("53-65537-bytes", many + b" " * 26, 53, 0, 0)
stop("53-before-all", b"\n" * 65537, 53, 0, 0)


def agrees(text, status, expect):
    """Whether a report is as the case says."""
    if isinstance(expect, tuple):
        return (text, status) == (R.put("STOP", *expect), 1)
    lines = text.splitlines()
    if status != 0 or not all(any(l.startswith(e) for l in lines) for e in expect):
        return False
    cells = [e for e in expect if e.startswith("CELL")]
    if cells and any(e.startswith("AREA") for e in expect):    # then the cells are all there are
        return sum(l.startswith("CELL") for l in lines) == len(cells)
    return True


if __name__ == "__main__":
    assert len({name for name, _, _ in cases}) == len(cases)
    files = {"names": b""}
    for k, (name, data, expect) in enumerate(cases, 1):
        text, status = R.report(data)
        assert agrees(text, status, expect), (name, text[:600])
        name = "%03d-%s" % (k, name)
        files["names"] += name.encode("ascii") + b"\n"
        files[name + ".job"] = data
        files[name + ".report"] = text.encode("ascii")
    for old in os.listdir(DATA):
        if old.endswith((".job", ".report")):
            os.remove(os.path.join(DATA, old))
    for name, data in files.items():
        with open(os.path.join(DATA, name), "wb") as f:
            f.write(data)
    print(len(cases), "cases,", sum(len(data) for data in files.values()), "bytes")
