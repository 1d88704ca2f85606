# How the scripts of this folder write a job.
import os
import reference as R

ROOT = os.path.dirname(os.path.dirname(os.path.abspath(__file__)))


def line(word, *numbers):
    """One line, as bytes."""
    return R.put(word, *numbers).encode("ascii")


def job(plat, elements=(), dead=(), cells=(), moves=()):
    """The bytes of a job: elements is a list of lists of (side, a, b, c),
    cells and moves are pairs. Nothing is judged, so a job that is refused
    can be written too."""
    lines = [line("PLAT", *plat)]
    for k, vectors in enumerate(elements):
        lines.append(line("ELEM", k))
        lines += [line("VECT", *vector) for vector in vectors]
    lines += [line("DEAD", cell) for cell in dead]
    lines += [line("CELL", *cell) for cell in cells]
    lines += [line("MOVE", *move) for move in moves]
    return b"".join(lines) + line("LAST")
