#!/usr/bin/env python3
# An independent implementation, written from the rules that docs/ states and
# not from the Rattle sources, for comparing reports.
#
#     python3 reference/reference.py < NAME.job > NAME.report
#
# It reads a job on standard input and prints the report on standard output.
# The exit status is 0 after a report and 1 after STOP. It is written to be
# read, not to be fast: every definition is the plainest one, a loop over all
# cells and all places.

import sys

LIMIT = 65536           # the most bytes that the program takes
COLUMNS = 28            # a word of 4 and four fields of 6, then a line feed


class PlanFault(Exception):
    """The plan refuses something; number is the plan's own number."""

    def __init__(self, number):
        self.number = number


class FileFault(Exception):
    """The file is refused: number, line from 1, the plan's number or 0."""

    def __init__(self, number, line, inner=0):
        self.number, self.line, self.inner = number, line, inner


# ---------------------------------------------------------------- kinds

class Kind:
    """Values are kept as their numbers; the least value is always 0."""

    def __init__(self, greatest, join, meet):
        self.least, self.greatest = 0, greatest
        self.join, self.meet = join, meet


KINDS = {
    1: Kind(1, max, min),                                        # touch
    2: Kind(255, max, min),                                      # level
    3: Kind(65535, lambda a, b: a | b, lambda a, b: a & b),      # frames
}


# ---------------------------------------------------------------- plans

# For each mode: the sums that the cells of its plate have, and for each side
# that exists the sums that its vectors may have.
SUMS_OF_CELLS = {1: (0, 1), 2: (0, 1), 3: (0, 1), 4: (-2, -1, 0, 1, 2, 3)}
SUMS_OF_VECTORS = {
    1: {0: (0,)},
    2: {0: (0, 1)},
    3: {1: (0, 1), 2: (0, -1)},
    4: {0: (-1, 0, 1)},
}


class Plan:
    """A mode, a width, a height, elements with their vectors, dead cells."""

    def __init__(self, mode, width, height):
        if mode not in (1, 2, 3, 4):
            raise PlanFault(10)
        if not 1 <= width <= 64 or not 1 <= height <= 64:
            raise PlanFault(11)
        self.mode, self.width, self.height = mode, width, height
        self.elements = []      # each one {side: [vector, ...]}
        self.dead = []
        # All cells, in the order of their numbers: (x, y, z).
        self.cells = []
        for y in range(height):
            for x in range(width):
                for s in SUMS_OF_CELLS[mode]:
                    self.cells.append((x, y, s - x - y))
        self.number_of = {cell: k for k, cell in enumerate(self.cells)}
        self.row_length = len(SUMS_OF_CELLS[mode]) * width

    def add_element(self):
        if len(self.elements) == 8:
            raise PlanFault(16)
        self.elements.append({side: [] for side in SUMS_OF_VECTORS[self.mode]})

    def add_vector(self, element, side, vector):
        if element >= len(self.elements):
            raise PlanFault(23)
        if side not in SUMS_OF_VECTORS[self.mode]:
            raise PlanFault(12)
        if any(not -63 <= coordinate <= 63 for coordinate in vector):
            raise PlanFault(13)
        if sum(vector) not in SUMS_OF_VECTORS[self.mode][side]:
            raise PlanFault(14)
        vectors = self.elements[element][side]
        if vector in vectors:
            raise PlanFault(15)
        if len(vectors) == 32:
            raise PlanFault(19)
        vectors.append(vector)

    def kill(self, cell):
        if cell >= len(self.cells):
            raise PlanFault(17)
        if cell in self.dead:
            raise PlanFault(18)
        if len(self.dead) == 64:
            raise PlanFault(20)
        self.dead.append(cell)

    def target(self, side, vector, number):
        """The cell that a place leads a cell to, or None."""
        x, y, z = self.cells[number]
        a, b, c = vector
        if side == 1 and x + y + z != 0:    # side 1 moves even cells only
            return None
        if side == 2 and x + y + z != 1:    # side 2 moves odd cells only
            return None
        reached = self.number_of.get((x + a, y + b, z + c))
        if reached is None:                 # the step leaves the plate
            return None
        if number in self.dead or reached in self.dead:
            return None
        return reached

    def steps(self, element):
        """All steps of an element, as pairs (from cell, to cell)."""
        found = []
        for side, vectors in sorted(self.elements[element].items()):
            for vector in vectors:
                for number in range(len(self.cells)):
                    reached = self.target(side, vector, number)
                    if reached is not None:
                        found.append((number, reached))
        return found


# ---------------------------------------------------------------- moves

def dilate(kind, steps, picture):
    """Each cell gets the join of all cells with a step to it."""
    result = [kind.least] * len(picture)
    for start, end in steps:
        result[end] = kind.join(result[end], picture[start])
    return result


def erode(kind, steps, picture):
    """Each cell gets the meet of all cells that its own steps reach."""
    result = [kind.greatest] * len(picture)
    for start, end in steps:
        result[start] = kind.meet(result[start], picture[end])
    return result


def move(number, kind, steps, picture):
    if number == 1:
        return dilate(kind, steps, picture)
    if number == 2:
        return erode(kind, steps, picture)
    if number == 3:     # open
        return dilate(kind, steps, erode(kind, steps, picture))
    if number == 4:     # close
        return erode(kind, steps, dilate(kind, steps, picture))
    raise AssertionError("the reader lets no other move through")


def area(kind, picture):
    return sum(1 for value in picture if value != kind.least)


def widest(kind, picture, row_length):
    """(row, count) of the lowest of the widest rows, or None."""
    best = None
    for row in range(len(picture) // row_length):
        cells = picture[row * row_length:(row + 1) * row_length]
        count = area(kind, cells)
        if count > 0 and (best is None or count > best[1]):
            best = (row, count)
    return best


def run(plan, kind, picture, records):
    """Make the moves in order; answers [(move, element, answer, area)]
    and the last picture."""
    done = []
    steps_of = {}       # the plan does not change, so they are found once
    for number, element in records:
        if element >= len(plan.elements):
            answer = 23
        else:
            if element not in steps_of:
                steps_of[element] = plan.steps(element)
            picture = move(number, kind, steps_of[element], picture)
            answer = 0
        done.append((number, element, answer, area(kind, picture)))
    return done, picture


# ---------------------------------------------------------------- the file

# For each word: how many fields it fills, and the words it may follow. None
# stands for the beginning of the file.
WORDS = {
    b"PLAT": (4, {None}),
    b"ELEM": (1, {b"PLAT", b"ELEM", b"VECT"}),
    b"VECT": (4, {b"ELEM", b"VECT"}),
    b"DEAD": (1, {b"PLAT", b"ELEM", b"VECT", b"DEAD"}),
    b"CELL": (2, {b"PLAT", b"ELEM", b"VECT", b"DEAD", b"CELL"}),
    b"MOVE": (2, {b"PLAT", b"ELEM", b"VECT", b"DEAD", b"CELL", b"MOVE"}),
    b"LAST": (0, {b"PLAT", b"ELEM", b"VECT", b"DEAD", b"CELL", b"MOVE"}),
}


def read_field(field):
    """The number in six columns; None if blank; ValueError if malformed."""
    text = field.lstrip(b" ")
    if text == b"":
        return None
    digits = text[1:] if text.startswith(b"-") else text
    if digits == b"" or any(byte not in b"0123456789" for byte in digits):
        raise ValueError
    if digits.startswith(b"0") and text != b"0":     # 00, 01, -0, -01
        raise ValueError
    return int(text)


def read_numbers(count, columns, line):
    """The numbers of a line: the first count fields, the others blank."""
    numbers = []
    for k in range(4):
        try:
            number = read_field(columns[4 + 6 * k:10 + 6 * k])
        except ValueError:
            raise FileFault(43, line)
        if (number is not None) != (k < count):
            raise FileFault(43, line)
        if number is not None:
            numbers.append(number)
    return numbers


class Job:
    def __init__(self):
        self.plan = None
        self.kind = None
        self.picture = []
        self.records = []       # pairs (move, element)
        self.last_cell = -1     # the cell of the CELL line before
        self.last_side = 0      # the side of the VECT line before, if any

    def take(self, word, numbers, line):
        """Take one line whose word is allowed and whose fields are well
        formed. In each case 44 is judged first, then 45, then the plan."""

        def judge(condition, number):
            if not condition:
                raise FileFault(number, line)

        # A number below 0 is refused everywhere but in a, b, c.
        judge(all(v >= 0 for v in (numbers[:1] if word == b"VECT" else numbers)), 44)
        try:
            if word == b"PLAT":
                mode, width, height, code = numbers
                judge(code in KINDS, 44)
                self.plan = Plan(mode, width, height)
                self.kind = KINDS[code]
                self.picture = [self.kind.least] * len(self.plan.cells)
            elif word == b"ELEM":
                judge(numbers[0] == len(self.plan.elements), 44)
                self.plan.add_element()
                self.last_side = 0
            elif word == b"VECT":
                side = numbers[0]
                judge(not (side == 1 and self.last_side == 2), 45)
                self.plan.add_vector(len(self.plan.elements) - 1, side, tuple(numbers[1:]))
                self.last_side = side
            elif word == b"DEAD":
                self.plan.kill(numbers[0])
            elif word == b"CELL":
                cell, value = numbers
                judge(cell < len(self.plan.cells), 44)
                judge(1 <= value <= self.kind.greatest, 44)
                judge(cell > self.last_cell, 45)
                self.picture[cell] = value
                self.last_cell = cell
            elif word == b"MOVE":
                number, element = numbers
                judge(number in (1, 2, 3, 4) and element <= 99, 44)
                self.records.append((number, element))
        except PlanFault as fault:
            raise FileFault(46, line, fault.number)


def read_job(data):
    """Read a job, line by line, up to its first fault."""
    if len(data) > LIMIT:
        raise FileFault(53, 0)
    job = Job()
    before = None       # the word of the line before
    at = 0              # the next byte
    line = 0
    while before != b"LAST":
        line += 1
        if at == len(data):
            raise FileFault(48, line)
        # The line's first line feed must be its byte 29.
        if data[at:at + COLUMNS + 1].find(b"\n") != COLUMNS:
            raise FileFault(41, line)
        columns = data[at:at + COLUMNS]
        at += COLUMNS + 1
        word = columns[:4]
        if word not in WORDS or before not in WORDS[word][1]:
            raise FileFault(42, line)
        numbers = read_numbers(WORDS[word][0], columns, line)
        job.take(word, numbers, line)
        before = word
    if at < len(data):
        raise FileFault(49, line + 1)
    return job


# ---------------------------------------------------------------- the report

def put(word, *numbers):
    """One line of output, padded to 28 columns."""
    text = word + "".join("%6d" % number for number in numbers)
    return text.ljust(COLUMNS) + "\n"


def report(data):
    """The whole output for an input, and the exit status."""
    try:
        job = read_job(data)
    except FileFault as fault:
        return put("STOP", fault.number, fault.line, fault.inner), 1
    done, picture = run(job.plan, job.kind, job.picture, job.records)
    lines = [put("DONE", *record) for record in done]
    for cell, value in enumerate(picture):
        if value != job.kind.least:
            lines.append(put("CELL", cell, value))
    lines.append(put("AREA", area(job.kind, picture)))
    row = widest(job.kind, picture, job.plan.row_length)
    lines.append(put("WIDE") if row is None else put("WIDE", *row))
    lines.append(put("LAST"))
    return "".join(lines), 0


if __name__ == "__main__":
    # One byte more than the limit is enough to know that there are too many.
    text, status = report(sys.stdin.buffer.read(LIMIT + 1))
    sys.stdout.buffer.write(text.encode("ascii"))
    sys.stdout.buffer.flush()
    sys.exit(status)
