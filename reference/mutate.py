#!/usr/bin/env python3
# Sees that the cases find mistakes: each edit below makes reference.py wrong
# in one place, and some case must then have another report.
import os
import types
from jobs import ROOT

DATA = os.path.join(ROOT, "crates", "cases", "data")
SOURCE = os.path.join(ROOT, "reference", "reference.py")

EDITS = [
    ("a & b),", "a | b),"),
    ("a | b, ", "a & b, "),
    ("Kind(255,", "Kind(256,"),
    ("Kind(255,", "Kind(254,"),
    ("Kind(65535,", "Kind(32767,"),
    ("4: (-2, -1, 0, 1, 2, 3)}", "4: (-1, 0, 1, 2, 3, 4)}"),
    ("4: (-2, -1, 0, 1, 2, 3)}", "4: (-2, -1, 0, 1)}"),
    ("1: {0: (0,)}", "1: {0: (0, 1)}"),
    ("2: {0: (0, 1)}", "2: {0: (0, -1, 1)}"),
    ("2: {0: (0, 1)}", "2: {0: (0,)}"),
    ("2: (0, -1)}", "2: (0, 1)}"),
    ("{1: (0, 1), 2", "{1: (0, -1, 1), 2"),
    ("4: {0: (-1, 0, 1)}", "4: {0: (-1, 0, 1, 2)}"),
    ("width <= 64 or", "width <= 65 or"),
    ("height <= 64:", "height <= 65:"),
    ("not 1 <= width", "not 0 <= width"),
    ("-63 <= coordinate <= 63", "-63 <= coordinate <= 64"),
    ("-63 <= coordinate <= 63", "-64 <= coordinate <= 63"),
    ("len(vectors) == 32", "len(vectors) == 33"),
    ("len(vectors) == 32", "len(vectors) == 31"),
    ("len(self.dead) == 64", "len(self.dead) == 65"),
    ("len(self.dead) == 64", "len(self.dead) == 63"),
    ("len(self.elements) == 8", "len(self.elements) == 9"),
    ("len(self.elements) == 8", "len(self.elements) == 7"),
    ("if side == 1 and x + y + z != 0:", "if False:"),
    ("if side == 2 and x + y + z != 1:", "if False:"),
    ("        a, b, c = vector\n", "        a, b, c = vector\n        if side == 2: a, b, c = -a, -b, -c\n"),
    ("if number in self.dead or reached in self.dead", "if reached in self.dead"),
    ("if number in self.dead or reached in self.dead", "if number in self.dead"),
    ("result[end] = kind.join(result[end], picture[start])", "result[start] = kind.join(result[start], picture[end])"),
    ("result[start] = kind.meet(result[start], picture[end])", "result[end] = kind.meet(result[end], picture[start])"),
    ("result[end] = kind.join(result[end], picture[start])",
     "result[end] = picture[end] = kind.join(result[end], picture[start])"),
    ("return dilate(kind, steps, erode(kind, steps, picture))",
     "return erode(kind, steps, dilate(kind, steps, picture))"),
    ("count > best[1]", "count >= best[1]"),
    ("count > 0 and", "True and"),
    ("answer = 23", "answer = 22"),
    ("b\"VECT\": (4, {b\"ELEM\", b\"VECT\"})", "b\"VECT\": (4, {b\"ELEM\", b\"VECT\", b\"DEAD\"})"),
    ("b\"VECT\": (4, {b\"ELEM\", b\"VECT\"})", "b\"VECT\": (4, {b\"ELEM\", b\"VECT\", b\"CELL\"})"),
    ("b\"PLAT\": (4, {None})", "b\"PLAT\": (4, {None, b\"PLAT\"})"),
    ("b\"LAST\": (0, {", "b\"LAST\": (0, {None, "),
    ("field.lstrip(b\" \")", "field.strip(b\" \")"),
    ("field.lstrip(b\" \")", "field.lstrip()"),
    ("and text != b\"0\"", "and False"),
    ("and text != b\"0\"", "and digits != b\"0\""),
    ("(number is not None) != (k < count)", "number is None and k < count"),
    ("(number is not None) != (k < count)", "number is not None and k >= count"),
    ("(numbers[:1] if word == b\"VECT\" else numbers)", "(numbers[:0] if word == b\"VECT\" else numbers)"),
    ("(numbers[:1] if word == b\"VECT\" else numbers)", "(numbers[:0] if word == b\"DEAD\" else numbers[:1])"),
    ("judge(1 <= value", "judge(0 <= value"),
    ("element <= 99", "element <= 100"),
    ("element <= 99", "element <= 98"),
    ("number in (1, 2, 3, 4) and", "number in (0, 1, 2, 3, 4) and"),
    ("judge(cell > self.last_cell, 45)", "judge(cell >= self.last_cell, 45)"),
    ("judge(cell < len(self.plan.cells), 44)", "judge(cell <= len(self.plan.cells), 44)"),
    ("                self.last_side = 0\n", ""),
    ("judge(not (side == 1 and self.last_side == 2), 45)", "pass"),
    ("judge(code in KINDS, 44)", "judge(code in KINDS or code == 4, 44)"),
    ("judge(numbers[0] == len(self.plan.elements), 44)", "judge(numbers[0] >= len(self.plan.elements), 44)"),
    ("len(data) > LIMIT", "len(data) >= LIMIT"),
    ("FileFault(53, 0)", "FileFault(53, 1)"),
    ("FileFault(49, line + 1)", "FileFault(49, line)"),
    ("if at < len(data):", "if False:"),
    ("find(b\"\\n\") != COLUMNS", "rfind(b\"\\n\") != COLUMNS"),
    ("raise FileFault(46, line, fault.number)", "raise FileFault(46, line, 0)"),
]


def read(path):
    with open(path, "rb") as f:
        return f.read()


def found(source, cases):
    """Whether a case has another report by that source, or none at all."""
    module = types.ModuleType("edited")
    exec(compile(source, "edited", "exec"), module.__dict__)
    for job, report in cases:
        try:
            if module.report(job)[0] != report:
                return True
        except Exception:
            return True
    return False


if __name__ == "__main__":
    source = read(SOURCE).decode("ascii")
    names = read(os.path.join(DATA, "names")).decode("ascii").split()
    cases = [(read(os.path.join(DATA, n + ".job")), read(os.path.join(DATA, n + ".report")).decode("ascii")) for n in names]
    assert not found(source, cases), "the cases are not those of reference.py"
    missed = 0
    for old, new in EDITS:
        assert old in source, old
        if not found(source.replace(old, new, 1), cases):
            missed += 1
            print("no case finds:", old, "=>", new)
    print(len(EDITS), "edits,", missed, "not found")
