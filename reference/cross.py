#!/usr/bin/env python3
# Compares reference.py with a second way of saying the same, on random plans:
# targets by the numbers of the cells and not by their coordinates, dilations
# gathered and not scattered. It also sees that an opening lies under the
# picture and a closing over it, and that each made twice is made once.
import random
import reference as R

r = random.Random(7)
TRIALS = 400


def random_plan():
    mode = r.randint(1, 4)
    plan = R.Plan(mode, r.randint(1, 5), r.randint(1, 5))
    plan.add_element()
    for _ in range(r.randint(0, 6)):
        side = r.choice(list(R.SUMS_OF_VECTORS[mode]))
        a, b = r.randint(-2, 2), r.randint(-2, 2)
        try:
            plan.add_vector(0, side, (a, b, r.choice(R.SUMS_OF_VECTORS[mode][side]) - a - b))
        except R.PlanFault as fault:
            assert fault.number == 15
    for _ in range(r.randint(0, 3)):
        try:
            plan.kill(r.randrange(len(plan.cells)))
        except R.PlanFault as fault:
            assert fault.number == 18
    return plan


def target(plan, side, vector, number):
    lowest, sums = (-2, 6) if plan.mode == 4 else (0, 2)
    y, rest = divmod(number, sums * plan.width)
    x, s = divmod(rest, sums)
    s += lowest
    if side == 1 and s != 0 or side == 2 and s != 1:
        return None
    x, y, s = x + vector[0], y + vector[1], s + sum(vector)
    if not (0 <= x < plan.width and 0 <= y < plan.height and lowest <= s < lowest + sums):
        return None
    reached = sums * (y * plan.width + x) + s - lowest
    return None if number in plan.dead or reached in plan.dead else reached


def dilated(plan, kind, places, picture):
    result = []
    for cell in range(len(picture)):
        value = kind.least
        for side, vector in places:
            for start in range(len(picture)):
                if target(plan, side, vector, start) == cell:
                    value = kind.join(value, picture[start])
        result.append(value)
    return result


def eroded(plan, kind, places, picture):
    result = []
    for cell in range(len(picture)):
        value = kind.greatest
        for side, vector in places:
            reached = target(plan, side, vector, cell)
            if reached is not None:
                value = kind.meet(value, picture[reached])
        result.append(value)
    return result


def widest(plan, picture):
    counts = {}
    for cell, value in enumerate(picture):
        if value:
            y = cell // ((6 if plan.mode == 4 else 2) * plan.width)
            counts[y] = counts.get(y, 0) + 1
    return min(counts.items(), key=lambda row: (-row[1], row[0]), default=None)


def lies_under(kind, lower, upper):
    return all(kind.join(a, b) == b for a, b in zip(lower, upper))


for trial in range(TRIALS):
    plan, kind = random_plan(), R.KINDS[r.randint(1, 3)]
    picture = [r.choice([0, r.randint(0, kind.greatest)]) for _ in plan.cells]
    places = [(side, v) for side in sorted(plan.elements[0]) for v in plan.elements[0][side]]
    dilation, erosion, opening, closing = (R.move(k, kind, plan.steps(0), picture) for k in (1, 2, 3, 4))
    assert dilation == dilated(plan, kind, places, picture)
    assert erosion == eroded(plan, kind, places, picture)
    assert opening == dilated(plan, kind, places, erosion)
    assert closing == eroded(plan, kind, places, dilation)
    assert lies_under(kind, opening, picture) and lies_under(kind, picture, closing)
    assert R.move(3, kind, plan.steps(0), opening) == opening
    assert R.move(4, kind, plan.steps(0), closing) == closing
    assert R.widest(kind, picture, plan.row_length) == widest(plan, picture)
print(TRIALS, "random plans agree")
