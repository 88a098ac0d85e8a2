"""The history that a report tells: which callbacks run one after another, and what each does, instruction by instruction."""
from dataclasses import dataclass

from dex_listing import WAKE_LOCK
from verdicts import HELD


@dataclass
class Step:
    """A callback of a component that stood in a state, by an edge, with the status before and after it."""
    component: int
    state: int
    edge: int
    before: str
    after: str
    body: int | None
    mover: int | None = None
    is_end: bool = False


@dataclass
class Row:
    """An instruction of a path, so many calls deep, with the status before it and that with which the path goes on."""
    depth: int
    method: int
    pc: int
    before: str
    after: str
    body: int | None = None
    is_again: bool = False
    is_first: bool = False
    is_last: bool = False
    throws: bool = False


def parts_of(report, names):
    """The callbacks of a report, each with its instructions: none where the files do not have it, or where it was told before."""
    told, parts = set(), []
    for step in steps_of(report):
        rows = rows_of(report, step.body, told) if step.body is not None and step.body not in told else []
        mark_throws(rows, names)
        parts.append((step, rows))
    return parts


def ends_of(parts, most):
    """The same with the last instructions alone, so many in all, and how many are left out."""
    left_out = max(0, sum(len(rows) for _, rows in parts) - most)
    kept, skipped = [], left_out
    for step, rows in parts:
        kept.append((step, rows[skipped:]))
        skipped = max(0, skipped - len(rows))
    return kept, left_out


def steps_of(report):
    """The callbacks of a report, the first one first."""
    end, view = report.exit, report.views[report.exit.view]
    return history(report, end.view) + [Step(end.component, view.state, end.edge, view.status, end.status, end.body, is_end=True)]


def history(report, number):
    """The callbacks that lead to a view, the first one first."""
    steps = []
    view = report.views[number]
    while view.way != "start":
        before = report.views[view.view]
        mover = before if view.mover is None else report.views[view.mover]
        steps.append(Step(mover.component, mover.state, view.edge, before.status, view.status, view.body, view.mover))
        view = before
    return steps[::-1]


def rows_of(report, number, told):
    """The instructions of a body, those of what it calls behind the call; a body that is told already is not told again."""
    told.add(number)
    rows = []
    waiting = [(0, number, 0)]
    while waiting:
        depth, number, place = waiting.pop()
        body = report.bodies[number]
        if place == len(body.items):
            continue
        waiting.append((depth, number, place + 1))
        row = row_of(report, body, place, depth)
        row.is_again = row.body in told
        if row.body is not None and not row.is_again:
            told.add(row.body)
            waiting.append((depth + 1, row.body, 0))
        rows.append(row)
    return rows


def row_of(report, body, place, depth):
    item = body.items[place]
    is_last = place + 1 == len(body.items)
    after = body.end if is_last else body.items[place + 1].status
    throws = is_last and body.throws or item.body is not None and report.bodies[item.body].throws
    return Row(depth, body.method, item.pc, item.status, after, item.body, False, place == 0, is_last, throws)


def mark_throws(rows, names):
    """Marks the instructions that throw to a handler of their own method: one that begins with a move-exception comes next."""
    last = {}
    for row in rows:
        before = last.get(row.depth)
        if before and not before.is_last and names.text(row.method, row.pc).startswith("move-exception"):
            before.throws = True
        last[row.depth] = row


def tells(row, names):
    """Whether an instruction says something of the lock, or of where the path leads."""
    changes = row.before != row.after or row.body is not None
    return changes or row.is_first or row.is_last or row.throws or WAKE_LOCK in names.text(row.method, row.pc)


def held_since(parts):
    """Where the lock became held, or was lost, for the last time: a step and the row in it, or None where the step as a whole did."""
    for step, rows in reversed(parts):
        for row in reversed(rows):
            if (row.body is None or row.is_again) and becomes_held(row.before, row.after):
                return step, row
        if becomes_held(step.before, rows[0].before if rows else step.after):
            return step, None
    return None, None


def behind(parts, row):
    """The instructions of a history behind one of them."""
    rows = [other for _, rows in parts for other in rows]
    place = next(place for place, other in enumerate(rows) if other is row)
    return rows[place + 1:]


def becomes_held(before, after):
    return after in HELD and before not in HELD or after == "L" and before != "L"
