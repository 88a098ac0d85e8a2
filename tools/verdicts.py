"""Reads what `nosleep verify` writes: an acceptance, a refusal, or reports with or without their paths.

A report is its head line, and, where the program writes paths, the bodies (paths inside methods), the views (what may hold
between callbacks) and the last step:

    report I of N: LOCK is STATUS after CALLBACK
    body J METHOD ENTRY ret|exc END PC/STATUS[/BODY] ..
    view J COMPONENT STATE STATUS start | outside V EDGE | own V EDGE BODY | other V W EDGE BODY
    exit COMPONENT EDGE STATUS V BODY LOCK

A body cites bodies before it, a view views before it. BODY is `-` where the callback stands outside the files.
"""
import re
import sys
from dataclasses import dataclass, field

HELD = ("C1", "C2", "CT", "U1", "L")
STATUSES = ("A", "C0", "C1", "C2", "CT", "U0", "U1", "L")
# The kind of an answer by the first word of its text, and whether the text may have more than one line.
KINDS = {"accept": "accept", "valid": "accept", "nosleep": "accept", "report": "reports", "refused": "refused", "bad": "bad",
         "limit": "limit", "cannot": "unread", "usage:": "usage", "broken": "broken", "unmet": "broken"}
LONG = ("nosleep", "report", "usage:")
NUMBER = re.compile(r"0|[1-9][0-9]{0,8}", re.ASCII)
HEAD = re.compile(r"report (\d{1,9}) of (\d{1,9}): (\S+) is (\S+) after (\S+)", re.ASCII)
REFUSED = re.compile(r"refused (N[1-9]|N10) (\S+) (\d{1,9}) (\d{1,9})", re.ASCII)
WAYS = {"start": 0, "outside": 2, "own": 3, "other": 4}


class Unreadable(Exception):
    """The text is none that the program writes, or a part of one."""


@dataclass
class Item:
    """A place on a path: the instruction, the status before it, and the body of what it calls."""
    pc: int
    status: str
    body: int | None


@dataclass
class Body:
    method: int
    entry: str
    throws: bool
    end: str
    items: list


@dataclass
class View:
    """What may hold between two callbacks, and how it came: by no step, or by a callback from an earlier view."""
    component: int
    state: int
    status: str
    way: str
    view: int | None = None
    mover: int | None = None
    edge: int | None = None
    body: int | None = None


@dataclass
class Exit:
    component: int
    edge: int
    status: str
    view: int
    body: int | None


@dataclass
class Report:
    number: int
    lock: str
    status: str
    callback: str
    bodies: list = field(default_factory=list)
    views: list = field(default_factory=list)
    exit: Exit | None = None


@dataclass
class Refusal:
    """The rule of scope that is broken, and where."""
    rule: str
    name: str
    method: int
    pc: int


@dataclass
class Answer:
    kind: str
    text: str
    reports: list = field(default_factory=list)
    refusal: Refusal | None = None


def read_answer(name):
    """The answer in a file, or on standard input where the name is `-`."""
    try:
        if name == "-":
            return answer_of(sys.stdin.buffer.read())
        with open(name, "rb") as file:
            return answer_of(file.read())
    except OSError as fault:
        raise Unreadable(f"{name} cannot be read: {fault.strerror}") from fault


def answer_of(data):
    if not data:
        raise Unreadable("the text is empty: nosleep ended with status 6 or 9 (it could not write, or found no memory), or did not run")
    text = data.decode("ascii", "replace")
    lines = text.split("\n")
    word = lines[0].split(" ")[0]
    if word not in KINDS:
        raise Unreadable(f"the first line is none that nosleep writes: {lines[0][:80]!r}")
    if lines.pop() != "" or word == "nosleep" and lines[-1] != "end":
        raise Unreadable("the last line is not whole: the text was cut off")
    if word not in LONG and len(lines) > 1:
        raise Unreadable(f"more than one answer: line 2 is {lines[1][:80]!r}")
    answer = Answer(KINDS[word], text)
    if word == "report":
        answer.reports = reports_of(lines)
    elif word == "refused":
        answer.refusal = refusal_of(lines[0])
    return answer


def refusal_of(line):
    found = REFUSED.fullmatch(line)
    if not found:
        raise Unreadable(f"a refusal of another form: {line[:80]!r}")
    return Refusal(found[1], found[2], int(found[3]), int(found[4]))


def reports_of(lines):
    reports, total = [], None
    for place, line in enumerate(lines, 1):
        try:
            if line.startswith("report "):
                report, total = head_of(line, len(reports) + 1, total)
                reports.append(report)
            else:
                add_line(reports[-1], line.split(" "))
        except ValueError as fault:
            raise Unreadable(f"line {place} is no line of a report: {fault}") from fault
    if len(reports) != total:
        raise Unreadable(f"report {len(reports) + 1} of {total} is missing: the text was cut off")
    for report in reports:
        if (report.exit is None) != (reports[0].exit is None) or report.exit is None and (report.bodies or report.views):
            raise Unreadable(f"report {report.number} has no exit line: the text was cut off")
    return reports


def head_of(line, number, total):
    found = HEAD.fullmatch(line)
    if not found:
        raise ValueError(line[:80])
    if int(found[1]) != number or total not in (None, int(found[2])):
        raise ValueError(f"report {found[1]} of {found[2]} stands where report {number} was to stand")
    if found[4] not in HELD:
        raise ValueError(f"{found[4]} is no status of a held lock")
    return Report(number, found[3], found[4], found[5]), int(found[2])


def add_line(report, words):
    if report.exit is not None:
        raise ValueError("it stands behind the exit line of its report")
    if words[0] == "body" and not report.views:
        report.bodies.append(body_of(words[1:], len(report.bodies)))
    elif words[0] == "view":
        report.views.append(view_of(words[1:], len(report.views), len(report.bodies)))
    elif words[0] == "exit":
        report.exit = exit_of(words[1:], report)
    else:
        raise ValueError(" ".join(words)[:80])


def body_of(words, here):
    if len(words) < 6 or words[3] not in ("ret", "exc"):
        raise ValueError("it has too few words, or neither `ret` nor `exc`")
    in_turn(words[0], here)
    items = [item_of(word, here) for word in words[5:]]
    return Body(number(words[1]), status(words[2]), words[3] == "exc", status(words[4]), items)


def item_of(word, here):
    parts = word.split("/")
    if len(parts) not in (2, 3):
        raise ValueError(f"{word!r} is no PC/STATUS or PC/STATUS/BODY")
    return Item(number(parts[0]), status(parts[1]), below(parts[2], here, "body") if len(parts) == 3 else None)


def view_of(words, here, bodies):
    if len(words) < 5 or words[4] not in WAYS or len(words) != 5 + WAYS[words[4]]:
        raise ValueError("it does not say how its view came")
    in_turn(words[0], here)
    way, rest = words[4], words[5:]
    view = View(number(words[1]), number(words[2]), status(words[3]), way)
    if way == "start":
        return view
    view.view = below(rest.pop(0), here, "view")
    if way == "other":
        view.mover = below(rest.pop(0), here, "view")
    view.edge = number(rest.pop(0))
    view.body = body_or_none(rest.pop(0), bodies) if rest else None
    return view


def exit_of(words, report):
    if len(words) != 6:
        raise ValueError("an exit has six words")
    number(words[5])
    view = below(words[3], len(report.views), "view")
    return Exit(number(words[0]), number(words[1]), status(words[2]), view, body_or_none(words[4], len(report.bodies)))


def body_or_none(word, bodies):
    return None if word == "-" else below(word, bodies, "body")


def number(word):
    if not NUMBER.fullmatch(word):
        raise ValueError(f"{word!r} is no number")
    return int(word)


def status(word):
    if word not in STATUSES:
        raise ValueError(f"{word!r} is no status")
    return word


def below(word, bound, what):
    if number(word) >= bound:
        raise ValueError(f"{what} {word} does not come before it")
    return int(word)


def in_turn(word, here):
    if number(word) != here:
        raise ValueError(f"number {word} stands where {here} was to stand")
