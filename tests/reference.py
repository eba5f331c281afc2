#!/usr/bin/env python3
"""A second opinion on task tables, written from documents 01 and 02 alone.

It shares no code and no idea of a quick way with the library: it reads the bytes
as document 01 lays them out, looks for each task's answer by search, and plays
runs tick by tick. The engine of document 02, L1, is played from event to event, and
knows nothing of the equation. Sentences in double quotation marks are document 01's,
or L1's where the engine is spoken of, L3's where the places of refusals are, L4's
where version 2 or delays are, L5's where the starts are, L6's where tasks that share a
priority are, L7's where claims are, L8's where deadlines past the period are, L9's where
version 3 is, and L10's where the report is. The text form of a table, whose rules are in
docs/SPECIFICATION.md, is split into lines and each line into words, where the library goes through
it byte by byte. For a report it has all bytes at once, and knows neither Euclid's rule nor a stored
list of bounds.

Needs Python 3.7 or later and nothing else.
"""

import argparse
import collections
import enum
import fractions
import functools
import itertools
import math
import os
import re
import sys

# ---------------------------------------------------------------------------
# The table's bytes: "house form", versions 1 to 3
# ---------------------------------------------------------------------------

HEADER_BYTES = 5
ROW_BYTES = 6
# Where n and m stand.
TASK_COUNT_BYTE = 3
ROW_COUNT_BYTE = 4
# "Version 3 has version 2's layout with n up to 200"; "Versions 1 and 2 keep their limit of 32."
# The programs lend slices for the most tasks of all.
MOST_TASKS = 200
MOST_BEFORE = 32
VERSIONS_BEFORE = (1, 2)
MOST_ROWS = 64

# What the version decides: a record's bytes, the most tasks, and where each field stands in its
# record. The fields are in the order tested: "taken as T, C, D, J, priority"; version 2 has
# "earliest and latest delay in place of J". The one delay of version 1 is the latest: its tables
# "read with earliest 0". "The version byte alone decides which layout and limits hold."
Layout = collections.namedtuple("Layout", "task_bytes most_tasks fields")
LAYOUTS = {
    1: Layout(17, MOST_BEFORE, {"period": 1, "cost": 5, "deadline": 9, "latest": 13,
                                "priority": 0}),
    2: Layout(21, MOST_BEFORE, {"period": 1, "cost": 5, "deadline": 9, "earliest": 13,
                                "latest": 17, "priority": 0}),
    3: Layout(21, MOST_TASKS, {"period": 1, "cost": 5, "deadline": 9, "earliest": 13,
                               "latest": 17, "priority": 0}),
}
# The same for a row: "place, semaphore, length, then row order (at the row's first byte)".
ROW_FIELDS = {"place": 0, "semaphore": 1, "length": 2, "order": 0}
GREATEST_TICKS = 1000000
GREATEST_PRIORITY = 255
GREATEST_SEMAPHORE = 16
GREATEST_WORD = 2 ** 32 - 1
# Every lent word holds this before a call, so that a word that stays can be seen to stay.
FILLER = 0xA5A5A5A5
# The longest slice that is lent: for version 3 as many words as an entry's byte can tell.
LONGEST_SLICE = 40
LONGEST_SLICES = {1: LONGEST_SLICE, 2: LONGEST_SLICE, 3: 255}

# The fields as they follow each other in a record.
Task = collections.namedtuple("Task", "priority period cost deadline earliest latest")
Row = collections.namedtuple("Row", "place semaphore length")


class Refused(Exception):
    """A refusal: "returns the number and the place, and changes no word"."""

    def __init__(self, number, place):
        super().__init__("refused %d at %d" % (number, place))
        self.number = number
        self.place = place


def refuse_when(applies, number, place=0):
    if applies:
        raise Refused(number, place)


def big_endian(data):
    # "All numbers are unsigned and big-endian."
    return int.from_bytes(data, "big")


def table_length(layout, task_count, row_count):
    # "The length is 5 + 17n + 6m"; of version 2: "Its length is 5 + 21n + 6m." So is version 3's.
    return HEADER_BYTES + layout.task_bytes * task_count + ROW_BYTES * row_count


def longest_table(version):
    layout = LAYOUTS[version]
    return table_length(layout, layout.most_tasks, MOST_ROWS)


# "The program takes at most one byte more than the longest table".
MOST_BYTES_TAKEN = max(longest_table(version) for version in LAYOUTS) + 1


def task_byte(layout, number, field):
    """The byte, counted from the table's first, at which a field of a record begins."""
    return HEADER_BYTES + layout.task_bytes * number + layout.fields[field]


def row_byte(layout, task_count, number, field):
    return table_length(layout, task_count, number) + ROW_FIELDS[field]


def number_fields(layout):
    """The fields of 4 bytes, as they follow each other in a record."""
    return [field for field in Task._fields[1:] if field in layout.fields]


def read_task(data, layout, number):
    # "priority (1 byte), period T, cost C, deadline D, jitter J (4 bytes each)".
    starts = {field: task_byte(layout, number, field) for field in number_fields(layout)}
    numbers = {field: big_endian(data[start:start + 4]) for field, start in starts.items()}
    # "Version 1 tables read with earliest 0".
    numbers.setdefault("earliest", 0)
    return Task(data[task_byte(layout, number, "priority")], **numbers)


def read_row(data, layout, task_count, number):
    # "task place (1), semaphore (1), longest section (4)".
    place, semaphore, length = (row_byte(layout, task_count, number, field)
                                for field in Row._fields)
    return Row(data[place], data[semaphore], big_endian(data[length:length + 4]))


def check_header(data):
    """Refusals 1 to 4; gives the layout, n and m."""
    refuse_when(len(data) < HEADER_BYTES, 1)
    refuse_when(data[0] not in LAYOUTS, 2)
    layout = LAYOUTS[data[0]]
    task_count, row_count = data[TASK_COUNT_BYTE], data[ROW_COUNT_BYTE]
    # "Refusal 3 points at byte 3, or 4 if only m is wrong."
    refuse_when(not 1 <= task_count <= layout.most_tasks, 3, TASK_COUNT_BYTE)
    refuse_when(row_count > MOST_ROWS, 3, ROW_COUNT_BYTE)
    lengths = {big_endian(data[1:3]), len(data), table_length(layout, task_count, row_count)}
    refuse_when(len(lengths) != 1, 4)
    return layout, task_count, row_count


# How many periods a deadline may span: "D is 1 to T"; in the second analysis "D may be up to 4T
# here and at most 1,000,000".
ONE_PERIOD = 1
PERIODS_PAST = 4


def greatest_deadline(period, span):
    return min(span * period, GREATEST_TICKS)


def task_rules(task, before, span):
    """For each field of a record, in the order tested: the refusal where it is faulty, and whether
    it is right. An earliest delay that was not read is 0, and right."""
    # "T and C are 1 to 1,000,000. D is 1 to T. J is 0 to 1,000,000."
    yield "period", 5, 1 <= task.period <= GREATEST_TICKS
    yield "cost", 5, 1 <= task.cost <= GREATEST_TICKS
    yield "deadline", 5, 1 <= task.deadline <= greatest_deadline(task.period, span)
    # "earliest at most latest, both at most 1,000,000, else refusal 5"; "a faulty delay points at
    # the earliest if that is out of range, else at the latest".
    yield "earliest", 5, 0 <= task.earliest <= GREATEST_TICKS
    yield "latest", 5, task.earliest <= task.latest <= GREATEST_TICKS
    # "Priorities are 1 to 255"; "Records may now repeat a priority but not rise".
    rises = before is not None and task.priority > before.priority
    yield "priority", 6, 1 <= task.priority <= GREATEST_PRIORITY and not rises


def row_rules(row, before, tasks):
    """The same for a row. No rule is looked at before those above it hold: the place is right
    where a cost is looked up by it."""
    # "A section row names a place 0 to n-1, a semaphore 1 to 16 and a length 1 to that
    # task's C."
    yield "place", 7, row.place < len(tasks)
    yield "semaphore", 7, 1 <= row.semaphore <= GREATEST_SEMAPHORE
    yield "length", 7, 1 <= row.length <= tasks[row.place].cost
    # "Rows strictly rise by place, then semaphore."
    yield "order", 7, before is None or row[:2] > before[:2]


def check_tasks(layout, tasks, span=ONE_PERIOD):
    # "Task records are taken in order, each tested for 5 and then 6"; the place of a refusal is
    # "the byte offset of the first faulty field".
    before = None
    for number, task in enumerate(tasks):
        for field, refusal, right in task_rules(task, before, span):
            if not right:
                raise Refused(refusal, task_byte(layout, number, field))
        before = task


def check_rows(layout, rows, tasks):
    # "then the rows in order for 7".
    before = None
    for number, row in enumerate(rows):
        for field, refusal, right in row_rules(row, before, tasks):
            refuse_when(not right, refusal, row_byte(layout, len(tasks), number, field))
        before = row


def read_bytes(data, span=ONE_PERIOD):
    """Gives the tasks and the rows, or raises the first of refusals 1 to 7 that applies."""
    layout, task_count, row_count = check_header(data)
    tasks = [read_task(data, layout, number) for number in range(task_count)]
    check_tasks(layout, tasks, span)
    rows = [read_row(data, layout, task_count, number) for number in range(row_count)]
    check_rows(layout, rows, tasks)
    return tasks, rows


def read_table(data, answers_length, rounds_length, span=ONE_PERIOD):
    """The same with refusal 8."""
    tasks, rows = read_bytes(data, span)
    # "an answer slice has fewer than n words"
    refuse_when(min(answers_length, rounds_length) < len(tasks), 8)
    return tasks, rows


def read_past(data, answers_length, tried_length):
    """The same for the second analysis, with refusal 11."""
    tasks, rows = read_table(data, answers_length, tried_length, PERIODS_PAST)
    # "Any nonzero delay is refused with 11, after 8, place 0, no word changed." The earliest is at
    # most the latest.
    refuse_when(any(task.latest for task in tasks), 11)
    return tasks, rows


def read_claimed(data, claims):
    """The same with refusal 10 in place of 8."""
    # "Refusals 1 to 7 come first; then a claim list with fewer or more words than tasks is refused
    # with 10, place 0."
    tasks, rows = read_bytes(data)
    refuse_when(len(claims) != len(tasks), 10)
    return tasks, rows


# ---------------------------------------------------------------------------
# The equation
# ---------------------------------------------------------------------------

def ceiling_of(semaphore, tasks, rows):
    # "a semaphore's ceiling is the most urgent priority among tasks with a row for it".
    return max(tasks[row.place].priority for row in rows if row.semaphore == semaphore)


def blocking_of(task, tasks, rows):
    # "B of task i is the longest section among rows of less urgent tasks whose semaphore's
    # ceiling is at least i's priority, and 0 if there is none." "Blocking still comes from
    # strictly lower tasks."
    sections = [row.length for row in rows
                if tasks[row.place].priority < task.priority
                and ceiling_of(row.semaphore, tasks, rows) >= task.priority]
    return max(sections, default=0)


# What demand takes of a task that interferes.
Load = collections.namedtuple("Load", "cost period spread")


def loads_on(place, tasks):
    # "Every other task of equal or greater priority interferes"; "latest minus earliest delay
    # inside the interference".
    return [Load(other.cost, other.period, other.latest - other.earliest)
            for number, other in enumerate(tasks)
            if number != place and other.priority >= tasks[place].priority]


def rounded_up(number, divisor):
    return -(-number // divisor)


def demand(base, loads, window):
    # "demand(i, w) is C_i + B_i plus, over every more urgent j, C_j times (w + J_j) / T_j
    # rounded up", with every j that interferes, and the spread for J_j; the base is C_i + B_i.
    total = base
    for cost, period, spread in loads:
        total += cost * rounded_up(window + spread, period)
    return total


def plain_search(base, loads, last):
    # "The task's w is the smallest whole number of at least 1 with demand(i, w) = w": every
    # number from 1 to the last is tried. None if none of them is a solution.
    for window in range(1, last + 1):
        if demand(base, loads, window) == window:
            return window
    return None


def skipping_search(base, loads, last):
    """The same search, leaving out only numbers that cannot be solutions.

    A longer window never has a smaller demand. So when demand(w) > w, every v from w to
    demand(w) - 1 has demand(v) >= demand(w) > v, and the search goes on at demand(w).
    """
    window = 1
    while window <= last:
        wanted = demand(base, loads, window)
        if wanted == window:
            return window
        window = wanted if wanted > window else window + 1
    return None


def answer_at(task, window):
    # "Its answer is w + J_i if such a w exists and w + J_i <= D_i; else 0." For J_i stands the
    # latest delay: "every test against the deadline and the bound on rounds use the latest". A
    # solution above D_i gives 0 as none does, so that both searches may end at D_i.
    if window is None or window + task.latest > task.deadline:
        return 0
    return window + task.latest


def parts_of(place, tasks, rows):
    """What a task's demand is made of: C_i + B_i, and the loads of the tasks that interfere."""
    base = tasks[place].cost + blocking_of(tasks[place], tasks, rows)
    return base, loads_on(place, tasks)


def response_of(place, tasks, rows):
    task = tasks[place]
    return answer_at(task, skipping_search(*parts_of(place, tasks, rows), task.deadline))


def responses_of(tasks, rows):
    return [response_of(place, tasks, rows) for place in range(len(tasks))]


# ---------------------------------------------------------------------------
# Rounds, and where they start
# ---------------------------------------------------------------------------

class Start(enum.Enum):
    """The first term, x0, of the sequence that rounds are counted in."""

    # "the task's cost and blocking plus one cost of every more urgent task", and of every other of
    # equal priority; one of each, however many jobs its delays let in at once.
    EVERY_COST = "every cost"
    # "the old start, which gives 01's rounds, stays as a named choice": "x0 = C_i + B_i".
    OWN_COST = "own cost"


DEFAULT_START = Start.EVERY_COST


def first_term(start, base, loads):
    if start is Start.OWN_COST:
        return base
    return base + sum(load.cost for load in loads)


# How many rounds there are, and the last two terms.
Sequence = collections.namedtuple("Sequence", "rounds before after")


def sequence_from(start, task, base, loads):
    # "each next x is demand(i, x). Rounds is the smallest k >= 1 with x_k = x_(k-1) or
    # x_k + J_i > D_i."
    rounds, before = 1, first_term(start, base, loads)
    after = demand(base, loads, before)
    while after != before and after + task.latest <= task.deadline:
        rounds, before = rounds + 1, after
        after = demand(base, loads, before)
    return Sequence(rounds, before, after)


def rounds_of(tasks, rows, start=DEFAULT_START):
    return [sequence_from(start, task, *parts_of(place, tasks, rows)).rounds
            for place, task in enumerate(tasks)]


# ---------------------------------------------------------------------------
# The second analysis: deadlines past the period
# ---------------------------------------------------------------------------

# "It is "open" exactly if q = 0 to 63 all give R(q) above T and within D." The first slice gets
# "0 for late and 4,294,967,295 for open".
MOST_TRIED = 64
LATE = 0
OPEN = 4294967295

# A task's answer, and "the number of q tried".
Found = collections.namedtuple("Found", "answer tried")


def response_behind(earlier, task, base, loads, search=skipping_search):
    # "find the smallest w equal to B + (1 + q)C plus interference, and R(q) = w - qT"; q is the
    # number of earlier jobs of the task, and the base is C + B. None where R(q) "exceeds D or has
    # no w": there is none up to D + qT.
    passed = earlier * task.period
    window = search(base + earlier * task.cost, loads, task.deadline + passed)
    return None if window is None else window - passed


def found_past(task, base, loads, search=skipping_search):
    longest = 0
    for earlier in range(MOST_TRIED):
        response = response_behind(earlier, task, base, loads, search)
        # "A task is late as soon as some R(q) exceeds D or has no w."
        if response is None:
            return Found(LATE, earlier + 1)
        # "stop at the first R(q) <= T; the answer is the largest".
        longest = max(longest, response)
        if response <= task.period:
            return Found(longest, earlier + 1)
    return Found(OPEN, MOST_TRIED)


def all_found_past(tasks, rows):
    return [found_past(task, *parts_of(place, tasks, rows)) for place, task in enumerate(tasks)]


# ---------------------------------------------------------------------------
# Claimed response times
# ---------------------------------------------------------------------------

def claim_passes(claim, task, base, loads):
    # "claim r passes if w = r minus the latest delay is at least 1, r is within the deadline, and
    # demand at w is at most w".
    window = claim - task.latest
    return window >= 1 and claim <= task.deadline and demand(base, loads, window) <= window


def failing_claims(tasks, rows, claims):
    """The places of the claims that fail. Each is looked at "once, without iterating"."""
    return [place for place, (task, claim) in enumerate(zip(tasks, claims))
            if not claim_passes(claim, task, *parts_of(place, tasks, rows))]


def failing_line(places):
    # "the answer is pass, or the first place that fails".
    return "fails %d" % places[0] if places else "pass"


def claimed_line(data, claims):
    try:
        tasks, rows = read_claimed(data, claims)
    except Refused as refusal:
        return str(refusal)
    return failing_line(failing_claims(tasks, rows, claims))


# The text of a list of claims: whole decimal numbers with blanks, tabs, commas or line ends between
# them. What cannot be read is told by its first byte.
LIST_PIECES = re.compile(rb"[0-9]+|[ \t,\r\n]+|[^0-9 \t,\r\n]")


def listed_claims(text):
    """The numbers of a list's text, and None; or no numbers, and the byte that cannot be read."""
    numbers = []
    for piece in LIST_PIECES.finditer(text):
        word = piece.group()
        if word.isdigit():
            # No number of more digits than the greatest one is turned into an int.
            digits = word.lstrip(b"0") or b"0"
            if len(digits) > len(str(GREATEST_WORD)) or int(digits) > GREATEST_WORD:
                return [], piece.start()
            numbers.append(int(digits))
        elif word.strip(b" \t,\r\n"):
            return [], piece.start()
    return numbers, None


def list_line(text, data):
    claims, unreadable = listed_claims(text)
    return claimed_line(data, claims) if unreadable is None else "unreadable at %d" % unreadable


# ---------------------------------------------------------------------------
# The program's text
# ---------------------------------------------------------------------------

# The words for the answers that are no response; the first analysis has no open one.
WORDS = {LATE: "late", OPEN: "open"}


def task_line(place, task, answer, count_name, count):
    word = WORDS.get(answer, "response %d" % answer)
    return "%d %s deadline %d %s %d" % (place, word, task.deadline, count_name, count)


def verdict_line(answers):
    # Document 01: "schedulable" or "late" with the first place whose answer is 0. L8:
    # ""schedulable", or "late" or "open" with the place of the first such task".
    for place, answer in enumerate(answers):
        if answer in WORDS:
            return "%s %d" % (WORDS[answer], place)
    return "schedulable"


def lines_text(lines):
    return "".join(line + "\n" for line in lines)


def answers_text(tasks, answers, count_name, counts):
    lines = ["tasks %d" % len(tasks)]
    lines += map(task_line, itertools.count(), tasks, answers, itertools.repeat(count_name), counts)
    lines.append(verdict_line(answers))
    return lines_text(lines)


def text_of(data, answers_length=MOST_TASKS, rounds_length=MOST_TASKS, start=DEFAULT_START):
    """What the program prints for these bytes, which has the default start alone; each line ends
    with a newline."""
    try:
        tasks, rows = read_table(data, answers_length, rounds_length)
    except Refused as refusal:
        return "%s\n" % refusal
    return answers_text(tasks, responses_of(tasks, rows), "rounds", rounds_of(tasks, rows, start))


def past_text_of(data, answers_length=MOST_TASKS, tried_length=MOST_TASKS):
    """The same of the second analysis."""
    try:
        tasks, rows = read_past(data, answers_length, tried_length)
    except Refused as refusal:
        return "%s\n" % refusal
    answers, tried = zip(*all_found_past(tasks, rows))
    # "the second gets the number of q tried in place of rounds"
    return answers_text(tasks, answers, "tried", tried)


def words_line(name, words):
    return " ".join([name, *map(str, words)])


def own_cost_line(entry):
    """The rounds from document 01's start; none for a refused table."""
    try:
        tasks, rows = read_table(*entry)
    except Refused:
        return "own cost"
    return words_line("own cost", rounds_of(tasks, rows, Start.OWN_COST))


def past_lines(entry):
    """The second analysis's verdict or refusal, and what it leaves in each slice; nothing in a
    refused table's."""
    try:
        tasks, rows = read_past(*entry)
    except Refused as refusal:
        return ["past period %s" % refusal, "found", "tried"]
    answers, tried = zip(*all_found_past(tasks, rows))
    return ["past period %s" % verdict_line(answers), words_line("found", answers),
            words_line("tried", tried)]


# ---------------------------------------------------------------------------
# Writing tables
# ---------------------------------------------------------------------------

def task_bytes(layout, task):
    numbers = (getattr(task, field) for field in number_fields(layout))
    return bytes([task.priority]) + b"".join(number.to_bytes(4, "big") for number in numbers)


def row_bytes(row):
    return bytes([row.place, row.semaphore]) + row.length.to_bytes(4, "big")


class Draft:
    """A table being written, which may be given faults before its bytes are taken. Its records
    stay in the layout of the version that it began with."""

    def __init__(self, tasks, rows=(), version=1):
        self.version = version
        self.layout = LAYOUTS[version]
        self.longest_slice = LONGEST_SLICES[version]
        self.tasks = list(tasks)
        self.rows = list(rows)
        self.task_count = len(self.tasks)
        self.row_count = len(self.rows)
        self.stated_length = table_length(self.layout, self.task_count, self.row_count)
        self.lent_length = self.stated_length

    def change_task(self, number, **changes):
        self.tasks[number] = self.tasks[number]._replace(**changes)

    def change_row(self, number, **changes):
        self.rows[number] = self.rows[number]._replace(**changes)

    def data(self):
        written = (bytes([self.version]) + self.stated_length.to_bytes(2, "big")
                   + bytes([self.task_count, self.row_count])
                   + b"".join(task_bytes(self.layout, task) for task in self.tasks)
                   + b"".join(row_bytes(row) for row in self.rows))
        return written[:self.lent_length].ljust(self.lent_length, b"\x00")


def listed(*entries):
    """Tasks from (T, C, D), (T, C, D, J) or (T, C, D, earliest, latest), the priorities falling
    down the list."""
    count = len(entries)
    return [Task(count - place, *entry[:3], *((0, 0) + entry[3:])[-2:])
            for place, entry in enumerate(entries)]


def with_priorities(tasks, priorities):
    return [task._replace(priority=priority) for task, priority in zip(tasks, priorities)]


def repeated(priorities, sizes):
    """Each of these as often as its group has tasks."""
    return [priority for priority, size in zip(priorities, sizes) for _ in range(size)]


def in_groups(tasks, *sizes):
    """The tasks of a group share a priority; the last group has priority 1."""
    return with_priorities(tasks, repeated(range(len(sizes), 0, -1), sizes))


def listed_rows(*entries):
    return [Row(*entry) for entry in entries]


# ---------------------------------------------------------------------------
# The text form
# ---------------------------------------------------------------------------

class Kind(enum.IntEnum):
    """What can be wrong with a text."""

    UNKNOWN_WORD = 1
    TOO_FEW = 2
    TOO_MANY = 3
    NOT_WHOLE = 4
    TOO_LARGE = 5
    TASK_BEHIND = 6
    VERSION_BEHIND = 7
    DELAYS_IN_ONE = 8
    TOO_MANY_TASKS = 9
    TOO_MANY_SECTIONS = 10


COUNTS_MESSAGE = "numbers; version has 1, task 4, jitter 1, delays 2, section 3"
MESSAGES = {
    Kind.UNKNOWN_WORD: "unknown word; a line begins with version, task or section, and a task may "
                       "have jitter or delays behind its deadline",
    Kind.TOO_FEW: "too few " + COUNTS_MESSAGE,
    Kind.TOO_MANY: "too many " + COUNTS_MESSAGE,
    Kind.NOT_WHOLE: "not a whole number; write digits only",
    Kind.TOO_LARGE: "number too large; version, priority, place and semaphore go up to 255, all "
                    "others up to 4294967295",
    Kind.TASK_BEHIND: "task behind a section; all tasks stand before the first section",
    Kind.VERSION_BEHIND: "version must stand before every task and section, and only once",
    Kind.DELAYS_IN_ONE: "version 1 has no delays; state version 2 or 3, or use jitter",
    Kind.TOO_MANY_TASKS: "too many tasks; a table has at most 200",
    Kind.TOO_MANY_SECTIONS: "too many sections; a table has at most 64",
}


class Unreadable(Exception):
    """A text that is no table: the first line at fault, counted from 1, and its first fault."""

    def __init__(self, line, kind):
        super().__init__("line %d: %s" % (line, MESSAGES[kind]))
        self.line = line
        self.kind = kind


class LineFault(Exception):
    """The same inside a line, which does not know its number."""


def fault_when(applies, kind):
    if applies:
        raise LineFault(kind)


GREATEST_BYTE = 255
# The greatest number in each place behind a word that begins a line, and behind those two that may
# stand behind a task's deadline.
LINE_NUMBERS = {
    b"version": [GREATEST_BYTE],
    b"task": [GREATEST_BYTE, GREATEST_WORD, GREATEST_WORD, GREATEST_WORD],
    b"section": [GREATEST_BYTE, GREATEST_BYTE, GREATEST_WORD],
}
TAIL_NUMBERS = {b"jitter": [GREATEST_WORD], b"delays": [GREATEST_WORD, GREATEST_WORD]}


def words_of(line):
    """No other byte than a blank or a tab parts words, a lonely carriage return neither."""
    return re.findall(rb"[^ \t]+", line.partition(b"#")[0])


def numbered_lines(text):
    """The lines that have a word, each with its number."""
    # One carriage return is part of a line's end; of two the first is not. The text's end ends a
    # line as a line feed does.
    lines = (text + b"\n").replace(b"\r\n", b"\n").split(b"\n")
    for number, line in enumerate(lines, 1):
        words = words_of(line)
        if words:
            yield number, words


def typed_number(word, greatest):
    # Bytes that are digits in other writings than ASCII are none to isdigit.
    fault_when(not word.isdigit(), Kind.NOT_WHOLE)
    # No number of more digits than the greatest one is turned into an int.
    digits = word.lstrip(b"0") or b"0"
    fault_when(len(digits) > len(str(greatest)) or int(digits) > greatest, Kind.TOO_LARGE)
    return int(digits)


def typed_numbers(words, limits):
    """As many numbers as there are limits, and the words behind them."""
    numbers = [typed_number(word, limit) for word, limit in zip(words, limits)]
    fault_when(len(numbers) < len(limits), Kind.TOO_FEW)
    return numbers, words[len(limits):]


def end_line(words):
    """Nothing may stand here."""
    if words:
        raise LineFault(Kind.TOO_MANY if words[0].isdigit() else Kind.UNKNOWN_WORD)


class TypedTable:
    """What the lines of a text have said so far, and where each thing stands."""

    def __init__(self):
        self.version = None
        self.version_line = None
        self.tasks = []
        self.task_lines = []
        self.rows = []
        self.row_lines = []
        self.has_delays = False

    def take(self, number, words):
        first, rest = words[0], words[1:]
        fault_when(first not in LINE_NUMBERS, Kind.UNKNOWN_WORD)
        {b"version": self.take_version, b"task": self.take_task,
         b"section": self.take_section}[first](number, rest)

    def take_version(self, number, words):
        before = self.tasks or self.rows or self.version is not None
        fault_when(before, Kind.VERSION_BEHIND)
        numbers, rest = typed_numbers(words, LINE_NUMBERS[b"version"])
        end_line(rest)
        self.version, self.version_line = numbers[0], number

    def take_task(self, number, words):
        fault_when(self.rows, Kind.TASK_BEHIND)
        fault_when(len(self.tasks) == MOST_TASKS, Kind.TOO_MANY_TASKS)
        numbers, rest = typed_numbers(words, LINE_NUMBERS[b"task"])
        self.tasks.append(Task(*numbers, *self.take_tail(rest)))
        self.task_lines.append(number)

    def take_tail(self, words):
        """The earliest and the latest delay."""
        if not words or words[0] not in TAIL_NUMBERS:
            end_line(words)
            return [0, 0]
        fault_when(words[0] == b"delays" and self.version == 1, Kind.DELAYS_IN_ONE)
        numbers, rest = typed_numbers(words[1:], TAIL_NUMBERS[words[0]])
        end_line(rest)
        self.has_delays = self.has_delays or words[0] == b"delays"
        return ([0] + numbers)[-2:]

    def take_section(self, number, words):
        fault_when(len(self.rows) == MOST_ROWS, Kind.TOO_MANY_SECTIONS)
        numbers, rest = typed_numbers(words, LINE_NUMBERS[b"section"])
        end_line(rest)
        self.rows.append(Row(*numbers))
        self.row_lines.append(number)

    def version_meant(self):
        if self.version is not None:
            return self.version
        if len(self.tasks) > MOST_BEFORE:
            return 3
        return 2 if self.has_delays else 1


# Where what a text says stands: the line of its version, or None, of each task and of each row.
Lines = collections.namedtuple("Lines", "version tasks rows")


def read_text(text):
    """The version, the tasks, the rows and their lines; or raises Unreadable."""
    typed = TypedTable()
    for number, words in numbered_lines(text):
        try:
            typed.take(number, words)
        except LineFault as fault:
            raise Unreadable(number, fault.args[0])
    return (typed.version_meant(), typed.tasks, typed.rows,
            Lines(typed.version_line, typed.task_lines, typed.row_lines))


# A table of no known version states a length without its records, which are written as version 1's.
NO_VERSION = Layout(0, 0, LAYOUTS[1].fields)


def typed_bytes(version, tasks, rows):
    layout = LAYOUTS.get(version, NO_VERSION)
    head = bytes([version]) + table_length(layout, len(tasks), len(rows)).to_bytes(2, "big")
    return (head + bytes([len(tasks), len(rows)])
            + b"".join(task_bytes(layout, task) for task in tasks)
            + b"".join(map(row_bytes, rows)))


def bytes_of_text(text):
    return typed_bytes(*read_text(text)[:3])


TEXT_HEAD = "# task PRIORITY PERIOD COST DEADLINE; section PLACE SEMAPHORE LENGTH"


def written_task(task):
    line = "task %d %d %d %d" % task[:4]
    if task.earliest:
        return line + " delays %d %d" % (task.earliest, task.latest)
    return line + " jitter %d" % task.latest if task.latest else line


def write_text(data):
    """The text form of a table's bytes; or raises Refused, with deadlines of up to four periods."""
    tasks, rows = read_bytes(data, PERIODS_PAST)
    return lines_text([TEXT_HEAD, "version %d" % data[0], *map(written_task, tasks),
                       *("section %d %d %d" % row for row in rows)]).encode("ascii")


HEAD_FIELDS = ["version", "length", "length", "number of tasks", "number of sections"]
# The bytes of each field of a task and of a row, one behind the other.
DELAY_NAMES = {True: ["earliest delay"] * 4 + ["latest delay"] * 4, False: ["jitter"] * 4}
ROW_NAMES = ["place", "semaphore"] + ["length"] * 4


def task_names(version):
    has_earliest = "earliest" in LAYOUTS.get(version, NO_VERSION).fields
    return (["priority"] + ["period"] * 4 + ["cost"] * 4 + ["deadline"] * 4
            + DELAY_NAMES[has_earliest])


def fields_of_text(text):
    """For each byte of a text's table: the line that it comes from, or None, and its field."""
    version, _, _, lines = read_text(text)
    head = [(lines.version, HEAD_FIELDS[0])] + [(None, name) for name in HEAD_FIELDS[1:]]
    tasks = [(line, name) for line in lines.tasks for name in task_names(version)]
    return head + tasks + [(line, name) for line in lines.rows for name in ROW_NAMES]


def text_line(text, place):
    line, name = fields_of_text(text)[place]
    return "no line: %s" % name if line is None else "line %d: %s" % (line, name)


# ---------------------------------------------------------------------------
# A term's report
# ---------------------------------------------------------------------------

MILLION = 1000000
GREATEST_HYPERPERIOD = 10 ** 12


def split_tables(data):
    """The bytes of each table, and whether something behind the last one closes the report."""
    # "stepping by each stated length; a stated length below 5 or past the end, or one to four bytes
    # left over, closes the report, uncounted"
    tables, at = [], 0
    while len(data) - at >= HEADER_BYTES:
        stated = big_endian(data[at + 1:at + 3])
        if not HEADER_BYTES <= stated <= len(data) - at:
            break
        tables.append(data[at:at + stated])
        at += stated
    return tables, at < len(data)


def utilisation_of(tasks):
    # "utilisation in millionths, each task's share rounded up and then summed"
    return sum(math.ceil(fractions.Fraction(MILLION * task.cost, task.period)) for task in tasks)


@functools.lru_cache(None)
def bound_of(count):
    # "entry n is the largest v with (1,000,000n + v)^n at most 2(1,000,000n)^n": the search goes on
    # between one that is small enough and one that is not, until they are neighbours.
    whole = MILLION * count
    fits, does_not = 0, whole + 1
    while does_not - fits > 1:
        tried = (fits + does_not) // 2
        if (whole + tried) ** count <= 2 * whole ** count:
            fits = tried
        else:
            does_not = tried
    return fits


@functools.lru_cache(None)
def prime_powers(number):
    """How often each prime divides the number."""
    powers, prime = collections.Counter(), 2
    while prime * prime <= number:
        while number % prime == 0:
            powers[prime] += 1
            number //= prime
        prime += 1
    if number > 1:
        powers[number] += 1
    return powers


def hyperperiod_of(tasks):
    # "the periods' least common multiple": it has each prime as often as the period does that has
    # it most.
    most = collections.Counter()
    for task in tasks:
        most |= prime_powers(task.period)
    multiple = 1
    for prime, times in most.items():
        multiple *= prime ** times
    return multiple


def hyperperiod_word(tasks):
    # "above 10^12 print "over""
    hyperperiod = hyperperiod_of(tasks)
    return "over" if hyperperiod > GREATEST_HYPERPERIOD else str(hyperperiod)


@functools.lru_cache(None)
def reported(data):
    """Of one table: the word by which it is counted, and the rest of its line."""
    try:
        tasks, rows = read_bytes(data)
    except Refused as refusal:
        return "refused", "%d at %d" % (refusal.number, refusal.place)
    word = verdict_line(responses_of(tasks, rows)).split()[0]
    return word, "utilisation %d bound %d hyperperiod %s" % (
        utilisation_of(tasks), bound_of(len(tasks)), hyperperiod_word(tasks))


REPORT_WORDS = ("schedulable", "late", "refused")


def report_text(data):
    """What is printed for a whole file."""
    tables, broken = split_tables(data)
    said = [reported(table) for table in tables]
    lines = ["%d %s %s" % (number, *each) for number, each in enumerate(said)]
    # "Report how many were schedulable, late and refused".
    counts = collections.Counter(word for word, _ in said)
    lines.append(" ".join("%s %d" % (word, counts[word]) for word in REPORT_WORDS))
    if broken:
        # "closes the report, uncounted, with a line "broken""
        lines.append("broken")
    return lines_text(lines)


# ---------------------------------------------------------------------------
# Document 01's worked tables, in its order
# ---------------------------------------------------------------------------

Worked = collections.namedtuple("Worked", "tasks rows responses rounds own_rounds blocking")


def worked(tasks, responses, rows=(), rounds=None, own_rounds=None, blocking=None, groups=None):
    """Rounds are those from the default start, worked out by hand; own rounds are those from
    document 01's start. These and blocking are None where document 01 prints none. Groups are the
    sizes of those that share a priority."""
    tasks = listed(*tasks)
    if groups:
        tasks = in_groups(tasks, *groups)
    return Worked(tasks, listed_rows(*rows), responses, rounds, own_rounds, blocking)


FIFTH = ((4, 1, 4), (6, 2, 6), (10, 3, 10))
SECTIONS = ((10, 2, 5), (20, 3, 12), (40, 10, 40), (100, 4, 50))
SECTION_ROWS = ((1, 1, 1), (1, 2, 1), (2, 2, 5), (3, 1, 2))

WORKED_TABLES = [
    worked([(1, 1, 1)], [1], rounds=[1]),
    worked([(9, 5, 5)], [5], rounds=[1]),
    worked([(9, 6, 5)], [0], rounds=[1]),
    worked([(2, 1, 2), (6, 3, 6)], [1, 6], rounds=[1, 3]),
    # "the fifth table of 01 gives 4 for its last task": 6, 7, 9, 10, 10.
    worked(FIFTH, [1, 3, 10], rounds=[1, 1, 4], own_rounds=[1, 2, 5]),
    worked([(3, 1, 3), (5, 1, 5), (6, 1, 6), (10, 2, 10)], [1, 2, 3, 9], rounds=[1, 1, 1, 4]),
    worked([(10, 1, 3), (6, 2, 4), (5, 1, 5)], [1, 3, 4], rounds=[1, 1, 1]),
    worked([(5, 1, 5), (6, 2, 4), (10, 1, 3)], [1, 3, 0], rounds=[1, 1, 1]),
    worked([(6, 4, 6), (12, 4, 12)], [4, 12], rounds=[1, 2]),
    worked([(6, 3, 6), (12, 8, 12)], [3, 0], rounds=[1, 1]),
    worked([(30, 10, 20, 10), (1000, 15, 25)], [20, 0], rounds=[1, 1], own_rounds=[1, 2]),
    worked([(30, 10, 20), (1000, 15, 25)], [10, 25], rounds=[1, 1]),
    worked(SECTIONS, [2, 10, 19, 26], rows=SECTION_ROWS, rounds=[1, 1, 2, 3],
           blocking=[0, 5, 2, 0]),
    worked([(40, 12, 40), (50, 6, 50), (100, 10, 100)], [13, 19, 28],
           rows=((0, 1, 2), (0, 2, 1), (1, 1, 1), (2, 1, 1)), rounds=[1, 1, 1],
           blocking=[1, 1, 0]),
    worked([(1, 1, 1), (1000000, 1, 1000000)], [1, 0], rounds=[1, 999999],
           own_rounds=[1, 1000000]),
]

# What the program prints; and document 01's own texts, which have the rounds from its start.
FIFTH_TEXT = """tasks 3
0 response 1 deadline 4 rounds 1
1 response 3 deadline 6 rounds 1
2 response 10 deadline 10 rounds 4
schedulable
"""

FIFTH_OWN_TEXT = """tasks 3
0 response 1 deadline 4 rounds 1
1 response 3 deadline 6 rounds 2
2 response 10 deadline 10 rounds 5
schedulable
"""

LATE_TEXT = """tasks 2
0 response 20 deadline 20 rounds 1
1 late deadline 25 rounds 1
late 1
"""

LATE_OWN_TEXT = """tasks 2
0 response 20 deadline 20 rounds 1
1 late deadline 25 rounds 2
late 1
"""


def edge_tables():
    """Document 01's "Edges", each with the text it must get (None: any answer but a refusal)."""
    fifth = Draft(listed(*FIFTH)).data()
    yield fifth[:4], "refused 1 at 0\n"
    yield b"", "refused 1 at 0\n"
    yield bytes([1, 0, 5, 33, 0]), "refused 3 at 3\n"
    yield Draft(listed(*[(100, 1, 100)] * 33)).data(), "refused 3 at 3\n"
    yield Draft(listed((4, 1, 4), (6, 2, 6), (10, 3, 10))).data(), None
    for number, byte in enumerate((14, 31, 48)):
        draft = Draft(listed(*FIFTH))
        draft.change_task(number, deadline=draft.tasks[number].period + 1)
        yield draft.data(), "refused 5 at %d\n" % byte
    for number, byte in enumerate((75, 81, 87, 93)):
        cost = SECTIONS[SECTION_ROWS[number][0]][1]
        draft = Draft(listed(*SECTIONS), listed_rows(*SECTION_ROWS))
        draft.change_row(number, length=cost)
        yield draft.data(), None
        draft.change_row(number, length=cost + 1)
        yield draft.data(), "refused 7 at %d\n" % byte
    yield from order_edges()


def order_edges():
    # "two errors give the earlier check", also across 5 and 6, which "alternate record by
    # record".
    draft = Draft(listed(*FIFTH))
    draft.change_task(0, priority=0)
    draft.change_task(1, period=0)
    yield draft.data(), "refused 6 at 5\n"
    draft.change_task(0, cost=0)
    yield draft.data(), "refused 5 at 10\n"
    draft.lent_length += 1
    yield draft.data(), "refused 4 at 0\n"
    draft.row_count = 65
    yield draft.data(), "refused 3 at 4\n"
    # Version 2 has a rule for m too.
    draft.version = 2
    yield draft.data(), "refused 3 at 4\n"
    draft.lent_length = 4
    yield draft.data(), "refused 1 at 0\n"


# ---------------------------------------------------------------------------
# The task sets of the source documents 000 to 004
# ---------------------------------------------------------------------------

# Sets given in rate monotonic or stated priority order, with the responses where the source
# prints them. Sets that document 01 already lists are left out.
SOURCE_TABLES = [
    # 000: critical instant; no offsets; the offset example with all tasks released together.
    worked([(4, 1, 4), (20, 10, 20)], None),
    worked([(10, 1, 10), (10, 2, 10), (10, 1, 10)], None),
    worked([(10, 2, 10), (10, 1, 10), (10, 2, 10), (10, 1, 10), (20, 5, 20)], None),
    # 000: the blocking example (it gives no periods or costs; these are made up).
    worked([(100, 5, 100), (100, 5, 100), (100, 5, 100), (100, 5, 100)], None,
           rows=((0, 2, 4), (1, 1, 2), (2, 2, 3), (3, 1, 1)), blocking=[3, 3, 1, 0]),
    # 000: the safe assumption about the critical instant with jitter.
    worked([(5, 3, 5, 3), (50, 4, 50)], None),
    # 001: the example, with the second deadline as printed (above its period) and cut to it.
    worked([(20, 10, 20), (10, 5, 20)], None),
    worked([(20, 10, 20), (10, 5, 10)], [10, 0]),
    # 001: exercise 2, as printed and with the last deadline cut to the period.
    worked([(30, 5, 30), (20, 5, 20), (15, 5, 20)], None),
    worked([(30, 5, 30), (20, 5, 20), (15, 5, 15)], None),
    # 003: the earliest deadline first example, under fixed priorities.
    worked([(6, 3, 4), (8, 4, 7)], None),
    # 004: assignment 1, then 1.3, 1.4 and 1.6.
    worked([(10, 2, 10), (15, 4, 15), (35, 10, 35)], None),
    worked([(10, 5, 10), (15, 4, 15), (35, 10, 35)], None),
    worked([(10, 2, 10), (15, 4, 15), (35, 17, 35)], None),
    worked([(10, 2, 10), (15, 4, 15), (35, 10, 15)], None),
    # 004: assignment 3.1 (no sections) and 3.2 (one semaphore; here under priority ceiling).
    worked(SECTIONS, None),
    worked(SECTIONS, None, rows=((1, 1, 1), (3, 1, 2))),
    # 004: assignment 4.1 to 4.3, with the jitters that varying responses give.
    worked([(10, 3, 10), (10, 2, 10)], None),
    worked([(10, 5, 10), (10, 2, 10, 2)], None),
    worked([(20, 2, 20), (10, 5, 10), (10, 2, 10, 4)], None),
    # 004: assignment 4.4 (no jitter) and 4.5.
    worked([(20, 5, 10), (50, 30, 50)], None),
    worked([(20, 5, 10, 5), (50, 30, 50, 10)], None),
]

# 002's sets, taken in both orders; its (350, 10) needs cost 100 for the printed utilisation.
TWO_ORDER_SETS = [
    ((2, 1, 2), (5, 2, 4)),
    ((10, 1, 3), (6, 2, 4), (5, 1, 5)),
    ((6, 3, 6), (12, 8, 12)),
    ((6, 1, 6), (12, 2, 12)),
    ((6, 4, 6), (12, 4, 12)),
    ((100, 20, 100), (150, 40, 150), (350, 100, 350)),
    ((7, 3, 7), (12, 3, 12), (20, 5, 20)),
]

# 004's assignment 2 asks for several priority orders of these; all are taken.
ASSIGNMENT_TWO = ((20, 2, 6), (7, 3, 7), (14, 5, 13), (100, 4, 60))


def orders_of(entries):
    if not entries:
        yield ()
    for place, entry in enumerate(entries):
        for rest in orders_of(entries[:place] + entries[place + 1:]):
            yield (entry,) + rest


def source_tables():
    for table in SOURCE_TABLES:
        yield Draft(table.tasks, table.rows).data()
    for entries in TWO_ORDER_SETS:
        yield Draft(listed(*entries)).data()
        yield Draft(listed(*reversed(entries))).data()
    for entries in orders_of(ASSIGNMENT_TWO):
        yield Draft(listed(*entries)).data()
    # 004's assignment 2.3 gives two tasks one priority. (It counts one job of the other; L6 counts
    # all.)
    yield Draft(in_groups(listed(*ASSIGNMENT_TWO), 1, 2, 1)).data()


# ---------------------------------------------------------------------------
# Made tables
# ---------------------------------------------------------------------------

Entry = collections.namedtuple("Entry", "table answers_length rounds_length")

# A made table that needs more loads than this (rounds times tasks that interfere, summed) is left
# out; the few slow tables are chosen by hand. One round of each of 200 tasks has 19,900 by itself.
MOST_LOADS = 20000
MOST_WIDE_LOADS = 300000


class Generator:
    """A linear congruential generator: the same numbers under every version of Python."""

    def __init__(self, seed):
        self.state = seed

    def word(self):
        self.state = (self.state * 6364136223846793005 + 1442695040888963407) % 2 ** 64
        return self.state >> 33

    def below(self, bound):
        return self.word() * bound >> 31

    def between(self, low, high):
        return low + self.below(high - low + 1)

    def pick(self, items):
        return items[self.below(len(items))]

    def chance(self, part, whole):
        return self.below(whole) < part

    def sample(self, items, count):
        pool = list(items)
        return [pool.pop(self.below(len(pool))) for _ in range(count)]

    def bytes(self, count):
        return bytes(self.below(256) for _ in range(count))


def loads_of(tasks, rows):
    """How many times a program that does document 01's rounds works out one load. From the default
    start there are no more."""
    return sum(len(loads_on(place, tasks)) * rounds
               for place, rounds in enumerate(rounds_of(tasks, rows, Start.OWN_COST)))


def most_loads(tasks):
    return MOST_LOADS if len(tasks) <= MOST_BEFORE else MOST_WIDE_LOADS


def exact_entry(data):
    """Slices of exactly n words, where the bytes have an n."""
    if len(data) <= TASK_COUNT_BYTE:
        return Entry(data, 1, 1)
    count = min(data[TASK_COUNT_BYTE], LONGEST_SLICES.get(data[0], LONGEST_SLICE))
    return Entry(data, count, count)


def slices_for(generator, count, longest):
    """Mostly n words, else longer, else one or both too short (refusal 8)."""
    kind = generator.below(10)
    if kind < 6:
        return count, count
    if kind < 8:
        return generator.between(count, longest), generator.between(count, longest)
    short = generator.below(count)
    enough = generator.between(count, longest)
    return generator.pick([(short, enough), (enough, short), (short, short)])


def made_entry(generator, tasks, rows, version=1):
    lengths = slices_for(generator, len(tasks), LONGEST_SLICES[version])
    return Entry(Draft(tasks, rows, version).data(), *lengths)


def answered_entry(generator, tasks, rows, version=1):
    """With slices that are long enough."""
    lengths = [generator.pick([len(tasks), LONGEST_SLICES[version]]) for _ in range(2)]
    return Entry(Draft(tasks, rows, version).data(), *lengths)


def made_priorities(generator, count):
    if generator.chance(1, 2):
        return list(range(count, 0, -1))
    chosen = generator.sample(range(1, GREATEST_PRIORITY + 1), count)
    return sorted(chosen, reverse=True)


def made_deadline(generator, period):
    upper_half = generator.between((period + 1) // 2, period)
    anywhere = generator.between(1, period)
    return generator.pick([period, period, period, upper_half, upper_half, anywhere])


def made_jitter(generator, period):
    if generator.chance(6, 10):
        return 0
    if generator.chance(9, 10):
        return generator.between(0, (period + 1) // 2)
    return generator.between(0, GREATEST_TICKS)


def made_latest(generator, deadline):
    """Mostly far within the deadline, so that the task may be in time."""
    within = [generator.between(0, deadline // part) for part in (1, 2, 4, 8, 16, 16)]
    beyond = [generator.between(deadline, 2 * deadline), generator.between(0, GREATEST_TICKS)]
    return generator.pick(generator.pick([within, within, within, within, [0], [0], beyond]))


def made_delays(generator, period, deadline, version):
    """The earliest and the latest: one delay, a constant one, or a span."""
    if version == 1:
        return 0, made_jitter(generator, period)
    latest = min(made_latest(generator, deadline), GREATEST_TICKS)
    return generator.pick([0, latest, generator.between(0, latest),
                           generator.between(latest // 2, latest)]), latest


def made_tasks(generator, count, scale, version=1):
    """Costs are drawn so that light, full and overfull tables all turn up."""
    periods = [generator.between(1, scale) for _ in range(count)]
    if generator.chance(2, 3):
        periods.sort()
    load = generator.pick([20, 40, 60, 80, 110, 160])
    priorities = made_priorities(generator, count)
    tasks = []
    for priority, period in zip(priorities, periods):
        most = max(1, period * load // (50 * count))
        cost = generator.between(1, min(most, GREATEST_TICKS))
        deadline = made_deadline(generator, period)
        delays = made_delays(generator, period, deadline, version)
        tasks.append(Task(priority, period, cost, deadline, *delays))
    return tasks


def made_rows(generator, tasks, count):
    semaphores = GREATEST_SEMAPHORE if count > 3 * len(tasks) else 3
    pairs = [(place, semaphore) for place in range(len(tasks))
             for semaphore in range(1, semaphores + 1)]
    chosen = sorted(generator.sample(pairs, count))
    return [Row(place, semaphore, made_section(generator, tasks[place].cost))
            for place, semaphore in chosen]


def made_section(generator, cost):
    return generator.pick([1, cost, generator.between(1, cost), generator.between(1, cost)])


def made_table(generator, count, row_count, scale, version=1):
    """A table that needs no more than so many loads."""
    while True:
        tasks = made_tasks(generator, count, scale, version)
        rows = made_rows(generator, tasks, row_count)
        if loads_of(tasks, rows) <= most_loads(tasks):
            return tasks, rows


def any_small_table(generator, version=1):
    count = generator.between(1, 6)
    row_count = generator.pick([0, 0, generator.between(0, min(6, 3 * count))])
    scale = generator.pick([5, 12, 40, 300, 3000, GREATEST_TICKS])
    return made_table(generator, count, row_count, scale, version)


def small_entries(generator, how_many, version=1, make=any_small_table):
    for _ in range(how_many):
        yield made_entry(generator, *make(generator, version), version)


def relaxed(tasks):
    """With the latest deadlines."""
    return [task._replace(deadline=task.period) for task in tasks]


def deadline_entries(generator, how_many, version=1, make=any_small_table):
    """Deadlines exactly at the answer, one tick below it and one above it."""
    for _ in range(how_many):
        tasks, rows = make(generator, version)
        responses = responses_of(relaxed(tasks), rows)
        for place, (task, response) in enumerate(zip(tasks, responses)):
            if response:
                wanted = response + generator.between(-1, 1)
                tasks[place] = task._replace(deadline=max(1, min(wanted, task.period)))
        if loads_of(tasks, rows) <= MOST_LOADS:
            yield made_entry(generator, tasks, rows, version)


def size_entries(generator):
    """Every n from 1 to 32, and every m from 0 to 64."""
    for count in list(range(1, MOST_BEFORE + 1)) * 2:
        row_count = generator.between(0, min(8, 2 * count))
        yield answered_entry(generator, *made_table(generator, count, row_count, 50 * count))
    for row_count in range(MOST_ROWS + 1):
        fewest = max(1, rounded_up(row_count, GREATEST_SEMAPHORE))
        count = generator.pick([fewest, fewest + 1, min(MOST_BEFORE, 3 * fewest)])
        yield answered_entry(generator, *made_table(generator, count, row_count, 200))
    largest = made_table(generator, MOST_BEFORE, MOST_ROWS, GREATEST_TICKS)
    yield answered_entry(generator, *largest)


def many_round_entries(generator, how_many):
    """Short periods that fill the processor nearly or wholly, above long ones."""
    while how_many:
        shorts = [(generator.between(2, 9), 1) for _ in range(generator.between(1, 4))]
        longs = [(generator.between(300, 3000), generator.between(1, 5))
                 for _ in range(generator.between(1, 3))]
        tasks = listed(*[(period, cost, period) for period, cost in shorts + longs])
        # In parts of 2520, which 2 to 9 all divide: from nine tenths to the whole.
        share = sum(2520 // period for period, _ in shorts)
        if 2268 <= share <= 2520 and loads_of(tasks, []) <= MOST_LOADS:
            how_many -= 1
            yield made_entry(generator, tasks, [])


def limit_delays(generator, version):
    if version == 1:
        return 0, generator.pick([0, 0, 0, 1, GREATEST_TICKS - 1, GREATEST_TICKS])
    latest = generator.pick([1, 2, GREATEST_TICKS - 1, GREATEST_TICKS])
    return generator.pick([0, latest - 1, latest]), latest


def limit_entries(generator, how_many, version=1):
    """Numbers at both ends of their ranges."""
    ends = [1, 1, 2, GREATEST_TICKS - 1, GREATEST_TICKS, GREATEST_TICKS]
    while how_many:
        count = generator.between(1, 5)
        tasks = []
        for priority in made_priorities(generator, count):
            period = generator.pick(ends)
            deadline = generator.pick([1, period, max(1, period - 1)])
            delays = limit_delays(generator, version)
            tasks.append(Task(priority, period, generator.pick(ends), deadline, *delays))
        row_count = generator.pick([0, generator.between(0, 3 * count)])
        rows = made_rows(generator, tasks, row_count)
        if loads_of(tasks, rows) <= MOST_LOADS:
            how_many -= 1
            yield made_entry(generator, tasks, rows, version)


def greatest_tables():
    """The largest sums: all numbers at their greatest, and with every count of releases so."""
    top, end = GREATEST_TICKS, GREATEST_PRIORITY
    for period in (1, 2, top):
        for jitter in (0, top):
            tasks = [Task(end - place, period, top, period, 0, jitter)
                     for place in range(MOST_BEFORE - 1)]
            tasks.append(Task(1, top, 1, top, 0, 0))
            yield Draft(tasks).data()
    tasks = [Task(end - place, top, top, top, 0, 0) for place in range(MOST_BEFORE)]
    rows = [Row(place, semaphore, top) for place in range(4)
            for semaphore in range(1, GREATEST_SEMAPHORE + 1)]
    yield Draft(tasks, rows).data()


def wrapping_tables():
    """Sums that pass 2^32 or 2^31 so as to look like a solution, or like one in time, to a
    program whose words are too narrow. The last task of each is late."""
    for cost in (1, 2, 100, 40000, 65535):
        # One load of 65536 times 65536, which is 2^32: cut to 32 bits, demand is the cost.
        yield Draft(listed((1, 65536, 1, 65536 - cost), (1000000, cost, 1000000))).data()
    for extra in (0, 1, 5):
        # The same from two loads of 2^31 each.
        yield Draft(listed((1, 32768, 1, 65536 - 7), (1, 32768, 1, 65536 - 7),
                           (1000000, 7 + extra, 1000000))).data()
    # 2^31 alone, which is negative where words are signed.
    yield Draft(listed((1, 32768, 1, 65536 - 7), (1000000, 7, 1000000))).data()
    # A wrap in the second round: x1 is 524,352, in time, and x2 is 2^32 + 524,352.
    yield Draft(listed((1, 8192, 1), (1000000, 64, 1000000))).data()
    # Jitter above the deadline: D - J is below 0.
    yield Draft(listed((10, 1, 10, 11), (10, 1, 9, 10), (20, 1, 1, 1000000))).data()


def slow_tables():
    """Many rounds; together with document 01's own these are the only ones above MOST_LOADS."""
    yield Draft(listed((1, 1, 1), (1000000, 1, 1000000), (1000000, 1, 1000000))).data()
    yield Draft(listed((2, 1, 2), (3, 1, 3), (6, 1, 6), (200000, 1, 200000))).data()
    yield Draft(listed((1000, 999, 1000), (1000000, 900, 1000000))).data()
    yield Draft(listed((3, 1, 3), (11, 1, 11), (2, 1, 2), (14, 1, 14), (232, 1, 232),
                       (30000, 1, 30000), (30000, 1, 30000))).data()


# ---------------------------------------------------------------------------
# Faults
# ---------------------------------------------------------------------------

# A fault is a function that spoils a draft, in the record or row of a number, and gives the
# refusal it asks for, or None where it does not fit. The answers in "expected" never come from
# here; the self-test compares the two.

# The turn is where the check stands among all: its stage, the record or row, and the field.
Asked = collections.namedtuple("Asked", "number place turn")

ASKED_BY_VERSION = Asked(2, 0, (2,))
ASKED_BY_COUNT = {"task_count": Asked(3, TASK_COUNT_BYTE, (3, TASK_COUNT_BYTE)),
                  "row_count": Asked(3, ROW_COUNT_BYTE, (3, ROW_COUNT_BYTE))}
ASKED_BY_LENGTH = Asked(4, 0, (4,))


def asked_by_task(draft, number, field):
    turn = 5, number, list(draft.layout.fields).index(field)
    return Asked(6 if field == "priority" else 5, task_byte(draft.layout, number, field), turn)


def asked_by_row(draft, number, field):
    turn = 7, number, list(ROW_FIELDS).index(field)
    return Asked(7, row_byte(draft.layout, len(draft.tasks), number, field), turn)


def version_fault(version):
    """The records stay as they are: under a version with other records the length is wrong."""
    def spoil(draft, _number):
        draft.version = version
        return ASKED_BY_LENGTH if version in LAYOUTS else ASKED_BY_VERSION
    return spoil


def count_fault(field, value):
    def spoil(draft, _number):
        setattr(draft, field, value)
        return ASKED_BY_COUNT[field]
    return spoil


def length_fault(stated=0, lent=0, task_count=0, row_count=0):
    def spoil(draft, _number):
        draft.stated_length += stated
        draft.lent_length += lent
        draft.task_count += task_count
        draft.row_count += row_count
        in_range = (1 <= draft.task_count <= draft.layout.most_tasks
                    and 0 <= draft.row_count <= MOST_ROWS)
        return ASKED_BY_LENGTH if in_range and draft.lent_length >= HEADER_BYTES else None
    return spoil


def cut_fault(length):
    def spoil(draft, _number):
        draft.lent_length = length
        return Asked(1, 0, (1,))
    return spoil


def number_fault(field, value):
    def spoil(draft, number):
        if number >= len(draft.tasks):
            return None
        wanted = value(draft.tasks[number])
        draft.change_task(number, **{field: max(0, min(wanted, GREATEST_WORD))})
        return asked_by_task(draft, number, field)
    return spoil


def crossed_delays(draft, number):
    """Both delays are in range, unless the earliest was not before, and the latest is below."""
    if number >= len(draft.tasks):
        return None
    earliest = max(1, draft.tasks[number].earliest)
    draft.change_task(number, earliest=earliest, latest=earliest - 1)
    return asked_by_task(draft, number, "latest")


def period_below_deadline(draft, number):
    """The period passes unless it is 0 now; it is the deadline that is out of range."""
    if number >= len(draft.tasks):
        return None
    period = max(0, draft.tasks[number].deadline - 1)
    draft.change_task(number, period=period)
    return asked_by_task(draft, number, "deadline" if period else "period")


def priority_fault(value):
    """The value is 0, or above the priority of the record before; above the greatest there is
    none, and before the first record none would be."""
    def spoil(draft, number):
        if number >= len(draft.tasks):
            return None
        before = draft.tasks[number - 1].priority if number else GREATEST_PRIORITY
        priority = value(before)
        if priority > GREATEST_PRIORITY:
            return None
        draft.change_task(number, priority=priority)
        return asked_by_task(draft, number, "priority")
    return spoil


def row_fault(**changes):
    """Of several fields, the one that is tested first is to be named first."""
    def spoil(draft, number):
        if number >= len(draft.rows):
            return None
        row = draft.rows[number]
        values = {name: value(draft, row) for name, value in changes.items()}
        draft.change_row(number, **values)
        return asked_by_row(draft, number, next(iter(changes)))
    return spoil


def repeat_row(draft, number):
    if number == 0 or number >= len(draft.rows):
        return None
    before = draft.rows[number - 1]
    draft.rows[number] = before._replace(length=1)
    return asked_by_row(draft, number, "order")


def swap_rows(draft, number):
    if number == 0 or number >= len(draft.rows):
        return None
    draft.rows[number - 1], draft.rows[number] = draft.rows[number], draft.rows[number - 1]
    return asked_by_row(draft, number, "order")


def cost_of(draft, row):
    """The cost a row's length is held against; an earlier fault may have spoiled the place."""
    return draft.tasks[min(row.place, len(draft.tasks) - 1)].cost


PERIOD_FAULTS = [number_fault("period", lambda task: 0),
                 number_fault("period", lambda task: GREATEST_TICKS + 1),
                 number_fault("period", lambda task: GREATEST_WORD)]
COST_FAULTS = [number_fault("cost", lambda task: 0),
               number_fault("cost", lambda task: GREATEST_TICKS + 1),
               number_fault("cost", lambda task: 2 ** 31)]
DEADLINE_FAULTS = [number_fault("deadline", lambda task: 0),
                   number_fault("deadline", lambda task: task.period + 1),
                   number_fault("deadline", lambda task: GREATEST_WORD)]
EARLIEST_FAULTS = [number_fault("earliest", lambda task: GREATEST_TICKS + 1),
                   number_fault("earliest", lambda task: GREATEST_WORD)]
LATEST_FAULTS = [number_fault("latest", lambda task: GREATEST_TICKS + 1),
                 number_fault("latest", lambda task: GREATEST_WORD)]
PRIORITY_FAULTS = [priority_fault(lambda before: 0),
                   priority_fault(lambda before: before + 1),
                   priority_fault(lambda before: max(before + 1, GREATEST_PRIORITY))]
PLACE_FAULTS = [row_fault(place=lambda draft, row: len(draft.tasks)),
                row_fault(place=lambda draft, row: 255)]
SEMAPHORE_FAULTS = [row_fault(semaphore=lambda draft, row: 0),
                    row_fault(semaphore=lambda draft, row: 17),
                    row_fault(semaphore=lambda draft, row: 255)]
LENGTH_FAULTS = [row_fault(length=lambda draft, row: 0),
                 row_fault(length=lambda draft, row: cost_of(draft, row) + 1),
                 row_fault(length=lambda draft, row: GREATEST_WORD)]
# Place and length both wrong: the place must be tested before the cost is looked up by it.
PLACE_AND_LENGTH = row_fault(place=lambda draft, row: len(draft.tasks),
                             length=lambda draft, row: 0)

# By version, for each delay that a record has.
DELAY_FAULTS = {1: [LATEST_FAULTS], 2: [EARLIEST_FAULTS, LATEST_FAULTS + [crossed_delays]],
                3: [EARLIEST_FAULTS, LATEST_FAULTS + [crossed_delays]]}
# Under which a table is refused; as few tasks as are spoiled are right in versions 2 and 3 alike.
OTHER_VERSIONS = {1: (0, 2, 255), 2: (0, 1, 9, 255), 3: (0, 1, 4, 255)}


def length_faults(task_size):
    return [length_fault(stated=1), length_fault(stated=-1), length_fault(stated=256),
            length_fault(lent=1), length_fault(lent=-1), length_fault(lent=task_size),
            length_fault(stated=1, lent=1), length_fault(stated=-6, lent=-6),
            length_fault(task_count=1), length_fault(task_count=-1), length_fault(row_count=1),
            length_fault(row_count=-1), length_fault(stated=task_size, task_count=1),
            length_fault(lent=6, row_count=1), length_fault(lent=-task_size, task_count=-1)]


def faults_by_refusal(version):
    return [
        [cut_fault(0), cut_fault(1), cut_fault(4)],
        [version_fault(value) for value in OTHER_VERSIONS[version]],
        [count_fault("task_count", value)
         for value in (0, LAYOUTS[version].most_tasks + 1, 255)]
        + [count_fault("row_count", value) for value in (65, 255)],
        length_faults(LAYOUTS[version].task_bytes),
        PERIOD_FAULTS + [period_below_deadline] + COST_FAULTS + DEADLINE_FAULTS
        + list(itertools.chain(*DELAY_FAULTS[version])),
        PRIORITY_FAULTS,
        PLACE_FAULTS + SEMAPHORE_FAULTS + LENGTH_FAULTS
        + [PLACE_AND_LENGTH, repeat_row, swap_rows],
    ]


FAULTS_BY_REFUSAL = {version: faults_by_refusal(version) for version in LAYOUTS}

Spoiled = collections.namedtuple("Spoiled", "entry refusals")


def sound_draft(generator, version=1, make=made_table):
    """A table without fault, small enough to spoil and with rows to spoil."""
    count = generator.between(3, 5)
    tasks, rows = make(generator, count, generator.between(3, 6), 60, version)
    return Draft(tasks, rows, version)


def spoiled_entry(generator, draft, refusals):
    lengths = slices_for(generator, len(draft.tasks), draft.longest_slice)
    return Spoiled(Entry(draft.data(), *lengths), refusals)


def one_fault(generator):
    """Every fault in every record and row of a small table."""
    for fault in itertools.chain(*FAULTS_BY_REFUSAL[1]):
        for number in range(6):
            draft = sound_draft(generator)
            refusal = fault(draft, number)
            if refusal:
                yield spoiled_entry(generator, draft, [refusal])


def can_be_written(draft):
    return (0 <= draft.task_count <= 255 and 0 <= draft.row_count <= 255
            and draft.lent_length >= 0)


def two_faults(generator, how_many, version=1, make=made_table):
    while how_many:
        draft = sound_draft(generator, version, make)
        faults = [generator.pick(generator.pick(FAULTS_BY_REFUSAL[version])) for _ in range(2)]
        refusals = [fault(draft, generator.below(5)) for fault in faults]
        if None not in refusals and can_be_written(draft):
            how_many -= 1
            yield spoiled_entry(generator, draft, refusals)


def alternating_faults(generator):
    """Refusals 5 and 6 in all pairs of records: they "alternate record by record"."""
    for first in range(4):
        for second in range(4):
            draft = Draft(*made_table(generator, 4, 2, 60))
            number_refusal = generator.pick(FAULTS_BY_REFUSAL[1][4])(draft, first)
            rise_refusal = PRIORITY_FAULTS[generator.below(2)](draft, second)
            refusals = [number_refusal, rise_refusal or PRIORITY_FAULTS[0](draft, second)]
            yield spoiled_entry(generator, draft, refusals)


def with_short_slices(spoiled):
    """With the refusal that the slices ask for too, which comes before 11."""
    entry = spoiled.entry
    short = min(entry.answers_length, entry.rounds_length) < entry.table[TASK_COUNT_BYTE]
    return spoiled._replace(refusals=spoiled.refusals + [Asked(8, 0, (8,))] * short)


def first_asked(refusals):
    """The first of these in the order of the checks."""
    return min(refusals, key=lambda asked: asked.turn)


def cut_tables(whole):
    """Every beginning of a table, and again with the stated length put right."""
    for length in range(len(whole)):
        yield whole[:length]
        if length >= HEADER_BYTES and length % 3 == 0:
            yield with_stated_length(whole[:length])


def with_stated_length(data):
    return data[:1] + len(data).to_bytes(2, "big") + data[3:]


def changed_byte_tables(whole):
    """One byte of a table set to 0, raised by one, lowered by one, or set to 255."""
    for at, old in enumerate(whole):
        for new in sorted({0, (old + 1) % 256, (old - 1) % 256, 255} - {old}):
            yield whole[:at] + bytes([new]) + whole[at + 1:]


def junk_tables(generator, how_many, version=1):
    """Junk throughout; junk after a right version; junk records under a right header."""
    for _ in range(how_many):
        yield generator.bytes(generator.below(60))
        yield bytes([version]) + generator.bytes(generator.below(60))
        counts = generator.between(1, 3), generator.between(0, 3)
        length = table_length(LAYOUTS[version], *counts)
        header = bytes([version]) + length.to_bytes(2, "big") + bytes(counts)
        yield header + generator.bytes(length - HEADER_BYTES)


def long_tables(generator):
    """Lengths above 933, the longest table of version 1 itself among them."""
    largest = Draft(*made_table(generator, MOST_BEFORE, MOST_ROWS, 3000)).data()
    yield largest
    for length in (934, 935, 1000, 1500, 4590, 5000):
        yield largest.ljust(length, b"\x01")
    yield with_stated_length(largest + b"\x00")
    thirty_three = Draft(listed(*[(100, 1, 100)] * 33), [Row(0, 1, 1)] * 64)
    yield thirty_three.data()
    yield bytes(1000)


def slice_entries():
    """All pairs of slice lengths about n, and the longest; long slices keep their later words."""
    for table in (WORKED_TABLES[0], WORKED_TABLES[4], WORKED_TABLES[10]):
        data = Draft(table.tasks, table.rows).data()
        lengths = list(range(len(table.tasks) + 3)) + [LONGEST_SLICE]
        for answers_length in lengths:
            for rounds_length in lengths:
                yield Entry(data, answers_length, rounds_length)
    spoiled = Draft(listed(*FIFTH))
    spoiled.change_task(2, priority=0)
    for lengths in ((0, 0), (2, 40), (40, 2)):
        yield Entry(spoiled.data(), *lengths)


def made_entries(generator):
    yield from small_entries(generator, 1500)
    yield from deadline_entries(generator, 350)
    yield from size_entries(generator)
    yield from many_round_entries(generator, 60)
    yield from limit_entries(generator, 200)
    for data in greatest_tables():
        yield exact_entry(data)
    for data in wrapping_tables():
        yield exact_entry(data)
    for data in slow_tables():
        yield exact_entry(data)
    for spoiled in one_fault(generator):
        yield spoiled.entry
    for spoiled in two_faults(generator, 600):
        yield spoiled.entry
    for spoiled in alternating_faults(generator):
        yield spoiled.entry
    sections = Draft(listed(*SECTIONS), listed_rows(*SECTION_ROWS)).data()
    for whole in (Draft(listed(*FIFTH)).data(), sections):
        for data in cut_tables(whole):
            yield Entry(data, LONGEST_SLICE, LONGEST_SLICE)
    for data in changed_byte_tables(sections):
        yield exact_entry(data)
    for data in junk_tables(generator, 70):
        yield Entry(data, *generator.pick([(3, 3), (40, 40), (0, 0)]))
    for data in long_tables(generator):
        yield Entry(data, MOST_BEFORE, LONGEST_SLICE)
    yield from slice_entries()


# ---------------------------------------------------------------------------
# Made tables for the engine: no jitter and no rows, or only just
# ---------------------------------------------------------------------------

def without_delays(tasks):
    return [task._replace(earliest=0, latest=0) for task in tasks]


def plain_tasks(generator, count, scale):
    """Tasks without jitter that need no more than MOST_LOADS loads without rows."""
    while True:
        tasks = without_delays(made_tasks(generator, count, scale))
        if loads_of(tasks, []) <= MOST_LOADS:
            return tasks


def plain_size_entries(generator):
    """Every n from 1 to 32, once schedulable and once late."""
    for count in range(1, MOST_BEFORE + 1):
        for wanted in (True, False):
            tasks = plain_tasks(generator, count, 15 * count)
            while is_schedulable(tasks, []) != wanted:
                tasks = plain_tasks(generator, count, 15 * count)
            yield answered_entry(generator, tasks, [])


def overloaded_entries(generator, how_many):
    """More work than ticks: some costs are above the periods, and jobs queue without end."""
    for _ in range(how_many):
        tasks = plain_tasks(generator, generator.between(2, 8), generator.pick([6, 30, 200]))
        for place in generator.sample(range(len(tasks)), generator.between(1, 2)):
            period = tasks[place].period
            tasks[place] = tasks[place]._replace(cost=generator.between(period, 2 * period + 1))
        yield made_entry(generator, tasks, [])


def queue_entries(generator, how_many):
    """A long job above short periods: late jobs queue, and must be worked off before the last
    task's first job is done, which may be in time. Dropped late jobs would show there."""
    while how_many:
        long = (500, generator.between(30, 90), 500)
        short = [(period, generator.between(1, max(1, period // 4)), period)
                 for period in generator.sample(range(4, 30), generator.between(1, 4))]
        last = [(1000, generator.between(1, 20), 1000)] * generator.between(1, 2)
        tasks = listed(long, *(short + last))
        if responses_of(tasks, [])[-1] and loads_of(tasks, []) <= MOST_LOADS:
            how_many -= 1
            yield answered_entry(generator, tasks, [])


def first_end_entries(generator, how_many):
    """The first jobs end exactly at their deadlines; then one of them one tick after it."""
    while how_many:
        tasks = plain_tasks(generator, generator.between(1, 6), generator.pick([12, 40, 300]))
        responses = responses_of(relaxed(tasks), [])
        tasks = [task._replace(deadline=response or task.period)
                 for task, response in zip(tasks, responses)]
        late = generator.below(len(tasks))
        if tasks[late].deadline > 1 and is_schedulable(tasks, []):
            how_many -= 1
            yield answered_entry(generator, tasks, [])
            tasks[late] = tasks[late]._replace(deadline=tasks[late].deadline - 1)
            yield answered_entry(generator, tasks, [])


def every_tick_tables():
    """T = 1, at every place: released in every tick, alone and with others."""
    for entries in (((1, 2, 1),), ((1, 1000000, 1),), ((1, 1, 1), (1, 1, 1)),
                    ((1, 1, 1), (40, 1, 40)), ((1, 2, 1), (40, 1, 40), (30, 1, 30)),
                    ((40, 1, 40), (1, 1, 1)), ((40, 39, 40), (1, 1, 1), (50, 1, 50)),
                    ((40, 1, 40), (50, 2, 50), (1, 1, 1)), ((2, 1, 2), (1, 1, 1), (40, 1, 40))):
        yield Draft(listed(*entries)).data()
    yield Draft(listed(*[(1, 1, 1)] * MOST_BEFORE)).data()
    yield Draft(listed(*([(1, 1, 1)] * (MOST_BEFORE - 1) + [(2000, 1, 2000)]))).data()
    # The last of 32 tasks is served last, and in time; then one tick late.
    for deadline in (MOST_BEFORE, MOST_BEFORE - 1):
        last = [(100, 1, deadline)]
        yield Draft(listed(*([(100, 1, 100)] * (MOST_BEFORE - 1) + last))).data()
    # 1,000,000 ticks in one job, and one tick more.
    yield Draft(listed((1000000, 1000000, 1000000))).data()
    yield Draft(listed((1000000, 999999, 1000000), (1000000, 1, 1000000))).data()
    yield Draft(listed((1000000, 999999, 1000000), (1000000, 2, 1000000))).data()


def slice_pairs(count):
    """n and n - 1 words for answers, with short and long slices for rounds."""
    for answers_length in (0, count - 1, count, count + 1, LONGEST_SLICE):
        for rounds_length in (0, count - 1, count, LONGEST_SLICE):
            yield answers_length, rounds_length


def unplayable_drafts():
    """Jitter in the last task alone, in the first alone, rows alone, and both; and faults of
    rows, which come before 9."""
    entries = [(100, 2, 100), (90, 3, 80), (80, 4, 80)]
    for jittered in (2, 0):
        draft = Draft(listed(*entries))
        draft.change_task(jittered, latest=1)
        yield draft
    yield Draft(listed(*entries), listed_rows((2, 16, 4)))
    draft = Draft(listed(*entries), listed_rows((0, 1, 1), (1, 1, 1)))
    draft.change_task(1, latest=GREATEST_TICKS)
    yield draft
    draft = Draft(listed(*entries), listed_rows((2, 16, 5)))
    yield draft
    whole = listed(*[(1000, 1, 1000)] * MOST_BEFORE)
    draft = Draft(whole)
    draft.change_task(MOST_BEFORE - 1, latest=1)
    yield draft
    yield Draft(whole, [Row(place, 1 + half, 1) for place in range(MOST_BEFORE)
                        for half in range(2)])


def engine_slice_entries():
    plain = Draft(listed(*[(1000, 1, 1000)] * MOST_BEFORE))
    for draft in [Draft(listed(*FIFTH[:2])), plain] + list(unplayable_drafts()):
        for lengths in slice_pairs(len(draft.tasks)):
            yield Entry(draft.data(), *lengths)


def engine_entries(generator):
    yield from plain_size_entries(generator)
    yield from overloaded_entries(generator, 80)
    yield from queue_entries(generator, 60)
    yield from first_end_entries(generator, 50)
    for data in every_tick_tables():
        yield exact_entry(data)
    yield from engine_slice_entries()


# ---------------------------------------------------------------------------
# Made tables for the places of refusals
# ---------------------------------------------------------------------------

def moved_row(place, semaphore):
    """The row before again, moved by so much."""
    def spoil(draft, number):
        if not 0 < number < len(draft.rows):
            return None
        before = draft.rows[number - 1]
        moved = Row(before.place + place, before.semaphore + semaphore, 1)
        if moved.place < 0 or not 1 <= moved.semaphore <= GREATEST_SEMAPHORE:
            return None
        draft.rows[number] = moved
        return asked_by_row(draft, number, "order")
    return spoil


ORDER_FAULTS = [repeat_row, moved_row(0, -1), moved_row(-1, 0), moved_row(-1, 1)]
# The faults of each field, in the order tested; those of a record by version.
TASK_FAULTS = {version: [PERIOD_FAULTS, COST_FAULTS, DEADLINE_FAULTS, *delays, PRIORITY_FAULTS]
               for version, delays in DELAY_FAULTS.items()}
ROW_FAULTS = [PLACE_FAULTS, SEMAPHORE_FAULTS, LENGTH_FAULTS, ORDER_FAULTS]


def changed_tasks(draft, changes):
    for number, fields in changes:
        draft.change_task(number, **fields)
    return draft.data()


def changed_rows(draft, changes):
    for number, fields in changes:
        draft.change_row(number, **fields)
    return draft.data()


def place_edges():
    """Places counted by hand, each with the text it must get (None: any answer but a refusal): the
    records of the table with sections begin at bytes 5, 22, 39 and 56, its rows at 73, 79, 85 and
    91."""
    for changes, text in (
            ([(0, {"priority": 0})], "refused 6 at 5\n"),
            ([(1, {"priority": 5})], "refused 6 at 22\n"),
            ([(1, {"priority": 4})], None),
            ([(1, {"period": 0})], "refused 5 at 23\n"),
            ([(1, {"cost": 0})], "refused 5 at 27\n"),
            ([(1, {"deadline": 21})], "refused 5 at 31\n"),
            ([(1, {"latest": 1000001})], "refused 5 at 35\n"),
            ([(3, {"latest": 1000001})], "refused 5 at 69\n"),
            ([(1, {"priority": 0, "latest": 1000001})], "refused 5 at 35\n"),
            ([(1, {"period": 1000001, "deadline": 0})], "refused 5 at 23\n"),
            ([(1, {"priority": 0}), (2, {"period": 0})], "refused 6 at 22\n"),
            ([(1, {"latest": 1000001}), (2, {"priority": 0})], "refused 5 at 35\n")):
        draft = Draft(listed(*SECTIONS), listed_rows(*SECTION_ROWS))
        yield changed_tasks(draft, changes), text
    for changes, text in (
            ([(0, {"place": 4})], "refused 7 at 73\n"),
            ([(2, {"place": 4})], "refused 7 at 85\n"),
            ([(2, {"semaphore": 17})], "refused 7 at 86\n"),
            ([(2, {"length": 11})], "refused 7 at 87\n"),
            ([(2, {"place": 0, "length": 1})], "refused 7 at 85\n"),
            ([(3, {"length": 5})], "refused 7 at 93\n"),
            ([(2, {"place": 4, "semaphore": 0, "length": 0})], "refused 7 at 85\n"),
            ([(2, {"semaphore": 0, "length": 0})], "refused 7 at 86\n"),
            ([(2, {"place": 0, "semaphore": 17})], "refused 7 at 86\n"),
            ([(2, {"place": 0, "length": 3})], "refused 7 at 87\n"),
            ([(1, {"semaphore": 1}), (2, {"place": 4})], "refused 7 at 79\n")):
        draft = Draft(listed(*SECTIONS), listed_rows(*SECTION_ROWS))
        yield changed_rows(draft, changes), text


def spoiled_table(generator, version, count, row_count, *faults, make=made_table):
    """A table with these faults, made one after the other, each given with the number of its
    record or row; nothing where they fit none of ten tables."""
    for _ in range(10):
        tasks, rows = make(generator, count, row_count, 60 * count, version)
        draft = Draft(tasks, rows, version)
        refusals = [fault(draft, number) for fault, number in faults]
        if None not in refusals:
            yield spoiled_entry(generator, draft, refusals)
            return


def wrong_counts(version):
    """As many records and rows as n and m say, and each length right, but n, m or both out of
    range."""
    most = LAYOUTS[version].most_tasks
    for task_count, row_count, field in (
            (0, 0, "task_count"), (0, 64, "task_count"), (0, 65, "task_count"),
            (most + 1, 0, "task_count"), (most + 1, 64, "task_count"),
            (most + 1, 65, "task_count"), (1, 65, "row_count"), (most, 65, "row_count")):
        tasks = listed(*[(100, 1, 100)] * task_count)
        draft = Draft(tasks, [Row(0, 1, 1)] * row_count, version)
        yield Spoiled(exact_entry(draft.data()), [ASKED_BY_COUNT[field]])


def count_faults(generator):
    """n or m out of range, both, and each with a fault that is tested later."""
    yield from wrong_counts(1)
    wrong_task_counts = [count_fault("task_count", value) for value in (0, 33, 255)]
    wrong_row_counts = [count_fault("row_count", value) for value in (65, 128, 255)]
    for fault in wrong_task_counts + wrong_row_counts:
        for later in (length_fault(lent=1), PERIOD_FAULTS[0], PRIORITY_FAULTS[0], PLACE_FAULTS[0]):
            yield from spoiled_table(generator, 1, 2, 2, (later, 0), (fault, 0))
    for fault, later in itertools.product(wrong_task_counts, wrong_row_counts):
        yield from spoiled_table(generator, 1, 2, 2, (later, 0), (fault, 0))


def ends_of(count):
    """The first, a middle and the last."""
    return sorted({0, count // 2, count - 1}) if count else []


def task_field_faults(generator, version):
    """Every fault of every field, in the first, a middle and the last record."""
    for fault in itertools.chain(*TASK_FAULTS[version], [period_below_deadline]):
        count, row_count = generator.between(3, 4), generator.between(0, 4)
        for number in ends_of(count):
            yield from spoiled_table(generator, version, count, row_count, (fault, number))


def row_field_faults(generator):
    """The same for a row."""
    for fault in itertools.chain(*ROW_FAULTS):
        count, row_count = generator.between(2, 4), generator.between(3, 4)
        for number in ends_of(row_count):
            yield from spoiled_table(generator, 1, count, row_count, (fault, number))


def single_faults(generator, version):
    """Every field of the only record, and of the only row."""
    for fields in TASK_FAULTS[version] + ROW_FAULTS:
        yield from spoiled_table(generator, version, 1, 1, (generator.pick(fields), 0))


def field_faults(generator):
    yield from task_field_faults(generator, 1)
    yield from row_field_faults(generator)
    yield from single_faults(generator, 1)


def task_pairs(generator, version, numbers):
    """Two faulty fields of one record, in each of these."""
    for fields in itertools.combinations(TASK_FAULTS[version], 2):
        for number in numbers:
            faults = [(generator.pick(field), number) for field in fields]
            yield from spoiled_table(generator, version, 3, generator.between(0, 2), *faults)


def row_pairs(generator):
    """Two faulty fields of one row. It is moved first, since that changes its other fields."""
    for fields in itertools.combinations(reversed(ROW_FAULTS), 2):
        first = 1 if ORDER_FAULTS in fields else 0
        for faults in itertools.product(*fields):
            number = generator.between(first, 3)
            pairs = [(fault, number) for fault in faults]
            yield from spoiled_table(generator, 1, generator.between(2, 4), 4, *pairs)


def task_tails(generator, version):
    """Every field of a record with all that are tested after it."""
    for start in range(len(TASK_FAULTS[version])):
        faults = [(generator.pick(field), 1) for field in TASK_FAULTS[version][start:]]
        yield from spoiled_table(generator, version, 2, 1, *faults)


def row_tails(generator):
    for start in range(len(ROW_FAULTS)):
        faults = [(generator.pick(field), 2) for field in reversed(ROW_FAULTS[start:])]
        yield from spoiled_table(generator, 1, 3, 4, *faults)


def neighbour_faults(generator):
    yield from task_pairs(generator, 1, list(range(3)) * 2)
    yield from row_pairs(generator)
    yield from task_tails(generator, 1)
    yield from row_tails(generator)


def distant_pairs(generator, fields):
    """Any two fields of two records or rows, next to each other or not."""
    for first, second in itertools.product(fields, repeat=2):
        at = generator.between(1, 2)
        for numbers in ((at, at + 1), (generator.below(2), 3)):
            faults = zip((generator.pick(first), generator.pick(second)), numbers)
            yield from spoiled_table(generator, 1, 4, 4, *faults)


def task_and_row_faults(generator, version, make=made_table):
    """Any field of a record with any field of a row."""
    for first, second in itertools.product(TASK_FAULTS[version], ROW_FAULTS):
        faults = [(generator.pick(first), generator.below(3)), (generator.pick(second), 1)]
        yield from spoiled_table(generator, version, 3, 2, *faults, make=make)


def distant_faults(generator):
    yield from distant_pairs(generator, TASK_FAULTS[1])
    yield from distant_pairs(generator, ROW_FAULTS)
    yield from task_and_row_faults(generator, 1)


def far_faults(generator, version, sizes):
    """The last and a middle record or row of long tables: the greatest places."""
    for count, row_count in sizes:
        for fields, size in ((TASK_FAULTS[version], count), (ROW_FAULTS, row_count)):
            for field, number in itertools.product(fields, ends_of(size)[-2:]):
                yield from spoiled_table(generator, version, count, row_count,
                                         (generator.pick(field), number))


def limits_of(tasks, number):
    """The least and the greatest value that each field of a record may have."""
    task = tasks[number]
    above = tasks[number - 1].priority if number else GREATEST_PRIORITY
    below = tasks[number + 1].priority if number + 1 < len(tasks) else 1
    return {"period": (task.deadline, GREATEST_TICKS), "cost": (1, GREATEST_TICKS),
            "deadline": (1, task.period), "earliest": (0, task.latest),
            "latest": (task.earliest, GREATEST_TICKS), "priority": (below, above)}


def tasks_within_limits(generator, version):
    """Fields just inside the limits that the faults are just outside of: nothing is refused."""
    for field, number, end in itertools.product(LAYOUTS[version].fields, range(3), range(2)):
        tasks, _ = made_table(generator, 3, 0, 60, version)
        tasks[number] = tasks[number]._replace(**{field: limits_of(tasks, number)[field][end]})
        yield answered_entry(generator, tasks, [], version)


def rows_within_limits(generator):
    for number, field, value in ((0, "semaphore", 1), (3, "semaphore", GREATEST_SEMAPHORE),
                                 (3, "place", 2), (0, "length", 1), (3, "length", None)):
        tasks, rows = made_table(generator, 3, 4, 60)
        row = rows[number]._replace(length=1)
        rows[number] = row._replace(**{field: value or tasks[row.place].cost})
        yield answered_entry(generator, tasks, rows)


def within_limits(generator):
    yield from tasks_within_limits(generator, 1)
    yield from rows_within_limits(generator)


def placed_faults(generator):
    yield from count_faults(generator)
    yield from field_faults(generator)
    yield from neighbour_faults(generator)
    yield from distant_faults(generator)
    yield from far_faults(generator, 1, [(MOST_BEFORE, MOST_ROWS), (MOST_BEFORE, 0),
                                         (MOST_BEFORE, 1), (4, MOST_ROWS),
                                         (1, GREATEST_SEMAPHORE)])


def place_entries(generator):
    for data, _ in place_edges():
        yield exact_entry(data)
    for spoiled in placed_faults(generator):
        yield spoiled.entry
    yield from within_limits(generator)


# ---------------------------------------------------------------------------
# Made tables of version 2
# ---------------------------------------------------------------------------

# 01's jitter table "With delays 10 and 10 on its first task" is the first; all are worked out by
# hand.
DELAY_TABLES = [
    worked([(30, 10, 20, 10, 10), (1000, 15, 25)], [20, 25], rounds=[1, 1], own_rounds=[1, 2]),
    # As version 1 has it.
    worked([(30, 10, 20, 0, 10), (1000, 15, 25)], [20, 0], rounds=[1, 1], own_rounds=[1, 2]),
    # 25 + 5 is 30, which divides evenly; with one tick more a second job counts.
    worked([(30, 10, 20, 5, 10), (1000, 15, 25)], [20, 25], rounds=[1, 1], own_rounds=[1, 2]),
    worked([(30, 10, 20, 4, 10), (1000, 15, 25)], [20, 0], rounds=[1, 1], own_rounds=[1, 2]),
    # To a task's own answer the latest is added whole, whatever the earliest is.
    worked([(30, 10, 20, 10, 10), (1000, 15, 30, 5, 5)], [20, 30], rounds=[1, 1],
           own_rounds=[1, 2]),
    worked([(30, 10, 20, 10, 10), (1000, 15, 30, 0, 5)], [20, 30], rounds=[1, 1],
           own_rounds=[1, 2]),
    worked([(30, 10, 20, 10, 10), (1000, 15, 29, 5, 5)], [20, 0], rounds=[1, 1],
           own_rounds=[1, 1]),
    worked([(10, 4, 10, 6, 6)], [10], rounds=[1], own_rounds=[1]),
    worked([(10, 4, 10, 7, 7)], [0], rounds=[1], own_rounds=[1]),
    worked([(10, 4, 10, 0, 7)], [0], rounds=[1], own_rounds=[1]),
    # Delays above the deadline, above the period, and the greatest.
    worked([(10, 1, 10, 0, 11), (20, 1, 20, 1000000, 1000000), (40, 4, 40, 3, 4)], [0, 0, 11],
           rounds=[1, 1, 2], own_rounds=[1, 1, 2]),
    # With sections.
    worked([(10, 2, 5, 1, 3)] + list(SECTIONS[1:]), [5, 12, 24, 26], rows=SECTION_ROWS,
           rounds=[1, 2, 4, 3], own_rounds=[1, 3, 4, 4], blocking=[0, 5, 2, 0]),
]

DELAYS_TEXT = """tasks 2
0 response 20 deadline 20 rounds 1
1 response 25 deadline 25 rounds 1
schedulable
"""


def delay_edges():
    """Places counted by hand, each with the text it must get (None: any answer but a refusal):
    in version 2 the records of the table with sections begin at bytes 5, 26, 47 and 68, its rows
    at 89, 95, 101 and 107."""
    for changes, text in (
            ([(0, {"priority": 0})], "refused 6 at 5\n"),
            ([(0, {"earliest": 1})], "refused 5 at 22\n"),
            ([(1, {"priority": 5})], "refused 6 at 26\n"),
            ([(1, {"priority": 4})], None),
            ([(1, {"period": 0})], "refused 5 at 27\n"),
            ([(1, {"cost": 0})], "refused 5 at 31\n"),
            ([(1, {"deadline": 21})], "refused 5 at 35\n"),
            ([(1, {"earliest": 1000001})], "refused 5 at 39\n"),
            ([(1, {"earliest": 1000001, "latest": 1000000})], "refused 5 at 39\n"),
            ([(1, {"earliest": 1000001, "latest": 1000001})], "refused 5 at 39\n"),
            ([(1, {"latest": 1000001})], "refused 5 at 43\n"),
            ([(1, {"earliest": 1000000, "latest": 1000001})], "refused 5 at 43\n"),
            ([(1, {"earliest": 1000000, "latest": 999999})], "refused 5 at 43\n"),
            ([(1, {"earliest": 1})], "refused 5 at 43\n"),
            ([(1, {"latest": 1000000})], None),
            ([(1, {"earliest": 1000000, "latest": 1000000})], None),
            ([(1, {"earliest": 7, "latest": 7})], None),
            ([(3, {"earliest": 1000001})], "refused 5 at 81\n"),
            ([(3, {"latest": 1000001})], "refused 5 at 85\n"),
            ([(1, {"deadline": 0, "earliest": 1000001})], "refused 5 at 35\n"),
            ([(1, {"priority": 0, "earliest": 1000001})], "refused 5 at 39\n"),
            ([(1, {"priority": 0, "earliest": 1})], "refused 5 at 43\n"),
            ([(1, {"priority": 0}), (2, {"earliest": 1000001})], "refused 6 at 26\n"),
            ([(1, {"latest": 1000001}), (2, {"priority": 0})], "refused 5 at 43\n")):
        draft = Draft(listed(*SECTIONS), listed_rows(*SECTION_ROWS), 2)
        yield changed_tasks(draft, changes), text
    for changes, text in (
            ([(0, {"place": 4})], "refused 7 at 89\n"),
            ([(2, {"semaphore": 17})], "refused 7 at 102\n"),
            ([(2, {"length": 11})], "refused 7 at 103\n"),
            ([(3, {"place": 2, "semaphore": 2})], "refused 7 at 107\n"),
            ([(3, {"length": 5})], "refused 7 at 109\n")):
        draft = Draft(listed(*SECTIONS), listed_rows(*SECTION_ROWS), 2)
        yield changed_rows(draft, changes), text


def version_edges():
    """Heads and bodies of different versions, with the text that each must get."""
    sections = listed(*SECTIONS), listed_rows(*SECTION_ROWS)
    first, second = (Draft(*sections, version).data() for version in (1, 2))
    for version in (0, 9, 4, 255):
        yield bytes([version]) + second[1:], "refused 2 at 0\n"
        yield bytes([version, 0, 5, 33, 65]), "refused 2 at 0\n"
    yield bytes([2, 0, 5, 1]), "refused 1 at 0\n"
    yield bytes([2, 0, 5, 0, 65]), "refused 3 at 3\n"
    yield bytes([2, 0, 5, 33, 0]), "refused 3 at 3\n"
    yield bytes([2, 0, 5, 1, 65]), "refused 3 at 4\n"
    yield bytes([2, 0, 5, 1, 0]), "refused 4 at 0\n"
    # One version's bytes under the other's head, with each length stated.
    for data, other in ((first, second), (second, first)):
        yield other[:1] + data[1:], "refused 4 at 0\n"
        yield other[:3] + data[3:], "refused 4 at 0\n"
        yield data[:1] + other[1:3] + data[3:], "refused 4 at 0\n"
        yield data[:1] + other[1:], "refused 4 at 0\n"
    # A length that both versions have: three records and two rows, three longer records and none.
    # The latest delay of the first is then read where version 1's second record begins.
    rows = listed_rows((0, 1, 1), (1, 1, 2))
    data = Draft(listed(*FIFTH), rows).data()
    yield data, None
    yield b"\x02" + data[1:4] + b"\x00" + data[5:], "refused 5 at 22\n"


def delay_pairings(generator):
    """Each delay at and beyond its limits, in every pairing."""
    ends = (0, 1, 10, GREATEST_TICKS, GREATEST_TICKS + 1, GREATEST_WORD)
    for earliest, latest in itertools.product(ends, repeat=2):
        number = generator.below(3)
        draft = Draft(*made_table(generator, 3, 2, 60, 2), 2)
        draft.change_task(number, earliest=earliest, latest=latest)
        refusals = []
        if earliest > GREATEST_TICKS:
            refusals.append(asked_by_task(draft, number, "earliest"))
        if latest > GREATEST_TICKS or earliest > latest:
            refusals.append(asked_by_task(draft, number, "latest"))
        yield Spoiled(exact_entry(draft.data()), refusals)


def head_faults(generator, version):
    """Every fault of the first five bytes and of the length."""
    for fault in itertools.chain(*FAULTS_BY_REFUSAL[version][:4]):
        draft = sound_draft(generator, version)
        refusal = fault(draft, 0)
        if refusal:
            yield spoiled_entry(generator, draft, [refusal])


def following_faults(generator):
    """Any two fields of a record and the next."""
    for first, second in itertools.product(TASK_FAULTS[2], repeat=2):
        number = generator.below(2)
        faults = (generator.pick(first), number), (generator.pick(second), number + 1)
        yield from spoiled_table(generator, 2, 3, 1, *faults)


def delay_faults(generator):
    yield from wrong_counts(2)
    yield from delay_pairings(generator)
    yield from head_faults(generator, 2)
    yield from task_field_faults(generator, 2)
    yield from single_faults(generator, 2)
    yield from task_pairs(generator, 2, range(3))
    yield from task_tails(generator, 2)
    yield from following_faults(generator)
    yield from task_and_row_faults(generator, 2)
    yield from far_faults(generator, 2, [(MOST_BEFORE, MOST_ROWS)])


def greatest_delay_tables():
    """The largest sums with delays, and some that look right to words that are too narrow."""
    top = GREATEST_TICKS
    for period, delays in itertools.product((1, top), ((0, top), (top - 1, top), (top, top))):
        short = [(period, top, period) + delays] * (MOST_BEFORE - 1)
        yield Draft(listed(*short, (top, 1, top)), version=2).data()
    for earliest in (0, 1, 500, 900000):
        # One load of 65536 times 65536, which is 2^32: cut to 32 bits, demand is the cost.
        yield Draft(listed((1, 65536, 1, earliest, earliest + 65536 - 7), (top, 7, top)),
                    version=2).data()
    # D - latest is below 0.
    yield Draft(listed((10, 1, 10, 11, 11), (10, 1, 9, 0, 10), (20, 1, 1, top, top)),
                version=2).data()


def long_delay_tables(generator):
    """Lengths about 1,061, the longest table of version 2, and about 933, that of version 1."""
    largest = Draft(*made_table(generator, MOST_BEFORE, MOST_ROWS, 3000, 2), 2).data()
    yield largest
    for length in (1060, 933, 934):
        yield largest[:length]
        yield with_stated_length(largest[:length])
    for length in (1062, 1063, 2000, 4590):
        yield largest.ljust(length, b"\x02")
    yield with_stated_length(largest + b"\x00")
    yield b"\x01" + largest[1:]
    yield with_stated_length(b"\x01" + largest[1:933])


def twin_entries(generator, how_many):
    # "Version 1 tables read with earliest 0 and keep their answers": the same tables in version 2.
    for table in WORKED_TABLES[:-1]:
        yield exact_entry(Draft(table.tasks, table.rows, 2).data())
    for _ in range(how_many):
        tasks, rows = any_small_table(generator)
        lengths = slices_for(generator, len(tasks), LONGEST_SLICE)
        for version in (1, 2):
            yield Entry(Draft(tasks, rows, version).data(), *lengths)


def delay_size_entries(generator):
    """Every n from 1 to 32, and some m up to 64."""
    for count in range(1, MOST_BEFORE + 1):
        tasks, rows = made_table(generator, count, generator.between(0, 2 * count), 50 * count, 2)
        yield answered_entry(generator, tasks, rows, 2)
    for row_count in (16, 33, 63, MOST_ROWS):
        yield answered_entry(generator, *made_table(generator, 6, row_count, 200, 2), 2)


def playable_delay_entries(generator):
    """Version 2 for the engine: all delays 0, as many schedulable as late; and a single delay, a
    constant one too, which gets 9, or 8 where the slice is short."""
    for count, wanted in itertools.product((1, 2, 3, 5, 8, 13, 31, MOST_BEFORE), (True, False)):
        tasks = plain_tasks(generator, count, 15 * count)
        while is_schedulable(tasks, []) != wanted:
            tasks = plain_tasks(generator, count, 15 * count)
        yield answered_entry(generator, tasks, [], 2)
    top = GREATEST_TICKS
    for count, number, delays in ((1, 0, (1, 1)), (3, 0, (1, 1)), (3, 2, (1, 1)), (3, 1, (0, 1)),
                                  (3, 2, (top, top)), (MOST_BEFORE, MOST_BEFORE - 1, (1, 1))):
        draft = Draft(listed(*[(1000, 1, 1000)] * count), version=2)
        draft.change_task(number, earliest=delays[0], latest=delays[1])
        for lengths in ((count, 0), (count, count), (count - 1, count)):
            yield Entry(draft.data(), *lengths)
    rows = listed_rows((2, 16, 1))
    yield exact_entry(Draft(listed(*[(1000, 1, 1000)] * 3), rows, 2).data())


def delay_slice_entries():
    data = Draft(DELAY_TABLES[0].tasks, version=2).data()
    for lengths in ((0, 0), (1, 2), (2, 1), (2, 2), (2, 40), (40, 2), (40, 40)):
        yield Entry(data, *lengths)


def spoiled_delay_tables():
    """Every beginning of a table of one task, and every byte of another changed."""
    yield from cut_tables(Draft(DELAY_TABLES[7].tasks, version=2).data())
    tasks = listed((30, 10, 20, 4, 10), (90, 15, 80, 7, 7))
    yield from changed_byte_tables(Draft(tasks, listed_rows((1, 1, 3)), 2).data())


def delay_entries(generator):
    for spoiled in itertools.chain(delay_faults(generator), two_faults(generator, 50, 2)):
        yield spoiled.entry
    yield from tasks_within_limits(generator, 2)
    for table in DELAY_TABLES:
        yield exact_entry(Draft(table.tasks, table.rows, 2).data())
    for data, _ in itertools.chain(delay_edges(), version_edges()):
        yield exact_entry(data)
    yield from small_entries(generator, 100, 2)
    yield from deadline_entries(generator, 40, 2)
    yield from delay_size_entries(generator)
    yield from limit_entries(generator, 30, 2)
    yield from twin_entries(generator, 15)
    yield from playable_delay_entries(generator)
    yield from delay_slice_entries()
    for data in itertools.chain(greatest_delay_tables(), spoiled_delay_tables(),
                                junk_tables(generator, 6, 2), long_delay_tables(generator)):
        yield exact_entry(data)


# ---------------------------------------------------------------------------
# Made tables for the two starts
# ---------------------------------------------------------------------------

# All worked out by hand.
START_TABLES = [
    # Each round adds one tick: as many rounds as each start's bound allows, and late.
    worked([(1, 1, 1), (5, 1, 5)], [1, 0], rounds=[1, 4], own_rounds=[1, 5]),
    worked([(1, 1, 1), (60, 1, 50, 0, 7)], [1, 0], rounds=[1, 42], own_rounds=[1, 43]),
    # The same in time: 3, 4, 4; then 4, 5, 6, 7, 8, 9, 10, 10.
    worked([(2, 1, 2), (4, 2, 4)], [1, 4], rounds=[1, 2], own_rounds=[1, 3]),
    worked([(2, 1, 2), (5, 1, 5), (7, 1, 7), (10, 1, 10)], [1, 2, 4, 10], rounds=[1, 1, 2, 7],
           own_rounds=[1, 2, 3, 8]),
    # 4 and 5 are 9: the start is late by itself, though the task's own cost is not; with one tick
    # more it is in time, and the solution.
    worked([(10, 5, 10), (20, 4, 8)], [5, 0], rounds=[1, 1], own_rounds=[1, 1]),
    worked([(10, 5, 10), (20, 4, 9)], [5, 9], rounds=[1, 1], own_rounds=[1, 2]),
    # The latest delay counts there too.
    worked([(10, 5, 10), (20, 4, 11, 2, 3)], [5, 0], rounds=[1, 1], own_rounds=[1, 1]),
    worked([(10, 5, 10), (20, 4, 12, 2, 3)], [5, 12], rounds=[1, 1], own_rounds=[1, 2]),
    # Blocking is the larger part of the start, and is not carried on to the next task.
    worked([(30, 2, 30), (60, 3, 60), (100, 20, 100)], [17, 20, 25], rows=((0, 1, 1), (2, 1, 15)),
           rounds=[1, 1, 1], own_rounds=[1, 2, 2], blocking=[15, 15, 0]),
    # Delays let two jobs in at once, and one counts: 7, 11, 13, 13, and not 9 or 11.
    worked([(10, 2, 10, 0, 20), (100, 5, 100)], [0, 13], rounds=[1, 3], own_rounds=[1, 3]),
    # A late task counts as any other; a less urgent one does not.
    worked([(5, 9, 5), (60, 1, 60)], [0, 0], rounds=[1, 3], own_rounds=[1, 4]),
    worked([(10, 1, 1), (1000000, 1000000, 1000000)], [1, 0], rounds=[1, 1], own_rounds=[1, 1]),
]


def lone_entries(generator, how_many, version):
    """A single task: both starts are one."""
    for _ in range(how_many):
        row_count = generator.pick([0, 0, 2])
        yield answered_entry(generator, *made_table(generator, 1, row_count, 60, version), version)


def settled_entries(generator, how_many, version):
    """The start is the solution: nothing is released twice before the last task is done."""
    for _ in range(how_many):
        costs = [generator.between(1, 30) for _ in range(generator.between(2, 8))]
        latest = generator.pick([0, generator.between(0, 40)])
        earliest = generator.between(0, latest) if version > 1 else 0
        # The costs, a blocking that is no longer than they are, and a delay with its spread.
        least = 2 * sum(costs) + 2 * latest
        periods = [least + generator.below(50) for _ in costs]
        tasks = listed(*[(period, cost, period, earliest, latest)
                         for period, cost in zip(periods, costs)])
        rows = made_rows(generator, tasks, generator.between(0, len(tasks)))
        yield answered_entry(generator, tasks, rows, version)


def with_deadline(task, deadline):
    """Its period is made longer where it has to be."""
    return task._replace(period=max(task.period, deadline), deadline=deadline)


def about_starts(generator, how_many, version, make=made_table):
    """A task's deadline at both its starts, one tick before them and one after."""
    for _ in range(how_many):
        count, scale = generator.between(2, 6), generator.pick([12, 40, 300])
        tasks, rows = make(generator, count, generator.between(0, 4), scale, version)
        place = generator.between(1, count - 1)
        task = tasks[place]._replace(latest=min(tasks[place].latest, 1000),
                                     earliest=min(tasks[place].earliest, 1000))
        for start in Start:
            first = first_term(start, *parts_of(place, tasks, rows))
            for deadline in range(first + task.latest - 1, first + task.latest + 2):
                tasks[place] = with_deadline(task, max(1, deadline))
                if loads_of(tasks, rows) <= MOST_LOADS:
                    yield answered_entry(generator, tasks, rows, version)


def blocked_task(generator, section, version):
    period, cost = generator.between(section, 6 * section), generator.between(1, 20)
    return (period, cost, period) + made_delays(generator, period, period, version)


def blocked_entries(generator, how_many, version):
    """A long section of the least urgent task blocks all others, and is the larger part of their
    starts."""
    for _ in range(how_many):
        section = generator.between(50, 300)
        blocked = [blocked_task(generator, section, version)
                   for _ in range(generator.between(1, 5))]
        tasks = listed(*blocked, (6 * section, section + generator.below(20), 6 * section))
        rows = listed_rows((0, 1, 1), (len(blocked), 1, section))
        if loads_of(tasks, rows) <= MOST_LOADS:
            yield answered_entry(generator, tasks, rows, version)


def crowding_task(generator, version):
    """Its delays let several jobs in at once."""
    period = generator.between(5, 30)
    spread = generator.between(period, 5 * period)
    earliest = generator.below(20) if version > 1 else 0
    return period, generator.between(1, 3), period, earliest, earliest + spread


def crowding_entries(generator, how_many, version):
    for _ in range(how_many):
        crowding = [crowding_task(generator, version) for _ in range(generator.between(1, 3))]
        others = [(period, generator.between(1, 20), period)
                  for period in generator.sample(range(200, 2000), generator.between(1, 3))]
        tasks = listed(*(crowding + others))
        if loads_of(tasks, []) <= MOST_LOADS:
            yield answered_entry(generator, tasks, [], version)


def saving_entries(generator, how_many, version, saved, make=made_table):
    """Schedulable, and for each task but the first so many rounds are saved: 1, or 0 although the
    starts differ."""
    while how_many:
        count, scale = generator.between(2, 5), generator.pick([12, 40, 300])
        tasks, rows = make(generator, count, generator.below(4), scale, version)
        pairs = zip(rounds_of(tasks, rows, Start.OWN_COST), rounds_of(tasks, rows))
        savings = [own - default for own, default in pairs]
        if savings[1:] == [saved] * (count - 1) and is_schedulable(tasks, rows):
            how_many -= 1
            yield answered_entry(generator, tasks, rows, version)


def exact_deadline_entries(generator, how_many, version, make=any_small_table):
    """Each deadline is the answer; then one of them is one tick short of it."""
    while how_many:
        tasks, rows = make(generator, version)
        tasks = relaxed(tasks)
        responses = responses_of(tasks, rows)
        if not all(responses) or loads_of(tasks, rows) > MOST_LOADS:
            continue
        how_many -= 1
        tasks = [task._replace(deadline=response) for task, response in zip(tasks, responses)]
        yield answered_entry(generator, tasks, rows, version)
        short = generator.below(len(tasks))
        tasks[short] = tasks[short]._replace(deadline=max(1, responses[short] - 1))
        yield answered_entry(generator, tasks, rows, version)


def start_size_entries(generator):
    """Every n from 1 to 32, and some m up to 64, in turn in both versions."""
    for count in range(1, MOST_BEFORE + 1):
        version = 1 + count % 2
        row_count = generator.between(0, min(8, 2 * count))
        tasks, rows = made_table(generator, count, row_count, 50 * count, version)
        yield answered_entry(generator, tasks, rows, version)
    for version, row_count in itertools.product(VERSIONS_BEFORE, (16, 33, 63, MOST_ROWS)):
        tasks, rows = made_table(generator, 8, row_count, 400, version)
        yield answered_entry(generator, tasks, rows, version)
    for version in VERSIONS_BEFORE:
        tasks, rows = made_table(generator, MOST_BEFORE, MOST_ROWS, GREATEST_TICKS, version)
        yield answered_entry(generator, tasks, rows, version)


def bound_tables():
    """Each round adds one tick, up to deadlines of several lengths."""
    for deadline in (1, 2, 3, 40, 300):
        yield Draft(listed((1, 1, 1), (deadline, 1, deadline))).data()
    for delays in ((0, 9), (9, 9), (4, 9)):
        yield Draft(listed((1, 1, 1), (200, 1, 100) + delays, (300, 1, 300)), version=2).data()
    yield Draft(listed((2, 1, 2), (3, 1, 3), (6, 1, 6))).data()
    yield Draft(listed((3, 1, 3), (7, 1, 7), (8, 1, 8), (11, 3, 11))).data()


def greatest_start_tables():
    """The greatest starts; and starts that are 1,000,000 ticks, with the delay, or one more."""
    top = GREATEST_TICKS
    rows = [Row(place, semaphore, top) for place in range(MOST_BEFORE - 4, MOST_BEFORE)
            for semaphore in range(1, GREATEST_SEMAPHORE + 1)]
    for version, latest in itertools.product(VERSIONS_BEFORE, (0, top)):
        whole = listed(*[(top, top, top, 0, latest)] * MOST_BEFORE)
        yield Draft(whole, version=version).data()
        yield Draft(whole, rows, version).data()
    for latest, more in itertools.product((0, 64000), (0, 1)):
        share = (top - latest) // MOST_BEFORE
        shares = [(top, share, top, latest // 2, latest)] * (MOST_BEFORE - 1)
        yield Draft(listed(*shares, (top, share + more, top, 0, latest)), version=2).data()
        # The last but one has the last one's section for the last one's cost.
        sections = listed_rows((0, 1, 1), (MOST_BEFORE - 1, 1, share + more))
        yield Draft(listed(*shares, (top, top, top, 0, 0)), sections, 2).data()


def start_slice_entries():
    data = Draft(listed(*FIFTH)).data()
    for lengths in ((0, 0), (2, 3), (3, 2), (3, LONGEST_SLICE), (LONGEST_SLICE, 3)):
        yield Entry(data, *lengths)


def in_both_versions(tables):
    """In version 1 with the latest delay alone."""
    for table, version in itertools.product(tables, VERSIONS_BEFORE):
        tasks = table.tasks
        if version == 1:
            tasks = [task._replace(earliest=0) for task in tasks]
        yield exact_entry(Draft(tasks, table.rows, version).data())


def start_entries(generator):
    yield from in_both_versions(START_TABLES)
    for version in VERSIONS_BEFORE:
        yield from lone_entries(generator, 4, version)
        yield from settled_entries(generator, 10, version)
        yield from about_starts(generator, 6, version)
        yield from blocked_entries(generator, 12, version)
        yield from crowding_entries(generator, 14, version)
        yield from saving_entries(generator, 6, version, 0)
        yield from saving_entries(generator, 6, version, 1)
        yield from exact_deadline_entries(generator, 10, version)
    yield from start_size_entries(generator)
    for data in itertools.chain(bound_tables(), greatest_start_tables()):
        yield exact_entry(data)
    yield from start_slice_entries()


# ---------------------------------------------------------------------------
# Made tables in which tasks share a priority
# ---------------------------------------------------------------------------

# All worked out by hand.
GROUP_TABLES = [
    # The fifth table of 01 with one priority for the last two. Each interferes with the other:
    # 6, 7, which is late; and 6, 7, 9, 10, 10.
    worked(FIFTH, [1, 0, 10], rounds=[1, 1, 4], own_rounds=[1, 2, 5], groups=(1, 2)),
    # Either may have to wait for the other, as far as the equation knows; a shorter deadline of the
    # first one then makes it 0.
    worked([(2, 1, 2), (2, 1, 2)], [2, 2], rounds=[1, 1], own_rounds=[2, 2], groups=(2,)),
    worked([(2, 1, 1), (2, 1, 2)], [0, 2], rounds=[1, 1], own_rounds=[1, 2], groups=(2,)),
    # 004's assignment 2.3: 10, 13, 13 and 14, 17, 25, 30, 38, 41, 43, 51, 54, 54.
    worked(ASSIGNMENT_TWO, [2, 0, 13, 54], rounds=[1, 1, 2, 9], own_rounds=[1, 1, 3, 10],
           groups=(1, 2, 1)),
    # Three tasks above one: 6, 7, 7.
    worked([(5, 1, 5), (7, 1, 7), (9, 1, 9), (30, 3, 30)], [3, 3, 3, 7], rounds=[1, 1, 1, 2],
           own_rounds=[2, 2, 2, 3], groups=(3, 1)),
    # A late task interferes with an equal one too, from before it and from behind it: 10, 28, 64.
    worked([(4, 9, 4), (60, 1, 60)], [0, 0], rounds=[1, 2], own_rounds=[1, 3], groups=(2,)),
    worked([(60, 1, 60), (4, 9, 4)], [0, 0], rounds=[2, 1], own_rounds=[3, 1], groups=(2,)),
    # An equal task's section does not block; a less urgent task's does, since the ceiling is the
    # group's own priority.
    worked([(10, 2, 10), (20, 3, 20), (20, 4, 20), (100, 4, 100)], [2, 9, 9, 15],
           rows=((1, 1, 2), (2, 1, 3)), rounds=[1, 1, 1, 2], own_rounds=[1, 2, 2, 3],
           blocking=[0, 0, 0, 0], groups=(1, 2, 1)),
    worked([(10, 2, 10), (20, 3, 20), (20, 4, 20), (100, 4, 100)], [2, 15, 15, 15],
           rows=((1, 1, 2), (2, 1, 3), (3, 1, 4)), rounds=[1, 2, 2, 2], own_rounds=[1, 3, 3, 3],
           blocking=[0, 4, 4, 0], groups=(1, 2, 1)),
    # The longest section of a less urgent group blocks a whole group, of which one has a row.
    worked([(50, 2, 50), (60, 3, 60), (200, 5, 200), (200, 7, 200)], [11, 11, 17, 17],
           rows=((1, 1, 1), (2, 1, 4), (3, 1, 6)), rounds=[1, 1, 1, 1], own_rounds=[2, 2, 2, 2],
           blocking=[6, 6, 0, 0], groups=(2, 2)),
    # The spread of an equal task counts, whether it stands before (18 + 12 divides evenly) or
    # behind (18, 26, 26).
    worked([(30, 10, 30, 0, 12), (40, 8, 40)], [30, 18], rounds=[1, 1], own_rounds=[2, 2],
           groups=(2,)),
    worked([(30, 10, 30), (20, 8, 20, 0, 3)], [26, 0], rounds=[2, 1], own_rounds=[3, 1],
           groups=(2,)),
    # All in one group.
    worked([(100, 1, 32)] * MOST_BEFORE, [32] * MOST_BEFORE, rounds=[1] * MOST_BEFORE,
           own_rounds=[2] * MOST_BEFORE, groups=(MOST_BEFORE,)),
    worked([(100, 1, 31)] * MOST_BEFORE, [0] * MOST_BEFORE, rounds=[1] * MOST_BEFORE,
           own_rounds=[1] * MOST_BEFORE, groups=(MOST_BEFORE,)),
]

GROUPS_TEXT = """tasks 3
0 response 1 deadline 4 rounds 1
1 late deadline 6 rounds 1
2 response 10 deadline 10 rounds 4
late 1
"""


def group_edges():
    """Places counted by hand, each with the text it must get (None: any answer but a refusal). The
    table with sections has priorities 3, 2, 2, 1 here."""
    for changes, text in (
            ([], None),
            ([(0, {"priority": 2})], None),
            ([(3, {"priority": 2})], None),
            ([(0, {"priority": 2}), (3, {"priority": 2})], None),
            ([(2, {"priority": 3})], "refused 6 at 39\n"),
            ([(3, {"priority": 3})], "refused 6 at 56\n"),
            ([(0, {"priority": 1})], "refused 6 at 22\n"),
            ([(1, {"priority": 1})], "refused 6 at 39\n"),
            ([(2, {"priority": 0})], "refused 6 at 39\n"),
            ([(3, {"priority": 0})], "refused 6 at 56\n"),
            ([(1, {"cost": 0}), (2, {"priority": 3})], "refused 5 at 27\n"),
            ([(2, {"latest": 1000001, "priority": 3})], "refused 5 at 52\n"),
            ([(2, {"priority": 3}), (3, {"period": 0})], "refused 6 at 39\n")):
        draft = Draft(in_groups(listed(*SECTIONS), 1, 2, 1), listed_rows(*SECTION_ROWS))
        yield changed_tasks(draft, changes), text
    yield from three_priorities()


def three_priorities():
    """All priorities of these in three records: the first that is 0 or rises is refused."""
    starts = {1: (5, 22, 39), 2: (5, 26, 47)}
    for version in VERSIONS_BEFORE:
        for priorities in itertools.product((0, 1, 2, GREATEST_PRIORITY), repeat=3):
            tasks = with_priorities(listed(*FIFTH), priorities)
            faulty = [start for start, priority, before
                      in zip(starts[version], priorities, (GREATEST_PRIORITY,) + priorities)
                      if priority == 0 or priority > before]
            text = "refused 6 at %d\n" % faulty[0] if faulty else None
            yield Draft(tasks, version=version).data(), text


def made_groups(generator, count):
    """The sizes of groups, not all 1: a single group at the start, at the end or in between, groups
    throughout, or all tasks in one."""
    size = generator.between(2, max(2, count - 2))
    before = generator.pick([0, count - size, (count - size) // 2])
    single = [1] * before + [size] + [1] * (count - before - size)
    throughout = []
    while sum(throughout) < count - 1:
        throughout.append(generator.between(1, min(3, count - 1 - sum(throughout))))
    throughout[generator.below(len(throughout))] += 1
    return generator.pick([single, single, single, throughout, throughout, [count]])


def with_groups(generator, tasks):
    sizes = made_groups(generator, len(tasks))
    return with_priorities(tasks, repeated(made_priorities(generator, len(sizes)), sizes))


def tied_table(generator, make, *how):
    """A table that this makes, but with groups of tasks that share a priority."""
    while True:
        tasks, rows = make(generator, *how)
        if len(tasks) > 1:
            tasks = with_groups(generator, tasks)
            if loads_of(tasks, rows) <= most_loads(tasks):
                return tasks, rows


def any_tied_table(generator, version=1):
    return tied_table(generator, any_small_table, version)


def made_tied_table(generator, *how):
    return tied_table(generator, made_table, *how)


def regrouped(generator, entries):
    """The tables of these entries with groups, but those that have one task or would need too many
    loads."""
    for entry in entries:
        tasks, rows = read_table(entry.table, LONGEST_SLICE, LONGEST_SLICE)
        if len(tasks) > 1:
            tasks = with_groups(generator, tasks)
            if loads_of(tasks, rows) <= MOST_LOADS:
                yield entry._replace(table=Draft(tasks, rows, entry.table[0]).data())


def group_size_entries(generator):
    """Every n from 2 to 32, in turn in both versions; then 32 tasks and 64 rows, in groups of one
    size."""
    for count in range(2, MOST_BEFORE + 1):
        version = 1 + count % 2
        row_count = generator.between(0, min(8, 2 * count))
        tasks, rows = made_tied_table(generator, count, row_count, 50 * count, version)
        yield answered_entry(generator, tasks, rows, version)
    for version, size in itertools.product(VERSIONS_BEFORE, (2, 4, 8, 16, MOST_BEFORE)):
        tasks, rows = made_table(generator, MOST_BEFORE, MOST_ROWS, 3000, version)
        tasks = in_groups(tasks, *[size] * (MOST_BEFORE // size))
        yield answered_entry(generator, tasks, rows, version)


# Of four tasks.
GROUP_SIZES = [(2, 1, 1), (1, 2, 1), (1, 1, 2), (2, 2), (3, 1), (1, 3), (4,)]


def group_priority_faults(generator, version):
    """Every fault of a priority in every record: a rise into a group, in it and after it, and a 0
    before it, in it, at its end and after it."""
    for sizes, fault, number in itertools.product(GROUP_SIZES, PRIORITY_FAULTS, range(4)):
        tasks, rows = made_table(generator, 4, generator.below(3), 60, version)
        draft = Draft(in_groups(tasks, *sizes), rows, version)
        refusal = fault(draft, number)
        if refusal:
            yield spoiled_entry(generator, draft, [refusal])


def group_row_faults(generator, version):
    for fault, number in itertools.product(itertools.chain(*ROW_FAULTS), (0, 2)):
        yield from spoiled_table(generator, version, 4, 3, (fault, number), make=made_tied_table)


def group_faults(generator):
    for version in VERSIONS_BEFORE:
        yield from group_priority_faults(generator, version)
        yield from group_row_faults(generator, version)
        yield from task_and_row_faults(generator, version, made_tied_table)


def greatest_group_tables():
    """The largest sums, and some that look right to words that are too narrow, with loads before
    the task and behind it."""
    top, others = GREATEST_TICKS, MOST_BEFORE - 1
    for period, jitter in itertools.product((1, top), (0, top)):
        loads = [(period, top, period, jitter)] * others
        yield Draft(in_groups(listed(*loads, (top, 1, top)), MOST_BEFORE)).data()
        yield Draft(in_groups(listed((top, 1, top), *loads), MOST_BEFORE)).data()
    for cost in (1, 7, 40000):
        # One load of 65536 times 65536, which is 2^32: cut to 32 bits, demand is the cost.
        load, task = (1, 65536, 1, 65536 - cost), (top, cost, top)
        for entries in ((load, task), (task, load)):
            yield Draft(in_groups(listed(*entries), 2)).data()
    # 1,000,000 ticks together, and one more.
    share = top // MOST_BEFORE
    for more in (0, 1):
        tasks = listed((top, share + more, top), *[(top, share, top)] * others)
        yield Draft(in_groups(tasks, MOST_BEFORE)).data()


def slow_group_tables():
    """Many rounds, of the last task of a group and of the first one."""
    short = [(2, 1, 2), (3, 1, 3), (6, 1, 6)]
    for entries in (short + [(20000, 1, 20000)], [(20000, 1, 20000)] + short):
        yield Draft(in_groups(listed(*entries), 4)).data()


def engine_group_entries():
    """Two equal tasks at the start, in the middle and at the end: the engine refuses them, with 8
    where its slice is short; and delays, rows and a wrong row beside them."""
    for version, count in itertools.product(VERSIONS_BEFORE, (2, 3, 8, MOST_BEFORE)):
        for before in ends_of(count - 1):
            sizes = [1] * before + [2] + [1] * (count - before - 2)
            tasks = in_groups(listed(*[(1000, 1, 1000)] * count), *sizes)
            for lengths in ((count, 0), (count, count), (count - 1, count)):
                yield Entry(Draft(tasks, version=version).data(), *lengths)
    for version in VERSIONS_BEFORE:
        draft = Draft(in_groups(listed(*[(1000, 2, 1000)] * 3), 1, 2), version=version)
        draft.change_task(1, latest=1)
        yield exact_entry(draft.data())
        for length in (2, 3):
            rows = listed_rows((1, 1, length))
            yield exact_entry(Draft(draft.tasks, rows, version).data())


def group_slice_entries():
    data = Draft(GROUP_TABLES[0].tasks).data()
    for lengths in ((0, 0), (2, 3), (3, 2), (3, LONGEST_SLICE), (LONGEST_SLICE, 3)):
        yield Entry(data, *lengths)


def group_entries(generator):
    yield from in_both_versions(GROUP_TABLES)
    for data, _ in group_edges():
        yield exact_entry(data)
    for spoiled in group_faults(generator):
        yield spoiled.entry
    for version in VERSIONS_BEFORE:
        for spoiled in two_faults(generator, 40, version, made_tied_table):
            yield spoiled.entry
        yield from small_entries(generator, 150, version, any_tied_table)
        yield from deadline_entries(generator, 30, version, any_tied_table)
        yield from exact_deadline_entries(generator, 12, version, any_tied_table)
        yield from about_starts(generator, 4, version, made_tied_table)
        yield from saving_entries(generator, 6, version, 1, made_tied_table)
        yield from regrouped(generator, itertools.chain(
            limit_entries(generator, 30, version), settled_entries(generator, 8, version),
            blocked_entries(generator, 8, version), crowding_entries(generator, 10, version)))
    yield from group_size_entries(generator)
    for data in itertools.chain(greatest_group_tables(), slow_group_tables()):
        yield exact_entry(data)
    yield from engine_group_entries()
    yield from group_slice_entries()


# ---------------------------------------------------------------------------
# Made tables with deadlines past the period
# ---------------------------------------------------------------------------

WorkedPast = collections.namedtuple("WorkedPast", "tasks rows answers tried")


def blocking_rows(count, section):
    """A section of the last of so many tasks blocks all others."""
    return listed_rows((0, 1, 1), (count - 1, 1, section))


def worked_past(tasks, answers, tried, blocked=0, groups=None):
    """All tasks but the last are blocked for so many ticks. Groups are the sizes of those that
    share a priority."""
    tasks = listed(*tasks)
    if groups:
        tasks = in_groups(tasks, *groups)
    rows = blocking_rows(len(tasks), blocked) if blocked else []
    return WorkedPast(tasks, rows, answers, tried)


# All worked out by hand; a comment that gives numbers gives the R(q) of the task with the most.
PAST_TABLES = [
    # 001's example, "its process 2 standing first": 15, 10. Then the other way round, and with the
    # second deadline at 15, at 14 and cut to the period.
    worked_past([(20, 10, 20), (10, 5, 20)], [10, 15], [1, 2]),
    worked_past([(10, 5, 20), (20, 10, 20)], [5, 20], [1, 1]),
    worked_past([(20, 10, 20), (10, 5, 15)], [10, 15], [1, 2]),
    worked_past([(20, 10, 20), (10, 5, 14)], [10, LATE], [1, 1]),
    worked_past([(20, 10, 20), (10, 5, 10)], [10, LATE], [1, 1]),
    # 001's exercise 2, as printed and with the last deadline cut to the period.
    worked_past([(30, 5, 30), (20, 5, 20), (15, 5, 20)], [5, 10, 15], [1, 1, 1]),
    worked_past([(30, 5, 30), (20, 5, 20), (15, 5, 15)], [5, 10, 15], [1, 1, 1]),
    # One task. No second job waits; then D < R(0) <= T, which is late all the same.
    worked_past([(1, 1, 4)], [1], [1]),
    worked_past([(10, 10, 40)], [10], [1]),
    worked_past([(10, 5, 5)], [5], [1]),
    worked_past([(10, 5, 4)], [LATE], [1]),
    worked_past([(20, 10, 20), (40, 10, 15)], [10, LATE], [1, 1]),
    # Late at q = 1, 2 and 3: 14, 18; 14, 18, 22; 2, 3, 4, 5. Late at once.
    worked_past([(10, 14, 15)], [LATE], [2]),
    worked_past([(10, 14, 18)], [LATE], [3]),
    worked_past([(1, 2, 4)], [LATE], [4]),
    worked_past([(1, 5, 4)], [LATE], [1]),
    # 33, 34, 35 and so on up to 96: open. 23 up to 86, which is late at q = 63, or open.
    worked_past([(32, 33, 128)], [OPEN], [64]),
    worked_past([(22, 23, 85)], [LATE], [64]),
    worked_past([(22, 23, 86)], [OPEN], [64]),
    # 2 for every q. The second task has no w at all.
    worked_past([(1, 1, 4), (100, 1, 100)], [OPEN, LATE], [64, 1], blocked=1),
    # 127, 126 and so on: 64 at q = 63, where it ends; with one tick more 65 there, and open.
    worked_past([(64, 63, 256), (5000, 64, 5000)], [127, 4096], [64, 1], blocked=64),
    worked_past([(64, 63, 256), (5000, 65, 5000)], [OPEN, 4160], [64, 1], blocked=65),
    # The same where a more urgent task takes the ticks: the load is 1, and jobs of both are
    # released together again at 4,096, and at 4,160, which is later than q = 63 comes.
    worked_past([(4096, 64, 4096), (64, 63, 256)], [64, 127], [1, 64]),
    worked_past([(4160, 65, 4160), (64, 63, 256)], [65, OPEN], [1, 64]),
    # 40, which is 4T, 39 and so on: 10 at q = 30. A tick less is late at once.
    worked_past([(10, 9, 40), (1000, 31, 4000)], [40, 310], [31, 1], blocked=31),
    worked_past([(10, 9, 39), (1000, 31, 4000)], [LATE, 310], [1, 1], blocked=31),
    # 114, 102, 116, 104, 118, 106, 94: the longest is neither the first nor the last but one. Late
    # at q = 4, at q = 2 and at once.
    worked_past([(70, 26, 70), (100, 62, 118)], [26, 118], [1, 7]),
    worked_past([(70, 26, 70), (100, 62, 117)], [26, LATE], [1, 5]),
    worked_past([(70, 26, 70), (100, 62, 115)], [26, LATE], [1, 3]),
    worked_past([(70, 26, 70), (100, 62, 113)], [26, LATE], [1, 1]),
    # The load is above 1: 17, 17, 22, 22, 22, 27.
    worked_past([(10, 5, 10), (12, 7, 22)], [5, LATE], [1, 6]),
    # A section of the last task, which holds up the second: 25, 21, 17, 13. The last: 58, 50, 68.
    worked_past([(10, 4, 20), (15, 7, 60), (40, 6, 67)], [10, 25, LATE], [1, 4, 3], blocked=6),
    worked_past([(10, 4, 20), (15, 7, 25), (40, 6, 57)], [10, 25, LATE], [1, 4, 1], blocked=6),
    # The load is 1: 7, 6; the other way round 5, 6, 4; with one priority for both these and those.
    # Then 7, 5, 8, 6, 4. Late at q = 1, and at q = 2.
    worked_past([(4, 2, 16), (6, 3, 24)], [2, 7], [1, 2]),
    worked_past([(6, 3, 24), (4, 2, 16)], [3, 6], [1, 3]),
    worked_past([(6, 3, 24), (4, 2, 5)], [3, LATE], [1, 2]),
    worked_past([(4, 2, 16), (6, 3, 24)], [6, 7], [3, 2], groups=(2,)),
    worked_past([(10, 5, 10), (4, 2, 8)], [5, 8], [1, 5]),
    worked_past([(10, 5, 10), (4, 2, 7)], [5, LATE], [1, 3]),
    # Two of one priority are blocked: 19, 11 and 18, 11.
    worked_past([(12, 4, 48), (12, 5, 48), (60, 5, 240)], [19, 18, 23], [2, 2, 1], blocked=5,
                groups=(2, 1)),
    # Late before open: with n = q + 1, w is 33n and 5 for each 10 ticks begun, from 66n to 66n + 5.
    worked_past([(10, 5, 4), (64, 33, 256)], [LATE, OPEN], [1, 64]),
    worked_past([(10, 5, 5), (64, 33, 256)], [5, OPEN], [1, 64]),
    # The greatest numbers: 1,000,000 for every q, so that w is up to 63,999,937; 1,000,000 and
    # 1,750,000; 507,812 up to 999,968; 507,813 up to 1,000,032, which is late at q = 63.
    worked_past([(999999, 999999, 1000000), (1000000, 1, 1000000)], [OPEN, LATE], [64, 1],
                blocked=1),
    worked_past([(250000, 1000000, 1000000)], [LATE], [2]),
    worked_past([(500000, 507812, 1000000)], [OPEN], [64]),
    worked_past([(500000, 507813, 1000000)], [LATE], [64]),
    worked_past([(1000000, 1000000, 1000000)], [1000000], [1]),
    worked_past([(1000000, 1000000, 1000000)] * MOST_BEFORE, [1000000] + [LATE] * 31,
                [1] * MOST_BEFORE),
    worked_past([(1000000, 31250, 1000000)] * MOST_BEFORE, [31250 * n for n in range(1, 33)],
                [1] * MOST_BEFORE),
    # The last one has to wait for two jobs of each: 492,219, and 16 more for each q.
    worked_past([(250000, 7813, 1000000)] * MOST_BEFORE, [7813 * n for n in range(1, 32)] + [OPEN],
                [1] * 31 + [64]),
    worked_past([(250000, 7813, 492234)] * MOST_BEFORE, [7813 * n for n in range(1, 32)] + [LATE],
                [1] * 31 + [2]),
    # With one priority for all each of them is open: 63,000, and one tick more for each q.
    worked_past([(31999, 1000, 127996)] * MOST_BEFORE, [OPEN] * MOST_BEFORE, [64] * MOST_BEFORE,
                groups=(MOST_BEFORE,)),
]

# What the program prints, by the number of the table.
PAST_TEXTS = {
    0: """tasks 2
0 response 10 deadline 20 tried 1
1 response 15 deadline 20 tried 2
schedulable
""",
    12: """tasks 1
0 late deadline 15 tried 2
late 0
""",
    19: """tasks 2
0 open deadline 4 tried 64
1 late deadline 100 tried 1
open 0
""",
    40: """tasks 2
0 late deadline 4 tried 1
1 open deadline 256 tried 64
late 0
""",
    41: """tasks 2
0 response 5 deadline 5 tried 1
1 open deadline 256 tried 64
open 1
""",
}


def deadline_edges():
    """The greatest deadlines, and one tick more: each with the byte that is refused, or None."""
    for period, deadline in ((1, 4), (2, 8), (3, 12), (10, 40), (249999, 999996),
                             (250000, 1000000), (250001, 1000000), (333333, 1000000),
                             (500000, 1000000), (999999, 1000000), (1000000, 1000000)):
        yield period, deadline, None
        yield period, deadline + 1, 14
    for period, deadline in ((10, 0), (10, 2 ** 31), (10, GREATEST_WORD), (250001, 1000004),
                             (1000000, 4000000)):
        yield period, deadline, 14
    # Four times the period, cut to 32 bits, is 4: it is the period that is refused.
    yield 2 ** 30 + 1, 4, 6


def past_edges():
    """Each with the second analysis's text that it must get (None: any answer but a refusal)."""
    for version in VERSIONS_BEFORE:
        for period, deadline, byte in deadline_edges():
            text = None if byte is None else "refused 5 at %d\n" % byte
            yield Draft(listed((period, 3, deadline)), version=version).data(), text
    # The second record of 001's example: its deadline stands at byte 31, or 35 in version 2.
    for version, byte in ((1, 31), (2, 35)):
        for deadline, text in ((40, None), (41, "refused 5 at %d\n" % byte)):
            draft = Draft(PAST_TABLES[0].tasks, version=version)
            draft.change_task(1, deadline=deadline)
            yield draft.data(), text
            # A delay is looked at last.
            draft.change_task(0, latest=1)
            yield draft.data(), text or "refused 11 at 0\n"
            draft.change_task(1, priority=3)
            yield draft.data(), text or "refused 6 at %d\n" % (byte - 9)


def delayed(earliest, latest):
    """A delay, which is no fault of the table's."""
    def spoil(draft, number):
        draft.change_task(number, earliest=earliest, latest=latest)
        return Asked(11, 0, (11,))
    return spoil


# By version: one delay, a constant one, a span.
GIVEN_DELAYS = {1: [(0, 1), (0, GREATEST_TICKS)],
                2: [(0, 1), (1, 1), (2, 7), (0, GREATEST_TICKS), (GREATEST_TICKS, GREATEST_TICKS)],
                3: [(0, 1), (1, 1), (GREATEST_TICKS, GREATEST_TICKS)]}


def period_below_quarter(draft, number):
    """The period passes unless it is 0 now; it is the deadline that is out of range."""
    period = (draft.tasks[number].deadline - 1) // PERIODS_PAST
    draft.change_task(number, period=period)
    return asked_by_task(draft, number, "deadline" if period else "period")


PAST_DEADLINE_FAULTS = [
    number_fault("deadline", lambda task: 0),
    number_fault("deadline", lambda task: greatest_deadline(task.period, PERIODS_PAST) + 1),
    number_fault("deadline", lambda task: max(PERIODS_PAST * task.period, GREATEST_TICKS) + 1),
    number_fault("deadline", lambda task: GREATEST_WORD)]
PAST_TASK_FAULTS = {
    version: [PERIOD_FAULTS + [period_below_quarter], COST_FAULTS, PAST_DEADLINE_FAULTS, *delays,
              PRIORITY_FAULTS]
    for version, delays in DELAY_FAULTS.items()}


def loads_past(task, base, loads):
    """How many times a program that goes on from each q to the next works out one load; where they
    are more than MOST_LOADS the counting ends there."""
    count, window = 0, base
    for earlier in range(MOST_TRIED):
        wanted = demand(base + earlier * task.cost, loads, window)
        while count <= MOST_LOADS and window < wanted <= task.deadline + earlier * task.period:
            count, window = count + len(loads), wanted
            wanted = demand(base + earlier * task.cost, loads, window)
        count += len(loads)
        if window != wanted or window <= (earlier + 1) * task.period:
            break
        window += task.cost
    return count


def furthest(tasks):
    """With the latest deadlines."""
    return [task._replace(deadline=greatest_deadline(task.period, PERIODS_PAST)) for task in tasks]


def is_quick(tasks, rows):
    """No task needs more than MOST_LOADS loads, whatever the deadlines are."""
    return all(loads_past(task, *parts_of(place, tasks, rows)) <= MOST_LOADS
               for place, task in enumerate(furthest(tasks)))


def load_of(tasks):
    return sum(fractions.Fraction(task.cost, task.period) for task in tasks)


def filled(tasks, place, percent):
    """With such a cost for one task that the load is this percentage, or as near below it as whole
    ticks allow; no cost is below 1."""
    others = load_of(tasks[:place] + tasks[place + 1:])
    cost = (fractions.Fraction(percent, 100) - others) * tasks[place].period // 1
    changed = tasks[place]._replace(cost=max(1, min(cost, GREATEST_TICKS)))
    return tasks[:place] + [changed] + tasks[place + 1:]


def past_deadline(generator, period):
    """Mostly past the period."""
    greatest = greatest_deadline(period, PERIODS_PAST)
    past = generator.between(period, greatest)
    return generator.pick([greatest, greatest, min(2 * period, greatest), past, past,
                           generator.between(1, period)])


def with_past_deadlines(generator, tasks):
    return [task._replace(deadline=past_deadline(generator, task.period)) for task in tasks]


def past_tasks(generator, count, scale):
    """Light, overfull, and about full."""
    tasks = without_delays(made_tasks(generator, count, scale))
    if generator.chance(2, 3):
        tasks = filled(tasks, generator.below(count), generator.pick([90, 95, 100, 100, 102]))
    return with_past_deadlines(generator, tasks)


def made_past_table(generator, count, row_count, scale, _version=1):
    """Both versions have the same tables, since there are no delays."""
    while True:
        tasks = past_tasks(generator, count, scale)
        rows = made_rows(generator, tasks, row_count)
        if is_quick(tasks, rows):
            return tasks, rows


def any_past_table(generator, version=1):
    count = generator.between(1, 6)
    row_count = generator.pick([0, 0, generator.between(0, min(6, 3 * count))])
    scale = generator.pick([4, 8, 15, 40, 120, 1000])
    tasks, rows = made_past_table(generator, count, row_count, scale, version)
    if count > 1 and generator.chance(1, 3):
        tied = with_groups(generator, tasks)
        return (tied if is_quick(tied, rows) else tasks), rows
    return tasks, rows


def some_open(_tasks, found):
    return any(each.answer == OPEN for each in found)


def late_after_two(_tasks, found):
    return any(each.answer == LATE and each.tried > 2 for each in found)


def answered_after_three(_tasks, found):
    return any(each.answer not in WORDS and each.tried > 3 for each in found)


def schedulable_past(tasks, found):
    """Some answer is past the period."""
    return (not any(each.answer in WORDS for each in found)
            and any(each.answer > task.period for task, each in zip(tasks, found)))


def late_and_open(_tasks, found):
    return {each.answer for each in found} >= {LATE, OPEN}


def outcome_entries(generator, how_many, version):
    """So many of each of these."""
    for fits in (some_open, late_after_two, answered_after_three, schedulable_past, late_and_open):
        found = 0
        while found < how_many:
            tasks, rows = any_past_table(generator, version)
            if fits(tasks, all_found_past(tasks, rows)):
                found += 1
                yield answered_entry(generator, tasks, rows, version)


def past_deadline_entries(generator, how_many, version):
    """Deadlines exactly at the answer, one tick below it and one above it."""
    for _ in range(how_many):
        tasks, rows = any_past_table(generator, version)
        tasks = furthest(tasks)
        for place, found in enumerate(all_found_past(tasks, rows)):
            if found.answer not in WORDS:
                wanted = found.answer + generator.between(-1, 1)
                deadline = max(1, min(wanted, tasks[place].deadline))
                tasks[place] = tasks[place]._replace(deadline=deadline)
        yield made_entry(generator, tasks, rows, version)


def falling_task(generator, last):
    """A task, and for how long it has to wait: R(q) falls by a step with each q, and is at most T
    at the last of them first."""
    step = generator.between(1, 3)
    period = generator.between(step * (last + 4) // 3 + step, 150)
    waits = step * last + generator.between(1, step)
    deadline = generator.between(waits + period - step, PERIODS_PAST * period)
    return (period, period - step, deadline), waits


def rising_task(generator, last):
    """The same, but R(q) rises, and passes D at the last of them first."""
    step = generator.between(1, 3)
    period = generator.between(step * (last + 4) // 3 + 10, 150)
    waits = generator.between(1, 10)
    deadline = waits + period + step * (last + 1) - generator.between(1, step)
    return (period, period + step, deadline), waits


def ending_entries(generator, version):
    """Every kind of end at these q, and beyond the last one. What the task has to wait for is a job
    of a more urgent task, which does not come again, or a section of a less urgent one."""
    for last, make in itertools.product((0, 1, 2, 5, 30, 62, 63, 64), (falling_task, rising_task)):
        task, waits = make(generator, last)
        other = (100000, waits, waits)
        yield answered_entry(generator, listed(other, task), [], version)
        yield answered_entry(generator, listed(task, other), blocking_rows(2, waits), version)


def level_tasks(generator, count, level, more):
    """The load of the tasks up to one of them is 1 and that many ticks more, which one of these has
    whose period is a multiple of theirs."""
    while True:
        whole = generator.pick([12, 24, 60])
        divisors = [number for number in range(2, whole + 1) if whole % number == 0]
        periods = [generator.pick(divisors) for _ in range(count)]
        place = generator.between(0, level)
        periods[place] = whole
        tasks = listed(*[(period, generator.between(1, 1 + period // count), period)
                         for period in periods])
        upper = filled(tasks[:level + 1], place, 100)
        cost = upper[place].cost + more
        if load_of(upper) == 1 and cost >= 1:
            upper[place] = upper[place]._replace(cost=cost)
            return with_past_deadlines(generator, upper + tasks[level + 1:])


def level_entries(generator, version):
    for count in (1, 2, 3, 5):
        for level, more in itertools.product(range(count), (-1, 0, 1)):
            yield answered_entry(generator, level_tasks(generator, count, level, more), [], version)


# The lengths of audio buffers, in samples. 11,520 is a multiple of each, so that a load of exactly
# 1 comes to its end there; and with 1, 8 or 32 tasks such a load has whole costs.
BUFFERS = (960, 1152, 1280, 1440, 1920, 2304, 2880, 3840)


def buffer_tasks(count, percent):
    """Tasks that fill such buffers in turn, each with the same share of the load; the last one
    makes that as near to the percentage as whole ticks allow. There are two buffers for a task of
    the most urgent third, then three, then four. More than 32 tasks have ten times as many ticks to
    a sample, since a share of theirs would be few of them."""
    ticks = 1 if count <= MOST_BEFORE else 10
    periods = [ticks * period for period in BUFFERS]
    tasks = listed(*[(period, period * percent // (100 * count), (2 + 3 * place // count) * period)
                     for place, period in zip(range(count), itertools.cycle(periods))])
    return filled(tasks, count - 1, percent)


def buffer_entries(generator):
    """In turn plain, with rows and in groups."""
    kinds = itertools.cycle(itertools.product(("plain", "rows", "groups"), VERSIONS_BEFORE))
    for count, percent in itertools.product((2, 4, 8, 16, 24, 31, MOST_BEFORE),
                                            (85, 90, 95, 98, 100, 101)):
        kind, version = next(kinds)
        tasks = buffer_tasks(count, percent)
        if kind == "groups":
            tasks = with_groups(generator, tasks)
        rows = loaded_rows(tasks, min(MOST_ROWS, 2 * count)) if kind == "rows" else []
        if is_quick(tasks, rows):
            yield answered_entry(generator, tasks, rows, version)


def past_size_entries(generator):
    """Every n from 1 to 32, in turn in both versions; then several m up to 64."""
    for count in range(1, MOST_BEFORE + 1):
        version = 1 + count % 2
        row_count = generator.between(0, min(8, 2 * count))
        tasks, rows = made_past_table(generator, count, row_count, 12 * count)
        yield answered_entry(generator, tasks, rows, version)
    for version, row_count in itertools.product(VERSIONS_BEFORE, (16, 33, 63, MOST_ROWS)):
        tasks, rows = made_past_table(generator, 8, row_count, 200)
        yield answered_entry(generator, tasks, rows, version)
    for version in VERSIONS_BEFORE:
        tasks, rows = made_past_table(generator, MOST_BEFORE, MOST_ROWS, 1000)
        yield answered_entry(generator, tasks, rows, version)


def past_limit_entries(generator, how_many, version):
    """Numbers at both ends of their ranges, and about the period from which on 4T is too long."""
    top, quarter = GREATEST_TICKS, GREATEST_TICKS // PERIODS_PAST
    periods = [1, 2, quarter - 1, quarter, quarter + 1, top - 1, top]
    while how_many:
        count = generator.between(1, 4)
        tasks = []
        for priority in made_priorities(generator, count):
            period = generator.pick(periods)
            greatest = greatest_deadline(period, PERIODS_PAST)
            cost = generator.pick([1, 1, 2, period, max(1, period - 1), min(period + 1, top), top])
            deadline = generator.pick([1, period, greatest - 1, greatest, greatest, greatest + 1])
            tasks.append(Task(priority, period, cost, deadline, 0, 0))
        rows = made_rows(generator, tasks, generator.pick([0, generator.between(0, 3 * count)]))
        if is_quick(tasks, rows):
            how_many -= 1
            yield made_entry(generator, tasks, rows, version)


def greatest_past_tables():
    """The largest sums, with loads before the task and behind it; and one that passes 2^32 so as to
    look like a solution to a program whose words are too narrow: 1 + 65536 * 65537 cut to 32 bits
    is 65537."""
    top, others = GREATEST_TICKS, MOST_BEFORE - 1
    rows = [Row(place, semaphore, top) for place in range(MOST_BEFORE - 4, MOST_BEFORE)
            for semaphore in range(1, GREATEST_SEMAPHORE + 1)]
    for period in (1, top // PERIODS_PAST, top):
        loads = [(period, top, greatest_deadline(period, PERIODS_PAST))] * others
        task = (top // PERIODS_PAST, 1, top)
        yield Draft(listed(*loads, task)).data()
        yield Draft(in_groups(listed(*loads, task), MOST_BEFORE)).data()
        yield Draft(in_groups(listed(task, *loads), MOST_BEFORE)).data()
        yield Draft(listed(task, *loads), rows, 2).data()
    yield Draft(listed((1, 65536, 4), (20000, 1, 80000))).data()
    yield Draft(in_groups(listed((20000, 1, 80000), (1, 65536, 4)), 2), version=2).data()


def slow_past_tables():
    """Many rounds; these are the only ones above MOST_LOADS. Late at q = 0, since there is no w;
    late at q = 15; open, where 1,024 ticks are needed in 1,000; and the same with one priority."""
    yield Draft(listed((1, 1, 1), (250000, 1, 1000000))).data()
    yield Draft(listed((1000, 998, 1000), (5000, 12, 20000))).data()
    halves = [(2 ** power, 1, 2 ** power) for power in range(1, 7)]
    yield Draft(listed(*halves, (1000, 16, 4000))).data()
    yield Draft(in_groups(listed((1000, 16, 4000), *halves), 7), version=2).data()


def past_faults(generator, version):
    """Every fault of every field, in the first, a middle and the last record or row; then any field
    of a record with any field of a row."""
    in_records = itertools.product(itertools.chain(*PAST_TASK_FAULTS[version]), ends_of(3))
    in_rows = itertools.product(itertools.chain(*ROW_FAULTS), ends_of(3))
    for pair in itertools.chain(in_records, in_rows):
        yield from spoiled_table(generator, version, 3, 3, pair, make=made_past_table)
    for first, second in itertools.product(PAST_TASK_FAULTS[version], ROW_FAULTS):
        faults = [(generator.pick(first), generator.below(3)), (generator.pick(second), 1)]
        yield from spoiled_table(generator, version, 3, 2, *faults, make=made_past_table)


def refused_delays(generator, version):
    """Every delay in the first, a middle and the last record, alone and with a fault."""
    fields = PAST_TASK_FAULTS[version] + ROW_FAULTS
    for delays, number in itertools.product(GIVEN_DELAYS[version], ends_of(3)):
        delay = (delayed(*delays), number)
        fault = (generator.pick(generator.pick(fields)), generator.below(3))
        yield from spoiled_table(generator, version, 3, 3, delay, make=made_past_table)
        yield from spoiled_table(generator, version, 3, 3, delay, fault, make=made_past_table)


def spoiled_past(generator):
    for version in VERSIONS_BEFORE:
        yield from past_faults(generator, version)
        yield from refused_delays(generator, version)
    # Behind 32 records and 64 rows.
    faults = delayed(0, 1), PAST_DEADLINE_FAULTS[1]
    for version, fault in itertools.product(VERSIONS_BEFORE, faults):
        yield from spoiled_table(generator, version, MOST_BEFORE, MOST_ROWS,
                                 (fault, MOST_BEFORE - 1), make=made_past_table)


def past_slice_entries():
    """All pairs of slice lengths about n, with a delay and without."""
    for version, latest in itertools.product(VERSIONS_BEFORE, (0, 1)):
        draft = Draft(PAST_TABLES[0].tasks, version=version)
        draft.change_task(1, latest=latest)
        for lengths in itertools.product((0, 1, 2, 3, LONGEST_SLICE), repeat=2):
            yield Entry(draft.data(), *lengths)


def past_period_entries(generator):
    yield from in_both_versions(PAST_TABLES)
    for data, _ in past_edges():
        yield exact_entry(data)
    yield from past_slice_entries()
    for version in VERSIONS_BEFORE:
        yield from small_entries(generator, 60, version, any_past_table)
        yield from outcome_entries(generator, 8, version)
        yield from past_deadline_entries(generator, 20, version)
        yield from ending_entries(generator, version)
        yield from level_entries(generator, version)
        yield from past_limit_entries(generator, 30, version)
    yield from buffer_entries(generator)
    yield from past_size_entries(generator)
    for spoiled in spoiled_past(generator):
        yield spoiled.entry
    changed = Draft(PAST_TABLES[0].tasks, blocking_rows(2, 2)).data()
    for data in itertools.chain(greatest_past_tables(), slow_past_tables(),
                                changed_byte_tables(changed)):
        yield exact_entry(data)


# ---------------------------------------------------------------------------
# Made tables of version 3
# ---------------------------------------------------------------------------

# One more than versions 1 and 2 have, and about the ends of 64, 128 and 192 tasks: the engine's
# "ready word becomes four 64-bit words".
WIDE_COUNTS = (33, 64, 65, 128, 129, 192, 193, 199, MOST_TASKS)
# Pairs that share a priority across those ends, and the last two.
CROSSING = (31, 63, 127, 191, MOST_TASKS - 2)


def pairs_from(count, firsts):
    """The sizes of groups, where each of these places shares its priority with the next."""
    sizes = []
    while sum(sizes) < count:
        sizes.append(2 if sum(sizes) in firsts else 1)
    return sizes


def ends_of_groups(sizes):
    """For each task how many have its priority or a greater one."""
    return repeated(itertools.accumulate(sizes), sizes)


ONES, TWOS = [1] * MOST_TASKS, [2] * MOST_TASKS
CROSSING_SIZES = pairs_from(MOST_TASKS, CROSSING)
# Places 0 to 99 in one group, the others in one; and all in groups of three but the last two.
HALVES, THREES = [100, 100], [3] * 66 + [2]

# All worked out by hand. Where costs are 1 and nothing is released twice, a task's answer is how
# many have its priority or a greater one.
WIDE_TABLES = [
    worked([(1000, 1, 1000)] * 33, list(range(1, 34)), rounds=[1] * 33, own_rounds=[1] + [2] * 32),
    worked([(1000, 1, 1000)] * MOST_TASKS, list(range(1, 201)), rounds=ONES,
           own_rounds=[1] + [2] * 199),
    # The last one is a tick late.
    worked([(1000, 1, 199)] * MOST_TASKS, list(range(1, 200)) + [0], rounds=ONES,
           own_rounds=[1] + [2] * 198 + [1]),
    # Only those from place 32 on are late.
    worked([(1000, 1, 32)] * MOST_TASKS, list(range(1, 33)) + [0] * 168, rounds=ONES,
           own_rounds=[1] + [2] * 31 + [1] * 168),
    worked([(1000, 1, 200)] * MOST_TASKS, [200] * MOST_TASKS, rounds=ONES, own_rounds=TWOS,
           groups=(MOST_TASKS,)),
    worked([(1000, 1, 199)] * MOST_TASKS, [0] * MOST_TASKS, rounds=ONES, own_rounds=ONES,
           groups=(MOST_TASKS,)),
    worked([(1000, 1, 1000)] * MOST_TASKS, ends_of_groups(CROSSING_SIZES), rounds=ONES,
           own_rounds=[1] + [2] * 199, groups=CROSSING_SIZES),
    worked([(1000, 1, 1000)] * MOST_TASKS, ends_of_groups(HALVES), rounds=ONES, own_rounds=TWOS,
           groups=HALVES),
    worked([(1000, 1, 1000)] * MOST_TASKS, ends_of_groups(THREES), rounds=ONES, own_rounds=TWOS,
           groups=THREES),
    # A section of the last task, 50 ticks long, blocks all others: its lock is the first one's too.
    worked([(1000, 1, 1000)] * 199 + [(1000, 50, 1000)], list(range(51, 250)) + [249],
           rows=((0, 1, 1), (199, 1, 50)), rounds=ONES, own_rounds=[1] + [2] * 199,
           blocking=[50] * 199 + [0]),
    # Where it is that of place 64, it blocks no task that is more urgent than that one.
    worked([(1000, 1, 1000)] * 199 + [(1000, 50, 1000)],
           list(range(1, 65)) + list(range(115, 250)) + [249],
           rows=((64, 16, 1), (199, 16, 50)), rounds=ONES, own_rounds=[1] + [2] * 199,
           blocking=[0] * 64 + [50] * 135 + [0]),
    # Two jobs of the first task: 200, 201, 201. A spread of 1 lets the second in a tick sooner.
    worked([(200, 1, 200)] + [(1000, 1, 1000)] * 199, list(range(1, 201)), rounds=ONES,
           own_rounds=[1] + [2] * 199),
    worked([(199, 1, 199)] + [(1000, 1, 1000)] * 199, list(range(1, 200)) + [201],
           rounds=[1] * 199 + [2], own_rounds=[1] + [2] * 198 + [3]),
    worked([(200, 1, 200, 4, 5)] + [(1000, 1, 1000)] * 199, [6] + list(range(2, 200)) + [201],
           rounds=[1] * 199 + [2], own_rounds=[1] + [2] * 198 + [3]),
    # The last one's constant delay is added to its answer alone.
    worked([(1000, 1, 1000)] * 199 + [(1000, 1, 300, 100, 100)], list(range(1, 200)) + [300],
           rounds=ONES, own_rounds=[1] + [2] * 199),
    worked([(1000, 1, 1000)] * 199 + [(1000, 1, 299, 100, 100)], list(range(1, 200)) + [0],
           rounds=ONES, own_rounds=[1] + [2] * 198 + [1]),
]

WIDE_TEXT = "tasks 200\n%sschedulable\n" % "".join(
    "%d response %d deadline 1000 rounds 1\n" % (place, place + 1) for place in range(MOST_TASKS))

# The second analysis of 200 tasks, worked out by hand.
WIDE_PAST_TABLES = [
    worked_past([(250000, 1250, 1000000)] * MOST_TASKS, [1250 * n for n in range(1, 201)], ONES),
    # The last one has to wait for two jobs of each: 498,750, and one tick more for each q; open, or
    # late at q = 1.
    worked_past([(249999, 1250, 999996)] * MOST_TASKS,
                [1250 * n for n in range(1, 200)] + [OPEN], [1] * 199 + [64]),
    worked_past([(249999, 1250, 498750)] * MOST_TASKS,
                [1250 * n for n in range(1, 200)] + [LATE], [1] * 199 + [2]),
    # With one priority for all: 399,000, and one tick more for each q; late at q = 4.
    worked_past([(199999, 1000, 399003)] * MOST_TASKS, [LATE] * MOST_TASKS, [5] * MOST_TASKS,
                groups=(MOST_TASKS,)),
]


def whole_draft():
    """200 tasks with delays and 64 rows, of which the last names place 199 and semaphore 16."""
    tasks = listed(*[(1000, 2, 1000, 3, 5)] * MOST_TASKS)
    return Draft(tasks, [Row(place, 16, 2) for place in range(MOST_TASKS - MOST_ROWS, MOST_TASKS)],
                 3)


def wide_edges():
    """Places counted by hand, each with the text it must get (None: any answer but a refusal):
    record 199 begins at byte 4184, the rows at 4205, and row 63 at 4583."""
    yield bytes([3, 0, 5, 1]), "refused 1 at 0\n"
    for task_count, row_count, text in (
            (0, 0, "refused 3 at 3\n"), (201, 0, "refused 3 at 3\n"), (255, 0, "refused 3 at 3\n"),
            (201, 65, "refused 3 at 3\n"), (200, 65, "refused 3 at 4\n"),
            (1, 65, "refused 3 at 4\n"), (33, 255, "refused 3 at 4\n"),
            (200, 64, "refused 4 at 0\n"), (33, 0, "refused 4 at 0\n"),
            (1, 0, "refused 4 at 0\n")):
        yield bytes([3, 0, 5, task_count, row_count]), text
    # The same bytes in all versions.
    for count in (32, 33):
        data = Draft(listed(*[(100, 1, 100)] * count), version=3).data()
        yield data, None
        yield b"\x02" + data[1:], None if count == 32 else "refused 3 at 3\n"
        yield b"\x01" + data[1:], "refused 4 at 0\n" if count == 32 else "refused 3 at 3\n"
        yield b"\x04" + data[1:], "refused 2 at 0\n"
        yield b"\x09" + data[1:], "refused 2 at 0\n"
    yield whole_draft().data(), None
    for changes, text in (
            ({"period": 0}, "refused 5 at 4185\n"), ({"cost": 1000001}, "refused 5 at 4189\n"),
            ({"deadline": 1001}, "refused 5 at 4193\n"),
            ({"earliest": 1000001}, "refused 5 at 4197\n"),
            ({"earliest": 6}, "refused 5 at 4201\n"), ({"latest": 1000001}, "refused 5 at 4201\n"),
            ({"priority": 0}, "refused 6 at 4184\n"), ({"priority": 3}, "refused 6 at 4184\n"),
            ({"priority": 2}, None)):
        yield changed_tasks(whole_draft(), [(199, changes)]), text
    for changes, text in (
            ({"place": 200}, "refused 7 at 4583\n"), ({"place": 255}, "refused 7 at 4583\n"),
            ({"semaphore": 17}, "refused 7 at 4584\n"), ({"length": 3}, "refused 7 at 4585\n"),
            ({"length": 0}, "refused 7 at 4585\n"),
            ({"place": 198}, "refused 7 at 4583\n"), ({"place": 31}, "refused 7 at 4583\n"),
            ({"semaphore": 1}, None)):
        yield changed_rows(whole_draft(), [(63, changes)]), text


def wide_past_edges():
    """The same of the second analysis."""
    for changes, text in (
            ({"deadline": 4000}, None), ({"deadline": 4001}, "refused 5 at 4193\n"),
            ({"latest": 1}, "refused 11 at 0\n"),
            ({"earliest": 1, "latest": 1}, "refused 11 at 0\n"),
            ({"priority": 3, "latest": 1}, "refused 6 at 4184\n")):
        draft = Draft(without_delays(whole_draft().tasks), version=3)
        yield changed_tasks(draft, [(199, changes)]), text


def long_wide_tables():
    """Lengths about 4,589, the longest table of all."""
    largest = whole_draft().data()
    for length in (933, 1061, 4588):
        yield largest[:length]
        yield with_stated_length(largest[:length])
    for length in (4590, 4591, 5000):
        yield largest.ljust(length, b"\x03")
    yield with_stated_length(largest + b"\x00")
    yield b"\x02" + largest[1:]
    yield b"\x01" + largest[1:]


def wide_twins(generator, how_many):
    """The same bytes in versions 2 and 3."""
    for table in DELAY_TABLES:
        yield exact_entry(Draft(table.tasks, table.rows, 3).data())
    for make, _ in itertools.product((any_small_table, any_tied_table, any_past_table),
                                     range(how_many)):
        tasks, rows = make(generator, 2)
        lengths = slices_for(generator, len(tasks), LONGEST_SLICE)
        for version in (2, 3):
            yield Entry(Draft(tasks, rows, version).data(), *lengths)
    for version in (2, 3):
        tasks, rows = made_table(Generator(SEED), MOST_BEFORE, MOST_ROWS, 3000, version)
        yield exact_entry(Draft(tasks, rows, version).data())


def even_tasks(generator, count, percent):
    """Rate monotonic, periods of one size, and each task with about the same share of the load: so
    that as good as all are in time where the load is not too great."""
    periods = sorted(generator.between(20 * count, 60 * count) for _ in range(count))
    tasks = listed(*[(period, 1, period) for period in periods])
    return [task._replace(cost=max(1, generator.between(task.period * percent // (110 * count),
                                                        task.period * percent // (90 * count))))
            for task in tasks]


def with_few_delays(generator, tasks):
    """For one task in eight, and short."""
    changed = list(tasks)
    for place in generator.sample(range(len(tasks)), rounded_up(len(tasks), 8)):
        latest = generator.between(1, tasks[place].period // 20)
        changed[place] = tasks[place]._replace(earliest=generator.between(0, latest),
                                               latest=latest)
    return changed


def with_late_task(generator, tasks, rows):
    """The deadline of one task that is in time is made one tick too short."""
    responses = responses_of(tasks, rows)
    place = generator.pick([place for place, each in enumerate(responses) if each > 1])
    changed = list(tasks)
    changed[place] = tasks[place]._replace(deadline=responses[place] - 1)
    return changed


def wide_load_entries(generator):
    """Light, heavy and with more work than there are ticks; with delays, with rows and with both;
    then with a task that is late by a tick."""
    for percent, row_count, delays in ((30, 0, False), (85, 0, False), (85, 64, False),
                                       (70, 0, True), (70, 64, True), (120, 3, True)):
        tasks = even_tasks(generator, MOST_TASKS, percent)
        if delays:
            tasks = with_few_delays(generator, tasks)
        rows = made_rows(generator, tasks, row_count)
        yield answered_entry(generator, tasks, rows, 3)
        if percent == 70:
            yield answered_entry(generator, with_late_task(generator, tasks, rows), rows, 3)


def wide_size_entries(generator):
    """Several n, with delays of every length and a few rows; most tasks are late."""
    for count in (1, 2, 31, 32) + WIDE_COUNTS:
        row_count = generator.between(0, min(8, 2 * count))
        tasks, rows = made_table(generator, count, row_count, 50 * count, 3)
        yield answered_entry(generator, tasks, rows, 3)
    for count, row_count in ((33, 63), (65, MOST_ROWS), (MOST_TASKS, MOST_ROWS)):
        yield answered_entry(generator, *made_table(generator, count, row_count, 3000, 3), 3)


def wide_group_entries(generator):
    """Several n in groups of any size; then 200 tasks in groups of one size, which are in time, and
    in pairs across the ends of 64s."""
    for count in (33, 65, 129, 193, MOST_TASKS):
        tasks, rows = made_tied_table(generator, count, generator.below(8), 50 * count, 3)
        yield answered_entry(generator, tasks, rows, 3)
    for size, percent in ((2, 80), (8, 70), (50, 30), (MOST_TASKS, 20)):
        tasks = in_groups(even_tasks(generator, MOST_TASKS, percent),
                          *[size] * (MOST_TASKS // size))
        rows = made_rows(generator, tasks, generator.pick([0, 5]))
        yield answered_entry(generator, tasks, rows, 3)
    tasks = in_groups(even_tasks(generator, MOST_TASKS, 60), *CROSSING_SIZES)
    yield answered_entry(generator, tasks, made_rows(generator, tasks, MOST_ROWS), 3)


def mixed_tasks(count, period, cost, room):
    """For the engine. In each 64 one task, the first or the last, runs for long, and the other
    comes again so many ticks after its first job's end: so that it is released while one of another
    64 is served. Where there is no such room it is late."""
    ends = [(start, min(start + 63, count - 1)) for start in range(0, count, 64)]
    tasks = listed(*[(period, 1, period)] * count)
    for number, pair in enumerate(ends):
        long = pair[number % 2]
        tasks[long] = tasks[long]._replace(cost=cost)
    for number, pair in enumerate(ends):
        often = pair[1 - number % 2]
        again = response_of(often, tasks, []) + room
        tasks[often] = tasks[often]._replace(period=again, deadline=again)
    return tasks


def wide_engine_entries(generator):
    """Tables that the engine takes: mixed ones; even ones, where all are in time, and one of them
    is late by a tick; and such as are due at every tick."""
    for count in WIDE_COUNTS:
        for cost, room in ((60, 9), (20, -5)):
            yield answered_entry(generator, mixed_tasks(count, 5000, cost, room), [], 3)
        tasks = even_tasks(generator, count, 75)
        yield answered_entry(generator, tasks, [], 3)
        yield answered_entry(generator, with_late_task(generator, tasks, []), [], 3)
    # In each 64 the first one comes often, but for the first of all late, and one runs for 30.
    tasks = listed(*[(5000, 1, 5000)] * MOST_TASKS)
    for start, often in zip(range(0, MOST_TASKS, 64), (97, 101, 103, 113)):
        tasks[start] = tasks[start]._replace(period=often, deadline=often)
        tasks[start + 5] = tasks[start + 5]._replace(cost=30)
    yield exact_entry(Draft(tasks, version=3).data())
    for count in (33, 65, MOST_TASKS):
        yield exact_entry(Draft(listed(*[(1, 1, 1)] * count), version=3).data())
    # The last one is served last, and in time; then one tick late. Others come at each tick, above
    # it, below it and at its side.
    for deadline in (MOST_TASKS, MOST_TASKS - 1):
        last = (1000, 1, deadline)
        yield exact_entry(Draft(listed(*[(1000, 1, 1000)] * 199, last), version=3).data())
    for place in (0, 63, 64, 127, 128, 191, 192, 198):
        tasks = listed(*[(250, 1, 250)] * MOST_TASKS)
        tasks[place] = tasks[place]._replace(period=1, deadline=1)
        yield exact_entry(Draft(tasks, version=3).data())


def wide_unplayable_entries():
    """Two equal tasks across the ends of 64s, and a delay or a row of the last task: the engine
    refuses them, with 8 where its slice is short."""
    plain = listed(*[(1000, 1, 1000)] * MOST_TASKS)
    drafts = [Draft(in_groups(plain, *pairs_from(MOST_TASKS, (first,))), version=3)
              for first in CROSSING]
    drafts.append(Draft(plain, listed_rows((199, 16, 1)), 3))
    for delays in ((0, 1), (1, 1)):
        draft = Draft(plain, version=3)
        draft.change_task(199, earliest=delays[0], latest=delays[1])
        drafts.append(draft)
    for draft in drafts:
        yield Entry(draft.data(), MOST_TASKS, MOST_TASKS)
    yield Entry(drafts[0].data(), MOST_TASKS - 1, MOST_TASKS)
    yield Entry(drafts[-1].data(), MOST_TASKS - 1, MOST_TASKS)


def wide_slice_entries():
    """Pairs of slice lengths about n."""
    for count in (33, MOST_TASKS):
        data = Draft(listed(*[(1000, 1, 1000)] * count), version=3).data()
        lengths = [(count - 1, count), (count, count - 1), (count - 1, count - 1), (0, count),
                   (count, 0), (32, 32), (count + 1, count), (count, 255), (255, 255)]
        for pair in lengths:
            yield Entry(data, *pair)


def wide_past_entries(generator):
    """Deadlines past the period: buffers, about the full load, with rows and in groups; made tables
    of several n; a delay."""
    for data, _ in wide_past_edges():
        yield exact_entry(data)
    for table in WIDE_PAST_TABLES:
        yield exact_entry(Draft(table.tasks, table.rows, 3).data())
    for percent in (90, 98, 100):
        tasks = buffer_tasks(MOST_TASKS, percent)
        yield answered_entry(generator, tasks, [], 3)
    tasks = buffer_tasks(MOST_TASKS, 95)
    yield answered_entry(generator, tasks, loaded_rows(tasks, MOST_ROWS), 3)
    yield answered_entry(generator, in_groups(tasks, *[20] * 10), [], 3)
    for count in (33, 64, 65, 129, MOST_TASKS):
        tasks, rows = made_past_table(generator, count, generator.below(6), 6 * count)
        yield answered_entry(generator, tasks, rows, 3)
    tasks = furthest(even_tasks(generator, MOST_TASKS, 100))
    yield answered_entry(generator, tasks, [], 3)


def wide_faults(generator):
    """Every fault of the head, and of each field in small tables; and some in the last and a middle
    record or row of long ones."""
    yield from wrong_counts(3)
    yield from head_faults(generator, 3)
    yield from task_field_faults(generator, 3)
    yield from single_faults(generator, 3)
    yield from task_and_row_faults(generator, 3)
    yield from far_faults(generator, 3, [(33, 3), (65, MOST_ROWS)])


def greatest_wide_tables():
    """The largest sums of 200 tasks."""
    top, others = GREATEST_TICKS, MOST_TASKS - 1
    rows = [Row(place, semaphore, top) for place in range(MOST_TASKS - 4, MOST_TASKS)
            for semaphore in range(1, GREATEST_SEMAPHORE + 1)]
    for period, delays in ((1, (0, top)), (top, (0, top)), (top, (top, top)), (1, (0, 0))):
        loads = [(period, top, period) + delays] * others
        yield Draft(listed(*loads, (top, 1, top)), version=3).data()
        yield Draft(in_groups(listed((top, 1, top), *loads), MOST_TASKS), version=3).data()
    yield Draft(listed(*[(top, top, top)] * MOST_TASKS), rows, 3).data()
    # 1,000,000 ticks together, and one more.
    for more in (0, 1):
        entries = [(top, top // MOST_TASKS, top)] * others
        yield Draft(listed(*entries, (top, top // MOST_TASKS + more, top)), version=3).data()


def wide_entries(generator):
    for table in WIDE_TABLES:
        yield exact_entry(Draft(table.tasks, table.rows, 3).data())
    for data, _ in wide_edges():
        yield exact_entry(data)
    yield from wide_slice_entries()
    for spoiled in itertools.chain(wide_faults(generator), two_faults(generator, 40, 3)):
        yield spoiled.entry
    yield from small_entries(generator, 50, 3)
    yield from small_entries(generator, 30, 3, any_tied_table)
    yield from deadline_entries(generator, 15, 3)
    yield from limit_entries(generator, 15, 3)
    yield from wide_twins(generator, 6)
    yield from wide_size_entries(generator)
    yield from wide_load_entries(generator)
    yield from wide_group_entries(generator)
    yield from wide_engine_entries(generator)
    yield from wide_unplayable_entries()
    yield from wide_past_entries(generator)
    small = Draft(listed((30, 10, 20, 4, 10), (90, 15, 80, 7, 7)), listed_rows((1, 1, 3)), 3)
    for data in itertools.chain(greatest_wide_tables(), long_wide_tables(),
                                changed_byte_tables(small.data()), junk_tables(generator, 6, 3)):
        yield exact_entry(data)


SEED = 20240101


def all_entries():
    """Document 01's worked tables come first and in its order: entry 4 is the fifth table."""
    for table in WORKED_TABLES:
        yield exact_entry(Draft(table.tasks, table.rows).data())
    for data, _ in edge_tables():
        yield exact_entry(data)
    for data in source_tables():
        yield exact_entry(data)
    yield from made_entries(Generator(SEED))
    yield from engine_entries(Generator(SEED + 3))
    yield from place_entries(Generator(SEED + 5))
    yield from delay_entries(Generator(SEED + 6))
    yield from start_entries(Generator(SEED + 7))
    yield from group_entries(Generator(SEED + 8))
    yield from past_period_entries(Generator(SEED + 11))
    yield from wide_entries(Generator(SEED + 14))


def entry_bytes(entry):
    # The form is told in the help of make.
    return (len(entry.table).to_bytes(2, "big")
            + bytes([entry.answers_length, entry.rounds_length]) + entry.table)


def entry_text(number, entry):
    return "table %d\n%s%s" % (number, text_of(*entry), lines_text([
        "stayed", "engine %s" % engine_line(entry), own_cost_line(entry), *past_lines(entry)]))


# ---------------------------------------------------------------------------
# Made texts
# ---------------------------------------------------------------------------

# Lines with a fault, wherever they stand, with the fault that is told.
FAULTY_LINES = [
    *((line, Kind.UNKNOWN_WORD) for line in (
        b"x", b"9", b"Task 1 9 5 9", b"TASK 1 9 5 9", b"tas 1 9 5 9", b"taskx 1 9 5 9",
        b"tasks 1 9 5 9", b"task1 9 5 9", b"sections 0 1 1", b"sectionx 0 1 1", b"sectio 0 1 1",
        b"sectionsectionsection 0 1 1", b"versions 1", b"versio 1", b"jitter 3", b"delays 1 2",
        b"\xef\xbb\xbftask 1 9 5 9", b"\xc2\xa0task 1 9 5 9", b"\x00", b"\x00task 1 9 5 9",
        b"task\x00 1 9 5 9", b"\rtask 1 9 5 9", b"task\r 1 9 5 9", b"task\x0b1 9 5 9", b"\x0c",
        b"t\xc3\xa4sk 1 9 5 9", b"\xff", b"; task 1 9 5 9", b"x" * 1000,
        b"task 1 9 5 9 x", b"task 1 9 5 9 Jitter 1", b"task 1 9 5 9 jitters 1",
        b"task 1 9 5 9 jitter 1 x", b"task 1 9 5 9 jitter 1 jitter 1",
        b"task 1 9 5 9 jitter 1 delays 1 2", b"task 1 9 5 9 delays 1 2 jitter 1",
        b"task 1 9 5 9 task 1 9 5 9", b"task 1 9 5 9 -1", b"task 1 9 5 9 \r\r",
        b"task 1 9 5 9 \x00",
        b"section 0 1 1 x", b"section 0 1 1 jitter 1", b"section 0 1 1 delays 1 2")),
    *((line, Kind.TOO_FEW) for line in (
        b"task", b"task 1", b"task 1 9", b"task 1 9 5", b"task 1 9 5 9 jitter",
        b"task 1 9 5 9 delays", b"task 1 9 5 9 delays 1", b"section", b"section 0", b"section 0 1",
        b"task#1 9 5 9", b"task 1 9 5 # 9", b"task 1 9 5 9 jitter # 1")),
    *((line, Kind.TOO_MANY) for line in (
        b"task 1 9 5 9 0", b"task 1 9 5 9 0 jitter 1", b"task 1 9 5 9 4294967296",
        b"task 1 9 5 9 jitter 1 2", b"task 1 9 5 9 delays 1 2 3", b"section 0 1 1 1")),
    *((line, Kind.NOT_WHOLE) for line in (
        b"task x 9 5 9", b"task 1 x 5 9", b"task 1 9 x 9", b"task 1 9 5 x", b"task 1 9 5 jitter",
        b"task 1 9 5 jitter 1", b"task 1 9 5 9 jitter x", b"task 1 9 5 9 jitter jitter 1",
        b"task 1 9 5 9 delays x 2", b"task 1 9 5 9 delays 1 x", b"section x 1 1", b"section 0 x 1",
        b"section 0 1 x", b"task -1 9 5 9", b"task +1 9 5 9", b"task 1 9.0 5 9", b"task 1, 9, 5, 9",
        b"task 0x1 9 5 9", b"task 1 9 5 9ms", b"task 1 1_000 5 9", b"task 1 9 5 1e3",
        b"task 1\r 9 5 9", b"task 1 9 5 9\r\r", b"task 1 9\x00 5 9", b"task 1 9 5 9\xc2\xa0",
        b"task 1 \xd9\xa9 5 9", b"task 1 \xb2 5 9", b"task 1 9 5 task", b"section 0 1 section",
        # the first fault of a line counts
        b"task x 4294967296 5 9", b"task 1 9 x", b"task 99999999999x 9 5 9")),
    *((line, Kind.TOO_LARGE) for line in (
        b"task 256 9 5 9", b"task 1 4294967296 5 9", b"task 1 9 4294967296 9",
        b"task 1 9 5 4294967296", b"task 1 9 5 9 jitter 4294967296",
        b"task 1 9 5 9 delays 4294967296 0", b"task 1 9 5 9 delays 0 4294967296",
        b"section 256 1 1", b"section 0 256 1", b"section 0 1 4294967296",
        b"task 0000256 9 5 9", b"task 1 9 5 00042949672960", b"task 1 9 5 18446744073709551617",
        b"task 1 9 5 1" + b"0" * 5000,
        # the first fault of a line counts
        b"task 256", b"task 256 x 5 9", b"task 1 4294967296", b"section 256 1")),
]
# The same for lines that may not stand behind a task.
FAULTY_VERSIONS = [
    (b"version", Kind.TOO_FEW), (b"version # 1", Kind.TOO_FEW), (b"version 1 1", Kind.TOO_MANY),
    (b"version 1 256", Kind.TOO_MANY), (b"version 256", Kind.TOO_LARGE),
    (b"version 4294967297", Kind.TOO_LARGE), (b"version x", Kind.NOT_WHOLE),
    (b"version 1.0", Kind.NOT_WHOLE), (b"version -1", Kind.NOT_WHOLE),
    (b"version 1 x", Kind.UNKNOWN_WORD), (b"version 1 task 1 9 5 9", Kind.UNKNOWN_WORD),
]
TASK_LINE = b"task 1 9 5 9\n"
SECTION_LINE = b"section 0 1 1\n"
# Faults of a line by what stands before it, each with the line that is told.
FAULTY_BEHIND = [
    (TASK_LINE + SECTION_LINE + TASK_LINE, 3, Kind.TASK_BEHIND),
    (SECTION_LINE + b"task", 2, Kind.TASK_BEHIND),
    (SECTION_LINE + b"task x 256", 2, Kind.TASK_BEHIND),
    (TASK_LINE * 200 + TASK_LINE, 201, Kind.TOO_MANY_TASKS),
    (TASK_LINE * 200 + b"task x", 201, Kind.TOO_MANY_TASKS),
    (b"version 1\n" + TASK_LINE * 201, 202, Kind.TOO_MANY_TASKS),
    (TASK_LINE * 200 + SECTION_LINE + TASK_LINE, 202, Kind.TASK_BEHIND),
    (TASK_LINE + SECTION_LINE * 65, 66, Kind.TOO_MANY_SECTIONS),
    (SECTION_LINE * 64 + b"section x", 65, Kind.TOO_MANY_SECTIONS),
    (SECTION_LINE * 64 + TASK_LINE, 65, Kind.TASK_BEHIND),
    (SECTION_LINE * 64 + b"version 1", 65, Kind.VERSION_BEHIND),
    (TASK_LINE + b"version 1", 2, Kind.VERSION_BEHIND),
    (SECTION_LINE + b"version 1", 2, Kind.VERSION_BEHIND),
    (b"version 1\nversion 1\n", 2, Kind.VERSION_BEHIND),
    (b"version 0\n\nversion 256\n", 3, Kind.VERSION_BEHIND),
    (TASK_LINE + b"version x", 2, Kind.VERSION_BEHIND),
    (TASK_LINE + b"version", 2, Kind.VERSION_BEHIND),
    (b"version 1\ntask 1 9 5 9 delays 1 2", 2, Kind.DELAYS_IN_ONE),
    (b"version 001\ntask 1 9 5 9 delays 1 2", 2, Kind.DELAYS_IN_ONE),
    (b"version 1\n" + TASK_LINE + b"task 1 9 5 9 delays", 3, Kind.DELAYS_IN_ONE),
    (b"version 1\ntask 1 9 5 9 delays x", 2, Kind.DELAYS_IN_ONE),
    (b"version 1\ntask 1 9 5 x delays 1 2", 2, Kind.NOT_WHOLE),
    (b"version 1\ntask 1 9 5 9 1 delays 1 2", 2, Kind.TOO_MANY),
    (b"version 1\ntask 1 9 5 9 jitter 1 delays 1 2", 2, Kind.UNKNOWN_WORD),
    # the first line with a fault is told
    (b"task 1\nx\n", 1, Kind.TOO_FEW),
    (TASK_LINE + b"task 256 9 5 9\ntask\n", 2, Kind.TOO_LARGE),
    # line ends
    (b"task 1 9 5 9\r\ntask 1\r\n", 2, Kind.TOO_FEW),
    (b"\r\n\r\nx", 3, Kind.UNKNOWN_WORD),
    (b"task 1 9 5 9\rtask 1 9 5 9\r", 1, Kind.NOT_WHOLE),
    (b"task 1 9 5 9\n\rtask 1 9 5 9\n", 2, Kind.UNKNOWN_WORD),
    (b"task 1 9 5 9\n\r\r\n", 2, Kind.UNKNOWN_WORD),
    (b"task 1 9 5 9\n\r\r", 2, Kind.UNKNOWN_WORD),
    # where a comment begins and ends
    (b"# task\ntask # 1 9 5 9\n", 2, Kind.TOO_FEW),
    (b"ta#sk 1 9 5 9\n", 1, Kind.UNKNOWN_WORD),
    (b"# \xff\x00\r x\n\xff\n", 2, Kind.UNKNOWN_WORD),
    (b"#" * 100000 + b"\nx", 2, Kind.UNKNOWN_WORD),
    (b"x" * 100000, 1, Kind.UNKNOWN_WORD),
    (b"task 1 9 5 " + b"9" * 100000, 1, Kind.TOO_LARGE),
    (b"task 1 9 5 9 " + b"9" * 100000, 1, Kind.TOO_MANY),
    (b"task 1 9 5 " + b"9" * 100000 + b"x", 1, Kind.NOT_WHOLE),
    (b" " * 100000 + b"task" + b"\t" * 100000, 1, Kind.TOO_FEW),
    (b"\n" * 100000 + b"task", 100001, Kind.TOO_FEW),
]
ONE = [Task(1, 9, 5, 9, 0, 0)]
DELAYED = [Task(1, 9, 5, 9, 3, 4)]
TOP = GREATEST_WORD
# Texts that can be read, with the version, the tasks and the rows that are meant.
READ_TEXTS = [
    (b"", 1, [], []),
    (b"\n\n\n", 1, [], []),
    (b"\r", 1, [], []),
    (b" \t\r\n# a comment", 1, [], []),
    (b"version 2", 2, [], []),
    (b"version 3\r\n", 3, [], []),
    (TASK_LINE, 1, ONE, []),
    (b"task 1 9 5 9", 1, ONE, []),
    (b"task 1 9 5 9\r", 1, ONE, []),
    (b"task 1 9 5 9\r\n", 1, ONE, []),
    (b"\ttask\t1 \t 9  5\t9 \t\n", 1, ONE, []),
    (b"task 1 9 5 9#9", 1, ONE, []),
    (b"task 1 9 5 9 # jitter x", 1, ONE, []),
    (b"# \xe2\x82\xac \xff \x00\rtask x\ntask 1 9 5 9 # \x80\x00\n", 1, ONE, []),
    (b"#" * 100000 + b"\n" + TASK_LINE, 1, ONE, []),
    (b"task 001 0000000000009 5 " + b"0" * 5000 + b"9 jitter 00", 1, ONE, []),
    (b"task 1 9 5 9 jitter 0", 1, ONE, []),
    (b"task 1 9 5 9 jitter 4", 1, [ONE[0]._replace(latest=4)], []),
    (b"version 2\ntask 1 9 5 9 jitter 4", 2, [ONE[0]._replace(latest=4)], []),
    (b"task 1 9 5 9 delays 3 4", 2, DELAYED, []),
    (b"task 1 9 5 9 delays 0 0", 2, ONE, []),
    (b"task 1 9 5 9 jitter 4\ntask 1 9 5 9 delays 3 4", 2, [ONE[0]._replace(latest=4)] + DELAYED,
     []),
    (b"task 1 9 5 9 delays 4 3", 2, [ONE[0]._replace(earliest=4, latest=3)], []),
    (b"version 3\ntask 1 9 5 9 delays 3 4", 3, DELAYED, []),
    (b"version 3\n" + TASK_LINE, 3, ONE, []),
    (b"version 00003\n" + TASK_LINE, 3, ONE, []),
    (b"version 1 # of three\n\n" + TASK_LINE + b"\n" + SECTION_LINE, 1, ONE, [Row(0, 1, 1)]),
    (b"task 0 0 0 0\nsection 0 0 0\n", 1, [Task(0, 0, 0, 0, 0, 0)], [Row(0, 0, 0)]),
    (b"task 255 %d %d %d jitter %d\nsection 255 255 %d" % ((TOP,) * 5), 1,
     [Task(255, TOP, TOP, TOP, 0, TOP)], [Row(255, 255, TOP)]),
    (b"task 255 %d %d %d delays %d %d" % ((TOP,) * 5), 2, [Task(255, TOP, TOP, TOP, TOP, TOP)], []),
    (b"task 1 16777216 65536 256\n", 1, [Task(1, 16777216, 65536, 256, 0, 0)], []),
    (SECTION_LINE * 64, 1, [], [Row(0, 1, 1)] * 64),
    (TASK_LINE + SECTION_LINE * 64, 1, ONE, [Row(0, 1, 1)] * 64),
    (TASK_LINE * 32, 1, ONE * 32, []),
    (TASK_LINE * 33, 3, ONE * 33, []),
    (b"version 1\n" + TASK_LINE * 33, 1, ONE * 33, []),
    (b"version 2\n" + TASK_LINE * 33, 2, ONE * 33, []),
    (TASK_LINE * 32 + b"task 1 9 5 9 delays 3 4", 3, ONE * 32 + DELAYED, []),
    (TASK_LINE * 31 + b"task 1 9 5 9 delays 3 4", 2, ONE * 31 + DELAYED, []),
    (TASK_LINE * 200 + SECTION_LINE * 64, 3, ONE * 200, [Row(0, 1, 1)] * 64),
    (b"version 1\n" + TASK_LINE * 200 + SECTION_LINE * 64, 1, ONE * 200, [Row(0, 1, 1)] * 64),
]
# A table of a version that is not known: its length counts the rows alone.
OTHER_RECORD = bytes([1, 0, 0, 0, 9, 0, 0, 0, 5, 0, 0, 0, 9])
UNKNOWN_VERSIONS = [
    (b"version 0", bytes([0, 0, 5, 0, 0])),
    (b"version 0\n" + TASK_LINE, bytes([0, 0, 5, 1, 0]) + OTHER_RECORD + bytes(4)),
    (b"version 0\ntask 1 9 5 9 delays 7 0\n", bytes([0, 0, 5, 1, 0]) + OTHER_RECORD + bytes(4)),
    (b"version 4\ntask 1 9 5 9 jitter 7", bytes([4, 0, 5, 1, 0]) + OTHER_RECORD
     + bytes([0, 0, 0, 7])),
    (b"version 9\ntask 1 9 5 9 delays 3 4\n" + SECTION_LINE,
     bytes([9, 0, 11, 1, 1]) + OTHER_RECORD + bytes([0, 0, 0, 4, 0, 1, 0, 0, 0, 1])),
    (b"version 255\n" + TASK_LINE * 33,
     bytes([255, 0, 5, 33, 0]) + (OTHER_RECORD + bytes(4)) * 33),
]


def faulty_texts():
    """Each with the line and the kind that are told. A fault is tried in the first line and in a
    later one."""
    for line, kind in FAULTY_LINES + FAULTY_VERSIONS:
        yield line + b"\n", 1, kind
    for line, kind in FAULTY_LINES:
        yield b"# one\r\n\ntask 9 9 5 9 jitter 3\n" + line + b"\n\nx\n", 4, kind
    for line, kind in FAULTY_VERSIONS:
        yield b"\n\t# two\n" + line, 3, kind
    yield from FAULTY_BEHIND


def readable_texts():
    """Each with its bytes."""
    for text, version, tasks, rows in READ_TEXTS:
        yield text, Draft(tasks, rows, version).data()
    yield from UNKNOWN_VERSIONS


def loose_blank(generator):
    return generator.pick([b" "] * 6 + [b"\t", b"  ", b" \t ", b"     "])


def loose_number(generator, number):
    return b"0" * generator.pick([0] * 8 + [1, 7]) + b"%d" % number


def loose_line(generator, words):
    """The words with blanks between them, perhaps a comment, and either line end."""
    line = generator.pick([b""] * 6 + [b" ", b"\t"])
    for number, word in enumerate(words):
        line += (loose_blank(generator) if number else b"") + word
    comment = generator.pick([b""] * 5 + [b" ", b"#", b"# task 1 9 5 9", b"\t# \xc3\xa4\x00\r#"])
    return line + comment + generator.pick([b"\n", b"\n", b"\n", b"\r\n"])


def loose_task(generator, task, version):
    numbers = [loose_number(generator, number) for number in task]
    delays = [b"delays"] + numbers[4:]
    jitter = [b"jitter"] + numbers[5:]
    ways = [delays] if task.earliest else [jitter] if version == 1 else [jitter, delays]
    if not task.latest:
        ways.append([])
    return [b"task"] + numbers[:4] + generator.pick(ways)


def loose_lines(generator, tasks, rows, version):
    """The words of each line of a text for this table, which states its version."""
    lines = [[b"version", loose_number(generator, version)]]
    lines += [loose_task(generator, task, version) for task in tasks]
    return lines + [[b"section"] + [loose_number(generator, number) for number in row]
                    for row in rows]


def loose_text(generator, lines):
    empty = [loose_line(generator, []) for _ in range(2)]
    text = b"".join(generator.pick([b""] * 5 + empty) + loose_line(generator, words)
                    for words in lines)
    return text.rstrip(b"\n") if generator.chance(1, 4) else text


def drawn_table(generator):
    """The version, the tasks and the rows of a table that is not refused."""
    version = generator.pick([1, 2, 3])
    make = generator.pick([any_small_table, any_tied_table, any_past_table])
    return (version, *make(generator, version))


def drawn_texts(generator, how_many):
    """Each with its bytes."""
    for _ in range(how_many):
        version, tasks, rows = drawn_table(generator)
        lines = loose_lines(generator, tasks, rows, version)
        yield loose_text(generator, lines), Draft(tasks, rows, version).data()


OTHER_WORDS = [b"task", b"section", b"version", b"jitter", b"delays", b"0", b"1", b"2", b"255",
               b"256", b"1000000", b"4294967295", b"4294967296", b"x", b"-1", b"\xff", b"\r", b"#"]


def spoil_words(generator, lines):
    """One word more, one less or another one; a line twice, or one less, or two that change
    places."""
    way = generator.below(6)
    at, other = generator.below(len(lines)), generator.below(len(lines))
    if way == 0:
        lines.insert(other, lines[at])
    elif way == 1:
        lines[at], lines[other] = lines[other], lines[at]
    elif way == 2:
        del lines[at]
    else:
        words = list(lines[at])
        place = generator.below(len(words))
        words[place:place + (way > 3)] = [] if way == 5 else [generator.pick(OTHER_WORDS)]
        lines[at] = words


def spoiled_texts(generator, how_many):
    for _ in range(how_many):
        version, tasks, rows = drawn_table(generator)
        lines = loose_lines(generator, tasks, rows, version)
        for _ in range(generator.pick([1, 1, 2])):
            if lines:
                spoil_words(generator, lines)
        yield loose_text(generator, lines)


def spoiled_by_bytes(generator, how_many):
    """A written text with a byte changed, put in or taken out."""
    for _ in range(how_many):
        version, tasks, rows = drawn_table(generator)
        text = write_text(Draft(tasks, rows, version).data())
        at = generator.below(len(text))
        put = generator.pick([b"", b"\r", b"\n", b" ", b"#", b"0", b"9", generator.bytes(1)])
        yield text[:at] + put + text[at + generator.below(2):]


def pieced_texts(generator, how_many):
    pieces = OTHER_WORDS + [b" ", b"\t", b"\n", b"\r\n", b"task 1 9 5 9", b"section 0 1 1",
                            b"version 2\n", b"\n", b"\n", b" ", b" ", b" "]
    for _ in range(how_many):
        yield b"".join(generator.pick(pieces) for _ in range(generator.between(1, 24)))


def all_texts():
    """The same at every run."""
    generator = Generator(SEED + 17)
    for text, *_ in itertools.chain(faulty_texts(), readable_texts(), drawn_texts(generator, 40)):
        yield text
    yield from spoiled_texts(generator, 30)
    yield from spoiled_by_bytes(generator, 20)
    yield from pieced_texts(generator, 20)


# ---------------------------------------------------------------------------
# Made lists of claims
# ---------------------------------------------------------------------------

Claimed = collections.namedtuple("Claimed", "table claims")

# As many as an entry's byte can tell.
MOST_CLAIMS = 255

# A demand of 2 and twice the first task's jobs: the second task's answer is 4; at 5 a second job of
# the first counts, and at 6 there is time for it.
STEPPED = worked([(4, 2, 4), (10, 2, 10)], [2, 4])

# Tables, claims and what these get, worked out by hand.
CLAIM_EXAMPLES = [
    (STEPPED, [2, 4], "pass"),
    (STEPPED, [2, 5], "fails 1"),
    (STEPPED, [2, 6], "pass"),
    (STEPPED, [4, 10], "pass"),
    (STEPPED, [2, 3], "fails 1"),
    (STEPPED, [2, 11], "fails 1"),
    (STEPPED, [5, 11], "fails 0"),
    (STEPPED, [1, 5], "fails 0"),
    (STEPPED, [0, 0], "fails 0"),
    (STEPPED, [2], "refused 10 at 0"),
    (STEPPED, [2, 4, 4], "refused 10 at 0"),
    (STEPPED, [], "refused 10 at 0"),
    # Sections: the second task is blocked for 5 ticks. At 11 it has to wait for a second job.
    (WORKED_TABLES[12], [2, 10, 19, 26], "pass"),
    (WORKED_TABLES[12], [2, 9, 19, 26], "fails 1"),
    (WORKED_TABLES[12], [2, 11, 19, 26], "fails 1"),
    (WORKED_TABLES[12], [5, 12, 40, 50], "pass"),
    (WORKED_TABLES[12], [5, 12, 40, 51], "fails 3"),
    # A late task: no claim passes for it.
    (WORKED_TABLES[7], [1, 3, 3], "fails 2"),
    (WORKED_TABLES[7], [1, 3, 4], "fails 2"),
    # Jitter 10: it is taken off the first claim, and lets a second job in.
    (WORKED_TABLES[10], [20, 25], "fails 1"),
    (WORKED_TABLES[10], [10, 25], "fails 0"),
    # Equal tasks wait for each other.
    (GROUP_TABLES[1], [2, 2], "pass"),
    (GROUP_TABLES[1], [1, 2], "fails 0"),
    (GROUP_TABLES[1], [2, 1], "fails 1"),
    (GROUP_TABLES[9], [11, 11, 17, 17], "pass"),
    (GROUP_TABLES[9], [11, 10, 17, 17], "fails 1"),
]


# The same for 200 tasks, whose answers are 1 to 200.
COUNTED = list(range(1, MOST_TASKS + 1))
WIDE_CLAIM_EXAMPLES = [
    (COUNTED, "pass"),
    (COUNTED[:199] + [199], "fails 199"),
    (COUNTED[:199] + [1001], "fails 199"),
    (COUNTED[:32] + [32] + COUNTED[33:], "fails 32"),
    (COUNTED[:64] + [0] * 136, "fails 64"),
    ([1000] * MOST_TASKS, "pass"),
    (COUNTED[:199], "refused 10 at 0"),
    (COUNTED + [1], "refused 10 at 0"),
    (COUNTED[:32], "refused 10 at 0"),
    ([1] * MOST_CLAIMS, "refused 10 at 0"),
    ([], "refused 10 at 0"),
]


def sound_claims(tasks, responses):
    """The true answers, and the deadline for a task that has none."""
    return [response or task.deadline for task, response in zip(tasks, responses)]


def moved_claims(claims, by):
    """No word is below 0."""
    return [max(0, claim + by) for claim in claims]


def with_claim(claims, place, claim):
    return claims[:place] + [claim] + claims[place + 1:]


def edge_claims(task):
    """0, about the latest delay, that with the cost (no less can pass), about the deadline, and the
    greatest word."""
    latest, deadline = task.latest, task.deadline
    return [0, max(0, latest - 1), latest, latest + 1, latest + task.cost, deadline, deadline + 1,
            GREATEST_WORD]


def mistaken_claims(tasks, rows):
    """The answers of somebody who forgets that delays vary, that there are any, the sections, or
    that equal tasks wait for each other."""
    falling = with_priorities(tasks, range(len(tasks), 0, -1))
    ties = falling if has_ties(tasks) else tasks
    constant = [task._replace(earliest=task.latest) for task in tasks]
    for mistaken in ((constant, rows), (without_delays(tasks), rows), (tasks, []), (ties, rows)):
        if mistaken != (tasks, rows):
            yield sound_claims(tasks, responses_of(*mistaken))


def near_claims(responses):
    """A tick more than the true answers and a tick less, for all tasks and for one."""
    for by in (1, -1):
        near = moved_claims(responses, by)
        yield near
        for place in ends_of(len(responses)):
            yield with_claim(responses, place, near[place])


def claims_at_edges(tasks, sound):
    """Each edge for all tasks, and for the first, the middle or the last alone."""
    places = itertools.cycle(ends_of(len(tasks)))
    for claims in zip(*map(edge_claims, tasks)):
        place = next(places)
        yield list(claims)
        yield with_claim(sound, place, claims[place])


def passing_claim(generator, task, parts, sound):
    """One that passes, from the sound one to the deadline; the sound one where none is found."""
    drawn = [generator.between(sound, task.deadline) for _ in range(6)]
    return next((claim for claim in drawn if claim_passes(claim, task, *parts)), sound)


def drawn_claims(generator, tasks, rows, sound):
    """Any; such as pass, where nobody is late; and those with any one for one task."""
    parts = [parts_of(place, tasks, rows) for place in range(len(tasks))]
    for place in ends_of(len(tasks)):
        any_claims = [generator.between(0, task.deadline + 1) for task in tasks]
        passing = [passing_claim(generator, *each) for each in zip(tasks, parts, sound)]
        yield any_claims
        yield passing
        yield with_claim(passing, place, any_claims[place])


def miscounted_claims(claims):
    """One too few, one too many, and none."""
    return [claims[:-1], claims + claims[-1:], []]


def other_claims(generator, tasks, rows, responses):
    sound = sound_claims(tasks, responses)
    yield from near_claims(responses)
    yield from claims_at_edges(tasks, sound)
    yield from drawn_claims(generator, tasks, rows, sound)
    yield from miscounted_claims(sound)


def claim_lists(generator, data, how_many=None):
    """The true answers, those with a mistake, and so many of the others, or all; each list once."""
    tasks, rows = read_bytes(data)
    responses = responses_of(tasks, rows)
    lists = [responses] + list(mistaken_claims(tasks, rows))
    others = list(other_claims(generator, tasks, rows, responses))
    lists += others if how_many is None else generator.sample(others, how_many)
    for claims in dict.fromkeys(map(tuple, lists)):
        yield Claimed(data, list(claims))


def printed_tables():
    """Those of the documents, and those worked out by hand."""
    for table in WORKED_TABLES + [STEPPED]:
        yield Draft(table.tasks, table.rows).data()
    for table in DELAY_TABLES + START_TABLES:
        yield Draft(table.tasks, table.rows, 2).data()
    for entry in in_both_versions(GROUP_TABLES[:-2]):
        yield entry.table


def needs_spread(tasks, rows):
    """Schedulable, and with other answers if every delay were constant."""
    constant = [task._replace(earliest=task.latest) for task in tasks]
    responses = responses_of(tasks, rows)
    return all(responses) and responses != responses_of(constant, rows)


def chosen_data(generator, make, version, fits):
    while True:
        tasks, rows = make(generator, version)
        if fits(tasks, rows):
            return Draft(tasks, rows, version).data()


def made_claim_tables(generator):
    """Small tables, without ties and with them: any, schedulable ones, and such as need their
    spreads; deadlines about the answers; numbers at their limits; more work than ticks."""
    for version in VERSIONS_BEFORE:
        for make in (any_small_table, any_tied_table):
            for _ in range(11):
                yield Draft(*make(generator, version), version).data()
                for fits in (is_schedulable, needs_spread):
                    yield chosen_data(generator, make, version, fits)
            for entry in deadline_entries(generator, 10, version, make):
                yield entry.table
        for entry in limit_entries(generator, 12, version):
            yield entry.table
    for entry in overloaded_entries(generator, 12):
        yield entry.table


def wide_claim_tables(generator):
    """32 tasks: late ones, and near full load, where nobody is late."""
    for version, make in itertools.product(VERSIONS_BEFORE, (made_table, made_tied_table)):
        tasks, rows = make(generator, MOST_BEFORE, generator.below(9), 50 * MOST_BEFORE, version)
        yield Draft(tasks, rows, version).data()
    for row_count, version, group in ((0, 1, 1), (MOST_ROWS, 1, 1), (0, 2, 1), (MOST_ROWS, 2, 4)):
        _, draft = loaded_draft(MOST_BEFORE, row_count, [40, 50, 60, 70], version, group)
        yield draft.data()


def refused_claims(generator):
    """Every fault in three records or rows, with as many claims as there are tasks, and with too
    few, too many or none: refusals 1 to 7 come before 10."""
    for version, number in itertools.product(VERSIONS_BEFORE, range(3)):
        for fault in itertools.chain(*FAULTS_BY_REFUSAL[version]):
            draft = sound_draft(generator, version)
            claims = sound_claims(draft.tasks, responses_of(draft.tasks, draft.rows))
            if fault(draft, number) and can_be_written(draft):
                yield Claimed(draft.data(), claims)
                yield Claimed(draft.data(), generator.pick(miscounted_claims(claims)))


def greatest_claims(generator):
    """The largest sums, and such as pass 2^32: a claim of the cost alone would then pass."""
    for data in itertools.chain(greatest_tables(), wrapping_tables(), greatest_group_tables()):
        few = data[TASK_COUNT_BYTE] < MOST_BEFORE
        yield from claim_lists(generator, data, None if few else 3)


def edges_claimed(generator):
    """The edges of the documents; where n can be read, with n claims."""
    for data, _ in itertools.chain(edge_tables(), delay_edges(), version_edges()):
        count = min(data[TASK_COUNT_BYTE], MOST_BEFORE) if len(data) > TASK_COUNT_BYTE else 0
        yield Claimed(data, [generator.between(1, 40) for _ in range(count)])


def many_claims():
    """As many as an entry can have, and as many as there may be tasks, for fewer."""
    fifth = Draft(listed(*FIFTH)).data()
    for count in (MOST_BEFORE - 1, MOST_BEFORE, MOST_BEFORE + 1, MOST_CLAIMS):
        yield Claimed(fifth, [1, 3, 10] + [1] * (count - 3))


def made_wide_claims(generator):
    """Tables of more than 32 tasks in which nobody is late, with rows, delays and groups; one with
    a late task; and small ones of version 3."""
    counts = ((33, 75, 0, 1), (MOST_TASKS, 80, 0, 1), (MOST_TASKS, 60, MOST_ROWS, 1),
              (MOST_TASKS, 50, 5, 20))
    for count, percent, row_count, size in counts:
        tasks = with_few_delays(generator, even_tasks(generator, count, percent))
        tasks = in_groups(tasks, *[size] * (count // size))
        rows = made_rows(generator, tasks, row_count)
        yield from claim_lists(generator, Draft(tasks, rows, 3).data(), 4)
    tasks = with_late_task(generator, tasks, rows)
    yield from claim_lists(generator, Draft(tasks, rows, 3).data(), 2)
    for make in (any_small_table, any_tied_table) * 4:
        yield from claim_lists(generator, Draft(*make(generator, 3), 3).data(), 4)


def refused_wide_claims(generator):
    """Every fault of the head and some in the last record and row, with right and wrong counts: as
    many claims as version 2 has tasks are too few for more."""
    for spoiled in head_faults(generator, 3):
        yield Claimed(spoiled.entry.table, [1] * spoiled.entry.answers_length)
    for fault, number in ((LATEST_FAULTS[0], 199), (PRIORITY_FAULTS[0], 199),
                          (PLACE_FAULTS[0], 63)):
        draft = whole_draft()
        fault(draft, number)
        yield Claimed(draft.data(), [1] * generator.pick([32, 199, MOST_TASKS, 201]))
    for version, count in itertools.product((2, 3), (32, 33)):
        data = Draft(listed(*[(100, 1, 100)] * count), version=3).data()
        yield Claimed(bytes([version]) + data[1:], list(range(1, count + 1)))


def wide_claims(generator):
    data = Draft(WIDE_TABLES[1].tasks, version=3).data()
    for claims, _ in WIDE_CLAIM_EXAMPLES:
        yield Claimed(data, claims)
    yield from made_wide_claims(generator)
    yield from refused_wide_claims(generator)


def all_claims():
    generator = Generator(SEED + 9)
    for table, claims, _ in CLAIM_EXAMPLES:
        yield Claimed(Draft(table.tasks, table.rows).data(), claims)
    for data in printed_tables():
        yield from claim_lists(generator, data)
    for data in made_claim_tables(generator):
        yield from claim_lists(generator, data, 8)
    for data in wide_claim_tables(generator):
        yield from claim_lists(generator, data, 14)
    yield from greatest_claims(generator)
    yield from refused_claims(generator)
    yield from edges_claimed(generator)
    yield from many_claims()
    yield from wide_claims(Generator(SEED + 15))


def claimed_bytes(claimed):
    # The form is told in the help of make.
    return (len(claimed.table).to_bytes(2, "big") + bytes([len(claimed.claims)]) + claimed.table
            + b"".join(claim.to_bytes(4, "big") for claim in claimed.claims))


def claimed_text(number, claimed):
    return "claims %d\n%s\n" % (number, claimed_line(*claimed))


# ---------------------------------------------------------------------------
# Made files for the report
# ---------------------------------------------------------------------------

# The request's own example: the fifth table; a late one; three primes, whose product is above
# 10^12; the fifth table with a deadline above its period; and two bytes more.
PRIMES = (999961, 999979, 999983)
TERM_TEXT = """0 schedulable utilisation 883334 bound 779763 hyperperiod 60
1 late utilisation 1000001 bound 828427 hyperperiod 1000000
2 schedulable utilisation 6 bound 779763 hyperperiod over
3 refused 5 at 31
schedulable 2 late 1 refused 1
"""


def table_of(*entries, version=1):
    return Draft(listed(*entries), version=version).data()


def light_table(periods, version=3):
    """Each task is one tick long."""
    return table_of(*((period, 1, period) for period in periods), version=version)


def term_tables():
    refused = Draft(listed(*FIFTH))
    refused.change_task(1, deadline=7)
    return [table_of(*FIFTH), table_of((1, 1, 1), (MILLION, 1, MILLION)),
            light_table(PRIMES, version=1), refused.data()]


# Periods, and the hyperperiod that is printed. 10^12 is 2^12 * 5^12, and 5^12 is above every
# period: so no table has it. What comes next to it has: 10^12 - 1 = 27 * 7 * 11 * 13 * 37 * 101 *
# 9901, and 10^12 + 4 = 4 * 17 * 149 * 197 * 501001.
HYPERPERIODS = [
    ((1,), "1"), ((MILLION,), "1000000"), ((4, 6, 10), "60"), ((7, 7, 7), "7"),
    ((2, 4, 8, 16, 32), "32"), ((6, 10, 15), "30"), ((12, 18), "36"),
    # Euclid's rule has many steps for neighbours in Fibonacci's sequence.
    ((832040, 514229), "427859097160"), ((514229, 832040), "427859097160"),
    ((27027, 3737, 9901), "999999999999"), ((9901, 27027, 3737, 1), "999999999999"),
    ((501001, 10132, 197), "over"), ((197, 501001, 10132), "over"),
    ((MILLION, 999999), "999999000000"), ((999999, MILLION, 999999, 3), "999999000000"),
    ((MILLION, 500000, 999999), "999999000000"), ((MILLION, 999999, 17), "over"),
    # The product is far above, the least common multiple is not.
    ((MILLION,) * 200, "1000000"), ((720720,) * 100 + (360360,) * 100, "720720"),
    # These are above 2^64, and what is left of them in 64 bits is not above 10^12.
    ((403477, 815343, 833831, 870061), "over"), ((145901, 17965, 439469, 352313), "over"),
    ((753373, 915562, 832741, 473797), "over"), (PRIMES, "over"),
    (tuple(range(999801, 1000001)), "over"),
]

# Periods whose least common multiple is 10^12: 5^12 divides one of them, which is too long, and the
# table is refused for it. The second and third have a task more.
TEN_TO_TWELVE = [(4096, 244140625), (10 ** 12 // 4096, 4096, 1), (1000, 4096, 244140625)]

# Shares are rounded up one by one; the last two sums are above 2^32 and near 2^48.
UTILISATIONS = [
    ([(3, 1, 3)], 333334), ([(3, 1, 3)] * 3, 1000002), ([(7, 7, 7)], 1000000),
    ([(7, 3, 7), (11, 5, 11)], 428572 + 454546), ([(MILLION, 1, MILLION)], 1),
    ([(999999, 1, 999999)], 2), ([(999999, 999998, 999999)], 999999),
    ([(1, MILLION, 1)], 10 ** 12), ([(1, MILLION, 1)] * 200, 2 * 10 ** 14),
]


def late_table(count):
    """So many tasks, none of which can be in time."""
    return table_of(*[(count + 1, 2, 1)] * count, version=3)


def refused_tables():
    """One for each refusal but 1, which no table of a report can get."""
    fifth = table_of(*FIFTH)
    for version in (0, 4, 9, 255):
        yield bytes([version]) + fifth[1:]
    for counts in ((0, 0), (33, 0), (3, 65), (255, 255)):
        yield with_stated_length(fifth[:3] + bytes(counts) + fifth[5:])
    for other in (fifth[:-1], fifth + bytes(1), fifth[:5], fifth + fifth):
        yield with_stated_length(other)
    yield bytes([3]) + fifth[1:]
    for change in ({"period": 0}, {"cost": MILLION + 1}, {"deadline": 7}, {"latest": MILLION + 1},
                   {"priority": 0}, {"priority": 4}):
        draft = Draft(listed(*FIFTH))
        draft.change_task(1, **change)
        yield draft.data()
    for row in ((3, 1, 1), (0, 17, 1), (0, 1, 2)):
        yield Draft(listed(*FIFTH), listed_rows(row)).data()


# Version, n and m: what the first bytes of a piece that is longer than every table can deserve is 2,
# 3 at 3, 3 at 4 and 4, as the first four of these do.
LONG_HEADS = [(0, 1, 0), (2, 33, 0), (1, 32, 65), (3, 1, 0), (4, 1, 0), (1, 0, 0), (3, 201, 65),
              (1, 32, 64), (3, 200, 64)]
LONG_LENGTHS = (4590, 4591, 4595, 8192, 9179, 40000, 65535)


def long_piece(generator, length, version, task_count, row_count):
    """Whatever stands behind its head: a whole table would be refused there, too."""
    rest = generator.bytes(97) * (length // 97 + 1)
    return with_stated_length(bytes([version, 0, 0, task_count, row_count]) + rest[:length - 5])


def stated(length, count, version=1):
    """So many bytes of a table that states this length."""
    whole = bytes([version]) + length.to_bytes(2, "big") + bytes([1, 0]) + bytes(max(0, count - 5))
    return whole[:count]


def broken_ends():
    """Each by its name: what closes a report."""
    fifth = table_of(*FIFTH)
    for length in range(HEADER_BYTES):
        yield "states-%d" % length, stated(length, 5)
        # What stands behind it is not looked at.
        yield "states-%d-and-more" % length, stated(length, 22) + fifth
    for length, count in ((6, 5), (65535, 5), (56, 55), (4589, 4588), (4590, 4589), (4591, 4590),
                          (65535, 65534), (65535, 5000), (256, 255), (65280, 300)):
        yield "%d-of-%d" % (count, length), stated(length, count)
    # Longer than any table, and refused at its first bytes, had it come whole.
    yield "long-cut", stated(5000, 4999, version=9)
    for count in range(1, HEADER_BYTES):
        yield "%d-left" % count, fifth[:count]
        yield "%d-zeros-left" % count, bytes(count)
        yield "%d-ones-left" % count, b"\xff" * count
    yield "4-that-state-4", stated(4, 4)
    yield "4-that-state-5", stated(5, 4)


def drawn_piece(generator):
    """A table, most often: a right one, a spoiled one, bytes of any kind, a long piece."""
    way = generator.below(12)
    version = generator.pick([1, 2, 3])
    table = Draft(*generator.pick([any_small_table, any_tied_table])(generator, version),
                  version).data()
    if way < 6:
        return table
    if way < 9:
        at = generator.pick([0, 3, 4, generator.between(5, len(table) - 1)])
        return table[:at] + generator.bytes(1) + table[at + 1:]
    if way == 9:
        return with_stated_length(generator.bytes(generator.between(5, 120)))
    if way == 10:
        return with_stated_length(table + generator.bytes(generator.between(1, 40)))
    return long_piece(generator, generator.between(4580, 6000), *generator.pick(LONG_HEADS))


def drawn_file(generator):
    """Most are whole; some end as a broken one does; in some a stated length is wrong, and what is
    then read is not what was meant."""
    pieces = [drawn_piece(generator) for _ in range(generator.between(1, 30))]
    way = generator.below(6)
    if way == 0:
        pieces.append(generator.bytes(generator.between(1, 60)))
    elif way == 1:
        pieces[-1] = pieces[-1][:-generator.between(1, len(pieces[-1]) - 1)]
    elif way == 2:
        at = generator.below(len(pieces))
        pieces[at] = pieces[at][:2] + generator.bytes(1) + pieces[at][3:]
    return b"".join(pieces)


def counted_tables():
    """Each number of tasks, and so each bound."""
    return [late_table(count) for count in range(1, MOST_TASKS + 1)]


def made_reports():
    """Files by their names, the same at every run."""
    generator = Generator(SEED + 18)
    term = term_tables()
    yield "empty", b""
    yield "term", b"".join(term)
    yield "example", b"".join(term) + b"\x01\x00"
    for name, table in zip(("good", "late", "over", "refused"), term):
        yield "one-" + name, table
        yield "three-" + name, table * 3
    yield "good-and-late", term[0] + term[1] + term[0]
    yield "late-and-refused", term[1] + term[3] + term[1]
    whole = term[3] + table_of((9, 5, 5)) + term[1]
    for length in range(len(whole) + 1):
        yield "cut-at-%d" % length, whole[:length]
    for name, end in broken_ends():
        yield "broken-" + name, end
        yield "broken-%s-behind" % name, term[0] + term[1] + end
    yield "refusals", b"".join(refused_tables())
    yield "hyperperiods", b"".join(light_table(periods) for periods, _ in HYPERPERIODS)
    yield "ten-to-twelve", b"".join(light_table(periods) for periods in TEN_TO_TWELVE)
    yield "utilisations", b"".join(table_of(*entries, version=3) for entries, _ in UTILISATIONS)
    yield "counts", b"".join(counted_tables())
    yield "versions", b"".join(bytes([version]) + table_of(*FIFTH, version=2)[1:]
                               for version in range(256))
    longest = Draft(listed(*[(1000, 1, 1000, 5, 9)] * MOST_TASKS),
                    [Row(place, semaphore, 1) for place in range(196, 200)
                     for semaphore in range(1, 17)], 3).data()
    yield "longest", longest + term[0] + longest
    for length in LONG_LENGTHS:
        for head in LONG_HEADS if length < 5000 else LONG_HEADS[:4]:
            piece = long_piece(generator, length, *head)
            yield "long-%d-%d-%d-%d" % (length, *head), piece + term[0]
    yield "long-twice", long_piece(generator, 65535, 1, 1, 0) * 2 + term[1]
    for number in range(60):
        yield "drawn-%d" % number, drawn_file(generator)


def stored_report():
    """The file that the crate itself is run on: some of all, with a broken end."""
    generator = Generator(SEED + 19)
    yield from term_tables()
    yield from refused_tables()
    for periods, _ in HYPERPERIODS:
        yield light_table(periods)
    for entries, _ in UTILISATIONS:
        yield table_of(*entries, version=3)
    for count in (*range(1, 33), 50, 64, 100, 128, 199):
        yield late_table(count)
    for length, head in zip(LONG_LENGTHS, LONG_HEADS):
        yield long_piece(generator, length, *head)
        yield table_of(*FIFTH)
    for _ in range(240):
        yield drawn_piece(generator)
    yield stated(65535, 5000)


# ---------------------------------------------------------------------------
# A run, played tick by tick
# ---------------------------------------------------------------------------

Job = collections.namedtuple("Job", "task release need")


def is_alone(place, tasks):
    """No other task has its priority."""
    return [task.priority for task in tasks].count(tasks[place].priority) == 1


def has_ties(tasks):
    return not all(is_alone(place, tasks) for place in range(len(tasks)))


def levels_of(tasks):
    """For each task how many priorities are above its own."""
    priorities = sorted({task.priority for task in tasks}, reverse=True)
    return [priorities.index(task.priority) for task in tasks]


def play(tasks, jobs, ticks):
    # "In each tick the processor serves one unfinished, already released job, if there is one:
    # the most urgent task that has any, and of that task the oldest. A job may be served in its
    # release tick." "In a run, equal jobs go oldest release first, then lower place."
    #
    # So the jobs of one priority wait in one queue, and join it by release, then place. Gives for
    # each job the first tick at which it is finished ("its whole need was served in ticks before
    # x"), or None. Late jobs queue.
    finished = [None] * len(jobs)
    left = [job.need for job in jobs]
    levels = levels_of(tasks)
    waiting = [collections.deque() for _ in tasks]
    order = sorted(range(len(jobs)), key=lambda job: (jobs[job].release, jobs[job].task))
    coming = collections.deque(order)
    for tick in range(ticks):
        while coming and jobs[coming[0]].release == tick:
            job = coming.popleft()
            waiting[levels[jobs[job].task]].append(job)
        queue = next((queue for queue in waiting if queue), None)
        if queue:
            left[queue[0]] -= 1
            if left[queue[0]] == 0:
                finished[queue.popleft()] = tick + 1
    return finished


def together(tasks, ticks):
    """All tasks released at 0 and then every T, at full cost."""
    return [Job(place, release, task.cost) for place, task in enumerate(tasks)
            for release in range(0, ticks, task.period)]


def random_run(generator, tasks, ticks):
    # "Each job has a task, a release tick, and a need of 1 to C ticks. Two releases of one task
    # are at least T apart." The looser the run, the longer the gaps and the shorter the needs.
    looseness = generator.below(4)
    jobs = []
    for place, task in enumerate(tasks):
        release = generator.between(0, looseness * task.period)
        while release < ticks:
            full = generator.chance(4 - looseness, 4)
            jobs.append(Job(place, release, task.cost if full else generator.between(1, task.cost)))
            release += task.period
            if looseness and generator.chance(looseness, 4):
                release += generator.between(0, task.period)
    return jobs


def job_exceeding(tasks, responses, jobs, ticks):
    # "For answer R above 0: every job released at r with r + R <= N is finished at r + R".
    # Gives a job for which that is false, or None.
    finished = play(tasks, jobs, ticks)
    for job, end in zip(jobs, finished):
        response = responses[job.task]
        due = job.release + response
        if response and due <= ticks and (end is None or end > due):
            return job
    return None


def first_finish(tasks, place, ticks):
    """When the first job of a task is finished in the run released together, or None."""
    jobs = together(tasks, ticks)
    return play(tasks, jobs, ticks)[jobs.index(Job(place, 0, tasks[place].cost))]


# ---------------------------------------------------------------------------
# The engine: the run released together, played from event to event
# ---------------------------------------------------------------------------

def read_playable(entry):
    """The tasks of an entry that the engine takes; it has one slice, lent as that for answers."""
    tasks, rows = read_table(entry.table, entry.answers_length, entry.answers_length)
    # "Any nonzero jitter or delay, or any row, gets a new refusal 9, after 8, place 0"; "L1's
    # engine refuses ties with 9."
    delayed = any(task.earliest or task.latest for task in tasks)
    refuse_when(rows or delayed or has_ties(tasks), 9)
    return tasks


Stretch = collections.namedtuple("Stretch", "place release end finished")


def stretches(tasks, last):
    # "releases all tasks at tick 0 and then every T, runs each at full cost".
    #
    # Within a stretch one job is served: the oldest of the most urgent task that has any. Nothing
    # can change that before it ends or a more urgent task is released, so the playing jumps to
    # whichever comes first, and needs a step for each of these events and not for each tick. A
    # release of the same task or of a less urgent one only makes its queue longer.
    #
    # It ends at the last tick, or where no task has work.
    at = 0
    oldest = [0] * len(tasks)  # the release of each task's oldest unfinished job
    left = [task.cost for task in tasks]  # what that job still needs
    while at < last:
        end = last
        for place, release in enumerate(oldest):
            if release <= at:
                break
            end = min(end, release)
        else:
            return
        finished = at + left[place] <= end
        if finished:
            end = at + left[place]
            left[place] = tasks[place].cost
            oldest[place] += tasks[place].period
        else:
            left[place] -= end - at
        yield Stretch(place, release, end, finished)
        at = end


def longest_period(tasks):
    return max(task.period for task in tasks)


def latest_deadline(tasks):
    return max(task.deadline for task in tasks)


def played_answers(tasks):
    # "up to the deadline of the task asked about, and reports when its first job is done"; 0 where
    # it is not done by then. One playing serves all tasks: it goes on while a first job is left.
    answers = [0] * len(tasks)
    awaited = len(tasks)
    for stretch in stretches(tasks, latest_deadline(tasks)):
        if stretch.finished and stretch.release == 0:
            if stretch.end <= tasks[stretch.place].deadline:
                answers[stretch.place] = stretch.end
            awaited -= 1
            if awaited == 0:
                break
    return answers


def busy_stretches(tasks, last):
    """Those up to the last tick, or up to where all that was released before is done."""
    oldest = [0] * len(tasks)
    for stretch in stretches(tasks, last):
        yield stretch
        if stretch.finished:
            oldest[stretch.place] += tasks[stretch.place].period
            if all(release >= stretch.end for release in oldest):
                return


def ticks_played(tasks):
    """How many ticks there are up to the latest deadline, or up to the end of the busy time."""
    return max(stretch.end for stretch in busy_stretches(tasks, latest_deadline(tasks)))


def engine_line(entry):
    try:
        tasks = read_playable(entry)
    except Refused as refusal:
        return str(refusal)
    return verdict_line(played_answers(tasks))


# ---------------------------------------------------------------------------
# The self-test
# ---------------------------------------------------------------------------

class Checks:
    """Counts what was compared and says what differed."""

    def __init__(self):
        self.done = 0
        self.failed = 0

    def same(self, found, wanted, what):
        self.done += 1
        if found != wanted:
            self.failed += 1
            print("reference: %s: found %r, wanted %r" % (what, found, wanted))


def refusal_of(entry, read=read_table):
    try:
        read(*entry)
    except Refused as refusal:
        return refusal.number, refusal.place
    return None


def check_printed(checks, table, name):
    """Responses, rounds from both starts and blocking, where the documents print them or they were
    worked out by hand."""
    if table.responses:
        checks.same(responses_of(table.tasks, table.rows), table.responses, name)
    if table.rounds:
        checks.same(rounds_of(table.tasks, table.rows), table.rounds, name + " rounds")
    if table.own_rounds:
        checks.same(rounds_of(table.tasks, table.rows, Start.OWN_COST), table.own_rounds,
                    name + " rounds from own cost")
    if table.blocking:
        blocking = [blocking_of(task, table.tasks, table.rows) for task in table.tasks]
        checks.same(blocking, table.blocking, name + " blocking")


def check_edges(checks, text, edges, what):
    for number, (data, wanted) in enumerate(edges):
        found = text(data)
        if wanted is None:
            found = None if found.startswith("tasks ") else found
        checks.same(found, wanted, "%s %d" % (what, number))


def check_documents(checks):
    for number, table in enumerate(WORKED_TABLES):
        check_printed(checks, table, "worked table %d" % number)
    for number, table in enumerate(SOURCE_TABLES):
        check_printed(checks, table, "source table %d" % number)
    last_of = {((7, 3, 7), (12, 3, 12), (20, 5, 20)): 20, ((2, 1, 2), (5, 2, 4)): 4}
    for entries, response in last_of.items():
        tasks = listed(*entries)
        checks.same(responses_of(tasks, [])[-1], response, "002's %r" % (entries,))
    for number, text, own_text in ((4, FIFTH_TEXT, FIFTH_OWN_TEXT),
                                   (10, LATE_TEXT, LATE_OWN_TEXT)):
        data = Draft(WORKED_TABLES[number].tasks).data()
        checks.same(text_of(data), text, "text of worked table %d" % number)
        checks.same(text_of(data, start=Start.OWN_COST), own_text,
                    "document 01's text of worked table %d" % number)
    for number, table in enumerate(DELAY_TABLES):
        check_printed(checks, table, "table %d with delays" % number)
    for number, table in enumerate(START_TABLES):
        check_printed(checks, table, "table %d for the starts" % number)
    for number, table in enumerate(GROUP_TABLES):
        check_printed(checks, table, "table %d with groups" % number)
    for number, table in enumerate(WIDE_TABLES):
        check_printed(checks, table, "table %d of version 3" % number)
    wide = Draft(WIDE_TABLES[1].tasks, version=3).data()
    checks.same(text_of(wide), WIDE_TEXT, "text of 200 tasks")
    delayed = Draft(DELAY_TABLES[0].tasks, version=2).data()
    checks.same(text_of(delayed), DELAYS_TEXT, "text of the table with delays")
    for version in VERSIONS_BEFORE:
        grouped = Draft(GROUP_TABLES[0].tasks, version=version).data()
        checks.same(text_of(grouped), GROUPS_TEXT, "text of the table with groups")
    # "at most 933"; "up to 4,589 bytes"; and the program takes one byte more than the longest of
    # all.
    lengths = [longest_table(version) for version in LAYOUTS] + [MOST_BYTES_TAKEN]
    checks.same(lengths, [933, 1061, 4589, 4590], "longest tables")
    for number, data in enumerate(wrapping_tables()):
        responses = responses_of(*read_table(data, MOST_BEFORE, MOST_BEFORE))
        checks.same(responses[-1], 0, "wrapping table %d" % number)
    edges = itertools.chain(edge_tables(), place_edges(), delay_edges(), version_edges(),
                            group_edges(), wide_edges())
    check_edges(checks, text_of, edges, "edge")


def check_past_documents(checks):
    for number, table in enumerate(PAST_TABLES + WIDE_PAST_TABLES):
        wanted = list(map(Found, table.answers, table.tried))
        checks.same(all_found_past(table.tasks, table.rows), wanted,
                    "table %d past the period" % number)
    for number, text in PAST_TEXTS.items():
        data = Draft(PAST_TABLES[number].tasks, PAST_TABLES[number].rows).data()
        checks.same(past_text_of(data), text, "text of table %d past the period" % number)
    edges = itertools.chain(past_edges(), wide_past_edges())
    check_edges(checks, past_text_of, edges, "edge past the period")


def check_faults(checks):
    """Each fault gives its own refusal; of two of different stages the earlier is given. (Two in
    one stage, or two in the header, may undo each other.)"""
    def check_first(spoiled, what, read=read_table):
        wanted = first_asked(spoiled.refusals)[:2] if spoiled.refusals else None
        checks.same(refusal_of(spoiled.entry, read), wanted, what)

    def check_two(spoiled, what):
        first, second = sorted(asked.turn[0] for asked in spoiled.refusals)
        if second > 4 and first != second:
            check_first(spoiled, what)

    generator = Generator(SEED + 1)
    for spoiled in one_fault(generator):
        check_first(spoiled, "one fault")
    for spoiled in two_faults(generator, 600):
        check_two(spoiled, "two faults")
    for spoiled in alternating_faults(generator):
        check_first(spoiled, "5 and 6")
    generator = Generator(SEED + 5)
    for spoiled in placed_faults(generator):
        check_first(spoiled, "places")
    for entry in within_limits(generator):
        checks.same(refusal_of(entry), None, "within limits")
    generator = Generator(SEED + 6)
    for spoiled in delay_faults(generator):
        check_first(spoiled, "version 2")
    for spoiled in two_faults(generator, 600, 2):
        check_two(spoiled, "two faults in version 2")
    for entry in tasks_within_limits(generator, 2):
        checks.same(refusal_of(entry), None, "within limits of version 2")
    generator = Generator(SEED + 8)
    for spoiled in group_faults(generator):
        check_first(spoiled, "groups")
    for version in VERSIONS_BEFORE:
        for spoiled in two_faults(generator, 300, version, made_tied_table):
            check_two(spoiled, "two faults with groups")
    for spoiled in spoiled_past(Generator(SEED + 11)):
        check_first(with_short_slices(spoiled), "past the period", read_past)
    generator = Generator(SEED + 14)
    for spoiled in wide_faults(generator):
        check_first(spoiled, "version 3")
    for spoiled in two_faults(generator, 300, 3):
        check_two(spoiled, "two faults in version 3")


def tried_places(tasks):
    """Those of all tasks; of more than 32 the first, the middle and the last, since there each
    number that a plain search tries and each tick that is played takes long."""
    return range(len(tasks)) if len(tasks) <= MOST_BEFORE else ends_of(len(tasks))


def check_searches(checks, tasks, rows):
    """The plain search and the skipping one."""
    for place in tried_places(tasks):
        deadline, parts = tasks[place].deadline, parts_of(place, tasks, rows)
        checks.same(skipping_search(*parts, deadline), plain_search(*parts, deadline),
                    "search of task %d of %r" % (place, tasks))


def rounds_bound(start, task, base, loads):
    # "rounds is at most D_i - J_i - x0 + 1 when x0 + J_i <= D_i, and is 1 otherwise", with the
    # latest for J_i; and "The bound on rounds speaks of the start used."
    first = first_term(start, base, loads)
    if first + task.latest > task.deadline:
        return 1
    return task.deadline - task.latest - first + 1


def check_starts(checks, tasks, rows):
    """The answer can be read off the sequence from each start, and each start's bound holds; the
    default start saves one round or none. Gives the starts from which some task's rounds are as
    many as a bound above 1 allows."""
    reached = set()
    for place, task in enumerate(tasks):
        what = "task %d of %r" % (place, tasks)
        parts = parts_of(place, tasks, rows)
        response = answer_at(task, skipping_search(*parts, task.deadline))
        rounds = {}
        for start in Start:
            sequence = sequence_from(start, task, *parts)
            end = sequence.after if sequence.after == sequence.before else None
            checks.same(answer_at(task, end), response, "%s of %s" % (start, what))
            rounds[start] = sequence.rounds
            bound = rounds_bound(start, task, *parts)
            checks.same(1 <= sequence.rounds <= bound, True, "bound from %s of %s" % (start, what))
            if sequence.rounds == bound > 1:
                reached.add(start)
        # The second term from the task's own cost and blocking has at least one job of every task
        # that interferes, so that it is not before the first one from every cost.
        saved = rounds[Start.OWN_COST] - rounds[Start.EVERY_COST]
        checks.same(saved in (0, 1), True, "rounds saved of %s" % what)
    return reached


def check_random_runs(checks, generator, tasks, responses, ticks, how_many):
    for _ in range(how_many):
        jobs = random_run(generator, tasks, ticks)
        checks.same(job_exceeding(tasks, responses, jobs, ticks), None, "run of %r" % (tasks,))


def check_run_together(checks, tasks):
    # "some run ... has such a job unfinished at r + R - 1", and for answer 0 "some run has a job
    # with r + D <= N unfinished at r + D": the run released together is such a run. Not so for a
    # task that shares its priority: "For tables with ties demand 3 keeps only its first half".
    for place in tried_places(tasks):
        response = response_of(place, tasks, [])
        what = "task %d of %r released together" % (place, tasks)
        end = first_finish(tasks, place, tasks[place].deadline)
        if is_alone(place, tasks):
            checks.same(end, response or None, what)
        elif response:
            checks.same(end is not None and end <= response, True, what)


def check_drawn_run(checks):
    """Equal jobs, drawn by hand. That of place 2 is older and goes on before that of place 1,
    though a more urgent one comes between: ticks 0 and 2, then 3 to 5. Of two released at 10 that
    of place 1 goes first."""
    tasks = in_groups(listed((9, 1, 9), (9, 3, 9), (9, 2, 9)), 1, 2)
    jobs = [Job(2, 0, 2), Job(1, 1, 3), Job(0, 1, 1), Job(2, 10, 2), Job(1, 10, 3)]
    checks.same(play(tasks, jobs, 16), [3, 6, 2, 15, 13], "run of equal jobs")


def check_runs(checks):
    check_drawn_run(checks)
    generator = Generator(SEED + 2)
    for _ in range(700):
        count = generator.between(1, 4)
        tasks = without_delays(made_tasks(generator, count, generator.pick([4, 8, 15, 30])))
        if count > 1 and generator.chance(1, 2):
            tasks = with_groups(generator, tasks)
        ticks = 4 * longest_period(tasks) + 20
        check_random_runs(checks, generator, tasks, responses_of(tasks, []), ticks, 12)
        check_run_together(checks, tasks)


def released_with_delays(generator, tasks, ticks):
    """A run in which a job is released between its task's earliest and latest delay after it
    arrives, and arrivals are at least T apart; gives the arrivals and the jobs."""
    looseness = generator.below(3)
    arrivals, jobs = [], []
    for place, task in enumerate(tasks):
        arrival = generator.between(0, looseness * task.period)
        while arrival < ticks:
            delay = generator.pick([task.earliest, task.latest,
                                    generator.between(task.earliest, task.latest)])
            arrivals.append(arrival)
            jobs.append(Job(place, arrival + delay, task.cost))
            arrival += task.period + generator.below(1 + looseness * task.period)
    return arrivals, jobs


def worst_with_delays(tasks, place, ticks):
    """The task asked about and all more urgent ones have a job released at one tick after their
    latest delay; their next jobs arrive every T and are released as early after it as they may
    be. The job asked about comes first; gives its arrival too."""
    start = max(task.latest for task in tasks)
    jobs = [Job(place, start, tasks[place].cost)]
    for number, task in enumerate(tasks[:place]):
        for arrival in range(start - task.latest, ticks, task.period):
            jobs.append(Job(number, max(start, arrival + task.earliest), task.cost))
    return start - tasks[place].latest, jobs


def check_delayed_runs(checks):
    """Answers count from arrival: no job takes longer than that, and in the worst run the one
    asked about takes as long. (Document 02 claims that of runs in L13; here it shows that L4's
    spread and latest stand where they should.)"""
    generator = Generator(SEED + 7)
    for _ in range(300):
        count, scale = generator.between(1, 4), generator.pick([4, 8, 15, 30])
        tasks = [task._replace(earliest=min(task.earliest, 50), latest=min(task.latest, 50))
                 for task in made_tasks(generator, count, scale, 2)]
        responses = responses_of(tasks, [])
        ticks = 4 * scale + 60
        for _ in range(6):
            arrivals, jobs = released_with_delays(generator, tasks, ticks)
            dues = [arrival + responses[job.task] for arrival, job in zip(arrivals, jobs)]
            late = [job for job, due, end in zip(jobs, dues, play(tasks, jobs, ticks))
                    if responses[job.task] and due <= ticks and (end is None or end > due)]
            checks.same(late, [], "run with delays of %r" % (tasks,))
        for place, task in enumerate(tasks):
            arrival, jobs = worst_with_delays(tasks, place, 200)
            end = play(tasks, jobs, arrival + task.deadline)[0]
            checks.same(end and end - arrival, responses[place] or None,
                        "worst run of task %d of %r" % (place, tasks))


def as_version_2(data):
    """The bytes of a version 1 table with a right head: before each J, which is now the latest
    delay, four bytes 0 for the earliest."""
    rows_at = 5 + 17 * data[3]
    records = [data[at:at + 13] + bytes(4) + data[at + 13:at + 17]
               for at in range(5, rows_at, 17)]
    return with_stated_length(b"\x02" + data[1:5] + b"".join(records) + data[rows_at:])


def moved_place(refusal, task_count):
    """Where the place of a version 1 table's refusal from 5 on comes to stand in that."""
    number, place = refusal
    record, at = divmod(place - 5, 17)
    if number > 7:
        return refusal
    if record >= task_count:
        return number, place + 4 * task_count
    return number, 5 + 21 * record + (17 if at == 13 else at)


def check_both_versions(checks, entries):
    # "Version 1 tables read with earliest 0 and keep their answers."
    for number, entry in enumerate(entries):
        refusal = refusal_of(entry)
        if entry.table[:1] != b"\x01" or refusal and refusal[0] < 5:
            continue
        second = entry._replace(table=as_version_2(entry.table))
        what = "entry %d in version 2" % number
        past = refusal_of(entry, read_past)
        checks.same(refusal_of(second, read_past), past and moved_place(past, entry.table[3]), what)
        if refusal:
            checks.same(refusal_of(second), moved_place(refusal, entry.table[3]), what)
            continue
        tasks, rows = read_table(*entry)
        checks.same(read_table(*second), (tasks, rows), what)
        if latest_deadline(tasks) <= LONGEST_PLAIN_DEADLINE:
            checks.same(text_of(*second), text_of(*entry), what)
            checks.same(engine_line(second), engine_line(entry), what)


def check_third_version(checks, entries):
    """A version 2 table reads the same in version 3, but for n above 32: "The version byte alone
    decides which layout and limits hold." """
    for number, entry in enumerate(entries):
        if entry.table[:1] == b"\x02":
            third = entry._replace(table=b"\x03" + entry.table[1:])
            refusal = refusal_of(entry)
            if refusal == (3, TASK_COUNT_BYTE) and 0 < entry.table[TASK_COUNT_BYTE] <= MOST_TASKS:
                continue
            for read in (read_table, read_past):
                what = "entry %d in version 3" % number
                refusal = refusal_of(entry, read)
                checks.same(refusal_of(third, read), refusal, what)
                if refusal is None:
                    checks.same(read(*third), read(*entry), what)


def check_beside_first(checks, entry, what):
    """The refusals of both analyses, and where neither refuses what they find."""
    first, second = refusal_of(entry), refusal_of(entry, read_past)
    if first is None:
        tasks, rows = read_table(*entry)
        checks.same(second, (11, 0) if any(task.latest for task in tasks) else None, what)
        if second is None:
            # "Where all D <= T, show that its answers equal the first analysis's."
            wanted = [Found(response, 1) for response in responses_of(tasks, rows)]
            checks.same(all_found_past(tasks, rows), wanted, what)
    elif first != second and (second is None or second[0] > 7):
        # "The first analysis still refuses D above T with 5."
        tasks, _ = read_bytes(entry.table, PERIODS_PAST)
        layout = LAYOUTS[entry.table[0]]
        bytes_past = [task_byte(layout, place, "deadline") for place, task in enumerate(tasks)
                      if task.deadline > task.period]
        checks.same(first, (5, bytes_past[0]), what)


# The most numbers that the plain search tries for a task.
MOST_PLAIN_NUMBERS = 50000


def check_past_searches(checks, tasks, rows, found):
    """The plain search and the skipping one, for every q that is tried."""
    for place in tried_places(tasks):
        task, tried = tasks[place], found[place].tried
        if tried * (task.deadline + tried * task.period) <= MOST_PLAIN_NUMBERS:
            parts = parts_of(place, tasks, rows)
            for earlier in range(tried):
                checks.same(response_behind(earlier, task, *parts),
                            response_behind(earlier, task, *parts, plain_search),
                            "search for q = %d of task %d of %r" % (earlier, place, tasks))


UNFINISHED = float("inf")


def busy_jobs(tasks, last):
    """How long each job of the last of these takes in the run released together, of those released
    in the busy time that it begins with, or up to a last tick."""
    taken, end = [], 0
    for stretch in busy_stretches(tasks, last):
        end = stretch.end
        if stretch.finished and stretch.place == len(tasks) - 1:
            taken.append(stretch.end - stretch.release)
    return taken + [UNFINISHED] * (rounded_up(end, tasks[-1].period) - len(taken))


def ticked_jobs(tasks, last):
    """The same of all its jobs up to the last tick, played tick by tick."""
    jobs = together(tasks, last)
    return [UNFINISHED if end is None else end - job.release
            for job, end in zip(jobs, play(tasks, jobs, last)) if job.task == len(tasks) - 1]


def check_busy_time(checks, task, found, taken, what):
    """The jobs of a task in the busy time of its level, in the run released together, are those for
    which R(q) is found."""
    if found.answer == LATE:
        late = [ticks > task.deadline for ticks in taken]
        checks.same(late[:found.tried], [False] * (found.tried - 1) + [True], what)
    elif found.answer == OPEN:
        within = [task.period < ticks <= task.deadline for ticks in taken[:MOST_TRIED]]
        checks.same(within, [True] * MOST_TRIED, what)
    else:
        checks.same((max(taken), len(taken)), found, what)


# The last tick that is played, and the last one that is also played tick by tick.
LAST_PLAYED = 20000
LAST_TICKED = 1000


def check_busy_times(checks, tasks, found):
    """Where no task shares a priority and there are no rows. Gives for each task that is played
    how it ends, whether at q = 0, and whether the load up to it is below 1 (-1), at it or above."""
    for place, (task, each) in enumerate(zip(tasks, found)):
        upper = tasks[:place + 1]
        # R(63) is within this, as is the end of the busy time if that ends at q = 63.
        last = (MOST_TRIED - 1) * task.period + max(task.period, task.deadline)
        if last <= LAST_PLAYED:
            what = "busy time of task %d of %r" % (place, tasks)
            taken = busy_jobs(upper, last)
            check_busy_time(checks, task, each, taken, what)
            if last <= LAST_TICKED:
                checks.same(ticked_jobs(upper, last)[:len(taken)], taken, what)
            load = load_of(upper)
            yield WORDS.get(each.answer, "response"), each.tried == 1, (load > 1) - (load < 1)


def check_past_runs(checks):
    """Random runs, also of tasks that share a priority; an open task's answer says nothing."""
    generator = Generator(SEED + 13)
    for _ in range(200):
        count, scale = generator.between(1, 5), generator.pick([4, 8, 15, 30])
        tasks = past_tasks(generator, count, scale)
        if count > 1 and generator.chance(1, 2):
            tasks = with_groups(generator, tasks)
        answers = [each.answer for each in all_found_past(tasks, [])]
        ticks = 10 * longest_period(tasks) + 20
        check_random_runs(checks, generator, tasks, answers, ticks, 4)


def played_past(generator, entries):
    """The tasks of those of these entries that can be played, and made ones."""
    for entry in entries:
        if refusal_of(entry, read_past) is None:
            tasks, rows = read_past(*entry)
            if not rows and not has_ties(tasks):
                yield tasks
    for _ in range(150):
        count, scale = generator.between(1, 5), generator.pick([4, 8, 15, 40])
        yield past_tasks(generator, count, scale)
        yield level_tasks(generator, count, generator.below(count), generator.below(3) - 1)


def check_all_busy_times(checks, entries):
    """Gives how many tasks are played."""
    ends = collections.Counter()
    for tasks in played_past(Generator(SEED + 12), entries):
        ends.update(check_busy_times(checks, tasks, all_found_past(tasks, [])))
    # Whatever can be turns up. A task with a load above 1 is never answered.
    loads = (-1, 0, 1)
    wanted = set(itertools.product(["response", "late"], [True, False], loads))
    wanted -= set(itertools.product(["response"], [True, False], [1]))
    wanted |= set(itertools.product(["open"], [False], loads))
    checks.same(set(ends), wanted, "ends of busy times")
    return sum(ends.values())


def check_past_classes(checks):
    """What is measured is what it is called."""
    wanted = {"32-open": "open 31", "32-late": "late 31", "refusal-11": "refused 11 at 0"}
    for measured in past_classes():
        if not measured.name.startswith("slowest"):
            lines = past_text_of(measured.data).splitlines()
            checks.same(lines[-1], wanted.get(measured.name, "schedulable"), measured.title)
        if "-buffers-" in measured.name:
            tasks, rows = read_past(measured.data, MOST_TASKS, MOST_TASKS)
            checks.same(schedulable_past(tasks, all_found_past(tasks, rows)), True, measured.title)


def check_past(checks, entries):
    for number, entry in enumerate(entries):
        what = "entry %d in the second analysis" % number
        check_beside_first(checks, entry, what)
        if refusal_of(entry, read_past) is None and refusal_of(entry):
            tasks, rows = read_past(*entry)
            check_past_searches(checks, tasks, rows, all_found_past(tasks, rows))
    check_past_classes(checks)
    check_past_runs(checks)
    return check_all_busy_times(checks, past_period_entries(Generator(SEED + 11)))


def check_event_playing(checks):
    """The jumps from event to event change nothing: a playing tick by tick gives the same."""
    generator = Generator(SEED + 4)
    for _ in range(600):
        count = generator.between(1, 6)
        tasks = without_delays(made_tasks(generator, count, generator.pick([1, 4, 12, 40, 90])))
        if generator.chance(1, 3):
            tasks = [task._replace(cost=generator.between(1, 2 * task.period)) for task in tasks]
        last = latest_deadline(tasks)
        jobs = together(tasks, last)
        ends = play(tasks, jobs, last)
        firsts = [ends[jobs.index(Job(place, 0, task.cost))] for place, task in enumerate(tasks)]
        answers = [end if end is not None and end <= task.deadline else 0
                   for end, task in zip(firsts, tasks)]
        checks.same(played_answers(tasks), answers, "events of %r" % (tasks,))
        idle = [tick for tick in range(1, last + 1)
                if all(end is not None and end <= tick
                       for end, job in zip(ends, jobs) if job.release < tick)]
        checks.same(ticks_played(tasks), min(idle, default=last), "ticks of %r" % (tasks,))


def check_engine_edges(checks):
    """Refusals 8 and 9 of the engine; its one slice alone counts."""
    plain, jittered, sections = WORKED_TABLES[4], WORKED_TABLES[10], WORKED_TABLES[12]
    for table, lengths, wanted in (
            (plain, (3, 0), "schedulable"),
            (plain, (2, 40), "refused 8 at 0"),
            (jittered, (2, 0), "refused 9 at 0"),
            (jittered, (1, 2), "refused 8 at 0"),
            (sections, (4, 3), "refused 9 at 0"),
            (sections, (3, 4), "refused 8 at 0"),
            (WORKED_TABLES[7], (40, 0), "late 2")):
        for version in VERSIONS_BEFORE:
            entry = Entry(Draft(table.tasks, table.rows, version).data(), *lengths)
            checks.same(engine_line(entry), wanted, "engine with slices of %d and %d" % lengths)
    # "L1's engine refuses ties with 9", wherever they stand, and after 8.
    for sizes in ((1, 2), (2, 1), (3,)):
        tasks = in_groups(plain.tasks, *sizes)
        for lengths, wanted in (((3, 0), "refused 9 at 0"), ((2, 3), "refused 8 at 0")):
            entry = Entry(Draft(tasks).data(), *lengths)
            checks.same(engine_line(entry), wanted, "engine with groups of %r" % (sizes,))
    # A constant delay is a delay: "Any nonzero jitter or delay".
    for lengths, wanted in (((2, 0), "refused 9 at 0"), ((1, 2), "refused 8 at 0")):
        entry = Entry(Draft(DELAY_TABLES[0].tasks, version=2).data(), *lengths)
        checks.same(engine_line(entry), wanted, "engine with delays 10 and 10")


def check_engine(checks, entries):
    """Wherever the engine takes a table, its answers are the equation's. Gives how many it
    takes."""
    taken = 0
    for number, entry in enumerate(entries):
        try:
            tasks = read_playable(entry)
        except Refused:
            continue
        taken += 1
        checks.same(played_answers(tasks), responses_of(tasks, []), "engine on entry %d" % number)
    return taken


def check_true_claims(checks, data, tasks, rows):
    # "a schedulable table's true answers always pass"; of others the answer 0 fails alone.
    responses = responses_of(tasks, rows)
    late_places = [place for place, response in enumerate(responses) if response == 0]
    checks.same(failing_claims(tasks, rows, responses), late_places,
                "true answers of %r" % (tasks,))
    checks.same(claimed_line(data, responses), failing_line(late_places),
                "true answers of %r" % (tasks,))


def check_passing(checks, claimed):
    """A list that passes. Gives whether some claim is above the true answer."""
    # "the table is schedulable and no true answer is above its claim".
    tasks, rows = read_bytes(claimed.table)
    responses = responses_of(tasks, rows)
    fits = [0 < response <= claim for response, claim in zip(responses, claimed.claims)]
    checks.same(fits, [True] * len(tasks), "claims %r of %r" % (claimed.claims, tasks))
    return responses != claimed.claims


def jobs_counted(load, window):
    """How many jobs of a load begin before the end of a window, which its spread makes longer,
    counted one by one."""
    begun = 0
    while begun * load.period < window + load.spread:
        begun += 1
    return begun


def counted_claims(place, tasks, rows):
    """The claims of a task that pass, from the jobs of every window up to its deadline."""
    task = tasks[place]
    base, loads = parts_of(place, tasks, rows)
    return [window + task.latest for window in range(1, task.deadline - task.latest + 1)
            if base + sum(load.cost * jobs_counted(load, window) for load in loads) <= window]


def check_every_claim(checks, tasks, rows, version):
    """Every claim from 0 to D + 1 for every task, with such for the others as pass, if any does."""
    data = Draft(tasks, rows, version).data()
    passing = [counted_claims(place, tasks, rows) for place in range(len(tasks))]
    others = [claims[-1] if claims else task.deadline for task, claims in zip(tasks, passing)]
    for place, task in enumerate(tasks):
        # The true answer is the smallest claim that passes.
        checks.same(min(passing[place], default=0), response_of(place, tasks, rows),
                    "smallest claim for task %d of %r" % (place, tasks))
        for claim in range(task.deadline + 2):
            claims = with_claim(others, place, claim)
            failing = [at for at, each in enumerate(claims) if each not in passing[at]]
            checks.same(claimed_line(data, claims), failing_line(failing),
                        "claims %r of %r" % (claims, tasks))


def tiny_table(generator, version):
    """Small enough for all its claims."""
    count = generator.between(1, 5)
    tasks, rows = made_table(generator, count, generator.pick([0, 0, count]),
                             generator.pick([4, 9, 25]), version)
    # A delay may be as long as the deadline and more, but not by much.
    tasks = [task._replace(latest=min(task.latest, task.earliest + 30)) for task in tasks]
    if count > 1 and generator.chance(1, 2):
        tasks = with_groups(generator, tasks)
    return tasks, rows


def check_claims(checks, claimed):
    """Gives how many of the made lists pass."""
    for table, claims, wanted in CLAIM_EXAMPLES:
        for version in VERSIONS_BEFORE:
            data = Draft(table.tasks, table.rows, version).data()
            checks.same(claimed_line(data, claims), wanted,
                        "claims %r of %r" % (claims, table.tasks))
    data = Draft(WIDE_TABLES[1].tasks, version=3).data()
    for claims, wanted in WIDE_CLAIM_EXAMPLES:
        checks.same(claimed_line(data, claims), wanted, "claims %r of 200 tasks" % (claims,))
    generator = Generator(SEED + 10)
    for _, version in itertools.product(range(150), VERSIONS_BEFORE):
        check_every_claim(checks, *tiny_table(generator, version), version)
    passing = [each for each in claimed if claimed_line(*each) == "pass"]
    # Both kinds turn up: the true answers, and others.
    checks.same({check_passing(checks, each) for each in passing}, {True, False},
                "claims above the true answers")
    return len(passing)


def fault_of(text):
    try:
        read_text(text)
    except Unreadable as fault:
        return fault.line, fault.kind
    return None


def check_faulty_texts(checks):
    told = set()
    for text, line, kind in faulty_texts():
        checks.same(fault_of(text), (line, kind), "fault of the text %r" % text[:60])
        told.add(kind)
    checks.same(told, set(Kind), "the kinds of faults")


def bytes_or_fault(text):
    try:
        return bytes_of_text(text)
    except Unreadable as fault:
        return str(fault)


def check_readable_texts(checks):
    for text, data in readable_texts():
        checks.same(bytes_or_fault(text), data, "bytes of the text %r" % text[:60])


def example_tables():
    """The name, the text and the bytes of each of examples/."""
    folder = os.path.join(os.path.dirname(os.path.abspath(__file__)), os.pardir, "examples")
    for name in sorted(os.listdir(folder)):
        if name.endswith(".table"):
            path = os.path.join(folder, name[:-len(".table")])
            with open(path + ".txt", "rb") as text, open(path + ".table", "rb") as table:
                yield name, text.read(), table.read()


def check_examples(checks):
    for name, text, data in example_tables():
        checks.same(bytes_or_fault(text), data, "the text of examples/%s" % name)


def check_written_texts(checks):
    """What is written is read back, and no two tables are written alike."""
    generator = Generator(SEED + 16)
    written = {}
    for text, data in drawn_texts(generator, 400):
        checks.same(bytes_or_fault(text), data, "bytes of a drawn text")
        again = write_text(data)
        checks.same(bytes_or_fault(again), data, "a written table, read back")
        checks.same(written.setdefault(again, data), data, "two tables with one text")
    greatest = GREATEST_TICKS
    tasks = [Task(255, greatest, greatest, greatest, greatest, greatest)] * MOST_TASKS
    rows = [Row(place, semaphore, greatest) for place in (198, 199) for semaphore in range(1, 17)]
    data = Draft(tasks, rows, 3).data()
    checks.same(bytes_or_fault(write_text(data)), data, "the longest numbers, read back")


WRITTEN_TEXT = b"""# task PRIORITY PERIOD COST DEADLINE; section PLACE SEMAPHORE LENGTH
version 2
task 9 10 2 40
task 9 20 3 12 jitter 5
task 1 30 4 30 delays 6 7
section 0 1 2
section 2 16 4
"""
# The byte of each field of that table, and one inside a field.
WRITTEN_LINES = {
    0: "line 2: version", 1: "no line: length", 2: "no line: length", 3: "no line: number of tasks",
    4: "no line: number of sections", 5: "line 3: priority", 6: "line 3: period",
    10: "line 3: cost", 14: "line 3: deadline", 18: "line 3: earliest delay",
    22: "line 3: latest delay",
    26: "line 4: priority", 43: "line 4: latest delay", 60: "line 5: earliest delay",
    67: "line 5: latest delay", 68: "line 6: place", 69: "line 6: semaphore", 70: "line 6: length",
    74: "line 7: place", 79: "line 7: length",
}
# The second task of the fifth table, each field with a fault: the line and the field are told.
REFUSED_LINES = [
    (b"task 3 6 2 6", "line 4: priority"), (b"task 2 0 2 6", "line 4: period"),
    (b"task 2 6 0 6", "line 4: cost"), (b"task 2 6 2 7", "line 4: deadline"),
    (b"task 2 6 2 6 jitter 1000001", "line 4: jitter"),
    (b"task 2 6 2 6 delays 1000001 1000001", "line 4: earliest delay"),
    (b"task 2 6 2 6 delays 2 1", "line 4: latest delay"),
    (b"task 2 6 2 6\nsection 2 1 1", "line 5: place"),
    (b"task 2 6 2 6\nsection 1 17 1", "line 5: semaphore"),
    (b"task 2 6 2 6\nsection 1 1 3", "line 5: length"),
    (b"task 2 6 2 6\nsection 1 1 1\n\nsection 0 1 1", "line 7: place"),
]


def check_text_lines(checks):
    data = bytes_of_text(WRITTEN_TEXT)
    checks.same(write_text(data), WRITTEN_TEXT, "the written text")
    for place, line in WRITTEN_LINES.items():
        checks.same(text_line(WRITTEN_TEXT, place), line, "the line of byte %d" % place)
    for lines, wanted in REFUSED_LINES:
        text = b"# two tasks\n\ntask 2 4 1 4\n" + lines
        refusal = refusal_of([bytes_of_text(text)], read_bytes)
        checks.same(text_line(text, refusal[1]), wanted, "the line of a refusal")
    for text, wanted in ((b"", (3, "no line: number of tasks")),
                         (b"version 1\n" + TASK_LINE * 33, (3, "no line: number of tasks")),
                         (b"\nversion 9\n", (2, "line 2: version"))):
        number, place = refusal_of([bytes_of_text(text)], read_bytes)
        checks.same((number, text_line(text, place)), wanted, "the line of a refusal of the head")


def check_texts(checks):
    check_faulty_texts(checks)
    check_readable_texts(checks)
    check_examples(checks)
    check_written_texts(checks)
    check_text_lines(checks)


def hyperperiod_by_steps(periods):
    """The first multiple of the longest period that all divide."""
    return next(number for number in itertools.count(max(periods), max(periods))
                if not any(number % period for period in periods))


def check_numbers_of_report(checks):
    # "entry 1 is 1,000,000 and entry 2 is 828,427"
    checks.same([bound_of(1), bound_of(2), bound_of(3)], [1000000, 828427, 779763], "bounds")
    for count in range(1, MOST_TASKS + 1):
        whole = MILLION * count
        fits = [(whole + bound_of(count) + more) ** count <= 2 * whole ** count for more in (0, 1)]
        checks.same(fits, [True, False], "bound of %d tasks" % count)
    # They fall towards the natural logarithm of 2.
    bounds = [bound_of(count) for count in range(1, MOST_TASKS + 1)]
    checks.same(bounds == sorted(set(bounds), reverse=True) and bounds[-1] > 693147, True,
                "the order of the bounds")
    for periods, word in HYPERPERIODS:
        tasks = listed(*((period, 1, period) for period in periods))
        checks.same(hyperperiod_word(tasks), word, "hyperperiod of %r" % (periods[:9],))
    # 10^12 itself would be printed; but each such table is refused for its long period.
    for periods in TEN_TO_TWELVE:
        tasks = listed(*((period, 1, period) for period in periods))
        checks.same(hyperperiod_word(tasks), "1000000000000", "hyperperiod of %r" % (periods,))
        long = next(place for place, period in enumerate(periods) if period > MILLION)
        line = "0 refused 5 at %d" % (5 + 21 * long + 1)
        checks.same(report_text(light_table(periods)).splitlines()[0], line,
                    "report of the periods %r" % (periods,))
    generator = Generator(SEED + 20)
    for _ in range(300):
        periods = [generator.between(1, 30) for _ in range(generator.between(1, 4))]
        tasks = listed(*((period, 1, period) for period in periods))
        checks.same(hyperperiod_of(tasks), hyperperiod_by_steps(periods),
                    "hyperperiod of %r" % periods)
    for entries, utilisation in UTILISATIONS:
        checks.same(utilisation_of(listed(*entries)), utilisation,
                    "utilisation of %r" % entries[:9])


def check_utilisation(checks, tasks):
    # "at least the exact sum and less than it plus one per task"
    exact = sum(fractions.Fraction(MILLION * task.cost, task.period) for task in tasks)
    checks.same(exact <= utilisation_of(tasks) < exact + len(tasks), True,
                "utilisation of %r" % (tasks[:9],))


def check_reported(checks, table):
    """What a report says of a table, beside the program's text for it."""
    last = text_of(table).splitlines()[-1]
    word, rest = reported(table)
    checks.same(word, last.split()[0], "verdict in a report")
    if word == "refused":
        checks.same("refused " + rest, last, "refusal in a report")
        return last.split(" at ")[0]
    check_utilisation(checks, read_bytes(table)[0])
    return word


def check_report(checks, name, data):
    """Its tables, and what closes it."""
    tables, broken = split_tables(data)
    behind = data[sum(map(len, tables)):]
    checks.same(b"".join(tables) + behind, data, "the tables of the report %s" % name)
    if name.startswith("broken"):
        checks.same(broken, True, "the end of the report %s" % name)
    lines = report_text(data).splitlines()
    checks.same(lines[len(tables) + 1:], ["broken"] * bool(behind),
                "the last lines of the report %s" % name)
    return tables


def check_reports(checks):
    term = b"".join(term_tables())
    checks.same(report_text(term), TERM_TEXT, "the request's report")
    checks.same(report_text(term + b"\x01\x00"), TERM_TEXT + "broken\n",
                "the request's broken report")
    checks.same(report_text(b""), "schedulable 0 late 0 refused 0\n", "the report of an empty file")
    folder = os.path.join(os.path.dirname(os.path.abspath(__file__)), os.pardir, "examples")
    with open(os.path.join(folder, "term.tables"), "rb") as example:
        checks.same(example.read(), term, "examples/term.tables")
    check_numbers_of_report(checks)
    tables = set()
    for name, data in made_reports():
        tables.update(check_report(checks, name, data))
    # Each refusal but 1 turns up.
    checks.same({check_reported(checks, table) for table in sorted(tables)},
                {"schedulable", "late", *("refused %d" % number for number in range(2, 8))},
                "what is said in the made reports")


LONGEST_PLAIN_DEADLINE = 3000
LONGEST_PLAYED_DEADLINE = 400


def check_entries(checks, entries):
    """All tables that "make" writes: both starts, both searches, the true answers as claims, and
    the run released together."""
    reached = set()
    for entry in entries:
        if refusal_of(entry):
            continue
        tasks, rows = read_table(*entry)
        reached |= check_starts(checks, tasks, rows)
        check_true_claims(checks, entry.table, tasks, rows)
        longest = max(task.deadline for task in tasks)
        if longest <= LONGEST_PLAIN_DEADLINE:
            check_searches(checks, tasks, rows)
        if longest <= LONGEST_PLAYED_DEADLINE and not rows and not any(
                task.latest for task in tasks):
            check_run_together(checks, tasks)
    checks.same(reached, set(Start), "starts from which a bound is reached")


# ---------------------------------------------------------------------------
# Every run of small tables with ties
# ---------------------------------------------------------------------------

# Where a run stands between two ticks: for each task how many ticks ago its last release was, which
# counts up to T, and for each priority, the most urgent first, the jobs that wait, the next first.
Standing = collections.namedtuple("Standing", "since waiting")
# A job's age, the ticks since its release, counts up to its deadline.
Waiting = collections.namedtuple("Waiting", "place age left")


def needs_of(task, since):
    """What a task may release in a tick: nothing, which is 0, or a job of any need."""
    return range(task.cost + 1) if since >= task.period else (0,)


def standing_after(tasks, levels, standing, needs):
    """The standing one tick later, where jobs of these needs are released at the tick's start."""
    since = tuple(1 if need else min(ticks + 1, task.period)
                  for task, ticks, need in zip(tasks, standing.since, needs))
    queues = list(standing.waiting)
    # "equal jobs go oldest release first, then lower place".
    for place, need in enumerate(needs):
        if need:
            queues[levels[place]] = (*queues[levels[place]], Waiting(place, 0, need))
    served = next((level for level, queue in enumerate(queues) if queue), None)
    if served is not None:
        first, *others = queues[served]
        unfinished = [Waiting(first.place, first.age, first.left - 1)] if first.left > 1 else []
        queues[served] = unfinished + others
    waiting = tuple(tuple(Waiting(job.place, min(job.age + 1, tasks[job.place].deadline), job.left)
                          for job in queue) for queue in queues)
    return Standing(since, waiting)


def every_standing(tasks, most_ticks=None):
    """Every standing that a run of the tasks can come to, or can within so many ticks. What comes
    after a standing depends on nothing else, so that each is followed once."""
    levels = levels_of(tasks)
    first = Standing(tuple(task.period for task in tasks), ((),) * (max(levels) + 1))
    met, new, ticks = {first}, [first], 0
    while new and ticks != most_ticks:
        found = set()
        for standing in new:
            for needs in itertools.product(*map(needs_of, tasks, standing.since)):
                found.add(standing_after(tasks, levels, standing, needs))
        new = found - met
        met |= new
        ticks += 1
    return met


def longest_taken(tasks, standings):
    """For each task the longest that a job takes, from release to end, in these; one more than its
    deadline stands for all that is longer. A job that is unfinished takes longer than its age."""
    longest = [1] * len(tasks)
    for standing in standings:
        for job in itertools.chain(*standing.waiting):
            longest[job.place] = max(longest[job.place], job.age + 1)
    return longest


def job_lists(place, task, ticks, release=0):
    """All jobs that a task can have in so many ticks, from a release on."""
    if release >= ticks:
        yield []
        return
    yield from job_lists(place, task, ticks, release + 1)
    for rest in job_lists(place, task, ticks, release + task.period):
        for need in range(1, task.cost + 1):
            yield [Job(place, release, need)] + rest


def every_run(tasks, ticks):
    lists = (list(job_lists(place, task, ticks)) for place, task in enumerate(tasks))
    for chosen in itertools.product(*lists):
        yield list(itertools.chain(*chosen))


def check_runs_one_by_one(checks, tasks, ticks):
    """The standings are those of the runs, played one by one by the other player. Gives how many
    there are."""
    count, longest = 0, [1] * len(tasks)
    for jobs in every_run(tasks, ticks):
        count += 1
        for job, end in zip(jobs, play(tasks, jobs, ticks)):
            taken = (end or ticks + 1) - job.release
            longest[job.task] = max(longest[job.task], min(taken, tasks[job.task].deadline + 1))
    checks.same(longest_taken(tasks, every_standing(tasks, ticks)), longest,
                "every run of %d ticks of %r" % (ticks, tasks))
    return count


def tasks_of_pairs(pairs, sizes):
    """Tasks from (T, C), D being T, in groups of these sizes."""
    return in_groups(listed(*[(period, cost, period) for period, cost in pairs]), *sizes)


def piles_up(tasks):
    """More work than ticks: jobs can queue without end."""
    return load_of(tasks) > 1


def tables_of_pairs(pairs, shapes):
    """All tables of as many such tasks as there are in groups of each of these shapes."""
    for sizes in shapes:
        for chosen in itertools.product(pairs, repeat=sum(sizes)):
            yield tasks_of_pairs(chosen, sizes)


def small_tied_tables():
    """Only some of the larger ones whose work piles up: they come to very many standings."""
    pairs = [(period, cost) for period in range(1, 6) for cost in range(1, period + 1)]
    threes = [(1, 2), (2, 1), (3,)]
    yield from tables_of_pairs(pairs, [(2,)])
    yield from itertools.filterfalse(piles_up, tables_of_pairs(pairs, threes))
    yield from filter(piles_up, tables_of_pairs([(2, 1), (3, 2), (4, 2), (5, 1)], threes))
    yield from tables_of_pairs([(3, 1), (4, 1), (5, 1)], GROUP_SIZES)
    yield from itertools.filterfalse(piles_up, tables_of_pairs([(5, 1), (5, 2)], GROUP_SIZES))


# More than the longest deadline among those, so that a late job is found to be late.
TICKS_OF_PILING_RUNS = 8


def check_every_run(checks, tasks):
    """Every run of any length, or of some ticks where work piles up. Gives how many standings there
    are, and how many tasks have a priority of their own."""
    responses = responses_of(tasks, [])
    most_ticks = TICKS_OF_PILING_RUNS if piles_up(tasks) else None
    standings = every_standing(tasks, most_ticks)
    alone = 0
    for place, longest in enumerate(longest_taken(tasks, standings)):
        what = "task %d of %r in every run" % (place, tasks)
        # "For tables with ties demand 3 keeps only its first half: no job exceeds R."
        if responses[place]:
            checks.same(longest <= responses[place], True, what)
        # The second half holds all the same for a task whose priority no other has.
        if is_alone(place, tasks):
            alone += 1
            checks.same(longest, responses[place] or tasks[place].deadline + 1, what)
    return len(standings), alone


# The tables of which every run of so many ticks is also played by itself, in groups of these sizes.
ONE_BY_ONE = [
    (((2, 1), (2, 1)), (2,), 8), (((2, 1), (3, 2)), (2,), 8), (((3, 2), (2, 1)), (2,), 8),
    (((4, 2), (5, 3)), (2,), 9), (((5, 3), (4, 2)), (2,), 9), (((1, 1), (3, 1)), (2,), 6),
    (((2, 1), (4, 2), (4, 1)), (1, 2), 6), (((3, 1), (3, 2), (4, 1)), (2, 1), 6),
    (((3, 1), (4, 1), (5, 2)), (3,), 6), (((4, 1), (3, 1), (5, 1), (5, 1)), (1, 2, 1), 5),
]


def check_shown_and_not(checks):
    """Longest responses, worked out by hand, that are below the answers."""
    for table, longest in (
            # The first one's answer is 2, and no run needs it.
            (GROUP_TABLES[1], [1, 2]),
            # 'Answer 0 then means "not shown"': no run misses the first one's deadline, 1.
            (GROUP_TABLES[2], [1, 2]),
            # No run misses the second one's deadline, 6.
            (GROUP_TABLES[0], [1, 6, 7])):
        checks.same(longest_taken(table.tasks, every_standing(table.tasks)), longest,
                    "every run of %r" % (table.tasks,))


# ---------------------------------------------------------------------------
# Tables to measure
# ---------------------------------------------------------------------------

Measured = collections.namedtuple("Measured", "name few many title data")


def loaded_tasks(count, percent):
    """Periods rising by a fifth from 1,000 ticks, each task with the same share of the load. Those
    of more than 32 tasks rise by a fiftieth from 10,000."""
    tasks, period, part = [], 1000, 5
    if count > MOST_BEFORE:
        period, part = 10000, 50
    for place in range(count):
        cost = max(1, period * percent // (100 * count))
        tasks.append(Task(count - place, period, cost, period, 0, 0))
        period = period * (part + 1) // part + place % 3
    return tasks


def loaded_rows(tasks, count):
    """Rows spread evenly over the tasks and the semaphores; short sections."""
    places = [place * len(tasks) // count for place in range(count)] if count else []
    rows, semaphore = [], 0
    for number, place in enumerate(places):
        fresh = number == 0 or places[number - 1] != place
        semaphore = 1 + place % 2 if fresh else semaphore + 1
        rows.append(Row(place, semaphore, 1 + tasks[place].cost // 8))
    return rows


def is_schedulable(tasks, rows):
    return all(responses_of(tasks, rows))


def with_delays(tasks):
    """The latest delay is a tenth of the period, the earliest half of that."""
    return [task._replace(earliest=task.period // 20, latest=task.period // 10) for task in tasks]


def loaded_draft(count, row_count, percents, version=1, group=1):
    """The last of these loads that is still schedulable, and its table; in version 2 with delays.
    So many neighbours share a priority."""
    chosen = None
    for percent in percents:
        tasks = in_groups(loaded_tasks(count, percent), *[group] * (count // group))
        rows = loaded_rows(tasks, row_count)
        if version == 2:
            tasks = with_delays(tasks)
        if is_schedulable(tasks, rows):
            chosen = percent, Draft(tasks, rows, version)
    return chosen


def load_class(count, row_count, kind, percents, version=1, few=100):
    percent, draft = loaded_draft(count, row_count, percents, version)
    title = "%d %s, %s (%d%%)" % (count, "task" if count == 1 else "tasks", kind, percent)
    name = "%d-%s" % (count, kind.replace(" ", "-"))
    if row_count:
        title += ", %d rows" % row_count
        name += "-rows"
    if version == 2:
        title += ", delays"
        name += "-delays"
    return Measured(name, few, 2 * few, title, draft.data())


def load_classes():
    """One task has room for 16 rows only."""
    for count, row_count in ((1, 16), (8, 64), (32, 64)):
        yield load_class(count, 0, "light", [30])
        yield load_class(count, 0, "near full load", range(50, 101))
        yield load_class(count, row_count, "near full load", range(50, 101))


def crowded_tasks(periods, count=MOST_BEFORE):
    """So many tasks of cost 1: with these periods, and below them with the longest."""
    short = [(period, 1, period) for period in periods]
    long = [(GREATEST_TICKS, 1, GREATEST_TICKS)] * (count - len(short))
    return listed(*(short + long))


def most_loads_table():
    """The table with the most loads that a search over short periods of the first tasks found:
    42,723,557, where (1,1,1) above 31 tasks like the last ones has 30,999,756. It was the slowest
    while every load took a divide. (From document 01's start each has 496 more.)"""
    return Draft(crowded_tasks((3, 11, 2, 14, 232))).data()


def once_slowest_table():
    """The greatest cost that a search over the periods found while each round asked every load anew:
    41,778,441 loads. In 22,860,538 of them the window is longer than the period, so that they needed
    a divide (document 02, L2)."""
    return Draft(crowded_tasks((2, 11, 236, 3, 14, 136041, 32704, 57648, 167220, 143363, 185372,
                                221486))).data()


def once_slowest_group_table():
    """The greatest cost that a search over periods and groups found then, where all tasks share one
    priority: 85,157,620 loads, of which 33,281,628 needed a divide."""
    tasks = crowded_tasks((2, 3, 11, 14, 236, 33040, 59107, 152549, 265660, 423753, 434143, 441049,
                           464787, 967704, 970178))
    return Draft(in_groups(tasks, MOST_BEFORE)).data()


def slowest_table():
    """The greatest cost that a search over periods, costs and their order found since the loads have
    marks."""
    return Draft(crowded_tasks((231, 14, 11, 3, 2))).data()


def slowest_group_table():
    """The same, where all tasks share one priority."""
    tasks = crowded_tasks((468053, 152574, 236, 59309, 424177, 976419, 272160, 441050, 11, 434141,
                           970177, 33070, 14, 3, 2))
    return Draft(in_groups(tasks, MOST_BEFORE)).data()


def refusal_classes():
    last_task, last_row = MOST_BEFORE - 1, MOST_ROWS - 1
    for title, fault, number in (
            ("1", cut_fault(4), 0),
            ("2", version_fault(255), 0),
            ("3", count_fault("row_count", 65), 0),
            ("4", length_fault(lent=1), 0),
            ("5, first task", number_fault("latest", lambda task: GREATEST_TICKS + 1), 0),
            ("5, last task", number_fault("latest", lambda task: GREATEST_TICKS + 1), last_task),
            ("6, first task", priority_fault(lambda before: 0), 0),
            ("6, last task", priority_fault(lambda before: 0), last_task),
            ("7, first row", row_fault(length=lambda draft, row: 0), 0),
            ("7, last row", row_fault(length=lambda draft, row: 0), last_row)):
        _, draft = loaded_draft(MOST_BEFORE, MOST_ROWS, [30])
        fault(draft, number)
        name = "refusal-" + title.replace(",", "").replace(" ", "-")
        yield Measured(name, 100, 200, "refusal " + title, draft.data())


def delay_classes():
    """Version 2."""
    for count in (1, 8, MOST_BEFORE):
        yield load_class(count, 0, "near full load", range(50, 101), 2)
    _, draft = loaded_draft(MOST_BEFORE, MOST_ROWS, [30], 2)
    LATEST_FAULTS[0](draft, MOST_BEFORE - 1)
    yield Measured("refusal-5-last-latest", 100, 200, "refusal 5, last task's latest delay",
                   draft.data())


def group_classes():
    """Equal priorities: groups of 4 tasks, one priority for all, and the slowest. With one priority
    the shorter tasks are late: where nobody is, no period is below the sum of all costs, and each
    task takes one round."""
    percent, draft = loaded_draft(MOST_BEFORE, 0, range(50, 101), group=4)
    yield Measured("32-groups", 100, 200, "32 tasks in 8 groups, near full load (%d%%)" % percent,
                   draft.data())
    draft = Draft(in_groups(loaded_tasks(MOST_BEFORE, 30), MOST_BEFORE))
    yield Measured("32-one-priority", 100, 200, "32 tasks of one priority, light (30%)",
                   draft.data())
    yield Measured("once-slowest-one-priority", 1, 2,
                   "32 tasks of one priority, the slowest before marks", once_slowest_group_table())
    yield Measured("slowest-one-priority", 1, 2,
                   "32 tasks of one priority, the slowest table found", slowest_group_table())


def slowest_wide_table():
    """The greatest cost for 200 tasks that a search over periods, costs and their order found: some
    3.9 million rounds."""
    periods = (241, 14, 11, 3, 2, 833625, 606304, 814794, 626154, 428176, 806056, 589842)
    return Draft(crowded_tasks(periods, MOST_TASKS), version=3).data()


def slowest_wide_group_table():
    """The same, where all tasks share one priority: some 4.9 million rounds."""
    tasks = crowded_tasks((242, 14, 11, 3, 2, 985521, 982146), MOST_TASKS)
    return Draft(in_groups(tasks, MOST_TASKS), version=3).data()


def wide_load_classes():
    """200 tasks, of version 3; a call takes long, so that there are fewer of them."""
    yield load_class(MOST_TASKS, 0, "light", [30], 3, 10)
    yield load_class(MOST_TASKS, 0, "near full load", range(80, 101), 3, 10)
    yield load_class(MOST_TASKS, MOST_ROWS, "near full load", range(80, 101), 3, 10)


def wide_classes():
    """Version 3, as for 32 tasks before."""
    yield from wide_load_classes()
    draft = Draft(in_groups(loaded_tasks(MOST_TASKS, 30), MOST_TASKS), version=3)
    yield Measured("200-one-priority", 10, 20, "200 tasks of one priority, light (30%)",
                   draft.data())
    for title, fault, number in (
            ("5, last of 200 tasks", LATEST_FAULTS[0], MOST_TASKS - 1),
            ("7, last row of 200 tasks", LENGTH_FAULTS[0], MOST_ROWS - 1)):
        _, draft = loaded_draft(MOST_TASKS, MOST_ROWS, [30], 3)
        fault(draft, number)
        name = "refusal-" + title.replace(",", "").replace(" ", "-")
        yield Measured(name, 100, 200, "refusal " + title, draft.data())
    yield Measured("200-slowest", 0, 1, "200 tasks, the slowest table found", slowest_wide_table())
    yield Measured("200-slowest-one-priority", 0, 1,
                   "200 tasks of one priority, the slowest table found",
                   slowest_wide_group_table())


def measured_classes():
    yield from load_classes()
    yield Measured("most-loads", 1, 2, "32 tasks, the most loads found", most_loads_table())
    yield Measured("once-slowest", 1, 2, "32 tasks, the slowest before marks",
                   once_slowest_table())
    yield Measured("slowest", 1, 2, "32 tasks, the slowest table found", slowest_table())
    yield from refusal_classes()
    yield from delay_classes()
    yield from group_classes()
    yield from wide_classes()


def lasting_tasks(periods, doubled):
    """Tasks of cost 1 with these periods, but one of cost 2, and the latest deadlines."""
    return furthest(listed(*[(period, 2 if place == doubled else 1, period)
                             for place, period in enumerate(periods)]))


def slowest_past_table():
    """The greatest cost that a search over periods, costs and their order found for a program that
    keeps marks from each q to the next: some 5.3 million rounds, which come by 149 million loads.
    The load can be so near 1 that many q are tried for one of these tasks only."""
    return Draft(lasting_tasks((234, 11, 2, 3, 14, 486522, 491383, 486519, 486519, 486517, 491382,
                                501107, 491354, 486524, 486520, 491383, 486491, 486485, 491382,
                                486516, 491385, 486524, 491381, 486516, 486518, 481650, 486521,
                                491383, 491381, 486519, 486513, 486516), 30)).data()


def slowest_past_group_table():
    """The same, where all tasks share one priority, so that the load is that near 1 for all of
    them: 27 are open, after some 98 million rounds, which come by 3,053 million loads."""
    tasks = lasting_tasks([504503] * 27 + [234, 11, 14, 3, 2], 0)
    return Draft(in_groups(tasks, MOST_BEFORE)).data()


def buffer_classes():
    yield Measured("1-buffer", 100, 200, "1 task with buffers, load 0.90",
                   Draft(buffer_tasks(1, 90)).data())
    for count, percent in itertools.product((8, MOST_BEFORE), (90, 95, 100)):
        name = "%d-buffers-%d" % (count, percent)
        title = "%d tasks with buffers, load %.2f" % (count, percent / 100)
        yield Measured(name, 100, 200, title, Draft(buffer_tasks(count, percent)).data())
    tasks = buffer_tasks(MOST_BEFORE, 95)
    yield Measured("32-buffers-95-rows", 100, 200, "32 tasks with buffers, load 0.95, 64 rows",
                   Draft(tasks, loaded_rows(tasks, MOST_ROWS)).data())


def past_classes():
    """The tables on which the second analysis is measured. Those of buffers are schedulable, and
    but for that of one task they have answers past the period."""
    last = MOST_BEFORE - 1
    example = PAST_TABLES[0]
    yield Measured("example", 100, 200, "2 tasks, the example of 001",
                   Draft(example.tasks, example.rows).data())
    yield from buffer_classes()
    # A tick more than there is.
    draft = Draft(buffer_tasks(MOST_BEFORE, 100))
    draft.change_task(last, cost=draft.tasks[last].cost + 1)
    yield Measured("32-open", 100, 200, "32 tasks, the last one open", draft.data())
    yield Measured("32-late", 100, 200, "32 tasks, the last one late at q = 4",
                   Draft(buffer_tasks(MOST_BEFORE, 101)).data())
    draft = Draft(buffer_tasks(MOST_BEFORE, 95))
    draft.change_task(last, latest=1)
    yield Measured("refusal-11", 100, 200, "refusal 11, a delay in the last of 32 tasks",
                   draft.data())
    yield Measured("slowest", 1, 2, "32 tasks, the slowest table found", slowest_past_table())
    yield Measured("slowest-one-priority", 0, 1,
                   "32 tasks of one priority, the slowest table found", slowest_past_group_table())
    yield from wide_past_classes()


def wide_past_classes():
    """Version 3. In the order of fewer tasks the last of 200 with a short buffer would be late."""
    tasks = sorted(buffer_tasks(MOST_TASKS, 95), key=lambda task: task.period)
    tasks = with_priorities(tasks, range(MOST_TASKS, 0, -1))
    yield Measured("200-buffers-95", 10, 20, "200 tasks with buffers, the shorter first, load 0.95",
                   Draft(tasks, version=3).data())
    tasks = in_groups(furthest(buffer_tasks(MOST_TASKS, 85)), MOST_TASKS)
    yield Measured("200-one-priority-buffers-85", 10, 20,
                   "200 tasks of one priority with buffers, load 0.85",
                   Draft(tasks, version=3).data())


Playable = collections.namedtuple("Playable", "name title data")

# 1,000,000 ticks less one, and a single tick, with a release in the first alone: their difference
# is that of 999,998 ticks without a release.
MANY_TICKS = Playable("many-ticks", "1 task (1000000, 999999, 1000000)",
                      Draft(listed((1000000, 999999, 1000000))).data())
ONE_TICK = Playable("one-tick", "1 task (1000000, 1, 1000000)",
                    Draft(listed((1000000, 1, 1000000))).data())


def every_tick_class(name, count):
    """32 tasks, of which that many, the first ones, are released at every tick."""
    short = [(1, 1, 1)] * count
    long = [(GREATEST_TICKS, 1, GREATEST_TICKS)] * (MOST_BEFORE - count)
    title = "32 tasks, %d of them due at every tick" % count
    return Playable(name, title, Draft(listed(*(short + long))).data())


def unplayable_classes():
    _, draft = loaded_draft(MOST_BEFORE, 0, [30])
    draft.change_task(MOST_BEFORE - 1, latest=1)
    yield Playable("refusal-9-jitter", "refusal 9, jitter in the last of 32 tasks", draft.data())
    _, draft = loaded_draft(MOST_BEFORE, MOST_ROWS, [30])
    yield Playable("refusal-9-rows", "refusal 9, 32 tasks, 64 rows", draft.data())
    _, draft = loaded_draft(MOST_BEFORE, 0, [30])
    draft.change_task(MOST_BEFORE - 1, priority=draft.tasks[MOST_BEFORE - 2].priority)
    yield Playable("refusal-9-tie", "refusal 9, one priority for the last 2 of 32 tasks",
                   draft.data())


def playable_classes():
    """The slowest is the table with the most instructions that was found: a task costs most in a
    tick in which it is released, and not all can be released at every tick and have a late
    deadline."""
    for measured in load_classes():
        if not measured.name.endswith("-rows"):
            yield Playable(measured.name, measured.title, measured.data)
    yield Playable("analysis-slowest", "the analysis's slowest table before marks",
                   once_slowest_table())
    yield every_tick_class("one-due", 1)
    yield every_tick_class("slowest", MOST_BEFORE - 1)
    yield MANY_TICKS
    yield ONE_TICK
    yield from unplayable_classes()
    yield from wide_playable_classes()


# How long those of 200 tasks are played that never come to an end.
WIDE_TICKS = 100000


def wide_every_tick_class(name, places, which):
    """200 tasks, of which these are released at every tick."""
    tasks = listed(*[(WIDE_TICKS, 1, WIDE_TICKS)] * MOST_TASKS)
    for place in places:
        tasks[place] = tasks[place]._replace(period=1, deadline=1)
    return Playable(name, "200 tasks, %s due at every tick" % which, Draft(tasks, version=3).data())


def wide_playable_classes():
    """Version 3. The releases of a tick are in the first 64, in each 64 or in all places but the
    last, whose deadline is far off."""
    for measured in wide_load_classes():
        if not measured.name.endswith("-rows"):
            yield Playable(measured.name, measured.title, measured.data)
    yield wide_every_tick_class("200-one-due", [0], "1 of them")
    yield wide_every_tick_class("200-eight-due", range(8), "8 of them")
    yield wide_every_tick_class("200-eight-due-apart", [0, 31, 64, 95, 128, 159, 192, 198],
                                "8 of them, 2 in each 64,")
    yield wide_every_tick_class("200-all-due", range(MOST_TASKS - 1), "199 of them")
    _, draft = loaded_draft(MOST_TASKS, 0, [30], 3)
    draft.change_task(MOST_TASKS - 1, latest=1)
    yield Playable("200-refusal-9", "refusal 9, a delay in the last of 200 tasks", draft.data())


def stack_tables():
    """The most tasks of each version, for the stack that calls need: with 64 rows; without, which
    the engine takes too; and with buffers, which the second analysis takes."""
    for version, layout in LAYOUTS.items():
        tasks = loaded_tasks(layout.most_tasks, 80)
        buffers = buffer_tasks(layout.most_tasks, 95)
        for name, draft in (
                ("rows", Draft(tasks, loaded_rows(tasks, MOST_ROWS), version)),
                ("plain", Draft(tasks, version=version)),
                ("buffers", Draft(buffers, loaded_rows(buffers, MOST_ROWS), version))):
            yield "%s-%d" % (name, version), draft.data()


# ---------------------------------------------------------------------------
# Commands
# ---------------------------------------------------------------------------

def command_answer(arguments):
    """Reads at most 4,590 bytes "and judges what it took"."""
    if arguments.file is None:
        data = sys.stdin.buffer.read(MOST_BYTES_TAKEN)
    else:
        with open(arguments.file, "rb") as source:
            data = source.read(MOST_BYTES_TAKEN)
    sys.stdout.write(past_text_of(data) if arguments.past_period else text_of(data))


def command_to_bytes(_arguments):
    try:
        sys.stdout.buffer.write(bytes_of_text(sys.stdin.buffer.read()))
    except Unreadable as fault:
        sys.exit(str(fault))


def command_to_text(_arguments):
    """Its text form, or its refusal."""
    try:
        sys.stdout.buffer.write(write_text(sys.stdin.buffer.read(MOST_BYTES_TAKEN)))
    except Refused as refusal:
        print(refusal)


def command_text_line(arguments):
    try:
        print(text_line(sys.stdin.buffer.read(), arguments.place))
    except Unreadable as fault:
        sys.exit(str(fault))
    except IndexError:
        sys.exit("reference: the table has no byte %d" % arguments.place)


def write_file(folder, name, data):
    with open(os.path.join(folder, name), "wb") as target:
        target.write(data)


def command_make(arguments):
    entries = list(all_entries())
    claimed = list(all_claims())
    tables = b"".join(map(entry_bytes, entries))
    claims = b"".join(map(claimed_bytes, claimed))
    expected = "".join(map(entry_text, itertools.count(), entries)).encode("ascii")
    expected_claims = "".join(map(claimed_text, itertools.count(), claimed)).encode("ascii")
    os.makedirs(arguments.folder, exist_ok=True)
    write_file(arguments.folder, "tables", tables)
    write_file(arguments.folder, "expected", expected)
    write_file(arguments.folder, "claims", claims)
    write_file(arguments.folder, "expected-claims", expected_claims)
    report = b"".join(stored_report())
    expected_report = report_text(report).encode("ascii")
    write_file(arguments.folder, "report", report)
    write_file(arguments.folder, "expected-report", expected_report)
    print("reference: %d tables, %d bytes of tables, %d bytes of answers; %d lists of claims, "
          "%d bytes with their tables, %d bytes of answers; %d tables of a report, %d bytes, %d "
          "bytes of lines"
          % (len(entries), len(tables), len(expected), len(claimed), len(claims),
             len(expected_claims), len(split_tables(report)[0]), len(report), len(expected_report)))


def command_check(_arguments):
    checks = Checks()
    entries = list(all_entries())
    check_documents(checks)
    check_past_documents(checks)
    check_faults(checks)
    check_entries(checks, entries)
    check_both_versions(checks, entries)
    check_third_version(checks, entries)
    check_runs(checks)
    check_delayed_runs(checks)
    check_event_playing(checks)
    check_engine_edges(checks)
    taken = check_engine(checks, entries)
    played = check_past(checks, entries)
    claimed = list(all_claims())
    passing = check_claims(checks, claimed)
    check_texts(checks)
    check_reports(checks)
    if checks.failed:
        sys.exit("reference: %d of %d checks failed" % (checks.failed, checks.done))
    print("reference: %d checks; the engine takes %d of %d tables; the busy times of %d tasks are "
          "played; %d of %d lists of claims pass"
          % (checks.done, taken, len(entries), played, passing, len(claimed)))


def command_runs(_arguments):
    checks = Checks()
    runs = sum(check_runs_one_by_one(checks, tasks_of_pairs(pairs, sizes), ticks)
               for pairs, sizes, ticks in ONE_BY_ONE)
    check_shown_and_not(checks)
    counts = [check_every_run(checks, tasks) for tasks in small_tied_tables()]
    if checks.failed:
        sys.exit("reference: %d of %d checks of runs failed" % (checks.failed, checks.done))
    print("reference: every run of %d small tables with ties, by %d standings, and %d runs one by "
          "one: no job takes longer than its answer; for %d tasks alone at their priority both "
          "halves hold"
          % (len(counts), sum(met for met, _ in counts), runs, sum(alone for _, alone in counts)))


def write_classes(folder, classes):
    os.makedirs(folder, exist_ok=True)
    for measured in classes:
        write_file(folder, measured.name + ".table", measured.data)
        print("%s %d %d %s" % measured[:4])


def command_classes(arguments):
    write_classes(arguments.folder, measured_classes())


def command_past(arguments):
    write_classes(arguments.folder, past_classes())


def command_plays(arguments):
    os.makedirs(arguments.folder, exist_ok=True)
    for playable in playable_classes():
        write_file(arguments.folder, playable.name + ".table", playable.data)
        try:
            ticks = ticks_played(read_playable(Entry(playable.data, MOST_TASKS, 0)))
        except Refused:
            ticks = 0
        print("%s %d %s" % (playable.name, ticks, playable.title))


def command_stacks(arguments):
    os.makedirs(arguments.folder, exist_ok=True)
    for name, data in stack_tables():
        write_file(arguments.folder, name + ".table", data)


def command_texts(arguments):
    os.makedirs(arguments.folder, exist_ok=True)
    for number, text in enumerate(all_texts()):
        name = "%03d" % number
        write_file(arguments.folder, name + ".txt", text)
        try:
            write_file(arguments.folder, name + ".bytes", bytes_of_text(text))
        except Unreadable as fault:
            write_file(arguments.folder, name + ".fault", b"%s\n" % str(fault).encode("ascii"))


def command_report(arguments):
    if arguments.file is None:
        data = sys.stdin.buffer.read()
    else:
        with open(arguments.file, "rb") as source:
            data = source.read()
    sys.stdout.write(report_text(data))


def command_reports(arguments):
    os.makedirs(arguments.folder, exist_ok=True)
    for name, data in made_reports():
        write_file(arguments.folder, name + ".tables", data)
        write_file(arguments.folder, name + ".report", report_text(data).encode("ascii"))


MAKE_HELP = """writes FOLDER/tables and FOLDER/expected, FOLDER/claims and FOLDER/expected-claims,
and FOLDER/report and FOLDER/expected-report, the same bytes at every run

An entry of "tables" is 2 bytes, big-endian, with the table's length; 1 byte with the length in
words of the slice lent for answers; 1 byte with that of the slice lent for rounds; and the
table's bytes. Both slices are lent filled with the word %d (0x%X).

"expected" holds for each entry K, counted from 0, a line "table K", the program's text for it,
a line "stayed", a line "engine" with the engine's verdict or refusal, and a line "own cost" with
each task's rounds from document 01's start, or with none for a refused table; the text has those
from the default start. The engine is lent a slice of as many words as that for answers. (A program
under test prints "changed" instead of "stayed" if a word past n, or any word on a refusal, is no
longer the filler; and a further line "differs" if the engine's verdict or words are not the
analysis's where neither refuses, or if a refusal of the engine's changed a word.)

Then come three lines of the second analysis, which is lent two slices of the same lengths: "past
period" with its verdict or refusal, the last line of its text; "found" with each task's answer, %d
for an open one; and "tried" with the number of q tried for each. Both have nothing more for a
refused table. (A program under test prints a further line "differs" behind these if a word past n,
or any word on a refusal, is no longer the filler.)

An entry of "claims" is 2 bytes, big-endian, with the table's length; 1 byte with the number of
claims; the table's bytes; and each claim as 4 bytes, big-endian. "expected-claims" holds for each
entry K, counted from 0, a line "claims K" and a line with "pass", "fails" and the first place that
fails, or the refusal.

"report" is tables end to end with a broken end, as a term's report takes them; "expected-report" is
what is printed for it.
""" % (FILLER, FILLER, OPEN)

CLASSES_HELP = """writes one table for each class that is measured, FOLDER/NAME.table, and prints
for each a line with its name, two numbers of repeats whose difference is to be taken, and a
title.
"""

PAST_HELP = """writes one table for each class on which the second analysis is measured,
FOLDER/NAME.table, and prints for each a line as "classes" does.
"""

PLAYS_HELP = """writes one table for each class on which the engine is measured, FOLDER/NAME.table,
and prints for each a line with its name, the number of ticks that are played, and a title.
"""


TEXTS_HELP = """writes some 400 texts of tables, right ones and faulty ones, FOLDER/000.txt and so
on, the same bytes at every run; and beside each FOLDER/000.bytes with its table's bytes, or, where
it cannot be read, FOLDER/000.fault with the line that tells why.
"""


REPORTS_HELP = """writes some 300 files as a term's report takes them, whole ones and broken ones,
FOLDER/NAME.tables, the same bytes at every run; and beside each FOLDER/NAME.report with what is
printed for it.
"""


def parse_arguments():
    parser = argparse.ArgumentParser(
        description="A second opinion on task tables, written from the documents alone.")
    commands = parser.add_subparsers(dest="command", required=True, metavar="COMMAND")

    answer = commands.add_parser("answer", help="print the program's text for one table")
    answer.add_argument("--past-period", action="store_true", help="that of the second analysis")
    answer.add_argument("file", nargs="?", metavar="FILE", help="else standard input")
    answer.set_defaults(run=command_answer)

    to_bytes = commands.add_parser("to-bytes", help="turn a table's text form, on standard input, "
                                   "into its bytes")
    to_bytes.set_defaults(run=command_to_bytes)

    to_text = commands.add_parser("to-text", help="turn a table's bytes, on standard input, into "
                                  "its text form")
    to_text.set_defaults(run=command_to_text)

    line = commands.add_parser("text-line", help="print the line of a text, on standard input, "
                               "from which a byte of its table comes")
    line.add_argument("place", type=int, metavar="PLACE", help="the byte, counted from 0")
    line.set_defaults(run=command_text_line)

    raw = argparse.RawDescriptionHelpFormatter
    make = commands.add_parser("make", help="write tables and their expected answers",
                               description=MAKE_HELP, formatter_class=raw)
    make.add_argument("folder", metavar="FOLDER")
    make.set_defaults(run=command_make)

    check = commands.add_parser("check", help="compare this program with document 01 and itself")
    check.set_defaults(run=command_check)

    classes = commands.add_parser("classes", help="write the tables that are measured",
                                  description=CLASSES_HELP, formatter_class=raw)
    classes.add_argument("folder", metavar="FOLDER")
    classes.set_defaults(run=command_classes)

    past = commands.add_parser("past", help="write the tables on which the second analysis is "
                               "measured", description=PAST_HELP, formatter_class=raw)
    past.add_argument("folder", metavar="FOLDER")
    past.set_defaults(run=command_past)

    texts = commands.add_parser("texts", help="write texts of tables and their bytes",
                                description=TEXTS_HELP, formatter_class=raw)
    texts.add_argument("folder", metavar="FOLDER")
    texts.set_defaults(run=command_texts)

    report = commands.add_parser("report", help="print the report of many tables, end to end")
    report.add_argument("file", nargs="?", metavar="FILE", help="else standard input")
    report.set_defaults(run=command_report)

    reports = commands.add_parser("reports", help="write files of many tables and their reports",
                                  description=REPORTS_HELP, formatter_class=raw)
    reports.add_argument("folder", metavar="FOLDER")
    reports.set_defaults(run=command_reports)

    runs = commands.add_parser("runs", help="play every run of small tables with ties")
    runs.set_defaults(run=command_runs)

    plays = commands.add_parser("plays", help="write the tables on which the engine is measured",
                                description=PLAYS_HELP, formatter_class=raw)
    plays.add_argument("folder", metavar="FOLDER")
    plays.set_defaults(run=command_plays)

    stacks = commands.add_parser("stacks", help="write the tables on which the stack that a call "
                                 "needs is measured, FOLDER/NAME-VERSION.table")
    stacks.add_argument("folder", metavar="FOLDER")
    stacks.set_defaults(run=command_stacks)
    return parser.parse_args()


def main():
    arguments = parse_arguments()
    arguments.run(arguments)


if __name__ == "__main__":
    main()
