"""Stored tables for the cases: a reader written from document 01 and document 02, requests 1 and 7, on records as records.py
lays them out."""
from collections import namedtuple
from pathlib import Path

from records import CG, CH, DISTANCE, END, END_MARK, FORMS, MARK, TASK, TASK_MARK, fixed_part, form_at, record_length

TOP = Path(__file__).resolve().parent.parent
TIME, LARGEST = 10_000_000, 80_000_000

# Where the fields of a task and of the end record begin after their marks.
PRIORITY_AT, COST_AT, COUNT_AT = 2, 4, 2

# What is said of a table: its number and the offset of the field at fault.
Verdict = namedtuple("Verdict", "number at")
ACCEPTED = Verdict(0, 0)
NUMBERS = {*range(1, 8), *range(9, 12), *range(28, 32), 33}  # those that a table is refused with


# ---- Each of these gives the first fault of a part, or None ----

def fixed_fault(fixed, at, ids, total):
    """Of the fixed part that begins here, after these ids and so many tasks."""
    there = FORMS[fixed.mark].at
    if fixed.id == 0 or fixed.id in ids:
        return Verdict(4, at + there.id)
    if fixed.kind > 1:
        return Verdict(5, at + there.kind)
    if fixed.overload > 1:
        return Verdict(5, at + there.overload)
    if not 1 <= fixed.deadline <= TIME:
        return Verdict(6, at + there.deadline)
    if fixed.gap > TIME:
        return Verdict(7, at + there.gap)
    if not 1 <= fixed.listed <= 8:
        return Verdict(28, at + there.listed)
    return None if 1 <= fixed.tasks <= 16 and total + fixed.tasks <= 64 else Verdict(9, at + there.tasks)


def places(fixed, at, turn):
    """Where the distances of a record's first list begin, or of its second."""
    start = at + FORMS[fixed.mark].layout.size + DISTANCE.size * fixed.listed * turn
    return range(start, start + DISTANCE.size * fixed.listed, DISTANCE.size)


def distances_at(s, there):
    """The distances that begin there, None where they are not whole."""
    return [DISTANCE.unpack_from(s, place)[0] for place in there] if there[-1] + DISTANCE.size <= len(s) else None


def list_fault(s, at, fixed):
    """Of the smallest distances of the record that begins here, with its gap."""
    there = places(fixed, at, 0)
    distances = distances_at(s, there)
    if distances is None:
        return Verdict(2, len(s))
    for place, distance, before in zip(there, distances, [0] + distances):
        if distance < before or distance > TIME:
            return Verdict(29, place)
    if distances[-1] == 0:
        return Verdict(30, there[-1])
    below = any(fixed.gap * steps < distance for steps, distance in enumerate(distances, 1))
    return Verdict(31, at + CH.at.gap) if fixed.gap and below else None


def largest_fault(s, at, fixed):
    """Of the flag of the record that begins here, and of its largest distances, where the smallest are there."""
    if fixed.flag > 1:
        return Verdict(33, at + CG.at.flag)
    if fixed.flag == 0:
        return None
    there = places(fixed, at, 1)
    largest = distances_at(s, there)
    if largest is None:
        return Verdict(2, len(s))
    for place, distance, before, smallest in zip(there, largest, [0] + largest, distances_at(s, places(fixed, at, 0))):
        if distance < before or distance > LARGEST or distance < smallest:
            return Verdict(33, place)
    return None


def task_fault(s, at):
    """Of the task that begins here."""
    if len(s) < at + MARK:
        return Verdict(2, len(s))
    if not s.startswith(TASK_MARK, at):
        return Verdict(3, at)
    if len(s) < at + TASK.size:
        return Verdict(2, len(s))
    _, priority, cost = TASK.unpack_from(s, at)
    if priority == 0:
        return Verdict(10, at + PRIORITY_AT)
    return None if 1 <= cost <= 1_000_000 else Verdict(10, at + COST_AT)


def chain_fault(s, at, ids, total):
    """Of the chain record that begins here with its mark, after these ids and so many tasks."""
    if len(ids) == 16:
        return Verdict(11, at)
    if len(s) < at + form_at(s, at).layout.size:
        return Verdict(2, len(s))
    fixed = fixed_part(s, at)
    fault = fixed_fault(fixed, at, ids, total) or list_fault(s, at, fixed) or largest_fault(s, at, fixed)
    task = at + record_length(fixed) - TASK.size * fixed.tasks
    for k in range(fixed.tasks):
        fault = fault or task_fault(s, task + TASK.size * k)
    return fault


def end_fault(s, at, chains):
    """Of the end record that begins here, after so many chains."""
    if len(s) < at + END.size:
        return Verdict(2, len(s))
    _, count = END.unpack_from(s, at)
    if chains == 0 or count != chains:
        return Verdict(11, at + COUNT_AT)
    return Verdict(11, at + END.size) if len(s) > at + END.size else None


# ---- Tables ----

def longest(s):
    """The greatest length of a table with this first mark."""
    return (form_at(s, 0) or CH).longest


def verdict(s):
    """The first fault of document 01, 'Stored table', at its offset, or ACCEPTED."""
    return verdict_of_records(s) if 1 <= len(s) <= longest(s) else Verdict(1, 0)


def verdict_of_records(s):
    """The same with the check of the length left out."""
    at, ids, total = 0, [], 0
    while True:
        if len(s) < at + MARK:
            return Verdict(2, len(s))
        if s.startswith(END_MARK, at):
            return end_fault(s, at, len(ids)) or ACCEPTED
        if form_at(s, at) is None or form_at(s, at) != form_at(s, 0):
            return Verdict(3, at)
        fault = chain_fault(s, at, ids, total)
        if fault:
            return fault
        fixed = fixed_part(s, at)
        at += record_length(fixed)
        ids.append(fixed.id)
        total += fixed.tasks


def records(s):
    """The chain records of an accepted table: where each begins and ends."""
    at = 0
    while form_at(s, at):
        after = at + record_length(fixed_part(s, at))
        yield at, after
        at = after


def is_whole(new, ident):
    """Whether a new record is as long as its counts and its flag say, by its own mark, and bears this id."""
    form = form_at(new, 0)
    if form is None or len(new) < form.layout.size:
        return False
    fixed = fixed_part(new, 0)
    return len(new) == record_length(fixed) and fixed.id == ident


def save_verdict(buffer, used, old, new):
    """0, or the number of document 01, 'Saving one record', without 27."""
    if used > len(buffer):
        return 1
    table = buffer[:used]
    if verdict(table) != ACCEPTED:
        return verdict(table).number
    places = [(at, after) for at, after in records(table) if table[at:after] == old]
    if not places:
        return 22
    if not is_whole(new, fixed_part(old, 0).id):
        return 23
    at, after = places[0]
    result = table[:at] + new + table[after:]
    return 24 if len(result) > len(buffer) else verdict(result).number
