"""Tables with two faults, of which only the order of reading decides, and a table for each number; of both forms."""
from collections import namedtuple

from faults import BAD_TASKS, NEW, OLD, padded
from records import CG, CH, END, MARK, TASK, end, stored
from stored import COST_AT, COUNT_AT, LARGEST, PRIORITY_AT, TIME, Verdict

# What is told of the first and of the second, what both are about, the case in which both hold, and the one in which only
# the second does. Told are number and offset of a table, number and detail of a merge, and the number of any other call; of a
# miss query that is answered, the misses.
Pair = namedtuple("Pair", "first second what both later")
FORMS = (OLD, NEW)


def in_both_forms(*families):
    """The pairs that these functions make of each form."""
    return [pair for pairs in families for of in FORMS for pair in pairs(of)]


def other_than(of):
    return NEW if of is OLD else OLD


RUN_OUT = Verdict(2, None)  # at the table's length


def reading(first, second, what, both, later):
    """A pair of tables."""
    return Pair(first if first != RUN_OUT else Verdict(2, len(both)), second if second != RUN_OUT else Verdict(2, len(later)),
                what, both, later)


def fixed_parts(of):
    """Every two faults of the fixed part, and each with its cut."""
    faults = of.fixed_faults()
    pairs = [Pair(of.in_record(one), of.in_record(other), f"{one.what}, {other.what}",
                  of.second(**{**one.fields, **other.fields}), of.second(**other.fields))
             for i, one in enumerate(faults) for other in faults[i + 1:] if one.at != other.at]
    pairs += [reading(RUN_OUT, of.in_record(one), f"the fixed part is cut, {one.what}",
                      of.cut(of.distance_at(1) - 1, **one.fields), of.second(**one.fields))
              for one in faults if "count" not in one.fields]
    before = b"".join(of.sixty_four)
    pairs += [Pair(of.in_record(one, before), Verdict(9, len(before) + of.at.tasks), f"{one.what}, 65 tasks so far",
                   of.over_64(**{**one.fields, "id": 11} if one.what == "id used" else one.fields), of.over_64())
              for one in faults if one.number != 9]
    return pairs


# Lists with several faults, the first a 29: which distance has it, what the list does, its distances; then the number of the
# next fault and the distance that has it, none for the gap; and distances that have it alone.
SEVERAL = [
    (2, "falls, then falls again", (100, 50, 20), 29, 3, (10, 50, 20)),
    (2, "falls, then gets too large", (100, 50, TIME + 1), 29, 3, (100, 150, TIME + 1)),
    (1, "is too large, then falls", (TIME + 1, 50, 60), 29, 2, (100, 50, 60)),
    (1, "is too large, then larger", (TIME + 1, TIME + 2), 29, 2, (100, TIME + 2)),
    (2, "falls to 0 at its end", (100, 0), 30, 2, (0, 0)),
    (1, "is too large, then 0 at its end", (TIME + 1, 0), 30, 2, (0, 0)),
    (3, "rises from 0 and falls to 0", (0, 10, 0), 30, 3, (0, 0, 0)),
    (2, "is above the gap, then falls", (101, 50), 31, None, (101, 150)),
    (3, "is above the gap, rises, then falls", (101, 150, 120), 31, None, (101, 150, 150)),
    (3, "gets above the gap, then falls", (50, 201, 200), 31, None, (50, 201, 201)),
    (2, "is above the gap, then 0 at its end", (101, 0), 31, None, (101, 101)),
    (2, "is above the gap, then too large", (101, TIME + 1), 31, None, (101, TIME)),
]


def several(of):
    """Those that can be met in this form: 31 is of a gap."""
    return [one for one in SEVERAL if one[3] != 31 or not of.has_largest]


# Largest lists of three with several faults, beside the distances 50, 150 and 250: which has the first one, what the list does,
# and its distances; then which has the next one, and distances that have it alone.
SEVERAL_LARGEST = [
    (2, "falls, then falls again", (400, 300, 260), 3, (200, 300, 260)),
    (2, "falls, then gets too large", (400, 300, LARGEST + 1), 3, (200, 300, LARGEST + 1)),
    (2, "falls, then is below the smallest", (400, 300, 249), 3, (200, 300, 249)),
    (1, "is too large, then falls", (LARGEST + 1, 300, 400), 2, (400, 300, 400)),
    (1, "is too large, then larger", (LARGEST + 1, LARGEST + 2, LARGEST + 3), 2, (100, LARGEST + 2, LARGEST + 3)),
    (1, "is too large, then below the smallest", (LARGEST + 1, 149, 400), 2, (100, 149, 400)),
    (1, "is below the smallest, then falls", (49, 300, 260), 3, (50, 300, 260)),
    (1, "is below the smallest, then too large", (49, 300, LARGEST + 1), 3, (50, 300, LARGEST + 1)),
    (1, "is below the smallest, then again", (49, 149, 300), 2, (50, 149, 300)),
]


def list_pairs(of, fault, list_end, task_at, mended):
    """A fault of a list, and what stands before and after it: the faults of the fixed part, a list that is cut just before its
    end, and the first task. A record of two distances with what is mended has no fault."""
    what, fields, there = fault.what, fault.fields, of.in_record(fault)
    two, priority_0 = {"distances": (100, 200), **mended}, {"tasks": [(0, 1)]}
    good, bad = of.cut(task_at, **two), of.cut(task_at, **fields)
    pairs = [
        reading(RUN_OUT, there, f"the list is cut, {what}", of.cut(list_end - 1, **fields), of.second(**fields)),
        reading(there, RUN_OUT, f"{what}, no byte of a task", bad, good),
        reading(there, Verdict(3, len(good)), f"{what}, another mark than TK", bad + b"CH", good + b"CH"),
        reading(there, of.in_second(10, task_at + PRIORITY_AT), f"{what}, priority 0", of.second(**fields, **priority_0),
                of.second(**two, **priority_0)),
    ]
    return pairs + [Pair(of.in_record(one), there, f"{one.what}, {what}", of.second(**{**fields, **one.fields}),
                         of.second(**fields))
                    for one in of.fixed_faults() if one.number != 28 and (one.number, fault.number) != (7, 31)]


def lists(of):
    pairs = []
    for fault in of.list_faults():
        pairs += list_pairs(of, fault, of.distance_at(3), of.tasks_at(2), {})
        if of.has_largest:
            whole = of.distance_at(3)
            pairs.append(reading(of.in_record(fault), RUN_OUT, f"{fault.what}, no byte of a largest distance",
                                 of.cut(whole, **fault.fields), of.cut(whole, distances=(100, 200))))
    pairs += [Pair(of.in_second(29, of.distance_at(turn)), of.in_second(number, of.distance_at(later) if later else of.at.gap),
                   f"the list {what}", of.second(distances=both), of.second(distances=mended))
              for turn, what, both, number, later, mended in several(of)]
    return pairs + too_long_lists(of) + counted_lists(of)


def largest_lists(of):
    """The flag and the largest distances: after the smallest ones, the flag before the bytes of the largest."""
    whole, pairs = of.distance_at(3), []
    for fault in of.flag_faults():
        pairs += list_pairs(of, fault, whole, whole, {"largest": ()})
        pairs.append(reading(of.in_record(fault), RUN_OUT, f"{fault.what}, no byte of a largest distance",
                             of.cut(whole, **fault.fields), of.cut(whole, distances=(100, 200))))
    for fault in of.largest_faults():
        pairs += list_pairs(of, fault, of.tasks_at(2), of.tasks_at(2), {})
        pairs.append(reading(RUN_OUT, of.in_record(fault), f"the smallest distances are cut, {fault.what}",
                             of.cut(whole - 1, **fault.fields), of.second(**fault.fields)))
    pairs += [Pair(of.in_record(one), of.in_record(other), f"{one.what}, {other.what}",
                   of.second(**{**other.fields, **one.fields}), of.second(**other.fields))
              for one in of.list_faults() for other in of.flag_faults() + of.largest_faults() if "below" not in other.what]
    return pairs + several_largest(of)


def several_largest(of):
    """A distance that falls and a largest one below the smallest; a flag and largest distances; two largest ones."""
    below = of.in_second(33, of.largest_at(1))
    falls = of.in_second(29, of.distance_at(2))
    three = {"distances": (50, 150, 250)}
    pairs = [
        Pair(falls, below, "a distance falls, a largest one below the smallest",
             of.second(distances=(101, 50), largest=(100, 200)), of.second(distances=(101, 150), largest=(100, 200))),
        *(Pair(of.in_second(33, of.at.flag), of.in_second(33, of.largest_at(2)), f"flag {flag}, a largest distance falls",
               of.second(distances=(50, 100), largest=(200, 150), flag=flag), of.second(distances=(50, 100), largest=(200, 150)))
          for flag in (2, 255)),
    ]
    return pairs + [Pair(of.in_second(33, of.largest_at(turn, 3)), of.in_second(33, of.largest_at(later, 3)),
                         f"the largest list {what}", of.second(**three, largest=both), of.second(**three, largest=mended))
                    for turn, what, both, later, mended in SEVERAL_LARGEST]


def too_long_lists(of):
    """A list length of 9, and a fault in a list of so many."""
    length = of.in_second(28, of.at.listed)
    found = [(of.in_second(29, of.distance_at(2)), "a distance falls", {"distances": [100, 50] + [100] * 7}),
             (of.in_second(30, of.distance_at(8)), "the last distance is 0", {"distances": [0] * 9})]
    if of.has_largest:
        found.append((of.in_second(33, of.largest_at(2, 8)), "a largest distance falls",
                      {"distances": [1] * 9, "largest": [9, 8] + [9] * 7}))
    else:
        found.append((of.in_second(31, of.at.gap), "a distance above what the gap allows", {"distances": [101] * 9}))
    return [reading(length, there, f"list length 9, {what}", of.second(**fields),
                    of.second(**{name: values[:8] for name, values in fields.items()}))
            for there, what, fields in found]


def counted_lists(of):
    """A list length or a task count that is wrong, and the list."""
    length, count = of.in_second(28, of.at.listed), of.in_second(9, of.at.tasks)
    before, cut_list = b"".join(of.sixty_four), of.first_task - 1
    so_far = Verdict(9, len(before) + of.at.tasks)
    falls = of.in_second(29, of.distance_at(2))
    return [
        reading(length, RUN_OUT, "list length 9, the list is cut", of.cut(of.first_task, listed=9),
                of.cut(of.first_task, listed=8)),
        reading(length, RUN_OUT, "list length 0, no byte of a task", of.cut(of.distance_at(1), listed=0),
                of.cut(of.distance_at(1), listed=1)),
        reading(count, RUN_OUT, "task count 0, the list is cut", of.cut(cut_list, count=0), of.cut(cut_list)),
        reading(count, RUN_OUT, "task count 17, the list is cut", of.cut(cut_list, count=17), of.cut(cut_list)),
        reading(so_far, RUN_OUT, "65 tasks so far, the list is cut", before + of.record()[:cut_list], of.cut(cut_list)),
        reading(so_far, falls, "65 tasks so far, a distance falls", of.over_64(distances=(100, 50)),
                of.second(distances=(100, 50))),
        reading(so_far, of.in_second(10, of.first_task + PRIORITY_AT), "65 tasks so far, priority 0",
                of.over_64(tasks=[(0, 10)]), of.second(tasks=[(0, 10)])),
    ]


def task_marks(of):
    """A task's mark, and the rest of it."""
    first, second = of.first_task, of.second_task
    task = len(of.good) + first
    mark, priority, cost = Verdict(3, task), Verdict(10, task + PRIORITY_AT), Verdict(10, task + COST_AT)
    return [
        reading(RUN_OUT, mark, "one byte of a task's mark, not T", of.marked(b"X?", 0, first + 1),
                of.marked(b"X?", 0, first + 2)),
        reading(RUN_OUT, mark, "T, and then nothing", of.marked(b"TX", 0, first + 1), of.marked(b"TX", 0, first + 2)),
        reading(mark, RUN_OUT, "another mark than TK, and nothing after it", of.marked(b"EN", 0, first + 2), of.cut(first + 2)),
        reading(mark, RUN_OUT, "another mark than TK, and a byte too few", of.marked(b"CH", 0, second - 1), of.cut(second - 1)),
        reading(mark, priority, "another mark than TK, priority 0", of.marked(b"XX", tasks=[(0, 10)]),
                of.second(tasks=[(0, 10)])),
        reading(mark, cost, "another mark than TK, cost 0", of.marked(b"CG", tasks=[(5, 0)]), of.second(tasks=[(5, 0)])),
        reading(mark, Verdict(3, task + TASK.size), "two other marks than TK", of.marked(b"XX")[:task + TASK.size] + b"XX",
                of.cut(second) + b"XX"),
        reading(RUN_OUT, priority, "priority 0, no cost", of.cut(first + 4, tasks=[(0, 10)]), of.second(tasks=[(0, 10)])),
        reading(RUN_OUT, cost, "cost 0, its last byte missing", of.cut(second - 1, tasks=[(5, 0)]), of.second(tasks=[(5, 0)])),
        reading(mark, Verdict(10, task + TASK.size + PRIORITY_AT), "task 1 has another mark, task 2 priority 0",
                of.marked(b"XX", tasks=[(5, 10), (0, 10)]), of.second(tasks=[(5, 10), (0, 10)])),
        reading(priority, cost, "priority 0, cost 0", of.second(tasks=[(0, 0)]), of.second(tasks=[(5, 0)])),
        reading(priority, cost, "priority 0, cost too large", of.second(tasks=[(0, 1_000_001)]),
                of.second(tasks=[(5, 1_000_001)])),
    ]


def tasks(of):
    pairs, good = task_marks(of), of.good
    task, first = len(good) + of.first_task, len(good) - TASK.size
    for what, at, bad in BAD_TASKS:
        two, there, in_last = [bad, (3, 10)], Verdict(10, task + at), Verdict(10, first + at)
        last = good[:first] + of.record(tasks=[bad])[-TASK.size:]
        pairs += [
            reading(there, RUN_OUT, f"task 1 has {what}, task 2 is missing", of.cut(of.second_task, tasks=two),
                    of.cut(of.second_task)),
            reading(there, RUN_OUT, f"task 1 has {what}, task 2 is cut", of.cut(of.second_task + 4, tasks=two),
                    of.cut(of.second_task + 4)),
            reading(there, Verdict(3, task + TASK.size), f"task 1 has {what}, task 2 another mark",
                    of.marked(b"XX", 1, tasks=two), of.marked(b"XX", 1)),
            reading(in_last, RUN_OUT, f"the last task has {what}, nothing follows", last, good),
            reading(in_last, Verdict(3, len(good)), f"the last task has {what}, an unknown mark", last + b"XX", good + b"XX"),
            reading(in_last, of.in_second(11, COUNT_AT), f"the last task has {what}, a wrong end count", last + end(2),
                    good + end(2)),
            reading(Verdict(10, of.first_task + at), of.in_second(4, of.at.id), f"task 1 has {what}, id 0 in the next chain",
                    stored(of.record(tasks=two), of.record(id=0)), stored(of.record(), of.record(id=0))),
        ]
        pairs += [reading(there, Verdict(10, task + TASK.size + of_other), f"task 1 has {what}, task 2 has {other}",
                          of.second(tasks=[bad, bad_too]), of.second(tasks=[(5, 10), bad_too]))
                  for other, of_other, bad_too in BAD_TASKS]
    return pairs


def marks(of):
    """A record's mark, and what follows it."""
    good, own = of.good, of.form.mark
    first, mark = Verdict(3, 0), Verdict(3, len(good))
    return [
        reading(RUN_OUT, first, "one byte, which begins no mark", b"X", b"XX"),
        reading(RUN_OUT, mark, "one byte after a chain, which begins no mark", good + b"X", good + b"XX"),
        reading(RUN_OUT, mark, "C, and then nothing", good + b"C", good + b"CX"),
        reading(RUN_OUT, mark, "E, and then nothing", good + b"E", good + b"EX"),
        reading(first, RUN_OUT, "an unknown mark, and nothing after it", b"XX", own),
        reading(mark, RUN_OUT, "an unknown mark after a chain, and nothing after it", good + b"XX", good + own),
        reading(mark, RUN_OUT, "TK where a record begins, and nothing after it", good + b"TK", good + own),
        reading(mark, of.in_second(4, of.at.id), "an unknown mark, id 0", good + b"XX" + of.record(id=0)[MARK:] + end(2),
                of.second(id=0)),
        reading(first, Verdict(11, COUNT_AT), "an unknown mark, no chain", b"XX\0\0", b"EN\0\0"),
        reading(first, mark, "an unknown mark, and one after a chain", b"XX" + good[MARK:] + b"XX", good + b"XX"),
    ]


def early(of):
    """Faults that are looked at early in a chain."""
    return [one for one in of.fixed_faults() if one.what in ("id 0", "kind 2", "deadline 0", "gap too large")]


def list_and_flag_faults(of):
    return of.list_faults() + of.flag_faults() + of.largest_faults()


def mixed_forms(of):
    """A record with the other form's mark after a good one: before what follows that mark, and after what stands before it."""
    good, mark, other = of.good, Verdict(3, len(of.good)), other_than(of).form.mark
    last_bad = good[:-TASK.size] + of.record(tasks=[(0, 10)])[-TASK.size:]
    marked, third = other + of.record()[MARK:], len(of.two) - END.size
    pairs = [
        reading(mark, RUN_OUT, "the other form's mark, and nothing after it", good + other, good + of.form.mark),
        reading(mark, RUN_OUT, "the other form, its fixed part cut", good + marked[:12], of.cut(12)),
        reading(mark, Verdict(11, third + COUNT_AT), "the other form, a wrong end count", good + marked + end(3),
                good + of.record() + end(3)),
        reading(Verdict(10, len(good) - TASK.size + PRIORITY_AT), mark, "priority 0 in the last task, the other form",
                stored(last_bad, marked), stored(good, marked)),
        reading(of.in_second(4, of.at.id), Verdict(3, third), "id 0, the other form in the next chain",
                stored(good, of.record(id=0), marked), stored(good, of.record(), marked)),
        reading(mark, Verdict(4, third + of.at.id), "the other form, id 0 in the next chain",
                stored(good, marked, of.record(id=0)), stored(good, of.record(), of.record(id=0))),
        reading(of.in_second(11, COUNT_AT), mark, "a wrong end count, the other form after the end", good + end(2) + marked,
                good + marked),
    ]
    return pairs + [reading(mark, of.in_record(one), f"the other form, {one.what}",
                            stored(good, other + of.record(**one.fields)[MARK:]), of.second(**one.fields))
                    for one in of.fixed_faults() + list_and_flag_faults(of) + of.task_faults()]


def seventeenth(of):
    """A 17th chain, its mark and its fixed part, and the end after it."""
    sixteen, fifteen, own = of.sixteen, of.fifteen, of.form.mark
    other, cut_fixed = other_than(of), of.record(id=17)[:of.distance_at(1) - 1]
    chain_17, no_chain, in_16 = Verdict(11, len(sixteen)), Verdict(3, len(sixteen)), len(fifteen)
    return [
        reading(no_chain, chain_17, "16 chains, then an unknown mark", sixteen + b"XX", sixteen + own),
        reading(no_chain, chain_17, "16 chains, then TK", sixteen + b"TK" + of.record()[MARK:] + end(17),
                sixteen + of.seventeenth),
        reading(no_chain, chain_17, "16 chains, then the other form's mark", sixteen + other.form.mark, sixteen + own),
        reading(no_chain, chain_17, "16 chains, then one of the other form", sixteen + other.seventeenth,
                sixteen + of.seventeenth),
        reading(RUN_OUT, chain_17, "16 chains, then nothing", sixteen, sixteen + own),
        reading(RUN_OUT, chain_17, "16 chains, then C", sixteen + b"C", sixteen + own),
        reading(chain_17, RUN_OUT, "a 17th chain, its mark alone", sixteen + own, fifteen + own),
        reading(chain_17, RUN_OUT, "a 17th chain, its fixed part cut", sixteen + cut_fixed, fifteen + cut_fixed),
        reading(chain_17, RUN_OUT, "a 17th chain, cut in its tasks", sixteen + of.record(id=17)[:-1],
                fifteen + of.record(id=17)[:-1]),
        reading(chain_17, Verdict(4, in_16 + of.at.id), "a 17th chain, id 0", sixteen + of.record(id=0) + end(17),
                fifteen + of.record(id=0) + end(16)),
        reading(chain_17, Verdict(5, in_16 + of.at.kind), "a 17th chain, kind 2", sixteen + of.record(id=17, kind=2) + end(17),
                fifteen + of.record(id=17, kind=2) + end(16)),
        reading(chain_17, Verdict(11, len(sixteen) + COUNT_AT), "a 17th chain, a wrong end count",
                sixteen + of.record(id=17) + end(16), sixteen + end(17)),
        reading(chain_17, Verdict(11, len(sixteen) + END.size), "a 17th chain, bytes after the end",
                sixteen + of.seventeenth + b"X", sixteen + end(16) + b"X"),
        reading(Verdict(10, in_16 + of.first_task + PRIORITY_AT), chain_17, "a priority 0 in the 16th chain, a 17th",
                fifteen + of.record(id=16, tasks=[(0, 1)]) + of.seventeenth, sixteen + of.seventeenth),
    ]


def records(of):
    """A fault of one chain, and one of the next that is looked at as early in a chain, or earlier."""
    before = of.good + of.record()
    return [Pair(of.in_record(one), of.in_record(other, before), f"{one.what} in a chain, {other.what} in the next",
                 stored(of.good, of.record(**one.fields), of.record(**{"id": 3, **other.fields})),
                 stored(of.good, of.record(), of.record(**{"id": 3, **other.fields})))
            for one in of.fixed_faults() + list_and_flag_faults(of) for other in early(of) if one.at >= other.at]


def far_apart(of):
    """Each fault before a task's, and before one of the end record."""
    priority, two = of.in_second(10, of.first_task + PRIORITY_AT), of.two[:-END.size]
    pairs = []
    for one in of.fixed_faults() + list_and_flag_faults(of):
        bad = of.second(**one.fields)[:-END.size]
        pairs += [
            Pair(of.in_record(one), priority, f"{one.what}, priority 0 after it",
                 of.second(**{**one.fields, "tasks": [(0, 1), (5, 1)]}), of.second(tasks=[(0, 1), (5, 1)])),
            Pair(of.in_record(one), Verdict(11, len(two) + COUNT_AT), f"{one.what}, a wrong end count", bad + end(3),
                 two + end(3)),
            Pair(of.in_record(one), Verdict(11, len(two) + END.size), f"{one.what}, a byte after the end", bad + end(2) + b"X",
                 two + end(2) + b"X"),
        ]
    return pairs


def ends(of):
    good, whole = of.good, stored(of.good)
    count, after = of.in_second(11, COUNT_AT), of.in_second(11, END.size)
    no_chain = Verdict(11, COUNT_AT)
    return [
        reading(RUN_OUT, no_chain, "EN cut, no chain", b"EN", b"EN\0\0"),
        reading(RUN_OUT, no_chain, "EN and one byte, no chain", b"EN\0", b"EN\0\0"),
        reading(RUN_OUT, count, "EN cut, a wrong count", good + b"EN", good + b"EN\2\0"),
        reading(RUN_OUT, count, "EN and one byte, a wrong count", good + b"EN\2", good + b"EN\2\0"),
        reading(count, after, "a wrong count, bytes after the end", good + end(2) + b"X", whole + b"X"),
        reading(count, after, "a count of 0, bytes after the end", good + end(0) + b"X", whole + b"X"),
        reading(no_chain, after, "no chain, bytes after the end", end(0) + b"X", whole + b"X"),
        reading(no_chain, after, "no chain, a count of 1, bytes after the end", end(1) + b"X", whole + b"X"),
        reading(after, RUN_OUT, "one byte after the end", whole + b"C", good + b"C"),
        reading(after, Verdict(3, len(good)), "an unknown mark after the end", whole + b"XX", good + b"XX"),
        reading(after, of.in_second(4, of.at.id), "a chain after the end, id 0", whole + of.record(id=0) + end(2),
                of.second(id=0)),
        reading(count, RUN_OUT, "a wrong count, and a chain cut after the end", good + end(2) + of.record()[:5],
                good + of.record()[:5]),
    ]


def lengths(of):
    """A length above the limit of the first mark, and what the bytes there have."""
    whole, other, longest = stored(of.good), other_than(of), of.form.longest
    faults = [(Verdict(11, len(whole)), "bytes after the end", whole),
              (Verdict(3, len(of.good)), "the other form", stored(of.good, other.record()))]
    faults += [(of.in_record(fault), fault.what, of.second(**fault.fields))
               for fault in of.fixed_faults() + list_and_flag_faults(of) + of.task_faults()]
    return [reading(Verdict(1, 0), there, f"{longest + 1} bytes, {what}", padded(made, longest + 1), padded(made, longest))
            for there, what, made in faults]


def no_form():
    """No byte at all; and bytes that begin with no chain record, whose limit is that of CH."""
    length = Verdict(1, 0)
    pairs = [reading(length, RUN_OUT, "no byte", b"", b"C")]
    for there, what, made in ((Verdict(3, 0), "an unknown mark", b"XX"), (Verdict(3, 0), "a task", b"TK"),
                              (Verdict(3, 0), "a mark turned round", b"GC"), (Verdict(11, COUNT_AT), "no chain", b"EN\0\0")):
        pairs += [reading(length, there, f"{above} bytes, {what}", padded(made, above), padded(made, CH.longest))
                  for above in (CH.longest + 1, 1500, CG.longest)]
    return pairs


READING = no_form() + in_both_forms(lengths, marks, mixed_forms, seventeenth, fixed_parts, lists, tasks, records, far_apart,
                                    ends)
READING += largest_lists(NEW)


def refused(of):
    """A table for each number that there is in this form, with nothing else wrong."""
    if of.has_largest:
        own = {1: padded(stored(of.good), of.form.longest + 1), 3: stored(of.good, other_than(of).record()), 11: of.good + end(2),
               33: of.second(flag=2, largest=())}
    else:
        own = {1: b"", 3: b"XX", 7: of.second(gap=TIME + 1), 11: b"EN\0\0", 31: of.second(distances=(101, 150))}
    return {
        **own, 2: of.good, 4: of.second(id=0), 5: of.second(kind=2), 6: of.second(deadline=0), 9: of.second(count=0),
        10: of.second(tasks=[(0, 1)]), 28: of.second(listed=0), 29: of.second(distances=(100, 50)),
        30: of.second(distances=(0, 0)),
    }


# Numbers and tables, of both forms.
REFUSED = [one for of in FORMS for one in sorted(refused(of).items())]
