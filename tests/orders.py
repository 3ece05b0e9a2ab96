"""Cases that only an order decides.

For every two neighbours in the documents' orders of faults and refusals that can both hold at once, and for some further
apart, a case with both: the first decides. Beside it stands the same case with the first mended, where the second decides;
so both do hold. Swapping the two in an order changes the answer of the first case. Of a table number and offset are told, so
that two faults with one number are told apart by their places; of a merge its number and detail (merged.py); of a write, of a
conversion and of a salvage its number (written.py, converted.py, salvaged.py). Tables, saves, merges, writes and salvages have
their pairs in both forms.

Not told apart, since number and place are the same: the two parts of 4, of 6 and of 9, no chain and a wrong end count, the
parts of 23, and a largest distance that falls and one that is below the smallest.
Never both: a mark that is not whole and its value (2, 3; here one byte that begins no mark), 2 and a length above the limit (no
chain record accepted so far ends less than the end record before it), 30 and 31 where no distance falls (all of them are 0), 7
and 31 where no distance is too large, 7 or 31 and 33 (they are of two forms), 16 and 17 of one window, no late activation and a
miss without overload (windows without overload are never longer), 4, 2 or 11 in the result of a save (the new record is whole
and has the id of the old one), 24 and a new record shorter than a fixed part (the result is shorter than the table), any other
number than 1, 3, 9 and 11 in the result of a merge (its records are those of accepted tables, each id once), 1 or 2 in the bytes
of rows (these are whole, and their length is not judged).
In a merge 1 never stands alone: above the limit there are over 16 chains, over 64 tasks or two forms.

Run as a program it lists the pairs.
"""
from collections import namedtuple

from converted import convert
from faults import GOOD_FIELDS, NEW, OLD, Fault, padded
from merged import merge
from reading_orders import READING, REFUSED, Pair, early, in_both_forms, list_and_flag_faults, other_than, refused, several
from records import CG, CH, END, Form, bursty, chain, stored
from salvaged import LONGEST_INPUT, STRETCH, Salvage, salvage
from stored import ACCEPTED, COUNT_AT, NUMBERS, TIME, Verdict, save_verdict, verdict
from written import form_number, write

Answer = namedtuple("Answer", "misses")
MUCH_ROOM = 3000


# ---- Queries: (table, id), (table, id, k), (table, chain, against, number) ----

def crowd(deadline, segments, distance):
    """Chain 1 of cost 10, floor 1 and tail 5 against an overload chain of so many active segments, of cost 1 each: its
    window is 10 + segments long where that is up to the distance, 10 without overload."""
    return stored(chain(1, 0, 0, deadline, 100, [100], [(1, 5), (5, 5)]),
                  chain(2, 0, 1, 1000, 0, [distance], [(2, 1)] * segments))


def alone(deadline, gap, overload=0):
    """Chain 1 of cost 10, and no other: its window is 10 long."""
    return stored(chain(1, 0, overload, deadline, gap, [100], [(5, 10)]))


def lowly(deadline, distance):
    """Chain 1 of cost 10 above an overload chain that has no segment against it: its window is 10 long."""
    return stored(chain(1, 0, 0, deadline, 100, [100], [(5, 10)]), chain(2, 0, 1, 1000, 0, [distance], [(1, 1)]))


def bursts(deadline):
    """Three activations at once, 10 each, against an overload chain of 21: B(1) = 31, B(2) = 41 and B(3) = 51; 10, 20 and 30
    without overload."""
    return stored(chain(1, 0, 0, deadline, 33, [0, 0, 99], [(5, 10)]), chain(2, 0, 1, 1000, 0, [TIME], [(9, 21)]))


def apart(deadline, distance=TIME):
    """Chain 1 of cost 10 against an overload chain of two segments, 6 each, that are in no combination together: the window is
    22 long, 16 with one of them."""
    return stored(chain(1, 0, 0, deadline, 100, [100], [(5, 10)]),
                  chain(2, 1, 1, 1000, 0, [distance], [(1, 1), (9, 6), (1, 1), (9, 6), (1, 1)]))


def edge(last, gap, deadline=TIME):
    """Nine tasks of 1,000,000 and this one against a deferred synchronous chain whose dearest segment costs 1: the window
    is 9,000,001 + last long."""
    return stored(chain(1, 0, 0, deadline, gap, [TIME], [(5, 1_000_000)] * 9 + [(5, last)]),
                  chain(2, 0, 0, 1, 0, [TIME], [(9, 1), (1, 1)]))


def edge_of_second(cost):
    """Two activations a tick apart, 4,999,999 each, against a deferred one: B(1) = 4,999,999 + cost, B(2) = 9,999,998 + cost."""
    return stored(chain(1, 0, 0, TIME, TIME, [1, TIME], [(5, 1_000_000)] * 4 + [(5, 999_999)]),
                  chain(2, 0, 0, 1, 0, [TIME], [(9, cost), (1, 1)]))


def backlog(cost, gap, deadline, overload=0, distances=(11,)):
    """B(q) = 10 q + cost and δ(q + 1) = 11 q, so the windows close at q = cost."""
    return stored(chain(1, 0, overload, deadline, gap, distances, [(5, 10)]),
                  chain(2, 0, 1, 100, 0, [9_000_000], [(6, cost)]))


def open_at_last(once):
    """B(q) = 9,765 q + once is never closed, and B(1,024) = 9,999,360 + once."""
    return stored(chain(1, 0, 0, TIME, TIME, [9_765], [(5, 9_765)]),
                  chain(2, 0, 0, 1, 0, [TIME], [(9, once), (1, 1)]))


def seven(cost, deadline, distance, own):
    """Chain 1 of this cost of its own against seven overload chains of one segment each."""
    return stored(chain(1, 0, 0, deadline, distance, [distance], own),
                  *(chain(i + 2, 0, 1, 1000, 0, [TIME], cost) for i in range(7)))


def stretched(deadline, largest):
    """Chain 1 of cost 10 with these largest distances against an overload chain of one active segment, of cost 1, each 1,000
    ticks: its window is 11 long, 10 without overload."""
    return stored(bursty(1, 0, 0, deadline, largest, [100], [(5, 10)]), bursty(2, 0, 1, 1000, (), [1000], [(9, 1)]))


# Chain 1: overload, gap 0. Chain 2: gap 0. Chain 3: overload, with a gap.
PLAIN = stored(chain(1, 0, 1, 40, 0, [100], [(5, 10), (3, 10)]), chain(2, 0, 0, 100, 0, [50], [(9, 5)]),
               chain(3, 0, 1, 500, 1000, [1000], [(8, 6)]))
UNKNOWN = 9


def in_new_form(table):
    return convert(table, CG, MUCH_ROOM).result


def also_in_new_form(pairs):
    """These pairs of queries, and after them those of accepted tables with both in the form CG: each is answered as before."""
    return pairs + [Pair(first, second, f"{what}, in the form CG", (in_new_form(both[0]), *both[1:]),
                         (in_new_form(later[0]), *later[1:]))
                    for first, second, what, both, later in pairs if verdict(both[0]) == verdict(later[0]) == ACCEPTED]


LATENCY = [Pair(a, 12, "the table, an unknown id", (made, UNKNOWN), (PLAIN, UNKNOWN)) for a, made in REFUSED] + also_in_new_form([
    Pair(16, 17, "window 1,024 is longer than the horizon", (open_at_last(641), 1), (open_at_last(640), 1)),
])

MISSES = [Pair(a, 12, "the table, an unknown id", (made, UNKNOWN, 10), (PLAIN, UNKNOWN, 10)) for a, made in REFUSED] + [
    Pair(a, 13, "the table, k 0", (made, 1, 0), (PLAIN, 1, 0)) for a, made in REFUSED] + also_in_new_form([
    Pair(12, 13, "an unknown id, k 0", (PLAIN, UNKNOWN, 0), (PLAIN, 2, 0)),
    Pair(12, 13, "an unknown id, k 1,001", (PLAIN, UNKNOWN, 1001), (PLAIN, 2, 1001)),
    Pair(13, 14, "k 0, an overload chain", (PLAIN, 3, 0), (PLAIN, 3, 1)),
    Pair(13, 14, "k 1,001, an overload chain", (PLAIN, 3, 1001), (PLAIN, 3, 1000)),
    Pair(13, 15, "k 0, gap 0", (PLAIN, 2, 0), (PLAIN, 2, 1)),
    Pair(13, 15, "k 1,001, gap 0", (PLAIN, 2, 1001), (PLAIN, 2, 1000)),
    Pair(13, 16, "k 0, no window", (edge(1_000_000, TIME), 1, 0), (edge(1_000_000, TIME), 1, 1)),
    Pair(13, Answer(0), "k 0, no late activation", (crowd(100, 6, 1000), 1, 0), (crowd(100, 6, 1000), 1, 1)),
    Pair(13, Answer(1), "k 0, a miss without overload", (alone(9, 100), 1, 0), (alone(9, 100), 1, 1)),
    Pair(13, Answer(1000), "k 1,001, a miss without overload", (alone(9, 100), 1, 1001), (alone(9, 100), 1, 1000)),
    Pair(14, 15, "an overload chain with gap 0", (PLAIN, 1, 10), (PLAIN, 2, 10)),
    Pair(14, 17, "an overload chain, no close", (backlog(1025, 11, 100, 1), 1, 10), (backlog(1025, 11, 100), 1, 10)),
    Pair(14, Answer(7), "an overload chain, a miss without overload", (alone(9, 100, 1), 1, 7), (alone(9, 100), 1, 7)),
    Pair(15, 16, "gap 0, no window", (edge(1_000_000, 0), 1, 10), (edge(1_000_000, TIME), 1, 10)),
    Pair(15, 17, "gap 0, no close", (backlog(1025, 0, 100), 1, 10), (backlog(1025, 11, 100), 1, 10)),
    Pair(15, Answer(0), "gap 0, no late activation", (edge(999_999, 0), 1, 10), (edge(999_999, TIME), 1, 10)),
    Pair(15, Answer(7), "gap 0, a miss without overload", (alone(9, 0), 1, 7), (alone(9, 100), 1, 7)),
    Pair(16, 17, "window 1,024 is longer than the horizon", (open_at_last(641), 1, 10), (open_at_last(640), 1, 10)),
    Pair(16, Answer(0), "no first window, none late so far", (edge(1_000_000, TIME), 1, 10), (edge(999_999, TIME), 1, 10)),
    Pair(16, Answer(0), "no second window, the first not late", (edge_of_second(3), 1, 10), (edge_of_second(2), 1, 10)),
    Pair(16, Answer(10), "no window, a miss without overload", (edge(1_000_000, TIME, 1), 1, 10),
         (edge(999_999, TIME, 1), 1, 10)),
    Pair(17, Answer(0), "no close, no late activation", (backlog(1025, 11, TIME), 1, 10), (backlog(1024, 11, TIME), 1, 10)),
    Pair(17, Answer(10), "no close, a miss without overload", (backlog(1025, 11, 9), 1, 10), (backlog(1024, 11, 9), 1, 10)),
    Pair(16, 18, "no window, seven active segments", (seven([(6, 1_000_000)] * 2, 1, TIME, [(5, 1)]), 1, 10),
         (seven([(6, 1_000_000)], 1, TIME, [(5, 1)]), 1, 10)),
    Pair(17, 18, "no close, seven active segments", (seven([(6, 147)], 100, 11, [(5, 10)]), 1, 10),
         (seven([(6, 146)], 100, 11, [(5, 10)]), 1, 10)),
    Pair(Answer(0), 18, "no late activation, seven active segments", (crowd(17, 7, 1000), 1, 1), (crowd(16, 7, 1000), 1, 1)),
    Pair(Answer(0), 19, "no late activation, overload starts again", (crowd(22, 6, 15), 1, 1), (crowd(21, 6, 15), 1, 1)),
    Pair(Answer(0), 21, "no late activation, a capacity of 101", (crowd(16, 6, 1000), 1, 1000), (crowd(15, 6, 1000), 1, 1000)),
    Pair(18, 19, "seven active segments, overload starts again", (crowd(10, 7, 15), 1, 1), (crowd(10, 6, 15), 1, 1)),
    Pair(18, 21, "seven active segments, a capacity of 101", (crowd(10, 7, 1000), 1, 1000), (crowd(10, 6, 1000), 1, 1000)),
    Pair(18, Answer(20), "seven active segments, a miss without overload", (crowd(9, 7, 1000), 1, 20),
         (crowd(9, 6, 1000), 1, 20)),
    Pair(19, 21, "overload starts again, a capacity above 40", (crowd(10, 6, 15), 1, 1000), (crowd(10, 6, 1000), 1, 1000)),
    Pair(19, Answer(20), "overload starts again, a miss without overload", (crowd(9, 6, 15), 1, 20),
         (crowd(9, 6, 1000), 1, 20)),
    Pair(19, Answer(7), "overload of no segment starts again, a miss without", (lowly(9, 9), 1, 7), (lowly(9, 10), 1, 7)),
    Pair(21, Answer(1000), "a capacity of 101, a miss without overload", (crowd(9, 6, 1000), 1, 1000),
         (crowd(9, 6, TIME), 1, 1000)),
    Pair(21, Answer(390), "a capacity of 41, a miss without overload", (crowd(9, 6, 1000), 1, 391),
         (crowd(9, 6, 1000), 1, 390)),
    Pair(21, Answer(240), "a capacity of 41, 6 times 40 uses", (crowd(10, 6, 1000), 1, 391), (crowd(10, 6, 1000), 1, 390)),
    Pair(21, Answer(0), "a capacity of 101, no bad combination", (apart(16, 1000), 1, 1000), (apart(16), 1, 1000)),
    Pair(Answer(20), Answer(18), "a miss without overload, 18 uses", (crowd(9, 6, 1000), 1, 20), (crowd(10, 6, 1000), 1, 20)),
    Pair(Answer(11), Answer(12), "k 11, 12 uses", (crowd(10, 6, TIME), 1, 11), (crowd(10, 6, TIME), 1, 13)),
]) + [
    Pair(15, Answer(7), "flag 0, a miss without overload", (stretched(9, ()), 1, 7), (stretched(9, (100,)), 1, 7)),
    Pair(15, 21, "flag 0, a capacity above 40", (stretched(10, ()), 1, 1000), (stretched(10, (100,)), 1, 1000)),
    Pair(21, Answer(1), "a largest distance of 2^32, k 1", (stretched(10, (2**26,)), 1, 65), (stretched(10, (2**26,)), 1, 1)),
]

SEGMENT = [Pair(a, 12, "the table, unknown ids", (made, UNKNOWN, UNKNOWN, 1), (PLAIN, UNKNOWN, 1, 1))
           for a, made in REFUSED] + also_in_new_form([
    Pair(12, 25, "an unknown id against itself", (PLAIN, UNKNOWN, UNKNOWN, 1), (PLAIN, 1, 1, 1)),
    Pair(12, 25, "an id too large against itself", (PLAIN, 65537, 65537, 1), (PLAIN, 1, 1, 1)),
    Pair(12, 26, "the chain unknown, number 0", (PLAIN, UNKNOWN, 1, 0), (PLAIN, 2, 1, 0)),
    Pair(12, 26, "the chain unknown, number 99", (PLAIN, UNKNOWN, 1, 99), (PLAIN, 2, 1, 99)),
    Pair(12, 26, "the other unknown, number 0", (PLAIN, 1, UNKNOWN, 0), (PLAIN, 1, 2, 0)),
    Pair(12, 26, "the other unknown, number 99", (PLAIN, 1, UNKNOWN, 99), (PLAIN, 1, 2, 99)),
    Pair(25, 26, "a chain against itself, number 0", (PLAIN, 1, 1, 0), (PLAIN, 2, 1, 0)),
    Pair(25, 26, "a chain against itself, number 99", (PLAIN, 1, 1, 99), (PLAIN, 2, 1, 99)),
])


# ---- Saves: (buffer, used, old, new) ----

LONGER = ((5, 10), (3, 10), (2, 1))


def formless(of, **longer):
    """New records in the place of chain 2 that are no whole record, or bear another id; with these fields, longer."""
    record, count = of.record(**longer), len({**GOOD_FIELDS, **longer}["tasks"])
    found = [("another id", of.record(id=3, **longer)), ("another mark", b"XX" + record[2:]),
             ("the other form's mark", other_than(of).form.mark + record[2:]), ("a byte too many", record + b"\0"),
             ("a task too few", of.record(**longer, count=count + 1))]
    if of.has_largest:
        found += [("flag 1 and no largest distance", of.record(**longer, flag=1, largest=())),
                  *((f"flag {flag} and largest distances", of.record(**longer, flag=flag)) for flag in (0, 2))]
    return found


def unreadable(of):
    """New records of which the result is refused, longer than the old one, with the number."""
    task, longer = of.first_task, of.record(tasks=LONGER)
    found = [
        (3, "another mark than TK", longer[:task] + b"XX" + longer[task + 2:]),
        (5, "kind 2", of.record(kind=2, tasks=LONGER)), (6, "deadline 0", of.record(deadline=0, tasks=LONGER)),
        (28, "list length 9", of.record(distances=[100] * 9, gap=0)), (29, "a distance falls", of.record(distances=(100, 50))),
        (30, "the last distance is 0", of.record(distances=(0, 0))), (9, "task count 17", of.record(tasks=[(5, 10)] * 17)),
        (10, "priority 0", of.record(tasks=[(0, 1)] * 3)),
    ]
    if of.has_largest:
        return found + [(33, "flag 2", of.record(flag=2, largest=(), tasks=LONGER)),
                        (33, "a largest distance falls", of.record(distances=(50, 100), largest=(200, 150)))]
    return found + [(7, "gap too large", of.record(gap=TIME + 1, tasks=LONGER)),
                    (31, "below what the gap allows", of.record(distances=(101, 150)))]


def tight(made, old, new):
    """A save into a buffer that the table just fits."""
    return made, len(made), old, new


def roomy(made, old, new):
    return made + b"\xaa" * 200, len(made), old, new


def above(made, old, new):
    """A used length above the buffer."""
    return made, len(made) + 1, old, new


def saves(of):
    two, good, record, longer, stale = of.two, of.good, of.record(), of.record(tasks=LONGER), of.record(deadline=41)
    nine = of.record(id=1, gap=0, distances=range(100, 1000, 100), tasks=[(5, 10)] * 4)  # above the limit in the full table
    first, second, full = of.wide[0], of.wide[1], of.full
    pairs = [Pair(a, 22, "the table, no such record", roomy(made, stale, record), roomy(two, stale, record))
             for a, made in refused(of).items()]
    pairs += [Pair(1, a, "used above the buffer, the table", above(made, stale, record), tight(made, stale, record))
              for a, made in refused(of).items() if a != 1]
    pairs += [
        Pair(1, 22, "used above the buffer, no such record", above(two, stale, record), tight(two, stale, record)),
        Pair(22, 24, "no such record, no room", tight(two, stale, longer), tight(two, record, longer)),
        Pair(24, 1, "no room, above the limit", tight(full, first, nine), roomy(full, first, nine)),
        Pair(1, 28, "above the limit, list length 9", roomy(full, first, nine), roomy(two, good, nine)),
        Pair(23, 1, "another id, above the limit", roomy(full, second, nine), roomy(full, first, nine)),
    ]
    short = [("under its fixed part", record[:of.distance_at(1) - 1]), ("one byte", record[:1]), ("no byte", b"")]
    pairs += [Pair(22, 23, f"no such record, {what}", roomy(two, stale, new), roomy(two, record, new))
              for what, new in short + formless(of)]
    pairs += [Pair(23, 24, f"{what}, no room", tight(two, record, new), tight(two, record, longer))
              for what, new in formless(of, tasks=LONGER)]
    return pairs + [pair for a, what, new in unreadable(of) for pair in saved(of, a, what, new)] + saves_without_counts(of)


def saved(of, number, what, new):
    """A result that is refused, after each refusal that comes before it."""
    alone, stale = roomy(of.two, of.record(), new), of.record(deadline=41)
    return [
        Pair(24, number, f"no room, {what}", tight(of.two, of.record(), new), alone),
        Pair(23, number, f"another id, {what}", roomy(of.two, of.good, new), alone),
        Pair(22, number, f"no such record, {what}", roomy(of.two, stale, new), alone),
    ]


def saves_without_counts(of):
    """A new record of its fixed part alone, both counts 0: it is whole, and the result is refused."""
    empty = of.record(distances=(), tasks=())
    alone = roomy(of.two, of.record(), empty)
    return [Pair(22, 28, "no such record, both counts 0", roomy(of.two, of.record(deadline=41), empty), alone),
            Pair(23, 28, "another id, both counts 0", roomy(of.two, of.good, empty), alone),
            Pair(23, 28, "both counts 0 and a byte more", roomy(of.two, of.record(), empty + b"\0"), alone)]


def saves_of_other_form(of):
    """A new record of the other form: where it comes first the others are at fault, and the limit is its own."""
    other, turned = other_than(of), stored(of.record(), of.good)
    new = other.record(tasks=LONGER)
    alone = roomy(of.two, of.record(), new)
    too_long, in_limit = ((of.wide[turn], other.wide[turn]) for turn in ((0, 1) if of.has_largest else (1, 0)))
    pairs = [
        Pair(22, 3, "no such record, the other form", roomy(of.two, of.record(deadline=41), new), alone),
        Pair(23, 3, "another id, the other form", roomy(of.two, of.good, new), alone),
        Pair(23, 3, "the other form and a byte too many", roomy(of.two, of.record(), new + b"\0"), alone),
        Pair(24, 3, "no room, the other form", tight(of.two, of.record(), new), alone),
        Pair(1, 3, "above the limit, the other form", roomy(of.full, *too_long), roomy(of.full, *in_limit)),
    ]
    old = of.record()
    for a, what, bad in unreadable(other):
        if a != 3:
            pairs += [
                Pair(3, a, f"the other form, {what}", roomy(of.two, old, bad), roomy(other.two, other.record(), bad)),
                Pair(a, 3, f"{what}, then the other form", roomy(turned, old, bad), roomy(turned, old, new)),
            ]
    return pairs


SAVE = in_both_forms(saves, saves_of_other_form)


# ---- Merges: (ancestor, first, second, room) ----

IN_CONFLICT, NO_ROOM = Verdict(32, 1), Verdict(24, 0)
WHICH = ("the ancestor", "the first copy", "the second copy")


def as_table(turn, made, others):
    """Three tables: this one as the ancestor, the first copy or the second, and two others."""
    return (*others[:turn], made, *others[turn:])


def one_of(of, **fields):
    """The table of chain 1 alone."""
    return stored(of.record(id=1, **fields))


def edited(of):
    return [one_of(of, deadline=deadline) for deadline in (50, 60)]


def of_tables(of):
    """A table's number before that of a later table, before 32 and before 24. In every refused table chain 1 is good or missing,
    so it has three states with the two that are edited."""
    pairs, one, made = [], one_of(of), [*refused(of).values()]
    for turn, what in enumerate(WHICH):
        for bad in made:
            pairs += [
                Pair(verdict(bad), IN_CONFLICT, f"{what}, chain 1 in conflict", (*as_table(turn, bad, edited(of)), MUCH_ROOM),
                     (*as_table(turn, one, edited(of)), MUCH_ROOM)),
                Pair(verdict(bad), NO_ROOM, f"{what}, no room", (*as_table(turn, bad, (one, one)), 0), (one, one, one, 0)),
            ]
    for earlier, other in ((0, 1), (1, 2), (0, 2)):
        for bad, bad_too in zip(made, made[1:] + made[:1]):
            later = as_table(other, bad_too, (one, one))
            pairs.append(Pair(verdict(bad), verdict(bad_too), f"{WHICH[earlier]}, {WHICH[other]}",
                              (*later[:earlier], bad, *later[earlier + 1:], MUCH_ROOM), (*later, MUCH_ROOM)))
    return pairs


def two_conflicts(of):
    """The smallest id decides, wherever it stands and whatever was done to it."""
    seven, three = of.record(id=7), of.record(id=3)
    (seven_50, three_50, five_50), (seven_60, three_60, five_60) = (
        [of.record(id=i, deadline=deadline) for i in (7, 3, 5)] for deadline in (50, 60))
    both = stored(seven, three)
    found = [
        (3, "7 and 3 changed differently", (both, stored(seven_50, three_50), stored(seven_60, three_60)),
         (both, stored(seven_50, three_50), stored(seven_60, three))),
        (5, "7 changed differently, 5 added differently",
         (stored(seven), stored(seven_50, five_50), stored(seven_60, five_60)),
         (stored(seven), stored(seven_50, five_50), stored(seven_60))),
        (3, "7 removed and changed, 3 changed and removed", (both, stored(three_50), stored(seven_50)),
         (both, stored(three), stored(seven_50, three))),
    ]
    return [Pair(Verdict(32, smallest), Verdict(32, 7), what, (*tables, MUCH_ROOM), (*later, MUCH_ROOM))
            for smallest, what, tables, later in found]


def added(of, one, two, deadlines=(40, 40)):
    """Chain 1, which the copies give these deadlines, and to which they add these records."""
    return one_of(of), *(stored(of.record(id=1, deadline=deadline), *new) for new, deadline in zip((one, two), deadlines))


LONG_LIST = range(100, 900, 100)


def plain(of, ids, tasks, distances=(100,)):
    return [of.record(id=i, gap=0, distances=distances, tasks=[(5, 10)] * tasks) for i in ids]


def after_chain_1(of, *records):
    return len(of.good + b"".join(records))


def additions(of):
    """What the copies add so that the result is refused: the number and offset, what it has, and the records. Those refused with
    1 have another fault too."""
    three, fifteen = plain(of, (2, 3, 4), 16), plain(of, range(2, 17), 1)
    seven, seven_more = (plain(of, ids, 8, LONG_LIST) for ids in (range(2, 9), range(9, 16)))
    return [
        (Verdict(1, 0), "above the limit, 114 tasks", seven, seven_more),
        (Verdict(1, 0), "above the limit, 17 chains", plain(of, range(2, 17), 4, LONG_LIST), plain(of, [17], 1, LONG_LIST)),
        (Verdict(9, after_chain_1(of, *three) + of.at.tasks), "66 tasks", three, plain(of, [5], 16)),
        (Verdict(11, after_chain_1(of, *fifteen)), "17 chains", fifteen, plain(of, [17], 1)),
    ]


def refused_results(of):
    pairs, one = [], one_of(of)
    for told, what, first, second in additions(of):
        tables = added(of, first, second)
        length = sum(map(len, tables[1:])) - len(one)
        pairs += [
            Pair(NO_ROOM, told, f"a byte of room too few, {what}", (*tables, length - 1), (*tables, length)),
            Pair(IN_CONFLICT, told, f"chain 1 in conflict, {what}", (*added(of, first, second, (50, 60)), MUCH_ROOM),
                 (*tables, MUCH_ROOM)),
        ]
    wide, long, tasks, chains = ((told, (*added(of, first, second), MUCH_ROOM)) for told, _, first, second in additions(of))
    none_left = (of.two, one, stored(of.record()))
    fourteen, fifteen = (plain(of, range(2, n), 4) for n in (16, 17))
    sixteenth = after_chain_1(of, *fourteen)
    many_tasks = Verdict(9, sixteenth + of.at.tasks)
    wide_16, short_16, wide_17, short_17 = (plain(of, [i], tasks) for i in (16, 17) for tasks in (16, 1))
    return pairs + [
        Pair(IN_CONFLICT, NO_ROOM, "chain 1 in conflict, no room", (one, *edited(of), 0), (one, one, edited(of)[0], 0)),
        Pair(IN_CONFLICT, NO_ROOM, "chain 1 in conflict, a byte of room too few", (one, *edited(of), len(one) - 1),
             (one, one, edited(of)[0], len(one) - 1)),
        Pair(NO_ROOM, Verdict(11, COUNT_AT), "a byte of room too few, no chain", (*none_left, END.size - 1),
             (*none_left, END.size)),
        Pair(wide[0], tasks[0], "above the limit, over 64 tasks", wide[1], tasks[1]),
        Pair(long[0], chains[0], "above the limit, 17 chains", long[1], chains[1]),
        Pair(many_tasks, Verdict(11, sixteenth + len(*short_16)), "over 64 tasks with the 16th chain, a 17th",
             (*added(of, fourteen, wide_16 + short_17), MUCH_ROOM), (*added(of, fourteen, short_16 + short_17), MUCH_ROOM)),
        Pair(Verdict(11, after_chain_1(of, *fifteen)), many_tasks, "a 17th chain, over 64 tasks with it",
             (*added(of, fifteen, wide_17), MUCH_ROOM), (*added(of, fourteen, wide_17), MUCH_ROOM)),
    ]


def in_place(of, first, second, room=MUCH_ROOM):
    """The ancestor has chain 1, and the copies these records instead: a result of both."""
    return one_of(of), stored(*first), stored(*second), room


def mixed_results(of):
    """A result whose later records are of the other form. All before them are of one copy, so only 1 comes before that 3."""
    other = other_than(of)
    first, second = plain(of, (2, 3), 1), plain(other, [4], 1)
    mixed, length = Verdict(3, len(b"".join(first))), len(stored(*first, *second))
    wide, few = plain(of, (2, 3, 4, 5), 16), plain(of, range(2, 18), 1)
    long, longer = plain(of, range(2, 10), 4, LONG_LIST), plain(other, range(10, 25), 4, LONG_LIST)
    converted = other.two
    return [
        Pair(NO_ROOM, mixed, "a byte of room too few, the other form", in_place(of, first, second, length - 1),
             in_place(of, first, second, length)),
        Pair(IN_CONFLICT, Verdict(3, len(converted) - END.size), "chain 1 edited and converted, a chain added in its form",
             (of.two, converted, stored(of.record(id=1, deadline=50), of.record(), of.record(id=5)), MUCH_ROOM),
             (of.two, converted, stored(of.good, of.record(), of.record(id=5)), MUCH_ROOM)),
        Pair(Verdict(1, 0), Verdict(3, len(b"".join(long))), "above the limit, the other form", in_place(of, long, longer),
             in_place(of, long, longer[:1])),
        Pair(Verdict(3, len(b"".join(wide))), Verdict(9, len(b"".join(wide)) + of.at.tasks), "the other form, 65 tasks so far",
             in_place(of, wide, plain(other, [6], 1)), in_place(of, wide, plain(of, [6], 1))),
        Pair(Verdict(3, len(b"".join(few))), Verdict(11, len(b"".join(few))), "the other form, a 17th chain",
             in_place(of, few, plain(other, [18], 1)), in_place(of, few, plain(of, [18], 1))),
    ]


MERGE = in_both_forms(of_tables, two_conflicts, refused_results, mixed_results)


# ---- Writes: (rows, room) ----

def rows_of_form(of):
    """A good row, 16 good ones, and 4 that have 64 tasks."""
    return (of.row(id=1), tuple(of.row(id=i + 1, tasks=[(5, 10)] * 4) for i in range(16)),
            tuple(of.row(id=i + 11, tasks=[(5, 10)] * 16) for i in range(4)))


def fixed_row_faults(of):
    """Those of a record, and counts that would be good ones if they were cut to a byte or to four, or that wrap a sum; in the
    order in which the bytes would be read."""
    large = [
        *(Fault(28, of.at.listed, f"list length {count}", {"listed": count}) for count in (2**8 + 1, 2**32 + 1, 2**64 - 1)),
        *(Fault(9, of.at.tasks, f"task count {count}", {"count": count}) for count in (2**8 + 2, 2**32 + 2, 2**64 - 1)),
    ]
    return sorted(of.fixed_faults() + large, key=lambda fault: fault.at)


def row_faults(of):
    """Every fault of a row, in the order in which its bytes would be read."""
    return fixed_row_faults(of) + list_and_flag_faults(of) + of.task_faults()


def writing(first, second, what, both, later, room=MUCH_ROOM):
    """A pair of writes into as much room."""
    return Pair(first, second, what, (tuple(both), room), (tuple(later), room))


def hold_together(one, other):
    """Whether a row can have both faults, by the fields of both."""
    lists = {29, 30, 31}
    return (one.number != other.number and (one.number, other.number) != (7, 31) and not lists >= {one.number, other.number}
            and not (one.number in lists and "below the smallest" in other.what))


def in_one_row(of):
    """Every two faults of a row."""
    good, faults = of.row(id=1), row_faults(of)
    return [writing(one.number, other.number, f"{one.what}, {other.what} in a row",
                    [good, of.row(**{**other.fields, **one.fields})], [good, of.row(**other.fields)])
            for i, one in enumerate(faults) for other in faults[i + 1:] if hold_together(one, other)]


def in_one_list(of):
    good = of.row(id=1)
    return [writing(29, number, f"the list of a row {what}", [good, of.row(distances=both)], [good, of.row(distances=later)])
            for _, what, both, number, _, later in several(of) if number != 29]


def in_two_rows(of):
    """A fault of one row, and one of the next that is looked at as early in a row, or earlier."""
    good = of.row(id=1)
    return [writing(one.number, other.number, f"{one.what} in a row, {other.what} in the next",
                    [good, of.row(**one.fields), of.row(**{"id": 3, **other.fields})],
                    [good, of.row(), of.row(**{"id": 3, **other.fields})])
            for one in row_faults(of) for other in early(of) if one.number != other.number and one.at >= other.at]


def so_far(of):
    """65 tasks so far, and each fault before or after it in a row."""
    good, _, wide = rows_of_form(of)
    one_task = {"tasks": [(5, 10)]}
    pairs = [writing(one.number, 9, f"{one.what}, 65 tasks so far",
                     [*wide, of.row(**{**one_task, **one.fields, **({"id": 11} if one.what == "id used" else {})})],
                     [*wide, of.row(**one_task)])
             for one in fixed_row_faults(of) if one.number != 9]
    return pairs + [writing(9, one.number, f"65 tasks so far, {one.what}", [*wide, of.row(**{**one_task, **one.fields})],
                            [good, of.row(**one.fields)])
                    for one in list_and_flag_faults(of) + of.task_faults()]


def seventeenth_row(of):
    """A 17th row, and a fault in it or in the one before."""
    _, sixteen, _ = rows_of_form(of)
    pairs, fifteen, good = [], sixteen[:15], of.row(id=17)
    for one in row_faults(of):
        bad_16, bad_17 = (of.row(**{"id": i, **one.fields}) for i in (16, 17))
        pairs += [
            writing(one.number, 11, f"{one.what} in the 16th row, a 17th", [*fifteen, bad_16, good], [*sixteen, good]),
            writing(11, one.number, f"a 17th row, {one.what} in it", [*sixteen, bad_17], [*fifteen, bad_17]),
        ]
    wide = of.row(id=17, tasks=[(5, 10)] * 5)
    return pairs + [
        writing(11, 9, "a 17th row, over 64 tasks with it", [*sixteen, wide], [*fifteen, wide]),
        writing(9, 11, "over 64 tasks with the 16th row, a 17th", [*fifteen, wide, of.row(id=18)], [*sixteen, good]),
        writing(28, 11, "list length 0 in the 3rd of 40 rows", [*sixteen[:2], of.row(id=3, listed=0), *[good] * 37],
                [*sixteen, *[good] * 24]),
    ]


def no_room(of):
    """Each number before 24: no byte of room, and a byte too few."""
    good, sixteen, wide = rows_of_form(of)
    bad = [(one.number, one.what, [good, of.row(**one.fields)]) for one in row_faults(of)]
    bad += [(11, "a 17th row", [*sixteen, of.row(id=17)]), (9, "65 tasks so far", [*wide, of.row(tasks=[(5, 10)])]),
            (3, "the other form", [good, other_than(of).row()])]
    pairs = [writing(number, 24, f"{what}, {room} bytes of room", rows, [good, of.row()], room)
             for number, what, rows in bad for room in (0, len(of.two) - 1)]
    return pairs + [writing(11, 24, f"no row, {room} bytes of room", [], [good], room) for room in (0, END.size - 1)]


# Forms that are neither: marks of other records, and marks turned round, among them.
NO_FORMS = [form_number(mark) for mark in (b"EN", b"TK", b"HC", b"GC", b"\0\0", b"\xff\xff", b"C\0", b"\0H")]


def other_forms(of):
    """A row of another form than the first: before all else of that row, and after what stands before it."""
    good, sixteen, _ = rows_of_form(of)
    fifteen, forms = sixteen[:15], [form_number(other_than(of).form.mark), *NO_FORMS]
    pairs = []
    for turn, one in enumerate(row_faults(of)):
        form, bad, last = forms[turn % len(forms)], of.row(**one.fields), of.row(id=3)
        pairs += [
            writing(3, one.number, f"form {form}, {one.what}", [good, bad._replace(form=form)], [good, bad]),
            writing(one.number, 3, f"{one.what}, form {form} in the next row", [good, bad, last._replace(form=form)],
                    [good, of.row(), last._replace(form=form)]),
        ]
    for form in forms:
        strange = of.row(id=17)._replace(form=form)
        pairs += [
            writing(3, 11, f"form {form} in a 17th row", [*sixteen, strange], [*sixteen, of.row(id=17)]),
            writing(11, 3, f"a 17th row, form {form} in an 18th", [*sixteen, of.row(id=17), strange], [*fifteen, strange]),
        ]
    return pairs + [writing(3, 4, f"form {form} in the only row, id 0", [of.row(id=0)._replace(form=form)], [of.row(id=0)])
                    for form in NO_FORMS]


WRITE = in_both_forms(in_one_row, in_one_list, in_two_rows, so_far, seventeenth_row, no_room, other_forms)


# ---- Conversions: (table, form asked, room) ----

ODD = stored(NEW.good, NEW.record(largest=(101,), distances=(100,)), NEW.record(id=3, distances=(100, 150), largest=(100, 201)))


def conversions(of):
    """The table's number, 34 where it has the form already, and 24."""
    other, pairs = other_than(of), []
    for a, made in refused(of).items():
        pairs += [Pair(a, 34, "the table, in the form asked", (made, of.form, MUCH_ROOM), (of.two, of.form, MUCH_ROOM)),
                  Pair(a, 24, "the table, no room", (made, other.form, 0), (of.two, other.form, 0))]
    return pairs + [Pair(34, 24, f"in the form asked, {room} bytes of room", (of.two, of.form, room), (of.two, other.form, room))
                    for room in (0, len(of.two) - 10)]


CONVERT = in_both_forms(conversions) + [
    Pair(34, 24, f"no gap, {room} bytes of room", (ODD, CH, room), (NEW.two, CH, room)) for room in (0, 60)] + [
    Pair(a, 34, "the table, no gap", (ODD[:-END.size] + made, CH, MUCH_ROOM), (ODD, CH, MUCH_ROOM))
    for a, made in ((2, b"EN"), (3, OLD.record(id=4)), (4, NEW.record() + b"EN\4\0"), (11, b"EN\4\0"))]


# ---- Salvages ----

def salvages(of):
    """An input too long, nothing kept, and room for the table, the list or both too short."""
    good, bad, room = padded(of.good, LONGEST_INPUT), padded(of.record(kind=2), LONGEST_INPUT), len(of.good) + END.size
    pairs = [Pair(35, 36, "a byte too many, no good record", Salvage(bad + b"\0", room, STRETCH.size),
                  Salvage(bad, room, STRETCH.size)),
             Pair(35, 36, "a byte too many, no good record, no room", Salvage(bad + b"\0", 0, 0), Salvage(bad, 0, 0))]
    for short in ((0, 0), (room - 1, STRETCH.size), (room, STRETCH.size - 1), (room - 1, STRETCH.size - 1)):
        what = f"{short[0]} and {short[1]} bytes of room"
        pairs += [Pair(35, 24, f"a byte too many, {what}", Salvage(good + b"\0", *short), Salvage(good, *short)),
                  Pair(36, 24, f"no good record, {what}", Salvage(bad, *short), Salvage(good, *short)),
                  Pair(36, 24, f"no byte, {what}", Salvage(b"", *short), Salvage(of.good + b"\0", *short))]
    return pairs


SALVAGE = in_both_forms(salvages)


# ---- All calls, what is told of them held against the reader written from the documents ----

def told_by_reader(call, told):
    """What that reader tells: of a table, of a salvage, of a conversion, of a write, of a merge, of a save, or of a query's
    table."""
    if isinstance(call, bytes):
        return verdict(call)
    if isinstance(call, Salvage):
        return salvage(*call).number
    if isinstance(call[1], Form):
        return convert(*call).number
    if isinstance(call[0], tuple):
        return write(*call).number
    if isinstance(call[1], bytes):
        return Verdict(*merge(*call)[:2])
    if isinstance(call[1], int) and isinstance(call[-1], bytes):
        return save_verdict(*call)
    return verdict(call[0]).number or (told if told not in NUMBERS else 0)


def shown(told):
    if isinstance(told, Answer):
        return f"the answer {told.misses}"
    return f"{told.number} at {told.at}" if isinstance(told, Verdict) else str(told)


def returned(told):
    """What a query returns, and the figures that it answers with."""
    return (0, [told.misses]) if isinstance(told, Answer) else (told, [])


def calls(pairs):
    """Every call of these pairs once: its name, itself and what is told of it."""
    found = {}
    for pair in pairs:
        if pair.first == pair.second:
            raise SystemExit(f"{pair.what}: nothing is told apart")
        for label, call, told in ((f"{shown(pair.first)} before {shown(pair.second)}: {pair.what}", pair.both, pair.first),
                                  (f"{shown(pair.second)} alone: {pair.what}", pair.later, pair.second)):
            if told_by_reader(call, told) != told:
                raise SystemExit(f"{label}: the documents give {told_by_reader(call, told)}")
            if found.setdefault(call, (label, told))[1] != told:
                raise SystemExit(f"{label}: another case expects {found[call]}")
    return [(label, call, told) for call, (label, told) in found.items()]


if __name__ == "__main__":
    for orders, pairs in (("table", READING), ("latency", LATENCY), ("misses", MISSES), ("segment", SEGMENT), ("save", SAVE),
                          ("merge", MERGE), ("write", WRITE), ("convert", CONVERT), ("salvage", SALVAGE)):
        print(*(f"{orders}: {shown(pair.first)} before {shown(pair.second)}: {pair.what}" for pair in pairs), sep="\n")
