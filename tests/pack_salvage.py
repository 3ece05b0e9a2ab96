"""Cases of a salvage with known answers, packed for the program salvage_vectors.

After those of tests/cases/salvage.jsonl, each held against the salvage from the words (salvaged.py), come those made here, in
both forms: accepted tables; a table cut, and changed by a byte, at every place; every fault in a record among good ones; ids and
tasks used up, forms mixed, a 17th record; records that begin within one that is refused; marks that overlap; inputs around the
greatest length. They have just the room that they need, or more, by turns; some of them have every kind of room. Then come the
broken tables of reading_orders.py, and last the cases that only an order decides (orders.py).

What comes of an input is also held against what the request says of it beside the walk (must_hold).

A packed case, every number little-endian:

    u16  bytes of the input; then the bytes
    u16  bytes of the buffer for the table
    u16  bytes of the buffer for the list
    u32  refusal number, 0 where the salvage is accepted
    u16  bytes of the table, 0 where it is refused; then the bytes
    u16  bytes of the list, 0 where it is refused; then the bytes
"""
import struct
import sys

import orders
import pack
from faults import NEW, padded
from orders import MUCH_ROOM
from reading_orders import FORMS, READING, list_and_flag_faults, other_than
from records import CG, CH, END, TASK, bursty, chain, end, stored
from salvaged import LONGEST_INPUT, MOST_CHAINS, STRETCH, Salvage, Salvaged, salvage
from stored import ACCEPTED, PRIORITY_AT, records, verdict

LONGEST_LIST = 128


# ---- What the request says beside the walk ----

def covered(s, found):
    """The input again, from a stretch or none before each record of the table and after the last; None if a stretch is left."""
    stretches, whole = dict(STRETCH.iter_unpack(found.list)), b""
    for record in [*(found.table[at:after] for at, after in records(found.table)), b""]:
        at = len(whole)
        whole += s[at:at + stretches.pop(at, 0)] + record
    return None if stretches else whole


def must_hold(name, s, found):
    """Ends the program where the table is not accepted or the list too long, where kept and skipped stretches do not cover the
    input once, or where an accepted table does not come back with its end record alone skipped."""
    whole, has_rest = covered(s, found), len([*records(found.table)]) == MOST_CHAINS
    if verdict(found.table) != ACCEPTED or len(found.list) > LONGEST_LIST:
        sys.exit(f"{name}: the table is not accepted, or the list is too long")
    if whole is None or not s.startswith(whole) or len(whole) < len(s) and not has_rest:
        sys.exit(f"{name}: kept and skipped stretches do not cover the input")
    only_end = b"" if has_rest else STRETCH.pack(len(s) - END.size, END.size)
    if verdict(s) == ACCEPTED and (found.table, found.list) != (s, only_end):
        sys.exit(f"{name}: an accepted table does not come back")


# ---- Cases of the file ----

def of_file():
    for turn, case in enumerate(pack.cases("salvage"), 1):
        name, call = f"salvage:{turn}", Salvage(bytes.fromhex(case["input"]), MUCH_ROOM, MUCH_ROOM)
        told = Salvaged(case["rc"], bytes.fromhex(case.get("table", "")),
                        b"".join(STRETCH.pack(*one) for one in case.get("skipped", [])))
        if salvage(*call) != told:
            sys.exit(f"{name}: the case says {told}, the documents {salvage(*call)}")
        yield name, call


# ---- Inputs that are made here: name and bytes ----

def numbered(of, ids, **fields):
    """A record of each of these ids, with these fields."""
    return [of.record(id=i, **fields) for i in ids]


ONE_TASK, SIXTEEN_TASKS = ({"tasks": [(5, 10)] * count} for count in (1, 16))


def accepted(of):
    yield "a table of one chain", stored(of.good)
    yield "a table of two chains", of.two
    yield "a table of 15 chains", of.fifteen + end(15)
    yield "a table of 16 chains", of.sixteen + end(16)
    yield "a full table", of.full
    yield "64 tasks in 4 chains", stored(*of.sixty_four)


def nothing(of):
    """No record, or one that is cut."""
    mark = of.form.mark
    for made in (b"", b"\0", mark[:1], mark[1:], mark, mark[::-1], mark * 20, b"EN\0\0", b"TK", bytes(200), b"\xff" * 200):
        yield f"{len(made)} bytes, {made[:2]}", made
    for length in (len(of.good) - 1, of.first_task, of.distance_at(1)):
        yield f"{length} bytes of a record", of.good[:length]


def halves(of):
    """Every start of a table, and every end of it."""
    for at in range(len(of.two) + 1):
        yield f"the first {at} bytes", of.two[:at]
        yield f"all but the first {at} bytes", of.two[at:]


def changed(of):
    """A byte put in, taken out or overwritten at each place."""
    for at, byte in enumerate(of.two):
        before, after = of.two[:at], of.two[at + 1:]
        yield f"no byte {at}", before + after
        for other in (b"\0", b"C", of.two[at:at + 1]):
            yield f"{other} before byte {at}", before + other + of.two[at:]
        for other in sorted({0, 1, byte + 1 & 0xFF, byte ^ 0xFF} - {byte}):
            yield f"{other} for byte {at}", before + bytes([other]) + after


def faulty(of):
    """Every fault in a record before, between and after good ones."""
    for fault in of.fixed_faults() + list_and_flag_faults(of) + of.task_faults():
        bad, last = of.record(**fault.fields), of.record(id=3)
        yield f"{fault.what} in the second record", of.good + bad + last + end(3)
        yield f"{fault.what} in the first record", bad + of.record(id=4) + last
        yield f"{fault.what} in the last record", of.good + last + bad
    for task in (0, 1):
        yield f"another mark than TK in task {task + 1}", of.marked(b"CH", task) + of.record(id=3)
        yield f"a chain's mark in task {task + 1}, and a record after it", of.marked(of.form.mark, task) + of.two


def repeated(of):
    """Ids that are used, and those of a record that was not kept."""
    again, last = of.record(id=1, deadline=50), of.record()
    yield "an id used", of.good + again + last + end(3)
    yield "an id used by the last", of.good + last + of.record()
    yield "an id used by the first of 15", of.fifteen + again + of.record(id=16)
    yield "a record three times", of.good * 3
    yield "two tables, the same ids", of.two + of.two
    yield "two tables, other ids", of.two + stored(*numbered(of, (3, 4)))
    yield "an id of one that was not kept", of.record(id=1, kind=2) + of.good + last
    yield "ids 65535 and 255", b"".join(numbered(of, (65_535, 255, 65_280, 65_535)))


def totals(of):
    """64 tasks and more, with those of records that were not kept."""
    three = numbered(of, (11, 12, 13), **SIXTEEN_TASKS)
    fifteen, two, one = of.record(id=14, tasks=[(5, 10)] * 15), of.record(id=15), of.record(id=16, **ONE_TASK)
    yield "a 65th task", b"".join([*of.sixty_four, of.record(id=16, **ONE_TASK)]) + end(5)
    yield "63 tasks, 2 too many, then 1", b"".join([*three, fifteen, two, one]) + end(6)
    yield "63 tasks, 2 too many, then 1, then another", b"".join([*three, fifteen, two, one, of.record(id=17, **ONE_TASK)])
    yield "48 tasks, 17 of no record, then 16", b"".join([*three, of.record(id=20, count=17, **SIXTEEN_TASKS), of.sixty_four[3]])
    yield "64 tasks that were not kept, then 64", b"".join(numbered(of, range(11, 15), kind=2, **SIXTEEN_TASKS) + of.sixty_four)
    yield "4 tasks too many in the 16th chain", b"".join(numbered(of, range(1, 16), tasks=[(5, 10)] * 4)
                                                         + [of.record(id=16, tasks=[(5, 10)] * 8), of.record(id=17, **ONE_TASK)])


def forms(of):
    """Records of both forms: the first one kept decides."""
    other = other_than(of)
    yield "the other form in the second place", of.good + other.record() + of.record(id=3) + end(3)
    yield "the other form in all places but the first", of.good + b"".join(numbered(other, range(2, 17)))
    yield "a table, and one of the other form", of.two + other.two
    yield "the other form in a record that was not kept", other.record(kind=2) + of.good + other.record() + of.record(id=3)
    yield "the other form in a record that is cut", other.good[:-1] + of.good + other.record()
    yield "the other form with an id that is free", of.good + other.record(id=2) + of.record(id=2)
    yield "the mark of the other form", other.form.mark + of.good[len(other.form.mark):] + of.record()


def seventeen(of):
    """16 records and more: the rest is in no stretch."""
    more = of.record(id=17, **ONE_TASK)
    two, rest_of_16 = of.sixteen[:len(more) * 2], of.sixteen[len(more) * 3:]
    yield "a 17th record", of.sixteen + of.seventeenth
    yield "16 records, and nothing", of.sixteen
    for rest in (b"\0", b"C", end(16) + b"\0" * 9, bytes(300)):
        yield f"16 records, and {len(rest)} bytes, {rest[:1]}", of.sixteen + rest
    yield "17 records, the third not kept", two + of.record(id=30, kind=2) + rest_of_16 + more
    yield "15 records, an id used, a 16th, a 17th", of.fifteen + of.good + of.record(id=16, **ONE_TASK) + more
    yield "16 that were not kept, then 17", b"".join(numbered(of, range(1, 17), kind=2)) + of.sixteen + more + end(17)


def apart(of):
    """Records with something between them: as many stretches as there can be, and one fewer."""
    for between in (b"\0", b"C", of.form.mark, b"EN\1\0", other_than(of).good):
        for count in (1, 2, 15, 16, 17):
            made = numbered(of, range(1, count + 1), **ONE_TASK)
            what = f"{count} records with {len(between)} bytes, {between[:2]},"
            yield f"{what} between them", between.join(made)
            yield f"{what} before each and at the end", b"".join(between + one for one in made) + between
            yield f"{what} after each", b"".join(one + between for one in made)


def marks(of):
    """A mark, or a part of one, before a record's own."""
    mark, other = of.form.mark, other_than(of).form.mark
    for before in (mark[:1], mark, mark * 2, mark + mark[:1], other, other[:1] * 3, b"TK", mark + b"\1", mark + b"\1\0\0\0"):
        yield f"{before} before a record", before + of.good
        yield f"{before} before each of two records", before + of.good + before + of.record()
    for length in (of.at.deadline, of.distance_at(1), of.first_task, len(of.good) - 1):
        yield f"{length} bytes of a record before it", of.good[:length] + of.good
        yield f"{length} bytes of a record between two", of.good + of.record()[:length] + of.record(id=3)


# ---- Records that begin within another ----

def reaching(of, inner, **fields):
    """A record whose last task ends in the first bytes of another one, and the others of that."""
    last = struct.unpack_from("<HI", inner)  # as priority and cost: mark, id and kind
    return of.record(tasks=[(5, 10), last], **fields) + inner[TASK.size - PRIORITY_AT:]


# Records whose bytes, with some beside them, are eight largest distances that do not fall and are not too large.
BURIED = {CG: bursty(5, 0, 0, 40, (), [65_536], [(1, 131_072)]) + b"\0\0\3\0\0\0\3",
          CH: b"\0" + chain(256, 0, 0, 257, 131_073, [65_538], [(1, 131_072)]) + b"\0\0\3"}


def holding(form, **fields):
    """A record of the form CG with a whole one of this form in its largest distances."""
    return NEW.record(distances=range(1, 9), largest=struct.unpack("<8I", BURIED[form]), **fields)


def within(of, outer, what):
    """What a record begins in: one that is kept, or refused for its id, for its tasks with those kept, or for itself."""
    sixty_three = b"".join(numbered(of, (11, 12, 13), **SIXTEEN_TASKS) + [of.record(id=14, tasks=[(5, 10)] * 15)])
    yield f"{what} one that is kept", outer(id=4)
    yield f"{what} one whose id is used", of.good + outer(id=1) + of.record()
    yield f"{what} one with too many tasks", sixty_three + outer(id=4)
    yield f"{what} one with another fault", outer(id=4, overload=2) + of.record()


def nested(of):
    inner, other = of.record(id=7, kind=1, **ONE_TASK), other_than(of)
    yield from within(of, lambda **fields: reaching(of, inner, **fields), "a record begins in a task of")
    yield "a record begins in a task of one of the other form", of.good + reaching(other, inner, id=4) + of.record()
    yield "a record begins in a task of one whose id is used, and bears it too", of.good + reaching(of, of.good, id=1)
    if of.has_largest:
        yield from within(of, lambda **fields: holding(CG, **fields), "a record stands in the largest distances of")
    else:
        yield "a record stands in the largest distances of one of the other form", of.good + holding(CH, id=4) + of.record()
        yield "a record stands in the largest distances of one that is not kept", holding(CH, id=4, kind=2)


# ---- Long inputs ----

def long(of):
    """Inputs of the greatest length, a byte less and more; records at their very end, and cut there."""
    for length in (LONGEST_INPUT - 1, LONGEST_INPUT, LONGEST_INPUT + 1):
        yield f"a record in {length} bytes", padded(of.good, length)
        yield f"a record at the end of {length} bytes", bytes(length - len(of.good)) + of.good
    yield "a record cut at the greatest length", (bytes(LONGEST_INPUT + 1 - len(of.good)) + of.good)[:LONGEST_INPUT]
    between = b"C" * ((LONGEST_INPUT - len(of.full)) // MOST_CHAINS)
    yield "the records of a full table, far apart", b"".join(between + one for one in of.wide)
    yield "one record over and over", (of.good * LONGEST_INPUT)[:LONGEST_INPUT]
    yield "marks alone", of.form.mark * (LONGEST_INPUT // 2)
    yield "a full table, and as much after it", of.full + of.full


def longer():
    for length in (LONGEST_INPUT, LONGEST_INPUT + 1, 5_000, 65_000):
        yield f"{length} bytes of 0", bytes(length)


# ---- Room ----

MOST_ROOM = 65_000


def rooms(table, listed):
    """Bytes for a table and a list of these lengths: just enough, one too few of either and of both, none, more, and as much as
    ever."""
    fewer, without_last = max(0, listed - 1), max(0, listed - STRETCH.size)
    return [(table, listed), (table - 1, listed), (table, fewer), (table - 1, fewer), (table, without_last), (0, listed),
            (table, 0), (0, 0), (END.size, STRETCH.size), (table + 1, listed + 1), (table + 500, listed), (table, listed + 100),
            (CG.longest, LONGEST_LIST), (MOST_ROOM, MOST_ROOM), (0, MOST_ROOM), (MOST_ROOM, 0)]


def in_every_room(of):
    """Some inputs with every kind of room, those of which nothing is kept too."""
    sixteen = numbered(of, range(1, 17), **ONE_TASK)
    for name, s in (("a table", of.two), ("16 chains", of.sixteen + end(16)), ("records alone", of.good + of.record()),
                    ("a fault between two", of.good + of.record(kind=2) + of.record(id=3) + end(3)), ("a full table", of.full),
                    ("16 stretches", b"".join(b"\0" + one for one in sixteen)), ("no record", of.record(kind=2)),
                    ("no byte", b""), ("a byte too many", padded(of.two, LONGEST_INPUT + 1))):
        found = salvage(s, MUCH_ROOM, MUCH_ROOM)
        for room, list_room in dict.fromkeys(rooms(len(found.table) or END.size, len(found.list))):
            yield f"{name}, {room} and {list_room} bytes of room", Salvage(s, room, list_room)


# Bytes of both buffers beyond what a salvage comes to, by turns.
SPARE = [(0, 0), (0, 9), (1, 0), (64, 1), (300, 40)]


def with_room(turn, name, s):
    found, (more, more_listed) = salvage(s, MUCH_ROOM, MUCH_ROOM), SPARE[turn % len(SPARE)]
    return name, Salvage(s, len(found.table) + more, len(found.list) + more_listed)


# ---- All of them ----

FAMILIES = [accepted, nothing, halves, changed, faulty, repeated, totals, forms, seventeen, apart, marks, nested, long]


def made():
    """Every different input that is made here, the example tables and the broken ones, each with some room."""
    found = {}
    for of in FORMS:
        for family in FAMILIES:
            for name, s in family(of):
                found.setdefault(s, f"{name}, {of}")
    for name, s in [*longer(), ("the sample", pack.SAMPLE), ("the case study", pack.STUDY), ("the telemetry", pack.TELEMETRY),
                    *((name, table) for name, table, _ in orders.calls(READING))]:
        found.setdefault(s, name)
    return [with_room(turn, name, s) for turn, (s, name) in enumerate(found.items())]


def calls():
    """Every salvage that is tried: its name, and input and rooms."""
    in_rooms = [(f"{name}, {of}", call) for of in FORMS for name, call in in_every_room(of)]
    found = [*of_file(), *made(), *in_rooms, *((name, call) for name, call, _ in orders.calls(orders.SALVAGE))]
    for name, call in found:
        told = salvage(*call)
        if told.number == 0:
            must_hold(name, call.input, told)
    return found


def packed(s, room, list_room):
    found = salvage(s, room, list_room)
    return (struct.pack("<H", len(s)) + s + struct.pack("<HHIH", room, list_room, found.number, len(found.table)) + found.table
            + struct.pack("<H", len(found.list)) + found.list)


def everything():
    return [packed(*call) for _, call in calls()]
