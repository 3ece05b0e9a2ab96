"""Cases of a write with known answers, for the C entry (pack_entries.py), and packed for the program write_vectors.

After those of tests/cases/write.jsonl, each held against the write from the words (written.py), as they stand and with junk
where a write does not look, come those made here, in both forms: each field at its limits and past them, in a row alone and in
one between two others; few rows and many; just the room that a table needs, less and more. What each is refused with is told
here, and held against the same. Last come the cases that only an order decides (orders.py).

A packed case, every number little-endian:

    u16  rows; then each in 192 bytes, as mishtodran.h lays a row out:
         u16 form, u16 id, u8 kind, u8 overload, u8 flag, 1 byte of padding, which may be anything, u32 deadline, u32 gap,
         u64 list length, u64 task count, 8 times u32 distance, 8 times u32 largest distance, 16 times u16 priority,
         16 times u32 cost
    u16  bytes of the buffer for the table
    u32  refusal number, 0 where the write is accepted
    u16  bytes of the table, 0 where it is refused; then the bytes
"""
import struct
import sys

import orders
import pack
from faults import NEW, OLD
from orders import MUCH_ROOM, rows_of_form
from stored import LARGEST, TIME
from written import Junk, Row, Written, form_number, in_memory, with_junk, write

U32 = 2**32 - 1
PADDING = b"\xc3"
# What breaks a rule, or is only there.
JUNK = (Junk(U32, 0, 0, 255, U32), Junk(0, 65535, U32, 2, TIME + 1), Junk(1, 1, 1, 1, 1))


def all_with_junk(rows, turn):
    return tuple(with_junk(one, JUNK[turn % len(JUNK)]) for one in rows)


# ---- Cases of the file ----

def row_told(form, id, kind, overload, deadline, gap, flag, listed, tasks, distances, largest, values):
    """A row of a case."""
    return Row(form_number(form.encode("ascii")), id, kind, overload, flag, deadline, gap, listed, tasks, tuple(distances),
               tuple(largest), tuple(values[::2]), tuple(values[1::2]))


def of_file():
    for turn, case in enumerate(pack.cases("write"), 1):
        rows, room = tuple(row_told(*one) for one in case["rows"]), case["room"]
        yield f"write:{turn}", rows, room, Written(case["rc"], bytes.fromhex(case.get("table", "")))
        if rows:
            yield f"write:{turn}, junk", all_with_junk(rows, turn), room, write(rows, room)


# ---- Each field at its limits, and past them ----

HUNDREDS = tuple(range(100, 900, 100))

# What a row has that is accepted, and its fields.
GOOD_FIELDS = [
    ("the greatest id", {"id": 65535}), ("kind 1", {"kind": 1}), ("overload 1", {"overload": 1}),
    ("the least deadline", {"deadline": 1}), ("the greatest deadline", {"deadline": TIME}),
    ("the greatest distance", {"gap": TIME, "distances": [TIME]}),
    ("the greatest distances", {"gap": TIME, "distances": [TIME] * 8}), ("distances of 0", {"distances": [0, 0, 1]}),
    ("the most tasks", {"tasks": [(5, 10)] * 16}), ("the greatest priority and cost", {"tasks": [(65535, 1_000_000)] * 2}),
    ("the least priority and cost", {"tasks": [(1, 1)]}),
]
GOOD_GAPS = [
    ("no gap", {"gap": 0}), ("the greatest gap", {"gap": TIME}), ("the least gap", {"distances": HUNDREDS}),
    ("a gap of 1", {"gap": 1, "distances": range(1, 9)}),
]
GOOD_LARGEST = [
    ("no largest distance", {"largest": ()}), ("the greatest largest distance", {"largest": [LARGEST]}),
    ("the greatest largest distances", {"distances": HUNDREDS, "largest": [LARGEST] * 8}),
    ("the least largest distances", {"distances": HUNDREDS, "largest": HUNDREDS}),
    ("largest distances of 0", {"distances": [0, 0, 1], "largest": [0, 0, 1]}),
    ("largest distances that stay", {"distances": [100, 150], "largest": [150, 150]}),
]

# Number, what a row has that is refused, and its fields.
BAD_FIELDS = [
    (4, "id 0", {"id": 0}),
    *((5, f"{field} {value}", {field: value}) for field in ("kind", "overload") for value in (2, 255)),
    *((6, f"deadline {value}", {"deadline": value}) for value in (0, TIME + 1, U32)),
    *((28, f"list length {value}", {"distances": HUNDREDS, "listed": value})
      for value in (0, 9, 255, 256, 264, 2**16 + 8, 2**32, 2**32 + 1, 2**63, 2**64 - 1)),
    *((9, f"task count {value}", {"tasks": [(5, 10)] * 16, "count": value})
      for value in (0, 17, 255, 256, 272, 2**16 + 16, 2**32, 2**32 + 1, 2**63, 2**64 - 1)),
    (29, "a distance above the greatest", {"gap": 0, "distances": [TIME + 1]}),
    (29, "a distance of 2^32 - 1", {"distances": [U32]}),
    (30, "one distance of 0", {"distances": [0]}), (30, "eight distances of 0", {"gap": 0, "distances": [0] * 8}),
]
BAD_GAPS = [
    *((7, f"gap {value}", {"gap": value}) for value in (TIME + 1, U32)),
    (31, "a gap below the only distance", {"gap": 99}), (31, "a gap of 1", {"gap": 1, "distances": [2]}),
]
BAD_LARGEST = [
    *((33, f"flag {value}", {"flag": value}) for value in (2, 3, 128, 255)),
    (33, "a largest distance above the greatest", {"largest": [LARGEST + 1]}),
    (33, "a largest distance of 2^32 - 1", {"largest": [U32]}),
    (33, "a largest distance below the only one", {"largest": [99]}), (33, "a largest distance of 0", {"largest": [0]}),
]


def with_place(values, place, value):
    """These values with another at a place, counted from 1."""
    return (*values[:place - 1], value, *values[place:])


def bad_places(of):
    """A fault in each place of a list, and of some tasks."""
    for place in range(2, 9):
        yield 29, f"distance {place} falls", {"gap": 0, "distances": with_place(HUNDREDS, place, 100 * place - 101)}
    for place in range(1, 9):
        yield 29, f"distance {place} is too large", {"gap": 0, "distances": HUNDREDS[:place - 1] + (TIME + 1,) * (9 - place)}
        if not of.has_largest:
            yield 31, f"distance {place} is above what the gap allows", {
                "distances": with_place(HUNDREDS, place, 100 * place + 1)}
    for place in (1, 2, 15, 16):
        for task in ((0, 10), (5, 0), (5, 1_000_001), (5, U32)):
            yield 10, f"task {place} is {task}", {"tasks": with_place([(5, 10)] * 16, place, task)}


def bad_largest_places():
    """A fault in each place of a largest list, beside distances that allow it to fall."""
    for place in range(1, 9):
        if place > 1:
            yield 33, f"largest distance {place} falls", {
                "distances": range(1, 9), "largest": with_place(HUNDREDS, place, 100 * place - 101)}
        yield 33, f"largest distance {place} is too large", {
            "distances": range(1, 9), "largest": HUNDREDS[:place - 1] + (LARGEST + 1,) * (9 - place)}
        yield 33, f"largest distance {place} is below the smallest", {
            "distances": HUNDREDS, "largest": with_place(HUNDREDS, place, 100 * place - 1)}


def fields_of(of):
    """Numbers, 0 for what is accepted, what a row has, and its fields."""
    if of.has_largest:
        return [*((0, *good) for good in GOOD_FIELDS + GOOD_LARGEST), *BAD_FIELDS, *BAD_LARGEST, *bad_places(of),
                *bad_largest_places()]
    return [*((0, *good) for good in GOOD_FIELDS + GOOD_GAPS), *BAD_FIELDS, *BAD_GAPS, *bad_places(of)]


def limits(of):
    """Rows with these fields alone, between two others, and with junk where a write does not look."""
    for turn, (number, what, fields) in enumerate(fields_of(of)):
        alone, between = (of.row(**fields),), (of.row(id=1), of.row(**fields), of.row(id=3))
        for where, rows in (("alone", alone), ("between", between), ("between, junk", all_with_junk(between, turn))):
            yield f"{of}: {what}, {where}", rows, MUCH_ROOM, number
    for ids in ((7, 7), (7, 8, 7), (*range(1, 16), 1), (*range(1, 16), 15)):
        yield f"{of}: ids {ids}", tuple(of.row(id=i, tasks=[(5, 10)]) for i in ids), MUCH_ROOM, 4


# ---- Rows and room ----

def numbers_of_rows(of):
    """16 rows, 64 tasks, and more of each; a count of rows that a byte would cut to 16."""
    _, sixteen, wide = rows_of_form(of)
    more = tuple(of.row(id=i, tasks=[(5, 10)]) for i in range(101, 400))
    for what, rows, number in (
        ("no row", (), 11), ("16 rows", sixteen, 0), ("17 rows", sixteen + more[:1], 11),
        ("40 rows", sixteen + more[:24], 11), ("272 rows", sixteen + more[:256], 11),
        ("40 rows, none of them good", (of.row(id=0),) * 40, 4),
        ("64 tasks", wide, 0), ("65 tasks", wide + more[:1], 9),
        ("64 tasks, and then 16", wide + (of.row(tasks=[(5, 10)] * 16),), 9),
        ("60 tasks, and then 5", sixteen[:15] + (of.row(id=16, tasks=[(5, 10)] * 5),), 9),
    ):
        for room in (MUCH_ROOM, of.form.longest) + ((4, 0) if number else ()):
            yield f"{of}: {what}, {room} bytes of room", rows, room, number


def rooms(of):
    """Just the room that a table needs, less and more."""
    good, _, wide = rows_of_form(of)
    full = tuple(of.row(id=i + 1, distances=HUNDREDS, tasks=[(5, 10)] * 4) for i in range(16))
    lengths = (41, 78, 600, 1748) if of.has_largest else (40, 76, 596, 1284)
    for length, what, rows in zip(lengths, ("one row", "two rows", "64 tasks", "all that fits in a table"),
                                  ((good,), (good, of.row()), wide, full)):
        for turn, room in enumerate((length, length + 1, length + 200, length - 1, length - 4, 4, 3, 1, 0)):
            yield f"{of}: {what}, {room} bytes of room", all_with_junk(rows, turn), room, 0 if room >= length else 24


# ---- All of them ----

def must_agree(name, told, found):
    if told != found:
        sys.exit(f"{name}: the case says {told}, the documents {found}")


def calls():
    """Every write that is tried: its name, its rows and its room."""
    for name, rows, room, told in of_file():
        must_agree(name, told, write(rows, room))
        yield name, rows, room
    for name, rows, room, number in [one for of in (OLD, NEW) for one in (*limits(of), *numbers_of_rows(of), *rooms(of))]:
        must_agree(name, number, write(rows, room).number)
        yield name, rows, room
    for name, call, _ in orders.calls(orders.WRITE):
        yield name, *call


def packed(rows, room):
    found = write(rows, room)
    return (struct.pack("<H", len(rows)) + in_memory(rows, PADDING) + struct.pack("<HIH", room, found.number, len(found.table))
            + found.table)


def everything():
    return [packed(rows, room) for _, rows, room in calls()]
