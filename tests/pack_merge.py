"""Cases of a merge with known answers, packed for the program merge_vectors.

After those of tests/cases/merge.jsonl, each held against the merge written from the words (merged.py), come the shapes made
here: every way in which an id can be there, changed or missing in the three tables; records that move within their table;
additions of both sides; these also with tables in the form CG, and copies of which one is in another form. Each of them has just
the room that it needs, less and more. Last come the cases that only an order decides (orders.py).

A packed case, every number little-endian:

    the ancestor, the first copy, the second copy: each u16, how many bytes, then the bytes
    u16  bytes of the buffer for the result
    u32  refusal number, 0 where the merge is accepted
    u32  detail: the length of the result where it is accepted; refused with 32, the smallest id in conflict; with 24, 0; with
         a table's number, the offset of the field at fault, in the table that is refused or in the result
    u16  bytes of the result, 0 where the merge is refused; then the bytes
    u8   records taken, 0 where a table is refused or an id is in conflict; of each, in the result's order:
         u16 id, u8 copy (1 or 2), u16 offset and u16 length in that copy
"""
import itertools
import struct
import sys

import orders
import pack
from merged import Merge, Taken, merge
from records import chain, end, stored


# ---- Cases of the file ----

def told(case):
    """What a case says that the merge comes to."""
    return Merge(case["rc"], case.get("detail", 0), bytes.fromhex(case.get("table", "")),
                 [Taken(*taken) for taken in case.get("taken", [])])


def of_file():
    for turn, case in enumerate(pack.cases("merge"), 1):
        name, call = f"merge:{turn}", (*pack.tables_in(case), case["room"])
        if merge(*call) != told(case):
            sys.exit(f"{name}: the case says {told(case)[:2]}, the documents {merge(*call)[:2]}, or another result")
        yield name, call


# ---- Shapes ----

def plain(ident, deadline, *tasks):
    """A chain record: synchronous, no overload, no gap known."""
    return chain(ident, 0, 0, deadline, 0, [100], tasks)


FIRST, KEPT, LAST = (plain(ident, 40, (5, 10)) for ident in (9, 3, 300))
# A record as it was, longer, shorter, or missing.
AS_IT_WAS, LONGER, SHORTER = plain(5, 40, (5, 10), (3, 10)), plain(5, 40, (5, 10), (3, 10), (2, 1)), plain(5, 30, (5, 10))
STATES = ((), (AS_IT_WAS,), (LONGER,), (SHORTER,))


def one_id():
    """Every way in which the state of chain 5 can differ between three tables; where it stands differs too."""
    for base, one, two in itertools.product(STATES[:2], STATES[:3], STATES):
        yield stored(*base, KEPT), stored(KEPT, *one), stored(*two, KEPT)


def orders_of_records():
    """Records that move within a copy, and additions: their own, the same in both, and the same in another order."""
    three, moved = stored(FIRST, KEPT, LAST), stored(LAST, FIRST, KEPT)
    new = [plain(ident, 40, (5, 10)) for ident in (8, 2, 70, 1)]
    yield three, moved, stored(KEPT, LAST, FIRST)
    yield three, moved, stored(LAST, plain(3, 50, (5, 10)), FIRST)
    yield three, stored(new[0], FIRST, new[1], KEPT, LAST), stored(new[2], FIRST, KEPT, new[3], LAST)
    yield three, stored(FIRST, KEPT, LAST, *new[:3]), stored(FIRST, KEPT, LAST, *new[:0:-1])
    yield three, stored(LAST, new[1]), stored(new[0], FIRST, LAST)
    yield three, stored(new[0]), stored(new[0], new[1])


def in_new_form(tables):
    return tuple(map(orders.in_new_form, tables))


def converted(ancestor, first, second):
    """Three tables with a copy in the form CG, both, or the ancestor alone."""
    new, one, two = in_new_form((ancestor, first, second))
    return [(ancestor, one, second), (ancestor, first, two), (ancestor, one, two), (new, first, second)]


def other_forms():
    """One side converted, and the other untouched; both; and an edit, a removal or an addition beside it."""
    three, added = stored(FIRST, KEPT, LAST), stored(FIRST, KEPT, LAST, AS_IT_WAS)
    for first, second in ((three, three), (three, stored(FIRST, plain(3, 50, (5, 10)), LAST)), (three, stored(FIRST, LAST)),
                          (three, added), (added, added), (added, three)):
        yield from converted(three, first, second)
    yield from converted(three, stored(AS_IT_WAS), stored(plain(8, 40, (5, 10))))


def shapes():
    plainly = [*one_id(), *orders_of_records()]
    for turn, tables in enumerate([*plainly, *map(in_new_form, plainly), *other_forms()], 1):
        length = sum(one.length for one in merge(*tables, orders.MUCH_ROOM).taken) + len(end(0))
        for room in (length, length - 1, length + 64):
            yield f"shape {turn} of a merge, {room} bytes of room", (*tables, room)


# ---- All of them ----

def calls():
    """Every merge that is tried: its name, and ancestor, first copy, second copy and room."""
    return [*of_file(), *shapes(), *((name, call) for name, call, _ in orders.calls(orders.MERGE))]


def packed(ancestor, first, second, room):
    found = merge(ancestor, first, second, room)
    parts = [struct.pack("<H", len(data)) + data for data in (ancestor, first, second)]
    parts.append(struct.pack("<HII", room, found.number, len(found.result) or found.detail))
    parts.append(struct.pack("<H", len(found.result)) + found.result)
    parts.append(bytes([len(found.taken)]) + b"".join(struct.pack("<HBHH", *taken) for taken in found.taken))
    return b"".join(parts)


def everything():
    return [packed(*call) for _, call in calls()]
