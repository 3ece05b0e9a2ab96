"""Cases of a save with known answers, packed for the program save_vectors, and some of them for the C entry (pack_entries.py).

Cases of refusal 27 are left out: it belongs to the C entry, and a save knows no answer buffer. After those of
tests/cases/save.jsonl come the shapes made here: a record that stays as long, grows or shrinks, as the only, first, middle or
last one, with and without room, in both forms; an only record that changes its form; then the cases that only an order decides
(orders.py).

A packed case, every number little-endian:

    u32  bytes of the buffer, B
    u64  used length
    u32  bytes of the old record, O
    u32  bytes of the new record, N
    u32  refusal number, 0 where the save is accepted
    u32  new used length, 0 where it is refused
    B bytes   the buffer
    O bytes   the old record
    N bytes   the new record
    B bytes   the whole buffer afterwards
"""
import struct
from collections import namedtuple

import orders
import pack
from faults import NEW, OLD
from records import stored


# What is lent, the number, 0 where the save is accepted, then the new used length, and the buffer afterwards.
Save = namedtuple("Save", "buffer used old new number length after")


def packed(save):
    assert len(save.after) == len(save.buffer)
    head = struct.pack("<IQIIII", len(save.buffer), save.used, len(save.old), len(save.new), save.number, save.length)
    return head + save.buffer + save.old + save.new + save.after


def of_file():
    for case in pack.cases("save"):
        if case["rc"] == 27:
            continue
        buffer = bytes.fromhex(case["buffer"])
        after = buffer if case["buffer_after"] == "=" else bytes.fromhex(case["buffer_after"])
        length = struct.unpack("<I", bytes.fromhex(case["after"])[:4])[0] if case["rc"] == 0 else 0
        yield Save(buffer, case["used"], bytes.fromhex(case["old"]), bytes.fromhex(case["new"]), case["rc"], length, after)


def shape(records, at, new, room):
    """The save of a new record in the place of this one, which comes to a table; so many bytes follow the table, 0xAA each, to
    see what stays."""
    before, result = stored(*records), stored(*records[:at], new, *records[at + 1:])
    buffer = before + b"\xaa" * room
    if len(buffer) < len(result):
        return Save(buffer, len(before), records[at], new, 24, 0, buffer)
    cleared = result + bytes(max(0, len(before) - len(result)))
    return Save(buffer, len(before), records[at], new, 0, len(result), cleared + buffer[len(cleared):])


def changes(of, ident):
    """A record that stays as long, grows, shrinks, or stays as it is; in the form CG also without its largest distances."""
    yield of.record(id=ident, deadline=30, gap=0)
    yield of.record(id=ident, gap=0, distances=(100, 200), tasks=[(5, 10), (3, 10), (2, 1)])
    yield of.record(id=ident, gap=0, tasks=[(5, 10)])
    yield of.record(id=ident, deadline=39 + ident, gap=0)
    if of.has_largest:
        yield of.record(id=ident, largest=())


def shapes(of):
    """Every place of a record with every change of its length."""
    for count in (1, 3):
        records = [of.record(id=i + 1, deadline=40 + i, gap=0) for i in range(count)]
        for at in range(count):
            for new in changes(of, at + 1):
                yield from (shape(records, at, new, room) for room in (0, 5, 64))
                # a used length of more than 32 bits is above any buffer
                before = stored(*records)
                yield Save(before, len(before) + 2**32, records[at], new, 1, 0, before)


def other_forms():
    """The only record changes its form, and the table has that form and its limit."""
    for one, other in ((OLD, NEW), (NEW, OLD)):
        for new in (other.record(id=1), other.record(id=1, distances=range(100, 900, 100), tasks=[(5, 10)] * 16)):
            yield from (shape([one.good], 0, new, room) for room in (0, 5, 200))


def made():
    """All that are made here."""
    return [*shapes(OLD), *shapes(NEW), *other_forms()]


def two_refusals():
    for _, (buffer, used, old, new), number in orders.calls(orders.SAVE):
        yield Save(buffer, used, old, new, number, 0, buffer)


def everything():
    return [*map(packed, [*of_file(), *made(), *two_refusals()])]
