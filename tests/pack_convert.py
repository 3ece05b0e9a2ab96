"""Cases of a conversion with known answers, packed for the program convert_vectors.

After those of tests/cases/convert.jsonl, each held against the conversion from the words (converted.py), come those made here:
gaps and largest distances at their limits, lists of every length, the chain without a gap in each place, and full tables. Each
of them has just the room that it needs, less and more, and is asked for both forms. What is accepted is converted back. Last
come the cases that only an order decides (orders.py).

A packed case, every number little-endian:

    u8   form asked: 0 for CH (mishtodran_to_gap), 1 for CG (mishtodran_to_largest)
    u16  bytes of the table; then the bytes
    u16  bytes of the buffer for the result
    u32  refusal number, 0 where the conversion is accepted
    u16  bytes of the result, 0 where it is refused; then the bytes
"""
import struct
import sys

import orders
import pack
from converted import Converted, convert
from faults import NEW, OLD
from orders import MUCH_ROOM
from records import CG, CH, FORMS, stored
from stored import LARGEST, TIME

ASKED = (CH, CG)


# ---- Cases of the file ----

def of_file():
    for turn, case in enumerate(pack.cases("convert"), 1):
        name, call = f"convert:{turn}", (bytes.fromhex(case["table"]), FORMS[case["form"].encode("ascii")], case["room"])
        told = Converted(case["rc"], bytes.fromhex(case.get("result", "")))
        if convert(*call) != told:
            sys.exit(f"{name}: the case says {told}, the documents {convert(*call)}")
        yield name, call


# ---- Tables that are made here ----

def multiples(gap, count):
    return [turn * gap for turn in range(1, count + 1)]


def gaps():
    """Tables in the form CH: gaps at their limits, and lists of every length."""
    for gap in (0, 1, 2, 100, TIME - 1, TIME):
        for count in (1, 2, 7, 8):
            yield f"gap {gap}, {count} distances", stored(OLD.record(gap=gap, distances=range(1, count + 1)))
    yield "the sample", pack.SAMPLE
    yield "the case study", pack.STUDY
    yield "all that fits in CH", OLD.full
    yield "all that fits in CG", stored(*(OLD.record(id=i + 1, gap=200, distances=range(100, 900, 100), tasks=[(5, 10)] * 4)
                                          for i in range(16)))


# Largest distances beside distances that allow them: first those of a gap, then those of one too large, and of none.
SHAPES = [
    ((), "none"), (multiples(TIME, 8), "those of the greatest gap"), (multiples(1, 8), "those of the least gap"),
    ([TIME], "the greatest gap"), (multiples(TIME + 1, 7), "those of a gap too large"), ([TIME + 1], "a gap too large"),
    ([LARGEST], "the greatest"), ([0, 2], "0 first"), ([5, 5], "one that stays"), ([5, 9], "one below"), ([5, 11], "one above"),
]


def largest():
    """Tables in the form CG: largest distances of a gap and of none, and one of none in each place."""
    for distances, what in SHAPES:
        smallest = [min(turn, *distances[turn - 1:turn]) for turn in range(1, len(distances) + 1)] or [1]
        yield f"largest distances, {what}", stored(NEW.record(distances=smallest, largest=distances))
    for count in (3, 8):
        for place in range(count):
            distances = multiples(5, count)
            distances[place] += 1
            yield f"{count} largest distances, another at {place + 1}", stored(
                NEW.record(distances=range(1, count + 1), largest=distances))
    odd, even = ({"distances": (1, 2), "largest": distances} for distances in ((5, 11), (5, 10)))
    for place in range(4):
        yield f"no gap in chain {place + 1} alone", stored(*(NEW.record(id=i + 1, **(odd if i == place else even))
                                                             for i in range(4)))
    yield "some known, some not", stored(NEW.good, NEW.record(largest=()), NEW.record(id=3, largest=(70_000,)))
    yield "the telemetry", pack.TELEMETRY
    yield "a full table", NEW.full


def made():
    """Each of these for both forms, with just the room that it needs, less and more; and its result, back."""
    for name, table in [*gaps(), *largest()]:
        for form in ASKED:
            found = convert(table, form, MUCH_ROOM).result
            length = len(found) or len(table)
            yield from ((f"{name}, {room} bytes of room", (table, form, room))
                        for room in (length, length - 1, length + 64, 0, CG.longest))
            if found:
                yield f"{name}, and back", (found, CG if form == CH else CH, len(table))


# ---- All of them ----

def calls():
    """Every conversion that is tried: its name, and table, form and room."""
    return [*of_file(), *made(), *((name, call) for name, call, _ in orders.calls(orders.CONVERT))]


def packed(table, form, room):
    found = convert(table, form, room)
    return (struct.pack("<BH", ASKED.index(form), len(table)) + table
            + struct.pack("<HIH", room, found.number, len(found.result)) + found.result)


def everything():
    return [packed(*call) for _, call in calls()]
