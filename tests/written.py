"""The rows of document 02, requests 2 and 7, and the write of them, from its words, over the reader of stored.py."""
import struct
from collections import namedtuple

from records import CG, FORMS, MARK, TASK, Fixed, end, fixed_part, laid_out, record_length
from stored import ACCEPTED, distances_at, places, records, verdict_of_records

# A chain, decoded; its form is its mark as a number. Of the 8 distances and the 8 largest `listed` count, of the 16 priorities
# and costs `tasks`; both are 64 bits wide.
Row = namedtuple("Row", "form id kind overload flag deadline gap listed tasks list largest priority cost")
PLACES, TASK_PLACES = 8, 16
MOST_BYTE = 255  # as which a count above it stands
# As mishtodran.h lays it out, with a byte of padding after the flag.
ROW = struct.Struct(f"<HHBBBcIIQQ{PLACES}I{PLACES}I{TASK_PLACES}H{TASK_PLACES}I")
FLAG_FIELDS = Row._fields.index("flag") + 1
assert ROW.size == 192

# What may stand where a write does not look: in a place past a count, or in a field that the row's form has not.
Junk = namedtuple("Junk", "distance priority cost flag gap")

# What a write comes to: its number, 0 where it is accepted, and then the table.
Written = namedtuple("Written", "number table")


def filled(values, count, rest=0):
    """These values, and the rest in the places past them."""
    return (*values, *[rest] * (count - len(values)))


def form_number(mark):
    return int.from_bytes(mark, "little")


def largest_count(one):
    """How many of a row's largest distances count."""
    return one.listed if one.form == form_number(CG.mark) and one.flag == 1 else 0


def with_junk(one, junk):
    """The row with junk wherever a write does not look."""
    form = FORMS[one.form.to_bytes(MARK, "little")]
    return one._replace(flag=junk.flag if form.at.flag is None else one.flag, gap=junk.gap if form.at.gap is None else one.gap,
                        list=filled(one.list[:one.listed], PLACES, junk.distance),
                        largest=filled(one.largest[:largest_count(one)], PLACES, junk.distance),
                        priority=filled(one.priority[:one.tasks], TASK_PLACES, junk.priority),
                        cost=filled(one.cost[:one.tasks], TASK_PLACES, junk.cost))


def in_memory(rows, padding=bytes(1)):
    """The bytes of rows as C lends them."""
    return b"".join(ROW.pack(*one[:FLAG_FIELDS], padding, *one[FLAG_FIELDS:-4], *one.list, *one.largest, *one.priority, *one.cost)
                    for one in rows)


# ---- Reading ----

def row_at(s, at):
    """The row of the chain record that begins here and is whole, 0 in the places past its counts."""
    fixed = fixed_part(s, at)
    distances = distances_at(s, places(fixed, at, 0))
    largest = distances_at(s, places(fixed, at, 1)) if fixed.flag == 1 else []
    after = at + record_length(fixed)
    tasks = [(priority, cost) for _, priority, cost in TASK.iter_unpack(s[after - TASK.size * fixed.tasks:after])]
    priorities, costs = zip(*tasks)
    return Row(form_number(fixed.mark), fixed.id, fixed.kind, fixed.overload, fixed.flag, fixed.deadline, fixed.gap, fixed.listed,
               fixed.tasks, filled(distances, PLACES), filled(largest, PLACES), filled(priorities, TASK_PLACES),
               filled(costs, TASK_PLACES))


def rows_of(table):
    """The rows of an accepted table, in its order."""
    return [row_at(table, at) for at, _ in records(table)]


# ---- Writing ----

def record_of(one):
    """The bytes of a row. A count that no byte holds is outside its range, and so is the greatest byte, at which the reader ends
    before it looks at any place. A form that is neither, `EN` too, which ends no table here, becomes `??`: any unknown mark does."""
    mark = one.form.to_bytes(MARK, "little")
    if mark not in FORMS:
        return b"??"
    fixed = Fixed(mark, one.id, one.kind, one.overload, one.deadline, one.gap, one.flag, min(one.listed, MOST_BYTE),
                  min(one.tasks, MOST_BYTE))
    tasks = zip(one.priority[:one.tasks], one.cost[:one.tasks])
    return laid_out(fixed, one.list[:one.listed], one.largest[:largest_count(one)], tasks)


def write(rows, room):
    """What the write of rows into a buffer of so many bytes comes to."""
    made = b"".join(map(record_of, rows)) + end(len(rows))
    fault = verdict_of_records(made)
    if fault != ACCEPTED:
        return Written(fault.number, b"")
    return Written(0, made) if len(made) <= room else Written(24, b"")
