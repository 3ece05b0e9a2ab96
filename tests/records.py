"""The records of a stored table, laid out from document 01 and document 02, request 7, for the cases; users have the library's
writer."""
import struct
from collections import namedtuple

# Little-endian (docs/TABLE.md). A chain record is its fixed part, its distances, with flag 1 as many largest ones, and its tasks.
Fixed = namedtuple("Fixed", "mark id kind overload deadline gap flag listed tasks")
# A form of it: how its fixed part is packed, where each field of that begins, None for one that it has not, and the greatest
# length of a table.
Form = namedtuple("Form", "mark layout at longest")
CH = Form(b"CH", struct.Struct("<2sHBBIIBB"), Fixed(0, 2, 4, 5, 6, 10, None, 14, 15), 1284)
CG = Form(b"CG", struct.Struct("<2sHBBIBBB"), Fixed(0, 2, 4, 5, 6, None, 10, 11, 12), 1748)
FORMS = {form.mark: form for form in (CH, CG)}
MARK = 2  # bytes of a mark
TASK_MARK, END_MARK = b"TK", b"EN"
DISTANCE = struct.Struct("<I")
TASK = struct.Struct("<2sHI")  # mark, priority, cost
END = struct.Struct("<2sH")  # mark, number of chains


def laid_out(fixed, distances, largest, tasks):
    """A chain record of these parts, whatever its counts and its flag say; a task is its priority and its cost."""
    form = FORMS[fixed.mark]
    fields = (value for value, at in zip(fixed, form.at) if at is not None)
    return (form.layout.pack(*fields) + b"".join(map(DISTANCE.pack, (*distances, *largest)))
            + b"".join(TASK.pack(TASK_MARK, *task) for task in tasks))


def chain(id, kind, overload, deadline, gap, distances, tasks):
    """A chain record of the form CH."""
    return laid_out(Fixed(CH.mark, id, kind, overload, deadline, gap, 0, len(distances), len(tasks)), distances, (), tasks)


def bursty(id, kind, overload, deadline, largest, distances, tasks):
    """A chain record of the form CG, without largest distances where there are none here."""
    fixed = Fixed(CG.mark, id, kind, overload, deadline, 0, int(len(largest) > 0), len(distances), len(tasks))
    return laid_out(fixed, distances, largest, tasks)


def end(count):
    return END.pack(END_MARK, count)


def stored(*chains):
    """The table of these chain records."""
    return b"".join(chains) + end(len(chains))


def form_at(s, at):
    """The form of the record that begins here, None where it is no chain record."""
    return FORMS.get(s[at:at + MARK])


def fixed_part(s, at):
    """The fixed part of a chain record, 0 for the field that its form has not."""
    form = form_at(s, at)
    fields = iter(form.layout.unpack_from(s, at))
    return Fixed(*(0 if place is None else next(fields) for place in form.at))


def record_length(fixed):
    """Bytes of a chain record, by its two counts and its flag: with flag 1 it has two lists."""
    listed = fixed.listed * (2 if fixed.flag == 1 else 1)
    return FORMS[fixed.mark].layout.size + DISTANCE.size * listed + TASK.size * fixed.tasks
