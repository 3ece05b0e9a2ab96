"""The conversion of document 02, request 7, between the two forms of a table, written from its words, over the reader of
stored.py and the rows of written.py."""
from collections import namedtuple

from records import CG, CH, form_at, stored
from stored import ACCEPTED, TIME, verdict
from written import PLACES, filled, form_number, record_of, rows_of

# What a conversion comes to: its number, 0 where it is accepted, and then the result.
Converted = namedtuple("Converted", "number result")


def steps(row, gap):
    """1, 2, 3, .. times a gap, as many as are listed."""
    return filled([turn * gap for turn in range(1, row.listed + 1)], PLACES)


def with_largest(row):
    """A row of the form CH in the form CG."""
    return row._replace(form=form_number(CG.mark), gap=0, flag=int(row.gap > 0), largest=steps(row, row.gap))


def with_gap(row):
    """A row of the form CG in the form CH, None where it has none."""
    gap = row.largest[0] if row.flag else 0
    if gap > TIME or row.largest != steps(row, gap):
        return None
    return row._replace(form=form_number(CH.mark), gap=gap, flag=0, largest=filled((), PLACES))


def convert(table, form, room):
    """What the conversion to a form, into a buffer of so many bytes, comes to."""
    told = verdict(table)
    if told != ACCEPTED:
        return Converted(told.number, b"")
    if form_at(table, 0) == form:
        return Converted(34, b"")
    found = [with_largest(row) if form == CG else with_gap(row) for row in rows_of(table)]
    if None in found:
        return Converted(34, b"")
    result = stored(*map(record_of, found))
    return Converted(0, result) if len(result) <= room else Converted(24, b"")
