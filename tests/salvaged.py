"""The salvage of document 02, request 8, of a damaged table, written from its words, over the reader of stored.py."""
import struct
from collections import namedtuple

from records import fixed_part, form_at, record_length, stored
from stored import chain_fault

LONGEST_INPUT, MOST_CHAINS = 4096, 16
STRETCH = struct.Struct("<II")  # offset, length

# What a salvage is lent: the input, and how many bytes there are for the table and for the list.
Salvage = namedtuple("Salvage", "input room list_room")
# What it comes to: its number, 0 where it is accepted, and then the table and the list.
Salvaged = namedtuple("Salvaged", "number table list")


def is_acceptable(s, at, kept):
    """Whether a whole chain record that can stand beside those kept begins here."""
    form = form_at(s, at)
    if form is None or kept and form != form_at(s, kept[0][0]):
        return False
    before = [fixed_part(s, start) for start, _ in kept]
    return chain_fault(s, at, [one.id for one in before], sum(one.tasks for one in before)) is None


def kept_in(s):
    """The chain records that are kept: where each begins and ends."""
    kept, at = [], 0
    while at < len(s) and len(kept) < MOST_CHAINS:
        if is_acceptable(s, at, kept):
            kept.append((at, at + record_length(fixed_part(s, at))))
            at = kept[-1][1]
        else:
            at += 1
    return kept


def skipped(s, kept):
    """Offset and length of each longest stretch that is skipped: before a record, and after the last where a 16th is missing."""
    starts = [0] + [after for _, after in kept]
    stops = [at for at, _ in kept] + [len(s)] * (len(kept) < MOST_CHAINS)
    return [(start, stop - start) for start, stop in zip(starts, stops) if start < stop]


def salvage(s, room, list_room):
    """What the salvage of an input, into so many bytes for the table and for the list, comes to."""
    if len(s) > LONGEST_INPUT:
        return Salvaged(35, b"", b"")
    kept = kept_in(s)
    if not kept:
        return Salvaged(36, b"", b"")
    table, listed = stored(*(s[at:after] for at, after in kept)), b"".join(STRETCH.pack(*one) for one in skipped(s, kept))
    if len(table) > room or len(listed) > list_room:
        return Salvaged(24, b"", b"")
    return Salvaged(0, table, listed)
