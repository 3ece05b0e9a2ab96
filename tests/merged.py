"""The merge of document 02, request 4, written from its words, over the reader of stored.py."""
from collections import namedtuple

from records import fixed_part, stored
from stored import ACCEPTED, records, verdict

# A record of the result: its id, the copy that it is taken from (1 or 2), and its offset and length there.
Taken = namedtuple("Taken", "id copy at length")
# What a merge comes to: its number, 0 where it is accepted; the id of 32, or the offset of a table's number, else 0; the
# result, where it is accepted; and the records taken, where three accepted tables have no conflict.
Merge = namedtuple("Merge", "number detail result taken")


def first_fault(*tables):
    """The verdict of the first table that is refused, or ACCEPTED."""
    return next((told for told in map(verdict, tables) if told != ACCEPTED), ACCEPTED)


def states(table):
    """The record of each id of an accepted table, in its order. The state of any other id is None."""
    return {fixed_part(table, at).id: table[at:after] for at, after in records(table)}


def conflicts(*tables):
    """The ids whose states in three accepted tables are three, from the smallest on."""
    three = [*map(states, tables)]
    return sorted(ident for ident in {ident for known in three for ident in known}
                  if len({known.get(ident) for known in three}) == 3)


def next_conflict(tables, above):
    """The smallest id in conflict that is greater, or 0."""
    return next((ident for ident in conflicts(*tables) if ident > above), 0)


def records_taken(ancestor, first, second):
    """The records of the result in its order, where no id is in conflict."""
    base, one, two = map(states, (ancestor, first, second))
    found = []
    for ident in dict.fromkeys([*base, *one, *two]):
        state = one.get(ident) if two.get(ident) == base.get(ident) else two.get(ident)
        if state is not None:
            copy, table = (1, first) if one.get(ident) == state else (2, second)
            at = next(at for at, _ in records(table) if fixed_part(table, at).id == ident)
            found.append(Taken(ident, copy, at, len(state)))
    return found


def merge(ancestor, first, second, room):
    """What the merge into a buffer of so many bytes comes to."""
    fault = first_fault(ancestor, first, second)
    if fault != ACCEPTED:
        return Merge(*fault, b"", [])
    smallest = next_conflict((ancestor, first, second), 0)
    if smallest:
        return Merge(32, smallest, b"", [])
    taken = records_taken(ancestor, first, second)
    result = stored(*((first, second)[one.copy - 1][one.at:one.at + one.length] for one in taken))
    if len(result) > room:
        return Merge(24, 0, b"", taken)
    fault = verdict(result)
    return Merge(*fault, result if fault == ACCEPTED else b"", taken)
