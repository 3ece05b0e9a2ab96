"""Cases of the C entries, packed for tests/entries.c.

A report of tests/cases has a table and its text alone: its buffers are made here, as long as the text, longer, or too short.
After the cases of the files come those that the documents tell or that follow from their words (pack.py), those that only an
order decides (orders.py), and answer buffers too short for each of them. Every table of all these is checked too. Then come the
shapes of pack_save.py, the merges of pack_merge.py, each with its conflicts one after the other, the writes of pack_write.py,
the conversions of pack_convert.py and the salvages of pack_salvage.py. Last, every table and every result is read into rows, too
few of them too, its records are found, and the rows that were read are written back.

A miss query of any of these is asked of the other two entries that answer with misses too (pack_misses.py).

Packed, little-endian: for each case the entry (1 byte: 0 latency, 1 misses, 2 segment, 3 save, 4 report, 5 check, 6 merge,
7 conflict, 8 read, 9 write, 10 record, 11 misses plain, 12 misses at most, 13 to largest, 14 to gap, 15 salvage); its name (1 byte
of length, text); three numbers (8 bytes each: id; id, k; a, b, n; used; none; none; none; above; how many rows are filled, which
is not lent; none; id; id, k; id, k; none; none; none); what it returns (4 bytes); then the slices.
Before the call, the table or buffer, the old record, the new record, the text and the answer: 2 bytes of length and the bytes;
or 65,535 and 2 bytes of length, for as many bytes of junk (`lent`); or 65,534 alone, where they are those of the case before.
After it the table or buffer, the text and the answer: 2 bytes, how many of the first bytes to compare with those that follow;
the others stay. The ancestor of a merge stands in the table's place, its copies in those of the records, and its buffer in that
of the text. So does the buffer of a write, whose rows are in the table's place, and that of a conversion; the rows of a read are
in that of the text. The input of a salvage stands in the old record's place, the buffer for its table in the table's, and that for
its list in the text's. Rows are packed as they stand in memory.
Of all that, bytes of 0 that stand in a row are packed as a 0 and a byte that says how many there are, up to 255.
"""
import re
import struct
from collections import namedtuple

import orders
import pack
import pack_convert
import pack_merge
import pack_misses
import pack_salvage
import pack_save
import pack_write
from converted import convert
from merged import conflicts, first_fault, merge, next_conflict
from records import CG, fixed_part
from salvaged import salvage
from stored import NUMBERS, records
from written import ROW, in_memory, rows_of, write

JUNK, AS_BEFORE = 65535, 65534
ANSWER_BYTES = {"latency": 16, "misses": 4, "segment": 8, "save": 4, "report": 4, "check": 8, "merge": 4, "conflict": 4,
                "read": 4, "write": 4, "record": 8, "misses_plain": 4, "misses_at_most": 4, "to_largest": 4, "to_gap": 4,
                "salvage": 8}
ENTRIES = [*ANSWER_BYTES]

# A call of an entry, what it returns, and the slices lent to it, in the order in which they are packed: `before` all of them,
# `after` those that may change, None where one does not.
Call = namedtuple("Call", "entry name numbers rc before after")


def call(entry, name, numbers, rc, table, answer, after=None, old=b"", new=b"", table_after=None, text=b"", text_after=None):
    for before, changed in ((table, table_after), (text, text_after), (answer, after)):
        assert changed is None or len(changed) == len(before), f"{name}: a slice changes its length"
    return Call(entry, name, [*numbers, 0, 0, 0][:3], rc, (table, old, new, text, answer), (table_after, text_after, after))


# ---- Packing ----

LENT = bytes((0x5A + 11 * i) % 256 for i in range(256)) * 255


def lent(length):
    """Bytes of a buffer before a call."""
    return LENT[:length]


def packed_before(data, last):
    """A slice before the call, after one that had these bytes in its place."""
    assert len(data) < AS_BEFORE
    if data == last:
        return struct.pack("<H", AS_BEFORE)
    return struct.pack("<HH", JUNK, len(data)) if data == lent(len(data)) else struct.pack("<H", len(data)) + data


def packed_after(before, after):
    """A slice after the call, up to the last byte that has changed."""
    changed = 0 if after is None else len(after)
    while changed and after[changed - 1] == before[changed - 1]:
        changed -= 1
    return struct.pack("<H", changed) + (after or b"")[:changed]


def packed(one, last):
    """A call, after one that lent these slices."""
    label, (table, _, _, text, answer) = one.name.encode()[:255], one.before
    return b"".join([
        struct.pack("<BB", ENTRIES.index(one.entry), len(label)), label, struct.pack("<QQQI", *one.numbers, one.rc),
        *map(packed_before, one.before, last), *map(packed_after, (table, text, answer), one.after)])


def written(answer, buffer):
    return answer + buffer[len(answer):]


# ---- Cases of the files ----

def bytes_of(case, key):
    return None if case.get(key, "=") == "=" else bytes.fromhex(case[key])


def entry_of(case):
    """The entry and its numbers."""
    if "used" in case:
        return "save", (case["used"],)
    if "n" in case:
        return "segment", (case["a"], case["b"], case["n"])
    if "k" in case:
        return "misses", (case["id"], case["k"])
    return "latency", (case["id"],)


def of_file(name, turn, case):
    """One case of a file, or the cases of its report."""
    name = f"{name}:{turn} {case['tag']}"
    if "text" in case:
        return reports(name, turn, bytes.fromhex(case["table"]), case["text"].encode("ascii"))
    entry, numbers = entry_of(case)
    table = bytes_of(case, "buffer" if entry == "save" else "table")
    return [call(entry, name, numbers, case["rc"], table, bytes_of(case, "answer"), bytes_of(case, "after"),
                   old=bytes_of(case, "old") or b"", new=bytes_of(case, "new") or b"",
                   table_after=bytes_of(case, "buffer_after"))]


def accepted_report(name, table, told, text, answer):
    return call("report", name, (), 0, table, answer, written(struct.pack("<I", len(told)), answer), text=text,
                  text_after=written(told, text))


def reports(name, turn, table, told):
    """The text in a buffer that it just fits or a longer one, by turns; and every third time one that is refused."""
    longer = (0, 1, 0, 200)[turn % 4]
    found = [accepted_report(f"{name}, {longer} bytes more", table, told, lent(len(told) + longer), lent(4 + turn % 3))]
    short = len(told) - 1
    if turn % 3 == 0:
        refused = ((24, short, 4), (27, short + 1, 3), (24, 0, 8), (27, short, 3), (27, 0, 0))
        rc, room, answer = refused[turn // 3 % len(refused)]
        found.append(call("report", f"{name}, {room} bytes of text", (), rc, table, lent(answer), text=lent(room)))
    return found


# ---- Misses a second way, and a number that they do not exceed ----

def of_misses(entry, found):
    """Each of these queries, with what is told of it; and 27 before it."""
    for turn, (query, told) in enumerate(found):
        answer, (table, *numbers) = lent(ANSWER_BYTES[entry] + turn % 3), query.asked
        after = written(struct.pack("<I", told.answer), answer) if told.number == 0 else None
        yield call(entry, f"{entry}, {query.name}", numbers, told.number, table, answer, after)
        yield call(entry, f"{entry}, 27 before {query.name}", numbers, 27, table, lent(turn % 4))


# ---- Cases by the documents' words ----

def documented():
    for table, ident, rc, k, latency, late, margin in pack.LATENCIES:
        answer = lent(16 + 3)
        after = written(struct.pack("<IIIi", k, latency, late, margin), answer) if rc == 0 else None
        yield call("latency", f"by the words: chain {ident}", (ident,), rc, table, answer, after)
    for table, ident, k, misses in pack.MISSES + [one[:4] for one in pack.AT_MOST]:
        name = f"by the words: chain {ident}, k {k}, misses {misses}"
        yield call("misses", name, (ident, k), 0, table, lent(4), struct.pack("<I", misses))
    for turn, (table, told) in enumerate(pack.REPORTS, 1):
        told = told.encode("ascii")
        for more in (0, 1):
            yield accepted_report(f"by the words: report {turn}, {more} bytes more", table, told, lent(len(told) + more), lent(4))
        for rc, room, answer in ((24, len(told) - 1, 4), (27, len(told) - 1, 3), (27, len(told), 0)):
            yield call("report", f"by the words: report {turn}, {room} bytes of text", (), rc, table, lent(answer), text=lent(room))


# ---- Cases that only an order decides ----

def ordered():
    """Every call of orders.py: its entry, name, numbers, table, old and new record, what it returns, and its figures."""
    for name, table, told in orders.calls(orders.READING):
        yield "latency", name, (1,), table, b"", b"", told.number, []
    for entry, pairs in (("latency", orders.LATENCY), ("misses", orders.MISSES), ("segment", orders.SEGMENT)):
        for name, (table, *numbers), told in orders.calls(pairs):
            yield entry, name, numbers, table, b"", b"", *orders.returned(told)
    for name, (buffer, used, old, new), rc in orders.calls(orders.SAVE):
        yield "save", name, (used,), buffer, old, new, rc, []


def two_refusals():
    for entry, name, numbers, table, old, new, rc, figures in ordered():
        after = struct.pack("<I", *figures) if rc == 0 else None
        yield call(entry, name, numbers, rc, table, lent(ANSWER_BYTES[entry]), after, old, new)


def short_answers():
    """27 before each other number: an answer buffer one byte too short, or none."""
    for turn, (entry, name, numbers, table, old, new, rc, _) in enumerate(ordered()):
        if entry != "latency" or rc not in NUMBERS:
            answer = lent(0 if turn % 5 == 0 else ANSWER_BYTES[entry] - 1)
            yield call(entry, f"27 before {name}", numbers, 27, table, answer, old=old, new=new)
    for number, table in orders.REFUSED:
        for entry, numbers in (("latency", (1,)), ("misses", (1, 10)), ("misses_plain", (1, 10)), ("misses_at_most", (1, 10)),
                               ("segment", (1, 2, 1)), ("save", (len(table),)), ("check", ()), ("to_largest", ()),
                               ("to_gap", ())):
            yield call(entry, f"27 before {number}", numbers, 27, table, lent(ANSWER_BYTES[entry] - 1))
        yield call("report", f"27 before 24, a table refused {number}", (), 27, table, lent(3), text=lent(9))


# ---- Saves ----

def saves():
    """Each shape of a save, and 27 for it."""
    for turn, (table, used, old, new, number, length, after) in enumerate(pack_save.made()):
        answer, accepted = lent(ANSWER_BYTES["save"] + turn % 3), number == 0
        yield call("save", f"save, shape {turn + 1}", (used,), number, table, answer, old=old, new=new,
                   after=written(struct.pack("<I", length), answer) if accepted else None,
                   table_after=after if accepted else None)
        yield call("save", f"save, 27 before shape {turn + 1}", (used,), 27, table, lent(turn % 4), old=old, new=new)


# ---- Every table, checked ----

def checks():
    """The answer in a buffer that it just fits or a longer one, by turns; and every fourth time one that is too short."""
    for turn, (name, table, told) in enumerate(pack.tables()):
        answer = lent(ANSWER_BYTES["check"] + (0, 1, 0, 5)[turn % 4])
        yield call("check", f"check, {name}", (), 0, table, answer, written(struct.pack("<II", *told), answer))
        if turn % 4 == 0:
            short = lent((7, 0, 4, 1)[turn // 4 % 4])
            yield call("check", f"check, {name}, {len(short)} bytes of answer", (), 27, table, short)


# ---- Merges ----

def of_merge(name, tables, room, spare):
    """The merge, into an answer buffer that has so many bytes to spare."""
    ancestor, first, second = tables
    found, buffer, answer = merge(*tables, room), lent(room), lent(ANSWER_BYTES["merge"] + spare)
    accepted = found.number == 0
    return call("merge", name, (), found.number, ancestor, answer, old=first, new=second, text=buffer,
                  after=written(struct.pack("<I", len(found.result)), answer) if accepted else None,
                  text_after=written(found.result, buffer) if accepted else None)


def of_conflicts(name, tables, spare):
    """The conflicts one after the other, up to the answer 0; then, where there are some, those just below one, and above ids
    that no table can have. Of a refused table one call."""
    ancestor, first, second = tables
    answer, number = lent(ANSWER_BYTES["conflict"] + spare), first_fault(*tables).number
    found = [] if number else conflicts(*tables)
    for above in [0, *found] + ([found[-1] - 1, 65_536, 2**32 - 1] if found else []):
        after = None if number else written(struct.pack("<I", next_conflict(tables, above)), answer)
        yield call("conflict", f"{name}, conflicts above {above}", (above,), number, ancestor, answer, after, first, second)


def merges():
    """Each merge, its conflicts, and 27 for both; it comes before all else, so a short buffer will do for that."""
    for turn, (name, (*tables, room)) in enumerate(pack_merge.calls()):
        yield of_merge(name, tables, room, turn % 3)
        yield from of_conflicts(name, tables, (0, 0, 1, 5)[turn % 4])
        ancestor, first, second = tables
        for entry, length, buffer in (("merge", turn % 4, lent(min(room, 8))), ("conflict", 3 - turn % 4, b"")):
            yield call(entry, f"{entry}, 27 before {name}", (), 27, ancestor, lent(length), old=first, new=second, text=buffer)


# ---- Conversions ----

def conversions():
    """Each conversion, and 27 for it; that comes before all else, so a short buffer will do for it."""
    for turn, (name, (table, form, room)) in enumerate(pack_convert.calls()):
        entry, found = "to_largest" if form == CG else "to_gap", convert(table, form, room)
        buffer, answer = lent(room), lent(ANSWER_BYTES[entry] + turn % 3)
        accepted = found.number == 0
        yield call(entry, f"{entry}, {name}", (), found.number, table, answer, text=buffer,
                   after=written(struct.pack("<I", len(found.result)), answer) if accepted else None,
                   text_after=written(found.result, buffer) if accepted else None)
        yield call(entry, f"{entry}, 27 before {name}", (), 27, table, lent(turn % 4), text=lent(min(room, 8)))


# ---- Salvages ----

def salvages():
    """Each salvage, and 27 for it; that comes before all else, so short buffers will do for it."""
    for turn, (name, (s, room, list_room)) in enumerate(pack_salvage.calls()):
        found, answer = salvage(s, room, list_room), lent(ANSWER_BYTES["salvage"] + turn % 3)
        buffer, listed, accepted = lent(room), lent(list_room), found.number == 0
        yield call("salvage", f"salvage, {name}", (), found.number, buffer, answer, old=s, text=listed,
                   after=written(struct.pack("<II", len(found.table), len(found.list)), answer) if accepted else None,
                   table_after=written(found.table, buffer) if accepted else None,
                   text_after=written(found.list, listed) if accepted else None)
        yield call("salvage", f"salvage, 27 before {name}", (), 27, lent(min(room, 8)), lent(turn % 8), old=s,
                   text=lent(min(list_room, 8)))


# ---- Rows ----

def of_write(name, rows, room, spare):
    """The write, into an answer buffer that has so many bytes to spare."""
    found, buffer, answer = write(rows, room), lent(room), lent(ANSWER_BYTES["write"] + spare)
    accepted = found.number == 0
    return call("write", name, (), found.number, in_memory(rows, pack_write.PADDING), answer, text=buffer,
                after=written(struct.pack("<I", len(found.table)), answer) if accepted else None,
                text_after=written(found.table, buffer) if accepted else None)


def writes():
    """Each write, and 27 for it; that comes before all else, so a short buffer will do for it."""
    for turn, (name, rows, room) in enumerate(pack_write.calls()):
        yield of_write(name, rows, room, turn % 3)
        yield call("write", f"write, 27 before {name}", (), 27, in_memory(rows, pack_write.PADDING), lent(turn % 4),
                   text=lent(min(room, 8)))


def of_read(name, table, number, room, spare):
    """The read into so many rows, full of junk; where it is accepted, its number is how many it fills."""
    rows, answer = lent(ROW.size * room), lent(ANSWER_BYTES["read"] + spare)
    found = [] if number else rows_of(table)
    if number or len(found) > room:
        return call("read", f"{name}, {room} rows", (), number or 24, table, answer, text=rows)
    return call("read", f"{name}, {room} rows", (len(found),), 0, table, answer, written(struct.pack("<I", len(found)), answer),
                text=rows, text_after=written(in_memory(found), rows))


def reads(turn, name, table, number):
    """A refused table into none to three rows. An accepted one into as many as it has chains, or more; and into too few."""
    if number:
        return [of_read(name, table, number, turn % 4, turn % 3)]
    count = len(rows_of(table))
    more, fewer = (0, 1, 0, 16 - count, 40 - count)[turn % 5], (1, count, 1 + count // 2)[turn % 3]
    return [of_read(name, table, 0, count + more, turn % 3), of_read(name, table, 0, count - fewer, turn % 2)]


def of_record(name, table, number, ident):
    answer = lent(ANSWER_BYTES["record"] + ident % 3)
    places = [] if number else [(at, after - at) for at, after in records(table) if fixed_part(table, at).id == ident]
    after = written(struct.pack("<II", *places[0]), answer) if places else None
    return call("record", f"{name}, id {ident}", (ident,), number or (0 if places else 12), table, answer, after)


def finds(turn, name, table, number):
    """The record of each id, and of one that the table has not; of a refused table one call."""
    known = [] if number else [fixed_part(table, at).id for at, _ in records(table)]
    other = next(ident for ident in range(1, 65_536) if ident not in known)
    unknown = (0, other, 65_536 + (known or [1])[0], 2**32 - 1)[turn % 4]
    return [of_record(name, table, number, ident) for ident in [*known, unknown]]


def results():
    """The tables that accepted saves, merges, writes, conversions and salvages come to, each with the name of its case."""
    for turn, case in enumerate(pack.cases("save"), 1):
        if case["rc"] == 0:
            used, = struct.unpack_from("<I", bytes_of(case, "after"))
            yield f"result of save:{turn}", (bytes_of(case, "buffer_after") or bytes_of(case, "buffer"))[:used]
    for name, call_of in pack_merge.calls():
        yield f"result of {name}", merge(*call_of).result
    for name, rows, room in pack_write.calls():
        yield f"result of {name}", write(rows, room).table
    for name, call_of in pack_convert.calls():
        yield f"result of {name}", convert(*call_of).result
    for name, call_of in pack_salvage.calls():
        yield f"result of {name}", salvage(*call_of).table


def known_tables():
    """Every table that is tried anywhere, and every result; with name and number."""
    found = {table: (name, told.number) for name, table, told in pack.tables()}
    for name, table in results():
        if table:  # none where the call is refused
            found.setdefault(table, (name, 0))
    return [(name, table, number) for table, (name, number) in found.items()]


def rows_and_records():
    """Each table read, and its records; every third time 27 for both; and what is read, written back."""
    for turn, (name, table, number) in enumerate(known_tables()):
        yield from reads(turn, f"read, {name}", table, number)
        yield from finds(turn, f"record, {name}", table, number)
        if turn % 3 == 0:
            yield call("read", f"read, 27 before {name}", (), 27, table, lent(turn % 4), text=lent(ROW.size * (turn % 2)))
            yield call("record", f"record, 27 before {name}", (1,), 27, table, lent(turn % 8))
        if number == 0:
            yield of_write(f"written back, {name}", rows_of(table), len(table) + (0, 7, 200)[turn % 3], turn % 2)


def of_files():
    for name in ("latency", "misses", "segment", "save", "report"):
        for turn, case in enumerate(pack.cases(name), 1):
            yield from of_file(name, turn, case)
        for turn, case in pack.in_new_form_too(name) if name != "save" else ():
            yield from of_file(name, turn, case)
    for turn, case in enumerate(pack.cases("sieve"), 1):
        told = pack.told_by_sieve(case)
        for query in ("latency", "misses"):
            yield from of_file("sieve", turn, told[query])


def calls():
    return [*of_files(), *documented(), *two_refusals(), *short_answers(), *of_misses("misses_plain", pack_misses.plain()),
            *of_misses("misses_at_most", pack_misses.at_most()), *checks(), *saves(), *merges(), *writes(),
            *conversions(), *salvages(), *rows_and_records()]


def shortened(data):
    """The bytes with those of 0 counted."""
    return re.sub(rb"\0{1,255}", lambda zeros: bytes([0, len(zeros[0])]), data)


def everything():
    found = calls()
    return [shortened(b"".join(map(packed, found, [(b"",) * 5, *(one.before for one in found)])))]
