"""Cases with known answers, packed for the program vectors.

A packed case is 28 bytes and a table: kind (1 byte), the number to be given back (1 byte), six numbers (4 bytes each,
little-endian), the table's length (2 bytes), the table. The kinds and their six numbers, 0 where one is not named:

  0 reading   offset of the field at fault; the number is 0 for an accepted table, else the table's
  1 segment   chain, against, number, offset, length
  2 latency   id, K, latency, late, margin + 10,000,000
  3 misses    id, k, misses
  4 report    length of the text, which follows the table
  5 misses    id, k, misses: by the plain engine
  6 at most   id, k, a number that the misses do not exceed

Each different table of any file of tests/cases gives a case of kind 0. Its verdict is worked out by a reader written from the
documents (stored.py), and held against what the case says. Cases of refusal 27 speak of the answer buffer, which these
queries do not have. After the cases of the files come those that only an order decides (orders.py), every start of the
example tables, those that document 01 and the published case study tell, and some at the edges, held here. Each query of these
about a table of CH records, and every second one of the files, is asked of the same table in the form CG too, which moves no
figure. Kinds 5 and 6 are pack_misses.py's.
"""
import json
import struct
import sys

import orders
from faults import NEW, OLD
from orders import alone, apart, backlog, bursts, crowd, edge, edge_of_second, in_new_form, lowly
from records import CH, bursty, chain, form_at, stored
from stored import ACCEPTED, LARGEST, NUMBERS, TIME, TOP, Verdict, records, verdict

CASES = TOP / "tests" / "cases"
QUERY = {"tag", "table", "answer", "rc", "after"}
REFUSED = {"table", "rc", "detail"}
MERGE = {"ancestor", "first", "second", "room", "rc"}
CONVERT = {"table", "form", "room", "rc"}
SALVAGE = {"input", "rc"}
KEYS = {  # of the cases of each file, one set of these; tests/cases/README.md has their meaning
    "latency": [QUERY | {"id"}],
    "misses": [QUERY | {"id", "k"}],
    "segment": [QUERY | {"a", "b", "n"}],
    "save": [{"tag", "buffer", "used", "old", "new", "answer", "rc", "after", "buffer_after"}],
    "report": [{"tag", "table", "text"}],
    "read": [REFUSED, {"table", "rc", "chains"}],
    "faults": [REFUSED],
    "merge": [MERGE | {"table", "taken"}, MERGE | {"taken"}, MERGE | {"detail"}, MERGE | {"detail", "taken"}],
    "write": [{"rows", "room", "rc"}, {"rows", "room", "rc", "table"}],
    "sieve": [{"table", "id", "k", "latency", "misses", "sieve"}],
    "convert": [CONVERT, CONVERT | {"result"}],
    "salvage": [SALVAGE, SALVAGE | {"table", "skipped"}],
}

# The sample table of document 01, the published case study, and a table in the form CG.
SAMPLE, STUDY, TELEMETRY = ((TOP / "examples" / f"{name}.table").read_bytes() for name in ("sample", "case_study", "bursts"))

# 'At the edge': ten tasks of 1,000,000; and one tick more from a free interferer.
LONG = chain(1, 0, 0, 10_000_000, 0, [10_000_000], [(5, 1_000_000)] * 10)
EDGE = stored(LONG)
PAST = stored(LONG, chain(2, 0, 0, 1, 0, [10_000_000], [(9, 1)]))
# A free interferer whose one tick is still within the horizon.
WITHIN = stored(chain(1, 0, 0, 10_000_000, 0, [10_000_000], [(5, 1_000_000)] * 9 + [(5, 999_999)]),
                chain(2, 0, 0, 1, 0, [10_000_000], [(9, 1)]))

# Leading zeros: bursts of three every 100. B(1) = 10, B(2) = 20 and B(3) = 30, where δ(2) = δ(3) = 0 and δ(4) = 100; the
# chain below it waits for all three.
BURSTS = stored(
    chain(1, 0, 0, 15, 0, [0, 0, 100], [(5, 10)]),
    chain(2, 0, 0, 40, 0, [100], [(1, 5)]))


DEFERRED = ((9, 1), (1, 1))


def split(priority, cost):
    """Tasks of one priority that cost this much together."""
    whole, rest = divmod(cost, 1_000_000)
    return [(priority, 1_000_000)] * whole + [(priority, rest)] * (rest > 0)


def below(cost, distances, kind=0, tasks=((9, 1),)):
    """Chain 1 of this cost below chain 2, of cost 1 and with these distances: the window is the least t = cost + η(t)."""
    return stored(chain(1, 0, 0, TIME, TIME, [TIME], split(5, cost)), chain(2, kind, 0, 1000, 0, distances, tasks))


def first_part(cost, distances, deadline):
    """An asynchronous chain of this cost, with a first part of 1: B(q) is the least t = q cost + max(0, η(t) - q)."""
    return stored(chain(1, 1, 0, deadline, 0, distances, [(9, 1), (5, cost - 1)]))


def reaching(gap, cost):
    """Chain 1 of this cost, as rare as its gap, which misses its deadline with overload alone, of cost 1: a run reaches over
    (k - 1) gap + cost + 1, and the misses are one more than the overload's arrivals in that, or k where that is less."""
    return stored(chain(1, 0, 0, cost, gap, [gap], [(5, cost)]), chain(2, 0, 1, 1000, 0, [10, 15], [(9, 1)]))


def reaching_by(largest):
    """The same of cost 1 with these largest distances, at least 2 ticks apart: a run reaches over that of k, and 2."""
    return stored(bursty(1, 0, 0, 1, largest, [2] * len(largest), [(5, 1)]), bursty(2, 0, 1, 1000, (), [10, 15], [(9, 1)]))


def third_of_three(deadline):
    """Three activations of cost 10 whose list is 10, 15, 99, so the third comes 20 after the first, against overload of 20: the
    windows are 30, 40 and 50 long, each 30 after its activation, without overload 10, 20 and 30."""
    return stored(chain(1, 0, 0, deadline, 33, [10, 15, 99], [(5, 10)]), chain(2, 0, 1, 1000, 0, [TIME], [(9, 20)]))


def at_once(largest, of_overload=()):
    """Three activations at once each 99 ticks, 10 each, against overload of 21 each 90 ticks, which may have largest distances:
    B(3) = 51 is late, and a run reaches over the largest distance of k, and 51."""
    return stored(bursty(1, 0, 0, 45, largest, [0, 0, 99], [(5, 10)]), bursty(2, 0, 1, 1000, of_overload, [90], [(9, 21)]))


# Sevens and eights that settle late: δ(8) = 60 and δ(9) = 70, δ(15) = 120, 130, 140, δ(22) = 180 to 210, δ(29) = 240 to 280,
# δ(36) = 300 to 350, δ(43) = 360 by six sevens to δ(49) = 420, and from there on 70 for each eight; the others are as the one
# before. So η(60) = 7, η(70) = 8, η(71) = η(120) = 14, η(121) = 15, η(140) = 16, η(141) = η(180) = 21, η(350) = 40,
# η(351) = η(360) = 42, η(361) = 43, η(420) = 48, η(421) = η(430) = 50.
LATE = [0] * 6 + [60, 70]

# Lists 10, 15: δ(3) = 20, δ(4) = 30 and δ(5) = 40, so η(10) = 1, η(11) = η(20) = 2, η(21) = η(25) = η(26) = η(30) = 3,
# η(31) = η(40) = 4, η(41) = 5. Lists 0, 0, 10, which are three at once: η(10) = 3, η(11) = η(20) = 6, η(21) = 9. Lists 0, 5, 5,
# which are two at once: η(5) = 2, η(6) = η(10) = 4, η(11) = 6. Lists 0, 5, 7: two at once every 5, but the third, fifth and so
# on at 7, 12 and so on: η(5) = 2, η(6) = η(7) = 3, η(8) = η(10) = 4, η(11) = η(12) = 5. Lists 3, 4, 10: δ(3) = 6, δ(4) = 10,
# δ(5) = 13 and δ(6) = 16, so η(4) = η(6) = 2, η(7) = η(10) = 3, η(11) = η(13) = 4, η(14) = 5.
# (distances, cost, window): a window that ends where the next ones come, and with a cost of 1 more, past them
COUNTED = [
    ([10, 15], 9, 10), ([10, 15], 10, 12), ([10, 15], 18, 20), ([10, 15], 19, 22), ([10, 15], 27, 30), ([10, 15], 28, 32),
    ([10, 15], 36, 40), ([10, 15], 37, 42),
    ([0, 0, 10], 7, 10), ([0, 0, 10], 8, 14), ([0, 0, 10], 14, 20), ([0, 0, 10], 15, 24),
    ([0, 5, 5], 3, 5), ([0, 5, 5], 4, 8), ([0, 5, 5], 6, 10), ([0, 5, 5], 7, 13),
    ([0, 5, 7], 3, 5), ([0, 5, 7], 4, 7), ([0, 5, 7], 5, 9), ([0, 5, 7], 6, 10), ([0, 5, 7], 7, 12), ([0, 5, 7], 8, 14),
    ([3, 4, 10], 4, 6), ([3, 4, 10], 5, 8), ([3, 4, 10], 7, 10), ([3, 4, 10], 8, 12), ([3, 4, 10], 9, 13), ([3, 4, 10], 10, 15),
    (LATE, 53, 60), (LATE, 54, 62), (LATE, 62, 70), (LATE, 63, 77), (LATE, 106, 120), (LATE, 107, 122), (LATE, 124, 140),
    (LATE, 125, 146), (LATE, 310, 350), (LATE, 311, 353), (LATE, 318, 360), (LATE, 319, 362), (LATE, 372, 420), (LATE, 373, 423),
    # δ(49) = 480 by eights, δ(50) = 483 by seven sevens, δ(51) = 494 by six of them and an eight: η(483) = 49, η(484) = 50
    ([0] * 6 + [69, 80], 434, 483), ([0] * 6 + [69, 80], 435, 485),
    # where the next came by whole lists, and none comes: δ(3) is no longer 15, δ(4) is not 25
    ([10, 15], 13, 15), ([10, 15], 14, 16), ([10, 15], 22, 25), ([10, 15], 23, 26),
    # millions: one every 2, two every 3, eight every 9; one every 2, though nine are listed no further apart than two
    ([2], 4_999_999, 9_999_998), ([2], 5_000_000, 10_000_000), ([0, 3], 3_333_333, 9_999_999),
    ([0] * 7 + [9], 1_111_111, 9_999_999), ([2] * 8, 4_999_999, 9_999_998), ([2] * 8, 5_000_000, 10_000_000),
    # two every 3, though four are listed no more than 4 apart
    ([0, 3, 4], 3_333_333, 9_999_999),
]


def is_old(table):
    """Whether it is an accepted table of CH records."""
    return form_at(table, 0) == CH and verdict(table) == ACCEPTED


def with_new_form(found):
    """These, and after them those of accepted tables of CH records, with the table in the form CG."""
    return found + [(in_new_form(table), *rest) for table, *rest in found if is_old(table)]


# (table, id, number, K, latency, late, margin)
LATENCIES = with_new_form([
    (SAMPLE, 1, 0, 1, 64, 1, -24),
    (SAMPLE, 2, 0, 1, 5, 0, 95),
    (SAMPLE, 3, 0, 1, 62, 0, 438),
    (SAMPLE, 4, 0, 1, 39, 0, 261),
    (SAMPLE, 5, 12, 0, 0, 0, 0),
    (SAMPLE, 65537, 12, 0, 0, 0, 0),
    (EDGE, 1, 0, 1, 10_000_000, 0, 0),
    (PAST, 1, 16, 0, 0, 0, 0),
    (WITHIN, 1, 0, 1, 10_000_000, 0, 0),
    # windows of exactly 10,000,000 and 10,000,001, the first and the second
    (edge(999_999, 0), 1, 0, 1, 10_000_000, 0, 0),
    (edge(1_000_000, 0), 1, 16, 0, 0, 0, 0),
    (edge_of_second(2), 1, 0, 2, 9_999_999, 0, 1),
    (edge_of_second(3), 1, 16, 0, 0, 0, 0),
    (STUDY, 3, 0, 2, 331, 1, -131),
    (STUDY, 4, 0, 1, 175, 0, 25),
    (backlog(1024, 0, 100), 1, 0, 1024, 1034, 934, -934),
    (backlog(1025, 0, 100), 1, 17, 0, 0, 0, 0),
    # the same with a list that goes on by its first distance, and not by the whole
    (backlog(1024, 0, 100, distances=(11, 11, 30)), 1, 0, 1024, 1034, 934, -934),
    (backlog(1025, 0, 100, distances=(11, 11, 30)), 1, 17, 0, 0, 0, 0),
    # the windows are each 30 after their activation: the third comes 20 after the first, and not 15
    (third_of_three(30), 1, 0, 3, 30, 0, 0), (third_of_three(29), 1, 0, 3, 30, 3, -1),
    (BURSTS, 1, 0, 3, 30, 2, -15),
    (BURSTS, 2, 0, 1, 35, 0, 5),
    *((below(cost, distances), 1, 0, 1, window, 0, TIME - window) for distances, cost, window in COUNTED),
    # millions that leave too little of the time, or none
    (below(5_000_001, [2]), 1, 16, 0, 0, 0, 0),
    (below(5_000_001, [2] * 8), 1, 16, 0, 0, 0, 0),
    (below(3_333_334, [0, 3]), 1, 16, 0, 0, 0, 0),
    (below(1_111_112, [0] * 7 + [9]), 1, 16, 0, 0, 0, 0),
    (below(1_000_000, [1]), 1, 16, 0, 0, 0, 0),
    (below(1, [0] * 7 + [1]), 1, 16, 0, 0, 0, 0),
    (below(1, [1] * 8), 1, 16, 0, 0, 0, 0),
    # deferred, synchronous: once; asynchronous: once, and with each arrival
    (below(1_000_000, [1], 0, DEFERRED), 1, 0, 1, 1_000_001, 0, TIME - 1_000_001),
    (below(4_999_999, [2], 1, DEFERRED), 1, 0, 1, 10_000_000, 0, 0),
    (below(1_000_000, [1], 1, DEFERRED), 1, 16, 0, 0, 0, 0),
    # a chain's own arrivals: B(1) = 10; B(1) = 6 and B(2) = 10; B(1) = 4, B(2) = 5 and B(3) = 6; no window
    (first_part(10, [10, 15], 10), 1, 0, 1, 10, 0, 0),
    (first_part(5, [0, 10], 9), 1, 0, 2, 10, 1, -1),
    (first_part(2, [0, 0, 10], 4), 1, 0, 3, 6, 2, -2),
    (first_part(1_000_000, [1], TIME), 1, 16, 0, 0, 0, 0),
    # B(1) = 50, and B(2) = 60, 20 ticks after its activation
    (TELEMETRY, 1, 0, 2, 50, 1, -5), (TELEMETRY, 2, 0, 1, 40, 0, 460),
])


def told(case):
    """What a case says of its table: number and offset, each None where it says nothing of it."""
    if "text" in case:
        words = case["text"].split()
        return Verdict(int(words[1]), int(words[2])) if words[0] == "refused" else ACCEPTED
    rc = case["misses"]["rc"] if "sieve" in case else case["rc"]
    # a save's number may be that of its result, a merge's that of any of its tables
    if rc == 27 or "buffer" in case and rc in NUMBERS or "ancestor" in case:
        return Verdict(None, None)
    return Verdict(rc, case.get("detail")) if rc in NUMBERS else ACCEPTED


def packed(kind, number, values, table):
    values = list(values) + [0] * (6 - len(values))
    return bytes([kind, number]) + struct.pack("<6I", *values) + len(table).to_bytes(2, "little") + table


def cases(name):
    """The cases of a file."""
    found = []
    with open(CASES / f"{name}.jsonl", encoding="utf8") as lines:
        for turn, line in enumerate(lines, 1):
            try:
                found.append(json.loads(line))
            except ValueError as error:
                raise ValueError(f"{name}.jsonl:{turn}: {error}") from None
            if set(found[-1]) not in KEYS[name]:
                due = " or ".join(", ".join(sorted(keys)) for keys in KEYS[name])
                raise ValueError(f"{name}.jsonl:{turn}: other keys than {due}")
    if not found:
        raise ValueError(f"{name}.jsonl: no case")
    return found


def answered(form, rc, figures):
    """Answer buffer, return and answer of a query that answers with figures in this form."""
    return {"answer": "5a" * struct.calcsize(form), "rc": rc, "after": "=" if rc else struct.pack(form, *figures).hex()}


def told_by_sieve(case):
    """What a case of sieve.jsonl tells of latency, of misses, and of a number that these do not exceed, each as a case of a query's
    own file."""
    latency, misses, at_most = case["latency"], case["misses"], case["sieve"]
    asked = {"table": case["table"], "id": case["id"]}
    return {"latency": {"tag": "latency", **asked, **answered("<IIIi", latency["rc"], latency.get("latency"))},
            "misses": {"tag": "misses", **asked, "k": case["k"], **answered("<I", misses["rc"], [misses.get("misses")])},
            "misses_at_most": {"tag": "at most", **asked, "k": case["k"],
                               **answered("<I", at_most["rc"], [at_most.get("misses")])}}


def segment_moved(case, table, new):
    """A segment's answer in the new form of its table: a task record stands as far from its chain record's end as before."""
    offset, *rest = struct.unpack_from("<II", bytes.fromhex(case["after"]))
    ends = next((after, new_after) for (_, after), (_, new_after) in zip(records(table), records(new)) if offset < after)
    return (struct.pack("<II", offset - ends[0] + ends[1], *rest) + bytes.fromhex(case["after"])[8:]).hex()


def in_new_form_too(name):
    """Every second case of a query's file that is about an accepted table of CH records, with that in the form CG; and where the
    case stands in the file."""
    for turn, case in enumerate(cases(name), 1):
        table = bytes.fromhex(case["table"])
        if turn % 2 == 0 and case.get("rc") != 27 and is_old(table):
            new = in_new_form(table)
            case = {**case, "tag": f"{case['tag']}, in the form CG", "table": new.hex()}
            yield turn, {**case, "after": segment_moved(case, table, new)} if "n" in case and case["rc"] == 0 else case


def queries(name):
    """The cases of latency.jsonl, misses.jsonl or segment.jsonl; after the first two, what sieve.jsonl tells of that query; and
    those in the new form."""
    told = [] if name == "segment" else [told_by_sieve(case)[name] for case in cases("sieve")]
    return [case for case in cases(name) + told if case["rc"] != 27] + [case for _, case in in_new_form_too(name)]


def tables_in(case):
    """The tables that a case lends: none where a save's used length is above its buffer, three in a merge."""
    if "ancestor" in case:
        return [bytes.fromhex(case[key]) for key in ("ancestor", "first", "second")]
    if "buffer" not in case:
        return [bytes.fromhex(case["table"])]
    buffer = bytes.fromhex(case["buffer"])
    return [buffer[:case["used"]]] if case["used"] <= len(buffer) else []


def must_agree(name, case, table, found):
    """Ends the program where a case says something else of its table than was found."""
    said = told(case)
    if said.number not in (None, found.number) or said.at not in (None, found.at):
        sys.exit(f"{name}: the case says {tuple(said)} of its table, the documents {tuple(found)}")
    if "chains" in case and case["chains"] != len([*records(table)]):
        sys.exit(f"{name}: the case says {case['chains']} chains of its table")


def of_files():
    """Each different table of any file with its verdict, named after the first case that has it."""
    found = {}
    # the order of the packed cases
    for file in ("latency", "misses", "report", "save", "segment", "read", "faults", "merge", "sieve", "convert"):
        for turn, case in enumerate(cases(file), 1):
            name = f"{file}.jsonl:{turn}"
            for table in tables_in(case):
                must_agree(name, case, table, found.setdefault(table, (name, verdict(table)))[1])
    return [(name, table, told) for table, (name, told) in found.items()]


def tables():
    """Those tables, then those that only an order decides, and every start of a table in each form; with names and verdicts."""
    starts = [(f"the {name}'s first {at} bytes", table[:at], Verdict(2, at))
              for name, table in (("sample", SAMPLE), ("telemetry", TELEMETRY)) for at in range(1, len(table))]
    return of_files() + orders.calls(orders.READING) + starts


def readings():
    return [packed(0, told.number, [told.at], table) for _, table, told in tables()]


def after(case):
    """The answer buffer afterwards, as numbers of four bytes; none where the call was refused."""
    if case["rc"] != 0:
        return []
    answer = bytes.fromhex(case["after"])
    return [number for number, in struct.iter_unpack("<I", answer[:len(answer) // 4 * 4])]


def segments():
    return [packed(1, case["rc"], [case["a"], case["b"], case["n"]] + after(case)[:2], bytes.fromhex(case["table"]))
            for case in queries("segment")] + [
        packed(1, number, query, table) for _, (table, *query), number in orders.calls(orders.SEGMENT)]


def latencies():
    figures = [(bytes.fromhex(case["table"]), case["id"], case["rc"], *struct.unpack("<IIIi", bytes.fromhex(case["after"])[:16]))
               if case["rc"] == 0 else (bytes.fromhex(case["table"]), case["id"], case["rc"], 0, 0, 0, 0)
               for case in queries("latency")]
    figures += [(table, ident, number, 0, 0, 0, 0) for _, (table, ident), number in orders.calls(orders.LATENCY)]
    return [packed(2, number, [ident, k, latency, late, margin + TIME] if number == 0 else [ident], table)
            for table, ident, number, k, latency, late, margin in figures + LATENCIES]


# (table, id, k, misses)
MISSES = with_new_form([
    # the sample's: 3 uses for k up to 10, 4 for 11
    (SAMPLE, 1, 1, 1), (SAMPLE, 1, 2, 2), (SAMPLE, 1, 3, 3), (SAMPLE, 1, 4, 3), (SAMPLE, 1, 10, 3), (SAMPLE, 1, 11, 4),
    # the case study's: 2 uses for k = 1, 3 for k = 3
    (STUDY, 3, 1, 1), (STUDY, 3, 3, 3),
    # a miss without overload: no other chain, overload without a segment, the third activation alone
    (alone(9, 100), 1, 1, 1), (alone(9, 100), 1, 7, 7), (alone(9, 100), 1, 1000, 1000), (alone(10, 100), 1, 7, 0),
    (lowly(9, 10), 1, 1000, 1000), (lowly(10, 10), 1, 1000, 0), (bursts(29), 1, 1, 1), (bursts(29), 1, 7, 7),
    # 12 uses for every k
    (crowd(10, 6, TIME), 1, 1, 1), (crowd(10, 6, TIME), 1, 12, 12), (crowd(10, 6, TIME), 1, 1000, 12),
    # 2 uses, of 3 or 2 late activations each
    (bursts(30), 1, 1, 1), (bursts(30), 1, 4, 4), (bursts(30), 1, 5, 5), (bursts(30), 1, 6, 6), (bursts(30), 1, 7, 6),
    (bursts(31), 1, 3, 3), (bursts(31), 1, 4, 4), (bursts(31), 1, 5, 4),
    # late, and each segment alone is not bad, or is: no use, or 4
    (apart(16), 1, 10, 0), (apart(15), 1, 3, 3), (apart(15), 1, 10, 4),
    # runs that reach over 10, 12, 16, 20, 22, 26, 30 and 32; over 15, 27 and 31; over 25 and 40; over 390, of 39 arrivals
    (reaching(2, 1), 1, 5, 2), (reaching(2, 1), 1, 6, 3), (reaching(2, 1), 1, 8, 3), (reaching(2, 1), 1, 10, 3),
    (reaching(2, 1), 1, 11, 4), (reaching(2, 1), 1, 13, 4), (reaching(2, 1), 1, 15, 4), (reaching(2, 1), 1, 16, 5),
    (reaching(4, 2), 1, 4, 3), (reaching(4, 2), 1, 7, 4), (reaching(4, 2), 1, 8, 5), (reaching(5, 4), 1, 5, 4),
    (reaching(5, 4), 1, 8, 5), (reaching(2, 1), 1, 195, 40),
    # the third activation is not late: it comes 20 after the first, and not 15
    (third_of_three(30), 1, 10, 0), (third_of_three(29), 1, 10, 6),
    # runs of 11 and 12 reach over 550 and 630, and overload comes again at 600
    (TELEMETRY, 1, 1, 1), (TELEMETRY, 1, 2, 2), (TELEMETRY, 1, 10, 2), (TELEMETRY, 1, 11, 2), (TELEMETRY, 1, 12, 3),
    # runs of 3 to 9 reach over 11, 13, 20, 22, 29, 31 and 38
    *((reaching_by((2, 9)), 1, k, misses) for k, misses in enumerate((1, 2, 3, 3, 3, 4, 4, 5, 5), 1)),
    # runs of 8 reach over 4, of 9 and 10 over 32 and 34, of 17 over 62
    *((reaching_by((2,) * 7 + (30,)), 1, k, misses) for k, misses in ((8, 2), (9, 5), (10, 5), (17, 8))),
    # runs of 3, 4, 6 and 7 reach over 51, 150, 150 and 249; where all are 33 apart, one of 3 over 117
    *((at_once((0, 0, 99), others), 1, k, misses) for others in ((), (90,), (LARGEST,))
      for k, misses in ((3, 2), (4, 3), (6, 3), (7, 4))),
    (at_once((33, 66, 99)), 1, 3, 3),
])


def returning(deadline, after=35, kind=0, tasks=((9, 20),), own=(1000,)):
    """Chain 1 of cost 10 below chain 2, which comes again so long after its first activation, and below overload of 4 and of 7.
    Where chain 2 is free, of cost 20: up to 35 a window is 10 + 20 long and what is set, past it 20 more, and so is the demand;
    the window is 30 without overload, 34 with 4, 57 with 7, 61 with both."""
    return stored(chain(1, 0, 0, deadline, 1000, own, [(5, 10)]), chain(2, kind, 0, 1000, 0, [after, 1000], tasks),
                  chain(3, 0, 1, 1000, 0, [TIME], [(9, 4)]), chain(4, 0, 1, 1000, 0, [TIME], [(9, 7)]))


def three_returning(deadline):
    """Three activations of chain 1, 5 and 10 after the first, though 9 is listed, and chain 2 again at 55: B(3) is 50 without
    overload, 54 with 4, 77 with 7, 81 with both; the demand at δ(3) + deadline, where that is past 55, is 70 and what is set."""
    return returning(deadline, 55, own=(5, 9, 999))


def returning_itself(deadline):
    """An asynchronous chain of cost 10 that comes again at 40 with its first part of 4, against overload of 29 twice: B(1) is 39
    with one of them, and 72 with both; B(2) is 78 with both. The demand at a deadline past 40 is 14 and what is set."""
    return stored(chain(1, 1, 0, deadline, 1000, [40, 1000], [(9, 4), (5, 6)]),
                  *(chain(i, 0, 1, 1000, 0, [TIME], [(9, 29)]) for i in (2, 3)))


def past_horizon(cost):
    """Two activations of chain 1, of 100, and 5,000 apart, against overload of this cost twice and chain 2, which makes B(1)
    9,999,600 long and B(2) 9,999,700. The second's deadline is at 10,004,000, where chain 2 has come again."""
    return stored(chain(1, 0, 0, TIME - 1000, TIME // 2, [5000, TIME], [(5, 100)]),
                  chain(2, 0, 0, 1000, 0, [TIME], split(9, TIME - 500 - 2 * cost)),
                  *(chain(i, 0, 1, 1000, 0, [TIME], split(9, cost)) for i in (3, 4)))


FIRST_OF_TWO = ((9, 20), (1, 1))  # deferred below a floor of 5

# (table, id, k, misses, a number that the sieve says they do not exceed)
AT_MOST = with_new_form([
    # the demand for 4 alone, 54, is the deadline, or a tick above it: 4 and 7 alone are called bad, and 4 is not
    (returning(54), 1, 10, 2, 2), (returning(53), 1, 10, 2, 4), (returning(53), 1, 3, 2, 3), (returning(53), 1, 2, 2, 2),
    (returning(53), 1, 1, 1, 1),
    # the demand without overload, 50, is the deadline, or a tick above it: all activations, though 7 alone is bad
    (returning(50), 1, 10, 2, 4), (returning(49), 1, 10, 2, 10), (returning(49), 1, 1, 1, 1), (returning(49), 1, 1000, 2, 1000),
    # a deadline at which chain 2 comes again, and one just past it
    (returning(35), 1, 10, 2, 2), (returning(36), 1, 10, 2, 10),
    # 7 alone is not bad, and not called so; nothing late; a miss without overload
    (returning(57), 1, 10, 2, 2), (returning(61), 1, 10, 0, 0), (returning(29), 1, 10, 10, 10),
    # chain 2 deferred: asynchronous, 20 more once and 20 with each arrival; synchronous, 20 once
    (returning(74, 55, 1, FIRST_OF_TWO), 1, 10, 2, 2), (returning(73, 55, 1, FIRST_OF_TWO), 1, 10, 2, 4),
    (returning(69, 55, 1, FIRST_OF_TWO), 1, 10, 2, 10), (returning(36, 35, 0, FIRST_OF_TWO), 1, 10, 2, 2),
    (returning(33, 35, 0, FIRST_OF_TWO), 1, 10, 4, 4),
    # the third activation alone decides
    (three_returning(64), 1, 10, 2, 2), (three_returning(63), 1, 10, 2, 4), (three_returning(60), 1, 10, 2, 4),
    (three_returning(59), 1, 10, 2, 10),
    # the third's deadline is at 56, past chain 2's second activation, where 55 was not; and at 55
    (three_returning(46), 1, 10, 2, 10), (three_returning(45), 1, 10, 4, 4),
    # a chain's own next activation
    (returning_itself(43), 1, 10, 2, 2), (returning_itself(42), 1, 10, 2, 4),
    # 10,003,998 and 10,004,001 at 10,004,000: 4 uses of both together, and 8 of each alone
    (past_horizon(3_331_734), 1, 5, 4, 4), (past_horizon(3_331_733), 1, 5, 4, 5), (past_horizon(3_331_733), 1, 10, 7, 10),
])


def misses():
    found = [(*orders.returned(told), *call) for _, call, told in orders.calls(orders.MISSES)]
    found += [(0, [missed], table, ident, k) for table, ident, k, missed in MISSES]
    return [packed(3, case["rc"], [case["id"], case["k"]] + after(case)[:1], bytes.fromhex(case["table"]))
            for case in queries("misses")] + [
        packed(3, number, [ident, k] + missed, table) for number, missed, table, ident, k in found]


HEADER = "chain K latency late margin miss10\n"

# (table, text)
REPORTS = with_new_form([
    (SAMPLE, HEADER + "1 1 64 1 -24 3\n2 1 5 0 95 0\n3 1 62 0 438 r14\n4 1 39 0 261 r14\n"),
    (EDGE, HEADER + "1 1 10000000 0 0 r15\n"),
    (PAST, HEADER + "1 r16\n2 1 1 0 0 r15\n"),
    (edge(999_999, TIME), HEADER + "1 1 10000000 0 0 0\n2 r16\n"),
    (edge(1_000_000, TIME), HEADER + "1 r16\n2 r16\n"),
    (backlog(1024, 0, 100), HEADER + "1 1024 1034 934 -934 r15\n2 1 1024 1 -924 r14\n"),
    (backlog(1025, 0, 100), HEADER + "1 r17\n2 1 1025 1 -925 r14\n"),
    (STUDY, HEADER + "4 1 175 0 25 0\n3 2 331 1 -131 5\n2 1 111 0 889 r14\n1 1 137 0 863 r14\n"),
    # every activation of ten: missed without overload, by 12 uses; and a capacity of 41
    (alone(9, 100), HEADER + "1 1 10 1 -1 10\n"),
    (crowd(9, 6, 24), HEADER + "1 1 16 1 -7 10\n2 1 11 0 989 r14\n"),
    (crowd(10, 6, 1000), HEADER + "1 1 16 1 -6 10\n2 1 11 0 989 r14\n"),
    (crowd(9, 6, 23), HEADER + "1 1 16 1 -7 r21\n2 1 11 0 989 r14\n"),
    # millions of arrivals: eight every 9, one every 2, one a tick, eight a tick
    (below(1_111_111, [0] * 7 + [9]), HEADER + "1 1 9999999 0 1 0\n2 8 8 0 992 r15\n"),
    (below(5_000_000, [2] * 8), HEADER + "1 1 10000000 0 0 0\n2 1 1 0 999 r15\n"),
    (below(1_000_000, [1]), HEADER + "1 r16\n2 1 1 0 999 r15\n"),
    (below(1, [0] * 7 + [1]), HEADER + "1 r16\n2 r17\n"),
    (TELEMETRY, HEADER + "1 2 50 1 -5 2\n2 1 40 0 460 r14\n"),
    (stored(bursty(1, 0, 0, 9, (), [100], [(5, 10)])), HEADER + "1 1 10 1 -1 r15\n"),
    (b"", "refused 1 0\n"),
    (SAMPLE[:1], "refused 2 1\n"),
    (SAMPLE[:-1], "refused 2 139\n"),
    (SAMPLE + b"E", "refused 11 140\n"),
    (OLD.full[:-1], "refused 2 1283\n"),
    (OLD.full[:-1] + b"\1", "refused 11 1282\n"),
    (NEW.full[:-1], "refused 2 1747\n"),
    (NEW.full + b"E", "refused 1 0\n"),
    (orders.refused(OLD)[29], "refused 29 56\n"),
    (orders.refused(NEW)[33], "refused 33 47\n"),
    (stored(OLD.good, NEW.record()), "refused 3 36\n"),
    (bytes(1284), "refused 3 0\n"),
    (bytes(1285), "refused 1 0\n"),
    (b"CG" + bytes(1746), "refused 4 2\n"),
])


def reports():
    found = cases("report") + [case for _, case in in_new_form_too("report")]
    known = [(bytes.fromhex(case["table"]), case["text"]) for case in found]
    return [packed(4, 0, [len(text)], table) + text.encode("ascii") for table, text in known + REPORTS]


def everything():
    return readings() + segments() + latencies() + misses() + reports()
