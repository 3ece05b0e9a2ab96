"""Miss queries with known answers for the engine that goes through every packing, and for the number that misses do not exceed.

Every miss query of tests/cases, of pack.py and of orders.py is one of both, but for 27, which speaks of the answer buffer. The
engine is asked where its packings are few by a count from the words (missed.py); it comes to the misses. The number that misses do
not exceed is known where sieve.jsonl or pack.py tells it, and else where the words tell it with few packings. What is told is held
against the words wherever these have few packings.
"""
import sys
from collections import namedtuple

import orders
import pack
from missed import is_bad, is_called_bad, missed

MOST_PACKINGS = 5000  # that are few

# A query: its name, and table, id and k; what is told of the misses, and of the number that they do not exceed, None where
# nothing is.
Query = namedtuple("Query", "name asked misses at_most")
# What is told: the number returned, 0 where there is an answer, and the answer, None where there is none.
Told = namedtuple("Told", "number answer")


def told(number, figures):
    return Told(number, next(iter(figures), None))


def told_by(case):
    return told(case["rc"], pack.after(case))


def asked(case):
    return bytes.fromhex(case["table"]), case["id"], case["k"]


def of_files():
    for turn, case in [*enumerate(pack.cases("misses"), 1), *pack.in_new_form_too("misses")]:
        if case["rc"] != 27:
            yield Query(f"misses:{turn} {case['tag']}", asked(case), told_by(case), None)
    for turn, case in enumerate(pack.cases("sieve"), 1):
        by = pack.told_by_sieve(case)
        yield Query(f"sieve:{turn}", asked(case), told_by(by["misses"]), told_by(by["misses_at_most"]))


def by_hand():
    """The two figures differ in AT_MOST alone: in no other table does demand grow between a window's end and the deadline."""
    for *call, misses, most in pack.AT_MOST + [(*one, one[-1]) for one in pack.MISSES]:
        name = f"by the words: chain {call[1]}, k {call[2]}, misses {misses}, at most {most}"
        yield Query(name, tuple(call), Told(0, misses), Told(0, most))
    for name, call, answer in orders.calls(orders.MISSES):
        both = told(*orders.returned(answer))
        yield Query(name, call, both, both)


def queries():
    return [*of_files(), *by_hand()]


def by_words(query, test):
    """What the words tell with this test of a combination, None where the packings are many."""
    found = missed(*query.asked, test, MOST_PACKINGS)
    return None if found.packings is None else Told(found.number, found.misses)


def must_agree(query, known, found):
    if None not in (known, found) and known != found:
        sys.exit(f"{query.name}: the case says {tuple(known)}, the documents {tuple(found)}")


def plain():
    """Every query with few packings, and what the engine that goes through them comes to."""
    for query in queries():
        found = by_words(query, is_bad)
        must_agree(query, query.misses, found)
        if found:
            yield query, found


def at_most():
    """Every query of which it is known, and the number that its misses do not exceed."""
    for query in queries():
        found = by_words(query, is_called_bad)
        must_agree(query, query.at_most, found)
        if query.at_most or found:
            yield query, query.at_most or found


def left_out():
    """How many queries the engine that goes through every packing is not asked."""
    return sum(by_words(query, is_bad) is None for query in queries())


def everything():
    """The packed cases of both, for the program vectors."""
    return [pack.packed(kind, known.number, [*query.asked[1:], known.answer or 0], query.asked[0])
            for kind, found in ((5, plain()), (6, at_most())) for query, known in found]
