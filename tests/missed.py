"""The misses of document 01, with document 02, requests 3, 6, 7 and 9, from their words: by windows, and by the sieve, which
never comes to less. Over the rows of an accepted table."""
from bisect import bisect_left
from collections import namedtuple
from functools import lru_cache

from stored import TIME, verdict
from written import rows_of

ACTIVATIONS, RUN, SEGMENTS, CAPACITY = 1024, 1000, 6, 40

# What a query comes to: its number, 0 where it is answered; the misses, None where its packings are too many to be counted; and
# how many packings were gone through.
Missed = namedtuple("Missed", "number misses packings")
# What windows are made of: b's row, its cost and its own first part; what the other chains bring once, all together; and of
# each that brings something with each arrival its row and how much.
Load = namedtuple("Load", "b cost own once others")
# K, latency, late and the last window.
Figures = namedtuple("Figures", "close latency late last")
# An active segment of an overload chain: its row, the segment that it is part of, and its cost.
Active = namedtuple("Active", "row segment cost")
# The greatest sums of the first places, and from their last on: after so many places each is greater by so much.
Settled = namedtuple("Settled", "sums places more")


# ---- Arrivals ----

def continued(distances, n):
    """The distance of n activations, by a list that goes on by whole lists."""
    lists, rest = divmod(n - 1, len(distances))
    return lists * distances[-1] + (distances[rest - 1] if rest else 0)


@lru_cache(None)
def settled(distances):
    """The greatest sum of each place over all ways to write it as steps, each costing its distance: over every first step and what
    is left. A sum is made of as many before it as there are steps. So where that many, one after another, are each the sum so many
    places before and so much more, all that follow are."""
    longest = len(distances)
    places = max(range(1, longest + 1), key=lambda step: distances[step - 1] / step)
    sums, alike = [0], 0
    while alike < longest:
        sums.append(max(distances[step - 1] + sums[-step] for step in range(1, min(longest, len(sums)) + 1)))
        alike = alike + 1 if len(sums) > places and sums[-1] == sums[-1 - places] + distances[places - 1] else 0
    return Settled(sums, places, distances[places - 1])


def delta(row, n):
    """The greatest sum of n - 1."""
    found = settled(row.list[:row.listed])
    times = max(0, -(-(n - len(found.sums)) // found.places))
    return found.sums[n - 1 - times * found.places] + times * found.more


def is_known(row):
    """Whether a chain has a largest distance."""
    return row.flag == 1 or row.gap > 0


def largest(row, k):
    """The largest distance of k activations, where one is known."""
    return continued(row.largest[:row.listed], k) if row.flag else (k - 1) * row.gap


def eta(row, t):
    """The greatest n with δ(n) < t: as many as there are sums below t, since they never fall."""
    found = settled(row.list[:row.listed])
    times = max(0, -(-(t - found.sums[-1]) // found.more))
    return bisect_left(found.sums, t - times * found.more) + times * found.places


# ---- Segments ----

def tasks_of(row):
    return [*zip(row.priority, row.cost)][:row.tasks]


def floor_of(b):
    return min(priority for priority, _ in tasks_of(b))


def stretches(a, floor):
    """The longest stretches at or above the floor up to the last task, each as its tasks and with the number of its segment:
    a last one that the first task goes on from is part of the first's."""
    found, open_before = [], False
    for priority, cost in tasks_of(a):
        if priority >= floor:
            found = found if open_before else found + [[]]
            found[-1].append((priority, cost))
        open_before = priority >= floor
    numbers = [*range(len(found))]
    if len(found) > 1 and open_before and a.priority[0] >= floor:
        numbers[-1] = 0
    return [*zip(numbers, found)]


def cost_of(tasks):
    return sum(cost for _, cost in tasks)


def segments(a, floor):
    """The cost of each segment."""
    costs = {}
    for number, tasks in stretches(a, floor):
        costs[number] = costs.get(number, 0) + cost_of(tasks)
    return [*costs.values()]


def first_cost(a, floor):
    """The cost of the tasks before the first one below the floor."""
    below = [at for at, (priority, _) in enumerate(tasks_of(a)) if priority < floor]
    return cost_of(tasks_of(a)[:below[0]] if below else tasks_of(a))


def actives(a, b):
    """The active segments of a against b, in task order."""
    found, tail = [], b.priority[b.tasks - 1]
    for number, tasks in stretches(a, floor_of(b)):
        cuts = [0] + [at for at, (priority, _) in enumerate(tasks) if at and priority < tail] + [len(tasks)]
        found += [Active(a, number, cost_of(tasks[at:after])) for at, after in zip(cuts, cuts[1:])]
    return found


# ---- Windows ----

def brought(a, floor):
    """What a chain brings with each arrival, and once."""
    costs = segments(a, floor)
    if min(priority for priority, _ in tasks_of(a)) >= floor:
        return cost_of(tasks_of(a)), 0
    return (first_cost(a, floor), sum(costs)) if a.kind else (0, max(costs, default=0))


def load_of(b, others):
    floor = floor_of(b)
    found = [(a, *brought(a, floor)) for a in others]
    return Load(b, cost_of(tasks_of(b)), first_cost(b, floor + 1) if b.kind else 0, sum(once for *_, once in found),
                [(a, each) for a, each, _ in found if each])


def demand(load, q, t, extra):
    found = q * load.cost + load.once + extra
    for a, each in load.others:
        found += each * eta(a, t)
    return found + load.own * max(0, eta(load.b, t) - q) if load.own else found


def window(load, q, extra, start, latest):
    """The least t that equals its demand, looked for from a `start` that is no later; None where it is past the latest."""
    t = start
    while t <= latest:
        needed = demand(load, q, t, extra)
        if needed == t:
            return t
        t = needed
    return None


@lru_cache
def figures(b, others):
    """The figures of a chain beside these others, or 16 or 17."""
    load, last, latency, late = load_of(b, others), 1, 0, 0
    for q in range(1, ACTIVATIONS + 1):
        last = window(load, q, 0, last, TIME)
        if last is None:
            return 16
        latency, late = max(latency, last - delta(b, q)), late + (last - delta(b, q) > b.deadline)
        if last <= delta(b, q + 1):
            return Figures(q, latency, late, last)
    return 17


# ---- Combinations ----

def is_bad(load, close, extra):
    """By windows: one for some q up to K ends past the deadline."""
    start = 1
    for q in range(1, close + 1):
        start = window(load, q, extra, start, delta(load.b, q) + load.b.deadline)
        if start is None:
            return True
    return False


def is_called_bad(load, close, extra):
    """By the sieve: the demand for some q up to K at δ(q) plus the deadline is above that."""
    return any(demand(load, q, t, extra) > t for q in range(1, close + 1) for t in [delta(load.b, q) + load.b.deadline])


def is_allowed(combination):
    return all(one.segment == other.segment for one in combination for other in combination if one.row is other.row)


def combinations(bits):
    """Every combination that is allowed, as the places of its active segments; the empty one comes first."""
    sets = [[at for at in range(len(bits)) if mask >> at & 1] for mask in range(1 << len(bits))]
    return [places for places in sets if is_allowed([bits[at] for at in places])]


def packed(bad, room, limit):
    """The most uses of a packing and how many packings there are; None where these are more than the limit."""
    met, stack = 0, [(0, 0, tuple(room))]
    most = 0
    while stack:
        first, uses, left = stack.pop()
        met, most = met + 1, max(most, uses)
        if met > limit:
            return None
        for turn in range(first, len(bad)):
            if all(left[at] for at in bad[turn]):
                stack.append((turn, uses + 1, tuple(count - (at in bad[turn]) for at, count in enumerate(left))))
    return most, met


# ---- The queries ----

def missed_late(b, rows, k, found, test, limit):
    """What a query comes to where some activation is late."""
    overload = [a for a in rows if a.overload]
    bits = [active for a in overload for active in actives(a, b)]
    if len(bits) > SEGMENTS:
        return Missed(18, None, 0)
    if any(eta(a, found.last) > 1 for a in overload):
        return Missed(19, None, 0)
    room = [eta(one.row, largest(b, k) + found.latency) + 1 for one in bits]
    if any(capacity > CAPACITY for capacity in room):
        return Missed(21, None, 0)
    load = load_of(b, [a for a in rows if a is not b and not a.overload])
    if test(load, found.close, 0):
        return Missed(0, k, 0)
    bad = [places for places in combinations(bits) if test(load, found.close, sum(bits[at].cost for at in places))]
    most, met = packed(bad, room, limit) or (None, None)
    return Missed(0, most if most is None else min(k, found.late * most), met)


@lru_cache(None)
def missed(table, ident, k, test, limit):
    """What a query comes to whose answer buffer is long enough, its combinations tested in this way."""
    number = verdict(table).number
    rows = [] if number else rows_of(table)
    b = next((row for row in rows if row.id == ident), None)
    for holds, refusal in ((number, number), (b is None, 12), (not 1 <= k <= RUN, 13), (b and b.overload, 14),
                           (b and not is_known(b), 15)):
        if holds:
            return Missed(refusal, None, 0)
    found = figures(b, tuple(a for a in rows if a is not b))
    if isinstance(found, int):
        return Missed(found, None, 0)
    return Missed(0, 0, 0) if found.late == 0 else missed_late(b, rows, k, found, test, limit)
