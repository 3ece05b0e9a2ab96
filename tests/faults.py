"""Records and tables of either form that are good but for what is named, and the faults that a record can have."""
from collections import namedtuple

from records import CG, CH, DISTANCE, TASK, Fixed, end, laid_out, stored
from stored import COST_AT, LARGEST, PRIORITY_AT, TIME, Verdict
from written import row_at

# A fault: its number, its offset in the record, what it is, and the fields that have it.
Fault = namedtuple("Fault", "number at what fields")

GOOD_FIELDS = {"id": 2, "kind": 0, "overload": 0, "deadline": 40, "gap": 100, "distances": (100,), "tasks": ((5, 10), (3, 10))}
# The fields that may say something else than a record has, and their names in a row.
SAID = {"listed": "listed", "count": "tasks", "flag": "flag"}
# What is wrong with a task, where in it, and its priority and cost.
BAD_TASKS = [("priority 0", PRIORITY_AT, (0, 10)), ("cost 0", COST_AT, (5, 0)), ("cost too large", COST_AT, (5, 1_000_001))]


def loose(distances):
    """Largest distances that are good for these smallest ones: 100, 200, .., or what is above that."""
    return [max(100 * turn, *distances[:turn]) for turn in range(1, len(distances) + 1)]


def padded(made, length):
    return made + bytes(length - len(made))


class InForm:
    """Records and tables in one form. In the form CG the largest distances are known unless something else is named."""

    def __init__(self, form):
        self.form, self.at = form, form.at
        self.has_largest = form.at.flag is not None
        self.good = self.record(id=1)
        self.two = stored(self.good, self.record())
        self.sixteen = b"".join(self.record(id=i + 1, tasks=[(5, 10)]) for i in range(16))
        self.fifteen = self.sixteen[:len(self.sixteen) // 16 * 15]
        self.seventeenth = self.record(id=17) + end(17)
        self.sixty_four = [self.record(id=i + 11, tasks=[(5, 10)] * 16) for i in range(4)]
        self.wide = [self.record(id=i + 1, gap=0, distances=range(100, 900, 100), tasks=[(5, 10)] * 4) for i in range(16)]
        self.full = stored(*self.wide)
        self.first_task = self.tasks_at(1)
        self.second_task = self.first_task + TASK.size

    def __str__(self):
        return self.form.mark.decode()

    # ---- Records ----

    def record(self, **fields):
        """A chain record that is good but for these fields; its two counts and its flag may say something else than it has."""
        given = {**GOOD_FIELDS, **fields}
        distances, tasks = given["distances"], given["tasks"]
        largest = given.get("largest", loose(distances)) if self.has_largest else ()
        said = {"flag": int(len(largest) > 0), "listed": len(distances), "count": len(tasks), **fields}
        fixed = Fixed(self.form.mark, *(given[name] for name in ("id", "kind", "overload", "deadline", "gap")),
                      *(said[name] for name in ("flag", "listed", "count")))
        return laid_out(fixed, distances, largest, tasks)

    def row(self, **fields):
        """The row of such a record, whose counts and flag may say something else too."""
        said = {SAID[name]: fields.pop(name) for name in SAID if name in fields}
        return row_at(self.record(**fields), 0)._replace(**said)

    def distance_at(self, turn):
        return self.form.layout.size + DISTANCE.size * (turn - 1)

    def largest_at(self, turn, listed=2):
        """Where a largest distance begins in a record with so many distances."""
        return self.distance_at(listed + turn)

    def tasks_at(self, listed):
        return self.distance_at(listed * (2 if self.has_largest else 1) + 1)

    # ---- Tables ----

    def second(self, **fields):
        """A good record, then one with these fields."""
        return stored(self.good, self.record(**fields))

    def cut(self, at, **fields):
        """A good record, then so many bytes of one with these fields."""
        return self.good + self.record(**fields)[:at]

    def marked(self, mark, task=0, length=None, **fields):
        """A good record, then one whose task has this mark, cut to a length."""
        made = bytearray(self.record(**fields))
        at = self.first_task + TASK.size * task
        made[at:at + 2] = mark
        return stored(self.good, bytes(made)) if length is None else self.good + bytes(made)[:length]

    def over_64(self, **fields):
        """65 tasks so far with this record."""
        return stored(*self.sixty_four, self.record(**{"tasks": [(5, 10)], **fields}))

    def in_record(self, fault, before=None):
        """What is told of a fault in the record after these bytes, a good record."""
        return Verdict(fault.number, len(self.good if before is None else before) + fault.at)

    def in_second(self, number, at):
        """What is told of a fault at this offset in the record after a good one."""
        return Verdict(number, len(self.good) + at)

    # ---- Faults ----

    def fixed_faults(self):
        """Every fault of a chain's fixed part but that of a flag, in the order of its fields."""
        at = self.at
        of_gap = [] if self.has_largest else [Fault(7, at.gap, "gap too large", {"gap": TIME + 1})]
        return [
            Fault(4, at.id, "id 0", {"id": 0}), Fault(4, at.id, "id used", {"id": 1}),
            Fault(5, at.kind, "kind 2", {"kind": 2}), Fault(5, at.overload, "overload 2", {"overload": 2}),
            Fault(6, at.deadline, "deadline 0", {"deadline": 0}),
            Fault(6, at.deadline, "deadline too large", {"deadline": TIME + 1}),
            *of_gap,
            Fault(28, at.listed, "list length 0", {"listed": 0}), Fault(28, at.listed, "list length 9", {"listed": 9}),
            Fault(9, at.tasks, "task count 0", {"count": 0}), Fault(9, at.tasks, "task count 17", {"count": 17}),
        ]

    def list_faults(self):
        """Every fault of a list of two distances, with its gap; a cut one loses its last byte, which is 0."""
        of_gap = [] if self.has_largest else [
            Fault(31, self.at.gap, "below what the gap allows", {"distances": (101, 150)}),
            Fault(31, self.at.gap, "the last one below what the gap allows", {"distances": (100, 201)}),
        ]
        return [
            Fault(29, self.distance_at(2), "a distance falls", {"distances": (100, 50)}),
            Fault(29, self.distance_at(2), "the last distance too large", {"distances": (100, TIME + 1), "gap": 0}),
            Fault(29, self.distance_at(1), "a distance too large", {"distances": (TIME + 1, TIME + 2), "gap": 0}),
            Fault(30, self.distance_at(2), "the last distance is 0", {"distances": (0, 0)}),
            *of_gap,
        ]

    def flag_faults(self):
        """The faults of a flag, in a record of two distances that is as long as this flag says."""
        return [Fault(33, self.at.flag, f"flag {flag}", {"distances": (100, 200), "flag": flag, "largest": ()})
                for flag in (2, 255) if self.has_largest]

    def largest_faults(self):
        """Every fault of a list of two largest distances, none of them met in the smallest ones."""
        return [Fault(33, self.largest_at(turn), what, {"distances": distances, "largest": largest})
                for turn, what, distances, largest in (
                    (2, "a largest distance falls", (50, 100), (200, 150)),
                    (2, "the last largest distance too large", (100, 200), (100, LARGEST + 1)),
                    (1, "a largest distance too large", (100, 200), (LARGEST + 1, LARGEST + 2)),
                    (1, "a largest distance below the smallest", (101, 150), (100, 200)),
                    (2, "the last largest distance below the smallest", (100, 201), (100, 200)),
                ) if self.has_largest]

    def task_faults(self):
        """Every fault of the only task of a record with one distance."""
        return [Fault(10, self.first_task + at, what, {"tasks": [bad]}) for what, at, bad in BAD_TASKS]


OLD, NEW = InForm(CH), InForm(CG)
