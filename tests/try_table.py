#!/usr/bin/env python3
"""Tries examples/table.py and the program rows (examples/rows.c) under it: the example tables, text and back, and wrong uses
with what is said of each. The program is the one that table.py finds.

Usage: try_table.py

0 and a line if all is as it should be; 1 and a line for each thing that is not; 2 for a wrong use, or without the program.
"""
import io
import os
import random
import resource
import shlex
import shutil
import stat
import subprocess
import sys
import tempfile
from concurrent.futures import ThreadPoolExecutor
from contextlib import redirect_stderr
from pathlib import Path

import pack
from records import CG, CH, bursty, chain, stored
from stored import ACCEPTED, TOP, verdict
from try_docs import REFUSALS

EXAMPLES = TOP / "examples"
sys.path.insert(0, str(EXAMPLES))

from table import BUILT, KINDS, Failed, Refused, main as command, rows, table_of, text_of

TABLE_PY = str(EXAMPLES / "table.py")
SAMPLE = (EXAMPLES / "sample.table").read_bytes()
GOOD = "chain 1 synchronous deadline 40 gap 100 list 100\ntask 5 10\n"
SENTENCES = {int(number): what for _, number, what in REFUSALS}
wrong = []


def due(holds, what):
    if not holds:
        wrong.append(what)


def run(*words, program=TABLE_PY, **settings):
    """Status, standard output and standard error of the command."""
    settings = {"stdin": subprocess.DEVNULL, "stdout": subprocess.PIPE, **settings}
    done = subprocess.run([sys.executable, program, *words], stderr=subprocess.PIPE, timeout=60, check=False, **settings)
    return done.returncode, done.stdout, done.stderr.decode()


def at_once(function, values):
    """What the function gives for each, several at a time: each starts the program."""
    with ThreadPoolExecutor(os.cpu_count()) as pool:
        return [*pool.map(function, values)]


# ---- The example tables ----

def examples():
    for name in ("sample", "case_study", "bursts"):
        kept = (EXAMPLES / f"{name}.table").read_bytes()
        due(run(str(EXAMPLES / f"{name}.txt"), "made") == (0, b"", ""), f"{name}.txt: the command failed")
        due(Path("made").read_bytes() == kept, f"{name}.txt does not make {name}.table")
        status, text, said = run("--text", str(EXAMPLES / f"{name}.table"))
        due(status == 0 and said == "" and table_of(text) == kept, f"{name}.table: its text makes another table")
        with open("made", "rb") as made:
            due(run("--text", stdin=made) == (0, text, ""), f"{name}.table on standard input: another text")


# ---- Text and back ----

def there_and_back(case):
    """A table with its verdict: the text of an accepted one makes the same bytes again, of another one the verdict is told."""
    s, told = case
    try:
        due(table_of(text_of(input=s).encode()) == s, f"its text makes another table: {s.hex()}")
        due(told == ACCEPTED, f"a table has a text, and {told} was due: {s.hex()}")
    except Refused as refused:
        due(refused.args == (*told, SENTENCES[refused.args[0]]), f"{refused.args}, and {told} was due: {s.hex()}")


def round_trips():
    """How many tables were tried."""
    cases = [(s, told) for _, s, told in pack.tables()]
    at_once(there_and_back, cases)
    return len(cases)


def generated(chance):
    """Chains, a few of their fields at an edge of what is allowed: each its form, and what its record is made of. In the form CG
    largest distances stand for the gap, none where they are not known. Now and then one has the other form."""
    def field(most):
        return chance.choice((0, most, most + 1, *[chance.randint(1, most)] * 20))

    def longest(form, distances):
        if form == CH:
            return chance.choice((0, 10_000_000, field(10_000_000)))
        if chance.randrange(3) == 0:
            return ()
        return sorted(chance.choice((distance, 80_000_000, chance.randint(distance, 80_000_000 + distance // 100)))
                      for distance in distances)[::chance.choice((1, 1, 1, -1))]

    found, form = [], chance.choice((CH, CG))
    for turn in range(1, chance.choice((2, 3, 4, 18))):
        own = chance.choice((CH, CG)) if chance.randrange(20) == 0 else form
        distances = sorted(field(10_000_000) for _ in range(chance.choice((1, 2, 3, 8, 8, 9))))[::chance.choice((1, 1, 1, -1))]
        found.append((own, (chance.choice((turn, turn, turn, field(60_000))), chance.randint(0, 1), chance.randint(0, 1),
                            field(10_000_000), longest(own, distances), distances,
                            [(field(65_534), field(1_000_000)) for _ in range(chance.choice((1, 1, 2, 3, 16, 17)))])))
    return found


def record(form, fields):
    return (chain if form == CH else bursty)(*fields)


def text_with(chains):
    """Their text, and the line of each."""
    def listed(name, distances):
        return "".join(f" {word}" for word in (name, *distances))

    lines, at = [], []
    for form, (ident, kind, overload, deadline, longest, distances, tasks) in chains:
        lines.append(f"chain {ident} {KINDS[kind]}{' overload' * overload} deadline {deadline}")
        at.append(len(lines))
        if form == CH:
            lines[-1] += f" gap {longest}" + listed("list", distances)
        else:
            lines[-1] += listed("list", distances) + listed("largest", longest or ["unknown"])
        lines += (f"task {priority} {cost}" for priority, cost in tasks)
    return "\n".join(lines), at


def judged(chains):
    """What the library makes of them: a table, or a number and the line of the chain at fault."""
    text, lines = text_with(chains)
    for turn, line in enumerate(lines, 1):
        told = verdict(stored(*(record(*one) for one in chains[:turn])))
        if told != ACCEPTED:
            return text, (told.number, line)
    return text, stored(*(record(*one) for one in chains))


def from_text(case):
    text, told = case
    try:
        found = table_of(text.encode())
    except Refused as refused:
        found = refused.args[:2]
    due(found == told, f"{found}, and {told} was due: {text}")


def made_up():
    """How many texts were tried. Those of too many bytes are left out: the library does not judge the length of rows."""
    chance = random.Random(1)
    cases = [case for case in map(judged, (generated(chance) for _ in range(1200))) if case[1][0] != 1]
    at_once(from_text, cases)
    numbers = {told[0] for _, told in cases if isinstance(told, tuple)}
    due(numbers >= {3, 4, 6, 7, 9, 10, 28, 29, 30, 31, 33}, f"the texts that were made up have only the numbers {numbers}")
    return len(cases)


# ---- Texts ----

FIELDS = "chain 1 synchronous deadline 40 gap 100 list 100"
BURSTY = "chain 1 synchronous deadline 40 list 100 largest 100"
TWO = "chain 1 synchronous deadline 40 list 100 150 largest"
TASK = "\ntask 5 10\n"
SIXTEEN = "".join(GOOD.replace("1", str(ident), 1) for ident in range(1, 17))

# Text, and what it makes.
TEXTS = [
    (GOOD, stored(chain(1, 0, 0, 40, 100, [100], [(5, 10)]))),
    (GOOD.rstrip("\n"), stored(chain(1, 0, 0, 40, 100, [100], [(5, 10)]))),
    ("\ufeff\t" + GOOD.replace("\n", " # ü\r\n\r\n").replace(" 40 ", "\t0000000000000040 "),
     stored(chain(1, 0, 0, 40, 100, [100], [(5, 10)]))),
    ("chain 65535 asynchronous overload deadline 10000000 gap 10000000 list 0 10000000\ntask 65535 1000000",
     stored(chain(65535, 1, 1, 10_000_000, 10_000_000, [0, 10_000_000], [(65535, 1_000_000)]))),
    (FIELDS + " 100" * 7 + TASK * 16, stored(chain(1, 0, 0, 40, 100, [100] * 8, [(5, 10)] * 16))),
    (BURSTY + TASK, stored(bursty(1, 0, 0, 40, [100], [100], [(5, 10)]))),
    (BURSTY.replace("est 100", "est\t unknown # none") + TASK, stored(bursty(1, 0, 0, 40, (), [100], [(5, 10)]))),
    (TWO + " 0000150 80000000" + TASK, stored(bursty(1, 0, 0, 40, [150, 80_000_000], [100, 150], [(5, 10)]))),
    ("chain 65535 asynchronous overload deadline 10000000 list 0 10000000 largest 0 80000000\ntask 65535 1000000",
     stored(bursty(65535, 1, 1, 10_000_000, [0, 80_000_000], [0, 10_000_000], [(65535, 1_000_000)]))),
    ("chain 1 synchronous deadline 40 list" + " 100" * 8 + " largest" + " 100" * 8 + TASK * 16,
     stored(bursty(1, 0, 0, 40, [100] * 8, [100] * 8, [(5, 10)] * 16))),
]

# Text, the number that it is refused with, and the line.
REFUSED = [
    ("", 11, 1),
    ("# chain\n\n", 11, 3),
    (SIXTEEN + FIELDS.replace("1", "17", 1), 11, 33),
    (SIXTEEN + FIELDS.replace("1", "17", 1) + "\n" + FIELDS, 11, 33),
    (GOOD + FIELDS, 4, 3),
    (GOOD.replace("1", "0", 1), 4, 1),
    (GOOD.replace("40", "0"), 6, 1),
    (GOOD.replace("40", str(2**32 - 1)), 6, 1),
    (GOOD.replace("gap 100", f"gap {2**32 - 1}"), 7, 1),
    (FIELDS + " 100" * 8 + TASK, 28, 1),
    (FIELDS + " 100" * 256 + TASK, 28, 1),
    (GOOD + "\n" + FIELDS.replace("1", "2", 1), 9, 4),
    (FIELDS + TASK * 17, 9, 1),
    (FIELDS + TASK * 257, 9, 1),
    (FIELDS + " 99" + TASK, 29, 1),
    (FIELDS + f" {2**32 - 1}" + TASK, 29, 1),
    (GOOD.replace("list 100", "list 0"), 30, 1),
    (GOOD.replace("gap 100", "gap 99"), 31, 1),
    (TWO + " 100 149" + TASK, 33, 1),
    (TWO + " 200 199" + TASK, 33, 1),
    (TWO + f" 150 {2**32 - 1}" + TASK, 33, 1),
    (GOOD + BURSTY.replace("1", "2", 1) + TASK, 3, 3),
    (BURSTY + TASK + FIELDS.replace("1", "0", 1) + TASK, 3, 3),
    (SIXTEEN + BURSTY.replace("1", "17", 1) + TASK, 3, 33),
    ("chain 1 synchronous deadline 40 list" + " 100" * 9 + " largest" + " 100" * 9 + TASK, 28, 1),
    (GOOD + "task 0 10", 10, 1),
    (GOOD + f"task 65535 {2**32 - 1}", 10, 1),
]

# Text, and the mistakes that are told of it.
MISTAKES = [
    ("task 5 10\n" + GOOD, ["1: a task before the first chain"]),
    (GOOD + "tsak 5 10", ["3: 'tsak' is neither 'chain' nor 'task'"]),
    ("chain", ["1: the id is missing"]),
    ("chain one synchronous", ["1: the id is 'one', not a number"]),
    ("chain -1 synchronous", ["1: the id is '-1', not a number"]),
    ("chain +1 synchronous", ["1: the id is '+1', not a number"]),
    ("chain 1e3 synchronous", ["1: the id is '1e3', not a number"]),
    ("chain 1_0 synchronous", ["1: the id is '1_0', not a number"]),
    ("chain \u0663 synchronous", ["1: the id is '\u0663', not a number"]),
    ("chain 65536 synchronous", ["1: the id is above 65535"]),
    ("chain 4294967297 synchronous", ["1: the id is above 65535"]),
    (f"chain {'9' * 5000} synchronous", ["1: the id is above 65535"]),
    ("chain 1", ["1: the kind is missing"]),
    ("chain 1 overload", ["1: the kind is 'overload', neither synchronous nor asynchronous"]),
    (f"chain 1 {'x' * 5000}", ["1: the kind is 'xxxxxxxxxxxx...xxxxxxxxxxxxx', neither synchronous nor asynchronous"]),
    ("chain 1 synchronous", ["1: 'deadline' is missing"]),
    ("chain 1 synchronous overlaod deadline", ["1: 'overlaod' stands where 'deadline' is due"]),
    ("chain 1 synchronous overload overload", ["1: 'overload' stands where 'deadline' is due"]),
    ("chain 1 synchronous deadline", ["1: the deadline is missing"]),
    ("chain 1 synchronous deadline 4294967296", ["1: the deadline is above 4294967295"]),
    ("chain 1 synchronous deadline 40", ["1: 'gap' or 'list' is missing"]),
    ("chain 1 synchronous deadline 40 gpa 100", ["1: 'gpa' stands where 'gap' or 'list' is due"]),
    ("chain 1 synchronous deadline 40 largest 100", ["1: 'largest' stands where 'gap' or 'list' is due"]),
    ("chain 1 synchronous deadline 40 list", ["1: the first distance is missing"]),
    ("chain 1 synchronous deadline 40 list largest 100", ["1: the first distance is 'largest', not a number"]),
    ("chain 1 synchronous deadline 40 list 100", ["1: there is neither 'gap' before the list nor 'largest' after it"]),
    ("chain 1 synchronous deadline 40 list 100 larger 100", ["1: a distance is 'larger', not a number"]),
    (TWO, ["1: the first largest distance is missing"]),
    (TWO + " none", ["1: the first largest distance is 'none', not a number"]),
    (TWO + " 150 unknown", ["1: a largest distance is 'unknown', not a number"]),
    (TWO + " unknown 150", ["1: '150' is a word too many"]),
    (TWO + " 150", ["1: as many largest distances are due as there are distances, 2"]),
    (TWO + " 150 200 250", ["1: as many largest distances are due as there are distances, 2"]),
    (TWO + " 150 4294967296", ["1: a largest distance is above 4294967295"]),
    (FIELDS + " largest 100", ["1: a distance is 'largest', not a number"]),
    ("chain 1 synchronous deadline 40 gap", ["1: the gap is missing"]),
    ("chain 1 synchronous deadline 40 gap 4294967296", ["1: the gap is above 4294967295"]),
    ("chain 1 synchronous deadline 40 gap 100", ["1: 'list' is missing"]),
    ("chain 1 synchronous deadline 40 gap 100 list", ["1: the first distance is missing"]),
    (FIELDS + " 4294967296", ["1: a distance is above 4294967295"]),
    (FIELDS + ", 200", ["1: the first distance is '100,', not a number"]),
    (FIELDS + " task 5 10", ["1: a distance is 'task', not a number"]),
    (GOOD + "task", ["3: the priority is missing"]),
    (GOOD + "task 5", ["3: the cost is missing"]),
    (GOOD + "task 5 10 15", ["3: '15' is a word too many"]),
    (GOOD + "task 65536 10", ["3: the priority is above 65535"]),
    (GOOD + "task 5 4294967296", ["3: the cost is above 4294967295"]),
    ("chain x\ntask 5 10\n\ntask y 10\n" + FIELDS, ["1: the id is 'x', not a number", "4: the priority is 'y', not a number"]),
    (GOOD + "task\n" * 22, [f"{line}: the priority is missing" for line in range(3, 23)] + [" 2 mistakes more"]),
]


def not_made(text, status, *lines):
    """The text makes no table: the command ends so, says these lines, and the target stays."""
    Path("text").write_bytes(text.encode())
    Path("table").write_bytes(SAMPLE)
    with redirect_stderr(io.StringIO()) as said:
        ended = command(["text", "table"])
    due(ended == status, f"status {ended} for: {text[:200]}")
    due(said.getvalue() == "".join(f"text:{line}\n" for line in lines), f"{text[:200]!r}: {said.getvalue()}")
    due(Path("table").read_bytes() == SAMPLE, f"the target is lost for: {text[:200]}")


def texts():
    for text, made in TEXTS:
        Path("text").write_bytes(text.encode())
        due(command(["text", "table"]) == 0 and Path("table").read_bytes() == made, f"another table of: {text[:200]}")
    Path("text").write_bytes(GOOD.encode() + b"# \xff\xfe\n")
    due(command(["text", "table"]) == 0 and Path("table").read_bytes() == TEXTS[0][1], "a comment that is not UTF-8")
    for text, number, line in REFUSED:
        not_made(text, 1, f"{line}: refused {number}: {SENTENCES[number]}")
    for text, mistakes in MISTAKES:
        not_made(text, 2, *mistakes)


def refused_tables():
    """What is said of them, in a file and on standard input."""
    for s in (b"", GOOD.encode(), SAMPLE[:100], SAMPLE + b"E", bytes(2**20)):
        Path("table").write_bytes(s)
        told = verdict(s)
        what = f"refused {told.number} at byte {told.at}: {SENTENCES[told.number]}\n"
        due(run("--text", "table") == (1, b"", f"table: {what}"), f"{s[:200].hex()}: {run('--text', 'table')}")
        with open("table", "rb") as table:
            said = run("--text", stdin=table)
        due(said == (1, b"", f"standard input: {what}"), f"{s[:200].hex()} on standard input: {said}")


# ---- Rows ----

ROW = "18499 1 0 0 0 40 100 1 2 100 5 10 3 10"
BURSTY_ROW = "18243 1 0 0 1 40 0 2 1 100 150 150 200 5 10"
FIXED = (("the form", 16), ("the id", 16), ("the kind", 8), ("the overload mark", 8), ("the flag", 8), ("the deadline", 32),
         ("the gap", 32), ("the number of distances", 64), ("the number of tasks", 64))
TASK_NUMBERS = (("a priority", 16), ("a cost", 32))
# Rows, and the name and the width of each of their numbers.
ROWS = [(ROW, (*FIXED, ("a distance", 32), *TASK_NUMBERS * 2)),
        (BURSTY_ROW, (*FIXED, *(("a distance", 32),) * 2, *(("a largest distance", 32),) * 2, *TASK_NUMBERS))]


def with_number(turn, word, row=ROW):
    numbers = row.split()
    return " ".join([*numbers[:turn], word, *numbers[turn + 1:]])


# Lines, and the number and the row that they are refused with.
REFUSED_ROWS = [
    ("", 11, 0),
    (with_number(0, "0"), 3, 1),
    (with_number(0, "65535"), 3, 1),
    (with_number(0, str(int.from_bytes(b"EN", "little"))), 3, 1),
    (with_number(1, "0"), 4, 1),
    (with_number(2, "2"), 5, 1),
    (with_number(3, "255"), 5, 1),
    ("18243 1 0 0 2 40 0 1 1 100 5 10", 33, 1),
    (with_number(5, str(2**32 - 1)), 6, 1),
    (with_number(6, str(2**32 - 1)), 7, 1),
    ("18499 1 0 0 0 40 100 0 1 5 10", 28, 1),
    ("18499 1 0 0 0 40 100 9 1" + " 100" * 9 + " 5 10", 28, 1),
    ("18243 1 0 0 1 40 0 9 1" + " 100" * 18 + " 5 10", 28, 1),
    ("18499 1 0 0 0 40 100 1 0 100", 9, 1),
    ("18499 1 0 0 0 40 100 1 300 100" + " 5 10" * 300, 9, 1),
    (with_number(9, "101"), 31, 1),
    (with_number(11, "99", BURSTY_ROW), 33, 1),
    (with_number(12, "80000001", BURSTY_ROW), 33, 1),
    (with_number(13, str(2**32 - 1)), 10, 1),
    (f"{ROW}\n{with_number(1, '2')}\n{ROW}\n{with_number(1, '0')}", 4, 3),
    (f"{ROW}\n{with_number(1, '2', BURSTY_ROW)}", 3, 2),
    (f"{BURSTY_ROW}\n{with_number(1, '0')}", 3, 2),
    ("".join(f"{with_number(1, str(turn))}\n" for turn in range(1, 41)), 11, 17),
]

# Lines that are no rows, and what is said.
NO_ROWS = [
    ("\n", "row 1: the form is missing"),
    (f"{ROW}\n\n", "row 2: the form is missing"),
    (f"{ROW}\r\n", "row 1: a cost is not a number"),
    (f"{ROW} 7", "row 1: there are more numbers than its counts say"),
    (f"{BURSTY_ROW} 7", "row 1: there are more numbers than its counts say"),
    (with_number(4, "0", BURSTY_ROW), "row 1: there are more numbers than its counts say"),
    (f"{ROW}\n{ROW}\0\n", "row 2: a cost is not a number"),
    (f"{ROW}\n" * 40 + "x", "row 41: the form is not a number"),
    *((" ".join(row.split()[:turn]), f"row 1: {name} is missing") for row, names in ROWS for turn, (name, _) in enumerate(names)
      if turn > 0),
    *((with_number(turn, word, row), f"row 1: {name} is not a number") for row, names in ROWS
      for turn, (name, _) in enumerate(names) for word in ("x", "-1", "+1", "1x", "1,", "0x1", "1.0", "\u0663")),
    *((with_number(turn, str(number), row), f"row 1: {name} is too large") for row, names in ROWS
      for turn, (name, width) in enumerate(names) for number in (2**width, 2**64 + 1, 10**30)),
]


def asked(verb, given):
    """Status and standard output of the program, and what is said of it."""
    try:
        return 0, rows(verb, input=given), ""
    except Refused as refused:
        return 1, b"", refused.args
    except Failed as failed:
        return 2, b"", str(failed)


def as_rows(lines):
    """The table that the lines make, or what is said of them."""
    return asked("write", lines.encode())


def program():
    """The program by itself."""
    status, lines, _ = asked("read", SAMPLE)
    due(status == 0 and lines.decode().splitlines()[0] == ROW and lines.count(b"\n") == 4, f"the sample's rows: {lines}")
    for given in (lines, lines[:-1], b" " + lines.replace(b" ", b"\t 0").replace(b"\n", b" \t\n")):
        due(asked("write", given) == (0, SAMPLE, ""), f"rows of the sample: {asked('write', given)}")
    for row, turn in ((ROW, 4), (BURSTY_ROW, 6)):
        due(as_rows(with_number(turn, "255", row)) == as_rows(row), f"number {turn + 1} of {row} counts for something")
    found = at_once(as_rows, [lines for lines, *_ in REFUSED_ROWS + NO_ROWS])
    for (lines, number, row), said in zip(REFUSED_ROWS, found):
        due(said == (1, b"", (number, row, SENTENCES[number])), f"{lines[:200]!r}: {said}")
    for (lines, what), (status, out, said) in zip(NO_ROWS, found[len(REFUSED_ROWS):]):
        due((status, out) == (2, b"") and said.endswith(f" write gives nothing, status 2: rows: {what}"),
            f"{lines[:200]!r}: {status}, {said}")
    for verb in ("", "raed", "--help"):
        said = asked(verb, b"")
        due(said[2].endswith(" gives nothing, status 2: rows: usage: rows write, or rows read"), f"rows {verb}: {said}")


# ---- Wrong uses of the command ----

USAGE = "usage: table.py TEXT TABLE, or table.py --text [TABLE]; a file's name that begins with - as ./-NAME"
USES = [
    ([], USAGE), (["text"], USAGE), (["text", "table", "more"], USAGE), (["--text", "table", "more"], USAGE),
    (["--txt", "table"], USAGE), (["text", "-"], USAGE), (["-", "table"], USAGE), (["--text", "-"], USAGE),
    (["text", "--text"], USAGE),
    (["none", "table"], "none: No such file or directory"),
    (["folder", "table"], "folder: Is a directory"),
    (["long", "table"], "long: longer than 1048576 bytes"),
    (["text", "folder"], "folder: a folder, not a file"),
    (["text", "new/"], "new/: a folder, not a file"),
    (["text", "none/table"], "none/table: there is no folder {here}/none"),
    (["text", "table/table"], "table/table: there is no folder {here}/table"),
    (["text", "pipe"], "pipe: not a plain file"),
    (["text", "text"], "text: the text itself, which would be lost"),
    (["text", "link"], "link: the text itself, which would be lost"),
    (["--text", "none"], "none: No such file or directory"),
    (["--text", "folder"], "folder: Is a directory"),
]


def there():
    """What stands in the folder: names, and bytes of plain files."""
    return {path.name: path.read_bytes() if path.is_file() else None for path in Path(".").iterdir()}


def wrong_uses():
    Path("text").write_text(GOOD)
    Path("table").write_bytes(SAMPLE)
    Path("long").write_bytes(bytes(2**20 + 1))
    Path("folder").mkdir()
    Path("link").symlink_to("text")
    os.mkfifo("pipe")
    before = there()
    for words, what in USES:
        said = run(*words)
        due(said == (2, b"", "table.py: " + what.format(here=os.getcwd()) + "\n"), f"{words}: {said}")
        due(there() == before, f"{words}: something was written")
    for words in (["-h"], ["--help"]):
        status, text, said = run(*words)
        due(status == 0 and b"Usage: table.py TEXT TABLE" in text and said == "", f"{words}: no help")


# What MISHTODRAN_ROWS may name, and what is said of it.
NAMED = "MISHTODRAN_ROWS names the command that runs the program rows"
PROGRAMS = [
    ("'{here}/none'", "{here}/none: No such file or directory; " + NAMED),
    ("'{here}/table'", "{here}/table: Permission denied; " + NAMED),
    ("'{here}", "MISHTODRAN_ROWS: No closing quotation"),
    ("true", "true {verb} gives nothing, status 0: "),
    ("sh -c 'echo no >&2; exit 1'", "echo no >&2; exit 1 {verb} gives nothing, status 1: no"),
    ("sh -c 'kill -9 $$'", "kill -9 $$ {verb} gives nothing, status -9: "),
]


def programs():
    """Other programs in the place of rows, none at all, and the real one with words before it."""
    before = there()
    for named, what in PROGRAMS:
        settings = {"env": {**os.environ, "MISHTODRAN_ROWS": named.format(here=os.getcwd())}}
        for verb, words in (("write", ["text", "table"]), ("read", ["--text", "table"])):
            said = run(*words, **settings)
            due(said == (2, b"", f"table.py: {what.format(here=os.getcwd(), verb=verb)}\n"), f"{named} {verb}: {said}")
    said = run("--text", "table", env={**os.environ, "MISHTODRAN_ROWS": "echo 1 2"})
    due(said == (2, b"", "table.py: the program rows gives no rows, but b'1 2 read\\n'\n"), f"numbers that are no rows: {said}")
    due(there() == before, "something was written by another program than rows")
    real = os.environ.get("MISHTODRAN_ROWS") or shlex.quote(BUILT)
    said = run("--text", "table", env={**os.environ, "MISHTODRAN_ROWS": f"env 'NAME=a value' {real}"})
    due(said == run("--text", "table") and said[0] == 0, f"the program with words before it: {said}")


def without_program():
    """A copy that stands elsewhere has no program, unless it is named."""
    os.makedirs("copy/examples")
    shutil.copy(TABLE_PY, "copy/examples")
    plain = {name: value for name, value in os.environ.items() if name != "MISHTODRAN_ROWS"}
    for words in (["text", "table"], ["--text", "table"]):
        said = run(*words, program="copy/examples/table.py", env=plain)
        what = f"there is no program {os.getcwd()}/copy/target/examples/rows: ./mishtodran table builds it"
        due(said == (2, b"", f"table.py: {what}\n"), f"without the program: {said}")


def failing_output():
    """Where writing fails the target is as it was, and nothing is left beside it."""
    before = there()
    limited = run("text", "table", preexec_fn=lambda: resource.setrlimit(resource.RLIMIT_FSIZE, (8, 8)))
    due(limited == (2, b"", "table.py: table: File too large\n"), f"a disk that is full: {limited}")
    with open("/dev/full", "wb") as full:
        said = run("--text", "table", stdout=full)
    due(said == (2, None, "table.py: standard output: No space left on device\n"), f"standard output that is full: {said}")
    said = run("--text", "table", preexec_fn=lambda: os.close(1))
    due(said == (2, b"", "table.py: standard output: Bad file descriptor\n"), f"standard output that is closed: {said}")
    due(there() == before, "a failed run has written something")


def failing_input():
    """Standard input that is closed, and one that can only be written to: what the program says of it is passed on."""
    said = run("--text", preexec_fn=lambda: os.close(0))
    due(said == (2, b"", "table.py: standard input: it is closed\n"), f"standard input that is closed: {said}")
    with open("pipe", "r+b", 0), open("pipe", "wb", 0) as no_input:
        status, out, said = run("--text", stdin=no_input)
    what = " read gives nothing, status 2: rows: standard input: Bad file descriptor\n"
    due((status, out) == (2, b"") and said.endswith(what), f"standard input that cannot be read: {status}, {said}")


def write_protected():
    """A target that its user may not write, in a folder that he may. Root may write all, so another user tries."""
    before = there()
    os.chmod(".", 0o777)
    os.chmod("table", 0o444)
    child = os.fork()
    if child == 0:
        if os.geteuid() == 0:
            os.setuid(65534)
        with redirect_stderr(io.StringIO()) as said:
            status = command(["text", "table"])
        os._exit((status, said.getvalue()) != (2, "table.py: table: Permission denied\n"))
    due(os.waitpid(child, 0)[1] == 0, "a target that is write-protected is not refused")
    os.chmod("table", 0o644)
    due(there() == before, "a write-protected target was written")


def renamed():
    """Who has the old table open reads it to its end."""
    Path("table").write_bytes(SAMPLE)
    with open("table", "rb") as opened:
        due(run("text", "table") == (0, b"", ""), "a good text: the command failed")
        due(opened.read() == SAMPLE, "the target was written over, not replaced")
    due(Path("table").read_bytes() == TEXTS[0][1], "a good text: another table")


def permission_bits():
    """As a plain open would leave them; a symbolic link stays one."""
    os.symlink("kept", "to_kept")
    for target, mode, due_mode in (("fresh", None, 0o640), ("kept", 0o604, 0o604), ("to_kept", None, 0o604)):
        if mode is not None:
            Path(target).write_bytes(b"")
            os.chmod(target, mode)
        said = run("text", target, preexec_fn=lambda: os.umask(0o027))
        due(said == (0, b"", ""), f"{target}: {said}")
        due(stat.S_IMODE(os.stat(target).st_mode) == due_mode, f"{target}: other permission bits")
        due(Path(target).read_bytes() == TEXTS[0][1], f"{target}: another table")
    due(os.path.islink("to_kept"), "a symbolic link was replaced")


def try_all():
    """The line to be printed where all is as it should be."""
    examples()
    tables = round_trips() + made_up()
    for part in (texts, refused_tables, program, wrong_uses, programs, without_program, failing_output, failing_input,
                 write_protected, renamed, permission_bits):
        part()
    mistakes = len(MISTAKES) + len(REFUSED) + len(REFUSED_ROWS) + len(NO_ROWS) + len(USES) + 2 * len(PROGRAMS)
    return f"{tables} tables to text and back, {mistakes} mistakes: as it should be"


def main(words):
    if words:
        print("try_table.py: usage: try_table.py", file=sys.stderr)
        return 2
    try:
        rows("read", input=SAMPLE)
    except (Failed, Refused) as error:
        print(f"try_table.py: the sample is not read: {error}", file=sys.stderr)
        return 2
    with tempfile.TemporaryDirectory() as folder:
        os.chdir(folder)
        done = try_all()
        os.chdir("/")
    for what in wrong or [done]:
        print(f"try_table: {what}")
    return 1 if wrong else 0


if __name__ == "__main__":
    sys.exit(main(sys.argv[1:]))
