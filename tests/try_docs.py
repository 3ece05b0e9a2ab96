#!/usr/bin/env python3
"""Holds the docs, and the sentences of `./mishtodran check`, `merge`, `convert` and `salvage` and of examples/rows.c, against what
they speak of: the header's refusals, fields, entries and version, the definitions in specs/, the bytes of the examples, and the
lines for a damaged table and a conflict.

Usage: try_docs.py

0 and a line if all is as it should be; 1 and a line for each thing that is not; 2 for a wrong use.
"""
import re
import sys

from records import end
from stored import NUMBERS, TOP, records

HEADER = (TOP / "include" / "mishtodran.h").read_text("utf8")
CONSTANTS = {name: int(value) for name, value in re.findall(r"MISHTODRAN_(\w+)(?: =)? (\d+)", HEADER)}
# Name, number and sentence of each refusal.
REFUSALS = re.findall(r"MISHTODRAN_(\w+) = (\d+),? +/\* (.*) \*/\n",
                      HEADER.partition("enum mishtodran_refusal {")[2].partition("};")[0])


def text_of(name):
    return (TOP / name).read_text("utf8")


def refusals():
    """Lines for the numbers and names that docs/REFUSALS.md and the header do not have alike."""
    due = [(name, number) for name, number, _ in REFUSALS]
    rows = re.findall(r"^\| (\d+) \| `(\w+)` \|", text_of("docs/REFUSALS.md"), re.M)
    there = [(name, number) for number, name in rows]
    if not due:
        return ["mishtodran.h: no refusals in the form that this program reads"]
    lines = [f"REFUSALS.md has not {number}, {name}" for name, number in due if (name, number) not in there]
    if not lines and there != due:
        lines = [f"REFUSALS.md has {len(there)} rows, and not each of the {len(due)} refusals once, in order"]
    return lines


# The fields of docs/TABLE.md, in its order, each with its name in the header.
FIELDS = [("mark", "CHAIN_MARK"), ("id", "CHAIN_ID"), ("kind", "CHAIN_KIND"), ("overload", "CHAIN_OVERLOAD"),
          ("deadline", "CHAIN_DEADLINE"), ("largest gap", "CHAIN_GAP"), ("list length", "CHAIN_LISTED"),
          ("task count", "CHAIN_TASKS"), ("distances", "CHAIN_DISTANCES"),
          ("mark", "CHAIN_MARK"), ("flag", "CG_FLAG"), ("list length", "CG_LISTED"), ("task count", "CG_TASKS"),
          ("distances", "CG_DISTANCES"),
          ("mark", "TASK_MARK"), ("priority", "TASK_PRIORITY"), ("cost", "TASK_COST"),
          ("mark", "END_MARK"), ("number of chains", "END_CHAINS")]


def fields():
    """Lines for the fields and the numbers of docs/TABLE.md that are not the header's."""
    text = text_of("docs/TABLE.md")
    rows = re.findall(r"^\| (\d+) \| (\d+)( L)? \| ([a-z ]+) \| .* \| ([\d, ]+) \|$", text, re.M)
    due = [(name, CONSTANTS[f"{field}_AT"], CONSTANTS.get(f"{field}_BYTES", CONSTANTS["DISTANCE_BYTES"]))
           for name, field in FIELDS]
    there = [(name, int(at), int(length)) for at, length, _, name, _ in rows]
    lines = [f"TABLE.md has {row}, the header {wanted}" for row, wanted in zip(there, due) if row != wanted]
    if len(there) != len(due):
        lines.append(f"TABLE.md has {len(there)} fields, the header {len(due)}")
    at_fields = {int(number) for *_, numbers in rows for number in numbers.split(", ")}
    order = text.partition("## The order of the checks")[2].partition("\n## ")[0]
    checked = {int(number) for number in re.findall(r"\((\d+)\)", order)}
    for what, numbers in (("at its fields", at_fields | {1, 2}), ("in its order of the checks", checked)):
        if numbers != NUMBERS:
            lines.append(f"TABLE.md has other numbers {what} than a table's: {sorted(numbers ^ NUMBERS)}")
    return lines


def entries():
    """Lines for the entries and the version that README.md and CHANGELOG.md have otherwise than the header."""
    lines = []
    due = re.findall(r"^\w+ (mishtodran_\w+)\(", HEADER, re.M)
    rows = re.findall(r"^\| `(mishtodran_\w+)` \|", text_of("README.md"), re.M)
    if rows != due or not due:
        lines.append(f"README.md has the entries {', '.join(rows)}, the header {', '.join(due)}")
    newest = re.search(r"^## (\d+)$", text_of("CHANGELOG.md"), re.M)
    if not newest or int(newest.group(1)) != CONSTANTS["VERSION"]:
        lines.append(f"CHANGELOG.md does not begin with version {CONSTANTS['VERSION']}")
    return lines


def definitions():
    """Lines for the files of definitions, those in specs/Code/ aside, that README.md does not name beside their crate. Of `demands`
    it names the page, and what that imports."""
    there = {(file.parts[-3], file.stem) for file in TOP.glob("crates/*/specs/*.antt") if file.stem not in ("Code", "Lib")}
    named, due = set(), ["Demands"]
    while due:
        name = due.pop()
        named.add(("demands", name))
        imported = re.findall(r"^use Rattle\.demands\.specs\.(\w+)\.", text_of(f"crates/demands/specs/{name}.antt"), re.M)
        due += [other for other in imported if ("demands", other) not in named]
    for row in text_of("README.md").partition("## Where to read")[2].partition("\n## ")[0].splitlines():
        crate = None
        for word, colon in re.findall(r"`(\w+)`(:?)", row):
            crate = word if colon or crate is None else crate
            named.add((crate, word))
    return [f"README.md does not name the definitions {name} of {crate}" for crate, name in sorted(there - named)]


# The numbers that have a sentence: a table's, and those that a merge, a conversion or a salvage has besides.
SAID = NUMBERS | {24, 32, 34, 35, 36}


def sentences():
    """Lines for the sentences of `./mishtodran check`, `merge`, `convert` and `salvage` that are not the header's, and for docs
    that show another line."""
    numbers = dict(re.findall(r"^ +Refusal::(\w+) => (\d+),$", text_of("crates/table/src/refusal.rt"), re.M))
    told = re.findall(r'^ +Refusal::(\w+) =>\s+"(.*)",$', text_of("crates/verdict_text/src/sentence.rt"), re.M)
    said = [(numbers.get(name), what) for name, what in told]
    due = [(number, what) for _, number, what in REFUSALS if int(number) in SAID]
    lines = [f"sentence.rt has not the header's {number}: {what}" for number, what in due if (number, what) not in said]
    if len(said) != len(SAID):
        lines.append(f"sentence.rt has {len(said)} sentences for {len(SAID)} numbers")
    damaged, conflict = f"    {text_of('crates/table_check/stdout')}", f"    refused 32: {dict(due).get('32')}\n"
    shown = [("README.md", damaged), ("docs/REFUSALS.md", damaged), ("README.md", conflict)]
    return lines + [f"{name} does not show the line '{line.strip()}'" for name, line in shown if line not in text_of(name)]


def sentences_of_rows():
    """Lines for the sentences of examples/rows.c that are not the header's for a table's numbers."""
    said = re.findall(r'^ +\[MISHTODRAN_(\w+)\] = "(.*)",$', text_of("examples/rows.c"), re.M)
    due = [(name, what) for name, number, what in REFUSALS if int(number) in NUMBERS]
    return [f"rows.c has {said}, the header {due}"] if said != due else []


def drawings():
    """Lines for the bytes that docs/TABLE.md draws otherwise than the example tables have them."""
    text, lines = text_of("docs/TABLE.md"), []
    for name in ("sample", "bursts"):
        table = (TOP / "examples" / f"{name}.table").read_bytes()
        first, *_, last = records(table)
        drawn = text.partition(f"Chain 1 of `examples/{name}.table`")[2].partition("\n## ")[0]
        shown = bytes.fromhex("".join(re.findall(r"^    bytes ([0-9a-f ]+)$", drawn, re.M)))
        if shown != table[slice(*first)]:
            lines.append(f"TABLE.md draws {shown.hex(' ')}, and the first record of {name} is {table[slice(*first)].hex(' ')}")
        if name == "sample" and f"the end record, `{end(4).hex(' ')}`, at {last[1]}." not in drawn:
            lines.append("TABLE.md has the sample's end record otherwise")
    return lines


def main(words):
    if words:
        print("try_docs.py: usage: try_docs.py", file=sys.stderr)
        return 2
    wrong = refusals() + fields() + entries() + definitions() + sentences() + sentences_of_rows() + drawings()
    for line in wrong or ["as it should be"]:
        print(f"try_docs: {line}")
    return 1 if wrong else 0


if __name__ == "__main__":
    sys.exit(main(sys.argv[1:]))
