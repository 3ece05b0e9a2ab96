#!/usr/bin/env python3
"""Makes the packed cases of the gate anew, from tests/cases and the cases that stand in the pack modules.

Usage: pack_all.py            writes the seven files
       pack_all.py --check    writes nothing and compares: 0 if all are the same, else 1 and the name of each that differs

Status 2: a wrong use, or something cannot be read or written.
"""
import sys

import pack
import pack_convert
import pack_entries
import pack_merge
import pack_misses
import pack_salvage
import pack_save
import pack_write
from stored import TOP

sys.path.insert(0, str(TOP / "examples"))

from table import replace

PACKED = {
    "crates/vectors/stdin": lambda: [*pack.everything(), *pack_misses.everything()],
    "crates/save_vectors/stdin": pack_save.everything,
    "crates/merge_vectors/stdin": pack_merge.everything,
    "crates/write_vectors/stdin": pack_write.everything,
    "crates/convert_vectors/stdin": pack_convert.everything,
    "crates/salvage_vectors/stdin": pack_salvage.everything,
    "tests/entries.bin": pack_entries.everything,
}


def say(line):
    print(f"pack_all.py: {line}", file=sys.stderr)


def is_there(name, packed):
    path = TOP / name
    return path.exists() and path.read_bytes() == packed


def check(name, packed):
    """Whether the file is what the cases make; says so where it is not."""
    if is_there(name, packed):
        return True
    say(f"{name} is not what the cases make")
    return False


def write(name, packed):
    """A file that is the same already keeps its time, so that nothing is built again for it."""
    if not is_there(name, packed):
        replace(str(TOP / name), packed)
    print(f"{name}: {len(packed)} bytes")


def main(words):
    if words not in ([], ["--check"]):
        say("usage: pack_all.py [--check]")
        return 2
    try:
        found = [(name, b"".join(everything())) for name, everything in PACKED.items()]
        if words:
            return 0 if all([check(*file) for file in found]) else 1
        for file in found:
            write(*file)
        print(f"{pack_misses.left_out()} miss queries have over {pack_misses.MOST_PACKINGS} packings: mishtodran_misses_plain is "
              "not asked")
        return 0
    except OSError as error:
        say(f"{error.filename}: {error.strerror}")
    except ValueError as error:
        say(f"a case cannot be read: {error}")
    return 2


if __name__ == "__main__":
    sys.exit(main(sys.argv[1:]))
