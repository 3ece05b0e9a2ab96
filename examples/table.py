#!/usr/bin/env python3
"""Makes a stored table from text, and text from a stored table.

Usage: table.py TEXT TABLE       makes the table of a text
       table.py --text [TABLE]   prints the text of a table, in a file or on standard input

The text has a line for each chain, then a line for each of its tasks, in order; '#' starts a comment:

    chain ID synchronous|asynchronous [overload] deadline D gap G list D2 D3 ..
    chain ID synchronous|asynchronous [overload] deadline D list D2 D3 .. largest L2 L3 ..|unknown
    task PRIORITY COST

The first line makes a chain record of the form CH, with its largest gap, 0 where none is known. The second makes one of the form
CG, with as many largest distances as smallest ones, or none. All chains of a table have one form.

Numbers are decimal digits. What a table may hold is judged by the library, which makes and reads its bytes: the program rows
(examples/rows.c) asks it. `./mishtodran table` and `./mishtodran text` build that program and call this one. The environment
variable MISHTODRAN_ROWS names it otherwise, words as in a shell, so that an emulator can stand before it. The text of a table
gives the same bytes again.

A mistake in a text is told as FILE:LINE: WHAT, a rule that a chain breaks as FILE:LINE: refused N: WHY, with the chain's line,
and a refused table as FILE: refused N at byte B: WHY, on standard error. The exit status is 0; 1 where something is refused;
2 where there is a mistake, a wrong use, or something cannot be read, written or run. But for 0 the target stays as it was.
"""
import errno
import os
import re
import shlex
import stat
import subprocess
import sys
import tempfile
from collections import deque, namedtuple
from itertools import chain as joined
from reprlib import repr as shown

KINDS = ("synchronous", "asynchronous")
CH, CG = (int.from_bytes(mark, "little") for mark in (b"CH", b"CG"))  # the forms of a row
U16, U32 = 2**16 - 1, 2**32 - 1  # the widths of a row's numbers
LONGEST_TEXT = 2**20  # bytes of a file that is read
TOLD = 20  # mistakes of a text
BUILT = os.path.join(os.path.dirname(os.path.dirname(os.path.realpath(__file__))), "target", "examples", "rows")


class Mistake(Exception):
    """What is wrong with a text, a line for each mistake."""


class Refused(Exception):
    """What the library refuses: its number, the row or the byte at fault, and why."""


class Failed(Exception):
    """Why the program rows gives nothing."""


# ---- The program rows ----

def rows(verb, **given):
    """What `rows read` or `rows write` makes of its standard input, given as bytes (input) or as an open file (stdin)."""
    try:
        words = shlex.split(os.environ.get("MISHTODRAN_ROWS", ""))
    except ValueError as error:
        raise Failed(f"MISHTODRAN_ROWS: {error}") from None
    if not words and not os.path.exists(BUILT):
        raise Failed(f"there is no program {BUILT}: ./mishtodran table builds it")
    words = words or [BUILT]
    try:
        done = subprocess.run([*words, verb], stdout=subprocess.PIPE, stderr=subprocess.PIPE, check=False, **given)
    except OSError as error:
        raise Failed(f"{words[0]}: {error.strerror}; MISHTODRAN_ROWS names the command that runs the program rows") from None
    said = done.stderr.decode("utf-8", "replace").rstrip("\n")
    refused = re.fullmatch(r"refused (\d+) (?:in row|at byte) (\d+): (.+)", said)
    if done.returncode == 1 and refused:
        raise Refused(int(refused[1]), int(refused[2]), refused[3])
    if done.returncode != 0 or not done.stdout:
        raise Failed(f"{words[-1]} {verb} gives nothing, status {done.returncode}: {said}")
    return done.stdout


# ---- From text ----

Chain = namedtuple("Chain", "line fields distances largest tasks")  # a chain of a text; fields are those before its counts


def take(words, what):
    if not words:
        raise Mistake(f"{what} is missing")
    return words.popleft()


def keyword(words, *due):
    """The next word, which is one of those due."""
    names = " or ".join(f"'{name}'" for name in due)
    word = take(words, names)
    if word not in due:
        raise Mistake(f"{shown(word)} stands where {names} is due")
    return word


def no_more(words):
    if words:
        raise Mistake(f"{shown(words[0])} is a word too many")


def number(words, what, greatest):
    word = take(words, what)
    if not (word.isascii() and word.isdigit()):
        raise Mistake(f"{what} is {shown(word)}, not a number")
    digits = word.lstrip("0") or "0"
    if len(digits) > len(str(greatest)) or int(digits) > greatest:
        raise Mistake(f"{what} is above {greatest}")
    return int(digits)


def distances(words, what, until=None):
    """The distances up to a word, which stays, or to the end of the line; there is at least one."""
    found = [number(words, f"the first {what}", U32)]
    while words and words[0] != until:
        found.append(number(words, f"a {what}", U32))
    return found


def read_largest(words, written):
    """Adds the distances of a line without a gap, and the largest ones after them; the flag."""
    written.distances.extend(distances(words, "distance", "largest"))
    if not words:
        raise Mistake("there is neither 'gap' before the list nor 'largest' after it")
    keyword(words, "largest")
    if words and words[0] == "unknown":
        words.popleft()
        no_more(words)
        return 0
    written.largest.extend(distances(words, "largest distance"))
    if len(written.largest) != len(written.distances):
        raise Mistake(f"as many largest distances are due as there are distances, {len(written.distances)}")
    return 1


def read_chain(words, written):
    """Adds what stands on a chain's line after 'chain': the fields before the counts, and the distances."""
    ident = number(words, "the id", U16)
    kind = take(words, "the kind")
    if kind not in KINDS:
        raise Mistake(f"the kind is {shown(kind)}, neither synchronous nor asynchronous")
    overload = 0
    if words and words[0] == "overload":
        words.popleft()
        overload = 1
    keyword(words, "deadline")
    deadline = number(words, "the deadline", U32)
    form, flag, gap = CG, 0, 0
    if keyword(words, "gap", "list") == "gap":
        form, gap = CH, number(words, "the gap", U32)
        keyword(words, "list")
        written.distances.extend(distances(words, "distance"))
    else:
        flag = read_largest(words, written)
    written.fields.extend((form, ident, KINDS.index(kind), overload, flag, deadline, gap))


def read_line(line, words, chains):
    """Adds what stands on a line to the chains."""
    first = words.popleft()
    if first == "chain":
        chains.append(Chain(line, [], [], [], []))
        read_chain(words, chains[-1])
    elif first == "task":
        if not chains:
            raise Mistake("a task before the first chain")
        chains[-1].tasks.append((number(words, "the priority", U16), number(words, "the cost", U32)))
        no_more(words)
    else:
        raise Mistake(f"{shown(first)} is neither 'chain' nor 'task'")


def row_of(written):
    """A chain as the program rows takes it."""
    counts = len(written.distances), len(written.tasks)
    return " ".join(map(str, joined(written.fields, counts, written.distances, written.largest, *written.tasks))) + "\n"


def chains_of(lines):
    """The chains of a text's lines."""
    chains, mistakes = [], []
    for line, content in enumerate(lines, 1):
        words = deque(content.split("#")[0].split())
        try:
            if words:
                read_line(line, words, chains)
        except Mistake as mistake:
            mistakes.append(f"{line}: {mistake}")
    if mistakes:
        raise Mistake(*mistakes)
    return chains


def table_of(text):
    """The stored table of a text, given as bytes. It is refused at a line, without any chain at the last one."""
    lines = text.decode("utf-8-sig", "replace").split("\n")
    chains = chains_of(lines)
    try:
        return rows("write", input="".join(map(row_of, chains)).encode("ascii"))
    except Refused as refused:
        refusal, row, why = refused.args
        raise Refused(refusal, chains[row - 1].line if row else len(lines), why) from None


# ---- To text ----

def chain_text(row):
    """The lines of a chain, given as the program rows gives it."""
    form, ident, kind, overload, flag, deadline, gap, listed, tasks, *rest = map(int, row.split())
    words = ["chain", ident, KINDS[kind], *["overload"] * overload, "deadline", deadline]
    if form == CH:
        words += ["gap", gap, "list", *rest[:listed]]
    else:
        words += ["list", *rest[:listed], "largest", *(rest[listed:2 * listed] if flag else ["unknown"])]
    of_tasks = rest[listed * (1 + flag):]
    return [words, *(["task", *of_tasks[2 * turn:2 * turn + 2]] for turn in range(tasks))]


def text_of(**table):
    """The text of a stored table, given as bytes (input) or as an open file (stdin)."""
    given = rows("read", **table)
    try:
        lines = [line for row in given.decode("ascii").splitlines() for line in chain_text(row)]
    except (ValueError, IndexError):
        raise Failed(f"the program rows gives no rows, but {shown(given)}") from None
    return "".join(" ".join(map(str, words)) + "\n" for words in lines)


# ---- Files ----

def read(path, longest):
    with open(path, "rb") as file:
        found = file.read(longest + 1)
    if len(found) > longest:
        raise OSError(errno.EFBIG, f"longer than {longest} bytes", path)
    return found


def must_be_replaceable(path):
    """A new file in a folder that is there, or a plain file that may be written."""
    folder = os.path.dirname(os.path.realpath(path))
    if not os.path.basename(path) or os.path.isdir(path):
        raise OSError(errno.EISDIR, "a folder, not a file", path)
    if not os.path.isdir(folder):
        raise OSError(errno.ENOENT, f"there is no folder {folder}", path)
    if os.path.exists(path) and not os.path.isfile(path):
        raise OSError(errno.EINVAL, "not a plain file", path)
    if os.path.exists(path) and not os.access(path, os.W_OK):
        raise OSError(errno.EACCES, os.strerror(errno.EACCES), path)


def permission_bits(path):
    """Those that the file has, or a new one gets."""
    if os.path.exists(path):
        return stat.S_IMODE(os.stat(path).st_mode)
    umask = os.umask(0)
    os.umask(umask)
    return 0o666 & ~umask


def replace(path, data):
    """Puts bytes in a file's place at once: they are written beside it, and renamed."""
    must_be_replaceable(path)
    real = os.path.realpath(path)
    try:
        descriptor, beside = tempfile.mkstemp(prefix=".table.", dir=os.path.dirname(real))
        try:
            with open(descriptor, "wb") as file:
                os.fchmod(descriptor, permission_bits(real))
                file.write(data)
                file.flush()
                os.fsync(descriptor)
            os.rename(beside, real)
        except BaseException:
            os.unlink(beside)
            raise
    except OSError as error:
        raise OSError(error.errno, error.strerror, path) from None


def print_text(text):
    try:
        with open(1, "wb", closefd=False) as out:
            out.write(text.encode("ascii"))
    except OSError as error:
        raise OSError(error.errno, error.strerror, "standard output") from None


# ---- The command ----

def say(line):
    if sys.stderr:
        print(line, file=sys.stderr)


def make(text, table):
    """Makes the table of a text, in files; the exit status."""
    must_be_replaceable(table)
    if os.path.exists(table) and os.path.samefile(text, table):
        raise OSError(errno.EINVAL, "the text itself, which would be lost", table)
    try:
        made = table_of(read(text, LONGEST_TEXT))
    except Mistake as mistake:
        for what in mistake.args[:TOLD]:
            say(f"{text}:{what}")
        if len(mistake.args) > TOLD:
            say(f"{text}: {len(mistake.args) - TOLD} mistakes more")
        return 2
    except Refused as refused:
        refusal, line, why = refused.args
        say(f"{text}:{line}: refused {refusal}: {why}")
        return 1
    replace(table, made)
    return 0


def show(name, table):
    """Prints the text of a table in an open file of this name; the exit status."""
    try:
        text = text_of(stdin=table)
    except Refused as refused:
        refusal, at, why = refused.args
        say(f"{name}: refused {refusal} at byte {at}: {why}")
        return 1
    print_text(text)
    return 0


def main(words):
    try:
        if words in (["-h"], ["--help"]):
            print_text(__doc__)
            return 0
        if words == ["--text"]:
            if not sys.stdin:
                raise OSError(errno.EBADF, "it is closed", "standard input")
            return show("standard input", sys.stdin)
        if len(words) == 2 and words[0] == "--text" and not words[1].startswith("-"):
            with open(words[1], "rb") as table:
                return show(words[1], table)
        if len(words) == 2 and not any(word.startswith("-") for word in words):
            return make(*words)
        say("table.py: usage: table.py TEXT TABLE, or table.py --text [TABLE]; a file's name that begins with - as ./-NAME")
    except Failed as failed:
        say(f"table.py: {failed}")
    except OSError as error:
        say(f"table.py: {error.filename}: {error.strerror}")
    return 2


if __name__ == "__main__":
    sys.exit(main(sys.argv[1:]))
