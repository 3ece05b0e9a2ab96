#!/usr/bin/env bash
# Tries the commands `./mishtodran table` and `./mishtodran text`, and with the program that they have built examples/rows.c and
# examples/table.py.
# Usage: tests/text_commands.sh
set -u
name=text_commands
# shellcheck source=scripts/shell.sh
. "$(dirname "$(readlink -f "${BASH_SOURCE[0]}")")/../scripts/shell.sh" || exit 2
[ $# = 0 ] || fail "usage: tests/text_commands.sh"
cd "$top" || fail "$top cannot be entered"
room=$(mktemp -d) || fail "no temporary folder can be made"
trap 'rm -rf "$room"' EXIT

# ends STATUS OUT ERR WORDS..: the command ends so, prints this text and says this.
ends() {
    local expected=$1 out=$2 err=$3 status
    shift 3
    ./mishtodran "$@" >"$room/out" 2>"$room/err"
    status=$?
    [ "$(cat "$room/err")" = "$err" ] || found "$*: it says '$(cat "$room/err")', not '$err'"
    [ "$status" = "$expected" ] || found "$*: exit status $status, not $expected"
    [ "$(cat "$room/out")" = "$out" ] || found "$*: it prints '$(cat "$room/out")', not '$out'"
}

# The first one builds the program, and says so.
sample=$(sed '/^#/d' examples/sample.txt)
./mishtodran text examples/sample.table >"$room/out" || found "the first text: it failed"
[ "$(cat "$room/out")" = "$sample" ] || found "the first text is another one"
ends 0 "$sample" "" text examples/sample.table
ends 0 "$sample" "" text <examples/sample.table
ends 0 "$sample" "" text <(cat examples/sample.table)
ends 0 "$(sed '/^#/d' examples/bursts.txt)" "" text examples/bursts.table
: >"$room/empty"
ends 1 "" "$room/empty: refused 1 at byte 0: the table's length is 0, above 1,284 (1,748 for CG) or above its buffer" text "$room/empty"
ends 1 "" "standard input: refused 2 at byte 139: bytes run out inside a record or before the end record" \
    text < <(head -c 139 examples/sample.table)
./mishtodran text examples/sample.table >/dev/full 2>"$room/err"
status=$?
[ "$status" = 2 ] || found "text, a full disk: exit status $status, not 2"
[ "$(cat "$room/err")" = "table.py: standard output: No space left on device" ] ||
    found "text, a full disk: it says '$(cat "$room/err")'"

for table in sample bursts case_study; do
    ends 0 "" "" table "examples/$table.txt" "$room/table"
    cmp -s "examples/$table.table" "$room/table" || found "examples/$table.txt makes another table"
done
sed 's/gap 50 list 50/gap 49 list 50/' examples/sample.txt >"$room/text"
ends 1 "" "$room/text:5: refused 31: a gap other than 0 is too small for the distances" table "$room/text" "$room/table"
sed 's/largest 80 100/largest 80 99/' examples/bursts.txt >"$room/text"
ends 1 "" "$room/text:3: refused 33: a flag is above 1, or a largest distance falls, is too large or too small" \
    table "$room/text" "$room/table"
sed 's/list 600 largest unknown/gap 0 list 600/' examples/bursts.txt >"$room/text"
ends 1 "" "$room/text:6: refused 3: a mark is not one allowed there, or is of another form than the first" \
    table "$room/text" "$room/table"
sed 's/^task 9/tsak 9/' examples/sample.txt >"$room/text"
ends 2 "" "$room/text:6: 'tsak' is neither 'chain' nor 'task'" table "$room/text" "$room/table"
ends 2 "" "table.py: $room/text: the text itself, which would be lost" table "$room/text" "$room/text"
cmp -s examples/case_study.table "$room/table" || found "the table does not stay where a text is refused"
[ "$(ls -A "$room")" = "$(printf '%s\n' empty err out table text)" ] || found "other files are there: $(ls -A "$room")"

find_runner
MISHTODRAN_ROWS=$(quoted "${c_runner[@]}" "$top/target/examples/rows")
export MISHTODRAN_ROWS
check "tables and their text do not agree" python3 tests/try_table.py
print "text_commands: as it should be"
