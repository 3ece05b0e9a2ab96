#!/usr/bin/env bash
# Tries the command `./mishtodran convert`: what it makes of a table, and back, what it says of refusals, and what becomes of the
# file RESULT.
# Usage: tests/convert_command.sh
set -u
name=convert_command
# shellcheck source=scripts/shell.sh
. "$(dirname "$(readlink -f "${BASH_SOURCE[0]}")")/../scripts/shell.sh" || exit 2
[ $# = 0 ] || fail "usage: tests/convert_command.sh"
room=$(mktemp -d) || fail "no temporary folder can be made"
trap 'rm -rf "$room"' EXIT

# The tables stand in a folder whose name has a blank; the commands run there, with relative names.
tables="$room/the tables"
{ mkdir "$tables" && cd "$tables"; } || fail "$room cannot be written"

# bytes NUMBER..: a byte for each number; longs NUMBER..: four bytes for each.
bytes() {
    printf '%b' "$(printf '\\x%02x' "$@")"
}

longs() {
    local n
    for n in "$@"; do
        bytes $((n % 256)) $((n / 256 % 256)) $((n / 65536 % 256)) $((n / 16777216))
    done
}

# chain ID LARGEST..: a record of the form CG with these largest distances, each distance being 1, and one task; without them its
# flag is 0.
chain() {
    local id=$1 listed=$(($# - 1)) flag=1 smallest=()
    shift
    [ "$listed" != 0 ] || { flag=0 && listed=1; }
    mapfile -t smallest < <(yes 1 | head -n "$listed")
    bytes 67 71 $((id % 256)) $((id / 256)) 0 0 232 3 0 0 "$flag" "$listed" 1
    longs "${smallest[@]}" "$@"
    bytes 84 75 5 0 1 0 0 0
}

# convert STATUS SAID WORDS..: the command ends so, says just this, prints nothing, and leaves no file beside.
convert() {
    local expected=$1 said=$2 status there
    shift 2
    there=$(ls -A)
    "$top/mishtodran" convert "$@" >"$room/out" 2>"$room/err"
    status=$?
    [ "$(cat "$room/err")" = "$said" ] || found "convert $*: it says '$(cat "$room/err")', not '$said'"
    [ "$status" = "$expected" ] || found "convert $*: exit status $status, not $expected"
    [ ! -s "$room/out" ] || found "convert $*: it prints something"
    [ "$(ls -A)" = "$there" ] || found "convert $*: other files are there: $(ls -A)"
}

# turns GAPS LARGEST: the table with gaps becomes the one with largest distances, and that one the first again, byte for byte; each
# into another file, and into its own.
turns() {
    convert 0 "" "$1" result
    cmp -s "$2" result || found "$1 with largest distances is not $2"
    convert 0 "" --back result result
    cmp -s "$1" result || found "$2 with gaps is not $1"
    convert 0 "" result result
    cmp -s "$2" result || found "$1 with largest distances, into its own file, is not $2"
    convert 0 "" --back "$2" result
    cmp -s "$1" result || found "$2 with gaps, into another file, is not $1"
}

# refuses STATUS SAID WORDS..: there is no conversion, and RESULT stays.
refuses() {
    echo before >result
    convert "$@" result
    [ "$(cat result)" = before ] || found "convert ${*:3}: it is refused, and result does not stay"
}

cp "$top/examples/sample.table" sample
cp "$top/crates/table_convert/stdout" converted
cp "$top/crates/table_check/stdin" damaged
: >empty
head -c 1285 /dev/zero >too_long
{ bytes 67 71 && head -c 1747 /dev/zero; } >far_too_long
{ bytes 67 72 3 0 0 0 232 3 0 0 && longs 10000000 && bytes 8 1 && longs 1 1 1 1 1 1 1 1 && bytes 84 75 5 0 1 0 0 0 69 78 1 0; } >greatest
{ chain 3 {1..8}0000000 && bytes 69 78 1 0; } >greatest_converted

# ---- Results ----

# The first one builds the program, and says so.
: >result
"$top/mishtodran" convert sample result || found "the first conversion: it failed"
cmp -s converted result || found "the first conversion is another table"
turns sample converted
turns greatest greatest_converted

# Every figure stays.
cp "$top/examples/case_study.table" study
convert 0 "" study result
for table in sample:converted study:result; do
    [ "$("$top/mishtodran" report "${table%:*}")" = "$("$top/mishtodran" report "${table#*:}")" ] || found "the report of $table differs"
done
convert 0 "" --back result result
cmp -s study result || found "the case study, converted and back, is another table"

# A new file, and names that begin as an option does.
rm result
(umask 027 && "$top/mishtodran" convert sample result) || found "there is no new file"
cmp -s converted result || found "the new file is another table"
[ "$(stat -c %a result)" = 640 ] || found "the mode of the new file is $(stat -c %a result), not 640"
cp sample ./-x
cp converted ./--back
convert 0 "" -x -x
cmp -s converted ./-x || found "the conversion into -x is another table"
convert 0 "" --back ./--back ./--back
cmp -s sample ./--back || found "the conversion into --back is another table"

# ---- Refusals ----

length="refused 1 at byte 0: the table's length is 0, above 1,284 (1,748 for CG) or above its buffer"
no_form='refused 34: some chain has no such form, or the table already has it'
other='has largest distances other than 1, 2, 3, .. times a gap of at most 10,000,000'
for back in "" --back; do
    asked=(${back:+"$back"})
    refuses 1 "$(cat "$top/crates/table_check/stdout")" "${asked[@]}" damaged
    refuses 1 "$length (the table has 0 bytes)" "${asked[@]}" empty
    refuses 1 "$length (the table has more than 1,284 bytes)" "${asked[@]}" too_long
    refuses 1 "$length (the table has more than 1,748 bytes)" "${asked[@]}" far_too_long
    # A read that fails: what the program itself says is passed on.
    refuses 2 "/proc/self/mem: Input/output error"$'\n'"mishtodran: there is no result" "${asked[@]}" /proc/self/mem
done
refuses 1 "$no_form (the table already has the form CG)" converted
refuses 1 "$no_form (the table already has the form CH)" --back sample

# without CHAIN LARGEST..: of a table whose last chain has these largest distances it is said that this chain has no gap.
without() {
    { chain 2 && chain 5 9 18 && chain "$@" && bytes 69 78 3 0; } >no_gap
    refuses 1 "$no_form (chain $1 $other)" --back no_gap
}

without 7 5 11
without 7 5 5
without 7 5 15
without 258 10000001
without 9 8 16 24 32 40 48 56 65
{ chain 4 && chain 3 1 3 && chain 2 5 10 && chain 1 1 3 && bytes 69 78 4 0; } >no_gap
refuses 1 "$no_form (chain 3 $other)" --back no_gap
print "convert_command: as it should be"
