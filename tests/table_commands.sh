#!/usr/bin/env bash
# Tries the commands `./mishtodran report`, `./mishtodran check` and `./mishtodran misses`: what they print, and what they do
# where reading or writing fails.
# Usage: tests/table_commands.sh
set -u
name=table_commands
# shellcheck source=scripts/shell.sh
. "$(dirname "$(readlink -f "${BASH_SOURCE[0]}")")/../scripts/shell.sh" || exit 2
[ $# = 0 ] || fail "usage: tests/table_commands.sh"
cd "$top" || fail "$top cannot be entered"
room=$(mktemp -d) || fail "no temporary folder can be made"
trap 'rm -rf "$room"' EXIT

# prints COMMAND WHAT TEXT: the command on standard input prints the text, ends with 1 where a table is refused and else with
# 0, and says nothing else.
prints() {
    local expected=0 status
    [[ $3 != refused* ]] || expected=1
    ./mishtodran "$1" >"$room/out" 2>"$room/err"
    status=$?
    [ "$status" = "$expected" ] || found "$1, $2: exit status $status, not $expected"
    printf '%s\n' "$3" | cmp -s - "$room/out" || found "$1, $2: another text: $(cat "$room/out")"
    [ ! -s "$room/err" ] || found "$1, $2: it says something on standard error"
}

# fails WHAT SAID WORDS..: the command cannot read or write: it prints nothing, says why, and ends with 2.
fails() {
    local what=$1 said=$2 status
    shift 2
    "$@" >"$room/out" 2>"$room/err"
    status=$?
    [ "$status" = 2 ] || found "$what: exit status $status, not 2"
    [ ! -s "$room/out" ] || found "$what: it printed something"
    [ "$(cat "$room/err")" = "$said" ] || found "$what: it says '$(cat "$room/err")'"
}

# bytes NUMBER..: a byte for each number.
bytes() {
    printf '%b' "$(printf '\\x%02x' "$@")"
}

# full_table LISTS: a table of 1,284 bytes, or with two lists one in the form CG of 1,748: 16 chains of 8 distances, the same as
# largest ones, and 4 tasks of cost 1, each below the ones before it.
full_table() {
    local i n mark=72 rest=(232 3 0 0 8 4) listed=({1..8})
    [ "$1" = 1 ] || { mark=71 && rest=(1 8 4) && listed+=({1..8}); }
    for i in {1..16}; do
        bytes 67 "$mark" "$i" 0 0 0 232 3 0 0 "${rest[@]}"
        for n in "${listed[@]}"; do bytes $((n * 1000 % 256)) $((n * 1000 / 256)) 0 0; done
        for n in {1..4}; do bytes 84 75 $((17 - i)) 0 1 0 0 0; done
    done
    bytes 69 78 16 0
}

# in_pieces FILE LENGTH..: the file in pieces of these lengths and the rest, with a pause before each.
in_pieces() {
    local file=$1 at=1 length
    shift
    sleep 0.3
    for length in "$@"; do
        tail -c "+$at" "$file" | head -c "$length"
        at=$((at + length))
        sleep 0.1
    done
    tail -c "+$at" "$file"
}

# ---- The report ----

header='chain K latency late margin miss10'
sample="$header
1 1 64 1 -24 3
2 1 5 0 95 0
3 1 62 0 438 r14
4 1 39 0 261 r14"
study="$header
4 1 175 0 25 0
3 2 331 1 -131 5
2 1 111 0 889 r14
1 1 137 0 863 r14"

bursts="$header
1 2 50 1 -5 2
2 1 40 0 460 r14"

./mishtodran report examples/sample.table >"$room/out" || found "the sample: it failed"
printf '%s\n' "$sample" | cmp -s - "$room/out" || found "the sample: another text"
prints report "the sample on standard input" "$sample" <examples/sample.table
prints report "the case study" "$study" <examples/case_study.table
prints report "largest distances" "$bursts" <examples/bursts.table
prints report "no bytes" "refused 1 0" </dev/null
prints report "a cut table" "refused 2 139" < <(head -c 139 examples/sample.table)
prints report "a distance that falls" "refused 29 24" <crates/table_check/stdin
prints report "a table in two parts" "$sample" < <(head -c 70 examples/sample.table && sleep 1 && tail -c +71 examples/sample.table)
prints report "too many bytes" "refused 1 0" < <(head -c 1285 /dev/zero)
prints report "as many as a table of CG has" "refused 1 0" < <(head -c 1748 /dev/zero)
prints report "far too many bytes" "refused 1 0" < <(head -c 100000 /dev/zero)

# The longest table of a form, and one byte more, as a pipe may bring them.
full=$header$(for i in {1..16}; do printf '\n%d 1 %d 0 %d 0' "$i" $((4 * i)) $((1000 - 4 * i)); done)

# in_full LENGTH: the full table and the longer one, which stand in $room, the full one with this length.
in_full() {
    local pieces
    [ "$(wc -c <"$room/full")" -eq "$1" ] || found "the full table has not $1 bytes"
    prints report "a full table of $1 bytes" "$full" <"$room/full"
    prints report "a byte more than $1" "refused 1 0" <"$room/longer"
    for pieces in "$(($1 - 1))" "$1" "1 $(($1 - 2))" "7 7 $(($1 - 15))" "1 1 1 1 1 7 $(($1 - 13))"; do
        # shellcheck disable=SC2086
        prints report "a full table in pieces of $pieces and the rest" "$full" < <(in_pieces "$room/full" $pieces)
    done
    for pieces in "$(($1 - 1))" "$1" "$(($1 - 1)) 1" "1 $(($1 - 1))" "7 $(($1 - 7))" "1 7 $(($1 - 9)) 1"; do
        # shellcheck disable=SC2086
        prints report "a byte more in pieces of $pieces and the rest" "refused 1 0" < <(in_pieces "$room/longer" $pieces)
    done
}

for lists in 2 1; do
    full_table "$lists" >"$room/full"
    { cat "$room/full" && printf E; } >"$room/longer"
    in_full $((lists == 1 ? 1284 : 1748))
done
full_table 2 >"$room/full_of_largest"

# ---- The check ----

# A table of 17 chains, the 17th with id 0.
seventeen() {
    local i
    for i in {1..16} 0; do
        bytes 67 72 "$i" 0 0 0 40 0 0 0 0 0 0 0 1 1 100 0 0 0 84 75 5 0 10 0 0 0
    done
    bytes 69 78 17 0
}

# changed FILE OFFSET BYTE..: the table in the file with these bytes from the offset on.
changed() {
    local file=$1 at=$2
    shift 2
    head -c "$at" "$file"
    bytes "$@"
    tail -c "+$((at + $# + 1))" "$file"
}

# broke WHERE OFFSET BYTE..: the table in the file `whole` changed so is refused with this line, after the word `refused`.
broke() {
    local where=$1
    shift
    prints check "bytes $* of $whole" "refused $where" < <(changed "$whole" "$@")
}

# cut WHERE LENGTH: so much of the sample is refused with this line.
cut() {
    prints check "$2 bytes of the sample" "refused 2 at byte $2: $cut_short ($1)" \
        < <(head -c "$2" examples/sample.table)
}

length="refused 1 at byte 0: the table's length is 0, above 1,284 (1,748 for CG) or above its buffer"
no_mark='a mark is not one allowed there, or is of another form than the first'
bad_largest='a flag is above 1, or a largest distance falls, is too large or too small'
cut_short='bytes run out inside a record or before the end record'
ended='a 17th chain, no chain, a wrong end count, or bytes after the end'

./mishtodran check examples/sample.table >"$room/out" || found "check, the sample: it failed"
[ "$(cat "$room/out")" = "accepted, 4 chains" ] || found "check, the sample: another text"
prints check "the sample on standard input" "accepted, 4 chains" <examples/sample.table
prints check "one chain" "accepted, 1 chain" < <(head -c 36 examples/sample.table && bytes 69 78 1 0)
prints check "a full table" "accepted, 16 chains" <"$room/full"
prints check "a damaged table" "$(cat crates/table_check/stdout)" <crates/table_check/stdin
prints check "no bytes" "$length (the table has 0 bytes)" </dev/null
prints check "a byte more" "$length (the table has more than 1,284 bytes)" <"$room/longer"
prints check "a full table of CG" "accepted, 16 chains" <"$room/full_of_largest"
prints check "a byte more in the form CG" "$length (the table has more than 1,748 bytes)" \
    < <(cat "$room/full_of_largest" && printf E)
prints check "bytes that begin with no mark" "$length (the table has more than 1,284 bytes)" < <(head -c 1748 /dev/zero)
cut "after 1 byte, in the mark of record 1" 1
cut "after 2 bytes, in chain record 1" 2
cut "after 18 bytes, in chain record 1" 18
cut "after 36 bytes, before the end record" 36
cut "after 51 bytes, in chain record 2" 51
cut "after 105 bytes, in chain record 3" 105
cut "after 136 bytes, before the end record" 136
cut "after 137 bytes, in the mark of record 5" 137
cut "after 138 bytes, in the end record" 138
whole=examples/sample.table
broke "3 at byte 0: $no_mark (record 1, mark)" 0 84 75
broke "3 at byte 36: $no_mark (record 2, mark)" 36 88 88
broke "3 at byte 36: $no_mark (chain record 2, mark)" 36 67 71
broke "3 at byte 92: $no_mark (chain record 3, task 2, mark)" 92 88
broke "4 at byte 66: an id is 0 or used earlier (chain record 3, id)" 66 0
broke "4 at byte 110: an id is 0 or used earlier (chain record 4, id)" 110 2
broke "5 at byte 40: a kind or overload byte is above 1 (chain record 2, kind)" 40 2 2
broke "5 at byte 41: a kind or overload byte is above 1 (chain record 2, overload)" 41 2
broke "6 at byte 42: a deadline is not 1 to 10,000,000 (chain record 2, deadline)" 42 0
broke "7 at byte 46: a gap is above 10,000,000 (chain record 2, gap)" 46 255 255 255 255
broke "28 at byte 50: a list length is not 1 to 8 (chain record 2, list length)" 50 9 0
broke "9 at byte 51: a task count is not 1 to 16, or there are over 64 tasks so far (chain record 2, task count)" 51 0
broke "29 at byte 52: a distance falls or exceeds 10,000,000 (chain record 2, distance 1)" 52 255 255 255 255
broke "30 at byte 16: the last distance is 0 (chain record 1, distance 1)" 16 0
broke "31 at byte 46: a gap other than 0 is too small for the distances (chain record 2, gap)" 46 49
broke "10 at byte 94: a priority is 0, or a cost is not 1 to 1,000,000 (chain record 3, task 2, priority)" 94 0 0 0
broke "10 at byte 24: a priority is 0, or a cost is not 1 to 1,000,000 (chain record 1, task 1, cost)" 24 0
broke "11 at byte 138: $ended (end record, count)" 138 5
broke "11 at byte 140: $ended (after the end record)" 140 69
prints check "no chain" "refused 11 at byte 2: $ended (end record, count)" < <(bytes 69 78 0 0)

# The damaged table with its list of three distances mended: what follows such a list.
whole=$room/mended
changed crates/table_check/stdin 24 44 1 >"$whole"
prints check "the damaged table, mended" "accepted, 4 chains" <"$whole"
broke "29 at byte 20: a distance falls or exceeds 10,000,000 (chain record 1, distance 2)" 20 1
broke "3 at byte 36: $no_mark (chain record 1, task 2, mark)" 36 88
broke "10 at byte 38: a priority is 0, or a cost is not 1 to 1,000,000 (chain record 1, task 2, priority)" 38 0
broke "6 at byte 50: a deadline is not 1 to 10,000,000 (chain record 2, deadline)" 50 0

# Largest distances: chain 1 of the table has 13 bytes, two distances from 13 on, their largest ones from 21 on, and two tasks;
# chain 2 begins at 45 and has flag 0 and one distance.
whole=examples/bursts.table
prints check "largest distances" "accepted, 2 chains" <"$whole"
prints check "12 bytes of CG" "refused 2 at byte 12: $cut_short (after 12 bytes, in chain record 1)" < <(head -c 12 "$whole")
prints check "28 bytes of CG" "refused 2 at byte 28: $cut_short (after 28 bytes, in chain record 1)" < <(head -c 28 "$whole")
broke "3 at byte 45: $no_mark (chain record 2, mark)" 45 67 72
broke "33 at byte 10: $bad_largest (chain record 1, flag)" 10 2
broke "33 at byte 55: $bad_largest (chain record 2, flag)" 55 255
broke "28 at byte 11: a list length is not 1 to 8 (chain record 1, list length)" 11 9
broke "9 at byte 57: a task count is not 1 to 16, or there are over 64 tasks so far (chain record 2, task count)" 57 0
broke "29 at byte 17: a distance falls or exceeds 10,000,000 (chain record 1, distance 2)" 17 19
broke "30 at byte 58: the last distance is 0 (chain record 2, distance 1)" 58 0 0
broke "33 at byte 21: $bad_largest (chain record 1, largest distance 1)" 21 19
broke "33 at byte 21: $bad_largest (chain record 1, largest distance 1)" 21 255 255 255 255
broke "33 at byte 25: $bad_largest (chain record 1, largest distance 2)" 25 99
broke "33 at byte 25: $bad_largest (chain record 1, largest distance 2)" 21 101
broke "3 at byte 29: $no_mark (chain record 1, task 1, mark)" 29 88
broke "10 at byte 41: a priority is 0, or a cost is not 1 to 1,000,000 (chain record 1, task 2, cost)" 41 0
broke "11 at byte 72: $ended (end record, count)" 72 1

# After 16 chains.
prints check "16 chains" "refused 2 at byte 448: $cut_short (after 448 bytes, before the end record)" < <(seventeen | head -c 448)
prints check "16 chains and an end cut off" "refused 2 at byte 450: $cut_short (after 450 bytes, in the end record)" \
    < <(seventeen | head -c 448 && bytes 69 78)
prints check "16 chains and no mark" "refused 3 at byte 448: $no_mark (record 17, mark)" \
    < <(seventeen | head -c 448 && bytes 88 88)
prints check "a 17th chain" "refused 11 at byte 448: $ended (chain record 17, mark)" < <(seventeen)
prints check "a 17th of the other form" "refused 3 at byte 448: $no_mark (chain record 17, mark)" \
    < <(seventeen | head -c 448 && bytes 67 71 17 0)

# ---- The misses ----

# counts TEXT SAID FILE WORDS..: the misses of the table in the file are this text after the heading, and so much is said.
counts() {
    local text=$1 said=$2 status
    shift 2
    ./mishtodran misses "$@" >"$room/out" 2>"$room/err"
    status=$?
    [ "$status" = 0 ] || found "misses $*: exit status $status, not 0"
    printf 'chain misses plain at_most\n%s\n' "$text" | cmp -s - "$room/out" || found "misses $*: another text: $(cat "$room/out")"
    [ "$(cat "$room/err")" = "$said" ] || found "misses $*: it says '$(cat "$room/err")'"
}

# none_of ID..: the lines of overload chains, which have no miss bound.
none_of() {
    printf '%s r14 r14 r14\n' "$@"
}

# A table in which the sieve calls more combinations bad, and with many packings. Chain 1 has cost 40 and deadline 100, chain 2 above
# it cost 20 each 90 ticks, and six overload chains between them cost 13 each. Three of these make a window of 119, since one of 99
# has two activations of chain 2 in it; two make one of 86, but at 100 ticks there are two activations, and 106 is demanded. So by
# windows 3 are bad, and by the sieve 2. The capacities are 4, 4, 4, 4, 4 and 5 for 10 activations of chain 1, whose largest window
# is 158, and 5, 5, 5, 5, 5 and 6 for 13: 8 and 10 uses of 3, and 12 and 15 of 2. Of 13 there are 50,732,052 packings.
many_packings() {
    local i
    bytes 67 72 1 0 0 0 100 0 0 0 232 3 0 0 1 1 232 3 0 0 84 75 1 0 40 0 0 0
    bytes 67 72 2 0 0 0 90 0 0 0 90 0 0 0 1 1 90 0 0 0 84 75 20 0 20 0 0 0
    for i in {3..7}; do bytes 67 72 "$i" 0 0 1 232 3 0 0 0 0 0 0 1 1 160 15 0 0 84 75 "$((7 + i))" 0 13 0 0 0; done
    bytes 67 72 8 0 0 1 232 3 0 0 0 0 0 0 1 1 184 11 0 0 84 75 15 0 13 0 0 0
    bytes 69 78 8 0
}

# refuses TEXT FILE: the misses of a refused table are one line, that of the check.
refuses() {
    local status
    ./mishtodran misses "$2" >"$room/out" 2>"$room/err"
    status=$?
    [ "$status" = 1 ] || found "misses $2: exit status $status, not 1"
    printf '%s\n' "$1" | cmp -s - "$room/out" || found "misses $2: another text: $(cat "$room/out")"
    [ ! -s "$room/err" ] || found "misses $2: it says something on standard error"
}

# The sample's chain 1 has three active segments of overload chains, of which any two are bad; their capacities are 2 for up to 10
# activations, and 3 for 11.
./mishtodran misses examples/sample.table >"$room/out" || found "misses, the sample: it failed"
cmp -s crates/table_misses/stdout "$room/out" || found "misses, the sample: another text"
counts $'1 1 1 1\n2 0 0 0\n'"$(none_of 3 4)" "" examples/sample.table 1
counts $'1 4 4 4\n2 0 0 0\n'"$(none_of 3 4)" "" examples/sample.table 11
counts $'4 0 0 0\n3 5 5 5\n'"$(none_of 2 1)" "" examples/case_study.table
counts $'1 2 2 2\n'"$(none_of 2)" "" examples/bursts.table 11
counts $'1 3 3 3\n'"$(none_of 2)" "" examples/bursts.table 12
many_packings >"$room/many"
counts $'1 8 8 10\n2 0 0 0\n'"$(none_of {3..8})" "" "$room/many"
counts $'1 10 - 13\n2 0 0 0\n'"$(none_of {3..8})" \
    "misses: chain 1 has more than 5,000,000 packings; --all goes through them, which may take very long" "$room/many" 13
counts $'1 10 10 13\n2 0 0 0\n'"$(none_of {3..8})" "misses: chain 1: 50 million packings so far" "$room/many" 13 --all
refuses "$(cat crates/table_check/stdout)" crates/table_check/stdin
: >"$room/empty"
refuses "$length (the table has 0 bytes)" "$room/empty"
refuses "$length (the table has more than 1,284 bytes)" "$room/longer"

# ---- Reading and writing fail ----

closed_input() {
    ./mishtodran "$1" <&-
}

# An input that can only be written to: what the program itself says is passed on.
failing_input() {
    ./mishtodran "$1" 0>"$room/written"
}

full_disk() {
    ./mishtodran "$1" examples/sample.table >/dev/full
}

for command in report check; do
    answer=report
    [ "$command" = report ] || answer=verdict
    fails "$command, a folder" "mishtodran: $room is a folder" ./mishtodran "$command" "$room"
    fails "$command, no such file" "mishtodran: there is no file $room/none" ./mishtodran "$command" "$room/none"
    fails "$command, no standard input" "mishtodran: standard input is closed" closed_input "$command"
    fails "$command, a failing read" "$command: standard input could not be read
mishtodran: there is no $answer" failing_input "$command"
    fails "$command, a full disk" "mishtodran: standard output cannot be written" full_disk "$command"
done
fails "misses, a folder" "mishtodran: $room is a folder" ./mishtodran misses "$room"
fails "misses, no such file" "mishtodran: there is no file $room/none" ./mishtodran misses "$room/none"
fails "misses, a failing read" "misses: standard input could not be read
mishtodran: there is no answer" ./mishtodran misses /proc/self/mem
fails "misses, a full disk" "mishtodran: standard output cannot be written" full_disk misses
print "table_commands: as it should be"
