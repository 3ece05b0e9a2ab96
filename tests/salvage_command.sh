#!/usr/bin/env bash
# Tries the command `./mishtodran salvage`: what it makes of a damaged table, what it says of what was kept and skipped, and what
# becomes of the file RESULT.
# Usage: tests/salvage_command.sh
set -u
name=salvage_command
# shellcheck source=scripts/shell.sh
. "$(dirname "$(readlink -f "${BASH_SOURCE[0]}")")/../scripts/shell.sh" || exit 2
[ $# = 0 ] || fail "usage: tests/salvage_command.sh"
room=$(mktemp -d) || fail "no temporary folder can be made"
trap 'rm -rf "$room"' EXIT

# The tables stand in a folder whose name has a blank; the commands run there, with relative names.
tables="$room/the tables"
{ mkdir "$tables" && cd "$tables"; } || fail "$room cannot be written"

# bytes NUMBER..: a byte for each number.
bytes() {
    printf '%b' "$(printf '\\x%02x' "$@")"
}

# chains ID..: a record of 28 bytes for each, with one distance and one task.
chains() {
    local id
    for id in "$@"; do
        bytes 67 72 $((id % 256)) $((id / 256)) 0 0 232 3 0 0 0 0 0 0 1 1 1 0 0 0 84 75 5 0 1 0 0 0
    done
}

# all_kept ID..: what is said where each of these stands after the one before.
all_kept() {
    local at=0 id
    for id in "$@"; do
        echo "kept chain $id at byte $at (28 bytes)"
        at=$((at + 28))
    done
}

# salvage STATUS SAID WORDS..: the command ends so, says just this, prints nothing, and leaves no file beside.
salvage() {
    local expected=$1 said=$2 status there
    shift 2
    there=$(ls -A)
    "$top/mishtodran" salvage "$@" >"$room/out" 2>"$room/err"
    status=$?
    [ "$(cat "$room/err")" = "$said" ] || found "salvage $*: it says '$(cat "$room/err")', not '$said'"
    [ "$status" = "$expected" ] || found "salvage $*: exit status $status, not $expected"
    [ ! -s "$room/out" ] || found "salvage $*: it prints something"
    [ "$(ls -A)" = "$there" ] || found "salvage $*: other files are there: $(ls -A)"
}

# leaves EXPECTED SAID FILE: of the file this table is left, in another file and in its own; of that table all is left.
leaves() {
    salvage 0 "$2" "$3" result
    cmp -s "$1" result || found "what is left of $3 is not $1"
    cp "$3" result
    salvage 0 "$2" result result
    cmp -s "$1" result || found "what is left of $3, in its own file, is not $1"
    "$top/mishtodran" salvage result again 2>"$room/err" || found "nothing is left of what is left of $3"
    cmp -s "$1" again || found "what is left of what is left of $3 is not $1"
    [ "$("$top/mishtodran" check result)" = "accepted, $(grep -c kept <<<"$2") chains" ] || found "what is left of $3 is not accepted"
}

# refuses STATUS SAID FILE: nothing is left, and RESULT stays.
refuses() {
    echo before >result
    salvage "$@" result
    [ "$(cat result)" = before ] || found "salvage ${*:3}: it is refused, and result does not stay"
}

cp "$top/examples/sample.table" sample
cp "$top/examples/bursts.table" bursts
cp "$top/crates/table_salvage/data/damaged.table" damaged
cp "$top/crates/table_salvage/stdout" left
: >again

# ---- Results ----

# The first one builds the program, and says so.
: >result
"$top/mishtodran" salvage damaged result || found "the first salvage: it failed"
cmp -s left result || found "the first salvage is another table"
damage='kept chain 1 at byte 0 (36 bytes)
skipped at byte 36 (28 bytes)
kept chain 3 at byte 64 (44 bytes)
kept chain 4 at byte 108 (28 bytes)
skipped at byte 136 (4 bytes)'
leaves left "$damage" damaged
shown=${damage//$'\n'/$'\n    '}
[[ $(cat "$top/README.md") == *"    $shown"* ]] || found "README.md does not show what is said of a damaged table"

# An accepted table loses its end record alone, and comes back.
leaves sample 'kept chain 1 at byte 0 (36 bytes)
kept chain 2 at byte 36 (28 bytes)
kept chain 3 at byte 64 (44 bytes)
kept chain 4 at byte 108 (28 bytes)
skipped at byte 136 (4 bytes)' sample

# A byte before the first record, an id that is used, a record of the other form.
{ chains 7 258 && bytes 69 78 2 0; } >two
{ bytes 67 && chains 7 7 && cat bursts && chains 258; } >pieces
size=$(stat -c %s bursts)
leaves two "skipped at byte 0 (1 byte)
kept chain 7 at byte 1 (28 bytes)
skipped at byte 29 ($((28 + size)) bytes)
kept chain 258 at byte $((57 + size)) (28 bytes)" pieces
{ bytes 67 71 && cat bursts; } >moved
"$top/mishtodran" salvage moved result 2>"$room/err" || found "nothing is left of a table of the form CG"
cmp -s bursts result || found "what is left of a table of the form CG is not that table"

# After a 16th chain nothing is read.
{ chains {1..16} && bytes 69 78 16 0; } >sixteen
chains {1..16} >no_end
chains {1..17} >seventeen
unread='left unread after the 16th chain at byte 448'
leaves sixteen "$(all_kept {1..16})"$'\n'"$unread (4 bytes)" sixteen
leaves sixteen "$(all_kept {1..16})" no_end
leaves sixteen "$(all_kept {1..16})"$'\n'"$unread (28 bytes)" seventeen

# The longest input.
{ chains 7 258 && head -c 4040 /dev/zero; } >long
leaves two "$(all_kept 7 258)"$'\n'"skipped at byte 56 (4040 bytes)" long

# A new file, and names that begin as an option does.
rm result
(umask 027 && "$top/mishtodran" salvage damaged result 2>"$room/err") || found "there is no new file"
cmp -s left result || found "the new file is another table"
[ "$(stat -c %a result)" = 640 ] || found "the mode of the new file is $(stat -c %a result), not 640"
cp damaged ./-x
salvage 0 "$damage" -x -x
cmp -s left ./-x || found "what is left in -x is another table"

# ---- Refusals ----

nothing='refused 36: there is no chain record in the input that could be kept'
too_long='refused 35: the input is longer than 4,096 bytes'
: >empty
echo "no table" >words
chains 7 | head -c 27 >cut_off
{ cat long && bytes 0; } >longer
{ cat long && head -c 100000 /dev/zero; } >far_longer
refuses 1 "$nothing" empty
refuses 1 "$nothing" words
refuses 1 "$nothing" cut_off
refuses 1 "$too_long" longer
refuses 1 "$too_long" far_longer
# A read that fails: what the program itself says is passed on.
refuses 2 "/proc/self/mem: Input/output error"$'\n'"mishtodran: there is no result" /proc/self/mem
print "salvage_command: as it should be"
