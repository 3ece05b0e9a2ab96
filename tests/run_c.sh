#!/usr/bin/env bash
# Holds the header against the library, runs the cases of tests/entries.bin through the C entries, and tries the example
# editor and the example merge on copies of the sample table.
# Usage: tests/run_c.sh LIBRARY [INCLUDE]
# LIBRARY is an x86-64 archive with the entries of mishtodran.h (target/mishtodran/libmishtodran.a), INCLUDE the header's folder.
set -u
name=run_c
# shellcheck source=scripts/shell.sh
. "$(dirname "$(readlink -f "${BASH_SOURCE[0]}")")/../scripts/shell.sh" || exit 2

if [ $# -lt 1 ] || [ $# -gt 2 ]; then fail "usage: tests/run_c.sh LIBRARY [INCLUDE]"; fi
library=$1
include=${2-$top/include}
[ -f "$library" ] || fail "there is no library $library"
[ -f "$include/mishtodran.h" ] || fail "there is no mishtodran.h in $include"
find_compiler
find_runner
room=$(mktemp -d) || fail "no temporary folder can be made"
trap 'rm -rf "$room"' EXIT

c_build "$room/header" -I "$include" "$top/tests/header.c" "$library" || fail "tests/header.c was not built"
check "the header is not the library's" c_run "$room/header"
c_build "$room/entries" -I "$include" "$top/tests/entries.c" "$library" || fail "tests/entries.c was not built"
check "some cases are not as expected" c_run "$room/entries" "$top/tests/entries.bin"

# ---- The example editor ----

sample=$top/examples/sample.table
table=$(realpath "$room")/sample.table
c_build "$room/editor" -I "$include" "$top/examples/editor.c" "$library" || fail "examples/editor.c was not built"

editor() {
    c_run "$room/editor" "$@"
}

fresh() {
    cp "$sample" "$table" || fail "the sample cannot be copied"
}

# holds WHAT ONE TWO: the table is the sample with these deadlines of chains 1 and 2, in hexadecimal, and no part of one
# is left beside it.
holds() {
    cp "$sample" "$room/wanted"
    printf '%b' "\\x$2" | dd of="$room/wanted" bs=1 seek=6 conv=notrunc status=none
    printf '%b' "\\x$3" | dd of="$room/wanted" bs=1 seek=42 conv=notrunc status=none
    cmp -s "$room/wanted" "$table" || found "the example editor: $1: another table"
    [ ! -f "$table.new" ] || found "the example editor: $1: a part is left beside the table"
}

# ends STATUS SAID TYPED WORDS..: it ends with this status, says this on standard error, and leaves the table.
ends() {
    local status=$1 said=$2 typed=$3
    shift 3
    fresh
    printf '%s' "$typed" | editor "$@" >"$room/out" 2>"$room/err"
    [ "${PIPESTATUS[1]}" = "$status" ] || found "the example editor, '$*', typed '$typed': the status is not $status"
    [ "$(cat "$room/err")" = "$said" ] || found "the example editor, '$*', typed '$typed': it says '$(cat "$room/err")'"
    holds "'$*', typed '$typed'" 28 64
}

# shown NAME: waits until the editor that writes to this file has shown its figures and asks.
shown() {
    local try
    for try in {1..200}; do
        if grep -qs '^deadline' "$room/$1"; then return; fi
        sleep 0.1
    done
    found "the example editor asks for nothing, $try times looked at"
}

fresh
ln -s sample.table "$room/link"
echo 64 | editor "$room/link" 1 >"$room/out" || found "the example editor ended with a failure"
diff "$room/out" "$top/examples/editor.expected" || found "the example editor wrote something else than editor.expected"
holds "a save" 40 64
[ -L "$room/link" ] || found "the example editor replaced a link"

# The same with a table in the form CG: chain 1's deadline, 45, is at 6 there too.
cp "$top/examples/bursts.table" "$table" || fail "examples/bursts.table cannot be copied"
echo 50 | editor "$table" 1 >"$room/out" || found "the example editor ended with a failure"
{ head -c 6 "$top/examples/bursts.table" && printf '\x32' && tail -c +8 "$top/examples/bursts.table"; } | cmp -s - "$table" ||
    found "the example editor: a table in the form CG: another table"
[ "$(tail -n 1 "$room/out")" = "2 1 40 0 460 r14" ] || found "the example editor: a table in the form CG: another report"

ends 0 "" "" "$table" 1
ends 0 "" $'\n' "$table" 1
ends 2 "editor: usage: editor TABLE ID" 64 "$table"
ends 2 "editor: usage: editor TABLE ID" 64 "$table" 1 64
for id in 0 65536 4294967297 18446744073709551617 -1 +1 1e3 0x1 " 1" "1 " abc ""; do
    ends 2 "editor: ID: give 1 to 65535, in digits" 64 "$table" "$id"
done
for typed in 0 10000001 4294967360 -64 64x "6 4" " " 00000000000000000000000000000064999; do
    ends 2 "editor: deadline: type 1 to 10000000, in digits" "$typed" "$table" 1
done
ends 2 "editor: $room/none: No such file or directory" 64 "$room/none" 1
ends 2 "editor: /: Is a directory" 64 / 1
cut=${table%/*}/cut
head -c 139 "$sample" >"$cut"
ends 1 "editor: $cut: refused, 2 at byte 139" 64 "$cut" 1
ends 1 "editor: latency refused, 12" 64 "$table" 7
mkdir "$table.new"
ends 2 "editor: $table.new: File exists" 64 "$table" 1
rmdir "$table.new"

# A table that its user may not write, in a folder that he may.
{ cp "$sample" "$table.protected" && chmod 444 "$table.protected" && chmod 777 "$room"; } || fail "$room cannot be written"
user=()
[ "$(id -u)" != 0 ] || user=(setpriv --reuid=65534 --regid=65534 --clear-groups)
echo 64 | "${user[@]}" "${c_runner[@]}" "$room/editor" "$table.protected" 1 >"$room/out" 2>"$room/err"
[ "${PIPESTATUS[1]}" = 2 ] || found "the example editor: a write-protected table: the status is not 2"
[ "$(cat "$room/err")" = "editor: $table.protected: Permission denied" ] || found "the example editor: a write-protected table: it says '$(cat "$room/err")'"
cmp -s "$sample" "$table.protected" || found "the example editor changed a write-protected table"

# The record changes while an editor shows it: the later save is refused.
fresh
mkfifo "$room/late" "$room/one" "$room/two"
editor "$table" 1 <"$room/late" >"$room/late.out" 2>"$room/late.err" &
late=$!
exec 5>"$room/late"
shown late.out
echo 70 | editor "$table" 1 >"$room/out" || found "the example editor ended with a failure"
echo 64 >&5
wait "$late"
[ $? = 1 ] || found "the example editor: a record that has changed: the status is not 1"
[ "$(cat "$room/late.err")" = "editor: save refused, 22: someone has changed the record meanwhile" ] ||
    found "the example editor: a record that has changed: it says '$(cat "$room/late.err")'"
holds "a record that has changed" 46 64

# Two editors that have both read the table wait for a third, which has the lock; then both edits stand.
fresh
editor "$table" 1 <"$room/one" >"$room/one.out" 5>&- &
one=$!
exec 5>"$room/one"
editor "$table" 2 <"$room/two" >"$room/two.out" 5>&- &
two=$!
exec 6>"$room/two"
shown one.out
shown two.out
exec 7>"$table.lock"
flock 7 || fail "there is no flock"
echo 64 >&5
echo 90 >&6
sleep 0.5
holds "an editor under another's lock" 28 64
exec 7>&-
wait "$one" || found "the example editor ended with a failure"
wait "$two" || found "the example editor ended with a failure"
holds "two editors at once" 40 5a

# ---- The example merge ----

tables=${table%/*}/tables
{ mkdir "$tables" && chmod 777 "$tables"; } || fail "$tables cannot be made"
c_build "$room/merge" -I "$include" "$top/examples/merge.c" "$library" || fail "examples/merge.c was not built"

# edited NAME [OFFSET BYTE]..: the sample with these bytes, in hexadecimal, at these offsets: chain 1's deadline, 40, is at 6,
# the cost of its first task, 10, at 24, and that of chain 2's, 5, at 60.
edited() {
    local to=$tables/$1
    shift
    cp "$sample" "$to" || fail "the sample cannot be copied"
    while [ $# -gt 0 ]; do
        printf '%b' "\\x$2" | dd of="$to" bs=1 seek="$1" conv=notrunc status=none
        shift 2
    done
}

# all_but FILE: a line for each other file beside the tables, with what stands in it.
all_but() {
    (cd "$tables" && find . -type f ! -name "$1" -exec sha256sum {} + | LC_ALL=C sort)
}

# merges STATUS OUT ERR WORDS..: it ends with this status, and says this on standard output and standard error. With 0 the last
# word names the table `wanted`, and no other file is new or has changed; else none at all.
merges() {
    local status=$1 out=$2 err=$3 result='' before
    shift 3
    [ "$status" != 0 ] || result=$(readlink -f "$tables/$4")
    before=$(all_but "${result##*/}")
    (cd "$tables" && "${as[@]}" "${c_runner[@]}" "${table%/*}/merge" "$@") >"$room/out" 2>"$room/err"
    [ $? = "$status" ] || found "the example merge, '$*': the status is not $status"
    [ "$(cat "$room/out")" = "$out" ] || found "the example merge, '$*': it writes '$(cat "$room/out")'"
    [ "$(cat "$room/err")" = "$err" ] || found "the example merge, '$*': it says '$(cat "$room/err")'"
    [ "$(all_but "${result##*/}")" = "$before" ] || found "the example merge, '$*': a file has changed, or is left"
    [ "$status" != 0 ] || cmp -s "$tables/wanted" "$result" || found "the example merge, '$*': another result"
}

# One engineer tightens the deadline of chain 1, the other lowers the cost of chain 2: both edits stand, whoever is first.
as=()
merged="merged, the table has 140 bytes"
edited ancestor
edited mine 6 24
edited theirs 60 04
edited wanted 6 24 60 04
merges 0 "$merged" "" ancestor mine theirs result
merges 0 "$merged" "" ancestor theirs mine result

# The result takes the place of a file that is there, of a copy too or through a link, and keeps who may read it.
chmod 640 "$tables/result"
ln -s result "$tables/link"
merges 0 "$merged" "" ancestor mine theirs link
[ -L "$tables/link" ] || found "the example merge replaced a link"
[ "$(stat -c %a "$tables/result")" = 640 ] || found "the example merge changed who may read the result"
merges 0 "$merged" "" ancestor mine theirs mine

# The other lowers a cost of chain 1 too: a conflict. So it is where one removes what the other changes.
conflict="merge: merge refused, 32: the copies have changed these chains differently"
edited mine 6 24
edited theirs 24 09
merges 1 "chain 1 is in conflict" "$conflict" ancestor mine theirs result
edited theirs 24 09 60 04
edited mine 6 24 60 03
merges 1 $'chain 1 is in conflict\nchain 2 is in conflict' "$conflict" ancestor mine theirs result
{ head -c 36 "$sample" && printf 'EN\1\0'; } >"$tables/only1"
{ head -c 64 "$sample" | tail -c 28 && printf 'EN\1\0'; } >"$tables/only2"
{ head -c 64 "$sample" && printf 'EN\2\0'; } >"$tables/both"
merges 1 "chain 1 is in conflict" "$conflict" both only2 mine result

# One copy is in the form CG: where the other is as the ancestor it is the result, and where that adds a chain there are two forms.
cp "$top/examples/bursts.table" "$tables/bursts" || fail "examples/bursts.table cannot be copied"
cp "$tables/bursts" "$tables/wanted"
{ head -c 108 "$sample" && printf 'EN\3\0'; } >"$tables/three"
merges 0 "merged, the table has 74 bytes" "" both both bursts result
merges 1 "" "merge: result refused, 3: both edits together are no table" both three bursts result

# The copies are tables, and the result is none: no chain is left, or there are 1,684 bytes.
wide() {
    local id
    for id in "$@"; do
        printf '%b' "CH\\x$id\\0\\0\\0\\x28\\0\\0\\0\\0\\0\\0\\0\\x08\\x08"
        printf '\x64\0\0\0%.0s' {1..8}
        printf 'TK\5\0\x0a\0\0\0%.0s' {1..8}
    done
    printf '%b' "EN\\x0$#\\0"
}
wide 1 >"$tables/wide"
wide 1 2 3 4 5 6 7 8 >"$tables/wider"
wide 1 9 a b c d e f >"$tables/as_wide"
merges 1 "" "merge: result refused, 11: both edits together are no table" both only1 only2 result
merges 1 "" "merge: result refused, 1: both edits together are no table" wide wider as_wide result

edited mine 6 24
edited theirs 60 04
head -c 139 "$sample" >"$tables/cut"
merges 1 "" "merge: cut: refused, 2 at byte 139" cut cut theirs result
merges 1 "" "merge: cut: refused, 2 at byte 139" ancestor cut cut result
merges 1 "" "merge: cut: refused, 2 at byte 139" ancestor mine cut result
merges 2 "" "merge: usage: merge ANCESTOR FIRST SECOND RESULT" ancestor mine theirs
merges 2 "" "merge: usage: merge ANCESTOR FIRST SECOND RESULT" ancestor mine theirs result result
merges 2 "" "merge: none: No such file or directory" ancestor none theirs result
merges 2 "" "merge: /: Is a directory" ancestor mine / result
merges 2 "" "merge: none/result.new: No such file or directory" ancestor mine theirs none/result
merges 2 "" "merge: $tables: it is not a plain file" ancestor mine theirs .
mkfifo "$tables/pipe"
merges 2 "" "merge: $tables/pipe: it is not a plain file" ancestor mine theirs pipe
edited result.new
merges 2 "" "merge: $tables/result.new: File exists" ancestor mine theirs result
rm "$tables/result.new"
chmod 444 "$tables/result"
as=("${user[@]}")
merges 2 "" "merge: $tables/result: Permission denied" ancestor mine theirs result
as=()

# A header of another version than the library.
mkdir "$room/other"
sed 's/^#define MISHTODRAN_VERSION .*/#define MISHTODRAN_VERSION 0/' "$include/mishtodran.h" >"$room/other/mishtodran.h"
c_build "$room/editor" -I "$room/other" "$top/examples/editor.c" "$library" || fail "examples/editor.c was not built"
c_build "$room/merge" -I "$room/other" "$top/examples/merge.c" "$library" || fail "examples/merge.c was not built"
ends 2 "editor: library: it is of another version than the header" 64 "$table" 1
merges 2 "" "merge: library: it is of another version than the header" ancestor mine theirs result
print "the example editor and the example merge do what is expected"
