#!/usr/bin/env bash
# Tries the command `./mishtodran merge`: what it says of conflicts and refusals, what becomes of the file RESULT, and git's
# merges with it.
# Usage: tests/merge_command.sh
set -u
name=merge_command
# shellcheck source=scripts/shell.sh
. "$(dirname "$(readlink -f "${BASH_SOURCE[0]}")")/../scripts/shell.sh" || exit 2
[ $# = 0 ] || fail "usage: tests/merge_command.sh"
command -v git >/dev/null || fail "there is no git here: install Debian's package git"
room=$(mktemp -d) || fail "no temporary folder can be made"
trap 'rm -rf "$room"' EXIT

# The tables stand in a folder whose name has a blank; the commands run there, with relative names.
tables="$room/the tables"
{ mkdir "$tables" && cd "$tables"; } || fail "$room cannot be written"

# table NAME SED [TEXT]: the sample's text, edited so, with more text after it, as a stored table.
table() {
    { { sed "$2" "$top/examples/sample.txt" && echo "${3-}"; } >"$room/text" &&
        "$top/mishtodran" table "$room/text" "$1"; } || fail "the table $1 was not made"
}

# chains FROM TO TASKS DISTANCES: the text of chains with these ids.
chains() {
    local id
    for ((id = $1; id <= $2; id++)); do
        echo "chain $id synchronous deadline 90 gap 0 list $4"
        yes 'task 9 1' | head -n "$3"
    done
}

# merge STATUS SAID WORDS..: the command ends so, says just this, prints nothing, and leaves no file beside.
merge() {
    local expected=$1 said=$2 status there
    shift 2
    there=$(ls -A)
    "$top/mishtodran" merge "$@" >"$room/out" 2>"$room/err"
    status=$?
    [ "$(cat "$room/err")" = "$said" ] || found "merge $*: it says '$(cat "$room/err")', not '$said'"
    [ "$status" = "$expected" ] || found "merge $*: exit status $status, not $expected"
    [ ! -s "$room/out" ] || found "merge $*: it prints something"
    [ "$(ls -A)" = "$there" ] || found "merge $*: other files are there: $(ls -A)"
}

# merges EXPECTED ANCESTOR FIRST SECOND: the merge is that table.
merges() {
    cp ancestor result
    merge 0 "" "$2" "$3" "$4" result
    cmp -s "$1" result || found "the merge of $2, $3 and $4 is not $1"
}

# refuses STATUS SAID ANCESTOR FIRST SECOND: there is no merge, and RESULT stays.
refuses() {
    echo before >result
    merge "$@" result
    [ "$(cat result)" = before ] || found "the merge of $3, $4 and $5 is refused, and result does not stay"
}

# in_conflict ID..: what is said of them.
in_conflict() {
    echo "refused 32: some id is changed differently on both sides"
    printf 'conflict: chain %s is changed, removed or added differently in the two copies\n' "$@"
}

# What an engineer has changed, and in which chains.
table ancestor ''
table deadline '/^chain 1 /s/40/35/' # 1
table cost 's/^task 9 5$/task 9 4/'  # 2
table both '/^chain 1 /s/40/35/; s/^task 9 5$/task 9 4/'
table own_cost 's/^task 5 10$/task 5 12/' # 1
table three 's/^task 5 10$/task 5 12/; s/^task 9 5$/task 9 6/; s/^task 6 12$/task 6 11/'     # 1, 2, 4
table three_too 's/^task 3 10$/task 3 11/; s/^task 9 5$/task 9 7/; s/^task 6 12$/task 6 13/' # 1, 2, 4
table without_first '/^chain 1 /,/^task 3 /d'
table first_alone '/^chain 2 /,/^task 6 /d'
table added '' "$(chains 7 7 1 90)"
table added_too '' "$(chains 7 7 1 91)"
table tasks '' "$(chains 11 12 16 90)"
table more_tasks '' "$(chains 21 22 16 90)"
table seven '' "$(chains 11 17 1 90)"
table six '' "$(chains 21 26 1 90)"
table long '' "$(chains 11 18 4 '1 2 3 4 5 6 7 8')"
table longer '' "$(chains 21 28 4 '1 2 3 4 5 6 7 8')"
table converted 's/gap 0 list \(.*\)/list \1 largest unknown/; s/gap \(.*\) list \(.*\)/list \2 largest \1/' # 1 to 4, to the form CG
cp "$top/crates/table_check/stdin" damaged
: >empty
head -c 1285 /dev/zero >too_long

# ---- Results and refusals ----

length="refused 1 at byte 0: the table's length is 0, above 1,284 (1,748 for CG) or above its buffer"
no_mark='a mark is not one allowed there, or is of another form than the first'
task_count='a task count is not 1 to 16, or there are over 64 tasks so far'
ended='a 17th chain, no chain, a wrong end count, or bytes after the end'
damage=$(cat "$top/crates/table_check/stdout")
none='mishtodran: there is no result'

# The first one builds the program, and says so.
"$top/mishtodran" merge ancestor deadline cost result || found "the first merge: it failed"
cmp -s both result || found "the first merge is another table"
merges both ancestor deadline cost
merges both ancestor cost deadline
merges deadline ancestor deadline ancestor
merges deadline ancestor ancestor deadline
merges deadline ancestor deadline deadline
merges without_first ancestor without_first ancestor
merges ancestor added added ancestor
merges added ancestor added added
merges converted ancestor converted ancestor
merges converted ancestor ancestor converted
merges converted ancestor converted converted
merges "$top/crates/table_merge/stdout" "$top"/crates/table_merge/data/{ancestor,first,second}.table

refuses 1 "$(in_conflict 1)" ancestor deadline own_cost
refuses 1 "$(in_conflict 1)" ancestor without_first own_cost
refuses 1 "$(in_conflict 7)" ancestor added added_too
refuses 1 "$(in_conflict 1 2 4)" ancestor three three_too
refuses 1 "$(in_conflict 1)" ancestor converted deadline

refuses 2 "ancestor: $damage"$'\n'"$none" damaged too_long too_long
refuses 2 "first copy: $damage"$'\n'"$none" ancestor damaged too_long
refuses 2 "second copy: $damage"$'\n'"$none" ancestor deadline damaged
refuses 2 "ancestor: $length (the table has 0 bytes)"$'\n'"$none" empty deadline cost
refuses 2 "second copy: $length (the table has more than 1,284 bytes)"$'\n'"$none" ancestor deadline too_long
refuses 2 "result: refused 3 at byte 132: $no_mark"$'\n'"$none" ancestor converted added
refuses 2 "result: refused 9 at byte 595: $task_count"$'\n'"$none" ancestor tasks more_tasks
refuses 2 "result: refused 11 at byte 2: $ended"$'\n'"$none" ancestor first_alone without_first
refuses 2 "result: refused 11 at byte 472: $ended"$'\n'"$none" ancestor seven six
refuses 2 "result: $length"$'\n'"$none" ancestor long longer

# A read that fails: what the program itself says is passed on.
refuses 2 "/proc/self/mem: Input/output error"$'\n'"$none" ancestor /proc/self/mem cost

# ---- The file RESULT ----

# It is one of the three.
for one in ancestor deadline cost; do
    { mkdir "$room/kept" && cp ancestor deadline cost "$room/kept"; } || fail "$room cannot be written"
    merge 0 "" ancestor deadline cost "$one"
    cmp -s both "$one" || found "the merge into $one is another table"
    cp "$room/kept/$one" "$one"
    diff -r "$room/kept" . | grep -qv '^Only in \.:' && found "the merge into $one has changed another file"
    rm -r "$room/kept"
done

# is_mode MODE FILE
is_mode() {
    [ "$(stat -c %a "$2")" = "$1" ] || found "the mode of $2 is $(stat -c %a "$2"), not $1"
}

# It is replaced, not written over: who has it open goes on reading the old table.
cp ancestor result
exec 3<result
merge 0 "" ancestor deadline cost result
cmp -s ancestor - <&3 || found "the file was written over"
exec 3<&-

# A new file has the mode of any other, and one that is there keeps its own.
rm result
(umask 027 && "$top/mishtodran" merge ancestor deadline cost result) || found "there is no new file"
cmp -s both result || found "the new file is another table"
is_mode 640 result
chmod 604 result
merge 0 "" ancestor deadline ancestor result
cmp -s deadline result || found "the file that was there is another table"
is_mode 604 result

# A link stays, and what it leads to is replaced, or made.
{ mkdir "$room/far" && ln -s "$room/far/table" far && ln -s far link; } || fail "$room cannot be written"
for one in deadline cost; do
    merge 0 "" ancestor "$one" ancestor link
    [[ -L link && -L far ]] || found "a link has become a file"
    cmp -s "$one" "$room/far/table" || found "what the link leads to is another table"
    [ "$(ls -A "$room/far")" = table ] || found "other files are where the link leads to: $(ls -A "$room/far")"
done

# A name that begins as an option does.
cp ancestor ./-x
merge 0 "" -x deadline cost -x
cmp -s both ./-x || found "the merge into -x is another table"

# ---- git ----
# A repository apart from the user's settings, and from one in which this may be run.

unset "${!GIT_@}"
export GIT_CONFIG_GLOBAL=/dev/null GIT_CONFIG_SYSTEM=/dev/null GIT_ATTR_NOSYSTEM=1 XDG_CONFIG_HOME=$room
stored=parts/our.table

# git_merge BRANCH STATUS: merges it into what is checked out, in a folder below, and ends so.
git_merge() {
    local status
    (cd parts && git merge -m merged "$1") >"$room/out" 2>&1
    status=$?
    [ "$status" = "$2" ] || found "git merge $1: exit status $status, not $2: $(cat "$room/out")"
}

# branch NAME FROM TABLE: a branch on which the table is stored.
branch() {
    { git checkout -q -b "$1" "$2" && mkdir -p parts && cp "$tables/$3" "$stored" && git add . && git commit -q -m "$1"; } ||
        fail "the branch $1 was not made"
}

# unmerged SAID CODE TABLE: git shows what the driver said, the file as unmerged, and the first side's table in it.
unmerged() {
    grep -qxF "$1" "$room/out" || found "git merge does not say '$1': $(cat "$room/out")"
    grep -qxF "in $stored" "$room/out" || found "git merge does not say which table it is: $(cat "$room/out")"
    [ "$(git status --porcelain)" = "$2 $stored" ] || found "git has another status: $(git status --porcelain)"
    cmp -s "$tables/$3" "$stored" || found "the first side's table does not stay"
    git merge --abort || found "git cannot abort the merge"
}

make_repository() {
    git init -q "$room/repository" && cd "$room/repository" || return
    git config user.name maintainers && git config user.email maintainers@example.org || return
    echo '*.table merge=mishtodran' >.gitattributes
    git config merge.mishtodran.driver \
        "$(printf %q "$top/mishtodran") merge %O %A %B %A || { echo in %P >&2; exit 1; }" || return
    git config merge.mishtodran.recursive binary || return
    git checkout -q -b start && git add . && git commit -q -m start
}

make_repository || fail "no repository can be made"
branch ancestor start ancestor
branch tightens ancestor deadline
branch costs ancestor cost
branch costs_too ancestor own_cost
branch adds start deadline

# Both edits stand.
git checkout -q tightens
git_merge costs 0
cmp -s "$tables/both" "$stored" || found "git's merge is another table"
[ -z "$(git status --porcelain)" ] || found "git's merge leaves something: $(git status --porcelain)"

# One chain is changed on both sides; and the table is new on both, so that it has no ancestor.
git_merge costs_too 1
unmerged "conflict: chain 1 is changed, removed or added differently in the two copies" UU both
git checkout -q adds
git_merge costs 1
unmerged "ancestor: $length (the table has 0 bytes)" AA deadline

# Each of two branches has merged the other, and kept its own table. What they come from are then two tables in conflict, of which
# neither may count as the ancestor: the edit of the other side would be lost.
{ git checkout -q -b one tightens && git merge -q -s ours -m one costs_too; } || fail "the branch one was not made"
{ git checkout -q -b other costs_too && git merge -q -s ours -m other tightens; } || fail "the branch other was not made"
git checkout -q one
git_merge other 1
unmerged "conflict: chain 1 is changed, removed or added differently in the two copies" UU both
print "merge_command: as it should be"
