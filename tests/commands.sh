#!/usr/bin/env bash
# The commands with stand-ins for their tools: what they build and when, and what they call on which machine.
# Usage: tests/commands.sh
# shellcheck disable=SC2016 # the stand-ins' own texts
set -u
name=commands
# shellcheck source=scripts/shell.sh
. "$(dirname "$(readlink -f "${BASH_SOURCE[0]}")")/../scripts/shell.sh" || exit 2
[ $# = 0 ] || fail "usage: tests/commands.sh"
# shellcheck source=tests/stand_ins.sh
. "$top/tests/stand_ins.sh" || exit 2

# is WHAT TEXT PATTERN
is() {
    # shellcheck disable=SC2053
    [[ $2 == $3 ]] || found "$1: '$2' is not '$3'"
}

# expect STATUS OUT ERR CALLED WORDS..: a command ends so; patterns of what it writes and which tools it calls.
expect() {
    local expected=$1 out=$2 err=$3 called=$4
    shift 4
    : >"$room/called"
    try "$@"
    is "$*: standard error" "$(cat "$room/err")" "$err"
    is "$*: exit status" "$status" "$expected"
    is "$*: standard output" "$(cat "$room/out")" "$out"
    is "$*: calls" "$(cat "$room/called")" "$called"
}

# during: a script that the stand-in rt runs once, in the middle of a build.
during() {
    { echo 'rm "$ROOM/during"' && cat; } | stand_in "$room/during"
}

help_and_links() {
    local word
    for word in help -h --help; do
        expect 0 "usage: ./mishtodran COMMAND*" "" "" ./mishtodran "$word"
    done
    expect 0 "usage: ./mishtodran COMMAND*" "" "" ./mishtodran
    mkdir "$room/links"
    ln -s "$copy/mishtodran" "$room/links/one"
    ln -s one "$room/links/two"
    expect 0 "usage: ./mishtodran COMMAND*" "" "" "$room/links/two" help
    expect 0 "a report" "*built the report program in*" "*rt run report" "$room/links/two" report examples/sample.table
}

# says SCRIPT: what the programs of report, check, misses, merge, convert and salvage do.
says() {
    echo "$1" >"$room/says"
}

checks() {
    says 'echo accepted, 4 chains'
    expect 0 "accepted, 4 chains" "*built the verdict program in*" "*rt run table_check" ./mishtodran check examples/sample.table
    expect 0 "accepted, 4 chains" "" "" ./mishtodran check examples/sample.table
    says 'wc -c'
    expect 0 "140" "" "" ./mishtodran check examples/sample.table
    says 'echo refused 2 at byte 0 && echo a note >&2'
    expect 1 "refused 2 at byte 0" "a note" "" ./mishtodran check
    says 'echo it cannot read >&2'
    expect 2 "" $'it cannot read\nmishtodran: there is no verdict' "" ./mishtodran check
    says 'echo half && exit 3'
    expect 2 "" "mishtodran: there is no verdict" "" ./mishtodran check
    says 'echo accepted, 4 chains'
    expect 2 "" "mishtodran: standard output cannot be written" "" sh -c './mishtodran check >/dev/full'
    echo more >"$copy/crates/input/src/lib.rt"
    expect 0 "accepted, 4 chains" "*" "*rt run table_check" ./mishtodran check
    says 'echo a report'
}

reports() {
    expect 0 "a report" "" "" ./mishtodran report examples/sample.table
    says 'wc -c && echo a note >&2'
    expect 0 "140" "a note" "" ./mishtodran report examples/sample.table
    says 'echo refused 2 28'
    expect 1 "refused 2 28" "" "" ./mishtodran report
    says 'echo refused 2 28 && echo a note >&2'
    expect 1 "refused 2 28" "a note" "" ./mishtodran report
    says 'echo it cannot read >&2'
    expect 2 "" $'it cannot read\nmishtodran: there is no report' "" ./mishtodran report
    says 'echo half && exit 3'
    expect 2 "" "mishtodran: there is no report" "" ./mishtodran report
    says 'echo half && kill -9 $$'
    expect 2 "" "*mishtodran: there is no report" "" ./mishtodran report
    says 'echo a report'
    expect 2 "" "mishtodran: standard output cannot be written" "" sh -c './mishtodran report >/dev/full'
}

# The program is given K and whether all packings are to be gone through; its lines are passed on as they come.
misses() {
    local misses=(./mishtodran misses examples/sample.table)
    says 'echo "$@" && wc -c'
    expect 0 $'10\n140' "*built the misses program in*" "*rt run table_misses" "${misses[@]}"
    expect 0 $'10\n140' "" "" "${misses[@]}"
    expect 0 $'10 all\n140' "" "" "${misses[@]}" --all
    expect 0 $'1000\n140' "" "" "${misses[@]}" 1000
    expect 0 $'8 all\n140' "" "" "${misses[@]}" 008 --all
    expect 0 $'1 all\n140' "" "" "${misses[@]}" --all 1
    cp "$copy/examples/sample.table" "$copy/--all"
    expect 0 $'10 all\n140' "" "" ./mishtodran misses --all --all
    says 'printf "a  line\n\\ another \n"'
    expect 0 $'a  line\n\\\\ another ' "" "" "${misses[@]}"
    says 'echo refused 2 at byte 0 && echo a note >&2'
    expect 1 "refused 2 at byte 0" "a note" "" "${misses[@]}"
    says 'echo a line && echo refused'
    expect 0 $'a line\nrefused' "" "" "${misses[@]}"
    says 'echo it cannot read >&2'
    expect 2 "" $'it cannot read\nmishtodran: there is no answer' "" "${misses[@]}"
    says 'exit 3'
    expect 2 "" "mishtodran: there is no answer" "" "${misses[@]}"
    says 'echo half && exit 3'
    expect 2 half "mishtodran: the answer is not whole" "" "${misses[@]}"
    says 'echo refused 2 && exit 3'
    expect 2 "refused 2" "mishtodran: the answer is not whole" "" "${misses[@]}"
    says 'echo half && printf more && kill -9 $$'
    expect 2 half "*mishtodran: the answer is not whole" "" "${misses[@]}"
    says 'echo half && printf more'
    expect 2 half "mishtodran: the answer is not whole" "" "${misses[@]}"
    says 'echo a line'
    expect 2 "" "mishtodran: standard output cannot be written" "" sh -c './mishtodran misses examples/sample.table >/dev/full'
    says 'sleep 0.3 && echo a line'
    expect 2 "" "" "" bash -c '"$@" | :; exit "${PIPESTATUS[0]}"' sh "${misses[@]}"
    says 'echo first && for n in $(seq 50); do [ ! -e "$ROOM/seen" ] || { echo second && exit; }; sleep 0.1; done'
    expect 0 $'first\nsecond' "" "" bash -o pipefail -c '"$@" | { read -r line && echo "$line" && touch "$ROOM/seen" && cat; }' sh "${misses[@]}"
    says 'echo a report'
}

# holds TEXT: what the file `made/result` holds after a merge, a conversion or a salvage. Nothing is left beside it.
holds() {
    is "RESULT" "$(cat "$copy/made/result")" "$1"
    is "what is beside RESULT" "$(ls -A "$copy/made")" result
}

# stays STATUS ERR WORDS..: one of these that ends so, and writes nothing.
stays() {
    local expected=$1 err=$2
    shift 2
    expect "$expected" "" "$err" "" "$@"
    holds "as it was"
}

# interrupted SIGNAL WORDS..: one that is ended so in the middle, with all that it has started, as a terminal does it. In
# the gate this script runs in the background, where some signals are ignored.
interrupted() {
    local signal=$1 group
    shift
    rm -f "$room/started"
    mkdir "$room/temporary"
    set -m
    in_copy env --default-signal="$signal" TMPDIR="$room/temporary" "$@" >"$room/out" 2>&1 &
    group=$!
    set +m
    until [ -e "$room/started" ]; do
        kill -0 "$group" 2>/dev/null || found "$*: it ended before it was interrupted: $(cat "$room/out")"
        sleep 0.05
    done
    kill -s "$signal" -- "-$group"
    wait "$group" 2>/dev/null && found "$*: interrupted by $signal it ends with 0"
    while kill -0 -- "-$group" 2>/dev/null; do
        sleep 0.05
    done
    holds "as it was"
    rmdir "$room/temporary" || found "$*: interrupted by $signal it leaves a temporary folder"
}

# results NAME WORDS..: a command, in the program of this name, into made/result, which the program's result alone replaces, and only
# where it is whole.
results() {
    local program=$1 signal tool
    shift
    mkdir "$copy/made"
    says 'echo new'
    expect 0 "" "*built the $program program in*" "*rt run table_$program" "$@"
    holds new
    expect 0 "" "" "" "$@"
    says 'echo a note >&2 && echo new'
    expect 0 "" "a note" "" "$@"
    says 'wc -c'
    expect 0 "" "" "" sh -c 'echo more | "$@"' sh "$@"
    holds 0
    echo as it was >"$copy/made/result"
    says :
    stays 2 "mishtodran: there is no result" "$@"
    says 'echo half && exit 3'
    stays 2 "mishtodran: there is no result" "$@"
    says 'echo half && kill -9 $$'
    stays 2 "*mishtodran: there is no result" "$@"
    says 'cat examples/sample.table'
    stays 2 "cat: *mishtodran: there is no result" \
        bash -o pipefail -c '(trap "" XFSZ && ulimit -f 0 && "$@") 2>&1 | cat >&2' sh "$@"
    says 'echo half && echo >"$ROOM/started" && sleep 9'
    for signal in INT TERM HUP; do
        interrupted "$signal" "$@"
    done
    says 'echo new'
    for tool in chmod mv; do
        mv "$tools/$tool" "$room/$tool"
        stand_in "$tools/$tool" <<<'exit 1'
        stays 2 "mishtodran: made/result cannot be written" "$@"
        stand_in "$tools/$tool" <<<'kill -s TERM "$PPID" && exec "$ROOM/'"$tool"'" "$@"'
        expect 0 "" "" "" "$@"
        holds new
        mv "$room/$tool" "$tools/$tool"
        echo as it was >"$copy/made/result"
    done
}

# A conflict is known by its line alone.
merges() {
    local merge=(./mishtodran merge examples/{sample,sample,case_study}.table made/result) conflict
    results merge "${merge[@]}"
    conflict=$'refused 32: some id is changed differently on both sides\nconflict: chain 7'
    says "echo '$conflict' >&2"
    stays 1 "$conflict" "${merge[@]}"
    says "echo a note >&2 && echo '$conflict' >&2"
    stays 1 "a note"$'\n'"$conflict" "${merge[@]}"
    says 'echo first copy: refused 32: no >&2'
    stays 2 $'first copy: refused 32: no\nmishtodran: there is no result' "${merge[@]}"
    says 'cat "$3"'
    expect 0 "" "" "" "${merge[@]}"
    cmp "$copy/made/result" "$copy/examples/case_study.table" || found "the result is not what the program gives"
    rm -r "$copy/made"
    says 'echo a report'
}

# The program is given the file, and whether it is to be converted back. What it refuses is known by its line.
converts() {
    local convert=(./mishtodran convert examples/sample.table made/result) refused
    results convert "${convert[@]}"
    for refused in 'refused 29 at byte 24: a distance falls (chain record 1, distance 3)' 'refused 34: no such form (chain 7)'; do
        says "echo '$refused' >&2"
        stays 1 "$refused" "${convert[@]}"
    done
    for refused in 'refused 1 (a file): not a table' 'refused: (no)' 'not refused 34: (no)' 'refused 24: no room'; do
        says "echo '$refused' >&2"
        stays 2 "$refused"$'\n'"mishtodran: there is no result" "${convert[@]}"
    done
    says 'echo "$@"'
    expect 0 "" "" "" "${convert[@]}"
    holds examples/sample.table
    expect 0 "" "" "" ./mishtodran convert --back examples/sample.table made/result
    holds "examples/sample.table back"
    cp "$copy/examples/sample.table" "$copy/-x"
    expect 0 "" "" "" ./mishtodran convert --back -x made/result
    holds "-x back"
    says 'cat "$1"'
    expect 0 "" "" "" ./mishtodran convert examples/case_study.table made/result
    cmp "$copy/made/result" "$copy/examples/case_study.table" || found "the result is not what the program gives"
    rm -r "$copy/made"
    says 'echo a report'
}

# The program is given the file. That nothing is left of it is known by a line, and what it says beside a result is passed on.
salvages() {
    local salvage=(./mishtodran salvage examples/sample.table made/result) refused
    results salvage "${salvage[@]}"
    for refused in 'refused 35: too long' 'refused 36: nothing is kept'; do
        says "echo '$refused' >&2"
        stays 1 "$refused" "${salvage[@]}"
    done
    for refused in 'refused 24: no room' 'not refused 36: no' 'refused 35: a file: it cannot be read' 'kept chain 36'; do
        says "echo '$refused' >&2"
        stays 2 "$refused"$'\n'"mishtodran: there is no result" "${salvage[@]}"
    done
    says 'echo kept a chain >&2 && echo skipped the rest >&2 && echo "$@"'
    expect 0 "" $'kept a chain\nskipped the rest' "" "${salvage[@]}"
    holds examples/sample.table
    rm -r "$copy/made"
    says 'echo a report'
}

# What the library is built from, and when it is built again.
builds() {
    local built="rt lib search"$'\n'"*rt lib editor"$'\n'"rt lib editor_c"
    expect 0 "library: *" "mishtodran: building the library: 17 crates*crate 16 of 17 is proved: editor,*built the library in*" "$built" ./mishtodran lib
    expect 0 "library: *" "" "" ./mishtodran lib
    echo "/* more */" >>"$copy/include/mishtodran.h"
    expect 0 "library: *" "" "" ./mishtodran lib
    cmp "$copy/include/mishtodran.h" "$copy/target/mishtodran/mishtodran.h" || found "the header is not the changed one"
    echo more >"$copy/target/mishtodran/libmishtodran.a"
    expect 0 "library: *" "" "" ./mishtodran lib
    cmp "$copy/target/staticlib/libeditor_c.a" "$copy/target/mishtodran/libmishtodran.a" || found "the library is not what was built"
    echo more >"$copy/crates/vectors/src/lib.rt"
    expect 0 "library: *" "" "" ./mishtodran lib
    echo more >"$copy/crates/search/src/lib.rt"
    expect 0 "library: *" "*" "$built" ./mishtodran lib
    rm "$copy/crates/search/src/lib.rt"
    expect 0 "library: *" "*" "$built" ./mishtodran lib
    touch -d '10 years ago' "$room/older" && mv "$room/older" "$copy/crates/search/src/lib.rt"
    expect 0 "library: *" "*" "$built" ./mishtodran lib
    echo more >>"$copy/target/staticlib/libeditor_c.a"
    expect 0 "library: *" "*" "$built" ./mishtodran lib
    expect 0 "library: *" "" "" ./mishtodran lib
}

# A source that changes while it is built, a build that fails, and no rt.
builds_that_go_wrong() {
    local built="rt lib search"$'\n'"*rt lib editor"$'\n'"rt lib editor_c"
    echo again >"$copy/crates/search/src/lib.rt"
    during <<<'echo meanwhile >"$ROOM/a copy/crates/search/src/lib.rt"'
    expect 0 "library: *" "*" "$built"$'\n'"$built" ./mishtodran lib
    expect 0 "library: *" "" "" ./mishtodran lib
    echo wrong >"$copy/crates/search/src/lib.rt"
    during <<<'echo "src/lib.rt:1:1: error: it is wrong" && exit 1'
    expect 2 "" "*error: it is wrong*search NOT PROVED*mishtodran: the library was not built; *editor_c.log has what rt said" "rt lib search" ./mishtodran lib
    expect 0 "library: *" "*" "$built" ./mishtodran lib
    rm "$copy/target/staticlib/libeditor_c.a"
    touch "$room/makes_nothing"
    expect 2 "" "*rt has not made *libeditor_c.a" "$built" ./mishtodran lib
    rm "$room/makes_nothing"
    mv "$tools/rt" "$room/rt"
    expect 2 "" "mishtodran: the Rattle toolchain's rt is not on the PATH" "" ./mishtodran lib
    expect 2 "" "mishtodran: the Rattle toolchain's rt is not on the PATH" "" ./mishtodran report
    expect 2 "" "mishtodran: the Rattle toolchain's rt is not on the PATH" "" ./mishtodran check
    mv "$room/rt" "$tools/rt"
}

# at_once ONE OTHER: two commands, the other while the one builds; both end well, and the other has waited.
at_once() {
    local one other first
    read -ra one <<<"$1"
    read -ra other <<<"$2"
    rm -rf "$copy/target" "$room/started" "$room/err"
    : >"$room/called"
    during <<'EOT'
echo >"$ROOM/started"
for second in 1 2 3 4 5 6 7 8 9; do
    ! grep -q waiting "$ROOM/err" || exit 0
    sleep 1
done
EOT
    in_copy "${one[@]}" >"$room/one" 2>&1 &
    first=$!
    until [ -e "$room/started" ]; do
        kill -0 "$first" 2>/dev/null || found "$1 ended before it built: $(cat "$room/one")"
        sleep 0.05
    done
    try "${other[@]}"
    wait "$first" || found "$1 beside $2: $(cat "$room/one")"
    is "$2 beside $1: standard error" "$(cat "$room/err")" "mishtodran: waiting for another build*"
    is "$2 beside $1: exit status" "$status" 0
}

two_at_once() {
    at_once "./mishtodran lib" "./mishtodran lib"
    is "two builds of the library: calls" "$(grep -c 'rt lib editor_c' "$room/called")" 1
    at_once "./mishtodran report examples/sample.table" "./mishtodran lib"
    is "the report program and the library: calls" "$(grep -c 'rt lib editor_c\|rt run report' "$room/called")" 2
}

# The programs of compare/ are compiled where something of theirs has changed.
compiled_programs() {
    local compiled="gcc *compare.c>*libmishtodran.a>"
    expect 0 "ran compare 7 5" "compare: compiling compare" "$compiled" ./mishtodran compare 5 7
    expect 0 "ran compare 1 5" "" "" ./mishtodran compare 5
    echo >>"$copy/compare/analyzer.c"
    expect 0 "ran compare 1 5" "compare: compiling compare" "$compiled" ./mishtodran compare 5
    echo "stand-in 2" >"$room/compiler"
    expect 0 "ran compare 1 5" "compare: compiling compare" "$compiled" ./mishtodran compare 5
    cp "$copy/target/staticlib/libeditor_c.a" "$copy/other.a"
    expect 0 "ran compare 1 5" "compare: compiling compare" "gcc *other.a>" compare/run.sh other.a compare 1 5
    expect 0 "ran bench 1" "compare: GLPK is not measured: bash compare/glpk.sh fetches it*" "gcc *bench.c>*" ./mishtodran bench
    mkdir -p "$copy/target/glpk/usr/lib/x86_64-linux-gnu" && touch "$copy/target/glpk/usr/lib/x86_64-linux-gnu/libglpk.a"
    expect 0 "ran bench 1" "compare: compiling bench" "gcc *<-DWITH_GLPK>*" ./mishtodran bench
}

# The commands for text: they build the library and the program rows where something has changed, and give table.py its words
# and the command that runs the program. Python's stand-in runs that, and ends with the status in $room/ends.
texts() {
    local built="gcc *rows.c> <-I> <$copy/target/mishtodran> <$copy/target/mishtodran/libmishtodran.a>" status
    stand_in "$tools/python3" <<<'eval "$MISHTODRAN_ROWS for ${1##*/}" && shift && printf "<%s>" "$@" && exit "$(cat "$ROOM/ends")"'
    echo 0 >"$room/ends"
    rm -rf "$copy/target"
    expect 0 $'ran rows for table.py\n<--text><examples/sample.table>' "*built the library in*mishtodran: compiling rows" \
        "*rt lib editor_c"$'\n'"$built" ./mishtodran text examples/sample.table
    expect 0 $'ran rows for table.py\n<--text>' "" "" ./mishtodran text
    expect 0 $'ran rows for table.py\n<examples/sample.txt><new>' "" "" ./mishtodran table examples/sample.txt new
    echo "# more" >>"$copy/examples/sample.txt"
    expect 0 "*" "" "" ./mishtodran text
    echo >>"$copy/examples/rows.c"
    expect 0 "*" "mishtodran: compiling rows" "$built" ./mishtodran text
    echo more >"$copy/crates/search/src/lib.rt"
    expect 0 "*" "*built the library in*mishtodran: compiling rows" "*rt lib editor_c"$'\n'"$built" ./mishtodran table examples/sample.txt new
    cp "$copy/examples/sample.txt" "$copy/-x"
    cp "$copy/examples/sample.txt" "$copy/--text"
    expect 0 $'ran rows for table.py\n<./-x><./--text>' "" "" ./mishtodran table -x --text
    expect 0 $'ran rows for table.py\n<--text><./--text>' "" "" ./mishtodran text --text
    for status in 1 2; do
        echo "$status" >"$room/ends"
        expect "$status" "*" "" "" ./mishtodran text
        expect "$status" "*" "" "" ./mishtodran table examples/sample.txt new
    done
    echo 0 >"$room/ends"
}

# linked COMPILER: the words after `link:` are a command that works in a shell, blanks or not.
linked() {
    local line
    try ./mishtodran lib
    line=$(sed -n 's/^link: *//p' "$room/out")
    : >"$room/called"
    try bash -c "$line"
    is "link: exit status" "$status" 0
    is "link: calls" "$(cat "$room/called")" "$1 <-I> <$copy/target/mishtodran> <program.c> <$copy/target/mishtodran/libmishtodran.a>"
}

machine_x86_64() {
    local missing="there is no C compiler (gcc cc) here: install Debian's package gcc"
    machine x86_64
    linked gcc
    rm -rf "$copy/target/compare" "$tools/gcc"
    expect 0 "ran compare 1 5" "*" "cc *" ./mishtodran compare 5
    linked cc
    rm -rf "$copy/target" "$tools/cc"
    expect 2 "" "mishtodran: $missing" "" ./mishtodran compare 5
    expect 2 "" "mishtodran: $missing" "" ./mishtodran bench
    expect 2 "" "mishtodran: $missing" "" ./mishtodran text
    expect 2 "" "compare: $missing" "" compare/run.sh other.a compare 1 5
    expect 2 "" "run_c: $missing" "" tests/run_c.sh other.a
    expect 2 "" "sanitized: $missing" "" compare/sanitized.sh 1 1
    stand_in "$tools/own" <"$tools/x86_64-linux-gnu-gcc"
    expect 0 "ran compare 1 5" "*" "*own *" env CC_X86_64=own ./mishtodran compare 5
    compilers gcc cc
}

machine_aarch64() {
    local missing="there is no emulator of x86-64 here: install Debian's package qemu-user"
    machine aarch64
    linked "x86_64-linux-gnu-gcc <-static>"
    emulator "$tools/qemu-x86_64"
    rm -rf "$copy/target"
    expect 0 "ran compare 1 5" "*" "*x86_64-linux-gnu-gcc *tools/qemu-x86_64 compare" ./mishtodran compare 5
    expect 0 "a report" "*" "*tools/qemu-x86_64 ld-linux-x86-64.so.2" ./mishtodran report
    expect 0 "ran rows for table.py*" "*" "*x86_64-linux-gnu-gcc *tools/qemu-x86_64 rows" ./mishtodran text
    rm -rf "$copy/target" "$tools/qemu-x86_64"
    expect 2 "" "mishtodran: $missing" "" ./mishtodran report
    expect 2 "" "mishtodran: $missing" "" ./mishtodran text
    expect 2 "" "mishtodran: $missing" "" ./mishtodran compare 5
    expect 2 "" "compare: $missing" "" compare/run.sh other.a compare 1 5
    emulator "$tools/qemu-x86_64-static"
    expect 0 "a report" "*" "*tools/qemu-x86_64-static ld-linux-x86-64.so.2" ./mishtodran report
    rm "$tools/x86_64-linux-gnu-gcc"
    expect 2 "" "mishtodran: there is no C compiler (x86_64-linux-gnu-gcc) here: install Debian's package gcc-x86-64-linux-gnu" "" ./mishtodran compare 5
    expect 0 "library: *link:    x86_64-linux-gnu-gcc -static *" "*" "*" ./mishtodran lib
    compilers x86_64-linux-gnu-gcc
}

# The gate's packages: named, installed before anything is proved, and what the package manager says where it fails.
packages() {
    local missing="gcc-x86-64-linux-gnu git python3 shellcheck"
    rm "$tools/x86_64-linux-gnu-gcc" "$tools/id" "$tools/python3"
    stand_in "$tools/id" <<<'echo 1000'
    expect 2 "" "gate: these packages are missing, and only root can install them, with apt-get: $missing" "" .ci/run
    stand_in "$tools/id" <<<'echo 0'
    expect 2 "" "gate: these packages are missing, and only root*" "" .ci/run
    stand_in "$tools/apt-get" <<<'echo "$1: no network" >&2 && exit 100'
    expect 2 "" "gate: installing the packages that are missing: $missing"$'\n'"gate: they could not be installed; the package manager said:"$'\n'"update: no network" "" .ci/run
    rm "$tools/gcc" "$tools/cc" "$tools/qemu-x86_64-static"
    expect 2 "" "gate: installing the packages that are missing: gcc-x86-64-linux-gnu qemu-user gcc git python3 shellcheck*" "" .ci/run
    machine x86_64
    expect 2 "" "gate: installing the packages that are missing: gcc git python3 shellcheck*" "" .ci/run
    compilers gcc cc
    expect 2 "" "gate: installing the packages that are missing: git python3 shellcheck*" "" .ci/run
    stand_in "$tools/apt-get" <<<'echo "apt-get $*" >>"$ROOM/called"'
    expect 2 "" "gate: installing the packages that are missing: git python3 shellcheck*" "apt-get update"$'\n'"apt-get install -y git python3 shellcheck" .ci/run
}

# GLPK is fetched whole or not at all, and what the package manager says is shown.
glpk() {
    rm -rf "$copy/target" "$tools/apt-get"
    expect 2 "" "glpk: there is no apt-get here" "" compare/glpk.sh
    stand_in "$tools/apt-get" <<<'echo "no network" >&2 && exit 100'
    stand_in "$tools/dpkg-deb" <<<'mkdir -p "$3/usr"'
    expect 2 "" "glpk: fetching Debian's packages"$'\n'"glpk: GLPK cannot be fetched: no network" "" compare/glpk.sh
    is "what is left of GLPK" "$(ls "$copy/target")" ""
    stand_in "$tools/apt-get" <<<':'
    expect 0 "" "*glpk: it is in target/glpk" "" compare/glpk.sh
    is "what is left of GLPK" "$(ls "$copy/target")" glpk
    expect 0 "" "glpk: it has been fetched" "" compare/glpk.sh
}

# The gate over checks that are stood in for: it locks while it proves, ends with a check's status, and its last line is rt's.
gate() {
    local checks=("$copy"/{tests/{wrong_uses,commands,table_commands,merge_command,convert_command,salvage_command,text_commands,run_c}.sh,compare/{sanitized,run,run_report}.sh})
    local samples=(crates/{sample,refusals_told,report,save_story,merge_story,table_misses}/stdin crates/{table_merge/data/ancestor,table_convert/data/sample}.table) one
    for one in "${samples[@]}"; do
        mkdir -p "$copy/${one%/*}"
        cp "$copy/examples/sample.table" "$copy/$one"
    done
    for one in "$tools"/{git,shellcheck,python3} "${checks[@]}"; do
        stand_in "$one" <<<':'
    done
    at_once .ci/run "./mishtodran lib"
    is "the gate: its last line" "$(tail -n 1 "$room/one")" "2 passed, 0 failed"
    for one in "$tools"/{shellcheck,python3} "${checks[@]}"; do
        stand_in "$one" <<<'exit 1'
        expect 1 "*" "*gate: *" "*" .ci/run
        [[ $(cat "$room/out") != *passed* ]] || found "the gate passes though ${one##*/} does not"
        stand_in "$one" <<<'exit 2'
        expect 2 "*" "*gate: *" "*" .ci/run
        stand_in "$one" <<<':'
    done
    for one in pack_all try_docs; do
        stand_in "$tools/python3" <<<"case \$1 in */$one.py) exit 1 ;; esac"
        expect 1 "*" "*gate: *" "*" .ci/run
    done
    stand_in "$tools/python3" <<<':'
    for one in "${samples[@]}"; do
        echo >>"$copy/$one"
        expect 1 "*" "*gate: $one is not examples/sample.table" "*" .ci/run
        cp "$copy/examples/sample.table" "$copy/$one"
    done
    rm -r "$copy/target"
    touch "$room/makes_nothing"
    expect 2 "*" "*gate: the library was not built" "*" .ci/run
    rm "$room/makes_nothing"
    expect 0 "*"$'\n'"2 passed, 0 failed" "*" "*rt ci*" .ci/run
    expect 0 "a report" "" "" ./mishtodran report
    printf '%s\n' "rt: ok; must-fail edits: 3 refused, 1 of them only by a limit; all in this run" "5 passed, 0 failed" >"$room/verdict"
    expect 0 "*"$'\n'"5 passed, 0 failed" "*" "*rt ci*" .ci/run
    printf '%s\n' "rt: ok; must-fail edits: 3 refused, 2 bad; all in this run" "5 passed, 0 failed" >"$room/verdict"
    expect 1 "*5 passed, 2 failed" "*gate: rt ci could not try 2 of the must-fail edits*" "*rt ci" .ci/run
    for one in "0 passed, 0 failed" "2 passed, 1 failed" "passed"; do
        echo "$one" >"$room/verdict"
        expect 1 "*$one" "*gate: rt ci did not pass (exit status 0)*" "*rt ci" .ci/run
    done
    rm "$room/verdict"
    during <<<'echo "1 passed, 1 failed" && exit 1'
    expect 1 "*1 passed, 1 failed" "*gate: rt ci did not pass (exit status 1)*" "*rt ci" .ci/run
}

help_and_links
reports
checks
misses
merges
converts
salvages
builds
builds_that_go_wrong
two_at_once
compiled_programs
texts
machine_x86_64
machine_aarch64
packages
glpk
gate
print "commands: as they should be"
