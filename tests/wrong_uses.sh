#!/usr/bin/env bash
# Wrong uses of the commands: the exit status and the message of each. Nothing is written to standard output, and nothing is
# built or run first.
# Usage: tests/wrong_uses.sh
set -u
name=wrong_uses
# shellcheck source=scripts/shell.sh
. "$(dirname "$(readlink -f "${BASH_SOURCE[0]}")")/../scripts/shell.sh" || exit 2
[ $# = 0 ] || fail "usage: tests/wrong_uses.sh"
# shellcheck source=tests/stand_ins.sh
. "$top/tests/stand_ins.sh" || exit 2

tried=0

# wrong STATUS MESSAGE WORDS..
wrong() {
    local expected=$1 message=$2
    shift 2
    try "$@"
    [ "$status" = "$expected" ] || found "$*: exit status $status, not $expected: $(cat "$room/err")"
    [ "$(cat "$room/err")" = "$message" ] || found "$*: it says '$(cat "$room/err")', not '$message'"
    [ ! -s "$room/out" ] || found "$*: it writes to standard output"
    [ ! -s "$room/called" ] || found "$*: something was built or run: $(cat "$room/called")"
    tried=$((tried + 1))
}

n='mishtodran: N is a whole number from 1 to 1000000000, not'
seed='mishtodran: SEED is a whole number from 0 to 4294967295, not'
wrong 2 "mishtodran: there is no command 'reprot'; ./mishtodran help lists them" ./mishtodran reprot
wrong 2 "mishtodran: there is no command ''; ./mishtodran help lists them" ./mishtodran ""
wrong 2 "mishtodran: there is no command '-x'; ./mishtodran help lists them" ./mishtodran -x
wrong 2 "mishtodran: usage: ./mishtodran help" ./mishtodran help report
wrong 2 "mishtodran: usage: ./mishtodran help" ./mishtodran --help report
for command in report check text; do
    wrong 2 "mishtodran: usage: ./mishtodran $command [FILE]" ./mishtodran "$command" examples/sample.table examples/sample.table
    wrong 2 "mishtodran: there is no file none" ./mishtodran "$command" none
    wrong 2 "mishtodran: there is no file " ./mishtodran "$command" ""
    wrong 2 "mishtodran: examples is a folder" ./mishtodran "$command" examples
    wrong 2 "mishtodran: standard input is a folder" bash -c "./mishtodran $command <examples"
    wrong 2 "mishtodran: standard input is closed" bash -c "./mishtodran $command <&-"
    wrong 2 "mishtodran: standard output is closed" bash -c "./mishtodran $command examples/sample.table >&-"
done

# no_result WORDS..: a command into a file that cannot be made, or replaced.
no_result() {
    local file
    wrong 2 "mishtodran: examples is a folder" "$@" examples
    for file in /dev/null new/; do
        wrong 2 "mishtodran: $file is not a file that can be replaced" "$@" "$file"
    done
    for file in none/new loop ""; do
        wrong 2 "mishtodran: $file cannot be written" "$@" "$file"
    done
    for file in unwritten shut/new; do
        wrong 2 "mishtodran: $file cannot be written" "${user[@]}" "$@" "$file"
    done
}

# A merge of three files into a fourth. No mode stops root, so what a mode forbids is tried as another user.
user=()
[ "$(id -u)" != 0 ] || user=("$(command -v setpriv)" --reuid=65534 --regid=65534 --clear-groups)
(cd "$copy" && cp examples/sample.table t && touch unread unwritten && mkdir shut && ln -s loop loop &&
    chmod -R a+rX "$room" && chmod 0 unread && chmod 444 unwritten && chmod 555 shut) || fail "$room cannot be written"
usage="mishtodran: usage: ./mishtodran merge ANCESTOR FIRST SECOND RESULT"
wrong 2 "$usage" ./mishtodran merge
wrong 2 "$usage" ./mishtodran merge t t t
wrong 2 "$usage" ./mishtodran merge t t t new new
for file in none loop ""; do
    wrong 2 "mishtodran: there is no file $file" ./mishtodran merge "$file" t t new
    wrong 2 "mishtodran: there is no file $file" ./mishtodran merge t "$file" t new
    wrong 2 "mishtodran: there is no file $file" ./mishtodran merge t t "$file" new
done
wrong 2 "mishtodran: examples is a folder" ./mishtodran merge examples t t new
wrong 2 "mishtodran: unread cannot be read" "${user[@]}" ./mishtodran merge t unread t new
no_result ./mishtodran merge t t t

# A table into the other form, and back.
usage="mishtodran: usage: ./mishtodran convert [--back] FILE RESULT"
wrong 2 "$usage" ./mishtodran convert
wrong 2 "$usage" ./mishtodran convert t
wrong 2 "$usage" ./mishtodran convert --back
wrong 2 "$usage" ./mishtodran convert --back t
wrong 2 "$usage" ./mishtodran convert t new new
wrong 2 "$usage" ./mishtodran convert t --back new
wrong 2 "$usage" ./mishtodran convert t new --back
wrong 2 "$usage" ./mishtodran convert --back t new new
for back in "" --back; do
    convert=(./mishtodran convert ${back:+"$back"})
    for file in none loop "" -x; do
        wrong 2 "mishtodran: there is no file $file" "${convert[@]}" "$file" new
    done
    wrong 2 "mishtodran: examples is a folder" "${convert[@]}" examples new
    wrong 2 "mishtodran: unread cannot be read" "${user[@]}" "${convert[@]}" unread new
    no_result "${convert[@]}" t
done

# What is left of a table.
usage="mishtodran: usage: ./mishtodran salvage FILE RESULT"
wrong 2 "$usage" ./mishtodran salvage
wrong 2 "$usage" ./mishtodran salvage t
wrong 2 "$usage" ./mishtodran salvage t new new
for file in none loop "" -x; do
    wrong 2 "mishtodran: there is no file $file" ./mishtodran salvage "$file" new
done
wrong 2 "mishtodran: examples is a folder" ./mishtodran salvage examples new
wrong 2 "mishtodran: unread cannot be read" "${user[@]}" ./mishtodran salvage unread new
no_result ./mishtodran salvage t

# The misses of a table, in so many activations.
usage="mishtodran: usage: ./mishtodran misses FILE [K] [--all]"
wrong 2 "$usage" ./mishtodran misses
wrong 2 "$usage" ./mishtodran misses t 10 20
wrong 2 "$usage" ./mishtodran misses t 10 --all 20
for file in none loop "" --all; do
    wrong 2 "mishtodran: there is no file $file" ./mishtodran misses "$file"
    wrong 2 "mishtodran: there is no file $file" ./mishtodran misses "$file" t
done
wrong 2 "mishtodran: examples is a folder" ./mishtodran misses examples
wrong 2 "mishtodran: unread cannot be read" "${user[@]}" ./mishtodran misses unread
wrong 2 "mishtodran: standard output is closed" bash -c "./mishtodran misses t >&-"
for k in abc 0 1001 -1 +1 1e3 0x10 " 1" "" t --fast 18446744073709551617 "a[\$(touch x)]"; do
    wrong 2 "mishtodran: K is a whole number from 1 to 1000, not '$k'" ./mishtodran misses t "$k"
    wrong 2 "mishtodran: K is a whole number from 1 to 1000, not '$k'" ./mishtodran misses t --all "$k"
done

# A text into a table, and a table to text. Python is not among the stand-ins.
usage="mishtodran: usage: ./mishtodran table TEXT TABLE"
wrong 2 "$usage" ./mishtodran table
wrong 2 "$usage" ./mishtodran table t
wrong 2 "$usage" ./mishtodran table t new new
for file in none loop ""; do
    wrong 2 "mishtodran: there is no file $file" ./mishtodran table "$file" new
done
wrong 2 "mishtodran: examples is a folder" ./mishtodran table examples new
wrong 2 "mishtodran: unread cannot be read" "${user[@]}" ./mishtodran table unread new
wrong 2 "mishtodran: unread cannot be read" "${user[@]}" ./mishtodran text unread
no_result ./mishtodran table t
wrong 2 "mishtodran: there is no python3 here: install Debian's package python3" ./mishtodran table t new
wrong 2 "mishtodran: there is no python3 here: install Debian's package python3" ./mishtodran text t
wrong 2 "mishtodran: usage: ./mishtodran lib" ./mishtodran lib target
wrong 2 "mishtodran: usage: ./mishtodran test" ./mishtodran test all
wrong 2 "mishtodran: usage: ./mishtodran compare N [SEED]" ./mishtodran compare
wrong 2 "mishtodran: usage: ./mishtodran compare N [SEED]" ./mishtodran compare 1 2 3
wrong 2 "$n 'abc'" ./mishtodran compare abc
wrong 2 "$n '0'" ./mishtodran compare 0
wrong 2 "$n '-1'" ./mishtodran compare -1
wrong 2 "$n '+1'" ./mishtodran compare +1
wrong 2 "$n '1e3'" ./mishtodran compare 1e3
wrong 2 "$n '0x10'" ./mishtodran compare 0x10
wrong 2 "$n ' 1'" ./mishtodran compare " 1"
wrong 2 "$n '1 '" ./mishtodran compare "1 "
wrong 2 "$n ''" ./mishtodran compare ""
wrong 2 "$n '1000000001'" ./mishtodran compare 1000000001
wrong 2 "$n '18446744073709551617'" ./mishtodran compare 18446744073709551617
wrong 2 "$n 'a[\$(touch x)]'" ./mishtodran compare "a[\$(touch x)]"
wrong 2 "$seed 'abc'" ./mishtodran compare 10 abc
wrong 2 "$seed '-1'" ./mishtodran compare 10 -1
wrong 2 "$seed '4294967296'" ./mishtodran compare 10 4294967296
wrong 2 "$seed 'one'" ./mishtodran bench one
wrong 2 "mishtodran: usage: ./mishtodran bench [SEED]" ./mishtodran bench 1 2

usage="compare: usage: compare/run.sh LIBRARY compare SEED N, or compare/run.sh LIBRARY bench [SEED]"
touch "$copy/lib.a"
wrong 2 "$usage" compare/run.sh
wrong 2 "$usage" compare/run.sh lib.a
wrong 2 "$usage" compare/run.sh lib.a reports 1 2
wrong 2 "$usage" compare/run.sh lib.a compare 1
wrong 2 "$usage" compare/run.sh lib.a compare 1 2 3
wrong 2 "$usage" compare/run.sh lib.a bench 1 2
wrong 2 "compare: SEED is a whole number from 0 to 4294967295, not 'x'" compare/run.sh lib.a compare x 1
wrong 2 "compare: N is a whole number from 1 to 1000000000, not '-3'" compare/run.sh lib.a compare 1 -3
wrong 2 "compare: SEED is a whole number from 0 to 4294967295, not '1.5'" compare/run.sh lib.a bench 1.5
wrong 2 "compare: there is no library none.a" compare/run.sh none.a compare 1 1
wrong 2 "run_report: usage: compare/run_report.sh PROGRAM SEED N" compare/run_report.sh lib.a 1
wrong 2 "run_report: N is a whole number from 1 to 10000, not '-3'" compare/run_report.sh lib.a 1 -3
wrong 2 "run_report: N is a whole number from 1 to 10000, not '0'" compare/run_report.sh lib.a 1 0
wrong 2 "run_report: SEED is a whole number from 0 to 4294967295, not 'x'" compare/run_report.sh lib.a x 1
wrong 2 "run_report: there is no program none" compare/run_report.sh none 1 1
wrong 2 "sanitized: usage: compare/sanitized.sh SEED N" compare/sanitized.sh 1
wrong 2 "sanitized: N is a whole number from 1 to 1000000000, not '0'" compare/sanitized.sh 1 0
wrong 2 "glpk: usage: compare/glpk.sh" compare/glpk.sh target
wrong 2 "run_c: usage: tests/run_c.sh LIBRARY [INCLUDE]" tests/run_c.sh
wrong 2 "run_c: there is no library none.a" tests/run_c.sh none.a
wrong 2 "run_c: there is no mishtodran.h in examples" tests/run_c.sh lib.a examples
wrong 2 "table_commands: usage: tests/table_commands.sh" tests/table_commands.sh all
wrong 2 "merge_command: usage: tests/merge_command.sh" tests/merge_command.sh all
wrong 2 "convert_command: usage: tests/convert_command.sh" tests/convert_command.sh all
wrong 2 "salvage_command: usage: tests/salvage_command.sh" tests/salvage_command.sh all
wrong 2 "text_commands: usage: tests/text_commands.sh" tests/text_commands.sh all
wrong 2 "gate: usage: .ci/run" .ci/run all

# The C programs by themselves, built for this machine.
c_compilers=("${native_compilers[@]}")
c_package=gcc
find_compiler
mkdir "$copy/built" || fail "$room cannot be written"
for program in compare bench reports; do
    "$c_compiler" -std=c11 -o "$copy/built/$program" "$top/compare"/{"$program",generate,analyzer,words,shim}.c || fail "$program was not built"
done
"$c_compiler" -std=c11 -o "$copy/built/worst" "$top/packing/worst.c" "$top/compare/words.c" || fail "worst was not built"
n='N is a whole number from 1 to'
seed='SEED is a whole number from 0 to 4294967295, not'
wrong 2 "compare: usage: compare SEED N" built/compare 1
wrong 2 "compare: usage: compare SEED N" built/compare 1 1 1
wrong 2 "compare: $seed '-1'" built/compare -1 1
wrong 2 "compare: $seed ''" built/compare "" 1
wrong 2 "compare: $n 1000000000, not '1e3'" built/compare 1 1e3
wrong 2 "compare: $n 1000000000, not '0'" built/compare 1 0
wrong 2 "compare: $n 1000000000, not '99999999999999999999999'" built/compare 1 99999999999999999999999
wrong 2 "compare: standard output cannot be written" sh -c 'built/compare 1 1 >/dev/full'
wrong 2 "bench: usage: bench [SEED]" built/bench 1 2
wrong 2 "bench: $seed 'x'" built/bench x
wrong 2 "reports: usage: reports SEED N FOLDER" built/reports 1 1
wrong 2 "reports: $seed ' 1'" built/reports " 1" 1 examples
wrong 2 "reports: $n 10000, not '-3'" built/reports 1 -3 examples
wrong 2 "reports: none/1.table cannot be written" built/reports 1 1 none
wrong 2 "worst: $seed 'x'" built/worst none table x 1
wrong 2 "worst: RUNS is a whole number from 1 to 1000000000, not '-3'" built/worst none table 1 -3
print "wrong_uses: $tried wrong uses are refused as they should be"
