#!/usr/bin/env bash
# Holds the report program against the plain analyzer's report, on generated tables.
# Usage: compare/run_report.sh PROGRAM SEED N
# PROGRAM is the report as rt links it (target/bin/report, which ./mishtodran report builds).
set -u
name=run_report
# shellcheck source=scripts/shell.sh
. "$(dirname "$(readlink -f "${BASH_SOURCE[0]}")")/../scripts/shell.sh" || exit 2

in_hex() {
    od -An -v -tx1 "$1" | tr -d ' \n'
}

[ $# = 3 ] || fail "usage: compare/run_report.sh PROGRAM SEED N"
check_seed "$2"
check_reports "$3"
[ -f "$1" ] || fail "there is no program $1"
program=$(readlink -f "$1")
find_rt
find_compiler
find_runner
room=$(mktemp -d) || fail "no temporary folder can be made"
trap 'rm -rf "$room"' EXIT

c_program reports "$top/compare"/{reports,generate,analyzer,words}.c
c_run "$c_program" "$2" "$3" "$room" || fail "no tables were made"
for ((number = 1; number <= 10#$3; number++)); do
    table=$room/$number.table
    run_proved "$program" <"$table" >"$room/said" || fail "the report ended with a failure; table $(in_hex "$table")"
    diff "$room/said" "$room/$number.txt" || found "difference; table $(in_hex "$table")"
done
print "$((10#$3)) reports, no difference"
