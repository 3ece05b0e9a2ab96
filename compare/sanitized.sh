#!/usr/bin/env bash
# Runs the plain side under the address and undefined-behaviour sanitizers, on generated tables: compare.c with the plain
# analyzer behind the entries of mishtodran.h too (shim.c). Built for this machine, by its own compiler.
# Usage: compare/sanitized.sh SEED N
set -u
name=sanitized
# shellcheck source=scripts/shell.sh
. "$(dirname "$(readlink -f "${BASH_SOURCE[0]}")")/../scripts/shell.sh" || exit 2

[ $# = 2 ] || fail "usage: compare/sanitized.sh SEED N"
check_seed "$1"
check_tables "$2"
c_compilers=("${native_compilers[@]}")
c_package=gcc
c_flags=(-std=c11 -O2 -g -Wall -Wextra "-fsanitize=address,undefined" -fno-sanitize-recover=all)
find_compiler
c_program sanitized "$top/compare"/{compare,generate,analyzer,words,shim}.c
# Nothing is allocated, so there are no leaks to look for, which some machines do not allow.
check "the plain side is not as it should be" env ASAN_OPTIONS=detect_leaks=0 "$c_program" "$1" "$2"
