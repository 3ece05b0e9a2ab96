#!/usr/bin/env bash
# Holds a library with the entries of mishtodran.h against the plain analyzer, or measures both.
# Usage: compare/run.sh LIBRARY compare SEED N
#        compare/run.sh LIBRARY bench [SEED]
# LIBRARY is an x86-64 archive (target/mishtodran/libmishtodran.a). bench measures GLPK too where compare/glpk.sh has fetched it.
set -u
name=compare
# shellcheck source=scripts/shell.sh
. "$(dirname "$(readlink -f "${BASH_SOURCE[0]}")")/../scripts/shell.sh" || exit 2

case $#:${2-} in
    4:compare)
        check_seed "$3"
        check_tables "$4"
        ;;
    [23]:bench) check_seed "${3-1}" ;;
    *) fail "usage: compare/run.sh LIBRARY compare SEED N, or compare/run.sh LIBRARY bench [SEED]" ;;
esac
[ -f "$1" ] || fail "there is no library $1"
library=$(readlink -f "$1")
program=$2
shift 2
find_compiler
find_runner

# Sets glpk to the compiler's words for it. A cross compiler's libm.a names its parts by paths of the other machine, so
# they are named here.
find_glpk() {
    local folder=$top/target/glpk/usr lib libc
    glpk=()
    lib=$folder/lib/x86_64-linux-gnu
    [ -f "$lib/libglpk.a" ] || { say "GLPK is not measured: bash compare/glpk.sh fetches it" && return; }
    libc=$(dirname "$("$c_compiler" -print-file-name=libc.a)")
    glpk=(-DWITH_GLPK "$top/compare/packing_glpk.c" -I "$folder/include"
        "$lib"/lib{glpk,amd,colamd,suitesparseconfig,ltdl,z,gmp}.a "$libc"/libm-*.a "$libc/libmvec.a" -ldl)
}

glpk=()
[ "$program" = compare ] || find_glpk
c_program "$program" "$top/compare"/{"$program",generate,analyzer,words}.c "$library" "${glpk[@]}"
c_run "$c_program" "$@"
