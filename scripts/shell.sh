# shellcheck shell=bash disable=SC2034
# What the scripts share: messages, numbers, C programs, builds. A script sets `name` to what its messages start with,
# and sources this file, which sets `top` to the project's folder.
#
# Exit statuses: 0 all is well; 1 something was found; 2 wrong use, or something could not be read, written or built.

top=$(dirname "$(dirname "$(readlink -f "${BASH_SOURCE[0]}")")")

# ---- Messages ----

say() {
    printf '%s: %s\n' "${name:?}" "$1" >&2
}

fail() {
    say "$1"
    exit 2
}

# The same where what was looked at is not as it should be.
found() {
    say "$1"
    exit 1
}

# check WHAT COMMAND..: runs a command that should end well. Where it does not, says what is wrong, and ends with 1 where it
# ended with 1, else with 2.
check() {
    local what=$1 status
    shift
    "$@"
    status=$?
    [ "$status" != 0 ] || return 0
    [ "$status" != 1 ] || found "$what"
    fail "$what"
}

# print TEXT: on standard output.
print() {
    printf '%s\n' "$1" 2>/dev/null || fail "standard output cannot be written"
}

# ---- Numbers ----

# whole_number WORD LOW HIGH: whether the word is digits alone, at most 18, and says a number from LOW to HIGH.
whole_number() {
    case $1 in
        '' | *[!0123456789]*) return 1 ;;
    esac
    [ ${#1} -le 18 ] && ((10#$1 >= $2 && 10#$1 <= $3))
}

# check_number WHAT WORD LOW HIGH: fails where the word is no such number.
check_number() {
    whole_number "$2" "$3" "$4" || fail "$1 is a whole number from $3 to $4, not '$2'"
}

# What the programs of compare/ take: the seed of generated tables, how many of them, and how many reports, each of which
# is two files.
check_seed() {
    check_number SEED "$1" 0 4294967295
}

check_tables() {
    check_number N "$1" 1 1000000000
}

check_reports() {
    check_number N "$1" 1 10000
}

# ---- The Rattle toolchain ----

find_rt() {
    command -v rt >/dev/null || fail "the Rattle toolchain's rt is not on the PATH"
}

# ---- C programs ----
# The library is for x86-64, and so are the C programs around it.

# The compiler of this machine, for what runs on it alone; Debian's package gcc.
native_compilers=(gcc cc)

# The two settings. CC_X86_64 and EMULATOR_X86_64 name another compiler and another emulator.
case $(uname -m) in
    x86_64 | amd64)
        c_compilers=("${native_compilers[@]}")
        c_package=gcc
        c_link=()
        c_emulators=()
        ;;
    *)
        c_compilers=(x86_64-linux-gnu-gcc)
        c_package=gcc-x86-64-linux-gnu
        c_link=(-static)
        c_emulators=(qemu-x86_64 qemu-x86_64-static)
        ;;
esac
[ -z "${CC_X86_64-}" ] || c_compilers=("$CC_X86_64")
[ -z "${EMULATOR_X86_64-}" ] || c_emulators=("$EMULATOR_X86_64")

c_flags=(-std=c11 -O2 -Wall -Wextra -static)

# The first of the named commands that is there.
first_command() {
    local word
    for word in "$@"; do
        command -v -- "$word" >/dev/null && echo "$word" && return
    done
    return 1
}

# Sets c_compiler.
find_compiler() {
    c_compiler=$(first_command "${c_compilers[@]}") ||
        fail "there is no C compiler (${c_compilers[*]}) here: install Debian's package $c_package"
}

# Sets c_runner, what stands before a program to run it. An emulator goes through `rep movsb` byte by byte, which no
# processor does: there the C library copies without it.
find_runner() {
    local emulator
    c_runner=()
    [ ${#c_emulators[@]} -gt 0 ] || return 0
    emulator=$(first_command "${c_emulators[@]}") ||
        fail "there is no emulator of x86-64 here: install Debian's package qemu-user"
    c_runner=(env "GLIBC_TUNABLES=glibc.cpu.x86_rep_movsb_threshold=1000000:glibc.cpu.x86_rep_stosb_threshold=1000000"
        "$emulator")
}

# c_build OUT WORDS..: compiles and links a static program of these words; it is there whole, or not at all.
c_build() {
    local out=$1
    shift
    "$c_compiler" "${c_flags[@]}" -o "$out.new" "$@" && mv "$out.new" "$out"
}

# c_run PROGRAM WORDS..: runs one.
c_run() {
    "${c_runner[@]}" "$@"
}

# quoted WORDS..: the words as one text, which a shell takes apart again.
quoted() {
    local word
    for word in "$@"; do
        printf "'%s' " "${word//\'/\'\\\'\'}"
    done
}

# run_proved PROGRAM: runs one that rt has linked, with the toolchain's C library.
run_proved() {
    local rt lib
    find_rt
    rt=$(readlink -f "$(command -v rt)")
    lib=${rt%/*/*}/toolchain/lib
    [ -f "$lib/ld-linux-x86-64.so.2" ] || fail "the Rattle toolchain has no C library: there is no $lib/ld-linux-x86-64.so.2"
    c_run "$lib/ld-linux-x86-64.so.2" --library-path "$lib" "$@"
}

# ---- Builds ----

# One build at a time in a project's folder: `lock` waits until no other is going on, `unlock` lets the next one start.
# The folder itself is locked, so that target/ may be removed meanwhile.
lock() {
    command -v flock >/dev/null || fail "there is no flock here: install Debian's package util-linux"
    { exec 9<"$top"; } 2>/dev/null || fail "$top cannot be read"
    flock -n 9 && return
    say "waiting for another build"
    flock 9 || fail "$top cannot be locked"
}

unlock() {
    exec 9<&-
}

# fingerprint SETTINGS FILE..: a word for the settings, and for what stands in these files and folders of the project.
fingerprint() {
    local settings=$1
    shift
    (cd "$top" && echo "$settings" && find "$@" -type f -exec sha256sum {} + | LC_ALL=C sort) | sha256sum
}

# Of what is built, target/made/NAME keeps what it was made from, a fingerprint from before the build, and its own.
# is_made NAME FILE FROM: whether the file was made from that, and is as it was made.
is_made() {
    [ -f "$2" ] && [ "$(cat "$top/target/made/$1" 2>/dev/null)" = "$3 $(fingerprint "" "$2")" ]
}

# note_made NAME FILE FROM
note_made() {
    { mkdir -p "$top/target/made" && echo "$3 $(fingerprint "" "$2")" >"$top/target/made/$1"; } ||
        fail "$top/target cannot be written"
}

# copy FILE TO: makes TO the same as FILE; it is there whole at any moment.
copy() {
    cmp -s "$1" "$2" && return
    { mkdir -p "${2%/*}" && cp "$1" "$2.new" && mv "$2.new" "$2"; } || fail "$2 cannot be written"
}

# crates_of CRATE: those of crates.txt that it needs, one a line, and itself last.
crates_of() {
    awk -F: -v crate="$1" '
        function visit(one, needs, n) {
            if (!(one in needed) || seen[one]++) return
            for (n = split(needed[one], needs, " "); n > 0; n--) visit(needs[n])
            print one
        }
        { sub(/#.*/, "") }
        NF > 1 { split($1, words, " "); needed[words[1]] = $2 }
        END { visit(crate) }' "$top/crates.txt"
}

# sources_of CRATE..: the fingerprint of what rt builds these from.
sources_of() {
    local folders=() crate part
    for crate in "$@"; do
        for part in src specs proofs; do
            [ ! -d "$top/crates/$crate/$part" ] || folders+=("crates/$crate/$part")
        done
    done
    fingerprint "$(rt version)" crates.txt "${folders[@]}"
}

# The crates of the programs that the commands run. Of each, the program stands in target/bin.
programs=(report table_check table_misses table_merge table_convert table_salvage)

# c_program NAME SOURCE WORDS..: builds target/FOLDER/NAME of these words, FOLDER being the source's, unless it was made of
# just the same: words, files among them, compiler, the C files of FOLDER, and include/. Sets c_program to it.
c_program() {
    local program=$1 folder files from word
    folder=${2%/*}
    folder=${folder##*/}
    files=("$top/$folder"/*.[ch] include)
    shift
    for word in "$@"; do
        [ ! -f "$word" ] || files+=("$word")
    done
    from=$(fingerprint "$("$c_compiler" --version) ${c_flags[*]} $*" "${files[@]}")
    c_program=$top/target/$folder/$program
    lock
    if ! is_made "$program" "$c_program" "$from"; then
        say "compiling $program"
        { mkdir -p "$top/target/$folder" && c_build "$c_program" "$@"; } || fail "$program was not built"
        note_made "$program" "$c_program" "$from"
    fi
    unlock
}
