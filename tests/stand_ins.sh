# shellcheck shell=bash disable=SC2034,SC2154
# A copy of the project with stand-ins for the tools that its scripts call, so that a test can choose the machine, let a
# tool be missing, and see what is built without a proof. To be sourced after scripts/shell.sh.
#
#   room      a temporary folder, with the stand-ins' own files: `called` has each call of rt, a compiler and the emulator
#   copy      the copy in it; its path has a blank
#   machine WORD    sets what `uname -m` says
#   in_copy WORDS..   runs a command in the copy, with the stand-ins alone
#   try WORDS..       the same: leaves its exit status in `status`, what it wrote in $room/out and $room/err
#
# The stand-in rt runs $room/during, where there is one, in the middle of a build. It makes no library where there is
# $room/makes_nothing, and ends the gate with the lines of $room/verdict, if any. What it links as a program of the commands runs
# $room/says. In `called` a call in a crate's folder stands with the crate's name.

room=$(mktemp -d) || fail "no temporary folder can be made"
trap 'rm -rf "$room"' EXIT
copy="$room/a copy"
tools=$room/tools

# stand_in FILE: makes it a script, of standard input; a link goes, and not what it leads to.
stand_in() {
    { rm -f "$1" && { echo '#!/bin/sh' && cat; } >"$1" && chmod +x "$1"; } || fail "$room cannot be written"
}

# compilers NAME..: each makes a program that says how it is run.
compilers() {
    local compiler
    for compiler in "$@"; do
        stand_in "$tools/$compiler" <<'EOT'
case $1 in --version | -print*) cat "$ROOM/compiler" && exit ;; esac
{ printf '%s' "${0##*/}" && printf ' <%s>' "$@" && echo; } >>"$ROOM/called"
while [ $# -gt 0 ]; do
    [ "$1" != -o ] || out=$2
    shift
done
printf '#!/bin/sh\necho "ran ${0##*/} $*"\n' >"${out-a.out}" && chmod +x "${out-a.out}"
EOT
    done
}

# emulator FILE: runs the program, and says that it does.
emulator() {
    stand_in "$1" <<'EOT'
echo "${0#"$ROOM"/} ${1##*/}" >>"$ROOM/called"
exec "$@"
EOT
}

make_tools() {
    local tool
    mkdir "$tools" || return
    for tool in awk bash cat chmod cmp cp cut date diff dirname env find flock grep head id ln ls mkdir mktemp mv od readlink \
        rm sed seq sh sha256sum sleep sort tail tee touch tr wc; do
        ln -s "$(command -v "$tool")" "$tools/$tool" || return
    done
    compilers gcc cc x86_64-linux-gnu-gcc
    stand_in "$tools/uname" <<'EOT'
cat "$ROOM/machine"
EOT
    mkdir -p "$room/kit/bin" && ln -s ../kit/bin/rt "$tools/rt" || return
    stand_in "$room/kit/bin/rt" <<EOT
programs='${programs[*]}'
EOT
    cat >>"$room/kit/bin/rt" <<'EOT'
link() {
    mkdir -p "$1/out" && printf '#!/bin/sh\n. "$ROOM/says"\n' >"$1/out/$2" && chmod +x "$1/out/$2"
}
[ "$1" != version ] || { echo stand-in && exit; }
crate=
case $PWD in */crates/*) crate=${PWD##*/} ;; esac
echo "rt $*${crate:+ $crate}" >>"$ROOM/called"
[ ! -x "$ROOM/during" ] || "$ROOM/during" || exit
case $1 in
    ci)
        for crate in $programs; do
            link "crates/$crate" "$crate"
        done
        cat "$ROOM/verdict" 2>/dev/null || { echo "rt: ok; must-fail edits: 1 refused; all in this run" && echo "2 passed, 0 failed"; }
        ;;
    lib)
        mkdir -p out
        [ "$crate" != editor_c ] || [ -e "$ROOM/makes_nothing" ] || cat ../*/src/*.rt >out/libeditor_c.a
        echo "logic=proved functions=1"
        ;;
    run) link . "$crate" && echo "logic=proved functions=1" && "./out/$crate" ;;
esac
EOT
}

# The toolchain's C library, beside rt.
make_kit() {
    mkdir -p "$room/kit/toolchain/lib" || return
    stand_in "$room/kit/toolchain/lib/ld-linux-x86-64.so.2" <<'EOT'
shift 2 && exec "$@"
EOT
}

make_copy() {
    local crate
    mkdir "$copy" || return
    cp -R "$top"/{.ci,compare,crates.txt,examples,include,mishtodran,scripts,tests} "$copy" || return
    sed -n 's/^\([a-z_]*\)[a-z ]*:.*/\1/p' "$top/crates.txt" | while read -r crate; do
        { mkdir -p "$copy/crates/$crate/src" && echo "$crate" >"$copy/crates/$crate/src/lib.rt"; } || return
    done
}

machine() {
    echo "$1" >"$room/machine"
}

in_copy() {
    (cd "$copy" && exec env -i PATH="$tools" HOME="$room" ROOM="$room" "$@" </dev/null)
}

try() {
    in_copy "$@" >"$room/out" 2>"$room/err"
    status=$?
}

{ make_tools && make_kit && make_copy; } || fail "$room cannot be written"
machine x86_64
echo "stand-in 1" >"$room/compiler"
echo "echo a report" >"$room/says"
: >"$room/called"
