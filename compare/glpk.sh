#!/usr/bin/env bash
# Fetches GLPK as a library for x86-64, from Debian's packages, into target/glpk and nowhere else, for compare/run.sh.
# Usage: compare/glpk.sh
set -u
name=glpk
# shellcheck source=scripts/shell.sh
. "$(dirname "$(readlink -f "${BASH_SOURCE[0]}")")/../scripts/shell.sh" || exit 2
[ $# = 0 ] || fail "usage: compare/glpk.sh"
[ ! -d "$top/target/glpk" ] || { say "it has been fetched" && exit; }
{ command -v apt-get && command -v dpkg-deb; } >/dev/null || fail "there is no apt-get here"

# apt with lists and packages of its own, so that nothing of the machine's changes.
apt() {
    apt-get -qq -o APT::Architecture=amd64 -o APT::Architectures=amd64 -o APT::Sandbox::User="$(id -un)" \
        -o Dir::State="$room/state" -o Dir::State::status="$room/status" -o Dir::Cache="$room/cache" "$@"
}

fetch() {
    local deb
    mkdir -p "$room/state/lists/partial" "$room/cache/archives/partial" "$room/debs" && : >"$room/status" || return
    apt update && cd "$room/debs" || return
    apt download libglpk-dev libgmp-dev libsuitesparse-dev libltdl-dev zlib1g-dev || return
    for deb in "$room"/debs/*.deb; do
        dpkg-deb -x "$deb" "$room/unpacked" || return
    done
    mv "$room/unpacked" "$top/target/glpk"
}

mkdir -p "$top/target" || fail "$top/target cannot be written"
room=$(mktemp -d "$top/target/glpk.XXXXXX") || fail "$top/target cannot be written"
trap 'rm -rf "$room"' EXIT
say "fetching Debian's packages"
said=$(fetch 2>&1 </dev/null) || fail "GLPK cannot be fetched: $said"
say "it is in target/glpk"
