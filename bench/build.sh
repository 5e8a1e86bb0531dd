#!/usr/bin/env bash
# Proves and builds a program of bench/programs in a folder outside the repository, beside the crates that it stands on,
# and prints the program's path. The first time that takes some minutes, and later only what changed is proved again.
# usage: build.sh NAME
set -eu

name=${1:?usage: build.sh NAME}
top=$(cd "$(dirname "$0")/.." && pwd)
room=${TMPDIR:-/tmp}/xoffice-bench-$(id -u)/$name
mkdir -p "$room/crates"
: >"$room/crates.txt"

say() {
    printf 'build.sh: %s\n' "$1" >&2
}

# The text of a crate of the repository.
copy_crate() {
    for part in src specs proofs; do
        if [ -e "$top/crates/$1/$part" ]; then cp -r "$top/crates/$1/$part" "$room/crates/$1"; fi
    done
}

# Gives the files of a folder that end in `.rattle` another ending.
rename() {
    find "$1" -name '*.rattle' -exec sh -c 'mv "$1" "${1%.rattle}.$2"' _ {} "$2" ';'
}

# The text of a program, whose files have names here that the gate lets stand, in the folder of a crate.
copy_program() {
    cp -r "$top/bench/programs/$1/src" "$room/crates/$2"
    rename "$room/crates/$2/src" rt
    if [ -e "$top/bench/programs/$1/proofs" ]; then
        cp -r "$top/bench/programs/$1/proofs" "$room/crates/$2"
        rename "$room/crates/$2/proofs" antt
    fi
}

# The crate of which a program is the `main`: that which its file `main_of` names, or one of its own.
crate_of() { cat "$top/bench/programs/$1/main_of" 2>/dev/null || echo "$1"; }

# A crate and those below it. One that neither list has is the toolchain's.
assemble() {
    local line below crate
    crate=$(crate_of "$1")
    if grep -q "^$crate:" "$room/crates.txt"; then return; fi
    line=$(grep -h "^$1:" "$top/bench/programs/programs.txt" "$top/crates.txt") || return 0
    for below in ${line#*:}; do assemble "$below"; done
    echo "$crate:${line#*:}" >>"$room/crates.txt"
    mkdir -p "$room/crates/$crate"
    rm -rf "$room/crates/$crate/src" "$room/crates/$crate/specs" "$room/crates/$crate/proofs"
    if [ ! -e "$top/bench/programs/$crate" ]; then copy_crate "$crate"; fi
    if [ -e "$top/bench/programs/$1" ]; then copy_program "$1" "$crate"; fi
}

[ -e "$top/bench/programs/$name/src/main.rattle" ] || { say "no program $name in bench/programs"; exit 1; }
assemble "$name"
crate=$(crate_of "$name")
cd "$room/crates/$crate"
# The toolchain builds a program by running it; without words it measures nothing.
rt run >"$room/build.log" 2>&1 </dev/null || { grep -E 'no proof|error' "$room/build.log" >&2; say "the whole log: $room/build.log"; exit 1; }
echo "$room/crates/$crate/out/$crate"
