#!/bin/sh
# States that must not be mixed: the compiler refuses each line of the programs beside this script that ends with
# `//~ ERROR`, by that error, and no other line. It accepts accepted.program, which prints `strong`.
# The programs stand beside the crates, in a folder of their own, and are compiled without a proof.
set -eu
here=$(cd "$(dirname "$0")" && pwd)
top=$(cd "$here/../.." && pwd)

work=$(mktemp -d)
trap 'rm -rf "$work"' EXIT
crates="scale logic catalogue"
for crate in $crates; do
    mkdir -p "$work/crates/$crate"
    for part in src specs proofs; do
        cp -R "$top/crates/$crate/$part" "$work/crates/$crate/$part"
    done
    grep "^$crate:" "$top/crates.txt" >>"$work/crates.txt"
done
mkdir -p "$work/crates/program/src"
echo "program: $crates anyhow" >>"$work/crates.txt"

# Compiles a program, and leaves what the compiler said in $work/said.
compile() {
    cp "$here/$1" "$work/crates/program/src/main.rt"
    (cd "$work/crates/program" && rt try) >"$work/said" 2>&1
}

if ! compile accepted.program || ! grep -qx strong "$work/said"; then
    echo "types: accepted.program is not accepted"
    cat "$work/said"
    exit 1
fi

# A line with its error, as `9 unknown-method`; a line that gets one error twice counts once. Whatever else the compiler
# calls an error is compared as it stands, and so is one too many.
for path in "$here"/*.program; do
    program=$(basename "$path")
    if [ "$program" = accepted.program ]; then
        continue
    fi
    if compile "$program"; then
        echo "types: $program is accepted"
        exit 1
    fi
    grep -n '//~' "$path" |
        sed -E 's|^([0-9]+):.*//~ ([a-z0-9-]+)$|\1 \2|' | sort -u >"$work/wanted"
    grep -E '(^|: )error' "$work/said" |
        sed -E 's|^src/main.rt:([0-9]+):[0-9]+: error\[([^]]*)\].*|\1 \2|' | sort -u >"$work/found"
    if ! [ -s "$work/wanted" ] || ! cmp -s "$work/wanted" "$work/found"; then
        echo "types: $program is refused otherwise than its lines say"
        diff "$work/wanted" "$work/found" || true
        cat "$work/said"
        exit 1
    fi
    echo "types: $program: $(wc -l <"$work/wanted") lines refused, as they say"
done
