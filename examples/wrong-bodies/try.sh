#!/bin/sh
# Tries the wrong bodies of crates: try.sh NAME..
# Each is tried in a copy of the repository, and the prover must refuse it: the copy's crates get the edits that stand
# here in place of their own, and libraries that stand proved in crates/*/out are taken along (others are proved there).
here=$(cd "$(dirname "$0")" && pwd) || exit 2
top=$(cd "$here/../.." && pwd) || exit 2
for name in "$@"; do
    [ -d "$here/$name" ] || { echo "try.sh: no wrong body of $name stands here" >&2; exit 2; }
done
[ $# -gt 0 ] || { echo "try.sh NAME..: one or more of" $(cd "$here" && ls -d */ | tr -d /) >&2; exit 2; }
room=$(mktemp -d "$top.wrong-bodies.XXXXXX") || exit 2
trap 'rm -rf "$room"' EXIT
trap 'exit 130' INT TERM
cp "$top/crates.txt" "$top/HANDLES" "$room" || exit 2
for crate in "$top"/crates/*/; do
    copy=$room/crates/$(basename "$crate")
    mkdir -p "$copy/out" || exit 2
    for part in src specs proofs; do
        [ ! -d "$crate$part" ] || cp -a "$crate$part" "$copy" || exit 2
    done
    [ ! -d "${crate}out/rlib" ] || cp -al "${crate}out/rlib" "$copy/out" || exit 2
done
for name in "$@"; do
    mkdir "$room/crates/$name/must-fail" || exit 2
    cp "$here/$name"/*.edit "$room/crates/$name/must-fail" || exit 2
done
cd "$room" && rt must-fail "$@"
