#!/bin/sh
# Tries the edits that the gate leaves out:
#
#     sh gate/edits.sh RT [CRATE]
#
# `rt must-fail` tries them in a copy of the crates and of what is proved, where they replace the
# gate's edits.
if [ $# -gt 2 ] || [ -z "$1" ] || [ ! -d "$(dirname "$0")/edits/$2" ]; then
    echo "usage: make edits [CRATE=name], with the name of a folder in gate/edits" >&2
    exit 2
fi
cd "$(dirname "$0")/.." || exit 2
copy=$(mktemp -d) || exit 2
trap 'rm -rf "$copy"' EXIT
trap 'exit 1' INT TERM
cp crates.txt HANDLES "$copy" || exit 2
for part in crates/*/src crates/*/specs crates/*/proofs crates/*/out; do
    [ -d "$part" ] || continue
    mkdir -p "$copy/${part%/*}" && cp -a "$part" "$copy/$part" || exit 2
done
for edits in gate/edits/*; do
    cp -R "$edits" "$copy/crates/${edits##*/}/must-fail" || exit 2
done
cd "$copy" && "$1" must-fail ${2:+"$2"}
