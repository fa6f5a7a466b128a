#!/usr/bin/env bash
# Tries the wrong bodies that the gate leaves out: the edits of crates/NAME/wrong, which the prover must refuse just as
# those of crates/NAME/must-fail.
#
#   bash .ci/edits.sh [NAME...]
#
# NAME is a crate, and each that has a folder wrong where none is given. The edits are tried on a copy of the tree, over
# what `rt check` kept on this machine: some 10 to 25 seconds each, and a proof of the crate where nothing was kept. Its
# status is 0 where each was refused.
set -u
[ "${1-}" != --help ] || { sed -n '2,/^[^#]/s/^# \{0,1\}//p' "$0"; exit; }

here=$(cd "$(dirname "$0")/.." && pwd)
folder=$(mktemp -d)
trap 'rm -rf "$folder"' EXIT
if [ $# = 0 ]; then
    cd "$here/crates" || exit 1
    for wrong in */wrong; do set -- "$@" "${wrong%/wrong}"; done
fi

tar -C "$here" --exclude=out -cf - crates crates.txt HANDLES | tar -C "$folder" -xf -
mkdir "$folder/.git"
cd "$folder" || exit 1
for name in "$@"; do
    rm -rf "crates/$name/must-fail"
    mv "crates/$name/wrong" "crates/$name/must-fail" || exit 1
done
rt must-fail "$@"
