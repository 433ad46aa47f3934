#!/usr/bin/env bash
# Tries the planted bugs that the gate leaves out, crates/NAME/more-edits/*.edit: the prover must refuse each.
#
# usage: tests/more_edits.sh [CRATE..]
#
# With no CRATE it tries those of each crate that has some. Proofs that lie in the folders out/ are taken up. Status 0: each was
# refused; 1: one was not.
set -eu
cd "$(dirname "$0")/.."
status=0
python3 tools/planted.py --set more-edits "$@" || status=$?
[ "$status" = 2 ] || exit "$status"

# This kit isn't the one that the script knows: by the kit's own command, one check for each, in a copy where they stand in the place
# of must-fail/*.edit.
room=$(mktemp -d)
trap 'rm -rf "$room"' EXIT
cp -a crates.txt HANDLES crates "$room"
cd "$room"
rm -rf crates/*/must-fail
for folder in crates/*/more-edits; do
  mv "$folder" "${folder%/*}/must-fail"
done
rt must-fail "$@" || exit 1
