#!/usr/bin/env bash
# Reads the operators of all settings of the space groups that gemmi has, which apt-get installs if it is missing, and checks their lists, whole and
# damaged: by the proved library, the reference, camp symmetry, and gemmi's own products. Without gemmi that is skipped, and not counted.
# Needs the built harness and camp (build/cargo/release/harness, target/bin/camp). Ends with 'N passed, M failed'.
set -u
cd "$(dirname "$0")/.." || exit 2

harness=$PWD/build/cargo/release/harness
camp=$PWD/target/bin/camp
for program in "$harness" "$camp"; do
    [ -x "$program" ] || { echo "$program is missing: build it first" >&2; exit 2; }
done
. harness/gemmi.sh
if ! has_gemmi; then
    echo "skipped: operators of the space groups (no gemmi)"
    echo "0 passed, 0 failed"
    exit 0
fi
"$python" harness/space_groups.py "$harness" "$camp"
