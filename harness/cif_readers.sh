#!/usr/bin/env bash
# Writes files of typed sheets and reads them with programs of others: gemmi, installed by apt-get if it is missing, and
# cod-tools and PyCIFRW where they are. What cannot be had is skipped, and not counted.
# Needs the built harness (build/cargo/release/harness). Ends with 'N passed, M failed'.
set -u
cd "$(dirname "$0")/.." || exit 2

harness=$PWD/build/cargo/release/harness
[ -x "$harness" ] || { echo "$harness is missing: build it first" >&2; exit 2; }
. harness/gemmi.sh
if [ ! -x "$python" ]; then
    echo "skipped: readers of CIF (no $python)"
    echo "0 passed, 0 failed"
    exit 0
fi
"$harness" cif-files 16 400 "$work" || exit 1
"$python" harness/cif_readers.py "$work"
