#!/usr/bin/env bash
# Holds the constants of include/desk.h against the proved library: by what its functions do (desk_layout.c), and the number of rows, which a result
# cannot tell, by the source. Needs libexport_desk.a. Prints what is wrong and exits with 1, or prints nothing.
set -u
cd "$(dirname "$0")/.." || exit 2
archive=${PROVED_LIBS:-target/staticlib}/libexport_desk.a
program=$(mktemp) || exit 2
trap 'rm -f "$program"' EXIT
gcc -std=c11 -O2 -Wall -Wextra -Werror -pedantic -Iinclude harness/desk_layout.c "$archive" -o "$program" || exit 2
status=0
"$program" || status=1
rows=$(sed -n 's/^pub const ROW_COUNT: usize = \([0-9]*\);$/\1/p' crates/rows/src/lib.rt)
grep -qx "#define DESK_ROWS $rows" include/desk.h || { echo "desk_layout: the report has $rows rows"; status=1; }
exit $status
