#!/usr/bin/env bash
# Runs the programs and the library on empty, random and huge input, and under valgrind, and holds what they answer equal to the reference's.
#   harness/robust.sh           a minute or two, as tools/test runs it
#   harness/robust.sh --long    some fifteen minutes on two processors: more inputs, longer ones
# Needs the built harness, client and programs. Prints one line for each check and at the end 'N passed, M failed'.
set -u
case "$*" in
    '') memory=4000 random=500000 huge=16000000 lines=8000 ;;
    --long) memory=100000 random=8000000 huge=512000000 lines=200000 ;;
    *) echo "usage: harness/robust.sh [--long]" >&2; exit 2 ;;
esac
. "$(dirname "$0")/checks.sh"
need "$desk" "$camp"

# Leaks of every kind count as errors; what valgrind says goes to a file of its own.
faults=99
watched=(valgrind -q --error-exitcode=$faults --leak-check=full --show-leak-kinds=all --errors-for-leak-kinds=all --log-file="$work/%p.valgrind")

# Valgrind is there, or can be installed, and runs.
ensure_valgrind() {
    command -v valgrind >/dev/null || { [ "$(id -u)" -eq 0 ] && apt-get update && apt-get install -y valgrind; } >/dev/null 2>&1
    valgrind -q --error-exitcode=$faults true 2>/dev/null
}

# said NAME: what valgrind said is nothing.
said() {
    local log
    for log in "$work"/*.valgrind; do
        if [ -s "$log" ]; then
            grep -a -m 12 . "$log"
            rm -f "$work"/*.valgrind
            fail "$1" "valgrind reports a fault"
            return 1
        fi
    done
    rm -f "$work"/*.valgrind
}

# clean NAME EXPECTED INPUT COMMAND..: under valgrind, without a fault and with this output.
clean() {
    local name=$1 expected=$2 input=$3
    shift 3
    prints "$name" "$expected" "$input" "${watched[@]}" "$@"
    said "$name"
}

# refuses NAME STATUS COMMAND..: under valgrind, without a fault and with this exit.
refuses() {
    local name=$1 wanted=$2
    shift 2
    "${watched[@]}" "$@" >"$work/out" 2>"$work/err"
    local status=$?
    said "$name" || return
    if [ $status -ne "$wanted" ]; then fail "$name" "exit $status, not $wanted"; else ok "$name"; fi
}

# told NAME WORDS FILE COMMAND..: camp, run so, tells of the file by its command and options WORDS what it tells otherwise, with the same exit.
told() {
    local name=$1 word=$2 input=$3 wanted status
    shift 3
    # shellcheck disable=SC2086
    "$camp" $word "$input" >"$work/want" 2>"$work/want.err"
    wanted=$?
    # shellcheck disable=SC2086
    "$@" $word "$input" >"$work/out" 2>"$work/err"
    status=$?
    if [ $status -ne $wanted ] || ! cmp -s "$work/want.err" "$work/err"; then
        fail "$name" "exit $status, not $wanted, $(head -c 300 "$work/err" | tr '\n' ' ')"
    else
        same "$name" "$work/want" "$work/out"
    fi
}

# clean_told NAME WORDS FILE: the same under valgrind, without a fault.
clean_told() {
    told "$1" "$2" "$3" "${watched[@]}" "$camp"
    said "$1"
}

# ran NAME INPUT COMMAND..: camp run, run so, prints of the pairs of an input what it prints otherwise, and keeps the same log.
ran() {
    local name=$1 input=$2
    shift 2
    rm -f "$work/ran.want" "$work/ran"
    "$camp" run --plain --log "$work/ran.want" --pairs "$input" </dev/null | sed 's/ran\.want/ran/' >"$work/want"
    "$@" run --plain --log "$work/ran" --pairs "$input" </dev/null >"$work/out" 2>"$work/err"
    if [ -s "$work/err" ] || ! cmp -s "$work/ran.want" "$work/ran"; then
        fail "$name" "another log, or $(head -c 300 "$work/err" | tr '\n' ' ')"
    else
        same "$name" "$work/want" "$work/out"
    fi
}

# clean_ran NAME INPUT: the same under valgrind, without a fault.
clean_ran() {
    ran "$1" "$2" "${watched[@]}" "$camp"
    said "$1"
}

# driven HOW CAMP WHAT..: a part of run_desk.py with a camp that is watched, its checks counted.
driven() {
    local how=$1 program=$2 status
    shift 2
    timeout 600 python3 harness/run_desk.py "$program" "$@" >"$work/told" 2>&1
    status=$?
    sed "s/^\(ok\|FAIL\) /\1 camp run $how: /" "$work/told"
    passed=$((passed + $(grep -c '^ok ' "$work/told")))
    failed=$((failed + $(grep -c '^FAIL ' "$work/told")))
    [ $status -eq 0 ] || fail "camp run $how: run_desk.py $1" "exit $status"
}

# The running desk under valgrind: its console, keypads, log, a slow disk, and the screen in a pseudo-terminal. What ncurses itself
# keeps until the end is named in harness/ncurses.supp.
running() {
    local part
    { echo '#!/usr/bin/env bash'; printf '%q ' exec "${watched[@]}" --suppressions="$PWD/harness/ncurses.supp" "$camp"; echo '"$@"'; } >"$work/watched"
    chmod +x "$work/watched"
    for part in console inputs limit "saving $disk" terminal 'screen 80 24'; do
        # shellcheck disable=SC2086
        driven "under valgrind" "$work/watched" $part
        said "camp run under valgrind: ${part%% *}"
    done
}

# expect INPUT: what desk, camp cif and the client must print for the input.
expect() {
    "$harness" desk-answers <"$1" >"$work/want.desk"
    "$harness" cif-answers 0 camp-1 <"$1" >"$work/want.cif"
    "$harness" cif-answers 1 camp-1 <"$1" >"$work/want.visitors.cif"
    "$harness" client-answers <"$1" >"$work/want.wall"
}

# every_program HOW NAME INPUT: the three programs on one input.
every_program() {
    expect "$3"
    "$1" "desk: $2" "$work/want.desk" "$3" "$desk"
    "$1" "camp cif: $2" "$work/want.cif" "$3" "$camp" cif camp-1
    "$1" "camp cif, sheet 1: $2" "$work/want.visitors.cif" "$3" "$camp" cif --sheet 1 camp-1
    "$1" "wall_screen: $2" "$work/want.wall" "$3" "$client"
}

# typed BYTES: the stored sessions again and again, so many bytes.
typed() {
    while cat harness/desk-sessions/*.in; do :; done 2>/dev/null | head -c "$1"
}

# The library of a disk that is slow.
slow_disk() {
    disk=$work/sync_fails.so
    gcc -std=c11 -O1 -Wall -Wextra -Werror -shared -fPIC harness/sync_fails.c -o "$disk" || fail "camp run: a slow disk" "the library for it is not built"
}

inputs() {
    : >"$work/empty"
    printf '\0' >"$work/zero"
    head -c "$random" /dev/urandom >"$work/random"
    head -c 4000 "$work/random" >"$work/few"
    head -c "$huge" /dev/urandom >"$work/huge"
    typed $((huge / 10)) >"$work/typed"
    head -c "$huge" /dev/zero >"$work/zeros"
    "$harness" client-lines 21 "$lines" >"$work/lines"
    "$harness" client-values 22 "$lines" >"$work/values"
    "$harness" operator-lines 23 $((lines / 4)) >"$work/operators"
    yes x,y,z | head -n 300 >"$work/many"
    "$camp" record harness/desk-sessions/two_camps.in "$work/log.log"
    head -c 40 "$work/log.log" >"$work/cut.log"
    { cat "$work/log.log"; head -c 300 "$work/random"; } >"$work/other.log"
    for _ in $(seq 9363); do printf '\007\0\001\0\002\0041'; done >"$work/long.log"
    printf '%s\n' '# a group' x,y,z -x,1/2+y,1/2-z '' -x,-y,-z x,-y-1/2,z+1/2 >"$work/group"
}

# Without valgrind: each program on much input.
unwatched() {
    every_program prints "no input" "$work/empty"
    every_program prints "$huge random bytes" "$work/huge"
    every_program prints "$huge zeros" "$work/zeros"
    every_program prints "$((huge / 10)) bytes of sessions" "$work/typed"
}

# The C clients compiled with gcc's own checks of memory and arithmetic, which see their arrays too.
sanitized() {
    local checks=(-std=c11 -O1 -g -Iinclude -fsanitize=address,undefined -fno-sanitize-recover=all) libraries=${PROVED_LIBS:-target/staticlib} input
    if ! gcc "${checks[@]}" client/camp/*.c "$libraries"/libexport_{desk,symmetry}.a -lncurses -lpthread -o "$work/camp" 2>/dev/null ||
        ! gcc "${checks[@]}" client/wall_screen.c "$libraries/libexport_wall.a" -o "$work/wall_screen" 2>/dev/null; then
        echo "skipped: the C clients with gcc's checks (its libraries for them are not there)"
        return
    fi
    for input in harness/desk-sessions/*.in; do
        prints "camp cif with gcc's checks: $(basename "$input" .in)" "${input%.in}.cif" "$input" "$work/camp" cif camp-1
        told "camp refusals with gcc's checks: $(basename "$input" .in)" refusals "$input" "$work/camp"
        told "camp who with gcc's checks: $(basename "$input" .in)" 'who --session' "$input" "$work/camp"
        "$camp" record "$input" "$work/log"
        told "camp history with gcc's checks: $(basename "$input" .in)" 'history --json' "$work/log" "$work/camp"
        told "camp report with gcc's checks: $(basename "$input" .in)" 'report --json' "$work/log" "$work/camp"
    done
    expect "$work/random"
    prints "camp cif with gcc's checks: $random random bytes" "$work/want.cif" "$work/random" "$work/camp" cif camp-1
    told "camp refusals with gcc's checks: $random random bytes" refusals "$work/random" "$work/camp"
    told "camp who with gcc's checks: $random random bytes" 'who --session' "$work/random" "$work/camp"
    for input in log cut other long; do
        told "camp history with gcc's checks: log $input" history "$work/$input.log" "$work/camp"
        told "camp who with gcc's checks: log $input" 'who --json' "$work/$input.log" "$work/camp"
    done
    ran "camp run with gcc's checks: 4000 random bytes" "$work/few" "$work/camp"
    ran "camp run with gcc's checks: two camps" harness/desk-sessions/two_camps.in "$work/camp"
    for input in console inputs torn limit terminal 'screen 80 24' 'screen 20 10' 'screen 12 3'; do
        # shellcheck disable=SC2086
        driven "with gcc's checks" "$work/camp" $input
    done
    # The library of a slow disk stands before that of the checks.
    ASAN_OPTIONS=verify_asan_link_order=0 driven "with gcc's checks" "$work/camp" saving "$disk"
    for input in random operators many group; do
        told "camp symmetry with gcc's checks: $input" symmetry "$work/$input" "$work/camp"
    done
    prints "wall_screen with gcc's checks: $random random bytes" "$work/want.wall" "$work/random" "$work/wall_screen"
    "$harness" client-answers <"$work/lines" >"$work/want"
    prints "wall_screen with gcc's checks: $lines lines" "$work/want" "$work/lines" "$work/wall_screen"
}

# A read one byte beyond what is lent is seen, so the runs below can see one.
fault_is_seen() {
    cat >"$work/fault.c" <<'END'
#include <stdlib.h>
#include <string.h>
#include "wall.h"
int main(void)
{
    uint8_t *line = malloc(26);
    memcpy(line, "_refine_ls_R_factor_gt 0.1", 26);
    int answer = wall_classify(line, 27) == 9;
    free(line);
    return answer;
}
END
    gcc -std=c11 -O1 -w -Iinclude "$work/fault.c" "${PROVED_LIBS:-target/staticlib}/libexport_wall.a" -o "$work/fault"
    "${watched[@]}" "$work/fault"
    local status=$?
    rm -f "$work"/*.valgrind
    if [ $status -eq $faults ]; then ok "valgrind sees a read beyond the lent bytes"; else fail "valgrind sees a read beyond the lent bytes" "exit $status"; fi
}

programs() {
    local input name
    every_program clean "no input" "$work/empty"
    every_program clean "one zero" "$work/zero"
    every_program clean "$random random bytes" "$work/random"
    typed $((random / 10)) >"$work/short"
    every_program clean "$((random / 10)) bytes of sessions" "$work/short"
    for input in harness/desk-sessions/*.in; do
        name=$(basename "$input" .in)
        clean "desk: $name" "${input%.in}.out" "$input" "$desk"
        clean "camp cif: $name" "${input%.in}.cif" "$input" "$camp" cif camp-1
    done
    clean_told "camp refusals: refused lines" refusals harness/desk-sessions/refused_lines.in
    clean_told "camp refusals: $random random bytes" refusals "$work/random"
    for input in all_items overwritten two_camps log_filled_to_its_end empty; do
        clean_told "camp who: $input" 'who --session' harness/desk-sessions/$input.in
    done
    for input in log cut other long; do
        clean_told "camp report: log $input" report "$work/$input.log"
        clean_told "camp who: log $input" 'who --json' "$work/$input.log"
        clean_told "camp cif: log $input" 'cif x --log' "$work/$input.log"
    done
    for input in log cut other; do
        clean_told "camp history: log $input" history "$work/$input.log"
    done
    for input in two_camps refused_lines all_items; do
        clean_ran "camp run: $input" harness/desk-sessions/$input.in
    done
    clean_ran "camp run: 4000 random bytes" "$work/few"
    for input in short operators many group empty; do
        clean_told "camp symmetry: $input" symmetry "$work/$input"
    done
    "$harness" client-answers <"$work/lines" >"$work/want"
    clean "wall_screen: $lines lines" "$work/want" "$work/lines" "$client"
    "$harness" client-answers 6 <"$work/values" >"$work/want"
    clean "wall_screen: $lines values" "$work/want" "$work/values" "$client" --row 6
}

refusals() {
    local first=harness/desk-sessions/document_01.in
    refuses "camp cif: FILE" 0 "$camp" cif camp-1 "$work/a.cif" <$first
    refuses "camp cif: bad block name" 1 "$camp" cif camp_1 <$first
    refuses "camp cif: input cannot be read" 1 "$camp" cif camp-1 <.
    refuses "camp cif: no such folder" 1 "$camp" cif camp-1 "$work/none/a.cif" <$first
    refuses "camp cif: no argument" 2 "$camp" cif <$first
    refuses "camp cif: no such sheet" 1 "$camp" cif --sheet 2 camp-1 <$first
    refuses "camp cif: no number of a sheet" 2 "$camp" cif camp-1 --sheet x <$first
    refuses "camp refusals: no such file" 1 "$camp" refusals "$work/none"
    refuses "camp who: an item by its name" 0 "$camp" who --session $first _REFINE_LS_R_FACTOR_GT
    refuses "camp who: an empty item" 1 "$camp" who --session $first 10
    refuses "camp who: no such item" 2 "$camp" who --session $first _a
    refuses "camp who: a sheet" 0 "$camp" who --sheet 0 --session $first 4
    refuses "camp who: no such sheet" 1 "$camp" who --sheet 2 --session $first
    refuses "camp record: LOG" 0 "$camp" record $first "$work/a.log"
    refuses "camp record: no such folder" 1 "$camp" record $first "$work/none/a.log"
    refuses "camp report: no such log" 1 "$camp" report "$work/none"
    refuses "camp history: a log that cannot be read" 1 "$camp" history .
    refuses "camp run: the log is a folder" 1 "$camp" run --plain --log "$work" --pairs $first </dev/null
    printf '\n\0\001' >"$work/torn"
    refuses "camp run: a torn record" 0 "$camp" run --plain --log "$work/torn" --pairs $first </dev/null
    refuses "camp run: no input" 2 "$camp" run --log "$work/ran" </dev/null
    refuses "camp symmetry: no such file" 1 "$camp" symmetry "$work/none"
    refuses "camp symmetry: a product missing" 1 "$camp" symmetry < <(printf 'x,y,z\n-y,x,z\n')
    refuses "camp symmetry: two arguments" 2 "$camp" symmetry a b
    refuses "camp: no such command" 2 "$camp" xyz
    refuses "camp help" 0 "$camp" help
    refuses "wall_screen: unknown option" 2 "$client" --rwo 6
    refuses "wall_screen: input cannot be read" 1 "$client" <.
}

valgrind_runs=
if ensure_valgrind; then
    valgrind_runs=1
    # The comparison under valgrind, which takes the longest, beside all else.
    part library summary "library: lent blocks of exact length" valgrind -q --error-exitcode=$faults "$harness" memory --count "$memory"
fi
inputs
slow_disk
unwatched
sanitized
if [ -n "$valgrind_runs" ]; then
    fault_is_seen
    programs
    running
    refusals
    parts_ended
else
    echo "skipped: runs under valgrind (it is not there, and cannot be installed)"
fi
finish
