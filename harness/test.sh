#!/usr/bin/env bash
# Tests the C boundary, headers, client, trace and comparison, and the program desk; camp has a test of its own, camp.sh.
#   harness/test.sh               all of it
#   harness/test.sh boundary      headers, client, trace and desk
#   harness/test.sh comparison    the comparison with the reference, and its self-check
#   harness/test.sh mutants       the comparison with mutants of the reference, on all processors
# Needs the built harness, client and program (build/cargo/release/harness, build/wall_screen, target/bin/desk).
# Prints one line for each check and at the end 'N passed, M failed'.
set -u
case "$*" in
    '') wanted=(boundary comparison mutants) ;;
    boundary | comparison | mutants) wanted=("$1") ;;
    *) echo "usage: harness/test.sh [boundary | comparison | mutants]" >&2; exit 2 ;;
esac
. "$(dirname "$0")/checks.sh"
need "$desk"
warnings=(-Wall -Wextra -Werror -pedantic)

# compiles NAME COMMAND..: the compiler takes it without a word.
compiles() {
    local name=$1 words
    shift
    if words=$("$@" 2>&1) && [ -z "$words" ]; then ok "$name"; else fail "$name" "$(head -n 1 <<<"$words")"; fi
}

headers() {
    local name source='#include "wall.h"
#include "desk.h"
#include "symmetry.h"
#include "probe.h"
#include "wall.h"
#include "desk.h"
#include "symmetry.h"
#include "probe.h"
uint8_t ask(uint8_t *texts, size_t *numbers, uint8_t *log);
uint8_t ask(uint8_t *texts, size_t *numbers, uint8_t *log)
{
    return (uint8_t)(wall_classify(texts, 0) + probe_item(texts, 0) + desk_fresh(texts, DESK_TEXTS, numbers, DESK_NUMBERS) +
                     desk_key(texts, DESK_TEXTS, numbers, DESK_NUMBERS, log, 0, 0, 10) +
                     desk_report(texts, DESK_TEXTS, numbers, DESK_NUMBERS, 0, 1).rows[DESK_ROWS - 1].level +
                     desk_hydrogens_right(texts, DESK_TEXTS, numbers, DESK_NUMBERS, 0, desk_hydrogens(texts, DESK_TEXTS, numbers, DESK_NUMBERS, 0).count).answer +
                     desk_who(texts, DESK_TEXTS, numbers, DESK_NUMBERS, 1, 1).bench +
                     desk_file(texts, DESK_TEXTS, numbers, DESK_NUMBERS, 0, log, 0, log, 0).answer +
                     desk_feed(texts, DESK_TEXTS, numbers, DESK_NUMBERS, log, DESK_KEPT, numbers, DESK_STATE, texts, 0, 1).answer +
                     symmetry_check(symmetry_read(texts, 0).row, SYMMETRY_ROW).answer);
}'
    echo "$source" >"$work/headers.c"
    cp "$work/headers.c" "$work/headers.cc"
    compiles "headers as C" gcc -std=c11 "${warnings[@]}" -Iinclude -Iharness -c "$work/headers.c" -o "$work/headers.o"
    for name in client/*.c client/camp/*.c; do
        compiles "$name without warnings" gcc -std=c11 -O2 "${warnings[@]}" -Iinclude -c $name -o "$work/client.o"
    done
    if command -v g++ >/dev/null; then
        compiles "headers as C++" g++ -std=c++17 "${warnings[@]}" -Iinclude -Iharness -c "$work/headers.cc" -o "$work/headers++.o"
        nm -u "$work/headers++.o" | awk '{ print $2 }' | grep -E '^(wall|probe|desk|symmetry)_' | sort >"$work/symbols"
        printf '%s\n' desk_feed desk_file desk_fresh desk_hydrogens desk_hydrogens_right desk_key desk_report desk_who probe_item symmetry_check symmetry_read wall_classify >"$work/want"
        same "C names from C++" "$work/want" "$work/symbols"
    else
        echo "skipped: headers as C++ (no g++)"
    fi
}

# linking HEADING LIBRARY: the program below that heading of docs/LINKING.md prints what stands below it.
linking() {
    local archive=${PROVED_LIBS:-target/staticlib}/lib$2.a
    awk -v heading="## $1" '/^## / { on = $0 == heading } on' docs/LINKING.md >"$work/section"
    awk '/^    #include/ { on = 1 } /^[^ ]/ { on = 0 } on' "$work/section" | sed 's/^    //' >"$work/linking.c"
    awk '/^It prints/ { on = 1; next } on && /^[^ ]/ { exit } on && NF' "$work/section" | sed 's/^    //' >"$work/linking.out"
    compiles "LINKING, $1: the program without warnings" gcc -std=c11 -O2 "${warnings[@]}" -Iinclude "$work/linking.c" "$archive" -o "$work/linking"
    prints "LINKING, $1: the program prints what is told" "$work/linking.out" /dev/null "$work/linking"
}

# The sizes and offsets of the boundary's structs and the headers' numbers, as the harness has them, are C's.
layout() {
    "$harness" layout >"$work/layout"
    {
        printf '#include "%s"\n' wall.h desk.h symmetry.h probe.h
        awk '/^[A-Z]/ { print "_Static_assert(" $1 " == " $2 ", \"" $1 "\");"; next }
            { print "_Static_assert(sizeof(" $1 ") == " $2 ", \"" $1 "\");" }
            { for (at = 3; at < NF; at += 2) print "_Static_assert(offsetof(" $1 ", " $at ") == " $(at + 1) ", \"" $1 "." $at "\");" }' "$work/layout"
    } >"$work/layout.c"
    compiles "struct sizes and offsets, numbers of the headers" gcc -std=c11 "${warnings[@]}" -Iinclude -Iharness -c "$work/layout.c" -o "$work/layout.o"
    { grep -ho '^#define [A-Z_]* [(0-9A-Z]' include/*.h; grep -ho '^} [a-z_]*' include/*.h harness/probe.h; } | awk '{ print $2 }' | sort >"$work/want"
    awk '{ print $1 }' "$work/layout" | sort >"$work/out"
    same "every struct and number of the headers" "$work/want" "$work/out"
    runs "numbers of desk.h, by what the desk does" 0 '' '' bash harness/desk_layout.sh
}

client_arguments() {
    local no_row='not a row number (0 to 18446744073709551615)' word
    runs "client: unknown option" 2 '' $'wall_screen: argument 1 \'--rwo\': unknown option\n' "$client" --rwo 6
    runs "client: empty argument" 2 '' $'wall_screen: argument 1 \'\': unknown option\n' "$client" ''
    runs "client: row missing" 2 '' $'wall_screen: argument 2 missing: --row needs a row number\n' "$client" --row
    for word in x1 '' -6 +6 6.0 ' 6' 18446744073709551616 99999999999999999999; do
        runs "client: row '$word'" 2 '' "wall_screen: argument 2 '$word': $no_row"$'\n' "$client" --row "$word"
    done
    runs "client: argument after row" 2 '' $'wall_screen: argument 3 \'7\': nothing may follow\n' "$client" --row 6 7
    runs "client: argument after help" 2 '' $'wall_screen: argument 2 \'x\': nothing may follow\n' "$client" --help x
    runs "client: help" 0 $'usage: wall_screen [--row ROW | --help]\n' '' bash -c '"$1" --help | head -n 1' - "$client"
}

client_streams() {
    runs "client: empty input" 0 '' '' "$client" </dev/null
    runs "client: no newline at the end" 0 $'0 3\n6\n' '' "$client" < <(printf '_refine_ls_R_factor_gt 0.16\n_a 1')
    runs "client: a carriage return is a byte" 0 $'5\n' '' "$client" < <(printf '_refine_ls_R_factor_gt 0.16\r\n')
    runs "client: NUL bytes" 0 $'5\n5\n0 3\n' '' "$client" < <(printf '\0\n_refine_ls_R_factor_gt 0.16\0\n_refine_ls_R_factor_gt 0.16\n')
    runs "client: a line of a million bytes" 0 $'5\n6\n' '' "$client" < <(head -c 1000000 /dev/zero | tr '\0' x; printf '\n_a 1\n')
    runs "client: largest row" 0 $'6 0\n' '' "$client" --row 18446744073709551615 < <(echo 0.3)
    runs "client: input cannot be read" 1 '' $'wall_screen: standard input: Is a directory\n' env LC_ALL=C "$client" <.
    if [ -c /dev/full ]; then
        runs "client: output cannot be written" 1 '' $'wall_screen: standard output: No space left on device\n' \
            env LC_ALL=C bash -c 'echo x | "$1" >/dev/full' - "$client"
    fi
}

# client_agrees NAME FILE [ROW]: the client prints what the reference expects.
client_agrees() {
    "$harness" client-answers ${3+"$3"} <"$2" >"$work/want"
    "$client" ${3+--row "$3"} <"$2" >"$work/out"
    same "$1" "$work/want" "$work/out"
}

client_generated() {
    local row
    "$harness" client-lines 11 5000 >"$work/lines"
    client_agrees "client: 5000 generated lines" "$work/lines"
    head -c -1 "$work/lines" >"$work/open_end"
    client_agrees "client: the same without the last newline" "$work/open_end"
    "$harness" client-values 12 5000 >"$work/values"
    for row in 6 8 10 7 262; do
        client_agrees "client: 5000 generated values, row $row" "$work/values" "$row"
    done
}

# trace_table NAME [MODE]: 'COMMAND|ANSWER' lines from standard input, held against the proved library, or another mode.
trace_table() {
    tee "$work/table" | cut -d'|' -f1 | "$harness" "${2-trace}" >"$work/out"
    cut -d'|' -f2 "$work/table" >"$work/want"
    same "$1" "$work/want" "$work/out"
}

# Makes 'COMMAND|HEX OF TEXT|ANSWER' from 'COMMAND|TEXT|ANSWER'.
in_hex() {
    local command text answer hex
    while IFS='|' read -r command text answer; do
        hex=$(printf %s "$text" | od -An -v -tx1 | tr -d ' \n')
        echo "$command ${hex:--}|$answer"
    done
}

trace_examples() {
    in_hex >"$work/examples" <<'END'
grade 6|0.16|0 3
grade 6|0.20|0 3
grade 6|0.200001|0 4
grade 6|0.3|0 4
grade 8|0.2|0 0
grade 10|-0.05|0 0
grade 10|-0.06|0 2
grade 6|?|7 0
grade 6|.|7 0
grade 6|'0.3'|7 0
grade 6||7 0
grade 7|0.3|6 0
grade 7|?|6 0
grade 6|.16|0 3
grade 6|.200001(7)|0 4
grade 8|1.|0 4
grade 10|-.05(3)|0 0
grade 10|-1.(3)|0 4
grade 6|-.|7 0
grade 6|.(3)|7 0
grade 6|-.(3)|7 0
line|_refine_ls_R_factor_gt 0.16|0
line|_refine_ls_wR_factor_obs 0.2|0
line|_chemical_formula_sum 'C18 H19 N7 O8 S'|0
line|_reflns_threshold_expression 'F^2^ > 6\s(F^2^)'|0
line|_chemical_formula_sum ''|0
line||5
line|_refine_ls_R_factor_gt|5
line|_refine_ls_R_factor_gt LOOP_|5
line|_refine_ls_R_factor 0.16|6
line|_refine_ls_R_factor_gt '?'|7
line|_chemical_formula_weight 1234567890|7
line|_refine_ls_R_factor_gt .045|0
line|_chemical_formula_weight 45.|0
line|_refine_ls_shift/su_max -.5(3)|0
line|_chemical_formula_weight 123456789.|0
line|_refine_ls_R_factor_gt .|0
line|_refine_ls_R_factor_gt +.|7
line|_refine_ls_R_factor_gt .(3)|7
line|_chemical_formula_weight 1234567890.|7
line|_refine_ls_R_factor_gt .1234567|7
END
    trace_table "reference's trace: examples of the documents" reference-trace <"$work/examples"
    trace_table "trace: examples of the documents" <"$work/examples"
}

# The two commands of symmetry operators, each answer at least once.
symmetry() {
    local identity=1,0,0,0,1,0,0,0,1,0,0,0 inversion=-1,0,0,0,-1,0,0,0,-1,0,0,0 quarter=0,-1,0,1,0,0,0,0,1,0,0,6
    in_hex <<'END'
symop|x,y,z|0 1 0 0 0 1 0 0 0 1 0 0 0
symop|-y,x-y,z+1/3|0 0 -1 0 1 -1 0 0 0 1 0 0 8
symop|x-1/4,-7/8-z,5/6+y-x|0 1 0 0 0 0 -1 -1 1 0 18 3 20
symop|x,x,x|0 1 0 0 1 0 0 1 0 0 0 0 0
symop|x,y|13 0 0 0 0 0 0 0 0 0 0 0 0
symop|x+4/4,y,z|13 0 0 0 0 0 0 0 0 0 0 0 0
symop|x+x,y,z|13 0 0 0 0 0 0 0 0 0 0 0 0
symop||13 0 0 0 0 0 0 0 0 0 0 0 0
END
    echo "symlist $identity|0 1"
    echo "symlist $inversion,$identity|0 4"
    echo "symlist $identity,$quarter|17 4"
    echo "symlist $quarter,$identity|17 1"
    echo "symlist $identity,$inversion,$identity|16 0"
    echo "symlist $inversion,$inversion|15 0"
    echo "symlist -|15 0"
    echo "symlist 1,0,0,0,1,0,0,1,0,0,0,0|14 0"
    echo "symlist $identity,1|13 0"
    echo "symlist 2,${identity#1,}|13 0"
    echo "symlist ${identity%0}24|13 0"
    echo "symlist ${identity%0}-1|13 0"
    echo "symlist 256,${identity#1,}|13 0"
    echo "symlist ${identity%0}-99999999999999999999999999|13 0"
    echo "symlist $(yes $identity | head -n 193 | paste -sd ,)|13 0"
    echo "symlist $(yes $identity | head -n 192 | paste -sd ,)|16 0"
    echo 'symop|error: argument 1 missing: HEX'
    echo "symop 7|error: argument 1 '7': an odd number of hexadecimal digits"
    echo 'symlist|error: argument 1 missing: n,n,..'
    echo "symlist 1,,0|error: argument 1: '' is not a number"
    echo "symlist 1,+1|error: argument 1: '+1' is not a number"
    echo "symlist 1, 0|error: argument 2 '0': nothing may follow"
}

trace_malformed() {
    trace_table "trace: one line for every command" <<'END'
line -|5
line|error: argument 1 missing: HEX
line 0|error: argument 1 '0': an odd number of hexadecimal digits
line 0g|error: argument 1 '0g': 'g' is not a hexadecimal digit
line - 5|error: argument 2 '5': nothing may follow
grade|error: argument 1 missing: ROW
grade 6|error: argument 2 missing: HEX
grade 6 zz|error: argument 2 'zz': 'z' is not a hexadecimal digit
grade x 30|error: argument 1 'x': not a number of 0 to 18446744073709551615
grade +6 30|error: argument 1 '+6': not a number of 0 to 18446744073709551615
grade 18446744073709551616 30|error: argument 1 '18446744073709551616': not a number of 0 to 18446744073709551615
grade 18446744073709551615 30|6 0
|none
LINE -|none
END
}

# typed BENCH TEXT: a bench's keys, each accepted.
typed() {
    printf %s "$2" | od -An -v -tu1 -w1 | while read -r byte; do echo "k $1 $byte|0"; done
}

# entered BENCH LINE: the same, with an Enter that is accepted.
entered() {
    typed "$1" "$2"
    echo "k $1 10|0"
}

# The measured session of document 01, in a log with room for one record and two bytes.
session() {
    echo 'new 12 0|ok'
    typed 0 '_refine_ls_R_factor_gt 0.16'
    typed 1 '_refine_ls_wR_factor_obs 0.2'
    echo 'k 0 10|0'
    echo 'k 1 10|8'
    echo 'k 4 10|1'
    echo 'k 18446744073709551615 10|1'
    echo 'k 2 10|5'
    echo 'k 2 127|3'
    echo 'k 3 8|0'
    typed 2 "'"
    echo "dump|lines=,5f726566696e655f6c735f77525f666163746f725f6f627320302e32,27, counts=1,0 items=0:4:0:1:1:302e3136 used=10 log=0a0001000004302e3136464d"
    echo 'new 3 250|ok'
    echo 'dump|lines=,,, counts=0,0 items= used=0 log=fa0108'
    typed 3 "$(printf '%0200d' 0)"
    echo 'k 3 48|4'
    echo 'new 65537 0|ok'
    echo 'k 0 10|2'
    echo 'new|error: argument 1 missing: LEN'
    echo "new 16777217 0|error: argument 1 '16777217': not a number of 0 to 16777216"
    echo "k 0 256|error: argument 2 '256': not a number of 0 to 255"
    echo "k -1 10|error: argument 1 '-1': not a number of 0 to 18446744073709551615"
    echo "dump 1|error: argument 1 '1': nothing may follow"
}

# The same with more room, and the two questions.
questions() {
    echo 'new 30 0|ok'
    typed 0 '_refine_ls_R_factor_gt 0.16'
    echo 'k 0 10|0'
    typed 1 '_refine_ls_wR_factor_obs 0.2'
    echo 'k 1 10|0'
    echo 'report 0 0|0 2/1 2/1 1/1 2/1 0/1 3/0 0/0 0/0 1/0 2/1 0/0 2/1 2/1 2/1 2/1 2/1 2/1 2/1 2/1 0/1 0/1 0/1 0/1 0/1 0/1'
    echo 'who 0 4|0 0 1 1'
    echo 'who 0 7|0 1 2 1'
    echo 'who 0 1|0 255 0 0'
    echo 'who 0 19|0 255 0 0'
    echo 'who 0 20|6 255 0 0'
    echo 'who 0 0|6 255 0 0'
    echo 'who 1 4|0 255 0 0'
    echo 'who 1 20|6 255 0 0'
    echo 'who 2 20|12 255 0 0'
    echo 'report 1 0|0 2/1 2/1 1/1 2/1 0/1 2/1 0/0 2/1 0/0 2/1 0/0 2/1 2/1 2/1 2/1 2/1 2/1 2/1 2/1 0/1 0/1 0/1 0/1 0/1 0/1'
    echo 'report 2 0|12 0/0 0/0 0/0 0/0 0/0 0/0 0/0 0/0 0/0 0/0 0/0 0/0 0/0 0/0 0/0 0/0 0/0 0/0 0/0 0/0 0/0 0/0 0/0 0/0 0/0'
}

# Both camps at one item: sheets, counts, owners and entry numbers of their own, records in one log.
camps() {
    local name=5f726566696e655f6c735f525f666163746f725f677420
    echo 'new 47 0|ok'
    typed 2 '_refine_ls_R_factor_gt 0.3'
    typed 0 '_refine_ls_R_factor_gt 0.16'
    echo 'k 2 10|0'
    echo 'k 0 10|0'
    typed 1 '_refine_ls_R_factor_gt 0.2'
    echo 'k 1 10|9'
    typed 3 '_refine_ls_wR_factor_ref ?'
    echo 'k 3 10|0'
    typed 2 '_refine_ls_R_factor_gt 0.1'
    echo 'k 2 10|0'
    echo 'who 0 4|0 0 1 1'
    echo 'who 1 4|0 2 3 2'
    echo 'who 1 6|0 3 2 1'
    echo 'who 0 6|0 255 0 0'
    echo 'who 256 6|12 255 0 0'
    echo 'who 18446744073709551615 0|12 255 0 0'
    echo 'report 0 0|0 2/1 2/1 1/1 2/1 0/1 3/0 0/0 2/1 0/0 2/1 0/0 2/1 2/1 2/1 2/1 2/1 2/1 2/1 2/1 0/1 0/1 0/1 0/1 0/1 0/1'
    echo 'report 1 0|0 2/1 2/1 1/1 2/1 0/1 0/0 0/0 2/1 0/0 2/1 0/0 2/1 2/1 2/1 2/1 2/1 2/1 2/1 2/1 0/1 0/1 0/1 0/1 0/1 0/1'
    echo 'report 4294967296 0|12 0/0 0/0 0/0 0/0 0/0 0/0 0/0 0/0 0/0 0/0 0/0 0/0 0/0 0/0 0/0 0/0 0/0 0/0 0/0 0/0 0/0 0/0 0/0 0/0 0/0'
    echo "cif 1 61 99|0 61 646174615f610a${name}302e310a5f726566696e655f6c735f77525f666163746f725f726566203f0a"
    echo "cif 0 61 35|0 35 646174615f610a${name}302e31360a"
    echo 'cif 2 61 99|12 0 -'
    echo 'cif 2 5f 0|12 0 -'
    typed 3 '_refine_ls_shift/su_max 1.23456'
    echo 'k 3 10|8'
    echo "dump|lines=,${name}302e32,,5f726566696e655f6c735f73686966742f73755f6d617820312e3233343536 counts=1,3 items=0:4:0:1:1:302e3136;1:4:2:3:2:302e31;1:6:3:2:1:3f used=35 log=090001000204302e330a0001000004302e31360700010003063f090001000204302e31f5fc030a11181f262d343b42"
}

# Items 11 to 18 and both profiles: nothing typed, rows broken, zeros in each writing, no such profile.
powder() {
    local first='2/1 2/1 1/1 2/1 0/1 2/1 0/0 2/1 0/0 2/1 0/0 2/1' none='0/0 0/0 0/0 0/0 0/0 0/0 0/0 0/0 0/0 0/0 0/0 0/0'
    local sizes='2/1 2/1 2/1 2/1'
    echo 'new 400 0|ok'
    echo "report 0 0|0 $first 2/1 2/1 2/1 $sizes 0/1 0/1 0/1 0/1 0/1 0/1"
    echo "report 0 1|0 $first 0/0 0/0 0/0 0/0 0/0 0/0 2/1 0/0 0/0 0/1 0/1 0/1 0/1"
    entered 0 '_reflns_number_total 7'
    entered 1 '_reflns_number_gt 7.0(3)'
    echo "report 0 0|0 $first 2/1 0/0 0/0 $sizes 0/0 0/1 0/1 0/0 0/1 0/1"
    for zero in 0.0000 -0.0 '0(5)'; do
        entered 1 "_diffrn_reflns_av_R_equivalents $zero"
        echo "report 0 0|0 $first 2/1 0/0 0/0 $sizes 0/0 0/0 0/1 0/0 0/1 0/1"
    done
    entered 1 '_diffrn_reflns_av_R_equivalents 0.000001'
    echo "report 0 0|0 $first 2/1 0/0 0/0 $sizes 0/0 2/0 0/1 0/0 0/1 0/1"
    echo "report 0 1|0 $first 0/0 0/0 0/0 0/0 0/0 0/0 2/1 0/0 0/0 0/1 0/0 0/1 0/1"
    entered 1 '_diffrn_reflns_av_R_equivalents ?'
    entered 0 '_reflns_number_total 6.999999'
    entered 0 '_diffrn_reflns_number 6.999998'
    entered 1 '_exptl_crystal_size_max 0.1'
    entered 1 '_exptl_crystal_size_mid .10'
    entered 1 '_exptl_crystal_size_min 0.100001'
    entered 0 '_diffrn_radiation_wavelength 0.71073'
    echo "report 0 0|0 $first 0/0 0/0 0/0 0/0 0/0 0/0 0/0 2/0 0/1 2/0 2/0 2/0 0/1"
    echo "report 0 1|0 $first 0/0 0/0 0/0 0/0 0/0 0/0 0/0 0/0 0/0 2/0 2/0 2/0 0/1"
    echo "report 0 2|21 $none $none 0/0"
    echo "report 1 18446744073709551615|21 $none $none 0/0"
    echo "report 0 4294967297|21 $none $none 0/0"
    echo "report 2 2|12 $none $none 0/0"
    echo "report 0 -1|error: argument 2 '-1': not a number of 0 to 18446744073709551615"
    echo 'report 0|error: argument 2 missing: PROFILE'
    echo 'who 0 18|0 0 13 1'
    echo 'who 0 14|0 1 7 5'
}

# Row 25: nothing to compare, equal and different totals, texts that cannot be read; under both profiles.
moieties() {
    local rest='2/1 0/0 2/1 0/0 2/1 0/0 2/1 2/1 2/1 2/1 2/1 2/1 2/1 2/1 0/1 0/1 0/1 0/1 0/1' text row
    echo 'new 2000 0|ok'
    entered 0 "_chemical_formula_sum 'C10 H22 O'"
    echo "report 0 0|0 0/0 0/0 1/1 2/1 0/1 $rest 0/1"
    while IFS='|' read -r text row; do
        entered 1 "_chemical_formula_moiety '$text'"
        echo "report 0 0|0 0/0 0/0 1/1 2/1 0/1 $rest $row"
    done <<'END'
C10 H20, H2 O|0/0
C10 H22 O|0/0
O H22 C10|0/0
(C5 H11)2 O|0/0
((((C5 H11)1)2)1) O|0/0
C10 H20|3/0
C10 H20, O H|3/0
C11 H21 O|3/0
C10 H22 O N|3/0
(((((C10 H22 O)))))|2/2
(C10 H20, H2 O)|2/2
C10 H20,H2 O|2/2
C10 H20 (H2 O)01|2/2
C10 H20 (H2 O)0|2/2
(C10 H22 O)100|2/2
C10 H20, 1(H2 O)|2/2
C10 H22 O 1+|2/2
|2/2
?|2/2
END
    entered 1 '_chemical_formula_moiety ?'
    echo "report 0 0|0 0/0 0/0 1/1 2/1 0/1 $rest 0/1"
    entered 1 "_chemical_formula_moiety '(H2 O)2'"
    entered 0 "_chemical_formula_sum 'H4O2'"
    echo "report 0 0|0 4/0 0/0 1/1 2/1 0/1 $rest 2/2"
    entered 0 "_chemical_formula_sum 'H4 O2'"
    echo "report 0 1|0 0/0 0/0 1/1 2/1 0/1 2/1 0/0 2/1 0/0 2/1 0/0 2/1 0/0 0/0 0/0 0/0 0/0 0/0 2/1 0/0 0/0 0/1 0/1 0/1 0/0"
    echo 'who 0 19|0 1 22 21'
}

# The hydrogen helper and its check: each answer, counts at the edges of row 4, H put where row 2 wants it.
hydrogens() {
    local formula weight smallest
    echo 'new 2000 0|ok'
    echo 'hyd 0|22 0'
    echo 'hyd 2|12 0'
    echo 'hydcheck 0 22|22 0'
    echo 'hydcheck 2 22|12 0'
    entered 0 "_chemical_formula_sum 'C10 H20'"
    echo 'hyd 0|22 0'
    entered 1 '_chemical_formula_weight 142.286'
    echo 'hyd 0|0 21'
    echo 'hyd 1|22 0'
    for count in 21 22 23; do echo "hydcheck 0 $count|0 $count"; done
    for count in 0 20 24 9999 10000 10021 277 4294967318 18446744073709551615; do echo "hydcheck 0 $count|24 0"; done
    entered 1 '_chemical_formula_weight ?'
    echo 'hyd 0|22 0'
    while IFS='|' read -r formula weight smallest; do
        entered 0 "_chemical_formula_sum '$formula'"
        entered 1 "_chemical_formula_weight $weight"
        echo "hyd 0|$smallest"
        echo "hydcheck 0 ${smallest#0 }|$smallest" | grep -v '|2'
    done <<'END'
C10|142.286|0 21
C10 H22|142.286|0 21
C10 H20|121.3111|0 0
C10 H20|121.3112|0 1
C10 H20|118.9089|0 0
C10 H20|118.9088|23 0
C10 H20|-1|23 0
C10 H20|10301.08|0 9999
C10 H20|10301.1|23 0
Br H|80.912|0 1
Br Na|5000|0 4810
Na O|100|0 60
H2|0|23 0
H2|1.008|0 1
H2|10179.7819|0 9999
H2|10179.782|23 0
H Br|80.912|22 0
C10H20|142.286|22 0
C H H|14|22 0
C H Li|20|22 0
C H He|20|22 0
END
    echo 'hyd|error: argument 1 missing: SHEET'
    echo 'hydcheck 0|error: argument 2 missing: COUNT'
    echo "hydcheck 0 -1|error: argument 2 '-1': not a number of 0 to 18446744073709551615"
    echo "hyd 0 1|error: argument 2 '1': nothing may follow"
}

# An item typed three times, and Enters that are refused between.
rewritten() {
    local name=5f726566696e655f6c735f525f666163746f725f677420 records=0a0001000004302e31360700010000043f
    echo 'new 30 0|ok'
    typed 0 '_refine_ls_R_factor_gt 0.16'
    echo 'k 0 10|0'
    typed 0 '_refine_ls_R_factor_gt 0.1x'
    echo 'k 0 10|7'
    echo 'who 0 4|0 0 1 1'
    echo 'k 0 24|0'
    typed 0 '_refine_ls_R_factor_gt ?'
    echo 'k 0 10|0'
    echo 'who 0 4|0 0 2 2'
    typed 0 '_refine_ls_R_factor_gt 0.123456(1)'
    echo 'k 0 10|8'
    echo 'who 0 4|0 0 2 2'
    echo "dump|lines=${name}302e313233343536283129,,, counts=2,0 items=0:4:0:2:2:3f used=17 log=${records}777e858c939aa1a8afb6bdc4cb"
    echo 'k 0 24|0'
    typed 0 '_refine_ls_R_factor_gt 0.2'
    echo 'k 0 10|0'
    echo 'who 0 4|0 0 3 3'
    echo 'who 0 5|0 255 0 0'
    echo "dump|lines=,,, counts=3,0 items=0:4:0:3:3:302e32 used=26 log=${records}090001000004302e32b6bdc4cb"
}

# An item of another bench: 9 after 7 and before 8, the line kept and corrected, and its owner's next entry.
owned() {
    echo 'new 33 0|ok'
    typed 0 '_refine_ls_R_factor_gt ?'
    echo 'k 0 10|0'
    typed 1 '_refine_ls_R_factor_gt 0.x'
    echo 'k 1 10|7'
    echo 'k 1 8|0'
    echo 'k 1 50|0'
    echo 'k 1 10|9'
    echo 'who 0 4|0 0 1 1'
    echo 'dump|lines=,5f726566696e655f6c735f525f666163746f725f677420302e32,, counts=1,0 items=0:4:0:1:1:3f used=7 log=0700010000043f31383f464d545b626970777e858c939aa1a8afb6bdc4cbd2d9e0'
    echo 'k 1 10|9'
    typed 0 '_refine_ls_R_factor_gt 0.123456(7)'
    echo 'k 0 10|0'
    echo 'who 0 4|0 0 2 2'
    echo 'k 1 10|9'
    typed 0 '_refine_ls_R_factor_gt 0.16'
    echo 'k 0 10|8'
    echo 'k 0 8|0'
    echo 'k 0 10|0'
    echo 'k 1 10|9'
    echo 'who 0 4|0 0 3 3'
}

# Before the first fresh desk, several of them, dumps between calls, and wrong commands.
fresh_desks() {
    echo 'dump|lines=,,, counts=0,0 items= used=0 log='
    echo 'who 0 1|0 255 0 0'
    echo 'k 3 65|0'
    echo 'dump|lines=,,,41 counts=0,0 items= used=0 log='
    echo 'new 2 0|ok'
    echo 'k 0 66|0'
    echo 'dump|lines=42,,, counts=0,0 items= used=0 log=0007'
    echo 'report 0|error: argument 2 missing: PROFILE'
    echo "new 3 x|error: argument 2 'x': not a number of 0 to 18446744073709551615"
    echo "who 0 -1|error: argument 2 '-1': not a number of 0 to 18446744073709551615"
    echo 'k 0 8|0'
    echo 'dump|lines=,,, counts=0,0 items= used=0 log=0007'
    echo 'dump|lines=,,, counts=0,0 items= used=0 log=0007'
    echo 'k 1 67|0'
    echo 'new 65537 0|ok'
    echo 'k 0 66|2'
    echo 'k 4 66|1'
    echo 'report 1 0|0 2/1 2/1 1/1 2/1 0/1 2/1 0/0 2/1 0/0 2/1 0/0 2/1 2/1 2/1 2/1 2/1 2/1 2/1 2/1 0/1 0/1 0/1 0/1 0/1 0/1'
    echo 'who 0 18446744073709551615|6 255 0 0'
    echo 'new 0 0|ok'
    echo 'dump|lines=,,, counts=0,0 items= used=0 log='
}

# A file of each length and refusal, on a fresh desk, on a filled one, and where the log alone is not sound.
files() {
    local head=646174615f63616d702d310a
    local items=5f726566696e655f6c735f525f666163746f725f677420302e31360a5f726566696e655f6c735f77525f666163746f725f6f6273203f0a
    echo 'cif 0 61 7|0 7 646174615f610a'
    echo 'cif 0 61 6|10 0 -'
    echo 'cif 0 61 0|10 0 -'
    echo 'cif 0 2d 16777216|0 7 646174615f2d0a'
    echo 'cif 0 - 99|11 0 -'
    echo 'cif 0 5f 99|11 0 -'
    echo 'cif 0 5f 0|11 0 -'
    echo "cif 0 $(printf '61%.0s' $(seq 32)) 38|0 38 646174615f$(printf '61%.0s' $(seq 32))0a"
    echo "cif 0 $(printf '61%.0s' $(seq 33)) 99|11 0 -"
    echo 'new 30 0|ok'
    typed 1 '_REFINE_LS_wr_factor_OBS   ?'
    echo 'k 1 10|0'
    typed 0 '_refine_ls_r_factor_gt  0.16'
    echo "cif 0 63616d702d31 99|0 39 ${head}5f726566696e655f6c735f77525f666163746f725f6f6273203f0a"
    echo 'k 0 10|0'
    echo "cif 0 63616d702d31 67|0 67 $head$items"
    echo "cif 1 63616d702d31 9999|0 12 $head"
    echo 'cif 7 63616d702d31 9999|12 0 -'
    echo 'cif 0 63616d702d31 66|10 0 -'
    echo 'cif 0 63616d705f31 67|11 0 -'
    echo 'new 65537 0|ok'
    echo 'k 0 66|2'
    echo 'cif 0 41 8|0 7 646174615f410a'
    echo 'cif|error: argument 1 missing: SHEET'
    echo 'cif 0|error: argument 2 missing: NAMEHEX'
    echo 'cif 0 61|error: argument 3 missing: ROOM'
    echo "cif x 61 9|error: argument 1 'x': not a number of 0 to 18446744073709551615"
    echo "cif 0 6 9|error: argument 2 '6': an odd number of hexadecimal digits"
    echo "cif 0 6g 9|error: argument 2 '6g': 'g' is not a hexadecimal digit"
    echo "cif 0 61 16777217|error: argument 3 '16777217': not a number of 0 to 16777216"
    echo "cif 0 61 -1|error: argument 3 '-1': not a number of 0 to 16777216"
    echo "cif 0 61 9 9|error: argument 4 '9': nothing may follow"
}

# The log of two camps, in parts, each answer of the reader, and what it gives; parts after the end.
sticks() {
    local first=0a0001000004302e3136 second=090001000204302e33 third=070001000104
    echo 'stickdump|counts=0,0 items='
    echo "feed 0 $first|0 0"
    echo 'stick|ok'
    echo 'stickdump|counts=0,0 items='
    echo "feed 0 -|0 0"
    echo "feed 0 ${first:0:4}|0 0"
    echo "feed 0 ${first:4:14}|0 0"
    echo 'stickdump|counts=0,0 items='
    echo "feed 0 ${first:18}${second}|0 0"
    echo 'stickdump|counts=1,1 items=0:4:0:1:1:302e3136;1:4:2:1:1:302e33'
    echo "feed 0 0700010000043f|0 0"
    echo "feed 1 -|0 0"
    echo "feed 1 $second|0 0"
    echo "feed 0 ff|0 0"
    echo 'stickdump|counts=2,1 items=0:4:0:2:2:3f;1:4:2:1:1:302e33'
    echo 'stick|ok'
    echo "feed 255 $first${second}${third}|20 19"
    echo "feed 0 31|20 19"
    echo 'stickdump|counts=1,1 items=0:4:0:1:1:302e3136;1:4:2:1:1:302e33'
    echo 'stick|ok'
    echo "feed 0 $first${third}31$second|19 10"
    echo "feed 1 -|19 10"
    echo 'stickdump|counts=1,0 items=0:4:0:1:1:302e3136'
    echo 'stick|ok'
    echo "feed 0 $first${first:0:10}|0 0"
    echo "feed 0 00302e3136|18 10"
    echo "feed 1 $first|18 10"
    echo 'stick|ok'
    echo 'feed 0 0600010000|0 0'
    echo 'feed 0 04|18 0'
    echo 'stick|ok'
    echo 'feed 0 cf00010000|0 0'
    echo 'feed 1 -|20 0'
    echo 'stick|ok'
    echo 'feed 0 ce0001000001|0 0'
    echo "feed 0 $(printf '78%.0s' $(seq 199))|0 0"
    echo 'feed 1 78|18 0'
    echo 'stick|ok'
    echo 'dump|lines=,,, counts=0,0 items= used=0 log='
    echo 'feed|error: argument 1 missing: LAST'
    echo 'feed 1|error: argument 2 missing: HEX'
    echo "feed 256 -|error: argument 1 '256': not a number of 0 to 255"
    echo "feed 0 7|error: argument 2 '7': an odd number of hexadecimal digits"
    echo "stick 1|error: argument 1 '1': nothing may follow"
    echo "stickdump 1|error: argument 1 '1': nothing may follow"
}

trace_keys() {
    trace_table "reference's trace: keys" reference-trace < <(session)
    trace_table "reference's trace: questions" reference-trace < <(questions)
    trace_table "reference's trace: an item rewritten" reference-trace < <(rewritten)
    trace_table "reference's trace: an item of another bench" reference-trace < <(owned)
    trace_table "reference's trace: two camps" reference-trace < <(camps)
    trace_table "reference's trace: both profiles" reference-trace < <(powder)
    trace_table "reference's trace: moieties" reference-trace < <(moieties)
    trace_table "reference's trace: hydrogens" reference-trace < <(hydrogens)
    trace_table "reference's trace: fresh desks" reference-trace < <(fresh_desks)
    trace_table "reference's trace: files" reference-trace < <(files)
    trace_table "reference's trace: logs" reference-trace < <(sticks)
    trace_table "reference's trace: symmetry" reference-trace < <(symmetry)
    trace_table "trace: keys" < <(session)
    trace_table "trace: questions" < <(questions)
    trace_table "trace: an item rewritten" < <(rewritten)
    trace_table "trace: an item of another bench" < <(owned)
    trace_table "trace: two camps" < <(camps)
    trace_table "trace: both profiles" < <(powder)
    trace_table "trace: moieties" < <(moieties)
    trace_table "trace: hydrogens" < <(hydrogens)
    trace_table "trace: fresh desks" < <(fresh_desks)
    trace_table "trace: files" < <(files)
    trace_table "trace: logs" < <(sticks)
    trace_table "trace: symmetry" < <(symmetry)
}

# The answers come whenever the input pauses, in the middle of a line too.
trace_pauses() {
    local part answer
    mkfifo "$work/asked" "$work/answered"
    "$harness" trace <"$work/asked" >"$work/answered" &
    exec 8<>"$work/asked" 9<>"$work/answered"
    for part in $'line -\n' $'new 30 0\nk' $' 2 65\n' $'k 2 10\ndum' $'p\n' $'who 0 4\ncif' $' 0 61 9\n'; do
        printf %s "$part" >&8
        read -r -t 20 answer <&9 || answer='no answer'
        echo "$answer"
    done >"$work/answers"
    exec 8>&-
    wait $!
    exec 9<&-
    printf '%s\n' 'line -' 'new 30 0' 'k 2 65' 'k 2 10' dump 'who 0 4' 'cif 0 61 9' | "$harness" trace >"$work/want"
    same "trace: an answer at each pause" "$work/want" "$work/answers"
}

trace_generated() {
    local keys=100000
    "$harness" trace-commands 13 5000 >"$work/commands"
    "$harness" reference-trace <"$work/commands" >"$work/want"
    "$harness" trace <"$work/commands" >"$work/answers"
    same "trace: 5000 generated commands" "$work/want" "$work/answers"
    runs "trace: as many answers as commands" 0 $'5000\n' '' grep -c '' "$work/answers"
    { head -c 5001 "$work/commands"; sleep 0.2; tail -c +5002 "$work/commands"; } | "$harness" trace >"$work/answers"
    same "trace: the same in two parts" "$work/want" "$work/answers"
    yes 'k 0 65' | head -n $keys | "$harness" reference-trace >"$work/want"
    yes 'k 0 65' | head -n $keys | timeout 60 "$harness" trace >"$work/answers"
    same "trace: $keys keys of one desk" "$work/want" "$work/answers"
    runs "trace: last command without newline" 0 $'none\n5\n' '' "$harness" trace < <(printf '\xff\nline -')
    runs "tools/trace from another folder" 0 $'5\n0 3\n' '' \
        bash -c 'cd "$1" && "$2/tools/trace" more words 2>/dev/null' - "$work" "$PWD" < <(printf 'line -\ngrade 6 302e3230\n')
}

# desk_prints NAME INPUT EXPECTED: the program desk prints the file's bytes, and nothing else.
desk_prints() {
    prints "$1" "$3" "$2" "$desk"
}

desk_sessions() {
    local input name first=harness/desk-sessions/document_01
    mkdir "$work/sessions"
    runs "desk: sessions recomputed" 0 '' '' "$harness" desk-sessions "$work/sessions"
    runs "desk: sessions as they are kept" 0 '' '' diff -r harness/desk-sessions "$work/sessions"
    for input in harness/desk-sessions/*.in; do
        name=$(basename "$input" .in)
        desk_prints "desk: $name" "$input" "${input%.in}.out"
    done
    desk_prints "desk: input byte by byte" <(for at in $(seq "$(wc -c <$first.in)"); do head -c "$at" $first.in | tail -c 1; done) $first.out
    desk_prints "desk: 200000 bytes before it" <(yes 4x | tr -d '\n' | head -c 200000; cat $first.in) $first.out
    summary "desk: 300 generated inputs" "$harness" desk-runs "$desk" 14 300
}

# What the tools tell a person of wrong arguments.
tools_tell() {
    runs "tools/run: no such file" 2 '' $'none: no file that can be read\n' tools/run none
    runs "tools/run: a folder" 2 '' $'.: no file that can be read\n' tools/run .
    runs "tools/run: two files" 2 '' $'usage: tools/run [FILE], - for standard input\n' tools/run a b
    runs "tools/run from another folder" 0 "$(cat harness/desk-sessions/overwritten.out)"$'\n' '' \
        bash -c 'cd "$1" && cp "$2/harness/desk-sessions/overwritten.in" . && "$2/tools/run" overwritten.in 2>/dev/null' - "$work" "$PWD"
}

comparison() {
    summary "self-check of the comparison" "$harness" self-check
    summary "comparison with the reference" "$harness" compare
    grep -a '^fixed seed' "$work/out"
}

mutants() {
    if command -v python3 >/dev/null; then
        summary "comparison with mutants of the reference" python3 harness/mutants/mutants.py
        grep -a ' mutants, ' "$work/out"
    else
        echo "skipped: mutants of the reference (no python3)"
    fi
}

boundary() {
    headers
    linking "The desk" export_desk
    linking "A log from the stick" export_desk
    linking "Symmetry operators" export_symmetry
    layout
    runs "client: sample" 0 "$(cat client/sample.out)"$'\n' '' "$client" <client/sample.txt
    client_arguments
    client_streams
    client_generated
    trace_examples
    trace_malformed
    trace_keys
    trace_pauses
    trace_generated
    desk_sessions
    tools_tell
}

for run in "${wanted[@]}"; do $run; done
finish
