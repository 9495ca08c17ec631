#!/usr/bin/env bash
# Tests the program camp: each command's outputs and exit, to the byte; wrong uses; files that cannot be read or written.
# Needs the built harness, client and camp (target/bin/camp). Prints one line for each check and at the end 'N passed, M failed'.
set -u
. "$(dirname "$0")/checks.sh"
need "$camp"
sessions=harness/desk-sessions
first=$sessions/document_01
# How many items there are: all are in this file, after its first line.
items=$(($(wc -l <$sessions/all_items.cif) - 1))
no_sheet="no such sheet: 0 is the camp's, of benches 0 and 1, and 1 the visitors', of benches 2 and 3"

# typed BENCH: the lines of standard input as one bench types them.
typed() {
    sed "s/./$1&/g; s/\$/$1/"
}

# misuse NAME MESSAGE ARGUMENT..: wrong use, told in this one line.
misuse() {
    local name=$1 message=$2
    shift 2
    runs "camp: $name" 2 '' "camp: $message"$'\n' "$camp" "$@" <$first.in
}

# fails NAME MESSAGE COMMAND..: a refusal or trouble with a file, told in this one line.
fails() {
    local name=$1 message=$2
    shift 2
    runs "camp $name" 1 '' "camp: $message"$'\n' "$@"
}

commands() {
    local name word help="see 'camp help'" long
    long=$(printf 'a%.0s' {1..300})
    runs "camp: version" 0 "camp $(sed -n 's/^#define CAMP_VERSION "\(.*\)"$/\1/p' client/camp/version.h)"$'\n' '' "$camp" --version
    runs "camp: --help is help" 0 "$("$camp" help)"$'\n' '' "$camp" --help
    for name in cif help history hydrogen record refusals report run symmetry who; do
        runs "camp help: $name is listed" 0 $'1\n' '' bash -c '"$1" help | grep -c "^  $2  *[a-z]"' - "$camp" "$name"
        runs "camp help: $name" 0 $'usage: camp '"$name"$'\n' '' bash -c '"$1" help "$2" | head -n 1 | cut -d " " -f 1-3' - "$camp" "$name"
        runs "camp help: $name has an example" 0 $'Example:\n' '' bash -c '"$1" help "$2" | grep -x Example:' - "$camp" "$name"
        runs "camp help: $name is at most 100 columns wide" 0 '' '' bash -c '"$1" help "$2" | sed "/^Example:/,\$d" | awk "length > 100"' - "$camp" "$name"
        runs "camp: $name --help" 0 "$("$camp" help "$name")"$'\n' '' "$camp" "$name" --help
    done
    sed -n 's/^    \[\([0-9]*\)\] = ".*/\1/p' client/camp/meanings.c >"$work/out"
    seq "$(cat docs/guide/{refusals,files,hydrogen,symmetry}.md | sed -n 's/^| \([0-9]*\) |.*/\1/p' | sort -n | tail -n 1)" >"$work/want"
    same "camp: every refusal has a meaning" "$work/want" "$work/out"
    runs "camp help: nothing else is listed" 0 $'10\n' '' bash -c '"$1" help | sed -n "/The commands:/,/^.camp help/p" | grep -c "^  "' - "$camp"
    misuse "no command" "a command is missing; $help"
    misuse "no such command" "'xyz' is not a command; $help" xyz
    misuse "a command in capitals" "'CIF' is not a command; $help" CIF
    misuse "an empty command" "'' is not a command; $help" ''
    misuse "a command in two lines" "'ci\\x0af\\x1b[m' is not a command; $help" $'ci\nf\e[m'
    misuse "no such option" "'--versoin' is not an option; $help" --versoin
    misuse "an argument after --version" "'x' is one argument too many; $help" --version x
    misuse "help for no command" "'xyz' is not a command; $help" help xyz
    misuse "help for two" "help: 'cif' is one argument too many; see 'camp help help'" help refusals cif
    misuse "refusals without SESSION" "refusals: SESSION, the file of keys, is missing; see 'camp help refusals'" refusals
    misuse "refusals of two" "refusals: 'b' is one argument too many; see 'camp help refusals'" refusals a b
    misuse "refusals: an option" "refusals: '--all' is not an option; see 'camp help refusals'" refusals --all
    misuse "refusals: an empty name" "refusals: '' is not the name of a file; see 'camp help refusals'" refusals ''
    misuse "cif without BLOCK" "cif: BLOCK, the name of the data block, is missing; see 'camp help cif'" cif
    misuse "cif: three arguments" "cif: 'c\\x0ad' is one argument too many; see 'camp help cif'" cif a "$work/b" $'c\nd'
    misuse "cif: FILE is empty" "cif: '' is not the name of a file; see 'camp help cif'" cif camp-1 ''
    misuse "cif: FILE is an option" "cif: '--force' is not an option; see 'camp help cif'" cif camp-1 --force
    misuse "symmetry of two" "symmetry: 'b' is one argument too many; see 'camp help symmetry'" symmetry a b
    misuse "symmetry: an option" "symmetry: '--all' is not an option; see 'camp help symmetry'" symmetry --all
    misuse "symmetry: an empty name" "symmetry: '' is not the name of a file; see 'camp help symmetry'" symmetry ''
    misuse "who without LOG" "who: LOG, or --session and SESSION, is missing; see 'camp help who'" who
    misuse "who of three" "who: 'c' is one argument too many; see 'camp help who'" who a 4 c
    misuse "who of a session and three" "who: 'c' is one argument too many; see 'camp help who'" who --session a 4 c
    misuse "who: --session alone" "who: '--session' lacks what belongs to it; see 'camp help who'" who 4 --session
    misuse "who: --json twice" "who: '--json' stands twice; see 'camp help who'" who --json a --json
    misuse "record without SESSION" "record: SESSION, the file of keys, is missing; see 'camp help record'" record
    misuse "record without LOG" "record: LOG, the file for the log, is missing; see 'camp help record'" record $first.in
    misuse "record of three" "record: 'c' is one argument too many; see 'camp help record'" record $first.in b c
    misuse "record: an option" "record: '--force' is not an option; see 'camp help record'" record $first.in --force
    misuse "record: an empty name" "record: '' is not the name of a file; see 'camp help record'" record $first.in ''
    misuse "cif: --log alone" "cif: '--log' lacks what belongs to it; see 'camp help cif'" cif x --log
    misuse "cif: a log with an empty name" "cif: '' is not the name of a file; see 'camp help cif'" cif x --log ''
    misuse "hydrogen without LOG" "hydrogen: LOG, or --session and SESSION, is missing; see 'camp help hydrogen'" hydrogen
    misuse "hydrogen of two" "hydrogen: 'b' is one argument too many; see 'camp help hydrogen'" hydrogen a b
    misuse "hydrogen of a session and a log" "hydrogen: 'b' is one argument too many; see 'camp help hydrogen'" hydrogen --session a b
    misuse "hydrogen: an option" "hydrogen: '--all' is not an option; see 'camp help hydrogen'" hydrogen --all
    misuse "hydrogen: an empty name" "hydrogen: '' is not the name of a file; see 'camp help hydrogen'" hydrogen ''
    misuse "history without LOG" "history: LOG, the file of a log, is missing; see 'camp help history'" history
    misuse "report without LOG" "report: LOG, or --session and SESSION, is missing; see 'camp help report'" report --powder
    misuse "report of a session and a log" "report: 'b' is one argument too many; see 'camp help report'" report --session a b
    misuse "report: --powder twice" "report: '--powder' stands twice; see 'camp help report'" report --powder a --powder
    for name in report history; do
        misuse "$name: a file that is none" "$name: '' is not the name of a file; see 'camp help $name'" $name ''
        misuse "$name of two" "$name: 'b' is one argument too many; see 'camp help $name'" $name a b
        misuse "$name: an option" "$name: '--all' is not an option; see 'camp help $name'" $name --all
        misuse "$name: --json twice" "$name: '--json' stands twice; see 'camp help $name'" $name --json a --json
        misuse "$name: no sheet's number" "$name: 'x' is not the number of a sheet; see 'camp help $name'" $name --sheet x a
    done
    misuse "who: an option" "who: '--all' is not an option; see 'camp help who'" who --all
    misuse "who: an empty name" "who: '' is not the name of a file; see 'camp help who'" who ''
    for name in '' 0 $((items + 1)) -4 +4 4.0 ' 4' 4x 18446744073709551620 _refine_ls_R_factor '_refine_ls_R_factor_gt ' '_refine_ls_R_factor_gt ?' '_refine_ls_R_factor_gt ? ' refine_ls_R_factor_gt _ "_$long"; do
        misuse "who: item '$name'" "who: '$name' is neither the number nor the name of an item; see 'camp help who'" who --session $first.in "$name"
    done
    misuse "who: keys that are no name" "who: '_a\\x18_refine_ls_R_factor_gt' is neither the number nor the name of an item; see 'camp help who'" who --session $first.in $'_a\x18_refine_ls_R_factor_gt'
    for name in cif who; do
        misuse "$name: --sheet alone" "$name: '--sheet' lacks what belongs to it; see 'camp help $name'" $name $first.in --sheet
        misuse "$name: --sheet twice" "$name: '--sheet' stands twice; see 'camp help $name'" $name --sheet 0 $first.in --sheet 0
        for word in x '' -1 +1 1.0 ' 1' 1x; do
            misuse "$name: sheet '$word'" "$name: '$word' is not the number of a sheet; see 'camp help $name'" $name --sheet "$word" $first.in
        done
    done
    misuse "refusals: --sheet" "refusals: '0' is one argument too many; see 'camp help refusals'" refusals --sheet 0
    misuse "who: --sheet after --" "who: '--sheet' is not an option; see 'camp help who'" who -- --sheet 0
    misuse "a long command" "'$long' is not a command; $help" "$long"
}

# example NAME COMMAND..: a command's help shows what its example prints, from a folder with the session.
example() {
    local name=$1
    shift
    "$camp" help ${name:+"$name"} | sed -n '/^Example:$/,$p' | sed -n 's/^  //p' | grep -av '^\$' >"$work/want"
    (cd "$work/example" && "$@") >"$work/out" 2>&1
    same "camp help${name:+: $name}: its example is true" "$work/want" "$work/out"
}

examples() {
    mkdir "$work/example"
    cp crates/desk/stdin "$work/example/session"
    example '' "$camp" refusals session
    example cif bash -c '"$1" cif camp-1 sheet.cif <session && cat sheet.cif' - "$camp"
    echo '_refine_ls_wR_factor_gt 0.16' | typed 1 >"$work/example/session"
    example refusals "$camp" refusals session
    { echo '_refine_ls_R_factor_gt 0.16' | typed 0; echo '_refine_ls_wR_factor_obs 0.2' | typed 1; echo '_refine_ls_R_factor_gt 0.03' | typed 2; echo '_refine_ls_R_factor_gt 0.045' | typed 0; } >"$work/example/session"
    "$camp" record "$work/example/session" "$work/example/stick.log"
    example who "$camp" who stick.log
    example history "$camp" history stick.log
    cp crates/desk/stdin "$work/example/session"
    example record bash -c '"$1" record session stick.log && "$1" history stick.log' - "$camp"
    example report "$camp" report --sheet 0 stick.log
    printf '%s\n' x,y,z -x,y+1/2,-z -x,-y,-z >"$work/example/operators"
    example symmetry "$camp" symmetry operators
    { echo "_chemical_formula_sum 'C10 H20'" | typed 0; echo '_chemical_formula_weight 142.286' | typed 1; } >"$work/example/session"
    example hydrogen "$camp" hydrogen --session session
    cp crates/desk/stdin "$work/example/session"
    example run timeout 10 "$camp" run --plain --log camp.log --pairs session </dev/null
}

# refusals_of NAME FILE: what camp refusals prints of a session, by the reference's answers; NAME as messages name it.
refusals_of() {
    pairs "$2" >"$work/pairs"
    { echo "new 4096 0"; sed 's/^/k /' "$work/pairs"; } | "$harness" reference-trace | tail -n +2 >"$work/answers"
    paste -d ' ' "$work/pairs" "$work/answers" | LC_ALL=C awk -v bytes="$(wc -c <"$2")" -v about="camp: $1: " '
    BEGIN {
        split("this bench is not there: a pair begins with 0, 1, 2 or 3|the desk is not sound|this key does nothing here|the line is full" \
            "|not a name, a space and a value|no item has this name|not a number, or no category, as this item wants" \
            "|the rest of the log is too short for this entry|this value belongs to another bench", means, "|")
    }
    function named(bench, b) {
        return b == 10 ? "Enter after `" line[bench] "`" : b == 8 ? "erase" : b == 24 ? "empty the line" : b >= 32 && b <= 126 ? "key " sprintf("%c", b) : "byte " b
    }
    function none_told() {
        if (none) print about (none < last ? "pairs " none " to " last : "pair " none) ", no bench: 1, " means[1]
        none = 0
    }
    $3 != 0 { refused++ }
    $3 == 1 { if (!none) none = NR; last = NR; next }
    { none_told() }
    $3 > 1 { print about "pair " NR ", bench " $1 ": " $3 ", " means[$3] " (" named($1, $2) ")" }
    $3 == 0 && $2 >= 32 { line[$1] = line[$1] sprintf("%c", $2) }
    $3 == 0 && $2 == 8 { line[$1] = substr(line[$1], 1, length(line[$1]) - 1) }
    $3 == 0 && ($2 == 10 || $2 == 24) { line[$1] = "" }
    END {
        none_told()
        if (bytes % 2) print about "the last byte has no pair and is passed over"
        for (b = 0; b < 4; b++) if (line[b] != "") print about "bench " b " has not entered `" line[b] "`"
        print about refused + 0 " of " NR " keys refused"
        exit refused > 0
    }'
}

# refusals_agree NAME FILE: what camp refusals prints, and its exit, are those by the reference.
refusals_agree() {
    local want status
    refusals_of "$2" "$2" >"$work/told"
    want=$?
    "$camp" refusals "$2" >"$work/out" 2>"$work/err"
    status=$?
    if [ $status -ne $want ]; then
        fail "$1" "exit $status, not $want"
    elif [ -s "$work/err" ]; then
        fail "$1" "standard error is '$(head -c 200 "$work/err")'"
    else
        same "$1" "$work/told" "$work/out"
    fi
}

refusals() {
    local input seed about="camp: standard input: " name
    runs "camp refusals: the sample session" 0 $'camp: crates/desk/stdin: 0 of 57 keys refused\n' '' "$camp" refusals crates/desk/stdin
    runs "camp refusals: refused lines" 1 "$(sed "s/^/$about/" <<'END_OF_LINES'
pair 1, bench 0: 5, not a name, a space and a value (Enter after ``)
pair 24, bench 0: 5, not a name, a space and a value (Enter after `_refine_ls_R_factor_gt`)
pair 31, bench 0: 5, not a name, a space and a value (Enter after `_refine_ls_R_factor_gt 0.16 `)
pair 57, bench 1: 6, no item has this name (Enter after `_refine_ls_R_factor 0.2`)
pair 88, bench 1: 7, not a number, or no category, as this item wants (Enter after `_refine_ls_wR_factor_obs 0.2x`)
pair 118, bench 2: 7, not a number, or no category, as this item wants (Enter after `_publ_requested_category fo`)
pair 150, bench 3: 5, not a name, a space and a value (Enter after `refine_ls_shift/su_max 0.3`)
bench 3 has not entered `refine_ls_shift/su_max 0.3`
7 of 150 keys refused
END_OF_LINES
)"$'\n' '' "$camp" refusals - <$sessions/refused_lines.in
    runs "camp refusals: a full line" 1 "$(sed "s/^/$about/" <<'END_OF_LINES'
pair 201, bench 3: 4, the line is full (key ')
pair 202, bench 3: 5, not a name, a space and a value (Enter after `_reflns_threshold_expression 'yyyyyyyyyyyyyyyyyyyyyyyyyyyyyyyyyyyyyyyyyyyyyyyyyyyyyyyyyyyyyyyyyyyyyyyyyyyyyyyyyyyyyyyyyyyyyyyyyyyyyyyyyyyyyyyyyyyyyyyyyyyyyyyyyyyyyyyyyyyyyyyyyyyyyyyyyyyyyyyyyyyyyyyyyy`)
pair 207, bench 3: 5, not a name, a space and a value (Enter after ``)
3 of 207 keys refused
END_OF_LINES
)"$'\n' '' "$camp" refusals - <$sessions/line_of_201.in
    runs "camp refusals: no bench, no key, an odd byte" 1 "$(sed "s/^/$about/" <<'END_OF_LINES'
pairs 1 to 3, no bench: 1, this bench is not there: a pair begins with 0, 1, 2 or 3
pair 4, bench 0: 3, this key does nothing here (byte 7)
the last byte has no pair and is passed over
4 of 4 keys refused
END_OF_LINES
)"$'\n' '' "$camp" refusals - < <(printf 'camp\r\n0\a\t')
    runs "camp refusals: pairs of no bench apart, at the end too" 1 "$(sed "s/^/$about/" <<'END_OF_LINES'
pair 1, no bench: 1, this bench is not there: a pair begins with 0, 1, 2 or 3
pairs 3 to 4, no bench: 1, this bench is not there: a pair begins with 0, 1, 2 or 3
bench 3 has not entered `a`
3 of 4 keys refused
END_OF_LINES
)"$'\n' '' "$camp" refusals - < <(printf '4\n3a/\n\0\0')
    runs "camp refusals: items of others" 1 "$(sed "s/^/$about/" <<'END_OF_LINES'
pair 84, bench 1: 9, this value belongs to another bench (Enter after `_refine_ls_R_factor_gt 0.3`)
pair 85, bench 1: 9, this value belongs to another bench (Enter after `_refine_ls_R_factor_gt 0.3`)
pair 159, bench 0: 7, not a number, or no category, as this item wants (Enter after `_refine_ls_wR_factor_obs 1234567890`)
pair 161, bench 0: 9, this value belongs to another bench (Enter after `_refine_ls_wR_factor_obs 123456789`)
pair 193, bench 3: 9, this value belongs to another bench (Enter after `_chemical_formula_sum 'C10 H20'`)
bench 0 has not entered `_refine_ls_wR_factor_obs 123456789`
bench 3 has not entered `_chemical_formula_sum 'C10 H20'`
5 of 225 keys refused
END_OF_LINES
)"$'\n' '' "$camp" refusals - <$sessions/items_of_others.in
    runs "camp refusals: the first entry that the log has no room for" 1 $'8, the rest of the log is too short for this entry\n' '' \
        bash -o pipefail -c '"$1" refusals "$2" | sed -n "1s/.*bench [0-3]: \(.*\) (Enter after .*/\1/p"' - "$camp" $sessions/log_one_byte_too_short.in
    runs "camp refusals: an odd byte alone" 0 "$about"$'the last byte has no pair and is passed over\n'"$about"$'0 of 0 keys refused\n' '' "$camp" refusals - < <(printf 0)
    runs "camp refusals: a line not entered is no refusal" 0 "${about}bench 2 has not entered \`x\`"$'\n'"${about}0 of 1 keys refused"$'\n' '' "$camp" refusals - < <(printf 2x)
    runs "camp refusals: nothing typed" 0 "$about"$'0 of 0 keys refused\n' '' "$camp" refusals - </dev/null
    : >"$work/empty"
    runs "camp refusals: an empty file" 0 "camp: $work/empty: 0 of 0 keys refused"$'\n' '' "$camp" refusals "$work/empty"
    name=$'no\nline\t\xc3\xa9'
    cp $first.in "$work/$name"
    runs "camp refusals: a name in two lines" 0 "camp: $work/no\\x0aline\\x09\\xc3\\xa9: 0 of 57 keys refused"$'\n' '' "$camp" refusals "$work/$name"
    for input in $sessions/*.in; do
        refusals_agree "camp refusals: $(basename "$input" .in)" "$input"
    done
    for seed in {1..30}; do
        "$harness" desk-input "$seed" >"$work/generated"
        refusals_agree "camp refusals: generated input $seed" "$work/generated"
    done
    head -c 200000 /dev/urandom >"$work/random"
    refusals_agree "camp refusals: 200000 random bytes" "$work/random"

    fails "refusals: no such file" "none: No such file or directory" "$camp" refusals none
    fails "refusals: a folder" "harness: Is a directory" "$camp" refusals harness
    fails "refusals: a file taken for a folder" "README.md/x: Not a directory" "$camp" refusals README.md/x
    fails "refusals: input cannot be read" "standard input: Is a directory" "$camp" refusals - <.
    fails "refusals: input is closed" "standard input: Bad file descriptor" bash -c 'exec "$1" refusals - <&-' - "$camp"
    if [ "$(id -u)" -ne 0 ]; then
        cp $first.in "$work/closed" && chmod a-r "$work/closed"
        fails "refusals: a file that may not be read" "$work/closed: Permission denied" "$camp" refusals "$work/closed"
    fi
    runs "tools/camp from another folder" 0 $'camp: session: 0 of 57 keys refused\n' '' \
        bash -c 'cd "$1" && cp "$2/crates/desk/stdin" session && "$2/tools/camp" refusals session 2>/dev/null' - "$work" "$PWD"
}

# pairs FILE: the keys of a session, a bench and a byte each, one a line.
pairs() {
    od -An -v -t u1 -w2 "$1" | awk 'NF == 2 { print ($1 >= 48 && $1 <= 51 ? $1 - 48 : 255), $2 }'
}

# who_of FILE: what camp who prints of a session that leaves some item filled, by the reference's dump.
who_of() {
    local item sheet number bench entry times value names
    mapfile -t names < <(tail -n +2 $sessions/all_items.cif | cut -d ' ' -f 1)
    { echo "new 4096 0"; pairs "$1" | sed 's/^/k /'; echo dump; } | "$harness" reference-trace | tail -n 1 |
        sed 's/.* items=\([^ ]*\) .*/\1/' | tr ';' '\n' | while IFS=: read -r sheet number bench entry times value; do
        [ -n "$number" ] || continue
        item="sheet $sheet, item $number ${names[number - 1]}: bench $bench, entry $entry, typed $times time"
        [ "$times" = 1 ] || item+=s
        printf "%s: %b\n" "$item" "$(sed 's/../\\x&/g' <<<"$value")"
    done
}

# who_agrees NAME FILE: what camp who prints, of all items, of each, and of each sheet, and its exit, are those by the reference.
who_agrees() {
    local item sheet status
    who_of "$2" >"$work/told"
    "$camp" who --session "$2" >"$work/out" 2>&1
    status=$?
    if [ ! -s "$work/told" ]; then
        [ $status -eq 1 ] && [ "$(cat "$work/out")" = "camp: $2: every item is empty" ] && ok "$1" || fail "$1" "exit $status, $(head -n 1 "$work/out")"
        return
    fi
    for item in $(seq $items); do
        "$camp" who --session "$2" $item >>"$work/each" 2>&1
        [ $? -eq "$(grep -c ", item $item " "$work/told" | tr 012 100)" ] || echo "item $item: another exit" >>"$work/each"
    done
    { grep -v ' is empty$' "$work/each" | sort -s -k 1,2 | cmp -s - "$work/told"; } || status=3
    for sheet in 0 1; do
        "$camp" who --sheet $sheet --session "$2" 2>&1 | grep -v "^camp: .*: sheet $sheet: every item is empty\$"
    done >"$work/each"
    cmp -s "$work/each" "$work/told" || status=4
    rm "$work/each"
    if [ $status -ne 0 ]; then fail "$1" "exit $status"; else same "$1" "$work/told" "$work/out"; fi
}

who() {
    local input seed name line='sheet 0, item 4 _refine_ls_R_factor_gt: bench 0, entry 1, typed 1 time: 0.16'
    for name in 4 04 0000000000000000000000004 _refine_ls_R_factor_gt _REFINE_LS_R_FACTOR_GT; do
        runs "camp who: item $name" 0 "$line"$'\n' '' "$camp" who --session $first.in $name
    done
    runs "camp who: the session by standard input" 0 "$line"$'\nsheet 0, item 7 _refine_ls_wR_factor_obs: bench 1, entry 2, typed 1 time: 0.2\n' '' "$camp" who --session - <$first.in
    runs "camp who: an empty item" 1 "camp: $first.in: item 5 is empty"$'\n' '' "$camp" who --session $first.in _refine_ls_R_factor_obs
    runs "camp who: nothing typed" 1 $'camp: standard input: every item is empty\n' '' "$camp" who --session - </dev/null
    runs "camp who: an empty item of nothing typed" 1 $'camp: standard input: item 10 is empty\n' '' "$camp" who --session - 10 </dev/null
    runs "camp who: the owner of an unassigned value" 0 $'sheet 1, item 1 _chemical_formula_sum: bench 2, entry 2, typed 2 times: \'C10 H22\'\n' '' "$camp" who --session $sessions/items_of_others.in 1
    runs "camp who: a refused Enter is not counted" 0 $'sheet 1, item 2 _chemical_formula_weight: bench 3, entry 2, typed 2 times: 45.\n' '' \
        "$camp" who --session - < <(printf '%s\n' '_chemical_formula_weight 45.' '_chemical_formula_weight 45.' '_chemical_formula_weight 4 5' | typed 3)
    runs "camp who: an item of both sheets" 0 "$line"$'\nsheet 1, item 4 _refine_ls_R_factor_gt: bench 2, entry 5, typed 3 times: 0.2\n' '' "$camp" who --session $sessions/two_camps.in 4
    runs "camp who: an item of one sheet" 0 "$line"$'\n' '' "$camp" who --session $sessions/two_camps.in 4 --sheet 0
    runs "camp who: an item that is empty on one sheet" 1 "camp: $first.in: sheet 1: item 4 is empty"$'\n' '' "$camp" who --sheet 1 --session $first.in 4
    runs "camp who: an empty sheet" 1 "camp: $sessions/visitors_alone.in: sheet 0: every item is empty"$'\n' '' "$camp" who --sheet 0 --session $sessions/visitors_alone.in
    for name in 2 3 256 4294967296 18446744073709551615 99999999999999999999; do
        fails "who: sheet $name" "sheet $([ ${#name} -lt 20 ] && echo $name || echo 18446744073709551615): 12, $no_sheet" "$camp" who --sheet $name --session $first.in
    done
    for input in $sessions/*.in; do
        who_agrees "camp who: $(basename "$input" .in)" "$input"
    done
    for seed in {1..20}; do
        "$harness" desk-input "$seed" >"$work/generated"
        who_agrees "camp who: generated input $seed" "$work/generated"
    done
    # The guide's example.
    { echo '_refine_ls_R_factor_gt 0.16' | typed 0; echo '_refine_ls_wR_factor_obs 0.2' | typed 1; echo '_refine_ls_R_factor_gt 0.03' | typed 2; echo '_refine_ls_R_factor_gt 0.045' | typed 0; } >"$work/session"
    awk '/^    sheet / { print substr($0, 5) }' docs/guide/session.md >"$work/want"
    "$camp" who --session "$work/session" >"$work/out"
    same "camp who: the guide's example is true" "$work/want" "$work/out"
    "$camp" record "$work/session" "$work/stick.log"
    awk '/^    sheet .*, entry/ { print substr($0, 5) }' docs/guide/files.md >"$work/want"
    "$camp" history "$work/stick.log" >"$work/out"
    same "camp history: the guide's example is true" "$work/want" "$work/out"
    mkdir "$work/cut"
    head -c 39 "$work/stick.log" >"$work/cut/stick.log"
    runs "camp history: the guide's damaged log" 1 "$(sed '$d' "$work/want")"$'\n' "$(sed -n 's/^    \(camp: stick.log: byte \)/\1/p' docs/guide/files.md)"$'\n' \
        bash -c 'cd "$1" && "$2" history stick.log' - "$work/cut" "$camp"
    fails "who: no such file" "none: No such file or directory" "$camp" who --session none
    fails "who: a folder" "harness: Is a directory" "$camp" who 4 --session harness
    fails "who: input is closed" "standard input: Bad file descriptor" bash -c 'exec "$1" who --session - <&-' - "$camp"
}

# history_of LOG: what camp history prints of whole records, by walking their lengths.
history_of() {
    local names
    names=$(tail -n +2 $sessions/all_items.cif | cut -d ' ' -f 1 | tr '\n' ' ')
    od -An -v -t u1 -w1 "$1" | LC_ALL=C awk -v names="$names" '
        BEGIN { split(names, name, " ") }
        { byte[NR - 1] = $1 + 0 }
        END {
            for (at = 0; at < NR; at += length_of) {
                length_of = byte[at] + 256 * byte[at + 1]
                bench = byte[at + 4]
                sheet = int(bench / 2)
                printf "sheet %d, entry %d, bench %d: %s ", sheet, ++count[sheet], bench, name[byte[at + 5]]
                for (b = at + 6; b < at + length_of; b++) printf "%c", byte[b]
                print ""
            }
        }'
}

# damage_of LOG: what the reference answers to a log, number and byte.
damage_of() {
    { echo stick; echo "feed 1 $(od -An -v -tx1 "$1" | tr -d ' \n' | sed 's/^$/-/')"; } | "$harness" reference-trace | tail -n 1
}

# damaged NAME FILE: each command that reads the log tells its damage, by the reference's answer, with exit 1, and prints what it prints of a log that
# ends before it.
damaged() {
    local means=([18]="no record of an entry begins here" [19]="this record overwrites a value of another bench" [20]="the log ends inside this record")
    local number byte words status message wrong= tail
    read -r number byte < <(damage_of "$2")
    message="camp: $2: byte $byte: $number, ${means[number]-}; what stands before it was read"
    cp "$2" "$work/whole"
    for words in report history who 'cif x --log' 'report --json' 'history --json' 'who --json'; do
        head -c "$byte" "$work/whole" >"$2"
        "$camp" $words "$2" >"$work/want" 2>"$work/err"
        [ ! -s "$work/err" ] || wrong="$words, before the damage: $(head -c 200 "$work/err")"
        cp "$work/whole" "$2"
        "$camp" $words "$2" >"$work/out" 2>"$work/err"
        status=$?
        [ $status -eq 1 ] && [ "$(cat "$work/err")" = "$message" ] || wrong="$words: exit $status, $(head -c 200 "$work/err")"
        case $words in *--json)
            tail="{\"byte\":$byte,\"number\":$number,\"meaning\":\"${means[number]-}\"}}"
            sed -i "s/\"damage\":null}\$/\"damage\":$tail/" "$work/want"
            ;;
        esac
        [ -s "$work/want" ] || [ "$byte" -eq 0 ] || wrong="$words: nothing stands before the damage"
        cmp -s "$work/want" "$work/out" || wrong="$words: $(cmp "$work/want" "$work/out" 2>&1), $(head -c 200 "$work/out")"
    done
    if [ -n "$wrong" ]; then fail "$1" "$wrong"; else ok "$1"; fi
}

# powder_of FILE: a report for powder week, by the other one: rows 13 to 18, 20 and 21 are left out.
powder_of() {
    sed -E 's/^(1[3-8]|20|21) (R[0-9]+) .*/\1 \2 - 0/' "$1"
}

# read_fails FILE COMMAND..: the command with the file's bytes on standard input, and after them an error of reading: that of a terminal's other end, which
# is closed.
read_fails() {
    python3 -c '
import os, pty, subprocess, sys, tty
ours, theirs = pty.openpty()
tty.setraw(theirs)
os.write(theirs, open(sys.argv[1], "rb").read())
os.close(theirs)
sys.exit(subprocess.run(sys.argv[2:], stdin=ours).returncode)' "$@"
}

# From sessions to logs and back: what each command tells of a log is what it tells of the session.
logs() {
    local input name log at told
    mkdir "$work/logs"
    for input in $sessions/*.in; do
        name=$(basename "$input" .in) log=$work/logs/$(basename "$input" .in)
        runs "camp record: $name" 0 '' '' "$camp" record "$input" "$log"
        prints "camp report: $name" "${input%.in}.out" /dev/null "$camp" report "$log"
        prints "camp report: $name by standard input" "${input%.in}.out" "$log" "$camp" report -
        prints "camp report: $name from the session" "${input%.in}.out" /dev/null "$camp" report --session "$input"
        powder_of "${input%.in}.out" >"$work/powder"
        prints "camp report: $name, powder" "$work/powder" /dev/null "$camp" report "$log" --powder
        prints "camp report: $name from the session, powder" "$work/powder" /dev/null "$camp" report --powder --session "$input"
        prints "camp cif: $name from its log" "${input%.in}.cif" /dev/null "$camp" cif --log "$log" camp-1
        "$camp" who --session "$input" 2>&1 | sed "s|$input|$log|" >"$work/want"
        "$camp" who "$log" >"$work/out" 2>&1
        same "camp who: $name from its log" "$work/want" "$work/out"
        history_of "$log" >"$work/want"
        "$camp" history "$log" >"$work/out" 2>&1
        if [ -s "$log" ]; then same "camp history: $name" "$work/want" "$work/out"; else runs "camp history: $name" 0 '' '' "$camp" history "$log"; fi
        if command -v python3 >/dev/null; then
            for word in report history who; do
                "$camp" $word --json "$log" | python3 -c 'import json, sys; assert json.load(sys.stdin)["damage"] is None' 2>/dev/null && continue
                fail "camp $word --json: $name" "not JSON"
            done
        fi
    done
    log=$work/logs/two_camps
    runs "camp who: an item of a log" 0 $'sheet 1, item 4 _refine_ls_R_factor_gt: bench 2, entry 5, typed 3 times: 0.2\n' '' "$camp" who --sheet 1 "$log" _refine_ls_R_factor_gt
    runs "camp who: an empty item of a log" 1 "camp: $log: item 5 is empty"$'\n' '' "$camp" who "$log" 5
    runs "camp who: JSON of an empty item" 1 $'{"items":[],"damage":null}\n' '' "$camp" who --json "$log" 5
    runs "camp who: JSON" 0 $'{"items":[{"sheet":1,"item":1,"name":"_chemical_formula_sum","bench":3,"entry":4,"times":1,"value":"\'Br H\'"}],"damage":null}\n' '' "$camp" who --json --sheet 1 "$log" 1
    runs "camp history: a sheet" 0 "$(grep '^sheet 1' < <(history_of "$log"))"$'\n' '' "$camp" history "$log" --sheet 1
    runs "camp report: a sheet" 0 "$(sed -n '/^REPORT/h;/^REPORT/!H;${x;p;}' $sessions/two_camps.out)"$'\n' '' "$camp" report --sheet 1 "$log"
    runs "camp cif: the visitors' sheet of a log" 0 "$(cat $sessions/two_camps.visitors.cif)"$'\n' '' "$camp" cif camp-1 --log "$log" --sheet 1
    echo '_chemical_formula_sum "a\b"' | typed 0 | "$camp" record - "$work/logs/marks"
    runs "camp history: JSON of marks" 0 '{"entries":[{"sheet":0,"item":1,"name":"_chemical_formula_sum","bench":0,"entry":1,"times":1,"value":"\"a\\b\""}],"damage":null}'$'\n' '' "$camp" history --json "$work/logs/marks"
    : >"$work/logs/none"
    prints "camp report: an empty log" $sessions/empty.out /dev/null "$camp" report "$work/logs/none"
    runs "camp history: an empty log" 0 '' '' "$camp" history "$work/logs/none"
    runs "camp history: JSON of an empty log" 0 $'{"entries":[],"damage":null}\n' '' "$camp" history --json "$work/logs/none"
    runs "camp who: an empty log" 1 "camp: $work/logs/none: every item is empty"$'\n' '' "$camp" who "$work/logs/none"
    for name in report history who 'cif x --log'; do
        fails "$name: no such sheet of a log" "sheet 2: 12, $no_sheet" "$camp" $name "$log" --sheet 2
        fails "$name: no such log" "none: No such file or directory" "$camp" $name none
        fails "$name: a folder for a log" "harness: Is a directory" "$camp" $name harness
        fails "$name: a log by closed input" "standard input: Bad file descriptor" bash -c 'exec "$1" $2 - <&-' - "$camp" "$name"
    done
    fails "history: JSON of no such log" "none: No such file or directory" "$camp" history --json none
    if command -v python3 >/dev/null; then
        "$camp" history --json "$log" | sed 's/,"damage":null}$/}/' >"$work/want"
        runs "camp history: JSON of a log that cannot be read to its end" 1 "$(cat "$work/want")"$'\n' $'camp: standard input: Input/output error\n' read_fails "$log" "$camp" history --json -
        : >"$work/logs/none"
        runs "camp history: JSON of a log that cannot be read" 1 '' $'camp: standard input: Input/output error\n' read_fails "$work/logs/none" "$camp" history --json -
    else
        echo "skipped: a log that cannot be read to its end (no python3)"
    fi

    for at in $(seq 1 $(($(wc -c <"$log") - 1))); do
        head -c "$at" "$log" >"$work/logs/cut"
        [ "$(damage_of "$work/logs/cut")" = "0 0" ] || damaged "camp: a log cut after $at bytes" "$work/logs/cut"
    done
    for at in 0 1 2 3 4 5 6 9 10 13 40; do
        { head -c "$at" "$log"; printf '\377'; tail -c +$((at + 2)) "$log"; } >"$work/logs/other"
        damaged "camp: a log with byte $at damaged" "$work/logs/other"
    done
    { cat "$log"; "$camp" record - - < <(echo '_refine_ls_R_factor_gt 0.1' | typed 3); } >"$work/logs/foreign"
    damaged "camp: a log of before owners" "$work/logs/foreign"
    runs "camp history: before a foreign record" 1 "$("$camp" history "$log")"$'\n' "camp: $work/logs/foreign: byte $(wc -c <"$log"): 19, this record overwrites a value of another bench; what stands before it was read"$'\n' \
        "$camp" history "$work/logs/foreign"
    told="camp: $work/logs/foreign: byte $(wc -c <"$log"): 19, this record overwrites a value of another bench; what stands before it was read"
    runs "camp cif: a damaged log and a bad block name" 1 '' $'camp: block name \'a_b\': 11, not 1 to 32 letters, digits or -\n'"$told"$'\n' "$camp" cif a_b --log "$work/logs/foreign"
    runs "camp cif: a damaged log and no such sheet" 1 '' "camp: sheet 2: 12, $no_sheet"$'\n'"$told"$'\n' "$camp" cif x --sheet 2 --log "$work/logs/foreign"
    runs "camp cif: a damaged log and no such folder" 1 '' "camp: $work/none/a.cif: No such file or directory"$'\n'"$told"$'\n' "$camp" cif x --log "$work/logs/foreign" "$work/none/a.cif"
    head -c 100000 /dev/urandom >"$work/logs/random"
    damaged "camp: random bytes for a log" "$work/logs/random"
    for at in $(seq 9363); do printf '\007\0\001\0\002\0041'; done >"$work/logs/long"
    damaged "camp: a log beyond 65536 bytes" "$work/logs/long"
    runs "camp history: as many entries as 65536 bytes have" 1 $'9362\n' '' bash -o pipefail -c '"$1" history "$2" 2>/dev/null | grep -c "^sheet 1, entry"' - "$camp" "$work/logs/long"
    runs "camp history: a log without an end" 1 '' $'camp: standard input: byte 0: 18, no record of an entry begins here; what stands before it was read\n' bash -c '"$1" history - </dev/zero' - "$camp"
}

# The log under its name: whole, or as it was before.
record_file() {
    local folder=$work/record
    mkdir "$folder"
    "$camp" record $first.in - >"$work/first.log"
    runs "camp record: LOG" 0 '' '' "$camp" record $first.in "$folder/a.log"
    holds "camp record: LOG is written" "$folder" a.log "$work/first.log"
    runs "camp record: by standard input, again" 0 '' '' "$camp" record - "$folder/a.log" <$sessions/two_camps.in
    holds "camp record: LOG is replaced whole" "$folder" a.log "$work/logs/two_camps"
    fails "record: SESSION cannot be read" "none: No such file or directory" "$camp" record none "$folder/a.log"
    fails "record: LOG cannot grow" "$folder/a.log: File too large" bash -o pipefail -c \
        '{ (trap "" XFSZ; ulimit -f 0; exec "$1" record "$3" "$2") 2>&1 >&3 | cat >&2; } 3>&1' - "$camp" "$folder/a.log" $first.in
    fails "record: LOG is a folder" "$folder: not an ordinary file" "$camp" record $first.in "$folder"
    fails "record: no such folder" "$folder/none/a.log: No such file or directory" "$camp" record $first.in "$folder/none/a.log"
    holds "camp record: a refusal leaves LOG and nothing else" "$folder" a.log "$work/logs/two_camps"
}

# finds NAME STATUS MESSAGES LINE..: what camp symmetry tells of these lines; each message after 'camp: standard input: '.
finds() {
    local name=$1 status=$2 messages=$3
    shift 3
    runs "camp symmetry: $name" "$status" "$(sed 's/^/camp: standard input: /' <<<"$messages")"$'\n' '' "$camp" symmetry < <(printf '%b\n' "$@")
}

# stops NAME LINE COLUMN WHAT: a line that is no operator, where, and what is told of it.
stops() {
    finds "$1" 1 "line 1, column $3: 13, not an operator: $4" "$2"
}

# blocks PAGE NUMBER: that indented block of a page.
blocks() {
    awk -v number="$2" '/^    / { if (!on) count++; on = 1; if (count == number) print substr($0, 5); next } { on = 0 }' "$1"
}

symmetry() {
    local name product='17, a product is missing: that of'
    finds "the identity" 0 'a group of 1 operator' x,y,z
    finds "four operators" 0 'a group of 4 operators' x,y,z -x,1/2+y,1/2-z -x,-y,-z x,-y-1/2,z+1/2
    finds "in any order and spelling" 0 'a group of 4 operators' +x,-1/2-y,+z-1/2 -x,-y,-z -x,+1/2+y,-z+1/2 x,y,z
    finds "empty lines, comments and CRLF" 0 'a group of 2 operators' '# P -1\r' 'x,y,z\r' '\r' '' '#' '-x,-y,-z\r'
    runs "camp symmetry: no newline at the end" 0 $'camp: standard input: a group of 2 operators\n' '' "$camp" symmetry - < <(printf 'x,y,z\n-x,-y,-z')
    runs "camp symmetry: a carriage return at the very end" 0 $'camp: standard input: a group of 1 operator\n' '' "$camp" symmetry - < <(printf 'x,y,z\r')

    stops "an empty part" x,,z 3 '`,` cannot stand after `x,`'
    stops "two parts" x,y 4 '`x,y` ends too early'
    stops "four parts" x,y,z,x 6 '`,` cannot stand after `x,y,z`'
    stops "a space" 'x, y, z' 3 '` ` cannot stand after `x,`'
    stops "a space at the end" 'x,y,z ' 6 '` ` cannot stand after `x,y,z`'
    stops "quotes" "'x,y,z'" 1 "\`'\` cannot begin one"
    stops "a space first" ' # x' 1 '` ` cannot begin one'
    stops "a capital" X,y,z 1 '`X` cannot begin one'
    stops "a letter twice" x,y-y,z 5 '`y` cannot stand after `x,y-`'
    stops "a sign twice" x,y,--z 6 '`-` cannot stand after `x,y,-`'
    stops "a sign at the end" x,y,z- 7 '`x,y,z-` ends too early'
    stops "all letters and a sign" x,y,x+y+z- 11 '`x,y,x+y+z-` ends too early'
    stops "all letters, a fraction and a sign" x,y,1/2+x+y+z- 14 '`-` cannot stand after `x,y,1/2+x+y+z`'
    stops "4/4" x+4/4,y,z 5 '`4` cannot stand after `x+4/`'
    stops "a denominator of 5" x+1/5,y,z 5 '`5` cannot stand after `x+1/`'
    stops "numerator 0" x+0/2,y,z 3 '`0` cannot stand after `x+`'
    stops "numerator 8" 8/8+x,y,z 1 '`8` cannot begin one'
    stops "half a fraction" x,y,z+1/ 9 '`x,y,z+1/` ends too early'
    stops "a numerator alone" x,y,7 6 '`x,y,7` ends too early'
    stops "a fraction alone" x,1/2,z 6 '`,` cannot stand after `x,1/2`'
    stops "a fraction between letters" x+1/2+y,y,z 6 '`+` cannot stand after `x+1/2`'
    stops "two fractions" 1/2+x+1/2,y,z 7 '`1` cannot stand after `1/2+x+`'
    stops "a byte that is none" 'x,y\0,z' 4 '`\x00` cannot stand after `x,y`'
    stops "a carriage return inside" 'x,\ry,z' 3 '`\x0d` cannot stand after `x,`'
    stops "letters of others" 'x,y,\303\251' 5 '`\xc3` cannot stand after `x,y,`'
    finds "each line that is none" 1 $'line 2, column 2: 13, not an operator: `x` ends too early\nline 5, column 1: 13, not an operator: `q` cannot begin one' x,y,z x '' -x,-y,-z q x,y,z
    runs "camp symmetry: a line of a million bytes" 1 $'camp: standard input: line 1, column 2: 13, not an operator: `x` cannot stand after `x`\n' '' \
        "$camp" symmetry < <(head -c 1000000 /dev/zero | tr '\0' x)

    finds "determinants" 1 $'line 2: 14, the determinant is not 1 or -1: `x,x,z`\nline 4: 14, the determinant is not 1 or -1: `y+z,x+z,x+y`' x,y,z x,x,z -x,-y,-z y+z,x+z,x+y x,y,z
    finds "no identity" 1 '15, the identity x,y,z is missing' -x,-y,-z x+1/2,y,z -x,-y,-z
    finds "no operator" 1 '15, the identity x,y,z is missing: there is no operator' '# none'
    runs "camp symmetry: an empty file" 1 $'camp: standard input: 15, the identity x,y,z is missing: there is no operator\n' '' "$camp" symmetry - </dev/null
    finds "equal operators" 1 $'lines 2 and 5: 16, the same operator twice: `-x,y-1/2,-z` and `-x,1/2+y,-z`\nlines 1 and 6: 16, the same operator twice: `x,y,z` and `+x,+y,+z`' \
        x,y,z -x,y-1/2,-z '# again' -x,-y,-z -x,1/2+y,-z +x,+y,+z
    finds "one three times" 1 $'lines 1 and 2: 16, the same operator twice: `x,y,z` and `x,y,z`\nlines 1 and 3: 16, the same operator twice: `x,y,z` and `x,y,z`' x,y,z x,y,z x,y,z
    finds "the first pair has no product" 1 "line 1: $product \`-y,x,z\` applied after itself, which is \`-x,-y,z\`" -y,x,z x,y,z
    finds "the last pair has no product" 1 "line 4: $product \`-x,y,z+1/4\` applied after itself, which is \`x,y,z+1/2\`" '' x,y,z '' -x,y,z+1/4
    finds "a product without a text" 1 "lines 2 and 3: $product \`x+1/3,y,z\` applied after \`x+1/8,y,z\`" x,y,z x+1/3,y,z x+1/8,y,z x+2/3,y,z
    finds "a factor of 2" 1 "line 2: $product \`x+y,y,z\` applied after itself" x,y,z x+y,y,z
    finds "a pair between" 1 "lines 2 and 4: $product \`z,x,y\` applied after \`-y,x,z\`, which is \`z,-y,x\`" x,y,z z,x,y y,z,x -y,x,z
    finds "the second is applied first" 1 "lines 2 and 5: $product \`z,x,y\` applied after \`z,-y,x\`, which is \`x,z,-y\`" x,y,z z,x,y y,z,x -y,x,z z,-y,x

    { echo '# many'; yes x,y,z | head -n 200; } >"$work/many"
    runs "camp symmetry: 200 operators" 1 "camp: $work/many: line 194: 13, a list has at most 192 operators, and this one has 200"$'\n' '' "$camp" symmetry "$work/many"
    head -n 194 "$work/many" >"$work/193"
    runs "camp symmetry: 193 operators" 1 "camp: $work/193: line 194: 13, a list has at most 192 operators, and this one has 193"$'\n' '' "$camp" symmetry "$work/193"
    runs "camp symmetry: 192 operators" 1 $'191\n' '' bash -o pipefail -c 'head -n 193 "$2" | "$1" symmetry | grep -c "^camp: standard input: lines 2 and [0-9]*: 16, "' - "$camp" "$work/many"
    # The guide: its first block is the file, whole and without its last line.
    blocks docs/guide/symmetry.md 1 >"$work/operators"
    blocks docs/guide/symmetry.md 3 >"$work/want"
    blocks docs/guide/symmetry.md 4 >>"$work/want"
    (cd "$work" && "$camp" symmetry operators && sed -i '$d' operators && "$camp" symmetry operators) >"$work/out"
    same "camp symmetry: the guide's example is true" "$work/want" "$work/out"
    for name in 17 18; do
        "$harness" operator-lines $name 3000 >"$work/texts"
        "$harness" operator-answers "$work/texts" <"$work/texts" >"$work/want"
        "$camp" symmetry "$work/texts" >"$work/out" 2>&1
        same "camp symmetry: 3000 generated texts, seed $name" "$work/want" "$work/out"
    done
    fails "symmetry: no such file" "none: No such file or directory" "$camp" symmetry none
    fails "symmetry: a folder" "harness: Is a directory" "$camp" symmetry harness
    fails "symmetry: input is closed" "standard input: Bad file descriptor" bash -c 'exec "$1" symmetry <&-' - "$camp"
}

# hydrogen_of FORMULA WEIGHT: a session in which bench 0 types both, or one of them.
hydrogen_of() {
    { [ -z "$1" ] || echo "_chemical_formula_sum $1"; [ -z "$2" ] || echo "_chemical_formula_weight $2"; } | typed 0 >"$work/session"
}

# hydrogen_agrees NAME FILE: what camp hydrogen tells of each sheet is the reference's count or refusal, and its line to be typed.
hydrogen_agrees() {
    local sheet answer count want='' told='' state
    state=$({ echo "new 4096 0"; pairs "$2" | sed 's/^/k /'; echo dump; echo hyd 0; echo hyd 1; } | "$harness" reference-trace | tail -n 3)
    "$camp" hydrogen --session "$2" >"$work/out" 2>&1
    for sheet in 0 1; do
        head -n 1 <<<"$state" | grep -q "[=;]$sheet:[12]:" || continue
        read -r answer count <<<"$(sed -n $((sheet + 2))p <<<"$state")"
        want+="$sheet $answer $count $("$harness" hydrogen-line $sheet <"$2")|"
        told+=$(sed -n "s/^camp: .*: sheet $sheet: //p" "$work/out" | awk -v sheet=$sheet -v count="$count" '
            NR == 1 && /^2[23],/ { sub(/,.*/, ""); printf "%s %s 0 ", sheet, $0 }
            NR == 1 && /; it fits the weight / { printf "%s 0 %s ", sheet, count }
            NR == 1 && /; without H it would fit / { printf "%s 0 0 ", sheet }
            NR == 1 && /; H[0-9]* would fit / { sub(/.*; H/, ""); printf "%s 0 %s ", sheet, ($1 == "would" ? 1 : $1) }
            NR == 2 && sub(/^to be typed: /, "") { printf "%s", $0 }
            NR > 2 { printf "and %s", $0 }')"|"
    done
    if [ "$want" = "$told" ]; then ok "$1"; else fail "$1" "told '$told', reference '$want'"; fi
}

# camp hydrogen: the count that fits and the line to be typed; why there is none; every session.
hydrogen() {
    local formula weight status told line name
    while IFS='|' read -r formula weight status told line; do
        hydrogen_of "$formula" "$weight"
        [ -z "$line" ] || line=$'\n'"camp: $work/session: sheet 0: to be typed: _chemical_formula_sum $line"
        runs "camp hydrogen: $formula, $weight" "$status" "camp: $work/session: sheet 0: $told$line"$'\n' '' "$camp" hydrogen --session "$work/session"
        hydrogen_agrees "camp hydrogen: $formula, $weight, by the reference" "$work/session"
    done <<'END'
'C10 H20'|142.286|1|H20 typed; H21 would fit the weight 142.286, and so would H22 and H23|'C10 H21'
'C10 H22'|142.286|0|H22 typed; it fits the weight 142.286
C10|142.286(3)|1|no H typed; H21 would fit the weight 142.286(3), and so would H22 and H23|'C10 H21'
'C10 H20'|120.11|1|H20 typed; without H it would fit the weight 120.11, and so would H|'C10'
'C10 O'|138|1|no H typed; H would fit the weight 138, and so would H2 and H3|'C10 H O'
'C H4 O'|32.05|0|H4 typed; it fits the weight 32.05
'Br H'|90|1|H typed; H10 would fit the weight 90|'Br H10'
'Br Na'|110|1|no H typed; H6 would fit the weight 110, and so would H7 and H8|'Br H6 Na'
'Na O'|40|1|no H typed; H would fit the weight 40|'H Na O'
'Ag Cl'|145|1|no H typed; H would fit the weight 145, and so would H2 and H3|'Ag Cl H'
H2|30.24|1|H2 typed; H30 would fit the weight 30.24|'H30'
"C18 H10 N7 O8 S"|493.45|1|H10 typed; H15 would fit the weight 493.45, and so would H16 to H23|'C18 H15 N7 O8 S'
'C10 H20'|50|1|23, no count of hydrogens, 0 to 9999, fits the weight 50
'C10 H20'||1|22, the helper cannot start: no weight is typed
'C10 H20'|?|1|22, the helper cannot start: no weight is typed
|142.286|1|22, the helper cannot start: no formula is typed
?|142.286|1|22, the helper cannot start: no formula is typed
'C10H20'|142.286|1|22, the helper cannot start: row 1: a term of the formula cannot be read
'H20 C10'|142.286|1|22, the helper cannot start: row 2: the symbols of the formula are not in order, or one stands twice
'C10 H20 U'|142.286|1|22, the helper cannot start: a symbol of the formula has no weight here
END
    : >"$work/nothing"
    for line in "$work/nothing" "--session $work/nothing"; do
        runs "camp hydrogen: nothing typed, $line" 1 "camp: $work/nothing: neither a formula nor a weight is typed"$'\n' '' "$camp" hydrogen $line
    done
    runs "camp hydrogen: standard input" 1 $'camp: standard input: neither a formula nor a weight is typed\n' '' "$camp" hydrogen - </dev/null
    hydrogen_of "'C10 H20'" 142.286
    "$camp" record "$work/session" "$work/log"
    "$camp" hydrogen --session "$work/session" | sed "s|$work/session|$work/log|" >"$work/want"
    "$camp" hydrogen "$work/log" >"$work/out" 2>&1
    same "camp hydrogen: from a log" "$work/want" "$work/out"
    runs "camp hydrogen: the other sheet" 1 "camp: $work/log: neither a formula nor a weight is typed"$'\n' '' "$camp" hydrogen --sheet 1 "$work/log"
    fails "hydrogen: no such sheet" "sheet 2: 12, $no_sheet" "$camp" hydrogen "$work/log" --sheet 2
    printf '\7\0\2\0\0\1C' >>"$work/log"
    runs "camp hydrogen: a damaged log" 1 "$(cat "$work/want")"$'\n' "camp: $work/log: byte 28: 18, no record of an entry begins here; what stands before it was read"$'\n' "$camp" hydrogen "$work/log"
    for name in $sessions/*.in; do
        hydrogen_agrees "camp hydrogen: $(basename "$name" .in)" "$name"
    done
    for name in {1..30}; do
        "$harness" hydrogen-input "$name" >"$work/generated"
        hydrogen_agrees "camp hydrogen: generated input $name" "$work/generated"
    done
}

# Where some of the output is not written, it is told, and the exit is 1.
outputs() {
    local full="standard output: No space left on device" closed="standard output: Bad file descriptor" words
    # The same bytes each time: of a few lengths of its output camp tells another fault (docs/PORT.md).
    perl -e 'srand 7; print map { chr int rand 256 } 1 .. 200000' >"$work/bytes"
    for words in help 'help cif' 'cif --help' --version 'cif camp-1' 'cif camp-1 -' "refusals $first.in" "refusals $work/bytes" "who --session $first.in" "who --session $first.in 5" "record $first.in -" "report $work/logs/two_camps" "history $work/logs/two_camps" "who $work/logs/two_camps" symmetry "symmetry $work/many"; do
        if [ -c /dev/full ]; then
            fails "${words/$work\//}: output cannot be written" "$full" bash -c '"$1" $2 >/dev/full' - "$camp" "$words" <$first.in
        fi
        fails "${words/$work\//}: output is closed" "$closed" bash -c '"$1" $2 >&-' - "$camp" "$words" <$first.in
    done
    runs "camp: output is closed, and nothing to print" 2 '' $'camp: \'x\' is not a command; see \'camp help\'\n' bash -c '"$1" x >&-' - "$camp"
}

cif() {
    local input name word long
    long=$(printf 'a%.0s' {1..33})
    for input in $sessions/*.in; do
        name=$(basename "$input" .in)
        prints "camp cif: $name" "${input%.in}.cif" "$input" "$camp" cif camp-1
        prints "camp cif: $name, sheet 0" "${input%.in}.cif" "$input" "$camp" cif --sheet 0 camp-1
        if [ -e "${input%.in}.visitors.cif" ]; then word=${input%.in}.visitors.cif; else word=$sessions/empty.cif; fi
        prints "camp cif: $name, sheet 1" "$word" "$input" "$camp" cif camp-1 --sheet 1
    done
    for name in all_items quoted unassigned; do
        tail -n +2 $sessions/$name.cif | typed 1 >"$work/typed"
        prints "camp cif: $name typed back" $sessions/$name.cif "$work/typed" "$camp" cif camp-1
        tail -n +2 $sessions/$name.cif | typed 2 >"$work/typed"
        prints "camp cif: $name typed back by the visitors" $sessions/$name.cif "$work/typed" "$camp" cif --sheet 1 camp-1
    done
    for word in 2 255 18446744073709551615 99999999999999999999; do
        fails "cif: sheet $word" "sheet $([ ${#word} -lt 20 ] && echo $word || echo 18446744073709551615): 12, $no_sheet" "$camp" cif --sheet $word camp-1 <$first.in
    done
    fails "cif: sheet 2 before a bad block name" "sheet 2: 12, $no_sheet" "$camp" cif --sheet 2 camp_1 <$first.in
    runs "camp cif: block name --sheet" 0 $'data_--sheet\n' '' "$camp" cif --sheet 0 -- --sheet </dev/null
    summary "camp cif: 300 generated inputs" "$harness" cif-runs "$camp" 15 300
    for word in '' "$long" camp_1 'camp 1' camp/1 data_ .; do
        fails "cif: block name $(printf %q "$word")" "block name '$word': 11, not 1 to 32 letters, digits or -" "$camp" cif "$word" <$first.in
    done
    fails "cif: block name in two lines" "block name 'camp\\x0a': 11, not 1 to 32 letters, digits or -" "$camp" cif $'camp\n' <$first.in
    fails "cif: block name with an accent" "block name 'caf\\xc3\\xa9': 11, not 1 to 32 letters, digits or -" "$camp" cif $'caf\xc3\xa9' <$first.in
    runs "camp cif: block name of 32" 0 "data_${long:1}"$'\n' '' "$camp" cif "${long:1}" </dev/null
    runs "camp cif: block name -" 0 $'data_-\n' '' "$camp" cif - </dev/null
    runs "camp cif: block name --help" 0 $'data_--help\n' '' "$camp" cif --help - </dev/null
    prints "camp cif: - for FILE" $first.cif $first.in "$camp" cif camp-1 -
    fails "cif: input cannot be read" "standard input: Is a directory" "$camp" cif camp-1 <.
    fails "cif: input is closed" "standard input: Bad file descriptor" bash -c 'exec "$1" cif camp-1 <&-' - "$camp"
}

# The file under its name: whole, or as it was before.
cif_file() {
    local folder=$work/cif word refusal="11, not 1 to 32 letters, digits or -"
    mkdir "$folder"
    runs "camp cif: FILE" 0 '' '' "$camp" cif camp-1 "$folder/a.cif" <$first.in
    holds "camp cif: FILE is written" "$folder" a.cif $first.cif
    runs "camp cif: FILE has the rights of a new file" 0 $'640\n' '' \
        bash -c 'umask 027 && "$1" cif camp-1 "$2" <"$3" && stat -c %a "$2"' - "$camp" "$folder/a.cif" $first.in
    yes 'an older and longer file' | head -n 1000 >"$folder/a.cif"
    cp "$folder/a.cif" "$work/older"
    exec 7<"$folder/a.cif"
    runs "camp cif: FILE again" 0 '' '' "$camp" cif camp-1 "$folder/a.cif" <$first.in
    holds "camp cif: FILE is replaced whole" "$folder" a.cif $first.cif
    cat <&7 >"$work/open"
    exec 7<&-
    same "camp cif: the older file stays whole for its readers" "$work/older" "$work/open"
    runs "camp cif: FILE in this folder" 0 '' '' bash -c 'cd "$1" && "$2" cif camp-1 a.cif' - "$folder" "$camp" </dev/null
    holds "camp cif: FILE is replaced by a shorter one" "$folder" a.cif $sessions/empty.cif
    for word in '' camp_1 "$(printf 'a%.0s' {1..33})"; do
        fails "cif: block name '$word' with FILE" "block name '$word': $refusal" "$camp" cif "$word" "$folder/a.cif" <$first.in
        fails "cif: block name '$word' with a new FILE" "block name '$word': $refusal" "$camp" cif "$word" "$folder/b.cif" <$first.in
    done
    fails "cif: input cannot be read, with FILE" "standard input: Is a directory" "$camp" cif camp-1 "$folder/a.cif" <.
    misuse "cif: FILE and a third argument" "cif: 'x' is one argument too many; see 'camp help cif'" cif camp-1 "$folder/a.cif" x
    # Standard error goes through a pipe, since the limit on written files would cut it too.
    fails "cif: FILE cannot grow" "$folder/a.cif: File too large" bash -o pipefail -c \
        '{ (trap "" XFSZ; ulimit -f 0; exec "$1" cif camp-1 "$2") 2>&1 >&3 | cat >&2; } 3>&1' - "$camp" "$folder/a.cif" <$first.in
    holds "camp cif: a refusal leaves FILE and nothing else" "$folder" a.cif $sessions/empty.cif
    rm "$folder/a.cif"
    mkfifo "$folder/pipe"
    fails "cif: FILE is a pipe" "$folder/pipe: not an ordinary file" "$camp" cif camp-1 "$folder/pipe" <$first.in
    runs "camp cif: a pipe stays" 0 $'fifo\n' '' stat -c %F "$folder/pipe"
    rm "$folder/pipe"
    fails "cif: FILE is a folder" "$folder: not an ordinary file" "$camp" cif camp-1 "$folder" <$first.in
    fails "cif: no such folder" "$folder/none/a.cif: No such file or directory" "$camp" cif camp-1 "$folder/none/a.cif" <$first.in
    fails "cif: no such folder, in two lines" "$folder/no\\x0ane/a.cif: No such file or directory" "$camp" cif camp-1 "$folder/no"$'\n'"ne/a.cif" <$first.in
    fails "cif: a folder of the system" "/proc/a.cif: No such file or directory" "$camp" cif camp-1 /proc/a.cif <$first.in
    if [ "$(id -u)" -ne 0 ]; then
        chmod a-w "$folder"
        fails "cif: a folder that may not be written" "$folder/a.cif: Permission denied" "$camp" cif camp-1 "$folder/a.cif" <$first.in
        chmod u+w "$folder"
    fi
    holds "camp cif: nothing is left over" "$folder"
}

commands
examples
refusals
who
logs
record_file
symmetry
hydrogen
outputs
cif
cif_file
finish
