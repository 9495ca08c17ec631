#!/usr/bin/env bash
# Tests the running desk (camp run): killed at random moments, a log that is torn, full, locked or damaged, a disk that fails or is slow,
# keypads that go and come back, the counsellor's console, the screen in a real terminal, how soon a key is shown, and memory.
#   harness/run.sh           as tools/test runs it: logs, keypads, the console, 10 kills, the screen at 80x24; no check goes by the clock
#   harness/run.sh --live    that with 25 kills, and larger screens, how soon a key is shown, memory; a minute on a quiet machine
#   harness/run.sh --long    the same with 300 kills, two minutes of typing, a million keys
# Needs the built harness, client and camp, and python3. Prints one line for each check and at the end 'N passed, M failed'.
set -u
case "$*" in
    '') kills=10 load=0 ;;
    --live) kills=25 load=10 keys=30000 ;;
    --long) kills=300 load=60 keys=1000000 ;;
    *) echo "usage: harness/run.sh [--live | --long]" >&2; exit 2 ;;
esac
. "$(dirname "$0")/checks.sh"
need "$camp"
sessions=harness/desk-sessions
first=$sessions/document_01.in
library=$work/sync_fails.so

# driven WHAT..: a part of run_desk.py, its checks counted.
driven() {
    timeout 600 python3 harness/run_desk.py "$camp" "$@" >"$work/told" 2>&1
    local status=$?
    cat "$work/told"
    passed=$((passed + $(grep -c '^ok ' "$work/told")))
    failed=$((failed + $(grep -c '^FAIL ' "$work/told")))
    [ $status -eq 0 ] || fail "run_desk.py $1" "exit $status"
}

# misuse NAME MESSAGE ARGUMENT..: wrong use, told in this one line.
misuse() {
    local name=$1 message=$2
    shift 2
    runs "camp run: $name" 2 '' "camp: run: $message; see 'camp help run'"$'\n' timeout 10 "$camp" run "$@" </dev/null
}

misuses() {
    local device="is not a bench, 0 to 3, = and a device" word
    misuse "no input" "--bench or --pairs, what the keys come from, is missing" --log "$work/log"
    misuse "no log" "--log, the file of the log, is missing" --pairs $first
    misuse "both" "--pairs and --bench do not go together" --log "$work/log" --pairs $first --bench 0=/dev/null
    for word in 4=/dev/null 0 0= =/dev/null 00=/dev/null x=/dev/null ''; do
        misuse "--bench '$word'" "'$word' $device" --log "$work/log" --bench "$word"
    done
    misuse "a bench twice" "'0=/dev/zero' is of a bench that stands twice" --log "$work/log" --bench 0=/dev/null --bench 0=/dev/zero
    misuse "a device twice" "'1=/dev/null' is the device of another bench" --log "$work/log" --bench 0=/dev/null --bench 1=/dev/null
    misuse "--bench alone" "'--bench' lacks what belongs to it" --log "$work/log" --bench
    misuse "a speed" "'9601' is not a speed of serial lines" --log "$work/log" --bench 0=/dev/null --speed 9601
    misuse "log to standard output" "'-' is not the name of a file" --log - --pairs $first
    misuse "an argument" "'x' is one argument too many" --log "$work/log" --pairs $first x
    misuse "an option" "'--force' is not an option" --log "$work/log" --pairs $first --force
    if [ -e "$work/log" ]; then fail "camp run: wrong use makes no log" "it is there"; else ok "camp run: wrong use makes no log"; fi
}

# stops NAME MESSAGE LOG [BEFORE..]: the desk does not start, told in one line, exit 1; BEFORE are words before the command.
stops() {
    local name=$1 message=$2 log=$3
    shift 3
    runs "camp run: $name" 1 '' "camp: $message"$'\n' "$@" timeout 10 "$camp" run --plain --log "$log" --pairs $first </dev/null
}

# The log that cannot be had.
logs() {
    local folder=$work/logs tries nobody=(setpriv --reuid=65534 --regid=65534 --clear-groups)
    mkdir "$folder"
    chmod 755 "$work" "$folder"
    stops "the log is a folder" "$folder: Is a directory" "$folder"
    ln -s none/none "$folder/link"
    stops "the log is a link to nothing" "$folder/link: No such file or directory" "$folder/link"
    stops "no such folder" "$folder/none/log: No such file or directory" "$folder/none/log"
    mkfifo "$folder/pipe"
    stops "the log is a pipe" "$folder/pipe: not an ordinary file" "$folder/pipe"
    stops "the log is a device" "/dev/null: not an ordinary file" /dev/null
    printf '\n\0\001\0\0\0040.16' >"$folder/log"
    cp "$folder/log" "$work/before"
    [ "$(id -u)" -eq 0 ] || nobody=()
    chmod 444 "$folder/log"
    stops "the log is read-only" "$folder/log: Permission denied" "$folder/log" "${nobody[@]}"
    chmod 000 "$folder/log"
    stops "the log may not be read" "$folder/log: Permission denied" "$folder/log" "${nobody[@]}"
    stops "the folder may not be written" "$folder/new: Permission denied" "$folder/new" "${nobody[@]}"
    chmod 644 "$folder/log"
    same "camp run: a log that cannot be had stays" "$work/before" "$folder/log"
    # Two programs at once; the second by another name of the file.
    mkfifo "$work/console"
    ln "$folder/log" "$folder/again"
    "$camp" run --plain --log "$folder/log" --bench 0=/dev/null <"$work/console" >"$work/one" &
    exec 8>"$work/console"
    for ((tries = 0; tries < 500; tries++)); do
        ! grep -q 'bytes left' "$work/one" || break
        sleep 0.02
    done
    stops "two programs" "$folder/log: another program writes this log" "$folder/log"
    stops "two programs, by another name" "$folder/again: another program writes this log" "$folder/again"
    runs "camp record over the log of a running desk" 1 '' "camp: $folder/log: another program writes this file"$'\n' "$camp" record $first "$folder/log"
    runs "camp cif over the log of a running desk" 1 '' "camp: $folder/again: another program writes this file"$'\n' "$camp" cif camp-1 "$folder/again" <$first
    same "camp run: the log of a running desk stays" "$work/before" "$folder/log"
    echo quit >&8
    wait $!
    exec 8>&-
    runs "camp run: the log is free again" 0 "$folder/log: 1 entry, 65526 of 65536 bytes left"$'\n'"pairs: standard input is open"$'\n'"pairs: standard input is at its end"$'\n'"$folder/log: 1 entry, 65526 of 65536 bytes left"$'\n' '' \
        timeout 10 "$camp" run --plain --log "$folder/log" --pairs - < <(:)
}

# shut NAME N: with standard stream N shut, the log has the records and nothing else.
shut() {
    rm -f "$work/shut" "$work/recorded"
    "$camp" record $first "$work/recorded"
    case $2 in
        0) timeout 10 "$camp" run --plain --log "$work/shut" --pairs $first <&- >"$work/out" 2>"$work/err" ;;
        1) timeout 10 "$camp" run --plain --log "$work/shut" --pairs $first </dev/null >&- 2>"$work/err" ;;
        2) timeout 10 "$camp" run --plain --log "$work/shut" --pairs $first </dev/null >"$work/out" 2>&- ;;
    esac
    local status=$?
    if [ $status -ne 0 ]; then fail "camp run: $1 is shut" "exit $status"; else same "camp run: $1 is shut" "$work/recorded" "$work/shut"; fi
}

# A session played by pairs leaves the log that camp record writes, whatever the session is.
played() {
    local input name
    for input in $sessions/*.in; do
        name=$(basename "$input" .in)
        # These are of the shorter log of the program desk.
        [[ $name != log_* ]] || continue
        rm -f "$work/played" "$work/recorded"
        "$camp" record "$input" "$work/recorded"
        timeout 20 "$camp" run --plain --log "$work/played" --pairs "$input" </dev/null >"$work/out" 2>"$work/err"
        if [ -s "$work/err" ] || LC_ALL=C grep -q '[^ -~]' "$work/out"; then
            fail "camp run: $name" "$(head -c 200 "$work/err")"
        elif cmp -s "$work/recorded" "$work/played"; then
            ok "camp run: $name leaves its log"
        else
            fail "camp run: $name leaves its log" "$(cmp "$work/recorded" "$work/played" 2>&1)"
        fi
    done
}

# A small file system, where one may be made.
full() {
    mkdir "$work/small"
    if mount -t tmpfs -o size=8k tmpfs "$work/small" 2>/dev/null; then
        driven full "$work/small"
        umount "$work/small"
    else
        echo "skipped: a file system that runs full (none may be mounted)"
    fi
    driven limit
}

# A disk that fails when it is flushed or a file cut, or that takes its time: a library before the system's.
disks() {
    if gcc -std=c11 -O1 -Wall -Wextra -Werror -shared -fPIC harness/sync_fails.c -o "$library"; then
        driven torn "$library"
        driven sync "$library"
        driven saving "$library"
        driven fifo "$library"
    else
        fail "camp run: a disk that fails" "the library for it is not built"
    fi
}

# screen: what the terminal shows.
screen() {
    tmux -L "$server" capture-pane -p
}

# shows NAME PATTERN..: soon the terminal shows each pattern; how soon is not tested here.
shows() {
    local name=$1 pattern tries=0
    shift
    while :; do
        screen >"$work/screen"
        for pattern; do
            grep -qE -e "$pattern" "$work/screen" || break
            pattern=
        done
        [ -n "$pattern" ] || break
        tries=$((tries + 1))
        [ $tries -lt 400 ] || { fail "$name" "no '$pattern'"; cat "$work/screen"; return; }
        sleep 0.05
    done
    if LC_ALL=C grep -q '[^ -~]' "$work/screen"; then fail "$name" "a byte that is not 32 to 126"; else ok "$name"; fi
}

# screens COLUMNS ROWS: the desk in a terminal of this size.
screens() {
    local size="$1x$2" long bench names
    mapfile -t names < <(grep -o '`_[a-zA-Z_/]*`' docs/guide/items.md | tr -d '`' | head -n 19)
    local narrow=$([ "$1" -lt 100 ] && echo 1)
    server=run$$-$1
    rm -rf "$work/pads" && mkdir "$work/pads"
    for bench in 0 1 2 3; do mkfifo "$work/pads/$bench"; done
    tmux -L "$server" -f /dev/null new-session -d -x "$1" -y "$2" "TERM=${3-screen-256color} '$camp' run --log '$work/pads/log' --bench 0='$work/pads/0' --bench 1='$work/pads/1' --bench 2='$work/pads/2' --bench 3='$work/pads/3'; echo ended \$?; sleep 60"
    exec 4<>"$work/pads/0" 5<>"$work/pads/1" 6<>"$work/pads/2" 7<>"$work/pads/3"
    shows "screen $size: no sheet" '^ THE DESK   0 entries, room for 65536 of 65536 bytes in ' '^ BENCH 3  visitors' '^ SHEET 0 our camp: 0 typed, 15 alerts *[|] SHEET 1 visitors: 0 typed, 15 alerts' ' C  01 formula missing' '^ desk>'
    printf '_refine_ls_R_fac' >&4
    printf '\303\251\033[2J\007' >&5
    printf '_refine_ls_R_factor_gt 0.25\n' >&6
    printf '_refine_ls_shift/su_max abc\n' >&7
    shows "screen $size: lines and answers" 'BENCH 0  our camp *_refine_ls_R_fac' 'That key does nothing here' 'Thank you! Entry 1 of sheet 1 is kept' 'BENCH 3 .* _refine_ls_shift/su_max abc' 'This item wants a number such as' ' A  06 R factor too high'
    printf 'tor_gt 0.16\n_refine_ls_wR_factor_obs 0.2\n' >&4
    printf '\030_chemical_formula_sum "C18 H19 N7 O8 S"\n_chemical_formula_weight 493\n_publ_requested_category FO\n' >&5
    shows "screen $size: alerts of every level" ' B  06 R factor too high' "$([ "$narrow" ] && echo 'and [0-9]* alerts more' || echo ' G  09 wR factor by its old name')" ' C  10 shift missing' ' A  06 ' 'SHEET 0 our camp: 5 typed'
    printf '_refine_ls_R_factor_obs 1\n_refine_ls_wR_factor_ref 1\n_refine_ls_shift/su_max 1\n_refine_ls_shift/esd_max 1\n' >&4
    printf '_reflns_threshold_expression "I > 2\\s(I)"\n' >&5
    shows "screen $size: items by both benches" 'SHEET 0 our camp: 10 typed' "$([ "$narrow" ] && echo 'older items more' || echo '10 _reflns_threshold_expression "I > 2\\s\(I\)" *bench 1, entry')"
    # All items of the list on both sheets, each once.
    printf '%s ?\n' "${names[@]:10}" >&4
    printf '%s ?\n' "${names[@]:0:3}" "${names[@]:4}" >&6
    shows "screen $size: full sheets" 'SHEET 0 our camp: 19 typed, .*SHEET 1 visitors: 19 typed' "$([ "$narrow" ] && echo 'older items more.*[|].*older items more' || echo '19 _chemical_formula_moiety [?].*[|] ?19 _chemical_formula_moiety [?]')"
    long=$(printf '_%.0s' {1..199})x
    printf '%sy' "$long" >&6
    shows "screen $size: a line of 200 bytes" 'BENCH 2  visitors  <_*x( |$)' 'The line is full: press Enter, or erase'
    tmux -L "$server" send-keys "who 4" Enter
    shows "screen $size: the console" 'sheet 0, item 4 _refine_ls_R_factor_gt: bench 0, entry 1, typed 1 time: 0.16' 'Enter shows the sheets again'
    tmux -L "$server" send-keys history Enter
    shows "screen $size: history" 'sheet 1, entry 1, bench 2: _refine_ls_R_factor_gt 0.25' '(Page Down|Enter) shows?'
    tmux -L "$server" send-keys Enter C-s C-z
    printf '\030_' >&7
    shows "screen $size: Ctrl-S and Ctrl-Z stop nothing" 'BENCH 3  visitors *_ *$'
    tmux -L "$server" resize-window -x 50 -y 16
    shows "screen $size: made smaller" '^ THE DESK' 'BENCH 3  visitors' 'SHEET 0 our camp' '^ desk>'
    tmux -L "$server" resize-window -x 12 -y 3
    sleep 0.2
    tmux -L "$server" resize-window -x "$1" -y "$2"
    shows "screen $size: as it was" 'SHEET 1 visitors: 19 typed' 'BENCH 0  our camp'
    exec 4>&-
    tmux -L "$server" send-keys quit Enter
    shows "screen $size: quit" '^ended 0$' 'bytes left'
    exec 5>&- 6>&- 7>&-
    tmux -L "$server" kill-server
}

ensure_tmux() {
    command -v tmux >/dev/null || { [ "$(id -u)" -eq 0 ] && apt-get update && apt-get install -y tmux; } >/dev/null 2>&1
    command -v tmux >/dev/null
}

misuses
logs
shut "standard input" 0
shut "standard output" 1
shut "standard error" 2
played
full
disks
driven removed
driven inputs
driven signals
driven console
driven screen 80 24
driven screen 12 3
driven terminal
driven kills "$kills" 29
ensure_tmux && tmux=1 || { tmux= && echo "skipped: the screen in a terminal (tmux is not there, and cannot be installed)"; }
[ ! "$tmux" ] || screens 80 24
if [ "$load" -gt 0 ]; then
    [ ! "$tmux" ] || { screens 200 60; screens 80 24 vt100; }
    driven load "$load" "$library"
    driven load "$load" "$library" 100
    driven memory "$keys"
fi
finish
