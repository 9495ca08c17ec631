# Sourced by test.sh, camp.sh, robust.sh and builds.sh: the programs, a temporary folder, and checks that are counted.
cd "$(dirname "${BASH_SOURCE[0]}")/.." || exit 2
harness=$PWD/build/cargo/release/harness
client=$PWD/build/wall_screen
desk=$PWD/target/bin/desk
camp=$PWD/target/bin/camp

# need PROGRAM..: ends the run where one is not built.
need() {
    local program
    for program; do
        [ -x "$program" ] || { echo "$program is missing: build it first" >&2; exit 2; }
    done
}
need "$harness" "$client"
work=$(mktemp -d) || exit 2
trap 'rm -rf "$work"' EXIT
passed=0
failed=0

ok() {
    passed=$((passed + 1))
    echo "ok $1"
}

fail() {
    failed=$((failed + 1))
    echo "FAIL $1: $2"
}

# prints NAME EXPECTED INPUT COMMAND..: exit 0, the file's bytes on standard output, and nothing on standard error.
prints() {
    local name=$1 expected=$2 input=$3
    shift 3
    "$@" <"$input" >"$work/out" 2>"$work/err"
    local status=$?
    if [ $status -ne 0 ]; then
        fail "$name" "exit $status, $(head -c 300 "$work/err" | tr '\n' ' ')"
    elif [ -s "$work/err" ]; then
        fail "$name" "standard error is '$(head -c 300 "$work/err" | tr '\n' ' ')'"
    elif ! cmp -s "$expected" "$work/out"; then
        fail "$name" "$(cmp "$expected" "$work/out" 2>&1)"
    else
        ok "$name"
    fi
}

# same NAME EXPECTED ACTUAL: two files are equal, and not empty.
same() {
    local difference
    if [ ! -s "$2" ]; then
        fail "$1" "nothing to compare"
    elif difference=$(diff -a "$2" "$3" 2>&1); then
        ok "$1"
    else
        fail "$1" "$(head -n 4 <<<"$difference" | tr '\n' ' ')"
    fi
}

# runs NAME STATUS EXPECTED-OUT EXPECTED-ERR COMMAND..: exit status and both outputs, to the byte.
runs() {
    local name=$1 status=$2
    printf %s "$3" >"$work/want.out"
    printf %s "$4" >"$work/want.err"
    shift 4
    "$@" >"$work/out" 2>"$work/err"
    local got=$?
    if [ $got -ne "$status" ]; then
        fail "$name" "exit $got, not $status"
    elif ! cmp -s "$work/want.out" "$work/out"; then
        fail "$name" "standard output is '$(tr '\0\n' '  ' <"$work/out" | head -c 200)'"
    elif ! cmp -s "$work/want.err" "$work/err"; then
        fail "$name" "standard error is '$(head -c 200 "$work/err")'"
    else
        ok "$name"
    fi
}

# holds NAME FOLDER FILE CONTENT: the folder holds that file alone, with the content of another; without FILE it is empty.
holds() {
    if [ "$(ls -A "$2")" != "${3-}" ]; then
        fail "$1" "the folder holds '$(ls -A "$2" | tr '\n' ' ')'"
    elif [ $# -eq 2 ]; then
        ok "$1"
    else
        same "$1" "$4" "$2/$3"
    fi
}

# summary NAME COMMAND..: ends with 'N passed, 0 failed', N not 0.
summary() {
    local name=$1 status last
    shift
    "$@" >"$work/out" 2>&1
    status=$?
    last=$(tail -n 1 "$work/out")
    if [ $status -eq 0 ] && [[ $last =~ ^[1-9][0-9]*\ passed,\ 0\ failed$ ]]; then
        ok "$name ($last)"
    else
        grep -av '^  ' "$work/out" | tail -n 40
        fail "$name" "exit $status, $last"
    fi
}

# part NAME COMMAND..: checks that run beside other parts, as many at once as there are processors, with a folder of their own below $work.
parts=()
part() {
    local name=$1
    shift
    while [ "$(jobs -rp | wc -l)" -ge "$(nproc)" ]; do wait -n; done
    mkdir "$work/$name"
    parts+=("$name")
    (
        work=$work/$name passed=0 failed=0
        "$@"
        echo "$passed passed, $failed failed"
    ) >"$work/$name.said" 2>&1 &
}

# parts_ended: waits for the parts, prints what they said in their order, and counts it. One that was cut off before its last line has failed.
parts_ended() {
    local name
    wait
    for name in "${parts[@]}"; do
        if [[ $(tail -n 1 "$work/$name.said") =~ ^([0-9]+)\ passed,\ ([0-9]+)\ failed$ ]]; then
            sed '$d' "$work/$name.said"
            passed=$((passed + BASH_REMATCH[1]))
            failed=$((failed + BASH_REMATCH[2]))
        else
            cat "$work/$name.said"
            fail "part $name" "it did not end"
        fi
    done
    parts=()
}

# finish: the count of all checks.
finish() {
    echo "$passed passed, $failed failed"
    [ $failed -eq 0 ]
}
