#!/usr/bin/env bash
# Runs other builds of the same source, since no proof covers the compiler: on the interpreter and with the compiler's assumptions checked, as 'rt try'
# runs it; as LLVM builds it; and as Rattle's own compiler does, at two levels; and holds all that they answer equal to the reference's.
#   harness/builds.sh           some minutes, as tools/test runs it
#   harness/builds.sh --long    longer: 40,000 sequences by LLVM's build, 8,000 and 8,000 by those of Rattle's own compiler, and the
#                               whole comparison with archives by Rattle's own compiler, 4,000 sequences, and as they are, 40,000
# Needs the built harness and programs. Prints one line for each check and at the end 'N passed, M failed'.
set -u
case "$*" in
    '') long= ;;
    --long) long=1 ;;
    *) echo "usage: harness/builds.sh [--long]" >&2; exit 2 ;;
esac
. "$(dirname "$0")/checks.sh"
need "$desk"
PATH=$PATH:/opt/rattle/bin
archives=(export_wall export_desk export_symmetry test_probe)
# The folder of the kept builds, in the parts too.
kept=$work

# piece NAME COMMAND..: some of the checks, in the long form a part beside others.
piece() {
    if [ -n "$long" ]; then part "$@"; else "${@:2}"; fi
}

# The kept builds: number, name, and the words with which rt makes each.
builds=('1 LLVM' '2 Rattle, level 0' '3 Rattle, level 2')
flags=([1]='' [2]='--backend rattle --opt-level 0' [3]='--backend rattle --opt-level 2')

# kept_builds NAME STDIN: the program's builds, in a folder of its name.
kept_builds() {
    local build number
    mkdir -p "$kept/$1"
    for build in "${builds[@]}"; do
        number=${build%% *}
        # shellcheck disable=SC2086
        (cd "crates/$1" && rt run ${flags[number]} <"$2" >"$work/run.out" 2>"$work/run.err") && cp "crates/$1/out/$1" "$kept/$1/$number" ||
            fail "$1, ${build#* }" "is not built: $(tail -n 3 "$work/run.err" | tr '\n' ' ')"
    done
    ! cmp -s "$kept/$1/1" "$kept/$1/2" && ! cmp -s "$kept/$1/2" "$kept/$1/3" || fail "$1" "two builds are the same"
}

# tried NAME CRATE FOLDER: the interpreter and the checked build of a program both write, for each file of the folder, what FILE.stdout has. The interpreter is
# given ten times the steps that it has by itself: an iterator takes more of them than a loop with an index.
tried() {
    local wanted
    wanted=$(find "$3" -type f ! -name '*.stdout' | wc -l)
    (cd "crates/$2" && rt try --steps 200000000 --cases "$3") >"$work/tried" 2>&1
    if [ "$wanted" -gt 0 ] && [ "$(grep -c '^case=.* runners=2 output=expected ' "$work/tried")" -eq "$wanted" ] &&
        grep -q "^cases=$wanted ended=$wanted fault=0 differs=0 no-answer=0 " "$work/tried"; then
        ok "$1"
    else
        grep -v ' runners=2 output=expected ' "$work/tried" | tail -n 5 | cut -c 1-300
        fail "$1" "not by both, or not what is expected"
    fi
}

# The program desk by one of the kept builds: the stored sessions, and so many generated inputs.
desk_build() {
    local build=$1 runs=$2 input
    local of=$kept/desk/${build%% *} name="desk, ${build#* }"
    for input in harness/desk-sessions/*.in; do
        prints "$name: $(basename "$input" .in)" "${input%.in}.out" "$input" "$of"
    done
    summary "$name: $runs generated inputs" "$harness" desk-runs "$of" 31 "$runs"
}

# sessions FOLDER INPUT..: stored sessions as cases of 'rt try'.
sessions() {
    local folder=$1 input
    shift
    mkdir -p "$folder"
    for input; do
        cp "$input" "$folder/$(basename "$input" .in)" && cp "${input%.in}.out" "$folder/$(basename "$input" .in).stdout"
    done
}

# The program desk.
desk_builds() {
    # The interpreter takes a limited number of steps, so the short sessions alone.
    local build
    local -A runs=([1]=300 [2]=60 [3]=60)
    [ -z "$long" ] || runs=([1]=5000 [2]=1000 [3]=1000)
    if [ -z "$long" ]; then
        sessions "$work/sessions" harness/desk-sessions/odd_last_enter.in
    else
        # shellcheck disable=SC2046
        sessions "$work/sessions" $(find harness/desk-sessions -name '*.in' -size -57c | sort)
    fi
    tried "desk, interpreted and checked: $(find "$work/sessions" -name '*.stdout' | wc -l) sessions" desk "$work/sessions"
    kept_builds desk "$PWD/crates/desk/stdin"
    for build in "${builds[@]}"; do
        piece "desk${build%% *}" desk_build "$build" "${runs[${build%% *}]}"
    done
}

# generated SEED NUMBERS..: so many generated sequences by each of the kept builds, each sequence with lines, values, sheets and files.
generated() {
    local seed=$1 build number
    shift
    mkdir -p "$work/frames"
    for build in "${builds[@]}"; do
        number=$1
        shift
        "$harness" frames "$seed" "$number" "$work/frames" || fail "frames" "seed $seed is not written"
        prints "library, ${build#* }: $number generated sequences, seed $seed" "$work/frames/stdout" "$work/frames/stdin" "$kept/test_caller/${build%% *}"
    done
    rm -r "$work/frames"
}

# The calls of the library, through the program test_caller: the measured examples interpreted and checked, then the fixed lists and generated sequences by the kept builds.
library_builds() {
    local build seed part number=0
    mkdir -p "$work/examples" "$work/lists" "$work/parts"
    "$harness" example-frames "$work/examples" && "$harness" frames "$work/lists" || fail "frames" "not written"
    for part in "$work"/examples/*; do
        number=$((number + 1))
        cp "$part/stdin" "$work/parts/${part##*/}" && cp "$part/stdout" "$work/parts/${part##*/}.stdout"
    done
    tried "library, interpreted and checked: measured examples, $number parts" test_caller "$work/parts"
    kept_builds test_caller "$PWD/crates/test_caller/stdin"
    for build in "${builds[@]}"; do
        for part in "$work"/examples/*; do
            prints "library, ${build#* }: measured examples, part ${part##*/}" "$part/stdout" "$part/stdin" "$kept/test_caller/${build%% *}"
        done
        piece "lists${build%% *}" prints "library, ${build#* }: fixed lists" "$kept/lists/stdout" "$kept/lists/stdin" "$kept/test_caller/${build%% *}"
    done
    if [ -z "$long" ]; then
        generated 32 2000 400 400
        return
    fi
    # A sequence makes some 630 calls, each of which looks through the whole desk: in a part each build takes some ten seconds.
    for seed in $(seq 40); do
        part "generated$seed" generated "$seed" 1000 200 200
    done
}

# compared NAME PROGRAM COUNT: the whole comparison by one program, with so many lines.
compared() {
    summary "$1" "$2" compare --count "$3"
    grep -a -E '^(fixed seed|measured|sequences)' "$work/out"
}

# The archives by Rattle's own compiler in place of LLVM, and the whole comparison with them.
archives_by_rattle() {
    local name
    mkdir "$work/archives"
    for name in "${archives[@]}"; do
        (cd "crates/${name}_c" && rt lib --backend rattle) >"$work/lib.out" 2>&1 && cp "crates/${name}_c/out/lib${name}_c.a" "$work/archives/lib$name.a" ||
            { fail "archives by Rattle's compiler" "$name is not built: $(tail -n 3 "$work/lib.out" | tr '\n' ' ')"; return; }
    done
    PROVED_LIBS=$work/archives CARGO_TARGET_DIR=$PWD/build/cargo-rattle cargo build --release --offline --quiet --manifest-path harness/Cargo.toml ||
        { fail "archives by Rattle's compiler" "the harness is not built"; return; }
    compared "archives by Rattle's compiler" "build/cargo-rattle/release/harness" 200000
}

if [ "$(uname -m)" = x86_64 ]; then
    # The longest parts begin first.
    if [ -n "$long" ]; then
        part rattle archives_by_rattle
        part proved compared "archives as proved, by LLVM" "$harness" 2000000
    fi
    library_builds
    desk_builds
    parts_ended
else
    echo "skipped: other builds (they are for x86-64)"
fi
finish
