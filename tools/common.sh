# Sourced by the tools: finds the toolchain and builds what is missing or older than its sources.
. "$(dirname "${BASH_SOURCE[0]}")/help.sh"
tool=tools/$(basename "$0")
cd "$(dirname "${BASH_SOURCE[0]}")/.." || exit 2
PATH=$PATH:/opt/rattle/bin
export CARGO_TARGET_DIR=$PWD/build/cargo

# The C compiler and the terminal library are installed if they are missing; the toolchain and cargo have to be there.
ensure_programs() {
    command -v rt >/dev/null || { echo "$tool: the Rattle toolchain is not under /opt/rattle" >&2; return 1; }
    command -v cargo >/dev/null || { echo "$tool: cargo is missing (README.md, \"Three commands\")" >&2; return 1; }
    command -v gcc >/dev/null && [ -e /usr/include/ncurses.h ] || { apt-get update && apt-get install -y gcc libc6-dev libncurses-dev; } >&2
}
ensure_programs || exit 2

# The proved libraries that C and Rust link.
archives=(export_wall export_desk export_symmetry test_probe)

# stale FILE [SOURCE..]: it is missing, or some file of these sources is newer; without them, of crates/ (but what rt keeps there) or crates.txt.
stale() {
    local built=$1
    shift
    [ $# -gt 0 ] || set -- crates crates.txt
    [ ! -e "$built" ] || [ -n "$(find "$@" -type f ! -path '*/out/*' -newer "$built" -print -quit)" ]
}

# listed: the crates of crates.txt, in its order.
listed() {
    sed 's/#.*//' crates.txt | awk -F: 'NF > 1 { split($1, word, " "); print word[1] }'
}

# count_proved TOTAL: reads what `rt all check` prints and tells on standard error how many crates were
# looked at: on a terminal in one line that is rewritten, otherwise at the start and at the end.
count_proved() {
    local line number=0
    if [ -t 2 ]; then printf '%s: 0 of %d crates proved' "$tool" "$1" >&2; else echo "$tool: proving $1 crates, which takes minutes the first time; build/prove.log has what the prover says" >&2; fi
    while IFS= read -r line; do
        [[ $line == '== '* && $line != '== summary' ]] || continue
        number=$((number + 1))
        [ ! -t 2 ] || printf '\r%s: %d of %d crates proved' "$tool" "$number" "$1" >&2
    done
    if [ -t 2 ]; then echo >&2; else echo "$tool: $number of $1 crates proved" >&2; fi
}

# prove: proves every crate, as many at a time as there are processors, over what earlier runs kept in
# crates/NAME/out, and tells how far it is; not again until a file changes. All that rt prints goes to build/prove.log, which an error names.
prove() {
    stale build/proved || return 0
    mkdir -p build
    touch build/proving
    rt all check --jobs "$(nproc)" 2>&1 | tee build/prove.log | count_proved "$(listed | wc -l)"
    [ "${PIPESTATUS[0]}" -ne 0 ] || { mv build/proving build/proved; return 0; }
    echo "$tool: $(sed -n 's/^\([a-z_0-9]*\): .*/\1/p' build/prove.log | tail -n 1) was not proved; see build/prove.log" >&2
    return 1
}

# in_crate NAME COMMAND..: rt in that crate's folder; what it prints goes to build/prove.log, which an error names.
in_crate() {
    local name=$1
    shift
    (cd "crates/$name" && rt "$@") >>build/prove.log 2>&1 || { echo "$tool: $name was not built; see build/prove.log" >&2; return 1; }
}

# build_archive NAME..: proved static libraries, in target/staticlib, or those of the folder PROVED_LIBS as they are. The crate NAME_c makes libNAME.a.
build_archive() {
    local name old=()
    [ -z "${PROVED_LIBS-}" ] || return 0
    for name in "$@"; do
        ! stale "target/staticlib/lib$name.a" || old+=("$name")
    done
    [ ${#old[@]} -gt 0 ] || return 0
    prove || return 1
    mkdir -p target/staticlib
    for name in "${old[@]}"; do
        in_crate "${name}_c" lib && cp "crates/${name}_c/out/lib${name}_c.a" "target/staticlib/lib$name.a" || return 1
    done
}

build_archives() {
    build_archive "${archives[@]}"
}

# The comparison program.
build_harness() {
    cargo build --release --offline --quiet --manifest-path harness/Cargo.toml
}

# library NAME: the archive of that proved library.
library() {
    echo "${PROVED_LIBS:-target/staticlib}/lib$1.a"
}

# compile SOURCES PROGRAM NAME..: a C client of proved libraries; the sources may be a pattern, and a name -lNAME is a library of the system.
compile() {
    local sources=$1 program=$2 name used=()
    shift 2
    for name; do
        case $name in -l*) used+=("$name") ;; *) used+=("$(library "$name")") ;; esac
    done
    mkdir -p "$(dirname "$program")"
    gcc -std=c11 -O2 -Wall -Wextra -Werror -pedantic -Iinclude $sources "${used[@]}" -o "$program"
}

# The C client of the wall screen, of a library that is there.
build_client() {
    compile client/wall_screen.c build/wall_screen export_wall
}

# The program camp, the C client of the libraries export_desk and export_symmetry, in target/bin.
build_camp() {
    build_archive export_desk export_symmetry || return 1
    ! stale target/bin/camp client/camp include "$(library export_desk)" "$(library export_symmetry)" ||
        compile 'client/camp/*.c' target/bin/camp export_desk export_symmetry -lncurses -lpthread
}

# The program desk, proved, in target/bin.
build_desk() {
    stale target/bin/desk || return 0
    prove && in_crate desk run <crates/desk/stdin && mkdir -p target/bin && cp crates/desk/out/desk target/bin/desk
}

# build STEP..: what a tool needs, by these functions; they print to standard error and read nothing.
build() {
    local step
    for step in "$@"; do
        # shellcheck disable=SC2086
        $step >&2 </dev/null || return 1
    done
}

# from FOLDER NAME: standard input is from now on the file that a person named from that folder; - leaves it as it is. Fails where the file cannot be read.
from() {
    local path=$2
    case $path in
        -) return ;;
        /*) ;;
        *) path=$1/$path ;;
    esac
    [ -r "$path" ] && [ ! -d "$path" ] && exec <"$path" || { echo "$2: no file that can be read" >&2; return 1; }
}
