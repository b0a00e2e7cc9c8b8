# What the checks and the benchmarks share: the programs of the repository, built where they are missing or older than a
# source, and what a script prints. A script sources this file at the top of the repository.
# shellcheck shell=bash

name=$(basename "$0" .sh)
work=$(mktemp -d)
trap 'rm -rf "$work"' EXIT

# shellcheck disable=SC2034 # the scripts read it
rvsnap=crates/rvsnap/out/rvsnap

say() {
    echo "$name: $*"
}

fail() {
    say "$*"
    exit 1
}

skip() {
    say "skipped, since $*"
    exit 0
}

has() {
    command -v "$1" > "$work/found"
}

# is_built PROGRAM SOURCE...: the program is there, and no source is newer.
is_built() {
    local program=$1
    shift
    [ -x "$program" ] && [ -z "$(find "$@" -newer "$program" -print -quit)" ]
}

# build CRATE: its program is made anew. It runs without words, and may end with any status: what counts is that it was
# built.
build() {
    local program=crates/$1/out/$1
    say "building $program"
    rm -f "$program"
    (cd "crates/$1" && rt run) > "$work/build" 2>&1 || true
    if [ ! -x "$program" ]; then
        say "'rt run' failed in crates/$1:"
        cat "$work/build"
        exit 1
    fi
}

# build_or_skip CRATE SOURCE...: its program is there, not older than the sources, or the script ends here.
build_or_skip() {
    local crate=$1
    shift
    if ! is_built "crates/$crate/out/$crate" "$@"; then
        has rt || skip "crates/$crate/out/$crate is not built and rt is not installed"
        build "$crate"
    fi
}

build_rvsnap_or_skip() {
    build_or_skip rvsnap crates/*/src
}

# How long a line may take that is expected to end, in seconds.
patience=60

# expect STATUS TEXT WORD...: rvsnap ends so on these words in time, and prints just this.
expect() {
    local wanted=$1 text=$2 status=0
    shift 2
    timeout "$patience" "$rvsnap" "$@" > "$work/printed" 2> "$work/errors" || status=$?
    [ "$status" -eq "$wanted" ] || fail "status $status, not $wanted, from: rvsnap $*"
    printf '%s' "$text" | cmp -s - "$work/printed" || fail "printed '$(cat "$work/printed")', not '$text', by: rvsnap $*"
    [ ! -s "$work/errors" ] || fail "errors from: rvsnap $*"
}

# milliseconds COMMAND...: how long it takes; what it prints stands in $work/printed.
milliseconds() {
    local from to
    from=$(date +%s%N)
    "$@" > "$work/printed"
    to=$(date +%s%N)
    echo $(((to - from) / 1000000))
}

# median: the middle one of the numbers that are read, a line for each.
median() {
    sort -n > "$work/numbers"
    sed -n "$((($(wc -l < "$work/numbers") + 1) / 2))p" "$work/numbers"
}

# median_time TURNS COMMAND...: the middle one of so many turns, in milliseconds.
median_time() {
    local turns=$1
    shift
    for _ in $(seq "$turns"); do
        milliseconds "$@"
    done | median
}
