#!/bin/sh
# Holds a planner against the second one on the same inputs: the time that framed
# streams of plans take, and the machine instructions of single plans (valgrind's
# callgrind). Prints the ratio for each input; then that of a board, which gives
# every end from one start, to one plan.
#
#   ./speed.sh                      takes ../../crates/plan/out/plan
#   ./speed.sh COMMAND WORDS...     counts the instructions of that command
#   STREAM=PROGRAM ./speed.sh       times that program (../../crates/frames/out/frames otherwise)
#   BOARD=PROGRAM ./speed.sh        counts that program's boards (../../crates/board/out/board otherwise)
#   ROUNDS=9 ./speed.sh             runs each program more often (5 times otherwise)
#   SEED=7 ./speed.sh               other random inputs (the seed is 1 otherwise)
set -eu

here=$(cd "$(dirname "$0")" && pwd)
seed=${SEED:-1}
rounds=${ROUNDS:-5}
stream=${STREAM:-$here/../../crates/frames/out/frames}
board=${BOARD:-$here/../../crates/board/out/board}
second=$here/target/release/second

# Each input with the number of plans in its stream.
streams="typical:10000 largest:300 chain:500 winding:500"
inputs="nothing typical largest chain upward downward winding"
boards="nothing typical largest chain winding"

# As many plans as a board may take at most on the largest book.
most_plans=1.3

if [ $# -eq 0 ]; then
    set -- "$here/../../crates/plan/out/plan"
fi

install_valgrind() {
    command -v valgrind >/dev/null && return
    echo "installing valgrind" >&2
    apt-get update >&2 && apt-get install -y valgrind >&2
}

ratio() {
    awk -v first="$1" -v other="$2" 'BEGIN { printf "%.2f", first / other }'
}

seconds() {
    awk -v time="$1" 'BEGIN { printf "%.3f", time / 1e9 }'
}

# The nanoseconds of a run on the stream, or nothing if it fails.
time_of() {
    output=$1
    shift
    from=$(date +%s%N)
    "$@" <"$work/stream" >"$output" || return 0
    to=$(date +%s%N)
    echo $((to - from))
}

# The less of two times, of which the first may still be missing.
less() {
    if [ -z "$1" ] || [ "$2" -lt "$1" ]; then echo "$2"; else echo "$1"; fi
}

# The shortest run of each program counts: what disturbs a run only lengthens it.
time_stream() {
    name=$1
    count=$2
    "$second" inputs "$name" "$seed" "$count" >"$work/stream"
    first=
    other=
    shown=
    round=0
    while [ $round -lt "$rounds" ]; do
        round=$((round + 1))
        one=$(time_of "$work/output" "$stream")
        two=$(time_of "$work/expected" "$second" frames)
        if [ -z "$one" ] || [ -z "$two" ]; then
            shown="failed"
            break
        elif ! cmp -s "$work/output" "$work/expected"; then
            shown="different answers"
            break
        fi
        first=$(less "$first" "$one")
        other=$(less "$other" "$two")
    done
    if [ -n "$shown" ]; then
        status=1
        printf '%-10s %7s %15s %15s %7s\n' "$name" "$count" - - "$shown"
    else
        printf '%-10s %7s %15s %15s %7s\n' "$name" "$count" \
            "$(seconds "$first")" "$(seconds "$other")" "$(ratio "$first" "$other")"
    fi
}

time_streams() {
    if ! command -v "$stream" >/dev/null; then
        echo "There is no program at $stream yet: nothing is timed."
        return
    fi
    echo "seconds for a stream of plans, the least of $rounds runs"
    printf '%-10s %7s %15s %15s %7s\n' input plans first second ratio
    for pair in $streams; do
        time_stream "${pair%:*}" "${pair#*:}"
    done
}

# The instructions that a command takes on an input, or nothing if it fails.
# callgrind's own report ends in a line such as '==12== Collected : 123456'.
instructions() {
    input=$1
    shift
    if valgrind --tool=callgrind --callgrind-out-file=/dev/null "$@" \
        <"$input" >"$work/output" 2>"$work/report"; then
        sed -n 's/.*Collected *: *\([0-9]*\).*/\1/p' "$work/report"
    else
        tail -n 5 "$work/report" >&2
    fi
}

# No input at all shows what starting a program costs by itself.
make_input() {
    [ "$1" = nothing ] || "$second" input "$1" "$seed"
}

count_input() {
    name=$1
    shift
    make_input "$name" >"$work/input"
    other=$(instructions "$work/input" "$second" plan)
    cp "$work/output" "$work/expected"
    first=-
    shown=-
    if [ $first_there = yes ]; then
        first=$(instructions "$work/input" "$@")
        if [ -z "$first" ]; then
            first=failed
            status=1
        elif ! cmp -s "$work/output" "$work/expected"; then
            shown="different answers"
            status=1
        else
            shown=$(ratio "$first" "$other")
        fi
    fi
    printf '%-10s %15s %15s %7s\n' "$name" "$first" "$other" "$shown"
}

count_inputs() {
    first_there=yes
    if ! command -v "$1" >/dev/null; then
        first_there=no
        echo "There is no planner at $1 yet: only the second planner is counted."
    fi
    echo "instructions of one plan"
    printf '%-10s %15s %15s %7s\n' input first second ratio
    for name in $inputs; do
        count_input "$name" "$@"
    done
}

# A board has no end: the fourth byte of a plan's input.
without_end() {
    head -c 3 "$1"
    tail -c +5 "$1"
}

within() {
    awk -v first="$1" -v other="$2" -v most="$3" 'BEGIN { exit !(first <= most * other) }'
}

count_board() {
    name=$1
    shift
    make_input "$name" >"$work/input"
    without_end "$work/input" >"$work/board"
    "$second" board <"$work/board" >"$work/expected"
    plan=$(instructions "$work/input" "$@")
    every=$(instructions "$work/board" "$board")
    if [ -z "$plan" ] || [ -z "$every" ]; then
        shown=failed
        status=1
    elif ! cmp -s "$work/output" "$work/expected"; then
        shown="different answers"
        status=1
    else
        shown=$(ratio "$every" "$plan")
        if [ "$name" = largest ] && ! within "$every" "$plan" $most_plans; then
            shown="$shown, over $most_plans"
            status=1
        fi
    fi
    printf '%-10s %15s %15s %7s\n' "$name" "${every:--}" "${plan:--}" "$shown"
}

count_boards() {
    if ! command -v "$board" >/dev/null || ! command -v "$1" >/dev/null; then
        echo "There is no program at $board or at $1 yet: no board is counted."
        return
    fi
    echo "instructions of one board, and of one plan"
    printf '%-10s %15s %15s %7s\n' input board plan ratio
    for name in $boards; do
        count_board "$name" "$@"
    done
}

cargo build --quiet --release --offline --manifest-path "$here/Cargo.toml" --target-dir "$here/target"
work=$(mktemp -d)
trap 'rm -rf "$work"' EXIT
status=0
time_streams
echo
install_valgrind
count_inputs "$@"
echo
count_boards "$@"
exit $status
