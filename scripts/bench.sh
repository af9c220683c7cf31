#!/usr/bin/env bash
# Runs the scenes of bench/. Their program is proved and built in a scratch copy, over the libraries that `rt ci` left in this
# repository (`bash .ci/run`, or `rt ci fastmetrics`, comes first): the libraries are not proved again.
#
#   scripts/bench.sh [-d FOLDER] [SCENE..]      scenes: hand counters named labeled histograms gauges updates lookup lookup_sip
#                                               values values_fixed series observe register read waits; all without one
#
# The folder (else /tmp/fastmetrics-bench) is kept, so that only what changed is proved again. Prints a line for each figure:
# scene, members (threads for `inc` and `set`), what was measured, nanoseconds a sample line or a call; of one `encode` also the
# requests for memory, a line, and the most bytes at once, over those of the document; of a look-up that finds its member the
# requests too. Of `waits`, with and without scrapes, the longest call and that which one in a thousand is longer than.
# docs/PERFORMANCE.md says how to compare. Run it on a machine that does nothing else.
set -eu
top=$(cd "$(dirname "$0")/.." && pwd)
folder=/tmp/fastmetrics-bench
[[ ${1:-} == -d ]] && { folder=$2; shift 2; }
scenes="hand counters named labeled histograms gauges updates lookup lookup_sip values values_fixed series observe register"
scenes="$scenes read waits"
# shellcheck disable=SC2086
[[ $# -gt 0 ]] || set -- $scenes

"$top/scripts/crates.py" "$folder" bench
"$top/scripts/prove.py" --build --crates "$folder" bench_support bench || exit 1
cd "$folder/crates/bench"

"${CC:-cc}" -shared -fPIC -O1 -o "$folder/counter.so" "$top/scripts/memory.c"

# How often a scene asks for memory (scripts/memory.c), and the most bytes at once, with so many members and rounds: what is asked
# for after so many requests counts.
count() {
    LD_PRELOAD="$folder/counter.so" REFUSE_COUNT="$folder/count" REFUSE_SINCE="${4:-}" out/bench "$1" "$2" "$3" >"$folder/bytes"
    read -r asked most <"$folder/count"
}

# What one `encode` of a scene asks for, of so many members, and lines a member. It is the second one of its program, so that the
# writer has its memory already.
count_memory() {
    local before
    count "$1" "$2" 1
    before=$asked
    count "$1" "$2" 2 "$before"
    awk -v n="$((asked - before))" -v lines="$(($2 * $3))" -v most="$most" -v bytes="$(<"$folder/bytes")" -v of="$1 $2" \
        'BEGIN { printf "%s requests %.3f\n%s memory %.2f\n", of, n / lines, of, most / bytes }'
}

# What a look-up asks for: the first round makes the members, and a hundred more find them.
count_hits() {
    local before
    count "$1" "$2" 1
    before=$asked
    count "$1" "$2" 101
    awk -v n="$((asked - before))" -v of="$1 $2" -v hits="$((100 * $2))" 'BEGIN { printf "%s requests %.3f\n", of, n / hits }'
}

for scene; do
    sizes=1000 lines=0
    case $scene in
        counters) sizes="1000 100000 1000000" lines=1 ;;
        gauges | labeled | named) sizes="1000 100000" lines=1 ;;
        histograms) sizes="1000 100000" lines=15 ;;
        series) sizes="100000 1000000" ;;
        waits) sizes=100000 ;;
    esac
    for size in $sizes; do
        out/bench "$scene" "$size"
        [[ $lines == 0 ]] || count_memory "$scene" "$size" "$lines"
        [[ $scene != lookup* && $scene != values* ]] || count_hits "$scene" "$size"
    done
done
