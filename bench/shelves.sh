#!/usr/bin/env bash
# Compares the flat and the indexed shelf: nanoseconds for one question on 256, 4,096 and 65,536 sets, in list order and mixed.
# Each time is the best of several runs, less the best of as many runs that keep the same sets and ask nothing. The runs of both
# shelves take turns, so that what else the machine does troubles both alike.
set -eu
cd "$(dirname "$0")/.."
runs=${RUNS:-15}
(cd crates/shelf_bench && rt run -- flat listed 1 0) >/dev/null 2>&1
program=crates/shelf_bench/out/shelf_bench

# Runs the program with the arguments after the first, and lowers the variable that the first names to the nanoseconds it took.
lower() {
    local -n least=$1
    local from to
    from=${EPOCHREALTIME//[^0-9]/}
    "$program" "${@:2}" >/dev/null
    to=${EPOCHREALTIME//[^0-9]/}
    if (((to - from) * 1000 < least)); then least=$(((to - from) * 1000)); fi
}

echo '| Order | Sets | Flat, ns | Indexed, ns | Flat / indexed |'
echo '|---|---|---|---|---|'
for order in listed mixed; do
    for size in '256 400000' '4096 40000' '65536 4000'; do
        read -r sets questions <<<"$size"
        flat=999999999999 flat_idle=$flat indexed=$flat indexed_idle=$flat
        for ((i = 0; i < runs; i++)); do
            lower flat flat "$order" "$sets" "$questions"
            lower indexed indexed "$order" "$sets" "$questions"
            lower flat_idle flat "$order" "$sets" 0
            lower indexed_idle indexed "$order" "$sets" 0
        done
        flat=$(((flat - flat_idle) / questions))
        indexed=$(((indexed - indexed_idle) / questions))
        if ((indexed < 1)); then indexed=1; fi
        ratio=$(((flat * 10 + indexed / 2) / indexed))
        echo "| $order | $sets | $flat | $indexed | $((ratio / 10)).$((ratio % 10)) |"
    done
done
