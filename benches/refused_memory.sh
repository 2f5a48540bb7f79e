#!/usr/bin/env bash
# One request for memory of a run is refused, and in a second round all behind it too: for each number of a request, over
# four traces. A run must end with status 0 and the whole text, or with 3 and nothing written. Prints each run that does
# neither, and how many ended in either way.
#   benches/refused_memory.sh [PROGRAM]      needs a C compiler, as cc
set -u
top=$(cd "$(dirname "$0")/.." && pwd)
program=${1:-$top/crates/vmreplay/out/vmreplay}
[ -x "$program" ] || { echo "skipped: there is no $program"; exit 0; }
room=$(mktemp -d)
trap 'rm -rf "$room"' EXIT
cc -O1 -shared -fPIC -o "$room/refused.so" "$top/benches/refused_memory.c" -ldl || exit 1

# A trace by its name, its lines parted by slashes.
trace() {
    printf 'vmtrace 1\nspace 64\n%s\nend\n' "$2" | sed 's: / :\n:g' >"$room/$1"
}
trace parts_of_blocks 'block 8 4 / map_ram a 0 3 / map_ram b 0 3 / map_ram c 0 3 / unmap_ram a / unmap_ram b'
chunks='unit 8 1 / group 1 0 / group 1 16 / alloc_percpu a 8 8 / alloc_percpu b 32768 4'
trace a_second_chunk "$chunks"
trace a_spare_chunk "$chunks / free_percpu a / free_percpu b / balance"
callers='caller 1 / map_ram a 0 1 / caller 2 / vmalloc b 4096 1 / count 0 0 5'
trace two_callers "block 8 4 / callers 2 / counters 1 32 / $callers / order 2 2 2 1 1 1 1 1 1"

# The text that a run should have written: for a live run, that of the replay of its own order.
whole_text() {
    if [ "$1" = replay ]; then
        "$program" replay <"$room/$2"
        return
    fi
    head -n 1 "$room/written"
    { grep -v -e '^order ' -e '^end$' "$room/$2"
        head -n 1 "$room/written" | sed 's/^schedule/order/'
        echo end; } | "$program" replay
}

differing=0
for later in '' yes; do
    for run in 'replay parts_of_blocks' 'replay a_second_chunk' 'replay a_spare_chunk' 'replay two_callers' 'live two_callers'; do
        read -r word name <<<"$run"
        done=0 refused=0
        for number in $(seq 1 100000); do
            env ${later:+AND_LATER=$later} REFUSED="$number" LD_PRELOAD="$room/refused.so" \
                "$program" "$word" <"$room/$name" >"$room/written" 2>"$room/said" 3>"$room/met"
            status=$?
            [ -s "$room/met" ] || break
            if [ "$status" = 0 ] && whole_text "$word" "$name" | cmp -s - "$room/written"; then
                done=$((done + 1))
            elif [ "$status" = 3 ] && [ ! -s "$room/written" ]; then
                refused=$((refused + 1))
            else
                differing=1
                echo "$run: request $number refused${later:+ with all later ones}, status $status, $(wc -c <"$room/written") bytes written"
            fi
        done
        echo "$run: $((number - 1)) requests refused in turn${later:+ with all later ones}, $done runs whole, $refused out of memory"
        [ "$number" -gt 1 ] && [ "$status" = 0 ] || { differing=1; echo "$run: no request met, or status $status without a refusal"; }
    done
done
exit "$differing"
