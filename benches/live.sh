#!/usr/bin/env bash
# Live runs of traces of 16 callers, each of whose printed orders is replayed and compared byte by byte. The traces are
# generated ones of 8 callers, with the same lines once more under the numbers 9 to 16. Prints each run that differs, how
# many ran, and how many neighbours in an order had different callers.
#   benches/live.sh PROGRAM [RUNS]
set -u
program=$1
runs=${2:-1000}
folder=$(mktemp -d)
trap 'rm -rf "$folder"' EXIT
failed=0
for run in $(seq 1 "$runs"); do
    "$program" make "$run" 60 > "$folder/made"
    awk '/^callers / { print "callers 16"; next }
        /^order / || /^end$/ { next }
        /^caller / { inside = 1; number = $2 }
        { print }
        inside { if ($1 == "caller") held = held "caller " number + 8 "\n"; else held = held $0 "\n" }
        END { printf "%s", held }' "$folder/made" > "$folder/callers"
    { cat "$folder/callers"; echo end; } > "$folder/trace"
    if ! "$program" live < "$folder/trace" > "$folder/lived"; then
        echo "run $run ended with another status"
        failed=$((failed + 1))
        continue
    fi
    head -n 1 "$folder/lived" >> "$folder/orders"
    { cat "$folder/callers"
        head -n 1 "$folder/lived" | cut -s -d ' ' -f 2- | xargs -n 64 echo order | sed '/^order$/d'
        echo end; } > "$folder/ordered"
    tail -n +2 "$folder/lived" > "$folder/report"
    if ! "$program" replay < "$folder/ordered" | cmp -s - "$folder/report"; then
        echo "run $run differs from the replay of its order"
        failed=$((failed + 1))
    fi
done
awk '{ for (i = 3; i <= NF; i++) { pairs++; if ($i != $(i - 1)) changes++ } }
    END { printf "%d of %d neighbours have different callers\n", changes, pairs }' "$folder/orders"
echo "$runs runs, $failed failed"
[ "$failed" -eq 0 ]
