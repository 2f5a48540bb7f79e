#!/usr/bin/env bash
# The planted bugs of mutants/, which stand outside the gate: each is laid beside its crate's own edits on a clone, and the
# prover must refuse it. Prints each one that it doesn't refuse, or that can't be tried, and then how many it refused. A
# crate takes a check and half a minute for each edit, so all of them take some hours.
#   benches/mutants.sh            every crate of mutants/
#   benches/mutants.sh CRATE ..   these
set -u
top=$(cd "$(dirname "$0")/.." && pwd)
room=$(mktemp -d)
trap 'rm -rf "$room"' EXIT
git clone -q "$top" "$room/clone" && cd "$room/clone" || exit 1
[ $# -gt 0 ] || set -- $(cd mutants && ls -d -- *)

tried=0 refused=0
for crate; do
    rm -rf "crates/$crate/must-fail"
    mkdir -p "crates/$crate/must-fail"
    cp "mutants/$crate"/*.edit "crates/$crate/must-fail/"
    rt must-fail "$crate" >"$room/said" 2>&1
    tried=$((tried + $(ls "mutants/$crate" | wc -l)))
    refused=$((refused + $(grep -c 'must-fail .*: refused, as it must be' "$room/said")))
    grep -E 'NOT REFUSED|BAD EDIT|NOT TRIED' "$room/said" || grep -q 'refused, as it must be' "$room/said" || tail -n 3 "$room/said"
    rm -rf "crates/$crate/out"
done
echo "$refused of $tried refused"
[ "$refused" = "$tried" ]
