#!/usr/bin/env bash
# Compares what `lifetime` prints of each sample with the output that stands beside it. The program must have been built.
set -u
cd "$(dirname "$0")/.." || exit 1
failed=0
for sample in baseload:power wheat:wheat; do
    product=${sample%%:*}
    name=${sample##*:}
    if crates/lifetime/out/lifetime "$product" 2008-01 2 1000 examples/lifetime/closed-days.txt 0 \
        <"examples/lifetime/$name.csv" | cmp - "examples/lifetime/$name.out"; then
        echo "sample $name: the same"
    else
        failed=1
    fi
done
exit "$failed"
