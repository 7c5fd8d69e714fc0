#!/bin/sh
# Plays generated traces with another program and with the reference, and compares the outputs.
set -eu

if [ $# -ne 4 ]; then
    echo "usage: $0 REPLAY_BINARY FIRST_SEED LAST_SEED COUNT" >&2
    exit 2
fi
replay=$1
seed=$2
last=$3
count=$4

here=$(cd "$(dirname "$0")" && pwd)
cargo build --release --offline --quiet --manifest-path "$here/Cargo.toml"
reference=$here/target/release/reference
work=$(mktemp -d)
agreed=0
differed=""

while [ "$seed" -le "$last" ]; do
    "$reference" generate "$seed" "$count" > "$work/trace"
    "$reference" play < "$work/trace" > "$work/expected"
    status=0
    "$replay" < "$work/trace" > "$work/output" || status=$?
    if cmp -s "$work/expected" "$work/output"; then
        echo "seed $seed: agreed, $(wc -l < "$work/expected") lines"
        agreed=$((agreed + 1))
    else
        # The files of a seed that differs are kept.
        for file in trace expected output; do
            mv "$work/$file" "$work/$seed.$file"
        done
        echo "seed $seed: DIFFERS (exit status $status), see $work/$seed.*"
        cmp "$work/$seed.expected" "$work/$seed.output" || true
        differed="$differed $seed"
    fi
    seed=$((seed + 1))
done

if [ -n "$differed" ]; then
    echo "$agreed seeds agreed, these differed:$differed"
    exit 1
fi
rm -f "$work/trace" "$work/expected" "$work/output"
rmdir "$work"
echo "$agreed seeds agreed, none differed"
