#!/usr/bin/env bash
# Builds the program once, runs it on a generated large world without goals, and runs python3's
# json.loads on the same bytes; prints the time and the peak memory of both.
# usage: bench/large_world.sh [BYTES]
set -eu
here=$(cd "$(dirname "$0")" && pwd)
program=${MIRCONST:-$here/../crates/mirconst/out/mirconst}
work=$(mktemp -d)
trap 'rm -rf "$work"' EXIT

# Proves and builds the program, and runs it once on the sample of the repository. Where MIRCONST names
# a program that is built already, that one is taken.
if [ -z "${MIRCONST:-}" ] && ! bash "$here/../sample.sh" > "$work/sample"; then
    cat "$work/sample"
    exit 2
fi

python3 "$here/large_world.py" "${1:-40000000}" > "$work/input"
echo "input bytes: $(wc -c < "$work/input")"
echo "mirconst: $(python3 "$here/measure.py" "$work/input" "$program")"
loads='import json, sys; json.loads(sys.stdin.buffer.read())'
echo "json.loads: $(python3 "$here/measure.py" "$work/input" python3 -c "$loads")"
