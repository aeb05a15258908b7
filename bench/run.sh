#!/usr/bin/env bash
# Builds the program once, runs it on a generated world, and prints the time and the peak memory.
# usage: bench/run.sh [N]
set -eu
here=$(cd "$(dirname "$0")" && pwd)
program=$here/../crates/mirconst/out/mirconst
count=${1:-10000}
work=$(mktemp -d)
trap 'rm -rf "$work"' EXIT

# Proves and builds the program, and runs it once on the sample of the repository.
if ! bash "$here/../sample.sh" > "$work/sample"; then
    cat "$work/sample"
    exit 2
fi

python3 "$here/many_constants.py" "$count" > "$work/input"
echo "constants: $count"
echo "input bytes: $(wc -c < "$work/input")"

# Its exit code is 0 only where every goal has a value.
status=0
if [ -x /usr/bin/time ]; then
    /usr/bin/time -v "$program" < "$work/input" > "$work/report" 2> "$work/times" || status=$?
    grep -E 'Elapsed|User time|System time|Maximum resident' "$work/times" || cat "$work/times"
else
    echo "there is no /usr/bin/time: the peak memory is not measured"
    time "$program" < "$work/input" > "$work/report" || status=$?
fi
echo "exit code: $status"
echo "goals with a value: $(grep -c '^goal [0-9]* value ' "$work/report" || true)"
exit "$status"
