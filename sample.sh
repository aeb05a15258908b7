#!/usr/bin/env bash
# Proves and builds the program, each crate after those that it uses, and runs it on its sample.
# `rt run` in crates/mirconst does the same, but begins with a pass over the sources of all crates at once,
# which takes minutes.
set -eu
cd "$(dirname "$0")"
while IFS=: read -r name _; do
    [ "$name" = mirconst ] && break
    (cd "crates/$name" && rt lib)
done < crates.txt
cd crates/mirconst
rt run < stdin
