#!/usr/bin/env bash
# Sets the walks by hand aside, which no later Rattle reads, before port.py runs: with their long chains of `.before` it takes
# very long. They stand in the history.
set -euo pipefail
for folder in crates/*/proofs/*/; do
    rm -r "$folder"
done
