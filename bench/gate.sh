#!/usr/bin/env bash
# Runs the whole gate and prints where its processor time went, crate by crate; the gate's own output goes to the file named, or to
# a new one.
set -eu
cd "$(dirname "$0")/.."
log=${1:-$(mktemp)}
echo "the gate's output: $log" >&2
exec python3 bench/gate.py "$log"
