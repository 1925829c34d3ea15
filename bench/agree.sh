#!/usr/bin/env bash
# Compares `run` with the HDF5 tools over files that the HDF5 library makes; skipped where h5py, the tools or GNU time are missing.
# usage: bench/agree.sh [PROGRAM]   (the built program, crates/h5stack/out/h5stack)
set -eu
here=$(dirname "$(readlink -f "$0")")
program=$(readlink -f "${1:-$here/../crates/h5stack/out/h5stack}")
for python in python3 /usr/bin/python3; do
  if "$python" -c 'import h5py, numpy' 2>/dev/null && command -v h5ls >/dev/null && command -v h5stat >/dev/null && [ -x /usr/bin/time ]; then
    exec "$python" "$here/agree.py" "$program"
  fi
done
echo "skipped: h5py, h5ls, h5stat or GNU time isn't here"
