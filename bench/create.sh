#!/usr/bin/env bash
# Times `create plain=F`: how long 200 runs take, and the calls on the system of one run.
# usage: bench/create.sh PROGRAM   (the built program, crates/h5stack/out/h5stack)
set -eu
program=$(readlink -f "${1:-crates/h5stack/out/h5stack}")
folder=$(mktemp -d)
trap 'rm -rf "$folder"' EXIT
cd "$folder"
begin=$(date +%s%N)
for i in $(seq 200); do "$program" create "plain=$i.h5" >/dev/null; done
end=$(date +%s%N)
echo "runs 200, mean $(( (end - begin) / 200000 )) microseconds"
echo "bytes of each file: $(stat -c %s 1.h5)"
if command -v strace >/dev/null 2>&1; then
  echo "calls of one run on files:"
  strace -f -e trace=openat,pread64,pwrite64,fsync,ftruncate,close "$program" create plain=one.h5 2>&1 >/dev/null | grep -c 'one.h5\|(3' || true
fi
