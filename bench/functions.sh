#!/usr/bin/env bash
# Proves crates anew, one after another and each with one job, over their libraries as they were built, and prints the twenty
# functions that took the longest. On a busy machine the seconds rise. Without names: all crates.
set -eu
cd "$(dirname "$0")/.."
all=$(sed -n 's/^\([a-z0-9_]*\)[^:#]*:.*/\1/p' crates.txt)
for crate in ${*:-$all}; do
  kept=$(mktemp -d)
  out=crates/$crate/out/incremental
  [ ! -d "$out" ] || mv "$out" "$kept/"
  (cd "crates/$crate" && rt check --jobs 1) >"$kept/log" 2>&1 || echo "$crate isn't proved: $kept/log" >&2
  find "$out" -name "Rattle-$crate-*.oantt" -printf '%T@ %f\n' | sort -n |
    awk -v crate="$crate" '
      NR > 1 { name = $2; sub("^Rattle-" crate "-", "", name); sub("[.](decls[.])?oantt$", "", name)
               sub("^proofs[.]", "", name); sub("^specs[.]contracts[.]", "", name); sub("[.][A-Z][A-Za-z]*$", "", name)
               took[name] += $1 - before }
      { before = $1 }
      END { for (name in took) printf "%.1f %s %s\n", took[name], crate, name }'
done | sort -rn | head -20
