#!/usr/bin/env bash
# Plants each fault of tools/planted in a copy of its crate; the prover must refuse it. These are beyond the must-fail edits that the gate tries.
# usage: tools/planted.sh [CRATE..]   (default: every crate that has some)
set -eu
cd "$(dirname "$0")/.."
crates=("$@")
[ ${#crates[@]} -gt 0 ] || for folder in tools/planted/*/; do crates+=("$(basename "$folder")"); done
copy=$(mktemp -d)
trap 'rm -rf "$copy"' EXIT
git ls-files -z crates crates.txt | xargs -0 cp --parents -t "$copy"
rm -f "$copy"/crates/*/must-fail/*.edit
for crate in "${crates[@]}"; do
  mkdir -p "$copy/crates/$crate/must-fail"
  cp tools/planted/"$crate"/*.edit "$copy/crates/$crate/must-fail/"
done
cd "$copy"
rt must-fail "${crates[@]}"
