#!/usr/bin/env bash
# Measures the pad beside plain Rust, Boost.Interval and MPFI on one machine, and prints nanoseconds for one working of a full sheet, and ratios.
# It installs Debian's libboost-dev and libmpfi-dev where they are missing. Run it on an idle machine, from anywhere.
set -euo pipefail
cd "$(dirname "$0")"
if ! dpkg -s libboost-dev libmpfi-dev > /dev/null 2>&1; then
    apt-get update -qq > /dev/null && apt-get install -y -qq libboost-dev libmpfi-dev > /dev/null
fi
work=$(mktemp -d)
trap 'rm -rf "$work"' EXIT

# The pad as a static library, from a repository of its own.
mkdir -p "$work/crates/padbench/src"
../tools/copy.sh "$work" fault number scale range sheet pad
echo 'padbench staticlib: number scale range sheet pad' >> "$work/crates.txt"
cp padbench.rt.txt "$work/crates/padbench/src/lib.rt"
(cd "$work/crates/padbench" && rt lib) > "$work/log" 2>&1 || { tail -n 20 "$work/log"; exit 1; }

rustc --edition 2024 -C opt-level=3 -C panic=abort -o "$work/bench" main.rs -L "$work/crates/padbench/out" -l static=padbench
g++ -O3 -frounding-math -o "$work/boost" boost.cpp
gcc -O3 -o "$work/mpfi" mpfi.c -lmpfi -lmpfr -lgmp
{ "$work/bench"; "$work/boost" 2> /dev/null; "$work/mpfi"; } | tee "$work/times"
awk '
    { t[$1 " " $2] = $3 }
    END {
        printf "ratio ruled plain/pad %.2f\n", t["ruled plain"] / t["ruled pad"]
        printf "ratio sliding plain/pad %.2f\n", t["sliding plain"] / t["sliding pad"]
        printf "ratio ruled boost/pad %.2f\n", t["boost double"] / t["ruled pad"]
        printf "ratio sliding boost/pad %.2f\n", t["boost double"] / t["sliding pad"]
        printf "ratio ruled mpfi/pad %.2f\n", t["mpfi 53"] / t["ruled pad"]
        printf "ratio sliding mpfi/pad %.2f\n", t["mpfi 53"] / t["sliding pad"]
        printf "ratio clearing/copying %.1f\n", t["clear pad"] / t["clear copy"]
    }' "$work/times"
