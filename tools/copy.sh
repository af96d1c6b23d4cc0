#!/usr/bin/env bash
# Copies crates, with their lines of crates.txt, into a repository of its own, above which a script can put a crate.
# usage: tools/copy.sh FOLDER CRATE..
set -eu
root=$(cd "$(dirname "$0")/.." && pwd)
to=$1
shift
for crate in "$@"; do
    mkdir -p "$to/crates/$crate"
    for part in src specs proofs; do
        if [ -d "$root/crates/$crate/$part" ]; then
            cp -r "$root/crates/$crate/$part" "$to/crates/$crate/"
        fi
    done
    grep "^$crate:" "$root/crates.txt" >> "$to/crates.txt"
done
