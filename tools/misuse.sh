#!/usr/bin/env bash
# Three misuses of a sheet must not compile. Each is an edit of a near twin that must compile, so that the compiler's message can only be about the misuse.
# Ends with status 0 only if every twin compiles and every misuse is refused with the messages below.
set -eu
cd "$(dirname "$0")/.."
work=$(mktemp -d)
trap 'rm -rf "$work"' EXIT

# A repository of its own: a crate `misuse` above the pad.
mkdir -p "$work/crates/misuse/src"
tools/copy.sh "$work" fault number scale range sheet pad
echo 'misuse: scale range sheet pad' >> "$work/crates.txt"

# Compiles the source on the standard input, with a test that does nothing, since a crate is compiled without a proof only to run its tests.
# What is said goes to $work/said; nothing is proved of `misuse`.
compiles() {
    {
        echo '#![tactic(auto)]'
        cat
        printf '\n#[cfg(test)]\nmod tests {\n    #[test]\n    fn compiles() {}\n}\n'
    } > "$work/crates/misuse/src/lib.rt"
    (cd "$work/crates/misuse" && rt try --test) > "$work/said" 2>&1
}

# misuse NAME TWIN OLD NEW MESSAGE
misuse() {
    local name=$1 twin=$2 old=$3 new=$4 message=$5
    local edited=${twin/"$old"/"$new"}
    if ! compiles <<< "$twin"; then
        grep -F error "$work/said" | cut -c1-300
        echo "misuse: $name: the twin does not compile"
        exit 1
    fi
    if [ "$edited" = "$twin" ]; then
        echo "misuse: $name: the edit changes nothing"
        exit 1
    fi
    if compiles <<< "$edited"; then
        echo "misuse: $name: the misuse compiles"
        exit 1
    fi
    if ! grep -qF -- "$message" "$work/said"; then
        grep -F error "$work/said" | cut -c1-300
        echo "misuse: $name: refused with another message"
        exit 1
    fi
    echo "misuse: $name: refused, as it must be"
}

# Only a cleared sheet has instructions to work.
misuse uncleared "$(cat <<'END'
use sheet::{ClearedSheet, FiledSheet, Instruction};

pub fn first_two(filed: FiledSheet, cleared: ClearedSheet) -> (Option<Instruction>, Option<Instruction>) {
    let first = cleared.instruction(0);
    let second = cleared.instruction(1);
    drop(filed);
    (first, second)
}
END
)" 'cleared.instruction(1)' 'filed.instruction(1)' \
    'error[unknown-method]: no method named `instruction` found for type `FiledSheet`'

# Only a cleared sheet can be worked; it may be worked again.
misuse unworkable "$(cat <<'END'
use pad::Pad;
use range::{Range, Verdict};
use scale::SlidingScale;
use sheet::{ClearedSheet, FiledSheet};

pub fn twice(pad: &mut Pad<SlidingScale>, filed: FiledSheet, cleared: ClearedSheet, ranges: &mut [Range], verdicts: &mut [Verdict]) -> bool {
    let first = pad.work(&cleared, ranges, verdicts);
    let second = pad.work(&cleared, ranges, verdicts);
    drop(filed);
    first.is_ok() && second.is_ok()
}
END
)" 'second = pad.work(&cleared,' 'second = pad.work(&filed,' \
    'error[mismatched-types]: expected `&ClearedSheet`, found `&FiledSheet`'

# The bytes under a cleared sheet are not written before its last use.
misuse overwritten "$(cat <<'END'
use sheet::FiledSheet;

pub fn reset(buffer: &mut [u8; 64]) -> usize {
    let Ok(filed) = FiledSheet::file(buffer) else {
        return 0;
    };
    let Ok(cleared) = filed.clear() else {
        return 0;
    };
    let length = cleared.into_bytes().len();
    buffer[0] = 0;
    length
}
END
)" $'let length = cleared.into_bytes().len();\n    buffer[0] = 0;' $'buffer[0] = 0;\n    let length = cleared.into_bytes().len();' \
    'error[borrow-e0506]: cannot assign to `buffer[_]` because it is borrowed'
