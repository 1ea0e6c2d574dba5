#!/bin/sh
# Shows that a set cannot be misused: a program that allots on an opened set, or hands a record out of a draft, is
# refused before it is built. Each is written as a small crate beside a copy of this repository, in a temporary folder;
# a third crate that makes the same calls in their order must be accepted. RT names the command to check with.
set -eu

root=$(cd "$(dirname "$0")/.." && pwd)
rt=${RT:-rt}
copy=$(mktemp -d)
trap 'rm -rf "$copy"' EXIT

# What earlier checks left stays behind.
tar -C "$root" --exclude=out -cf - crates crates.txt | tar -C "$copy" -xf -

# A crate NAME with one function over a draft, whose body is given.
write_crate() {
    mkdir -p "$copy/crates/$1/src"
    {
        printf '%s\n' '// What can be done with a set of two depots.' '#![tactic(auto)]' ''
        printf '%s\n' 'use book::{Draft, Plan, Record};' 'use policies::Level;' 'use protocol::Refusal;' ''
        printf '%s\n' '/// The record of depot 0 in a set of two depots.'
        printf '%s\n' 'pub fn first_record() -> Result<Record, Refusal> {'
        printf '%s\n' '    let mut draft = Draft::new::<Level>(Plan::check(10, 2)?);'
        printf '    %s\n' "$2" "$3" "$4"
        printf '%s\n' '}'
    } > "$copy/crates/$1/src/lib.rt"
    printf '%s\n' "$1: entries policies letters protocol book" >> "$copy/crates.txt"
}

write_crate rightly_used 'draft.allot(1, 4)?;' 'let mut set = draft.open();' 'set.hand(0)'
write_crate allots_opened 'let mut set = draft.open();' 'set.allot(1, 4)?;' 'set.hand(0)'
write_crate hands_draft 'draft.allot(1, 4)?;' 'let record = draft.hand(0);' 'record'

cd "$copy"

# Checks the crate NAME; what the check says goes into a file.
check_crate() {
    (cd "crates/$1" && "$rt" check) > "$2" 2>&1
}

if ! check_crate rightly_used accepted.log; then
    tail -n 20 accepted.log
    echo "misuse: the right use is not accepted"
    exit 1
fi
echo "misuse: the right use is accepted"

# The crate NAME must be refused, since there is no such call.
must_refuse() {
    status=0
    check_crate "$1" refused.log || status=$?
    if [ "$status" -ne 1 ] || ! grep -qF "$2" refused.log; then
        tail -n 20 refused.log
        echo "misuse: $3 is not refused as it must be"
        exit 1
    fi
    grep -m 1 -F "$2" refused.log | sed "s|$copy/||"
    echo "misuse: $3 is refused"
}

must_refuse allots_opened 'no method named `allot` found for type `Opened`' 'Allot on an opened set'
must_refuse hands_draft 'no method named `hand` found for type `Draft`' 'Hand from a draft'
