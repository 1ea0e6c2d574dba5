#!/bin/sh
# Lists what docs/DESIGN-PASS.md counts: for each of its points the lines of src/ that a pattern finds. Which of them
# are places is for a reader to say. It looks through the checkout that it stands in, or through one that is given.
set -eu
cd "${1:-$(dirname "$0")/..}"

# show POINT PATTERN..: the lines of src/ that one of the patterns finds, under a line that counts them
show() {
    point=$1
    shift
    patterns=$(printf '%s\n' "$@")
    found=$(grep -rnE --include='*.rt' -e "$patterns" crates/*/src | sort || true)
    echo "== $point: $(printf '%s' "$found" | grep -c '' || true)"
    printf '%s\n' "$found"
}

show "1, enums, and numbers for kinds" '^(pub )?enum ' 'stands\(' 'standing: u8' '-> \(u8, (u8|usize)\)'
show "2, functions, to be set side by side" '^ *(pub |pub\(crate\) )?fn [a-z_]+'
show "3, loops" '^ *(for|while|loop)\b'
show "4, comparing, converting and printing" \
    'fn (same|fits|number|kind_of|asks|tells_end|engages|expected|explain[a-z_]*)\b' \
    'fn (write_report|lamp_lines?|sum_lines)\b' '^impl.*\b(From|TryFrom|Display|PartialEq|Ord)\b' 'Err\(refusal\) =>'
echo "== 5, clauses that stand three times or more"
grep -rhE --include='*.rt' '^ *(requires|ensures)\b' crates/*/src |
    sed -E 's/^ *//; s/^(requires|ensures) [a-z_]* ?\{/\1 {/' | sort | uniq -c | sort -rn | awk '$1 > 2'
show "6, arrays and counts" '\[[^]]*; *[A-Za-z_0-9]+\]' 'count: usize'
show "7, switches on a step, tables of functions" 'dyn ' 'Box<' ': fn\(' 'match (step|kind|self)\b'
echo "== 8, files of proofs, and their lines"
find crates/*/proofs -name '*.antt' | wc -l
find crates/*/proofs -name '*.antt' -exec cat {} + | wc -l
