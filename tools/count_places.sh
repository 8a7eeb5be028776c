#!/bin/sh
# Counts places of older forms in src/ at a commit: tools/count_places.sh COMMIT [list]. With `list`, each line is shown.
set -eu
cd "$(dirname "$0")/.."
commit=$1
count() {
    found=$(git grep -nP "$2" "$commit" -- 'crates/*/src/*.rt' 'crates/*/src/**/*.rt' | sed 's/^[^:]*://' | sort -u || true)
    echo "$1: $(printf '%s' "$found" | grep -c '' || true)"
    if [ "${3:-}" = list ]; then
        printf '%s\n' "$found"
    fi
}
show=${2:-}
count '1 a, a refusal as a variant beside answers' '^\s+Refused\(Refusal\),' "$show"
count '1 b, an Option or a Result taken apart and put together again' \
    '=> (None|0|false|\(0, 0\)),?$|Err\(\w+\) => (return )?Err|Ok\(\w+\) => (Ok\(|\w+,$)|Some\(\w+\) => (Some|Ok)\(' "$show"
count '1 c, flags' ': bool,$|let late = .rounds|Result<bool' "$show"
count '1 d, numbers for kinds' '^\s+(0x[0-9A-F]{2}|[0-9])( \| 0x[0-9A-F]{2})* =>' "$show"
count '1 e, a value that stands for none' 'const (BLANK|NO_\w+): ' "$show"
count '3 a, loops over numbers, and walks by hand' 'for \w+ in 0\.\.|while let' "$show"
count '3 b, loops over items with their number' 'enumerate\(\)' "$show"
count '4, conversion, comparing, copying and printing by hand' \
    'fn (from_bytes|number|is_alike|is_ready|is_waiting|weight|widened|copied|row|line|plain|priority|print_\w+)\b' "$show"
count '5, clauses on a fact that stands in several contracts' \
    'requires (sound|fit|rows|end_room|row_room|light|chosen|agree|fair|within|own)\b|ensures (kept|fair|light|sound|ends|stretches|rest)\b' "$show"
count '6, arrays of a fixed room, and counts beside them' '\[(\w+|Option<Job>); (CAPACITY|RECORDS|32)\]|count: usize,' "$show"
count '7, a match on which step to take' 'match (call|command|kind|self|event|item|\(job\.phase, event\)|byte|\*self) \{' "$show"
printf '8, lines of answers: '
for f in $(git ls-tree -r --name-only "$commit" -- crates | grep 'Answers.antt$'); do git show "$commit:$f"; done | wc -l
printf '8, lines of proofs in all: '
for f in $(git ls-tree -r --name-only "$commit" -- crates | grep '/proofs/.*antt$'); do git show "$commit:$f"; done | wc -l
