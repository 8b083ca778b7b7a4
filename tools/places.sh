#!/usr/bin/env bash
# Counts the places in src/ that docs/DESIGN-PASS.md speaks of, each by a pattern: run it at the top of a checkout.
# With the argument `show` it prints the lines too.
set -uo pipefail
show=${1:-}
src() { find crates -name out -prune -o -path '*/src/*' -name '*.rt' -print | sort; }
count() {
    local name=$1 pattern=$2
    local found
    found=$(src | xargs grep -nE "$pattern" || true)
    printf '%-58s %s\n' "$name" "$(printf '%s' "$found" | grep -c '' || true)"
    if [ "$show" = show ] && [ -n "$found" ]; then printf '%s\n' "$found" | sed 's/^/    /'; fi
}
echo 'point 1'
count 'enums' '^ *(pub(\([a-z]+\))? )?enum '
count 'arms that hand an Option or a Result on by hand' '^ *(None|Err\(_?[a-z]*\)|Some\([a-z]+\)|Ok\([a-z]+\)) => (None|false|true|0|Err\(|Ok\(\(?\)?|Some\([a-z]+\)),?'
count 'numbers for standings, kinds and fields of a map' '\.rank\(\)|=> map (==|&) [0-9]+|bit_stands\([a-z]+, [0-9]+\)|^ *Body::[A-Z][a-z]+ \{ \.\. \} => [0-9]+'
echo 'point 2'
count 'functions that make no_room, set_up or a like refusal' 'fn (no_room|set_up|refusal|ruled|refused_by_rule|no_such_unit|unsealed)\(|Refusal \{$'
count 'who sends a letter' 'fn sender_of'
count 'bounded reads of a row or a byte' 'fn (byte_at|byte_or_zero|word_of|entry|voted_ready)\b'
count 'a number of two, four or eight bytes' 'fn (take|put)_(two|four|eight)|fn (two|four|eight|word|seal)s?_at\('
count 'a bit of a map' 'fn (bit_stands|stands|holds)\('
count 'the number of an outcome' 'fn (outcome_number|number_of|is_number)\('
echo 'point 3'
count 'loops over a range of numbers' '\bfor [a-z_]+ in \(?[0-9a-z_.()]+\.\.'
count 'while, loop' '^ *(while|loop) '
echo 'point 4'
count 'comparisons of the number inside' '\.(number|value)\(\) (==|!=|<|>|<=|>=) [a-z.]+\.(number|value)\(\)|\.0 == [a-z.(),]+\.0'
count 'hand-written ways between a byte and an enum' 'fn new\(n: u8\) -> Option'
count 'a text of a value' 'fn sentence|\.sentence\(\)'
echo 'point 5'
count 'length of the scratch buffer in a clause' '24 ≤ length (self|scratch)'
count 'what a guard leaves' 'ghost_name ≡ self|cleared self\.new'
count 'room in an output buffer with an offset' 'Put out\.old|≤ length out\.old'
count 'room for a call' 'has_room out\.old scratch\.old ≡ true'
count 'scratch and output buffers that travel together' '^ *scratch: &mut \[u8\],'
echo 'point 6'
count 'arrays with a count beside them, offsets into a buffer' 'places: u8|at: usize|count: u8,'
count 'tables in fields' '^ *(pub(\([a-z]+\))? )?[a-z_]+: \[Option<.*; [0-9]+\],'
echo 'point 7'
count 'functions that take a closure' '(impl |: )Fn(Once|Mut)?\('
echo 'point 8'
printf '%-58s %s\n' 'files of answers' "$(find crates -name out -prune -o -name Answers.antt -print | wc -l)"
printf '%-58s %s\n' 'lines of answers and invariants' "$(find crates -name out -prune -o \( -name Answers.antt -o -name Invariants.antt \) -exec cat {} + | wc -l)"
printf '%-58s %s\n' 'lines of proofs' "$(find crates -name out -prune -o -path '*/proofs/*.antt' -exec cat {} + | wc -l)"
