#!/bin/bash
# Counts in crates/*/src the places that docs/DESIGN-PASS.md speaks of. With an argument, in the checkout that it names.
cd "${1:-$(dirname "$0")/..}" || exit 1
mapfile -t src < <(git ls-files 'crates/*/src/*.rt')

# A line of the count: its name, then how many lines of the sources match.
count() {
    printf '%-66s %s\n' "$1" "$(grep -hE -- "$2" "${src[@]}" | wc -l)"
}

count '1a enums' '^\s*(pub )?enum '
count '1b numbers written out for kinds and refusals' '::[A-Z][A-Za-z]+ => [0-9]+,|^\s+[0-9]+ => Some'
count '1c a refusal in an Option' 'Option<(File)?Refusal>'
count '1d arms that wrap an Option or a Result again' \
    '^\s+(Err\(.*\) => (return )?Err\(|(Err|Some)\(.*\) => Reply::Refused|None => None|Some\(.*\) => Some\(|Err\(.*\) => match)'
count '1e flags in structs' '^\s+(pub )?[a-z_]+: bool,'
count '3a for over a range' '^\s*for .* in .*\.\.'
count '3b while and loop' '^\s*(while|loop)\b'
count '3c for over a list' '^\s*for [a-z_()&, ]+ in [a-z_.()&]+ \{'
count '4a equality by hand' 'fn equal\b'
count '4b conversions by hand' 'fn (number|of|stop)\('
count '4c functions that print into a String' '\) -> Result<String, AllocError>'
count '4d situations written out field by field' '^\s+wb: false,'
printf '%-66s %s\n' '4e structs and enums with derives but no Debug' \
    "$(grep -hB1 -E '^\s*(pub )?(enum|struct) ' "${src[@]}" | grep -hE '#\[derive' | grep -vc Debug)"
count '5a clauses that 4,096 cells are lent' '4096 ≤ length cells'
count '5b clauses that there are 2,048 cells' '2048 ≤ length cells'
count '5c clauses that a shelf is one of 16' '(shelf|k|first|second) ≤ 15'
count '5d clauses with the state of a rack spelled out' 'state_of V(\.Algebra)?\.model V'
count '5e clauses that fewer than 512 steps are recorded' '(steps.count|length core.old.steps.items) < 512'
count '6a arrays with a count beside' '^\s+pub count: usize'
count '6b slices taken out of a struct and put back' 'mem::replace'
count '6c steps that name others by number' '\{ (first|of): usize'
count '7 matches on what to run' '^\s*match (call|kind|of|more|written|deed|line|states)\b'
count 'lines of code' ''
mapfile -t src < <(git ls-files 'crates/*/proofs/*.antt')
printf '%-66s %s\n' '8a proof files' "${#src[@]}"
count '8b lines of proof' ''
