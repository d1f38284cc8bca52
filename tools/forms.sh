#!/usr/bin/env bash
# Lists the lines of src/ among which the places of docs/DESIGN-PASS.md stand, point by point, with their number.
# Run at the top of a checkout; another checkout's lines: `tools/forms.sh FOLDER`.
set -u
here=$(cd "$(dirname "$0")" && pwd)
cd "${1:-$here/..}" || exit 2
src=(crates/*/src)

list() { # list NAME REGEX
  local lines
  lines=$(git grep -nE "$2" -- "${src[@]}")
  printf '== %s: %s\n' "$1" "$(printf '%s' "$lines" | grep -c '')"
  printf '%s\n' "$lines"
}

list '1a enums' '^ *(pub(\(crate\))? )?enum '
list '1b results and options within one another' 'Result<Result<|Option<Option<'
list '1c functions that answer numbers of kinds and refusals' 'fn (number|kind_code|place_count|byte_width)\b'
list '1d flags that are passed or kept' ': bool\b'
printf '== 2a bodies of one shape: '
python3 "$here/shapes.py" | tac
list '2b constants of numbers' '^ *(pub )?const [A-Z_]+: [a-z0-9]+ = '
list '2c choices of a side by a bit' 'if (key\.bit_at\(place\)|to_one|side|bit) '
list '3 loops over a range, with a counter or with a condition' '^ *(while .*|for .*(\.\.|enumerate\(\)).*)\{$'
list '4a conversions and comparisons that are written' 'fn (cause|number|word|name|same_[a-z]+|is_before|comes_before|task|spoken|found_[a-z]+|counted|print_line|is_digit|next_word|join|from_number|from_parts)\b'
list '4b impls of the traits for them' '^impl(<[^{]*>)? (From|TryFrom|fmt::Display|PartialEq|PartialOrd|Ord|Iterator)\b'
list '5a nodes and an account' '^ *(mut )?account: Account,'
list '5b nodes and a book' 'book: &'
list '5c facts on a stack' 'ensures.*stacked'
list '5d facts on a map at a root' 'ensures.*Rooted'
list '6 arrays' '\[[A-Za-z]+(<[^>]*>)?; [A-Za-z0-9_]+\]'
list '7 choices of what to do' '^ *match (self|call|name|left|step|task|Task)\b'
printf '== 8 answers, lines of answers, lines of lemmas: '
printf '%s ' "$(git grep -hE '^pub [^ ]+ : goal\.' -- crates/*/proofs | wc -l)"
printf '%s ' "$(git ls-files 'crates/*/proofs/*Answers.antt' | xargs cat | wc -l)"
printf '%s\n' "$(git ls-files 'crates/*/proofs/*.antt' | grep -vE '(Answers|Invariants)\.antt' | xargs cat | wc -l)"
