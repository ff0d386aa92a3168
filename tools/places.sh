#!/bin/sh
# Counts the places in crates/*/src that could be written in a newer form, point by point, as docs/DESIGN-PASS.md tells them.
# Called as `tools/places.sh [FOLDER]`, with the folder that holds `crates` (else this repository). Each count is of lines to be read,
# not a verdict. What private fields contracts name is counted by rt itself, and takes a check: `rt check --only "" --private-fields`.
cd "${1:-$(dirname "$0")/..}"
count() { printf '%5d  %s\n' "$(grep -rhE "$2" crates/*/src | wc -l)" "$1"; }
count "1  enums of our own" '^(pub(\(crate\))? )?enum '
count "1  flags in structs" '^ +(pub(\(crate\))? )?[a-z_]+: bool,'
count "1  numbers for refusals and kinds" '^ +number: u8,|kind (==|!=) [0-9]'
count "1  answers handed on by hand" 'Err\([a-z_]+\) => (return )?Err\(|Err\(_\) => Err\(|=> (return )?None,$|^ +return None;|Some\([a-z]+\) => Some\('
count "2  functions (tools/twins.py lists those of one shape)" '^ *(pub(\(crate\))? )?fn '
count "3  loops over a counted range, and while loops" '^ *(for [a-z_]+ in [^ ]*\.\.|while )'
count "4  conversions, texts and errors by hand" '^impl (fmt::Display|Display|Error|From<)'
count "4  casts by as" ' as (u8|u16|u32|usize|i32)\b'
count "5  clauses with the four members of two bounds in a row" 'T.Timetable.owner T.Timetable.cycle R.SpareRule.distance R.SpareRule.patience'
count "5  preconditions" 'requires( [a-z]+)? \{'
count "6  arrays of a fixed size" '\[[A-Za-z<>0-9]+; ?([0-9]+|[A-Z_]+)\]'
count "7  function pointers, dyn and boxes" '\bfn\(|\bdyn |Box<'
printf '%5d  %s\n' "$(find crates -path '*/proofs/*' -not -path '*/out/*' -name '*.antt' | xargs cat | wc -l)" "8  lines of proof"
printf '%5d  %s\n' "$(find crates -path '*/proofs/*' -not -path '*/out/*' -name 'Answers.antt' | xargs grep -hE '^pub ' | wc -l)" "8  answers"
