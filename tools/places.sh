#!/bin/sh
# Lists, for each point of docs/DESIGN-PASS.md, the lines of src/ among which its places are. Run at the top of the repository.
# Each list is wider than its point: the page says which of its lines are places.
src() { grep -rnE --include='*.rt' "$1" crates/*/src | grep -vE "${2:-^$}" | grep -vE ':[0-9]+: *//'; }
show() {
    echo "== $1"
    src "$2" "$3" | sed 's/^crates\///; s/src\///'
}
show '1 enums, answers taken apart by hand, numbers in place of kinds' \
    '\benum |return Err\(|=> Err\(|Err\(_\)|is_err\(\)|let Ok\(|-> u8 *$|: u8,$|is_blank\(\)|message: String'
show '2 functions, to be compared for twins' '^ *(pub(\([a-z]+\))? )?fn '
show '3 loops' '\b(for [a-z(&_]|while |loop )' 'impl|ghost|ensures'
show '4 conversions, comparisons and printing' \
    '\bas [iu](8|16|32|64|size)\b|fn (number|word|words|fields|kind|only|no_fields|other|is_word|write_[a-z]+|print_[a-z]+|end_line|has_[a-z]+|unknown_on|refused|accepts)\b|== *$'
show '5 parameters that travel together' \
    'lows: &\[i32\]|place: usize|label: u8|left_by: u32|stage: &(mut )?Stage|heap: Global'
show '6 buffers, parallel arrays, searches' 'Vec<|&\[[a-z0-9]+\]|held: usize|: String'
show '7 switches' '\bmatch |matches!|if is_word|\bdyn |impl Fn'
