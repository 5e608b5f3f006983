#!/bin/sh
# Counts the places of docs/DESIGN-PASS.md in src/: one line a point and a kind. With a word behind, lists the places of that point.
# usage: tools/places.sh [POINT]
cd "$(dirname "$0")/.."
point=${1:-}
show() { # POINT WHAT, lines on standard input
    if [ -z "$point" ]; then printf '%s\t%s\t%s\n' "$1" "$(wc -l | tr -d ' ')" "$2"; elif [ "$point" = "$1" ]; then cat; else cat >/dev/null; fi
}
src=$(git ls-files 'crates/*/src/*.rt')
# An enum with exactly one case that has no value or a Refused case, beside one other: the shape of Option or Result.
shaped() {
    awk 'FNR == 1 { open = 0 }
        /^ *pub(\([a-z]+\))? enum |^ *enum / { open = 1; n = 0; refused = 0; bare = 0; where = FILENAME ":" FNR; name = $0; next }
        open && /^ *}/ { if (refused || (n == 2 && bare >= 1 && bare < n)) print where ": " name; open = 0; next }
        open && /^ *[A-Z]/ { n++; if ($0 ~ /Refused\(|Malformed|Wrong/) refused = 1; if ($0 !~ /\(/) bare++ }' $src
}
# A struct that stands for an answer with a flag, or an answer with a state or bytes beside it.
flagged() { grep -nE '^ *pub(\([a-z]+\))? (answer|fits|right|goes_on|count): |^ *(answer|goes_on|count): [A-Za-z]+,' $src; }
# Numbers that stand for none or for a failure, and constants that number kinds.
sentinels() { grep -nE 'return (16|256);|-1$|const [A-Z_]+: (u8|u32) = [0-9]+;' $src; }
shaped | show 1 "enums of the shape of Option or Result"
flagged | show 1 "flags or answers with a value beside them"
sentinels | show 1 "numbers for kinds, refusals, none or failure"
# Functions that another one repeats but for a type, a size or a constant.
grep -nE 'fn (least|within|words_within|numbers_within|wide|digit|put_decimal|decimal|words|bytes|second_row|set_bytes|copy|requested|current|entry_number|schedule_number|reception_number|of_frame|first|next|frame_with|protected_byte|checksum_byte|one_if|bit|write_row|put_scalar|put_array|pairs|numbers|put_numbers|put_answer|pair|number|size|text|spaced)\(' $src | show 2 "functions of a name that twins have"
grep -nE '^ *while ' $src | show 3 "loops by while"
grep -nE '^ *(i|k|m|n|e|f|s|at|lines) \+= (1|Layout::[A-Z]+);' $src | show 3 "indices counted by hand"
grep -nE 'fn (one_if|digit|bit|wide|larger|least|word|byte|size|same_[a-z]*|is_word|refusal|numbers|pairs)\(|let (current|requested|plan|transfer|opened|message|status|received|pending|bytes|values|answer|next|state|last|reception|numbers|response|copy) = (self|transfer|plan|state|wrote|ticked|took|taken|chosen|sent|given|started|started|read|written|array|closed|reception|line)\.' $src | show 4 "conversions, comparisons and copies by hand"
grep -nE 'requires .*RightTable|requires .*length frame\.now ≡ 8|requires .*length .*≡ buffer_size|requires .*byte_verdict' $src | show 5 "facts that stand in the contracts of three functions or more"
grep -nE 'desk: &mut Desk, (t|table): |table: &mut Table,$|bytes: &mut \[u8\], s: u16' $src | show 5 "parameters that travel together"
grep -nE '\[[a-z0-9]+; ?(8|9|10|12|MOST|Limits::[A-Z]+)\]' $src | show 6 "buffers and arrays of a fixed size"
grep -nE '^ *match desk\[FORM\]|^ *match (k|letter) ' $src | show 7 "switches on which step to run"
git ls-files 'crates/*/proofs/*Proof.antt' | show 8 "walks by hand"
