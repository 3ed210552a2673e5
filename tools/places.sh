#!/usr/bin/env bash
# Lists where the code might say something in an older form than Rattle has today, by kind of place; docs/DESIGN-PASS.md judges what it lists.
# Usage: tools/places.sh [POINT..], with points 1 to 8; all of them where none is named.
set -euo pipefail
cd "$(dirname "$0")/../crates"

src() { grep -rnE --include='*.rt' "$1" */src || true; }

point() {
    echo "--- $1"
    case $1 in
    1) # a flag or a count beside a value, numbers for kinds, letters and refusals, values that stand for none
        src '\((usize|u8|u32|u64), bool\)|-> \(u8, u8\)|[{ ](kind|class|letter|number): u8,|Option<\(.*usize\)>|Result<\(.*usize\)|\(Option<[A-Za-z]+>, usize\)'
        src 'const (NO_[A-Z]+|NONE|UNUSED|UNREAD)\b|let none = |xff.x0a|fn (number|year|code|of_byte|kind_of|class_of)\(' ;;
    2) # the low and the high side done in turn, and bodies that differ in a type, a size or a constant
        src '(Side::(Low|High)\.|\(Side::(Low|High), |low \+= |high \+= |\(forward_of\(|\(above\(|\(low as i64)'
        src 'fn (near|mended|done|figures|put|clear|cut|of_units|of_ore|frame_length|discounted|lengthen)\(|const (NEARBY|MENDINGS|NEWLINE|NO_SWAP|NO_BOND|UNUSED|NONE)\b|let none = |frames"|impl fmt::Display for' ;;
    3) # loops
        src '^ *(for .* in |while )' ;;
    4) # conversions and comparisons that a trait or a library's method stands for
        src 'fn (of_byte|code|to_row|of_row|of_units|of_ore|spells|kind_of|class_of|number|year|spell|decode|done|figures)\('
        src 'match (&?self\.[a-z]+|r|rows\.last\(\)) \{|None => (return |false|0|1|None)|=> Err\(refusal\)' ;;
    5) # facts that contracts ask for, and the premise that a book is sound
        src 'requires( [a-z_0-9]+)? \{|\{ Sound ' ;;
    6) # arrays, lengths kept beside, places counted by hand
        src ': &?(mut )?\[[^]]*; [0-9A-Z_]+\]|len: usize|= \[[^]]*; [0-9A-Z_]+\];' ;;
    7) # steps chosen by a value, tables of functions
        src 'match (side|self|letter|call|frame)\b|: fn\(|dyn |impl Fn' ;;
    8) # answers to goals, and lemmas
        echo "answers: $(grep -rhE '^pub [^ ]+ : goal\.' */proofs | wc -l)"
        echo "invariants and measures: $(grep -rhE '^abbrev pub [^ ]+ : goal\.' */proofs | wc -l)"
        echo "lemmas: $(cat */proofs/*.antt | grep -cE '^(pub )?[^ ]+ : ' || true)"
        echo "lines of proofs: $(find */proofs -name '*.antt' -print0 | xargs -0 cat | wc -l)" ;;
    esac
}

if [ $# -eq 0 ]; then set -- 1 2 3 4 5 6 7 8; fi
for n; do point "$n"; done
