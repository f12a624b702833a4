#!/bin/sh
# Lists the places of src/ that may have an older form, by the points of docs/DESIGN-PASS.md, and how many lines each list has.
# Call it at the top of a checkout; with -c it prints the counts alone. A line is a place to look at, not a verdict.
S='crates/*/src/*.rt'
only=$1
list() {
    label=$1
    found=$(cat)
    n=$(printf '%s' "$found" | grep -c .)
    printf '%4d  %s\n' "$n" "$label"
    [ "$only" = -c ] || [ "$n" = 0 ] || printf '%s\n' "$found" | sed 's/^/        /'
}
code() { grep -nE "$1" $S | grep -vE ':[0-9]+:\s*//|ghost use '; }

code '^\s*(pub(\(crate\))? )?enum ' | list '1a own enums'
grep -nA1 -E 'let .* = .* else \{' $S | grep -E 'return ' | list '1b let .. else with a return'
code 'const [A-Z_]+: u8|^\s+[A-Z][A-Za-z:]+ => [0-9]+,$|^\s+[0-9]+ => |kind: (u8|[0-9]+)|\([A-Za-z:]*,? ?[0-9]+(, [A-Za-z_()]+)?\) =>' | list '1c numbers for kinds or refusals'
code 'Option<(Text)?Refusal>|Result<Result|Result<Option' | list '1d refusals as options, results in results'
code '^\s+(pub )?[a-z_]+: bool,|found: u8' | list '1e flags in structs'
grep -hoE '\bfn [a-z_0-9]+' $S | sort | uniq -cd | list '2a names of functions that stand twice'
grep -hoE 'const [A-Z_]+: [a-z0-9]+ = [^;]+' $S | sed -E 's/const [A-Z_]+: [a-z0-9]+ = //; s/_//g' | sort | uniq -cd | list '2b constants that stand twice'
code '^\s*(while|loop)\b|\bfor [a-z_]+ in [^{]*\.\.|[+-]= 1;' | list '3 loops and counters by hand'
code '^\s+([a-z]+): [a-z]+\.\1,' | list '4a fields copied by hand'
code 'fn (is_before|is_same|is_of|lesser|raise|number|number_or_0|refusal_by|to_word|from_word|said|named|shown|call_in|reply_in|digits|is_one|is_key|is_value|row_at|set_row|seg_at|set_seg)\b' | list '4b order, equality, conversion and printing by hand'
grep -hoE '(requires|ensures)( [a-z_0-9]+)? \{.*\}$' $S | sed -E 's/^(requires|ensures)( [a-z_0-9]+)? //' | grep -vE 'result|new' | sort | uniq -c | awk '$1>=3' | list '5a facts in three or more clauses'
grep -hoE '[a-z]+: &[^,)]*, (at|count): usize' $S | sort | uniq -c | list '5b parameters that travel together'
code '&(mut )?\[u64\], count: usize|^\s+[a-z]+: &(mut )?\[u64\],$|(lo|low) < (hi|high)|at: usize, c: u8' | list '6 lengths beside buffers, searches by hand'
code 'match level|else if |fn\(|dyn ' | list '7 switches on steps'
