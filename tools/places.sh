#!/bin/sh
# Counts the places in src/ that docs/DESIGN-PASS.md speaks of; with -l it lists them. Run it at the top of the repository.
list=$1

places() {
    title=$1
    found=$(cat)
    count=$(printf '%s' "$found" | grep -c .)
    printf '%4d  %s\n' "$count" "$title"
    [ "$list" = -l ] && printf '%s\n' "$found" | sed 's/^/        /'
}

src() { grep -rnE "$1" crates/*/src; }

src '^\s+(pub(\(crate\))? )?\w+: bool,$' | places '1 fields and parameters that are flags'
src '\bkind: (u8|usize)' | places '1 kinds as numbers'
src 'Option<(Refused|u8)>|\bline: (usize|u32),|line: 0' | places '1 refusals and table lines as numbers, or a refusal as an Option'
grep -rhoE '\bfn \w+' crates/*/src | sort | uniq -d | places '2 names that two functions or more have'
src '^\s+(for \w+ in [^{]*\.\.|while |loop )' | places '3 loops over a range of numbers, or with a condition'
src '^\s+for ' | grep -vE 'for \w+ in [^{]*\.\.' | places '3 other loops'
src "=> (-?[0-9]+|b'.'|\"[^\"]*\"),$" | places '4 cases that give a number, a letter or a name'
src 'fn (before|is_greater|in_order|text|line_text|push_number|push_field|hex|weight_of|name_of|policy_name|kind_name|\w+_in_words|describe|tell)\b|ZERO: |none = ' | places '4 orders, texts, digits and zeros written by hand'
src 'A: Nesting, B: Nesting, C: Policy' | places '5 lists of three type parameters'
src 'requires' | places '5 facts asked of arguments'
src '\b(count|words): usize,$|\[\w+; (8|17|64|80|ROW_WORDS)\],' | places '6 buffers, tables and the lengths beside them'
src 'match (member|rule|self\.rule|first|call|self) ' | places '7 choices of a step by a value'
cat $(find crates/*/proofs -name Answers.antt) | places '8 lines of answers' | head -1
