#!/bin/bash
# Counts the places that docs/DESIGN-PASS.md speaks of: lines of src/ by the shape of older code.
# Run at the top of the repository; with `-l LABEL` it prints the lines of one count.
S=$(ls crates/*/src/*.rt)
only=; [ "$1" = -l ] && only=$2
c() {
  if [ -n "$only" ]; then [ "$only" = "$1" ] && grep -nE "$2" $S; return 0; fi
  printf '%s %s\n' "$1" "$(grep -nE "$2" $S | wc -l)"
}
# 1: enums; tests of a number against 0; refusals that are handed on by hand
c 1a '^ *(pub(\([a-z]+\))? )?enum '
c 1b '(==|!=|>) 0\b'
c 1c 'return Ok\((None|Input)|Err\((fault|_)\) =>|Err\(fault\) => return|unwrap_or\((0|b?"[^"]*"|&\[\])\)'
# 2: function names that stand more than once (names, not lines); pairs that differ in a type, a size or a constant
[ -z "$only" ] && printf '2a %s\n' "$(grep -ohE 'fn [a-z_0-9]+' $S | sort | uniq -d | wc -l)"
[ "$only" = 2a ] && grep -ohE 'fn [a-z_0-9]+' $S | sort | uniq -cd
c 2b '\b(Short|Long)\b|Fault \{$|fn rejected|impl (KeyHash|ArrowNativeType) for|fn (told|length_told|fault_line|fault_text|short_numbers|long_numbers)\b'
# 3: loops over numbers, and numbers counted by hand; all `for`s
c 3a '\bwhile\b|\bin \(?0?[a-z_0-9]*\.\.|\+= 1\b'
c 3b '^ *for '
# 4: conversions and printing; casts
c 4a 'fn (number|from_number|words|to_usize|hex_char|push_[a-z]+|[a-z]+_line|[a-z]+_text)\b'
c 4b '\bas (u8|u16|u32|u64|u128|usize|i32|i64)\b'
# 5: a buffer beside what writes into it; facts about a width, a run, a page; the place of a reader
c 5a 'fn .*out: &mut \[u8\]'
c 5b 'ghost narrow|requires narrow|requires whole|Means self'
c 5c 'width: u8, place: usize|place: usize,$'
# 6: arrays of fixed length; lists that are cut to what was filled
c 6a '(: \[[a-z0-9]+; |\[0[a-z0-9]*; |\[false; |\[Entry)'
c 6b 'truncate|as_mut_slice'
# 7: steps that are chosen by a text
c 7a 'match kind|match words|match opened|== "|ends_with|starts_with|strip_prefix\("= '
# 8: lines of proofs/, and of answers
[ -z "$only" ] && printf '8a %s\n8b %s\n' "$(git ls-files 'crates/*/proofs/*.antt' | xargs cat | wc -l)" "$(git ls-files 'crates/*Answers.antt' | xargs cat | wc -l)"
exit 0
