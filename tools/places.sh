#!/bin/bash
# The places that docs/DESIGN-PASS.md counts: for each of its points, the lines of src/ that a reader then judges one by one.
# Run it at the top of a checkout.
cd "$(dirname "$0")/.."
count() {
    local what="$1" pattern="$2"
    shift 2
    printf '%4d  %s\n' "$(grep -rnE -e "$pattern" "${@:-crates}" --include='*.rt' --exclude-dir=out --exclude-dir=target | wc -l)" "$what"
}
echo "1. shapes of Option and Result, flags, numbers for kinds"
count "variants for an end or a fault beside values" '^    (End|Bad\(Fault\)|Broken\(Fault\)),$'
count "answers that stand for a fault" '(Front|Next|Kind)::(Bad|Broken|broken)\('
count "kinds as number constants" '^const [A-Z]+: u32 = [0-9];$'
count "arms that give a number for a variant" '::[A-Za-z0-9]+ => [0-9]+,$'
count "kinds as an index" 'kind: usize|kind in 0\.\.'
count "give up by a flag" 'return false;$|else \{ return false'
echo "2. twins"
count "runs counted byte by byte" '^            return i;$'
count "lists of parts with a symbol between two" "'parts: while"
count "arms for the end and another token" '_ => Err\(refusal\(s|Kind::End => Err\(refusal\(s'
count "limits that stand twice" ': usize = (1023|16_777_215);$'
count "a text made and appended" 'extend_from_slice\(text\.as_bytes'
count "a link changed, by its field" 'fn set_(next|first)'
count "labels tried one by one" 'next_label_if_eq\(s, mode, Rule'
count "one check for each source" 'fn (text|tape)_lists_as'
echo "3. loops"
count "all loops" "^ *('[a-z]+: )?(for|while|loop)\b.*\{$"
count "with an index" 'for [a-z]+ in [0-9a-z]+\.\.|\.enumerate\(\)( |\))|while at <'
echo "4. derives, conversions, printing"
count "derives without Debug and ==" 'derive\(Clone, Copy\)\]'
count "tables from a variant to a number" 'fn (number|layer)\(self\) -> u8'
count "kinds compared by matches!" 'matches!\([a-z.]*kind'
count "casts after a test of the range" 'Ok\(n as (u32|i32)\)'
echo "5. facts and parameters that go together"
count "source and store side by side" 'out: &mut Store'
count "syntax and room side by side" '^    room: Room,$|room: Room, '
count "brackets beside them" 'frames: &(mut )?Stack<Frame>'
count "what is ahead, by the source's member" 'ensures.*S\.ahead s\.'
count "what the store holds, in clauses" 'ensures.*held (out|self)\.'
echo "6. buffers with lengths, indices"
count "a text or a tape and an index into it" 'bytes: &.*\[u8\], *(from|spot)|words: &.*\[u32\], at|^    (bytes|words): &.a \[u(8|32)\],$'
count "arrays" ': \[[A-Za-z0-9]+; [0-9A-Z_]+\],$|= \[.*; [0-9A-Z_]+\];$'
echo "7. switches on a step"
count "by what is due or by a kind of part" 'match (due|kind|numbers\.kind|within) \{'
