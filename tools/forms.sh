#!/bin/sh
# Counts, for each point of docs/DESIGN-PASS.md, the places of src/ that an older form may stand at; with -l lists them.
# Run at the top of a checkout. Tests' modules and text after // do not count.
src() { find crates/*/src -name '*.rt' | sort | while read -r f; do
  awk -v f="$f" '/^#\[cfg\(test\)\]/{exit} {t=$0; sub(/^[ \t]*\/\/.*/,"",t); if (t!="") print f ":" NR ":" t}' "$f"; done; }
list=$1
places() { # name, expression
  found=$(src | grep -E -- "$2")
  n=$(printf '%s' "$found" | grep -c '')
  printf '%-34s %4d\n' "$1" "$n"
  [ "$list" = -l ] && [ "$n" -gt 0 ] && printf '%s\n' "$found" | sed 's/^/    /'
  return 0
}
echo "1 Option, Result, enums"
places "enums declared" '^[^:]*:[0-9]*: *(pub(\(crate\))? )?enum '
places "flags in structs" '^[^:]*:[0-9]*: +(pub(\(crate\))? )?[a-z_]+: bool,'
places "flags in functions" 'let mut [a-z_]+ = (true|false);'
places "errors answered in an Option" '-> Option<(Refusal|LibraryFault|LibraryCause|Cause|u32)>'
places "success answered in a bool" 'fn (take|add|append|put|push)[a-z_]*\(&mut .*-> bool'
places "numbers for kinds, 0 for none" 'TOO_LARGE|= 0u8;|Number\(0\)|opened: 0|(left|state) = [0-9]'
echo "2 twins"
places "searches and tests of bytes, loops" 'for (\(i, byte\)|byte) in '
places "first byte tested by hand" '(len\(\) (> 0|== 0)( \{|.*&&)|\[0\] ==|\[0\]\))'
places "writes over the front" 'fn (overwrite|write_front|put_text)'
places "tests of a kind" '=> (true|false),'
places "fitted sums" '=> (Value::Lost|Err)\(Flaw::OutOfRange\)'
places "numbers of an enum" 'fn number\(self\)|for u16 \{'
places "whole requests" 'deliver\(&(hearing|self\.turn\(grant\)), buffer\)'
places "answers of a request" 'struct (Answer|Hearing|Advance)|enum (Told|Heard)'
places "array with a length" 'bytes: \[u8; [A-Z_]+\],|(rows|entries): \[.*; [A-Z]+\],'
echo "3 loops by an index"
places "enumerate" '\.enumerate\(\)'
places "while" ' while '
places "counted ranges" 'for [a-z_]+ in 0\.\.'
places "loop" ' loop \{'
echo "4 equality, order, conversion, printing"
places "casts" ' as (u8|u16|u32|u64|usize|i32|char)\b'
places "numbers of an enum" 'fn number\(self\)'
places "is it this case, by a match" '=> (true|false),'
places "own order" 'Order::(Lower|Same|Higher)'
places "digits by hand" 'ZERO \+|% 10|/ BASE|value \* 10'
places "named constructors of a start" 'fn (start|none|empty|fresh_level)(<[^(]*>)?\('
places "enums by a function from a text" 'fn shape_named'
places "printing, one function for a part" 'fn (fault_line|fault_parts|fault_text|ending_line|bytes_of|line_head|line_line|end_line|answer_line|print_line)'
echo "5 facts and parameters that travel"
places "table of names in a clause" 'rows_of'
places "what a text source keeps" 'resting (self|result)'
places "what a layer keeps" 'keeping M.(Machine.)?state S.(Source.)?kept|Moves M.rule'
places "parts of a fault as parameters" '^[^:]*:[0-9]*: +(number: u16|depth: u8|line: u32|definition: u16|statement: u16),'
places "level and depth" 'depth: usize'
places "a line cut from a text" 'first_at\((self\.)?(rest|text), LINE_END\)'
echo "6 buffers with a length beside"
places "length fields" '^[^:]*:[0-9]*: +(pub(\(crate\))? )?(len|count|depth): usize,'
places "tables with an index beside" 'levels: &(.a )?(mut )?\[Level'
places "numbers of sentinel 0" 'DefinitionNumber\(0\)|StatementNumber\(0\)'
echo "7 switches"
places "match on a step, a phase or an operation" 'match (self\.phase|shape|op|sign|place\.after|self|deed|token|hearing\.heard|answer\.told|waiting|kind_of)'
