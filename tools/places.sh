#!/usr/bin/env bash
# Candidates for docs/DESIGN-PASS.md: the lines of src/ in which a place of a point can stand. tools/places.sh [POINT], in a checkout of any commit.
# A line found is a place or none: the page says which.
set -euo pipefail
cd "$(git rev-parse --show-toplevel)"
look() { # point, pattern
  if [ "${only:-$1}" = "$1" ]; then
    grep -nHE "$2" crates/*/src/*.rt | grep -vE ':[0-9]+: *(//|ghost use|ensures|requires)' | sed "s/^/$1 /" || true
  fi
}
only=${1:-}
# 1: enums; a flag or a number beside a value; an Option or Result taken apart by hand
look 1 '\benum |^ *(pub(\(crate\))? )?(open|[a-z]+): bool,|pub (back|count): |if let (Err|Some)\(|Err\([a-z]+\) => (return )?Err|Some\(_\) =>|None => (return )?(Err|Ok\(None|None)|let (Some|Ok)\(.*\) = .* else \{|Err\(_?[a-z]+\) => return|64|= 255'
# 2: functions of one name or one shape in two places
look 2 '^ *(pub(\(crate\))? )?fn (accepted|table|refused|plant_refused|what|ended|help|usage|layer_name|plant_layer_name|first_line|number|numbers|one_more|hex|pair|digit|cut|after_gap|front_len|first_word|is_skipped|known_word|given|read|all|spelling|one_number|two_numbers|answer_line|answer|formula_call|text_call|table_call|rule_call|run|main|at|layer|section|part|bit|has_fact|repeated_state|repeated_arc|done|reached|push_all|word|with_words|table_words)\b|pub (enum|struct) (Layer|Cause|Refusal|Word|Call|Line|Column|Console)'
# 3: loops
look 3 '^ *for .* in |^ *while |^ *loop '
# 4: comparison, copies, conversion and printing by hand
look 4 ' as (u8|u16|u32|u64|usize)\b|derive\(|impl .* for |-> &.static (str|\[u8\])|fn (refusal|refusal_of|not_opened|layer_name|plant_layer_name|spelled|kind|argument|new)\b'
# 6: lengths beside buffers, parallel arrays, indices
look 6 '\[[A-Za-z]+; [0-9]+\]|pub (len|count|first|facts|arcs|needs|sets|states|events|targets|hints|records|at): '
# 7: which step to run
look 7 'enum Column|Column::|AnyPlant::(Table|Rule)\(plant\) =>'
