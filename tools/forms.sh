#!/usr/bin/env bash
# Counts lines of older forms in the crates' code, a line a pattern: the point, the pattern's name and how many lines match.
# With -v it prints the lines too. What a pattern finds is a place to look, and not yet a fault. docs/DESIGN-PASS.md says what came of each.
set -euo pipefail
cd "$(dirname "$0")/.."
verbose=${1:-}

count() { # point, name, pattern
    local lines
    lines=$(grep -rnE --include='*.rt' -- "$3" crates/*/src | grep -vE '^[^:]*:[0-9]+: *//' || true)
    printf '%s  %-44s %3d\n' "$1" "$2" "$(printf '%s' "$lines" | grep -c . || true)"
    if [ "$verbose" = -v ] && [ -n "$lines" ]; then
        printf '%s\n' "$lines" | sed 's/^/       /'
    fi
}

count 1 'a number as an error'                    'Result<[^=]*, (usize|u8|u16|u32|u64)>'
count 1 'a result in a result'                    'Result<Result<'
count 1 'a number or a text for a kind'           'starts_with\(b"|b"(done|none)\\n"\.as_slice|Refused\((usize|[0-9])|Some\((16|Disk::ENTRIES)\)|-> Option<usize>$'
count 1 'a bool beside what is written'           '&mut .*\) -> bool|Result<bool'
count 1 'an error or a none passed on by hand'    '(Err|None|Some)(\(\w+\))? => (return )?(Err|Ok|None|Some)\b|return Done::Refused|else \{ *$'
count 3 'while'                                   '\bwhile\b'
count 3 'for over a range of numbers'             '\bfor \w+ in [^{]*\.\.'
count 3 'one more or one less, by hand'           '(\+|-)= 1;|saturating_add\(1\)'
count 4 'impl of a trait'                         '^ *impl.* for '
count 4 'a conversion or a test as a function'    'fn (eq|number|value|place|of|new|decode|encode|report|is|hex_value)\('
count 4 'printing as a function'                  'fn push_\w+\('
count 5 'a sound or a long disk required'         'requires .*(sound|has_entries|512 ≤)'
count 6 'a fixed array that is filled'            'let mut \w+ = \[[^]]*; [^]]*\];|: \[[a-z0-9]+; [A-Za-z0-9:_]+\],$'
count 7 'a boxed closure, dyn, a function pointer' '\bdyn\b|Box<|: fn\('
printf '8  %-44s %3d\n' 'lines of proofs' "$(find crates/*/proofs -name '*.antt' -exec cat {} + | wc -l)"
printf '8  %-44s %3d\n' 'answers' "$(grep -rhE '^pub [A-Za-z0-9_-]+ : goal\.' --include=Answers.antt crates/*/proofs | wc -l)"
