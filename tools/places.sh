#!/bin/sh
# Lists the places in src/ that an older form of the language may explain, by the points of docs/DESIGN-PASS.md: `tools/places.sh` their counts,
# `tools/places.sh 3` the places of point 3. What a pattern finds is a place to look at; some are as they should be.
set -eu
cd "$(dirname "$0")/.."

find_in_src() {
    grep -rnE --include='*.rt' "$1" crates/*/src | grep -vE ':[0-9]+:\s*//' || true
}

places() {
    case $1 in
    # a match that only turns Some, None, Ok and Err round; a value or an error by number; the programs' errors
    1) find_in_src '^ *(Some\((\w+)\) => (Some|Ok)\(|Ok\((\w+)\) => (Ok|Some)\(|(Some|Ok)\((\w+)\) => (\w+|\(\w+, \w+\)|(\w+\.)?\w+\(.*\)),$|Err\(_\) =>|Err\((\w+)\) => Err\()|^const [A-Z_]+: u(8|16|32) = [0-9]+;|kind: u32|enum (Unanswered|Unread)|^ *let (Some|Ok)\(.*\) = .* else \{$' ;;
    # functions of one family: the name says a type, a size or a count
    2) find_in_src 'fn (short_|signed_)?(number|field)(<[^(]*>)?\(|fn \w+_(one|two|three)\b|fn (line|event|stamp)_(with|of)\(|fn (kind|field)_code\(|fn (squeezed|show_refusal)\(|fn waiting\(|fn look\(&self, i: usize\) -> Option<F> \{|impl Comparable for' ;;
    # a range with a counter, or a counter that nobody looks at
    3) find_in_src '\bfor \w+ in [^ ]*\.\.' ;;
    # text, comparison and conversion in functions of their own
    4) find_in_src 'fn (show_\w+|spell|same|text|push_(frames|strays)|hex_digit|with_word|kind_code|field_code|head_kind|minus|flattened|signed|body_given|frame_given|push_hex|push_word|name|parse_layer|next_layer)\b' ;;
    # clauses that ask for a fact, and parameters that go together
    5) find_in_src '^ *requires ' ;;
    # an array of zeros with a length beside; a count of what stands in a table
    6) find_in_src '= \[0; |^ *(pub )?count: usize,$|LONGEST\)|table: .*mut \[F\],$' ;;
    # a match on what to do next
    7) find_in_src 'match (layer|first|kind|action|command|\(command, (kind|first)\)|next|pile\.bottom|(choice|draw)\(.*) ' ;;
    # answers to goals, and invariants
    8) find crates/*/proofs -name 'Answers.antt' -o -name 'Invariants.antt' | sort ;;
    esac
}

if [ $# -gt 0 ]; then
    places "$1"
else
    for point in 1 2 3 4 5 6 7 8; do
        echo "$point: $(places "$point" | wc -l)"
    done
fi
