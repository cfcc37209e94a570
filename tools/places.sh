#!/usr/bin/env bash
# Places in src/ where an older form of Rattle may stand, by the kinds of docs/DESIGN-PASS.md. Prints each hit, and a count
# after each kind. Run it at the top of a checkout: tools/places.sh, or tools/places.sh 3 for one kind.
set -u
only=${1:-}
src=$(ls crates/*/src/*.rt)

show() { # kind, what, pattern, and a pattern of lines that are none
    [ "${only:-$1}" = "$1" ] || return 0
    local hits
    hits=$(grep -nE -- "$3" $src | grep -vE -- "${4:-^$}" || true)
    [ -z "$hits" ] || printf '%s\n' "$hits"
    printf -- '-- %s. %s: %s\n' "$1" "$2" "$(printf '%s' "$hits" | grep -c .)"
}

twice() { # what, pattern
    [ "${only:-2}" = 2 ] || return 0
    local names
    names=$(grep -hoE -- "$2" $src | sed -E 's/.* //' | sort | uniq -d)
    printf '%s\n' "$names" | tr '\n' ' '
    printf '\n-- 2. %s: %s\n' "$1" "$(printf '%s' "$names" | grep -c .)"
}

clauses='ensures|requires'
show 1 'enums of our own' '^\s*(pub(\(crate\))? )?enum '
show 1 'a refusal as an Option' 'Option<Fault>'
show 1 'classes and months of the year as bare numbers' '(class|month % 12) (==|<=?|!=) [0-9]+ |^ +[0-9]+ => [A-Z]|\{ 9 \}|Some\([0-9]\),' "$clauses|_tests/"
twice 'names of functions that stand more than once' '^\s*(pub(\(crate\))? )?fn [a-z_0-9]+'
twice 'names of types and constants that stand more than once' '^\s*(pub(\(crate\))? )?(struct|enum|trait|const) [A-Za-z_0-9]+'
show 3 'a for over a range of numbers' 'for [a-z_]+ in .*\.\.'
show 3 'a while, a loop, or a counter by hand' '\bwhile |\bloop \{|enumerate\(\)|^\s+[a-z]+ (\+|-)= 1;' '^[^:]*:[0-9]+: *//'
show 4 'a match on an option, or a choice by a bool, that a combinator says' '^\s+None => (None|false|0|true|return)|\{ Some\([a-z]+\) \} else \{ None \}|\{ 1 \} else \{ 0 \}'
show 4 'functions that convert, compare or print' 'fn (number|reason|name|fault_of|or_zero|code|factor|code_at|is_named)\b' '_tests/'
show 5 'facts in clauses of three functions or more' 'count ≤ 32|class < 12|account < 32|class < 11|month < 1200|SmallPays|successors\.now ≡|self\.new\.terms ≡ self\.old\.terms'
show 5 'parameters that travel together' 'quantity: u32, lots: i32|traded: &\[|successors: &\['
show 6 'tables beside one another, a list with a length beside, a search by hand' 'const (NAMES|KINDS|PLACES|EARLIER)|pub count: u32|low \+ \(high'
show 7 'a switch on which step to run, a table of functions' 'match call\b|[^_a-z]fn\('
if [ "${only:-8}" = 8 ]; then
    proofs=$(find crates -path '*/proofs/*.antt' -not -path '*/out/*')
    printf -- '-- 8. lines of proofs: %s in %s files; lines of specs: %s\n' \
        "$(cat $proofs | wc -l)" "$(printf '%s\n' "$proofs" | wc -l)" "$(cat crates/*/specs/*.antt | wc -l)"
fi
