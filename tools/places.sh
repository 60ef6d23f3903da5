#!/bin/sh
# Lists the places in src/ that docs/DESIGN-PASS.md counts: tools/places.sh POINT [COMMIT]
# With COMMIT the files are read as they stood there. Tests and programs count too.
cd "$(dirname "$0")/.." || exit 2
point=$1
commit=${2:-}

find_lines() { # the lines of src/ that fit a pattern, with their places
    if [ -n "$commit" ]; then
        git grep -nE "$1" "$commit" -- 'crates/*/src/*.rt' 'crates/*/src/**/*.rt' | sed "s/^$commit://"
    else
        grep -rnE "$1" --include='*.rt' crates/*/src
    fi
}

case $point in
1a) find_lines '^(pub(\([a-z]+\))? )?enum ' ;;                                     # enums
1b) find_lines ': bool,$' ;;                                                      # flags in structs and parameters
1c) find_lines 'fn .*-> (bool|u8)$' ;;                                            # replies that are a flag or a number
1d) find_lines '=> [0-9]+,$|question: u32' ;;                                     # numbers for cases
1e) find_lines '^ *(None|Err\([a-z_]+\)) => (None|Err\(.*\)),$' ;;                # a case handed on by hand
2a) find_lines '^ *(zero|one): [A-Z][A-Za-z:]*,$' ;;                              # one of something for each value
2b) find_lines '^(pub(\([a-z]+\))? )?(struct|enum|trait|macro_rules!) ' ;;        # types, to be set side by side
2c) find_lines '^ *(pub(\([a-z]+\))? )?fn ' ;;                                    # functions, to be set side by side
3) find_lines '^ *(for|while|loop)( .*)?\{$' ;;                                   # loops
4a) find_lines 'if [a-z_]+ \{ ?1 ?\} else \{ ?0 ?\}| as (u8|i32|i64|char)' ;;     # conversions by hand
4b) find_lines 'fn (same|is_of|at_most|number|reply|known_[a-z]+|board_kind|spelled|bank_number|done|scored|with_sign|value_of|[a-z_]*shown)\b' ;;
5a) find_lines '(requires|ensures).*→' ;;                                         # premises in contracts
5b) find_lines '^ *(n|standing|kept|used|base|vars|pairs|history|index|line): ' ;; # parameters and fields that travel together
6a) find_lines '&.*\[[A-Z][A-Za-z]*(<K>)?\],$|^ *[a-z]+: \[' ;;                    # lent tables
6b) find_lines '^ *(count|used|kept|standing|n|next|left): ' ;;                   # lengths beside them
7) find_lines 'dyn |fn\(|impl Fn|F: Fn|^macro_rules' ;;                           # tables of functions, switches
*) echo "usage: tools/places.sh 1a|1b|1c|1d|1e|2a|2b|2c|3|4a|4b|5a|5b|6a|6b|7 [COMMIT]" >&2; exit 2 ;;
esac
