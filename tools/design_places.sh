#!/bin/sh
# Where the code may still read like the older language: the places of each kind, by crate, as docs/DESIGN-PASS.md counts them.
#   sh tools/design_places.sh          how many there are of each kind
#   sh tools/design_places.sh KIND     the places themselves
# A place is a line of src/. The patterns are wide: what they find and is no such place stands in docs/DESIGN-PASS.md with the reason.
cd "$(dirname "$0")/.." || exit 1
src() { git ls-files 'crates/*/src/*.rt'; }
find() { src | xargs grep -nE "$1" /dev/null; }
places() {
  case $1 in
    # 1. an enum with a case for nothing, or for a refusal, beside one with a value
    1-enums) src | xargs awk '
      FNR == 1 { open = 0 }
      /^ *(pub )?enum / { open = 1; head = FILENAME ":" FNR ":" $0; cases = 0; empty = 0; full = 0; next }
      open && /^ *}/ { if (cases == 2 && empty + refused >= 1 && (full >= 1 || refused >= 1)) print head; open = 0; refused = 0 }
      open && /^ *[A-Z][A-Za-z]*(\(|,)/ { cases++; if ($0 ~ /\(/) full++; else empty++; if ($0 ~ /Refused|Limit|No,|Nothing|Nowhere/) refused++ }' ;;
    # 1. a number for a kind, a state, a place or a refusal
    1-codes) find '^ *(pub )?const [A-Z0-9_]+: (u8|u64|usize) = [0-9]+;' ;;
    # 1. a number that says which refusal, or that there is none
    1-refusals) find 'let [a-z]+ = .*; *$|if [a-z]+ > 0 \{' | grep -E 'if [a-z]+ > 0 \{' ;;
    # 2. functions of one crate whose names differ in a word for a type, a size or a direction
    2-twins) find '^ *(pub )?fn [a-z0-9_]*_(bytes|numbers|one|two|three|four|index|value|vars|arrays|funcs|variables|functions)(<[^>]*>)?\(' ;;
    # 3. a loop that counts by hand
    3-loops) find "^ *('[a-z]+: )?(while |loop )" ;;
    # 4. equality, copying and conversion by hand
    4-hand) find '^ *(pub )?fn (same[a-z_]*|alike|copy[a-z_]*|clear[a-z_]*|wide|number_of|error_of|size|count|[a-z_]*_answer|[a-z]+_is|literal)(<[^>]*>)?\(' ;;
    # 5. parameters that always travel together
    5-together) find '(numbers: &\[&\[u64\]; NUMBERS\]|tables: &\[&\[u64\]; TABLES\]|symbols: &\[u8|signs: &\[u8|t: &(mut )?\[u64; TABLE\]|h: &(mut )?\[u64; 4\]|heap: &(mut )?\[u64; HEAP\])' ;;
    # 6. arrays of numbers that stand for records, tables and lists
    6-arrays) find '(&(mut )?|= )\[[^];]*; *[A-Z0-9_]+\]' ;;
    # 7. a number that says which step to run
    7-switch) find 'match (stage|style|which|step|behind|number) \{|stage: u8' ;;
    *) echo "design_places.sh: no kind $1" >&2; exit 2 ;;
  esac
}
kinds='1-enums 1-codes 1-refusals 2-twins 3-loops 4-hand 5-together 6-arrays 7-switch'
if [ $# -gt 0 ]; then places "$1"; else for k in $kinds; do printf '%-12s %s\n' "$k" "$(places "$k" | wc -l)"; done; fi
