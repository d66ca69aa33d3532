#!/bin/sh
# Lists the candidates for older forms in src/, point by point, one a line, each point ended by their count.
# Which of them are places of their point is told by reading; docs/DESIGN-PASS.md has the result.
# usage: tools/forms.sh    at the top of a checkout
files=$(git ls-files 'crates/*/src/*.rt')

list() {
    echo "== $1"
    grep -nE "$2" $files | sed 's/:  */: /'
    echo "count: $(grep -hE "$2" $files | wc -l)"
}

lines() {
    echo "$1: $(git ls-files "$2" | grep -E "$3" | xargs cat | wc -l)"
}

list '1. enums, and constants of number type for kinds' '^(pub )?enum |^pub const [A-Z_]+: u8'
echo '== 2. names that stand on more than one function'
grep -ohE 'fn [a-z_]+' $files | sort | uniq -c | awk '$1 > 1'
echo "count: $(grep -ohE 'fn [a-z_]+' $files | sort | uniq -d | wc -l)"
list '3. loops over a range or with a counter, loops by hand, and early answers of a search' '^ *(for .* in .*(\.\.|enumerate)|while |loop )|return (false|true);$'
list '4. equality, order, copying, conversion, printing' '^impl.* (PartialEq|Eq|PartialOrd|Ord|Clone|Copy|Hash|Debug|From<.*>|TryFrom<.*>|FromStr) for |fn (same|same_content|alike|of|movement|code_of|verb|word)\(|fn [a-z_]+(_of|ed)\(.*&str'
list '5. facts that callers owe, and facts of a struct' '^ *requires |^ *ghost [a-z]+: \{ '
list '6. arrays, vectors, maps and slices in a struct, a signature or a constant' '^ *(pub(\(crate\))? )?[a-z_]+: .*(\[.*; |Vec<|&\[|Map<|Set<)|^const .*: \['
list '7. closures, function values, dyn, types named at a call' 'dyn |fn\(|Fn(Mut|Once)?\(|::<[A-Z][A-Za-z<>, ]*>\('
echo '== 8. lines'
lines 'answers and invariants' 'crates/*.antt' '/proofs/.*/(Answers|Invariants)\.antt$'
lines 'lemmas' 'crates/*.antt' '/specs/Lemmas/[A-Za-z]+\.antt$|/proofs/[A-Za-z]+\.antt$'
