#!/bin/sh
# Counts the places of docs/DESIGN-PASS.md, point by point. Run at the top of the repository.
R() { grep -rnE "$1" crates --include=*.rt --exclude-dir=out --exclude-dir=target; }

echo "1a own enums: $(R '^ *(pub(\([a-z]*\))? )?enum ' | wc -l)"
echo "1b flags and numbers for how it ended: $(R 'Result<bool|fn (number|place)\(self\)|number: (usize|u64)' | wc -l)"
echo "1c errors turned by hand: $(R 'else \{ *$|Err\(_\) =>|Err\(e\) => (return )?Err|Err\(error\) =>' | wc -l)"
echo "2 names of functions that stand twice: $(R '^ *(pub(\([a-z]*\))? )?fn ' | sed -E 's/.*fn ([a-z_0-9]+).*/\1/' | sort | uniq -c | awk '$1>=2' | wc -l)"
echo "3 loops over a range, while and loop: $(R '(for [a-z_0-9]+ in [^{]*\.\.|while |loop \{)' | wc -l)"
echo "4 impls by hand: $(R '^impl.*(PartialEq|Eq|PartialOrd|Ord|Clone|Copy|From<.*>|TryFrom<.*>|fmt::Display) for ' | wc -l)"
echo "4b comparing, copying and converting methods: $(R 'fn (less|at_most|same|larger|copied|from_bits|of|whole)\b' | wc -l)"
echo "5 clauses that stand three times or more: $(grep -rhE '^ *requires' crates --include=*.rt --exclude-dir=out --exclude-dir=target | sed -E 's/^ *requires *[a-z_0-9]* *//' | sort | uniq -c | awk '$1>=3 {n+=$1; k+=1} END {print k+0 " clauses, " n+0 " places"}')"
echo "5b functions of six or more parameters: $(python3 - <<'PY'
import glob, re
many = 0
for name in glob.glob('crates/*/src/**/*.rt', recursive=True):
    for m in re.finditer(r'\bfn \w+(?:<[^>]*>)?\(([^)]*)\)', open(name).read()):
        if len([p for p in m[1].split(',') if ':' in p or 'self' in p]) >= 6:
            many += 1
print(many)
PY
)"
echo "6 array, Vec and slice fields: $(R '^ *(pub(\([a-z]*\))? )?[a-z_]+: (\[.*; [0-9A-Z_]+\]|Vec<.*>|&.*\[.*\]),$' | wc -l)"
echo "7 matches that may choose a step: $(R 'match (call|mark|self\.mark|way|mistake|shape|kind|edit|change|\*change|lesson.mistake|form)\b' | wc -l)"
proofs() { find crates -path '*proofs*' -name '*.antt' -not -path '*/out/*' -not -path '*/target/*'; }
echo "8 proofs: $(proofs | xargs cat | wc -l) lines in $(proofs | wc -l) files"
