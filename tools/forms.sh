#!/bin/bash
# Lists the places in src/ that docs/DESIGN-PASS.md counts, point by point, and how many each command finds.
# `tools/forms.sh` counts, `tools/forms.sh -l` lists them too. Run at the head of the repository.
src() { find crates/*/src -name '*.rt' | sort; }
show() { # name, then lines on stdin
  local name=$1 text; text=$(cat); printf '%-62s %s\n' "$name" "$(printf '%s' "$text" | grep -c .)"
  [ "$list" ] && printf '%s\n' "$text" | sed 's/^/    /'
}
[ "$1" = -l ] && list=1
cd "$(dirname "$0")/.." || exit 1
# code without comments, ghost lines and clauses
code() { src | xargs grep -nE "$@" | grep -vE '^[^:]*:[0-9]+: *(//|ghost |ensures|requires)'; }
code '^ *pub fn [a-z_]+\((&self)?\) -> u8$' | show '1 a function that states a theorem and answers a number'
code '^(pub |pub\(crate\) )?enum ' | show '1 enums of our own'
code '\((u8|bool), usize\)' | show '1 a number or flag with a value beside it'
code 'Ok\(\(\)\) => Ok\(\(\)\)|Err\((fault|refusal)\) => Err\((fault|refusal)\)|Err\(_\) => Err|Err\(refusal\) => (return )?(Answer|refused|Some)' | show '1 a Result taken apart by hand'
code 'match (code_number|number|self\.number|operation\.number)|\.number\(\) ==' | show '1 a number for a kind'
src | xargs grep -ohE '^ *(pub |pub\(crate\) )?fn [a-z_0-9]+' | sed -E 's/.*fn //' | sort | uniq -c | awk '$1 > 1 {print $2 " " $1}' | show '2 names of functions that stand more than once'
code '^ *for .* in .*\.\.|^ *(let .* = )?while |^ *loop ' | show '3 loops that count or go on by hand'
code 'fn (number|of|raised|lifted|digit|digit_of|is_current|tells_gone|if_gone|absent|nothing|plain|numbered|counted|code_number)\b' | show '4 conversions and comparisons written by hand'
code 'matches!' | show '4 a pattern test in place of =='
code 'fn (push_[a-z]+|say)\b' | show '4 functions that print by hand'
src | xargs grep -nE '(requires|ensures)( [a-z_]+)? \{.*means C\.Code\.coding L\.Layout\.slot L\.Layout\.column B\.Bank\.state B\.Bank\.meaning' | cut -d: -f1,2 | show '5 clauses that spell the meanings of the parts out'
src | xargs grep -ohE 'requires( [a-z_]+)? \{.*\}' | sed -E 's/requires( [a-z_]+)? //' | sort | uniq -c | awk '$1 > 2' | show '5 requires that stand three times or more'
python3 - <<'P' | show '5 functions of seven parameters or more'
import re,glob
for f in sorted(glob.glob('crates/*/src/**/*.rt', recursive=True)):
    t=open(f).read()
    for m in re.finditer(r'fn (\w+)(?:<[^{};]*?>)?\(([^{};]*?)\)', t):
        ps=[p for p in re.split(r',(?![^<\[(]*[>\])])', m.group(2)) if ':' in p or 'self' in p]
        if len(ps)>=7: print(f"{f}:{t[:m.start()].count(chr(10))+1} {m.group(1)} {len(ps)}")
P
code '^ *(pub )?[a-z]+: \[[A-Za-z0-9]+; [A-Z0-9_]+\],' | show '6 arrays of a fixed size in a struct'
code ': &(mut )?\[\[u8; BLOCK\]\],$|present: &\[bool\]' | show '6 lists beside one another'
code 'match (\*step|call|operation\.act\(\)|Act::from\(operation\)|script\.code\(\)|code_number\(task\)|CodeName::try_from\(.*\)) ' | show '7 switches on what to do'
code 'fn\(|dyn |impl Fn|: Fn' | show '7 closures, dyn and tables of functions'
printf '%-62s %s\n' '8 lines in proofs/' "$(cat crates/*/proofs/*.antt crates/*/proofs/*/*.antt crates/*/proofs/*/*/*.antt crates/*/proofs/*/*/*/*.antt 2>/dev/null | wc -l)"
printf '%-62s %s\n' '8 answers' "$(find crates/*/proofs -name Answers.antt | xargs grep -hE '^pub ' | wc -l)"
