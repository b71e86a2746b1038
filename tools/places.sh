#!/usr/bin/env bash
# How often the older forms stand in src/ at a commit (HEAD by default): a line for each, for docs/DESIGN-PASS.md.
cd "$(dirname "$0")/.." || exit 1
at=${1:-HEAD}
src() { git grep -hE "$1" "$at" -- 'crates/*/src/*.rt' | grep -vE '^ *(requires|ensures|//)'; }
say() { printf '%-34s %s\n' "$1" "$2"; }
say '1 enums'                        "$(src '^ *(pub |pub\(crate\) )?enum ' | wc -l)"
say '1 flags in structs and arguments' "$(src '^ +(pub(\(crate\))? )?[a-z_]+: (bool|\[bool)' | wc -l)"
say '1 refusals numbered by a match' "$(src '^ *Refusal::[A-Za-z]+(\(_\))? => [0-9]+,' | wc -l)"
say '1 arms for None'                "$(src '^ *None => |\(None, _\) =>' | wc -l)"
say '2 names of several functions'   "$(src '^ *(pub |pub\(crate\) )?(const |final )*fn [a-z_]+' | grep -oE 'fn [a-z_]+' | sort | uniq -d | wc -l)"
say '3 while, loop, ranges from 0'   "$(src '\bwhile\b|\bloop \{|for .* in 0\.\.' | wc -l)"
say '4 numbers compared or converted' "$(src '\.0(\.0)? (==|!=|<|<=|>|>=) |usize::from\([a-z_.]+\.0\)' | wc -l)"
say '5 clauses that stand three times' "$(git grep -ohP '(requires|ensures) ?[a-z_]* ?\{.*\}' "$at" -- 'crates/*/src/*.rt' | sed -E 's/^(requires|ensures) ?[a-z_]* *//' | sort | uniq -c | awk '$1 > 2' | wc -l)"
say '5 members of a measure passed singly' "$(git grep -ohP '[MC]\.(Order|Measure)\.(thing|leq|plus|nil|top|cost|code|decoded)' "$at" -- 'crates/*/src/*.rt' | wc -l)"
say '6 a length, a halving, parallel rows' "$(src '^ +(pub\(crate\) )?len: usize,|low < high|^ +[a-z]+: \[bool' | wc -l)"
say '7 matches on a way or a call'     "$(src 'match (way|direction|call|self\.way)\b' | wc -l)"
say '8 answer files'                  "$(git ls-tree -r --name-only "$at" -- crates | grep -c 'Answers.antt$')"
say '8 lines under proofs/'           "$(git ls-tree -r --name-only "$at" -- crates | grep '/proofs/' | while read -r f; do git show "$at:$f"; done | wc -l)"
