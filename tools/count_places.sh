#!/bin/bash
# Counts, at a commit, the lines of src/ that docs/DESIGN-PASS.md speaks of, one pattern a line. Usage: tools/count_places.sh COMMIT [-l]
# With -l each line is listed too.
commit=${1:?a commit}
list=$2
count() {
    local found
    found=$(git grep -nE "$2" "$commit" -- 'crates/*/src/*.rt' | grep -vE '^[^ ]+: *//' | sed "s/^$commit:crates.//")
    printf '%-44s %4d\n' "$1" "$(printf '%s' "$found" | grep -c .)"
    if [ "$list" = -l ] && [ -n "$found" ]; then printf '%s\n' "$found" | cut -c1-170 | sed 's/^/    /'; fi
}
count '1 builders that answer a pair' '\(Option<Refusal>, .*Set|-> \(Option<Refusal>'
count '1 flags in structs' '^ *(pub |pub\(crate\) )?[a-z_]+: bool,$'
count '1 a line beside its value' '_line: Option<usize>'
count '1 results with an option in them' 'Result<Option<'
count '1 errors and misses told by a match' 'Err\(_\) (=>|=)|None => (Err|None|return)|Some\(_\) => (Err|Some)'
count '1 calls that answer whether they did it' 'pub fn (push|sort_out).*-> bool'
count '1 one or none for a find' 'fn found_once'
count '1 enums' '^ *(pub |pub\(crate\) )?enum '
count '2 walks and their copies' 'fn (here|step|leap|forward|walk_to|seek_to|block|count_rest|[a-z_]+_by_advance)\b'
count '2 what may be said once' 'fn put_(bonus|seen|pick|at_least|once)\b'
count '2 readers of words' 'fn (ids_at|name_at|read_at|read_scores|read_sizes|short_call)\b'
count '2 calls at a place of a vector' 'if place < sets.len\(\)'
count '2 greatest of all' 'greatest_so_far = 0'
count '3 loops that count' 'for [a-z_]+ in [^{]*\.\.|while [a-z_.0-9]+ <=? |while [0-9] <'
count '3 counters kept by hand' '^ *(place|filled|made|count|rank|line|end|at|self\.bucket) (\+=|-=|=) [^=]'
count '4 orders and copies by hand' 'impl(<.*>)? Order for|fn (at_or_before|outranks|may_lead)\b'
count '4 printing by hand' 'fn print_'
count '5 a meaning written out in a clause' '(ensures|requires).*(union_means|threshold_meaning|opted|excluded) [(B]'
count '5 cells of a window written out' 'held [a-z.]+\.words'
count '5 places of a bank written out' '(kept|due|chosen 0) [a-z.0-9]+\.live|self\.(old|new)\.live'
count '5 three lists of a bank' 'ghost (places|hints|prices)|\(places self|\(hints self'
count '6 buffers and lengths' '^ *(pub )?(chains|sizes|entries|places|let mut sizes).*(\[|ArrayVec)|&sizes\[0'
count '6 a length given beside its places' 'len: usize'
count '7 which word comes next' 'Next::'
