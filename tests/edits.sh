#!/bin/sh
# Lists why the prover refused each edit that must be refused, from what `rt must-fail` or `rt ci` wrote, and counts the reasons:
#
#     rt must-fail >edits.log 2>&1
#     tests/edits.sh edits.log
#
# The gate tries those in crates/*/must-fail: a few of each crate, since each proves its function anew. `tests/edits.sh --try` tries them all, those in
# tests/edits too, in a clone of what is committed, by `rt ci`, which goes on from what this machine keeps, where the kit keeps something.
# `tests/edits.sh --try CRATE..` tries those of some crates, by `rt must-fail`, which proves the libraries below them first.
#
# clause, invariant   what a function promises, or the invariant of a type, isn't proved: the edit shows what the contract holds
# loop, call, safety  an invariant of a loop, what a call requires, or a sum, index or cast isn't proved: it shows nearly as much
# proof               a line of another proof isn't accepted first, as of a lemma: see whether it stands for one of the above
# name, limit, bad    only a name is gone, the prover came to no verdict, or the edit can't be read: replace the edit
# NOT REFUSED         the contract lets the edit through
set -u

reasons() {
    awk '
    function kind(text) {
        if (text ~ /NOT REFUSED/) return "NOT REFUSED"
        if (text ~ /BAD EDIT|NOT TRIED/) return "bad"
        if (text ~ /names what the edit took away/) return "name"
        if (text ~ /only by a limit/) return "limit"
        if (text ~ /invariant. of the struct/) return "invariant"
        if (text ~ /what the function ensures|error: `returns/) return "clause"
        if (text ~ /invariant of the loop|error: `loop-/) return "loop"
        if (text ~ /requires/) return "call"
        if (text ~ /proofs\//) return "proof"
        return "safety"
    }
    match($0, /must-fail [a-z0-9_]+\/[^ ]+\.edit: /) {
        edit = substr($0, RSTART + 10, RLENGTH - 12)
        rest = substr($0, RSTART + RLENGTH)
        if (edit in reason) next
        reason[edit] = kind(rest)
        sub(/^refused, as it must be:? ?/, "", rest)
        printf "%-12s %-50s %s\n", reason[edit], edit, substr(rest, 1, 120)
        count[reason[edit]]++
    }
    END {
        for (k in count) printf "%d %s\n", count[k], k | "sort -rn"
        close("sort -rn")
    }
'
}

if [ "${1:-}" != --try ]; then
    cat -- "$@" | reasons
    exit
fi
shift
top=$(cd "$(dirname "$0")/.." && pwd)
room=$(mktemp -d)
trap 'rm -rf "$room"' EXIT
git clone -q "$top" "$room/all" && cd "$room/all" || exit 1
for folder in tests/edits/*; do
    mkdir -p "crates/${folder##*/}/must-fail"
    cp "$folder"/*.edit "crates/${folder##*/}/must-fail/"
done
git add -A && git -c user.name=edits -c user.email=edits commit -qm 'all edits'
if [ $# -eq 0 ]; then
    rt ci 2>&1 | reasons
else
    rt must-fail "$@" 2>&1 | reasons
fi
