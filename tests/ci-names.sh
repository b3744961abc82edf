#!/usr/bin/env bash
# The repository stands alone. This fails where a tracked text file cites something by a number or a letter that a
# reader of the repository doesn't have (a plain name, stated here, is wanted), or names a path of one machine. A trace may name a row of
# the registry by its node.
set -u
cd "$(dirname "$0")/.." || exit 1
failed=0

words='document|paper|request|demand|rung|definition|theorem|row'
letters='T[1-5]|D[0-9]{1,2}|R[0-9]{1,2}|W[0-9]{1,2}|[AFGKLMNPQSV][0-9]{1,2}'
names=$(git grep -nIE "\\b($words) ?[0-9]{1,2}\\b|\\b($letters)\\b" -- ':!*.edit' ':!*.trace' |
    grep -vE 'sha|uuid|0x|hex|u8|u16|u32|u64')
if [ -n "$names" ]; then
    printf 'Cited by a number or a letter:\n%s\n' "$names"
    failed=1
fi

folders='work|opt|farm|root|tmp|home'
paths=$(git grep -nIE "(^|[^A-Za-z0-9_.-])/($folders)/")
if [ -n "$paths" ]; then
    printf 'Paths of one machine:\n%s\n' "$paths"
    failed=1
fi
exit $failed
