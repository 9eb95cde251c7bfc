#!/bin/sh
# Usage: rt must-fail [NAME..] 2>&1 | tools/refusals.sh
# Says how the checker refused each must-fail edit, by what `rt must-fail` or `rt ci` prints of it, and counts the kinds.
# What it prints of an edit is cut short, so the words are looked for where they begin.
set -eu
grep '^rt: must-fail .*: refused' | while read -r line; do
    edit=$(echo "$line" | sed 's/^rt: must-fail \([^:]*\): .*/\1/')
    case "$line" in
        *'); the facts known'*) kind='values' ;;
        *'./proofs/'*': error'*) kind='answer' ;;
        *'); `search`'*) kind='bounds' ;;
        *) kind='not closed' ;;
    esac
    echo "$kind: $edit"
done | sort -u | awk '{ print; split($0, a, ":"); count[a[1]]++ } END { for (k in count) print count[k], k }'
