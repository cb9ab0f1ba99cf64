#!/usr/bin/env bash
# Compares each definition that docs/THEOREM.md quotes with the file that its first line names. It fails where one stands
# there no longer, word for word.
set -u
cd "$(dirname "$0")/.." || exit 1

wrong=0 quoted=0 file='' block=''
while IFS= read -r line; do
    if [[ $line == '```'?* ]]; then
        file=${line##* } block=''
    elif [[ $line == '```' ]]; then
        quoted=$((quoted + 1))
        if [[ ! -f $file ]] || [[ $(<"$file")$'\n' != *"$block"* ]]; then
            printf '%s has no longer:\n%s' "$file" "$block" >&2
            wrong=$((wrong + 1))
        fi
        file=''
    elif [[ -n $file ]]; then
        block+=$line$'\n'
    fi
done <docs/THEOREM.md
if [[ $wrong != 0 || $quoted == 0 ]]; then
    echo "docs/THEOREM.md: $wrong of $quoted quotations are out of date" >&2
    exit 1
fi
echo "docs/THEOREM.md quotes $quoted definitions as they stand"
