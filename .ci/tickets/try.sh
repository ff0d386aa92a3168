#!/bin/sh
# Script code that forgets a ticket, or ends one twice, has to be refused by the checker. It is refused before there is anything to
# prove, so these edits can't stand among a crate's must-fail edits: each is applied here to a copy of the crate `scripts`, after
# rt ci has proved it, and the check has to say the words in the edit's last line.
set -eu
cd "$(dirname "$0")/../.."
work=$(mktemp -d)
trap 'rm -rf "$work"' EXIT
tar -cf - --exclude='crates/*/out' crates crates.txt | tar -xf - -C "$work"
for edit in .ci/tickets/*.edit; do
    file=crates/scripts/$(sed -n 's/^file: //p' "$edit")
    awk -v old="$(sed -n 's/^old: //p' "$edit")" -v new="$(sed -n 's/^new: //p' "$edit")" '
        { i = index($0, old); if (i) $0 = substr($0, 1, i - 1) new substr($0, i + length(old)); print }' "$file" > "$work/$file"
    if cmp -s "$file" "$work/$file"; then
        echo "$edit does not fit $file"
        exit 1
    fi
    words=$(sed -n 's/^says: //p' "$edit")
    if (cd "$work/crates/scripts" && rt check) > "$work/said" 2>&1 || ! grep -q "$words" "$work/said"; then
        cat "$work/said"
        echo "$edit was not refused for: $words"
        exit 1
    fi
    cp "$file" "$work/$file"
    echo "$edit: refused, as it must be ($words)"
done
