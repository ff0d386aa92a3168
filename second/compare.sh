#!/bin/sh
# Compares the proved programs with the second ones, on damaged and random sheets, and on scripts chosen by hand and random ones:
# sh second/compare.sh INSPECT REHEARSE
# It writes what it did, and ends with status 1 at the first batch in which the two differ, or where a kind of row never came up.
set -eu
inspect=$(cd "$(dirname "$1")" && pwd)/$(basename "$1")
rehearse=$(cd "$(dirname "$2")" && pwd)/$(basename "$2")
here=$(cd "$(dirname "$0")" && pwd)
work=$(mktemp -d)
trap 'rm -rf "$work"' EXIT
rustc -O -o "$work/second" "$here/main.rs"

# Runs both on every sheet of a folder and compares the first lines.
compare() {
    "$work/second" verdicts "$work/$1" > "$work/$1.second"
    for sheet in "$work/$1"/*; do
        cd "$sheet"
        "$inspect" > said || true
        head -n 1 said > verdict
        printf '%s %s\n' "${sheet##*/}" "$(cat verdict)"
    done > "$work/$1.inspect"
    if ! cmp -s "$work/$1.second" "$work/$1.inspect"; then
        echo "inspect and the second reader differ on the $1 sheets:"
        diff "$work/$1.second" "$work/$1.inspect" | head -n 5
        exit 1
    fi
    echo "inspect and the second reader agree on $(wc -l < "$work/$1.second") $1 sheets"
    cut -d ' ' -f 2-3 "$work/$1.second" | sort | uniq -c | sort -rn | head -n 20 > "$work/$1.kinds"
    sed 's/^/  /' "$work/$1.kinds"
}

sh "$here/../examples/make-sheet.sh" < "$here/../examples/example.plan" > "$work/example.bin"
"$work/second" damage "$work/example.bin" "$work/damaged" 1 > /dev/null
compare damaged
"$work/second" random 1 1000 "$work/random"
compare random

# Plays every script of a batch and compares all rows; diff names the script by what is tried with it.
play() {
    "$work/second" rows "$work/scripts/$1" "$work/second.rows/$1"
    mkdir -p "$work/rehearse.rows/$1"
    for place in "$work/scripts/$1"/*; do
        cd "$place"
        if ! "$rehearse" < script > "$work/rehearse.rows/$1/${place##*/}"; then
            echo "rehearse failed on the $1 script ${place##*/}"
            exit 1
        fi
    done
    cd "$work"
    if ! diff -r "second.rows/$1" "rehearse.rows/$1" > differences; then
        echo "rehearse and the second player differ on the $1 scripts:"
        head -n 5 differences
        exit 1
    fi
    rows=$(find "rehearse.rows/$1" -type f -exec cat {} + | wc -l)
    echo "rehearse and the second player agree on $rows rows of $(ls "scripts/$1" | wc -l) $1 scripts"
}

# Of a refused sheet the rows are told without a look at standard input, which here is a folder and can't be read.
mkdir "$work/refused"
cd "$work/refused"
: > plan.bin
if ! "$rehearse" < . > rows || [ "$(cat rows)" != "? 0" ]; then
    echo "rehearse did not tell a refused sheet by itself"
    exit 1
fi
cd "$work"

"$work/second" scripts 1 400 "$work/scripts/random"
"$work/second" edges 1 "$work/scripts"
for batch in malformed number clock constraint hold long damaged sheet random; do
    play $batch
done
if ! find "$work/rehearse.rows" -type f -exec cat {} + | "$work/second" kinds > "$work/kinds"; then
    echo "a kind of row never came up, or a row is of no kind:"
    cat "$work/kinds"
    exit 1
fi
sed 's/^/  /' "$work/kinds"
