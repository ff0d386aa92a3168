#!/bin/sh
# Turns a plan in words into a sheet: sh make-sheet.sh < example.plan > plan.bin
# Lines: `plan BASE DEPTH`, `reserve ACTIVITY X Y`, `entry ACTIVITY DEPTH PATH OFFSET LENGTH`; what begins with # is left out.
set -eu
bytes=$(awk '
function two(at, n) { b[at] = n % 256; b[at + 1] = int(n / 256) }
function seal(at, i, sum) {
    sum = 0
    for (i = 0; i < 508; i++) sum += (i + 1) * b[at + i]
    for (i = 0; i < 4; i++) { b[at + 508 + i] = sum % 256; sum = int(sum / 256) }
}
$1 == "plan" { two(2, $2); b[4] = $3 }
$1 == "reserve" { at = 8 + 6 * reservations++; b[at] = $2; two(at + 2, $3); two(at + 4, $4) }
$1 == "entry" {
    at = 512 * (1 + int(entries / 60)) + 8 + 8 * (entries % 60); entries++
    b[at] = $2; b[at + 1] = $3; two(at + 2, $4); two(at + 4, $5); two(at + 6, $6)
}
END {
    b[0] = 1; b[5] = reservations; b[6] = entries
    blocks = 1 + int((entries + 59) / 60)
    for (n = 1; n < blocks; n++) {
        rest = entries - 60 * (n - 1)
        b[512 * n] = 2; b[512 * n + 1] = n; b[512 * n + 2] = rest < 60 ? rest : 60
    }
    for (n = 0; n < blocks; n++) seal(512 * n)
    for (i = 0; i < 512 * blocks; i++) printf "\\%03o", b[i]
}')
printf "$bytes"
