#!/bin/sh
# bench/root.sh: times `scitt root` over a file of 16 MiB beside `sha256sum` of the same file, the best of five runs of
# each, and prints both times in milliseconds and their ratio.
set -eu
top=$(cd "$(dirname "$0")/.." && pwd -P)
file=$(mktemp)
trap 'rm -f "$file"' EXIT

# An array of four byte strings of 4,194,000 bytes each: the head 84, then the head 5a 00 3f fe d0 before each string.
{
    printf '\204'
    for _ in 1 2 3 4; do
        printf '\132\000\077\376\320'
        head -c 4194000 /dev/urandom
    done
} >"$file"

"$top/run" scitt root "$file" >/dev/null

# The least time of five runs of a command, in nanoseconds.
least() {
    best=
    for _ in 1 2 3 4 5; do
        begun=$(date +%s%N)
        "$@" >/dev/null
        took=$(($(date +%s%N) - begun))
        if [ -z "$best" ] || [ "$took" -lt "$best" ]; then best=$took; fi
    done
    printf '%s\n' "$best"
}

root=$(least "$top/run" scitt root "$file")
plain=$(least sha256sum "$file")
awk -v root="$root" -v plain="$plain" -v bytes="$(wc -c <"$file")" 'BEGIN {
    printf "bytes %d\nroot %.1f ms\nsha256sum %.1f ms\nratio %.2f\n", bytes, root / 1e6, plain / 1e6, root / plain
}'
