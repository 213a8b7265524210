#!/bin/sh
# bench/sign.sh: times `scitt keygen` and `scitt sign` for keys of one and two levels, beside `sha256sum` of as many blocks of 64 bytes
# as the key's trees need compressions, the best of five runs of each, in one run. It starts the built program itself.
#
# Compressions by RFC 8554: a chain of 2^w values costs one for its first value and one for each of its 2^w - 1 steps; a leaf has p
# chains, the hash of their ends (22 + 32 p bytes) and one of its own; a node above the leaves costs two. `keygen` needs the top tree.
# `sign` needs a tree of each level, and for each level's signature its p chains, half of each on average.
set -eu
top=$(cd "$(dirname "$0")/.." && pwd -P)
place=$(mktemp -d)
trap 'rm -rf "$place"' EXIT
cd "$place"
"$top/run" scitt root /dev/null >/dev/null 2>&1 || true
scitt=$top/crates/scitt/out/scitt
printf 'x' >payload

# The least time of five runs of a command, in nanoseconds; before each run the key file is put back.
least() {
    best=
    for _ in 1 2 3 4 5; do
        rm -f scitt.key
        if [ -e kept.key ]; then cp kept.key scitt.key; fi
        begun=$(date +%s%N)
        "$@" >/dev/null
        took=$(($(date +%s%N) - begun))
        if [ -z "$best" ] || [ "$took" -lt "$best" ]; then best=$took; fi
    done
    printf '%s\n' "$best"
}

# tree HEIGHT WIDTH: the compressions of a tree. signature WIDTH: those of a signature, on average.
chains() { case $1 in 1) echo 265 ;; 2) echo 133 ;; 4) echo 67 ;; 8) echo 34 ;; esac; }
tree() {
    p=$(chains "$2") leaves=$((1 << $1))
    echo $((leaves * (p * (1 << $2) + (31 + 32 * p + 63) / 64 + 1) + 2 * (leaves - 1)))
}
signature() { echo $(($(chains "$1") * ((1 << $1) + 1) / 2)); }

line() {
    head -c $(($4 * 64)) /dev/zero >blocks
    bare=$(least sha256sum blocks)
    awk -v what="$1 $2" -v ours="$3" -v blocks="$4" -v bare="$bare" 'BEGIN {
        printf "%s: %.0f ms, %d compressions, sha256sum %.0f ms, ratio %.2f\n", what, ours / 1e6, blocks, bare / 1e6, ours / bare
    }'
}

for levels in h5w8 h10w4 h5w8,h10w4; do
    first=${levels%%,*}
    height=${first#h} width=${first#*w}
    height=${height%w*}
    rm -f kept.key
    took=$(least "$scitt" keygen "$levels")
    mv scitt.key kept.key
    line keygen "$levels" "$took" "$(tree "$height" "$width")"
    all=0
    for level in $(echo "$levels" | tr ',' ' '); do
        height=${level#h} width=${level#*w}
        height=${height%w*}
        all=$((all + $(tree "$height" "$width") + $(signature "$width")))
    done
    line sign "$levels" "$(least "$scitt" sign acme pkg text/plain - - payload)" "$all"
done
