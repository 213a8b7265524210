#!/bin/sh
# bench/generate.sh: times `scitt generate 200` and `scitt generate 1` beside `sha256sum` of as many blocks of 64 bytes as their keys,
# signatures and checks need compressions, the least of five runs of each, in one run. It starts the built program itself.
#
# Compressions by RFC 8554, with p chains of 2^w values and a tree of height h. A key costs its trees: 2^h leaves, each of p 2^w for its
# chains, of the hash of their ends (22 + 32 p bytes) and of its own, and two for each node above. A signature costs p (2^w + 1) / 2 on
# average, a check p (2^w - 1) / 2, the hash of the ends, one for the leaf and two for each level above. The keys are those of
# docs/profile/generated.md. Statement ids, leaf hashes and roots are counted as none: they are some hundred compressions an entry.
set -eu
top=$(cd "$(dirname "$0")/.." && pwd -P)
place=$(mktemp -d)
trap 'rm -rf "$place"' EXIT
cd "$place"
"$top/run" scitt root /dev/null >/dev/null 2>&1 || true
scitt=$top/crates/scitt/out/scitt

# The least time of five runs of a command, in nanoseconds.
least() {
    best=
    for _ in 1 2 3 4 5; do
        begun=$(date +%s%N)
        "$@" >printed
        took=$(($(date +%s%N) - begun))
        if [ -z "$best" ] || [ "$took" -lt "$best" ]; then best=$took; fi
    done
    printf '%s\n' "$best"
}

# ends P: the compressions of the hash of the chains' ends. key H W P, signature W P, check H W P: those of RFC 8554.
ends() { echo $(((31 + 32 * $1 + 63) / 64)); }
key() { echo $(((1 << $1) * ($3 * (1 << $2) + $(ends "$3") + 1) + 2 * ((1 << $1) - 1))); }
signature() { echo $(($2 * ((1 << $1) + 1) / 2)); }
check() { echo $(($3 * ((1 << $2) - 1) / 2 + $(ends "$3") + 1 + 2 * $1)); }

high_key=$(key 5 8 34) low_key=$(key 10 4 67)
high_signature=$(signature 8 34) low_signature=$(signature 4 67)
high_check=$(check 5 8 34) low_check=$(check 10 4 67)
keys=$((2 * high_key + 4 * low_key))

# line N: the run of N statements, by the entries that it prints.
line() {
    took=$(least "$scitt" generate "$1")
    entries=$(sed -n 's/^entries //p' printed)
    issuers=$((high_signature + $1 * low_signature))
    checking=$((high_check + $1 * low_check))
    service=$((high_signature + entries * low_signature))
    audit=$((high_check + (entries - 1) * low_check + entries * (high_check + low_check)))
    all=$((keys + issuers + checking + service + audit))
    head -c $((all * 64)) /dev/zero >blocks
    bare=$(least sha256sum blocks)
    awk -v n="$1" -v ours="$took" -v bare="$bare" -v all="$all" -v keys="$keys" -v issuers="$issuers" -v checking="$checking" -v service="$service" -v audit="$audit" 'BEGIN {
        printf "generate %d: %.0f ms, %d compressions, sha256sum %.0f ms, ratio %.2f\n", n, ours / 1e6, all, bare / 1e6, ours / bare
        printf "  of them: keys %.1f %%, signing of the issuers %.1f %%, checking %.1f %%, signing of the service %.1f %%, audit %.1f %%\n", 100 * keys / all, 100 * issuers / all, 100 * checking / all, 100 * service / all, 100 * audit / all
    }'
}

line 200
line 1
