#!/bin/sh
# bench/quickstart.sh: runs the blocks of docs/QUICKSTART.md in an empty folder, and compares what they print with what the page says.
#
# The blocks under ```sh run in one shell, in their order. A block without a word behind it holds what the one before printed; where a
# block has none behind it, it prints nothing. Digits that differ from run to run are read as equal: hexadecimal ones of 16 and more,
# which the page cuts to 16, and the moment behind `registered`. It needs `curl`. The programs are started by `./run`, and so built where they aren't yet, or
# taken from the folder that PROGRAMS names.
#
# Words: the port (8080, as on the page), and a file to write the page to with what was printed this time, which may be the page itself.
set -u
command -v curl >/dev/null 2>&1 || { echo 'quickstart.sh: skipped, since curl is missing'; exit 0; }
top=$(cd "$(dirname "$0")/.." && pwd -P) || exit 2
port=${1:-8080} to=${2:-}
page=$top/docs/QUICKSTART.md
place=$(mktemp -d) || exit 2
# the server that the page starts, by the shell below
end() {
    [ ! -s "$place/server" ] || kill -9 "$(cat "$place/server")" 2>/dev/null
    rm -rf "$place"
}
trap end EXIT
mkdir "$place/programs" "$place/blocks" "$place/folder"
for program in scitt scittd scitt_write; do
    if [ -n "${PROGRAMS:-}" ]; then
        printf '#!/bin/sh\nexec "%s/%s" "$@"\n' "$PROGRAMS" "$program" >"$place/programs/$program"
    else
        printf '#!/bin/sh\nexec "%s/run" %s "$@"\n' "$top" "$program" >"$place/programs/$program"
        # Built before the clock of any block: without words each ends at once.
        "$top/run" "$program" </dev/null >/dev/null
    fi
    chmod +x "$place/programs/$program"
done

# Each block as N.sh, and what it prints as N.wanted.
awk -v to="$place/blocks" '
    /^```sh$/ { n++; file = sprintf("%s/%02d.sh", to, n); wanted = sprintf("%s/%02d.wanted", to, n); printf "" >wanted; next }
    /^```$/ && file == "" { file = wanted; next }
    /^```$/ { close(file); file = ""; next }
    file != "" { print >file }' "$page"
sed -i.old "s/127\.0\.0\.1:8080/127.0.0.1:$port/g" "$place"/blocks/*.sh

# One shell for all of them.
{
    echo 'set -u'
    for block in "$place"/blocks/*.sh; do
        # The shell says of the server that it was ended, which isn't part of what the blocks print.
        printf '. "%s" >"%s" 2>"%s"\n' "$block" "${block%.sh}.had" "${block%.sh}.errors"
        printf '[ -z "${server:-}" ] || echo "$server" >"%s"\n' "$place/server"
    done
} >"$place/all.sh"
begun=$(date +%s)
(cd "$place/folder" && PATH=$place/programs:$PATH sh "$place/all.sh")
status=$?
took=$(($(date +%s) - begun))

# Digits that differ from run to run.
same() { sed -E 's/[0-9a-f]{16,}(\.\.)?/../g; s/registered [0-9]+/registered ../' "$1"; }
failed=0
for block in "$place"/blocks/*.sh; do
    name=$(basename "$block" .sh)
    had=$place/blocks/$name.had wanted=$place/blocks/$name.wanted
    [ -f "$had" ] || : >"$had"
    if [ "$(same "$wanted")" = "$(same "$had")" ] && [ ! -s "${block%.sh}.errors" ]; then
        printf 'ok      block %s: %s\n' "$name" "$(head -n 1 "$block")"
    else
        failed=$((failed + 1))
        printf 'FAILED  block %s: %s\n' "$name" "$(head -n 1 "$block")"
        same "$wanted" | sed 's/^/    wanted  /'
        same "$had" | sed 's/^/    had     /'
        [ ! -f "${block%.sh}.errors" ] || sed 's/^/    error   /' "${block%.sh}.errors"
    fi
done
[ "$status" -eq 0 ] || { failed=$((failed + 1)); echo "FAILED  the shell ended with $status"; }

# The page with what was printed this time.
if [ -n "$to" ]; then
    for had in "$place"/blocks/*.had; do
        sed -E 's/([0-9a-f]{16})[0-9a-f]+/\1../g' "$had" >"$had.cut"
    done
    awk -v from="$place/blocks" '
        /^```sh$/ { n++; print; inside = 1; next }
        /^```$/ && inside { print; inside = 0; next }
        /^```$/ && !skip { print; file = sprintf("%s/%02d.had.cut", from, n); while ((getline line <file) > 0) print line; close(file); skip = 1; next }
        /^```$/ { print; skip = 0; next }
        !skip { print }' "$page" >"$place/page" && cp "$place/page" "$to"
fi
echo "the blocks took $took seconds"
[ "$failed" -eq 0 ] && echo 'all is well' || echo "$failed failed"
[ "$failed" -eq 0 ]
