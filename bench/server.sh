#!/bin/sh
# bench/server.sh: tries the built programs as a new user would, over the loopback, and then loads the server.
#
# It makes two keys, starts `scittd`, posts a policy and ten statements, fetches receipts, statements, keys, a consistency receipt
# and the policy, attaches a receipt and verifies it with a trust file. It stops the server with SIGKILL in the middle of posts,
# starts it again on the same files, and sees each entry that had a receipt. Then it audits the log's file. Last it measures, where
# `wrk` is there: reads of one receipt over 1, 4 and 8 connections, beside `nginx` serving a file of its size where that is there,
# and posts of distinct statements by 1 and 4 clients. It needs `curl` and `xxd`, and ends by itself within some minutes.
#
# Words: the port (18080), how many statements are posted before the kill (10), how many are posted as load (64).
set -u
for tool in curl xxd; do
    command -v "$tool" >/dev/null 2>&1 || { echo "server.sh: skipped, since $tool is missing"; exit 0; }
done
top=$(cd "$(dirname "$0")/.." && pwd -P) || exit 2
port=${1:-18080} few=${2:-10} many=${3:-64}
url=http://127.0.0.1:$port
place=$(mktemp -d) || exit 2
server= web=
end() {
    [ -z "$server" ] || kill -9 "$server" 2>/dev/null
    [ -z "$web" ] || kill "$web" 2>/dev/null
    rm -rf "$place"
}
trap end EXIT
cd "$place" || exit 2
failed=0

# must NAME WANTED HAD
must() {
    if [ "$2" = "$3" ]; then
        printf 'ok      %s\n' "$1"
    else
        failed=$((failed + 1))
        printf 'FAILED  %s: %s, not %s\n' "$1" "$3" "$2"
    fi
}

# The head of a CBOR string of a major type and a length below 256, and a text or byte string, in hexadecimal.
head_of() {
    if [ "$2" -lt 24 ]; then printf '%02x' $(($1 * 32 + $2)); else printf '%02x%02x' $(($1 * 32 + 24)) "$2"; fi
}
text() { head_of 3 "${#1}"; printf '%s' "$1" | xxd -p | tr -d '\n'; }
bytes() { head_of 2 $((${#1} / 2)); printf '%s' "$1"; }

# A key of two levels, in a folder of its own: its lines are kept in the file `key`.
make_key() {
    mkdir "$1" && (cd "$1" && "$top/run" scitt keygen h5w8,h5w8 >key)
    must "keygen $1" 0 $?
}
public() { sed -n 's/^public //p' "$1/key"; }
kid() { sed -n 's/^kid //p' "$1/key"; }
holder() { printf '83'; text "$1"; bytes "$(kid "$1")"; bytes "$(public "$1")"; }

# sign WHO SUBJECT TYPE FILE TO
sign() { (cd "$1" && "$top/run" scitt sign "$1" "$2" "$3" - - "$place/$4") >"$5"; }

# post STATEMENT TO prints the status
post() {
    curl -s --max-time 30 -o "$2" -w '%{http_code}' -H 'Content-Type: application/cose' --data-binary "@$1" "$url/entries"
}
# get PATH TO prints the status
get() { curl -s --max-time 30 -o "$2" -w '%{http_code}' "$url$1"; }

# Starts the server and waits until it answers.
start() {
    "$top/crates/scittd/out/scittd" "$place/scitt.log" "$place/seed" "$place/params" "127.0.0.1:$port" 8 >"$place/printed" &
    server=$!
    tries=0
    while [ "$tries" -lt 150 ]; do
        [ "$(get /policy policy.cbor)" != 200 ] || return 0
        kill -0 "$server" 2>/dev/null || break
        tries=$((tries + 1))
        sleep 0.2
    done
    echo "server.sh: the server doesn't answer; it printed: $(cat printed)"
    exit 1
}

# ---- the files that the server starts with

"$top/run" scittd >printed
must 'a server without words' 2 $?
make_key governor
make_key issuer
head -c 48 /dev/urandom >seed
{ printf '8601'; text log; holder governor; printf '828205048206031a000100001840'; } | xxd -r -p >params
{ printf '850101'; printf '81'; holder governor; printf '81'; holder issuer; printf '818318640181%s' 00; } | xxd -r -p >policy1.cbor
printf 'some payload\n' >payload
start
must 'a fresh log has the bootstrap policy' 200 "$(get /policy policy.cbor)"

# ---- a policy, statements, and what is read back

sign governor policy application/vnd.scitt-policy+cbor policy1.cbor policy1.cose
must 'the policy is registered' 201 "$(post policy1.cose policy1.receipt)"
must 'the policy is in force' 200 "$(get /policy policy.cbor)"
must 'the policy reads back' "$(xxd -p policy1.cbor | tr -d '\n')" "$(xxd -p policy.cbor | tr -d '\n')"
number=1
while [ "$number" -le "$few" ]; do
    sign issuer "package-$number" text/plain payload "statement$number.cose"
    must "statement $number" 201 "$(post "statement$number.cose" "receipt$number")"
    number=$((number + 1))
done
must 'the same statement again' 200 "$(post statement1.cose again)"
must 'its receipt is the same' "$(cksum <receipt1)" "$(cksum <again)"
must 'a receipt' 200 "$(get /entries/1 read)"
must 'it is the one of the registration' "$(cksum <receipt1)" "$(cksum <read)"
must 'a statement' 200 "$(get /entries/1/statement read)"
must 'a consistency receipt' 200 "$(get "/consistency/1" consistency)"
must 'a size that never was' 404 "$(get /consistency/999 read)"
must 'an entry that is not there' 404 "$(get /entries/999 read)"
must 'no such path' 404 "$(get /nowhere read)"
must 'no statement' 400 "$(post payload read)"
must 'the keys' 200 "$(get /.well-known/scitt-keys keys)"

# ---- the relying party: [1, [["log", the service's key]], [["issuer", its kid, its key]]]

service=$(tail -c 60 keys | xxd -p | tr -d '\n')
{ printf '83018182'; text log; bytes "$service"; printf '81'; holder issuer; } | xxd -r -p >trust
"$top/run" scitt attach statement1.cose receipt1 >transparent.cose
must 'the receipt is attached' 0 $?
must 'and verified' accepted "$("$top/run" scitt verify trust transparent.cose | tail -n 1)"

# ---- SIGKILL in the middle of posts, and the same files again

number=1
while [ "$number" -le 8 ]; do
    sign issuer "killed-$number" text/plain payload "killed$number.cose"
    number=$((number + 1))
done
(
    number=1
    while [ "$number" -le 8 ]; do
        post "killed$number.cose" "killed$number.receipt" >"killed$number.status"
        number=$((number + 1))
    done
) &
posts=$!
# after the third answer, so in the middle of the others
tries=0
while [ ! -s killed3.status ] && [ "$tries" -lt 1000 ]; do
    tries=$((tries + 1))
    sleep 0.01
done
kill -9 "$server"
wait "$server" 2>/dev/null
wait "$posts"
start
number=1 answered=0
while [ "$number" -le 8 ]; do
    if [ "$(cat "killed$number.status")" = 201 ]; then
        answered=$((answered + 1))
        must "after the kill, entry $number is known" 200 "$(post "killed$number.cose" read)"
        must "after the kill, receipt $number is the same" "$(cksum <"killed$number.receipt")" "$(cksum <read)"
    fi
    number=$((number + 1))
done
echo "answered before the kill: $answered of 8"

# ---- load

# The clients post the statements from one number to another, one after another.
post_all() {
    number=$1
    while [ "$number" -le "$2" ]; do
        post "load$number.cose" /dev/null >>"load$1.status"
        echo >>"load$1.status"
        number=$((number + 1))
    done
}
number=1
while [ "$number" -le $((2 * many)) ]; do
    sign issuer "load-$number" text/plain payload "load$number.cose"
    number=$((number + 1))
done
from=1
for clients in 1 4; do
    begun=$(date +%s%N)
    waiting= client=0
    while [ "$client" -lt "$clients" ]; do
        post_all $((from + client * many / clients)) $((from + (client + 1) * many / clients - 1)) &
        waiting="$waiting $!"
        client=$((client + 1))
    done
    wait $waiting
    took=$((($(date +%s%N) - begun) / 1000000))
    echo "posts by $clients clients: $many in $took ms"
    from=$((from + many))
done
must 'all posts were admitted' $((2 * many)) "$(cat load*.status | grep -c 201)"

if command -v wrk >/dev/null 2>&1; then
    for connections in 1 4 8; do
        echo "reads of a receipt of $(wc -c <receipt1) bytes, $connections connections:"
        wrk -t 1 -c "$connections" -d 5s --latency "$url/entries/1" | grep -E 'Requests/sec|50%|99%|Socket errors|Non-2xx'
    done
    if command -v nginx >/dev/null 2>&1; then
        mkdir web && cp receipt1 web/receipt
        printf 'daemon off; user %s %s; worker_processes 4; pid %s/pid; error_log stderr; events {} http { access_log off; server { listen 127.0.0.1:%s; root %s/web; } }\n' \
            "$(id -un)" "$(id -gn)" "$place" $((port + 1)) "$place" >nginx.conf
        nginx -p "$place" -c "$place/nginx.conf" 2>/dev/null &
        web=$!
        sleep 1
        for connections in 1 4 8; do
            echo "nginx, a file of the same size, $connections connections:"
            wrk -t 1 -c "$connections" -d 5s --latency "http://127.0.0.1:$((port + 1))/receipt" | grep -E 'Requests/sec|50%|99%|Socket errors|Non-2xx'
        done
    fi
else
    echo 'no wrk: reads were not measured'
fi

# ---- the auditor

kill -9 "$server"
wait "$server" 2>/dev/null
server=
must 'the audit of the log' clean "$("$top/run" scitt audit scitt.log | cut -d ' ' -f 1)"
must 'the server printed nothing' '' "$(cat printed)"
[ "$failed" -eq 0 ] && echo 'all is well' || echo "$failed failed"
[ "$failed" -eq 0 ]
