#!/bin/sh
# Runs a desk over HTTP on a new database, sends it seven requests by curl, and compares each status and
# reply with the one written here.
#     examples/http.sh [PORT]
# The program is bin/onixdesk, or the one that ONIXDESK names.
# Status 0; 1 where a reply is another one; 2 where the desk or curl cannot be run.
set -u
port=${1:-8080}
root=$(cd "$(dirname "$0")/.." && pwd)
program=${ONIXDESK:-$root/bin/onixdesk}
room=$(mktemp -d) || exit 2
desk=
trap '[ -z "$desk" ] || kill "$desk" 2>/dev/null; rm -rf "$room"' EXIT
command -v curl >/dev/null || { echo "http.sh: no curl" >&2; exit 2; }

"$program" --db "$room/shop.db" batch <"$root/examples/shop/monday.csv" >/dev/null || exit 2
: >"$room/lines"
"$program" --db "$room/shop.db" serve --port "$port" --requests 7 >>"$room/lines" &
desk=$!
for _ in $(seq 120); do
    grep -q listening "$room/lines" && break
    sleep 0.5
done
grep -q listening "$room/lines" || exit 2

wrong=0
# expect STATUS REPLY PATH [CURL'S WORDS..]
expect() {
    status=$1 reply=$2 path=$3
    shift 3
    found=$(curl -q --noproxy '*' --silent --max-time 60 --write-out ' %{http_code}' "$@" "http://127.0.0.1:$port$path")
    if [ "$found" != "$reply $status" ]; then
        printf '%s: %s\nwanted: %s\n' "$path" "$found" "$reply $status" >&2
        wrong=1
    fi
}

expect 200 '{"answer":"gaps","first":1,"greatest":3,"held":1,"missing":[[2,2]],"next":2,"series":"north"}' /series/north/gaps
head -n 6 "$root/examples/shop/tuesday.csv" >"$room/message.csv"
expect 200 '{"answer":"applied","deleted":0,"ignored":0,"number":2,"replaced":0,"series":"north","unknown":0,"updated":1}' /messages --header "Expect:" --data-binary "@$room/message.csv"
expect 200 '{"answer":"price","isbn":"9781234567897","offers":[{"amount":"11.990","availability":"21","place":1,"reference":"N-100","series":"north"}]}' '/articles/9781234567897/price?day=20250304&country=GB&currency=GBP&type=02'
expect 404 '{"answer":"refused","reason":"unknown-series"}' /series/west/gaps
expect 404 '{"answer":"refused","reason":"not-found"}' /nowhere
expect 400 '{"answer":"refused","reason":"bad-query"}' '/articles/9781234567897/price?day=20250304&day=20250304&country=GB&currency=GBP&type=02'
printf 'FOO\r\n\r\n' | curl -q --noproxy '*' --silent --max-time 60 "telnet://127.0.0.1:$port" >"$room/reply"
grep -q '^HTTP/1.1 400 ' "$room/reply" && grep -q bad-head "$room/reply" || { echo "a bad head: $(cat "$room/reply")" >&2; wrong=1; }

# Where a reply was another one, a connection may be left that the desk waits for.
[ $wrong -eq 0 ] || exit 1
wait "$desk"
ended=$?
desk=
[ $ended -eq 0 ] || { echo "the desk ended with status $ended" >&2; wrong=1; }
exit $wrong
