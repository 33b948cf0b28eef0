#!/bin/sh
# The C face of a live channel: the C program and the server of examples/server send what `plain` says of the same bytes,
# however these come; and the C program sends a beginning of it where an allocation is refused, each in turn.
#
# usage: checks/server.sh PROGRAM [LIBRARY]
#
# PROGRAM is the program of pl_main; LIBRARY is what `rt lib` makes of pl_live_c. It wants cc, rustc and Python 3, and uses
# addresses of this machine alone.
set -eu
program=$1
here=$(cd "$(dirname "$0")" && pwd)
library=${2:-$here/../crates/pl_live_c/out/libpl_live_c.a}
server=$here/../examples/server
work=$(mktemp -d)
trap 'rm -rf "$work"' EXIT
# The library calls the program's malloc and free through a file of the kit.
heap=$(dirname "$(dirname "$(readlink -f "$(command -v rt)")")")/c/liblibc_c.a

fail() {
    echo "server: $1"
    exit 1
}

cc -O2 -Wall -Wextra -I "$here/../crates/pl_live_c" -o "$work/feed" "$server/feed.c" "$library" "$heap"
cc -shared -fPIC -O2 -o "$work/refuse.so" "$here/refuse_growth.c" -ldl

# The output of one burst with all of the input, by `plain`.
printf 'PING\r\nADD k 40\r\nADD k 2\r\nGET k\r\nECHO a b\r\nADD k\r\nNOPE\r\n%0100d\r\nPING\r\nGET' 0 >"$work/input"
hex=$(od -An -v -tx1 "$work/input" | tr -d ' \n')
sed -e 's/"version":1/"version":2/' -e "s/\"bursts\":\[\]/\"bursts\":[[\"$hex\"]]/" "$server/pipeline.json" >"$work/session"
"$program" plain <"$work/session" | sed -n 's/^bytes [0-9]* *//p' | tr -d '\n' >"$work/plain"
[ -s "$work/plain" ] || fail "plain printed no bytes"

# Feeds the input in chunks of $1 bytes, with allocation $2 refused.
feed() {
    status=0
    timeout 20 env REFUSE_ALLOCATION="$2" LD_PRELOAD="$work/refuse.so" "$work/feed" "$server/pipeline.json" "$1" \
        <"$work/input" >"$work/output" 2>"$work/error" 3>"$work/count" || status=$?
    od -An -v -tx1 "$work/output" | tr -d ' \n' >"$work/sent"
}

for chunk in 1 2 7 4096; do
    feed "$chunk" 0
    [ "$status" = 0 ] && cmp -s "$work/sent" "$work/plain" || fail "in chunks of $chunk: status $status, $(cat "$work/error")"
done
echo "same       chunks"

feed 16 0
count=$(cat "$work/count")
[ "$count" -gt 0 ] || fail "no allocation was made"
number=1
while [ "$number" -le "$count" ]; do
    feed 16 "$number"
    head -c "$(wc -c <"$work/sent")" "$work/plain" | cmp -s - "$work/sent" || fail "allocation $number: it is no beginning"
    case $status in
        0) cmp -s "$work/sent" "$work/plain" || fail "allocation $number: it is not all" ;;
        1) ;;
        *) fail "allocation $number: status $status" ;;
    esac
    number=$((number + 1))
done
echo "same       each of $count allocations refused"

"$server/build.sh" "$library" "$work/server"
"$server/check.py" "$program" "$work/server"
