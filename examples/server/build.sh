#!/bin/sh
# Builds the server beside the library of `pl_live_c`, which `rt lib` leaves in that crate's `out`.
# usage: examples/server/build.sh [LIBRARY [SERVER]]
set -eu
here=$(cd "$(dirname "$0")" && pwd)
library=${1:-$here/../../crates/pl_live_c/out/libpl_live_c.a}
server=${2:-$here/out/server}
# The library calls the program's malloc and free through a file of the kit.
kit=$(dirname "$(dirname "$(readlink -f "$(command -v rt)")")")
mkdir -p "$(dirname "$server")"
rustc --edition 2021 -O -o "$server" "$here/server.rs" -C link-arg="$library" -C link-arg="$kit/c/liblibc_c.a"
