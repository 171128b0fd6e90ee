#!/bin/bash
# Builds the programs over libtirpc that ours are measured beside, into the folder given.
# Needs Debian's libtirpc-dev, libjson-c-dev, rpcsvc-proto, gcc and valgrind: installs what is missing.
set -eu
here=$(cd "$(dirname "$0")" && pwd); to=$1; mkdir -p "$to/gen" "$to/c"
if ! [ -e /usr/include/tirpc/rpc/rpc.h ] || ! [ -e /usr/include/json-c/json.h ] ||
    ! command -v rpcgen valgrind >/dev/null; then
    apt-get update -qq && apt-get install -y -qq libtirpc-dev libjson-c-dev rpcsvc-proto gcc valgrind >/dev/null
fi
cp "$here"/c/*.c "$to/c/"; cp "$here/x/bench.x" "$to/gen/"
(cd "$to/gen" && rm -f bench.h bench_xdr.c && rpcgen -h bench.x >bench.h && rpcgen -c bench.x >bench_xdr.c)
cd "$to"
for p in stdio_check stdio_show loop_xdr; do gcc -O2 -w -I/usr/include/tirpc c/$p.c gen/bench_xdr.c -o $p -ltirpc; done
# The library for C, where './build-library' has left it in library/.
if [ -e "$here/../library/liboncrpc.a" ]; then
    gcc -O2 -w -DLIBRARY -I/usr/include/tirpc -I"$here/../library/include" c/loop_xdr.c gen/bench_xdr.c \
        "$here/../library/liboncrpc.a" -o loop_library -ltirpc
    gcc -O2 -w -I/usr/include/tirpc -I"$here/../library/include" c/loop_stream.c \
        "$here/../library/liboncrpc.a" -o loop_stream -ltirpc
    # bindings/rust over it, where Rust is there.
    if command -v cargo >/dev/null && command -v rustc >/dev/null; then
        ONCRPC_LIBRARY="$here/../library" CARGO_TARGET_DIR="$to/cargo" \
            cargo build --release --offline -q --manifest-path "$here/../bindings/rust/Cargo.toml"
        rustc -O --edition 2021 -L "native=$here/../library" --extern "oncrpc=$to/cargo/release/liboncrpc.rlib" \
            "$here/rust/loop_buffers.rs" -o loop_buffers
    fi
fi
gcc -O2 -w -I/usr/include/tirpc c/loop_json.c gen/bench_xdr.c -o loop_json -ltirpc -ljson-c
for p in records loop_registry; do gcc -O2 -w -I/usr/include/tirpc c/$p.c -o $p -ltirpc; done
for p in registry_load registry_many; do gcc -O2 -w c/$p.c -o $p; done
