#!/bin/sh
# Builds the proved functions as a static library, links the driver to it, libcrypto and libsodium, and runs it.
# It needs a C compiler, libssl-dev and libsodium-dev.
set -eu
cd "$(dirname "$0")/.."
(cd crates/hmac_c && rt lib >/dev/null)
out=target/bench
mkdir -p "$out"
cc -O2 -Wall bench/bench.c crates/hmac_c/out/libhmac_c.a -o "$out/hmac" -lcrypto -lsodium
"$out/hmac"
