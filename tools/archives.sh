#!/usr/bin/env bash
# Builds the archives for C and Rust, and puts them where rust/build.rs and the commands in include/ and examples/ look for them:
# target/staticlib/libcapi.a, of the crate capi_c, and target/staticlib/libknown.a, of the crate known. Only proved crates are built:
# what no check has kept is proved first.
set -euo pipefail
cd "$(dirname "$0")/.."

archive() { # CRATE NAME
    (cd "crates/$1" && rt lib)
    cp "crates/$1/out/lib$1.a" "target/staticlib/lib$2.a"
}

mkdir -p target/staticlib
archive capi_c capi
archive known known
