#!/bin/sh
# Builds the static library of the calls for C, target/staticlib/libexports.a, from the crate exports_c.
set -eu
cd "$(dirname "$0")/.."
mkdir -p target/staticlib
(cd crates/exports_c && rt lib) >target/staticlib/log 2>&1 || { cat target/staticlib/log; exit 1; }
cp crates/exports_c/out/libexports_c.a target/staticlib/libexports.a
