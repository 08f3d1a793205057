#!/bin/sh
# make.sh [SOURCE [OUT]]: writes OUT/stdin and OUT/stdout (crates/numbers) with the number.rs below SOURCE (../shared/docs/src).
# Wants cargo and Debian's librust-serde-json-dev, librust-serde-dev and librust-serde-derive-dev.
set -e
here=$(cd "$(dirname "$0")" && pwd)
root=$(cd "$here/../.." && pwd)
source=${1:-$root/../shared/docs/src}
out=${2:-$root/crates/numbers}
work=$(mktemp -d)
trap 'rm -rf "$work"' EXIT
cp -r "$here/Cargo.toml" "$here/src" "$work"
cp "$source/crates/entity-core/src/number.rs" "$work/src/number.rs"
printf '\nuse crate::ParseNumber;\n' >>"$work/src/number.rs"
mkdir "$work/.cargo"
printf '[source.crates-io]\nreplace-with = "debian"\n[source.debian]\ndirectory = "/usr/share/cargo/registry"\n' >"$work/.cargo/config.toml"
(cd "$work" && cargo run --offline --release --quiet -- "$out")
