#!/bin/sh
# Builds the programs, and with `test` the tests too, with rustc alone: for a
# computer that has Debian's rustc and no cargo. RUSTC names another compiler;
# what is built goes to target/plain.
set -eu
cd "$(dirname "$0")"
rustc=${RUSTC:-rustc}
out=target/plain
mkdir -p "$out"
# As in Cargo.toml: overflow is caught.
flags="--edition 2021 -C opt-level=3 -C codegen-units=1 -C overflow-checks=on"

echo "building the library" >&2
$rustc $flags --crate-type lib --crate-name independent -o "$out/libindependent.rlib" src/lib.rs
for program in trials bench sheet; do
    echo "building $program" >&2
    $rustc $flags --crate-name "$program" --extern "independent=$out/libindependent.rlib" \
        -o "$out/$program" "src/bin/$program.rs"
done

if [ "${1:-}" = test ]; then
    for file in tests/*.rs; do
        name=$(basename "$file" .rs)
        echo "building and running $file" >&2
        CARGO_MANIFEST_DIR="$PWD" CARGO_BIN_EXE_trials="$PWD/$out/trials" $rustc $flags -C debug-assertions=on --test \
            --crate-name "$name" --extern "independent=$out/libindependent.rlib" \
            -o "$out/test-$name" "$file"
        "$out/test-$name" --quiet
    done
fi
