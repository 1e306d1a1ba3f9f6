#!/bin/sh
# Proves the static library, builds it and puts it where hosts link it: target/staticlib/libcontroller.a, for
# x86-64 Linux. What is proved already is not proved again; the first time takes minutes.
set -eu
cd "$(dirname "$0")/.."
(cd crates/controller_c && rt lib)
mkdir -p target/staticlib
cp crates/controller_c/out/libcontroller_c.a target/staticlib/.new
mv target/staticlib/.new target/staticlib/libcontroller.a
echo "host/archive.sh: target/staticlib/libcontroller.a"
