#!/usr/bin/env bash
# The static library, as hosts in C, C++ and Rust link it: the header held to C99, C17 and C++ with every warning an
# error, the Rust package built by cargo, both first programs of docs/HOSTS.md, and the stack that a call takes. The
# archive is for x86-64: elsewhere the hosts are compiled for x86-64 and run under an emulator, both from Debian.
set -euo pipefail
cd "$(dirname "$0")/.."
out=$(mktemp -d)
trap 'rm -rf "$out"' EXIT

host/archive.sh >"$out/log" 2>&1 || { tail -n 5 "$out/log"; echo '0 passed, 1 failed'; exit 1; }
archive=target/staticlib/libcontroller.a
as_root() { if [ "$(id -u)" -eq 0 ]; then "$@"; else sudo -n "$@"; fi; }
from_debian() { # PACKAGE..
    as_root apt-get -q update >/dev/null
    as_root env DEBIAN_FRONTEND=noninteractive apt-get -qy install --no-install-recommends "$@" >/dev/null
}
triple=x86_64-unknown-linux-gnu
if [ "$(uname -m)" = x86_64 ]; then
    command -v c++ >/dev/null || from_debian g++
    command -v cargo >/dev/null || from_debian cargo
    cc=(cc) cxx=(c++) cargo=(cargo) run=()
else
    as_root dpkg --add-architecture amd64
    from_debian gcc-x86-64-linux-gnu g++-x86-64-linux-gnu libc6-dev-amd64-cross qemu-user cargo rustc libstd-rust-dev:amd64
    cc=(x86_64-linux-gnu-gcc) cxx=(x86_64-linux-gnu-g++) run=(qemu-x86_64 -L /)
    cargo=(env RUSTC=/usr/bin/rustc CARGO_TARGET_X86_64_UNKNOWN_LINUX_GNU_LINKER=x86_64-linux-gnu-gcc /usr/bin/cargo)
fi
strict=(-Wall -Wextra -pedantic -Werror)
"${cc[@]}" -std=c99 "${strict[@]}" -o "$out/c99" host/test.c "$archive"
"${cc[@]}" -std=c17 "${strict[@]}" -o "$out/c17" host/test.c "$archive"
"${cxx[@]}" -std=c++17 "${strict[@]}" -x c++ -o "$out/c++" host/test.c -x none "$archive"
"${cc[@]}" -std=c99 "${strict[@]}" -pthread -o "$out/stack" host/stack.c "$archive"
"${cc[@]}" -std=c99 "${strict[@]}" -o "$out/first-c" host/first.c "$archive"
package=(--offline --locked --release --quiet --manifest-path host/Cargo.toml --target "$triple" --target-dir "$out/cargo")
"${cargo[@]}" build "${package[@]}" --example first
"${cargo[@]}" test "${package[@]}" --no-run
cp "$out/cargo/$triple/release/examples/first" "$out/first-rs"
find "$out/cargo/$triple/release/deps" -name 'test-*' -type f -perm -u+x -exec cp {} "$out/rs" \;

passed=0 failed=0
count() { # what a host said
    printf '%s\n' "$1"
    read -r n m <<<"$(sed -nE 's/^([0-9]+) passed, ([0-9]+) failed$/\1 \2/p' <<<"$1" | tail -n 1)"
    passed=$((passed + ${n:-0})) failed=$((failed + ${m:-1}))
}
for host in c99 c17 c++ rs; do
    echo "tests/host.sh: the host $host"
    count "$("${run[@]}" "$out/$host" || true)"
done

echo 'tests/host.sh: the stack'
# the longest routine there is beside the examples, and bytes that are no routine
head -c 16384 /dev/zero | tr '\0' '\1' >"$out/long"
: >"$out/empty"
count "$("${run[@]}" "$out/stack" examples/*.routine examples/*.code "$out/long" "$out/empty" || true)"

echo 'tests/host.sh: the first programs'
same() { # WHAT EXPECTED FOUND
    if [ "$2" = "$3" ]; then passed=$((passed + 1)) && echo "ok: $1"; else failed=$((failed + 1)) && printf 'FAILED: %s\n%s\n' "$1" "$3"; fi
}
for first in first-c first-rs; do
    same "$first on routine A" 'a forbidden store at instruction 2 after 8 steps' \
        "$(sed -n 1p <<<"$("${run[@]}" "$out/$first" examples/a.routine)")"
    same "$first on a damaged file" 'examples/damaged-cut-off.routine was not run: the file ends early (2, byte 26)' \
        "$("${run[@]}" "$out/$first" examples/damaged-cut-off.routine)"
done
missing=$(TOLTJEBRIM_ARCHIVE="$out/libnone.a" "${cargo[@]}" build "${package[@]}" 2>&1 || true)
same 'a missing library is told' yes "$(grep -q 'there is no library at .*libnone.a: run `host/archive.sh`' <<<"$missing" && echo yes)"
echo "$passed passed, $failed failed"
[ "$failed" -eq 0 ]
