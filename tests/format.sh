#!/bin/bash
# docs/FORMAT.md held to the proved programs, and to the independent implementation in rust/: each row of its tables,
# and a reader of files made from them, on files damaged in every number. Then wrong pages, each of which must be
# found out.
set -u
cd "$(dirname "$0")/.." || exit 2
# shellcheck source=tests/parts/lib.sh
. tests/parts/lib.sh
work=$(mktemp -d) || exit 2
trap 'rm -rf "$work"' EXIT

echo 'tests/format.sh: building'
built=rust/target/release
if command -v cargo >/dev/null; then
    (cd rust && cargo build --release --offline -j2 --quiet --bin sheet --bin trials) || flunk 'sheet is not built'
else
    built=rust/target/plain
    rust/build.sh || flunk 'sheet is not built'
fi
built=$PWD/$built
./wit program answer_trials </dev/null || flunk 'answer_trials is not built'

hold() { # PROGRAM
    local said n m
    said=$("$built/sheet" . "$1")
    read -r n m <<<"$(sed -nE 's/^([0-9]+) passed, ([0-9]+) failed$/\1 \2/p' <<<"$said" | tail -n 1)"
    printf '%s\n' "$said"
    passed=$((passed + ${n:-0})) failed=$((failed + ${m:-1}))
}
echo 'tests/format.sh: the page and the proved programs'
hold './wit program answer_trials'
echo 'tests/format.sh: the page and the Rust implementation'
hold "$built/trials --serve"

# Pages that say something else, one edit of sed to a line: a spelling, the places of refusals, a line of the reader,
# ranges of either version, kinds, operands, which versions have an opcode, names, answers, numbers out, bytes, limits.
echo 'tests/format.sh: wrong pages'
# shellcheck disable=SC2016
wrong='s/^| 16,384 | `80 80 01` |$/| 16,385 | `80 80 01` |/
s/^| `80` | 2 | 1 |/| `80` | 2 | 0 |/
s/^| `FF FF FF FF 10` | 3 |/| `FF FF FF FF 0F` | 3 |/
s/`if group == 4 \&\& 15 < bits {`/`if group == 4 \&\& 16 < bits {`/
s/^| 2 | instrumented code | 32,768 |$/| 2 | instrumented code | 16,384 |/
s/^| file | count of sets | 0 | 400 | 5 |$/| file | count of sets | 0 | 401 | 5 |/
s/^| set | count of members | 1 |/| set | count of members | 0 |/
s/^| member | object: above the member before |/| member | object |/
s/^| global | size: in bytes | 1 |/| global | size: in bytes | 0 |/
s/^| object | color | 0 or 2 |/| object | color | 0 |/
s/kind: 0 global, 1 heap site/kind: 1 global, 0 heap site/
s/kind: 0 global, 1 heap site/kind: 0 global, 2 heap site/
s/^| file | count of instructions | 1 | 2,000 | 5 |$/| file | count of instructions | 1 | 2,000 | 6 |/
s/^| 6 | LOAD8 | d a | 1, 2 |/| 6 | LOAD8 | d a | 1 |/
s/^| 18 | CHECK8 | a c | 2 |/| 18 | CHECK8 | a c | 1, 2 |/
s/^| 8 | PUT8 | g k a |/| 8 | PUT8 | g a k |/
s/^| 12 | JUMP | p |/| 12 | GOTO | p |/
s/^| k | a byte of a global | 0 | 65,535 |/| k | a byte of a global | 0 | 65,536 |/
s/^| h | a heap site | 0 |/| h | a heap site | 1 |/
s/^| h | a heap site |/| h | a global |/
s/^| s | a set | 0 | count of sets - 1 | 1 |$/| s | a set | 0 | count of sets - 1 | 1, 2 |/
s/^| p | an instruction | 0 | count of instructions - 1 |/| p | an instruction | 0 | count of instructions |/
s/ | 0 4 4 1 0 | 4294967294 |$/ | 0 4 4 1 0 | 4294967293 |/
s/^\(| CHECK8 .* | \)36 3 3 1 0 |/\136 4 3 1 0 |/
s/^| 18 | `0A` | 10 | instruction 2 | WRITE8 |$/| 18 | `0A` | 10 | instruction 2 | WRITE32 |/
s/ 06 01 01 07 02 00 00 12 / 06 01 01 07 02 00 00 13 /
s/^| | | 2 | `CHECK8 0 2` |$/| | | 2 | `CHECK8 0 3` |/
s/more than 254 classes/more than 255 classes/
s/globals end above 28,672/globals end above 28,664/
s/^\(| `07`, table 7,169 | \)11 0 |$/\14 0 |/
s/^| memory | 57,344 |$/| memory | 57,352 |/
s/^| 31 | limit used up | `JUMP 0` | limit 5 | 31 0 5 /| 31 | limit used up | `JUMP 0` | limit 5 | 31 0 4 /
s/^| 38 | unsound heap |.*$//
s/^| lent to a run | bytes |$/| lent | bytes |/'
mkdir -p "$work/docs"
for folder in crates examples show; do ln -s "$PWD/$folder" "$work/$folder"; done
cp docs/NUMBERS.md "$work/docs/"
while read -r edit; do
    sed "$edit" docs/FORMAT.md >"$work/docs/FORMAT.md"
    if cmp -s docs/FORMAT.md "$work/docs/FORMAT.md"; then
        flunk "this edit changes nothing: $edit"
    elif "$built/sheet" "$work" "$built/trials --serve" >/dev/null; then
        flunk "this wrong page was not found out: $edit"
    else
        pass
    fi
done <<<"$wrong"

close
