#!/bin/bash
# Every file of examples/ through ./wit, and the examples of the description that are run by a program:
# each answer is held to the table below.
set -u
cd "$(dirname "$0")/.." || exit 2
# shellcheck source=tests/parts/lib.sh
. tests/parts/lib.sh
work=$(mktemp -d) || exit 2
trap 'rm -rf "$work"' EXIT

# The first line that `./wit run`, or for .code `./wit run2`, prints for each file, behind its status. There is
# one for each refusal and stop that a file can cause.
expected='
a.routine                     0 36 2 8 0 0
damaged-count.routine         1 5 1
damaged-cut-off.routine       1 2 26
damaged-extra-bytes.routine   1 7 29
damaged-long-number.routine   1 3 1
damaged-set-order.routine     1 6 10
damaged-too-long.routine      1 1 0
damaged-version.routine       1 4 0
endless-output.routine        0 33 0 2000 1000 0
endless.routine               0 31 0 1000000 0 0
fill.routine                  0 0 9 16389 0 0
freed-twice.routine           0 37 3 3 0 0
no-end.routine                0 30 1 1 0 0
plots-right-list.code         0 36 8 8 0 0
plots-right-list.routine      0 36 8 8 0 0
plots-wrong-list.routine      0 0 11 11 1 0
read-outside.routine          0 34 1 1 0 0
stale-pointer.routine         0 36 11 11 3 0
stray-check.code              0 36 1 1 0 0
sum.routine                   0 32 0 0 0 0
too-large-globals.routine     1 9 0
too-many-classes.routine      1 8 0
unchecked-header.code         0 38 3 3 0 0
unchecked-outside.code        0 35 2 2 0 0
'

run() { # WHAT FILE STATUS LINE
    local got status
    case $2 in
    *.code) got=$(./wit run2 "$2" 2>"$work/said") ;;
    *) got=$(./wit run "$2" 2>"$work/said") ;;
    esac
    status=$?
    got=${got%%$'\n'*}
    same "$1" "$4 (status $3)" "$got (status $status)"
    [ "$(wc -l <"$work/said")" -ge 1 ] || flunk "$1: nothing is said on standard error"
}

# Built first, so that no answer below is mixed with what building says.
./wit build || flunk 'the programs are not built'

echo 'tests/examples.sh: the files of examples/'
for file in examples/*; do
    [ "$file" != examples/README.md ] || continue
    same "$file has a line that says what it shows" 1 "$(grep -c "^| \`$(basename "$file")\` | .* |\$" examples/README.md)"
    line=$(printf '%s' "$expected" | awk -v name="$(basename "$file")" '$1 == name')
    if [ -z "$line" ]; then
        flunk "$file stands in no line of the table"
        continue
    fi
    read -r _ status answer <<<"$line"
    run "$file" "$file" "$status" "$answer"
done
while read -r name _; do
    [ -z "$name" ] || [ -f "examples/$name" ] || flunk "examples/$name is in the table and not there"
done <<<"$expected"

while read -r number; do # a refusal's number stands behind status 1, a stop's behind 0
    case $number in [1-9]) status=1 ;; *) status=0 ;; esac
    same "there is an example for $number" yes "$(awk -v s=$status -v n="$number" '$2 == s && $3 == n { y = "yes" } END { print y }' <<<"$expected")"
done <<<"$(printf '%s\n' 1 2 3 4 5 6 7 8 9 0 30 31 32 33 34 35 36 37 38)"
same 'an example with inputs' $'0 4 4 1 2\n42' "$(./wit run examples/sum.routine 35 7 --out 2>/dev/null)"
./wit instrument examples/plots-right-list.routine -o "$work/plots" 2>/dev/null
same 'the example of version 2 is the instrumented code of its routine' \
    "$(sha256sum <examples/plots-right-list.code)" "$(sha256sum <"$work/plots")"

echo 'tests/examples.sh: instrumented code, objects and memory (examples 1 and 2)'
./wit instrument examples/a.routine -o "$work/a2" 2>/dev/null
same 'A instrumented' \
    '02030005020008000102060101070200001200020a0001030000010d0102' \
    "$(od -An -v -tx1 "$work/a2" | tr -d ' \n')"
same 'the objects, the memory and the unsafe store of A' 'object kind size class color start
0 global 5 0 2 24
1 global 8 safe 0 8
2 site - 0 2 -

from to bytes color what stands there
0 7 8 0 belongs to nothing
8 15 8 0 object 1, 8 bytes
16 23 8 0 guard
24 31 8 2 object 0, 5 bytes
32 39 8 0 guard
40 28671 28632 0 unused
28672 28679 8 1 header of the first block
28680 57335 28656 0 heap, one free body at the start
57336 57343 8 1 end slot

instruction store color objects on its list
2 WRITE8 2 0 2' "$(./wit show examples/a.routine | awk '{ $1 = $1; print }')"
same 'the run of A instrumented' '36 2 8 0 0' "$(./wit run2 "$work/a2" 2>/dev/null)"

echo 'tests/examples.sh: how much fits (examples 13 and 14), and lengths'

# Example 13: six safe globals of 4,096 and one more, and END.
globals() { # SIZE
    numbers 1 7 0 4096 0 4096 0 4096 0 4096 0 4096 0 4096 0 "$1" 0 1 0
}
globals 4080 >"$work/fits"
globals 4081 >"$work/above"
run 'globals up to 28,672' "$work/fits" 0 '0 0 0 0 0'
run 'globals one byte larger' "$work/above" 1 '9 0'

# Example 14: END, and behind it a store for each global, each with a list of that global alone.
classes() { # COUNT
    local g
    numbers 1 "$1"
    for ((g = 0; g < $1; g++)); do numbers 0 8; done
    numbers "$1"
    for ((g = 0; g < $1; g++)); do numbers 1 "$g"; done
    numbers $(($1 + 1)) 0
    for ((g = 0; g < $1; g++)); do numbers 10 0 1 "$g"; done
}
classes 254 >"$work/254"
classes 255 >"$work/255"
run '254 classes' "$work/254" 0 '0 0 0 0 0'
run '255 classes' "$work/255" 1 '8 0'
same 'the last of 254 classes has color 255' '253 global 8 253 255 4064' \
    "$(./wit show "$work/254" | awk '$2 == "global" { $1 = $1; line = $0 } END { print line }')"

# A file that is too long is refused whatever is in it, and however long it is.
head -c 16384 /dev/zero >"$work/longest"
head -c 16385 /dev/zero >"$work/longer"
head -c 1000000 /dev/zero >"$work/far-longer"
: >"$work/empty"
run 'a file of 16,384 bytes is looked at' "$work/longest" 1 '4 0'
run 'a file of 16,385 bytes' "$work/longer" 1 '1 0'
run 'a file of 1,000,000 bytes' "$work/far-longer" 1 '1 0'
run 'the empty file' "$work/empty" 1 '2 0'

close
