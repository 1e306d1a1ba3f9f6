#!/bin/bash
# Puts small faults into a copy of this implementation, one at a time, and counts those that the gate's
# 20,000 cases see: 10,000 from seed 1 and 10,000 from another. A fault is seen if the copy answers a case
# otherwise than the sound program, ends, or hangs. faults.txt has the faults; `faults.sh 7 12` tries only
# those. It takes a core for a quarter of an hour.
set -u
cd "$(dirname "$0")" || exit 2
root=$PWD work=$PWD/target/faults cases=10000 seeds='1 2'
# Quick to build rather than quick to run.
export CARGO_PROFILE_RELEASE_OPT_LEVEL=1 CARGO_PROFILE_RELEASE_CODEGEN_UNITS=16
export CARGO_PROFILE_RELEASE_INCREMENTAL=true

fail() {
    printf 'faults.sh: %s\n' "$1" >&2
    exit 2
}

build() { # builds the copy
    (cd "$work/copy" && CARGO_TARGET_DIR=$work/built nice cargo build --release --offline -j1 --quiet --bin trials) \
        >"$work/log" 2>&1
}

# Whether some case is answered otherwise.
is_seen() {
    local seed
    for seed in $seeds; do
        timeout 60 nice "$work/built/release/trials" --serve <"$work/cases-$seed" 2>/dev/null |
            cmp -s - "$work/answers-$seed" || return 0
    done
    return 1
}

prepare() {
    local seed
    rm -rf "$work/copy"
    mkdir -p "$work/copy"
    cp -R Cargo.toml Cargo.lock src "$work/copy" || fail 'no copy can be made'
    build || fail "the sound program is not built: see $work/log"
    for seed in $seeds; do
        "$work/built/release/trials" --emit --cases $cases --seed "$seed" >"$work/cases-$seed" &&
            "$work/built/release/trials" --serve <"$work/cases-$seed" >"$work/answers-$seed" ||
            fail 'the sound program does not answer'
    done
    if is_seen; then fail 'the sound program does not answer twice the same'; fi
}

# Puts the fault into the copy. Its old text stands exactly once in the file.
put() { # FILE OLD NEW
    local text rest
    text=$(cat "$root/src/$1" && printf x) || return 1
    rest=${text/"$2"/}
    if [ "$rest" = "$text" ] || [ "${rest/"$2"/}" != "$rest" ]; then return 1; fi
    text=${text/"$2"/"$3"}
    printf '%s' "${text%x}" >"$work/copy/src/$1"
}

tried=0 seen=0 number=0 wanted=" $* "
try() { # FILE OLD NEW
    local verdict=unseen
    number=$((number + 1))
    if [ "$wanted" != '  ' ] && [ "${wanted/" $number "/}" = "$wanted" ]; then return; fi
    tried=$((tried + 1))
    if ! put "$1" "$2" "$3"; then
        fail "fault $number: its old text does not stand once in $1"
    elif ! build; then
        fail "fault $number: it does not build, see $work/log"
    elif is_seen; then
        verdict=seen seen=$((seen + 1))
    fi
    cp "$root/src/$1" "$work/copy/src/$1"
    printf '%4s %-6s %s: %s -> %s\n' "$number" "$verdict" "$1" "$2" "$3"
}

prepare
file='' old=''
while IFS= read -r line; do
    case $line in
    'file: '*) file=${line#file: } ;;
    'old: '*) old=${line#old: } ;;
    'new: '*) try "$file" "$old" "${line#new: }" ;;
    esac
done <faults.txt
printf '%s faults, %s seen, %s unseen\n' "$tried" "$seen" "$((tried - seen))"
