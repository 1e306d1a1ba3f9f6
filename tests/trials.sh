#!/bin/bash
# The proved layers against the independent implementation in rust/: cases from a fixed seed and from a fresh
# one, each answer held to the Rust one. `--cases N` puts N cases of a fresh seed instead.
set -u
cd "$(dirname "$0")/.." || exit 2
# shellcheck source=tests/parts/lib.sh
. tests/parts/lib.sh

cases=10000 seeds='1 fresh'
case ${1:-} in
'') ;;
--cases)
    case ${2:-} in
    '' | *[!0-9]*)
        echo 'use: tests/trials.sh [--cases N]' >&2
        exit 2
        ;;
    esac
    cases=$2 seeds=fresh
    ;;
*)
    echo 'use: tests/trials.sh [--cases N]' >&2
    exit 2
    ;;
esac

echo 'tests/trials.sh: building the trials (rust/)'
trials=rust/target/release/trials
if command -v cargo >/dev/null; then
    (cd rust && cargo build --release --offline -j2 --quiet --bin trials) || flunk 'the trials are not built'
else
    trials=rust/target/plain/trials
    rust/build.sh || flunk 'the trials are not built'
fi

echo 'tests/trials.sh: building the program that answers'
./wit program answer_trials </dev/null || flunk 'answer_trials is not built'

if [ "$failed" -eq 0 ]; then
    echo 'tests/trials.sh: the small cases that rt runs answer_trials on'
    small=crates/answer_trials
    same 'the cases in stdin' "$(sha256sum <$small/stdin)" "$(tests/parts/small-cases.sh | sha256sum)"
    same 'the answers in stdout' "$(sha256sum <$small/stdout)" "$("$trials" --serve <$small/stdin | sha256sum)"
    for seed in $seeds; do
        echo "tests/trials.sh: $cases cases, seed $seed"
        if "$trials" --program './wit program answer_trials' --cases "$cases" --seed "$seed" 2>&1; then
            pass
        else
            flunk "the trials with seed $seed"
        fi
    done
fi

close
