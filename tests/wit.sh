#!/bin/bash
# ./wit as a person uses it: what goes to standard output and what to standard error, statuses, and mistakes
# in use, each of which gets one line.
set -u
cd "$(dirname "$0")/.." || exit 2
# shellcheck source=tests/parts/lib.sh
. tests/parts/lib.sh
work=$(mktemp -d) || exit 2
trap 'rm -rf "$work"' EXIT

wit() { # WHAT STATUS OUT SAID WORDS..: SAID is a pattern for all of standard error
    local what=$1 status=$2 out=$3 said=$4 got heard
    shift 4
    ./wit "$@" >"$work/out" 2>"$work/said" </dev/null
    got=$?
    same "$what: status" "$status" "$got"
    same "$what: standard output" "$out" "$(cat "$work/out")"
    heard=$(sed 's/^     *//' "$work/said" | tr '\n' ' ') # what is folded, in one line
    heard=${heard% }
    same "$what: columns" '' "$(awk 'length > 80' "$work/said" | grep -v -F -e "$work")"
    # shellcheck disable=SC2053
    if [[ $heard == $said ]]; then pass; else same "$what: standard error" "$said" "$heard"; fi
}

mistake() { # WHAT SAID WORDS..: one line on standard error, status 2
    local what=$1 said=$2
    shift 2
    wit "$what" 2 '' "wit: $said (./wit help)" "$@"
    same "$what: lines" 1 "$(wc -l <"$work/said" | tr -d ' ')"
}

# Built first, so that no answer below is mixed with what building says.
./wit build || flunk 'the programs are not built'

echo 'tests/wit.sh: what a run means'
a=examples/a.routine
wit 'a store that is stopped' 0 '36 2 8 0 0' \
    'wit: stopped after 8 steps: the store at instruction 2 aimed outside the objects on its list; nothing of it was written' run "$a"
wit 'a run that ends' 0 '0 9 16389 0 0' 'wit: finished after 16389 steps: END at instruction 9 was reached' run examples/fill.routine
wit 'a refusal' 1 '2 26' 'wit: refused: the file ends early, after 26 bytes' run examples/damaged-cut-off.routine
same 'a routine on standard input' '36 2 8 0 0' "$(./wit run - <"$a" 2>/dev/null)"
(cd / && "$OLDPWD/wit" run "$OLDPWD/$a") >"$work/out" 2>/dev/null
same 'from another folder' '36 2 8 0 0' "$(cat "$work/out")"

echo 'tests/wit.sh: inputs and outputs'
# IN 0, IN 1, ADD 2 0 1, OUT 2, LOAD32 3 2, JUMP 0
numbers 2 0 6 16 0 16 1 3 2 0 1 17 2 7 3 2 12 0 >"$work/adds"
wit 'inputs are taken and numbers put out' 0 $'32 0 6 1 2\n42' \
    'wit: stopped after 6 steps: instruction 0 asked for an input number and there was none left; 1 number put out; 2 numbers taken in' \
    run2 "$work/adds" 35 7
wit 'the largest input' 0 $'32 0 6 1 2\n4' '*' run2 "$work/adds" 4294967295 5
wit 'a read outside memory' 0 $'34 4 4 1 2\n57341' 'wit: stopped after 4 steps: the read at instruction 4 lies outside memory; *' \
    run2 "$work/adds" 57341 0
wit 'zeros in front' 0 $'32 0 6 1 2\n42' '*' run2 "$work/adds" 0000000000000000000035 007
wit 'a version 1 file is no version 2 file' 1 '4 0' 'wit: refused: the version at byte 0 is not 2; ./wit run runs version 1' run2 "$a"
wit 'a version 2 file is no version 1 file' 1 '4 0' 'wit: refused: the version at byte 0 is not 1; ./wit run2 runs version 2' \
    run "$work/adds"
wit 'a check that stands before no store' 0 '36 1 1 0 0' \
    'wit: stopped after 1 step: the check before instruction 1 met a byte outside memory or of another color than its own' \
    run2 examples/stray-check.code

echo 'tests/wit.sh: inputs, limit and room of a routine'
sum=examples/sum.routine
wit 'a routine with inputs' 0 '0 4 4 1 2' 'wit: finished after 4 steps: END at instruction 4 was reached; 1 number put out; 2 numbers taken in' \
    run "$sum" 35 7
wit 'and the numbers it puts out' 0 $'0 4 4 1 2\n42' '*' run "$sum" 35 7 --out
wit 'options before the file' 0 $'0 4 4 1 2\n42' '*' run --out "$sum" 35 7
wit 'the story of the readme' 0 $'0 11 11 1 0\n5333' '*' run examples/plots-wrong-list.routine --out
wit 'a limit' 0 '31 2 8 0 0' 'wit: stopped after 8 steps: the limit was used up before instruction 2' run "$a" --limit 8
wit 'a limit of nothing' 0 '31 0 0 0 0' '*' run "$a" --limit 0
wit 'a larger limit' 0 '31 0 2000000 0 0' '*' run examples/endless.routine --limit 2000000
wit 'a room' 0 $'33 0 6 3 0\n0\n0\n0' 'wit: stopped after 6 steps: instruction 0 put out a number and there was no room left for it; 3 numbers put out' \
    run examples/endless-output.routine --room 3 --out
wit 'a room of nothing' 0 '33 0 0 0 0' '*' run examples/endless-output.routine --room 0
wit 'the largest room' 0 '33 0 131072 65536 0' '*' run examples/endless-output.routine --room 65536
wit 'a refusal with inputs' 1 '4 0' 'wit: refused: *' run examples/damaged-version.routine 7 --out
wit 'limit and room of instrumented code' 0 $'33 3 3 0 2' '*' run2 "$work/adds" 35 7 --room 0
wit 'limit of instrumented code' 0 $'31 3 3 0 2' '*' run2 "$work/adds" 35 7 --limit 3
for file in examples/*.routine; do # both programs say the same of a routine with no input
    same "$file through either program" "$(./wit run "$file" 2>&1)" "$(./wit run "$file" --limit 1000000 2>&1)"
done

echo 'tests/wit.sh: instrumenting and showing'
wit 'instrument' 0 '' "wit: $work/a2: 30 bytes of instrumented code" instrument "$a" -o "$work/a2"
wit 'instrument, -o first' 0 '' '*: 30 bytes *' instrument -o "$work/a2" "$a"
echo kept >"$work/kept"
wit 'a refused routine writes nothing' 1 '' 'wit: refused: *' instrument examples/damaged-version.routine -o "$work/kept"
same 'the file is as it was' kept "$(cat "$work/kept")"
wit 'show of a refused routine' 1 '4 0' 'wit: refused: the version at byte 0 is not 1' show examples/damaged-version.routine
numbers 1 0 0 1 0 >"$work/none"
./wit show "$work/none" >"$work/out" 2>"$work/said"
same 'show of a routine with no objects' 'it has no objects it has no unsafe store' \
    "$(grep '^it has' "$work/out" | tr '\n' ' ' | sed 's/ $//')"
same 'show of version 2 is that of its routine' \
    "$(./wit show examples/plots-right-list.routine | sed 's/objects on its list/objects of that color/')" \
    "$(./wit show examples/plots-right-list.code)"
same 'show of a file on standard input' "$(./wit show "$a")" "$(./wit show - <"$a")"
for file in examples/*; do
    case $file in *.md) continue ;; esac
    same "show $file: columns" '' "$(./wit show "$file" 2>&1 | awk 'length > 80')"
done
# Stores without a check, a check without a store, and a PUT past its global.
same 'a store without a check' '2 WRITE8 - any' "$(./wit show examples/unchecked-outside.code | awk 'END { $1 = $1; print }')"
same 'a check without a store' '1 check 3 none' "$(./wit show examples/stray-check.code | awk 'END { $1 = $1; print }')"
numbers 1 2 0 5 0 8 0 3 8 1 7 0 9 0 5 0 0 >"$work/put"
same 'a PUT past its global is unsafe, and one inside is not' '1 PUT32 2 0' \
    "$(./wit show "$work/put" | awk '/PUT/ { $1 = $1; print }')"

echo 'tests/wit.sh: the picture'
wit 'show --html' 0 '' "wit: $work/page.html: open it in a browser" show examples/plots-right-list.routine --html "$work/page.html"
page=$work/page.html
same 'one page' '<!DOCTYPE html> </html>' "$(sed -n '1p;$p' "$page" | tr '\n' ' ' | sed 's/ $//')"
same 'each row of memory, and three stores' '10 3' "$(grep -c ' bytes</text>' "$page") $(grep -c 'WRITE32 at instruction' "$page")"
same 'the stop is marked once' 1 "$(grep -c 'stopped here, 36' "$page")"
same 'it is marked at the store that was stopped' 'WRITE32 at instruction 8' \
    "$(grep -B 2 'stopped here' "$page" | sed -n 's/.*>\(WRITE32[^<]*\)<.*/\1/p')"
same 'it needs nothing from elsewhere' 0 "$(grep -v 'xmlns=' "$page" | grep -c -E 'https?:|<script|<link|url\([^#]')"
same 'the picture in README' "$(cat docs/plots-right-list.svg)" "$(sed -n '/<svg/,/<\/svg>/p' "$page")"
./wit show "$sum" 1 2 --html - >"$work/sum.html" 2>/dev/null
same 'the picture of a run with inputs' 1 "$(grep -c 'END at instruction 4: finished here' "$work/sum.html")"
./wit show "$sum" --html - 2>/dev/null >"$work/sum.html"
same 'the picture of a run without' 1 "$(grep -c 'stopped here, 32' "$work/sum.html")"
cp "$a" "$work/<b>&\\n.routine"
./wit show "$work/<b>&\\n.routine" --html - 2>/dev/null >"$work/odd.html"
same 'a name that is no markup' 1 "$(grep -c -F '<title>&lt;b&gt;&amp;\n.routine</title>' "$work/odd.html")"

echo 'tests/wit.sh: mistakes in use'
mistake 'nothing to do' 'say what to do'
mistake 'no such command' "'jog' is not a command" jog
mistake 'build with a word behind it' 'build wants nothing behind it' build run
mistake 'run with no file' 'run wants a file, and then its inputs' run
mistake 'run with two files' "the input '$a' is no decimal number" run "$a" "$a"
mistake 'an option that is not there' 'run knows no --fast' run "$a" --fast
mistake 'an option of another command' 'show knows no --strict' show "$a" --strict
mistake 'a limit that is no number' "the limit 'x' is no decimal number" run "$a" --limit x
mistake 'no limit behind --limit' 'run wants a number after --limit' run "$a" --limit
mistake 'a limit that is too large' 'the limit 4294967296 is above 4294967295' run "$a" --limit 4294967296
mistake 'a room that is too large' 'the room 65537 is above 65536' run "$a" --room 65537
mistake 'show with an input and no picture' 'inputs, --limit and --room go with --html' show "$a" 1
mistake 'a picture over the file' "$work/adds is the file itself" show "$work/adds" --html "$work/adds"
mistake 'explain of what is no number' '12 is no refusal (1 to 11) and no stop (0, 30 to 38)' explain 12
mistake 'explain of nothing' 'explain wants a number: 0 to 11 or 30 to 38' explain
mistake 'help of no command' "'jog' is not a command" help jog
mistake 'run of a file that is not there' 'nowhere: there is no such file' run nowhere
mistake 'run of a folder' 'examples is not a file' run examples
mistake 'show with no file' 'show wants one file' show
mistake 'instrument with no file' 'instrument wants a file' instrument -o "$work/a2"
mistake 'instrument with no -o' 'instrument wants -o OUT, the file to write' instrument "$a"
mistake 'instrument with nothing behind -o' 'instrument wants a name after -o' instrument "$a" -o
mistake 'instrument into a folder' "$work is a folder" instrument "$a" -o "$work"
mistake 'instrument where nothing can be written' "$work/nowhere/a2 cannot be written" instrument "$a" -o "$work/nowhere/a2"
mistake 'run2 with no file' 'run2 wants a file, and then its inputs' run2
mistake 'an input that is no number' "the input '7x' is no decimal number" run2 "$work/adds" 7x
mistake 'an input that is negative' "the input '-1' is no decimal number" run2 "$work/adds" -1
mistake 'an input that is too large' 'the input 4294967296 is above 4294967295' run2 "$work/adds" 4294967296
mistake 'an input that is far too large' 'the input 18446744073709551617 is above 4294967295' \
    run2 "$work/adds" 18446744073709551617
mistake 'an input that is too long' 'the input has more than 64 digits' run2 "$work/adds" "$(printf '%065d' 7)"
mistake 'too many inputs' 'at most 1000 inputs can be given' run2 "$work/adds" $(seq 1001)

echo 'tests/wit.sh: help, numbers and words, in 80 columns'
./wit help >"$work/out" 2>"$work/said"
same 'help: status' 0 $?
same 'help: standard error' '' "$(cat "$work/said")"
same 'help names every command' 9 "$(grep -c -E '\./wit (run|instrument|show|run2|explain|words|build|help) ' "$work/out")"
for command in run run2 instrument show explain words build; do
    text=$(./wit $command --help)
    same "$command --help" "use: ./wit $command" "$(printf '%s\n' "$text" | sed -n "1s/^\(use: .\/wit $command\).*/\1/p")"
    same "help $command is the same" "$text" "$(./wit help $command)"
    same "help $command: columns" '' "$(printf '%s\n' "$text" | awk 'length > 80')"
done
same 'help: columns' '' "$(awk 'length > 80' "$work/out")"
for n in 0 1 2 3 4 5 6 7 8 9 10 11 30 31 32 33 34 35 36 37 38; do
    text=$(./wit explain $n)
    same "explain $n" "$n: " "$(printf '%s\n' "$text" | sed -n "1s/^\($n: \).*/\1/p")"
    same "explain $n: lines and columns" 'yes ' \
        "$([ "$(printf '%s\n' "$text" | wc -l)" -ge 3 ] && echo yes) $(printf '%s\n' "$text" | awk 'length > 80')"
done
for word in list set place step class color guard extent; do
    same "words has $word" 1 "$(./wit words | grep -c -E "^([a-z]+, )?$word( |,)")"
done
same 'words: columns' '' "$(./wit words | awk 'length > 80')"
same 'the version' "toltjebrim $(cat VERSION)" "$(./wit --version)"
# README's samples: a line `    $ ./wit ..` and below it what it prints and says.
while IFS= read -r command; do
    # shellcheck disable=SC2086
    same "the sample of README: $command" "$(awk -v c="    \$ $command" '
        on && /^([^ ]|    \$)/ { exit }
        on { print substr($0, 5) }
        $0 == c { on = 1 }' README.md)" "$($command 2>&1)"
done <<<"$(sed -n 's/^    \$ //p' README.md)"
same 'README has samples' 3 "$(grep -c '^    \$ ./wit ' README.md)"
same 'the changelog has the version' 1 "$(grep -c "^## $(cat VERSION)" CHANGELOG.md)"

close
