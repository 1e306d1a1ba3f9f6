#!/bin/bash
# How ./wit builds: what is asked of rt and when, what is used and what never, two at once, and what is said
# where it cannot be done. An rt of this script's own stands in for the real one: it proves nothing, copies the
# programs that are built already, and notes each call.
set -u
cd "$(dirname "$0")/.." || exit 2
# shellcheck source=tests/parts/lib.sh
. tests/parts/lib.sh
work=$(mktemp -d) || exit 2
trap 'chmod -R u+rwX "$work"; rm -rf "$work"' EXIT
chmod 755 "$work"
./wit build || flunk 'the programs are not built'

built=$PWD/crates calls=$work/calls
export built calls
mkdir "$work/bin"
cat >"$work/bin/rt" <<'END'
#!/bin/sh
# As rt: a program whose stamp is right, for what it is made from and for itself, is unchanged; otherwise it is
# proved, linked and stamped. Then it is run. Where something fails, there is no stamp.
[ "$1" = run ] || { echo stand-in; exit; }
name=$(basename "$PWD")
echo "$name" >>"$calls"
sources() { (cd .. && find . -name '*.rt' -exec sha256sum {} + | sort | sha256sum); }
stamp() { sources && sha256sum <"out/$name"; }
if [ -x "out/$name" ] && [ "$(cat "out/$name.stamp" 2>/dev/null)" = "$(stamp)" ]; then
    echo "rt: nothing has changed since the last proved build, by out/$name.stamp, so nothing is checked now"
    exec "out/$name"
fi
mkdir -p out
rm -f "out/$name.stamp"
echo "crate $name: modules loaded=1 checked=1"
case $mode in
slow) sleep 2 ;;
endless) sleep 300 ;;
edited) echo '// edited' >>../numbers/src/lib.rt ;;
esac
cp "$built/$name/out/$name" "out/$name"
if [ "$mode" = failing ]; then
    echo 'logic=not-proved'
    exit 1
fi
echo 'logic=proved functions=1'
stamp >"out/$name.stamp"
echo "rt: running out/$name; to give it other input, run that file yourself"
exec "out/$name"
END
chmod 755 "$work/bin/rt"
without_rt=$(printf '%s' "$PATH" | tr : '\n' | while read -r folder; do
    [ -x "$folder/rt" ] || printf '%s:' "$folder"
done)
line='36 2 8 0 0'

fresh() { # a clone in which nothing is built
    chmod -R u+w "$work/clone" 2>/dev/null
    rm -rf "$work/clone"
    copy_sources "$work/clone"
    chmod -R a+rX "$work/clone"
    : >"$calls"
}

# Runs the copy's ./wit on routine A; what rt does is said first.
run() { # MODE [PATH]
    mode=$1 PATH=${2:-$work/bin:$PATH} timeout 60 "${user[@]}" "$work/clone/wit" run "$work/a.routine" \
        >"$work/out" 2>"$work/said" </dev/null
    status=$?
}
user=()
cp examples/a.routine "$work/a.routine"
chmod 644 "$work/a.routine"

ends() { # WHAT STATUS OUT CALLS
    same "$1" "$3 (status $2, rt asked $4 times)" "$(cat "$work/out") (status $status, rt asked $(wc -l <"$calls" | tr -d ' ') times)"
}

says() { # WHAT PATTERN: one line of our own
    local said
    said=$(grep '^wit: ' "$work/said" | grep -v -e '^wit: building ' -e '^wit: asking ')
    # shellcheck disable=SC2053
    if [[ $said == $2 ]]; then pass; else same "$1" "$2" "$said"; fi
    same "$1: lines" 1 "$(printf '%s\n' "$said" | wc -l | tr -d ' ')"
    same "$1: columns" '' "$(awk 'length > 80' "$work/said" | grep -v -F -e "$work")"
}

echo 'tests/build.sh: nothing is built twice'
fresh
run quick
ends 'the first use' 0 "$line" 1
run quick
ends 'the second use' 0 "$line" 1
run quick "$without_rt"
ends 'rt is needed only to build' 0 "$line" 1
echo '// another line' >>"$work/clone/crates/numbers/src/lib.rt"
touch -d 2001-01-01 "$work/clone/crates/numbers/src/lib.rt"
run quick
ends 'an edit with an old date' 0 "$line" 2
find "$work/clone/crates" -exec touch {} +
run quick
ends 'new dates alone' 0 "$line" 2
echo 'another page' >"$work/clone/crates/numbers/README"
run quick
ends 'an edit that rt does not count as one' 0 "$line" 3
same 'it was not built again' 0 "$(grep -c 'building' "$work/said")"
rm "$work/clone/crates/run_routine/out/run_routine"
run quick
ends 'a program that is gone' 0 "$line" 4
echo 'echo 0 0 0 0 0' >"$work/clone/crates/run_routine/out/run_routine"
run quick
ends 'a program that is not the one that was built' 0 "$line" 5
rm -r "$work/clone/target/wit"
run quick
ends 'a program that rt built alone' 0 "$line" 6
run quick
ends 'and then no more' 0 "$line" 6
echo '// a third line' >>"$work/clone/crates/numbers/src/lib.rt"
(cd "$work/clone/crates/run_routine" && mode=quick "$work/bin/rt" run >/dev/null </dev/null && touch -d 2001-01-01 out/run_routine)
run quick
ends 'a program that rt has built anew' 0 "$line" 8
same 'it was not built again' "2001, 0" \
    "$(date -r "$work/clone/crates/run_routine/out/run_routine" +%Y), $(grep -c building "$work/said")"

echo 'tests/build.sh: what is never used'
fresh
run failing
ends 'a program whose check failed' 3 '' 1
says 'a program whose check failed' 'wit: run_routine is not used: rt run failed (target/wit/log)'
same 'it was linked all the same' yes "$([ -x "$work/clone/crates/run_routine/out/run_routine" ] && echo yes)"
run failing
ends 'the second time' 3 '' 2
run failing "$without_rt"
ends 'and without rt' 3 '' 2
says 'and without rt' "wit: run_routine is not built, and rt (of Rattle) is not on the PATH"
run quick
ends 'once its check passes' 0 "$line" 3
echo '// another line' >>"$work/clone/crates/numbers/src/lib.rt"
run failing
ends 'an edit whose check fails' 3 '' 4
run failing
ends 'an edit whose check fails, the second time' 3 '' 5
fresh
run edited
ends 'an edit during the build' 3 '' 1
says 'an edit during the build' 'wit: crates/ was changed while run_routine was being built: try again'

echo 'tests/build.sh: two at once, and an interrupted one'
fresh
for i in 1 2; do
    mode=slow PATH=$work/bin:$PATH timeout 60 "$work/clone/wit" run "$work/a.routine" >"$work/out-$i" 2>"$work/said-$i" </dev/null &
done
wait
cat "$work/out-1" "$work/out-2" >"$work/out"
status=0
ends 'two first uses at once' 0 "$line"$'\n'"$line" 1
same 'one waited for the other' 1 "$(cat "$work/said-1" "$work/said-2" | grep -c 'another ./wit is building in this clone: waiting for it')"
fresh
mode=endless PATH=$work/bin:$PATH "$work/clone/wit" run "$work/a.routine" >"$work/out" 2>"$work/said" </dev/null &
pid=$!
for _ in $(seq 100); do [ -s "$calls" ] && break || sleep 0.1; done
kill -TERM "$pid"
wait "$pid"
status=$?
ends 'an interrupted build' 3 '' 1
says 'an interrupted build' 'wit: the build was interrupted; what is proved by now will not be proved again'
run quick
ends 'the use after it' 0 "$line" 2

echo 'tests/build.sh: a clone that cannot be written'
fresh
chmod -R a-w "$work/clone"
user=("${other[@]}")
run quick
ends 'nothing is built there' 3 '' 0
says 'nothing is built there' "wit: run_routine is not built, and nothing can be written to $work/clone/target"
user=()
chmod -R u+w "$work/clone"
run quick
chmod -R a-w "$work/clone"
user=("${other[@]}")
run quick
ends 'what is built there is used' 0 "$line" 1
fresh
run quick "$without_rt"
ends 'no rt at the first use' 3 '' 0
says 'no rt at the first use' "wit: run_routine is not built, and rt (of Rattle) is not on the PATH"

close
