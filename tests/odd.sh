#!/bin/bash
# ./wit in odd surroundings: standard input that is closed, a pipe, a socket or part read, output that cannot
# be written, OUT that must not be lost, folders that cannot be entered. Each status tells the truth.
set -u
cd "$(dirname "$0")/.." || exit 2
# shellcheck source=tests/parts/lib.sh
. tests/parts/lib.sh
work=$(mktemp -d) || exit 2
trap 'umount "$work/disk" 2>/dev/null; chmod -R u+rwX "$work"; rm -rf "$work"' EXIT
chmod 755 "$work"
./wit build || flunk 'the programs are not built'
a=examples/a.routine line='36 2 8 0 0'

# Standard output, what is said and the status of a command that may take at most 20 seconds.
try() { # COMMAND..: with its redirections already done by the caller
    timeout 20 "$@" >"$work/out" 2>"$work/said"
    status=$?
    out=$(cat "$work/out") said=$(cat "$work/said")
}

ends() { # WHAT STATUS OUT
    same "$1" "$3 (status $2)" "$out (status $status)"
}

says() { # WHAT PATTERN: one line on standard error
    # shellcheck disable=SC2053
    if [[ $said == $2 ]]; then pass; else same "$1" "$2" "$said"; fi
    same "$1: lines" 1 "$(printf '%s\n' "$said" | wc -l | tr -d ' ')"
}

echo 'tests/odd.sh: standard input as it is'
for command in run show run2 'instrument -o -'; do
    # shellcheck disable=SC2086
    try ./wit $command - <&-
    ends "$command with standard input closed" 2 ''
    says "$command with standard input closed" 'wit: standard input is closed *'
done
try ./wit run - </
ends 'a folder as standard input' 2 ''
# shellcheck disable=SC2002
cat "$a" | { try ./wit run - && ends 'a pipe' 0 "$line" && printf '%s %s\n' $passed $failed >"$work/count"; }
read -r passed failed <"$work/count"
{ printf 'xyz' && cat "$a"; } >"$work/behind"
{
    dd bs=1 count=3 of=/dev/null 2>/dev/null
    try ./wit run -
    ends 'a descriptor that is part read' 0 "$line"
} <"$work/behind"
cat >"$work/socket.pl" <<'END'
use Socket;
socketpair(my $ours, my $theirs, AF_UNIX, SOCK_STREAM, 0) or die;
open(my $file, "<", shift) or die;
local $/;
syswrite($ours, <$file>);
shutdown($ours, 1);
open(STDIN, "<&", $theirs) or die;
exec @ARGV;
END
try perl "$work/socket.pl" "$a" ./wit run -
ends 'a socket' 0 "$line"
copy_clone "$work/clone"
cp "$a" "$work/secret"
{
    chmod 000 "$work/secret"
    try "${other[@]}" "$work/clone/wit" run -
    ends 'a file that may not be opened, handed over open' 0 "$line"
} <"$work/secret"
try ./wit run "$a" <&-
ends 'a file, with standard input closed' 0 "$line"

echo 'tests/odd.sh: what cannot be written is a failure'
for command in "run $a" "run examples/sum.routine 1 2 --out" "show $a" "instrument $a -o -" help 'explain 36' words --version \
    "show $a --html -"; do
    # shellcheck disable=SC2086
    timeout 20 ./wit $command >/dev/full 2>"$work/said"
    same "$command to a full device" 3 $?
    # shellcheck disable=SC2086
    timeout 20 ./wit $command >&- 2>"$work/said"
    same "$command with standard output closed" 3 $?
    same "$command with standard output closed: said" 'wit: standard output cannot be written' "$(cat "$work/said")"
done
timeout 20 ./wit run "$a" >"$work/out" 2>&-
status=$?
same 'a run with standard error closed' "$line (status 0)" "$(cat "$work/out") (status $status)"
timeout 20 ./wit run examples/damaged-version.routine >"$work/out" 2>&-
same 'a refusal with standard error closed' 1 $?
timeout 20 ./wit instrument "$a" -o "$work/quiet" 2>&-
status=$?
same 'instrument with standard error closed' '0, 30 bytes' "$status, $(wc -c <"$work/quiet" | tr -d ' ') bytes"

echo 'tests/odd.sh: OUT is the old file or the whole new one'
cp "$a" "$work/own"
try ./wit instrument "$work/own" -o "$work/own"
says 'OUT is FILE' "wit: $work/own is the routine itself *"
ln -s own "$work/link"
try ./wit instrument "$work/own" -o "$work/link"
says 'OUT is a link to FILE' "wit: $work/link is the routine itself *"
try ./wit instrument - -o "$work/own" <"$work/own"
says 'OUT is standard input' "wit: $work/own is the routine itself *"
same 'the routine is as it was' "$(sha256sum <"$a")" "$(sha256sum <"$work/own")"
timeout 20 ./wit instrument "$a" -o - >"$work/piped" 2>/dev/null
timeout 20 ./wit instrument "$a" -o "$work/named" 2>/dev/null
same '-o - is standard output' "$(sha256sum <"$work/named")" "$(sha256sum <"$work/piped")"
echo kept >"$work/target"
chmod 640 "$work/target"
ln -s target "$work/to-target"
try ./wit instrument "$a" -o "$work/to-target"
same 'a link stays a link' "$(sha256sum <"$work/named") 640 yes" \
    "$(sha256sum <"$work/target") $(stat -c %a "$work/target") $([ -L "$work/to-target" ] && echo yes)"
(umask 027 && timeout 20 ./wit instrument "$a" -o "$work/masked" 2>/dev/null)
same 'a new file has the mode that the mask gives' 640 "$(stat -c %a "$work/masked")"
same 'nothing is left behind' '' "$(find "$work" -maxdepth 1 -name '.wit.*')"
# A cat that writes a part of the code and fails, as on a full disk.
mkdir "$work/bin"
printf '#!/bin/sh\ncase $1 in */code) head -c 10 "$1"; exit 1 ;; esac\nexec %s "$@"\n' "$(command -v cat)" >"$work/bin/cat"
chmod +x "$work/bin/cat"
echo kept >"$work/old"
PATH="$work/bin:$PATH" try ./wit instrument "$a" -o "$work/old"
same 'OUT after a write that failed' 'kept (status 3)' "$(cat "$work/old") (status $status)"
says 'a write that failed' "wit: $work/old cannot be written, and is as it was"
same 'nothing is left behind by it' '' "$(find "$work" -maxdepth 1 -name '.wit.*')"
mkdir "$work/disk"
if mount -t tmpfs -o size=4k none "$work/disk" 2>/dev/null; then
    { numbers 1 0 0 1000 && for _ in $(seq 1000); do numbers 1 0 4294967295; done; } >"$work/long"
    echo kept >"$work/disk/old"
    try ./wit instrument "$work/long" -o "$work/disk/old"
    same 'OUT on a full disk' 'kept (status 3)' "$(cat "$work/disk/old") (status $status)"
else
    echo 'tests/odd.sh: no disk could be mounted here, so a full one was only imitated'
fi

echo 'tests/odd.sh: a clone and a folder for drafts elsewhere'
copy_clone "$work/a clone"
try "$work/a clone/wit" run "$a"
ends 'a clone with a blank in its name' 0 "$line"
ln -s "$work/a clone/wit" "$work/command"
try "$work/command" show "$a"
same 'the command by a link' "$(./wit show "$a")" "$out"
TMPDIR=$work/nowhere try ./wit show "$a"
ends 'no folder for drafts' 3 ''
says 'no folder for drafts' "wit: no temporary folder can be made in $work/nowhere"

echo 'tests/odd.sh: folders that cannot be entered'
mkdir -p "$work/closed/in"
cp "$a" "$work/closed/in/a.routine"
chmod 600 "$work/closed"
try "${other[@]}" "$work/clone/wit" run "$work/closed/in/a.routine"
ends 'a file in a folder that cannot be entered' 2 ''
says 'a file in a folder that cannot be entered' \
    "wit: $work/closed/in/a.routine: the folder $work/closed cannot be entered *"

echo 'tests/odd.sh: a script can tell a finished run from a stopped one'
while read -r name status_wanted words; do
    # shellcheck disable=SC2086
    try ./wit $words "examples/$name" --strict
    same "$words $name --strict" "$status_wanted" "$status"
done <<'END'
fill.routine 0 run
no-end.routine 30 run
endless.routine 31 run
sum.routine 32 run
endless-output.routine 33 run
read-outside.routine 34 run
unchecked-outside.code 35 run2
a.routine 36 run
freed-twice.routine 37 run
unchecked-header.code 38 run2
damaged-version.routine 1 run
END

close
