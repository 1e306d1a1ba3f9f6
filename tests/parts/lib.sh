# What the test scripts share: counting, comparing, and the closing line. It is read by them, not run.
# shellcheck shell=bash
passed=0 failed=0

pass() { passed=$((passed + 1)); }

flunk() { # WHAT
    failed=$((failed + 1))
    printf 'FAILED: %s\n' "$1"
}

same() { # WHAT EXPECTED GOT
    if [ "$2" = "$3" ]; then
        pass
    else
        flunk "$1"
        printf '  expected: %s\n  got:      %s\n' "$2" "$3"
    fi
}

# The last line of a script; its status says whether all passed.
close() {
    printf '%s passed, %s failed\n' "$passed" "$failed"
    [ "$failed" -eq 0 ]
}

# A number in groups of seven bits, low group first, for each argument.
numbers() {
    local n escape
    for n in "$@"; do
        while [ "$n" -ge 128 ]; do
            printf -v escape '\\x%02x' $((n % 128 + 128))
            # shellcheck disable=SC2059
            printf "$escape"
            n=$((n / 128))
        done
        printf -v escape '\\x%02x' "$n"
        # shellcheck disable=SC2059
        printf "$escape"
    done
}

# The command and what it builds from, with nothing built.
copy_sources() { # FOLDER
    mkdir -p "$1"
    cp -R wit show docs VERSION crates.txt examples "$1/"
    tar -c --exclude='crates/*/out' crates | tar -x -C "$1"
}

# A copy of the command with its built programs, in which a test may break what it likes and which any user
# can reach.
copy_clone() { # FOLDER
    local program
    copy_sources "$1"
    for program in crates/*/src/main.rt; do
        program=${program%/src/main.rt}
        program=${program#crates/}
        [ -s "crates/$program/out/$program.stamp" ] || continue
        mkdir "$1/crates/$program/out"
        cp -p "crates/$program/out/$program" "crates/$program/out/$program.stamp" "$1/crates/$program/out/"
    done
    mkdir "$1/target"
    cp -R target/wit "$1/target/"
    chmod -R a+rX "$1"
}

# The words that run a command as a user who is not root.
other=()
if [ "$(id -u)" -eq 0 ]; then other=(setpriv --reuid=65534 --regid=65534 --clear-groups); fi
